"""What a page must not look like, as expressions of JavaScript whose values are lists of what is wrong. `shown(node)` must be defined."""

SHOWN = "const shown = (node) => node.checkVisibility() && node.getClientRects().length > 0;"
NAMELESS = r"""
[...document.querySelectorAll('button, input, select, textarea, iframe, a[href]')].filter((node) => shown(node)).filter((node) => {
  const label = node.getAttribute('aria-label') || node.title || node.textContent.trim() || [...(node.labels ?? [])].map((it) => it.textContent.trim()).join('');
  return !label;
}).map((node) => node.outerHTML.slice(0, 100))
"""
WIDE = r"""
[...(document.documentElement.scrollWidth > innerWidth ? ['the page'] : []), ...[...document.querySelectorAll('button, select, input, h1, p, label')].filter(shown)
  .filter((node) => !node.closest('[role=tablist], #listing, #new, .table, #page-text pre, dialog'))
  .filter((node) => node.getBoundingClientRect().right > innerWidth + 1).map((node) => node.outerHTML.slice(0, 80))].slice(0, 4)
"""
CONTRAST = r"""
(() => {
  const light = (parts) => { const linear = parts.slice(0, 3).map((part) => part / 255).map((part) => (part <= 0.04045 ? part / 12.92 : ((part + 0.055) / 1.055) ** 2.4));
    return 0.2126 * linear[0] + 0.7152 * linear[1] + 0.0722 * linear[2]; };
  const canvas = new OffscreenCanvas(1, 1).getContext('2d', { willReadFrequently: true });
  const parse = (colour) => { canvas.clearRect(0, 0, 1, 1); canvas.fillStyle = colour; canvas.fillRect(0, 0, 1, 1); return [...canvas.getImageData(0, 0, 1, 1).data]; };
  const ground = (node) => { for (let at = node; at; at = at.parentElement) { const parts = parse(getComputedStyle(at).backgroundColor); if (parts[3] > 250) return light(parts); } return 1; };
  const texts = document.createTreeWalker(document.body, NodeFilter.SHOW_TEXT); const found = [];
  while (texts.nextNode()) { const node = texts.currentNode.parentElement;
    if (!texts.currentNode.data.trim() || !shown(node) || node.closest('textarea, :disabled, script, [hidden]')) continue;
    const pair = [light(parse(getComputedStyle(node).color)), ground(node)].sort((one, other) => one - other);
    const ratio = (pair[1] + 0.05) / (pair[0] + 0.05); if (ratio < 4.5) found.push([ratio.toFixed(2), node.outerHTML.slice(0, 80)]); }
  return found.slice(0, 4);
})()
"""
