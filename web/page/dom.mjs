// Small helpers for elements. All text that comes from outside goes through them as text, never as HTML.

export const element = (id) => document.getElementById(id);

/** An element with properties, attributes (by names with a hyphen, or `role`) and children; texts may be children. */
export function made(tag, properties = {}, ...children) {
  const node = document.createElement(tag);
  for (const [name, value] of Object.entries(properties)) {
    if (name.includes("-") || name === "role") node.setAttribute(name, value);
    else node[name] = value;
  }
  node.append(...children);
  return node;
}

export const grouped = (number) => number.toLocaleString("en-US");
export const counted = (number, one, many = `${one}s`) => `${grouped(number)} ${number === 1 ? one : many}`;

/** A size in words. */
export const sized = (bytes) => (bytes < 1024 ? counted(bytes, "byte") : `${(bytes / 1024).toFixed(1)} KB`);

const encoder = new TextEncoder();
const decoder = new TextDecoder("utf-8", { ignoreBOM: true });
export const bytesOf = (text) => encoder.encode(text);
export const textOf = (bytes) => decoder.decode(bytes);

/** Control characters other than tab and line feed as their pictures, so that an output can't hide anything. */
export function pictured(text) {
  return text.replace(/[\0-\x08\x0b-\x1f\x7f]/g, (letter) => String.fromCharCode(letter === "\x7f" ? 0x2421 : 0x2400 + letter.charCodeAt(0)));
}

/** Calls `action` once nothing has asked for it for so many milliseconds. */
export function delayed(action, milliseconds) {
  let timer = null;
  return () => {
    clearTimeout(timer);
    timer = setTimeout(action, milliseconds);
  };
}

/** Offers bytes or a text as a file to be saved. */
export function save(name, content, type = "application/octet-stream") {
  const address = URL.createObjectURL(new Blob([content], { type }));
  const link = made("a", { href: address, download: name });
  link.click();
  setTimeout(() => URL.revokeObjectURL(address), 60_000);
}

/** Makes a list of tabs out of buttons with `role="tab"`: arrows, Home and End move between them. */
export function tabKeys(list, choose) {
  list.addEventListener("keydown", (event) => {
    const tabs = [...list.querySelectorAll("[role=tab]:not([hidden])")];
    const at = tabs.indexOf(event.target.closest("[role=tab]"));
    const to = { ArrowLeft: at - 1, ArrowRight: at + 1, Home: 0, End: tabs.length - 1 }[event.key];
    if (at < 0 || to === undefined) return;
    event.preventDefault();
    const tab = tabs[(to + tabs.length) % tabs.length];
    choose(tab);
    tab.focus();
  });
}
