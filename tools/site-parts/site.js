// The site's own script: the menu, dark and light, copying of code, and a search over search-index.js, which is loaded when it is first needed.
(function () {
  "use strict";
  const root = document.documentElement, base = root.dataset.root;

  // ---- Dark and light
  const button = document.querySelector(".theme");
  function kept() { try { return localStorage.getItem("theme"); } catch (_) { return null; } }
  function isDark() { return (root.dataset.theme || (matchMedia("(prefers-color-scheme: dark)").matches ? "dark" : "light")) === "dark"; }
  function label() { button.textContent = isDark() ? "Light" : "Dark"; }
  if (kept()) root.dataset.theme = kept();
  label();
  button.addEventListener("click", function () {
    root.dataset.theme = isDark() ? "light" : "dark";
    try { localStorage.setItem("theme", root.dataset.theme); } catch (_) { /* it holds for this page only */ }
    label();
  });

  // ---- The menu on narrow screens
  const menu = document.querySelector(".menu"), side = document.getElementById("side");
  menu.addEventListener("click", function () { menu.setAttribute("aria-expanded", side.classList.toggle("open")); });
  const current = side.querySelector("[aria-current]");
  if (current && current.offsetTop > side.clientHeight - 60) side.scrollTop = current.offsetTop - side.clientHeight / 3;

  // ---- Copying: of a terminal only the commands
  document.querySelectorAll("figure.code").forEach(function (figure) {
    const copy = document.createElement("button");
    copy.type = "button"; copy.className = "copy"; copy.textContent = "Copy";
    copy.addEventListener("click", function () {
      const commands = Array.from(figure.querySelectorAll(".gs"), function (part) { return part.textContent.trimEnd(); });
      navigator.clipboard.writeText(commands.length ? commands.join("\n") + "\n" : figure.querySelector("code").textContent)
        .then(function () { copy.textContent = "Copied"; setTimeout(function () { copy.textContent = "Copy"; }, 1500); });
    });
    figure.append(copy);
  });

  // ---- Search
  const form = document.querySelector(".search"), input = form.querySelector("input"), found = form.querySelector(".found");
  let asked = false, at = -1;
  function load() {
    if (asked) return;
    asked = true;
    const script = document.createElement("script");
    script.src = base + "search-index.js";
    script.onload = show;
    document.head.append(script);
  }
  function escaped(text) { return text.replace(/[&<>"]/g, function (c) { return "&#" + c.charCodeAt(0) + ";"; }); }
  function marked(text, words) {
    const pattern = new RegExp("(" + words.map(function (w) { return w.replace(/[.*+?^${}()|[\]\\]/g, "\\$&"); }).join("|") + ")", "gi");
    return text.split(pattern).map(function (part, i) { return i % 2 ? "<mark>" + escaped(part) + "</mark>" : escaped(part); }).join("");
  }
  function excerpt(text, words) {
    const low = text.toLowerCase(), first = Math.min.apply(null, words.map(function (w) { const i = low.indexOf(w); return i < 0 ? text.length : i; }));
    const from = Math.max(0, (first === text.length ? 0 : first) - 50);
    return (from ? ".. " : "") + text.slice(from, from + 150) + (from + 150 < text.length ? " .." : "");
  }
  function hits(words) {
    const index = window.searchIndex, list = [];
    index.parts.forEach(function (part) {
      const page = index.pages[part[0]], heading = (page[1] + " " + part[2]).toLowerCase(), text = part[3].toLowerCase();
      let score = 0;
      for (const word of words) {
        const bonus = new RegExp("(^|[^a-z0-9])" + word.replace(/[^a-z0-9]/g, "\\$&") + "($|[^a-z0-9])");
        if (part[2].toLowerCase().includes(word)) score += bonus.test(part[2].toLowerCase()) ? 60 : 30;
        else if (heading.includes(word)) score += 15;
        else if (text.includes(word)) score += bonus.test(text) ? 6 : 2;
        else return;
      }
      list.push([score + page[2], part]);
    });
    return list.sort(function (a, b) { return b[0] - a[0]; }).slice(0, 20);
  }
  function show() {
    const words = input.value.toLowerCase().split(/\s+/).filter(Boolean);
    at = -1;
    if (!words.length || !window.searchIndex) { found.hidden = true; return; }
    const list = hits(words);
    found.hidden = false;
    found.innerHTML = list.length ? list.map(function (hit) {
      const part = hit[1], page = window.searchIndex.pages[part[0]];
      return '<a href="' + base + page[0] + (part[1] ? "#" + part[1] : "") + '"><b>' + marked(part[2] || page[1], words) + "</b><span>" + escaped(page[1]) +
        "</span><span>" + marked(excerpt(part[3], words), words) + "</span></a>";
    }).join("") : "<p>Nothing has all of these words.</p>";
  }
  input.addEventListener("focus", load);
  input.addEventListener("input", function () { load(); show(); });
  input.addEventListener("keydown", function (event) {
    const links = found.querySelectorAll("a");
    if (event.key === "Escape") { found.hidden = true; input.blur(); }
    if ((event.key === "ArrowDown" || event.key === "ArrowUp") && links.length) {
      event.preventDefault();
      at = (at + (event.key === "ArrowDown" ? 1 : links.length - 1 + (at < 0 ? 1 : 0))) % links.length;
      links.forEach(function (link, i) { link.classList.toggle("at", i === at); });
      links[at].scrollIntoView({ block: "nearest" });
    }
  });
  form.addEventListener("submit", function (event) {
    event.preventDefault();
    const link = found.querySelectorAll("a")[Math.max(at, 0)];
    if (link && !found.hidden) { found.hidden = true; location.href = link.href; }
  });
  found.addEventListener("click", function () { found.hidden = true; });
  document.addEventListener("click", function (event) { if (!form.contains(event.target)) found.hidden = true; });
  document.addEventListener("keydown", function (event) {
    if (event.key === "/" && !/INPUT|TEXTAREA/.test(document.activeElement.tagName)) { event.preventDefault(); input.focus(); }
  });
})();
