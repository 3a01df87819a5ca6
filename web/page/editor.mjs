// The editor: a native textarea, so that undo, screen readers, touch keyboards and spelling of keys are the browser's own, over a layer
// that shows the same text in colours. The layer has one element a line, and only lines that changed are drawn again.
import { element, made } from "./dom.mjs";
import { indentAfter, indentOfClosing, knownPartsOf, pairAt } from "./language.mjs";

/** So many places a Tab moves on. */
const STEP = 2;

export class Editor {
  /** `on.change()` is called after each change by the user, `on.move(line)` when the cursor enters another line. */
  constructor(on) {
    this.on = on;
    this.area = element("text");
    this.layer = element("layer");
    this.gutter = element("gutter");
    this.tip = element("tip");
    this.drawn = [];
    this.marks = [];
    this.found = [];
    this.pair = null;
    this.line = 0;
    // Escape lets the next Tab leave the editor.
    this.isLeaving = false;
    this.listen();
  }

  get text() {
    return this.area.value;
  }

  /** Shows another text; the history of changes begins again. */
  show(text, isReadOnly = false) {
    this.area.value = text;
    this.area.readOnly = isReadOnly;
    this.marks = [];
    this.pair = null;
    this.area.setSelectionRange(0, 0);
    this.area.scrollTo(0, 0);
    this.draw();
    this.scroll();
    this.moved();
  }

  /** Replaces the selection as if typed, so that it can be undone. */
  type(text) {
    this.area.focus();
    if (!document.execCommand("insertText", false, text)) {
      this.area.setRangeText(text, this.area.selectionStart, this.area.selectionEnd, "end");
      this.changed();
    }
  }

  /** Shows these marks: `{ start, end, kind, about }`, by places of the text. */
  mark(marks) {
    this.marks = marks;
    this.draw();
    this.tellMark();
  }

  /** Shows what was found: `{ start, end }`, by places of the text. */
  markFound(places) {
    this.found = places.map((place) => ({ ...place, kind: "found" }));
    this.draw();
  }

  /** Puts the cursor at a place and shows it. */
  goTo(start, end = start) {
    this.area.focus();
    this.area.setSelectionRange(start, end);
    const line = this.text.slice(0, start).split("\n").length - 1;
    const height = this.lineHeight();
    const above = line * height - this.area.clientHeight / 3;
    if (line * height < this.area.scrollTop || (line + 2) * height > this.area.scrollTop + this.area.clientHeight) this.area.scrollTop = above;
    this.scroll();
    this.moved();
  }

  goToLine(number) {
    const lines = this.text.split("\n");
    const at = Math.min(Math.max(number, 1), lines.length) - 1;
    const start = lines.slice(0, at).reduce((sum, line) => sum + line.length + 1, 0);
    this.goTo(start, start);
  }

  lineHeight() {
    return parseFloat(getComputedStyle(this.area).lineHeight);
  }

  // ---- Drawing

  draw() {
    const lines = this.text.split("\n");
    const marksOf = this.marksByLine(lines);
    let isInside = false;
    lines.forEach((line, number) => {
      const read = knownPartsOf(line, isInside);
      const key = `${Number(isInside)}${line}\0${marksOf[number].map((mark) => mark.join()).join(";")}`;
      isInside = read.isInside;
      if (this.drawn[number] === key) return;
      this.drawn[number] = key;
      const row = made("div", {}, ...pieces(line, read.parts, marksOf[number]));
      if (number < this.layer.children.length) this.layer.children[number].replaceWith(row);
      else this.layer.append(row);
    });
    while (this.layer.children.length > lines.length) this.layer.lastChild.remove();
    this.drawn.length = lines.length;
    this.drawGutter(lines.length, marksOf);
  }

  /** The marks that touch each line, as `[kind, from, to]` within it. */
  marksByLine(lines) {
    const pair = (this.pair ?? []).map(({ start, text }) => ({ start, end: start + text.length, kind: "pair" }));
    const all = [...this.marks, ...this.found, ...pair];
    let start = 0;
    return lines.map((line) => {
      const end = start + line.length;
      const here = all.filter((mark) => mark.start <= end && mark.end >= start && (mark.end > start || mark.start === start));
      const found = here.map(({ kind, start: from, end: to }) => [kind, Math.max(from - start, 0), Math.min(to - start, line.length)]);
      start = end + 1;
      return found;
    });
  }

  drawGutter(count, marksOf) {
    const rows = Array.from({ length: count }, (_, number) => {
      const kinds = marksOf[number].map(([kind]) => kind);
      const kind = kinds.includes("error") ? "error" : kinds.includes("warning") ? "warning" : "";
      return `${kind}:${number === this.line ? "here" : ""}`;
    });
    while (this.gutter.children.length > count) this.gutter.lastChild.remove();
    rows.forEach((key, number) => {
      let row = this.gutter.children[number];
      if (row === undefined) this.gutter.append((row = made("div", { textContent: number + 1 })));
      const [kind, here] = key.split(":");
      const name = `${kind} ${here}`.trim();
      if (row.className !== name) row.className = name;
    });
    element("editor").style.setProperty("--digits", String(Math.max(2, String(count).length)));
  }

  scroll() {
    const { scrollTop, scrollLeft } = this.area;
    this.layer.style.transform = `translate(${-scrollLeft}px, ${-scrollTop}px)`;
    this.gutter.style.transform = `translateY(${-scrollTop}px)`;
  }

  // ---- What the user does

  listen() {
    this.area.addEventListener("input", () => this.changed());
    this.area.addEventListener("scroll", () => this.scroll());
    this.area.addEventListener("keydown", (event) => this.key(event));
    this.area.addEventListener("blur", () => (this.isLeaving = false));
    this.area.addEventListener("mousemove", (event) => this.hover(event));
    this.area.addEventListener("mouseleave", () => (this.tip.hidden = true));
    document.addEventListener("selectionchange", () => document.activeElement === this.area && this.moved());
  }

  changed() {
    this.draw();
    this.moved();
    this.on.change();
  }

  /** Follows the cursor: its line, the pair of brackets at it, and what is said about its place. */
  moved() {
    const at = this.area.selectionStart;
    const line = this.text.slice(0, at).split("\n").length - 1;
    const pair = this.area.selectionStart === this.area.selectionEnd ? pairAt(this.text, at) : null;
    const isNew = line !== this.line;
    const key = (it) => it?.map(({ start }) => start).join() ?? "";
    if (key(pair) !== key(this.pair) || isNew) {
      this.pair = pair;
      this.line = line;
      this.draw();
    }
    this.tellMark();
    if (isNew) this.on.move(line + 1);
  }

  /** Says below the editor what is wrong at the cursor. */
  tellMark() {
    const at = this.area.selectionStart;
    const mark = this.marks.find(({ start, end }) => start <= at && at <= end);
    const column = at - this.text.lastIndexOf("\n", at - 1);
    element("cursor").textContent = `Line ${this.line + 1}, column ${column}`;
    element("mark-said").textContent = mark?.about ?? "";
  }

  key(event) {
    if (event.isComposing || event.altKey) return;
    const isCommand = event.ctrlKey || event.metaKey;
    if (event.key === "Escape") {
      this.isLeaving = true;
      this.tip.hidden = true;
      return;
    }
    if (event.key === "Tab" && !isCommand && !this.isLeaving && !this.area.readOnly) {
      event.preventDefault();
      this.indent(event.shiftKey);
    } else if (event.key === "Enter" && !isCommand && !event.shiftKey && !this.area.readOnly) {
      event.preventDefault();
      this.type(`\n${indentAfter(this.text.slice(0, this.area.selectionStart))}`);
    } else if (event.key === ")" && !isCommand && !this.area.readOnly) {
      this.closeSection(event);
    }
    if (event.key !== "Shift" && event.key !== "Tab") this.isLeaving = false;
  }

  /** A `$)` that begins its line goes below its `$(`. */
  closeSection(event) {
    const { selectionStart: at, selectionEnd: end } = this.area;
    const before = this.text.slice(0, at);
    const line = before.slice(before.lastIndexOf("\n") + 1);
    if (at !== end || !/^[ \t]*\$$/.test(line)) return;
    const indent = indentOfClosing(`${before})`);
    if (indent === null || indent === line.slice(0, -1)) return;
    event.preventDefault();
    this.area.setSelectionRange(at - line.length, at);
    this.type(`${indent}$)`);
  }

  /** Tab and Shift Tab: moves the lines of a selection in or out, or else types blanks. */
  indent(isOut) {
    const { selectionStart: from, selectionEnd: to } = this.area;
    if (from === to && !isOut) {
      const column = from - this.text.lastIndexOf("\n", from - 1) - 1;
      this.type(" ".repeat(STEP - (column % STEP)));
      return;
    }
    const start = this.text.lastIndexOf("\n", from - 1) + 1;
    const last = this.text.indexOf("\n", Math.max(from, to - 1));
    const end = last < 0 ? this.text.length : last;
    const old = this.text.slice(start, end);
    const lines = old.split("\n").map((line) => (isOut ? line.replace(/^(\t| {1,2})/, "") : line && " ".repeat(STEP) + line));
    if (lines.join("\n") === old) return;
    this.area.setSelectionRange(start, end);
    this.type(lines.join("\n"));
    this.area.setSelectionRange(start, start + lines.join("\n").length);
  }

  /** Shows what is wrong where the mouse points. */
  hover(event) {
    const style = getComputedStyle(this.area);
    const box = this.area.getBoundingClientRect();
    const x = event.clientX - box.left + this.area.scrollLeft - parseFloat(style.paddingLeft);
    const y = event.clientY - box.top + this.area.scrollTop - parseFloat(style.paddingTop);
    const row = this.layer.children[Math.floor(y / this.lineHeight())];
    const isTouched = (part) => x >= part.offsetLeft - 3 && x <= part.offsetLeft + part.offsetWidth + 3;
    const touched = row && [...row.querySelectorAll(".error, .warning")].find(isTouched);
    const number = touched ? [...this.layer.children].indexOf(row) : -1;
    const mark = touched && this.markInLine(number, touched);
    if (!mark) {
      this.tip.hidden = true;
      return;
    }
    this.tip.textContent = mark.about;
    this.tip.hidden = false;
    const frame = element("editor").getBoundingClientRect();
    this.tip.style.left = `${Math.max(8, Math.min(event.clientX - frame.left, frame.width - this.tip.offsetWidth - 8))}px`;
    this.tip.style.top = `${event.clientY - frame.top + 18}px`;
  }

  markInLine(number, part) {
    const start = this.text.split("\n").slice(0, number).reduce((sum, line) => sum + line.length + 1, 0);
    const kind = part.classList.contains("error") ? "error" : "warning";
    const from = start + Number(part.dataset.from);
    return this.marks.find((mark) => mark.kind === kind && mark.start <= from && from <= mark.end);
  }
}

/** The pieces of a line: its parts, cut at the borders of the marks. */
function pieces(line, parts, marks) {
  const kinds = new Array(line.length).fill("");
  for (const [kind, from, to] of parts) kinds.fill(kind, from, to);
  const cuts = new Set([0, line.length, ...parts.flatMap(([, from, to]) => [from, to]), ...marks.flatMap(([, from, to]) => [from, to])]);
  const places = [...cuts].sort((one, other) => one - other);
  const nodes = places.slice(1).map((to, k) => piece(line, places[k], to, kinds[places[k]], marks));
  // A mark after the last character is shown at a blank.
  const atEnd = marks.filter(([, from, to]) => from === to && from === line.length).map(([kind]) => kind);
  if (atEnd.length > 0) nodes.push(withPlace(made("span", { className: atEnd.join(" "), textContent: " " }), line.length));
  return nodes.length > 0 ? nodes : ["\u200b"];
}

function piece(line, from, to, kind, marks) {
  const over = marks.filter(([, start, end]) => start <= from && to <= end).map(([name]) => name);
  const classes = [kind, ...over].filter(Boolean);
  const text = line.slice(from, to);
  return classes.length > 0 ? withPlace(made("span", { className: classes.join(" "), textContent: text }), from) : text;
}

function withPlace(node, from) {
  node.dataset.from = from;
  return node;
}
