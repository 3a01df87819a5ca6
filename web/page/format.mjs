// Lays out the current file as `bcpl format` does: only blanks and line breaks between tokens change.
import { element, textOf } from "./dom.mjs";

/** The place in a text that follows so many characters other than blanks. */
function placeAfter(text, count) {
  let left = count;
  let at = 0;
  while (left > 0 && at < text.length) {
    if (!/\s/.test(text[at])) left -= 1;
    at += 1;
  }
  return at;
}

/** What differs between two texts: `{ start, end, text }`, by places of the old one. */
function difference(before, after) {
  const shorter = Math.min(before.length, after.length);
  let start = 0;
  while (start < shorter && before[start] === after[start]) start += 1;
  let same = 0;
  while (same < shorter - start && before[before.length - 1 - same] === after[after.length - 1 - same]) same += 1;
  return { start, end: before.length - same, text: after.slice(start, after.length - same) };
}

export class Format {
  constructor(app) {
    this.app = app;
    element("format").addEventListener("click", () => this.format());
    document.addEventListener("keydown", (event) => this.key(event));
  }

  /** Lays out the current file. The change is one step of the editor's history, and the cursor stays at its token. */
  async format() {
    const { project, editor, tabs, compiler } = this.app;
    if (element("format").disabled || tabs.library) return;
    const file = project.current;
    if (file.role === "data") {
      this.app.tell("An input is no source, so it isn't laid out.");
      return;
    }
    this.app.trust();
    const before = editor.text;
    const answer = await compiler.ask(["format", ...project.formatWords(), "--", file.name], project.content());
    // The user may have gone on meanwhile.
    if (project.current !== file || tabs.library || editor.text !== before) return;
    if (answer.status !== 0) {
      this.app.tell(answer.failure ?? `${file.name} can't be laid out before its errors are corrected.`);
      return;
    }
    this.replace(before, textOf(answer.out), file.name);
  }

  /** Enables the button, if the compiler has the command. */
  async show() {
    const { status } = await this.app.compiler.ask(["format", "--help"], []);
    element("format").disabled = status !== 0;
  }

  replace(before, after, name) {
    const { editor } = this.app;
    if (after === before) {
      this.app.tell(`${name} is laid out already.`);
      return;
    }
    const signs = before.slice(0, editor.area.selectionStart).replace(/\s/g, "").length;
    const { start, end, text } = difference(before, after);
    editor.area.setSelectionRange(start, end);
    editor.type(text);
    editor.goTo(placeAfter(after, signs));
    this.app.tell(`${name} is laid out. Undo takes it back.`);
  }

  key(event) {
    if (event.code !== "KeyF" || !event.shiftKey || !event.altKey || event.ctrlKey || event.metaKey) return;
    event.preventDefault();
    this.format();
  }
}
