// Find in the current file.
import { counted, element } from "./dom.mjs";

export class Find {
  constructor(editor) {
    this.editor = editor;
    element("text").addEventListener("keydown", (event) => {
      if (event.key.toLowerCase() !== "f" || !(event.ctrlKey || event.metaKey) || event.shiftKey || event.altKey) return;
      event.preventDefault();
      this.open();
    });
    element("find-text").addEventListener("input", () => this.look());
    element("find-bar").addEventListener("keydown", (event) => this.key(event));
    element("find-next").addEventListener("click", () => this.go(1));
    element("find-before").addEventListener("click", () => this.go(-1));
    element("find-close").addEventListener("click", () => this.close());
  }

  open() {
    const { area, text } = this.editor;
    const chosen = text.slice(area.selectionStart, area.selectionEnd);
    if (chosen && !chosen.includes("\n")) element("find-text").value = chosen;
    element("find-bar").hidden = false;
    element("find-text").select();
    this.look();
  }

  close() {
    element("find-bar").hidden = true;
    this.editor.markFound([]);
    this.editor.area.focus();
  }

  key(event) {
    if (event.key === "Escape") this.close();
    else if (event.key === "Enter" && event.target.id === "find-text") this.go(event.shiftKey ? -1 : 1, true);
    else return;
    event.preventDefault();
  }

  /** Where the text is found, whatever the case of its letters. */
  places() {
    const wanted = element("find-text").value.toLowerCase();
    const text = this.editor.text.toLowerCase();
    const found = [];
    for (let at = wanted ? text.indexOf(wanted) : -1; at >= 0; at = text.indexOf(wanted, at + wanted.length)) found.push(at);
    return found;
  }

  look() {
    const places = this.places();
    const count = places.length;
    const width = element("find-text").value.length;
    this.editor.markFound(places.map((start) => ({ start, end: start + width })));
    element("find-count").textContent = element("find-text").value === "" ? "" : count === 0 ? "Not found" : counted(count, "place");
  }

  /** Chooses the next place after the cursor, or the one before it. */
  go(step, keepsFocus = false) {
    const places = this.places();
    if (places.length === 0) return;
    const { selectionStart: from, selectionEnd: to } = this.editor.area;
    const after = places.findIndex((at) => at >= to);
    const before = places.findLastIndex((at) => at < from);
    const number = step > 0 ? (after < 0 ? 0 : after) : before < 0 ? places.length - 1 : before;
    this.editor.goTo(places[number], places[number] + element("find-text").value.length);
    element("find-count").textContent = `${number + 1} of ${places.length}`;
    if (keepsFocus) element("find-text").focus();
  }
}
