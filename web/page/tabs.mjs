// The files as tabs: choosing, making, opening, naming and removing them, and what each is for.
import { element, made, tabKeys, textOf } from "./dom.mjs";
import { MOST_BYTES, MOST_FILES, ROLES, usualStream } from "./project.mjs";

const STREAM_SAYS = { header: "got as", data: "read as" };

export class Tabs {
  constructor(app) {
    this.app = app;
    /** A text of the library that is shown to be read, or null. */
    this.library = null;
    this.severities = new Map();
    for (const [role, name] of Object.entries(ROLES)) element("file-role").append(made("option", { value: role, textContent: name }));
    this.listen();
  }

  listen() {
    element("new-file").addEventListener("click", () => this.add({ name: "new.bcpl", text: "" }));
    element("open-file").addEventListener("change", (event) => this.open(event.target));
    element("remove-file").addEventListener("click", () => this.remove());
    element("file-name").addEventListener("change", (event) => this.rename(event.target.value));
    element("file-role").addEventListener("change", (event) => this.settle((file) => (file.role = event.target.value)));
    element("file-stream").addEventListener("change", (event) => this.settle((file) => (file.stream = event.target.value || usualStream(file.name))));
    tabKeys(element("file-tabs"), (tab) => tab.click());
  }

  /** Changes something about the current file, and checks again. */
  settle(change) {
    change(this.app.project.current);
    this.show();
    this.app.edited();
  }

  add(file) {
    const { project } = this.app;
    if (project.files.length >= MOST_FILES) {
      this.app.tell(`There can be ${MOST_FILES} files.`);
      return;
    }
    this.choose(project.add(file));
    this.app.edited();
    this.app.editor.area.focus();
  }

  async open(field) {
    for (const file of field.files) {
      if (file.size > MOST_BYTES) this.app.tell(`${file.name} is too large.`);
      else this.add({ name: file.name, text: textOf(new Uint8Array(await file.arrayBuffer())).replace(/\r\n?/g, "\n") });
    }
    field.value = "";
  }

  remove() {
    const { project } = this.app;
    if (this.library) {
      this.library = null;
    } else {
      const { current } = project;
      if (current.text.trim() !== "" && !confirm(`Remove ${current.name}? This can't be undone.`)) return;
      this.app.enter(project.next(current) ?? project.add({ name: "main.bcpl", text: "" }));
      project.remove(current);
      this.app.edited();
    }
    this.choose(project.current);
    element("file-tabs").querySelector("[aria-selected=true]")?.focus();
  }

  rename(name) {
    const { project } = this.app;
    const file = project.current;
    if (name.trim() !== "") project.rename(file, name);
    this.show();
    this.app.edited();
  }

  choose(file) {
    const { project, editor } = this.app;
    if (this.library === null && project.current === file && editor.text === file.text) return;
    this.library = null;
    this.app.enter(file);
    editor.show(file.text);
    this.show();
    this.app.problems.showMarks();
    this.app.refresh();
  }

  /** Shows a text of the library, to be read. */
  read(name, text) {
    this.library = { name, text };
    this.app.editor.show(text, true);
    this.show();
    this.app.problems.showMarks();
  }

  /** Draws the tabs and the settings of the current file. */
  show() {
    const { project } = this.app;
    const tabs = this.inOrder().map((file) => this.tabOf(file));
    for (const [name, text] of this.app.libraryTexts()) tabs.push(this.tab(name, this.library?.name === name, () => this.read(name, text)));
    element("file-tabs").replaceChildren(...tabs);
    const file = project.current;
    const isLibrary = this.library !== null;
    element("file-name").value = isLibrary ? this.library.name : file.name;
    element("file-role").value = isLibrary ? "header" : file.role;
    element("stream-label").hidden = isLibrary || file.role === "section";
    element("stream-says").textContent = STREAM_SAYS[file.role] ?? "";
    element("file-stream").value = file.stream;
    for (const id of ["file-name", "file-role"]) element(id).disabled = isLibrary;
    element("remove-file").textContent = isLibrary ? "Close" : "Remove";
    element("text").setAttribute("aria-label", isLibrary ? `${this.library.name}, to be read` : `Source of ${file.name}`);
  }

  /** The files with those of one program together. */
  inOrder() {
    return [...this.app.project.files].sort((one, other) => one.program - other.program);
  }

  /** The tab of a file; that of another program is set apart, and leads to it. */
  tabOf(file) {
    const { project } = this.app;
    const tab = this.tab(file.name, !this.library && file === project.current, () => this.choose(file));
    if (file.program === project.program) return tab;
    tab.classList.add("beside");
    tab.title = "This file belongs to another program, which is worked on once you choose it";
    tab.setAttribute("aria-label", `${file.name}, of another program`);
    return tab;
  }

  tab(name, isChosen, action) {
    const severity = this.severities.get(name) ?? "";
    const state = { "aria-selected": String(isChosen), "aria-controls": "editor", tabIndex: isChosen ? 0 : -1 };
    const tab = made("button", { type: "button", role: "tab", textContent: name, className: severity, ...state });
    if (severity) tab.title = severity === "error" ? "This file has errors" : "This file has warnings";
    tab.addEventListener("click", () => {
      action();
      element("file-tabs").querySelector("[aria-selected=true]")?.focus();
    });
    return tab;
  }

  showSeverities(diagnostics) {
    this.severities = new Map();
    for (const { file, severity } of diagnostics) if (this.severities.get(file) !== "error") this.severities.set(file, severity);
    const isInside = element("file-tabs").contains(document.activeElement);
    this.show();
    if (isInside) element("file-tabs").querySelector("[aria-selected=true]")?.focus();
  }
}
