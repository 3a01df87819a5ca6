// Checks the sources while one types, and shows what is wrong: in the editor, on the tabs and in a list.
import { counted, delayed, element, made, textOf } from "./dom.mjs";
import { readDiagnostics, spanInLine } from "./diagnostics.mjs";

/** So many milliseconds after the last change the sources are checked. */
const PAUSE = 150;

/** A check that took longer is not followed by the one for wild cells. */
const SLOW = 1000;

const BUILT = /^ok (\d+) (\d+) (\d+)$/m;

/** What is said of a diagnostic, in words. */
function about(diagnostic) {
  const helps = diagnostic.helps.map((help) => `Help: ${help}`);
  return [`${diagnostic.severity === "error" ? "Error" : "Warning"}: ${diagnostic.sentence}`, ...helps].join("\n");
}

export class Problems {
  constructor(app) {
    this.app = app;
    this.diagnostics = [];
    /** What the last check built: `{ text, segments, entries, base }` with what it was built from, or null where it was refused. */
    this.built = null;
    /** How many changes there were: a check of sources that have changed since says nothing. */
    this.changes = 0;
    this.isWanted = false;
    this.work = null;
    this.later = delayed(() => this.check(), PAUSE);
    document.addEventListener("keydown", (event) => this.key(event));
  }

  /** Checks soon, once the user pauses. */
  changed() {
    this.changes += 1;
    this.built = null;
    this.later();
  }

  /** Checks now, and returns when the newest sources are checked. While a check is at work only the newest further one is kept. */
  check() {
    if (!this.app.mayCompile()) return Promise.resolve();
    this.isWanted = true;
    this.work ??= this.checkAll().finally(() => (this.work = null));
    return this.work;
  }

  async checkAll() {
    while (this.isWanted) {
      this.isWanted = false;
      await this.checkOnce();
    }
    this.app.refresh();
  }

  async checkOnce() {
    const { project, compiler } = this.app;
    const names = project.sectionNames();
    if (names.length === 0) {
      this.take({ diagnostics: [], refusal: "" }, null, "No file is a section, so there is nothing to build.");
      return;
    }
    const { changes } = this;
    const began = performance.now();
    const words = [...project.getWords(), "--", ...names];
    const content = project.content();
    const answer = await compiler.ask(["build", "--messages", "json", "--out", "out.int", ...words], content);
    this.milliseconds = performance.now() - began;
    if (changes !== this.changes) return;
    if (answer.stopped || answer.failure) {
      this.take({ diagnostics: [], refusal: "" }, null, `The check ended early: ${answer.failure ?? "it was stopped"}.`);
      return;
    }
    const numbers = textOf(answer.out).match(BUILT)?.slice(1).map(Number);
    const [segments, entries, base] = numbers ?? [];
    const built = numbers ? { text: answer.files.get("out.int"), segments, entries, base, words, content, certificate: null } : null;
    this.take(readDiagnostics(textOf(answer.errors)), built, null);
    if (built && this.milliseconds < SLOW) await this.showTame(changes);
  }

  /** Shows whether it is known that no run of the program can meet a wild cell. */
  async showTame(changes) {
    const { words, content } = this.built;
    const { status } = await this.app.compiler.ask(["tame", ...words], content);
    if (changes === this.changes) element("tame").hidden = status !== 0;
  }

  /** The certificate of what was built, or null. It is written when it is first needed: checks while one types are quicker without it. */
  async certificate() {
    const { built } = this;
    if (built === null) return null;
    const words = ["build", "--no-warnings", "--out", "out.int", "--cert", "out.cert", ...built.words];
    built.certificate ??= this.app.compiler.ask(words, built.content).then(({ files }) => files.get("out.cert") ?? null);
    return built.certificate;
  }

  take({ diagnostics, refusal }, built, sentence) {
    this.diagnostics = diagnostics;
    this.built = built;
    this.show(sentence ?? this.summary(refusal));
  }

  summary(refusal) {
    const count = (severity) => this.diagnostics.filter((it) => it.severity === severity).length;
    const warnings = count("warning");
    if (this.built) {
      const { base } = this.built;
      return `Builds, to ${counted(base, "word")}.${warnings ? ` ${counted(warnings, "warning")}.` : ""}`;
    }
    const errors = count("error");
    return errors > 0 ? `${counted(errors, "error")}${warnings ? `, ${counted(warnings, "warning")}` : ""}.` : `Refused: ${refusal}`;
  }

  show(sentence) {
    // It is spoken where it changes, not after each key.
    if (element("checked").textContent !== sentence) element("checked").textContent = sentence;
    element("tame").hidden = true;
    element("problem-list").replaceChildren(...this.diagnostics.map((diagnostic) => made("li", {}, this.button(diagnostic))));
    this.showMarks();
    this.app.tabs.showSeverities(this.diagnostics);
  }

  /** A diagnostic as a button that leads to its place. */
  button(diagnostic) {
    const { severity, file, line, column, sentence, helps, notes } = diagnostic;
    const button = made("button", { type: "button", className: `problem ${severity}` },
      made("span", { className: "kind", textContent: severity === "error" ? "✕ Error " : "! Warning " }),
      made("span", { className: "where", textContent: `${file}:${line}:${column} ` }), sentence,
      ...notes.map((note) => made("span", { className: "help", textContent: `${note.file}:${note.line}: ${note.sentence}` })),
      ...helps.map((help) => made("span", { className: "help", textContent: `Help: ${help}` })));
    button.addEventListener("click", () => this.goTo(diagnostic));
    return button;
  }

  /** Underlines the current file's diagnostics, and those of the last run. */
  showMarks(further = []) {
    const { project, editor } = this.app;
    if (project.current === null || this.app.tabs.library) {
      editor.mark([]);
      return;
    }
    const lines = editor.text.split("\n");
    const here = [...this.diagnostics, ...further].filter(({ file }) => file === project.current.name);
    editor.mark(here.map((diagnostic) => ({ ...placeIn(lines, diagnostic), kind: diagnostic.severity, about: about(diagnostic) })));
  }

  /** Leads to the place of a diagnostic, in whatever file it is. */
  goTo({ file, line, column, width }) {
    const { project, editor, tabs } = this.app;
    const found = project.find(file);
    const library = this.app.texts[file];
    if (found) tabs.choose(found);
    else if (library) tabs.read(file, library);
    else return;
    const { start, end } = placeIn(editor.text.split("\n"), { line, column, width });
    editor.goTo(start, end);
  }

  /** F8: the next problem after the cursor, or with Shift the one before. After the last one of the file come those of other files. */
  key(event) {
    if (event.key !== "F8" || this.diagnostics.length === 0) return;
    event.preventDefault();
    this.goTo(this.diagnostics[this.next(event.shiftKey)]);
  }

  /** The number of the diagnostic after the cursor, or before it. */
  next(isBackwards) {
    const { editor, project } = this.app;
    const cursor = editor.area.selectionStart;
    const lines = editor.text.split("\n");
    const places = this.diagnostics.map((it) => (it.file === project.current.name ? placeIn(lines, it) : null));
    const count = places.length;
    const here = places.findIndex((it) => it !== null && it.start <= cursor && cursor <= it.end);
    if (here >= 0) return (here + (isBackwards ? count - 1 : 1)) % count;
    const after = places.findIndex((it) => it !== null && it.start > cursor);
    return isBackwards ? ((after < 0 ? count : after) + count - 1) % count : Math.max(after, 0);
  }
}

/** Where a diagnostic is in the text of these lines. */
function placeIn(lines, { line, column, width }) {
  const number = Math.min(line, lines.length) - 1;
  const [from, to] = spanInLine(lines[number], column, width);
  const before = lines.slice(0, number).reduce((sum, text) => sum + text.length + 1, 0);
  return { start: before + from, end: before + to };
}
