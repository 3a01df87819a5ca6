// Puts the page together: the files, the editor, the compiler and the panels.
import { isOneFile, loadData, loadModule, startWorker } from "./assets.mjs";
import { Boot } from "./boot.mjs";
import { Certificate } from "./certificate.mjs";
import { Compiler, isSupported } from "./compiler.mjs";
import { Convert } from "./convert.mjs";
import { Debug } from "./debug.mjs";
import { counted, delayed, element, made, save, tabKeys, textOf } from "./dom.mjs";
import { Editor } from "./editor.mjs";
import { Find } from "./find.mjs";
import { Format } from "./format.mjs";
import { Inside } from "./inside.mjs";
import { Kept } from "./kept.mjs";
import { namesGot } from "./language.mjs";
import { Learn } from "./learn.mjs";
import { fragmentOf, stateOf } from "./link.mjs";
import { Output } from "./output.mjs";
import { Problems } from "./problems.mjs";
import { MOST_FILES, Project } from "./project.mjs";
import { Tabs } from "./tabs.mjs";

const UNSUPPORTED = `This browser can't run the compiler: it lacks memory64, a part of WebAssembly. Chromium and Chrome have it from version 133 on,
  Firefox from 134 on; update the browser, or open the page in one of these. Until then you can read and edit sources here.`;
const FIRST = "queens";

class App {
  constructor() {
    this.isReady = false;
    this.isTrusted = true;
    this.panel = "start";
    this.examples = [];
    this.texts = {};
    /** Texts of examples and of pages, which the user can open again. */
    this.given = new Set();
    this.project = new Project();
    /** What each program reads and writes, by its number: what is in the boxes while it isn't worked on. */
    this.boxes = new Map();
    /** Everything as it was before an example was opened, until something is edited; undo brings it back. */
    this.before = null;
    this.editor = new Editor({ change: () => this.typed(), move: (line) => this.inside.follow(line) });
    this.compiler = new Compiler(isSupported() ? loadModule() : new Promise(() => {}), startWorker);
    this.tabs = new Tabs(this);
    this.problems = new Problems(this);
    this.output = new Output(this);
    this.debug = new Debug(this);
    this.inside = new Inside(this);
    this.certificate = new Certificate(this);
    this.convert = new Convert(this);
    this.learn = new Learn(this, () => loadData("pages.json"));
    this.boot = new Boot(this, () => loadData("boot.json"));
    this.find = new Find(this.editor);
    this.format = new Format(this);
    this.kept = new Kept(this);
    this.keepLater = delayed(() => this.kept.keep(this.state()), 500);
  }

  /** Loads what the page needs; the editor can be used before the compiler is there. */
  async begin() {
    element("from-file").remove();
    this.listen();
    this.project.replace([{ name: "main.bcpl", text: "" }]);
    this.tabs.show();
    const data = await loadData("examples.json");
    this.examples = data.examples;
    this.given = new Set(this.examples.flatMap(({ files }) => files.map(({ text }) => text)));
    this.texts = data.library;
    this.listExamples();
    await this.firstFiles();
    await this.startCompiler();
  }

  async startCompiler() {
    if (!isSupported()) {
      element("unsupported").textContent = UNSUPPORTED;
      element("unsupported").hidden = false;
      this.tell("The compiler can't run here.");
      return;
    }
    await this.compiler.ready();
    this.isReady = true;
    this.output.showButtons();
    this.tell("Ready.");
    await this.problems.check();
    await this.format.show();
    const version = await this.compiler.ask(["--version"], []);
    element("version").textContent = textOf(version.out).trim().replace("\n", ", ");
  }

  /** The files of a link, or those of the last visit, or the first example. */
  async firstFiles() {
    if (await this.fromLink()) return;
    const last = this.kept.last();
    if (last) this.take(last);
    else this.showExample(FIRST);
  }

  /** Shows the files that the address carries, and returns whether it carries any. They aren't compiled yet. */
  async fromLink() {
    try {
      const state = await stateOf(location.hash);
      if (state === null) return false;
      this.kept.setAside(state.files);
      this.isTrusted = false;
      element("from-link").hidden = false;
      this.take(state);
      return true;
    } catch {
      element("damaged").hidden = false;
      return false;
    }
  }

  /** Shows files and settings instead of those that are there. `programs` and `current` are there where several programs were kept. */
  take({ files, input = "", outputs = [], steps = null, programs = [], current = null }) {
    this.project.replace(files);
    if (this.project.files.length === 0) this.project.add({ name: "main.bcpl", text: "" });
    this.project.current = this.project.find(current) ?? this.project.current;
    this.boxes = new Map(programs);
    this.fillBoxes({ input, outputs: outputs.join(" ") });
    this.showCurrent(steps);
  }

  /** Shows the current file, of a program that needs so many steps. */
  showCurrent(steps = null) {
    if (steps && Number(element("budget").value) < steps) element("budget").value = "100000000";
    this.tabs.library = null;
    this.editor.show(this.project.current.text);
    this.tabs.show();
    this.problems.changed();
  }

  shownBoxes() {
    return { input: element("input").value, outputs: element("outputs").value };
  }

  fillBoxes({ input = "", outputs = "" } = {}) {
    element("input").value = input;
    element("outputs").value = outputs;
  }

  /** Makes a file the current one. Where it is of another program, that is worked on from now on. */
  enter(file) {
    const { project } = this;
    const before = project.program;
    project.current = file;
    if (project.program === before) return;
    this.boxes.set(before, this.shownBoxes());
    this.fillBoxes(this.boxes.get(project.program));
    this.before = null;
    this.problems.changed();
    this.keepLater();
  }

  /** The files and settings of all programs. */
  state() {
    const { project } = this;
    const files = project.files.map(({ name, text, role, stream, program }) => ({ name, text, role, stream, program }));
    const shown = { input: element("input").value, outputs: this.output.outputs() };
    return { files, ...shown, programs: [...this.boxes], current: project.current.name };
  }

  /** Those of the program that is worked on. */
  programState() {
    const files = this.project.inProgram.map(({ name, text, role, stream }) => ({ name, text, role, stream }));
    return { files, input: element("input").value, outputs: this.output.outputs() };
  }

  // ---- Changes

  typed() {
    if (this.tabs.library) return;
    this.project.current.text = this.editor.text;
    this.edited();
  }

  edited() {
    this.before = null;
    this.trust();
    this.problems.changed();
    this.keepLater();
  }

  /** From now on the files are compiled: the user has pressed a button, or edited. */
  trust() {
    if (this.isTrusted) return;
    this.isTrusted = true;
    element("from-link").hidden = true;
    // The address no longer says what is shown.
    history.replaceState(null, "", location.pathname + location.search);
  }

  mayCompile() {
    return this.isReady && this.isTrusted;
  }

  // ---- Panels

  /** Shows a panel and draws what it shows. */
  showPanel(name) {
    this.panel = name;
    // The debugger shows the source itself, and needs the room.
    document.querySelector("main").classList.toggle("wide", name === "debug" && this.debug.isShown);
    for (const tab of element("panel-tabs").children) {
      const isChosen = tab.id === `tab-${name}`;
      tab.setAttribute("aria-selected", String(isChosen));
      tab.tabIndex = isChosen ? 0 : -1;
      element(tab.getAttribute("aria-controls")).hidden = !isChosen;
    }
    element(`tab-${name}`).scrollIntoView({ block: "nearest", inline: "nearest" });
    this.refresh();
  }

  /** Draws the chosen panel again, after a check or a change of the file. */
  refresh() {
    if (this.panel === "learn") this.learn.open();
    if (this.panel === "boot") this.boot.open();
    if (!this.mayCompile()) return;
    if (this.panel === "inside") this.inside.show();
    if (this.panel === "explain") this.inside.showReport();
    if (this.panel === "proof") this.certificate.show();
  }

  tell(sentence) {
    element("state").textContent = sentence;
  }

  // ---- Examples and the library

  listExamples() {
    const topics = [...new Set(this.examples.map(({ topic }) => topic))];
    element("example-list").replaceChildren(...topics.map((topic) => {
      const buttons = this.examples.filter((example) => example.topic === topic).map((example) => this.exampleButton(example));
      return made("section", {}, made("h3", { textContent: topic }), ...buttons);
    }));
  }

  exampleButton({ name, sentence }) {
    const button = made("button", { type: "button", className: "example" }, made("b", { textContent: name }), made("span", { textContent: sentence }));
    button.addEventListener("click", () => this.openExample(name));
    return button;
  }

  /** Whether the user has written something in these files: a text that is neither empty nor that of an example or of a page. */
  isOwn(files) {
    return files.some(({ text }) => text.trim() !== "" && !this.given.has(text));
  }

  /** Opens a source: as a file of the program in the editor, or as a program beside it where both have a START. */
  openProgram(name, text) {
    const isMain = (source) => /\bSTART\s*\(/.test(source);
    if (isMain(text) && this.project.withRole("section").some((file) => isMain(file.text))) this.openBeside(name, { files: [{ name, text }] });
    else this.tabs.add({ name, text });
  }

  openExample(name) {
    this.openBeside(name, this.examples.find((it) => it.name === name));
  }

  /** Opens a program beside those that are there. Texts of examples that nobody has changed make room for it. */
  openBeside(name, { files, input = "", outputs = [], steps = null }) {
    const { project } = this;
    if (project.files.length + files.length > MOST_FILES) {
      this.tell(`There can be ${MOST_FILES} files. Remove some first.`);
      return;
    }
    const before = this.state();
    this.trust();
    const program = project.freeProgram();
    const old = project.inProgram;
    if (this.isOwn(old)) this.boxes.set(project.program, this.shownBoxes());
    else for (const file of old) project.remove(file);
    project.current = files.map((file) => project.add({ ...file, program }))[0];
    this.fillBoxes({ input, outputs: outputs.join(" ") });
    this.showCurrent(steps);
    this.keepLater();
    this.before = before;
    this.editor.area.focus();
    const isAlone = project.files.length === files.length;
    this.tell(`${name} is in the editor${isAlone ? "" : ", beside your files"}. Press Interpret to run it.`);
  }

  /** Brings back what was there before an example was opened, and returns whether there was something. */
  undoOpening() {
    if (this.before === null) return false;
    this.take(this.before);
    this.before = null;
    this.keepLater();
    this.tell("Your files are back.");
    return true;
  }

  showExample(name) {
    const example = this.examples.find((it) => it.name === name) ?? this.examples[0];
    if (example) this.take(example);
  }

  /** The texts of the library that the files get, to be read beside them. */
  libraryTexts() {
    const names = new Set(this.project.inProgram.flatMap(({ text }) => namesGot(text)));
    const headers = { BLIB: "LIBHDR", EXTLIB: "EXTHDR" };
    return Object.entries(this.texts).filter(([name]) => names.has(headers[name] ?? name));
  }

  // ---- Links and downloads

  async share() {
    const address = new URL(location.href);
    address.hash = await fragmentOf(this.programState());
    try {
      await navigator.clipboard.writeText(address.href);
      this.tell(`The link is copied: ${counted(address.href.length, "character")}. The files are in it, and were sent nowhere.`);
    } catch {
      history.replaceState(null, "", address.hash);
      this.tell("The link is in the address bar.");
    }
  }

  async download(what) {
    const { current, inProgram: files } = this.project;
    const { built } = this.problems;
    if (what === "source") save(current.name, current.text, "text/plain");
    else if (what === "sources") for (const file of files) save(file.name, file.text, "text/plain");
    else if (what === "report") this.saveIf("explanation.html", await this.inside.explain(), "text/html");
    else if (what === "text") this.saveIf("program.int", built?.text);
    else this.saveIf("program.cert", await this.problems.certificate());
  }

  saveIf(name, content, type) {
    if (content) save(name, content, type);
    else this.tell("There is nothing to download while the sources are refused.");
  }

  // ---- What the user does

  listen() {
    for (const tab of element("panel-tabs").children) tab.addEventListener("click", () => this.showPanel(tab.id.replace("tab-", "")));
    tabKeys(element("panel-tabs"), (tab) => this.showPanel(tab.id.replace("tab-", "")));
    element("go-examples").addEventListener("click", () => this.showPanel("start"));
    element("go-tutorial").addEventListener("click", () => this.goTo("docs/tutorial.md"));
    element("go-proved").addEventListener("click", () => this.goTo("docs/PROVED.md"));
    element("tame").addEventListener("click", () => this.goTo("docs/tame.md"));
    element("go-language").addEventListener("click", () => this.goTo("docs/language.md"));
    element("show-keys").addEventListener("click", () => element("keys").showModal());
    element("share").addEventListener("click", () => this.share());
    element("trust").addEventListener("click", () => {
      this.trust();
      this.problems.check();
    });
    for (const id of ["input", "outputs"]) element(id).addEventListener("input", () => this.keepLater());
    this.listenToDownloads();
    document.addEventListener("keydown", (event) => this.key(event));
    addEventListener("hashchange", () => this.fromLink());
    addEventListener("pagehide", () => this.isTrusted && this.kept.keep(this.state()));
  }

  listenToDownloads() {
    const button = element("download");
    const list = element("downloads");
    const open = (isOpen) => {
      list.hidden = !isOpen;
      button.setAttribute("aria-expanded", String(isOpen));
    };
    button.addEventListener("click", () => open(list.hidden));
    for (const entry of list.querySelectorAll("[data-save]")) entry.addEventListener("click", () => this.download(entry.dataset.save));
    list.addEventListener("click", () => open(false));
    list.addEventListener("keydown", (event) => {
      if (event.key !== "Escape") return;
      open(false);
      button.focus();
    });
    document.addEventListener("click", (event) => !event.target.closest(".menu") && open(false));
    // The one file can't copy itself; it is there already. And it has no other page beside it.
    if (isOneFile()) for (const id of ["save-page", "step"]) element(id).remove();
  }

  async goTo(path) {
    await this.learn.open(path);
    this.showPanel("learn");
  }

  key(event) {
    if (!(event.ctrlKey || event.metaKey) || event.altKey) return;
    const isInField = event.target.matches?.("input, select, textarea:not(#text)");
    if (event.key === "z" && !event.shiftKey && !isInField && this.undoOpening()) {
      event.preventDefault();
    } else if (event.key === "Enter" && this.isReady) {
      event.preventDefault();
      if (event.shiftKey) this.output.run();
      else this.output.interpret();
    } else if (event.key === ".") {
      event.preventDefault();
      this.output.stop();
    }
  }
}

const app = new App();
globalThis.kibvorg = app;
app.begin().catch((error) => app.tell(`The page can't start: ${error.message}`));
