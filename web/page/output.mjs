// Runs the program and shows what it writes, as it comes.
import { bytesOf, element, made, pictured, save, sized, textOf } from "./dom.mjs";
import { readDiagnostics } from "./diagnostics.mjs";

/** The most characters of an output that are shown; of a longer one the last of them. */
const MOST_SHOWN = 200_000;
const PAUSE = 60;

/** A piece of an output ends with the line after so many characters, or in a line that is so long. */
const PIECE = 2_000;
const LONGEST_LINE = 8_000;

/** Files that the page makes for itself. */
const OWN = ["out.int", "run.html"];

/** Where style.css has one column. */
const isNarrow = matchMedia("(max-width: 899px)");

const SPENT = /ended (Budget|Turns)Spent/;

const PLACE = /([^\s:][^:\n]*):(\d+):(\d+)(?=: )/g;

/**
 * A stream of the run, shown in an element. It is drawn once every PAUSE milliseconds at most, so that Stop works however much is written. It is
 * shown in pieces of whole lines, and the browser lays out only those that can be seen: a long text takes it longer than the run.
 */
class Shown {
  constructor(node) {
    this.node = node;
    this.note = made("em", { textContent: "(the beginning isn't shown)\n" });
    node.replaceChildren();
    this.decoder = new TextDecoder("utf-8", { ignoreBOM: true });
    this.waiting = "";
    this.timer = null;
    this.count = 0;
    /** The last piece, which may go on. */
    this.piece = null;
  }

  add(bytes) {
    this.waiting += this.decoder.decode(bytes, { stream: true });
    if (this.waiting.length > 2 * MOST_SHOWN) this.waiting = this.waiting.slice(-MOST_SHOWN);
    this.timer ??= setTimeout(() => this.draw(), PAUSE);
  }

  /** The last line; empty if nothing was written. */
  get lastLine() {
    return this.node.textContent.trimEnd().split("\n").pop();
  }

  /** Shows what was added. */
  draw() {
    clearTimeout(this.timer);
    this.timer = null;
    if (this.waiting === "") return;
    const isAtEnd = this.node.scrollTop + this.node.clientHeight > this.node.scrollHeight - 30;
    if (this.waiting.length >= MOST_SHOWN) this.clear();
    this.append(pictured(this.waiting.slice(-MOST_SHOWN)));
    this.waiting = "";
    this.cut();
    if (isAtEnd) this.node.scrollTop = this.node.scrollHeight;
  }

  /** Removes what is shown: only the end of more is. */
  clear() {
    this.node.replaceChildren(this.note);
    this.count = 0;
    this.piece = null;
  }

  /** Appends a text to the last piece, and to further ones. */
  append(text) {
    this.count += text.length;
    for (let from = 0; from < text.length; ) {
      const piece = this.openPiece();
      const room = Math.max(from, from + PIECE - piece.textContent.length);
      const line = text.indexOf("\n", room) + 1;
      const to = Math.min(line || text.length, room + LONGEST_LINE);
      piece.append(text.slice(from, to));
      piece.style.containIntrinsicBlockSize = `auto ${piece.textContent.split("\n").length}lh`;
      if (to === line || to === room + LONGEST_LINE) this.piece = null;
      from = to;
    }
  }

  openPiece() {
    if (this.piece === null) {
      this.piece = made("span", { className: "piece" });
      this.node.append(this.piece);
    }
    return this.piece;
  }

  /** Appends a line that the user typed. */
  type(text) {
    this.openPiece().append(made("span", { className: "typed", textContent: text }));
    this.count += text.length;
  }

  /** Removes the oldest pieces, so that a program that never stops writing doesn't fill the page. */
  cut() {
    while (this.count > MOST_SHOWN) {
      const oldest = this.node.querySelector(".piece");
      if (oldest === this.piece || oldest === this.node.lastChild) return;
      this.count -= oldest.textContent.length;
      oldest.remove();
      this.node.prepend(this.note);
    }
  }
}

/** Copies the text as it was written: a browser puts a line of its own between pieces. */
function copyText(event) {
  event.clipboardData.setData("text/plain", getSelection().getRangeAt(0).cloneContents().textContent);
  event.preventDefault();
}

export class Output {
  constructor(app) {
    this.app = app;
    this.isAtWork = false;
    element("interpret").addEventListener("click", () => this.interpret());
    element("run").addEventListener("click", () => this.run());
    element("stop").addEventListener("click", () => this.stop());
    element("output").addEventListener("copy", copyText);
    element("prompt").addEventListener("submit", (event) => this.typed(event));
    element("prompt-end").addEventListener("click", () => this.reply(new Uint8Array(0)));
    if (globalThis.crossOriginIsolated) element("input-hint").textContent = "What the program reads from SYSIN. Leave it empty to type while the program runs.";
  }

  get budget() {
    return element("budget").value;
  }

  /** The option that makes a run strict, if the switch is on. */
  strictWords() {
    return element("strict").checked ? ["--strict"] : [];
  }

  outputs() {
    return element("outputs").value.split(/[\s,]+/).filter(Boolean);
  }

  /** Runs the sources by their meaning. */
  interpret() {
    const { project } = this.app;
    const words = ["interpret", ...this.strictWords(), "--places", "always", "--no-warnings", "--turns", this.budget];
    return this.start([...words, ...project.getWords(), ...project.streamWords(this.outputs()), "--", ...project.sectionNames()], "--turns");
  }

  /** Builds the sources and runs the image. */
  async run() {
    const { project, problems } = this.app;
    this.app.trust();
    if (!problems.built) await problems.check();
    if (!problems.built) {
      this.app.tell("The sources don't build; see Problems.");
      return;
    }
    const words = ["run", "--places", "always", "--steps", this.budget, ...project.streamWords(this.outputs()), "out.int"];
    await this.start(words, "--steps", [["out.int", problems.built.text]]);
  }

  async start(words, limit, further = []) {
    const { project, compiler } = this.app;
    if (this.isAtWork) return;
    this.app.trust();
    if (project.sectionNames().length === 0) {
      this.app.tell("No file is a section, so there is nothing to run.");
      return;
    }
    this.begin(words);
    const input = bytesOf(element("input").value);
    this.shown = new Shown(element("output"));
    const streams = { 1: this.shown, 2: [] };
    const on = {
      output: (stream, bytes) => (stream === 1 ? streams[1].add(bytes) : streams[2].push(textOf(bytes))),
      asks: (reply) => {
        streams[1].draw();
        this.ask(reply);
      },
    };
    const began = performance.now();
    const request = { words, files: [...project.content(), ...further], input, isTyped: input.length === 0, terminals: [1] };
    const done = await compiler.run(request, on);
    streams[1].draw();
    const seconds = `${((performance.now() - began) / 1000).toFixed(2)} s`;
    this.end(done, streams[2].join(""), { seconds, limit, lastLine: streams[1].lastLine });
    return { ...done, seconds };
  }

  begin(words) {
    this.isAtWork = true;
    element("command").textContent = `bcpl ${words.filter((word) => word !== "--" && word !== "--no-warnings").join(" ")}`.replace("--places always ", "");
    element("ending").textContent = "";
    element("ending").className = "";
    element("errors").replaceChildren();
    element("written").replaceChildren();
    this.app.showPanel("output");
    // On a narrow screen the results are below the editor.
    if (isNarrow.matches) element("results").scrollIntoView();
    this.showButtons();
    this.app.tell("Running …");
  }

  end({ status, failure, stopped, files }, errors, { seconds, limit, lastLine }) {
    this.isAtWork = false;
    element("prompt").hidden = true;
    const said = stopped ? stoppedInWords(seconds, lastLine) : failure ? `Failed: ${failure}` : endInWords(status, errors, seconds);
    this.showEnding(said, status === 0, SPENT.test(errors) ? limit : null);
    this.showErrors(errors);
    element("written").replaceChildren(...(files ?? []).filter(([name]) => !OWN.includes(name)).map(writtenFile));
    this.showButtons();
  }

  /** Shows how a run ended. `limit` is the option of the budget, if that is spent. */
  showEnding(said, isGood, limit = null) {
    element("ending").textContent = said;
    element("ending").className = isGood ? "good" : "bad";
    this.app.tell(limit ? `${said}. Choose a larger budget to go on longer (${limit}).` : `${said}.`);
  }

  /** What was said on standard error; each place in it is a button that leads there. */
  showErrors(errors) {
    const nodes = [];
    let at = 0;
    for (const match of errors.matchAll(PLACE)) {
      if (!this.app.project.find(match[1].trim()) && !this.app.texts[match[1].trim()]) continue;
      nodes.push(errors.slice(at, match.index), this.placeButton(match));
      at = match.index + match[0].length;
    }
    element("errors").replaceChildren(...nodes, errors.slice(at).trimEnd());
    this.app.problems.showMarks(readDiagnostics(errors).diagnostics);
  }

  placeButton([text, file, line, column]) {
    const button = made("button", { type: "button", className: "plain place", textContent: text });
    button.addEventListener("click", () => this.app.problems.goTo({ file: file.trim(), line: Number(line), column: Number(column), width: 1 }));
    return button;
  }

  stop() {
    if (this.isAtWork) this.app.compiler.stop();
  }

  // ---- Input that is typed while the program waits

  ask(reply) {
    this.pending = reply;
    element("prompt").hidden = false;
    element("prompt-line").value = "";
    element("prompt-line").focus();
    this.app.tell("The program waits for input.");
  }

  typed(event) {
    event.preventDefault();
    const line = `${element("prompt-line").value}\n`;
    this.shown.type(line);
    this.reply(bytesOf(line));
  }

  reply(bytes) {
    element("prompt").hidden = true;
    this.app.tell("Running …");
    this.pending?.(bytes);
    this.pending = null;
  }

  showButtons() {
    const isReady = this.app.isReady;
    for (const id of ["interpret", "run", "debug"]) element(id).disabled = !isReady || this.isAtWork;
    element("stop").disabled = !this.isAtWork;
  }
}

/** How a run ended, by its status and the first line of what it reported. */
function endInWords(status, errors, seconds) {
  if (status === 0) return `Finished in ${seconds}`;
  if (status === 1) return "Refused";
  if (SPENT.test(errors)) return `The budget is spent, after ${seconds}`;
  if (errors.startsWith("bcpl: wild")) return `Stopped at a wild access, after ${seconds}`;
  return errors.startsWith("bcpl: strict") ? `Stopped at a probable mistake, after ${seconds}` : `Ended after ${seconds}`;
}

/** What is said of a run that the user stopped. */
function stoppedInWords(seconds, lastLine) {
  return `Stopped after ${seconds}; ${lastLine === "" ? "it had written nothing" : `its last line of output is “${lastLine.slice(0, 80)}”`}`;
}

/** A file that the run wrote: its text, and a button that saves it. */
function writtenFile([name, bytes]) {
  const button = made("button", { type: "button", className: "plain", textContent: "Save" });
  button.addEventListener("click", () => save(name, bytes));
  const text = pictured(textOf(bytes.subarray(0, MOST_SHOWN)));
  const summary = made("summary", {}, `${name}, ${sized(bytes.length)} `, button);
  return made("details", { className: "written", open: true }, summary, made("pre", { tabIndex: 0, textContent: text }));
}
