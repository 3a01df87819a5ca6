// What the compiler sees of the current file: its code, tokens, tree, spelling and scopes, and the report of `explain`.
import { element, made, textOf } from "./dom.mjs";

const HINTS = {
  code: "Each line with its INTCODE: the words, and the rules they come from. A click leads to the source.",
  tokens: "Each token with its line and column, and where a line break is a semicolon.",
  tree: "The syntax tree: a node per line, with the place of its first name, number, string or word.",
  source: "The section in its canonical spelling, which builds to the same code.",
  scopes: "The frame of each routine; statics, tables and strings; globals.",
};

const REPORT_HINT = "Why no code of the current file's expressions is shorter. Open an expression to see its tree.";

const SOURCE_LINE = /^\/ +(\d+) \| ?(.*)$/;
const TOKEN_LINE = /^ *(\d+):\d+ /;
const TREE_LINE = /^(\d+):\d+ /;
const NAMED_LINE = /\bline (\d+)/;

export class Inside {
  constructor(app) {
    this.app = app;
    this.kind = "code";
    this.shown = "";
    for (const button of document.querySelectorAll("[data-listing]")) button.addEventListener("click", () => this.choose(button.dataset.listing));
    element("step").addEventListener("click", () => this.stepAddress());
    element("listing").addEventListener("click", (event) => {
      const line = event.target.closest("[data-line]")?.dataset.line;
      if (line) app.editor.goToLine(Number(line));
    });
  }

  /** Hands the built text to the page of porting/, in the fragment of its address. */
  stepAddress() {
    const { built } = this.app.problems;
    if (built) element("step").href = `intcode.html#text=${btoa(textOf(built.text)).replaceAll("+", "-").replaceAll("/", "_")}`;
  }

  choose(kind) {
    this.kind = kind;
    for (const button of document.querySelectorAll("[data-listing]")) button.setAttribute("aria-pressed", String(button.dataset.listing === kind));
    this.show();
  }

  /** The name of the file to be shown: the current one, or else the first section. */
  name() {
    const { current } = this.app.project;
    return current.role === "section" ? current.name : this.app.project.sectionNames()[0];
  }

  async show() {
    const name = this.name();
    element("listing-hint").textContent = HINTS[this.kind];
    if (!this.app.mayCompile() || name === undefined) return;
    const kind = this.kind;
    const { compiler, project } = this.app;
    const answer = await compiler.ask(["show", ...project.getWords(), kind, "--", name], project.content());
    if (kind !== this.kind) return;
    if (answer.status !== 0) {
      this.refused(element("listing"), answer);
      return;
    }
    element("listing").replaceChildren(...rows(textOf(answer.out), kind));
    this.follow(this.app.editor.line + 1);
  }

  refused(node, { errors, failure }) {
    this.shown = "";
    const said = textOf(errors ?? new Uint8Array(0)).split("\n")[0].replace("bcpl: ", "");
    const sentence = failure ? `It ended early: ${failure}.` : `There is nothing to show while the source is refused (${said}).`;
    node.replaceChildren(made("div", { className: "aside", textContent: sentence }));
  }

  /** Marks what belongs to a line of the source, and shows it. */
  follow(line) {
    if (element("panel-inside").hidden) return;
    let first = null;
    for (const row of element("listing").children) {
      const isAt = row.dataset.line === String(line);
      row.classList.toggle("at", isAt);
      if (isAt) first ??= row;
    }
    const box = element("listing");
    if (first && document.activeElement !== box) {
      const top = first.offsetTop - box.offsetTop;
      if (top < box.scrollTop || top > box.scrollTop + box.clientHeight - 60) box.scrollTop = top - box.clientHeight / 3;
    }
  }

  async explain() {
    const { project } = this.app;
    const name = this.name();
    if (!this.app.mayCompile() || name === undefined) return null;
    const answer = await this.app.compiler.ask(["explain", "--out", "report.html", ...project.getWords(), "--", name], project.content(), 60);
    return answer.files.get("report.html") ?? null;
  }

  /** Shows the report in a frame of its own, which has no part in this page. Only the report's script runs there: the policy names its digest. */
  async showReport() {
    const frame = element("report");
    const hint = element("explain-hint");
    const report = await this.explain();
    hint.textContent = report ? REPORT_HINT : "There is nothing to explain while the source is refused.";
    frame.hidden = report === null;
    const text = report ? inColours(textOf(report), document.documentElement.dataset.theme) : "";
    if (report && frame.srcdoc !== text) frame.srcdoc = text;
  }
}

/** A report in the colours that the user has chosen for the page. By itself it follows the system's. */
function inColours(report, theme) {
  if (!theme) return report;
  return report.replace("color-scheme: light dark", `color-scheme: ${theme}`);
}

/** The rows of a listing, each with the line of the source that it belongs to. */
function rows(text, kind) {
  let line = "";
  return text.replace(/\n$/, "").split("\n").map((row) => {
    const source = kind === "code" && row.match(SOURCE_LINE);
    if (source) {
      [, line] = source;
      return withLine(made("div", { className: "source" }, `${line.padStart(4)}  `, made("b", { textContent: source[2] })), line);
    }
    if (kind === "tokens") return withLine(made("div", { textContent: row }), row.match(TOKEN_LINE)?.[1]);
    if (kind === "tree") return withLine(made("div", { textContent: row }), row.match(TREE_LINE)?.[1]);
    if (kind === "scopes") return withLine(made("div", { textContent: row }), row.match(NAMED_LINE)?.[1]);
    if (kind === "code") return withLine(codeRow(row), line);
    return made("div", { textContent: row });
  });
}

/** A row of code: its items, and its comment in a quieter colour. */
function codeRow(row) {
  const at = row.indexOf("/");
  return at < 0 ? made("div", { textContent: row }) : made("div", {}, row.slice(0, at), made("span", { className: "aside", textContent: row.slice(at) }));
}

function withLine(node, line) {
  if (line) node.dataset.line = line;
  return node;
}
