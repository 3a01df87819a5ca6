// The certificate, checked by the checker, and the image's size by part and routine.
import { counted, element, grouped, made, textOf } from "./dom.mjs";

const CHECKED = /^ok (\d+) (\d+)$/m;
const SEGMENT = /^\/ segment (\d+).*\bbegins at (\d+)/gm;

export class Certificate {
  constructor(app) {
    this.app = app;
  }

  async show() {
    const node = element("certificate");
    const { built } = this.app.problems;
    if (!built) {
      node.replaceChildren(made("p", { className: "hint", textContent: "There is no certificate while the sources are refused." }));
      return;
    }
    const files = [["out.int", built.text], ["out.cert", (await this.app.problems.certificate()) ?? new Uint8Array(0)]];
    const check = await this.app.compiler.ask(["check", "out.cert", "out.int"], files, 60);
    const list = await this.app.compiler.ask(["list", "out.int"], files, 60);
    const routines = await this.routines();
    if (built !== this.app.problems.built) return;
    node.replaceChildren(...checkedParts(check), ...imageParts(textOf(list.out), built, this.app.project, routines));
  }

  /** For each section the words of its routines, as the report of `explain` has them. */
  async routines() {
    const found = new Map();
    const { project, compiler } = this.app;
    for (const name of project.sectionNames()) {
      const answer = await compiler.ask(["explain", "--out", "report.html", ...project.getWords(), "--", name], project.content(), 60);
      const report = answer.files.get("report.html");
      if (report) found.set(name, rowsOf(textOf(report)));
    }
    return found;
  }
}

/** The words of a report's routines and data, from the data of the report. The document that is read this way is never shown. */
function rowsOf(report) {
  const data = new DOMParser().parseFromString(report, "text/html").querySelector("#data");
  const { sources = [], files = [] } = JSON.parse(data?.textContent ?? "{}");
  const [file] = files;
  if (!file) return [];
  const places = placesOf(file.leaves);
  const rows = [];
  let dataWords = 0;
  for (const [kind, of, more, words] of file.runs) {
    if (kind === "c" && more === "routine") rows.push([textAt(sources, places[of]), 0]);
    if (kind === "d") dataWords += words;
    else if (rows.length && kind === "c") rows.at(-1)[1] += words;
    else if (rows.length && more === 1) rows.at(-1)[1] += file.roots[of][4];
  }
  return [...rows, ["data", dataWords]];
}

/** The places of a file's leaves, as the report has them: the source, the line, the bytes before it and its own bytes; none in the library. */
function placesOf(leaves) {
  const places = [];
  let source = 0;
  for (let at = 0; at < leaves.length; at += 1) {
    if (leaves[at] < 0) source = -leaves[at] - 1;
    else if (leaves[at] === 0) places.push(null);
    else {
      places.push([source, ...leaves.slice(at, at + 3)]);
      at += 2;
    }
  }
  return places;
}

function textAt(sources, place) {
  if (!place) return "";
  const [source, line, from, bytes] = place;
  const text = new TextEncoder().encode(sources[source]?.lines[line - 1] ?? "");
  return new TextDecoder().decode(text.slice(from, from + bytes));
}

function checkedParts(check) {
  const numbers = textOf(check.out).match(CHECKED);
  if (!numbers) return [made("p", { className: "sum", textContent: `The checker doesn't accept the certificate: ${textOf(check.errors)}` })];
  const [entries, words] = numbers.slice(1).map(Number);
  const roots = counted(entries, "expression, test or assignment", "expressions, tests and assignments");
  const sum = `The code of ${roots}, the library's among them, takes ${counted(words, "word")}; no derivation from the rule table takes fewer.`;
  const why = "The checker is proved, and reads only the certificate and the text: you don't have to trust the compiler. Download has both.";
  return [
    made("p", { className: "sum" }, made("span", { className: "good", textContent: "✓ The checker accepts the certificate. " }), sum),
    made("p", { className: "hint", textContent: why }),
  ];
}

/** The image as a table: its parts, and within the sections their routines. */
function imageParts(listing, built, project, routines) {
  const starts = [...listing.matchAll(SEGMENT)].map((match) => Number(match[2]));
  const names = ["primitives", "library BLIB", ...(project.needsExtension() ? ["library EXTLIB"] : []), ...project.sectionNames()];
  if (starts.length !== names.length) return [];
  const rows = [["boot and globals", starts[0], false]];
  names.forEach((name, k) => {
    rows.push([name, (starts[k + 1] ?? built.base) - starts[k], false]);
    for (const [routine, words] of routines.get(name) ?? []) rows.push([routine, words, true]);
  });
  const largest = Math.max(...rows.map(([, words]) => words));
  const heads = made("tr", {}, made("th", { textContent: "part" }), made("th", { className: "number", textContent: "words" }), made("td"));
  const body = [...rows.map((row) => rowOf(row, largest)), rowOf(["all, up to the stack", built.base, null], largest)];
  return [made("h2", { textContent: "The image, part by part" }), made("table", {}, made("thead", {}, heads), made("tbody", {}, ...body))];
}

function rowOf([name, words, isInner], largest) {
  const bar = made("div", { className: "share" });
  bar.style.width = `${Math.round((100 * words) / largest) / 10}rem`;
  const className = isInner === null ? "whole" : isInner ? "inner" : "";
  const count = made("td", { className: "number", textContent: grouped(words) });
  return made("tr", { className }, made("th", { scope: "row", textContent: name }), count, made("td", {}, isInner === null ? "" : bar));
}
