// Converts a source in an old dialect and shows what was replaced.
import { bytesOf, element, made, textOf } from "./dom.mjs";

const EXAMPLE = `// An old source, as it was typed in the seventies
get "libhdr"
let start() be
{ let v = vec 10
  for i = 0 to 10 do v!i := i*i
  writes("squares: ")
  for i = 0 to 10 if 10 < v!i < 90 do writef("%n ", v!i)
  newline()
}
`;

/** Of longer texts each line is compared with the line of the same number only, so that the comparison stays quick. */
const MOST_LINES = 2000;

export class Convert {
  constructor(app) {
    this.app = app;
    this.converted = null;
    element("convert").addEventListener("click", () => this.convert());
    element("old-example").addEventListener("click", () => {
      element("old").value = EXAMPLE;
      this.convert();
    });
    element("take-converted").addEventListener("click", () => app.openProgram("converted.bcpl", this.converted));
  }

  async convert() {
    const old = element("old").value;
    const { out, errors, status, failure } = await this.app.compiler.ask(["convert", "--places", "always", "old.bcpl"], [["old.bcpl", bytesOf(old)]]);
    this.converted = textOf(out ?? new Uint8Array(0));
    const count = this.show(old, this.converted);
    const replaced = count === 0 ? "Nothing had to be replaced." : `${count} ${count === 1 ? "line differs" : "lines differ"}.`;
    element("convert-said").textContent = failure ?? (status === 0 ? replaced : `${replaced} What is listed below must be done by hand.`);
    element("convert-errors").textContent = textOf(errors ?? new Uint8Array(0)).trimEnd();
    element("take-converted").disabled = this.converted === "";
  }

  /** Shows the converted text, with the lines marked that differ, and returns how many do. */
  show(old, converted) {
    const rows = differences(old.split("\n"), converted.split("\n"));
    const shown = ({ line, before }) =>
      before === line ? made("div", { textContent: line }) : made("div", { className: "changed" }, ...changedPieces(before, line));
    element("new").replaceChildren(...rows.map(shown));
    return rows.filter(({ line, before }) => before !== line).length;
  }
}

/** The new lines, each with the old line that it comes from, or an empty text. */
function differences(old, lines) {
  const common = old.length + lines.length > 2 * MOST_LINES ? [] : commonLines(old, lines);
  const rows = [];
  let from = 0;
  let to = 0;
  for (const [i, k] of [...common, [old.length, lines.length]]) {
    for (; to < k; to += 1) rows.push({ line: lines[to], before: from < i ? old[from++] : "" });
    if (k < lines.length) rows.push({ line: lines[k], before: old[i] });
    from = i + 1;
    to = k + 1;
  }
  return rows;
}

/** The longest common subsequence of lines, as pairs of indices. */
function commonLines(old, lines) {
  const width = lines.length + 1;
  const lengths = new Uint16Array((old.length + 1) * width);
  for (let i = old.length - 1; i >= 0; i -= 1) {
    for (let k = lines.length - 1; k >= 0; k -= 1) {
      lengths[i * width + k] = old[i] === lines[k] ? lengths[(i + 1) * width + k + 1] + 1 : Math.max(lengths[(i + 1) * width + k], lengths[i * width + k + 1]);
    }
  }
  const pairs = [];
  for (let i = 0, k = 0; i < old.length && k < lines.length; ) {
    if (old[i] === lines[k]) pairs.push([i++, k++]);
    else if (lengths[(i + 1) * width + k] >= lengths[i * width + k + 1]) i += 1;
    else k += 1;
  }
  return pairs;
}

/** A changed line, with the words marked that the old line doesn't have at their place. */
function changedPieces(before, line) {
  const words = (text) => text.match(/\s+|[A-Za-z0-9.]+|[^\sA-Za-z0-9.]/g) ?? [];
  const old = words(before);
  const kept = new Set(commonLines(old, words(line)).map(([, k]) => k));
  return words(line).map((word, k) => (kept.has(k) || /^\s+$/.test(word) ? word : made("mark", { textContent: word })));
}
