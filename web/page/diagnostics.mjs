// What the compiler says about sources, taken from the objects of `--messages json` (docs/messages.md), or from the text that `--places always`
// prints. The rest of the page knows diagnostics by the fields below.

const HEAD = /^(.+?):(\d+):(\d+): (?:(warning): )?(.*)$/;
const EXCERPT = /^ *(\d+) \| /;
const CARETS = /^ *\| ( *)(\^+)/;
const NOTE = /^ {2}(.+?):(\d+):(\d+): (.*)$/;
const HELP = /^ {2}help: (.*)$/;
const GET = /^ {2}GET from (.+?):(\d+)$/;
const FIRST = /^bcpl: (.*)$/;

/**
 * The diagnostics of a text: `{ severity, file, line, column, width, sentence, notes, helps, gets }`. Columns count places on the
 * screen from 1 on, as the compiler prints them; `width` is the number of places that are marked. `notes` are further places, with
 * the same fields of a place and a sentence. `refusal` is the first line, for scripts, or an empty text.
 */
export function readDiagnostics(text) {
  return text.startsWith("{") ? readObjects(text) : readText(text);
}

function readObjects(text) {
  const objects = text.split("\n").filter((line) => line.startsWith("{")).map((line) => JSON.parse(line));
  const first = objects.find(({ code, file }) => code || file === undefined);
  const refusal = first ? first.code || first.message : "";
  return { refusal, diagnostics: objects.filter(({ file }) => file !== undefined).map(ofObject) };
}

function ofObject({ severity, message, help, related = [], ...place }) {
  const notes = related.map((other) => ({ ...placeOfObject(other), sentence: other.message }));
  return { ...placeOfObject(place), severity, sentence: message, notes, helps: help ? [help] : [], gets: [] };
}

function placeOfObject({ file, line, column, end }) {
  return { file, line, column, width: Math.max(1, (end ?? column + 1) - column) };
}

function readText(text) {
  const found = [];
  let refusal = "";
  let place = null;
  for (const line of text.split("\n")) {
    const head = line.match(HEAD);
    const last = found.at(-1);
    let match = null;
    if (line.match(FIRST) && found.length === 0) {
      refusal = line.match(FIRST)[1];
    } else if (last && (match = line.match(NOTE))) {
      place = placeOf(match);
      last.notes.push({ ...place, sentence: match[4] });
      place = last.notes.at(-1);
    } else if (last && (match = line.match(HELP))) {
      last.helps.push(match[1]);
    } else if (last && (match = line.match(GET))) {
      last.gets.push({ file: match[1], line: Number(match[2]) });
    } else if (place && (match = line.match(CARETS))) {
      place.width = match[2].length;
    } else if (head && !EXCERPT.test(line)) {
      place = { ...placeOf(head), severity: head[4] ?? "error", sentence: head[5], notes: [], helps: [], gets: [] };
      found.push(place);
    }
  }
  return { refusal, diagnostics: found };
}

function placeOf([, file, line, column]) {
  return { file, line: Number(line), column: Number(column), width: 1 };
}

const TAB = 8;
const WIDE = /[\u1100-\u115f\u2e80-\ua4cf\uac00-\ud7a3\uf900-\ufaff\ufe30-\ufe6f\uff00-\uff60\uffe0-\uffe6\u{1f300}-\u{1faff}\u{20000}-\u{3fffd}]/u;

/** How many places a character takes that begins at such a place, counted from 0. */
function placesOf(character, at) {
  if (character === "\t") return TAB - (at % TAB);
  return WIDE.test(character) ? 2 : 1;
}

/** The indices into a line between which these places of the screen lie. */
export function spanInLine(line, column, width) {
  let at = 0;
  let index = 0;
  let start = null;
  for (const character of line) {
    if (start === null && at >= column - 1) start = index;
    if (at >= column - 1 + width) break;
    at += placesOf(character, at);
    index += character.length;
  }
  start ??= index;
  return [start, Math.max(index, start)];
}
