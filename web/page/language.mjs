// The lexical side of BCPL, for the editor: what each part of a line is, and which brackets belong together. docs/language.md defines it.

const WORDS = new Set(
  `AND BE BREAK BY CASE DEFAULT DO ELSE ENDCASE EQ EQV FALSE FINISH FOR GE GET GLOBAL GOTO GR IF INTO LE LET LOGAND LOGOR LOOP LS LSHIFT
  MANIFEST NE NEQV NOT OR REM REPEAT REPEATUNTIL REPEATWHILE RESULTIS RETURN RSHIFT STATIC SWITCHON TABLE TEST THEN TO TRUE UNLESS UNTIL
  VALOF VEC WHILE`.split(/\s+/),
);

const PARTS = new RegExp(
  [
    String.raw`(?<comment>\/\/.*|\|\|.*)`,
    String.raw`(?<opens>\/\*)`,
    String.raw`(?<string>"(?:\*.|[^"*])*"?|'(?:\*.|[^'*])'?)`,
    String.raw`(?<section>\$[()][A-Za-z0-9.]*)`,
    String.raw`(?<bracket>[()])`,
    String.raw`(?<number>#X[0-9A-Fa-f]+|#[0-7]+|[0-9]+)`,
    String.raw`(?<name>[A-Za-z][A-Za-z0-9.]*)`,
    String.raw`(?<sign>:=|->|<=|>=|~=|<<|>>|\/\\|\\\/|[-+*\/=<>&|~!@,;:])`,
  ].join("|"),
  "g",
);

/** Lines that were read before, since a change touches only few lines of a text. */
const read = new Map();
const MOST_READ = 20_000;

/** Like partsOf, but reads each line once. */
export function knownPartsOf(line, isInside) {
  const key = `${Number(isInside)}${line}`;
  let found = read.get(key);
  if (found === undefined) {
    if (read.size > MOST_READ) read.clear();
    read.set(key, (found = partsOf(line, isInside)));
  }
  return found;
}

/**
 * The parts of a line that aren't plain: `[kind, start, end]`. `isInside` says whether the line begins inside a comment, and the answer's
 * `isInside` whether the next one does.
 */
function partsOf(line, isInside) {
  const parts = [];
  let at = 0;
  if (isInside) {
    const end = line.indexOf("*/");
    if (end < 0) return { parts: [["comment", 0, line.length]], isInside: true };
    parts.push(["comment", 0, end + 2]);
    at = end + 2;
  }
  PARTS.lastIndex = at;
  for (let match = PARTS.exec(line); match !== null; match = PARTS.exec(line)) {
    const start = match.index;
    if (match.groups.opens) {
      const end = line.indexOf("*/", start + 2);
      parts.push(["comment", start, end < 0 ? line.length : end + 2]);
      if (end < 0) return { parts, isInside: true };
      PARTS.lastIndex = end + 2;
    } else {
      parts.push([kindOf(match), start, start + match[0].length]);
    }
  }
  return { parts, isInside: false };
}

function kindOf({ groups }) {
  if (groups.name) return WORDS.has(groups.name) ? "word" : "name";
  return Object.keys(groups).find((kind) => groups[kind] !== undefined);
}

/** All brackets of a text, in order: `{ text, start, line }`. */
function bracketsOf(text) {
  const found = [];
  let isInside = false;
  let start = 0;
  text.split("\n").forEach((line, number) => {
    const { parts, isInside: isStillInside } = knownPartsOf(line, isInside);
    isInside = isStillInside;
    for (const [kind, from, to] of parts) {
      if (kind === "bracket" || kind === "section") found.push({ text: line.slice(from, to), start: start + from, line: number });
    }
    start += line.length + 1;
  });
  return found;
}

const opens = (bracket) => bracket.text === "(" || bracket.text.startsWith("$(");
const tagOf = (bracket) => bracket.text.slice(2);

/** The pairs of brackets that belong together. A tagged `$)` also closes the sections inside its own. */
function pairsOf(brackets) {
  const pairs = [];
  const open = [];
  for (const bracket of brackets) {
    if (opens(bracket)) {
      open.push(bracket);
    } else if (bracket.text === ")") {
      if (open.at(-1)?.text === "(") pairs.push([open.pop(), bracket]);
    } else {
      while (open.length > 0 && open.at(-1).text === "(") open.pop();
      const tag = tagOf(bracket);
      const isNamed = tag !== "" && open.some((other) => tagOf(other) === tag);
      while (isNamed && tagOf(open.at(-1)) !== tag) open.pop();
      if (open.length > 0) pairs.push([open.pop(), bracket]);
    }
  }
  return { pairs, open };
}

let paired = { text: null, pairs: [] };

/** The pair of which a bracket touches this place of the text, or null. The pairs of the last text are kept. */
export function pairAt(text, at) {
  if (paired.text !== text) paired = { text, pairs: pairsOf(bracketsOf(text)).pairs };
  const { pairs } = paired;
  const touches = ({ start, text: bracket }) => start <= at && at <= start + bracket.length;
  return pairs.find((pair) => pair.some(touches)) ?? null;
}

/** How far the line after these lines is indented: to what follows the innermost open `$(`, or as the last line is. */
export function indentAfter(text) {
  const { open } = pairsOf(bracketsOf(text));
  const lineStart = text.lastIndexOf("\n") + 1;
  const line = text.slice(lineStart);
  const own = line.match(/^[ \t]*/)[0];
  const inner = open.filter(({ text: bracket }) => bracket.startsWith("$(")).at(-1);
  if (inner === undefined || inner.start < lineStart) return own;
  const column = inner.start - lineStart;
  const before = /^\s*$/.test(line.slice(0, column)) ? column : own.length;
  return " ".repeat(before + 3);
}

/** How far a `$)` at the end of this text is indented: as the line of its `$(` is, or as the `$(` itself where it begins its line. */
export function indentOfClosing(text) {
  const { pairs } = pairsOf(bracketsOf(text));
  const pair = pairs.find(([, closing]) => closing.start + closing.text.length === text.length);
  if (pair === undefined) return null;
  const lineStart = text.lastIndexOf("\n", pair[0].start - 1) + 1;
  const indent = text.slice(lineStart).match(/^[ \t]*/)[0];
  return indent;
}

/** The names that a source gets: GET "NAME". */
export function namesGot(text) {
  return [...text.matchAll(/\bGET\s*"([^"\n]*)"/g)].map((match) => match[1]);
}
