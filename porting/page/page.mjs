// The page over the interpreter of intcode.mjs. `make` puts both into index.html, with the helpers for elements that web/page has as well.
import { bytesOf, counted, element, grouped, made, pictured, textOf } from "../../web/page/dom.mjs";
import { DeviceFault, FUNCTIONS, G, GLOBALS, Machine, Refusal, SEGMENTS, Streams, linkTexts, signed } from "../javascript/intcode.mjs";

// ---- What the page keeps

/** The examples that `make` put into the page: `{ name, group, title, text, input, inputs, outputs, steps }`. */
const examples = JSON.parse(element("examples").textContent);

/** The inputs and outputs, as they are typed in. */
let inputs = []; // { name, text, bytes, at }: `at` counts the bytes that the run has read
let outputs = []; // { name, bytes, count }: the bytes stand in a buffer that grows

let image = null; // of the loaded text, or null where none could be loaded
let machine = null;
let streams = null;
let lines = []; // those of the listing
let spent = 0; // instructions of this run
let end = null; // the run's end, where it has met one
let told = ""; // how it last stopped
let isRunning = false;
let text = new Uint8Array(0); // the bytes of the program's text, as they were typed in or read from a file
let textIsNew = false; // the text was changed since it was loaded
let before = {}; // the registers at the stop before

const BREAKPOINT = 1;
const TARGET = 2;
/** For each address: BREAKPOINT, TARGET where a step over or out may stop, both, or 0. */
const marks = new Uint8Array(65536);
let target = null; // { C, P } of a step over or out

// ---- The streams of a run

/** The most bytes that an output keeps; more are a failure of its device. */
const OUTPUT_LIMIT = 16_777_216;

function deviceOfInput(input) {
  input.at = 0;
  return { name: bytesOf(input.name), read: () => (input.at < input.bytes.length ? input.bytes[input.at++] : -1) };
}

function deviceOfOutput(output) {
  output.bytes = new Uint8Array(1024);
  output.count = 0;
  const write = (byte) => {
    if (output.count === OUTPUT_LIMIT) throw new DeviceFault();
    if (output.count === output.bytes.length) {
      const larger = new Uint8Array(2 * output.count);
      larger.set(output.bytes);
      output.bytes = larger;
    }
    output.bytes[output.count] = byte;
    output.count += 1;
  };
  return { name: bytesOf(output.name), write, flush: () => {} };
}

// ---- What refusals mean

const TEXT_REFUSALS = {
  BadCharacter: "no item begins with this character",
  BadNumber: "a digit is wanted here, or the number is out of its range",
  MissingLabel: "behind the number of a global, L and a label are wanted",
};

const SENTENCES = {
  Unended: () => "The text ends inside an item, or its last segment has no Z.",
  LabelUnset: (segment, label) => `Segment ${segment} speaks of the label ${label}, which stands nowhere in it.`,
  LabelTwice: (segment, label) => `The label ${label} stands twice in segment ${segment}.`,
  GlobalTwice: (number) => `The global ${number} is set twice.`,
  TooLarge: () => "The segments leave less than 64 words for the stack.",
  NameTooLong: () => "The name of a stream has more than 255 bytes.",
  NameTwice: () => "Two inputs, or two outputs, have the same name.",
};

/** The place in front of which stand so many bytes of the text: in characters of the field, and as line and column. */
function placeAt(count) {
  const front = inField(text.subarray(0, count));
  const last = front.split("\n");
  return { at: front.length, line: last.length, column: last.at(-1).length + 1 };
}

/** Bytes as a field shows them, where each line ends in LF. */
const inField = (bytes) => textOf(bytes).replace(/\r\n?/g, "\n");

/** Tells a refusal, and chooses its place in the text. */
function tellRefusal(refusal) {
  tell("There is nothing to run: the text or its streams were refused.");
  const [, , name, ...fields] = refusal.message.split(" ");
  const field = element("text");
  if (name in TEXT_REFUSALS) {
    const place = placeAt(Number(fields[0]));
    element("fault").textContent =
      `Refused, line ${place.line}, column ${place.column}: ${TEXT_REFUSALS[name]} (${refusal.message}).`;
    field.focus();
    field.setSelectionRange(place.at, place.at + 1);
  } else {
    element("fault").textContent = `Refused: ${SENTENCES[name](...fields)} (${refusal.message})`;
  }
}

// ---- Loading and restarting

/** Puts the machine at its start, with fresh streams. Gives whether the streams were taken. */
function restart() {
  halt();
  end = null;
  spent = 0;
  told = "";
  before = {};
  if (image === null) return false;
  try {
    streams = new Streams(inputs.map(deviceOfInput), outputs.map(deviceOfOutput));
  } catch (refusal) {
    if (!(refusal instanceof Refusal)) throw refusal;
    machine = null;
    show();
    tellRefusal(refusal);
    return false;
  }
  element("fault").textContent = "";
  machine = new Machine(image, streams);
  element("speed").textContent = "";
  show();
  chooseC();
  return true;
}

/** Loads the text that is typed in, and gives whether it was taken. */
function load() {
  halt();
  textIsNew = false;
  end = null;
  spent = 0;
  try {
    image = linkTexts([text]);
  } catch (refusal) {
    if (!(refusal instanceof Refusal)) throw refusal;
    image = machine = null;
    lines = [];
    show();
    tellRefusal(refusal);
    return false;
  }
  lines = linesOf(image);
  marks.fill(0);
  return restart();
}

/** Loads the text where it is new, or begins anew where the run has ended; gives whether there is a machine that can go on. */
function isReady() {
  if (textIsNew || image === null) return load();
  if (machine === null) return restart();
  return true;
}

/** Puts a text into the field. */
function setText(bytes) {
  text = bytes;
  element("text").value = inField(bytes);
}

function loadExample(example) {
  setText(bytesOf(example.text));
  inputs = [["SYSIN", example.input], ...example.inputs].map(([name, text]) => ({ name, text, bytes: bytesOf(text), at: 0 }));
  outputs = ["SYSPRINT", ...example.outputs].map((name) => ({ name, bytes: new Uint8Array(0), count: 0 }));
  element("budget").value = grouped(example.steps);
  showStreams();
  load();
}

/** The bytes of files, one behind another, with a line feed between two. */
async function contentOf(files) {
  const contents = await Promise.all([...files].map((file) => file.arrayBuffer()));
  return new Uint8Array(await new Blob(contents.flatMap((content, i) => (i === 0 ? [content] : ["\n", content]))).arrayBuffer());
}

/** Loads files as one text. */
async function openFiles(files) {
  if (files.length === 0) return;
  setText(await contentOf(files));
  element("example").value = "";
  load();
}

// ---- Running

/** The budget, or null where the field has no number. */
function budget() {
  const digits = element("budget").value.replace(/[,\s]/g, "");
  return /^\d{1,15}$/.test(digits) ? Number(digits) : null;
}

/** Carries out at most `count` instructions, up to an end or a marked address, and gives why it stopped, or null. */
function carryOut(count) {
  const it = machine;
  const stops = marks;
  let why = null;
  let k = 0;
  while (k < count && why === null) {
    end = it.step();
    k += 1;
    if (end !== null) why = "end";
    else if (stops[it.C] !== 0) why = reasonToStop(stops[it.C]);
  }
  spent += k;
  return why;
}

/** Why the mark at C stops, or null: a breakpoint does, and the target of a step where its frame is at work again. */
function reasonToStop(mark) {
  if (mark & BREAKPOINT) return "breakpoint";
  return machine.P === target.P ? "target" : null;
}

/** How many instructions are carried out between two looks at the clock. */
const SLICE = 50_000;

/** For how many milliseconds instructions are carried out in one go, and after how many what they did is shown. */
const GO = 14;
const SHOW = 200;

const turns = new MessageChannel();
let runs = 0; // how many runs were begun
let started = 0; // when the last one began, and after how many instructions
let startedAt = 0;
let shownAt = 0;

/** Runs on until something stops it, where no other run was begun since. The browser gets its turn between goes. */
function goOn(number) {
  if (!isRunning || number !== runs) return;
  const most = budget() ?? 0;
  const until = performance.now() + GO;
  let why = null;
  while (why === null && spent < most && performance.now() < until) why = carryOut(Math.min(SLICE, most - spent));
  if (why === null && spent >= most) why = "budget";
  if (why !== null) {
    stopped(why);
  } else {
    if (performance.now() - shownAt > SHOW) showProgress();
    turns.port2.postMessage(number);
  }
}
turns.port1.onmessage = (event) => goOn(event.data);

/** Begins to run, to a target where there is one. */
function runTo(newTarget) {
  if (isRunning || !mayGoOn()) return;
  target = newTarget;
  if (target !== null) marks[target.C] |= TARGET;
  before = registersNow();
  isRunning = true;
  runs += 1;
  started = shownAt = performance.now();
  startedAt = spent;
  document.body.classList.add("running");
  tell("Running …");
  showButtons();
  goOn(runs);
}

/** Whether an instruction may be carried out: says why not, where not. */
function mayGoOn() {
  if (!isReady()) return false;
  if (end !== null) {
    tell(`The run has ended: ${told} Restart begins it anew.`);
    return false;
  }
  const most = budget();
  if (most !== null && spent < most) return true;
  tell(most === null ? "The most instructions must be a number." : `${BUDGET_SPENT} Give it more, or restart.`);
  return false;
}

const BUDGET_SPENT = "The budget is spent (ended BudgetSpent).";

/** Stops running, without a word. */
function halt() {
  isRunning = false;
  if (target !== null) marks[target.C] &= ~TARGET;
  target = null;
  document.body.classList.remove("running");
}

/** How a run ended, as a sentence. */
function sentenceOfEnd() {
  const at = `at ${placeName(machine.C)}`;
  if (end === "Finished") return `Finished after ${counted(spent, "instruction")}.`;
  if (end === "ZeroDivide") return `Ended ${at}: a division by zero (ended ZeroDivide).`;
  if (end === "Device") return `Ended ${at}: a stream failed, for want of room (ended Device).`;
  return `Ended ${at}: no such operation (ended ${end}).`;
}

/** The run stops, for this reason. */
function stopped(why) {
  const took = performance.now() - started;
  const ran = spent - startedAt;
  halt();
  const at = `at ${placeName(machine.C)}, after ${counted(spent, "instruction")}`;
  const sentences = { end: () => sentenceOfEnd(), breakpoint: () => `At the breakpoint ${at}.`, budget: () => BUDGET_SPENT };
  told = (sentences[why] ?? (() => `Stopped ${at}.`))();
  element("speed").textContent = ran >= 100_000 ? `, ${(ran / took / 1000).toFixed(1)} million a second` : "";
  tell(told);
  show();
  chooseC();
}

function run() {
  if (end !== null && !textIsNew && !restart()) return;
  runTo(null);
}

function stop() {
  if (isRunning) stopped("stop");
}

function step() {
  if (isRunning || !mayGoOn()) return;
  before = registersNow();
  started = performance.now();
  startedAt = spent;
  const why = carryOut(1);
  if (why === "end") {
    stopped(why);
  } else {
    show();
    tell(`At ${placeName(machine.C)}.`);
    chooseC();
  }
}

/** Begins anew, with the text that is typed in. */
const beginAnew = () => (textIsNew ? load() : restart());

/** At a call, runs until it has returned; else a step. */
function stepOver() {
  if (isRunning || !isReady()) return;
  const { length, f } = decoded(machine.C);
  if (f === 6 && end === null) runTo({ C: (machine.C + length) & 65535, P: machine.P });
  else step();
}

/** Runs until the frame at work has returned. */
function stepOut() {
  if (isRunning || !isReady()) return;
  if (machine.P === image.stackBase) return tell("This frame was not called: there is nothing to return to.");
  runTo({ C: machine.store[(machine.P + 1) & 65535], P: machine.store[machine.P] });
}

// ---- Instructions and places in words

const OPERATIONS = {
  1: "A := !A", 2: "A := -A", 3: "A := NOT A", 4: "return", 5: "A := B * A", 6: "A := B / A", 7: "A := B REM A", 8: "A := B + A",
  9: "A := B - A", 10: "A := B = A", 11: "A := B NE A", 12: "A := B < A", 13: "A := B GE A", 14: "A := B > A", 15: "A := B LE A",
  16: "A := B << A", 17: "A := B >> A", 18: "A := B & A", 19: "A := B | A", 20: "A := B NEQV A", 21: "A := B EQV A", 22: "finish",
  23: "switch on A", 24: "select input A", 25: "select output A", 26: "A := next byte", 27: "write A", 28: "find input A",
  29: "find output A", 33: "end the input", 34: "end the output",
};

const EFFECTS = ["B := A; A := D", "!D := A", "A := A + D", "C := D", "C := D if A is not 0", "C := D if A is 0",
  "the frame moves up by D, and C := A"];

const GLOBAL_NAMES = {
  1: "START", 11: "SELECTINPUT", 12: "SELECTOUTPUT", 13: "RDCH", 14: "WRCH", 15: "FINDINPUT", 16: "FINDOUTPUT", 17: "ENDREAD",
  18: "ENDWRITE", 20: "GETBYTE", 21: "PUTBYTE", 22: "WRITES", 23: "WRITEN", 24: "NEWLINE", 25: "WRITEF",
};

const globalName = (number) => GLOBAL_NAMES[number] ?? `global ${number}`;

/** A word as a printable character in quotes, or nothing. */
const character = (word) => (word > 32 && word < 127 ? `'${String.fromCharCode(word)}'` : "");

/** The parts of the instruction at an address, and the text that it would have. */
function decoded(at) {
  const store = machine?.store ?? image.store;
  const w = store[at];
  const isLong = (w & 512) !== 0;
  const address = isLong ? store[(at + 1) & 65535] : w & 511;
  const usesP = (w & 2048) !== 0;
  const usesG = (w & 1024) !== 0;
  const indirect = (w & 4096) !== 0;
  const f = w >> 13;
  const text = FUNCTIONS[f] + (indirect ? "I" : "") + (usesP ? "P" : "") + (usesG ? "G" : "") + address;
  return { f, indirect, usesP, usesG, isLong, address, text, length: isLong ? 2 : 1 };
}

/** The place of the segment in which an address lies, with its number, or undefined. */
function segmentAt(address) {
  const number = image.places.findIndex((place) => place.start <= address && address < place.end);
  return number < 0 ? undefined : { ...image.places[number], number };
}

/** The label that stands at an address or in front of it, in words, or nothing. */
function labelAt(address) {
  const segment = segmentAt(address);
  let best = null;
  for (const [label, at] of segment?.labels ?? []) if (at <= address && (best === null || at > best.at)) best = { label, at };
  if (best === null) return "";
  const behind = address - best.at;
  return `segment ${segment.number}, label ${best.label}${behind > 0 ? ` + ${behind}` : ""}`;
}

/** An address with its label. */
const placeName = (address) => (labelAt(address) === "" ? `${address}` : `${address} (${labelAt(address)})`);

/** What a word that is an address stands for, in words, or nothing. */
const standsFor = (address) => (address >= G && address < SEGMENTS ? globalName(address - G) : labelAt(address));

// ---- The listing

/** The lines of an image: titles, and a line for each item that has words, with the labels that stand at it. */
function linesOf({ places }) {
  const found = [{ title: "The start: calls global 1, and finishes" }, { address: 0 }, { address: 1 }, { address: 2 }];
  places.forEach((place, k) => {
    found.push({ title: k === 0 ? "Segment 0: the primitives" : `Segment ${k}` });
    const globals = place.items.filter((item) => item.kind === "global");
    let labels = [];
    place.items.forEach((item, i) => {
      if (item.kind === "label") labels.push(item.label);
      if (item.kind === "label" || item.kind === "global" || place.low[i]) return;
      const next = place.low[i + 1] ? place.items[i + 1] : null;
      const here = labels;
      const routines = globals.filter(({ label }) => here.includes(label)).map(({ number }) => number);
      found.push({ address: place.addresses[i], item, next, labels, globals: routines });
      labels = [];
    });
    if (labels.length > 0) found.push({ title: `Labels behind the last word: ${labels.join(", ")}` });
  });
  return found;
}

/** The lines with one for C put in where none stands at it. */
function linesWithC() {
  if (machine === null || lines.some((line) => line.address === machine.C)) return lines;
  const at = lines.findIndex((line) => line.address > machine.C);
  const line = { address: machine.C, labels: [], isStray: true };
  return at < 0 ? [...lines, line] : [...lines.slice(0, at), line, ...lines.slice(at)];
}

/** The words of an item as it was loaded, and those that stand there now. */
function wordsAt(line) {
  const store = machine?.store ?? image.store;
  const isOperation = line.item === undefined || line.item.kind === "operation" || line.address === machine?.C;
  const length = isOperation ? decoded(line.address).length : 1;
  const words = Array.from(store.subarray(line.address, line.address + length));
  const isChanged = line.address < image.stackBase && words.some((word, i) => word !== image.store[line.address + i]);
  return { words, isOperation, isChanged };
}

/** What a line says: the instruction or the data, and what it is about. */
function wordingOf(line) {
  const { words, isOperation, isChanged } = wordsAt(line);
  const { item, next } = line;
  let wording;
  if (isOperation) {
    wording = wordingOfInstruction(line, isChanged);
  } else if (item.kind === "address" && !isChanged) {
    wording = { text: `DL${item.label}`, about: placeName(words[0]) };
  } else if (item.kind === "byte" && !isChanged) {
    const bytes = [item, next].filter(Boolean).map((it) => it.number);
    wording = { text: bytes.map((byte) => `C${byte}`).join(" "), about: bytes.map(character).filter(Boolean).join(" ") };
  } else {
    const value = signed(words[0]);
    wording = { text: `D${words[0]}`, about: [value < 0 ? value : "", character(words[0])].filter((it) => it !== "").join(" ") };
  }
  const routines = (line.globals ?? []).map((number) => `${globalName(number)}:`);
  const about = [...routines, isChanged ? "changed," : "", `${wording.about}`].filter((it) => it !== "").join(" ");
  return { words, text: wording.text, about };
}

function wordingOfInstruction({ address, item }, isChanged) {
  const parts = decoded(address);
  const label = item?.base === "L" && !isChanged ? item.number : undefined;
  const letters = FUNCTIONS[parts.f] + (parts.indirect ? "I" : "");
  const text = label === undefined ? parts.text : `${letters}L${label}`;
  if (parts.f === 7 && !parts.indirect && !parts.usesP && !parts.usesG) return { text, about: OPERATIONS[parts.address] ?? "no operation" };
  if (parts.usesG && !parts.usesP) return { text, about: parts.address < GLOBALS ? globalName(parts.address) : "" };
  if (parts.f === 6) return { text, about: "call" };
  if (label !== undefined) return { text, about: `${parts.address}` };
  const value = signed(parts.address);
  if (parts.usesP) return { text, about: "" };
  return { text, about: value < 0 ? `${value}` : character(value) };
}

const ROW = 22; // the height of a row, as style.css has it
let shownLines = [];
let chosen = 0; // the index of the chosen line

/** Draws the rows that can be seen. */
function drawListing() {
  const listing = element("listing");
  const rows = element("rows");
  rows.style.height = `${shownLines.length * ROW}px`;
  const from = Math.max(0, Math.floor(listing.scrollTop / ROW) - 6);
  const to = Math.min(shownLines.length, from + Math.ceil(listing.clientHeight / ROW) + 12);
  const drawn = [];
  for (let i = from; i < to; i += 1) drawn.push(rowOf(i));
  rows.replaceChildren(...drawn);
  if (shownLines[chosen] !== undefined) listing.setAttribute("aria-activedescendant", `row-${chosen}`);
}

function rowOf(i) {
  const line = shownLines[i];
  const row = made("div", { id: `row-${i}`, className: "row" });
  row.style.top = `${i * ROW}px`;
  row.dataset.line = i;
  if (line.title) {
    row.className = "row title";
    row.setAttribute("role", "presentation");
    row.textContent = line.title;
    return row;
  }
  const { words, text, about } = wordingOf(line);
  const hasStop = (marks[line.address] & BREAKPOINT) !== 0;
  const isC = machine !== null && machine.C === line.address;
  row.setAttribute("role", "option");
  row.setAttribute("aria-selected", String(i === chosen));
  const labels = (line.labels ?? []).map((label) => `label ${label}`);
  const said = [line.address, ...labels, text, about, hasStop ? "breakpoint" : "", isC ? "C stands here" : ""];
  row.setAttribute("aria-label", said.filter((it) => it !== "").join(", "));
  row.classList.toggle("chosen", i === chosen);
  row.classList.toggle("at-c", isC);
  const signs = { stop: hasStop ? "●" : "", here: isC ? "▶" : "" };
  const cells = { ...signs, at: line.address, words: words.join(" "), label: (line.labels ?? []).join(" "), text, about };
  for (const [name, content] of Object.entries(cells)) row.append(made("span", { className: name, textContent: content }));
  row.title = about;
  return row;
}

/** Chooses a line, or the next one in this direction where a title stands; the line is brought into sight. */
function choose(index, direction = 1) {
  let i = Math.min(Math.max(index, 0), shownLines.length - 1);
  while (shownLines[i]?.title && shownLines[i + direction]) i += direction;
  while (shownLines[i]?.title && shownLines[i + 1]) i += 1;
  if (shownLines[i] === undefined) return;
  chosen = i;
  bringIntoSight(i);
  drawListing();
}

function bringIntoSight(i) {
  const listing = element("listing");
  const top = i * ROW;
  const room = listing.clientHeight;
  if (top < listing.scrollTop + ROW || top > listing.scrollTop + room - 3 * ROW) {
    listing.scrollTop = Math.max(0, top - Math.floor(room / 3));
  }
}

/** Chooses the line at C. */
function chooseC() {
  if (machine === null) return;
  choose(shownLines.findIndex((line) => line.address === machine.C));
}

function toggleBreakpoint(i = chosen) {
  const address = shownLines[i]?.address;
  if (address === undefined) return;
  marks[address] ^= BREAKPOINT;
  tell(marks[address] & BREAKPOINT ? `A breakpoint stands at ${placeName(address)}.` : `The breakpoint at ${address} is gone.`);
  drawListing();
}

// ---- Registers, frames and store

const registersNow = () => ({ A: machine.A, B: machine.B, C: machine.C, P: machine.P, G });

function showRegisters() {
  const now = registersNow();
  const rows = Object.entries(now).map(([name, word]) => {
    const isNew = before[name] !== undefined && before[name] !== word;
    const what = name === "A" || name === "B" ? character(word) || standsFor(word) : standsFor(word);
    return made("tr", {},
      made("td", { textContent: name, className: { C: "of-c", P: "of-p" }[name] ?? "" }),
      made("td", { textContent: word, className: isNew ? "new" : "", title: isNew ? `was ${before[name]}` : "" }),
      made("td", { textContent: signed(word) }),
      made("td", { textContent: word.toString(16).toUpperCase().padStart(4, "0") }),
      made("td", { textContent: name === "G" ? "the globals" : what }));
  });
  element("register-rows").replaceChildren(...rows);
}

/** What the next instruction does. */
function showNext() {
  const { f, text, usesP, usesG, indirect, address } = decoded(machine.C);
  const at = (address + (usesP ? machine.P : 0) + (usesG ? G : 0)) & 65535;
  const d = indirect ? machine.store[at] : at;
  const line = shownLines.find((it) => it.address === machine.C);
  const from = indirect ? `the content of ${at}` : usesP || usesG ? "an address" : "the number itself";
  const effect = f === 7 ? (OPERATIONS[d] ?? "no such operation") : EFFECTS[f];
  element("next").replaceChildren(
    end === "Finished" ? "Finished at " : "Next: ", made("code", { textContent: line ? wordingOf(line).text : text }),
    ` at ${machine.C}. D is ${d}${f === 7 && !indirect ? "" : `, ${from}`}. It does: ${effect}.`);
}

/** The frames, from that at work down to the first: the address of each, and that behind its last cell. */
function framesNow() {
  const found = [];
  let behind = (machine.P + 8) & 65535;
  for (let p = machine.P; found.length < 50; p = machine.store[p]) {
    found.push({ p, behind: Math.max(behind, p) });
    const next = machine.store[p];
    if (p === image.stackBase || next >= p || next < image.stackBase) break;
    behind = p;
  }
  return found;
}

/** The most cells that are shown of a frame. */
const CELLS = 16;

function showFrames() {
  const shown = framesNow().map(({ p, behind }, k) => {
    const isFirst = p === image.stackBase;
    const name = made("span", { className: k === 0 ? "of-p" : "", textContent: k === 0 ? `${p} = P` : `${p}` });
    const links = isFirst ? ", the first frame" : ` returns to ${placeName(machine.store[(p + 1) & 65535])}`;
    const count = Math.min(behind - p, CELLS);
    const cells = Array.from({ length: count }, (_, i) => cellOf(p, i, isFirst));
    if (behind - p > CELLS) cells.push(made("span", { textContent: `and ${behind - p - CELLS} more` }));
    return made("div", { className: "frame" }, name, links, made("div", { className: "cells" }, ...cells));
  });
  element("frame-list").replaceChildren(...shown);
}

function cellOf(p, i, isFirst) {
  const word = machine.store[(p + i) & 65535];
  const name = isFirst || i > 1 ? `P!${i}` : ["frame", "return"][i];
  const cell = made("span", { className: isFirst || i > 1 ? "cell" : "cell link" }, made("small", { textContent: name }), `${word}`);
  cell.title = [`address ${(p + i) & 65535}`, `signed ${signed(word)}`, character(word)].filter(Boolean).join(", ");
  return cell;
}

/** Draws rows of eight words from this address on, or of four where there is no room for eight. */
function dump(place, from, count) {
  const { store, C, P } = machine;
  const across = place.clientWidth < 365 ? 4 : 8;
  const rows = [];
  for (let at = 0; at < 8 * count; at += across) {
    const first = (from + at) & 65535;
    const words = Array.from({ length: across }, (_, i) => {
      const at = (first + i) & 65535;
      const className = at === C ? "is-c" : at === P ? "is-p" : "";
      const title = [`address ${at}`, `signed ${signed(store[at])}`, character(store[at]), standsFor(at)].filter(Boolean).join(", ");
      return made("span", { className, title, textContent: store[at] });
    });
    rows.push(made("div", {}, made("span", { className: "from", textContent: first }), ...words));
  }
  place.replaceChildren(...rows);
}

function showStore() {
  dump(element("around-c"), (machine.C & ~7) - 8, 3);
  dump(element("around-p"), (machine.P & ~7) - 8, 4);
  showFromAddress();
}

function showFromAddress() {
  const digits = element("address").value.trim();
  const address = /^\d{1,5}$/.test(digits) && Number(digits) < 65536 ? Number(digits) : null;
  element("address-is").textContent = address === null ? "an address is a number from 0 to 65535" : standsFor(address);
  if (address !== null && machine !== null) dump(element("around-address"), address, 3);
}

// ---- Streams on the page

/** The most bytes of an output that are shown. */
const SHOWN = 8_000;

function fieldOfInput(input, number) {
  const area = made("textarea", { value: input.text, rows: 2, spellcheck: false, id: `input-${number}` });
  area.addEventListener("input", () => {
    input.text = area.value;
    input.bytes = bytesOf(area.value);
    showCounts();
  });
  const said = made("span", { className: "said" });
  input.said = said;
  const file = made("input", { type: "file" });
  file.addEventListener("change", async () => {
    input.bytes = await contentOf(file.files);
    input.text = area.value = inField(input.bytes);
    restart();
  });
  const open = made("label", { className: "file" }, "Open a file", file);
  const first = made("label", { htmlFor: area.id }, made("b", { textContent: input.name }));
  const title = number === 1 ? first : nameField(input, "input", inputs);
  if (number > 1) area.setAttribute("aria-label", `The bytes of input ${number}`);
  return made("div", { className: "stream" }, made("div", { className: "line" }, `${number}`, title, said, open), area);
}

function fieldOfOutput(output, number) {
  const pre = made("pre", { tabIndex: 0, id: `output-${number}` });
  pre.setAttribute("aria-label", `Output ${number}`);
  const said = made("span", { className: "said" });
  Object.assign(output, { pre, said, drawn: -1 });
  const title = number === 1 ? made("b", { textContent: output.name }) : nameField(output, "output", outputs);
  return made("div", { className: "stream" }, made("div", { className: "line" }, `${number}`, title, said), pre);
}

/** The name of a stream beside the first one, which can be changed, and a button that takes the stream away. */
function nameField(stream, side, table) {
  const name = made("input", { value: stream.name, size: 8, autocomplete: "off", spellcheck: false });
  name.setAttribute("aria-label", `The name of this ${side}`);
  name.addEventListener("change", () => {
    stream.name = name.value;
    restart();
  });
  const away = made("button", { type: "button", textContent: "Remove" });
  away.setAttribute("aria-label", `Remove the ${side} ${stream.name}`);
  away.addEventListener("click", () => {
    table.splice(table.indexOf(stream), 1);
    showStreams();
    restart();
    element(`add-${side}`).focus();
  });
  return made("span", { className: "line" }, name, away);
}

function showStreams() {
  element("input-list").replaceChildren(...inputs.map((input, i) => fieldOfInput(input, i + 1)));
  element("output-list").replaceChildren(...outputs.map((output, i) => fieldOfOutput(output, i + 1)));
}

/** How far each stream is, and which ones are selected. */
function showCounts() {
  inputs.forEach((input, i) => {
    input.said.textContent = `${isSelected("inputs", i)}${input.at} of ${counted(input.bytes.length, "byte")} read`;
  });
  outputs.forEach((output, i) => {
    const cut = output.count > SHOWN ? ", the last of which are shown" : "";
    output.said.textContent = `${isSelected("outputs", i)}${counted(output.count, "byte")}${cut}`;
    if (output.drawn === output.count) return;
    const shown = output.bytes.subarray(Math.max(0, output.count - SHOWN), output.count);
    output.pre.textContent = pictured(textOf(shown));
    output.pre.scrollTop = output.pre.scrollHeight;
    output.drawn = output.count;
  });
}

function isSelected(table, i) {
  if (machine === null) return "";
  const { streams: all, selectedNumber: number } = streams[table];
  return number === i + 1 ? "selected, " : all[i]?.hasEnded ? "ended, " : "";
}

function addStream(table, side) {
  let number = table.length + 1;
  while (table.some((stream) => stream.name === `NAME${number}`)) number += 1;
  table.push({ name: `NAME${number}`, text: "", bytes: new Uint8Array(0), at: 0, count: 0 });
  showStreams();
  restart();
  element(`${side}-list`).lastChild.querySelector("input").select();
}

// ---- Showing it all

function tell(sentence) {
  element("status").textContent = sentence;
}

function showProgress() {
  shownAt = performance.now();
  element("count").textContent = `${grouped(spent)} carried out`;
  element("speed").textContent = `, ${((spent - startedAt) / (shownAt - started) / 1000).toFixed(1)} million a second`;
  showCounts();
}

function showButtons() {
  const mayNotStep = isRunning || end !== null;
  const off = { run: isRunning, stop: !isRunning, step: mayNotStep, over: mayNotStep, out: mayNotStep };
  for (const [id, isOff] of Object.entries(off)) element(id).setAttribute("aria-disabled", String(isOff));
}

/** Shows the state of everything, as the machine stands still. */
function show() {
  shownLines = linesWithC();
  if (chosen >= shownLines.length) chosen = 0;
  element("count").textContent = `${grouped(spent)} carried out`;
  element("loaded").textContent = loadedSentence();
  showButtons();
  showCounts();
  drawListing();
  if (machine === null) {
    for (const id of ["register-rows", "frame-list", "around-c", "around-p", "around-address", "next"]) element(id).replaceChildren();
    tell("");
    return;
  }
  showRegisters();
  showNext();
  showFrames();
  showStore();
  if (spent === 0) tell("Ready at 0.");
}

function loadedSentence() {
  if (textIsNew) return "Changed: it is loaded before the next run or step.";
  if (image === null) return "";
  return `${counted(image.places.length, "segment")}, with the primitives; the stack begins at ${image.stackBase}.`;
}

// ---- What the user does

const isField = (node) => node.matches("textarea, select, input:not([type=checkbox])");

const focusOn = (id) => () => element(id).focus();

const KEYS = {
  r: run, ".": stop, Escape: stop, s: step, o: stepOver, u: stepOut, x: beginAnew, b: () => toggleBreakpoint(), c: chooseC,
  l: focusOn("listing"), e: focusOn("text"), i: focusOn("input-1"), a: () => element("address").select(),
  "?": () => element("keys").showModal(),
};

function onKey(event) {
  if (event.defaultPrevented || element("keys").open) return;
  if (event.key === "Enter" && (event.ctrlKey || event.metaKey)) {
    event.preventDefault();
    load();
    return;
  }
  if (event.ctrlKey || event.metaKey || event.altKey) return;
  if (isField(event.target)) {
    if (event.key === "Escape") element("listing").focus();
    return;
  }
  const action = KEYS[event.key.length === 1 ? event.key.toLowerCase() : event.key];
  if (action === undefined || (event.key !== "Escape" && !element("letters").checked)) return;
  event.preventDefault();
  action();
}

function onListingKey(event) {
  if (event.ctrlKey || event.metaKey || event.altKey) return;
  const page = Math.max(1, Math.floor(element("listing").clientHeight / ROW) - 1);
  const moves = { ArrowDown: 1, ArrowUp: -1, PageDown: page, PageUp: -page };
  if (event.key in moves) choose(chosen + moves[event.key], Math.sign(moves[event.key]));
  else if (event.key === "Home") choose(0);
  else if (event.key === "End") choose(shownLines.length - 1, -1);
  else if (event.key === "Enter" || event.key === " ") toggleBreakpoint();
  else return;
  event.preventDefault();
}

const lineOfEvent = (event) => Number(event.target.closest(".row")?.dataset.line ?? -1);

function listen() {
  const clicks = { run, stop, step, over: stepOver, out: stepOut, restart: beginAnew, load, "show-keys": KEYS["?"] };
  for (const [id, action] of Object.entries(clicks)) element(id).addEventListener("click", action);
  element("add-input").addEventListener("click", () => addStream(inputs, "input"));
  element("add-output").addEventListener("click", () => addStream(outputs, "output"));
  document.addEventListener("keydown", onKey);
  element("listing").addEventListener("keydown", onListingKey);
  element("listing").addEventListener("scroll", drawListing);
  element("listing").addEventListener("click", (event) => lineOfEvent(event) >= 0 && choose(lineOfEvent(event)));
  element("listing").addEventListener("dblclick", (event) => lineOfEvent(event) >= 0 && toggleBreakpoint(lineOfEvent(event)));
  window.addEventListener("resize", () => {
    drawListing();
    if (machine !== null && !isRunning) showStore();
  });
  element("address").addEventListener("input", showFromAddress);
  element("text").addEventListener("input", () => {
    text = bytesOf(element("text").value);
    textIsNew = true;
    element("example").value = "";
    element("loaded").textContent = loadedSentence();
  });
  element("example").addEventListener("change", () => {
    const example = examples.find(({ name }) => name === element("example").value);
    if (example !== undefined) loadExample(example);
  });
  element("file").addEventListener("change", (event) => openFiles(event.target.files));
  element("theme").addEventListener("change", () => (document.documentElement.dataset.theme = element("theme").value));
}

/** A text that the address carries in base64, as the page of web/ passes it, or null. */
function givenText() {
  const found = location.hash.match(/^#text=([\w-]+={0,2})$/);
  return found && atob(found[1].replaceAll("-", "+").replaceAll("_", "/"));
}

function begin() {
  const groups = [...new Set(examples.map(({ group }) => group))].map((group) => {
    const members = examples.filter((example) => example.group === group);
    const options = members.map(({ name, title }) => made("option", { value: name, textContent: title }));
    return made("optgroup", { label: group }, ...options);
  });
  element("example").replaceChildren(made("option", { value: "", textContent: "(a text of your own)" }), ...groups);
  const wanted = decodeURIComponent(location.hash.replace("#", ""));
  const given = givenText();
  const own = { name: "", text: given, input: "", inputs: [], outputs: [], steps: 1_000_000 };
  const first = given ? own : (examples.find(({ name }) => name === wanted) ?? examples[0]);
  element("example").value = first.name;
  listen();
  loadExample(first);
}

begin();
