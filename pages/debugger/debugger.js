// The debugger's page: steps through a recording of a run, forwards and backwards. `bcpl debug --out` puts it into the page that it writes, and
// the web page uses it too. It knows nothing of BCPL but how values are written: places, names and states are in the recording, whose form is
// in FORMAT.md. Only ASCII, so that a program can have it as a constant.
(() => {
  "use strict";

  /** States of a cell that aren't words; a word is stored with 2 added. */
  const DEAD = 0;
  const UNSET = 1;
  const CELLS = 65536;
  const FIRST_GLOBAL = 8;
  /** The most cells of a vector, vectors, arrows and characters of the output that are shown at once. */
  const MOST_CELLS = 48;
  const MOST_VECTORS = 12;
  const MOST_ARROWS = 40;
  const MOST_OUTPUT = 20000;
  const MOST_INPUT = 2000;
  const LONG_STRING = 16;
  /** What changed is counted from the stop that was shown before, unless that is further away. */
  const FAR = 5000;

  // ---- The recording

  const decoder = new TextDecoder("utf-8", { ignoreBOM: true });
  const bytesOf = (text) => Uint8Array.from(text, (letter) => letter.charCodeAt(0));

  /** A list of numbers that grows. */
  class List {
    constructor() {
      this.items = new Int32Array(1024);
      this.length = 0;
    }

    push(number) {
      if (this.length === this.items.length) {
        const larger = new Int32Array(2 * this.length);
        larger.set(this.items);
        this.items = larger;
      }
      this.items[this.length] = number;
      this.length += 1;
    }
  }

  /** Reads numbers from bytes: groups of seven bits, the lowest first, with 128 added to each byte but the last. */
  class Numbers {
    constructor(bytes) {
      this.bytes = bytes;
      this.at = 0;
    }

    get isAtEnd() {
      return this.at >= this.bytes.length;
    }

    byte() {
      if (this.isAtEnd) throw new RangeError("it ends early");
      this.at += 1;
      return this.bytes[this.at - 1];
    }

    next() {
      for (let value = 0, scale = 1; ; scale *= 128) {
        const byte = this.byte();
        value += (byte & 127) * scale;
        if (byte < 128) return value;
      }
    }

  }

  /** The number that was written without a sign as twice itself, or for negative ones as one less than twice its size. */
  const withSign = (number) => (number % 2 === 0 ? number / 2 : -(number + 1) / 2);

  /** A source: its bytes, and where its lines begin. Lines are counted from 0 on. */
  class SourceFile {
    constructor({ name, text, library }) {
      this.name = name;
      this.isLibrary = library;
      this.bytes = bytesOf(text);
      this.starts = [0];
      this.bytes.forEach((byte, at) => byte === 10 && at + 1 < this.bytes.length && this.starts.push(at + 1));
    }

    get count() {
      return this.starts.length;
    }

    lineAt(offset) {
      let [low, high] = [0, this.starts.length - 1];
      while (low < high) {
        const middle = (low + high + 1) >> 1;
        if (this.starts[middle] <= offset) low = middle;
        else high = middle - 1;
      }
      return low;
    }

    end(line) {
      return line + 1 < this.count ? this.starts[line + 1] : this.bytes.length;
    }

    text(from, to) {
      return decoder.decode(this.bytes.subarray(from, to)).replace(/[\r\n]/g, "");
    }

    column(offset) {
      return this.text(this.starts[this.lineAt(offset)], offset).length + 1;
    }
  }

  /** A recorded run, with the state at one of its stops; `seek` changes which. */
  class Recording {
    constructor(data) {
      if (data.version !== 2) throw new RangeError(`its version is ${data.version}, and this page reads version 2`);
      this.data = data;
      this.files = data.files.map((file) => new SourceFile(file));
      this.routines = data.routines;
      this.dropped = data.dropped;
      this.cells = new Int32Array(CELLS);
      for (const [address, ...states] of data.before.cells) this.cells.set(states, address);
      /** All frames that were ever open: `{ routine, base, place, parent, depth, last }`; `place` is that of the command that made the call, and
       * `last` the last place in it so far. */
      this.frames = [];
      this.read(new Numbers(Uint8Array.from(atob(data.stops), (letter) => letter.charCodeAt(0))));
      this.addLines();
      this.addOrder();
      this.seek(0);
    }

    enter(routine, base, place, parent) {
      if (parent >= 0) this.frames[parent].last = place;
      this.frames.push({ routine, base, place, parent, depth: parent < 0 ? 0 : this.frames[parent].depth + 1, last: place });
      return this.frames.length - 1;
    }

    /** Reads all stops once, applying them, so that the state before each change is known as well. */
    read(numbers) {
      const made = { place: new List(), frame: new List(), from: new List(), written: new List(), taken: new List() };
      const changes = { address: new List(), before: new List(), after: new List(), stop: new List() };
      const output = new List();
      for (const byte of bytesOf(this.data.before.output)) output.push(byte);
      let taken = this.data.before.taken;
      let open = -1;
      for (const [routine, base, place] of this.data.before.frames) open = this.enter(routine, base, place, open);
      let place = 0;
      for (let stop = 0; !numbers.isAtEnd; stop += 1) {
        const head = numbers.next();
        place += withSign(Math.floor(head / 16));
        if (head & 1) open = this.readFrames(numbers, open);
        if (head & 6) this.readChanges(numbers, changes, stop, (head & 6) / 2, open);
        if (head & 8) {
          for (let more = numbers.next(); more > 0; more -= 1) output.push(numbers.byte());
          taken += numbers.next();
        }
        if (open >= 0) this.frames[open].last = place;
        made.place.push(place);
        made.frame.push(open);
        made.from.push(changes.stop.length);
        made.written.push(output.length);
        made.taken.push(taken);
      }
      this.count = made.place.length;
      if (this.count === 0) throw new RangeError("it has no stop");
      const done = (lists) => Object.fromEntries(Object.entries(lists).map(([name, list]) => [name, list.items.subarray(0, list.length)]));
      /** By stop: its place, its frame, and how many changes, bytes of output and bytes of input came up to it. */
      Object.assign(this, done(made));
      this.changes = done(changes);
      this.output = Uint8Array.from(output.items.subarray(0, output.length));
      this.at = this.count - 1;
    }

    readFrames(numbers, open) {
      const moves = numbers.next();
      for (let left = Math.floor(moves / 4); left > 0 && open >= 0; left -= 1) open = this.frames[open].parent;
      for (let entered = moves % 4 === 3 ? 3 + numbers.next() : moves % 4; entered > 0; entered -= 1) {
        const caller = open < 0 ? { base: 0, last: 0 } : this.frames[open];
        const head = numbers.next();
        const base = caller.base + withSign(numbers.next());
        open = this.enter(Math.floor(head / 2), base, head & 1 ? numbers.next() : caller.last, open);
      }
      return open;
    }

    readChanges(numbers, changes, stop, count, open) {
      let last = open < 0 ? 0 : this.frames[open].base;
      for (let more = count === 3 ? 3 + numbers.next() : count; more > 0; more -= 1) {
        const head = numbers.next();
        const first = last + withSign(Math.floor(head / 4));
        last = first + (head & 1 ? numbers.next() + 1 : 0);
        const state = head & 2 ? 0 : numbers.next();
        if (first < 0 || last >= CELLS) throw new RangeError("a change is of a cell that doesn't exist");
        for (let address = first; address <= last; address += 1) this.change(changes, stop, address, state);
      }
    }

    change(changes, stop, address, state) {
      changes.address.push(address);
      changes.before.push(this.cells[address]);
      changes.after.push(state);
      changes.stop.push(stop);
      this.cells[address] = state;
    }

    /** For each place its line, and whether it is the first one of its line. */
    addLines() {
      const first = new Map();
      this.places = this.data.places.map(([file, start, end, kind, root]) => {
        const line = file < 0 ? -1 : this.files[file].lineAt(start);
        const place = { file, start, end, kind, root, line, isFirst: false };
        const key = `${file}:${line}`;
        if (file >= 0 && !(first.get(key)?.start <= start)) first.set(key, place);
        return place;
      });
      for (const place of first.values()) place.isFirst = true;
      const lines = new Set();
      for (const place of this.place) if (this.places[place].file >= 0) lines.add(`${this.places[place].file}:${this.places[place].line}`);
      this.linesWithStops = lines;
    }

    /** The changes of each cell: `order` has the numbers of all changes, those of an address from `firstOf[address]` on. */
    addOrder() {
      const { address } = this.changes;
      this.firstOf = new Uint32Array(CELLS + 1);
      for (const it of address) this.firstOf[it + 1] += 1;
      for (let it = 0; it < CELLS; it += 1) this.firstOf[it + 1] += this.firstOf[it];
      const next = this.firstOf.slice();
      this.order = new Uint32Array(address.length);
      address.forEach((it, number) => {
        this.order[next[it]] = number;
        next[it] += 1;
      });
    }

    /** Applies or takes back changes until the state is that at a stop. */
    seek(stop) {
      const { address, before, after } = this.changes;
      const end = this.from[stop];
      let at = this.from[this.at];
      for (; at < end; at += 1) this.cells[address[at]] = after[at];
      for (; at > end; at -= 1) this.cells[address[at - 1]] = before[at - 1];
      this.at = stop;
    }

    placeAt(stop) {
      return this.places[this.place[stop]];
    }

    /** Whether a stop is in the library. */
    isInLibrary(stop) {
      const { file } = this.placeAt(stop);
      return file >= 0 && this.files[file].isLibrary;
    }

    frameAt(stop) {
      return this.frames[this.frame[stop]];
    }

    depthAt(stop) {
      return this.frame[stop] < 0 ? -1 : this.frameAt(stop).depth;
    }

    /** The frames open at a stop, innermost first. */
    openAt(stop) {
      const found = [];
      for (let number = this.frame[stop]; number >= 0; number = this.frames[number].parent) found.push(this.frames[number]);
      return found;
    }

    /** Among an address's changes, how many have a stop up to this one. */
    countUpTo(address, stop) {
      let [low, high] = [this.firstOf[address], this.firstOf[address + 1]];
      while (low < high) {
        const middle = (low + high) >> 1;
        if (this.changes.stop[this.order[middle]] <= stop) low = middle + 1;
        else high = middle;
      }
      return low - this.firstOf[address];
    }

    /** The number of the last change of a cell up to a stop, or of the next one after it, or -1. */
    lastChange(address, stop) {
      const count = this.countUpTo(address, stop);
      return count === 0 ? -1 : this.order[this.firstOf[address] + count - 1];
    }

    nextChange(address, stop) {
      const at = this.firstOf[address] + this.countUpTo(address, stop);
      return at < this.firstOf[address + 1] ? this.order[at] : -1;
    }

    /** What changed after one stop up to another: the states before, by address. */
    changedBetween(from, to) {
      const found = new Map();
      const { address, before } = this.changes;
      for (let at = from < 0 ? 0 : this.from[from]; at < this.from[to]; at += 1) if (!found.has(address[at])) found.set(address[at], before[at]);
      return found;
    }

    /** Where a FOR is at a stop: the variables that its first line declares. */
    countersAt(stop) {
      const { kind, file, start, end } = this.placeAt(stop);
      const frame = this.frameAt(stop);
      if (kind !== "for" || !frame || this.routines[frame.routine].file !== file) return [];
      return this.routines[frame.routine].variables.filter((it) => start <= it.start && it.end <= end);
    }

    /** Whether a FOR is at a stop, and its variable has the cell at an address. */
    isCounter(stop, address) {
      return this.countersAt(stop).some(({ offset }) => this.frameAt(stop).base + offset === address);
    }

    /** Whether a FOR is at the current stop, and this isn't its first round: its variable has a cell. */
    goesRound() {
      return this.countersAt(this.at).some(({ offset }) => this.cells[this.frameAt(this.at).base + offset] !== DEAD);
    }

    /**
     * The stop whose command made the change of a cell between a stop and the one before. A change after the return from a call, or after a
     * RESULTIS, belongs to the command that waited for it, and that of the variable of a FOR to the FOR.
     */
    writer(stop, address) {
      const before = Math.max(stop - 1, 0);
      const { kind, file, start, end } = this.placeAt(before);
      const here = this.frame[stop];
      const earlier = (accepts) => this.find(stop, -1, (at) => this.frame[at] === here && accepts(this.placeAt(at), this.place[at]));
      const isAround = (place) => WRITES.includes(place.kind) && place.file === file && place.start <= start && end <= place.end;
      let found = -1;
      if (this.isCounter(stop, address)) {
        found = earlier((_, number) => number === this.place[stop]);
      } else if (["resultis", "body"].includes(kind)) {
        const left = this.openAt(before).find(({ parent }) => parent === here);
        found = left ? earlier((_, number) => number === left.place) : earlier(isAround);
      }
      return found < 0 ? before : found;
    }

    /** The next stop in a direction that a condition accepts, or -1. */
    find(stop, step, accepts) {
      for (let at = stop + step; at >= 0 && at < this.count; at += step) if (accepts(at)) return at;
      return -1;
    }
  }

  // ---- Values

  const ESCAPES = { 0: "*0", 8: "*B", 9: "*T", 10: "*N", 12: "*P", 13: "*C", 34: '*"', 39: "*'", 42: "**" };
  const signed = (word) => (word > 32767 ? word - 65536 : word);
  const hex = (number, digits) => number.toString(16).toUpperCase().padStart(digits, "0");
  const letter = (byte) => ESCAPES[byte] ?? (byte < 32 || byte > 126 ? `*#${hex(byte, 2)}` : String.fromCharCode(byte));

  const FORMS = {
    number: { name: "numbers", write: (word) => String(signed(word)).replace("-", "\u2212") },
    character: { name: "characters", write: (word) => `'${word > 255 ? letter(word >> 8) : ""}${letter(word & 255)}'` },
    hex: { name: "hexadecimal", write: (word) => `#X${hex(word, 4)}` },
    truth: { name: "truth values", write: (word) => ({ 0: "FALSE", 65535: "TRUE" })[word] ?? FORMS.number.write(word) },
  };

  /** A value in all forms, for a title. */
  const inAllForms = (word) => [FORMS.number, FORMS.hex, FORMS.character].map((form) => form.write(word)).join("  ");

  // ---- Elements

  /** An element with properties, attributes (by names with a hyphen, or `role`) and children. Texts are always shown as texts. */
  function made(tag, properties = {}, ...children) {
    const node = document.createElement(tag);
    for (const [name, value] of Object.entries(properties)) {
      if (name.includes("-") || name === "role") node.setAttribute(name, value);
      else node[name] = value;
    }
    node.append(...children);
    return node;
  }

  function button(text, title, action, className = "") {
    const node = made("button", { type: "button", className, textContent: text, title });
    if (title) node.setAttribute("aria-label", title);
    node.addEventListener("click", action);
    return node;
  }

  const quiet = (textContent) => made("span", { className: "quiet", textContent });

  /** Control characters other than tab and line feed as their pictures. */
  const pictured = (text) => text.replace(/[\0-\x08\x0b-\x1f\x7f]/g, (it) => String.fromCharCode(it === "\x7f" ? 0x2421 : 0x2400 + it.charCodeAt(0)));
  const grouped = (number) => number.toLocaleString("en-US");

  const SOURCE = new RegExp(
    [
      String.raw`(?<comment>\/\/.*|\|\|.*|\/\*.*?(?:\*\/|$))`,
      String.raw`(?<string>"(?:\*.|[^"*])*"?|'(?:\*.|[^'*])'?)`,
      String.raw`(?<word>\b(?:AND|BE|BREAK|BY|CASE|DEFAULT|DO|ELSE|ENDCASE|EQV|FALSE|FINISH|FOR|GET|GLOBAL|GOTO|IF|INTO|LET|LOGAND|LOGOR|LOOP|LSHIFT`
        + String.raw`|MANIFEST|NEQV|NOT|OR|REM|REPEAT|REPEATUNTIL|REPEATWHILE|RESULTIS|RETURN|RSHIFT|STATIC|SWITCHON|TABLE|TEST|THEN|TO|TRUE|UNLESS`
        + String.raw`|UNTIL|VALOF|VEC|WHILE)\b)`,
    ].join("|"),
    "g",
  );

  /** A piece of a source with its comments, strings and words of the language marked. */
  function coloured(text) {
    const nodes = [];
    let at = 0;
    for (const match of text.matchAll(SOURCE)) {
      const kind = Object.keys(match.groups).find((name) => match.groups[name] !== undefined);
      nodes.push(text.slice(at, match.index), made("span", { className: kind, textContent: match[0] }));
      at = match.index + match[0].length;
    }
    return [...nodes, text.slice(at)];
  }

  // ---- What a stop is about to do

  const DOES = {
    assign: "assigns", call: "calls", if: "tests", test: "tests", while: "tests", repeat: "tests", for: "goes round", switch: "chooses a case",
    resultis: "has its result", break: "leaves the loop", loop: "goes on with the loop", endcase: "leaves the cases", return: "returns",
    goto: "jumps", finish: "finishes", let: "declares", body: "evaluates", end: "ends",
  };
  /** The same where a loop begins. */
  const BEGINS = { for: "begins" };
  const ENDS = { finished: "The run finished.", cut: "The recording was full here; the run went on." };
  const FAULTS = ["wild", "strict", "zero", "device"];
  /** The kinds of commands that set cells themselves. */
  const WRITES = ["assign", "let", "for", "call"];
  /** The kinds of commands without a root of their own. */
  const PLAIN = ["break", "loop", "endcase", "return", "finish", "goto"];

  const KEYS = {
    s: (it) => it.step(1), S: (it) => it.step(-1), ArrowRight: (it) => it.step(1), ArrowLeft: (it) => it.step(-1),
    n: (it) => it.next(1), N: (it) => it.next(-1), f: (it) => it.finish(1), F: (it) => it.finish(-1),
    c: (it) => it.go(1), C: (it) => it.go(-1), Home: (it) => it.show(0), End: (it) => it.show(it.recording.count - 1),
    b: (it) => it.toggleHere(), l: (it) => it.setLibrary(!it.entersLibrary), "/": (it) => it.searchField.focus(), "?": (it) => it.help.showModal(),
  };
  const HELP = [
    ["s, S", "step to the next stop, or back to the one before; also the right and left arrow"],
    ["n, N", "next: the same, but without going into calls"],
    ["f, F", "finish: on to where the routine has returned, or back to where it was called"],
    ["c, C", "continue, forwards or backwards, to a breakpoint or a change of what is watched"],
    ["Home, End", "the first and the last stop"],
    ["b", "set or remove a breakpoint at the current line; in the source, at the line of the arrow keys"],
    ["l", "whether step and next go into the library's routines"],
    ["/", "search: a text of the source; NAME = 5 finds where a variable gets a value; \"text\" finds output"],
    ["?", "this list"],
  ];

  /** The page: controls, source, calls, variables, vectors and output, drawn anew for each stop that is shown. */
  class Page {
    constructor(root, recording) {
      this.root = root;
      this.recording = recording;
      this.at = 0;
      this.since = -1;
      this.chosenFrame = 0;
      this.shownFile = -1;
      this.form = "number";
      this.breakpoints = new Set();
      this.watched = [];
      this.whole = new Set();
      this.entersLibrary = false;
      this.cursor = 0;
      this.build();
      this.show(this.firstShown());
    }

    /** The stop at which the page opens: the end of a run that failed, or else the first stop. */
    firstShown() {
      const { kind } = this.recording.data.end;
      if (kind === "turns" || FAULTS.includes(kind)) return this.recording.count - 1;
      return this.isShown(0) ? 0 : this.find(0, 1);
    }

    // ---- The parts, made once

    build() {
      this.root.classList.add("dbg");
      const main = made("div", { className: "dbg-main" }, this.sourcePart(), this.statePart());
      this.root.replaceChildren(this.head(), ...this.controls(), main, this.helpPart());
      this.onKey = (event) => this.key(event);
      document.addEventListener("keydown", this.onKey);
      this.sizes = new ResizeObserver(() => requestAnimationFrame(() => this.fit()));
      this.sizes.observe(this.root);
    }

    /** Takes the page out of the document. */
    close() {
      document.removeEventListener("keydown", this.onKey);
      this.sizes.disconnect();
      this.root.replaceChildren();
    }

    head() {
      const { data, dropped, count } = this.recording;
      const cut = [];
      const [first, last] = [grouped(dropped + 1), grouped(dropped + count)];
      if (dropped > 0) cut.push(`The recording was full: the first ${grouped(dropped)} stops were dropped, so you can go back to stop ${first} only.`);
      if (data.end.kind === "cut") cut.push(`The recording was full after stop ${last}; the run went on.`);
      this.status = made("p", { className: "dbg-status", role: "status" });
      const tame = data.tame ? [made("p", { className: "dbg-tame", textContent: "Tame: no run of this program meets a wild cell, whatever it reads." })] : [];
      return made("div", { className: "dbg-head" }, this.status, ...tame, ...cut.map((text) => made("p", { className: "dbg-cut", textContent: text })));
    }

    controls() {
      const back = [
        button("|\u25c2", "First stop (Home)", () => this.show(0)), button("\u25c2 Continue", "Continue backwards (Shift C)", () => this.go(-1)),
        button("\u25c2 Finish", "Back to the call of this routine (Shift F)", () => this.finish(-1)),
        button("\u25c2 Next", "Back, not into calls (Shift N)", () => this.next(-1)), button("\u25c2 Step", "One stop back (Shift S)", () => this.step(-1)),
      ];
      const on = [
        button("Step \u25b8", "One stop on (S)", () => this.step(1), "primary"), button("Next \u25b8", "On, not into calls (N)", () => this.next(1)),
        button("Finish \u25b8", "On to the end of this routine (F)", () => this.finish(1)),
        button("Continue \u25b8", "On to a breakpoint or a watched change (C)", () => this.go(1)),
        button("\u25b8|", "Last stop (End)", () => this.show(this.recording.count - 1)),
      ];
      this.backButtons = back;
      this.onButtons = on;
      const buttons = made("div", { className: "dbg-buttons", role: "group", "aria-label": "Stepping" }, made("span", {}, ...back), made("span", {}, ...on));
      this.slider = made("input", { type: "range", min: 0, max: this.recording.count - 1, value: 0, className: "dbg-slider", "aria-label": "Stop" });
      this.slider.addEventListener("input", () => this.slide());
      this.chart = made("canvas", { className: "dbg-chart", "aria-hidden": "true", title: "The depth of calls over the run" });
      const time = made("div", { className: "dbg-time" }, this.chart, this.slider);
      const keys = button("?", "Keys", () => this.help.showModal(), "dbg-plain");
      const more = made("div", { className: "dbg-more" }, this.numberPart(), this.formPart(), this.searchPart(), this.libraryPart(), keys);
      return [made("div", { className: "dbg-controls" }, buttons, time), more];
    }

    numberPart() {
      const { dropped, count } = this.recording;
      const bounds = { min: dropped + 1, max: dropped + count };
      this.number = made("input", { type: "number", ...bounds, className: "dbg-number", "aria-label": "Number of the stop" });
      this.number.addEventListener("change", () => {
        const wanted = (this.number.valueAsNumber || bounds.min) - bounds.min;
        this.show(Math.min(Math.max(Math.round(wanted), 0), count - 1));
      });
      return made("span", { className: "dbg-of" }, "Stop ", this.number, ` of ${grouped(bounds.max)}`);
    }

    formPart() {
      const forms = Object.entries(FORMS).map(([value, { name }]) => made("option", { value, textContent: name }));
      const choice = made("select", { "aria-label": "How values are shown" }, ...forms);
      choice.addEventListener("change", () => this.setForm(choice.value));
      return choice;
    }

    libraryPart() {
      this.library = made("input", { type: "checkbox", checked: this.entersLibrary });
      this.library.addEventListener("change", () => this.setLibrary(this.library.checked));
      return made("label", { className: "dbg-check", title: "Step and Next go into the library's routines (L)" }, this.library, "into the library");
    }

    searchPart() {
      const title = 'A text of the source, NAME = 5, or "output"';
      this.searchField = made("input", { type: "search", placeholder: "Search", title, "aria-label": "Search the run", spellcheck: false });
      const back = button("\u25c2", "Search backwards", () => this.search(-1));
      const on = button("\u25b8", "Search forwards", () => this.search(1));
      const form = made("form", { role: "search" }, this.searchField, back, on);
      form.addEventListener("submit", (event) => event.preventDefault());
      this.searchField.addEventListener("keydown", (event) => event.key === "Enter" && this.search(event.shiftKey ? -1 : 1));
      return form;
    }

    sourcePart() {
      this.fileChoice = made("select", { "aria-label": "File" });
      this.recording.files.forEach(({ name, isLibrary }, value) => {
        this.fileChoice.append(made("option", { value, textContent: isLibrary ? `${name} (library)` : name }));
      });
      this.fileChoice.addEventListener("change", () => this.showFile(Number(this.fileChoice.value)));
      this.about = made("p", { className: "dbg-about" });
      this.message = made("pre", { className: "dbg-message", tabIndex: 0, "aria-label": "Message", hidden: true });
      const label = "Source: arrow keys choose a line, B sets a breakpoint";
      this.list = made("div", { className: "dbg-source", tabIndex: 0, role: "listbox", "aria-label": label });
      this.list.addEventListener("click", (event) => this.clickSource(event));
      this.list.addEventListener("keydown", (event) => this.keyInSource(event));
      const head = made("div", { className: "dbg-line" }, this.fileChoice, this.about);
      return made("section", { className: "dbg-left", "aria-label": "Source" }, head, this.message, this.list);
    }

    statePart() {
      this.calls = made("ol", { className: "dbg-calls" });
      this.variables = made("div", {});
      this.vectors = made("div", { className: "dbg-vectors" });
      this.globals = made("div", {});
      this.watches = made("div", {});
      this.watchField = made("input", { placeholder: "NAME or NAME!3", "aria-label": "Watch a variable or a cell", spellcheck: false });
      const watch = made("form", { className: "dbg-line" }, this.watchField, made("button", { textContent: "Watch" }));
      watch.addEventListener("submit", (event) => {
        event.preventDefault();
        this.watch(this.watchField.value.trim());
      });
      this.written = made("pre", { className: "dbg-output", tabIndex: 0, "aria-label": "Output up to here" });
      this.written.addEventListener("click", (event) => this.clickOutput(event));
      this.read = made("div", {});
      const part = (title, ...nodes) => made("section", { "aria-label": title }, made("h2", { textContent: title }), ...nodes);
      const svg = document.createElementNS("http://www.w3.org/2000/svg", "svg");
      svg.setAttribute("class", "dbg-arrows");
      svg.setAttribute("aria-hidden", "true");
      this.arrows = svg;
      const column = (...parts) => made("div", { className: "dbg-column" }, ...parts);
      const names = [part("Calls", this.calls), part("Variables", this.variables), part("Globals and statics", this.globals)];
      const left = column(...names, part("Watched", this.watches, watch));
      const right = column(part("Vectors and strings", this.vectors), part("Output", this.written, this.read));
      this.state = made("div", { className: "dbg-state" }, left, right, svg);
      this.state.addEventListener("click", (event) => this.clickState(event));
      return this.state;
    }

    helpPart() {
      const rows = HELP.flatMap(([keys, text]) => [made("dt", {}, made("kbd", { textContent: keys })), made("dd", { textContent: text })]);
      const close = made("form", { method: "dialog" }, made("button", { textContent: "Close" }));
      this.help = made("dialog", { "aria-label": "Keys" }, made("dl", {}, ...rows), close);
      return this.help;
    }

    // ---- Moving in time

    /** Shows a stop. What changed is counted from the stop `since`, or from the one before. */
    show(stop, said = "", since = stop - 1) {
      if (stop < 0 || stop >= this.recording.count) return;
      this.since = stop - since > FAR || since >= stop ? stop - 1 : since;
      this.at = stop;
      this.chosenFrame = 0;
      this.draw(said);
    }

    /** Goes to a stop that was looked for, or says that there is none. */
    goTo(stop, none, since) {
      if (stop < 0) this.say(none);
      else this.show(stop, "", since);
    }

    /** Whether stepping stops here: not where the place isn't known, nor in the library, unless that is asked for or one is in it. */
    isShown(stop, isInside = this.entersLibrary || this.recording.isInLibrary(this.at)) {
      const { recording: run } = this;
      return stop === run.count - 1 || (run.placeAt(stop).file >= 0 && (isInside || !run.isInLibrary(stop)));
    }

    /** The next stop in a direction at which stepping stops and that a condition accepts, or -1. */
    find(at, direction, accepts = () => true) {
      const isInside = this.entersLibrary || this.recording.isInLibrary(this.at);
      return this.recording.find(at, direction, (stop) => accepts(stop) && this.isShown(stop, isInside));
    }

    step(direction) {
      this.goTo(this.find(this.at, direction), direction > 0 ? "This is the last stop." : "This is the first stop.");
    }

    /** Goes on, or back, to a stop with at most so many calls; forwards, where there is none, to the end. */
    within(depth, direction, none) {
      const { recording: run, at } = this;
      const found = this.find(at, direction, (stop) => run.depthAt(stop) <= depth);
      if (found >= 0 || direction < 0) this.goTo(found, none, direction > 0 ? at : undefined);
      else this.show(run.count - 1, none, at);
    }

    next(direction) {
      const none = direction > 0 ? "The recording doesn't come back to this routine." : "No earlier stop is outside of calls.";
      this.within(this.recording.depthAt(this.at), direction, none);
    }

    finish(direction) {
      const none = direction > 0 ? "This routine doesn't return within the recording." : "The call of this routine isn't in the recording.";
      this.within(this.recording.depthAt(this.at) - 1, direction, none);
    }

    setLibrary(enters) {
      this.entersLibrary = enters;
      this.library.checked = enters;
      this.say(enters ? "Step and Next go into the library's routines." : "Step and Next go over the library's routines.");
    }

    /** Continues to a breakpoint or a watched change, else to the end. */
    go(direction) {
      const { recording: run, at } = this;
      const here = this.placesWithBreakpoints();
      const isEntered = (stop) => here[run.place[stop]] === 2 || (here[run.place[stop]] === 1 && this.comesFromElsewhere(stop));
      const stopped = run.find(at, direction, isEntered);
      const changed = this.watchedChange(direction);
      const nearest = [stopped, changed].filter((stop) => stop >= 0 && stop !== at);
      if (nearest.length > 0) {
        const found = direction > 0 ? Math.min(...nearest) : Math.max(...nearest);
        this.show(found, found === changed ? "A watched value has changed." : "", direction > 0 ? at : undefined);
      } else {
        const said = this.breakpoints.size + this.watched.length > 0 ? "Nothing more stopped it." : "";
        this.show(direction > 0 ? run.count - 1 : 0, said, direction > 0 ? at : undefined);
      }
    }

    /** For each place 1 where its line has a breakpoint, and 2 where it is the line's first place. */
    placesWithBreakpoints() {
      return this.recording.places.map(({ file, line, isFirst }) => (this.breakpoints.has(`${file}:${line}`) ? 1 + Number(isFirst) : 0));
    }

    comesFromElsewhere(stop) {
      if (stop === 0) return true;
      const { recording: run } = this;
      const [one, other] = [run.placeAt(stop), run.placeAt(stop - 1)];
      return one.line !== other.line || one.file !== other.file || run.frame[stop] !== run.frame[stop - 1];
    }

    watchedChange(direction) {
      const { recording: run, at } = this;
      const found = this.watched.map((text) => this.addressOf(text)).filter((address) => address !== null).map((address) => {
        const change = direction > 0 ? run.nextChange(address, at) : run.lastChange(address, at - 1);
        return change < 0 ? -1 : run.changes.stop[change];
      }).filter((stop) => stop >= 0);
      return found.length === 0 ? -1 : direction > 0 ? Math.min(...found) : Math.max(...found);
    }

    /** The slider is drawn at most once per frame of the screen. */
    slide() {
      if (this.isSliding) return;
      this.isSliding = true;
      requestAnimationFrame(() => {
        this.isSliding = false;
        this.show(Number(this.slider.value));
      });
    }

    // ---- Search, and who wrote a value

    search(direction) {
      const text = this.searchField.value.trim();
      if (text === "") return;
      const value = text.match(/^([A-Za-z][\w.]*)\s*:?=\s*(-?\d+|#X[0-9A-Fa-f]+|'.')$/);
      const output = text.match(/^"(.*?)"?$/);
      const found = value ? this.findValue(value[1], value[2], direction) : output ? this.findOutput(output[1], direction) : this.findSource(text, direction);
      if (found < 0) this.say(`${text} isn't found ${direction > 0 ? "after" : "before"} this stop.`);
      else this.show(found, `Found ${text}.`);
    }

    findSource(text, direction) {
      const { recording: run } = this;
      const wanted = text.toLowerCase();
      const has = run.places.map(({ file, start, end }) => file >= 0 && run.files[file].text(start, end).toLowerCase().includes(wanted));
      return run.find(this.at, direction, (stop) => has[run.place[stop]]);
    }

    /** The next stop at which a variable of this name got a value. */
    findValue(name, written, direction) {
      const { recording: run } = this;
      const word = written.startsWith("'") ? written.charCodeAt(1) : Number(written.replace(/^#X/, "0x"));
      const { address, after, stop } = run.changes;
      const isIt = (number) => after[number] === 2 + (word & 65535) && this.namesAt(stop[number], address[number]).includes(name.toUpperCase());
      const changed = (at) => {
        for (let number = at > 0 ? run.from[at - 1] : 0; number < run.from[at]; number += 1) if (isIt(number)) return true;
        return false;
      };
      return run.find(this.at, direction, changed);
    }

    /** The names that a cell has at a stop. */
    namesAt(stop, address) {
      const { data } = this.recording;
      const fixed = [...data.globals.filter(({ number }) => FIRST_GLOBAL + number === address), ...data.statics.filter((it) => it.address === address)];
      const frame = this.recording.frameAt(stop);
      const locals = frame ? this.recording.routines[frame.routine].variables.filter(({ offset }) => frame.base + offset === address) : [];
      return [...fixed, ...locals].map(({ name }) => name.toUpperCase());
    }

    findOutput(text, direction) {
      const { recording: run } = this;
      const whole = Array.from(run.output, (byte) => String.fromCharCode(byte)).join("");
      const wanted = Array.from(new TextEncoder().encode(text), (byte) => String.fromCharCode(byte)).join("");
      const shown = run.written[this.at];
      const from = Math.max(0, shown - wanted.length + direction);
      const at = direction > 0 ? whole.indexOf(wanted, from) : whole.lastIndexOf(wanted, from);
      return at < 0 ? -1 : this.stopOfOutput(at + wanted.length - 1);
    }

    /** The stop up to which a byte of the output was written. */
    stopOfOutput(byte) {
      return this.recording.written.findIndex((count) => count > byte);
    }

    clickOutput(event) {
      const place = document.caretPositionFromPoint?.(event.clientX, event.clientY) ?? null;
      const node = place?.offsetNode;
      if (!node || node.nodeType !== Node.TEXT_NODE || !this.written.contains(node) || !getSelection().isCollapsed) return;
      const before = document.createRange();
      before.setStart(this.written, 0);
      before.setEnd(node, place.offset);
      const byte = this.outputFrom + new TextEncoder().encode(before.toString().slice(this.outputNote.length)).length;
      const stop = this.stopOfOutput(byte);
      if (stop > 0) this.show(stop - 1, "This stop wrote what you clicked on.");
    }

    /** Goes to the stop that last changed a cell. */
    who(address, name) {
      const { recording: run } = this;
      const change = run.lastChange(address, this.at);
      if (change < 0) {
        this.say(run.dropped > 0 ? `No stop that was kept has changed ${name}.` : `${name} has been so since the run began.`);
        return;
      }
      const after = this.valueText(run.changes.after[change]);
      this.show(run.writer(run.changes.stop[change], address), `This is what made ${name} ${after}.`);
    }

    // ---- Breakpoints and watches

    toggle(line) {
      const key = `${this.shownFile}:${line}`;
      if (!this.recording.linesWithStops.has(key)) {
        this.say(`The run never stops at line ${line + 1}.`);
        return;
      }
      if (!this.breakpoints.delete(key)) this.breakpoints.add(key);
      this.markLine(line);
      this.say(this.breakpoints.has(key) ? `Breakpoint at line ${line + 1}.` : `The breakpoint at line ${line + 1} is removed.`);
    }

    toggleHere() {
      const place = this.recording.placeAt(this.at);
      if (place.file >= 0) {
        this.showFile(place.file);
        this.toggle(place.line);
      }
    }

    watch(text) {
      const name = text.toUpperCase();
      if (this.addressOf(name) === null) {
        this.say(`${text} isn't a variable in scope, a cell such as V!3, or an address.`);
        return;
      }
      if (!this.watched.includes(name)) this.watched.push(name);
      this.watchField.value = "";
      this.draw(`${name} is watched: Continue stops where it changes.`);
    }

    /** The address of what a text names in the chosen frame: NAME, NAME!NUMBER, NAME!NAME or an address; else null. */
    addressOf(text) {
      const match = text.match(/^([A-Z][A-Z0-9.]*|\d+)(?:!([A-Z][A-Z0-9.]*|\d+))?$/i);
      if (!match) return null;
      const [, first, second] = match;
      if (second === undefined) return /^\d/.test(first) ? (Number(first) < CELLS ? Number(first) : null) : this.cellOf(first);
      const value = (it) => (/^\d/.test(it) ? Number(it) : this.wordIn(this.cellOf(it)));
      const [base, index] = [value(first), value(second)];
      return base === null || index === null ? null : (base + index) & 65535;
    }

    cellOf(name) {
      const { data } = this.recording;
      const isIt = (it) => it.name.toUpperCase() === name.toUpperCase();
      const frame = this.frame();
      const local = frame && this.inScope(frame).findLast(isIt);
      if (local) return frame.base + local.offset;
      return data.statics.find(isIt)?.address ?? (data.globals.some(isIt) ? FIRST_GLOBAL + data.globals.find(isIt).number : null);
    }

    wordIn(address) {
      return address === null || this.recording.cells[address] <= UNSET ? null : this.recording.cells[address] - 2;
    }

    // ---- Drawing a stop

    setForm(form) {
      this.form = form;
      this.draw("");
    }

    frame() {
      return this.recording.openAt(this.at)[this.chosenFrame];
    }

    /** The place at which a frame is: that of the stop, or that of the call that it waits for. */
    placeOf(number) {
      const open = this.recording.openAt(this.at);
      return number === 0 ? this.recording.placeAt(this.at) : this.recording.places[open[number - 1]?.place];
    }

    draw(said) {
      const { recording: run, at } = this;
      run.seek(at);
      this.changed = run.changedBetween(this.since, at);
      this.areas = this.findAreas();
      this.drawControls();
      this.drawSource();
      this.drawCalls();
      this.drawVariables();
      this.drawGlobals();
      this.drawWatches();
      this.drawVectors();
      this.drawOutput();
      this.say(said);
      // What needs the layout comes last, so that it is computed once.
      if (this.nowRow) this.keepInView(this.nowRow);
      this.drawArrows();
    }

    /** What depends on the size of the window. */
    fit() {
      this.drawChart();
      this.drawArrows();
    }

    drawControls() {
      const { count, dropped } = this.recording;
      this.slider.value = this.at;
      this.slider.setAttribute("aria-valuetext", `stop ${this.at + 1 + dropped} of ${count + dropped}`);
      this.number.value = this.at + 1 + dropped;
      for (const node of this.backButtons) node.disabled = this.at === 0;
      for (const node of this.onButtons) node.disabled = this.at === count - 1;
    }

    /** Draws the greatest depth of calls in each column of the chart. */
    drawChart() {
      const { clientWidth: width, clientHeight: height } = this.chart;
      if (width === 0) return;
      const { recording: run } = this;
      const tops = new Array(width).fill(-1);
      for (let stop = 0; stop < run.count; stop += 1) {
        const x = Math.floor((stop / run.count) * width);
        tops[x] = Math.max(tops[x], run.depthAt(stop));
      }
      for (let x = 1; x < width; x += 1) if (run.count < width && tops[x] < 0) tops[x] = tops[x - 1];
      const deepest = Math.max(0, ...tops);
      Object.assign(this.chart, { width, height });
      const pen = this.chart.getContext("2d");
      pen.fillStyle = getComputedStyle(this.chart).color;
      tops.forEach((depth, x) => pen.fillRect(x, height - ((depth + 1) / (deepest + 1)) * height, 1, height));
    }

    /** What the current stop is about to do, for the eye and for the ear. */
    say(said) {
      const { recording: run, at } = this;
      const place = run.placeAt(at);
      const { kind, text: sentence, lines } = run.data.end;
      const isLast = at === run.count - 1;
      const text = place.file < 0 ? "" : run.files[place.file].text(place.start, place.end).replace(/\s+/g, " ").trim();
      const doing = place.kind in BEGINS && !run.goesRound() ? BEGINS : DOES;
      const does = isLast ? sentence || ENDS[kind] || "The run ends here." : (doing[place.kind] ?? "runs");
      const ending = made("b", { className: FAULTS.includes(kind) ? "bad" : "", textContent: does });
      this.about.replaceChildren(...(isLast ? [ending] : [made("i", { textContent: does }), " ", made("code", { textContent: text })]));
      this.about.title = isLast ? does : text;
      this.message.hidden = !isLast || !lines;
      this.message.textContent = lines ?? "";
      const where = place.file < 0 ? "" : `, ${run.files[place.file].name}, line ${place.line + 1}`;
      const whole = `${said ? `${said} ` : ""}Stop ${grouped(at + 1 + run.dropped)}${where}: ${isLast ? does : `${does} ${text}`}`;
      // A reader that speaks isn't told of each stop while one goes through many.
      clearTimeout(this.saying);
      if (said) this.status.textContent = whole;
      else this.saying = setTimeout(() => (this.status.textContent = whole), 150);
    }

    // ---- The source

    showFile(number) {
      if (number === this.shownFile) return;
      this.shownFile = number;
      this.fileChoice.value = number;
      const file = this.recording.files[number];
      this.rows = file.starts.map((start, line) => made("div", { role: "option", id: `dbg-line-${line}` }));
      this.list.replaceChildren(...this.rows);
      this.list.style.setProperty("--digits", String(file.count).length);
      this.rows.forEach((row, line) => this.drawLine(line, null));
      this.lit = [];
    }

    /** Draws a line, with the part from one offset to another marked. */
    drawLine(line, mark) {
      const file = this.recording.files[this.shownFile];
      const [start, end] = [file.starts[line], file.end(line)];
      const code = made("code", {});
      if (mark) {
        const [from, to] = [Math.max(start, mark.start), Math.min(end, Math.max(mark.end, mark.start + 1))];
        code.append(...coloured(file.text(start, from)), made("mark", {}, ...coloured(file.text(from, to))), ...coloured(file.text(to, end)));
      } else {
        code.append(...coloured(file.text(start, end)));
      }
      this.rows[line].replaceChildren(made("span", { className: "dbg-gutter", textContent: line + 1 }), code);
      this.markLine(line);
    }

    markLine(line) {
      const key = `${this.shownFile}:${line}`;
      const row = this.rows[line];
      const isSet = this.breakpoints.has(key);
      row.classList.toggle("breakpoint", isSet);
      row.classList.toggle("never", !this.recording.linesWithStops.has(key));
      row.setAttribute("aria-label", `${line + 1}${isSet ? ", breakpoint" : ""}: ${row.lastChild?.textContent.trim() || "empty"}`);
    }

    drawSource() {
      const place = this.placeOf(this.chosenFrame) ?? this.recording.placeAt(this.at);
      for (const line of this.lit ?? []) {
        this.rows[line].classList.remove("now", "waiting");
        this.rows[line].setAttribute("aria-selected", "false");
        this.drawLine(line, null);
      }
      this.lit = [];
      this.nowRow = null;
      if (place.file < 0) {
        if (this.shownFile < 0) this.showFile(0);
        return;
      }
      this.showFile(place.file);
      const file = this.recording.files[place.file];
      const last = file.lineAt(Math.max(place.start, place.end - 1));
      for (let line = place.line; line <= last; line += 1) {
        this.drawLine(line, place);
        this.lit.push(line);
      }
      const row = this.rows[place.line];
      row.classList.add(this.chosenFrame === 0 ? "now" : "waiting");
      row.setAttribute("aria-selected", "true");
      this.cursor = place.line;
      this.list.setAttribute("aria-activedescendant", row.id);
      this.nowRow = row;
    }

    keepInView(row) {
      const { list } = this;
      const top = row.offsetTop - list.offsetTop;
      if (top < list.scrollTop + 20 || top > list.scrollTop + list.clientHeight - 60) list.scrollTop = top - list.clientHeight / 3;
    }

    clickSource(event) {
      const row = event.target.closest(".dbg-source > div");
      if (!row) return;
      const line = this.rows.indexOf(row);
      this.moveCursor(line);
      if (event.target.closest(".dbg-gutter")) this.toggle(line);
    }

    moveCursor(line) {
      this.rows[this.cursor]?.classList.remove("cursor");
      this.cursor = Math.min(Math.max(line, 0), this.rows.length - 1);
      const row = this.rows[this.cursor];
      row.classList.add("cursor");
      this.list.setAttribute("aria-activedescendant", row.id);
      this.keepInView(row);
    }

    keyInSource(event) {
      const step = { ArrowDown: 1, ArrowUp: -1, PageDown: 20, PageUp: -20 }[event.key];
      if (step) this.moveCursor(this.cursor + step);
      else if (event.key === "b" || event.key === "Enter") this.toggle(this.cursor);
      else return;
      event.preventDefault();
      event.stopPropagation();
    }

    // ---- Calls

    drawCalls() {
      const { recording: run } = this;
      const open = run.openAt(this.at);
      const shown = open.length > 40 ? [...open.slice(0, 30).keys(), ...Array.from({ length: 8 }, (_, k) => open.length - 8 + k)] : [...open.keys()];
      this.calls.replaceChildren(...shown.flatMap((number, k) => {
        const gap = k > 0 && shown[k - 1] !== number - 1 ? [made("li", { className: "quiet", textContent: `${open.length - 38} more calls` })] : [];
        return [...gap, this.call(open[number], number)];
      }));
      if (open.length === 0) this.calls.append(made("li", { className: "quiet", textContent: "No routine is at work." }));
    }

    call(frame, number) {
      const { recording: run } = this;
      const routine = run.routines[frame.routine];
      const place = this.placeOf(number);
      const valueOf = ({ name, offset }) => `${name} = ${this.valueText(run.cells[frame.base + offset])}`;
      const given = routine.variables.filter(({ parameter }) => parameter).map(valueOf);
      const where = place && place.file >= 0 ? `line ${place.line + 1}` : "";
      const node = made("button", { type: "button" }, made("b", { textContent: routine.name }), `(${given.join(", ")}) `, quiet(where));
      node.addEventListener("click", () => {
        this.chosenFrame = number;
        this.draw(`${routine.name}, ${where}.`);
        this.calls.querySelector("[aria-current]")?.focus();
      });
      if (number === this.chosenFrame) node.setAttribute("aria-current", "true");
      return made("li", {}, node);
    }

    // ---- Variables

    /**
     * The variables of a frame that have a cell, are declared before the end of its place, and whose scope has its place. Of several with
     * one name the last one counts. A FOR has two roots, its first value and its limit, before the scope of its variable; the root of a
     * command without one is that before it, and a vector may be declared in between.
     */
    inScope(frame) {
      const { recording: run } = this;
      const { root = -1, kind, file, end } = this.placeOf(run.openAt(this.at).indexOf(frame)) ?? {};
      const routine = run.routines[frame.routine];
      const ahead = kind === "for" ? 2 : PLAIN.includes(kind) ? 1 : 0;
      const isBefore = ({ start }) => routine.file !== file || start < end;
      const isIn = ({ from, to, parameter }) => (root < 0 ? parameter : from <= root + ahead && root < to);
      const found = routine.variables.filter((it) => isIn(it) && isBefore(it) && run.cells[frame.base + it.offset] !== DEAD);
      return found.filter(({ name }, k) => !found.slice(k + 1).some((other) => other.name === name));
    }

    drawVariables() {
      const frame = this.frame();
      const rows = frame ? this.inScope(frame).map((variable) => this.row(variable.name, frame.base + variable.offset)) : [];
      this.variables.replaceChildren(rows.length > 0 ? this.table(rows) : quiet("No variable is in scope here."));
    }

    table(rows) {
      const head = made("tr", {}, ...["Name", "Value", "Before", ""].map((textContent) => made("th", { scope: "col", textContent })));
      return made("table", {}, made("thead", {}, head), made("tbody", {}, ...rows));
    }

    /** A row of a table: a cell with its name, value, value before, and what one can ask of it. */
    row(name, address, further = []) {
      const state = this.recording.cells[address];
      const before = this.before(address);
      const value = made("span", { textContent: this.valueText(state), title: state > UNSET ? inAllForms(state - 2) : "" });
      value.dataset.holds = state;
      const where = state > UNSET ? this.pointsTo(state - 2) : "";
      if (where) value.append(quiet(` \u2192 ${where}`));
      const asks = made("td", { className: "dbg-asks" }, button("who?", `Who wrote ${name}?`, () => this.who(address, name), "dbg-plain"), ...further);
      if (further.length === 0) asks.append(button("watch", `Watch ${name}`, () => this.watch(name), "dbg-plain"));
      const old = before === null ? "" : before === DEAD ? "new" : this.valueText(before);
      const cells = [made("td", { className: "dbg-value" }, value), made("td", { className: "dbg-value quiet", textContent: old }), asks];
      return made("tr", { className: before === null ? "" : "changed" }, made("th", { scope: "row", textContent: name }), ...cells);
    }

    /** The state before, if it was another. */
    before(address) {
      const before = this.changed.get(address);
      return before === undefined || before === this.recording.cells[address] ? null : before;
    }

    valueText(state) {
      if (state === DEAD) return "gone";
      if (state === UNSET) return "not set";
      return this.routineAt(state - 2) ?? FORMS[this.form].write(state - 2);
    }

    routineAt(word) {
      this.routineNames ??= new Map(this.recording.routines.filter(({ address }) => address).map(({ address, name }) => [address, name]));
      return this.routineNames.get(word);
    }

    drawGlobals() {
      const { cells } = this.recording;
      const isRoutine = (state) => state > UNSET && this.routineAt(state - 2) !== undefined;
      const shown = this.outside().filter(({ address, isGlobal }) => !isGlobal || !isRoutine(cells[address]));
      const rows = shown.map(({ name, address }) => this.row(name, address));
      this.globals.replaceChildren(rows.length > 0 ? this.table(rows) : quiet("The program declares none, but for routines."));
    }

    /** The statics and globals that the program's own files declare; a global is there once though several files declare it. */
    outside() {
      const { data } = this.recording;
      const own = (list) => list.filter(({ library }) => !library);
      const globals = own(data.globals).map(({ name, number }) => ({ name, address: FIRST_GLOBAL + number, isGlobal: true }));
      this.outer ??= [...own(data.statics), ...globals.filter(({ address }, k) => globals.findIndex((it) => it.address === address) === k)];
      return this.outer;
    }

    drawWatches() {
      const rows = this.watched.map((text) => {
        const address = this.addressOf(text);
        const remove = button("remove", `Watch ${text} no longer`, () => {
          this.watched = this.watched.filter((other) => other !== text);
          this.draw("");
        }, "dbg-plain");
        if (address !== null) return this.row(text, address, [remove]);
        const none = made("td", { className: "quiet", colSpan: 2, textContent: "not in scope" });
        return made("tr", {}, made("th", { scope: "row", textContent: text }), none, made("td", { className: "dbg-asks" }, remove));
      });
      this.watches.replaceChildren(...(rows.length > 0 ? [this.table(rows)] : []));
    }

    // ---- Vectors, strings and tables

    /** What pointers can lead to: vectors of all open frames, strings and tables. `{ key, name, kind, address, cells }`; `address` is that of element 0. */
    findAreas() {
      const { recording: run } = this;
      const areas = [];
      for (const [number, frame] of run.openAt(this.at).slice(0, 200).entries()) {
        const routine = run.routines[frame.routine];
        const isHere = number === this.chosenFrame;
        const of = isHere ? "" : `of ${routine.name}`;
        for (const { name, offset, cells } of isHere ? this.inScope(frame) : routine.variables) {
          const address = frame.base + offset + 1;
          if (cells > 1 && run.cells[address] !== DEAD) areas.push({ name, of, kind: "vector", address, cells: cells - 1, isHere });
        }
      }
      for (const { kind, address, cells, file, start } of run.data.data) {
        const where = file >= 0 ? `, line ${run.files[file].lineAt(start) + 1}` : "";
        const name = kind === "string" ? this.stringAt(address) : `TABLE${where}`;
        areas.push({ name, of: "", kind, address, cells, isHere: false });
      }
      return areas.sort((one, other) => one.address - other.address);
    }

    stringAt(address) {
      const { cells } = this.recording;
      const byte = (k) => (Math.max(0, cells[address + (k >> 1)] - 2) >> (k % 2 === 0 ? 8 : 0)) & 255;
      return `"${Array.from({ length: Math.min(byte(0), LONG_STRING) }, (_, k) => letter(byte(k + 1))).join("")}${byte(0) > LONG_STRING ? "..." : ""}"`;
    }

    areaAt(word) {
      let [low, high] = [0, this.areas.length];
      while (low < high) {
        const middle = (low + high) >> 1;
        if (this.areas[middle].address <= word) low = middle + 1;
        else high = middle;
      }
      const area = this.areas[low - 1];
      return area && word < area.address + area.cells ? area : null;
    }

    /** What a word points to, if it is an address in a vector, or that of a string or table. */
    pointsTo(word) {
      const area = this.areaAt(word);
      if (!area || (area.kind !== "vector" && word !== area.address)) return "";
      return area.kind === "vector" ? `${area.name}!${word - area.address}` : area.name;
    }

    /** The areas that are drawn: the vectors in scope, those that changed, and what the variables point to. */
    shownAreas() {
      const { cells } = this.recording;
      const wanted = new Set(this.areas.filter(({ isHere }) => isHere));
      const add = (state) => {
        const area = state > UNSET && this.pointsTo(state - 2) !== "" ? this.areaAt(state - 2) : null;
        if (area) wanted.add(area);
      };
      for (const node of this.state.querySelectorAll("[data-holds]")) if (node.closest("table")) add(Number(node.dataset.holds));
      for (const address of [...this.changed.keys()].slice(0, 100)) if (this.areaAt(address)) wanted.add(this.areaAt(address));
      for (const area of [...wanted]) for (let k = 0; k < Math.min(area.cells, MOST_CELLS) && area.kind === "vector"; k += 1) add(cells[area.address + k]);
      return [...wanted].slice(0, MOST_VECTORS);
    }

    drawVectors() {
      const shown = this.shownAreas();
      const none = "No vector is in scope, and nothing points to one.";
      this.vectors.replaceChildren(...(shown.length > 0 ? shown.map((area) => this.area(area)) : [quiet(none)]));
    }

    area(area) {
      const { name, of, kind, address, cells } = area;
      const [from, to] = this.window(area);
      const boxes = Array.from({ length: to - from }, (_, k) => this.cell(area, from + k));
      const size = kind === "vector" ? `${of} 0 to ${cells - 1}` : `at ${address}`;
      const more = to - from < cells ? [button(`all ${cells}`, `Show all ${cells} cells of ${name}`, () => {
        this.whole.add(address);
        this.draw("");
      }, "dbg-plain")] : [];
      const head = made("h3", {}, name, " ", quiet(to - from < cells ? `${size}, ${from} to ${to - 1} shown` : size), ...more);
      return made("div", {}, head, made("ol", { className: "dbg-cells", "aria-label": `${name} ${of}` }, ...boxes));
    }

    /** Which cells of a long vector are shown: those around what changed last. */
    window({ address, cells }) {
      if (cells <= MOST_CELLS || this.whole.has(address)) return [0, cells];
      const changed = [...this.changed.keys()].find((it) => it >= address && it < address + cells) ?? address;
      const from = Math.min(Math.max(0, Math.floor((changed - address) / 16) * 16 - 16), cells - MOST_CELLS);
      return [from, from + MOST_CELLS];
    }

    cell({ name, kind, address }, number) {
      const at = address + number;
      const state = this.recording.cells[at];
      const before = this.before(at);
      const text = kind === "string" && state > UNSET ? this.pair(state - 2, number) : this.valueText(state);
      const [short, title] = state > UNSET ? [text, inAllForms(state - 2)] : ["\u00b7", "not set"];
      const value = made("span", { className: "dbg-holds", textContent: short, title });
      value.dataset.holds = kind === "vector" ? state : UNSET;
      const label = kind === "string" ? `cell ${number}` : `${name}!${number}`;
      const old = before === null ? "" : `, before ${this.valueText(before)}`;
      const said = `${label}: ${state > UNSET ? text : title}${old}. Who wrote it?`;
      const node = made("button", { type: "button", "aria-label": said }, made("span", { className: "dbg-index", textContent: number }), value);
      node.dataset.cell = at;
      node.dataset.name = label;
      node.className = `${before === null ? "" : "changed"} ${state === UNSET ? "unset" : ""}`.trim();
      return made("li", {}, node);
    }

    /** The two bytes of a word of a string; the first byte of all is the length. */
    pair(word, number) {
      const visible = (byte) => (byte === 32 ? "\u2423" : letter(byte));
      return number === 0 ? `${word >> 8} ${visible(word & 255)}` : `${visible(word >> 8)}${(word & 255) === 0 ? "" : visible(word & 255)}`;
    }

    clickState(event) {
      const node = event.target.closest("[data-cell]");
      if (node) this.who(Number(node.dataset.cell), node.dataset.name);
    }

    // ---- Arrows

    /** Draws an arrow from each value that is an address to the cell that it points to. */
    drawArrows() {
      const box = this.state.getBoundingClientRect();
      const targets = new Map([...this.vectors.querySelectorAll("[data-cell]")].map((node) => [Number(node.dataset.cell), node]));
      const paths = [];
      for (const node of this.state.querySelectorAll("[data-holds]")) {
        const word = Number(node.dataset.holds) - 2;
        const target = word >= 0 && paths.length < MOST_ARROWS && this.pointsTo(word) !== "" ? targets.get(word) : undefined;
        if (target && !target.contains(node)) paths.push(arrow(node.getBoundingClientRect(), target.getBoundingClientRect(), box, !node.closest("table")));
      }
      this.arrows.replaceChildren(...paths);
      this.arrows.setAttribute("viewBox", `0 0 ${box.width} ${box.height}`);
      this.arrows.style.height = `${box.height}px`;
    }

    // ---- Output and input

    drawOutput() {
      const { recording: run, at, since } = this;
      const end = run.written[at];
      const old = since < 0 ? 0 : Math.min(run.written[since], end);
      if (this.drawnOutput !== `${old}:${end}`) {
        this.drawnOutput = `${old}:${end}`;
        this.outputFrom = Math.max(0, end - MOST_OUTPUT);
        this.outputNote = this.outputFrom > 0 ? "(the beginning isn't shown)\n" : "";
        const middle = Math.max(this.outputFrom, old);
        const text = (from, to) => pictured(decoder.decode(run.output.subarray(from, to)));
        this.written.replaceChildren(this.outputNote, text(this.outputFrom, middle), made("mark", { textContent: text(middle, end) }));
        if (end === 0) this.written.replaceChildren(quiet("Nothing yet."));
        this.written.scrollTop = this.written.scrollHeight;
      }
      this.drawInput();
    }

    /** The input: what was read up to here, and what is still to come. */
    drawInput() {
      const { input } = this.recording.data;
      const taken = this.recording.taken[this.at];
      this.read.hidden = input === "";
      if (input === "" || this.drawnInput === taken) return;
      this.drawnInput = taken;
      const show = (from, to) => pictured(decoder.decode(bytesOf(input.slice(from, to))));
      const old = quiet(show(Math.max(0, taken - MOST_INPUT), taken));
      this.read.replaceChildren(made("h3", { textContent: `Input: ${grouped(taken)} of ${grouped(input.length)} bytes were read` }),
        made("pre", { className: "dbg-output", tabIndex: 0, "aria-label": "Input" }, old, made("b", { textContent: show(taken, taken + MOST_INPUT) })));
    }

    // ---- Keys

    key(event) {
      const { target } = event;
      if (event.ctrlKey || event.metaKey || event.altKey || event.defaultPrevented || this.help.open || !this.root.checkVisibility()) return;
      if (target !== document.body && !this.root.contains(target)) return;
      if (target.matches("textarea, select, input:not([type=range])")) return;
      if (target === this.slider && /^(Arrow|Home|End|Page)/.test(event.key)) return;
      const action = KEYS[event.key];
      if (!action) return;
      event.preventDefault();
      action(this);
    }
  }

  /** A curved arrow between two boxes. */
  function arrow(from, to, box, isFromCell) {
    const names = "http://www.w3.org/2000/svg";
    const [x, y] = isFromCell ? [from.left + from.width / 2, from.bottom] : [from.right + 3, from.top + from.height / 2];
    const [tx, ty] = [to.left + to.width / 2, to.top];
    const [a, b] = [x - box.left, y - box.top];
    const [c, d] = [tx - box.left, ty - box.top];
    const bend = isFromCell ? `${a} ${b + 24}` : `${a + Math.max(24, Math.abs(c - a) / 2)} ${b}`;
    const path = document.createElementNS(names, "path");
    path.setAttribute("d", `M${a} ${b}C${bend} ${c} ${d - 28} ${c} ${d - 1}m-4 -6l4 6l4 -6`);
    return path;
  }

  // ---- The start

  /** Shows a recording in an element. `data` is the recording's object. */
  function mount(root, data) {
    try {
      return new Page(root, new Recording(data));
    } catch (error) {
      root.replaceChildren(made("p", { role: "alert", textContent: `The recording can't be shown: ${error.message}.` }));
      return null;
    }
  }

  globalThis.bcplDebugger = { mount };

  document.addEventListener("DOMContentLoaded", () => {
    const element = document.getElementById("recording");
    const root = document.getElementById("debugger");
    if (!element || !root) return;
    const data = JSON.parse(element.textContent);
    document.title = `${data.program}, step by step`;
    document.querySelector("h1").textContent = data.program;
    bcplDebugger.page = mount(root, data);
  });
})();
