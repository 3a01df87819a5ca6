// Knows the rules, and what a page's data mean. It needs no page, so tests call it. RULES has for each rule for what it is, where it applies, its code,
// and why it is right; tools/pages makes it of rules.txt and of the legend of `show`.
/* global RULES */
var Explain = (() => {
  const ANY = 0, PUSH = 1, FALSE = 2, TRUE = 3;
  const AIMS = ['as a value', 'as a second operand', 'to jump on false', 'to jump on true'];
  const SIGNS = '* / REM + - = NE < >= > <= << >> & | NEQV EQV'.split(' ');
  const PLUS = 'X8', MINUS = 'X9', EQUAL = 'X10', UNEQUAL = 'X11', AND = 'X18', OR = 'X19';
  const MIRRORS = { X5: 5, X8: 8, X10: 10, X11: 11, X12: 14, X13: 15, X14: 12, X15: 13, X18: 18, X19: 19, X20: 20, X21: 21 };
  const VALUES = 'V0 V1 V2 V3 V4 V6 V7 V8 V9 V10 V11 V12 V13 V14 V15 V16 V17 V18 V19 V20 V21 V22'.split(' ');
  const TESTS = 'J1 J2 J3 J4 J5 J6 J7 J8 J9'.split(' ');
  const SIDES = ['A1', 'A2', 'A3'];

  // Why the theorem says nothing about the items of a command itself.
  const NOTES = {
    'jump past ELSE': 'Jumps around the other block. The theorem covers expressions, tests and assignments, so it doesn\u2019t say that a command '
      + 'needs this jump, even if it passes over one instruction.',
    BREAK: 'A jump to the end of the loop. The theorem covers no jumps of commands, even one to the next instruction.',
    LOOP: 'A jump to the next round. The theorem covers no jumps of commands, even one to the next instruction.',
    ENDCASE: 'A jump out of the switch. The theorem covers no jumps of commands, even one to the next instruction.',
    GOTO: 'A jump to a label. The theorem covers no jumps of commands, even one to the next instruction.',
    RESULTIS: 'A jump to the end of the VALOF. The theorem covers no jumps of commands, even one to the next instruction.',
    'jump back; BREAK jumps past it': 'The jump that closes the loop. The theorem covers the test of the loop, but not where the compiler puts it.',
    switch: 'The list of cases. The theorem covers the value of the switch, but not this list.',
    RETURN: 'Loads 0 and returns. The theorem covers no commands\u2019 own code.',
    'return at the end': 'Every routine ends like this, also if nothing gets here. The theorem covers no commands\u2019 own code.',
  };
  const NOTE = 'Belongs to the command itself. The theorem covers expressions, tests and assignments only.';
  const noteOf = (purpose) => NOTES[purpose] ?? NOTE;

  // ---- Nodes

  const arityOf = (kind, number) => ('NPGLV'.includes(kind) ? 0 : '!M~'.includes(kind) ? 1 : kind === 'X' ? 2 : kind === '?' ? 3 : number + 1);

  function nodesOf(text) {
    const stack = [], nodes = [];
    for (const line of text.split(',')) {
      if (!line) continue;
      const [sign, ...lists] = line.split('|');
      const number = Number(sign.slice(1));
      const parts = stack.splice(stack.length - arityOf(sign[0], number));
      const hasCall = 'KV'.includes(sign[0]) || parts.some((part) => part.hasCall);
      const node = { sign, kind: sign[0], n: number, parts, lists, hasCall, index: nodes.length, level: 0, name: '', leaves: null };
      stack.push(node);
      nodes.push(node);
    }
    return { nodes, tops: stack };
  }

  function setLevels(node, level) {
    node.level = level;
    const inside = node.kind === 'X' ? level + 1 : node.kind === 'K' ? level + 2 : level;
    node.parts.forEach((part, index) => setLevels(part, node.kind === 'K' ? inside + index : inside));
  }

  function moved(cell, number) {
    return 'PG'.includes(cell.kind) && number.kind === 'N' ? { indirect: '', base: cell.kind, n: (cell.n + number.n) % 65536 } : null;
  }

  function operandOf(node) {
    if (node.kind === 'N') return { indirect: '', base: '', n: node.n };
    if ('PGL'.includes(node.kind)) return { indirect: '', base: node.kind, n: node.n };
    if (node.kind === '!') {
      const inside = operandOf(node.parts[0]);
      return inside && !inside.indirect ? { ...inside, indirect: 'I' } : null;
    }
    return node.sign === PLUS ? moved(...node.parts) ?? moved(node.parts[1], node.parts[0]) : null;
  }

  const isDirect = (node) => operandOf(node)?.indirect === '';
  const areFree = (a, b) => !(a.hasCall || b.hasCall) || isDirect(a) || isDirect(b);
  const isZero = (node) => node.kind === 'N' && node.n === 0;
  const besideZero = (a, b) => (isZero(b) ? a : isZero(a) ? b : null);

  function beginningsOf(node, aim) {
    const letter = aim < FALSE ? 'V' : 'J';
    return node.lists[aim] ? node.lists[aim].split(' ').map((text) => {
      const [rule, words] = text.split(':');
      return { rule: letter + rule, words: Number(words) };
    }) : [];
  }

  // The candidate that is chosen: the first of those with the fewest words.
  const leastOf = (list) => list.reduce((best, other) => (best && best.words <= other.words ? best : other), null);

  // ---- Which rules apply

  const rulesFor = (aim) => {
    if (aim === ANY) return VALUES.filter((rule) => rule !== 'V1');
    if (aim === PUSH) return VALUES.slice(1, 11);
    return TESTS.filter((rule) => !(aim === FALSE ? ['J3', 'J4'] : ['J2', 'J5']).includes(rule));
  };

  const isOf = (node, sign, what) => (node.sign === sign || node.kind === sign ? '' : `no ${what} here`);
  const operand = (node, name) => (operandOf(node) ? '' : `${name} is no operand`);
  const free = (a, b) => (areFree(a, b) ? '' : 'the order matters');

  function zeroReason(node) {
    const [a, b] = node.parts;
    if (node.sign !== PLUS && node.sign !== MINUS) return 'no + or -';
    if (node.sign === MINUS) return isZero(b) ? '' : isZero(a) ? '0 on the left' : 'no 0 here';
    return besideZero(a, b) ? '' : 'no 0 here';
  }

  function pairReason(rule, node) {
    if (node.kind !== 'X') return 'no operator here';
    const [a, b] = node.parts;
    const mirror = MIRRORS[node.sign] ? '' : 'no mirror operator';
    const plus = isOf(node, PLUS, '+'), minus = isOf(node, MINUS, '-');
    switch (rule) {
      case 'V6': return plus || operand(b, 'b');
      case 'V7': return plus || operand(a, 'a') || free(a, b);
      case 'V8': return zeroReason(node);
      case 'V9': return minus || (b.kind === 'N' ? '' : 'b is no number');
      case 'V10': return minus || operand(b, 'b');
      case 'V11': return minus || operand(a, 'a') || free(a, b);
      case 'V13': return mirror || free(a, b);
      case 'V14': return minus || free(a, b);
      case 'V15': return mirror;
      case 'V16': return free(a, b);
      case 'V18': return plus;
      case 'V19': return minus;
      default: return '';
    }
  }

  function testReason(rule, node) {
    const zero = () => (besideZero(...node.parts) ? '' : 'no 0 here');
    switch (rule) {
      case 'J1': return isOf(node, '~', 'NOT');
      case 'J2': case 'J3': return isOf(node, AND, '&');
      case 'J4': case 'J5': return isOf(node, OR, '|');
      case 'J6': return { '~': 'NOT on top', [AND]: '& on top', [OR]: '| on top' }[node.sign] ?? '';
      case 'J7': return isOf(node, 'N', 'number');
      case 'J8': return isOf(node, EQUAL, '=') || zero();
      default: return isOf(node, UNEQUAL, 'NE') || zero();
    }
  }

  function formReason(rule, node) {
    switch (rule) {
      case 'V0': return '';
      case 'V1': return operandOf(node) ? '' : 'it\u2019s no operand';
      case 'V2': return isOf(node, '!', '!');
      case 'V3': return isOf(node, 'M', 'negative');
      case 'V4': return isOf(node, '~', 'NOT');
      case 'V20': case 'V21': return isOf(node, '?', '->');
      case 'V22': return 'KV'.includes(node.kind) ? '' : 'no call here';
      default: return rule[0] === 'J' ? testReason(rule, node) : pairReason(rule, node);
    }
  }

  // Why a rule doesn't apply, in three words, or an empty text if it does.
  function reasonOf(rule, node, aim) {
    const reason = formReason(rule, node);
    if (reason) return reason;
    const lost = takesOf(rule, aim, node).find(([part, of]) => !node.lists.length || !part.lists[of]);
    return lost ? `${nameOfPart(node, lost[0])} changes B` : '';
  }

  const nameOfPart = (node, part) => (part === node ? 'it' : node.kind === 'X' ? 'ab'[node.parts.indexOf(part)] : 'its part');

  // ---- Derivations and their code

  // The parts of a rule, each with its aim, in the order of the code.
  function takesOf(rule, aim, node) {
    const [a, b, c] = node.parts;
    switch (rule) {
      case 'V0': return [[node, PUSH]];
      case 'V2': case 'V3': case 'V4': case 'V6': case 'V9': case 'V10': return [[a, aim]];
      case 'V7': case 'V11': return [[b, aim]];
      case 'V8': return [[besideZero(a, b), aim]];
      case 'V12': return [[a, ANY], [b, PUSH]];
      case 'V13': case 'V14': return [[b, ANY], [a, PUSH]];
      case 'V15': case 'V17': case 'V18': case 'V19': return [[a, ANY], [b, ANY]];
      case 'V16': return [[b, ANY], [a, ANY]];
      case 'V20': return [[a, FALSE], [b, ANY], [c, ANY]];
      case 'V21': return [[a, TRUE], [c, ANY], [b, ANY]];
      case 'V22': return node.parts.map((part) => [part, ANY]);
      case 'J1': return [[a, FALSE + TRUE - aim]];
      case 'J2': return [[a, FALSE], [b, FALSE]];
      case 'J3': return [[a, FALSE], [b, TRUE]];
      case 'J4': return [[a, TRUE], [b, TRUE]];
      case 'J5': return [[a, TRUE], [b, FALSE]];
      case 'J6': return [[node, ANY]];
      case 'J8': case 'J9': return [[besideZero(a, b), ANY]];
      default: return [];
    }
  }

  // The derivation that begins with this rule and goes on with the fewest words.
  function leastFrom(rule, node, aim) {
    return { rule, parts: takesOf(rule, aim, node).map(([part, of]) => leastFrom(leastOf(beginningsOf(part, of)).rule, part, of)) };
  }

  const leastTree = (node, aim) => leastFrom(leastOf(beginningsOf(node, aim)).rule, node, aim);

  function sidesOf(rule, value, address) {
    return rule === 'A1' ? [value] : rule === 'A2' ? [address, value] : [value, address];
  }

  const wordsOf = (number) => (number > 511 ? 2 : 1);

  // Code while it is written: the items with their words, and the node whose rule each belongs to.
  class Code {
    constructor(first) {
      this.items = [];
      this.next = first;
      this.chosen = new Map();
      this.ranges = new Map();
    }

    add(text, words, node) {
      this.items.push({ text, words, node });
    }

    operand(letter, of, node) {
      const { indirect, base, n } = operandOf(of);
      this.add(letter + indirect + base + n, base === 'L' ? 2 : wordsOf(n), node);
    }

    cell(letters, offset, node) {
      this.add(letters + offset, wordsOf(offset), node);
    }

    x(number, node) {
      this.add(`X${number}`, 1, node);
    }

    jump(letter, target, node) {
      this.add(`${letter}L${target}`, 2, node);
    }

    label(label, node) {
      this.add(String(label), 0, node);
    }

    // Writes the code of a derivation of a node, and notes where it is.
    write(derivation, node, aim, target) {
      const from = this.items.length;
      const { rule } = derivation;
      if (!this.chosen.has(node)) this.chosen.set(node, []);
      this.chosen.get(node).push([aim, rule]);
      if (rule[0] === 'J') this.test(derivation, node, aim, target);
      else this.value(derivation, node, aim, target);
      this.ranges.set(node, [from, this.items.length]);
    }

    value(derivation, node, aim, target) {
      const { rule } = derivation;
      const [a, b] = node.parts;
      const s = node.level;
      const takes = takesOf(rule, aim, node);
      const part = (index, to = target) => this.write(derivation.parts[index], ...takes[index], to);
      switch (rule) {
        case 'V0': case 'V8': return part(0);
        case 'V1': return this.operand('L', node, node);
        case 'V2': case 'V3': case 'V4': part(0); return this.x(rule[1] - 1, node);
        case 'V6': part(0); return this.operand('A', b, node);
        case 'V7': part(0); return this.operand('A', a, node);
        case 'V9': part(0); return this.cell('A', (65536 - b.n) % 65536, node);
        case 'V10': part(0); this.x(2, node); this.operand('A', b, node); return this.x(2, node);
        case 'V11': part(0); this.x(2, node); return this.operand('A', a, node);
        case 'V20': case 'V21': return this.choice(part, node);
        case 'V22': return this.call(part, node);
        default: part(0); return this.pair(rule, part, node, s);
      }
    }

    // What follows the code of the first part of a rule with two parts.
    pair(rule, part, node, s) {
      const op = node.n, mirror = MIRRORS[node.sign];
      const held = (index) => { this.cell('SP', s, node); part(index); };
      switch (rule) {
        case 'V12': part(1); return this.x(op, node);
        case 'V13': part(1); return this.x(mirror, node);
        case 'V14': part(1); this.x(9, node); return this.x(2, node);
        case 'V15': held(1); this.cell('LIP', s, node); return this.x(mirror, node);
        case 'V16': held(1); this.cell('LIP', s, node); return this.x(op, node);
        case 'V18': held(1); return this.cell('AIP', s, node);
        case 'V19': held(1); this.x(2, node); return this.cell('AIP', s, node);
        default:
          held(1);
          this.cell('SP', s + 1, node);
          this.cell('LIP', s, node);
          this.cell('LIP', s + 1, node);
          return this.x(op, node);
      }
    }

    choice(part, node) {
      const label = this.next;
      this.next += 2;
      part(0, label);
      part(1);
      this.jump('J', label + 1, node);
      this.label(label, node);
      part(2);
      this.label(label + 1, node);
    }

    call(part, node) {
      if (node.kind === 'V') {
        this.add(`?${node.n}`, 0, node);
        return this.label(this.next++, node);
      }
      const s = node.level, last = node.parts.length - 1;
      for (let index = 0; index < last; index += 1) {
        part(index);
        this.cell('SP', s + 2 + index, node);
      }
      part(last);
      return this.cell('K', s, node);
    }

    test(derivation, node, aim, target) {
      const { rule } = derivation;
      const takes = takesOf(rule, aim, node);
      const part = (index, to = target) => this.write(derivation.parts[index], ...takes[index], to);
      const onThis = aim === TRUE ? 'T' : 'F', onOther = aim === TRUE ? 'F' : 'T';
      if (rule === 'J7') return (node.n !== 0) === (aim === TRUE) ? this.jump('J', target, node) : undefined;
      if (rule === 'J3' || rule === 'J5') {
        const label = this.next++;
        part(0, label);
        part(1);
        return this.label(label, node);
      }
      part(0);
      if (rule === 'J2' || rule === 'J4') return part(1);
      if (rule === 'J1') return undefined;
      return this.jump(rule === 'J8' ? onOther : onThis, target, node);
    }

    assign(derivation, value, address, s) {
      const { rule, parts } = derivation;
      const [first, second] = sidesOf(rule, value, address);
      this.write(parts[0], first, ANY, 0);
      if (rule === 'A1') return this.operand('S', address, null);
      this.cell('SP', s, null);
      this.write(parts[1], second, ANY, 0);
      if (rule === 'A2') return this.cell('SIP', s, null);
      this.cell('SP', s + 1, null);
      this.cell('LIP', s, null);
      return this.cell('SIP', s + 1, null);
    }

    get words() {
      return this.items.reduce((sum, item) => sum + item.words, 0);
    }
  }

  // The code that a node would have by this rule, with labels from 1 on and the target t.
  function codeBy(rule, node, aim) {
    const code = new Code(1);
    code.write(leastFrom(rule, node, aim), node, aim, 't');
    return code;
  }

  // The three rules of an assignment: the code and words of each that applies, or the reason why it doesn't.
  function sidesBy(root) {
    const [value, address] = root.tops;
    const isOperand = Boolean(operandOf(address));
    const reasons = {
      A1: isOperand ? '' : 'address no operand',
      A2: isOperand ? 'address an operand' : free(value, address),
      A3: isOperand ? 'address an operand' : '',
    };
    return SIDES.map((rule) => {
      if (reasons[rule]) return { rule, reason: reasons[rule] };
      const code = new Code(1);
      code.assign({ rule, parts: sidesOf(rule, value, address).map((side) => leastTree(side, ANY)) }, value, address, root.level);
      return { rule, words: code.words, code };
    });
  }

  function derivationOf(text) {
    const stack = [[]];
    for (const [token] of text.matchAll(/[VJA]\d+|[()]/g)) {
      if (token === '(') stack.push(stack.at(-1).at(-1).parts);
      else if (token === ')') stack.pop();
      else stack.at(-1).push({ rule: token, parts: [] });
    }
    return stack[0][0];
  }

  // ---- The model of a file

  // The leaves of a file with their places: the source, the line, the bytes before it, its bytes. A leaf of the library has none.
  function leavesOf(list) {
    const leaves = [];
    let source = -1;
    for (let at = 0; at < list.length; at += 1) {
      if (list[at] < 0) source = -list[at] - 1;
      else if (list[at] === 0) leaves.push(null);
      else {
        leaves.push({ source, line: list[at], from: list[at + 1], bytes: list[at + 2] });
        at += 2;
      }
    }
    return leaves;
  }

  // Where the character begins that this many bytes precede. A line that isn't ASCII is counted character by character.
  function unitAt(line, bytes) {
    let at = 0, met = 0;
    while (at < line.length && met < bytes) {
      const code = line.codePointAt(at);
      met += code < 128 ? 1 : code < 2048 ? 2 : code < 65536 ? 3 : 4;
      at += code < 65536 ? 1 : 2;
    }
    return Math.min(at, line.length);
  }

  class Root {
    constructor(file, index, row) {
      const [form, level, target, first, words, reading, derivation, nodes] = row;
      Object.assign(this, { file, index, form, level, target, first, words, derivation });
      [this.leaf, this.value, this.address, this.isWritten] = reading;
      this.text = nodes;
      this.isOpen = false;
      this.elements = [];
    }

    // Reads the nodes, on demand.
    read() {
      if (this.nodes) return this;
      Object.assign(this, nodesOf(this.text));
      const inside = this.form !== 'A' || operandOf(this.tops[1]) ? this.level : this.level + 1;
      this.tops.forEach((top) => setLevels(top, inside));
      this.tree = derivationOf(this.derivation);
      this.code = new Code(this.first);
      if (this.form === 'A') this.code.assign(this.tree, ...this.tops, this.level);
      else this.code.write(this.tree, this.tops[0], { V: ANY, F: FALSE, T: TRUE }[this.form], this.target);
      this.findLeaves();
      return this;
    }

    // Gives each leaf of the trees its leaf of the source, in text order.
    findLeaves() {
      const [value, address] = this.tops;
      if (this.isWritten) this.follow(value, this.value);
      else {
        const cell = inTextOrder(value).find((node) => node.kind === '!' && node.parts[0].kind === 'P');
        if (cell) this.follow(cell, this.value);
        else value.leaves = [this.value, this.value + 1];
      }
      if (address && this.address >= 0) this.follow(address, this.address);
    }

    follow(node, first) {
      let at = first;
      for (const leaf of inTextOrder(node)) {
        if (leaf.parts.length) continue;
        const end = this.file.extents.get(at) ?? at + 1;
        leaf.leaves = [at, end];
        leaf.name = this.file.nameAt(at, leaf.kind);
        at = end;
      }
    }
  }

  // A node and all below it; the routine of a call comes before its arguments.
  function inTextOrder(node) {
    const parts = node.kind === 'K' ? [node.parts.at(-1), ...node.parts.slice(0, -1)] : node.parts;
    return [node, ...parts.flatMap(inTextOrder)];
  }

  // The first leaf of a node and the leaf after its last one, or null if the source doesn't spell it.
  function leavesBelow(node) {
    const all = inTextOrder(node).map((other) => other.leaves).filter(Boolean);
    return all.length ? [Math.min(...all.map(([from]) => from)), Math.max(...all.map(([, to]) => to))] : null;
  }

  class File {
    constructor(data, number) {
      const row = data.files[number];
      this.number = number;
      this.sources = data.sources;
      this.main = row.file;
      this.path = data.sources[row.file]?.path ?? '';
      this.lines = data.sources[row.file]?.lines ?? [];
      this.leaves = leavesOf(row.leaves);
      this.places = row.places;
      this.extents = new Map();
      for (let at = 0; at < row.extents.length; at += 2) this.extents.set(row.extents[at], row.extents[at + 1]);
      this.roots = row.roots.map((root, index) => new Root(this, index, root));
      this.place(row.runs);
    }

    // Gives each run its line: of this file, of another one, or of none, if it is data.
    place(rows) {
      this.atLines = new Map();
      this.others = [];
      this.data = [];
      this.routines = [];
      let item = 0;
      for (const [kind, of, more, words, text] of rows) {
        const items = text ? text.split(' ') : [];
        const run = { kind, from: item, to: item + items.length, items, words };
        item = run.to;
        if (kind === 'r') Object.assign(run, { root: this.roots[of], isFirst: Boolean(more), leaf: this.roots[of].leaf });
        if (kind === 'c') Object.assign(run, { purpose: more, leaf: of });
        this.count(run);
        const leaf = kind === 'd' ? null : this.leaves[run.leaf];
        if (!leaf) this.data.push(run);
        else if (leaf.source !== this.main) this.others.push({ ...leaf, run });
        else if (this.atLines.has(leaf.line)) this.atLines.get(leaf.line).push(run);
        else this.atLines.set(leaf.line, [run]);
      }
    }

    // Adds a run to the words of its routine.
    count(run) {
      if (run.purpose === 'routine') this.routines.push({ name: this.textAt(run.leaf), leaf: run.leaf, roots: 0, commands: 0 });
      const routine = this.routines.at(-1);
      if (!routine) return;
      if (run.kind === 'c') routine.commands += run.words;
      if (run.kind === 'r' && run.isFirst) routine.roots += run.root.words;
    }

    get dataWords() {
      return this.data.reduce((sum, run) => sum + run.words, 0);
    }

    lineOf(leaf) {
      return this.sources[leaf.source]?.lines[leaf.line - 1] ?? '';
    }

    textAt(index) {
      const leaf = this.leaves[index];
      if (!leaf) return '';
      const line = this.lineOf(leaf);
      return line.slice(unitAt(line, leaf.from), unitAt(line, leaf.from + leaf.bytes));
    }

    // What a leaf is called beside its node. A number or a character has no name.
    nameAt(index, kind) {
      const text = this.textAt(index);
      if (kind === 'V') return '';
      return /^[A-Za-z]/.test(text) && !(kind === 'N' && /^(TRUE|FALSE)$/i.test(text)) || /^"/.test(text) ? text : '';
    }

    // The texts of a node: for each line the first unit and the unit after the last one.
    textsOf(node) {
      const leaves = leavesBelow(node);
      const first = leaves && this.leaves[leaves[0]], last = leaves && this.leaves[leaves[1] - 1];
      if (!first || !last || first.source !== last.source) return [];
      const texts = [];
      for (let line = first.line; line <= last.line; line += 1) {
        const text = this.sources[first.source].lines[line - 1] ?? '';
        const from = line === first.line ? unitAt(text, first.from) : text.length - text.trimStart().length;
        const to = line === last.line ? unitAt(text, last.from + last.bytes) : text.length;
        texts.push({ source: first.source, line, from, to: Math.max(from, to) });
      }
      return texts.length === 1 ? [widened(node, texts[0], this.sources[first.source].lines[first.line - 1])] : texts;
    }
  }

  // The numbers of round brackets in a text that aren't closed, and that aren't opened.
  function unmatched(text) {
    let open = 0, close = 0;
    for (const character of text.replace(/"[^"]*"|'[^']*'/g, '')) {
      if (character === '(') open += 1;
      else if (character === ')' && open > 0) open -= 1;
      else if (character === ')') close += 1;
    }
    return { open, close };
  }

  // A text with the operator before it, if its node is one, and with the brackets that it opens.
  function widened(node, text, line) {
    let { from, to } = text;
    const before = line.slice(0, from);
    const sign = { '!': /!\s*\(*\s*$/, M: /-\s*\(*\s*$/, '~': /(?:NOT|~|\\)\s*\(*\s*$/i }[node.kind];
    const found = sign && node.leaves === null && node.parts[0].kind !== 'P' && before.match(sign);
    if (found && !(node.kind === '!' && node.parts[0].sign === PLUS && line.slice(from, to).includes('!'))) from = found.index;
    let { open, close } = unmatched(line.slice(from, to));
    for (let next; open > 0 && (next = line.slice(to).match(/^\s*\)/)); open -= 1) to += next[0].length;
    for (let last; close > 0 && (last = line.slice(0, from).match(/\(\s*$/)); close -= 1) from = last.index;
    return { ...text, from, to };
  }

  const model = (data) => ({ ...data, files: data.files.map((row, number) => new File(data, number)) });

  // The number of uses of each rule in the files of a page.
  function usesOf(page) {
    const uses = new Map();
    for (const file of page.files) {
      for (const root of file.roots) {
        for (const [rule] of root.derivation.matchAll(/[VJA]\d+/g)) uses.set(rule, (uses.get(rule) ?? 0) + 1);
      }
    }
    return uses;
  }

  return {
    ANY, PUSH, FALSE, TRUE, AIMS, SIGNS, RULES, VALUES, TESTS, SIDES, PLUS,
    model, beginningsOf, leastOf, rulesFor, reasonOf, codeBy, sidesBy, usesOf, noteOf, operandOf, leavesBelow, inTextOrder, unitAt,
  };
})();
