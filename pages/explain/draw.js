// Draws the page from its data. All text goes into the page as text.

if (typeof document !== 'undefined') (() => {
  const { ANY, PUSH, FALSE, TRUE, AIMS, SIGNS, RULES, PLUS } = Explain;
  const BLOCK = 60;
  const MOST_OPEN = 400;
  const page = Explain.model(JSON.parse(document.getElementById('data').textContent));
  const uses = Explain.usesOf(page);
  const main = document.getElementById('page');
  const unit = (words) => `${words} ${words === 1 ? 'word' : 'words'}`;

  // An element with attributes and children. A child that is a string becomes text.
  function el(tag, attributes, ...children) {
    const element = document.createElement(tag);
    for (const [name, value] of Object.entries(attributes ?? {})) {
      if (name.startsWith('on')) element.addEventListener(name.slice(2), value);
      else if (value !== null) element.setAttribute(name, value);
    }
    element.append(...children.filter((child) => child !== null));
    return element;
  }

  // A part that draws what is in it when it is first opened.
  function opening(attributes, summary, draw) {
    const details = el('details', attributes, el('summary', null, ...[summary].flat()));
    details.addEventListener('toggle', () => {
      if (details.open && draw) {
        details.append(...[draw()].flat().filter((child) => child !== null));
        draw = null;
      }
    });
    return details;
  }

  // ---- What is marked: a node, its text and its items

  let marked = null;
  const lines = new Map();
  const hasHighlights = typeof Highlight !== 'undefined' && Boolean(CSS.highlights);

  function textNodeAt(element, unitIndex) {
    const walker = document.createTreeWalker(element, NodeFilter.SHOW_TEXT);
    let left = unitIndex, last = null;
    while (walker.nextNode()) {
      last = walker.currentNode;
      if (left <= last.data.length) return [last, left];
      left -= last.data.length;
    }
    return last ? [last, last.data.length] : [element, 0];
  }

  function rangeOf({ source, line, from, to }) {
    const shown = lines.get(`${source}:${line}`);
    if (!shown) return null;
    const range = document.createRange();
    range.setStart(...textNodeAt(shown, from));
    range.setEnd(...textNodeAt(shown, to));
    return range;
  }

  function markText(texts) {
    for (const element of main.querySelectorAll('.leaf.on')) element.classList.remove('on');
    if (hasHighlights) {
      CSS.highlights.set('on', new Highlight(...texts.map(rangeOf).filter(Boolean)));
      return;
    }
    for (const { source, line, from, to } of texts) {
      for (const leaf of lines.get(`${source}:${line}`)?.querySelectorAll('.leaf') ?? []) {
        if (Number(leaf.dataset.from) >= from && Number(leaf.dataset.from) < to) leaf.classList.add('on');
      }
    }
  }

  // Marks a node of a root, or nothing.
  function mark(root, node) {
    if (marked && marked.root === root && marked.node === node) return;
    for (const element of main.querySelectorAll('.on')) element.classList.remove('on');
    marked = root ? { root, node } : null;
    markText(root && node ? root.file.textsOf(node) : []);
    if (!root) return;
    const range = node ? root.code.ranges.get(node) : null;
    root.elements.forEach(({ element, index, of }) => {
      if (range ? index >= range[0] && index < range[1] : of === node) element.classList.add('on');
    });
    root.rows?.get(node)?.classList.add('on');
  }

  // Marks what `of` returns, a root and a node, when the mouse is over an element or a key brings it into focus.
  function marksOn(element, focused, of) {
    element.addEventListener('mouseover', (event) => {
      event.stopPropagation();
      mark(...of());
    });
    focused?.addEventListener('focus', () => mark(...of()));
  }

  document.addEventListener('mouseover', () => mark(null, null));
  document.addEventListener('keydown', (event) => { if (event.key === 'Escape') mark(null, null); });

  // ---- Code

  // The items of a run. Those of a root know their nodes.
  function itemsOf(run) {
    if (!run.items.length) return el('span', { class: 'inside' }, 'no code');
    const code = el('code');
    run.items.forEach((text, index) => {
      if (index) code.append(' ');
      const item = el(/^\d/.test(text) ? 'b' : 'span', { class: 'item' }, text);
      code.append(item);
      if (run.kind === 'r') connect(run, item, index);
    });
    return code;
  }

  // Connects an item with the node of its root. `at` is its index among the items of the run.
  function connect(run, item, at) {
    const { root } = run;
    const earlier = root.elements.filter(({ run: other }) => other !== run).length;
    const of = () => {
      const own = root.read().code.items.map((it, index) => [it, index]).filter(([it]) => it.text[0] !== '?');
      return own[earlier + at] ?? [null, -1];
    };
    const entry = { run, element: item, get index() { return of()[1]; }, get of() { return of()[0]?.node ?? null; } };
    root.elements.push(entry);
    marksOn(item, item, () => [root.read(), entry.of]);
  }

  // Code that isn't in the segment: each item with its words if they are two.
  function chips(items) {
    const code = el('code', { class: 'chips' });
    for (const { text, words } of items) {
      const shown = text[0] === '?' ? 'body of the VALOF' : text;
      code.append(el('span', { class: 'chip' }, shown, words ? el('small', null, String(words)) : ''), ' ');
    }
    return items.length ? code : el('span', { class: 'inside' }, 'no code');
  }

  // ---- Trees

  function signOf(node) {
    const signs = { N: String(node.n), M: 'NEG', '~': 'NOT', X: SIGNS[node.n - 5], '?': '->', K: 'CALL', V: `VALOF ${node.n}` };
    return signs[node.kind] ?? node.sign;
  }

  // The name of a rule. What the rule says opens in place, at the end of the element around the name.
  function ruleName(rule) {
    const [aims, where, code, why] = RULES[rule];
    const button = el('button', { class: 'rule', 'aria-expanded': 'false' }, rule);
    button.addEventListener('click', () => {
      const open = button.parentElement.querySelector(':scope > .meaning');
      if (open) open.remove();
      else button.parentElement.append(el('div', { class: 'meaning' }, `For ${aims}. Where: ${where}. Code: `, el('code', null, code), `. ${why}`));
      button.setAttribute('aria-expanded', String(!open));
    });
    return button;
  }

  function tieText(list) {
    const least = Explain.leastOf(list);
    const tied = list.filter((one) => least && one.words === least.words).map((one) => one.rule);
    if (tied.length < 2) return null;
    const named = `${tied.slice(0, -1).join(', ')} and ${tied.at(-1)}`;
    return el('p', { class: 'tie' }, `${named} need ${unit(least.words)}; the lower number wins.`);
  }

  const wordsPart = (words) => el('span', { class: 'words' }, unit(words));

  function candidateRow({ rule, words }, code, isChosen) {
    const sign = el('span', { class: 'sign' }, isChosen ? '\u25c6' : '');
    return el('li', isChosen ? { class: 'chosen' } : null, sign, ruleName(rule), wordsPart(words), chips(code.items));
  }

  // The rules of a node for one aim: those that apply, with their code, the least first, and why the others don't.
  function aimPart(node, aim, chosen) {
    const list = Explain.beginningsOf(node, aim);
    const sorted = [...list].sort((one, other) => one.words - other.words);
    const reasons = Explain.rulesFor(aim).map((rule) => [rule, Explain.reasonOf(rule, node, aim)]).filter(([, reason]) => reason);
    const rows = sorted.map((one) => candidateRow(one, Explain.codeBy(one.rule, node, aim), one.rule === chosen));
    return el('section', { class: 'aim' },
      el('h5', null, AIMS[aim], el('span', { class: 'words' }, list.length ? `${unit(sorted[0].words)} at least` : 'no such code')),
      el('ol', null, ...rows), tieText(list), othersPart(reasons));
  }

  function othersPart(reasons) {
    if (!reasons.length) return null;
    const title = reasons.length === 1 ? '1 rule doesn\u2019t apply' : `${reasons.length} rules don\u2019t apply`;
    return opening({ class: 'others' }, title, () => el('ul', null, ...reasons.map(([rule, reason]) => el('li', null, ruleName(rule), ` ${reason}`))));
  }

  // What opens below a node: the uses that the code makes of it, then the other uses.
  function nodePart(root, node) {
    const chosen = new Map(root.code.chosen.get(node) ?? []);
    const used = [ANY, PUSH, FALSE, TRUE].filter((aim) => chosen.has(aim));
    const rest = [ANY, PUSH, FALSE, TRUE].filter((aim) => !chosen.has(aim));
    const parts = used.map((aim) => aimPart(node, aim, chosen.get(aim)));
    if (!used.length) return rest.map((aim) => aimPart(node, aim, null));
    return [...parts, opening({ class: 'others' }, 'Other uses of this node', () => rest.map((aim) => aimPart(node, aim, null)))];
  }

  function chainOf(root, node) {
    const chosen = root.code.chosen.get(node);
    if (!chosen) return el('span', { class: 'inside' }, 'no code of its own');
    const least = Explain.leastOf(Explain.beginningsOf(node, chosen[0][0]));
    return el('span', { class: 'chain' }, `\u25c6 ${chosen.map(([, rule]) => rule).join('.')}`, el('span', { class: 'words' }, unit(least.words)));
  }

  function nodeRow(root, node, depth) {
    const name = node.name ? el('span', { class: 'name' }, node.name) : null;
    const head = [el('code', { class: 'sign' }, signOf(node)), name, el('span', { class: 'level' }, `level ${node.level}`), chainOf(root, node)];
    const row = opening({ class: 'node', style: `--depth:${Math.min(depth, 24)}` }, head.filter(Boolean), () => nodePart(root, node));
    marksOn(row, row.firstChild, () => [root, node]);
    root.rows.set(node, row);
    return [row, ...node.parts.flatMap((part) => nodeRow(root, part, depth + 1))];
  }

  const KINDS = { V: 'An expression, as a value', F: 'A test, to jump on false', T: 'A test, to jump on true', A: 'An assignment' };

  // The tree of a root; for an assignment its rules, and two trees with a line between.
  function rootPart(root) {
    root.read();
    root.rows = new Map();
    for (const { element } of root.elements) element.tabIndex = 0;
    const head = el('p', null, `${KINDS[root.form]}, in ${unit(root.words)}. No derivation has fewer.`);
    const trees = root.tops.map((top) => el('div', { class: 'tree' }, ...nodeRow(root, top, 0)));
    if (root.form !== 'A') return [head, ...trees];
    return [head, assignmentPart(root), el('h5', null, 'The value'), trees[0], el('hr'), el('h5', null, 'The address'), trees[1]];
  }

  function assignmentPart(root) {
    const sides = Explain.sidesBy(root);
    const list = sides.filter((side) => side.code).sort((one, other) => one.words - other.words);
    const rows = list.map((side) => candidateRow(side, side.code, side.rule === root.tree.rule));
    const reasons = sides.filter((side) => side.reason).map(({ rule, reason }) => [rule, reason]);
    return el('section', { class: 'aim' }, el('ol', null, ...rows), tieText(list), othersPart(reasons));
  }

  // ---- Lines

  function ownPart(run, what) {
    const hasNote = run.kind === 'c' && run.purpose !== 'routine';
    const note = () => opening({ class: 'note' }, what, () => el('div', null, Explain.noteOf(what)));
    return el('div', { class: 'own' }, itemsOf(run), hasNote ? note() : el('span', null, what));
  }

  function runPart(run) {
    if (run.kind === 'c') return ownPart(run, run.purpose);
    if (!run.isFirst) return ownPart(run, 'continued after a VALOF');
    const { root } = run;
    return opening({ class: 'root' }, [itemsOf(run), wordsPart(root.words)], () => rootPart(root));
  }

  // The text of a line, with an element for each leaf, which marks the node that has it.
  function textOf(file, source, number) {
    const text = file.sources[source].lines[number - 1];
    const shown = el('span', { class: 'text' });
    let at = 0;
    for (const [index, leaf] of file.leavesAt(source, number)) {
      const from = Explain.unitAt(text, leaf.from), to = Explain.unitAt(text, leaf.from + leaf.bytes);
      if (from < at) continue;
      shown.append(text.slice(at, from));
      const part = el('span', { class: 'leaf', 'data-from': from }, text.slice(from, to));
      marksOn(part, null, () => leafMarks(file, index));
      shown.append(part);
      at = to;
    }
    shown.append(text.slice(at));
    lines.set(`${source}:${number}`, shown);
    return shown;
  }

  // The number of the first node below a node. Those below it have the numbers from there to its own.
  function firstBelow(node) {
    return node.parts.length ? firstBelow(node.parts[0]) : node.index;
  }

  // The root that a leaf belongs to, and the least node with it that has items: those of a variable belong to what uses it.
  function leafMarks(file, index) {
    for (const root of file.rootsNear(index)) {
      const { nodes, code } = root.read();
      const found = nodes.find((node) => node.leaves && node.leaves[0] <= index && index < node.leaves[1]);
      if (!found) continue;
      const owner = nodes.find((node) => code.ranges.has(node) && node.index >= found.index && firstBelow(node) <= found.index);
      return [root, owner ?? found];
    }
    return [null, null];
  }

  function gap(before, run) {
    return before && before.to !== run.from ? [el('div', { class: 'gap' }, 'after the code of other lines:')] : [];
  }

  function linePart(file, source, number, runs) {
    const words = runs.reduce((sum, run) => sum + (run.kind === 'c' ? run.words : run.isFirst ? run.root.words : 0), 0);
    const label = source === file.main ? String(number) : `${file.sources[source].path}:${number}`;
    const code = el('div', { class: 'code' }, ...runs.flatMap((run, index) => [...gap(runs[index - 1], run), runPart(run)]));
    const row = el('div', { class: 'line' });
    const button = runs.length ? el('button', { class: 'more', 'aria-expanded': 'false', 'aria-label': `code of line ${label}` }, String(words)) : null;
    button?.addEventListener('click', () => button.setAttribute('aria-expanded', String(row.classList.toggle('open'))));
    row.append(el('pre', { class: 'source' }, el('span', { class: 'number' }, label), textOf(file, source, number), ...(button ? [button] : [])), code);
    return row;
  }

  // Lines are drawn in blocks, when they come near the window.
  class Blocks {
    constructor(file) {
      this.file = file;
      this.blocks = [];
      this.drawn = new Set();
      for (let from = 0; from < file.lines.length; from += BLOCK) {
        const count = Math.min(BLOCK, file.lines.length - from);
        this.blocks.push(el('div', { class: 'block', style: `min-height:${count * 1.5}rem` }));
      }
      this.rows = new Map();
    }

    watch() {
      if (typeof IntersectionObserver === 'undefined') return this.drawAll();
      const observer = new IntersectionObserver((entries) => {
        for (const { isIntersecting, target } of entries) {
          if (isIntersecting) {
            observer.unobserve(target);
            this.draw(this.blocks.indexOf(target));
          }
        }
      }, { rootMargin: '1200px' });
      for (const block of this.blocks) observer.observe(block);
      return undefined;
    }

    draw(index) {
      if (this.drawn.has(index)) return;
      this.drawn.add(index);
      const { file } = this;
      const rows = [];
      for (let number = index * BLOCK + 1; number <= Math.min((index + 1) * BLOCK, file.lines.length); number += 1) {
        const row = linePart(file, file.main, number, file.atLines.get(number) ?? []);
        this.rows.set(number, row);
        rows.push(row);
      }
      this.blocks[index].style.minHeight = '';
      this.blocks[index].append(...rows);
    }

    drawAll() {
      this.blocks.forEach((_, index) => this.draw(index));
    }

    // The row of a line, which is drawn if it wasn't.
    row(number) {
      this.draw(Math.floor((number - 1) / BLOCK));
      return this.rows.get(number);
    }
  }

  function show(row) {
    row.classList.add('open');
    row.querySelector('.more')?.setAttribute('aria-expanded', 'true');
    row.scrollIntoView({ block: 'center' });
    for (const other of main.querySelectorAll('.line.found')) other.classList.remove('found');
    row.classList.add('found');
  }

  // ---- Index, search, and the other parts

  function indexPart(file) {
    const rows = file.routines.map((routine) => {
      const leaf = file.leaves[routine.leaf];
      const isHere = leaf && leaf.source === file.main;
      const name = isHere ? el('button', { class: 'link', onclick: () => show(file.blocks.row(leaf.line)) }, routine.name) : routine.name;
      return numbersRow(name, [routine.roots, routine.commands, routine.roots + routine.commands]);
    });
    const roots = file.routines.reduce((sum, one) => sum + one.roots, 0), commands = file.routines.reduce((sum, one) => sum + one.commands, 0);
    const last = numbersRow('the segment', [roots, commands, roots + commands + file.dataWords]);
    last.className = 'sum';
    const heads = ['routine', 'expressions, tests, assignments', 'commands', 'all'].map((text) => el('th', null, text));
    const body = el('tbody', null, ...rows, numbersRow('data', ['', '', file.dataWords]), last);
    const table = el('table', { class: 'totals' }, el('thead', null, el('tr', null, ...heads)), body);
    const title = el('summary', null, `Routines of ${file.path}, with their words`);
    return el('details', { class: 'index' }, title, el('div', { class: 'wide' }, table));
  }

  function numbersRow(name, numbers) {
    return el('tr', null, el('th', null, name), ...numbers.map((number) => el('td', null, String(number))));
  }

  function dataPart(file) {
    const rows = [];
    for (const item of file.data.flatMap((run) => run.items)) {
      const label = /^\d+$/.test(item) ? item : item.match(/^G\d+L(\d+)$/)?.[1];
      if (label || !rows.length) rows.push({ name: label ? file.textAt(file.places[label - 1]) : '', items: [] });
      rows.at(-1).items.push(item);
    }
    if (!rows.length) return [];
    const draw = () => rows.map(({ name, items }) => el('div', { class: 'data' }, el('span', { class: 'name' }, name), el('code', null, items.join(' '))));
    return [opening({ class: 'section' }, `Data and globals, ${unit(file.dataWords)}`, draw)];
  }

  function filePart(file) {
    file.blocks = new Blocks(file);
    const others = file.others.map((other) => linePart(file, other.source, other.line, [other.run]));
    if (others.length) others.unshift(el('h3', null, 'Code from other files'));
    const title = el('h2', { id: `file${file.number}` }, file.path);
    return el('section', { class: 'file' }, title, indexPart(file), ...file.blocks.blocks, ...others, ...dataPart(file));
  }

  // The lines that have this text, or roots with this rule or item.
  function findAll(text) {
    const wanted = text.toLowerCase(), word = text.toUpperCase();
    const found = [];
    for (const file of page.files) {
      file.lines.forEach((line, index) => {
        const runs = file.atLines.get(index + 1) ?? [];
        const isIt = line.toLowerCase().includes(wanted)
          || runs.some((run) => run.items.includes(word) || (run.isFirst && new RegExp(`\\b${word.replace(/\W/g, '\\$&')}\\b`).test(run.root.derivation)));
        if (isIt) found.push([file, index + 1]);
      });
    }
    return found;
  }

  function searchPart() {
    let found = [], at = -1, last = '';
    const input = el('input', { type: 'search', id: 'search', placeholder: 'text, rule or item', 'aria-label': 'Search for a text, a rule or an item' });
    const said = el('output', { for: 'search' });
    const go = () => {
      if (input.value !== last) { last = input.value; at = -1; found = last ? findAll(last) : []; }
      if (!found.length) { said.textContent = last ? 'not found' : ''; return; }
      at = (at + 1) % found.length;
      said.textContent = `${at + 1} of ${found.length} lines`;
      const [file, number] = found[at];
      show(file.blocks.row(number));
    };
    const form = el('form', { role: 'search', onsubmit: (event) => { event.preventDefault(); go(); } }, input, el('button', null, 'Next'), said);
    return form;
  }

  const rootsOf = () => page.files.flatMap((file) => file.roots);

  function openAll() {
    for (const file of page.files) file.blocks.drawAll();
    for (const row of main.querySelectorAll('.line')) row.classList.add('open');
    for (const details of main.querySelectorAll('details.root')) details.open = true;
  }

  function closeAll() {
    for (const rule of main.querySelectorAll('.rule[aria-expanded="true"]')) rule.click();
    for (const details of main.querySelectorAll('details[open]')) details.open = false;
    for (const row of main.querySelectorAll('.line.open')) row.classList.remove('open');
    for (const button of main.querySelectorAll('.more')) button.setAttribute('aria-expanded', 'false');
  }

  function toolsPart() {
    const open = rootsOf().length <= MOST_OPEN ? el('button', { id: 'open', onclick: openAll }, 'Open all') : null;
    return el('div', { class: 'tools screen' }, searchPart(), open, el('button', { id: 'close', onclick: closeAll }, 'Collapse all'));
  }

  const LEGEND = [
    ['Code', 'INTCODE, as in the text of the segment. A bold number is a label. The machine works with two registers, A and B. Below, n is what '
      + 'follows the first letter of an instruction: 5 is the number 5, P5 the address of the cell at offset 5 of the frame, G5 the address of '
      + 'global 5, L5 the address of label 5. With an I before it, it is the contents of the cell at that address, as in LIP5.'],
    ['Node', 'A part of the tree, below the part that contains it. P2 is the address of the cell at offset 2 of the frame, G14 that of global 14, '
      + 'L3 that of place 3: a routine, a static, a table or a string. ! is the contents of the cell at an address, and NEG the negative. The other '
      + 'signs are those of the source; NOT of a relation appears as the opposite relation. Point at a node or focus it: its text and its items are '
      + 'marked, and the other way round.'],
    ['Level', 'The first offset of the frame after everything that is in use when work on the node begins.'],
    ['Uses', 'A node may be needed as a value; as a second operand, which leaves in B what was in A; to jump if it is false; and to jump if it is '
      + 'true. Open a node to see, for each use, every rule with which code can begin, with its code and its words, the least first. The small '
      + 'number beside an item is its words. In this code labels are numbered from 1, and t is where a test jumps. The size of a whole is that of '
      + 'its parts plus a few words, so nothing has fewer words than the least. The body of a VALOF counts as no words here, since it has '
      + 'expressions, tests and assignments of its own.'],
    ['\u25c6', 'The code on this page uses the node in this way, by this rule. If several rules need equally few words, the lowest number is '
      + 'chosen. A node has no code of its own if a rule above it takes it as an operand or a number, or drops it as a 0.'],
    ['Commands', 'Code that doesn\u2019t open as a tree belongs to a command itself: a label, a jump or a return. The theorem says nothing about it.'],
  ];

  const INSTRUCTIONS = [
    ['L n', 'copies A to B, and sets A to n'], ['S n', 'stores A in the cell at n'], ['A n', 'adds n to A'],
    ['J n, T n, F n', 'jumps to n: always, if A isn\u2019t 0, if A is 0'], ['K n', 'calls the routine at A, with a frame that begins n cells after '
      + 'this one'],
    ['X1, X2, X3', 'sets A to !A, -A, NOT A'], ['X4', 'returns'],
    ['X5 to X21', `sets A to B op A: ${SIGNS.map((sign, index) => `X${index + 5} ${sign}`).join(', ')}`],
    ['X22, X23', 'ends the run; jumps as the list after it says for A, for a SWITCHON'],
    ['D n, C n, Gn Lm', 'data: a word; a byte of a string; global n is set to the address of label m'],
  ];

  function legendPart() {
    const terms = LEGEND.flatMap(([term, text]) => [el('dt', null, term), el('dd', null, text)]);
    const rows = INSTRUCTIONS.map(([item, text]) => el('tr', null, el('th', null, item), el('td', null, text)));
    return opening({ class: 'legend' }, 'How to read this page', () => [el('dl', null, ...terms), el('table', null, el('tbody', null, ...rows))]);
  }

  const TERMS = 's is the level, t the label to which a test jumps, and 1 and 2 are labels of the rule itself. Any(a) is the code of a as a value, '
    + 'Push(a) as a second operand, and m(a) in the use that the whole has. False(a, t) and True(a, t) jump to t if a is false or true. An operand '
    + 'is what a single instruction can take: a number; the address of a cell, with or without a number added; the address of a place; or the '
    + 'contents of the cell at such an address. Two expressions are free if they may be evaluated in either order: neither has a call or a VALOF in '
    + 'it, or one of them is a number or such an address. The mirror of an operator gives the same result with its operands exchanged, as > does for <.';

  function rulesPart() {
    const heads = ['rule', 'for', 'where', 'code', 'used here'].map((text) => el('th', null, text));
    const cell = (child) => el('td', null, child);
    const rows = Object.entries(RULES).map(([rule, [aims, where, code]]) => {
      const cells = [aims, where, el('code', null, code), String(uses.get(rule) ?? 0)].map(cell);
      return el('tr', null, el('th', null, rule), ...cells);
    });
    const head = el('p', null, 'The code of every expression, test and assignment is made by these rules and no others.');
    const table = el('table', { class: 'rules' }, el('thead', null, el('tr', null, ...heads)), el('tbody', null, ...rows));
    const draw = () => [head, el('div', { class: 'wide' }, table), el('p', null, TERMS)];
    return opening({ class: 'section', id: 'rules' }, 'The rules, and how often each is used here', draw);
  }

  function waysPart() {
    const to = (id, text) => el('a', { href: `#${id}` }, text);
    return el('nav', null, ...page.files.map((file) => to(`file${file.number}`, file.path)), to('rules', 'The rules'), to('proved', 'What is proved'));
  }

  // The leaves of a file by line, and its roots by leaf, both made once.
  for (const file of page.files) {
    const byLine = new Map();
    file.leaves.forEach((leaf, index) => {
      if (!leaf) return;
      const key = `${leaf.source}:${leaf.line}`;
      if (byLine.has(key)) byLine.get(key).push([index, leaf]);
      else byLine.set(key, [[index, leaf]]);
    });
    file.leavesAt = (source, line) => (byLine.get(`${source}:${line}`) ?? []).sort((one, other) => one[1].from - other[1].from);
    const startsOf = (root) => [root.value, root.address].filter((leaf) => leaf >= 0).map((leaf) => [leaf, root]);
    const starts = file.roots.flatMap(startsOf).sort((one, other) => one[0] - other[0]);
    // The roots that begin before a leaf, the nearest first.
    file.rootsNear = (index) => {
      let low = 0, high = starts.length;
      while (low < high) {
        const middle = (low + high) >> 1;
        if (starts[middle][0] <= index) low = middle + 1;
        else high = middle;
      }
      return starts.slice(Math.max(0, low - 40), low).reverse().map(([, root]) => root);
    };
  }

  main.append(waysPart(),
    el('p', null, 'Each line of the source is shown with its code. Open an expression, a test or an assignment to see its tree, and a node to see '
      + 'every rule that could give its code, with that code and its words.'),
    toolsPart(), legendPart(), ...page.files.map(filePart), rulesPart());
  for (const file of page.files) file.blocks.watch();
  addEventListener('beforeprint', () => page.files.forEach((file) => file.blocks.drawAll()));
  addEventListener('hashchange', () => {
    const target = document.getElementById(location.hash.slice(1));
    if (target?.tagName === 'DETAILS') target.open = true;
  });
})();
