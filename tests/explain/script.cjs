// script.cjs report PAGE CERT: runs the part of a page's script that needs no page, and compares what it makes of the page's data with the certificate of
// the same program: the code of each root, the level and the chosen rules of each node. The code of every rule that applies must have the words of the
// proved call, and exactly the rules that don't apply must have a reason.
// script.cjs cells PAGE: prints the cells in the trees of a page, a node a line: the number of the root, the offset, and the name.
// script.cjs texts PAGE: prints each node with its text in the source: the number of the root, the sign, and the text.
'use strict';
const fs = require('fs');
const vm = require('vm');

// The data of a page, and `Explain`.
function read(path) {
  const page = fs.readFileSync(path, 'utf8');
  const data = JSON.parse(page.match(/<script type="application\/json" id="data">([^]*?)<\/script>/)[1]);
  const script = page.match(/<script>([^]*?)<\/script>/)[1];
  const context = vm.createContext({});
  vm.runInContext(`${script}\nthis.Explain = Explain;`, context);
  return { data, Explain: context.Explain, model: context.Explain.model(data) };
}

// The entries of a certificate's last segment.
function entriesOf(path) {
  const entries = [];
  for (const line of fs.readFileSync(path, 'utf8').split('\n')) {
    const fields = line.split(' ');
    const entry = entries.at(-1);
    if (fields[0] === 'E') entries.push({ segment: Number(fields[1]), words: Number(fields[5]), nodes: [], code: '', rule: '' });
    else if (entry && /^\d+$/.test(fields[0]) && fields.length === 7) entry.nodes.push(fields);
    else if (entry && fields[0] === 'R') entry.rule = fields[1];
    else if (entry && fields[0] === 'C') entry.code = fields.slice(1).join(' ');
  }
  return entries.filter(({ segment }) => segment === entries.at(-1).segment);
}

const said = [];
const complain = (text) => said.push(text);
const plain = (code) => code.replace(/\?\d+/g, '?');

function compareNode(Explain, root, node, fields) {
  const [level, sign, any, push, onFalse, onTrue, rules] = fields;
  const least = [0, 1, 2, 3].map((aim) => String(Explain.leastOf(Explain.beginningsOf(node, aim))?.words ?? '-'));
  const chosen = [...root.code.chosen.get(node) ?? []].map(([, rule]) => rule).join('.') || '-';
  const shown = [String(node.level), node.sign, ...least, chosen].join(' ');
  const wanted = [level, sign, any, push, onFalse, onTrue, rules].join(' ');
  if (shown !== wanted) complain(`root ${root.index}: node ${shown}, wanted ${wanted}`);
  for (const aim of [0, 1, 2, 3]) compareRules(Explain, root, node, aim);
}

function compareRules(Explain, root, node, aim) {
  const list = Explain.beginningsOf(node, aim);
  for (const { rule, words } of list) {
    const code = Explain.codeBy(rule, node, aim);
    if (code.words !== words) complain(`root ${root.index}: ${node.sign} ${Explain.AIMS[aim]} by ${rule}: ${code.words} words, wanted ${words}`);
  }
  for (const rule of Explain.rulesFor(aim)) {
    const reason = Explain.reasonOf(rule, node, aim);
    if (Boolean(reason) === list.some((one) => one.rule === rule)) complain(`root ${root.index}: ${node.sign} ${Explain.AIMS[aim]}: ${rule} "${reason}"`);
    if (reason.split(' ').length > 4) complain(`a long reason: ${reason}`);
  }
}

function compareRoot(Explain, root, entry) {
  root.read();
  const code = root.code.items.map(({ text }) => text).join(' ');
  if (plain(code) !== plain(entry.code)) complain(`root ${root.index}: ${code}, wanted ${entry.code}`);
  if (root.code.words !== entry.words) complain(`root ${root.index}: ${root.code.words} words, wanted ${entry.words}`);
  if (root.nodes.length !== entry.nodes.length) return complain(`root ${root.index}: ${root.nodes.length} nodes`);
  root.nodes.forEach((node, index) => compareNode(Explain, root, node, entry.nodes[index]));
  if (root.form !== 'A') return undefined;
  const sides = Explain.sidesBy(root).filter((side) => side.code);
  const least = Explain.leastOf(sides);
  return least.rule === entry.rule && least.words === entry.words ? undefined : complain(`root ${root.index}: ${least.rule}, wanted ${entry.rule}`);
}

function report(path, certificate) {
  const { Explain, model } = read(path);
  const entries = entriesOf(certificate);
  const roots = model.files.at(-1).roots;
  if (roots.length !== entries.length) complain(`${roots.length} roots, wanted ${entries.length}`);
  roots.forEach((root, index) => entries[index] && compareRoot(Explain, root, entries[index]));
}

function cells(path) {
  const { Explain, model } = read(path);
  for (const root of model.files.at(-1).roots) {
    for (const top of root.read().tops) {
      for (const node of preorder(top)) if (node.kind === 'P') console.log(`${root.index} ${node.n} ${node.name}`.trim());
    }
  }
}

const preorder = (node) => [node, ...node.parts.flatMap(preorder)];

function texts(path) {
  const { model } = read(path);
  const file = model.files.at(-1);
  for (const root of file.roots) {
    for (const node of root.read().nodes) {
      const parts = file.textsOf(node).map(({ source, line, from, to }) => model.sources[source].lines[line - 1].slice(from, to));
      console.log(`${root.index} ${node.sign} ${parts.join(' / ')}`.trim());
    }
  }
}

const [what, ...paths] = process.argv.slice(2);
({ report, cells, texts })[what](...paths);
said.slice(0, 5).forEach((text) => console.error(`  ${text}`));
process.exit(said.length ? 1 : 0);
