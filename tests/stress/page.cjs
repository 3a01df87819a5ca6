// page.cjs PAGE STOP..: runs the script of the debugger's page without a page, and prints what it shows at these stops, as JSON: the number of stops,
// all output, and for each stop the calls, variables, and statics and globals. The rules for what is in scope are those of the script.
'use strict';
const fs = require('fs');
const vm = require('vm');

const page = fs.readFileSync(process.argv[2], 'utf8');
const data = JSON.parse(page.match(/<script type="application\/json" id="recording">([^]*?)<\/script>/)[1]);
const script = page.match(/<script>([^]*?)<\/script>/)[1].replace('globalThis.bcplDebugger = {', '$& Page, Recording,');
const context = vm.createContext({ atob, TextDecoder, document: { addEventListener() {} } });
vm.runInContext(script, context);
const { Page, Recording } = context.bcplDebugger;
const run = new Recording(data);
const shown = Object.assign(Object.create(Page.prototype), { recording: run, chosenFrame: 0, form: 'number' });

const said = (state) => (state === 0 ? '-' : state === 1 ? '?' : String(((state - 2) << 16) >> 16));
const values = (list, addressOf) => list.map((it) => [it.name, said(run.cells[addressOf(it)])]);

function at(stop) {
  run.seek(stop);
  shown.at = stop;
  const open = run.openAt(stop);
  const calls = open.map(({ routine }, number) => {
    const { file = -1, line } = shown.placeOf(number) ?? {};
    return [run.routines[routine].name, file < 0 ? '' : `${data.files[file].name}:${line + 1}`];
  });
  const isRoutine = ({ address, isGlobal }) => isGlobal && run.cells[address] > 1 && shown.routineAt(run.cells[address] - 2) !== undefined;
  const variables = open.length > 0 ? values(shown.inScope(open[0]), ({ offset }) => (open[0].base + offset) & 65535) : [];
  return { calls, variables, globals: values(shown.outside().filter((it) => !isRoutine(it)), ({ address }) => address) };
}

const output = Array.from(run.output, (byte) => String.fromCharCode(byte)).join('');
console.log(JSON.stringify({ count: run.count, output, stops: process.argv.slice(3).map((stop) => at(Number(stop))) }));
