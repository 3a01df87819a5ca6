// Where the page's parts come from: files beside it, or, where the page is one file for use offline, elements of the page itself.
import { element } from "./dom.mjs";
import { fromText, unzipped } from "./link.mjs";

const embedded = (name) => element(`embedded-${name}`);

/** Whether the page is the one file that needs no others. */
export const isOneFile = () => embedded("bcpl.wasm") !== null;

/** The compiled module. */
export async function loadModule() {
  if (isOneFile()) return WebAssembly.compile(await unzipped(fromText(embedded("bcpl.wasm").textContent.trim()), "gzip"));
  const response = await fetch("bcpl.wasm");
  if (!response.ok) throw new Error("bcpl.wasm isn't beside the page; web/publish makes a folder that has it");
  // A server that doesn't know the type of the file would make compileStreaming fail.
  return WebAssembly.compile(await response.arrayBuffer());
}

/** A file of data, by its name. */
export async function loadData(name) {
  if (isOneFile()) return JSON.parse(embedded(name).textContent);
  const response = await fetch(name);
  if (!response.ok) throw new Error(`${name} isn't beside the page`);
  return response.json();
}

/** A worker of worker.mjs. */
export function startWorker() {
  if (!isOneFile()) return new Worker("worker.mjs", { type: "module" });
  const address = URL.createObjectURL(new Blob([embedded("worker.mjs").textContent], { type: "text/javascript" }));
  const worker = new Worker(address);
  URL.revokeObjectURL(address);
  return worker;
}
