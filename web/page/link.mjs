// Links that carry files: JSON, compressed, in the fragment of the address. A fragment is never sent to a server.
import { bytesOf, textOf } from "./dom.mjs";
import { joined } from "./compiler.mjs";
import { MOST_BYTES, MOST_FILES, ROLES } from "./project.mjs";

const MARK = "#files=";

async function through(bytes, transform, most = Infinity) {
  const parts = [];
  let count = 0;
  const reader = new Blob([bytes]).stream().pipeThrough(transform).getReader();
  for (let { done, value } = await reader.read(); !done; { done, value } = await reader.read()) {
    parts.push(value);
    count += value.length;
    // A small link must not unfold into gigabytes.
    if (count > most) throw new RangeError("too large");
  }
  return joined(parts);
}

export const unzipped = (bytes, format, most) => through(bytes, new DecompressionStream(format), most);

function toText(bytes) {
  let text = "";
  for (const byte of bytes) text += String.fromCharCode(byte);
  return btoa(text).replaceAll("+", "-").replaceAll("/", "_").replace(/=+$/, "");
}

export function fromText(text) {
  const plain = atob(text.replaceAll("-", "+").replaceAll("_", "/"));
  return Uint8Array.from(plain, (letter) => letter.charCodeAt(0));
}

/** The fragment that carries files and settings: `{ files, input, outputs }`. */
export async function fragmentOf(state) {
  const bytes = await through(bytesOf(JSON.stringify(state)), new CompressionStream("deflate-raw"));
  return MARK + toText(bytes);
}

const isText = (value) => typeof value === "string";
const isStream = (value) => isText(value) && value.length <= 255;

/** A file of a link, with only the fields that are expected. */
function fileOf(file) {
  if (!isText(file?.name) || !isText(file?.text)) throw new TypeError("no file");
  const role = Object.hasOwn(ROLES, file.role) ? file.role : undefined;
  return { name: file.name, text: file.text, role, stream: isStream(file.stream) ? file.stream : undefined };
}

/** What a fragment carries, checked field by field; null where it carries no files. Throws where it is damaged. */
export async function stateOf(fragment) {
  if (!fragment.startsWith(MARK)) return null;
  const found = JSON.parse(textOf(await unzipped(fromText(fragment.slice(MARK.length)), "deflate-raw", MOST_BYTES)));
  if (!Array.isArray(found?.files) || found.files.length === 0 || found.files.length > MOST_FILES) throw new TypeError("no files");
  const outputs = Array.isArray(found.outputs) ? found.outputs.filter(isStream).slice(0, 20) : [];
  return { files: found.files.map(fileOf), input: isText(found.input) ? found.input : "", outputs };
}
