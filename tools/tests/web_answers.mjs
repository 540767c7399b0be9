// What a module answers to texts, for .ci/check_wasm:
//
//     node web_answers.mjs LOADER MODULE < TEXTS
//
// A line of TEXTS is a command, run or judge, and a text in base64. It writes one object: the answers, what the module
// imports and exports, and of calls with less and less memory how many were tried, how many had too little, and what was
// wrong with one.
import fs from "node:fs";
import path from "node:path";
import { pathToFileURL } from "node:url";

const [loader, file] = process.argv.slice(2);
const { load } = await import(pathToFileURL(path.resolve(loader)));
const bytes = fs.readFileSync(file);
const ertime = await load(bytes);
const texts = fs.readFileSync(0, "utf8").split("\n").filter(Boolean).map(JSON.parse).map(([call, it]) => [call, Buffer.from(it, "base64")]);
const calls = { run: ertime.runBytes, judge: ertime.judgeBytes };
const packed = (it) => Buffer.from(it).toString("base64");

const answers = texts.map(([call, text]) => {
  const { status, output, errors } = calls[call](text);
  return [status, packed(output), packed(errors)];
});

const module = new WebAssembly.Module(bytes);
const NO_MEMORY = 7;
const ROOM = 65536;
const MOST = 2 ** 30;

/** The answer of an instance in which no block of `least` bytes or more is left. */
function withLittle(call, text, least) {
  const { exports } = new WebAssembly.Instance(module, {});
  const [given, output, errors, told] = [text.length, ROOM, ROOM, 16].map((size) => exports.ert_memory(BigInt(size)));
  for (let size = MOST; size >= least; size /= 2) while (exports.ert_memory(BigInt(size)) !== 0n);
  new Uint8Array(exports.memory.buffer).set(text, Number(given));
  const status = exports[`ert_${call}`](given, BigInt(text.length), output, BigInt(ROOM), errors, BigInt(ROOM), told);
  const sizes = new DataView(exports.memory.buffer, Number(told), 16);
  const read = (at, size) => packed(new Uint8Array(exports.memory.buffer, Number(at), size));
  return [status, read(output, Number(sizes.getBigUint64(0, true))), read(errors, Number(sizes.getBigUint64(8, true)))];
}

const few = [];
for (const status of [0, 1, 3]) for (const call of ["run", "judge"]) few.push(texts.findIndex(([it, text], at) => it === call && answers[at][0] === status && text.length > 100 && text.length < ROOM));
let [tried, short, wrong] = [0, 0, null];
for (const at of few.filter((it) => it >= 0))
  for (let least = 2 ** 24; least >= 16; least /= 2) {
    const [status, output, errors] = withLittle(...texts[at], least);
    tried += 1;
    if (status === NO_MEMORY) short += 1;
    const wanted = status === NO_MEMORY ? [NO_MEMORY, "", ""] : answers[at];
    if ([status, output, errors].join() !== wanted.join()) wrong ??= `${texts[at][0]} with less than ${least} bytes: ${status}`;
  }

const names = (list) => list.map((it) => it.name).sort();
const imports = names(WebAssembly.Module.imports(module));
const exports = names(WebAssembly.Module.exports(module));
console.log(JSON.stringify({ answers, imports, exports, tried, short, wrong }));
