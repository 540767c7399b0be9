// The programs `ertime run` and `ertaudit` as a module of JavaScript, over ertime.wasm, which `make wasm` builds.
//
//     import { load } from "./ertime.mjs";
//     const ertime = await load(bytes);         // the bytes of ertime.wasm
//     ertime.run('{"format":1,"first":[0,0],"ops":[]}');     // { status: 0, output: "end 0\n", errors: "" }
//     ertime.judge("settings no false 0 1 1 1 1 0 0\n");     // { status: 0, output: "legal 0\n", errors: "" }
//
// An answer has the status that the program ends with, what it writes to standard output, and the message that it writes
// to standard error. The module imports nothing: it has no clock, no file and no network, so the same text has the same
// answer each time. Nothing here needs a package: it runs in browsers, in their workers, and by node:
//
//     node ertime.mjs run < SCENARIO
//     node ertime.mjs audit < HISTORY
//     node ertime.mjs run --help

/** What the message of an answer has room for at first; the output has more room the longer the text is. */
const ROOM = 65536;

/** The status of an answer for which the module has no memory. */
const NO_MEMORY = 7;

/**
 * Compiles the module. Each call of what it returns makes an instance of its own, which takes a gigabyte of memory at most
 * and is then thrown away.
 * @param {BufferSource} bytes The bytes of ertime.wasm or ertime64.wasm.
 */
export async function load(bytes) {
  const module = await WebAssembly.compile(bytes);
  const told = (call) => (text) => {
    const { status, output, errors } = answer(module, call, text);
    return { status, output: decoded(output), errors: decoded(errors) };
  };
  return {
    /** What `ertime run` answers to a scenario, a string or its bytes; the texts of the answer are strings. */
    run: told("ert_run"),
    /** What `ertaudit` answers to a history. */
    judge: told("ert_judge"),
    /** The same with the texts of the answer as bytes. */
    runBytes: (text) => answer(module, "ert_run", text),
    judgeBytes: (text) => answer(module, "ert_judge", text),
  };
}

const decoded = (bytes) => new TextDecoder().decode(bytes);

/** Makes a call of a fresh instance, and once more where the output had too little room. */
function answer(module, call, text) {
  const bytes = typeof text === "string" ? new TextEncoder().encode(text) : new Uint8Array(text);
  let room = Math.max(ROOM, 4 * bytes.length);
  for (;;) {
    const { exports } = new WebAssembly.Instance(module, {});
    const place = (size) => exports.ert_memory(BigInt(size));
    const places = [bytes.length, room, ROOM, 16].map(place);
    if (places.includes(0n)) return { status: NO_MEMORY, output: new Uint8Array(), errors: new Uint8Array() };
    const [given, output, errors, told] = places;
    new Uint8Array(exports.memory.buffer).set(bytes, Number(given));
    const status = exports[call](given, BigInt(bytes.length), output, BigInt(room), errors, BigInt(ROOM), told);
    // The memory may have grown, and then its buffer is another one.
    const sizes = new DataView(exports.memory.buffer, Number(told), 16);
    const [long, said] = [0, 8].map((at) => Number(sizes.getBigUint64(at, true)));
    const read = (at, size) => new Uint8Array(exports.memory.buffer, Number(at), size).slice();
    if (long <= room) return { status, output: read(output, long), errors: read(errors, Math.min(said, ROOM)) };
    room = long;
  }
}

const USAGE = "usage: node ertime.mjs run | audit\n";
const HELP = `${USAGE}
  run      reads a scenario from standard input, and writes a line for each reply
  audit    reads a history from standard input, and writes whether it is legal

It ends with the status of the program: 0 done, or the history is legal; 1 it is not; 2 the command line is none of these;
3 the input is no scenario or no history; 4 it could not be read; 5 the output could not be written; 7 memory ran out; 8 the
input is longer than 16,777,216 bytes. A message on standard error tells why an input is refused, or an entry is not legal.
ertime.wasm lies beside this file, or where ERTIME_WASM says.
`;

/** The whole of standard input, or at most what is too long for each command. */
function input(fs) {
  const pieces = [];
  let size = 0;
  while (size <= 16_777_216) {
    const piece = Buffer.alloc(1 << 16);
    const count = fs.readSync(0, piece);
    if (count === 0) break;
    pieces.push(piece.subarray(0, count));
    size += count;
  }
  return Buffer.concat(pieces);
}

function write(fs, file, bytes) {
  for (let at = 0; at < bytes.length; ) at += fs.writeSync(file, bytes, at);
}

/** The command line: the status that it ends with. */
async function main(words, fs) {
  if (words.length === 1 && ["--help", "help"].includes(words[0])) words = ["run", "--help"];
  const calls = { run: "runBytes", audit: "judgeBytes" };
  if (!Object.hasOwn(calls, words[0] ?? "") || words.length > 2 || (words.length === 2 && words[1] !== "--help")) {
    write(fs, 1, Buffer.from(USAGE));
    return 2;
  }
  if (words.length === 2) {
    write(fs, 1, Buffer.from(HELP));
    return 0;
  }
  const ertime = await load(fs.readFileSync(process.env.ERTIME_WASM ?? new URL("ertime.wasm", import.meta.url)));
  let given;
  try {
    given = input(fs);
  } catch {
    return 4;
  }
  const { status, output, errors } = ertime[calls[words[0]]](given);
  try {
    write(fs, 1, output);
  } catch {
    return 5;
  }
  write(fs, 2, errors);
  return status;
}

// Only where node runs this very file.
if (typeof process === "object" && process.argv?.[1] && import.meta.url.startsWith("file:")) {
  const fs = await import("node:fs");
  const { pathToFileURL } = await import("node:url");
  if (import.meta.url === pathToFileURL(fs.realpathSync(process.argv[1])).href) process.exitCode = await main(process.argv.slice(2), fs);
}
