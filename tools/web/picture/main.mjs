// `tools/picture`: the command line.

import {spawnSync} from "node:child_process";
import {randomUUID} from "node:crypto";
import fs from "node:fs";
import path from "node:path";
import {parseArgs} from "node:util";

import {BadInput, linesOf} from "./inputs.mjs";
import {pictureOfHistory} from "./lanes.mjs";
import {follow} from "./replay.mjs";
import {readScenario} from "./scenario.mjs";
import {picture} from "./sheet.mjs";

const HELP = `Writes a picture, as SVG, of a scenario that \`ertime run\` runs, or of a history that \`ertaudit\` judges.

    tools/picture [-o FILE] SCENARIO [TRANSCRIPT]
    tools/picture [-o FILE] --history HISTORY [VERDICT]

TRANSCRIPT is what \`ertime run\` prints of the scenario, and VERDICT what \`ertaudit\` prints of the history; \`-\` is
standard input. Where it isn't given, the program of that name is run, if it is installed. The picture is written to
FILE, else to standard output. Where the input is bad, no file is written, one line on standard error says why, and
the status is 2; it is 1 where the picture can't be written.

It is run by node, 18 or later.
`;
const OPTIONS = {output: {type: "string", short: "o"}, history: {type: "boolean"}, help: {type: "boolean", short: "h"}};
/** The longest input, in bytes. */
const LIMIT = 16_777_216;
/** The longest output of a program that is run, in bytes. */
const MOST_OUTPUT = 2 ** 30;
const STDIN = 0;
const STDOUT = 1;

/** What a failed call of the system says. */
const why = (error) => /^\w+: ([^,]+)/.exec(error.message)?.[1] ?? "it cannot be read";

/** The command line: the file for the picture, what the input is, and the files of the input. */
function arguments_(words) {
  let asked;
  try {
    asked = parseArgs({args: words, options: OPTIONS, allowPositionals: true});
  } catch (error) {
    throw new BadInput(`${error.message}; tools/picture --help tells the words`);
  }
  const {values, positionals} = asked;
  if (!values.help && (positionals.length < 1 || positionals.length > 2)) {
    throw new BadInput("one or two files are wanted; tools/picture --help tells the words");
  }
  return {...values, input: positionals[0], said: positionals[1]};
}

/** The bytes of an open file, up to one more than are taken. */
function bytesOf(file) {
  const parts = [];
  let length = 0;
  while (length <= LIMIT) {
    const part = Buffer.allocUnsafe(65_536);
    const count = fs.readSync(file, part);
    if (!count) break;
    parts.push(part.subarray(0, count));
    length += count;
  }
  return Buffer.concat(parts);
}

/** The text of a file, or of standard input where the name is `-`. */
function readText(name) {
  let bytes;
  try {
    const file = name === "-" ? STDIN : fs.openSync(name);
    bytes = bytesOf(file);
    if (file !== STDIN) fs.closeSync(file);
  } catch (error) {
    throw new BadInput(`${name}: ${why(error)}`);
  }
  if (bytes.length > LIMIT) throw new BadInput(`${name}: longer than ${LIMIT} bytes`);
  try {
    return new TextDecoder("utf-8", {fatal: true, ignoreBOM: true}).decode(bytes);
  } catch {
    throw new BadInput(`${name}: not UTF-8`);
  }
}

/** What a program prints of a text. */
function answer([program, ...words], text, statuses) {
  const ran = spawnSync(program, words, {input: text, maxBuffer: MOST_OUTPUT});
  if (ran.error?.code === "ENOENT") throw new BadInput(`${program} isn't installed: name a file with what it prints`);
  if (!statuses.includes(ran.status)) throw new BadInput(`${program} ended with status ${ran.status ?? ran.signal ?? why(ran.error)}`);
  return ran.stdout.toString();
}

/** The picture. */
function made({input, said, history}) {
  if (input === "-" && said === "-") throw new BadInput("only one of the two can be standard input");
  const text = readText(input);
  const title = input === "-" ? "standard input" : path.parse(input).name;
  const source = said ?? (history ? "ertaudit" : "ertime run");
  if (history) {
    const verdict = said ? readText(said) : answer(["ertaudit"], text, [0, 1, 3]);
    return pictureOfHistory(text, input, linesOf(verdict, source), source, title);
  }
  const scenario = readScenario(text, input);
  const transcript = said ? readText(said) : answer(["ertime", "run"], text, [0, 3]);
  return picture(follow(scenario, linesOf(transcript, source), source), title);
}

/** Writes the whole picture, or nothing where that fails. */
function write(data, file) {
  if (file === undefined) {
    fs.writeFileSync(STDOUT, data);
    return;
  }
  const room = path.join(path.dirname(file), `.picture-${randomUUID()}`);
  try {
    fs.writeFileSync(room, data, {flag: "wx"});
    fs.renameSync(room, file);
  } catch (error) {
    fs.rmSync(room, {force: true});
    throw error;
  }
}

/** Does what the words ask for, and gives the status. */
function main(words) {
  let asked, data;
  try {
    asked = arguments_(words);
    data = asked.help ? HELP : made(asked);
  } catch (error) {
    if (!(error instanceof BadInput)) throw error;
    console.error(`picture: ${error.message.replaceAll("\n", " ")}`);
    return 2;
  }
  try {
    write(data, asked.output);
  } catch (error) {
    console.error(`picture: the picture can't be written: ${why(error)}`);
    return 1;
  }
  return 0;
}

process.exitCode = main(process.argv.slice(2));
