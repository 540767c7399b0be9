// Writes the drawings of docs/drawings, as SVG: a program with the library, and how the proof is made up.
//
//     tools/drawings            writes them
//     tools/drawings --check    1 if one differs from what this script makes

import fs from "node:fs";

import {Drawing} from "./picture/svg.mjs";

const PLACE = new URL("../../docs/drawings/", import.meta.url);
const HEAD = 6;

/** A line through points, with a head at its last one. */
function arrow(it, css, ...points) {
  for (let at = 1; at < points.length; at++) it.line(css, ...points[at - 1], ...points[at]);
  const [[x1, y1], [x2, y2]] = points.slice(-2);
  const [dx, dy] = [Math.sign(x2 - x1), Math.sign(y2 - y1)];
  for (const side of [-1, 1]) it.line(css, x2, y2, x2 - HEAD * dx + side * HEAD * 0.6 * dy, y2 - HEAD * dy + side * HEAD * 0.6 * dx);
}

/** A box with a title and lines below it. */
function frame(it, x, y, width, height, title, ...lines) {
  it.box("band", x, y, width, height);
  it.add("rect", "open edge", "", {x, y, width, height, rx: 4});
  it.text("ink title", x + 12, y + 22, title);
  lines.forEach((line, number) => it.text("soft", x + 12, y + 42 + 17 * number, line));
}

/** A smaller box within another one. */
function part(it, x, y, width, title, ...lines) {
  it.add("rect", "page", "", {x, y, width, height: 26 + 17 * lines.length, rx: 4});
  it.text("ink", x + 10, y + 18, title);
  lines.forEach((line, number) => it.text("soft small", x + 10, y + 35 + 17 * number, line));
}

/** The steps of an event loop. */
const STEPS = ["1. sleep until next_due", "2. read the clocks, and tick", "3. input: start and cancel", "4. turn", "5. take, until it is empty,", "    and act on each message"];

/** The program's own side: the clocks, and its event loop. */
function drawLoop(it) {
  it.text("soft", 20, 28, "the operating system");
  part(it, 20, 38, 250, "clocks: monotonic and system");
  it.text("soft", 20, 100, "your program");
  frame(it, 20, 110, 250, 240, "the event loop", "one thread, or a mutex around it");
  STEPS.forEach((step, number) => it.text("ink", step.startsWith(" ") ? 46 : 32, 184 + 26 * number, step.trim()));
  arrow(it, "edge", [145, 64], [145, 106]);
}

/** The library, and what the loop asks of it. */
function drawLibrary(it) {
  it.text("soft", 400, 28, "the library: a service (ert_world)");
  frame(it, 400, 38, 250, 312, "");
  part(it, 416, 54, 218, "the clock", "monotonic time, time offset");
  part(it, 416, 158, 218, "a scheduler: its timer wheel", "a slot for each timer;", "expired timers");
  part(it, 416, 282, 218, "a process: its mailbox", "messages of expired timers");
  arrow(it, "mono", [270, 206], [310, 206], [310, 76], [412, 76]);
  it.text("ink small", 320, 70, "tick");
  arrow(it, "mono", [270, 232], [330, 232], [330, 176], [412, 176]);
  it.text("ink small", 331, 170, "start, cancel");
  arrow(it, "mono", [270, 258], [350, 258], [350, 206], [412, 206]);
  it.text("ink small", 360, 200, "turn");
  arrow(it, "mono", [412, 305], [350, 305], [350, 284], [274, 284]);
  it.text("ink small", 360, 299, "take");
  arrow(it, "mono", [525, 218], [525, 278]);
  it.text("ink small", 533, 244, "a turn delivers");
  it.text("ink small", 533, 260, "what has expired");
  arrow(it, "edge", [525, 97], [525, 154]);
  it.text("soft small", 533, 122, "says what");
  it.text("soft small", 533, 138, "is due");
}

/** Other threads of the program. */
function drawSeats(it) {
  it.text("soft", 740, 28, "other threads of your program");
  for (const y of [54, 158]) part(it, 740, y, 200, "a thread with its ert_seat", "reads the time,", "reads and cancels timers");
  for (const y of [76, 190]) arrow(it, "life0 life", [740, y], [638, y]);
  arrow(it, "life0 life", [740, 170], [690, 170], [690, 92], [638, 92]);
  arrow(it, "life0 life", [740, 100], [708, 100], [708, 180], [638, 180]);
  it.text("ink small", 742, 258, "without a lock and without waiting:");
  it.text("ink small", 742, 274, "they share atomic words");
}

/** A program with the library. */
function program() {
  const told = "The program reads the clocks and passes them by tick, starts timers, makes turns and takes messages; other threads use seats";
  const it = new Drawing(960, "A program with ertime", told);
  drawLoop(it);
  drawLibrary(it);
  drawSeats(it);
  return it.done(370);
}

const READ = [
  ["the contract", "of a call, in its crate's src:", "the history grows by a piece", "that this call may make with", "this answer", "World::cancel_timer"],
  ["the relation", "of calls, in ert_effects: which", "entries a call may make, and", "which answer they have", "", "Cancels: Look, Peek, Cancel"],
  ["the model", "of one thread, in ert_defs: the", "state after a history, and", "which entry is legal in it", "", "Legal: 21 events"],
  ["the laws", "of all legal histories: time", "never goes back, no timer", "expires early or ends twice,", "the offset moves as permitted", "ert_defs and ert_laws"],
];
const CHECKED = [
  ["bodies", "of functions: memory-safe,", "they end, and they do what", "their contracts say"],
  ["the rule of the desk", "threads step on atomic words,", "a step is an entry, the words", "are those of one legal history"],
  ["locality", "an entry that a thread has", "prepared is legal although", "others stepped in between"],
  ["mutants", "bodies that are wrong on", "purpose: each is rejected, so", "the contracts are not empty"],
];
const [WIDE, GAP] = [200, 46];

/** Where the frame of a number begins. */
const left = (number) => 20 + (WIDE + GAP) * number - 6 * number;

/** What is read. */
function drawRead(it) {
  it.text("soft", 20, 28, "what you read to trust the result");
  READ.forEach(([title, ...lines], number) => {
    const x = left(number);
    frame(it, x, 38, WIDE, 130, title, ...lines.slice(0, 4));
    it.text("rate small", x + 12, 157, lines[4]);
    if (number !== 1 && number !== 2) return;
    arrow(it, "mono", [x - GAP + 8, 102], [x - 2, 102]);
    it.text("ink small", x - GAP / 2 + 3, 94, "cites", "middle");
  });
  arrow(it, "mono", [738, 102], [704, 102]);
  it.text("ink small", 720, 80, "hold", "middle");
  it.text("ink small", 720, 94, "of", "middle");
}

/** What is checked. */
function drawChecked(it) {
  it.text("soft", 260, 218, "what the prover checks, so that you need not");
  CHECKED.forEach(([title, ...lines], number) => frame(it, left(number), 226, WIDE, 100, title, ...lines));
  arrow(it, "edge", [160, 222], [160, 172]);
  it.text("soft small", 168, 194, "meet");
  arrow(it, "edge", [260, 276], [224, 276]);
  arrow(it, "edge", [500, 276], [464, 276]);
  it.text("soft small", 242, 268, "in", "middle");
  it.text("soft small", 482, 268, "by", "middle");
  arrow(it, "edge", [840, 222], [840, 200], [200, 200], [200, 172]);
  it.text("soft small", 848, 212, "test");
}

/** How the proof is made up. */
function proof() {
  const told = "The contract of a call cites a relation, the relation speaks of entries of the model, and the laws hold of every legal history of the model";
  const it = new Drawing(960, "How the proof is made up", told);
  drawRead(it);
  drawChecked(it);
  return it.done(346);
}

/** Writes the drawings, or compares them; gives the status. */
function main(words) {
  const made = {"program.svg": program(), "proof.svg": proof()};
  if (words.length && words.join(" ") !== "--check") {
    console.error("usage: tools/drawings [--check]");
    return 2;
  }
  let status = 0;
  for (const [name, data] of Object.entries(made)) {
    const place = new URL(name, PLACE);
    if (!words.length) {
      fs.writeFileSync(place, data);
    } else if (!fs.existsSync(place) || fs.readFileSync(place, "utf8") !== data) {
      console.log(`docs/drawings/${name} isn't what tools/drawings makes`);
      status = 1;
    }
  }
  return status;
}

process.exitCode = main(process.argv.slice(2));
