// What an illegal entry of a history broke.

import assert from "node:assert/strict";
import {test} from "node:test";

import {BadInput} from "../picture/inputs.mjs";
import {UNKNOWN, broken, reason} from "../picture/judge.mjs";
import {LATER, State, USES_OF_ROUND, Uses} from "../picture/service.mjs";
import {readHistory} from "../picture/written.mjs";
import {named, read} from "./examples.mjs";

const SETTINGS = "settings multi false 0 1 2 1 2 0 0\n";
const ARMED = "c0 - look 0\nc0 w0 arm 0 0 1 after 5 0 7 wrapped\n";

/** The first entry of a history of one. */
const entryOf = (line) => readHistory(SETTINGS + line, "here").entries[0];

test("reasons", () => {
  const rows = [
    ["c0 - look 1\n", "the clock shows 0"],
    ["k c0 shift 0 volatile\n", "no shift is due"],
    ["k c0 tick 0 9 plain 8\n", "the clock makes 9 of this reading"],
    ["c0 w0 arm 0 0 2 after 5 0 7 bare\n", "the slot's next generation is 1"],
    ["c0 - cancel 0 0 1 5\n", "timer 0 0 1 was never armed, so nothing is left"],
    ["c5 - look 0\n", "there is no c5"],
    ["s0 - drop 0 0 1\n", "timer 0 0 1 isn't the first expired timer of s0 that waits"],
    ["c0 m1 watch 1 1 0\n", "the next monitor of process 1 is 0"],
    ["s0 m0 answer 0 none\n", "s0 has no request in its hand"],
    ["c0 m1 take 1 bare 7\n", "the first message is none"],
    ["c0 m0 take 1 none\n", "it is made with m0, and has to be with m1"],
  ];
  for (const [line, told] of rows) assert.equal(reason(readHistory(SETTINGS + line, "here"), 2), told);
  const armed = [
    ["c1 - peek 0 0 1 4\n", "5 ms are left by the last look of c1"],
    ["c0 w0 arm 0 0 2 after 5 0 7 bare\n", "the slot is taken: timer 0 0 1 is armed"],
    ["s0 w0 expire 0 0 1\n", "timer 0 0 1 isn't due: its deadline is 5 ms, and s0 looked at 0 ms"],
    ["c0 w0 orphan 0 0 1\n", "process 0 hasn't exited"],
  ];
  for (const [line, told] of armed) assert.equal(reason(readHistory(SETTINGS + ARMED + line, "here"), 4), told);
});

test("after its uses a slot rests until its deadlines have passed, and a later round tells the deadline", () => {
  assert.deepEqual(new Uses().next(9n, 5n), {generation: 1n, deadline: 5n});
  const used = new Uses(USES_OF_ROUND, 0n, 101n);
  assert.deepEqual(used.turned(), new Uses(0n, 101n, 101n));
  assert.deepEqual(used.next(101n, 5n), {generation: LATER + 101n, deadline: 101n});
  assert.deepEqual(new Uses(LATER + 101n, 101n, 102n).next(103n, 200n), {generation: 2n * LATER + 200n, deadline: 200n});
  assert.equal(new Uses(LATER * USES_OF_ROUND + 500n, 101n, 501n).turned().since, 501n);
  const history = readHistory(`${SETTINGS}c0 w0 arm 0 0 1 after 5 0 7 bare\n`, "here");
  const state = new State(history);
  state.uses.set("0 0", used);
  assert.equal(broken(state, history.entries[0]), "the slot rests until 101 ms");
  state.looks.set("c0", history.start + 101_000_000n);
  const next = LATER + 106n;
  assert.equal(broken(state, entryOf("c0 w0 arm 0 0 1 after 5 0 7 bare\n")), `the slot's next generation is ${next}`);
  assert.equal(broken(state, entryOf(`c0 w0 arm 0 0 ${next} after 5 0 7 bare\n`)), UNKNOWN);
});

test("each illegal one of the auditor's own short histories has its reason, and no legal entry has one", () => {
  const rows = named("examples/messages", ".json").flatMap((name) => JSON.parse(read(`examples/messages/${name}.json`)));
  const said = rows.filter((it) => it.program === "ertaudit" && it.output).map(({input, output}) => [input, ...output.split(/\s/)]);
  const judged = said.filter(([, word]) => word === "legal" || word === "illegal");
  assert.ok(judged.length > 140);
  for (const [text, word, line] of judged) {
    const history = readHistory(text, "here");
    const state = new State(history);
    const bad = word === "illegal" ? Number(line) - 2 : history.entries.length;
    history.entries.slice(0, bad + 1).forEach((entry, place) => {
      assert.equal(broken(state, entry) !== UNKNOWN, place === bad, text);
      if (place < bad) state.move(entry, place + 2);
    });
  }
});

test("a history that isn't spelled, and a verdict of another one", () => {
  for (const name of named("examples/ertaudit", ".txt")) {
    if (!read(`examples/ertaudit/${name}.txt.stdout`).startsWith("refused")) continue;
    assert.throws(() => readHistory(read(`examples/ertaudit/${name}.txt`), name), BadInput, name);
  }
  const text = `${SETTINGS}s0 m0 deliver 0 0 1\nc0 - look 0\n`;
  assert.throws(() => reason(readHistory(text, "here"), 3), {message: "the verdict is of another history: line 2 isn't legal either"});
});
