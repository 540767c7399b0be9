// How transcripts are followed, and where things stand in the picture of a scenario.

import assert from "node:assert/strict";
import {test} from "node:test";

import {Axis} from "../picture/axis.mjs";
import {cutUp, wordsOf} from "../picture/bars.mjs";
import {Differences, flags} from "../picture/clocks.mjs";
import {BadInput, number} from "../picture/inputs.mjs";
import {readScenario} from "../picture/scenario.mjs";
import {picture} from "../picture/sheet.mjs";
import {num, rounded, signed, span} from "../picture/svg.mjs";
import {floor, ratio} from "../picture/whole.mjs";
import {short} from "../picture/wording.mjs";
import {SECOND, example, named, read, runOf} from "./examples.mjs";

const MINUS = "\u2212";

/** Compares what a function gives with the second item of each row. */
function table(of, rows) {
  for (const [given, wanted] of rows) assert.deepEqual(of(given), wanted, `${given}`);
}

test("numbers of 20 digits at most, with no leading zero", () => {
  table(number, [["0", 0n], ["-5", -5n], ["10", 10n], ["01", null], ["-0", null], ["", null], ["-", null], ["+1", null], ["1.0", null]]);
});

test("lengths are rounded to the nearest, and halves to the even one", () => {
  table(num, [[0.25, "0.2"], [0.75, "0.8"], [-0.25, "-0.2"], [0.35, "0.3"], [12, "12"], [1.96, "2"]]);
  table((it) => rounded(it, 2), [[0.125, "0.12"], [0.375, "0.38"], [1.005, "1.00"]]);
});

test("a quotient of whole numbers is the nearest double", () => {
  table(([a, b]) => ratio(a, b), [
    [[1n, 3n], 1 / 3],
    [[-(2n ** 70n), 2n ** 60n], -1024],
    [[2n ** 54n + 1n, 2n ** 54n], 1],
    [[2n ** 53n + 3n, 2n ** 53n], 1 + 2 ** -51],
    [[10n ** 30n, 3n * 10n ** 30n], 1 / 3],
  ]);
  table(([a, b]) => floor(a, b), [[[7n, 2n], 3n], [[-7n, 2n], -4n], [[-6n, 2n], -3n]]);
});

test("durations", () => {
  table(span, [[0n, "0"], [999n, "999 ns"], [1500n, "1.5 \u00b5s"], [-200_000_000n, `${MINUS}200 ms`], [63_001_500_000n, "63.0015 s"], [3602n * SECOND, "3602 s"]]);
  assert.equal(signed(10n * SECOND), "+10 s");
  assert.equal(signed(500_000n, 1_500_000n), "+0.5 ms");
});

test("integers of scenarios are read exactly, and no other number is one", () => {
  const scenario = (first) => readScenario(`{"format":2,"first":${first},"ops":[["convert",-9223372036854775808,"native",1]]}`, "here");
  const {settings, ops} = scenario(" [4611686018427387903 ,\n-2305843009213693951]");
  assert.deepEqual(settings.first, [2n ** 62n - 1n, 1n - 2n ** 61n]);
  assert.deepEqual(ops, [["convert", -(2n ** 63n), "native", 1n]]);
  for (const first of ["[0,-0]", "[1.0,0]", "[1e3,0]", '["0",0]', "[0,1000000000000000000000]", "[4611686018427387904,0]", "[0]", "{}"]) {
    assert.throws(() => scenario(first), {message: "here: not a scenario: first"}, first);
  }
});

test("notes above the clocks", () => {
  table((name) => flags(new Axis(example(name), 0, 700)).map((it) => it.words), [
    ["frozen_clock", [`OS system time leaps ${MINUS}3602 s`, "frozen"]],
    ["slow_until_met", [`${MINUS}1 %: slow`]],
    ["gentle_correction", ["+0.05 %: fast"]],
    ["multi_warp", ["OS system time leaps +10 s", "offset +10 s"]],
    ["single_warp", ["OS system time leaps +1000 s", "offset +1000 s"]],
    ["asynchronous_cancel", []],
  ]);
});

test("a freeze ends where the clocks meet", () => {
  const {lines} = new Differences(new Axis(example("timer_in_a_freeze"), 0, 700));
  assert.deepEqual(lines.map((line) => line.at(-1)[1]), Array(3).fill(-10n * SECOND));
});

test("places go from left to right", () => {
  for (const name of named("examples/ertime", ".json")) {
    if (read(`examples/ertime/${name}.json.stdout`).startsWith("refused")) continue;
    const axis = new Axis(example(name), 100, 700);
    assert.deepEqual(axis.ops, [...axis.ops].sort((a, b) => a - b), name);
    assert.ok(axis.end < 800.5, name);
  }
});

test("what becomes of timers", () => {
  table((name) => example(name).timers.map((it) => it.fate), [
    ["process_exits", ["orphaned", "armed", "dropped", "orphaned"]],
    ["full_wheel", ["cancelled", "delivered", "armed", "armed"]],
    ["requests_and_a_warp", ["cancelled", "delivered", "orphaned"]],
    ["asynchronous_cancel", ["cancelled"]],
  ]);
});

test("timers in words and parts", () => {
  assert.deepEqual(example("requests_and_a_warp").timers.map(wordsOf).slice(0, 2), ["cancelled, 700 ms left", "delivered on time"]);
  const late = runOf(
    [["start", 1, 0, "rel", 5, 0, 7], ["tick", 8e6, 8e6], ["turn", 0]],
    ["start ok", "tick 8000000", "turn 0 8 1 1 0", "end 8000000"],
  );
  assert.equal(wordsOf(late.timers[0]), "delivered 3 ms late");
  const {parts, due, isInSight} = cutUp(new Axis(late, 0, 700), late.timers[0]);
  assert.deepEqual(parts.map(([css]) => css), ["delivered", "late"]);
  assert.ok(parts[0][1] < due && due < parts[1][2] && isInSight);
});

test("transcripts of other scenarios", () => {
  const start = ["start", 1, 0, "rel", 5, 0, 7];
  const rows = [
    [[start, ["turn", 0]], ["start ok", "turn 0 0 1 1 0", "end 0"]],
    [[start, ["cancel", 1]], ["start ok", "cancel 4", "end 0"]],
    [[start, ["cancel", 1]], ["start ok", "cancel false", "end 0"]],
    [[["read", 1]], ["read 5", "end 0"]],
    [[["serve", 0]], ["serve 1", "end 0"]],
    [[["exit", 0]], ["exit already", "end 0"]],
    [[["receive", 0]], ["receive nothing", "end 0"]],
    [[["tick", 5, 5]], ["tick 5", "end 6"]],
  ];
  for (const [ops, lines] of rows) assert.throws(() => runOf(ops, lines), BadInput, `${lines}`);
});

test("a request for a label of a later start cancels nothing", () => {
  const run = runOf([["cancel_async", 1, 0, true], ["start", 1, 0, "rel", 5, 0, 7], ["serve", 0]], ["cancel_async ok", "start ok", "serve 1", "end 0"]);
  assert.equal(run.timers[0].fate, "armed");
});

test("ops in words", () => {
  const run = example("single_warp");
  const told = run.ops.map((op, place) => short(run, op, run.lines[place]));
  assert.deepEqual(told.slice(0, 3), ["tick 5 s", "system 5 s", "finalize 6 s"]);
  assert.equal(told[4], "finalize: already final");
});

test("a title that XML can't hold as it is", () => {
  const made = picture(example("frozen_clock"), 'a<b>&"\u0001\u{1f600}');
  assert.ok(made.includes("<title>a&lt;b&gt;&amp;\"??</title>"));
  assert.ok(made.includes('aria-label="a&lt;b&gt;&amp;&quot;??. A scenario'));
});
