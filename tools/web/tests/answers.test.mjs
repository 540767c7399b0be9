// What the page makes of what a program says, and how it waits for it.

import assert from "node:assert/strict";
import {test} from "node:test";

import {answerOf, faultOf} from "../page/answers.mjs";
import {Runner} from "../page/runner.mjs";
import {lines, named, read} from "./examples.mjs";

/** In a scenario of so many ops at most each op is drawn. */
const SMALL = 60;

/** What a program says that ends so. */
const said = (output, errors = "", status = 0) => ({status, output, errors});

test("faults", () => {
  const rows = [
    ['scenario:2:5: op 2: there is no op "tikc"\n', {line: 2, column: 5, message: 'op 2: there is no op "tikc"'}],
    ["history:7: s0 w0 expire 0 0 1: the timer's deadline is 6 ms\n", {line: 7, column: null, message: "s0 w0 expire 0 0 1: the timer's deadline is 6 ms"}],
    ["history:7:7: it ends\n", {line: 7, column: 7, message: "it ends"}],
    ["", null],
    ["scenario:2:5: two\nlines\n", null],
  ];
  for (const [errors, wanted] of rows) assert.deepEqual(faultOf(errors), wanted, errors);
});

test("each op has a place, from left to right, and OS monotonic time goes on with them", () => {
  for (const name of named("examples/ertime", ".json")) {
    const [text, output] = [read(`examples/ertime/${name}.json`), read(`examples/ertime/${name}.json.stdout`)];
    if (output.startsWith("refused")) continue;
    const answer = answerOf("scenario", text, said(output));
    assert.deepEqual([answer.outcome, answer.lines], ["ran", lines(output)]);
    assert.equal(answer.places.length, JSON.parse(text).ops.length);
    answer.axis.slice(1).forEach(({x, mono}, number) => assert.ok(answer.axis[number].x <= x && answer.axis[number].mono <= mono, name));
    assert.ok(!answer.picture.includes("<style>"));
    if (answer.places.length && answer.places.length <= SMALL) assert.ok(answer.picture.includes('data-op="0"'), name);
  }
});

test("each entry has a place", () => {
  for (const name of named("examples/ertaudit", ".txt")) {
    const [text, output] = [read(`examples/ertaudit/${name}.txt`), read(`examples/ertaudit/${name}.txt.stdout`)];
    const [outcome] = output.split(" ");
    if (outcome === "refused") continue;
    const answer = answerOf("history", text, said(output, "", Number(outcome === "illegal")));
    assert.equal(answer.outcome, outcome);
    assert.equal(answer.places.length, lines(text).length - 1);
  }
});

test("other ends", () => {
  const refused = answerOf("scenario", "", said("refused json\n", "scenario:1:1: expected a value here\n", 3));
  assert.deepEqual([refused.outcome, refused.lines, refused.fault.column, refused.picture], ["refused", ["refused json"], 1, undefined]);
  for (const kind of ["scenario", "history"]) {
    assert.match(answerOf(kind, "", said("", "", 7)).message, /ended with status 7: memory ran out/);
    assert.equal(answerOf(kind, "", said("", "", 7)).outcome, "failed");
    const other = answerOf(kind, "x", said("something else\n"));
    assert.match(other.message, /^There is no picture\. /);
    assert.equal(other.picture, undefined);
  }
});

/** A worker that is told of what it is asked, and does nothing by itself; `made` has all that were begun. */
function standIn(made) {
  const worker = {asked: [], isEnded: false};
  worker.postMessage = (it) => worker.asked.push(it);
  worker.terminate = () => (worker.isEnded = true);
  made.push(worker);
  return worker;
}

test("a text waits for the worker to be ready, and the next one uses it again", async () => {
  const made = [];
  const runner = new Runner(() => standIn(made));
  const [first, second] = [runner.answer("scenario", "a"), runner.answer("scenario", "b")];
  assert.equal(await first, null);
  assert.deepEqual(made[0].asked, []);
  made[0].onmessage({data: {isReady: true}});
  assert.deepEqual(made[0].asked, [{kind: "scenario", text: "b"}]);
  made[0].onmessage({data: {answer: 1}});
  assert.deepEqual(await second, {answer: 1});
  const third = runner.answer("scenario", "c");
  made[0].onmessage({data: {answer: 2}});
  assert.deepEqual(await third, {answer: 2});
  assert.equal(made.length, 1);
});

test("a worker that is busy with a text that nobody wants any more is ended", async () => {
  const made = [];
  const runner = new Runner(() => standIn(made));
  const first = runner.answer("scenario", "a");
  made[0].onmessage({data: {isReady: true}});
  const second = runner.answer("scenario", "b");
  assert.equal(await first, null);
  assert.ok(made[0].isEnded);
  made[0].onmessage({data: {answer: 1}});
  made[1].onmessage({data: {isReady: true}});
  made[1].onmessage({data: {answer: 2}});
  assert.deepEqual(await second, {answer: 2});
});

test("a worker that takes too long, fails or can't begin is ended, and the answer says so", async () => {
  const made = [];
  const runner = new Runner(() => standIn(made), 0.01);
  const slow = runner.answer("history", "a");
  made[0].onmessage({data: {isReady: true}});
  assert.equal((await slow).answer.message, "ertaudit took more than 0.01 seconds and was stopped");
  const broken = runner.answer("scenario", "a");
  made[1].onerror({message: "out of memory"});
  assert.equal((await broken).answer.message, "ertime failed: out of memory");
  const none = runner.answer("scenario", "a");
  made[2].onmessage({data: {answer: "no WebAssembly"}});
  assert.deepEqual(await none, {answer: "no WebAssembly"});
  assert.deepEqual(made.map((it) => it.isEnded), [true, true, true]);
});
