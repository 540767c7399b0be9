// A scenario and its transcript, followed together: the readings, what each timer became, and the turns.
//
// The transcript says what came of each op, and of a turn how many timers expired; which ones, the scenario tells by the
// rules of `docs/MODEL.md` ("Timers"). Where the two don't agree, the transcript is of another scenario.

import {Heap} from "./heap.mjs";
import {BadInput, number} from "./inputs.mjs";
import {READINGS} from "./scenario.mjs";
import {floor, greater} from "./whole.mjs";

export const MILLISECOND = 1_000_000n;
const MOST_REQUESTS = 64;

/** The lines of the ops that aren't followed, behind the op's name. */
const FORMS = {
  offset: /^-?\d{1,20} (?:preliminary|final|volatile)$/,
  info: /^start -?\d+ end \d+ mode (?:no|single|multi) correction (?:true|false) offset -?\d+ state [a-z]+$/,
  convert: /^(?:-?\d{1,20}|too_wide)$/,
  receive: /^(?:empty|exited|timeout \d+ \d+|message \d+|(?:cancel|read)_timer \d+ (?:\d+|false)|change \d+ -?\d{1,20})$/,
  alive: /^(?:true|false)$/,
  monitor: /^(?:\d+|full)$/,
  demonitor: /^(?:true|false)$/,
  notify: /^\d+$/,
};

/** Whole milliseconds of nanoseconds, rounded up. */
export const up = (time) => -floor(-time, MILLISECOND);

/** Whether two lists of words are the same. */
const isSame = (a, b) => a.length === b.length && a.every((it, at) => it === b[at]);

/** What waits in order, from the first. */
class Queue {
  constructor() {
    this.items = [];
    this.taken = 0;
  }

  get isEmpty() {
    return this.taken === this.items.length;
  }

  push(item) {
    this.items.push(item);
  }

  take() {
    return this.items[this.taken++];
  }
}

/** Goes over the ops with the lines that answer them. */
class Follower {
  constructor({settings, ops}, lines, name) {
    const [mono, sys] = settings.first;
    const first = {place: -1, mono, sys, now: settings.start, offset: sys - settings.start, isShifted: false};
    this.name = name;
    this.settings = settings;
    this.run = {settings, ops, lines, readings: [first], current: [], timers: [], end: 0n};
    this.labels = new Map();
    this.exited = new Set();
    this.timersOf = new Map();
    const each = (make) => Array.from({length: settings.schedulers}, make);
    this.armed = each(() => new Heap((a, b) => a.deadline < b.deadline || (a.deadline === b.deadline && a.order < b.order)));
    this.waiting = each(() => new Queue());
    this.requests = each(() => new Queue());
    this.place = 0;
  }

  /** Monotonic time less the start time. */
  get now() {
    return this.run.readings.at(-1).now - this.settings.start;
  }

  /** What is said of a line that can't answer its op. */
  wrong() {
    return new BadInput(`${this.name}: line ${this.place + 1} doesn't answer op ${this.place + 1} of the scenario`);
  }

  /** The whole run. */
  follow() {
    const {ops, lines, readings} = this.run;
    if (lines[0].startsWith("refused ")) throw new BadInput(`${this.name}: the scenario was refused, so there is nothing to draw`);
    if (lines.length !== ops.length + 1) throw new BadInput(`${this.name}: ${lines.length} lines for ${ops.length} ops and the end`);
    ops.forEach((op, place) => {
      this.place = place;
      const [name, ...words] = lines[place].split(" ");
      if (name !== op[0]) throw this.wrong();
      this.step(op, words);
      this.run.current.push(readings.length - 1);
    });
    if (lines.at(-1) !== `end ${readings.at(-1).now}`) throw new BadInput(`${this.name}: its last line doesn't tell the time at the end`);
    this.run.end = readings.at(-1).now;
    return this.run;
  }

  /** One op with the words of its line, but the first. */
  step(op, words) {
    const [name, first] = op;
    const last = this.run.readings.at(-1);
    if (READINGS.includes(name)) this.reading(op, words);
    else if (name === "start" || name === "send_after") this.start(op, words);
    else if (name === "cancel" || name === "cancel_quiet" || name === "read") this.askNow(name, first, words);
    else if (name === "cancel_async" || name === "read_async") this.ask(name, first, words);
    else if (name === "serve") this.expect(words, [`${this.serve(first, 1)}`]);
    else if (name === "advance") this.expect(words, this.advance(first));
    else if (name === "deliver") this.expect(words, this.deliver(first));
    else if (name === "turn") this.expect(words, [`${this.serve(first, MOST_REQUESTS)}`, ...this.advance(first), ...this.deliver(first)]);
    else if (name === "exit") this.exit(first, words);
    else if (name === "time") this.expect(words, [`${last.now}`]);
    else if (name === "system") this.expect(words, [`${last.now + last.offset}`]);
    else if (!FORMS[name].test(words.join(" "))) throw this.wrong();
  }

  /** Refuses a line that says something else. */
  expect(words, wanted) {
    if (!isSame(words, wanted)) throw this.wrong();
  }

  /** A tick, a check or a finalization. */
  reading([name, mono, sys], words) {
    const last = this.run.readings.at(-1);
    let said = words;
    if (name === "finalize" && said.length && said[0] !== "offset_wide") {
      const [state, ...rest] = said;
      if (state === "final" || state === "volatile") {
        this.expect(rest, [`${last.now}`]);
        return;
      }
      if (state !== "preliminary") throw this.wrong();
      said = rest;
    }
    if (said.length === 2 && said[0] === "offset_wide" && number(said[1]) !== null) return;
    const isShifted = said.length === 3;
    if (isShifted ? said[1] !== "offset" : said.length !== 1) throw this.wrong();
    const [now, offset] = [number(said[0]), isShifted ? number(said[2]) : last.offset];
    if (now === null || offset === null || now < last.now) throw this.wrong();
    this.run.readings.push({place: this.place, mono: greater(mono, last.mono), sys, now, offset, isShifted});
  }

  /** A timer is armed, or its start refused. */
  start([, label, scheduler, when, amount, process], words) {
    if (isSame(words, ["badarg"]) || isSame(words, ["full"])) return;
    this.expect(words, ["ok"]);
    const deadline = when === "rel" ? up(this.now) + amount : amount - this.settings.start / MILLISECOND;
    const order = this.run.timers.length;
    const timer = {label, scheduler, process, deadline, order, started: this.place, fate: "armed", settled: null, handed: null, left: 0n};
    this.labels.set(label, timer);
    this.run.timers.push(timer);
    if (!this.timersOf.has(process)) this.timersOf.set(process, []);
    this.timersOf.get(process).push(timer);
    if (this.exited.has(process)) this.settle(timer, "orphaned");
    else this.armed[scheduler].push(timer);
  }

  /** A timer is no longer armed. */
  settle(timer, fate) {
    timer.fate = fate;
    timer.settled = this.place;
    timer.left = greater(0n, timer.deadline - up(this.now));
  }

  /** A cancel or a read, which is answered at once. */
  askNow(name, label, words) {
    const timer = this.labels.get(label);
    const isArmed = timer !== undefined && timer.fate === "armed";
    if (name === "cancel_quiet") this.expect(words, ["ok"]);
    else this.expect(words, [isArmed ? `${greater(0n, timer.deadline - up(this.now))}` : "false"]);
    if (isArmed && name !== "read") this.settle(timer, "cancelled");
  }

  /** A request, which is answered when it is served. */
  ask(name, label, words) {
    const timer = this.labels.get(label);
    this.requests[timer ? timer.scheduler : 0].push({name, timer});
    this.expect(words, ["ok"]);
  }

  /** Answers so many requests at most, and tells how many. */
  serve(scheduler, most) {
    const requests = this.requests[scheduler];
    let served = 0;
    for (; !requests.isEmpty && served < most; served++) {
      const {name, timer} = requests.take();
      if (name === "cancel_async" && timer?.fate === "armed") this.settle(timer, "cancelled");
    }
    return served;
  }

  /** Lets the due timers expire. */
  advance(scheduler) {
    const [to, armed] = [this.now / MILLISECOND, this.armed[scheduler]];
    let expired = 0;
    while (armed.first && armed.first.deadline <= to) {
      const timer = armed.pop();
      if (timer.fate !== "armed") continue;
      this.settle(timer, "expired");
      this.waiting[scheduler].push(timer);
      expired++;
    }
    return [`${to}`, `${expired}`];
  }

  /** Hands over what has expired. */
  deliver(scheduler) {
    const waiting = this.waiting[scheduler];
    const counts = {delivered: 0, dropped: 0};
    while (!waiting.isEmpty) {
      const timer = waiting.take();
      timer.fate = this.exited.has(timer.process) ? "dropped" : "delivered";
      timer.handed = this.place;
      timer.left = timer.deadline - this.now / MILLISECOND;
      counts[timer.fate]++;
    }
    return [`${counts.delivered}`, `${counts.dropped}`];
  }

  /** A process exits, and its armed timers are orphaned. */
  exit(process, words) {
    this.expect(words, [this.exited.has(process) ? "already" : "ok"]);
    this.exited.add(process);
    for (const timer of this.timersOf.get(process) ?? []) {
      if (timer.fate === "armed") this.settle(timer, "orphaned");
    }
    this.timersOf.delete(process);
  }
}

/**
 * The run of a scenario that a transcript tells of; BadInput where it is the transcript of another one. It has the readings
 * that the clock took, with what it showed then, of which the first has the place -1; the timers that were armed, whose
 * places are those of ops and whose deadlines are milliseconds after the start time; and `current[i]`, the number of the
 * reading at which op i stands.
 */
export function follow(scenario, lines, name) {
  return new Follower(scenario, lines, name).follow();
}
