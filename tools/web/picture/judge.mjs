// What an entry broke, of which `ertaudit` says that it is illegal.
//
// The state of the service (`service`) is moved by the entries before it, which are legal; then the conditions of the entry
// are gone through in the order of `docs/MODEL.md` ("Legal"). This is no second judge: where no
// condition is found broken, it says so.

import {BadInput} from "./inputs.mjs";
import {MILLISECOND} from "./replay.mjs";
import {LATER, Missing, State, USES_OF_ROUND} from "./service.mjs";
import {span} from "./svg.mjs";
import {size} from "./whole.mjs";
import {isSame, plain} from "./written.mjs";

const LATEST = 8_796_093_022_207n;
const LAST_GENERATION = 2n ** 61n - 1n;
const MOST_MONITORS = 64;
/** What is said where no broken condition is found. */
export const UNKNOWN = "it can't follow on the lines before it";

/** The letters of those who may make each event. */
const BY = {
  tick: "k", shift: "k", arm: "c", orphan: "c", ask: "c", take: "c", unwatch: "c", watch: "c", tell: "c", expire: "s",
  deliver: "s", drop: "s", advanced: "s", pick: "s", answer: "s", look: "cs", off: "csk", probe: "cs", peek: "cs",
  cancel: "cs", mark: "cs",
};
const OF_TIMERS = ["arm", "peek", "cancel", "expire", "orphan", "deliver", "drop"];
const OF_SCHEDULERS = ["probe", "advanced", "ask", "pick", "answer"];
/** What a scheduler does to its own timers and inbox. */
const OF_ITSELF = ["expire", "deliver", "drop", "advanced", "pick", "answer"];

/** A timer's name. */
const nameOf = (timer) => `timer ${plain(timer)}`;

/** Whether a timer's name is in range. */
function namesTimer(history, [scheduler, slot, generation]) {
  const isFirst = 1n <= generation && generation <= USES_OF_ROUND;
  const isGeneration = isFirst || (LATER <= generation && generation <= LAST_GENERATION);
  return scheduler < history.schedulers && slot < history.slots && isGeneration;
}

/** Why a timer isn't armed; null where it is. */
function notArmed(state, timer) {
  const row = state.row(timer);
  if (!row) return `${nameOf(timer)} was never armed`;
  if (row.status === "armed") return null;
  const words = {cancelled: "cancelled it", orphaned: "cancelled it for an exit"}[row.status] ?? "let it expire";
  return `${nameOf(timer)} isn't armed: ${row.settledBy} ${words} at line ${row.settled}`;
}

/** The scheduler and the slot that an entry names, 0 where it names none. */
function placeOf({event, fields}) {
  if (OF_TIMERS.includes(event)) return fields[0].slice(0, 2);
  if (OF_SCHEDULERS.includes(event)) return [fields[0], event === "probe" ? fields[1] : 0n];
  return [0n, 0n];
}

/** With whom an entry has to be made; `-` is nobody, `c` any caller, `m` any mailbox. */
function wantedOther(entry) {
  const {event, by, fields} = entry;
  const [scheduler] = placeOf(entry);
  if (event === "tick" || event === "shift" || (event === "off" && by === "k")) return "c";
  if (event === "answer" || event === "deliver") return "m";
  if (["arm", "probe", "expire", "orphan", "advanced"].includes(event)) return `w${scheduler}`;
  if (event === "ask" || event === "pick") return `i${scheduler}`;
  return ["take", "unwatch", "watch", "tell"].includes(event) ? `m${fields[0]}` : "-";
}

/** The process that an entry names beside a mailbox, 0 where it names none. */
function processOf({event, fields}) {
  if (event === "mark") return fields[0];
  return event === "arm" || event === "ask" ? fields[1][2] : 0n;
}

/** What is out of range in an entry: a slot, a process or an actor. */
function outOfRange(history, entry) {
  const [scheduler, slot] = placeOf(entry);
  if (scheduler >= history.schedulers || slot >= history.slots) return `there is no slot ${slot} of scheduler ${scheduler}`;
  if (processOf(entry) >= history.processes) return `there is no process ${processOf(entry)}`;
  const counts = {c: history.callers, m: history.processes};
  const isBeyond = (actor) => actor !== null && actor !== "k" && BigInt(actor.slice(1)) >= (counts[actor[0]] ?? history.schedulers);
  const beyond = [entry.by, entry.other].find(isBeyond);
  return beyond === undefined ? null : `there is no ${beyond}`;
}

/** Whether the entry is made by, with or of somebody who can't be. */
function wrongActor(history, entry) {
  const found = outOfRange(history, entry);
  if (found) return found;
  const {by, event} = entry;
  const isOfItself = OF_ITSELF.includes(event) || (event === "probe" && by[0] === "s");
  if (!BY[event].includes(by[0]) || (isOfItself && by !== `s${placeOf(entry)[0]}`)) return `${by} can't make this ${event}`;
  const [wanted, other] = [wantedOther(entry), entry.other ?? "-"];
  if (other === wanted || ((wanted === "c" || wanted === "m") && other[0] === wanted)) return null;
  return `it is made with ${other}, and has to be with ${{"-": "nobody", c: "a caller"}[wanted] ?? wanted}`;
}

/** What a shift breaks. */
function wrongShift(state, fields) {
  if (state.due === null) return "no shift is due";
  return isSame(fields, state.due) ? null : `the shift that is due is to ${plain(state.due)}`;
}

/** What a tick breaks. */
function wrongTick(state, [mono, sys, act, now]) {
  if (state.due !== null) return "a shift is due first";
  if (mono < 0n || mono >= 2n ** 62n || size(sys) >= 2n ** 61n) return "the reading isn't valid";
  if (act === "finalize" && state.offsetState !== "preliminary") return `the offset is ${state.offsetState}, so it can't be finalized`;
  const wanted = state.timeAfter(mono, sys);
  if (now !== wanted) return `the clock makes ${wanted} of this reading`;
  const due = state.dueAfter(mono, sys, act, now);
  return due && size(due[0]) >= 2n ** 62n ? "the shift that is due takes the offset past its limits" : null;
}

/** What a tick, a shift, an off or a look breaks. */
function wrongClock(state, {event, fields}) {
  if (event === "look") return fields[0] === state.time ? null : `the clock shows ${span(state.time)}`;
  if (event === "off") return isSame(fields, [state.offset, state.offsetState]) ? null : `the offset is ${state.offset}`;
  return event === "shift" ? wrongShift(state, fields) : wrongTick(state, fields);
}

/** What a peek or a cancel breaks. */
function wrongLeft(state, {by, fields: [timer, said]}) {
  const left = state.left(by, timer);
  if (left === said) return null;
  return left === null ? `${notArmed(state, timer)}, so nothing is left` : `${left} ms are left by the last look of ${by}`;
}

/** What an expire breaks of an armed timer. */
function wrongExpiry(state, {by, fields: [timer]}) {
  const [row, look] = [state.row(timer), state.look(by) / MILLISECOND];
  if (row.deadline > look) return `${nameOf(timer)} isn't due: its deadline is ${row.deadline} ms, and ${by} looked at ${look} ms`;
  const first = state.ahead(timer[0]).timer;
  return isSame(first, timer) ? null : `${nameOf(first)} comes before it`;
}

/** What a delivery or a drop breaks. */
function wrongHandover(state, {event, other, fields: [timer]}) {
  const row = state.row(timer);
  const first = state.waiting.get(timer[0])?.[0];
  if (!row || !first || !isSame(first, timer)) return `${nameOf(timer)} isn't the first expired timer of s${timer[0]} that waits`;
  if (event === "drop") return state.exited.has(row.process) ? null : `process ${row.process} hasn't exited`;
  return other === `m${row.process}` ? null : `the message is for process ${row.process}`;
}

/** What an entry on a timer breaks. */
function wrongTimer(state, entry) {
  const {event, fields: [timer]} = entry;
  if (event === "peek" || event === "cancel") return wrongLeft(state, entry);
  if (event === "deliver" || event === "drop") return wrongHandover(state, entry);
  const found = notArmed(state, timer);
  if (found) return found;
  if (event === "expire") return wrongExpiry(state, entry);
  const {process} = state.row(timer);
  return state.exited.has(process) ? null : `process ${process} hasn't exited`;
}

/** What an arm or a probe breaks. */
function wrongSlot(state, entry) {
  const {event, by, fields} = entry;
  const place = placeOf(entry);
  const uses = state.usesOf(...place);
  const timer = [...place, uses.last];
  const status = state.row(timer)?.status ?? null;
  if (event === "probe") return fields[2] === status ? null : `the slot's last timer is ${plain(status)}`;
  if (status === "armed" || status === "expired") return `the slot is taken: ${nameOf(timer)} is ${status}`;
  const now = state.look(by) / MILLISECOND;
  if (now < uses.turned().since) return `the slot rests until ${uses.above} ms`;
  const [[, , said], [when, amount]] = fields;
  if (when === "after" && amount < 0n) return "the time is negative";
  const deadline = state.deadline(entry);
  if (deadline < 0n || deadline > LATEST) return `the deadline would be ${deadline} ms`;
  const {generation} = uses.next(now, deadline);
  return said === generation ? null : `the slot's next generation is ${generation}`;
}

/** What an entry on a process breaks. */
function wrongMail(state, {event, fields}) {
  const [process, second, third] = fields;
  const stand = state.monitors.get(process) ?? new Map();
  if (event === "mark") {
    const was = state.exited.has(process);
    return third === was ? null : `process ${process} ${was ? "had" : "hadn\u2019t"} exited`;
  }
  if (event === "take") {
    const first = state.mail.get(process)?.[0];
    return isSame(second, first) ? null : `the first message is ${plain(first)}`;
  }
  if (event === "unwatch") {
    const was = stand.has(second);
    return third === was ? null : `monitor ${second} ${was ? "stands" : "doesn\u2019t stand"}`;
  }
  const next = state.nextMonitor.get(process) ?? 0n;
  if (event === "watch" && second !== next) return `the next monitor of process ${process} is ${next}`;
  if (event === "watch" && stand.size >= MOST_MONITORS) return `process ${process} has 64 monitors`;
  return fields.at(-1) === state.offset ? null : `the offset is ${state.offset}`;
}

/** What an answer breaks. */
function wrongAnswer(state, {by, other, fields: [scheduler, said]}) {
  const hand = state.hand.get(scheduler);
  if (!hand) return `${by} has no request in its hand`;
  const [, timer, process] = hand;
  if (other !== `m${process}`) return `process ${process} asked`;
  if (!namesTimer(state.history, timer)) return said === null ? null : `${nameOf(timer)} is out of range, so nothing is left`;
  if (!state.result.has(scheduler)) return `${by} hasn't looked at ${nameOf(timer)} since it took the request`;
  const found = state.result.get(scheduler);
  return said === found ? null : `what ${by} found left is ${plain(found)}`;
}

/** What an entry of a scheduler's turn breaks. */
function wrongTurn(state, entry) {
  const {event, by, fields: [scheduler, second]} = entry;
  if (event === "advanced") {
    const look = state.look(by) / MILLISECOND;
    if (second !== look) return `${by} looked at ${look} ms`;
    const ahead = state.ahead(scheduler);
    return ahead && ahead.deadline <= second ? `${nameOf(ahead.timer)} is due and armed` : null;
  }
  if (event === "answer") return wrongAnswer(state, entry);
  if (event === "ask") return null;
  if (state.hand.has(scheduler)) return `${by} has a request in its hand`;
  const first = state.inbox.get(scheduler)?.[0];
  return isSame(second, first) ? null : `the first request is ${plain(first)}`;
}

/** Which conditions are gone through for each event. */
const CONDITIONS = [
  [wrongClock, ["tick", "shift", "look", "off"]],
  [wrongSlot, ["arm", "probe"]],
  [wrongMail, ["mark", "take", "unwatch", "watch", "tell"]],
  [wrongTurn, ["advanced", "ask", "pick", "answer"]],
  [wrongTimer, ["peek", "cancel", "expire", "orphan", "deliver", "drop"]],
];

/** What an illegal entry broke. */
export function broken(state, entry) {
  const [wrong] = CONDITIONS.find(([, events]) => events.includes(entry.event));
  return wrongActor(state.history, entry) ?? wrong(state, entry) ?? UNKNOWN;
}

/** What the entry at a line broke, where those before it are legal. */
export function reason(history, line) {
  const state = new State(history);
  history.entries.slice(0, line - 2).forEach((entry, number) => {
    try {
      state.move(entry, number + 2);
    } catch (error) {
      if (!(error instanceof Missing)) throw error;
      throw new BadInput(`the verdict is of another history: line ${number + 2} isn't legal either`);
    }
  });
  return broken(state, history.entries[line - 2]);
}
