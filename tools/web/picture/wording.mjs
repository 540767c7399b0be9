// An op and what came of it, in a few words.

import {READINGS} from "./scenario.mjs";
import {seconds, span} from "./svg.mjs";

const NAMED = [
  "start", "send_after", "cancel", "read", "cancel_async", "read_async", "cancel_quiet",
  "exit", "alive", "monitor", "demonitor", "notify",
];

/** A tick, a check or a finalization. */
function reading(name, words) {
  const [first, second] = words;
  if (first === "offset_wide") return `${name}: offset too wide`;
  if (first === "final") return `${name}: already final`;
  if (first === "volatile") return `${name}: volatile`;
  return `${name} ${span(BigInt(first === "preliminary" ? second : first))}`;
}

/** What a turn did, without what it didn't. */
function turn([served, , expired, put, dropped]) {
  const told = [];
  if (served !== "0") told.push(`${served} served`);
  if (expired !== "0" && expired !== put) told.push(`${expired} expired`);
  if (put !== "0") told.push(`${put} delivered`);
  if (dropped !== "0") told.push(`${dropped} dropped`);
  return told.join(", ") || "nothing";
}

/** What was taken from a mailbox. */
function received(words) {
  return words[0] === "change" ? `receive change ${words[1]} ${seconds(BigInt(words[2]))}` : `receive ${words.join(" ")}`;
}

/** What a part of a turn did, or a turn. */
function part(name, words) {
  const [first, second] = words;
  if (name === "turn") return turn(words);
  if (name === "serve") return `${first} request${first === "0" ? "s" : ""}`;
  if (name === "advance") return `${second} expired`;
  return first + (second === "0" ? "" : `, ${second} dropped`);
}

/** An op of a run and what came of it. */
export function short(run, op, line) {
  const name = op[0];
  const words = line.split(" ").slice(1);
  if (READINGS.includes(name)) return reading(name, words);
  if (name === "time") return `time ${span(BigInt(words[0]))}`;
  if (name === "system" || name === "offset") return `${name} ${seconds(BigInt(words[0]))}`;
  if (NAMED.includes(name)) return `${name} ${op[1]}${words.join(" ") === "ok" ? "" : `: ${words[0]}`}`;
  if (name === "receive") return received(words);
  if (name === "info" || name === "convert") return name;
  return `${run.settings.schedulers > 1 ? `${name} ${op[1]}` : name}: ${part(name, words)}`;
}
