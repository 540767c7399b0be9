// How the three clocks go from one reading to the next.
//
// Only the readings are known. Between two of them the OS system clock is taken to run evenly where it gained or lost at
// most a fiftieth of the time that passed, and else to leap at the later one. Erlang monotonic time follows: on its line
// with time correction; without it, standing still until OS system time has come up with it.

import {floor, size} from "./whole.mjs";

const DRIFT = 50n;
const RATES = [-1_000_000n, -10_000n, -500n, 500n, 10_000n];

/** What the clocks show once a reading was taken: OS monotonic and system time, Erlang system and monotonic time. */
export function vertex({mono, sys, now, offset}) {
  return [mono, sys, now + offset, now];
}

/** The clocks from one reading to just before the next is taken. */
function stretch(a, b, correction) {
  const [passed, gained, rise] = [b.mono - a.mono, b.sys - a.sys, b.now - a.now];
  const drifts = size(gained - passed) * DRIFT <= passed;
  const sys = drifts ? b.sys : a.sys + passed;
  const now = correction || drifts || rise <= passed ? b.now : a.now + passed;
  const made = [vertex(a)];
  const behind = a.now + a.offset - a.sys;
  if (!correction && drifts && 0n < behind && behind < gained && rise > 0n) {
    made.push([a.mono + (behind * passed) / gained, a.now + a.offset, a.now + a.offset, a.now]);
  }
  made.push([b.mono, sys, now + a.offset, now]);
  return made;
}

/** The clocks over all stretches between readings. */
export function course({readings, settings}) {
  return readings.slice(1).map((it, number) => stretch(readings[number], it, settings.correction));
}

/**
 * How much faster than OS monotonic time Erlang monotonic time goes, in parts per million; 0 where it is none of the rates
 * that have a name.
 */
export function rateOf([start, end]) {
  const [passed, rise] = [end[0] - start[0], end[3] - start[3]];
  const isNear = (rate) => size(rise - passed - floor(passed * rate, 1_000_000n)) <= 2n + passed / 10n ** 8n;
  return (passed >= 1000n && RATES.find(isNear)) || 0n;
}

/** Where in a stretch Erlang monotonic time comes to a time; null where it only leaps past it at the end. */
export function monoAt(vertices, time) {
  for (let number = 1; number < vertices.length; number++) {
    const [start, end] = [vertices[number - 1], vertices[number]];
    if (start[3] <= time && time <= end[3]) {
      if (end[3] === start[3]) return start[0];
      return start[0] + ((time - start[3]) * (end[0] - start[0])) / (end[3] - start[3]);
    }
  }
  return null;
}
