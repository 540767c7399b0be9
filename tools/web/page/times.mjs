// Times as they are written: nanoseconds as BigInt, and seconds with decimals.

const SECOND = 1_000_000_000n;

/** A time in seconds. */
export function seconds(time) {
  const size = time < 0n ? -time : time;
  const part = `${size % SECOND}`.padStart(9, "0").replace(/0+$/, "");
  return `${time < 0n ? "-" : ""}${size / SECOND}${part ? `.${part}` : ""}`;
}

/** The nanoseconds of a number of seconds; none where it isn't one. */
export function nanoseconds(text) {
  const found = /^\s*([-+\u2212]?)(\d{1,10})(?:\.(\d{1,9}))?\s*$/.exec(text);
  if (!found) return null;
  const size = BigInt(found[2]) * SECOND + BigInt((found[3] ?? "").padEnd(9, "0"));
  return found[1] && found[1] !== "+" ? -size : size;
}

/** A text in which powers of two don't break. */
export function fixed(text) {
  return text.replaceAll(" - ", "\u00a0-\u00a0");
}
