// What is said of bad input, and the lines and numbers of a text.

/** The least and the greatest number of 64 bits with sign. */
export const LEAST = -(2n ** 63n);
export const GREATEST = 2n ** 63n - 1n;

/** The input is none of which a picture can be made; the message says why, in one line. */
export class BadInput extends Error {}

/** The lines of a text, each of which ends with a newline. */
export function linesOf(text, name) {
  if (!text.endsWith("\n")) throw new BadInput(`${name}: empty, or its last line doesn't end`);
  return text.slice(0, -1).split("\n");
}

/** The number that a word spells in decimal, of 20 digits at most, with no leading zero and no `-0`; else null. */
export function number(word) {
  return /^(?:0|-?[1-9]\d{0,19})$/.test(word) ? BigInt(word) : null;
}
