// Whole numbers of any size, as BigInt: what JavaScript has no operator for.

/** A quotient, rounded down. */
export function floor(a, b) {
  const quotient = a / b;
  return a % b !== 0n && a < 0n !== b < 0n ? quotient - 1n : quotient;
}

/** The size of a number without its sign. */
export const size = (it) => (it < 0n ? -it : it);

/** The lesser of two numbers. */
export const lesser = (a, b) => (b < a ? b : a);

/** The greater of two numbers. */
export const greater = (a, b) => (b > a ? b : a);

/** The order of two numbers, for `sort`. */
export const order = (a, b) => (a < b ? -1 : a > b ? 1 : 0);

/** Every number up to this one is a double. */
const EXACT = BigInt(Number.MAX_SAFE_INTEGER);
/** More bits than a double has, by enough that one more bit tells on which side of two doubles the rest lies. */
const BITS = 66;

/** The double that is nearest to a quotient. */
export function ratio(a, b) {
  const [over, under] = [size(a), size(b)];
  if (over <= EXACT && under <= EXACT) return Number(a) / Number(b);
  const shift = BigInt(Math.max(0, BITS + under.toString(2).length - over.toString(2).length));
  const quotient = (over << shift) / under;
  const rest = (over << shift) % under === 0n ? 0n : 1n;
  const near = Number((quotient << 1n) | rest) * 2 ** -(Number(shift) + 1);
  return a < 0n === b < 0n ? near : -near;
}
