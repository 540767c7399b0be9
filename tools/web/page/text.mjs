// Lines and columns of a text, and the differences between two texts.

const bytes = new TextEncoder();

/** The lines of a text, by number from 0. */
export class Lines {
  constructor(text) {
    this.text = text;
    this.starts = [0];
    for (let at = text.indexOf("\n"); at >= 0; at = text.indexOf("\n", at + 1)) this.starts.push(at + 1);
  }

  /** How many there are; the last one is what stands behind the last newline. */
  get count() {
    return this.starts.length;
  }

  /** The number of the line in which an offset stands. */
  at(offset) {
    return last(this.starts, offset);
  }

  /** Where a line begins. */
  start(line) {
    return this.starts[line];
  }

  /** Where a line ends, in front of its newline. */
  end(line) {
    return line + 1 < this.count ? this.starts[line + 1] - 1 : this.text.length;
  }

  /** A line without its newline. */
  line(line) {
    return this.text.slice(this.start(line), this.end(line));
  }

  /** The offset of a line and a column as the programs count them: from 1, the column in bytes. */
  offset(line, column) {
    const number = Math.min(line, this.count) - 1;
    return this.start(number) + (column === null ? 0 : ofBytes(this.line(number), column - 1));
  }
}

/** The number of the last item that is at most a value; -1 where none is. */
export function last(items, value, of = (item) => item) {
  let [low, high] = [0, items.length];
  while (low < high) {
    const middle = (low + high) >> 1;
    if (of(items[middle]) <= value) low = middle + 1;
    else high = middle;
  }
  return low - 1;
}

/** How many UTF-16 units of a line take so many bytes of UTF-8. */
function ofBytes(line, count) {
  let units = 0;
  for (const character of line) {
    count -= bytes.encode(character).length;
    if (count < 0) break;
    units += character.length;
  }
  return units;
}

/** How many bytes a text has. */
export function size(text) {
  return bytes.encode(text).length;
}

/** The least stretch of a text to replace so that it becomes another: its start, its end, and what comes there. */
export function change(before, after) {
  const most = Math.min(before.length, after.length);
  let start = 0;
  while (start < most && before[start] === after[start]) start++;
  let tail = 0;
  while (tail < most - start && before[before.length - 1 - tail] === after[after.length - 1 - tail]) tail++;
  return {start, end: before.length - tail, text: after.slice(start, after.length - tail)};
}
