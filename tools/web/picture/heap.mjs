// A queue of which the least item comes first: a binary heap in an array.

export class Heap {
  /** `isBefore` tells whether an item comes before another one. */
  constructor(isBefore) {
    this.isBefore = isBefore;
    this.items = [];
  }

  /** The least item; undefined where there is none. */
  get first() {
    return this.items[0];
  }

  /** Puts an item in. */
  push(item) {
    const {items, isBefore} = this;
    let at = items.push(item) - 1;
    for (let above = (at - 1) >> 1; at > 0 && isBefore(item, items[above]); above = (at - 1) >> 1) {
      items[at] = items[above];
      at = above;
    }
    items[at] = item;
  }

  /** Takes the least item out. */
  pop() {
    const {items} = this;
    const [least, moved] = [items[0], items.pop()];
    if (items.length) this.sink(moved);
    return least;
  }

  /** Puts an item in the place of the first one, and lets it sink. */
  sink(item) {
    const {items, isBefore} = this;
    let at = 0;
    for (;;) {
      let below = 2 * at + 1;
      if (below + 1 < items.length && isBefore(items[below + 1], items[below])) below++;
      if (below >= items.length || !isBefore(items[below], item)) break;
      items[at] = items[below];
      at = below;
    }
    items[at] = item;
  }
}
