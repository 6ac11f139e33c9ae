// Which rows are in the table: all but those inside of a row that is folded.

export class Folds {
  #picture;
  #folded = new Set();
  /** Where rows are left out: from which to which item, and how many before. */
  #gaps = [];

  constructor(picture) {
    this.#picture = picture;
  }

  /** The number of rows in the table. */
  get count() {
    return this.#picture.count - this.#upTo(this.#gaps.length);
  }

  /** Whether an item is folded. */
  isFolded(index) {
    return this.#folded.has(index);
  }

  /** Folds an item, or unfolds it. */
  turn(index) {
    if (!this.#folded.delete(index)) this.#folded.add(index);
    this.#renew();
  }

  /** Unfolds what an item is inside of, and returns whether it was out of the table. */
  reveal(index) {
    const isIn = this.item(this.place(index)) === index;
    if (isIn) return false;
    for (const it of this.#folded) {
      if (it < index && index < this.#picture.after(it)) this.#folded.delete(it);
    }
    this.#renew();
    return true;
  }

  /** Returns the item at a place of the table. */
  item(place) {
    const at = this.#last((gap) => gap.from - gap.before <= place);
    return place + this.#upTo(at + 1);
  }

  /** Returns the place of an item, or of the folded one that it is inside of. */
  place(index) {
    const at = this.#last((gap) => gap.from <= index);
    const gap = this.#gaps[at];
    if (gap && index < gap.to) return gap.from - 1 - gap.before;
    return index - this.#upTo(at + 1);
  }

  /** Returns how many items so many gaps leave out. */
  #upTo(count) {
    const gap = this.#gaps[count - 1];
    return gap ? gap.before + gap.to - gap.from : 0;
  }

  /** Returns the last gap for which this holds, if it holds for each before it, or -1. */
  #last(holds) {
    let [low, high] = [-1, this.#gaps.length];
    while (high - low > 1) {
      const middle = (low + high) >> 1;
      if (holds(this.#gaps[middle])) low = middle;
      else high = middle;
    }
    return low;
  }

  #renew() {
    this.#gaps = [];
    let [end, before] = [0, 0];
    for (const index of [...this.#folded].sort((one, other) => one - other)) {
      const to = this.#picture.after(index);
      if (index >= end) {
        this.#gaps.push({ from: index + 1, to, before });
        before += to - index - 1;
        end = to;
      }
    }
  }
}
