// A list of many items, of which those are made that are in sight.

/** The number of items up to which all are made. */
const FEW = 400;
/** The greatest height in pixels that engines lay out without error, and some below it. */
const HIGHEST = 8_000_000;

export class List {
  #box;
  #make;
  #height;
  #few;
  #drawn;
  #count = 0;
  #made = new Map();
  #items = document.createElement('div');
  #room = document.createElement('div');

  /** A list in this box, whose items are about so many pixels high, and are made by this function.
   * The other is called when some were made or taken away. */
  constructor(box, height, make, { few = FEW, drawn = () => {} } = {}) {
    this.#box = box;
    this.#make = make;
    this.#height = height;
    this.#few = few;
    this.#drawn = drawn;
    this.#items.className = 'items';
    this.#room.className = 'room';
    box.addEventListener('scroll', () => this.#draw());
    new ResizeObserver(() => this.#draw()).observe(box);
  }

  /** Shows so many items, from the first on or from where it was scrolled to. */
  set(count, isKept = false) {
    const { scrollTop } = this.#box;
    this.#count = count;
    this.#made.clear();
    this.#items.replaceChildren();
    this.#box.classList.toggle('many', this.#isMany);
    if (this.#isMany) {
      const sight = document.createElement('div');
      sight.className = 'sight';
      sight.append(this.#items);
      this.#room.style.height = `${Math.min(count * this.#height, HIGHEST)}px`;
      this.#box.replaceChildren(sight, this.#room);
      this.#box.scrollTop = isKept ? scrollTop : 0;
    } else {
      this.#box.replaceChildren(this.#items);
    }
    this.#draw();
  }

  /** Makes what is in sight anew. */
  renew() {
    this.#made.clear();
    this.#items.replaceChildren();
    this.#draw();
  }

  /** Scrolls the box until an item is in sight, and returns its element. */
  show(index) {
    if (this.#isMany && !this.#made.has(index)) {
      this.#box.scrollTop = ((index + 0.5) / this.#count) * this.#most;
      this.#draw();
    }
    const [box, item] = [this.#box, this.#made.get(index)].map((it) => it.getBoundingClientRect());
    const over = Math.min(item.top - box.top, 0) || Math.max(item.bottom - box.bottom, 0);
    if (over) {
      const inside = this.#count * item.height - box.height;
      const share = this.#isMany ? Math.min(this.#most / inside, 1) : 1;
      this.#box.scrollTop += over * share + Math.sign(over);
      this.#draw();
    }
    return this.#made.get(index);
  }

  /** Returns the element of an item, if it is made. */
  element(index) {
    return this.#made.get(index);
  }

  /** How many items are in sight. */
  get page() {
    return Math.max(1, Math.floor(this.#box.clientHeight / this.#height) - 1);
  }

  get #isMany() {
    return this.#count > this.#few;
  }

  /** The greatest number of pixels that the box can be scrolled by. */
  get #most() {
    return Math.max(1, this.#box.scrollHeight - this.#box.clientHeight);
  }

  #draw() {
    if (this.#isMany) this.#drawAround();
    else this.#fill(0, this.#count);
    this.#drawn();
  }

  /** Makes the items in sight. What is scrolled of all items is scrolled of the box: the item at
   * this share of the list stands at the same share of the box. */
  #drawAround() {
    const share = Math.min(this.#box.scrollTop / this.#most, 1);
    const at = share * this.#count;
    const index = Math.min(Math.floor(at), this.#count - 1);
    const around = Math.ceil(this.#box.clientHeight / this.#height) + 4;
    this.#fill(Math.max(0, index - around), Math.min(this.#count, index + around + 1));
    const { offsetTop, offsetHeight } = this.#made.get(index);
    const top = share * this.#box.clientHeight - offsetTop - (at - index) * offsetHeight;
    this.#items.style.top = `${Math.round(top)}px`;
  }

  /** Makes these items, and takes the others away. */
  #fill(first, last) {
    for (const [index, element] of this.#made) {
      if (index < first || index >= last) {
        // Where the focus is on what goes, keys go on to the box.
        if (element.contains(document.activeElement)) this.#box.focus({ preventScroll: true });
        element.remove();
        this.#made.delete(index);
      }
    }
    let before = null;
    for (let index = last - 1; index >= first; index -= 1) {
      let element = this.#made.get(index);
      if (!element) {
        element = this.#make(index);
        this.#made.set(index, element);
        this.#items.insertBefore(element, before);
      }
      before = element;
    }
  }
}
