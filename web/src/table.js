// The table of rows, which is walked by keys.
import { Folds } from './folds.js';
import { Kind } from './library.js';
import { List } from './list.js';

/** About the height of a row in pixels. */
const ROW = 25;

/** Returns a new element of a class, with a text. */
function made(name, className, text = '') {
  const element = document.createElement(name);
  element.className = className;
  element.textContent = text;
  return element;
}

export class Table {
  #box;
  #body;
  #list;
  #picture = null;
  #folds = null;
  #current = 0;
  #shown = new Set();
  #onChange;

  /** A table in this element. The function is called with each item that is selected or shown. */
  constructor(box, list, onChange) {
    this.#box = box;
    this.#onChange = onChange;
    this.#body = list;
    this.#list = new List(list, ROW, (place) => this.#row(this.#folds.item(place)), {
      drawn: () => this.#drawn(),
    });
    list.addEventListener('click', (event) => this.#click(event));
    list.addEventListener('keydown', (event) => this.#key(event));
  }

  /** Shows the rows of a picture where none are, and selects the first. */
  draw(picture) {
    this.#picture = picture;
    this.#folds = new Folds(picture);
    this.#current = 0;
    this.#box.setAttribute('aria-rowcount', String(picture.count + 1));
    this.#list.set(picture.count);
    if (picture.count) this.select(this.#first(0), false);
  }

  /** Shows no rows. */
  clear() {
    [this.#picture, this.#folds] = [null, null];
    this.#shown.clear();
    this.#list.set(0);
  }

  /** The index of the selected item. */
  get current() {
    return this.#current;
  }

  /** Puts the focus on the selected row. */
  focus() {
    this.select(this.#current);
  }

  /** Selects an item, and brings it in sight. */
  select(index, focus = true) {
    const last = this.#current;
    this.#current = index;
    if (this.#folds.reveal(index)) this.#list.set(this.#folds.count, true);
    for (const it of [last, index]) {
      const element = this.#element(it);
      if (element) this.#tell(element, it);
    }
    const element = this.#list.show(this.#folds.place(index));
    this.#tell(element, index);
    if (focus) {
      element.focus({ preventScroll: true });
      element.scrollIntoView({ block: 'nearest' });
    }
    this.#onChange(this.#picture.item(index));
  }

  /** Whether an item's private bytes are shown. */
  isShown(item) {
    return this.#shown.has(item.index);
  }

  /** Returns the element of an item, if it is made. */
  #element(index) {
    const place = this.#folds.place(index);
    return this.#folds.item(place) === index ? this.#list.element(place) : undefined;
  }

  /** Keeps keys going to the table where the selected row is out of sight. */
  #drawn() {
    const element = this.#picture && this.#element(this.#current);
    this.#body.tabIndex = element || !this.#picture ? -1 : 0;
    if (element && document.activeElement === this.#body) element.focus({ preventScroll: true });
  }

  /** Says of a row's element whether it is selected. */
  #tell(element, index) {
    const isCurrent = index === this.#current;
    element.setAttribute('aria-selected', String(isCurrent));
    element.tabIndex = isCurrent ? 0 : -1;
    const button = element.querySelector('button');
    if (button) button.tabIndex = isCurrent ? 0 : -1;
  }

  #row(index) {
    const item = this.#picture.item(index);
    const columns = this.#picture.columns(item, this.isShown(item));
    const row = made('div', 'row');
    row.setAttribute('role', 'row');
    row.setAttribute('aria-rowindex', String(index + 2));
    row.dataset.index = String(index);
    if (item.kind === Kind.HEADING) {
      row.classList.add('heading');
      row.append(made('span', 'title', columns[0]));
    } else {
      row.setAttribute('aria-level', String(item.depth + 1));
      const classes = ['number', 'header', 'number', 'element', 'field'];
      row.append(...columns.map((text, at) => made('span', classes[at], text)));
      const element = row.querySelector('.element');
      element.style.setProperty('--depth', String(Math.min(item.depth, 16)));
      if (item.hasInside) {
        row.setAttribute('aria-expanded', String(!this.#folds.isFolded(index)));
        element.prepend(made('span', 'fold'));
      }
      if (item.isPrivate) row.lastElementChild.append(this.#button(item));
      row.append(...this.#picture.marks(item).map((text) => made('span', 'mark', text)));
    }
    for (const cell of row.children) cell.setAttribute('role', 'gridcell');
    this.#tell(row, index);
    return row;
  }

  /** Returns the button that shows an item's private bytes, or hides them. */
  #button(item) {
    const button = made('button', '', this.isShown(item) ? 'hide' : 'show');
    button.type = 'button';
    button.setAttribute('aria-label', `${button.textContent} the private bytes`);
    return button;
  }

  /** Shows the private bytes of an item, or hides them. */
  #turn(index) {
    const item = this.#picture.item(index);
    if (!item.isPrivate) return;
    if (!this.#shown.delete(index)) this.#shown.add(index);
    const element = this.#element(index);
    const button = element.querySelector('button');
    const hasFocus = document.activeElement === button;
    const renewed = this.#button(item);
    const field = this.#picture.columns(item, this.isShown(item)).at(-1);
    button.parentElement.replaceChildren(field, renewed);
    if (hasFocus) renewed.focus();
    this.select(index, !hasFocus);
  }

  /** Folds what is inside an item, or unfolds it. */
  #fold(index) {
    if (!this.#picture.item(index).hasInside) return;
    this.#folds.turn(index);
    this.#list.set(this.#folds.count, true);
    this.select(index);
  }

  #click(event) {
    const row = event.target.closest('.row');
    if (!row) return;
    const index = Number(row.dataset.index);
    if (event.target.closest('button')) this.#turn(index);
    else if (event.target.closest('.fold')) this.#fold(index);
    else this.select(index);
  }

  #key(event) {
    if (event.ctrlKey || event.altKey || event.metaKey) return;
    const last = this.#folds.count - 1;
    const at = this.#folds.place(this.#current);
    const moves = {
      ArrowDown: () => at + 1,
      ArrowUp: () => at - 1,
      PageDown: () => at + this.#list.page,
      PageUp: () => at - this.#list.page,
      Home: () => 0,
      End: () => last,
    };
    const acts = {
      ArrowLeft: () => this.#leave(this.#current),
      ArrowRight: () => this.#enter(this.#current),
      Enter: () => this.#turn(this.#current),
      ' ': () => this.#turn(this.#current),
    };
    if (Object.hasOwn(moves, event.key)) {
      event.preventDefault();
      const place = Math.min(Math.max(moves[event.key](), 0), last);
      this.select(this.#folds.item(place));
    } else if (Object.hasOwn(acts, event.key)) {
      event.preventDefault();
      acts[event.key]();
    }
  }

  /** Folds an item, or goes to the one that it is inside of. */
  #leave(index) {
    const item = this.#picture.item(index);
    if (item.hasInside && !this.#folds.isFolded(index)) this.#fold(index);
    else this.select(this.#picture.outside(item));
  }

  /** Unfolds an item, or goes to the first that is inside of it. */
  #enter(index) {
    if (this.#folds.isFolded(index)) this.#fold(index);
    else this.select(this.#picture.item(index).hasInside ? index + 1 : index);
  }

  /** Returns the index of the first row from here on. */
  #first(index) {
    let at = index;
    while (at + 1 < this.#picture.count && this.#picture.item(at).kind !== Kind.ROW) at += 1;
    return at;
  }
}
