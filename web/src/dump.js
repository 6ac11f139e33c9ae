// The bytes in hexadecimal, beside the rows. Private ones are veiled until they are shown.
import { Kind } from './library.js';
import { List } from './list.js';

/** The numbers of bytes in a line, and where there is little room. */
const [WIDE, NARROW] = [16, 8];
const LITTLE = matchMedia('(max-width: 40rem)');
/** About the height of a line in pixels, and up to how many lines all are made. */
const [LINE, FEW] = [18, 64];
/** What stands in the place of a private byte. */
const VEIL = '\u00b7\u00b7';

/** Returns a count with its word. */
const bytesOf = (count) => `${count} byte${count === 1 ? '' : 's'}`;

export class Dump {
  #where;
  #list;
  #table;
  #picture = null;
  #item = null;
  #end = 0;
  #bytes = null;
  #isShown = false;

  /** The bytes in a box, with a line above it that says where the selected row is. */
  constructor(where, box) {
    this.#where = where;
    this.#list = new List(box, LINE, (index) => this.#line(index), { few: FEW });
    box.addEventListener('click', (event) => this.#click(event));
    LITTLE.addEventListener('change', () => {
      if (this.#bytes) this.#list.set(this.#lines);
    });
  }

  /** Shows the bytes of an item of a picture, by a table that knows which are shown. */
  draw(picture, item, table) {
    const bytes = picture.bytes(item);
    const isOther = picture !== this.#picture || bytes !== this.#bytes;
    const isShown = table.isShown(item);
    const isTurned = !isOther && item.index === this.#item.index && isShown !== this.#isShown;
    this.#isShown = isShown;
    [this.#picture, this.#item, this.#table, this.#bytes] = [picture, item, table, bytes];
    this.#end = picture.endOf(item);
    this.#where.textContent = this.#words();
    if (isOther) this.#list.set(this.#lines);
    else this.#list.renew();
    // Where its bytes are shown or hidden, what is in sight stays.
    if (!isTurned && bytes.length && item.kind === Kind.ROW) {
      this.#list.show(Math.floor(Math.min(item.offset, bytes.length - 1) / this.#width));
    }
  }

  /** The number of bytes in a line. */
  get #width() {
    return LITTLE.matches ? NARROW : WIDE;
  }

  /** The number of lines. */
  get #lines() {
    return Math.ceil(this.#bytes.length / this.#width);
  }

  /** Shows no bytes. */
  clear() {
    [this.#picture, this.#item, this.#bytes] = [null, null, null];
    this.#where.textContent = '';
    this.#list.set(0);
  }

  /** Returns what is said of the selected row. */
  #words() {
    const { kind, offset, header, content, isPrivate } = this.#item;
    const heading = this.#picture.heading(this.#item);
    if (kind !== Kind.ROW) return heading;
    const hidden = isPrivate && !this.#table.isShown(this.#item) ? ', hidden' : '';
    const inside = this.#end - offset - header - content;
    return `${heading}${heading && '. '}Offset ${offset}: header ${bytesOf(header)}, content ` +
      `${bytesOf(content + inside)}${hidden}`;
  }

  #line(index) {
    const begin = index * this.#width;
    const line = document.createElement('div');
    line.className = 'bytes';
    const at = document.createElement('span');
    at.className = 'at';
    at.textContent = String(begin);
    line.append(at);
    const end = Math.min(begin + this.#width, this.#bytes.length);
    let row = null;
    for (let offset = begin; offset < end; offset += 1) {
      if (!row || offset >= row.end) row = this.#picture.itemAt(this.#item, offset);
      line.append(this.#byte(row, offset));
    }
    return line;
  }

  /** Returns the element of a byte, which is of a row, and a blank after it. */
  #byte(row, offset) {
    const element = document.createElement('span');
    const isVeiled = row.isPrivate && offset >= row.start && !this.#table.isShown(row);
    const { offset: begin, start, end, kind } = this.#item;
    const isIn = kind === Kind.ROW && offset >= begin && offset < this.#end;
    const part = offset < start ? 'head' : offset < end ? 'body' : 'inner';
    element.className = `${isIn ? part : ''}${isVeiled ? ' veiled' : ''}`.trim();
    element.textContent = ` ${isVeiled ? VEIL : this.#digits(offset)}`;
    element.dataset.row = String(row.index);
    return element;
  }

  #digits(offset) {
    return this.#bytes[offset].toString(16).toUpperCase().padStart(2, '0');
  }

  #click(event) {
    const { row } = event.target.dataset;
    if (row !== undefined) this.#table.select(Number(row));
  }
}
