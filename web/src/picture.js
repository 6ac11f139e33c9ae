// What the library says of an input: the lines of its picture, what each is of, and the bytes.
import { Kind, NUMBERS } from './library.js';
import { hexOf, lettered, numberOf, stringOf } from './letters.js';

/** The places of a line's numbers. */
const [KIND, OFFSET, DEPTH] = [0, 1, 4];
const CODE = new TextDecoder();
/** What is said of a private field. */
const NOT_SHOWN = ', not shown';
/** The end of a line that was too long. */
const CUT = '...';
/** Up to how many bytes a public text stands in its line, and whole in its row. */
const [SAID, WHOLE] = [255, 4096];
/** The type of a string that is cut off in its line, and of one that isn't in it. */
const [PART_SAID, UNSAID] = [/^[^"]*(?= ".*\.\.\.$)/, /^\w+String(?=, )/];

/** Returns the last index below a count for which this holds, if it holds for each before it. */
function lastOf(count, holds) {
  let [low, high] = [0, count];
  while (high - low > 1) {
    const middle = (low + high) >> 1;
    if (holds(middle)) low = middle;
    else high = middle;
  }
  return low;
}

/** Where a quoted text ends in a line, or 0: a value may have two blanks in it. */
function quotedTo(words) {
  const quoted = /^[^"]*"(?:[^"\\]|\\.)*("|$)/.exec(words);
  return quoted ? quoted[0].length : 0;
}

/** Returns the columns of a row's line, whose header has so many bytes. */
function columnsOf(line, header) {
  const [, offset, digits, length, , words] =
    new RegExp(`^ *(\\d+)((?: [0-9A-F]{2}){${header}}) +(\\d+|\\?)  ( *)(.*)$`).exec(line);
  const from = quotedTo(words);
  const gap = words.slice(from).search(/ {2}/);
  const end = gap < 0 ? words.length : from + gap;
  return [offset, digits.trim(), length, words.slice(0, end), words.slice(end).trim()];
}

/** A picture. What is walked through are its items: its rows, and the headings before parts. */
export class Picture {
  #found;
  #parts;

  /** The picture that the worker has found. */
  constructor(found) {
    this.#found = found;
    this.#parts = found.parts.map(({ begin, size, ...part }) => (
      { ...part, bytes: found.bytes.subarray(begin, begin + size) }));
  }

  /** The number of items. */
  get count() {
    return this.#found.items.length;
  }

  /** The number of bytes of its text. */
  get length() {
    return this.#found.text.length;
  }

  /** All lines: without private contents, as the program prints them. */
  get text() {
    return CODE.decode(this.#found.text);
  }

  /** The input that it is of. */
  get input() {
    return this.#found.input;
  }

  /** How many bytes aren't drawn, which may have rows. */
  get undrawn() {
    return this.#found.undrawn;
  }

  /** What is said of each part: the lines that aren't rows or marks, by kind. */
  get said() {
    const lines = [];
    // Rows and their marks are jumped over, part by part.
    for (let part = 0; part < this.#parts.length; part += 1) {
      const last = this.#parts[part + 1]?.line ?? this.#found.starts.length - 1;
      const item = this.#after(part) - 1;
      const first = this.#parts[part].line;
      if (this.#kind(first) === Kind.HEADING) lines.push(first);
      const from = item >= this.#parts[part].first ? this.#found.items[item] : first;
      for (let line = from; line < last; line += 1) lines.push(line);
    }
    const isSaid = (line) => ![Kind.ROW, Kind.MARK].includes(this.#kind(line));
    return [...new Set(lines)].filter(isSaid)
      .map((line) => ({ kind: this.#kind(line), line: this.#line(line) }));
  }

  /** Returns an item. */
  item(index) {
    const from = this.#found.items[index] * NUMBERS;
    const [kind, offset, header, content, depth, isHidden] =
      this.#found.numbers.subarray(from, from + NUMBERS);
    return {
      index, kind, offset, header, content, depth,
      part: lastOf(this.#parts.length, (it) => this.#parts[it].first <= index),
      isPrivate: isHidden === 1,
      hasInside: this.#found.afters[index] > index + 1,
      start: offset + header,
      end: offset + header + content,
    };
  }

  /** Returns the texts of an item's columns; of a heading its line alone. */
  columns(item, isShown = false) {
    const line = this.#line(this.#found.items[item.index]);
    if (item.kind !== Kind.ROW) return [line];
    const columns = columnsOf(line, item.header);
    columns[3] = this.#words(item, columns[3]);
    if (isShown) columns[4] = columns[4].replace(NOT_SHOWN, '');
    return columns;
  }

  /** Returns the marks below an item. */
  marks(item) {
    const marks = [];
    let line = this.#found.items[item.index] + 1;
    while (this.#kind(line) === Kind.MARK) {
      marks.push(this.#line(line).trim());
      line += 1;
    }
    return marks;
  }

  /** Returns the bytes that an item's part is of. */
  bytes(item) {
    return this.#parts[item.part].bytes;
  }

  /** Returns the bytes of an item's own content. */
  content(item) {
    return this.bytes(item).subarray(item.start, item.end);
  }

  /** Returns what an item's content says, and of a long number its decimal form too. It has to be
   * one that is shown. */
  value(item) {
    if (item.kind !== Kind.ROW || item.content === 0) return null;
    const [content, tag] = [this.content(item), this.bytes(item)[item.offset]];
    if (item.header && (tag === 2 || tag === 10)) {
      const { hex, decimal } = numberOf(content);
      const isLong = content.length > 8 && hex;
      return isLong ? { text: hex, more: decimal } : { text: decimal || hex, more: '' };
    }
    const string = item.header ? stringOf(tag, content) : null;
    if (string !== null) return { text: string, more: '' };
    const words = this.columns(item)[3];
    const value = /^(?:OBJECT IDENTIFIER|BOOLEAN|UTCTime|GeneralizedTime) ([^"]+)$/.exec(words) ??
      /"(.*)"$/.exec(words);
    if (value && !words.endsWith(CUT)) return { text: value[1], more: '' };
    return { text: hexOf(content, ':'), more: '' };
  }

  /** Returns the heading of an item's part, or a text without characters. */
  heading(item) {
    const { line } = this.#parts[item.part];
    return this.#kind(line) === Kind.HEADING ? this.#line(line) : '';
  }

  /** Returns the item of the same part as this one in which the byte at an offset is. */
  itemAt(near, offset) {
    const begins = this.#rowsOf(near.part);
    const count = this.#after(near.part) - begins;
    return this.item(begins + lastOf(count, (it) => this.#offset(begins + it) <= offset));
  }

  /** Returns the index of the first item after an item and all that is inside it. */
  after(index) {
    return this.#found.afters[index];
  }

  /** Returns where an item ends, with all that is inside it. */
  endOf(item) {
    return this.item(this.after(item.index) - 1).end;
  }

  /** Returns the index of the item that this one is inside, or of itself. */
  outside(item) {
    let { index } = item;
    while (index > this.#rowsOf(item.part) && this.#depth(index) >= item.depth) index -= 1;
    return this.#depth(index) < item.depth ? index : item.index;
  }

  /** Returns the lines of some items, and of all between them, as one text. */
  lines(first, last) {
    const { items, starts, text } = this.#found;
    const end = last < this.count ? items[last] : starts.length - 1;
    return lettered(CODE.decode(text.subarray(starts[items[first]], starts[end])));
  }

  /** What it was made of. */
  get found() {
    return this.#found;
  }

  /** Returns the words of a row's element: with letters, and a public text whole. */
  #words(item, words) {
    const [type] = (item.content > SAID ? UNSAID : PART_SAID).exec(words) ?? [''];
    if (!type || item.isPrivate || item.content > WHOLE) return lettered(words);
    const tag = this.bytes(item)[item.offset];
    const string = stringOf(tag >= 128 ? 22 : tag, this.content(item));
    return string === null ? lettered(words) : `${type} "${string}"`;
  }

  /** The index of the first row of a part. */
  #rowsOf(part) {
    const { first } = this.#parts[part];
    return this.#kind(this.#found.items[first]) === Kind.ROW ? first : first + 1;
  }

  /** The index of the first item after a part. */
  #after(part) {
    return this.#parts[part + 1]?.first ?? this.count;
  }

  #offset(index) {
    return this.#number(this.#found.items[index], OFFSET);
  }

  #depth(index) {
    return this.#number(this.#found.items[index], DEPTH);
  }

  #kind(line) {
    return this.#number(line, KIND);
  }

  #number(line, which) {
    return this.#found.numbers[line * NUMBERS + which];
  }

  #line(line) {
    const { text, starts } = this.#found;
    return CODE.decode(text.subarray(starts[line], starts[line + 1] - 1));
  }
}
