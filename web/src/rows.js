// The rows of all bytes of an input, also where the library draws none unasked. Which contents are
// public doesn't change by it: those that the picture without them shows, or knows to be.
import { Kind, NUMBERS, drawn } from './library.js';

/** The places of a line's numbers. */
const [CONTENT, HIDDEN] = [3, 5];
/** A row: its offset, its header, the length that it says, blanks, and what follows. */
const ROW = /^ *(\d+)((?: [0-9A-F]{2})*) +(?:\d+|\?)  ( *)(.*)$/;
/** A mark. */
const MARK = /^ {5}\^/;
/** How many blanks a line of a content in hexadecimal begins with at least: no other line does. */
const BLANKS = 20;
/** The type that a row begins with: of X.680, or a tag in brackets. */
const TYPE = /^(?:\[[^\]]*\]|(?:BIT|OCTET|CHARACTER) STRING|OBJECT IDENTIFIER|EMBEDDED PDV|[\w-]+)/;
/** The name of a field, behind a value that has no two blanks but between quotes. */
const NAME = /^(?:[^"]|"(?:[^"\\]|\\.)*(?:"|$))*? {2,}([^"]*)$/;
/** From which character on after the blanks of a row the name of its field stands. */
const NAMED = 29;
/** How many lines are put into bytes at once. */
const SOME = 4096;
const [DECODER, ENCODER] = [new TextDecoder(), new TextEncoder()];

/** Whether a line that begins here has a content in hexadecimal. No text is made of it. */
function isContent(text, from) {
  for (let at = from; at < from + BLANKS; at += 1) if (text[at] !== 0x20) return false;
  return true;
}

/** Yields the lines of a text, without their ends, and without those of contents. */
function* linesOf(text) {
  for (let [from, end] = [0, 0]; from < text.length; from = end + 1) {
    end = text.indexOf(10, from);
    if (isContent(text, from)) continue;
    yield DECODER.decode(text.subarray(from, end));
  }
}

/** Returns what tells a row from others of its picture. */
const keyOf = (part, offset, header, content) => `${part} ${offset} ${header} ${content}`;

/** Returns of a picture the lines that aren't of rows, the lengths of its parts, which rows have a
 * content that is public, and the marks by the number of headings before them and the offset. */
function known(text, numbers, length) {
  const [others, lengths, open, marks] = [new Map(), [], new Set(), new Map()];
  let [line, headings, row] = [0, 0, ''];
  for (const words of linesOf(text)) {
    const of = numbers.subarray(line * NUMBERS, (line + 1) * NUMBERS);
    const [kind, offset, header, content] = of;
    const isHeading = kind === Kind.HEADING;
    headings += Number(isHeading);
    if (kind === Kind.ROW) row = `${headings} ${offset}`;
    if (kind === Kind.MARK) marks.set(row, [...(marks.get(row) ?? []), words]);
    if (kind !== Kind.ROW) others.set(words, of);
    if (isHeading || !line) lengths.push(isHeading ? content : length);
    if (kind === Kind.ROW && !of[HIDDEN]) {
      open.add(keyOf(lengths.length - 1, offset, header, content));
    }
    line += 1;
  }
  return { others, lengths, open, marks };
}

/** Yields the lines of all rows, each with the marks that it has in the picture without them. */
function* marked(text, { others, marks }) {
  let [headings, left] = [0, []];
  for (const words of linesOf(text)) {
    if (MARK.test(words)) {
      left = left.filter((it) => it !== words);
    } else {
      yield* left;
      const row = ROW.exec(words);
      headings += Number(others.get(words)?.[0] === Kind.HEADING);
      left = row ? marks.get(`${headings} ${row[1]}`) ?? [] : [];
    }
    yield words;
  }
  yield* left;
}

/** Returns the length that a header says, which is infinite if it is indefinite. */
function announced(bytes) {
  let at = 1;
  if (bytes[0] % 32 === 31) {
    while (bytes[at] >= 128) at += 1;
    at += 1;
  }
  if (bytes[at] < 128) return bytes[at];
  if (bytes[at] === 128) return Infinity;
  return bytes.slice(at + 1).reduce((sum, byte) => sum * 256 + byte, 0);
}

/** Returns the words of a row without the value of its content, which has so many bytes. */
function withoutValue(words, content) {
  const [type] = TYPE.exec(words) ?? [''];
  const rest = words.slice(type.length);
  if (!type || !rest || /^(?:,| {2})/.test(rest)) return words;
  const count = type === 'BIT STRING' ? content - 1 : content;
  const front = `${type}, ${count} byte${count === 1 ? '' : 's'}`;
  const name = NAME.exec(rest)?.[1] ?? '';
  return name ? `${front.padEnd(NAMED - 1)} ${name}` : front;
}

/** The numbers of the lines of a picture with all contents. */
class Lines {
  #known;
  #numbers;
  #count = 0;
  #part = 0;
  #row = null;
  #ends = [];

  constructor(found, most) {
    this.#known = found;
    this.#numbers = new Uint32Array(most * NUMBERS);
  }

  /** Takes a line. */
  take(words) {
    const row = ROW.exec(words);
    if (row) this.#takeRow(Number(row[1]), row[2].trim());
    else this.#takeOther(words);
    this.#count += 1;
  }

  /** Returns the numbers of all lines. */
  get all() {
    this.#end();
    return this.#numbers.slice(0, this.#count * NUMBERS);
  }

  #takeRow(offset, digits) {
    const bytes = digits ? digits.split(' ').map((it) => parseInt(it, 16)) : [];
    this.#end(offset);
    // A damaged element may be longer than the one that it is inside of.
    const ended = this.#ends.findIndex((it) => it <= offset);
    if (ended >= 0) this.#ends.length = ended;
    // The end of the innermost content of indefinite length stands as deep as its element.
    const isEnd = bytes.length === 2 && !bytes[0] && !bytes[1] && this.#ends.includes(Infinity);
    if (isEnd) this.#ends.length = this.#ends.lastIndexOf(Infinity);
    this.#numbers.set([Kind.ROW, offset, bytes.length, 0, this.#ends.length, 0],
      this.#count * NUMBERS);
    if (bytes.length && !isEnd) this.#ends.push(offset + bytes.length + announced(bytes));
    this.#row = { line: this.#count, start: offset + bytes.length };
  }

  #takeOther(words) {
    const found = this.#known.others.get(words);
    const kind = found?.[0] ?? (MARK.test(words) ? Kind.MARK
      : words.startsWith('  ') ? Kind.COMMAND : Kind.WORDS);
    if (kind === Kind.HEADING) {
      this.#end();
      this.#part += Number(this.#count > 0);
      this.#ends = [];
      this.#numbers.set(found, this.#count * NUMBERS);
    } else {
      this.#numbers[this.#count * NUMBERS] = kind;
    }
  }

  /** Says that the content of the last row ends here, by default with its part. */
  #end(end = this.#known.lengths[this.#part]) {
    if (!this.#row) return;
    const from = this.#row.line * NUMBERS;
    const [, offset, header] = this.#numbers.subarray(from, from + CONTENT);
    const content = end - this.#row.start;
    const isOpen = this.#known.open.has(keyOf(this.#part, offset, header, content));
    this.#numbers[from + CONTENT] = content;
    this.#numbers[from + HIDDEN] = Number(content > 0 && !isOpen);
    this.#row = null;
  }
}

/** Returns the bytes of lines, of whose rows no hidden content has a value. */
function textOf(lines, numbers) {
  const [chunks, some] = [[], []];
  let [line, length] = [0, 0];
  const put = () => {
    chunks.push(ENCODER.encode(some.join('')));
    length += chunks.at(-1).length;
    some.length = 0;
  };
  for (const words of lines) {
    const of = numbers.subarray(line * NUMBERS, (line + 1) * NUMBERS);
    const rest = of[HIDDEN] ? ROW.exec(words)[4] : '';
    const front = words.slice(0, words.length - rest.length);
    some.push(`${front}${rest && withoutValue(rest, of[CONTENT])}\n`);
    if (some.length === SOME) put();
    line += 1;
  }
  put();
  const text = new Uint8Array(length);
  let at = 0;
  for (const chunk of chunks) {
    text.set(chunk, at);
    at += chunk.length;
  }
  return text;
}

/** Returns the text and the numbers of the picture with all rows of an input, of which the one
 * without them is known. No content is in the text but those that are in the other one too. */
export function allRows(input, text, numbers) {
  const [status, all] = drawn(input, 1);
  if (status) throw new Error(`the library broke its contract: ${status}`);
  const before = known(text, numbers, input.length);
  let most = 0;
  for (const it of before.marks.values()) most += it.length;
  for (let at = all.indexOf(10); at >= 0; at = all.indexOf(10, at + 1)) most += 1;
  const lines = new Lines(before, most);
  for (const words of marked(all, before)) lines.take(words);
  const found = { numbers: lines.all };
  found.text = textOf(marked(all, before), found.numbers);
  all.fill(0);
  return found;
}
