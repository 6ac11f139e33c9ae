// Looks for rows: by a text, a name, an identifier, or the offset of a byte.
import { Kind } from './library.js';

/** How many rows are looked at at once, and how many milliseconds long the page waits for it. */
const [SOME, PATIENCE] = [2048, 30];

/** Lets the page do what is due. */
const rest = () => new Promise((resolve) => {
  const { port1, port2 } = new MessageChannel();
  port1.onmessage = () => {
    port1.close();
    resolve();
  };
  port2.postMessage(0);
});

/** Returns whether a row's element, field or marks have a text in small letters. */
function has(picture, item, wanted) {
  const columns = picture.columns(item);
  const words = item.kind === Kind.ROW ? columns.slice(3) : columns;
  return [...words, ...picture.marks(item)].some((it) => it.toLowerCase().includes(wanted));
}

/** Returns the items from one to another in which a text may be: of whole lines, by one look. */
function candidates(picture, first, last, wanted) {
  const text = picture.lines(first, last);
  // What is cut off at the end of a line, or too long for it, isn't in this text.
  const isCut = /\.\.\.\n|String, /.test(text);
  if (!isCut && !text.toLowerCase().includes(wanted)) return [];
  return Array.from({ length: last - first }, (_, at) => first + at);
}

/** Returns the index of the row that holds the byte at an offset of a part, or -1. */
function holding(picture, near, digits) {
  const offset = Number(digits);
  if (offset >= picture.bytes(near).length) return -1;
  return picture.itemAt(near, offset).index;
}

/** Looks for a text behind an item, up to the end and on from the beginning, or the other way. A
 * number is an offset at first. Returns the index that is found, or -1, or null if it was
 * stopped. */
export async function search(picture, text, from, { isBack, isFirst, isStopped }) {
  const wanted = text.trim().toLowerCase();
  if (!wanted || !picture.count) return -1;
  if (isFirst && /^\d+$/.test(wanted)) {
    const index = holding(picture, picture.item(from), wanted);
    if (index >= 0) return index;
  }
  const { count } = picture;
  let due = performance.now() + PATIENCE;
  // The item itself is looked at first if it is a new search, and last if it isn't.
  for (let done = isFirst ? 0 : 1; done <= count;) {
    const at = (((isBack ? from - done : from + done) % count) + count) % count;
    const some = Math.min(SOME, count + 1 - done, isBack ? at + 1 : count - at);
    const [first, last] = isBack ? [at - some + 1, at + 1] : [at, at + some];
    const found = candidates(picture, first, last, wanted);
    if (isBack) found.reverse();
    for (const index of found) if (has(picture, picture.item(index), wanted)) return index;
    done += some;
    if (performance.now() > due) {
      await rest();
      if (isStopped()) return null;
      due = performance.now() + PATIENCE;
    }
  }
  return -1;
}
