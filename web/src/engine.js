// The worker: it draws inputs, away from the page, which can end it.
import { Kind, NUMBERS, picture, ready } from './library.js';
import { allRows } from './rows.js';

/** The places of a line's numbers. */
const [KIND, OFFSET, HEADER, CONTENT, DEPTH] = [0, 1, 2, 3, 4];

/** Returns where each line of a text begins, and where the last one ends. */
function startsOf(text, count) {
  const starts = new Uint32Array(count + 1);
  for (let line = 0; line < count; line += 1) starts[line + 1] = text.indexOf(10, starts[line]) + 1;
  return starts;
}

/** Returns the parts of a picture, how many bytes have no element, and of its items the lines and
 * what comes after all that is inside of each. Items are the rows, and the headings before parts if
 * there are several. */
function itemsOf(numbers, length) {
  const count = numbers.length / NUMBERS;
  const [items, afters] = [new Uint32Array(count), new Uint32Array(count)];
  const [parts, around] = [[], []];
  const at = (line, which) => numbers[line * NUMBERS + which];
  const depthOf = (index) => at(items[index], DEPTH);
  let [found, headings, undrawn] = [0, 0, 0];
  const close = (holds) => {
    while (around.length && holds(around.at(-1))) afters[around.pop()] = found;
  };
  for (let line = 0; line < count; line += 1) headings += Number(at(line, KIND) === Kind.HEADING);
  for (let line = 0; line < count; line += 1) {
    const isHeading = at(line, KIND) === Kind.HEADING;
    if (isHeading || line === 0) {
      const [begin, size] = isHeading ? [at(line, OFFSET), at(line, CONTENT)] : [0, length];
      parts.push({ first: found, line, begin, size });
    }
    const isRow = at(line, KIND) === Kind.ROW;
    if (isRow && !at(line, HEADER)) undrawn += at(line, CONTENT);
    if (isRow || (isHeading && headings > 1)) {
      items[found] = line;
      const depth = depthOf(found);
      close((index) => depthOf(index) >= depth);
      around.push(found);
      found += 1;
    }
  }
  close(() => true);
  return { parts, undrawn, items: items.slice(0, found), afters: afters.slice(0, found) };
}

/** Returns the picture of an input: its text, what each line is of, where what is found in it lies,
 * and the bytes that it is of. With all, what isn't drawn otherwise is rows too. */
function drawnOf(input, isAll) {
  let { status, text, numbers, decoded } = picture(input, true);
  if (status) throw new Error(`the library broke its contract: ${status}`);
  if (isAll) {
    const all = allRows(input, text, numbers);
    text.fill(0);
    ({ text, numbers } = all);
  }
  const count = numbers.length / NUMBERS;
  const bytes = decoded ?? input;
  return { input, text, numbers, bytes, starts: startsOf(text, count),
    ...itemsOf(numbers, bytes.length) };
}

const begun = ready();
// What keeps the module from running is said at once.
begun.then(() => postMessage({ isReady: true }), ({ message }) => postMessage({ error: message }));

onmessage = async ({ data: { input, isAll } }) => {
  try {
    await begun;
    const found = drawnOf(input, isAll);
    const { text, numbers, bytes, starts, items, afters } = found;
    const given = [text, numbers, bytes, starts, items, afters, input].map((it) => it.buffer);
    postMessage(found, [...new Set(given)]);
  } catch (error) {
    input.fill(0);
    const isMemory = error instanceof RangeError;
    postMessage({ error: isMemory ? 'there is too little memory for its picture' : error.message });
  }
};
