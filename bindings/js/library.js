// The calls of sec1.h over arrays of bytes, in the memory of the proved module.
//
// What a call is given and stores lies in the memory from the module's heap on. It is overwritten
// with zeros when the call ends, however it ends, and so is the end of the stack that calls use.
import { module, promised } from './module.js';

/** The status of a call whose buffer is too short. */
const BUFFER = 7;
/** The room that a call gets to write into at first, in bytes. */
const ROOM = 512;
const PAGE = 65536;
/** How many bytes of memory stay for the next call: one that grew beyond is given back. */
const KEPT = 4194304;
/** The room that a picture of a long input gets at first, in bytes. */
const DRAWN = 1048576;
/** Where the stack begins, which grows towards 0. Then how many bytes of it are used at most by
 * calls that draw or decode PEM, and by all others: tests/dist/stack.py computes whether they are
 * enough. */
const [STACK, DEEP, FLAT] = [65536, 53248, 4096];
/** What a line of a picture is: enum sec1_line of sec1.h. */
export const Kind = Object.freeze({ HEADING: 0, ROW: 1, MARK: 2, WORDS: 3, COMMAND: 4 });
/** How many numbers a line has: its kind, and of a row its offset, the lengths of its header and of
 * its content, its depth, and 1 if the content is hidden. Of a heading the offset and the length
 * are those of the part's bytes among all that were decoded. */
export const NUMBERS = 6;

/** The place of what a call stores, which is the same in each instance of the module; behind it,
 * that of what a call is given, then writes. */
let STORED;
let GIVEN;
let STORED_WORD;

/** What the module exports, once there is an instance, and views of its memory. */
let exports = null;
let view;
let memory;
/** Where the memory ends that the call uses. */
let end;

/** Looks at the memory anew, which is another buffer where it grew. */
function look() {
  view = new DataView(exports.memory.buffer);
  memory = new Uint8Array(exports.memory.buffer);
}

/** Takes an instance of the module for the calls to come. */
function take(instance) {
  ({ exports } = instance);
  STORED = Number(exports.__heap_base.value);
  GIVEN = STORED + 96;
  STORED_WORD = BigInt(STORED);
  end = GIVEN;
  look();
}

/** Makes an instance of the module at once. */
function instantiated() {
  const compiled = module();
  return new WebAssembly.Instance(compiled, {});
}

/** Makes an instance before the first call, where that can't be done at once. */
export async function ready() {
  if (!exports) {
    const compiled = await promised();
    const instance = await WebAssembly.instantiate(compiled, {});
    if (!exports) take(instance);
  }
}

/** Takes a new instance in the place of one whose memory grew. Where the engine makes none, the old
 * one stays. */
function renew() {
  try {
    take(instantiated());
  } catch {
    // What it had is wiped.
  }
}

/** Makes the memory longer by so many bytes. Throws a RangeError if there is no more. */
function grow(length) {
  exports.memory.grow(Math.ceil(length / PAGE));
  look();
}

/** Returns the place of so many zeros, a multiple of 8. */
function reserve(length) {
  const place = end;
  end += Math.ceil(length / 8) * 8;
  if (end > memory.length) grow(end - memory.length);
  return place;
}

/** Overwrites what a call has used, and so many bytes of the stack, with zeros. */
function wipe(depth) {
  memory.fill(0, STACK - depth, STACK);
  memory.fill(0, STORED, end);
  end = GIVEN;
  if (memory.length > KEPT) renew();
}

/** Returns the length of an array of bytes, whatever a class of its own says. */
const lengthOf = Function.prototype.call.bind(
  Object.getOwnPropertyDescriptor(Object.getPrototypeOf(Uint8Array.prototype), 'length').get,
);

/** Puts arrays of bytes into the memory, and returns what a call takes: of each its place and its
 * length, and numbers as they are. */
function placed(given) {
  const words = [];
  for (const it of given) {
    if (typeof it === 'number') {
      words.push(BigInt(it));
    } else {
      const length = lengthOf(it);
      const place = reserve(length);
      memory.set(it, place);
      words.push(BigInt(place), BigInt(length));
    }
  }
  return words;
}

/** Returns the number of 64 bits at a place, which is below 2^53. */
const wordAt = (place) => view.getUint32(place, true) + view.getUint32(place + 4, true) * 2 ** 32;

// The fields of what a call stores. A part is of the first array of bytes that is given.
const size = { length: 8, at: wordAt };
const order = { length: 4, at: (place) => view.getInt32(place, true) };
const part = { length: 24, at: (place) => partAt(place, sliced) };
/** A part that is a private key. */
const secret = { length: 24, at: (place) => partAt(place, copied) };

/** Returns a copy of so many bytes at a place, in a buffer of its own: a short array without one
 * lies where an engine moves it, and leaves the old bytes. */
function copied(place, length) {
  const bytes = new Uint8Array(new ArrayBuffer(length));
  bytes.set(memory.subarray(place, place + length));
  return bytes;
}

/** Returns a copy of bytes that are no secret, which takes less time. */
function sliced(place, length) {
  return memory.slice(place, place + length);
}

/** Returns a copy, as a function makes it, of the part whose offset, length and presence are at a
 * place, or null. */
function partAt(place, copy) {
  return wordAt(place + 16) ? copy(GIVEN + wordAt(place), wordAt(place + 8)) : null;
}

/** Says that a call stores structures of these fields: where they begin, and each field is. */
function stores(...structures) {
  let offset = 0;
  const [fields, begins] = [[], []];
  for (const structure of structures) {
    begins.push(BigInt(offset));
    for (const { length, at } of structure) {
      fields.push({ offset, at });
      offset += length;
    }
  }
  return { fields, begins };
}

/** Says that a call writes into a buffer, and stores the length of what it writes, and how that is
 * copied. */
const writes = { fields: null, copy: sliced };
const writesSecret = { fields: null, copy: copied };

// What the calls do with what follows the arrays and numbers that they are given.
const CALLS = {
  sec1_key_read_at: stores([secret, part, part], [size]),
  sec1_key_write: writesSecret,
  sec1_public_key_read: stores([part, part]),
  sec1_public_key_fault_at: stores([size]),
  sec1_public_key_write: writes,
  sec1_certificate_read_public_key: stores([part]),
  sec1_certificate_fault_at: stores([size]),
  sec1_private_key_info_fault_at: stores([size]),
  sec1_private_key_info_write: writesSecret,
  sec1_private_key_read: stores([secret, part, part]),
  sec1_private_key_fault_at: stores([size]),
  sec1_signature_read: stores([part, part]),
  sec1_signature_fault_at: stores([size]),
  sec1_signature_write: writes,
  sec1_point_read: stores([size, part, part]),
  sec1_point_compress: writes,
  sec1_point_to_hybrid: writes,
  sec1_point_compare: stores([order]),
  sec1_point_from_coordinates: writes,
  sec1_point_identity: writes,
  sec1_point_to_hex: writes,
  sec1_point_from_hex: writes,
  sec1_identifier_check: stores(),
  sec1_identifier_to_text: writes,
  sec1_identifier_from_text: writes,
  sec1_curve_field_len: stores([size]),
  sec1_curve_name: writes,
  sec1_curve_from_name: writes,
  sec1_tree_check: stores([size]),
  sec1_tree_fault_at: stores([size]),
  sec1_document_len: stores([size]),
  sec1_element_write: writesSecret,
  sec1_status_to_text: writes,
};

/** Makes a call that writes, with more room if there was too little. */
function written(name, words, copy) {
  for (let room = ROOM; ; room = wordAt(STORED)) {
    const place = reserve(room);
    const status = exports[name](...words, BigInt(place), BigInt(room), STORED_WORD);
    const length = wordAt(STORED);
    if (status !== BUFFER || length <= room) return [status, copy(place, length)];
  }
}

/** Makes a call with these arrays of bytes and numbers. Returns its status, and what it stores. */
export function call(name, ...given) {
  if (!exports) take(instantiated());
  try {
    const words = placed(given);
    const { fields, begins, copy } = CALLS[name];
    if (!fields) return written(name, words, copy);
    for (const begin of begins) words.push(STORED_WORD + begin);
    const answer = [exports[name](...words)];
    for (const { offset, at } of fields) answer.push(at(STORED + offset));
    return answer;
  } finally {
    wipe(FLAT);
  }
}

/** Returns the status, the content of the element that the bytes begin with, and the bytes after
 * it. */
export function divided(input) {
  if (!exports) take(instantiated());
  try {
    const words = placed([input]);
    const status = exports.sec1_element_read(...words, STORED_WORD, STORED_WORD + 8n);
    if (status) return [status];
    const [header, length] = [wordAt(STORED), wordAt(STORED + 8)];
    const end = header + length;
    return [status, copied(GIVEN + header, length), copied(GIVEN + end, lengthOf(input) - end)];
  } finally {
    wipe(FLAT);
  }
}

/** Returns the number of the first line of the first block of PEM in a text that has this label, or
 * 0 if none has, the status, and what the block encodes. */
export function decoded(text, label) {
  if (!exports) take(instantiated());
  try {
    const words = placed([text, label]);
    const length = 2 * lengthOf(text) + 2;
    const room = reserve(length);
    const places = [room, length, STORED, STORED + 8].map(BigInt);
    const status = exports.sec1_pem_decode(...words, ...places);
    return [wordAt(STORED + 8), status, copied(room, wordAt(STORED))];
  } finally {
    wipe(DEEP);
  }
}

/** Returns the length of what the two calls of pictures decode an input into. DER needs 2 bytes of
 * it, so that a long input gets no more until a call refuses that. */
function roomFor(length, isWhole) {
  const room = 2 * length + 2;
  return isWhole || room < DRAWN ? room : 2;
}

/** Returns the status, the text of the picture of an input, and 1 if the input has a key: with all
 * contents, of so many levels alone, of the element that begins after so many bytes alone, each if
 * the number isn't 0. */
export function drawn(input, all = 0, levels = 0, offset = 0) {
  if (!exports) take(instantiated());
  const size = lengthOf(input);
  // Room for most pictures of short inputs; a longer one is drawn once more.
  for (let [most, isWhole] = [Math.min(8 * size + 4096, DRAWN), false]; ;) {
    try {
      // No JSON, and no name of a file.
      const words = placed([input, all, 0, levels, offset, new Uint8Array(0)]);
      const length = roomFor(size, isWhole) + most;
      const [room, text] = [reserve(length), reserve(most)];
      const places = [room, length, text, most, STORED, STORED + 8].map(BigInt);
      const status = exports.sec1_picture_write(...words, ...places);
      const wanted = wordAt(STORED);
      if (status !== BUFFER || (wanted <= most && (wanted || isWhole))) {
        return [status, copied(text, wanted), wordAt(STORED + 8)];
      }
      [most, isWhole] = [wanted || most, isWhole || wanted === 0];
    } finally {
      wipe(DEEP);
    }
  }
}

/** Returns the numbers of so many lines of a picture, which lie at a place. */
function numbersAt(place, count) {
  const halves = new Uint32Array(memory.buffer, place, 2 * count * NUMBERS);
  const numbers = new Uint32Array(count * NUMBERS);
  // The upper halves of these numbers are 0: no input has 4 GiB.
  for (let at = 0; at < numbers.length; at += 1) numbers[at] = halves[2 * at];
  return numbers;
}

/** Returns the numbers of so many lines of a picture, and, if that is asked for, the bytes that
 * were decoded, or null if the input is what is drawn. */
function lined(input, count, isDecodedWanted) {
  for (let isWhole = false; ;) {
    try {
      const words = placed([input]);
      const length = roomFor(lengthOf(input), isWhole);
      const [room, lines] = [reserve(length), reserve(count * NUMBERS * 8)];
      const places = [room, length, lines, count, STORED].map(BigInt);
      const status = exports.sec1_picture_lines(...words, ...places);
      const found = wordAt(STORED);
      if (status !== BUFFER || found || isWhole) {
        const numbers = numbersAt(lines, Math.min(found, count));
        const isDecoded = isDecodedWanted && numbers[0] === Kind.HEADING;
        return { status, numbers, decoded: isDecoded ? copied(room, length) : null };
      }
      isWhole = true;
    } finally {
      wipe(DEEP);
    }
  }
}

/** Returns the same as `drawn` of the picture without private contents, and what `lined` does. */
export function picture(input, isDecodedWanted = false) {
  const [status, text, isKey] = drawn(input);
  let count = 0;
  for (let at = text.indexOf(10); at >= 0; at = text.indexOf(10, at + 1)) count += 1;
  const told = lined(input, count, isDecodedWanted);
  return { ...told, status: status || told.status, text, isKey };
}
