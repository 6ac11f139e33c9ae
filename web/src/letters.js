// Values as people read them: letters of all scripts, numbers, and bytes in hexadecimal.

/** What is escaped: what has no shape, or changes how the characters beside it are read. */
const MISLEADING = new RegExp(
  '[\\p{C}\\p{Zl}\\p{Zp}\\p{Default_Ignorable_Code_Point}\\u2800]|(?! )\\p{Zs}', 'gu');
/** Marks at the beginning, which would stand on the quotation mark. */
const MARKS = /^\p{M}+/u;
/** A character that the library has escaped. */
const ESCAPED = /\\u\{([0-9A-F]{1,6})\}/g;
/** Which bytes are a character, by the tag of a string: those of UTF-8, or so many at a time. */
const WIDTHS = new Map([[12, 0], [18, 1], [19, 1], [22, 1], [26, 1], [28, 4], [30, 2]]);
/** Up to how many bytes a number is written in decimal. */
const LONGEST = 66;

const escaped = (text) => text.replace(/./gsu, (it) => `\\u{${it.codePointAt(0).toString(16)
  .toUpperCase()}}`);

const safe = (text) => text.replace(MISLEADING, escaped);

/** Returns a text in which only what could mislead is escaped. */
export const plain = (text) => safe(text.replace(MARKS, escaped));

/** Returns the words of a line with letters in the place of their escapes. */
export function lettered(words) {
  if (!words.includes('\\u{')) return words;
  const letter = (whole, digits) => {
    const code = parseInt(digits, 16);
    return code > 0x10ffff ? whole : safe(String.fromCodePoint(code));
  };
  // A backslash that is itself escaped begins no other escape.
  return words.replace(/\\\\|\\u\{[0-9A-F]{1,6}\}/g, (it) => it.replace(ESCAPED, letter))
    .replace(/"(\p{M}+)/gu, (_, marks) => `"${escaped(marks)}`);
}

/** Returns the text that is the content of a string of this tag, or null if it is none. */
export function stringOf(tag, content) {
  const width = WIDTHS.get(tag);
  try {
    if (width === 0) return plain(new TextDecoder('utf-8', { fatal: true }).decode(content));
    if (!width || content.length % width) return null;
    let text = '';
    for (let at = 0; at < content.length; at += width) {
      const code = content.subarray(at, at + width).reduce((sum, byte) => sum * 256 + byte, 0);
      text += String.fromCodePoint(code);
    }
    return plain(text);
  } catch {
    return null;
  }
}

/** Returns bytes in hexadecimal. */
export function hexOf(bytes, between) {
  const digits = [];
  for (const byte of bytes) digits.push(byte.toString(16).toUpperCase().padStart(2, '0'));
  return digits.join(between);
}

/** Returns the number that is the content of an INTEGER, in hexadecimal and, if it isn't too long,
 * in decimal. */
export function numberOf(content) {
  const isSigned = content[0] >= 128;
  // A first byte of 0 says no more than that the number isn't negative.
  const digits = content[0] === 0 && content.length > 1 ? content.subarray(1) : content;
  const hex = hexOf(digits, ':');
  if (content.length > LONGEST) return { hex, decimal: '' };
  let number = BigInt(`0x${hexOf(content, '')}`);
  if (isSigned) number -= 1n << BigInt(8 * content.length);
  return { hex: isSigned ? '' : hex, decimal: String(number) };
}
