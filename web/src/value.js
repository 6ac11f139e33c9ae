// What the selected row says, as a person reads it, and the buttons that copy it.
import { hexOf } from './letters.js';

/** Up to how many characters of a value are shown. */
const SHOWN = 2000;

/** Returns the words for a value. */
function wordsOf({ text, more }) {
  const front = text.length > SHOWN ? `${text.slice(0, SHOWN)}\u2026` : text;
  return more ? `${front} (${more})` : front;
}

export class Value {
  #box;
  #words;
  #copies = [null, null];

  /** A value in this box, with an element for its words, and the buttons that copy it and its bytes
   * by a function. */
  constructor(box, words, buttons, copy) {
    [this.#box, this.#words] = [box, words];
    buttons.forEach((button, at) => {
      button.addEventListener('click', () => copy(this.#copies[at]()));
    });
  }

  /** Shows the value of an item of a picture, if its content may be seen. */
  draw(picture, item, isShown) {
    const value = item.isPrivate && !isShown ? null : picture.value(item);
    const isEmpty = value === null;
    this.#box.hidden = isEmpty;
    this.#words.textContent = isEmpty ? '' : wordsOf(value);
    this.#copies = isEmpty ? [null, null]
      : [() => value.text, () => hexOf(picture.content(item), '')];
  }

  clear() {
    this.draw(null, { isPrivate: true }, false);
  }
}
