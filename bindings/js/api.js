// Reads and writes EC private keys in DER (RFC 5915), also in PKCS #8 (RFC 5958), public keys
// (RFC 5480), signatures of ECDSA (RFC 3279), points (SEC1 v2.0 section 2.3.3), object identifiers
// and trees of DER. A module that is proved to meet its contracts decides what is accepted and what
// is written. index.d.ts says what each name does.
import { Kind, NUMBERS, call, decoded, divided, drawn, picture, ready } from './library.js';
import { isSupported } from './module.js';

export const version = '0.2.0';
export { isSupported, ready };

// ---- refusals

/** The texts of refusals by their statuses: the library's, once they were asked for. */
const TEXTS = new Map([[null, 'the library broke its contract']]);

export class Sec1Error extends Error {
  static kind = null;
  static status = null;

  static get text() {
    if (!TEXTS.has(this.status)) {
      TEXTS.set(this.status, textOf(made('sec1_status_to_text', this.status)));
    }
    return TEXTS.get(this.status);
  }

  constructor(offset = null) {
    const { text } = new.target;
    super(offset === null ? text : `${text} at byte ${offset}`);
    this.name = new.target.name;
    this.offset = offset;
  }

  get kind() {
    return this.constructor.kind;
  }

  get status() {
    return this.constructor.status;
  }
}

export class TruncatedError extends Sec1Error {
  static kind = 'Truncated';
  static status = 1;
}

export class TagError extends Sec1Error {
  static kind = 'Tag';
  static status = 2;
}

export class LengthError extends Sec1Error {
  static kind = 'Length';
  static status = 3;
}

export class TrailingDataError extends Sec1Error {
  static kind = 'TrailingData';
  static status = 4;
}

export class ValueContentError extends Sec1Error {
  static kind = 'Value';
  static status = 5;
}

export class OverlengthError extends Sec1Error {
  static kind = 'Overlength';
  static status = 6;
}

export class DepthError extends Sec1Error {
  static kind = 'Depth';
  static status = 8;
}

export class PointEncodingError extends Sec1Error {
  static kind = 'PointEncoding';
  static status = 9;
}

export class FieldLengthError extends Sec1Error {
  static kind = 'FieldLength';
  static status = 10;
}

export class CurveError extends Sec1Error {
  static kind = 'Curve';
  static status = 11;
}

export class OtherCurveError extends Sec1Error {
  static kind = 'OtherCurve';
  static status = 12;
}

export class PemError extends Sec1Error {
  static kind = 'Pem';
  static status = 13;
}

const ERRORS = new Map(
  [
    TruncatedError, TagError, LengthError, TrailingDataError, ValueContentError, OverlengthError,
    DepthError, PointEncodingError, FieldLengthError, CurveError, OtherCurveError, PemError,
  ].map((kind) => [kind.status, kind]),
);

/** Throws the error of a status other than 0. */
function check(status, offset = null) {
  if (status) throw new (ERRORS.get(status) ?? Sec1Error)(offset);
}

// ---- arguments and results

/** Returns the bytes of a buffer, which aren't copied. Anything else is a TypeError. */
function bytesOf(data) {
  // As they are: who asks a short array for its buffer makes an engine move it, and leave a copy.
  if (data instanceof Uint8Array) return data;
  if (data instanceof ArrayBuffer) return new Uint8Array(data);
  if (ArrayBuffer.isView(data)) {
    return new Uint8Array(data.buffer, data.byteOffset, data.byteLength);
  }
  throw new TypeError('bytes are expected, as a Uint8Array');
}

/** Returns a copy, also of a Buffer, whose `slice` makes none. */
const copyOf = (bytes) => new Uint8Array(bytes);

const ENCODER = new TextEncoder();
const CODE = new TextDecoder();
const NOTHING = new Uint8Array(0);

/** Returns the bytes of a text in UTF-8. Anything but a text is a TypeError. */
function textBytes(text) {
  if (typeof text !== 'string') throw new TypeError('a text is expected');
  return ENCODER.encode(text);
}

/** Returns the text of these ASCII letters and a byte 0. */
const textOf = (bytes) => String.fromCharCode(...bytes.subarray(0, -1));

/** Returns a length of field elements, or a tag. Anything but a whole number is a TypeError. One
 * that is negative, or above 2^64, is another number for the call, which is above 255 or 0 then,
 * too. */
function wholeNumber(number) {
  if (!Number.isInteger(number)) throw new TypeError('a whole number is expected');
  return number;
}

/** Returns a number of bytes or levels, which the call takes as it is. */
function countOf(number) {
  if (wholeNumber(number) < 0) throw new RangeError('the number is negative');
  return Math.min(number, Number.MAX_SAFE_INTEGER);
}

/** Returns a value of this class. Anything else is a TypeError. */
function instance(Class, value) {
  if (!(value instanceof Class)) throw new TypeError(`a value of ${Class.name} is expected`);
  return value;
}

/** Whether two arrays of bytes, or two absent ones, are the same. */
function same(first, second) {
  if (first === null || second === null) return first === second;
  return first.length === second.length && first.every((byte, index) => byte === second[index]);
}

/** Returns what a call stores, or throws, with the offset that another call stores. */
function read(name, faultAt, bytes) {
  const [status, ...stored] = call(name, bytes);
  if (status) check(status, call(faultAt, bytes)[1]);
  return stored;
}

/** Returns the one thing that a call stores or writes, or throws. */
function made(name, ...given) {
  const [status, result] = call(name, ...given);
  check(status);
  return result;
}

// ---- PEM (RFC 7468)

/** Makes a key of what the first block of PEM in a text encodes that has one of these labels, by
 * the function of that label. What was decoded, and a copy of the text, are overwritten. */
function ofPem(text, functions) {
  let copy = NOTHING;
  let bytes = NOTHING;
  if (typeof text === 'string') {
    copy = new Uint8Array(new ArrayBuffer(3 * text.length));
    bytes = copy.subarray(0, ENCODER.encodeInto(text, copy).written);
  } else {
    bytes = bytesOf(text);
  }
  const blocks = [];
  try {
    for (const [label, make] of Object.entries(functions)) {
      const [line, status, found] = decoded(bytes, ENCODER.encode(label));
      blocks.push({ line, status, found, make });
    }
    const first = blocks.filter((it) => it.line).sort((a, b) => a.line - b.line)[0];
    check(first ? first.status : PemError.status);
    return first.make(first.found);
  } finally {
    for (const { found } of blocks) found.fill(0);
    copy.fill(0);
  }
}

const DIGITS = ENCODER.encode('ABCDEFGHIJKLMNOPQRSTUVWXYZabcdefghijklmnopqrstuvwxyz0123456789+/');
const [COLUMNS, EQUALS, LINE_FEED] = [64, 61, 10];

/** Returns bytes in PEM, in the strict form, whose lines have 64 digits, and overwrites the
 * bytes. */
function pem(label, bytes) {
  const [head, tail] = ['BEGIN', 'END'].map((it) => ENCODER.encode(`-----${it} ${label}-----\n`));
  const count = 4 * Math.ceil(bytes.length / 3);
  const length = head.length + count + Math.ceil(count / COLUMNS) + tail.length;
  const text = new Uint8Array(new ArrayBuffer(length)).fill(LINE_FEED);
  text.set(head);
  for (let at = 0; at < count; at += 1) {
    // Digit `at` is of the six bits from this one on, of two bytes.
    const first = Math.floor((6 * at) / 8);
    const two = bytes[first] * 256 + (bytes[first + 1] ?? 0);
    const digit = first < bytes.length ? DIGITS[(two >> (10 - (6 * at) % 8)) & 63] : EQUALS;
    text[head.length + at + Math.floor(at / COLUMNS)] = digit;
  }
  text.set(tail, length - tail.length);
  const written = CODE.decode(text);
  bytes.fill(0);
  text.fill(0);
  return written;
}

/** Marks bytes that the library has read or written, and that are nobody else's: a constructor that
 * gets it neither copies nor checks them. No other module has it. */
const MADE = Symbol('made');

// ---- object identifiers and curves

export class ObjectIdentifier {
  #content;

  constructor(content, mark) {
    this.#content = mark === MADE ? content : copyOf(bytesOf(content));
    if (mark !== MADE) made('sec1_identifier_check', this.#content);
  }

  static fromText(text) {
    return new ObjectIdentifier(made('sec1_identifier_from_text', textBytes(text)), MADE);
  }

  get content() {
    return this.#content.slice();
  }

  get arcs() {
    return String(this).split('.').map(Number);
  }

  equals(other) {
    return other instanceof ObjectIdentifier && same(this.#content, other.#content);
  }

  compare(other) {
    const [first, second] = [this.arcs, instance(ObjectIdentifier, other).arcs];
    const index = first.findIndex((arc, at) => arc !== second[at]);
    if (index === -1) return Math.sign(first.length - second.length);
    return first[index] < second[index] ? -1 : 1;
  }

  toString() {
    return textOf(made('sec1_identifier_to_text', this.#content));
  }
}

export class Curve {
  #identifier;
  #name;
  #fieldLength;

  constructor(identifier) {
    const { content } = instance(ObjectIdentifier, identifier);
    this.#identifier = identifier;
    this.#fieldLength = made('sec1_curve_field_len', content);
    this.#name = textOf(made('sec1_curve_name', content));
  }

  static fromName(name) {
    return new Curve(new ObjectIdentifier(made('sec1_curve_from_name', textBytes(name)), MADE));
  }

  get identifier() {
    return this.#identifier;
  }

  get name() {
    return this.#name;
  }

  get fieldLength() {
    return this.#fieldLength;
  }

  equals(other) {
    return other instanceof Curve && this.#identifier.equals(other.#identifier);
  }

  toString() {
    return this.#name;
  }
}

// ---- private keys

export class EcPrivateKey {
  // Private, so that neither an inspector of objects nor JSON shows the key.
  #privateKey;
  #curve;
  #publicKey;

  constructor(privateKey, curve = null, publicKey = null, mark = null) {
    const isMade = mark === MADE;
    this.#privateKey = isMade ? privateKey : bytesOf(privateKey);
    this.#curve = curve === null ? null : instance(ObjectIdentifier, curve);
    this.#publicKey = publicKey === null || isMade ? publicKey : bytesOf(publicKey);
  }

  static fromDer(data) {
    const [status, privateKey, curve, publicKey, offset] = call('sec1_key_read_at', bytesOf(data));
    check(status, offset);
    return EcPrivateKey.#ofParts(privateKey, curve, publicKey);
  }

  static fromPkcs8Der(data) {
    // What isn't a container is refused here, also a key by itself.
    const [status, offset] = call('sec1_private_key_info_fault_at', bytesOf(data));
    check(status, offset);
    return EcPrivateKey.fromDerOrPkcs8(data);
  }

  static fromDerOrPkcs8(data) {
    const faultAt = 'sec1_private_key_fault_at';
    return EcPrivateKey.#ofParts(...read('sec1_private_key_read', faultAt, bytesOf(data)));
  }

  static fromPem(text) {
    const { fromDer, fromPkcs8Der } = EcPrivateKey;
    return ofPem(text, { 'EC PRIVATE KEY': fromDer, 'PRIVATE KEY': fromPkcs8Der });
  }

  static #ofParts(privateKey, curve, publicKey) {
    const identifier = curve && new ObjectIdentifier(curve, MADE);
    return new EcPrivateKey(privateKey, identifier, publicKey, MADE);
  }

  get privateKey() {
    return this.#privateKey;
  }

  get curve() {
    return this.#curve;
  }

  get publicKey() {
    return this.#publicKey;
  }

  equals(other) {
    return other instanceof EcPrivateKey && same(this.#privateKey, other.#privateKey) &&
      (this.#curve?.equals(other.#curve) ?? other.#curve === null) &&
      same(this.#publicKey, other.#publicKey);
  }

  toDer() {
    return this.#written('sec1_key_write');
  }

  toPkcs8Der() {
    return this.#written('sec1_private_key_info_write');
  }

  toPem() {
    return pem('EC PRIVATE KEY', this.toDer());
  }

  toPkcs8Pem() {
    return pem('PRIVATE KEY', this.toPkcs8Der());
  }

  #written(name) {
    const curve = this.#curve?.content ?? NOTHING;
    const hasPublicKey = Number(this.#publicKey !== null);
    return made(name, this.#privateKey, curve, this.#publicKey ?? NOTHING, hasPublicKey);
  }
}

// ---- public keys, certificates and signatures

export class EcPublicKey {
  #curve;
  #publicKey;

  constructor(curve, publicKey) {
    this.#curve = instance(ObjectIdentifier, curve);
    this.#publicKey = copyOf(bytesOf(publicKey));
  }

  static fromDer(data) {
    const faultAt = 'sec1_public_key_fault_at';
    const [curve, publicKey] = read('sec1_public_key_read', faultAt, bytesOf(data));
    return new EcPublicKey(new ObjectIdentifier(curve, MADE), publicKey);
  }

  static fromPem(text) {
    return ofPem(text, { 'PUBLIC KEY': EcPublicKey.fromDer });
  }

  get curve() {
    return this.#curve;
  }

  get publicKey() {
    return this.#publicKey.slice();
  }

  get point() {
    return new Point(this.#publicKey, new Curve(this.#curve).fieldLength);
  }

  equals(other) {
    return other instanceof EcPublicKey && this.#curve.equals(other.#curve) &&
      same(this.#publicKey, other.#publicKey);
  }

  toDer() {
    return made('sec1_public_key_write', this.#curve.content, this.#publicKey);
  }

  toPem() {
    return pem('PUBLIC KEY', this.toDer());
  }
}

export function certificatePublicKey(data) {
  const faultAt = 'sec1_certificate_fault_at';
  return read('sec1_certificate_read_public_key', faultAt, bytesOf(data))[0];
}

export class Signature {
  #r;
  #s;

  constructor(r, s) {
    this.#r = copyOf(bytesOf(r));
    this.#s = copyOf(bytesOf(s));
  }

  static fromDer(data) {
    return new Signature(...read('sec1_signature_read', 'sec1_signature_fault_at', bytesOf(data)));
  }

  get r() {
    return this.#r.slice();
  }

  get s() {
    return this.#s.slice();
  }

  equals(other) {
    return other instanceof Signature && same(this.toDer(), other.toDer());
  }

  toDer() {
    return made('sec1_signature_write', this.#r, this.#s);
  }
}

// ---- points

export const Tag = Object.freeze({
  IDENTITY: 0,
  COMPRESSED_EVEN: 2,
  COMPRESSED_ODD: 3,
  UNCOMPRESSED: 4,
  COMPACT: 5,
  HYBRID_EVEN: 6,
  HYBRID_ODD: 7,
});

export class Point {
  #encoding;
  #fieldLength;
  #parts = null;

  constructor(encoding, fieldLength, mark) {
    this.#encoding = mark === MADE ? encoding : copyOf(bytesOf(encoding));
    this.#fieldLength = wholeNumber(fieldLength);
    if (mark !== MADE) this.#read();
  }

  static fromCoordinates(x, y, compress = false) {
    const [first, second] = [bytesOf(x), bytesOf(y)];
    const name = 'sec1_point_from_coordinates';
    return new Point(made(name, first, second, Number(Boolean(compress))), first.length, MADE);
  }

  static identity(fieldLength) {
    return new Point(made('sec1_point_identity'), fieldLength);
  }

  static fromHex(text, fieldLength) {
    const digits = textBytes(text);
    const encoding = made('sec1_point_from_hex', digits, wholeNumber(fieldLength));
    return new Point(encoding, fieldLength, MADE);
  }

  get encoding() {
    return this.#encoding.slice();
  }

  get fieldLength() {
    return this.#fieldLength;
  }

  get tag() {
    return this.#read().tag;
  }

  get x() {
    return this.#read().x?.slice() ?? null;
  }

  get y() {
    return this.#read().y?.slice() ?? null;
  }

  hex(lowerCase = false) {
    return textOf(this.#made('sec1_point_to_hex', Number(Boolean(lowerCase))));
  }

  compress() {
    return new Point(this.#made('sec1_point_compress'), this.#fieldLength, MADE);
  }

  uncompress() {
    const { x, y } = this.#read();
    return y === null ? this : Point.fromCoordinates(x, y);
  }

  toHybrid() {
    return new Point(this.#made('sec1_point_to_hybrid'), this.#fieldLength, MADE);
  }

  equals(other) {
    return other instanceof Point && this.#fieldLength === other.#fieldLength &&
      this.compare(other) === 0;
  }

  compare(other) {
    const length = this.#fieldLength;
    if (instance(Point, other).#fieldLength !== length) {
      throw new TypeError('points over one field are expected');
    }
    return made('sec1_point_compare', this.#encoding, other.#encoding, length);
  }

  toString() {
    return this.hex();
  }

  /** Returns the tag and both coordinates, which are read when one of them is asked for. */
  #read() {
    if (!this.#parts) {
      const [status, tag, x, y] = call('sec1_point_read', this.#encoding, this.#fieldLength);
      check(status);
      this.#parts = { tag, x, y };
    }
    return this.#parts;
  }

  #made(name, ...given) {
    return made(name, this.#encoding, this.#fieldLength, ...given);
  }
}

// ---- elements and trees of them

export class Element {
  // Private, as that of a key: the content may be one.
  #tag;
  #content;

  constructor(tag, content) {
    this.#tag = wholeNumber(tag);
    this.#content = bytesOf(content);
  }

  static read(data) {
    const bytes = bytesOf(data);
    const [status, content, rest] = divided(bytes);
    check(status);
    return [new Element(bytes[0], content), rest];
  }

  get tag() {
    return this.#tag;
  }

  get content() {
    return this.#content;
  }

  equals(other) {
    return other instanceof Element && this.#tag === other.#tag &&
      same(this.#content, other.#content);
  }

  toDer() {
    return made('sec1_element_write', this.#tag, this.#content);
  }
}

export function checkTree(data) {
  return read('sec1_tree_check', 'sec1_tree_fault_at', bytesOf(data))[0];
}

export function documentLength(data) {
  return call('sec1_document_len', bytesOf(data))[1] || null;
}

// ---- pictures

/** The greatest number of bytes that are drawn. */
const LONGEST = 16777215;

/** Returns the rows of a picture, by its text and the numbers of its lines. */
function rowsOf(text, numbers) {
  const rows = [];
  for (const [at, line] of text.split('\n').slice(0, -1).entries()) {
    const [kind, offset, headerLength, contentLength, depth, hidden] =
      numbers.subarray(at * NUMBERS, (at + 1) * NUMBERS);
    const isHidden = hidden === 1;
    if (kind === Kind.ROW) {
      rows.push({ line, marks: [], offset, headerLength, contentLength, depth, isHidden });
    } else if (kind === Kind.MARK) {
      rows.at(-1).marks.push(line);
    }
  }
  return rows;
}

export function draw(data, { all = false, levels = 0, offset = 0 } = {}) {
  const bytes = bytesOf(data);
  if (bytes.length > LONGEST) throw new RangeError('more than 16,777,215 bytes');
  const limits = [countOf(levels), countOf(offset)];
  const plain = picture(bytes);
  check(plain.status);
  const [hidden, numbers, hasKey] = [CODE.decode(plain.text), plain.numbers, plain.isKey === 1];
  let text = hidden;
  if (all || limits.some(Boolean)) {
    const [status, encoded] = drawn(bytes, Number(Boolean(all)), ...limits);
    check(status);
    text = CODE.decode(encoded);
    encoded.fill(0);
  }
  let rows = null;
  return {
    text,
    hasKey,
    get rows() {
      rows ??= rowsOf(hidden, numbers);
      return rows;
    },
  };
}
