/** The version of the package. */
export const version: string;

/** Returns whether the engine can run the module, and a page's policy lets it. It loads nothing. */
export function isSupported(): boolean;

/**
 * Loads the module, where that hasn't been done. In Node a call loads it by itself, and so does one
 * of `bridgeacacia-sec1/inline` in most engines. Elsewhere a call before it throws an `Error`.
 * @throws {Error} if the module can't be fetched or compiled: why.
 */
export function ready(): Promise<void>;

/** Bytes that a call reads: a `Uint8Array`, a `Buffer`, or any other view or buffer. */
export type Bytes = ArrayBuffer | ArrayBufferView;

/**
 * A refusal. Each kind of refusal is a subclass. A value of a wrong type is a `TypeError`, and no
 * more memory a `RangeError`.
 */
export class Sec1Error extends Error {
  /** The name of the kind, as the package for Rust has it. */
  readonly kind: string | null;
  /** The number in `enum sec1_status` of sec1.h. */
  readonly status: number | null;
  /**
   * The index of the first fault in the DER that was read, and `null` for calls that read none: of
   * the tag byte, of the first byte of the length or of the content that is refused, of the first
   * byte after the last part, or the number of bytes if they end before a tag. For Curve it is that
   * of the algorithm, for PointEncoding that of the key's BIT STRING, and for OtherCurve that of
   * the identifier's content in the key.
   */
  readonly offset: number | null;
  constructor(offset?: number | null);
  static readonly kind: string | null;
  static readonly status: number | null;
  static readonly text: string;
}

/** The input, or the element around a part, ends too early. */
export class TruncatedError extends Sec1Error {}
/** A tag that isn't the expected one, or that no element has. */
export class TagError extends Sec1Error {}
/** A length that isn't in the form of DER, or is above 268,435,455. */
export class LengthError extends Sec1Error {}
/** Bytes after the last part. */
export class TrailingDataError extends Sec1Error {}
/** A content that isn't valid for its tag, or a text that isn't an identifier's. */
export class ValueContentError extends Sec1Error {}
/** A content to write is above 268,435,455 bytes. */
export class OverlengthError extends Sec1Error {}
/** More than 64 nested elements. */
export class DepthError extends Sec1Error {}
/** The bytes aren't the encoding of a point. */
export class PointEncodingError extends Sec1Error {}
/** The length of field elements isn't 1 to 66, or two lengths differ. */
export class FieldLengthError extends Sec1Error {}
/** No curve of the library's table, or an algorithm that isn't id-ecPublicKey. */
export class CurveError extends Sec1Error {}
/** A key names another curve than its container. */
export class OtherCurveError extends Sec1Error {}
/**
 * A text has no block of PEM with the label of what is to be read, or the first one has headers, as
 * an encrypted one has, or no last line, or what is between isn't base64.
 */
export class PemError extends Sec1Error {}

/** An object identifier (X.690 section 8.19). */
export class ObjectIdentifier {
  /**
   * Makes the identifier with this content, which is copied.
   * @throws {ValueContentError} if the bytes aren't the content of an identifier.
   */
  constructor(content: Bytes);
  /**
   * Returns the identifier with this dotted text.
   * @throws {ValueContentError}
   */
  static fromText(text: string): ObjectIdentifier;
  /** A copy of the content. */
  readonly content: Uint8Array;
  /** The numbers of the dotted text. */
  readonly arcs: number[];
  equals(other: unknown): boolean;
  /** Returns -1, 0 or 1: identifiers are ordered by their arcs. */
  compare(other: ObjectIdentifier): number;
  /** Returns the dotted text. */
  toString(): string;
}

/**
 * A curve of the library's table, which has the 34 curves over prime fields of SEC 2, ANSI X9.62
 * and RFC 5639.
 */
export class Curve {
  /**
   * Returns the curve with this identifier.
   * @throws {CurveError} if the table doesn't have it.
   */
  constructor(identifier: ObjectIdentifier);
  /**
   * Returns the curve with this name, such as secp256r1, P-256 or prime256v1. The case of letters
   * counts.
   * @throws {CurveError}
   */
  static fromName(name: string): Curve;
  readonly identifier: ObjectIdentifier;
  /** The name of SEC 2, or that of ANSI X9.62 or RFC 5639 for a curve that isn't there. */
  readonly name: string;
  /** The length of a field element in bytes. */
  readonly fieldLength: number;
  equals(other: unknown): boolean;
  /** Returns the name. */
  toString(): string;
}

/**
 * A private key (RFC 5915 section 3). `console.log` and `JSON.stringify` don't show its parts. Its
 * length isn't compared with its curve's.
 */
export class EcPrivateKey {
  /**
   * Makes a key of these parts. The arrays aren't copied: `key.privateKey.fill(0)` wipes the
   * private key. `null` is an absent part.
   */
  constructor(privateKey: Bytes, curve?: ObjectIdentifier | null, publicKey?: Bytes | null);
  /**
   * Reads a key from its DER encoding, which is all of the bytes.
   * @throws {Sec1Error} Truncated, Tag, Length, TrailingData or Value: the first fault.
   */
  static fromDer(data: Bytes): EcPrivateKey;
  /**
   * Reads a key from its container, PKCS #8 in DER, which is all of the bytes. The curve is that
   * of the container, and one of the table.
   * @throws {Sec1Error} Truncated, Tag, Length, TrailingData or Value, the first fault of the
   * container, or of the key in it if the container has none; Curve, if the container's algorithm
   * isn't id-ecPublicKey with a curve of the table; OtherCurve, if the key in it names another
   * curve.
   */
  static fromPkcs8Der(data: Bytes): EcPrivateKey;
  /**
   * Reads a key by itself or in its container. Bytes that begin with a SEQUENCE, and in it an
   * INTEGER and the tag of a SEQUENCE, are read as a container.
   * @throws {Sec1Error} as `fromDer` or `fromPkcs8Der`.
   */
  static fromDerOrPkcs8(data: Bytes): EcPrivateKey;
  /**
   * Reads a key from the first block of PEM in a text whose label is EC PRIVATE KEY, as `fromDer`
   * does, or PRIVATE KEY, as `fromPkcs8Der` does. Other blocks may be around it.
   * @throws {PemError}
   * @throws {Sec1Error} as these, with the offset in what the block encodes.
   */
  static fromPem(text: string | Bytes): EcPrivateKey;
  readonly privateKey: Uint8Array;
  readonly curve: ObjectIdentifier | null;
  /** The bytes of the public key, which may be none. */
  readonly publicKey: Uint8Array | null;
  /** Returns whether all parts are the same. Its time depends on them. */
  equals(other: unknown): boolean;
  /**
   * Returns the DER encoding.
   * @throws {OverlengthError}
   */
  toDer(): Uint8Array;
  /**
   * Returns the container in DER, a PrivateKeyInfo without attributes.
   * @throws {CurveError} if no curve of the table has the identifier, or there is none.
   * @throws {OverlengthError}
   */
  toPkcs8Der(): Uint8Array;
  /**
   * Returns the DER encoding in PEM, with the label EC PRIVATE KEY. A text can't be wiped.
   * @throws {OverlengthError}
   */
  toPem(): string;
  /**
   * Returns the container in PEM, with the label PRIVATE KEY.
   * @throws {Sec1Error} as `toPkcs8Der`.
   */
  toPkcs8Pem(): string;
}

/** A public key with its curve (RFC 5480 section 2). */
export class EcPublicKey {
  /** Makes a key of these parts. The public key is copied. */
  constructor(curve: ObjectIdentifier, publicKey: Bytes);
  /**
   * Reads a key from its SubjectPublicKeyInfo in DER, which is all of the bytes.
   * @throws {Sec1Error} Truncated, Tag, Length, TrailingData or Value, the first fault; Curve, if
   * the algorithm isn't id-ecPublicKey with a curve of the table; PointEncoding.
   */
  static fromDer(data: Bytes): EcPublicKey;
  /**
   * Reads a key, as `fromDer` does, from the first block of PEM in a text whose label is PUBLIC
   * KEY.
   * @throws {PemError}
   * @throws {Sec1Error} as `fromDer`, with the offset in what the block encodes.
   */
  static fromPem(text: string | Bytes): EcPublicKey;
  readonly curve: ObjectIdentifier;
  /** A copy of the point's encoding. */
  readonly publicKey: Uint8Array;
  /**
   * The point. It isn't tested that it lies on the curve.
   * @throws {Sec1Error} Curve or PointEncoding, for a key that was made of other parts.
   */
  readonly point: Point;
  equals(other: unknown): boolean;
  /**
   * Returns the SubjectPublicKeyInfo in DER.
   * @throws {CurveError} if no curve of the table has the identifier.
   * @throws {PointEncodingError} if the public key isn't a point over its field.
   */
  toDer(): Uint8Array;
  /**
   * Returns the SubjectPublicKeyInfo in PEM, with the label PUBLIC KEY.
   * @throws {Sec1Error} as `toDer`.
   */
  toPem(): string;
}

/**
 * Returns the SubjectPublicKeyInfo of a certificate in DER (RFC 5280 section 4.1), of any
 * algorithm, for `EcPublicKey.fromDer`. No signature is verified, and no name, time or extension is
 * judged.
 * @throws {Sec1Error} Truncated, Tag, Length, TrailingData or Value: the first fault.
 */
export function certificatePublicKey(data: Bytes): Uint8Array;

/** A signature of ECDSA (RFC 3279 section 2.2.3). */
export class Signature {
  /** Makes a signature of two numbers in base 256, with or without bytes 0 in front. */
  constructor(r: Bytes, s: Bytes);
  /**
   * Reads a signature from its DER encoding, which is all of the bytes.
   * @throws {Sec1Error} Truncated, Tag, Length, TrailingData or Value: the first fault.
   */
  static fromDer(data: Bytes): Signature;
  /** A copy of the first number. One that was read has a byte 0 in front if its bit 8 is set. */
  readonly r: Uint8Array;
  /** A copy of the second number, in the same form. */
  readonly s: Uint8Array;
  /** Returns whether the numbers are the same. */
  equals(other: unknown): boolean;
  /**
   * Returns the DER encoding.
   * @throws {OverlengthError}
   */
  toDer(): Uint8Array;
}

/** The first byte of a point's encoding. */
export const Tag: {
  readonly IDENTITY: 0;
  readonly COMPRESSED_EVEN: 2;
  readonly COMPRESSED_ODD: 3;
  readonly UNCOMPRESSED: 4;
  readonly COMPACT: 5;
  readonly HYBRID_EVEN: 6;
  readonly HYBRID_ODD: 7;
};
export type Tag = (typeof Tag)[keyof typeof Tag];

/**
 * A point in its encoding (SEC1 v2.0 section 2.3.3), over a field whose elements have `fieldLength`
 * bytes. It isn't tested that it lies on a curve.
 */
export class Point {
  /**
   * Makes the point with this encoding, which is copied.
   * @throws {PointEncodingError}
   * @throws {FieldLengthError} if the length isn't 1 to 66.
   */
  constructor(encoding: Bytes, fieldLength: number);
  /**
   * Returns the uncompressed point with these coordinates, or its compressed form.
   * @throws {FieldLengthError}
   */
  static fromCoordinates(x: Bytes, y: Bytes, compress?: boolean): Point;
  /**
   * Returns the point at infinity.
   * @throws {FieldLengthError}
   */
  static identity(fieldLength: number): Point;
  /**
   * Returns the point with this hexadecimal text, whose letters are all of one case.
   * @throws {PointEncodingError}
   * @throws {FieldLengthError}
   */
  static fromHex(text: string, fieldLength: number): Point;
  /** A copy of the encoding. */
  readonly encoding: Uint8Array;
  readonly fieldLength: number;
  readonly tag: Tag;
  /** A copy of the first coordinate, `null` for the identity. */
  readonly x: Uint8Array | null;
  /** A copy of the second coordinate of an uncompressed or hybrid point. */
  readonly y: Uint8Array | null;
  /** Returns the encoding in hexadecimal. */
  hex(lowerCase?: boolean): string;
  /** Returns the compressed form of an uncompressed or hybrid point, any other as it is. */
  compress(): Point;
  /** Returns the uncompressed form of a hybrid point, any other as it is: no y is computed. */
  uncompress(): Point;
  /** Returns the hybrid form of an uncompressed point, any other as it is. */
  toHybrid(): Point;
  equals(other: unknown): boolean;
  /**
   * Returns -1, 0 or 1: points over one field are ordered by tag, then by coordinates as whole
   * numbers. Points over two fields are a `TypeError`.
   */
  compare(other: Point): number;
  /** Returns the encoding in hexadecimal. */
  toString(): string;
}

/**
 * An element of DER (X.690 section 8.1). `console.log` and `JSON.stringify` don't show its content,
 * which may be a private key.
 */
export class Element {
  /** Makes an element with this tag, its first byte. The content isn't copied. */
  constructor(tag: number, content: Bytes);
  /**
   * Reads the element at the beginning of the bytes, with any content, and returns it, and a copy
   * of the bytes after it.
   * @throws {Sec1Error} Tag or Length, if the bytes don't begin with a header of DER; Truncated, if
   * they end inside the header or the content. The offset is `null`.
   */
  static read(data: Bytes): [element: Element, rest: Uint8Array];
  readonly tag: number;
  readonly content: Uint8Array;
  equals(other: unknown): boolean;
  /**
   * Returns the DER encoding.
   * @throws {TagError} if no element has the tag: 0, one above 255, or one of more than one byte.
   * @throws {OverlengthError}
   */
  toDer(): Uint8Array;
}

/**
 * Returns the number of elements of the one tree of DER that the bytes are.
 * @throws {Sec1Error} Truncated, Tag, Length, TrailingData or Depth: the first fault.
 */
export function checkTree(data: Bytes): number;

/**
 * Returns the length, header and content together, that the header at the beginning announces, or
 * `null` if the bytes don't begin with a whole header. The content may be cut, and bytes may follow
 * it.
 */
export function documentLength(data: Bytes): number | null;

/** A row of a picture: an element's header on the input, or bytes that are no element. */
export interface PictureRow {
  /** The line that is printed. */
  readonly line: string;
  /** The lines below it, which say what is wrong with it. */
  readonly marks: readonly string[];
  /** The number of bytes before it, in the part that it is of. */
  readonly offset: number;
  readonly headerLength: number;
  /** The number of bytes of its content that have no other row. */
  readonly contentLength: number;
  /** The number of elements around it. */
  readonly depth: number;
  /** Whether its content isn't shown, and isn't known to be public. */
  readonly isHidden: boolean;
}

/** What is in an input. */
export interface Picture {
  /** Lines of at most 100 characters of ASCII, each of which ends in a line feed. */
  readonly text: string;
  /** Whether some part of the input is an EC private key (RFC 5915). */
  readonly hasKey: boolean;
  /** The rows of all parts, as they are without options: made when they are first asked for. */
  readonly rows: readonly PictureRow[];
}

/**
 * Returns the picture of any bytes: of DER, damaged perhaps, or of what a text of PEM, hexadecimal
 * or base64 encodes. Each byte is in one row. Shown are headers, contents that a form makes public,
 * and short numbers and identifiers; all contents if `all` is true. If they aren't 0, the text is of so
 * many `levels` alone, and of the element that begins at the `offset` alone.
 * @throws {RangeError} of more than 16,777,215 bytes, or a negative number.
 */
export function draw(
  data: Bytes, options?: { all?: boolean; levels?: number; offset?: number },
): Picture;
