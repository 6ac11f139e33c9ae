// A program of each name, for `tsc --strict`; the lines below the last comment are refused by it.
import {
  type Bytes, certificatePublicKey, checkTree, Curve, CurveError, DepthError, documentLength,
  draw, EcPrivateKey, EcPublicKey, Element, FieldLengthError, isSupported, LengthError,
  ObjectIdentifier, OtherCurveError, OverlengthError, PemError, type Picture, type PictureRow,
  Point, PointEncodingError, ready, Sec1Error, Signature, Tag, TagError, TrailingDataError,
  TruncatedError, ValueContentError, version,
} from 'bridgeacacia-sec1';
import { Curve as Inside } from 'bridgeacacia-sec1/inline';

const bytes: Bytes = new Uint8Array(1);
const errors: (typeof Sec1Error)[] = [
  CurveError, DepthError, FieldLengthError, LengthError, OtherCurveError, OverlengthError,
  PemError, PointEncodingError, TagError, TrailingDataError, TruncatedError, ValueContentError,
];
const refused: [string | null, number | null, number | null] = ((e: Sec1Error) =>
  [e.kind, e.status, e.offset] as [string | null, number | null, number | null])(new TagError(3));
const identifier: ObjectIdentifier = ObjectIdentifier.fromText('1.2');
const curve: Curve = new Curve(identifier);
const key: EcPrivateKey = new EcPrivateKey(bytes, identifier, bytes);
const parts: [Uint8Array, ObjectIdentifier | null, Uint8Array | null] =
  [key.privateKey, key.curve, key.publicKey];
const keys: EcPrivateKey[] = [
  EcPrivateKey.fromDer(bytes), EcPrivateKey.fromPkcs8Der(bytes), EcPrivateKey.fromDerOrPkcs8(bytes),
  EcPrivateKey.fromPem(key.toPem()), EcPrivateKey.fromPem(bytes),
  new EcPrivateKey(new ArrayBuffer(1), null), new EcPrivateKey(new DataView(new ArrayBuffer(1))),
];
const [element, rest]: [Element, Uint8Array] = Element.read(bytes);
const written: Uint8Array[] =
  [key.toDer(), key.toPkcs8Der(), element.toDer(), element.content, rest];
const publicKey: EcPublicKey = EcPublicKey.fromDer(certificatePublicKey(bytes));
const point: Point = publicKey.point;
const points: Point[] = [
  point.compress(), point.uncompress(), point.toHybrid(), Point.identity(32),
  Point.fromHex('00', 32), Point.fromCoordinates(bytes, bytes, true), new Point(bytes, 32),
];
points.sort((a, b) => a.compare(b));
const coordinates: [Tag, Uint8Array | null, Uint8Array | null] = [point.tag, point.x, point.y];
const isHybrid: boolean = point.tag === Tag.HYBRID_EVEN || point.tag === Tag.HYBRID_ODD;
const signature: Signature = new Signature(bytes, bytes);
const numbers: number[] = [checkTree(bytes), curve.fieldLength, ...identifier.arcs];
const length: number | null = documentLength(bytes);
const picture: Picture = draw(bytes, { all: true, levels: 2, offset: element.tag });
const row: PictureRow = draw(bytes).rows[0];
const drawn: [boolean, number, readonly string[]] = [picture.hasKey, row.depth, row.marks];
const texts: string[] = [
  key.toPkcs8Pem(), EcPublicKey.fromPem(publicKey.toPem()).toPem(), picture.text, row.line, version,
  curve.name, point.hex(true), `${identifier}`,
];
const loaded: [boolean, Promise<void>, Curve] = [isSupported(), ready(), Inside.fromName('P-256')];
export default {
  loaded, errors, refused, parts, keys, written, coordinates, isHybrid, signature, numbers, length,
  texts, drawn,
};

// Refused, each.
// @ts-expect-error
new EcPrivateKey('text');
// @ts-expect-error
new EcPrivateKey(bytes, '1.2.840.10045.3.1.7');
// @ts-expect-error
new EcPrivateKey(bytes, curve);
// @ts-expect-error
key.privateKey = bytes;
// @ts-expect-error
new Point(bytes);
// @ts-expect-error
point.x.length;
// @ts-expect-error
point.tag = 9;
// @ts-expect-error
Point.fromHex(bytes, 32);
// @ts-expect-error
identifier.compare('1.2');
// @ts-expect-error
new TagError('text');
// @ts-expect-error
new TagError(3).offset.toFixed();
// @ts-expect-error
EcPrivateKey.fromPem([1, 2]);
// @ts-expect-error
draw(bytes, { levels: '2' });
// @ts-expect-error
Element.read(bytes).tag;
// @ts-expect-error
checkTree([1, 2]);
