"""Reads and writes EC private keys in DER (RFC 5915), also in PKCS #8 (RFC 5958), public keys (RFC 5480),
signatures of ECDSA (RFC 3279) and points of elliptic curves (SEC1 v2.0 section 2.3.3). A library that is proved to
meet its contracts decides what is accepted and what is written."""
from __future__ import annotations

import binascii
import dataclasses
import functools
import operator
from array import array
from ctypes import byref, c_int32, c_size_t
from dataclasses import dataclass, field
from enum import IntEnum
from typing import Any, ClassVar, Iterator, List, Optional, Tuple, Type, Union

from . import _library
from ._library import ROOM, SIZES, KeyParts, given, new_place, number, places
from ._library import identifier_check, identifier_from_text, key_read_at, point_check

__version__ = "0.2.0"

__all__ = [
    "BufferTooShort",
    "Curve",
    "CurveError",
    "DepthError",
    "EcPrivateKey",
    "EcPublicKey",
    "Element",
    "Error",
    "FieldLengthError",
    "LengthError",
    "ObjectIdentifier",
    "OtherCurveError",
    "OverlengthError",
    "PemError",
    "Picture",
    "PictureRow",
    "Point",
    "PointEncodingError",
    "Signature",
    "Tag",
    "TagError",
    "TrailingDataError",
    "TruncatedError",
    "ValueContentError",
    "certificate_public_key",
    "check_tree",
    "document_length",
    "draw",
]


class Error(ValueError):
    """A refusal. Each kind of refusal is a subclass, whose `status` is its number in `enum sec1_status` of
    sec1.h.

    `offset` is that of the first fault in the DER that was read, and None for calls that read none: of the
    tag byte, of the first byte of the length or of the content that is refused, of the first byte after the
    last part, or the number of bytes if they end before a tag. For CurveError it is that of the algorithm,
    and for PointEncodingError that of the key's BIT STRING."""

    __slots__ = ("offset",)
    text = "the library broke its contract"
    status: ClassVar[Optional[int]] = None

    def __init__(self, offset: Optional[int] = None) -> None:
        self.args = (self.text if offset is None else f"{self.text} at byte {offset}",)
        self.offset = offset

    def __reduce__(self) -> Any:
        return type(self), (self.offset,)


class TruncatedError(Error):
    """The input, or the element around a part, ends too early."""

    status = 1


class TagError(Error):
    """A tag that isn't the expected one, or that no element has."""

    status = 2


class LengthError(Error):
    """A length that isn't in the form of DER, or is above 268,435,455."""

    status = 3


class TrailingDataError(Error):
    """Bytes after the last part."""

    status = 4


class ValueContentError(Error):
    """A content that isn't valid for its tag, or a text that isn't an identifier's."""

    status = 5


class OverlengthError(Error):
    """A content to write is above 268,435,455 bytes."""

    status = 6


class BufferTooShort(Error):
    """The buffer to write into is too short. No call of this module raises it."""

    status = 7


class DepthError(Error):
    """More than 64 nested elements."""

    status = 8


class PointEncodingError(Error):
    """The bytes aren't the encoding of a point."""

    status = 9


class FieldLengthError(Error):
    """The length of field elements isn't 1 to 66, or two lengths differ."""

    status = 10


class CurveError(Error):
    """No curve of the library's table has this identifier or this name, or an algorithm isn't id-ecPublicKey."""

    status = 11


class OtherCurveError(Error):
    """A private key names another curve than its container. `offset` is that of the identifier's content in
    the key."""

    status = 12


class PemError(Error):
    """A text has no block of PEM with the label of what is to be read, or the first one has headers, as an encrypted
    one has, or no last line, or what is between isn't base64."""

    status = 13


_ERRORS = {kind.status: kind for kind in Error.__subclasses__()}
for _kind in Error.__subclasses__():
    _kind.text = _library.written("sec1_status_to_text", number(_kind.status))[1][:-1].decode("ascii")  # type: ignore[arg-type]


def _bytes(data: bytes) -> bytes:
    """Returns `bytes` as they are, and any other buffer as a copy. Anything else is a TypeError."""
    # A class below `bytes` may say anything of its length and its parts.
    return data if type(data) is bytes else bytes(memoryview(data))


def _text(text: str) -> bytes:
    """Returns a text in UTF-8. Anything but a text is a TypeError."""
    if not isinstance(text, str):
        raise TypeError(f"a text is expected, not {type(text).__name__}")
    return _encode(text, "utf-8", "surrogatepass")


def _number(value: int, refused: Type[ValueError]) -> int:
    """Returns a number that C can take, or raises this error. Anything but a whole number is a TypeError."""
    if type(value) is not int:
        if isinstance(value, bool):
            raise TypeError("a number is expected, not a bool")
        # A class below `int` may say anything of how its numbers compare.
        value = int.__index__(operator.index(value))
    # A negative number, or one of more than 64 bits, would become another one in C.
    if not 0 <= value < 1 << 64:
        raise refused
    return value


def _length(field_length: int) -> int:
    """Returns the length of field elements. Anything but a whole number is a TypeError."""
    return _number(field_length, FieldLengthError)


def _identifier(identifier: ObjectIdentifier) -> ObjectIdentifier:
    """Returns an identifier. Anything else is a TypeError."""
    if not isinstance(identifier, ObjectIdentifier):
        raise TypeError(f"an ObjectIdentifier is expected, not {type(identifier).__name__}")
    return identifier


def _check(status: int, fault_at: Optional[str] = None, data: bytes = b"") -> None:
    """Raises the error of a status other than 0, with the offset that `fault_at` stores."""
    if not status:
        return
    offset = c_size_t()
    if fault_at is not None:
        _library.call(fault_at, *given(data), byref(offset))
    raise _ERRORS.get(status, Error)(None if fault_at is None else offset.value)


def _written(name: str, *arguments: Any) -> bytes:
    """Returns what a function writes, or raises."""
    status, data = _library.written(name, *arguments)
    _check(status)
    return data


def _read(name: str, fault_at: str, parts: Any, data: bytes) -> None:
    """Stores the places of the parts that a call reads, or raises, with the offset that another one stores."""
    _check(_library.call(name, *given(data), byref(parts)), fault_at, data)


def _pair(name: str, fault_at: str, data: bytes) -> Tuple[bytes, bytes]:
    """Returns the two parts that a call reads, which are always present, or raises."""
    parts = _library.Pair()
    _read(name, fault_at, parts, data)
    return parts[0].of(data) or b"", parts[1].of(data) or b""


def _decoded(text: Union[str, bytes], *labels: str) -> Tuple[str, bytes]:
    """Returns the label of the first block of PEM (RFC 7468) in a text that has one of these, and what it encodes,
    or raises PemError."""
    data = _text(text) if isinstance(text, str) else _bytes(text)
    blocks = [(*_library.pem_decoded(data, label.encode("ascii")), label) for label in labels]
    line, status, found, label = min((it for it in blocks if it[0]), default=(0, PemError.status, b"", ""))
    _check(status)
    return label, found


def _pem(label: str, data: bytes) -> str:
    """Returns bytes in PEM, in the strict form (RFC 7468 section 3), whose lines have 64 digits."""
    digits = binascii.b2a_base64(data, newline=False).decode("ascii")
    lines = [digits[at : at + 64] for at in range(0, len(digits), 64)]
    return "\n".join([f"-----BEGIN {label}-----", *lines, f"-----END {label}-----", ""])


class Tag(IntEnum):
    """The first byte of a point's encoding."""

    IDENTITY = 0
    COMPRESSED_EVEN = 2
    COMPRESSED_ODD = 3
    UNCOMPRESSED = 4
    COMPACT = 5
    HYBRID_EVEN = 6
    HYBRID_ODD = 7


_encode, _new = str.encode, object.__new__


@functools.total_ordering
@dataclass(frozen=True, init=False)
class ObjectIdentifier:
    """An object identifier (X.690 section 8.19), by its content. `str` returns its dotted text. Identifiers are
    ordered by their arcs.

    Raises ValueContentError if the bytes aren't the content of an identifier."""

    __slots__ = ("content", "__weakref__")
    content: bytes

    def __init__(self, content: bytes) -> None:
        content = _bytes(content)
        _check(identifier_check(content, SIZES[len(content)]))
        _set_content(self, content)

    @classmethod
    def _of(cls, content: bytes) -> ObjectIdentifier:
        """Returns the identifier with a content that the library has checked or written."""
        if cls is not ObjectIdentifier:
            return cls(content)
        self = _new(cls)
        _set_content(self, content)
        return self

    @classmethod
    def from_text(cls, text: str) -> ObjectIdentifier:
        """Returns the identifier with this dotted text, or raises ValueContentError."""
        # What `_text`, `_written` and `_of` do, which would take as long again to be called.
        try:
            data = _encode(text)
        except (TypeError, UnicodeEncodeError):
            data = _text(text)
        try:
            place = places.pop()
        except IndexError:
            place = new_place()
        room, out, _, _, length, stored = place
        if status := identifier_from_text(data, SIZES[len(data)], out, ROOM, stored):
            places.append(place)
            raise _ERRORS.get(status, Error)
        content = room[: length.value]
        places.append(place)
        if cls is not ObjectIdentifier:
            return cls(content)
        self = _new(cls)
        _set_content(self, content)
        return self

    @property
    def arcs(self) -> Tuple[int, ...]:
        """The numbers of the dotted text."""
        return tuple(map(int, str(self).split(".")))

    def __lt__(self, other: object) -> bool:
        if not isinstance(other, ObjectIdentifier):
            return NotImplemented
        return self.arcs < other.arcs

    def __reduce__(self) -> Any:
        return type(self), (self.content,)

    def __str__(self) -> str:
        return _written("sec1_identifier_to_text", *given(self.content))[:-1].decode("ascii")

    def __repr__(self) -> str:
        return f"ObjectIdentifier.from_text({str(self)!r})"


_set_content = vars(ObjectIdentifier)["content"].__set__


@dataclass(frozen=True)
class Curve:
    """A curve of the library's table, which has the 34 curves over prime fields of SEC 2, ANSI X9.62 and
    RFC 5639, by its identifier. Raises CurveError if the table doesn't have it."""

    identifier: ObjectIdentifier
    name: str = field(init=False)
    field_length: int = field(init=False)

    def __post_init__(self) -> None:
        content, length = given(_identifier(self.identifier).content), c_size_t()
        _check(_library.call("sec1_curve_field_len", *content, byref(length)))
        name = _written("sec1_curve_name", *content)
        object.__setattr__(self, "name", name[:-1].decode("ascii"))
        object.__setattr__(self, "field_length", length.value)

    @classmethod
    def from_name(cls, name: str) -> Curve:
        """Returns the curve with this name, such as secp256r1, P-256 or prime256v1, or raises CurveError.
        The case of letters counts."""
        return cls(ObjectIdentifier._of(_written("sec1_curve_from_name", *given(_text(name)))))

    def __repr__(self) -> str:
        return f"Curve.from_name({self.name!r})"

    def __str__(self) -> str:
        return self.name


@dataclass(frozen=True, init=False)
class EcPrivateKey:
    """A private key (RFC 5915 section 3). Its `repr` doesn't show the private key."""

    __slots__ = ("private_key", "curve", "public_key", "__weakref__")
    private_key: bytes
    curve: Optional[ObjectIdentifier]
    public_key: Optional[bytes]

    def __init__(
        self,
        private_key: bytes,
        curve: Optional[ObjectIdentifier] = None,
        public_key: Optional[bytes] = None,
    ) -> None:
        _set_private_key(self, _bytes(private_key))
        _set_curve(self, None if curve is None else _identifier(curve))
        _set_public_key(self, None if public_key is None else _bytes(public_key))

    @classmethod
    def from_der(cls, data: bytes) -> EcPrivateKey:
        """Reads a key from its DER encoding, which is all of the bytes.

        Raises TruncatedError, TagError, LengthError, TrailingDataError or ValueContentError, the first
        fault from left to right."""
        # As in `ObjectIdentifier.from_text`.
        if type(data) is not bytes:
            data = _bytes(data)
        try:
            place = places.pop()
        except IndexError:
            place = new_place()
        _, _, parts, stored, fault, fault_at = place
        if status := key_read_at(data, SIZES[len(data)], stored, fault_at):
            offset = fault.value
            places.append(place)
            raise _ERRORS.get(status, Error)(offset)
        found = parts[:]
        places.append(place)
        return cls._with(data, found)

    @classmethod
    def from_der_or_pkcs8(cls, data: bytes) -> EcPrivateKey:
        """Reads a key by itself, as `from_der` does, or in its container of version 0 or 1 (PKCS #8, RFC 5958
        section 2), whose curve it has then.

        Raises what `from_der` raises, of the key or of the container; CurveError, at the container's
        algorithm, if that names no curve of the table; OtherCurveError if the key in it names another
        curve."""
        data, parts = _bytes(data), KeyParts()
        _read("sec1_private_key_read", "sec1_private_key_fault_at", parts, data)
        return cls._with(data, parts[:])

    @classmethod
    def from_pkcs8_der(cls, data: bytes) -> EcPrivateKey:
        """Reads a key in its container alone, and raises as `from_der_or_pkcs8` does of containers."""
        data, offset = _bytes(data), c_size_t()
        # What isn't a container is refused here, also a key by itself.
        if status := _library.call("sec1_private_key_info_fault_at", *given(data), byref(offset)):
            raise _ERRORS.get(status, Error)(offset.value)
        return cls.from_der_or_pkcs8(data)

    @classmethod
    def from_pem(cls, text: Union[str, bytes]) -> EcPrivateKey:
        """Reads a key from the first block of PEM in a text whose label is EC PRIVATE KEY, as `from_der` does, or
        PRIVATE KEY, as `from_pkcs8_der` does. Other blocks may be around it.

        Raises PemError if there is none, or it isn't whole or is encrypted; and what these raise, with the offset in
        what the block encodes."""
        label, data = _decoded(text, "EC PRIVATE KEY", "PRIVATE KEY")
        return cls.from_der(data) if label == "EC PRIVATE KEY" else cls.from_pkcs8_der(data)

    @classmethod
    def _with(cls, data: bytes, parts: List[int]) -> EcPrivateKey:
        """Returns the key whose parts the library has found at these places: each has its offset, its length, and
        whether it is present."""
        at, length, _, curve_at, curve_length, has_curve, public_at, public_length, has_public = parts
        private_key = data[at : at + length]
        curve = ObjectIdentifier._of(data[curve_at : curve_at + curve_length]) if has_curve else None
        public_key = data[public_at : public_at + public_length] if has_public else None
        if cls is not EcPrivateKey:
            return cls(private_key, curve, public_key)
        self = _new(cls)
        _set_private_key(self, private_key)
        _set_curve(self, curve)
        _set_public_key(self, public_key)
        return self

    def to_der(self) -> bytes:
        """Returns the DER encoding, or raises OverlengthError."""
        return self._written("sec1_key_write")

    def to_pkcs8_der(self) -> bytes:
        """Returns the container in DER, a PrivateKeyInfo without attributes. Raises CurveError if the table
        doesn't have the curve, or there is none, or OverlengthError."""
        return self._written("sec1_private_key_info_write")

    def to_pem(self) -> str:
        """Returns the DER encoding in PEM, with the label EC PRIVATE KEY, or raises as `to_der` does."""
        return _pem("EC PRIVATE KEY", self.to_der())

    def to_pkcs8_pem(self) -> str:
        """Returns the container in PEM, with the label PRIVATE KEY, or raises as `to_pkcs8_der` does."""
        return _pem("PRIVATE KEY", self.to_pkcs8_der())

    def _written(self, name: str) -> bytes:
        """Returns what a function writes of the parts, or raises."""
        curve = b"" if self.curve is None else self.curve.content
        parts = (*given(self.private_key), *given(curve), *given(self.public_key or b""))
        return _written(name, *parts, number(self.public_key is not None))

    def __reduce__(self) -> Any:
        return type(self), (self.private_key, self.curve, self.public_key)

    def __repr__(self) -> str:
        return f"{type(self).__qualname__}(curve={self.curve!r}, public_key={self.public_key!r})"


_set_private_key = vars(EcPrivateKey)["private_key"].__set__
_set_curve = vars(EcPrivateKey)["curve"].__set__
_set_public_key = vars(EcPrivateKey)["public_key"].__set__


@dataclass(frozen=True)
class EcPublicKey:
    """A public key with its curve (RFC 5480 section 2). It isn't tested that the point lies on the curve."""

    __slots__ = ("curve", "public_key", "__weakref__")
    curve: ObjectIdentifier
    public_key: bytes

    def __post_init__(self) -> None:
        _identifier(self.curve)
        object.__setattr__(self, "public_key", _bytes(self.public_key))

    @classmethod
    def from_der(cls, data: bytes) -> EcPublicKey:
        """Reads a key from its SubjectPublicKeyInfo in DER, which is all of the bytes.

        Raises TruncatedError, TagError, LengthError, TrailingDataError or ValueContentError, the first
        fault from left to right; CurveError if the algorithm isn't id-ecPublicKey with a curve of the table;
        PointEncodingError if the key isn't a point over its field."""
        curve, public_key = _pair("sec1_public_key_read", "sec1_public_key_fault_at", _bytes(data))
        return cls(ObjectIdentifier._of(curve), public_key)

    @classmethod
    def from_pem(cls, text: Union[str, bytes]) -> EcPublicKey:
        """Reads a key, as `from_der` does, from the first block of PEM in a text whose label is PUBLIC KEY.

        Raises PemError if there is none, or it isn't whole; and what `from_der` raises, with the offset in what the
        block encodes."""
        return cls.from_der(_decoded(text, "PUBLIC KEY")[1])

    @property
    def point(self) -> Point:
        """The point. Raises CurveError or PointEncodingError for a key that was made of other parts."""
        return Point(self.public_key, Curve(self.curve).field_length)

    def to_der(self) -> bytes:
        """Returns the SubjectPublicKeyInfo in DER. Raises CurveError if the table doesn't have the curve, or
        PointEncodingError if the key isn't a point over its field."""
        return _written("sec1_public_key_write", *given(self.curve.content), *given(self.public_key))

    def to_pem(self) -> str:
        """Returns the SubjectPublicKeyInfo in PEM, with the label PUBLIC KEY, or raises as `to_der` does."""
        return _pem("PUBLIC KEY", self.to_der())

    def __reduce__(self) -> Any:
        return type(self), (self.curve, self.public_key)


@dataclass(frozen=True, eq=False)
class Signature:
    """A signature of ECDSA (RFC 3279 section 2.2.3), by its two numbers in base 256, with or without bytes 0
    in front. Signatures with the same numbers are equal. It isn't tested that these are below the order of
    a curve."""

    __slots__ = ("r", "s", "__weakref__")
    r: bytes
    s: bytes

    def __post_init__(self) -> None:
        object.__setattr__(self, "r", _bytes(self.r))
        object.__setattr__(self, "s", _bytes(self.s))

    @classmethod
    def from_der(cls, data: bytes) -> Signature:
        """Reads a signature from its DER encoding, which is all of the bytes. A number has a byte 0 in front
        if bit 8 of the next byte is set.

        Raises TruncatedError, TagError, LengthError, TrailingDataError or ValueContentError, the first
        fault from left to right."""
        return cls(*_pair("sec1_signature_read", "sec1_signature_fault_at", _bytes(data)))

    def to_der(self) -> bytes:
        """Returns the DER encoding, or raises OverlengthError."""
        return _written("sec1_signature_write", *given(self.r), *given(self.s))

    def _numbers(self) -> Tuple[bytes, bytes]:
        """Returns both numbers without bytes 0 in front."""
        return self.r.lstrip(b"\0"), self.s.lstrip(b"\0")

    def __eq__(self, other: object) -> bool:
        if not isinstance(other, Signature):
            return NotImplemented
        return self._numbers() == other._numbers()

    def __hash__(self) -> int:
        return hash(self._numbers())

    def __reduce__(self) -> Any:
        return type(self), (self.r, self.s)


@functools.total_ordering
@dataclass(frozen=True, init=False, eq=False)
class Point:
    """A point in its encoding, over a field whose elements have `field_length` bytes.

    Points over one field are ordered by tag, then by coordinates as whole numbers. It isn't tested that
    a point lies on a curve. Raises PointEncodingError or FieldLengthError."""

    __slots__ = ("encoding", "field_length", "_parts", "__weakref__")
    encoding: bytes
    field_length: int

    def __init__(self, encoding: bytes, field_length: int) -> None:
        data, length = _bytes(encoding), _length(field_length)
        _check(point_check(data, SIZES[len(data)], SIZES[length]))
        _set_encoding(self, data)
        _set_field_length(self, length)

    @classmethod
    def _of(cls, encoding: bytes, field_length: int) -> Point:
        """Returns the point with an encoding that the library has written."""
        if cls is not Point:
            return cls(encoding, field_length)
        self = _new(cls)
        _set_encoding(self, encoding)
        _set_field_length(self, field_length)
        return self

    @property
    def tag(self) -> Tag:
        """The first byte of the encoding."""
        return self._read()[0]

    @property
    def x(self) -> Optional[bytes]:
        """The coordinate x, or None for the point at infinity."""
        return self._read()[1]

    @property
    def y(self) -> Optional[bytes]:
        """The coordinate y, or None where the encoding doesn't have it."""
        return self._read()[2]

    def _read(self) -> Tuple[Tag, Optional[bytes], Optional[bytes]]:
        """Returns the tag and the coordinates, which are looked for when they are first asked for."""
        found: Tuple[Tag, Optional[bytes], Optional[bytes]]
        try:
            found = _get_parts(self)
        except AttributeError:
            data, parts = self.encoding, _library.PointParts()
            _check(_library.call("sec1_point_read", *given(data), number(self.field_length), byref(parts)))
            found = Tag(parts.tag), parts.x.of(data), parts.y.of(data)
            _set_parts(self, found)
        return found

    @classmethod
    def from_coordinates(cls, x: bytes, y: bytes, compress: bool = False) -> Point:
        """Returns the uncompressed point with these coordinates, or its compressed form, or raises
        FieldLengthError."""
        x, y = _bytes(x), _bytes(y)
        form = number(bool(compress))
        return cls._of(_written("sec1_point_from_coordinates", *given(x), *given(y), form), len(x))

    @classmethod
    def identity(cls, field_length: int) -> Point:
        """Returns the point at infinity, or raises FieldLengthError."""
        return cls(_written("sec1_point_identity"), field_length)

    @classmethod
    def from_hex(cls, text: str, field_length: int) -> Point:
        """Returns the point with this hexadecimal text, whose letters are all of one case, or raises
        PointEncodingError or FieldLengthError."""
        data, length = _text(text), _length(field_length)
        return cls._of(_written("sec1_point_from_hex", *given(data), number(length)), length)

    def hex(self, lower_case: bool = False) -> str:
        """Returns the encoding in hexadecimal."""
        form = number(self.field_length), number(bool(lower_case))
        return _written("sec1_point_to_hex", *given(self.encoding), *form)[:-1].decode("ascii")

    def compress(self) -> Point:
        """Returns the compressed form of an uncompressed or hybrid point, any other as it is."""
        return self._form("sec1_point_compress")

    def uncompress(self) -> Point:
        """Returns the uncompressed form of a hybrid point, any other as it is: no y is computed."""
        _, x, y = self._read()
        return self if x is None or y is None else Point.from_coordinates(x, y)

    def to_hybrid(self) -> Point:
        """Returns the hybrid form of an uncompressed point, any other as it is."""
        return self._form("sec1_point_to_hybrid")

    def _form(self, name: str) -> Point:
        length = self.field_length
        return Point._of(_written(name, *given(self.encoding), number(length)), length)

    def _order(self, other: Point) -> int:
        order = c_int32()
        points = (*given(self.encoding), *given(other.encoding))
        _check(_library.call("sec1_point_compare", *points, number(self.field_length), byref(order)))
        return order.value

    def __eq__(self, other: object) -> bool:
        if not isinstance(other, Point):
            return NotImplemented
        return self.field_length == other.field_length and self._order(other) == 0

    def __lt__(self, other: object) -> bool:
        if not isinstance(other, Point) or self.field_length != other.field_length:
            return NotImplemented
        return self._order(other) < 0

    def __hash__(self) -> int:
        return hash((self.encoding, self.field_length))

    def __reduce__(self) -> Any:
        return type(self), (self.encoding, self.field_length)


_set_encoding = vars(Point)["encoding"].__set__
_set_field_length = vars(Point)["field_length"].__set__
_get_parts, _set_parts = vars(Point)["_parts"].__get__, vars(Point)["_parts"].__set__


def certificate_public_key(data: bytes) -> bytes:
    """Returns the SubjectPublicKeyInfo in a certificate (RFC 5280 section 4.1), which is all of the bytes, of
    any algorithm, for `EcPublicKey.from_der`. No signature is verified, and no name, time or extension is
    judged.

    Raises TruncatedError, TagError, LengthError, TrailingDataError or ValueContentError, the first fault
    from left to right."""
    data, part = _bytes(data), _library.Part()
    _read("sec1_certificate_read_public_key", "sec1_certificate_fault_at", part, data)
    return part.of(data) or b""


@dataclass(frozen=True)
class Element:
    """An element of DER (X.690 section 8.1), by its tag, the first byte, and its content. Its `repr` doesn't show the
    content, which may be a private key."""

    __slots__ = ("tag", "content", "__weakref__")
    tag: int
    content: bytes

    def __post_init__(self) -> None:
        object.__setattr__(self, "tag", _number(self.tag, TagError))
        object.__setattr__(self, "content", _bytes(self.content))

    @classmethod
    def read(cls, data: bytes) -> Tuple[Element, bytes]:
        """Reads the element at the beginning of the bytes, with any content, and returns it and the bytes after it.

        Raises TagError or LengthError if the bytes don't begin with a header of DER, and TruncatedError if they end
        inside the header or the content. The offset is None."""
        data, header, length = _bytes(data), c_size_t(), c_size_t()
        _check(_library.call("sec1_element_read", *given(data), byref(header), byref(length)))
        end = header.value + length.value
        return cls(data[0], data[header.value : end]), data[end:]

    def to_der(self) -> bytes:
        """Returns the DER encoding, or raises OverlengthError, or TagError if no element has the tag: 0, one above
        255, or one of more than one byte."""
        return _written("sec1_element_write", number(self.tag), *given(self.content))

    def __reduce__(self) -> Any:
        return type(self), (self.tag, self.content)

    def __repr__(self) -> str:
        return f"{type(self).__qualname__}(tag={self.tag:#04x})"


def check_tree(data: bytes) -> int:
    """Returns the number of elements of the one tree that the bytes are.

    Raises TruncatedError, TagError, LengthError, TrailingDataError or DepthError."""
    data, count = _bytes(data), c_size_t()
    _check(_library.call("sec1_tree_check", *given(data), byref(count)), "sec1_tree_fault_at", data)
    return count.value


def document_length(data: bytes) -> Optional[int]:
    """Returns the length, header and content together, that the header at the beginning announces, or
    None if the bytes don't begin with a whole header. The content may be cut, and bytes may follow it."""
    data, length = _bytes(data), c_size_t()
    _library.call("sec1_document_len", *given(data), byref(length))
    return length.value or None


@dataclass(frozen=True)
class PictureRow:
    """A row of a picture: an element's header, or bytes that are no element."""

    __slots__ = ("line", "marks", "offset", "header_length", "content_length", "depth", "is_hidden", "__weakref__")
    line: str
    """The line that is printed."""
    marks: Tuple[str, ...]
    """The lines below it, which say what is wrong with it."""
    offset: int
    """The number of bytes before it, in the part that it is of."""
    header_length: int
    content_length: int
    """The number of bytes of its content that have no other row."""
    depth: int
    """The number of elements around it."""
    is_hidden: bool
    """Whether its content isn't shown, and isn't known to be public."""

    def __reduce__(self) -> Any:
        return type(self), dataclasses.astuple(self)


@dataclass(frozen=True)
class Picture:
    """A picture of bytes: its text, of lines of ASCII that each end in a line feed, and whether some part of
    the bytes is an EC private key (RFC 5915)."""

    text: str
    has_key: bool
    _plain: str = field(default="", repr=False, compare=False)
    _numbers: array[int] = field(default_factory=lambda: array("Q"), repr=False, compare=False)

    @property
    def rows(self) -> Iterator[PictureRow]:
        """The rows of all parts, in order, as they are without options."""
        row, marks = None, []
        numbers = zip(*[iter(self._numbers)] * _library.LINE)
        for line, (kind, offset, header, content, depth, hidden) in zip(self._plain.splitlines(), numbers):
            if kind == _library.MARK:
                marks.append(line)
            elif kind == _library.ROW:
                if row:
                    yield PictureRow(row[0], tuple(marks), *row[1:])
                row, marks = (line, offset, header, content, depth, hidden == 1), []
        if row:
            yield PictureRow(row[0], tuple(marks), *row[1:])


def draw(data: bytes, show_all: bool = False, *, levels: int = 0, offset: int = 0) -> Picture:
    """Returns the picture of any bytes: of DER, damaged perhaps, or of what a text of PEM, hexadecimal or
    base64 encodes. Each byte is in one row. Shown are headers, contents that a form makes public, and short
    numbers and identifiers; all contents if `show_all` is true. If they aren't 0, the text is of so many `levels`
    alone, and of the element that begins at the `offset` alone. An element above 16,777,215 bytes isn't drawn."""
    data = _bytes(data)
    levels, offset = _number(levels, ValueError), _number(offset, ValueError)
    status, text, is_key = _library.drawn(data, False)
    _check(status)
    status, numbers = _library.lined(data, text.count(b"\n"))
    _check(status)
    plain = shown = text.decode("ascii")
    if show_all or levels or offset:
        status, text, _ = _library.drawn(data, bool(show_all), levels, offset)
        _check(status)
        shown = text.decode("ascii")
    return Picture(shown, is_key == 1, plain, numbers)
