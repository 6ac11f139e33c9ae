"""The functions of the library over `bytes`, in the types of sec1.h.

A pointer and the length after it come from one object, which stays alive during the call, and what is
written is a place that no other call has meanwhile: that is all that sec1.h asks of a caller.

ctypes isn't told the types of the arguments: to convert them would take longer than the library takes to
read a key. So each argument is what `given`, `number` or `byref` returns, or a constant made of these."""
from __future__ import annotations

import ctypes
import pathlib
import sys
from array import array
from ctypes import Structure, byref, c_char, c_size_t, c_uint32
from typing import Any, Dict, List, Optional, Tuple

BUFFER = 7


class Part(Structure):
    """A part of some bytes, by its place."""

    _fields_ = [("offset", c_size_t), ("len", c_size_t), ("present", c_size_t)]

    def of(self, data: bytes) -> Optional[bytes]:
        """Returns this part of the bytes that it was read from, or None if it is absent."""
        return data[self.offset : self.offset + self.len] if self.present else None


Pair = Part * 2


class PointParts(Structure):
    """The tag of a point, and the places of its coordinates."""

    _fields_ = [("tag", c_size_t), ("x", Part), ("y", Part)]


_NAME = {"darwin": "libsec1.dylib", "win32": "sec1.dll"}.get(sys.platform, "libsec1.so.0")
_PATH = str(pathlib.Path(__file__).with_name(_NAME))
# The calls of which each takes less time than to let other threads run meanwhile.
_QUICK = """sec1_key_read_at sec1_identifier_check sec1_identifier_from_text sec1_identifier_to_text
    sec1_point_check sec1_point_read sec1_point_compare sec1_point_compress sec1_point_to_hybrid
    sec1_point_from_coordinates sec1_point_identity sec1_point_to_hex sec1_point_from_hex
    sec1_curve_field_len sec1_curve_name sec1_curve_from_name sec1_status_to_text""".split()
_OTHERS = """sec1_key_write sec1_private_key_read sec1_private_key_fault_at sec1_private_key_info_fault_at
    sec1_private_key_info_write sec1_public_key_read sec1_public_key_fault_at sec1_public_key_write
    sec1_signature_read sec1_signature_fault_at sec1_signature_write sec1_certificate_read_public_key
    sec1_certificate_fault_at sec1_tree_check sec1_tree_fault_at sec1_document_len sec1_element_read
    sec1_element_write sec1_pem_decode sec1_picture_write sec1_picture_lines""".split()
_FUNCTIONS: Dict[str, Any] = {}
for _calls, _names in ((ctypes.PyDLL(_PATH), _QUICK), (ctypes.CDLL(_PATH), _OTHERS)):
    for _name in _names:
        _FUNCTIONS[_name] = getattr(_calls, _name)
        _FUNCTIONS[_name].restype = c_uint32
key_read_at = _FUNCTIONS["sec1_key_read_at"]
identifier_check = _FUNCTIONS["sec1_identifier_check"]
identifier_from_text = _FUNCTIONS["sec1_identifier_from_text"]
point_check = _FUNCTIONS["sec1_point_check"]


class _Sizes(dict[int, Any]):
    """Each number as C takes it."""

    def __missing__(self, size: int) -> Any:
        return c_size_t.from_param(size)


# Those of most keys and points are made before.
SIZES = _Sizes((size, c_size_t.from_param(size)) for size in range(512))
# The length that an object of this type has, whatever a class below it says of its own.
length_of = bytes.__len__
number = SIZES.__getitem__


def given(data: bytes) -> Tuple[bytes, Any]:
    """Returns a pointer to the bytes, and their length. Anything but `bytes` is a TypeError."""
    return data, SIZES[length_of(data)]


# What calls write into: 270 bytes, the places of a key's three parts, and a number, each with a pointer to it.
# Whoever takes a place from the list has it alone until it is back there.
Place = Tuple[Any, Any, Any, Any, Any, Any]
places: List[Place] = []
ROOM = SIZES[270]
KeyParts = c_size_t * 9


def new_place() -> Place:
    """Returns one more place."""
    room, parts, stored = (c_char * 270)(), KeyParts(), c_size_t()
    return room, byref(room), parts, byref(parts), stored, byref(stored)


def call(name: str, *arguments: Any) -> int:
    """Calls a function, and returns its status."""
    return int(_FUNCTIONS[name](*arguments))


def written(name: str, *arguments: Any) -> Tuple[int, bytes]:
    """Returns the status, and what the function writes: in 270 bytes, or in as many as it asks for. Where it
    was written it is overwritten."""
    function = _FUNCTIONS[name]
    try:
        place = places.pop()
    except IndexError:
        place = new_place()
    room, out, _, _, length, stored = place
    status = function(*arguments, out, ROOM, stored)
    if status == BUFFER:
        room = ctypes.create_string_buffer(length.value)
        status = function(*arguments, byref(room), number(length.value), stored)
    data = room[: length.value] if status == 0 else b""
    room.raw = bytes(len(room))
    places.append(place)
    return status, data


def pem_decoded(text: bytes, label: bytes) -> Tuple[int, int, bytes]:
    """Returns the number of the first line of the first block of PEM with this label, or 0 if there is none, the
    status, and what the block encodes. Where it was decoded it is overwritten."""
    length, line = c_size_t(), c_size_t()
    room: Any = ctypes.create_string_buffer(2 * length_of(text) + 2)
    into = (byref(room), number(len(room)), byref(length), byref(line))
    status = call("sec1_pem_decode", *given(text), *given(label), *into)
    data = room[: length.value]
    ctypes.memset(room, 0, len(room))
    return line.value, status, data


def drawn(
    data: bytes, show_all: bool, levels: int = 0, offset: int = 0, json: bool = False, file: bytes = b""
) -> Tuple[int, bytes, int]:
    """Returns the status, the text of a picture, or lines of JSON, in which a file has this name, and whether some
    part of the bytes is a key. What was decoded, and the text, are overwritten in the memory that was theirs."""
    length, is_key, most = c_size_t(), c_size_t(), 4096
    options = (number(show_all), number(json), number(levels), number(offset), *given(file))
    while True:
        room = ctypes.create_string_buffer(2 * length_of(data) + 2 + most)
        text = ctypes.create_string_buffer(most)
        into = (byref(room), number(len(room)), byref(text), number(most), byref(length), byref(is_key))
        status = call("sec1_picture_write", *given(data), *options, *into)
        found = text.raw[: length.value] if status == 0 else b""
        for buffer in (room, text):
            ctypes.memset(buffer, 0, len(buffer))
        if status != BUFFER or length.value <= most:
            return status, found, is_key.value
        most = length.value


# How many numbers a line of a picture has: its kind, and of a row its offset, the lengths of its header and of its
# content, its depth, and 1 if the content is hidden. The kinds are those of enum sec1_line.
LINE = 6
ROW, MARK = 1, 2


def lined(data: bytes, count: int) -> Tuple[int, array[int]]:
    """Returns the status, and the numbers of so many lines of the picture that shows no private content. What was
    decoded is overwritten in the memory that was its."""
    found, numbers = c_size_t(), array("Q", bytes(8)) * (LINE * count)
    lines = (c_size_t * len(numbers)).from_buffer(numbers)
    room = ctypes.create_string_buffer(2 * length_of(data) + 2)
    into = (byref(room), number(len(room)), byref(lines), number(count), byref(found))
    status = call("sec1_picture_lines", *given(data), *into)
    ctypes.memset(room, 0, len(room))
    return status, numbers
