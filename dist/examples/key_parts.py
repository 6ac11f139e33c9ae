"""Prints the parts of an EC private key in DER: key_parts.py LIBRARY FILE"""
import ctypes
import sys
from ctypes import POINTER, Structure, byref, c_char, c_char_p, c_size_t, c_uint32

# as in sec1.h
SEC1_IDENTIFIER_TEXT_MAX = 158


class Part(Structure):
    _fields_ = [("offset", c_size_t), ("len", c_size_t), ("present", c_size_t)]

    def of(self, data):
        """Returns this part of the bytes that it was read from, or None where it is absent."""
        return data[self.offset : self.offset + self.len] if self.present else None


class KeyParts(Structure):
    _fields_ = [("private_key", Part), ("curve", Part), ("public_key", Part)]


class PointParts(Structure):
    _fields_ = [("tag", c_size_t), ("x", Part), ("y", Part)]


def load(path):
    """Returns the library with the types of its functions."""
    sec1 = ctypes.CDLL(path)
    functions = {
        "sec1_key_read": [c_char_p, c_size_t, POINTER(KeyParts)],
        "sec1_point_read": [c_char_p, c_size_t, c_size_t, POINTER(PointParts)],
        "sec1_identifier_to_text": [
            c_char_p, c_size_t, POINTER(c_char), c_size_t, POINTER(c_size_t),
        ],
        "sec1_curve_field_len": [c_char_p, c_size_t, POINTER(c_size_t)],
        "sec1_status_text": [c_uint32],
    }
    for name, arguments in functions.items():
        function = getattr(sec1, name)
        function.argtypes, function.restype = arguments, c_uint32
    sec1.sec1_status_text.restype = c_char_p
    return sec1


def point_line(sec1, public_key, field_len):
    """Returns the line that tells the places of a point's coordinates, or why there are none."""
    point = PointParts()
    status = sec1.sec1_point_read(public_key, len(public_key), field_len, byref(point))
    if status:
        return f"no point: {sec1.sec1_status_text(status).decode()}"
    return f"point: tag {point.tag}, x at {point.x.offset}, y at {point.y.offset}"


def main(library, file):
    sec1 = load(library)
    with open(file, "rb") as handle:
        key = handle.read()
    parts = KeyParts()
    status = sec1.sec1_key_read(key, len(key), byref(parts))
    if status:
        print(f"refused: {status} ({sec1.sec1_status_text(status).decode()})")
        return 1
    print(f"private key: {parts.private_key.len} bytes at {parts.private_key.offset}")
    curve = parts.curve.of(key)
    if curve is not None:
        text, length = ctypes.create_string_buffer(SEC1_IDENTIFIER_TEXT_MAX), c_size_t()
        status = sec1.sec1_identifier_to_text(curve, len(curve), text, len(text), byref(length))
        name = (sec1.sec1_status_text(status) if status else text.value).decode()
        print(f"curve: {name}")
    public_key = parts.public_key.of(key)
    if public_key is None:
        print("no point: the key has no public key")
        return 0
    print(f"public key: {public_key.hex().upper()}")
    if curve is None:
        print("no point: the key names no curve")
        return 0
    field_len = c_size_t()
    status = sec1.sec1_curve_field_len(curve, len(curve), byref(field_len))
    if status:
        print(f"no point: {sec1.sec1_status_text(status).decode()}")
    else:
        print(point_line(sec1, public_key, field_len.value))
    return 0


if __name__ == "__main__":
    sys.exit(main(*sys.argv[1:]))
