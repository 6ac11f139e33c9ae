"""Structures whose contents have lengths around those at which a length gets another digit (X.690
section 10.1).
"""

from certificates import writer

SIZES = [100, 127, 128, 129, 250, 255, 256, 257, 300, 65_535, 65_536, 65_600]
NAME = "2b6570"


def structures(size):
    """Returns a word and fields for each, most of whose bytes are in one content of this size."""
    zeros = "00" * (size - 1)
    bits, key = "00" + zeros, "ab" + zeros
    octets = writer.element(0x04, bytes(size))
    key_attribute = writer.element(0x30, bytes.fromhex("06012a"), writer.element(0x31, bytes(size)))
    yield "signature", ["7f" + zeros, "01"]
    yield "signature", ["01", "80" + zeros]
    yield "public-key-info", [NAME, "-", bits]
    yield "public-key-info", [NAME, writer.element(0x30, bytes(size)).hex(), "00"]
    yield "public-key-info", ["2b" * size, "-", "00"]
    yield "private-key-info", ["0", NAME, "-", key, "-", "-"]
    yield "private-key-info", ["1", NAME, "-", "empty", key_attribute.hex(), bits]
    values = writer.element(0x0C, b"x" * size)
    attribute = writer.element(0x30, bytes.fromhex("0603550403"), values)
    extension = writer.element(0x30, bytes.fromhex("06012a"), octets)
    names = ["2", key, f"{NAME}:-", writer.element(0x31, attribute).hex()]
    fields = [*names, "u:240101000000Z", "g:20500101000000Z", "empty", NAME, "-", "00", bits, bits]
    yield "certificate", [*fields, extension.hex(), f"{NAME}:-", bits]


def lines():
    """Returns the lines of the structures, and those for them."""
    every = [it for size in SIZES for it in structures(size)]
    asked = [f"{word} {writer.write(word, fields).hex()}" for word, fields in every]
    return asked, [" ".join([*fields, "same"]) for _, fields in every]
