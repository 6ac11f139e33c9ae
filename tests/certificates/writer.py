"""Writes a structure in DER (X.690) from the fields that were printed of it, and nothing else."""


def element(tag, *parts):
    content = b"".join(parts)
    size = len(content)
    if size < 0x80:
        return bytes([tag, size]) + content
    digits = size.to_bytes((size.bit_length() + 7) // 8, "big")
    return bytes([tag, 0x80 + len(digits)]) + digits + content


def data(field):
    return b"" if field in ("empty", "-") else bytes.fromhex(field)


def optional(tag, field):
    return b"" if field == "-" else element(tag, data(field))


def algorithm(name, parameters):
    return element(0x30, element(0x06, data(name)), data(parameters))


def public_key_info(name, parameters, bits):
    return element(0x30, algorithm(name, parameters), element(0x03, data(bits)))


def private_key_info(version, name, parameters, key, attributes, public):
    head = element(0x02, bytes([int(version)])) + algorithm(name, parameters)
    tail = element(0x04, data(key)) + optional(0xA0, attributes) + optional(0x81, public)
    return element(0x30, head, tail)


def signature(*numbers):
    digits = map(data, numbers)
    return element(0x30, *(element(0x02, b"\0" * (it[0] >= 0x80), it) for it in digits))


def time(field):
    return element({"u": 0x17, "g": 0x18}[field[0]], field[2:].encode())


def certificate(version, serial, inner, issuer, start, end, subject, *others):
    *key, issuer_id, subject_id, extensions, outer, bits = others
    parts = [element(0x02, data(serial)), algorithm(*inner.split(":"))]
    if version != "1":
        parts.insert(0, element(0xA0, element(0x02, bytes([int(version) - 1]))))
    parts += [element(0x30, data(issuer)), element(0x30, time(start), time(end))]
    parts += [element(0x30, data(subject)), public_key_info(*key)]
    parts += [optional(0x81, issuer_id), optional(0x82, subject_id)]
    if extensions != "-":
        parts.append(element(0xA3, element(0x30, data(extensions))))
    signed = element(0x30, *parts)
    return element(0x30, signed, algorithm(*outer.split(":")), element(0x03, data(bits)))


def write(word, fields):
    """Writes the structure by the function that has its name."""
    return globals()[word.replace("-", "_")](*fields)
