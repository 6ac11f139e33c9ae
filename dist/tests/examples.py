"""Runs each of the examples on stored keys, and compares what they print with what a second reader
says of the key: examples.py KEYS EXAMPLES PROGRAM.. The last line is `N passed, M failed`.
"""
import pathlib
import subprocess
import sys
import tempfile

FIELD_LENGTHS = {
    "prime192v1": 24, "secp224r1": 28, "prime256v1": 32, "secp384r1": 48, "secp521r1": 66,
    "secp256k1": 32, "brainpoolP224r1": 28, "brainpoolP256r1": 32, "brainpoolP320r1": 40,
    "brainpoolP384r1": 48, "brainpoolP512r1": 64, "secp160k1": 20, "sect233r1": None,
}  # fmt: skip
STATUSES = {
    "Truncated": "1 (input ends inside an element)",
    "Tag": "2 (unexpected or unsupported tag)",
    "Length": "3 (length not in DER form or above the limit)",
    "TrailingData": "4 (bytes after the value)",
    "Value": "5 (content not valid for its tag)",
}


def point_line(key, field_len):
    """Returns the line on the point of a public key whose encoding OpenSSL has made."""
    if field_len is None:
        return "no point: curve not in the table"
    if len(key) != {2: 1, 3: 1, 4: 2, 6: 2, 7: 2}[key[0]] * field_len + 1:
        return "no point: elliptic curve point encoding error"
    return f"point: tag {key[0]}, x at 1, y at {1 + field_len if key[0] >= 4 else 0}"


def wanted(reader, data, field_len):
    """Returns what an example has to print of a key."""
    try:
        private, curve, public = reader.key(data)
    except reader.Refused as e:
        return f"refused: {STATUSES[e.args[0]]}\n"
    lines = [f"private key: {len(private)} bytes at {data.index(private)}"]
    if curve is not None:
        lines.append("curve: " + ".".join(map(str, curve)))
    if public is None:
        lines.append("no point: the key has no public key")
    else:
        lines.append(f"public key: {public.hex().upper()}")
        no_curve = "no point: the key names no curve"
        lines.append(no_curve if curve is None else point_line(public, field_len))
    return "\n".join(lines) + "\n"


def stored_keys(folder):
    """Yields the name of the curve, the form and the bytes of each stored key on these curves."""
    lines = (folder / "openssl.txt").read_text(encoding="utf-8").splitlines()
    for title, digits in zip(lines[1::2], lines[2::2]):
        name, form = title[2:].split(", ", 1)
        if name in FIELD_LENGTHS:
            yield name, form, bytes.fromhex(digits)


def main(keys, examples, programs):
    sys.path.insert(0, str(keys))
    import reader

    text = (examples / "p256.txt").read_text(encoding="utf-8")
    cases = [("examples/p256.der", (examples / "p256.der").read_bytes(), text)]
    for name, form, data in stored_keys(keys):
        cases.append((f"{name}, {form}", data, wanted(reader, data, FIELD_LENGTHS[name])))
        if form == "uncompressed":
            cut = data[: len(data) // 2]
            cases.append((f"half of {name}", cut, wanted(reader, cut, None)))
            more = data + b"\0"
            cases.append((f"{name} and a byte", more, wanted(reader, more, None)))
    passed = failed = 0
    with tempfile.NamedTemporaryFile() as file:
        for name, data, text in cases:
            pathlib.Path(file.name).write_bytes(data)
            for program in programs:
                run = subprocess.run([program, file.name], capture_output=True, text=True)
                holds = run.stdout == text and run.returncode == text.startswith("refused")
                passed, failed = passed + holds, failed + (not holds)
                if not holds:
                    print(f"FAILED: {program} on {name}: {run.stdout!r} isn't {text!r}")
                    print(run.stderr[-200:])
    print(f"{len(cases)} keys, {len(programs)} programs")
    print(f"{passed} passed, {failed} failed")
    return failed != 0


if __name__ == "__main__":
    sys.exit(main(pathlib.Path(sys.argv[1]), pathlib.Path(sys.argv[2]), sys.argv[3:]))
