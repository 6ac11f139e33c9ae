"""Faults of the module, for tests/plant."""
import pathlib
import re
import sys
import zipfile

import build_wheel

HERE = pathlib.Path(__file__).resolve().parent
TESTS = HERE / "tests/test_sec1.py"
EQUAL = "    public_key: Optional[bytes]\n\n    def __init__("
EQUAL_BY = ("    public_key: Optional[bytes]\n\n    def __eq__(self, other): return ({0}) == ({1})\n"
            "    __hash__ = object.__hash__\n\n    def __init__(")
FAULTS = {"__init__.py": [
    *[(EQUAL,
       EQUAL_BY.format(*(", ".join(part.format(it) for part in parts) for it in ("self", "other"))))
      for parts in (("{}.curve", "{}.public_key"), ("{}.private_key[:8]", "{}.curve",
                "{}.public_key"), ("{}.private_key", "{}.public_key"), ("{}.private_key",
                "{}.curve"))],
    'f"{type(self).__qualname__}([[~>{self.private_key!r}, ]]curve=',
    ("    @property\n    def arcs", "    def __eq__(self, other): return len(self.content) == "
     "len(other.content)\n    __hash__ = object.__hash__\n\n    @property\n    def arcs"),
    ("return self.arcs < other.arcs", "return self.content < other.content",
     "return str(self) < str(other)"),
    ("    status = 6\n", "    status = 7\n"), ("    status = 7\n", "    status = 6\n"),
    ("    status = 8\n", "    status = 12\n"),
    ("_ERRORS.get(status, Error)(None", "_ERRORS.get(status + 1, Error)(None"),
    ('f"{self.text} at byte {offset}"', "self.text"),
    ("self.offset = offset\n", "self.offset = offset and offset + 1\n"),
    ("return type(self), (self.offset,)", "return type(self), ()"),
    ("if isinstance(value, bool):", "if False:"),
    ("int.__index__(operator.index(value))", "int(value)", "value"),
    ("if type(value) is not int:", "if not isinstance(value, int):"),
    ("0 <= value < 1 << 64", "value < 1 << 64", "0 <= value"),
    ("_number(field_length, FieldLengthError)", "_number(field_length, TagError)"),
    # elements
    ('object.__setattr__(self, "tag", _number(self.tag, TagError))', "_number(self.tag, TagError)"),
    ("_number(self.tag, TagError)", "operator.index(self.tag)",
     "_number(self.tag, FieldLengthError)"),
    '"content", [[_bytes(self.content)~>self.content]])\n\n    @classmethod\n    def read',
    ("return cls(data[0], data[header.value : end]), data[end:]",
     "return Element(data[0], data[header.value : end]), data[end:]",
     "return cls(data[0], data[2:end]), data[end:]",
     "return cls(data[0] & 0xDF, data[header.value : end]), data[end:]",
     'return cls(data[0], data[header.value : end]), b""'),
    ("end = header.value + length.value", "end = length.value + 2"),
    ("data, header, length = _bytes(data),", "data, header, length = data,"),
    ('"sec1_element_write", number(self.tag)', '"sec1_element_write", number(self.tag & 0xFF)'),
    ("return type(self), (self.tag, self.content)", "return Element, (self.tag, self.content)"),
    ("(tag={self.tag:#04x})", "(tag={self.tag:#04x}, content={self.content!r})"),
    "@dataclass([[frozen=True~>frozen=True, eq=False~>unsafe_hash=True]])\nclass Element",
    # parts of pictures
    ("if show_all or levels or offset:", "if show_all or levels:", "if show_all or offset:",
     "if show_all is True or levels or offset:", "if levels or offset:"),
    ("_library.drawn(data, bool(show_all), levels, offset)",
     "_library.drawn(data, True, levels, offset)",
     "_library.drawn(data, bool(show_all), offset, levels)",
     "_library.drawn(data, False, levels, offset)"),
    ("_number(levels, ValueError), ", "levels, ", "_number(levels, TagError), "),
    (", _number(offset, ValueError)", ", offset"),
    "return self if x is None or y is [[~>not ]]None else Point.from",
    ("Point.from_coordinates(x, y)\n", "Point.from_coordinates(y, x)\n"),
    ("if not isinstance(text, str):", "if False:"),
    ("if not isinstance(identifier, ObjectIdentifier):", "if False:"),
    ("None if curve is None else _identifier(curve)", "curve"),
    ("(self, _bytes(private_key))", "(self, private_key)"),
    ("None if public_key is None else _bytes(public_key)", "public_key"),
    '    data, parts = _bytes(data)[[~>.rstrip(b"\\n")]], KeyParts()',
    ("key_read_at(data, SIZES[len(data)]", 'key_read_at(data, SIZES[len(data.rstrip(b"\\n"))]'),
    ("Tag(parts.tag), parts.x.of(data)", "Tag(parts.tag), parts.y.of(data)"),
    ("found = Tag(parts.tag), ", "found = parts.tag, "),
    ("return self._read()[1]", "return self._read()[2]"),
    ("return self._read()[2]", "return self._read()[1]"),
    # what is read without a second call
    ("data[at : at + length]", "data[at:]"),
    ("data[curve_at : curve_at + curve_length]", "data[curve_at - 1 : curve_at + curve_length]"),
    ("if has_curve else None", "if curve_length > 7 else None"),
    ("if has_public else None", "if public_length else None"),
    "_ERRORS.get(status, Error)([[offset~>at~>]])",
    ("            raise _ERRORS.get(status, Error)\n", "            raise Error\n"),
    ("        if cls is not EcPrivateKey:", "        if False:"),
    ("        if cls is not Point:", "        if False:"),
    ("        content = room[: length.value]\n        places.append(place)\n        if cls is not ObjectIdentifier:",
     "        content = room[: length.value]\n        places.append(place)\n        if False:"),
    ("            offset = fault.value\n            places.append(place)\n",
     "            places.append(place)\n            offset = fault.value\n"),
    ("        found = parts[:]\n        places.append(place)\n",
     "        places.append(place)\n        found = parts[:]\n"),
    *[("            place = places.pop()\n        except IndexError:\n            place = new_place()\n        " + it,
       "            place = places[-1]\n        except IndexError:\n            place = new_place()\n        " + it)
      for it in ("room, out", "_, _, parts")],
    ("return type(self), (self.content,)", "return ObjectIdentifier, (self.content[:-1],)"),
    "return [[type(self)~>Point]], (self.encoding, self.field_length)",
    "return type(self), (self.private_key, self.curve[[, self.public_key~>]])",
    *[('%s", "__weakref__")' % it, '%s")' % it)
      for it in ('= ("content', '"tag", "content', '"private_key", "curve", "public_key',
                '"_parts')],
    *[(f"@dataclass(frozen=True, {it}", f"@dataclass({it}")
      for it in ("init=False)\nclass ObjectIdentifier", "init=False)\nclass EcPrivateKey",
                "init=False, eq=False)\nclass Point", "eq=False)\nclass Signature")],
    *[(f"@dataclass(frozen=True)\nclass {it}", f"@dataclass(unsafe_hash=True)\nclass {it}")
      for it in ("Curve", "Picture:", "PictureRow", "EcPublicKey")],
    # values that say something else than they are
    ("return data if type(data) is bytes else", "return data if isinstance(data, bytes) else"),
    ("        if type(data) is not bytes:", "        if not isinstance(data, bytes):"),
    ("    return _encode(text, ", "    return text.encode("),
    ("            data = _encode(text)\n", "            data = text.encode()\n"),
    ("(TypeError, UnicodeEncodeError)", "TypeError"),
    "self.[[field_length == other.field_length and self.~>]]_order(other) == 0",
    ("self._order(other) == 0", "self._order(other) <= 0"),
    ("self._order(other) < 0", "self._order(other) > 0"),
    ("return order.value", "return self.tag - other.tag"),
    ("number(self.public_key is not None)", "number(bool(self.public_key))"),
    ("    HYBRID_EVEN = 6\n    HYBRID_ODD = 7", "    HYBRID_ODD = 6\n    HYBRID_EVEN = 7"),
    ('f"Curve.from_name({self.name!r})"', 'f"Curve({self.name!r})"'),
    ('f"ObjectIdentifier.from_text({str(self)!r})"', 'f"ObjectIdentifier({str(self)!r})"'),
    ('__version__ = "0.2.0"', '__version__ = "0.2.1"'),
    ('self._form("sec1_point_compress")', 'self._form("sec1_point_to_hybrid")'),
    ("form = number(bool(compress))", "form = number(not compress)"),
    ("number(bool(lower_case))", "number(not lower_case)"),
    ("return length.value or None", "return length.value"),
    ('"sec1_tree_fault_at", data)', '"sec1_certificate_fault_at", data)'),
    "data, length = _text(text), [[_length(field_length)~>field_length]]",
    ("    status = 12\n", "    status = 13\n"),
    ('"sec1_status_to_text", number(_kind.status))', '"sec1_status_to_text", number(12))'),
    ("[1][:-1].decode", "[1].decode"),
    ("for _kind in Error.__subclasses__():", "for _kind in Error.__subclasses__()[1:]:"),
    # parts of keys, containers and signatures
    'byref(parts))[[, fault_at, data~>, "sec1_tree_fault_at", data~>]])',
    *[(f'"{it}_fault_at"', '"sec1_key_fault_at"')
      for it in ("sec1_public_key", "sec1_signature", "sec1_certificate")],
    ('return parts[0].of(data) or b""', 'return parts[1].of(data) or b""'),
    ('or b"", parts[1].of(data) or b""', 'or b"", parts[0].of(data) or b""'),
    ("raise _ERRORS.get(status, Error)(offset.value)", "raise _ERRORS.get(status, Error)"),
    ('if status := _library.call("sec1_private_key_info_fault_at", *given(data), byref(offset)):',
     "if status := 0:"),
    "        return [[cls~>EcPrivateKey]].from_der_or_pkcs8(data)\n",
    ('self._written("sec1_private_key_info_write")', 'self._written("sec1_key_write")'),
    ('self._written("sec1_key_write")', 'self._written("sec1_private_key_info_write")'),
    ("        _identifier(self.curve)\n", ""),
    ('"public_key", _bytes(self.public_key))', '"public_key", self.public_key)'),
    ('"r", _bytes(self.r))', '"r", self.r)', '"r", _bytes(self.r).lstrip(b"\\0"))'),
    ('"s", _bytes(self.s))', '"s", self.s)'),
    "return [[cls~>EcPublicKey]](ObjectIdentifier._of(curve), public_key)",
    ('return cls(*_pair("sec1_signature_read"', 'return Signature(*_pair("sec1_signature_read"'),
    ('"sec1_signature_fault_at", _bytes(data))', '"sec1_signature_fault_at", _bytes(data))[::-1]'),
    "Point(self.public_key, [[Curve(self.curve).field_length~>len(self.public_key) - 1]])",
    ("*given(self.r), *given(self.s)", "*given(self.s), *given(self.r)"),
    "return [[type(self)~>EcPublicKey]], (self.curve, self.public_key)",
    ("return type(self), (self.r, self.s)", "return type(self), (self.s, self.r)"),
    ('return self.r.lstrip(b"\\0"), self.s.lstrip(b"\\0")', "return self.r, self.s",
     'return self.r.lstrip(b"\\0"), b""', 'return self.r.strip(b"\\0"), self.s.strip(b"\\0")'),
    ("return hash(self._numbers())", "return hash((self.r, self.s))"),
    '"public_key"[[, "__weakref__"~>]])\n    curve: ObjectIdentifier\n',
    ('"s", "__weakref__")', '"s")'),
    # values
    ("self.text if offset is None else", "self.text if not offset else"),
    ('_encode(text, "utf-8", "surrogatepass")', '_encode(text, "utf-8", "ignore")'),
    ("return data if type(data) is bytes else bytes(memoryview(data))", "return bytes(data)",
     "return data if type(data) is bytes else bytes(memoryview(data).cast('B'))",
     "return data if isinstance(data, (bytes, bytearray)) and type(data) in (bytes, bytearray) else bytes(memoryview(data))"),
    ('map(int, str(self).split("."))', 'map(lambda it: int(it) % (1 << 31), str(self).split("."))',
     'map(int, str(self).split(".")[:8])'),
    ("_set_encoding(self, data)", "_set_encoding(self, encoding)"),
    ("_set_field_length(self, length)", "_set_field_length(self, field_length)"),
    "@[[functools.total_ordering\n@~>]]dataclass(frozen=True, init=False, eq=False)",
    "@[[functools.total_ordering\n@~>]]dataclass(frozen=True, init=False)\n",
    *[(f'    "{it}",\n', "")
      for it in ("EcPublicKey", "Signature", "certificate_public_key", "check_tree",
                "document_length", "draw", "Picture", "Tag")],
    *[(f"isinstance(other, {it}):\n            return NotImplemented\n        return self.{then}",
       f"isinstance(other, {it}):\n            return False\n        return self.{then}")
      for it, then in (("Point", "field_length =="), ("Signature", "_numbers"),
                ("ObjectIdentifier", "arcs"))],
    "self.field_length != other.field_length:\n            return [[NotImplemented~>False]]",
    ('    return part.of(data) or b""', "    return data"),
    # pictures
    ("    data = _bytes(data)\n    levels, offset", "    levels, offset"),
    ("_library.drawn(data, False)", "_library.drawn(data, True)"),
    ("show_all: bool = False", "show_all: bool = True"),
    ("    _check(status)\n    status, numbers", "    status, numbers"),
    ("    _check(status)\n    plain =", "    plain ="),
    ("        _check(status)\n        shown", "        shown"),
    ('plain = shown = text.decode("ascii")', 'plain = shown = text.decode("ascii").rstrip()'),
    ("Picture(shown, is_key == 1,", "Picture(shown, is_key == 0,"),
    # their rows
    ("(line, offset, header, content, depth, hidden == 1)",
     "(line, offset, content, header, depth, hidden == 1)",
     "(line, depth, header, content, offset, hidden == 1)",
     "(line, offset, header, content, depth, hidden == 0)",
     "(line, offset, header, content, depth, hidden)"),
    ("hidden == 1), []", "hidden == 1), marks"),
    "[[tuple(marks)~>()~>marks]], *row[1:])\n                row",
    "        if [[row~>False]]:\n            yield PictureRow",
    ("zip(self._plain.splitlines(), numbers)", "zip(self.text.splitlines(), numbers)"),
    ('_plain: str = field(default="", repr=False,', '_plain: str = field(default="",'),
    '_plain: str = field(default="", repr=False[[, compare=False~>]])',
    ("return type(self), dataclasses.astuple(self)",
     "return PictureRow, dataclasses.astuple(self)[::-1]"),
    ('"is_hidden", "__weakref__")', '"is_hidden")'),
    # PEM
    ("min((it for it in blocks if it[0])", "max((it for it in blocks if it[0])"),
    ("(it for it in blocks if it[0])", "(it for it in blocks if not it[1])"),
    ('default=(0, PemError.status, b"", "")', 'default=(0, 0, b"", "")'),
    ('cls.from_der(data) if label == "EC PRIVATE KEY" else cls.from_pkcs8_der(data)',
     "cls.from_der_or_pkcs8(data)"),
    '[[cls~>EcPrivateKey]].from_der(data) if label == "EC PRIVATE KEY" else',
    ('cls.from_der(_decoded(text, "PUBLIC KEY")[1])',
     'cls.from_der(_decoded(text, "EC PRIVATE KEY", "PUBLIC KEY")[1])',
     'EcPublicKey.from_der(_decoded(text, "PUBLIC KEY")[1])'),
    ("digits[at : at + 64] for at in range(0, len(digits), 64)",
     "digits[at : at + 76] for at in range(0, len(digits), 76)"),
    ('f"-----END {label}-----", ""]', 'f"-----END {label}-----"]'),
    ('return _pem("EC PRIVATE KEY", self.to_der())', 'return _pem("PRIVATE KEY", self.to_der())'),
    'return _pem("PRIVATE KEY", self.[[to_pkcs8_der~>to_der]]())',
    ('return _pem("PUBLIC KEY", self.to_der())', 'return _pem("EC PUBLIC KEY", self.to_der())'),
    ("_text(text) if isinstance(text, str) else _bytes(text)", "_bytes(text)", "_text(text)",
     "text.encode() if isinstance(text, str) else _bytes(text)"),
    ("    status = 13\n", "    status = 12\n"),
], "_library.py": [
    "number(show_all), number([[json~>1]]), number(levels)",
    ("number(levels), number(offset), *given", "number(levels), number(levels), *given"),
    ("return data, SIZES[length_of(data)]", "return data, SIZES[len(data)]"),
    "create_string_buffer(2 * length_of(data) + 2 + most[[~> % 7]])",
    ("if self.present else None", "if True else None"),
    ("create_string_buffer(length.value)", "create_string_buffer(length.value - 1)"),
    ("byref(room), number(length.value), stored", "byref(room), number(270), stored"),
    ("room[: length.value] if", "room[:] if"), ("    room.raw = bytes(len(room))\n", ""),
    ("        place = places.pop()\n", "        place = places[-1]\n"),
    ("KeyParts = c_size_t * 9", "KeyParts = c_uint32 * 18"), ('"libsec1.so.0"', '"libsec1.so"'),
    *[("create_string_buffer(2 * length_of(data) + 2 + most)", f"create_string_buffer({it})")
      for it in ("length_of(data) + 2 + most", "2 * length_of(data) + 1 + most",
                "2 * length_of(data) + 2")],
    ("(number(show_all), number(json),", "(number(0), number(0),"),
    ("byref(text), number(most), byref(length)", "byref(text), number(most - 1), byref(length)"),
    ("text.raw[: length.value] if", "text.raw if", "text.raw[: length.value - 1] if"),
    ("            ctypes.memset(buffer, 0, len(buffer))\n", "            pass\n"),
    "memset(buffer, [[0, len(buffer)~>0, len(buffer) - 1~>1, len(buffer)]])",
    ("for buffer in (room, text):", "for buffer in (room,):", "for buffer in (text,):"),
    ("if status != BUFFER or length.value <= most:", "if True:"),
    ("return status, found, is_key.value", "return 0, found, is_key.value",
     "return status, found, 1"),
    ("LINE = 6", "LINE = 7"), ("ROW, MARK = 1, 2", "ROW, MARK = 2, 1"),
    "    [[ctypes.memset(room, 0, len(room))\n    ~>]]return status, numbers",
    ("data = room[: length.value]\n    ctypes", "data = room[:]\n    ctypes"),
    ("    ctypes.memset(room, 0, len(room))\n    return line", "    return line"),
    "create_string_buffer(2 * length_of(text) + [[2~>1]])",
    ("return line.value, status, data", "return 1, status, data"),
    ("*given(file))", '*given(b""))'),
], "__main__.py": [
    ("json=as_json", "json=False", "json=True"),
    ("drawn(path, given.all, given.json, path)", 'drawn(path, given.all, given.json, "")',
     "drawn(path, given.all, given.json, os.path.basename(path))",
     "drawn(path, given.all, False, path)"),
    ("file=os.fsencode(file)", 'file=b""', "file=os.fsencode(path)",
     "file=os.fsencode(escaped(file))"),
    ('text.decode("ascii")', 'text[:-1].decode("ascii")', 'text[:100_000].decode("ascii")'),
    ("    if not given.files:\n", "    if False:\n"),
    ('drawn("-", given.all, given.json, "")', 'drawn("-", given.all, given.json, "-")',
     'drawn("-", False, given.json, "")', 'drawn("-", given.all, False, "")'),
    ("    for path in given.files:\n", "    for path in given.files[:1]:\n"),
    "drawn(content(path)[[, show_all~>, False~>, True~>[:100], show_all]],",
    ('"--json", action="store_true"', '"--json", action="store_false"'),
    ("int(not is_key)", "int(is_key)", "2 * (not is_key)"), ('prog="python -m sec1", ', ""),
    ("allow_abbrev=False, ", ""), ('"--all", action="store_true"', '"--all", action="store_false"'),
    ('"--help", "-h"', '"--help"'), ('nargs="*"', 'nargs="+"'),
    ("parser.parse_args(words)", "parser.parse_known_args(words)[0]"),
    ("        raise Refused(message)\n", "        super().error(message)\n"),
    ("if given.help:", "if given.help and not given.files:"),
    ("write(sys.stdout, parser.format_help())", "parser.print_help()"),
    "write(sys.stdout, parser.format_help())\n        return [[0~>1]]",
    ("{parser.format_usage()}sec1:", "sec1:"), ("{escaped(str(error))}", "{error}"),
    ("if len(given.files) > 1 and", "if len(given.files) > 2 and", "if len(given.files) > 0 and"),
    ('write(sys.stdout, f"{escaped(path)}:\\n")', 'write(sys.stdout, f"{escaped(path)}\\n")',
     'write(sys.stdout, f"{ascii(path)[1:-1]}:\\n")', 'print(f"{escaped(path)}:")'),
    (" and not given.json:", ":"),
    ("status = max(status, drawn(path, given.all, given.json, path))",
     "status = drawn(path, given.all, given.json, path)",
     "drawn(path, given.all, given.json, path)"),
    ("drawn(path, given.all,", "drawn(path, False,"),
    ("    return status\n\n\ndef main", "    return 0\n\n\ndef main"),
    ('    if path == "-":\n', '    if path == "--":\n'),
    ("return read(number_of(sys.stdin))", "return sys.stdin.buffer.read()"),
    ("return read(file.fileno())", "return file.read()", "return os.read(file.fileno(), 100)"),
    ("LIMIT = 16_777_215", "LIMIT = 16_777_214", "LIMIT = 16_777_216"),
    ("if len(data) > LIMIT:", "if len(data) > 4 * LIMIT:"),
    ("min(100_000, LIMIT + 1 - len(data))", "100_000", "min(100_000, LIMIT - len(data))"),
    ('"more than 16,777,215 bytes"', '"too long"'),
    ("    while part := os.read(file, min", "    if part := os.read(file, min"),
    ("(OSError, Refused, MemoryError) as", "(FileNotFoundError, Refused, MemoryError) as",
     "(OSError, Refused) as", "(OSError, MemoryError) as"),
    ('str(error) or "out of memory"', "str(error)"),
    ("error.strerror if isinstance(error, OSError) else str(error)", "str(error)"),
    ('"standard input" if path == "-" else escaped(path)', "escaped(path)",
     '"standard input" if path == "-" else path'),
    ('write(sys.stderr, f"sec1: {name}: {reason}\\n")\n        return 2',
     'write(sys.stderr, f"sec1: {reason}\\n")\n        return 2',
     'write(sys.stdout, f"sec1: {name}: {reason}\\n")\n        return 2',
     'print(f"sec1: {name}: {reason}", file=sys.stderr)\n        return 2'),
    '{name}: {reason}\\n")\n        [[return 2~>return 1~>sys.exit(2)]]',
    ("    if stream is None:\n", "    if False:\n"),
    ("errno.EBADF, os.strerror(errno.EBADF)", "errno.EBADF"),
    ("        while left:\n", "        if left:\n"),
    "    except [[OSError~>BrokenPipeError]] as error:\n        raise Output",
    "    except OSError as error:\n        raise Output(error[[.strerror~>]]) from None",
    *[("kept = {'\"': '\\\\\"', \"\\\\\": \"\\\\\\\\\"}", it)
      for it in ("kept = {'\"': '\\\\\"'}", 'kept = {"\\\\": "\\\\\\\\"}')],
    'if [[" " <= it <= "~"~>" " <= it~>it <= "~"~>" " < it <= "~"]] else',
    ("{ord(it):X}", "{ord(it):x}"),
    ("        except Output as error:\n", "        except ZeroDivisionError as error:\n"),
    ("sec1: standard output: {error}", "sec1: {error}"),
    ("        except MemoryError:\n", "        except ZeroDivisionError:\n"),
    ("    except Output:\n", "    except ZeroDivisionError:\n"),
    ("    return 2\n\n\nif", "    return 1\n\n\nif"),
    ("sys.exit(main(sys.argv[1:]))", "main(sys.argv[1:])", "sys.exit(main(sys.argv[2:]))"),
]}

UNREADABLE = "SyntaxError"
# What takes most of the time is run where all else passes.
SLOW = ["Values.test_threads", "Others.test_signatures", "Program.test_what_is_printed_is_in_order",
        "Program", "Points.test_random_points"]


def path(file):
    """Returns the file of a fault in a copy."""
    return f"sec1/{file}"


def copy(folder):
    """Unpacks what is packed of the package."""
    name = build_wheel.build_wheel(str(folder))
    with zipfile.ZipFile(folder / name) as wheel:
        wheel.extractall(folder)
    return folder


def tests():
    """Returns the names of the tests, the slow ones last."""
    found, last = [], ""
    for name, test in re.findall(r"^class (\w+)|^    def (test_\w+)", TESTS.read_text(), re.M):
        last = name or last
        found += [f"{last}.{test}"] if test else []
    return sorted(found, key=lambda it: next((at for at, word in enumerate(SLOW)
                                              if it.startswith(word)), -1))


def commands(_, file=""):
    """Returns what has to end well: of a fault in the program its tests first."""
    names = sorted(tests(), key=lambda it: file == "__main__.py" and not it.startswith("Program"))
    return [["env", "PYTHONPATH=.", "PYTHONDONTWRITEBYTECODE=1", sys.executable, "-s", TESTS,
             "--failfast", *names]]
