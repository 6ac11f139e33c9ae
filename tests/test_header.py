"""The numbers and the names of the library for C, in sec1.h and in the packages, beside the source.

Compared are each number of an enum, with its name and no other beside it, the names, the order and
the types of the parameters of each function, the members of each struct, the limits, and the
version, with the CHANGELOG. The texts of errors are those of sec1_der, in the header, in FORMATS.md
and in the tests of the packages, which ask the library for them.
"""

import math
import re

import pytest
from conftest import TOP

# Functions whose `input` the header calls `bytes`.
OF_BYTES = "sec1_tree_check", "sec1_document_len", "sec1_element_read"
# The types of the source, in C, but for other structs.
TYPES = {
    "u8": "uint8_t",
    "u32": "uint32_t",
    "i32": "int32_t",
    "usize": "size_t",
    "Span": "struct sec1_part",
}
# What is in front of a function's name for its result.
RESULT = "the result of "
# Where the struct of a picture's line is, and its kinds.
LINES = "crates/der_view/src/output.rt"
# What the header alone has: a struct whose members are given to a call by inline functions.
UNPROVED = {
    *("sec1_key_len_of", "sec1_key_write_of", "sec1_picture_show"),
    *("struct sec1_key", "struct sec1_picture_options"),
}


def read(path):
    """Returns the text of a file of the repository."""
    return (TOP / path).read_text(encoding="utf-8")


HEADER = read("dist/sec1.h")
CODE = re.sub(r"/\*.*?\*/", "", HEADER, flags=re.S)
TEXT = r'case SEC1_(\w+):\s*return "([^"]*)";'


def texts(path, pattern):
    """Returns the texts that a pattern finds behind names in a file."""
    return dict(re.findall(pattern, read(path), re.M))


def numbers(pattern, text, front="SEC1_"):
    """Returns the numbers that a pattern finds behind names, which become those of the header."""
    found = re.findall(pattern, text, re.M)
    return {front + words_of(name): int(number) for name, number in found}


def words_of(name):
    """Returns the words of a name: HybridEvenY -> HYBRID_EVEN, for a tag whose y has the parity."""
    return re.sub(r"(?<=[a-z])(?=[A-Z])", "_", re.sub(r"(?<=[a-z])Y$", "", name)).upper()


@pytest.fixture
def same(tell):
    """Counts a case, in which the header has what the source has."""

    def compare(name, wanted, found):
        tell(f"{name}: the source has {wanted}, the header {found}", wanted == found)

    return compare


@pytest.fixture(scope="module")
def enums():
    """Returns the names and the numbers of each enum of the header."""
    found = {}
    for name, body in re.findall(r"enum (\w+) \{(.*?)\}", CODE, re.S):
        pairs = [re.fullmatch(r"\s*(\w+) = (\d+)\s*", it) for it in body.rstrip(", \n").split(",")]
        found[name] = {it[1]: int(it[2]) for it in pairs}
        assert len(found[name]) == len(pairs), f"enum {name} has a name twice"
    return found


def source_items():
    """Returns the parameters in C of each exported function, the type of its result, and the
    members of each struct of C."""
    found = {}
    for path in [*sorted((TOP / "crates/sec1_c/src").rglob("*.rt")), TOP / LINES]:
        text = path.read_text(encoding="utf-8")
        function = r'pub extern "C" fn (\w+)\((.*?)\) -> (\w+)'
        for name, parameters, result in re.findall(function, text, re.S):
            text_of = re.sub(r"\binput:", "bytes:", parameters) if name in OF_BYTES else parameters
            pairs = re.findall(r"(\w+): ([^,]*[^,\s])", text_of)
            found[name] = [it for word, kind in pairs for it in in_c(word, kind)]
            found[RESULT + name] = type_of(result)
        struct = r"#\[repr\(C\)\].*?pub struct (\w+) \{(.*?)\n\}"
        for name, body in re.findall(struct, text, re.S):
            members = re.findall(r"pub (\w+): (\w+),", body)
            found[type_of(name)] = [f"{type_of(kind)} {word}" for word, kind in members]
    return found


def type_of(word):
    """Returns a type of the source in C: KeyParts -> struct sec1_key_parts."""
    return TYPES.get(word) or f"struct sec1_{words_of(word).lower()}"


def in_c(word, kind):
    """Returns a parameter in C: a slice crosses as a pointer and a length."""
    reference, slice, name = re.fullmatch(r"(&|&mut )?(\[)?(\w+)\]?", kind).groups()
    pointer = ("const " if reference == "&" else "") + type_of(name) + ("*" if reference else "")
    return [f"{pointer} {word}"] + ([f"size_t {word}_len"] if slice else [])


def header_items():
    """Returns the same of the header. A text crosses as bytes."""
    found = {}
    function = r"^(\w+) (sec1_\w+)\(([^();]*)\)\s*(?:SEC1_\w+(?:\([^)]*\))?\s*)*;"
    for result, name, parameters in re.findall(function, CODE, re.M):
        plain = re.sub(r"\bchar\b", "uint8_t", " ".join(parameters.split())).replace(" *", "* ")
        found[name], found[RESULT + name] = plain.split(", "), result
    for name, body in re.findall(r"^(struct \w+) \{(.*?)\n\};", CODE, re.S | re.M):
        members = re.findall(r"((?:struct )?\w+) ([\w, ]+);", body)
        found[name] = [f"{kind} {it.strip()}" for kind, every in members for it in every.split(",")]
    return found


# ---- the enums

# Of each how many members it has; the greatest number, above which those are of the source that no
# exported function returns or stores; how the names begin; and where the source has the numbers.
ENUMS = {
    "sec1_line": (5, 4, "SEC1_LINE_", LINES, [r"^pub const (\w+): usize = (\d+);"]),
    "sec1_point_tag": (7, 7, "SEC1_POINT_", "crates/sec1/src/point/tag.rt", [r"^ +(\w+) = (\d+),"]),
    "sec1_status": (
        14, 13, "SEC1_", "crates/sec1_c/src/status.rt",
        [
            r"^pub const (OK): u32 = (\d+);",
            r"Error(?:Kind)?::(\w+) => (\d+),",
            r"^pub fn (\w+)_number\(\)(?s:.*?)^\{\s*(\d+)\s*^\}",
        ],
    ),
}  # fmt: skip


def source_enum(enum):
    """Returns the names and the numbers that the source has of an enum of the header."""
    _, greatest, front, path, patterns = ENUMS[enum]
    found = (numbers(it, read(path), front).items() for it in patterns)
    return {name: number for every in found for name, number in every if number <= greatest}


def test_enums(same, enums):
    same("the enums", sorted(ENUMS), sorted(enums))
    for enum, (count, *_) in ENUMS.items():
        wanted, found = source_enum(enum), enums.get(enum, {})
        same(f"the number of members of {enum}", count, len(wanted))
        for name in sorted(wanted.keys() | found.keys()):
            same(name, wanted.get(name), found.get(name))


def test_texts_of_statuses(same, tell):
    cases = re.findall(TEXT, HEADER)
    names = sorted(f"SEC1_{name}" for name, _ in cases)
    same("the statuses", sorted(source_enum("sec1_status")), names)
    tell("two statuses have one text", len({text for _, text in cases}) == len(cases))


def test_texts_of_kinds(same, enums):
    kinds = texts("crates/sec1_der/specs/Errors.antt", r'^kind_message (\w+) = codes "([^"]*)"$')
    same("the number of kinds", 11, len(kinds))
    formats = texts("docs/FORMATS.md", r"^\| (\w+) \|.*\| `([^`]+)` \|$")
    header = texts("dist/sec1.h", TEXT)
    rust = texts("bindings/rust/sec1/tests/programs.rs", r'\(ErrorKind::(\w+), "([^"]*)"\)')
    python = texts("bindings/python/tests/test_sec1.py", r'\((\d+), "([^"]*)"\),$')
    script = texts("bindings/js/tests/test.js", r"\['\w+', (\d+), '([^']*)'\],$")
    for kind, wanted in kinds.items():
        name = words_of(kind)
        number = str(enums["sec1_status"].get(f"SEC1_{name}"))
        found = {"FORMATS.md": formats.get(kind)}
        # what the library for C can't return: a reader that failed before, and reads and writes
        if kind not in ("Failed", "Io", "Memory"):
            found |= {"sec1.h": header.get(name), "the package for Rust": rust.get(kind)}
            found["the package for Python"] = python.get(number)
            if kind != "Buffer":
                found["the package for JavaScript"] = script.get(number)
        for where, text in found.items():
            same(f"{where}: the text of {kind}", wanted, text)


def test_numbers_of_packages(same, enums):
    rust = read("bindings/rust/sec1-sys/src/lib.rs")
    rust = numbers(r"^pub const SEC1_(\w+): u(?:8|32) = (\d+);$", rust)
    both = {**enums["sec1_status"], **enums["sec1_point_tag"]}
    same("the package for Rust: the numbers", both, rust)
    python = read("bindings/python/src/sec1/__init__.py")
    errors = [int(n) for n in re.findall(r"^    status = (\d+)$", python, re.M)]
    same("the package for Python: the numbers of errors", [*range(1, 14)], errors)
    tags = re.search(r"^class Tag\(IntEnum\):(?s:.*?)\n\n\n", python, re.M)[0]
    tags = numbers(r"^    ([A-Z_]+) = (\d)$", tags, "SEC1_POINT_")
    same("the package for Python: the tags of points", enums["sec1_point_tag"], tags)
    kinds = re.search(r" Kind = Object.freeze\((.*)\);", read("bindings/js/library.js"))[1]
    kinds = numbers(r"(\w+): (\d)", kinds, "SEC1_LINE_")
    same("the package for JavaScript: the kinds of lines", enums["sec1_line"], kinds)


# ---- the functions, and the numbers that macros define


def test_parameters(same):
    wanted, found = source_items(), header_items()
    for name in sorted(wanted.keys() | found.keys()):
        if name.removeprefix(RESULT) not in UNPROVED:
            same(name, wanted.get(name), found.get(name))


def constant(name, path, content=0):
    """Returns the number of a constant: a sum of products, which may be of MAX_IDENTIFIER."""
    path = f"crates/sec1_der/src/object_identifier{path}"
    number = re.search(rf"^pub const {name}: usize = ([\w *+]+);", read(path), re.M).group(1)
    number = number.replace("MAX_IDENTIFIER", str(content))
    return sum(math.prod(map(int, product.split("*"))) for product in number.split("+"))


def source_limits():
    """Returns the numbers of the macros that aren't of the version."""
    content = constant("MAX_IDENTIFIER", ".rt")
    curves = read("crates/curves/src/curve.rt")
    names = re.findall(r'"([\w-]+)"', curves.split("pub const fn name(")[1].split("\n    }\n")[0])
    said = re.findall(r'=> "([^"]+)",', read("crates/sec1_c/src/status/text.rt"))
    return {
        "SEC1_IDENTIFIER_CONTENT_MAX": content,
        "SEC1_IDENTIFIER_TEXT_MAX": constant("MAX_IDENTIFIER_TEXT", "/text.rt", content),
        # two arcs for the first byte of the longest content, and one for each further one
        "SEC1_IDENTIFIER_ARCS_MAX": 1 + content,
        # x and y of 66 bytes each, the greatest field elements, and the tag
        "SEC1_POINT_MAX": 133,
        # two digits for each byte of the longest encoding, and a byte 0
        "SEC1_POINT_TEXT_MAX": 267,
        # the longest name of a curve, and a byte 0
        "SEC1_CURVE_NAME_MAX": 1 + max(map(len, names)),
        # the longest text of a status, and a byte 0
        "SEC1_STATUS_TEXT_MAX": 1 + max(map(len, said)),
        # headers of 3 bytes around all and the key, one of 2 around the algorithm, whose
        # identifiers have 7 and 9 bytes, a number of unused bits, and a point of 64 bytes for each
        # coordinate
        "SEC1_PUBLIC_KEY_MAX": 3 + (2 + 2 + 7 + 2 + 9) + (3 + 1 + 129),
    }


def test_macros(same):
    defined = numbers(r"^#define SEC1_(\w+) +\(?(\d+)\)?$", HEADER)
    for name, wanted in source_limits().items():
        same(name, wanted, defined.pop(name, None))
    # the rest is the version, the CHANGELOG's first
    heading = r"^## (?:Unreleased: )?v?(\d+)\.(\d+)\.(\d+)"
    version = re.search(heading, read("CHANGELOG.md"), re.M).groups()
    parts = [f"SEC1_VERSION_{it}" for it in ("MAJOR", "MINOR", "PATCH")]
    same("the other numbers of macros", sorted(parts), sorted(defined))
    same("the version", [int(n) for n in version], [defined.get(part) for part in parts])
