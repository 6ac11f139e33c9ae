"""What dist has, beside what `rt lib` builds with the same kit: the assembly, the module for
WebAssembly, sec1.c and sec1.rs. How much of its stack the module uses; and a minute of libFuzzer
beside the second readers, half of it over sec1.c."""

import os
import re
import sys

import pytest
import to_32
import wasm
from conftest import CLANG, TOP, lacking, lines_of, needs, object_of
from dist import addresses, compare, stack, wraps

pytestmark = [pytest.mark.library, pytest.mark.slow]

DIST, OUT = TOP / "dist", TOP / "crates/sec1_c/out"
LIBRARY = TOP / "bindings/js/library.js"
PYTHON = [sys.executable, "-B"]
RT = os.environ.get("RT", "rt")


def kit_of(processor):
    """Returns which kit the assembly of a processor was made with."""
    text = (DIST / f"sec1-{processor}.s").read_text()
    return re.search(r"^ \* Made with: (.*) \*/$", text, re.M).group(1)


KIT = kit_of("x86_64")
HERE = None if lacking(RT) else lines_of(RT, "version")[0]


def by_this_kit(cases=1):
    """Skips a test of so many cases where there is another kit than that of dist, or none."""
    reason = f"that was {KIT}, this is {HERE or 'no kit'}; cases: {cases}"
    return pytest.mark.skipif(HERE != KIT, reason=reason)


def read(path):
    """Returns a module for WebAssembly."""
    return wasm.Module(path.read_bytes())


@pytest.fixture
def planted(tell):
    """Returns what a file holds, with another text in the place of what a pattern finds first."""

    def plant(path, pattern, text):
        held, number = re.subn(pattern, text, path.read_text(), count=1, flags=re.M)
        tell(f"another text in {path.name}", number == 1 and held != path.read_text())
        return held

    return plant


# ---- the kit, and the stack


def test_kits(tell):
    tell("that of aarch64", kit_of("aarch64") == KIT)
    tell("sec1.wasm", f"Made with: {KIT}".encode() in (DIST / "sec1.wasm").read_bytes())
    tell("README.md", f"`{KIT}`" in (DIST / "README.md").read_text())


# Other numbers of bytes to be wiped, less than calls use.
DEPTHS = {"what is wiped": None, "less": "45056, 4096", "less by others": "53248, 2048"}
LINE = r"^const \[STACK, DEEP, FLAT\] = \[(\d+), (\d+), (\d+)\];$"


@pytest.mark.parametrize("depths", DEPTHS.values(), ids=DEPTHS)
def test_stack(planted, tell, depths):
    """Compares what bindings/js wipes of the module's stack with what the calls use that it makes:
    those that draw or decode, and others."""
    other = f"const [STACK, DEEP, FLAT] = [65536, {depths}];"
    library = planted(LIBRARY, LINE, other) if depths else LIBRARY.read_text()
    begin, deep, flat = map(int, re.search(LINE, library, re.M).groups())
    module = read(DIST / "sec1.wasm")
    names = {*re.findall(r"\bsec1_\w+", re.sub(r"//.*", "", library))} & {*module.exports}
    whole = stack.Stack(module)
    used = {name: whole.used(module.exports[name]) for name in names}
    drawn = [used.pop(it) for it in names if it.startswith(("sec1_picture_", "sec1_pem_"))]
    # the constants follow the stack
    is_right = module.segments[0][0] == begin and deep <= begin and len(drawn) == 3
    is_wiped = max(drawn) <= deep and max(used.values()) <= flat
    said = f"{max(drawn)} bytes of {deep} are used, and {max(used.values())} of {flat}"
    tell(said, is_right and is_wiped == (depths is None))


# ---- the assembly

# The archive that is built for a processor, the option of the kit's compiler, and an instruction,
# a jump if equal, with another one.
PROCESSORS = {
    "x86_64": ("libsec1_c.a", "-march=x86-64", ("\tje\t", "\tjne\t")),
    "aarch64": ("libsec1_c-aarch64.a", "-fPIC", (r"\tb\.eq\t", "\tb.ne\t")),
}


@by_this_kit(cases=3)
@pytest.mark.parametrize("processor", PROCESSORS)
def test_assembly(planted, tell, tmp_path, processor):
    archive, option, jumps = PROCESSORS[processor]
    kit = os.path.dirname(os.path.realpath(lines_of(RT, "doc")[0]))
    clang = [f"{kit}/toolchain/bin/clang", f"--target={processor}-unknown-linux-gnu", option]
    made, wanted, source = tmp_path / "made.o", tmp_path / "wanted.o", tmp_path / "plain.s"
    wanted.write_bytes(object_of(OUT / archive))
    file = DIST / f"sec1-{processor}.s"
    for text, is_same in (file.read_text(), True), (planted(file, *jumps), False):
        source.write_text(compare.without_additions(text))
        lines_of(*clang, "-c", "-o", made, source)
        found = [*compare.differences(compare.Object(made), compare.Object(wanted))]
        tell(f"the same: {is_same}; what differs: {found[:5]}", is_same == (not found))


# ---- the module


@by_this_kit(cases=3)
def test_module(tell):
    """Compares it with the module that build.sh links, once that has a memory of 32 bits."""
    linked = to_32.lowered((OUT / "sec1.wasm").read_bytes())
    found = bytearray((DIST / "sec1.wasm").read_bytes())
    tell("it is what is linked", found[: len(linked)] == linked)
    # the number and the length of the section that names the kit stand between them
    tell("it ends with the kit", found[len(linked) + 2 :] == b"\4sec1Made with: " + KIT.encode())
    found[len(found) // 2] ^= 1
    tell("another byte is found", found[: len(linked)] != linked)


@by_this_kit(cases=2)
@needs("node", cases=2)
def test_module_has_what_an_engine_wants(check, tell, tmp_path):
    """Has an engine refuse the module without one of the instructions that are added."""
    changes = [*wraps.changes(read(OUT / "sec1.wasm"), read(DIST / "sec1.wasm"))]
    tell(f"{len(changes)} changes", len(changes) >= 100)
    (tmp_path / "changes").write_text("\n".join(f"{at} {code.hex()}" for at, code in changes))
    check("none is accepted", ["node", "-e", ACCEPTED, DIST / "sec1.wasm", "changes"], prints="")


# Prints the places of those changes with which an engine accepts a module.
ACCEPTED = """const [module, changes] = process.argv.slice(1).map((it) => fs.readFileSync(it));
for (const [at, digits] of String(changes).split("\\n").map((line) => line.split(" "))) {
    const bytes = Buffer.from(module);
    bytes.set(Buffer.from(digits, "hex"), Number(at));
    if (WebAssembly.validate(bytes)) console.log(at);
}"""


# ---- one file of C, and one of Rust


@by_this_kit(cases=3)
@pytest.mark.parametrize("language, name", [("c", "sec1.c"), ("rust", "sec1.rs")])
def test_translation(planted, tell, language, name):
    command = [DIST / f"to_{language}.py", OUT / "sec1.wasm", DIST / "sec1.h", KIT]
    made = "\n".join(lines_of(*PYTHON, *command)) + "\n"
    tell("it is what is made of what rt lib builds", made == (DIST / name).read_text())
    tell("another number is found", made != planted(DIST / name, " 1([;)])", r" 2\1"))


@by_this_kit()
def test_addresses():
    """Compares what is taken for an address with what the linker has filled in."""
    taken = addresses.taken(read(OUT / "sec1.wasm"), (DIST / "sec1.h").read_text())
    assert taken == addresses.filled_in(object_of(OUT / "libsec1_c-wasm64.a"))


# ---- fuzz

HALF = int(os.environ.get("FUZZ_SECONDS", 60)) // 2


def test_fuzz(check, add, tmp_path):
    check("make", ["make", "-s", "-C", DIST, f"BUILD={tmp_path}"])
    add([DIST / "tests/fuzz.sh", tmp_path / "libsec1.a", str(HALF)], *CLANG)


def test_fuzz_of_c(add):
    add([DIST / "tests/fuzz.sh", DIST / "sec1.c", str(HALF)], *CLANG)
