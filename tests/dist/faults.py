"""Faults of what writes sec1.c, for tests/plant: dist/tests/calls.c over what it writes then has to
fail, or the file can't be written or compiled.

The module is the one that crates/sec1_c/build.sh links; MODULE names another. Not among the faults
are `memcpy` in the place of `memmove`, since no call moves memory that overlaps, as test_fuzz_of_c
shows; and what changes nothing of this module, where a number never waits on the stack while a
block begins, or while memory is written that it was read from.
"""
import os
import pathlib
import shutil
import subprocess

TOP = pathlib.Path(__file__).resolve().parents[2]
DIST = TOP / "dist"
MODULE = pathlib.Path(os.environ.get("MODULE", TOP / "crates/sec1_c/out/sec1.wasm")).resolve()
FAULTS = {"to_c.py": [
    # numbers
    ('{32: "u", 64: "ull"}[bits] if is_typed', '{32: "u", 64: "u"}[bits] if is_typed'),
    'return f"({TYPES[it.bits]})[[({SIGNED[it.value]})~>]]{operand(parts[0])}"',
    ('if sign == "s":\n        return f"{signed(a)} {SIGNS[what]} {signed(b)}"',
     'if sign == "never":\n        return ""'),
    ('"lt": "<"', '"lt": "<="'),
    ('{operand(parts[1])} : {operand(parts[2])}', '{operand(parts[2])} : {operand(parts[1])}'),
    ('f"(uint{bits}_t){operand(it)}"', 'f"(uint8_t){operand(it)}"'),
    'in ("wrap", "extend_u"):\n        return f"([[{TYPES[it.bits]}~>uint16_t]])',
    # memory
    'return f"load{[[it.value~>max(it.value, 16)]]}({converted(it.parts[0])})"',
    # locals, jumps and calls
    'parts[0].is_used and [[parts[0].is_loop == (kind == "begin")~>kind == "end"]]',
    ('return comparison(it) if it.is_test else load(it) if it.kind == "load" else text(it)',
     'return comparison(it) if it.is_test else f"{operand(it)} & 1"'),
], "translate.py": [
    # numbers
    "number(b.value & [[mask.value~>31]], b.bits) if b.is_number",
    ('{"eq": "ne", "lt_s"', '{"eq": "eq", "lt_s"'),
    # memory
    ("        if is_signed:\n", "        if False:\n"),
    ("        return added(base, offset)", "        return base"),
    ('return Expression("add", 64, None, (self.program.constant(offset), base))',
     "return self.program.constant(offset)"),
    ("return end - at == 10 and", "return end - at == 9 and"),
    ("runs[-1][1].append(to)", "runs[-1][1].append(to + 8)"),
    ("self.function.frame = parts[1].value", "self.function.frame = 16"),
    # the order of what is computed
    ("        self.settle(lambda it: name in it.reads)\n", ""),
    ('a, b, test = self.pop(3)\n            self.push(Expression("select", a.bits, None, (test, a, b)))',
     'test, b, a = self.pop(3)\n            self.push(Expression("select", a.bits, None, (test, a, b)))'),
    # locals, jumps and calls
    ("self.stack.append(self.known.get(args[0], self.locals[args[0]]))\n        elif code in (SET, TEE)",
     "self.stack.append(self.locals[max(args[0] - 1, 0)])\n        elif code in (SET, TEE)"),
    ("block = self.blocks[-1 - depth]", "block = self.blocks[max(-2 - depth, -len(self.blocks))]"),
    ("if it == target]", "if it >= target]"), ("return calls[2]\n", "return calls[2] + 2\n"),
], "head.c": [
    "  memset(POINTER(to), (int)byte, (size_t)size[[~> / 2]]);",
    "memmove(POINTER(to), POINTER(from), (size_t)size[[~> - (size > 0)]]);",
]}


def copy(folder):
    """Copies what writes sec1.c, and compiles its tests, which end here where one fails."""
    for it in (*DIST.glob("*.py"), DIST / "head.c", DIST / "sec1.h", DIST / "tests/draw.h"):
        shutil.copy(it, folder)
    text = (DIST / "tests/calls.c").read_text(encoding="utf-8")
    assert text.count("        failed++;\n") == 1
    text = text.replace("        failed++;\n", "        exit(1);\n")
    (folder / "calls.c").write_text(text, encoding="utf-8")
    subprocess.run("gcc -std=c11 -O1 -I. -c calls.c".split(), cwd=folder, check=True)
    return folder


def commands(*_):
    """Returns what has to end well: sec1.c is written and compiled, and passes its tests."""
    return [["sh", "-c", f'python3 -B to_c.py "{MODULE}" sec1.h kit >sec1.c'],
            "gcc -std=c99 -w -O0 -c sec1.c".split(), "gcc -o calls calls.o sec1.o".split(),
            ["./calls"]]
