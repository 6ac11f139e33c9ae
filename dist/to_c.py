#!/usr/bin/env python3
"""Writes the library as one file of C99: to_c.py SEC1.WASM SEC1.H KIT > SEC1.C

The module is the one that crates/sec1_c/build.sh links, and KIT the name of the kit that compiles
it. translate.py says how the module becomes functions; how they read memory is in head.c.
"""
import pathlib
import sys

import translate
import wasm

HEAD = pathlib.Path(__file__).resolve().parent / "head.c"
COMMENT = """\
/* SPDX-License-Identifier: Apache-2.0 OR MIT */
/* libsec1 in one file of C99: compile it, and include sec1.h. For each system with pointers of 64
 * bits; on Linux for x86-64 and aarch64 there is assembly too, which is faster.
 * Generated from the sources in crates/sec1_c and in the crates below it, by way of a module of
 * WebAssembly: README.md says how, and what is compiled in. Not to be edited.
 * Made with: {kit}
 *
 * Above each function stands its name in the sources. Its parameters are p0, p1 .. (or those of
 * the call of sec1.h), its variables v2, v3 .., and t0, t1 .. what is computed in between. */
"""
# Stands in head.c where the constants go.
CONSTANTS = "/* The constants: "
TYPES = {0: "void", 32: "uint32_t", 64: "uint64_t"}
SIGNED = {8: "int8_t", 16: "int16_t", 32: "int32_t", 64: "int64_t"}
SIGNS = {
    "eq": "==", "ne": "!=", "lt": "<", "gt": ">", "le": "<=", "ge": ">=", "add": "+", "sub": "-",
    "mul": "*", "div": "/", "rem": "%", "and": "&", "or": "|", "xor": "^", "shl": "<<", "shr": ">>",
}
COLUMNS = 100


# ---- expressions

def number(value, bits, is_typed=True, is_mask=False):
    """A number, with the suffix of its type, or in the type of what stands beside it."""
    text = f"0x{value:x}" if value > 0xFFFF or is_mask and value > 9 else str(value)
    return text + {32: "u", 64: "ull"}[bits] if is_typed else text


def text(it):
    """An expression, in the type of its bits."""
    kind, parts = it.kind, it.parts
    if kind == "number":
        return number(it.value, it.bits)
    if kind == "variable":
        return it.value
    if kind == "constant":
        return f"CONSTANT({it.value})"
    if kind == "load":
        return load(it) if it.value == it.bits else f"({TYPES[it.bits]}){load(it)}"
    if kind == "select":
        condition = test(parts[0])
        condition = condition if condition.isalnum() else f"({condition})"
        return f"{condition} ? {operand(parts[1])} : {operand(parts[2])}"
    if kind in ("wrap", "extend_u"):
        return f"({TYPES[it.bits]}){operand(parts[0])}"
    if kind == "extend_s":
        return f"({TYPES[it.bits]})({SIGNED[it.value]}){operand(parts[0])}"
    if kind in ("clz", "ctz"):
        return f"{kind}{it.bits}({converted(parts[0])})"
    if it.is_test:
        return f"(uint32_t)({comparison(it)})"
    return computed(it) if parts else kind


def operand(it):
    """An expression beside an operator."""
    is_grouped = it.kind == "select" or it.kind in translate.COMPUTE and it.kind != "shr_s"
    return f"({text(it)})" if is_grouped else text(it)


def converted(it):
    """An expression where C converts it to the type of its bits."""
    if it.kind == "number":
        return number(it.value, it.bits, is_typed=False)
    if it.kind == "load":
        return load(it)
    return converted(it.parts[0]) if it.kind == "extend_u" else text(it)


def load(it):
    return f"load{it.value}({converted(it.parts[0])})"


def test(it):
    """An expression of which only counts whether it is 0."""
    return comparison(it) if it.is_test else load(it) if it.kind == "load" else text(it)


def beside(it, other, is_mask=False):
    """An operand, which takes its type from the other one if that has it by itself."""
    if it.is_number:
        return number(it.value, it.bits, it.bits == 32 or other.is_number, is_mask)
    return operand(it)


def signed(it):
    """An operand as a number with a sign."""
    half = 1 << (it.bits - 1)
    if it.is_number and it.value != half:
        return str(it.value if it.value < half else it.value - 2 * half)
    return f"({SIGNED[it.bits]}){operand(it)}"


def comparison(it):
    what, _, sign = it.kind.partition("_")
    a, b = it.parts
    if sign == "s":
        return f"{signed(a)} {SIGNS[what]} {signed(b)}"
    first = load(a) if a.kind == "load" else operand(a)
    return f"{first} {SIGNS[what]} {load(b) if b.kind == 'load' else beside(b, a)}"


def computed(it):
    what, _, sign = it.kind.partition("_")
    a, b = it.parts
    if what not in ("shl", "shr"):
        return f"{operand(a)} {SIGNS[what]} {beside(b, a, is_mask=what in ('and', 'or', 'xor'))}"
    amount = number(b.value, b.bits, is_typed=False) if b.is_number else operand(b)
    if sign == "s":
        return f"({TYPES[it.bits]})({signed(a)} >> {amount})"
    return f"{operand(a)} {SIGNS[what]} {amount}"


# ---- statements

def label(block):
    return f"{'again' if block.is_loop else 'after'}_{block.label}"


def indented(lines, by="  "):
    return [by + line for line in lines]


def statement(it):
    """The lines of a statement."""
    kind, parts = it.kind, it.parts
    if kind in ("let", "set"):
        return [f"{parts[0]} = {converted(parts[1])};"]
    if kind == "store":
        return [f"store{parts[0]}({converted(parts[1])}, {lower(parts[2], parts[0])});"]
    if kind in ("move", "fill"):
        return [f"{kind}({', '.join(map(converted, parts))});"]
    if kind == "call":
        result, name, args = parts
        call = f"{name}({', '.join(map(converted, args))});"
        return [f"{result} = {call}" if result else call]
    if kind == "if":
        return [f"if ({test(parts[0])})", *indented(statement(parts[1]))]
    if kind == "switch":
        return switch(*parts)
    if kind == "trap":
        return ["trap();"]
    if kind == "jump":
        return [f"goto {label(parts[0])};"]
    if kind == "return":
        return [f"return {converted(parts[0])};" if parts[0] else "return;"]
    is_target = parts[0].is_used and parts[0].is_loop == (kind == "begin")
    return [f"{label(parts[0])}:;"] if is_target else []


def lower(it, bits):
    """So many lower bits of an expression."""
    if it.is_number:
        return number(it.value & ((1 << bits) - 1), it.bits, is_typed=False)
    return converted(it) if it.bits == bits else f"(uint{bits}_t){operand(it)}"


def switch(value, cases, other):
    lines = [f"switch ({converted(value)}) {{"]
    for numbers, then in cases:
        lines += folded(f"case {at}:" for at in numbers) + indented(statement(then))
    return [*lines, "default:", *indented(statement(other)), "}"]


# ---- the file

def folded(words, indent=""):
    """Words as lines that aren't too long."""
    lines = [""]
    for word in words:
        if lines[-1] and len(indent) + len(lines[-1]) + 1 + len(word) > COLUMNS:
            lines.append("")
        lines[-1] += (" " if lines[-1] else "") + word
    return indented(lines, indent)


def separated(words):
    """Words with a comma behind each but the last."""
    words = list(words)
    return [*(f"{it}," for it in words[:-1]), *words[-1:]]


def short(line):
    """A line as several if it is too long."""
    if len(line) <= COLUMNS:
        return [line]
    indent = line[:len(line) - len(line.lstrip())]
    words = line.strip().replace(", ", ",\n").split("\n")
    if max(map(len, words)) > COLUMNS - len(indent) - 4:
        words = line.split()
    first, *rest = folded(words, indent + "    ")
    return [indent + first.lstrip(), *rest]


def head_of(function):
    params = ", ".join(f"{TYPES[bits]} {name}" for name, bits in function.params)
    return f"static {TYPES[function.result]} {function.name}({params or 'void'})"


def function_lines(function):
    yield from ("", f"/* {function.source} */", head_of(function), "{")
    if function.frame:
        yield f"  FRAME({function.frame})"
    for bits in (32, 64):
        names = [f"{name} = 0" for name, its in function.variables if its == bits]
        names += [name for name, its in function.temporaries if its == bits]
        if names:
            yield f"  {TYPES[bits]} {' '.join(separated(names))};"
    for it in function.body:
        lines = statement(it)
        yield from lines if it.kind in ("begin", "end") else indented(lines)
    yield "}"


def constants(runs):
    """The array of constants: its type, and its value."""
    fields, values = [], []
    for at, (data, places) in enumerate(runs):
        if data:
            fields.append(f"  uint8_t bytes_{at}[{len(data)}];")
            values.append("  {" + " ".join(separated(map(str, data))) + "}")
        if places:
            fields.append(f"  struct address addresses_{at}[{len(places)}];")
            values.append("  {" + " ".join(separated(f"TO({it})" for it in places)) + "}")
    return ["ALIGNED(static const struct constants {", *fields, "} constants) = {",
            *separated(values), "};"]


def call_lines(call):
    """A call of the header."""
    args = [f"ADDRESS({name})" if "*" in type_ else name for name, type_ in call.params]
    called = f"{call.body}({', '.join(args)});"
    turned = [f"  STORED({name}, {count}, {size});" for name, count, _, size in call.stored]
    yield from ("", f"uint32_t {call.name}({call.declared})", "{")
    if turned:
        yield from ("  uint32_t returned;", *turned, f"  returned = {called}", *turned,
                    "  return returned;", "}")
    else:
        yield from (f"  return {called}", "}")


def source(program, kit):
    """The text of the file."""
    head, memory = HEAD.read_text(encoding="utf-8").split(CONSTANTS)
    lines = [*constants(program.runs()), "", *(f"{head_of(it)};" for it in program.functions)]
    note, memory = memory.split("\n", 1)
    kept = lines.index("")
    found = [*lines[:kept], *memory.rstrip("\n").split("\n"), *lines[kept:]]
    for function in program.functions:
        found += function_lines(function)
    for call in program.calls:
        found += call_lines(call)
    text_ = "\n".join(line for it in found for line in short(it))
    return f"{COMMENT.format(kit=kit)}{head}{CONSTANTS}{note}\n{text_}\n"


def main():
    module = wasm.Module(pathlib.Path(sys.argv[1]).read_bytes())
    header = pathlib.Path(sys.argv[2]).read_text(encoding="utf-8")
    sys.stdout.write(source(translate.Program(module, header), sys.argv[3]))


if __name__ == "__main__":
    main()
