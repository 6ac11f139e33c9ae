#!/usr/bin/env python3
"""Writes the library as one file of Rust, a module without std: to_rust.py SEC1.WASM SEC1.H KIT > SEC1.RS

It is made as to_c.py makes the file of C. How its functions read memory is in head.rs.
"""
import pathlib
import re
import sys

import translate
import wasm
from to_c import folded, indented, separated, short

HEAD = pathlib.Path(__file__).resolve().parent / "head.rs"
COMMENT = """\
// SPDX-License-Identifier: Apache-2.0 OR MIT
//! The proved functions of libsec1 in Rust, for each system with pointers of 64 bits.
//!
//! Generated from the sources in crates/sec1_c and in the crates below it, by way of a module of
//! WebAssembly: dist/README.md says how, and what is compiled in. Not to be edited.
//! Made with: {kit}
//!
//! Above each function stands its name in the sources. Its parameters are p0, p1 .. (or those of
//! the call of sec1.h), its variables v2, v3 .., and t0, t1 .. what is computed in between.
"""
# Stands in head.rs where the constants go.
CONSTANTS = "// The constants: "
SIGNS = {
    "eq": "==", "ne": "!=", "lt": "<", "gt": ">", "le": "<=", "ge": ">=", "div": "/", "rem": "%",
    "and": "&", "or": "|", "xor": "^", "shl": "<<", "shr": ">>",
}
WRAPPING = ("add", "sub", "mul")


# ---- expressions

def number(value, bits, is_typed=False):
    """A number, with the suffix of its type, or in the type of what stands beside it."""
    text = f"0x{value:x}" if value > 0xFFFF else str(value)
    return f"{text}u{bits}" if is_typed else text


def text(it):
    """An expression, in the type of its bits."""
    kind, parts = it.kind, it.parts
    if kind == "number":
        return number(it.value, it.bits, is_typed=True)
    if kind == "variable":
        return it.value
    if kind == "constant":
        return f"constant({it.value})"
    if kind == "load":
        return load(it) if it.value == it.bits else f"{load(it)} as u{it.bits}"
    if kind == "select":
        return f"if {test(parts[0])} {{ {text(parts[1])} }} else {{ {text(parts[2])} }}"
    if kind in ("wrap", "extend_u"):
        return f"{operand(parts[0])} as u{it.bits}"
    if kind == "extend_s":
        return f"{operand(parts[0])} as i{it.value} as i{it.bits} as u{it.bits}"
    if kind == "clz":
        return f"{operand(parts[0])}.leading_zeros() as u{it.bits}"
    if kind == "ctz":
        return f"{operand(parts[0])}.trailing_zeros() as u{it.bits}"
    if it.is_test:
        return f"u32::from({test(it)})"
    return computed(it) if parts else kind


def operand(it):
    """An expression beside an operator."""
    text_ = text(it)
    return text_ if re.fullmatch(r"\w+(\([^()]*\))?", text_) else f"({text_})"


def load(it):
    return f"load{it.value}({plain(it.parts[0])})"


def plain(it):
    """An expression of which Rust knows the type from where it stands."""
    return number(it.value, it.bits) if it.is_number else text(it)


def beside(it):
    """An operand, which takes its type from the other one."""
    return number(it.value, it.bits) if it.is_number else operand(it)


def signed(it):
    """An operand as a number with a sign."""
    return f"({operand(it)} as i{it.bits})"


def test(it):
    """An expression as a condition: whether it isn't 0."""
    if not it.is_test:
        return f"{operand(it)} != 0"
    what, _, sign = it.kind.partition("_")
    a, b = it.parts
    if sign == "s":
        return f"{signed(a)} {SIGNS[what]} {signed(b)}"
    return f"{operand(a)} {SIGNS[what]} {beside(b)}"


def computed(it):
    what, _, sign = it.kind.partition("_")
    a, b = it.parts
    if what in WRAPPING:
        return f"{operand(a)}.wrapping_{what}({plain(b)})"
    if what == "shr" and sign == "s":
        return f"({signed(a)} >> {beside(b)}) as u{it.bits}"
    return f"{operand(a)} {SIGNS[what]} {beside(b)}"


# ---- statements

def label(block):
    return f"'{'again' if block.is_loop else 'after'}_{block.label}"


def statement(it):
    """The lines of a statement."""
    kind, parts = it.kind, it.parts
    if kind == "let":
        return [f"let {parts[0]} = {text(parts[1])};"]
    if kind == "set":
        return [f"{parts[0]} = {plain(parts[1])};"]
    if kind == "store":
        return [f"store{parts[0]}({plain(parts[1])}, {lower(parts[2], parts[0])});"]
    if kind in ("move", "fill"):
        return [f"{'move_' if kind == 'move' else kind}({', '.join(map(plain, parts))});"]
    if kind == "call":
        result, name, args = parts
        call = f"{name}({', '.join(map(plain, args))});"
        return [f"let {result} = {call}" if result else call]
    if kind == "if":
        return [f"if {test(parts[0])} {{", *indented(statement(parts[1])), "}"]
    if kind == "switch":
        return switch(*parts)
    if kind == "trap":
        return ["trap();"]
    if kind == "jump":
        return [f"{'continue' if parts[0].is_loop else 'break'} {label(parts[0])};"]
    if kind == "return":
        return [f"return {plain(parts[0])};" if parts[0] else "return;"]
    return edge(kind == "begin", parts[0])


def edge(is_begin, block):
    """The begin or the end of a block that some jump leads to."""
    if not block.is_used:
        return []
    if is_begin:
        return [f"{label(block)}: {'loop ' if block.is_loop else ''}{{"]
    return ["break;", "}"] if block.is_loop and block.falls_out else ["}"]


def lower(it, bits):
    """So many lower bits of an expression."""
    if it.is_number:
        return number(it.value & ((1 << bits) - 1), it.bits)
    return plain(it) if it.bits == bits else f"{operand(it)} as u{bits}"


def switch(value, cases, other):
    lines = [f"match {text(value)} {{"]
    for numbers, then in cases:
        lines += [f"{' | '.join(map(str, numbers))} => {{", *indented(statement(then)), "}"]
    return [*lines, "_ => {", *indented(statement(other)), "}", "}"]


# ---- the file

def function_lines(function):
    params = ", ".join(f"{'mut ' if name in function.written else ''}{name}: u{bits}"
                       for name, bits in function.params)
    result = f" -> u{function.result}" if function.result else ""
    yield from ("", f"// {function.source}", f"unsafe fn {function.name}({params}){result} {{")
    if function.frame:
        yield f"  let mut array = Frame::<{function.frame}>::new();"
        yield "  let frame = address(&raw mut array);"
    for name, bits in function.variables:
        yield f"  let mut {name} = 0u{bits};"
    for it in function.body:
        yield from indented(statement(it))
    yield "}"


def constants(runs):
    """The static of constants: its type, and its value."""
    fields, values = [], []
    for at, (data, places) in enumerate(runs):
        if data:
            fields.append(f"bytes_{at}: [u8; {len(data)}],")
            values += [f"bytes_{at}: [", *folded(separated(map(str, data))), "],"]
        if places:
            fields.append(f"addresses_{at}: [Address; {len(places)}],")
            values += [f"addresses_{at}: [", *folded(separated(f"to({it})" for it in places)), "],"]
    return ["#[repr(C, align(16))]", "struct Constants {", *fields, "}",
            "static CONSTANTS: Constants = Constants {", *values, "};"]


def call_lines(call):
    """A call of the header."""
    kinds = [("usize" if "*" not in it else "*const u8" if it.startswith("const") else "*mut u8")
             for _, it in call.params]
    params = ", ".join(f"{name}: {kind}" for (name, _), kind in zip(call.params, kinds))
    args = ", ".join(f"address({name})" if "*" in kind else f"{name} as u64"
                     for (name, _), kind in zip(call.params, kinds))
    turned = [f"turn(address({name}), {count if count == 1 else f'{count} as u64'} * {whole}, {size});"
              for name, count, whole, size in call.stored]
    yield from ("", "#[unsafe(no_mangle)]", f'pub unsafe extern "C" fn {call.name}({params}) -> u32 {{')
    called = f"{call.body}({args})"
    if turned:
        yield from indented([*turned, f"let returned = {called};", *turned, "returned"])
    else:
        yield f"  {called}"
    yield "}"


def source(program, kit):
    """The text of the file."""
    head, memory = HEAD.read_text(encoding="utf-8").split(CONSTANTS)
    lines = [*constants(program.runs()), ""]
    for function in program.functions:
        lines += function_lines(function)
    for call in program.calls:
        lines += call_lines(call)
    note, memory = memory.split("\n", 1)
    text_ = "\n".join(line for it in lines for line in short(it))
    return f"{COMMENT.format(kit=kit)}{head}{CONSTANTS}{note}\n{text_}\n{memory}"


def main():
    module = wasm.Module(pathlib.Path(sys.argv[1]).read_bytes())
    header = pathlib.Path(sys.argv[2]).read_text(encoding="utf-8")
    sys.stdout.write(source(translate.Program(module, header), sys.argv[3]))


if __name__ == "__main__":
    main()
