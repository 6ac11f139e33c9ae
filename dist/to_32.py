#!/usr/bin/env python3
"""Gives a linked module with a memory of 64 bits one of 32 bits, which more engines run.

  dist/to_32.py FROM TO

Parameters, results and what is computed keep their 64 bits. Only behind an instruction that
computes an address or a length for a load, a store, a copy or a fill `i32.wrap_i64` is added, which
leaves out the upper half. An address within a memory of 32 bits loses nothing by that, and it is
proved that the library uses no other. An engine accepts a module only if each address has the bits
of its memory and each other number those that it had, so that it refuses one in which such an
instruction is missing, or stands elsewhere.
"""
import pathlib
import sys

sys.dont_write_bytecode = True
import wasm  # noqa: E402

WRAP = b"\xa7"
# The type of a block that takes and leaves nothing (WebAssembly 2.0, section 5.4.1).
EMPTY = -64
# How many bytes the linker uses for an offset that is an address: the most that one may have.
LONGEST = {64: 10, 32: 5}


def number(value):
    """Returns a number in unsigned LEB128 (section 5.2.2)."""
    out = bytearray()
    while value > 127:
        out.append(value & 127 | 128)
        value >>= 7
    return bytes([*out, value])


def longest(value):
    """Returns a number of 32 bits in as many bytes as it may have."""
    wasm.refuse(value >> 32, f"an offset {value:x}, which has more than 32 bits")
    last = 7 * (LONGEST[32] - 1)
    return bytes(value >> shift & 127 | 128 for shift in range(0, last, 7)) + bytes([value >> last])


def addresses(op, taken):
    """Returns those of the numbers that an instruction takes that are addresses or lengths."""
    if op.code in wasm.LOADS or op.code in wasm.STORES:
        return taken[:1]
    if op.code == wasm.COPY:
        return taken
    return [taken[0], taken[2]] if op.code == wasm.FILL else []


def edits(module, function):
    """Returns what replaces which bytes of a function: (begin, end, bytes), in order."""
    # of each number on the stack, the place after the instruction that has left it there
    stack, found, blocks = [], set(), []
    for op in module.ops(function):
        takes, leaves = module.effect(op)
        height = len(stack) - takes
        taken = stack[height:]
        found |= {(at, at, WRAP) for at in addresses(op, taken)}
        if op.code in wasm.LOADS or op.code in wasm.STORES:
            _, begin, offset = op.args
            if op.end - begin == LONGEST[64]:
                found.add((begin, op.end, longest(offset)))
        elif op.code in wasm.BLOCKS:
            wasm.refuse(op.args[0] != EMPTY, f"a block with a result at {op.at:x}")
            blocks.append(height)
        elif op.code == wasm.END and blocks:
            height = blocks.pop()
        stack[height:] = [op.end] * leaves
    return sorted(found)


def code(module):
    """Returns the functions of a module, with addresses of 32 bits."""
    content = bytearray(number(len(module.functions)))
    for function in module.functions:
        at, text = function.head, bytearray()
        for begin, end, added in edits(module, function):
            text += module.data[at:begin] + added
            at = end
        text += module.data[at:function.end]
        content += number(len(text)) + text
    return content


def memory(content):
    """Returns the memory section of a module with one memory, which has 64 bits and no limit."""
    wasm.refuse(content[:2] != b"\1\4", "another memory than one of 64 bits without a limit")
    return b"\1\0" + content[2:]


def data(content):
    """Returns the data section of a module with one segment, whose place is a constant."""
    wasm.refuse(content[:3] != b"\1\0\x42", "more than one segment")
    return b"\1\0\x41" + content[3:]


def lowered(linked):
    """Returns the module with a memory of 32 bits, of one with a memory of 64."""
    module, out = wasm.Module(linked), bytearray(linked[:8])
    for section, name, begin, end in module.sections:
        content = linked[begin:end]
        if name == "target_features":
            # what an engine has to know of is another now, and none reads it here
            continue
        if section == wasm.MEMORY:
            content = memory(content)
        elif section == wasm.CODE:
            content = code(module)
        elif section == wasm.DATA:
            content = data(content)
        elif section == wasm.CUSTOM:
            content = number(len(name)) + name.encode() + content
        out += bytes([section]) + number(len(content)) + content
    return bytes(out)


def main():
    source, target = map(pathlib.Path, sys.argv[1:])
    target.write_bytes(lowered(source.read_bytes()))


if __name__ == "__main__":
    main()
