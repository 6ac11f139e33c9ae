"""What dist/translate.py takes for addresses in the linked module, and what the linker fills in.

In the object that isn't linked each is a relocation (WebAssembly tool conventions, Linking.md): in
the code, of the numbers and offsets that are addresses; in the data, of the words that are.
"""
from collections import Counter

import translate
import wasm

# R_WASM_MEMORY_ADDR_LEB64 and _SLEB64, which stand in the code, and _I64, which stands in the data.
KINDS = {14: "offsets", 15: "numbers", 16: "words"}
# Relocations of these kinds have no addend.
SHORT = (0, 1, 2, 6, 7, 10, 13, 19, 20, 26)


def filled_in(data):
    """Returns how many there are of each kind in an object."""
    assert data[:4] == b"\0asm"
    found, reader = Counter(), wasm.Reader(data, 8)
    while reader.at < len(data):
        number = reader.byte()
        end = reader.unsigned() + reader.at
        if number == wasm.CUSTOM and reader.text().startswith("reloc."):
            reader.unsigned()
            for _ in range(reader.unsigned()):
                kind = reader.byte()
                reader.unsigned(), reader.unsigned()
                if kind not in SHORT:
                    reader.signed()
                if kind in KINDS:
                    found[KINDS[kind]] += 1
        reader.at = end
    return found


def taken(module, header):
    """Returns how many of each kind dist/translate.py takes for addresses."""
    found, is_address = Counter(), translate.Translation.is_address
    for op in (op for function in module.functions for op in module.ops(function)):
        if op.code in translate.NUMBERS:
            found["numbers"] += is_address(op.args[0], op.at + 1, op.end)
        elif op.code in wasm.LOADS or op.code in wasm.STORES:
            found["offsets"] += is_address(op.args[2], op.args[1], op.end)
    found["words"] = sum(len(to) for _, to in translate.Program(module, header).runs())
    return found
