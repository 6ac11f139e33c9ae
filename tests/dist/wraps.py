"""What dist/to_32.py adds to the linked module, whose memory has 64 bits."""
import wasm

WRAP, NOP, STEP = 0xA7, 0x01, 50


def meant(op):
    """Returns what an instruction does: of a load or store, without the place of its offset."""
    is_memory = op.code in wasm.LOADS or op.code in wasm.STORES
    return op.code, op.args[::2] if is_memory else op.args


def parts(module):
    """Returns what a module has but for its instructions and its memory."""
    heads = [(it.params, it.results, it.locals) for it in module.functions]
    constants = [(place, module.data[begin:end]) for place, begin, end in module.segments]
    return heads, constants, module.exports


def added(linked, module, index):
    """Yields the places of those instructions of a function that the linked module doesn't have,
    each after that of the instruction before. All of them are `i32.wrap_i64`."""
    wanted = list(map(meant, linked.ops(linked.functions[index])))
    at, before = 0, 0
    for op in module.ops(module.functions[index]):
        if at < len(wanted) and meant(op) == wanted[at]:
            at += 1
        else:
            assert op.code == WRAP, f"an instruction at {op.at:x} that wasn't linked"
            yield before, op.at
        before = op.at
    assert at == len(wanted), f"function {index}: an instruction is missing"


def changes(linked, module):
    """Yields two changes of the module for each fiftieth of what is added, the place and the bytes
    there. By the one it is missing, by the other it stands one instruction earlier."""
    assert parts(linked) == parts(module)
    places = [it for index in range(len(module.functions)) for it in added(linked, module, index)]
    for before, at in places[::STEP]:
        yield at, bytes([NOP])
        yield before, bytes([WRAP]) + module.data[before:at]
