"""How much of its stack the module for WebAssembly uses.

A function's part of the stack is a constant, which it takes off the stack pointer when it begins. A
call uses at most the parts of the functions on the longest way through those that it reaches. No
function is called by a table, and those that call themselves, or each other, do so as often as
LEVELS says.
"""
import functools
import re

import wasm

# How often a function can stand on the stack, for those that call themselves or each other.
LEVELS = {
    # levels 1 to 64, which their contracts limit
    "der_view::walk::walk": 64,
    "der_view::walk::draw_step": 64,
    # a content that is rows if it follows its structure has no such content inside it
    "der_view::walk::opened_of": 3,
    "der_view::walk::follows": 3,
    # a structure has at most ten components
    "der_view::step::fitting": 11,
    "der_view::line::Line::push_expected": 11,
    # a row has room for six marks
    "der_view::printer::write_marks": 7,
    # the rows of the table of the forms' words
    "der_view::sentences::form_in": 25,
    # the characters of a sentence, of which the longest has 83
    "der_view::line::Line::push_sentence": 84,
    # five sentences are said
    "der_view::drawing::write_sentences": 6,
    # the forms, of which one comes first
    "der_view::plan::best": 35,
    # levels 64 to 0
    "der_view::faults::walk::check": 65,
    # a number is below 2^128, and has no leading digits 0: 18 digits of 7 bits are 126
    "der_view::values::arcs::split_subidentifier": 20,
    # five digits of 7 bits in 32, and then 0
    "sec1_der::object_identifier::builder::Content::push_marked": 6,
    # eight hexadecimal digits in 32 bits
    "der_view::line::Line::push_code": 8,
}
# Instructions on the one global, which is the stack pointer, and on locals.
GET, SET, POINTER, CONSTANT, TEE = 0x23, 0x24, (0,), 0x42, 0x22


def frame(ops, name):
    """Returns a function's part of the stack in bytes. The compiler takes it at the beginning, if
    at all, and gives it back before each end."""
    words = [wasm.PLAIN.get(op.code, ("",))[0] for op in ops]
    gets, sets = ([at for at, op in enumerate(ops) if (op.code, op.args) == (it, POINTER)]
                  for it in (GET, SET))
    first, size = gets[0] if gets else 0, 0
    if gets and ops[first + 1].code == CONSTANT and words[first + 2] == "i64.sub":
        size = ops[first + 1].args[0]
        sets = [at for at in sets if at != first + 4 or ops[at - 1].code != TEE]
    added = [ops[at - 2].args[0] if words[at - 1] == "i64.add" else 0 for at in sets]
    is_known = len(gets) < 2 and size >= 0 and all(it == size for it in added)
    assert is_known, f"{name} moves the stack pointer in an unknown way"
    return size


class Stack:
    """What the functions of a module use of the stack."""

    def __init__(self, module):
        self.names, self.frames, self.calls = module.names, {}, {}
        for index, function in enumerate(module.functions):
            ops = list(module.ops(function))
            self.frames[index] = frame(ops, self.names[index])
            self.calls[index] = {op.args[0] for op in ops if op.code == wasm.CALL}
        # the functions that a call of each reaches
        self.reached = {index: {*called} for index, called in self.calls.items()}
        for via, found in self.reached.items():
            for other in self.reached.values():
                if via in other:
                    other |= found

    @functools.lru_cache(maxsize=None)
    def used(self, index):
        """Returns how many bytes a call of a function uses at most: of those that call each other
        each stands on the stack as often as it can. The types that it is for don't count."""
        cycle = {it for it in self.reached[index] if index in self.reached[it]}
        levels = {it: LEVELS[re.sub("::<#.*", "", self.names[it])] for it in cycle}
        own = sum(levels[it] * self.frames[it] for it in cycle) or self.frames[index]
        outside = set().union(*(self.calls[it] for it in cycle or {index})) - cycle
        return own + max(map(self.used, outside), default=0)
