"""Translates the library's linked module of WebAssembly, with a memory of 64 bits, into functions
of which to_c.py and to_rust.py make a file of C and one of Rust.

The memory of the module becomes that of the program: what the module takes for an address is an
address of the program, as a number of 64 bits. So nothing is copied, and there is no state. The
module's constants are an array, and what a function has on the module's stack is an array of its
own.

A number is an address if the linker has filled it in, and such a number it writes in ten bytes,
however small it is; every other is as short as it can be. Of the constants those words are taken
for addresses that lie within the constants, at multiples of 8; tests/test_made.py compares their
number with that of the object for x86-64.

Left out is what the stack of a module needs and an array doesn't: its pointer, and the test of each
function that there is room for it. The compiler has left in a few other tests, of what the proofs
say can't be, after which the program would end: they are kept.
"""
import re

import wasm

# Instructions by opcode (WebAssembly Core Specification 2.0, section 5.4).
UNREACHABLE, NOP, LOOP, BRANCH, BRANCH_IF, BRANCH_TABLE, RETURN = 0, 1, 3, 0x0C, 0x0D, 0x0E, 0x0F
DROP, GET, SET, TEE, GET_GLOBAL, SET_GLOBAL, EQZ = 0x1A, 0x20, 0x21, 0x22, 0x23, 0x24, 0x45
NUMBERS = {0x41: 32, 0x42: 64}
NO_RESULT = -64
STACK_POINTER = 0
# Names of a module's own, for what an engine has to be told while a call is made.
ENTER, LEAVE, TRAP = "__rattle_enter", "__rattle_leave", "__rattle_trap"
COMPARE = ("eq", "ne", "lt_s", "lt_u", "gt_s", "gt_u", "le_s", "le_u", "ge_s", "ge_u")
COMPUTE = ("add", "sub", "mul", "div_u", "rem_u", "and", "or", "xor", "shl", "shr_s", "shr_u")
OPPOSITE = {"eq": "ne", "lt_s": "ge_s", "lt_u": "ge_u", "gt_s": "le_s", "gt_u": "le_u"}
OPPOSITE.update({after: before for before, after in OPPOSITE.items()})
# An expression of more parts gets a variable, so that lines stay short.
MOST_PARTS = 12


class Expression:
    """A number of 32 or 64 bits, in the bits of `bits`, by what makes it:

    number    the number `value`
    variable  of the name `value`
    constant  the address of the constant at the place `value`
    frame     the address of the function's own array
    stack     the pointer to the module's stack, which nothing but a test of it uses
    load      `value` bits of memory at the address `parts[0]`, and zeros above
    select    `parts[1]` if `parts[0]` isn't 0, and else `parts[2]`
    wrap      the lower 32 bits of `parts[0]`
    extend_u  `parts[0]`, of 32 bits, and zeros above
    extend_s  the lower `value` bits of `parts[0]`, and copies of their sign above
    clz, ctz  how many zeros there are above the highest one, below the lowest one
    COMPARE   1 if `parts[0]` and `parts[1]` compare so, and else 0
    COMPUTE   what that makes of `parts[0]` and `parts[1]`
    """

    def __init__(self, kind, bits, value=None, parts=()):
        self.kind, self.bits, self.value, self.parts = kind, bits, value, parts
        self.size = 1 + sum(it.size for it in parts)
        self.reads = frozenset().union(*(it.reads for it in parts))
        if kind == "variable":
            self.reads = frozenset([value])
        self.loads = kind == "load" or any(it.loads for it in parts)

    @property
    def is_number(self):
        return self.kind == "number"

    @property
    def is_fixed(self):
        """Whether it is the same number wherever it stands in the function."""
        return self.kind in ("number", "constant", "frame", "stack")

    @property
    def is_of_stack(self):
        return self.kind in ("stack", "frame")

    @property
    def is_test(self):
        return self.kind in COMPARE


def number(value, bits):
    return Expression("number", bits, value & ((1 << bits) - 1))


def added(expression, value):
    """The sum of an expression and a number."""
    return Expression("add", 64, None, (expression, number(value, 64))) if value else expression


class Block:
    """A block of the module. A jump leads to the end of it, or to the begin if it is a loop."""

    def __init__(self, is_loop, height):
        self.is_loop, self.height, self.label, self.falls_out = is_loop, height, 0, False

    @property
    def is_used(self):
        return self.label != 0


class Statement:
    """Something to do, by its kind:

    let     name, expression             a new variable, for the rest of its block, gets the number
    set     name, expression             the variable gets the number
    store   bits, address, expression    the lower bits of the number are written into memory
    move    to, from, size               so many bytes are moved, which may overlap
    fill    to, byte, size               so many bytes are set
    call    name or None, function, expressions    a new variable gets the result, if there is one
    if      expression, Statement        it is done if the number isn't 0
    switch  expression, [(numbers, Statement)], Statement    the last is done at any other number
    jump    Block
    return  expression or None
    trap                         the program ends
    begin, end  Block, which is used by some jump
    """

    def __init__(self, kind, *parts):
        self.kind, self.parts = kind, parts


class Function:
    """A translated function: its name, that in the sources, (name, bits) of its parameters and its
    variables, the bits of its result or 0, how many bytes its array has, and what it does."""

    def __init__(self, name, source):
        self.name, self.source = name, source
        self.params, self.variables, self.result, self.frame, self.body = [], [], 0, 0, []
        self.written = set()


def bits_of(letter):
    return {"i": 32, "l": 64}[letter]


class Translation:
    """The translation of a function, instruction by instruction, with the module's stack of numbers
    as expressions that weren't needed until now."""

    def __init__(self, program, index, params):
        self.program, self.module = program, program.module
        self.types = self.module.functions[index]
        self.function = Function(program.name(index), self.module.names[index])
        self.ops = list(self.module.ops(self.types))
        letters = self.types.params + self.types.locals
        names = params or [f"p{at}" for at in range(len(self.types.params))]
        names += [f"v{at}" for at in range(len(names), len(letters))]
        self.locals = [Expression("variable", bits_of(it), name) for it, name in zip(letters, names)]
        self.function.params = [(it.value, it.bits) for it in self.locals[:len(self.types.params)]]
        self.function.result = bits_of(self.types.results) if self.types.results else 0
        self.stack, self.blocks, self.labels, self.temporaries = [], [], 0, []
        # whether an instruction can be reached, and how many blocks are open that can't
        self.is_reached, self.unreached = True, 0
        self.written_once = self.locals_written_once()
        # what is known of other locals where no jump leads to
        self.known = {}

    def done(self):
        """Returns the translated function."""
        for op in self.ops:
            if self.is_reached:
                self.translate(op)
            else:
                self.skip(op)
        function = self.function
        self.leave_out_unread()
        function.written = {it.parts[0] for it in function.body if it.kind == "set"}
        used = self.used()
        own = [(it.value, it.bits) for it in self.locals[len(function.params):]]
        function.variables = [it for it in own if it[0] in used]
        function.temporaries = [it for it in self.temporaries if it[0] in used]
        return function

    def leave_out_unread(self):
        """Leaves out numbers that were named and that nothing reads, and the names of results."""
        body, is_changed = self.function.body, True
        while is_changed:
            read = self.used(but=("let", "call"))
            kept = [it for it in body if it.kind != "let" or it.parts[0] in read]
            is_changed = len(kept) < len(body)
            body[:] = kept
        for it in body:
            if it.kind == "call" and it.parts[0] not in read:
                it.parts = (None, *it.parts[1:])

    def used(self, but=()):
        """The names of the variables that the function mentions, but for those that these kinds of
        statements name."""
        found = set()

        def look(part):
            if isinstance(part, Expression):
                found.update(part.reads)
                wasm.refuse(part.kind == "stack", "another use of the pointer to its stack")
            elif isinstance(part, Statement):
                for it in part.parts[part.kind in but:]:
                    look(it)
            elif isinstance(part, (list, tuple)):
                for it in part:
                    look(it)
            elif isinstance(part, str):
                found.add(part)

        look(self.function.body)
        return found

    def locals_written_once(self):
        """The locals, without parameters, that are written at one place, not counting where they are
        given what they have."""
        before = [None, *self.ops]
        writes = [
            op.args[0] for last, op in zip(before, self.ops)
            if op.code in (SET, TEE) and not (last.code == GET and last.args == op.args)
        ]
        return {it for it in writes if writes.count(it) == 1 and it >= len(self.types.params)}

    def skip(self, op):
        """Passes over an instruction that isn't reached."""
        if op.code in wasm.BLOCKS:
            self.unreached += 1
        elif op.code == wasm.END and self.unreached:
            self.unreached -= 1
        elif op.code == wasm.END:
            self.end()

    # ---- the stack, and what is to be done before

    def say(self, kind, *parts):
        self.function.body.append(Statement(kind, *parts))

    def push(self, expression):
        if expression.size > MOST_PARTS:
            expression = self.named(expression)
        self.stack.append(expression)

    def pop(self, count):
        found = self.stack[len(self.stack) - count:]
        del self.stack[len(self.stack) - count:]
        return found

    def temporary(self, bits):
        name = f"t{len(self.temporaries)}"
        self.temporaries.append((name, bits))
        return Expression("variable", bits, name)

    def named(self, expression):
        """A variable that has the number of an expression, as it is now."""
        variable = self.temporary(expression.bits)
        self.say("let", variable.value, expression)
        return variable

    def settle(self, is_changed):
        """Computes those of the stack now that would be another number later."""
        for at, expression in enumerate(self.stack):
            if is_changed(expression):
                self.stack[at] = self.named(expression)

    def settle_loads(self):
        self.settle(lambda it: it.loads)

    # ---- instructions

    def translate(self, op):
        code, args = op.code, op.args
        if code in wasm.PLAIN:
            self.plain(*wasm.PLAIN[code])
        elif code == GET:
            self.stack.append(self.known.get(args[0], self.locals[args[0]]))
        elif code in (SET, TEE):
            self.write(args[0], self.stack.pop())
            if code == TEE:
                self.stack.append(self.known.get(args[0], self.locals[args[0]]))
        elif code in NUMBERS:
            bits = NUMBERS[code]
            is_address = self.is_address(args[0], op.at + 1, op.end)
            self.push(self.program.constant(args[0]) if is_address else number(args[0], bits))
        elif code in wasm.LOADS:
            letter, width, is_signed = wasm.LOADS[code]
            address = self.address(self.stack.pop(), op)
            loaded = Expression("load", bits_of(letter), width, (address,))
            if is_signed:
                loaded = Expression("extend_s", bits_of(letter), width, (loaded,))
            self.push(loaded)
        elif code in wasm.STORES:
            base, value = self.pop(2)
            self.settle_loads()
            self.say("store", wasm.STORES[code][1], self.address(base, op), value)
        elif code == GET_GLOBAL:
            wasm.refuse(args[0] != STACK_POINTER, "another global variable")
            self.push(Expression("stack", 64))
        elif code == SET_GLOBAL:
            wasm.refuse(args[0] != STACK_POINTER, "another global variable")
            self.stack.pop()
        elif code == wasm.CALL:
            self.call(args[0])
        elif code in (wasm.COPY, wasm.FILL):
            parts = self.pop(3)
            self.settle_loads()
            self.say("move" if code == wasm.COPY else "fill", *parts)
        elif code == wasm.SELECT:
            a, b, test = self.pop(3)
            self.push(Expression("select", a.bits, None, (test, a, b)))
        elif code == DROP:
            self.stack.pop()
        elif code != NOP:
            self.control(op)

    def control(self, op):
        """Translates an instruction that leads elsewhere, or a begin or an end."""
        code, args = op.code, op.args
        if code in wasm.BLOCKS:
            wasm.refuse(args[0] != NO_RESULT, "a block with a result")
            self.settle(lambda it: not it.is_fixed)
            self.blocks.append(Block(code == LOOP, len(self.stack)))
            if code == LOOP:
                self.known = {}
            self.say("begin", self.blocks[-1])
        elif code == wasm.END:
            self.end()
        elif code == BRANCH_IF:
            test = self.stack.pop()
            if not (test.is_number and test.value == 0):
                self.say("if", test, self.jump(args[0]))
        elif code == BRANCH_TABLE:
            targets, other = args
            cases = [
                ([at for at, it in enumerate(targets) if it == target], self.jump(target))
                for target in sorted({*targets} - {other})
            ]
            self.say("switch", self.stack.pop(), cases, self.jump(other))
            self.is_reached = False
        elif code in (BRANCH, RETURN):
            self.function.body.append(self.jump(args[0] if args else len(self.blocks)))
            self.is_reached = False
        else:
            wasm.refuse(code != UNREACHABLE, f"an instruction {code:x}, which isn't translated")
            self.say("trap")
            self.is_reached = False

    def plain(self, name, takes, leaves):
        """Translates an instruction that makes a number of one or two."""
        kind, bits, parts = name[4:], bits_of(leaves), self.pop(len(takes))
        if kind == "eqz":
            self.push(self.negated(parts[0]))
        elif kind in COMPARE and parts[0].is_of_stack:
            # the test that there is no room on the module's stack, or that there is: there is here
            is_known = (kind, parts[1].is_number and parts[1].value) in (("lt_s", 16), ("gt_s", 15))
            wasm.refuse(not is_known, "another test of its stack")
            self.push(number(kind == "gt_s", 32))
        elif kind == "sub" and parts[0].kind == "stack":
            wasm.refuse(self.function.frame or not parts[1].is_number, "two parts on its stack")
            self.function.frame = parts[1].value
            self.push(Expression("frame", 64))
        elif kind in COMPARE:
            self.push(Expression(kind, 32, None, tuple(parts)))
        elif kind in COMPUTE:
            self.push(Expression(kind, bits, None, self.computed(kind, parts)))
        elif kind == "wrap_i64":
            self.push(Expression("wrap", 32, None, tuple(parts)))
        elif kind == "extend_i32_u" and parts[0].kind == "load":
            self.push(Expression("load", 64, parts[0].value, parts[0].parts))
        elif kind == "extend_i32_u":
            self.push(Expression("extend_u", 64, None, tuple(parts)))
        elif kind.startswith("extend") and kind.endswith("_s"):
            width = int(re.sub(r"\D", "", kind.replace("_i32", "32")))
            self.push(Expression("extend_s", bits, width, tuple(parts)))
        elif kind in ("clz", "ctz"):
            self.push(Expression(kind, bits, None, tuple(parts)))
        else:
            wasm.refuse(True, f"an instruction {name}, which isn't translated")

    @staticmethod
    def computed(kind, parts):
        """The operands, so that every language computes the same of them: a shift is by less than
        there are bits, and a divisor isn't 0."""
        a, b = parts
        if kind in ("shl", "shr_s", "shr_u"):
            mask = number(a.bits - 1, a.bits)
            b = number(b.value & mask.value, b.bits) if b.is_number else \
                Expression("and", b.bits, None, (b, mask))
        if kind in ("div_u", "rem_u"):
            wasm.refuse(not (b.is_number and b.value), "a division by what may be 0")
        return a, b

    @staticmethod
    def negated(expression):
        """1 if a number is 0, and else 0."""
        if expression.is_test:
            return Expression(OPPOSITE[expression.kind], 32, None, expression.parts)
        zero = number(0, expression.bits)
        return Expression("eq", 32, None, (expression, zero))

    @staticmethod
    def is_address(value, at, end):
        """Whether the number that stands there is longer than it has to be."""
        return end - at == 10 and -(1 << 56) < value < 1 << 56

    def address(self, base, op):
        """The address of a load or a store: an address and an offset, one of which the linker may
        have filled in."""
        _, at, offset = op.args
        if self.is_address(offset, at, op.end):
            return Expression("add", 64, None, (self.program.constant(offset), base))
        return added(base, offset)

    def write(self, index, expression):
        """Gives a local a number. One that is never anything but an address on the stack is no
        variable here."""
        self.known.pop(index, None)
        if expression.is_of_stack and index in self.written_once:
            self.locals[index] = expression
        if self.locals[index].is_of_stack:
            return
        name = self.locals[index].value
        if expression.is_of_stack:
            self.known[index] = expression
        self.settle(lambda it: name in it.reads)
        if not (expression.kind == "variable" and expression.value == name):
            self.say("set", name, expression)

    def call(self, index):
        callee = self.module.functions[index]
        args = self.pop(len(callee.params))
        self.settle_loads()
        variable = self.temporary(bits_of(callee.results)) if callee.results else None
        self.say("call", variable.value if variable else None, self.program.called(index), args)
        if variable:
            self.stack.append(variable)

    # ---- where to go on

    def jump(self, depth):
        """The statement that leaves so many blocks, and goes on behind the next one or, if that is a
        loop, at its begin."""
        if depth == len(self.blocks):
            return Statement("return", self.stack[-1] if self.function.result else None)
        block = self.blocks[-1 - depth]
        if not block.is_used:
            self.labels += 1
            block.label = self.labels
        return Statement("jump", block)

    def end(self):
        if self.blocks:
            block = self.blocks.pop()
            del self.stack[block.height:]
            block.falls_out = self.is_reached
            self.known = {}
            self.is_reached = self.is_reached or (block.is_used and not block.is_loop)
            self.say("end", block)
        elif self.is_reached and self.function.result:
            self.say("return", self.stack[-1])


class Program:
    """The translation of a module, and of the calls that a header declares."""

    def __init__(self, module, header):
        self.module, self.names, self.taken, self.needed = module, {}, {}, []
        wasm.refuse(len(module.segments) != 1, "constants in several places")
        (self.base, self.begin, self.end), = module.segments
        self.calls = list(self.exported(header))
        params = {it.index: [name for name, _ in it.params] for it in self.calls}
        self.functions, at = [], 0
        while at < len(self.needed):
            index = self.needed[at]
            self.functions.append((index, Translation(self, index, params.get(index)).done()))
            at += 1
        self.functions = [it for _, it in sorted(self.functions, key=lambda it: it[0])]

    def name(self, index):
        """A name for a function: that in the sources without the types it is made for, as letters,
        digits and _, and with a number if another function has it too."""
        if index not in self.names:
            name = re.sub(r"::<.*", "", self.module.names[index]).removeprefix("rattle::")
            name = re.sub(r"[^A-Za-z0-9]+", "_", name).strip("_")
            count = self.taken[name] = self.taken.get(name, 0) + 1
            self.names[index] = name if count == 1 else f"{name}_{count}"
        return self.names[index]

    def called(self, index):
        """The name of a function, which is translated too."""
        if index not in self.needed:
            self.needed.append(index)
        return self.name(index)

    def constant(self, address):
        """The address of a constant, or the one after the last."""
        place = address - self.base
        wasm.refuse(not 0 <= place <= self.end - self.begin, f"an address {address:x} of nothing")
        return Expression("constant", 64, place)

    def runs(self):
        """The constants, as (bytes, places that the addresses after them lead to)."""
        data, at, runs = self.module.data[self.begin:self.end], 0, []
        for place in range(0, len(data) - 7, 8):
            to = self.module.word(self.begin + place) - self.base
            if not 0 <= to < len(data):
                continue
            if runs and at == place:
                runs[-1][1].append(to)
            else:
                runs.append((data[at:place], [to]))
            at = place + 8
        return [*runs, (data[at:], [])]

    def exported(self, header):
        """The calls that the module exports, as the header declares them."""
        structs = struct_sizes(header)
        declared = {it[0]: it[1] for it in re.findall(r"^uint32_t (sec1_\w+)\(([^;{]*)\);",
                                                      without_comments(header), re.M)}
        missing = sorted(set(self.module.exports) - set(declared))
        wasm.refuse(missing, f"exports that the header doesn't declare: {missing}")
        for name, params in declared.items():
            if name in self.module.exports:
                index = self.body_of(self.module.exports[name])
                yield Call(name, index, self.called(index), " ".join(params.split()), structs)

    def body_of(self, index):
        """The function that an export calls, with its parameters in their order, between the calls
        that note for an engine that a call is made."""
        function = self.module.functions[index]
        ops = [it for it in self.module.ops(function) if it.code not in wasm.BLOCKS + (wasm.END,)]
        found = [(it.code, *it.args) for it in ops]
        calls = [it[1] for it in found if it[0] == wasm.CALL]
        own = [self.module.names.get(it) for it in calls]
        count = len(function.params)
        wanted = [
            (wasm.CALL, calls[0]), (EQZ,), (BRANCH_IF, 0), (wasm.CALL, calls[1]),
            (UNREACHABLE,), *((GET, at) for at in range(count)), (wasm.CALL, calls[2]),
            (SET, count), (wasm.CALL, calls[3]), (GET, count),
        ]
        is_known = own[:2] + own[3:] == [ENTER, TRAP, LEAVE] and found == wanted
        wasm.refuse(not is_known, f"an export that does more than call one function: {own}")
        return calls[2]


class Call:
    """A call of the header: its name, its declared parameters, and the function that it calls.

    params   (name, type), as the header has them
    stored   (name, how many objects, the size of one in bytes, the size of a number in it) of each
             parameter through which numbers of more than one byte are stored
    """

    def __init__(self, name, index, body, declared, structs):
        self.name, self.index, self.body, self.declared = name, index, body, declared
        self.params, self.stored = [], []
        for param in declared.split(", "):
            type_, name_ = re.fullmatch(r"(.*?)(\w+)", param).groups()
            self.params.append((name_, type_.strip()))
        sizes = {"size_t *": (8, 8), "uint32_t *": (4, 4), "int32_t *": (4, 4)}
        sizes.update({f"struct {it} *": (size, 8) for it, size in structs.items()})
        names = [it for it, _ in self.params]
        for at, (name_, type_) in enumerate(self.params):
            if type_ in sizes:
                # how many there are says the next parameter, if it is named after this one
                count = f"{name_}_len" if names[at + 1:at + 2] == [f"{name_}_len"] else 1
                self.stored.append((name_, count, *sizes[type_]))
            else:
                known = ("const uint8_t *", "const char *", "uint8_t *", "char *", "size_t")
                wasm.refuse(type_ not in known, f"a parameter of an unknown type: {type_}")


def without_comments(header):
    return re.sub(r"/\*.*?\*/", "", header, flags=re.S)


def struct_sizes(header):
    """The sizes of those structs of the header whose members are numbers of 64 bits."""
    sizes = {}
    for name, members in re.findall(r"^struct (\w+) \{(.*?)^\};", without_comments(header), re.M | re.S):
        types = [it.rsplit(" ", 1)[0] for it in members.split(";")[:-1]]
        words = [8 if it.strip() == "size_t" else sizes.get(it.strip().removeprefix("struct "))
                 for it in types]
        if all(words):
            sizes[name] = sum(words)
    return sizes
