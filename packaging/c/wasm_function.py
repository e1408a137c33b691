"""A function of a WebAssembly module as one of C, for packaging/c/translate.

The module's stack of values exists only here: a value waits as a text of C until it is used. What it reads may change before that: then it
is kept in a variable. Blocks become labels, and jumps goto."""
from __future__ import annotations

import dataclasses
import re

from wasm_module import MEMORY_COPY, U32, U64, Reader, demand

# No expression is longer than this, since some compilers take only so many brackets.
LONGEST = 160
LOADS = {
    0x28: (U32, "get32"), 0x29: (U64, "get64"), 0x2C: (U32, "(u32)(s32)(s8)get8"), 0x2D: (U32, "get8"), 0x2E: (U32, "(u32)(s32)(s16)get16"),
    0x2F: (U32, "get16"), 0x30: (U64, "(u64)(s64)(s8)get8"), 0x31: (U64, "(u64)get8"), 0x32: (U64, "(u64)(s64)(s16)get16"),
    0x33: (U64, "(u64)get16"), 0x34: (U64, "(u64)(s64)(s32)get32"), 0x35: (U64, "(u64)get32"),
}  # fmt: skip
STORES = {0x36: "put32", 0x37: "put64", 0x3A: "put8", 0x3B: "put16", 0x3C: "put8", 0x3D: "put16", 0x3E: "put32"}
COMPARED = "== != <s <u >s >u <=s <=u >=s >=u".split()
COUNTED = "clz ctz popcnt".split()
WORKED = "+ - * /s /u %s %u & | ^ << >>s >>u rotl rotr".split()
EXTENDED = {0xAC: (U64, "(u64)(s64)(s32)"), 0xAD: (U64, "(u64)"), 0xC0: (U32, "(u32)(s32)(s8)"), 0xC1: (U32, "(u32)(s32)(s16)")}
EXTENDED.update({0xC2: (U64, "(u64)(s64)(s8)"), 0xC3: (U64, "(u64)(s64)(s16)"), 0xC4: (U64, "(u64)(s64)(s32)")})
BLOCK, LOOP, IF, ELSE, END, FUNCTION = 0x02, 0x03, 0x04, 0x05, 0x0B, -1
BELOW = re.compile(r"(l\d+) = SP;")
TAKEN = re.compile(r"(l\d+) = SP - (\d+)ull;")


@dataclasses.dataclass(frozen=True)
class Value:
    """A value that waits: its text and its type, the locals that it reads, whether it reads memory, and whether the text needs no brackets.
    It may be the lower half of a value of 64 bits, the truth of a comparison, which has another type in C, or a constant."""

    text: str
    type: str
    locals: frozenset = frozenset()
    is_loaded: bool = False
    is_atom: bool = False
    is_truth: bool = False
    of: Value | None = None
    constant: int | None = None

    @property
    def whole(self):
        """The text as a part of another expression."""
        return f"(u32)({self.text})" if self.is_truth else self.text if self.is_atom else f"({self.text})"

    @property
    def number(self):
        return f"(u32)({self.text})" if self.is_truth else self.text

    @property
    def condition(self):
        return self.text if self.is_atom else f"({self.text})"


def lower_half(value):
    return Value(f"(u32){value.whole}", U32, value.locals, value.is_loaded, of=value)


@dataclasses.dataclass
class Block:
    """A block that is open: its instruction, its label, how many values wait below it, the variable of its own value, whether a jump to its
    label is in the text, and whether its end is reached."""

    kind: int
    label: str
    height: int
    answer: Value | None
    has_jump: bool = False
    is_reached: bool = False


class Function:
    def __init__(self, module, names, index):
        self.module, self.names, self.name = module, names, names[index]
        self.given, self.answer = module.functions[index]
        self.reader = Reader(module.codes[index])
        self.types = list(self.given)
        for _ in range(self.reader.number()):
            count = self.reader.number()
            self.types += [self.reader.type()] * count
        self.lines, self.stack, self.blocks, self.made, self.calls, self.used = [], [], [], [], set(), set()
        self.labels = self.skipped = 0

    def head(self):
        given = "".join(f", {type_} l{k}" for k, type_ in enumerate(self.given))
        return f"FN {self.answer or 'void'} {self.name}(B b{given})"

    def text(self):
        self.blocks.append(Block(FUNCTION, "", 0, None))
        while self.blocks:
            op, operands = self.reader.instruction()
            self.used.add((op, operands[0]) if op == 0xFC else op)
            if self.skipped:
                self.skip(op)
            else:
                STEPS[op](self, op, *operands)
        demand(self.reader.is_at_end(), f"{self.name}: bytes behind the end")
        if self.answer and not self.lines[-1].startswith("return "):
            self.lines.append("return 0;")
        body = "\n".join(self.lines)
        return f"{self.head()} {{\n{self.variables(body)}{body}\n}}\n"

    def variables(self, body):
        """The locals and what is kept; what the function is given and doesn't use is named, so that no compiler warns."""
        text, first, occurring = "", len(self.given), set(re.findall(r"\b[lt]\d+\b", body))
        for type_ in U32, U64:
            names = [f"l{k} = 0" for k, it in enumerate(self.types) if k >= first and it == type_ and f"l{k}" in occurring]
            names += [f"t{k}" for k, it in enumerate(self.made) if it == type_ and f"t{k}" in occurring]
            text += f"{type_} {', '.join(names)};\n" if names else ""
        unused = ["b"] if not re.search(r"\bb\b", body) else []
        return text + "".join(f"(void){it};\n" for it in (*unused, *(f"l{k}" for k in range(first) if f"l{k}" not in occurring)))

    def taken(self):
        """How many bytes of the stack the function takes for itself. It does so in two ways only, which is demanded: what calls nothing may
        use what lies below the stack's end without moving it."""
        lines = [line for line in self.lines if re.search(r"\bSP\b", line)]
        if not lines:
            return 0
        below = BELOW.fullmatch(lines[0])
        if below and len(lines) == 1 and not self.calls:
            return max((int(size) for line in self.lines for size in re.findall(rf"\b{below[1]} - (\d+)ull", line)), default=0)
        found = TAKEN.fullmatch(lines[0])
        demand(found is not None, f"{self.name}: the stack in another way: {lines[0]}")
        own, size = found.groups()
        others = {f"SP = {own};", f"SP = {own} + {size}ull;"}
        demand(set(lines[1:]) <= others, f"{self.name}: the stack in another way: {set(lines[1:]) - others}")
        last = max(at for at, line in enumerate(self.lines) if re.search(r"\bSP\b", line))
        changes = [at for at, line in enumerate(self.lines) if line.startswith(f"{own} = ")]
        # Behind the last line on the stack the local may serve for something else.
        demand(all(at > last for at in changes[1:]), f"{self.name}: the place of the stack changes")
        return int(size)

    # The values that wait.

    def push(self, text, type_, *parts, **more):
        is_loaded = more.pop("is_loaded", False) or any(it.is_loaded for it in parts)
        self.stack.append(Value(text, type_, frozenset().union(*(it.locals for it in parts)), is_loaded, **more))
        if len(text) > LONGEST:
            self.keep(len(self.stack) - 1)

    def pop(self):
        demand(len(self.stack) > self.blocks[-1].height, f"{self.name}: no value is left")
        return self.stack.pop()

    def fresh(self, type_):
        self.made.append(type_)
        return Value(f"t{len(self.made) - 1}", type_, is_atom=True)

    def keep(self, k):
        """Keeps a value that waits in a variable."""
        value = self.stack[k]
        whole = value.of or value
        variable = self.fresh(whole.type)
        self.lines.append(f"{variable.text} = {whole.number};")
        self.stack[k] = lower_half(variable) if value.of else variable

    def keep_where(self, is_due):
        for k, value in enumerate(self.stack):
            if is_due(value):
                self.keep(k)

    def before_change(self):
        """Memory changes: what reads it is kept."""
        self.keep_where(lambda value: value.is_loaded)

    def before_block(self):
        self.keep_where(lambda value: value.is_loaded or value.locals)

    # Control.

    def enter(self, kind, type_):
        self.before_block()
        self.labels += 1
        self.blocks.append(Block(kind, f"L{self.labels}", len(self.stack), type_ and self.fresh(type_)))

    def block(self, op, type_):
        self.enter(op, type_)
        if op == LOOP:
            self.lines.append(f"{self.blocks[-1].label}:;")

    def when(self, op, type_):
        what = self.pop()
        self.before_block()
        self.lines.append(f"if ({what.text}) {{")
        self.enter(op, type_)

    def leave(self):
        """The end of a block, or of its first part, unless it isn't reached."""
        block = self.blocks[-1]
        if self.skipped:
            return block
        block.is_reached = True
        if block.answer:
            self.lines.append(f"{block.answer.text} = {self.pop().number};")
        elif block.kind == FUNCTION and self.answer:
            self.lines.append(f"return {self.pop().number};")
        demand(len(self.stack) == block.height, f"{self.name}: values are left at the end of a block")
        return block

    def otherwise(self, op):
        block = self.leave()
        demand(block.kind == IF, f"{self.name}: else without if")
        block.kind, self.skipped = ELSE, 0
        del self.stack[block.height :]
        self.lines.append("} else {")

    def end(self, op):
        block = self.leave()
        self.blocks.pop()
        del self.stack[block.height :]
        if block.kind in (IF, ELSE):
            self.lines.append("}")
        if block.has_jump and block.kind != LOOP:
            self.lines.append(f"{block.label}:;")
            block.is_reached = True
        if block.kind == LOOP and not block.has_jump:
            self.lines.remove(f"{block.label}:;")
        if block.answer:
            self.stack.append(block.answer)
        self.skipped = 0 if block.is_reached or block.kind in (IF, FUNCTION) else 1

    def skip(self, op):
        """Code that isn't reached, up to the end of its block."""
        if op in (BLOCK, LOOP, IF):
            self.skipped += 1
        elif op == END and self.skipped > 1:
            self.skipped -= 1
        elif op == END:
            self.end(op)
        elif op == ELSE and self.skipped == 1:
            self.otherwise(op)

    def target(self, depth):
        demand(depth < len(self.blocks), f"{self.name}: a jump out of the function")
        return self.blocks[-1 - depth]

    def carried(self, depth):
        """The value that a jump takes along."""
        block = self.target(depth)
        is_due = self.answer if block.kind == FUNCTION else block.answer and block.kind != LOOP
        demand(not is_due or len(self.stack) > self.blocks[-1].height, f"{self.name}: a jump without its value")
        return self.stack[-1] if is_due else None

    def jumped(self, depth, value):
        """The statements that go to a block's label."""
        block = self.target(depth)
        if block.kind == FUNCTION:
            return [f"return {value.number};" if self.answer else "return;"]
        block.has_jump = True
        return ([f"{block.answer.text} = {value.number};"] if value else []) + [f"goto {block.label};"]

    def jump(self, op, depth):
        self.lines += self.jumped(depth, self.carried(depth))
        self.skipped = 1

    def jump_where(self, op, depth):
        what = self.pop()
        if self.carried(depth) is not None:
            self.keep_where(lambda value: not value.is_atom)
        # Without braces gcc -Wall compares the columns of each two lines, which takes it a minute.
        self.lines.append(f"if ({what.text}) {{ {' '.join(self.jumped(depth, self.carried(depth)))} }}")

    def jump_by_table(self, op, *depths):
        what = self.pop()
        *cases, last = depths
        lines = [f"case {k}: {' '.join(self.jumped(it, self.carried(it)))}" for k, it in enumerate(cases) if it != last]
        self.lines += [f"switch ({what.number}) {{", *lines, f"default: {' '.join(self.jumped(last, self.carried(last)))}", "}"]
        self.skipped = 1

    def give_back(self, op):
        self.lines.append(f"return {self.pop().number};" if self.answer else "return;")
        self.skipped = 1

    def trap(self, op):
        self.lines.append("abort();")
        self.skipped = 1

    def call(self, op, index):
        given, answer = self.module.functions[index]
        values = [self.pop() for _ in given][::-1]
        self.before_change()
        self.calls.add(self.names[index])
        text = f"{self.names[index]}(b{''.join(', ' + it.number for it in values)});"
        is_dropped = answer is not None and self.reader.data[self.reader.at] == 0x1A
        if is_dropped:
            self.reader.instruction()
        if answer is None or is_dropped:
            self.lines.append(text)
            return
        variable = self.fresh(answer)
        self.lines.append(f"{variable.text} = {text}")
        self.stack.append(variable)

    # Values.

    def nothing(self, op):
        pass

    def drop(self, op):
        self.pop()

    def select(self, op):
        what, right, left = self.pop(), self.pop(), self.pop()
        self.push(f"{what.condition} ? {left.whole} : {right.whole}", left.type, what, left, right)

    def local(self, op, k):
        self.stack.append(Value(f"l{k}", self.types[k], frozenset([k]), is_atom=True))

    def set_local(self, op, k):
        value = self.pop()
        # Some compilers warn of what is set to itself.
        if value.text == f"l{k}":
            return
        self.keep_where(lambda it: k in it.locals)
        self.lines.append(f"l{k} = {value.number};")

    def set_local_and_keep(self, op, k):
        self.set_local(op, k)
        self.local(op, k)

    def stack_place(self, op, k):
        demand(k == 0, f"{self.name}: another global")
        self.stack.append(Value("SP", U64, is_loaded=True, is_atom=True))

    def set_stack_place(self, op, k):
        demand(k == 0, f"{self.name}: another global")
        value = self.pop()
        self.before_change()
        self.lines.append(f"SP = {value.number};")

    def constant(self, op, value):
        bits, ending = (32, "u") if op == 0x41 else (64, "ull")
        value %= 1 << bits
        self.stack.append(Value(f"{value}{ending}", f"u{bits}", is_atom=True, constant=value))

    def compare(self, op):
        if op in (0x45, 0x50):
            value = self.pop()
            self.push(f"!{value.whole}", U32, value, is_truth=True)
            return
        bits, name = (32, COMPARED[op - 0x46]) if op < 0x50 else (64, COMPARED[op - 0x51])
        right, left = self.pop(), self.pop()
        cast = f"(s{bits})" if name[-1] == "s" else ""
        self.push(f"{cast}{left.whole} {name.rstrip('su')} {cast}{right.whole}", U32, left, right, is_truth=True)

    def count(self, op):
        bits, first = (32, 0x67) if op < 0x79 else (64, 0x79)
        value = self.pop()
        self.push(f"{COUNTED[op - first]}{bits}({value.number})", f"u{bits}", value, is_atom=True)

    def work(self, op):
        bits, first = (32, 0x6A) if op < 0x79 else (64, 0x7C)
        name, type_ = WORKED[op - first], f"u{bits}"
        right, left = self.pop(), self.pop()
        if name in ("rotl", "rotr"):
            self.push(f"{name}{bits}({left.number}, {right.number})", type_, left, right, is_atom=True)
            return
        sign, operator, a, b = f"(s{bits})", name.rstrip("su"), left.whole, right.whole
        if operator in ("<<", ">>"):
            b = str(right.constant % bits) if right.constant is not None else f"({b} & {bits - 1})"
        elif name[-1] == "s":
            b = f"{sign}{b}"
        if name[-1] == "s":
            self.push(f"({type_})({sign}{a} {operator} {b})", type_, left, right, is_atom=True)
        else:
            self.push(f"{a} {operator} {b}", type_, left, right)

    def halve(self, op):
        self.stack.append(lower_half(self.pop()))

    def extend(self, op):
        (type_, cast), value = EXTENDED[op], self.pop()
        self.push(f"{cast}{value.condition}", type_, value)

    # Memory.

    def address(self, value, offset=0):
        """An address of 64 bits. Where the memory has been made one of 32 bits, the module cuts each address where it is used."""
        whole = value.of or value
        if whole.constant is not None:
            return f"{(whole.constant + offset) % 2**64}u", whole
        demand(whole.type == U64, f"{self.name}: an address of 32 bits: {whole.text}")
        return (f"{whole.whole} + {offset}" if offset else whole.number), whole

    def load(self, op, alignment, offset):
        type_, how = LOADS[op]
        text, value = self.address(self.pop(), offset)
        self.push(f"{how}(b, {text})", type_, value, is_loaded=True, is_atom=True)

    def store(self, op, alignment, offset):
        what = self.pop()
        text, _ = self.address(self.pop(), offset)
        self.before_change()
        is_cut = what.type == U64 and STORES[op] != "put64"
        self.lines.append(f"{STORES[op]}(b, {text}, {'(u32)' + what.whole if is_cut else what.number});")

    def bulk(self, op, kind, *memories):
        count, what, to = self.pop(), self.pop(), self.pop()
        self.before_change()
        size, at = self.address(count)[0], self.address(to)[0]
        call, value = ("copy", self.address(what)[0]) if kind == MEMORY_COPY else ("fill", what.number)
        self.lines.append(f"{call}(b, {at}, {value}, {size});")


STEPS = {
    0x00: Function.trap, 0x01: Function.nothing, BLOCK: Function.block, LOOP: Function.block, IF: Function.when, ELSE: Function.otherwise,
    END: Function.end, 0x0C: Function.jump, 0x0D: Function.jump_where, 0x0E: Function.jump_by_table, 0x0F: Function.give_back, 0x10: Function.call,
    0x1A: Function.drop, 0x1B: Function.select, 0x20: Function.local, 0x21: Function.set_local, 0x22: Function.set_local_and_keep,
    0x23: Function.stack_place, 0x24: Function.set_stack_place, 0x41: Function.constant, 0x42: Function.constant, 0xA7: Function.halve, 0xFC: Function.bulk,
    **dict.fromkeys(LOADS, Function.load), **dict.fromkeys(STORES, Function.store), **dict.fromkeys(range(0x45, 0x5B), Function.compare),
    **dict.fromkeys((0x67, 0x68, 0x69, 0x79, 0x7A, 0x7B), Function.count), **dict.fromkeys((*range(0x6A, 0x79), *range(0x7C, 0x8B)), Function.work),
    **dict.fromkeys(EXTENDED, Function.extend),
}  # fmt: skip
