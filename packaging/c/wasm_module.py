"""A WebAssembly module as packaging/web/module makes it, read for packaging/c/translate: functions over integers, one memory, one piece of
constants above the stack. Of anything else it says that it doesn't know it, and ends the program."""
import sys

U32, U64 = "u32", "u64"
TYPES = {0x7F: U32, 0x7E: U64}
TYPE, FUNCTION, MEMORY, GLOBAL, EXPORT, CODE, DATA, COUNT = 1, 3, 5, 6, 7, 10, 11, 12
NO_VALUE = 0x40
# What follows the byte of an instruction: a block's type (b), numbers (n), a signed number (s), a table of numbers (t).
OPERANDS = {0x02: "b", 0x03: "b", 0x04: "b", 0x0E: "t", 0x41: "s", 0x42: "s", 0xFC: "n"}
OPERANDS.update(dict.fromkeys((0x0C, 0x0D, 0x10, 0x20, 0x21, 0x22, 0x23, 0x24), "n"))
OPERANDS.update(dict.fromkeys(range(0x28, 0x3F), "nn"))
PLAIN = {0x00, 0x01, 0x05, 0x0B, 0x0F, 0x1A, 0x1B, *range(0x45, 0x5B), *range(0x67, 0x8B), 0xA7, 0xAC, 0xAD, *range(0xC0, 0xC5)}
MEMORY_COPY, MEMORY_FILL = 10, 11


def demand(holds, what):
    if not holds:
        sys.exit(f"packaging/c/translate: {what}")


class Reader:
    """The bytes of a module, or of a part of it, from a place on."""

    def __init__(self, data, at=0):
        self.data, self.at = data, at

    def is_at_end(self):
        return self.at == len(self.data)

    def byte(self):
        demand(not self.is_at_end(), "the module is cut off")
        self.at += 1
        return self.data[self.at - 1]

    def number(self):
        value = shift = 0
        while True:
            byte = self.byte()
            value, shift = value | (byte & 127) << shift, shift + 7
            if byte < 128:
                return value

    def signed(self):
        value = shift = 0
        while True:
            byte = self.byte()
            value, shift = value | (byte & 127) << shift, shift + 7
            if byte < 128:
                return value - (1 << shift) if byte & 64 else value

    def piece(self):
        size = self.number()
        demand(self.at + size <= len(self.data), "the module is cut off")
        self.at += size
        return self.data[self.at - size : self.at]

    def type(self):
        byte = self.byte()
        demand(byte in TYPES, f"a value of type {byte:#x}")
        return TYPES[byte]

    def instruction(self):
        """An instruction's byte, and what follows it."""
        op = self.byte()
        demand(op in OPERANDS or op in PLAIN, f"instruction {op:#x}")
        kind = OPERANDS.get(op, "")
        if kind == "b":
            return op, [None if self.data[self.at] == NO_VALUE and self.byte() else self.type()]
        if kind == "s":
            return op, [self.signed()]
        if kind == "t":
            return op, [self.number() for _ in range(self.number() + 1)]
        operands = [self.number() for _ in kind]
        if op == 0xFC:
            demand(operands[0] in (MEMORY_COPY, MEMORY_FILL), f"instruction 0xfc {operands[0]}")
            operands += [self.byte() for _ in range(MEMORY_FILL + 1 - operands[0])]
            demand(set(operands[1:]) == {0}, "another memory")
        return op, operands


class Module:
    def __init__(self, data):
        demand(data[:8] == b"\0asm\1\0\0\0", "this is no module")
        reader, self.sections = Reader(data, 8), {}
        while not reader.is_at_end():
            kind = reader.byte()
            demand(kind not in self.sections, f"section {kind} stands there twice")
            self.sections[kind] = reader.piece()
        demand({TYPE, FUNCTION, MEMORY, GLOBAL, EXPORT, CODE, DATA} <= set(self.sections), "a section is missing")
        demand(set(self.sections) <= {TYPE, FUNCTION, MEMORY, GLOBAL, EXPORT, CODE, DATA, COUNT}, "a section of another kind: imports or tables")
        self.types = self.each(TYPE, self.type)
        self.functions = [self.types[it] for it in self.each(FUNCTION, Reader.number)]
        self.codes = self.each(CODE, Reader.piece)
        self.exports = dict(self.each(EXPORT, self.export))
        first_global, pieces = self.each(GLOBAL, self.variable)[0], self.each(DATA, self.constants_at)
        demand(len(pieces) == 1 and pieces[0][0] == first_global, "the constants aren't one piece above the stack")
        self.stack, self.constants = pieces[0]

    def each(self, kind, read):
        reader = Reader(self.sections[kind])
        found = [read(reader) for _ in range(reader.number())]
        demand(reader.is_at_end(), f"section {kind} has bytes behind its end")
        return found

    def type(self, reader):
        demand(reader.byte() == 0x60, "a type that is no function's")
        given, answered = ([reader.type() for _ in range(reader.number())] for _ in range(2))
        demand(len(answered) < 2, "a function of several answers")
        return given, answered[0] if answered else None

    def export(self, reader):
        return reader.piece().decode(), (reader.byte(), reader.number())

    def constant(self, reader):
        op = reader.byte()
        demand(op in (0x41, 0x42), "a constant of another form")
        value = reader.signed()
        demand(reader.byte() == 0x0B, "a constant of another form")
        return value

    def variable(self, reader):
        reader.type(), reader.byte()
        return self.constant(reader)

    def constants_at(self, reader):
        demand(reader.number() == 0, "constants of another form")
        return self.constant(reader), reader.piece()
