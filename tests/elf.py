"""The headers of a program for x86-64 Linux: what its segments and its dynamic section say."""
import struct

LOAD, DYNAMIC, INTERPRETER, STACK, RELRO = 1, 2, 3, 0x6474E551, 0x6474E552
EXECUTABLE, WRITABLE = 1, 2
NEEDED, STRINGS, SYMBOLS, HASH, RPATH, RUNPATH, TEXTREL, FLAGS, FLAGS_1, BIND_NOW = 1, 5, 6, 4, 15, 29, 22, 30, 0x6FFFFFFB, 24
POSITION_INDEPENDENT, X86_64 = 3, 62
NOW, NOW_1, PIE_1 = 8, 1, 0x08000000
CALLS, INIT, FINI = 3, 25, 26
SYMBOL_SIZE = 24


class File:
    """A program or a library."""

    def __init__(self, text):
        self.text = text
        if text[:6] != b"\x7fELF\x02\x01":
            raise ValueError("no program for a 64-bit machine of little ends")
        self.kind, self.machine = struct.unpack_from("<HH", text, 16)
        first, size, count = struct.unpack_from("<Q", text, 32)[0], *struct.unpack_from("<HH", text, 54)
        self.segments = [struct.unpack_from("<IIQQQQQQ", text, first + size * at) for at in range(count)]
        self.dynamic = list(self.dynamic_entries())

    def of_kind(self, kind):
        return [segment for segment in self.segments if segment[0] == kind]

    def dynamic_entries(self):
        """The pairs of a tag and a value of the dynamic section."""
        for _, _, offset, _, _, size, _, _ in self.of_kind(DYNAMIC):
            for at in range(offset, offset + size, 16):
                tag, value = struct.unpack_from("<qQ", self.text, at)
                if tag == 0:
                    return
                yield tag, value

    def values(self, wanted):
        return [value for tag, value in self.dynamic if tag == wanted]

    def offset(self, address):
        """Where in the file an address is."""
        for _, _, offset, start, _, size, _, _ in self.of_kind(LOAD):
            if start <= address < start + size:
                return offset + address - start
        raise ValueError("no such address")

    def string(self, place):
        at = self.offset(self.values(STRINGS)[0]) + place
        return self.text[at : self.text.index(b"\0", at)].decode()

    def libraries(self):
        return [self.string(place) for place in self.values(NEEDED)]

    def count_of_symbols(self):
        """How many dynamic symbols there are: as the hash table says; where there is none, as many as fit before the strings."""
        if self.values(HASH):
            return struct.unpack_from("<I", self.text, self.offset(self.values(HASH)[0]) + 4)[0]
        return (self.offset(self.values(STRINGS)[0]) - self.offset(self.values(SYMBOLS)[0])) // SYMBOL_SIZE

    def symbols(self, is_defined):
        """The names of the dynamic symbols that the file defines, or of those that it takes from elsewhere."""
        first, names = self.offset(self.values(SYMBOLS)[0]), set()
        for number in range(1, self.count_of_symbols()):
            name, _, _, section = struct.unpack_from("<IBBH", self.text, first + SYMBOL_SIZE * number)
            if (section != 0) == is_defined:
                names.add(self.string(name))
        return names
