"""The protections that the program's headers ask the system for."""
import elf


def headers(runner, folder, forms):
    program = elf.File(open(runner.program, "rb").read())
    flags, flags_1 = (sum(program.values(tag)) for tag in (elf.FLAGS, elf.FLAGS_1))
    yield "the program is one for x86-64", program.machine == elf.X86_64
    yield "it may be loaded at any address", program.kind == elf.POSITION_INDEPENDENT and bool(flags_1 & elf.PIE_1)
    yield "its calls are bound before it starts", bool(flags & elf.NOW and flags_1 & elf.NOW_1)
    yield "what its start relocates can't be written later", len(program.of_kind(elf.RELRO)) == 1
    stacks = [segment[1] for segment in program.of_kind(elf.STACK)]
    yield "its stack holds no code", len(stacks) == 1 and not stacks[0] & elf.EXECUTABLE
    loaded = [segment[1] for segment in program.of_kind(elf.LOAD)]
    both = elf.EXECUTABLE | elf.WRITABLE
    yield "no segment can be written and run", bool(loaded) and all(segment & both != both for segment in loaded)
    yield "its code isn't relocated", not program.values(elf.TEXTREL)
    yield "it looks for libraries where the system does", not program.values(elf.RPATH) and not program.values(elf.RUNPATH)
    yield "it needs the C library alone", program.libraries() == ["libc.so.6"]


def relocated_tables(runner, folder, forms):
    """The tables of calls lie within what can't be written once the program has started."""
    program = elf.File(open(runner.program, "rb").read())
    _, _, _, first, _, _, size, _ = program.of_kind(elf.RELRO)[0]
    for name, tag in (("the table of calls", elf.CALLS), ("the table of what runs first", elf.INIT), ("the table of what runs last", elf.FINI)):
        yield f"{name} can't be written", all(first <= address < first + size for address in program.values(tag))
    yield "the dynamic section can't be written", all(first <= segment[3] < first + size for segment in program.of_kind(elf.DYNAMIC))


TABLES = [headers, relocated_tables]
