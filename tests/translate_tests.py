"""packaging/c/translate: each instruction that it knows, as C and as the module itself is run by node, on the same operands; that the module
of dist/ has no other; and modules that it has to refuse."""
import re
import shutil
import subprocess
import sys

from libraries import HEADER, TOP, shipped
from spawned import SECONDS

sys.path.insert(0, str(HEADER))
from wasm_function import STEPS, Function  # noqa: E402
from wasm_module import U64, Module  # noqa: E402

# Some compilers warn of it.
SET_TO_ITSELF = re.compile(r"\b(\w+) = \1;")
STACK = 131072
PLACE = 100000
OPERANDS = 0, 1, 2, 3, 31, 32, 63, 127, 128, 255, 32768, 65535, 65537, 2**31 - 1, 2**31, 2**32 - 1, 2**32, 2**40 + 5, 2**63 - 1, 2**63, 2**64 - 2, 2**64 - 1
GET, SET, TEE, CONSTANT, CONSTANT_32, WRAP, EXTEND, END = 0x20, 0x21, 0x22, 0x42, 0x41, 0xA7, 0xAD, 0x0B
A, B = [GET, 0], [GET, 1]
A_32, B_32 = [*A, WRAP], [*B, WRAP]


def number(value):
    """In LEB128."""
    made = []
    while value > 127:
        made, value = [*made, value & 127 | 128], value >> 7
    return [*made, value]


def signed(value):
    made = []
    while not -64 <= value < 64:
        made, value = [*made, value & 127 | 128], value >> 7
    return [*made, value & 127]


def constant(value):
    return [CONSTANT, *signed(value)]


AT = [*constant(PLACE), WRAP]


def kept(*values):
    """Stores values of 64 bits from PLACE on."""
    return [byte for k, value in enumerate(values) for byte in (*AT, *value, 0x37, 0, *number(8 * k))]


def loaded(op=0x29, offset=0):
    return [*AT, op, 0, *number(offset)]


def divided(op, bits):
    """A quotient where there is one: no machine divides by 0, and the proof shows that no run does, nor overflows."""
    one = [CONSTANT, 1] if bits == 64 else [CONSTANT_32, 1]
    left, right = (A, B) if bits == 64 else (A_32, B_32)
    smaller = [*left, *one, 0x88 if bits == 64 else 0x76]
    larger = [*right, *one, 0x88 if bits == 64 else 0x76, *one, 0x84 if bits == 64 else 0x72]
    return [*smaller, *larger, op] + ([EXTEND] if bits == 32 else [])


def of_values():
    for op in range(0x7C, 0x8B):
        yield divided(op, 64) if 0x7F <= op <= 0x82 else [*A, *B, op]
    for op in range(0x6A, 0x79):
        yield divided(op, 32) if 0x6D <= op <= 0x70 else [*A_32, *B_32, op, EXTEND]
    # A sign that counts.
    yield [*A, CONSTANT, 0x7D, 0x7F]
    yield [*A, CONSTANT, 7, 0x81]
    for op in (0x79, 0x7A, 0x7B, 0xC2, 0xC3, 0xC4):
        yield [*A, op]
    for op in (0x67, 0x68, 0x69, 0xC0, 0xC1):
        yield [*A_32, op, EXTEND]
    yield [*A, 0x50, EXTEND]
    yield [*A_32, 0x45, EXTEND]
    for op in range(0x51, 0x5B):
        yield [*A, *B, op, EXTEND]
    for op in range(0x46, 0x50):
        yield [*A_32, *B_32, op, EXTEND]
    yield [*A_32, 0xAC]
    yield [CONSTANT_32, *signed(-5), *A_32, 0x6A, 0xAC]
    yield [*A, *B, *A, *B, 0x54, 0x1B]
    yield [*A, *B, 0x54, *A, *B, 0x51, 0x6A, EXTEND]
    # Shifts by constants, beyond the width too.
    for op in (0x86, 0x87, 0x88):
        yield [*A, CONSTANT, *signed(67), op]
    for op in (0x74, 0x75, 0x76):
        yield [*A_32, CONSTANT_32, 35, op, EXTEND]


def of_memory():
    for op in (0x29, 0x30, 0x31, 0x32, 0x33, 0x34, 0x35):
        yield [*kept(A, B), *loaded(op, 5)]
    for op in (0x28, 0x2C, 0x2D, 0x2E, 0x2F):
        yield [*kept(A, B), *loaded(op, 3), EXTEND]
    for op in (0x3C, 0x3D, 0x3E, 0x37):
        yield [*kept(A, B), *AT, *B, op, 0, 3, *loaded()]
    for op in (0x36, 0x3A, 0x3B):
        yield [*kept(A, B), *AT, *B_32, op, 0, 3, *loaded()]
    yield [*kept(A, B, A), *constant(PLACE + 4), WRAP, *AT, *constant(13), WRAP, 0xFC, 10, 0, 0, *loaded(offset=8)]
    yield [*kept(A, B), *constant(PLACE + 3), WRAP, *B_32, *constant(6), WRAP, 0xFC, 11, 0, *loaded(offset=2)]
    # A constant of the module, and an address that is one of 32 bits.
    yield [*constant(STACK + 2), WRAP, 0x29, 0, 1]
    yield [*kept(A), CONSTANT_32, *signed(PLACE), 0x29, 0, 0]
    # What was loaded stays what it was where memory changes.
    yield [*kept(A, B), *loaded(), *kept(B), *loaded(), 0x7D]
    yield [*kept(A), *loaded(), *AT, *A, *B, 0x10, 0, 0x37, 0, 0, *loaded(), 0x7D]
    # The stack pointer.
    yield [0x23, 0, CONSTANT, 16, 0x7D, TEE, 2, 0x24, 0, 0x23, 0, GET, 2, CONSTANT, 16, 0x7C, 0x24, 0, 0x23, 0, 0x7D]


def of_control():
    yield [*A, *A, CONSTANT, 1, 0x7C, SET, 0, *A, 0x7D]
    yield [*A, *B, TEE, 0, 0x7D, *A, 0x7C]
    yield [*A, *A, SET, 0, *B, TEE, 1, 0x7D, *A, 0x7C]
    yield [*A, 0x01, *B, 0x1A]
    yield [*A, *B, 0x10, 0]
    yield [*A, *B, 0x10, 0, 0x1A, *A]
    yield [0x02, 0x7E, *A, *A, *B, 0x54, 0x0D, 0, 0x1A, *B, END]
    yield [0x02, 0x40, *A, *B, 0x54, 0x0D, 0, *B, 0x0F, END, *A]
    yield [*A_32, 0x04, 0x7E, *A, 0x05, *B, END]
    yield [*A_32, 0x04, 0x40, *B, SET, 0, END, *A]
    yield [*A_32, 0x04, 0x40, *A, 0x0F, 0x05, *B, 0x0F, END, 0x00]
    yield [*A, *B, 0x54, 0x04, 0x7E, 0x02, 0x40, *A_32, 0x0D, 0, *B, 0x0F, END, *A, 0x05, *A, *B, 0x7D, END]
    # A loop that counts to the last four bits, and one that isn't left by its end.
    low = [*A, CONSTANT, 15, 0x83, SET, 2]
    yield [*low, 0x03, 0x40, GET, 3, *B, 0x7C, SET, 3, GET, 2, CONSTANT, 1, 0x7D, TEE, 2, CONSTANT, 0, 0x55, 0x0D, 0, END, GET, 3]
    yield [*low, 0x03, 0x7E, GET, 2, 0x50, 0x04, 0x40, GET, 3, 0x0F, END, GET, 2, CONSTANT, 1, 0x7D, SET, 2, GET, 3, *B, 0x7C, SET, 3, 0x0C, 0, END]
    # A table of jumps, with a value and without one; code that isn't reached.
    yield [0x02, 0x40, 0x02, 0x40, 0x02, 0x40, *A_32, 0x0E, 2, 0, 1, 2, END, CONSTANT, 5, 0x0F, END, CONSTANT, 6, 0x0F, END, *B]
    yield [0x02, 0x7E, 0x02, 0x7E, *B, *A_32, 0x0E, 3, 0, 1, 0, 1, 0x02, 0x40, END, 0x00, END, CONSTANT, 3, 0x7C, END]
    yield [0x02, 0x7E, *A, 0x0C, 0, 0x03, 0x40, CONSTANT_32, 0, 0x04, 0x40, 0x05, END, 0x0C, 0, END, *B, END]
    yield [CONSTANT_32, 0, 0x04, 0x40, 0x00, END, *A]
    # An expression that is longer than one may be.
    yield [*A, *[byte for k in range(40) for byte in (*B, CONSTANT, k, 0x7C, 0x85)]]


def section(kind, *pieces):
    data = [*number(len(pieces)), *(byte for piece in pieces for byte in piece)]
    return bytes([kind, *number(len(data)), *data])


def counted(data):
    return [*number(len(data)), *data]


def module_of(bodies, constants=bytes(range(1, 30)), types=((2, 1),), globals_=1):
    """A module of functions, each of two numbers of 64 bits, with two more locals."""
    functions = [counted([1, 2, 0x7E, *body, END]) for body in bodies]
    exports = [[*counted(f"f{k}".encode()), 0, *number(k)] for k in range(len(bodies))]
    return b"\0asm\1\0\0\0" + b"".join(
        (
            section(1, *([0x60, given, *[0x7E] * given, answered, *[0x7E] * answered] for given, answered in types)),
            section(3, *([0] for _ in bodies)), section(5, [0, 4]), section(6, *[[0x7E, 1, *constant(STACK), END]] * globals_),
            section(7, *exports), section(10, *functions), section(11, [0, CONSTANT_32, *signed(STACK), END, *counted(constants)]),
        )
    )  # fmt: skip


def bodies():
    """What is added for calls stands first."""
    return [[*A, *B, 0x7C], *of_values(), *of_memory(), *of_control()]


def translated(data):
    """The functions of a module in C, and the instructions that they have."""
    module = Module(data)
    functions = [Function(module, [f"f{k}" for k in range(len(module.functions))], k) for k in range(len(module.functions))]
    return functions, [it.text() for it in functions]


def program_of(data):
    """A program in C that prints what each function gives for each two operands."""
    functions, texts = translated(data)
    module = Module(data)
    constants = f"#define STACK {STACK}u\nstatic const u8 constants[] = {{{','.join(map(str, module.constants))}}};\n"
    heads = "".join(f"{it.head()};\n" for it in functions)
    operands = ",".join(f"{it}ull" for it in OPERANDS)
    calls = "".join(f'printf("%llu\\n", (unsigned long long)f{k}(b, operands[i], operands[j]));\n' for k in range(len(functions)))
    main = f"""#include <stdio.h>
int main(void) {{
    static const u64 operands[] = {{{operands}}};
    static u8 block[2 * ROOM];
    B b = (B)block + ROOM - STACK;
    memcpy(block + ROOM, constants, sizeof constants);
    for (int i = 0; i < {len(OPERANDS)}; i++)
        for (int j = 0; j < {len(OPERANDS)}; j++) {{
            SP = STACK;
            {calls}
        }}
    return 0;
}}
"""
    head = (HEADER / "prelude.c").read_text().replace("@HEADER@\n", (HEADER / "igesolid.h").read_text())
    return "\n".join([head, constants, heads, *texts, main])


NODE = """const fs = require("fs");
const operands = [%s];
WebAssembly.instantiate(fs.readFileSync(process.argv[2])).then(({ instance }) => {
    const told = [];
    for (const a of operands) for (const b of operands)
        for (let k = 0; k < %d; k++) told.push(BigInt.asUintN(64, instance.exports["f" + k](BigInt.asIntN(64, a), BigInt.asIntN(64, b))));
    process.stdout.write(told.join("\\n") + "\\n");
});
"""


def of_instructions(folder, compilers, skipped):
    """What node gives is what each compiler's program gives."""
    made, data = bodies(), module_of(bodies())
    used = set().union(*(it.used for it in functions_of(data)))
    yield "translate: all instructions that it knows are tried", {*STEPS} - {0xFC} <= used and {(0xFC, 10), (0xFC, 11)} <= used
    yield "translate: nothing is set to itself", SET_TO_ITSELF.search("".join(translated(data)[1])) is None
    own = shipped("igesolid.wasm")
    if own is not None:
        others = set().union(*(it.used for it in functions_of(own.read_bytes(), 7))) - used
        yield f"translate: the module has no other: {others}", not others
    node = shutil.which("node")
    if node is None:
        skipped("translate beside node: Debian's package nodejs isn't installed")
        return
    module, source, script = folder / "module.wasm", folder / "module.c", folder / "run.js"
    module.write_bytes(data)
    source.write_text(program_of(data))
    script.write_text(NODE % (", ".join(f"{it}n" for it in OPERANDS), len(made)))
    wanted = subprocess.run([node, script, module], capture_output=True, text=True, timeout=SECONDS)
    yield f"translate: node runs the module: {wanted.stderr[-300:]}", wanted.returncode == 0
    for compiler, words in compilers:
        program = folder / f"module-{compiler}"
        done = subprocess.run([compiler, *words, source, "-o", program], capture_output=True, text=True, timeout=SECONDS)
        yield f"translate: {compiler} compiles it: {done.stderr[-500:]}", done.returncode == 0
        got = subprocess.run([program], capture_output=True, text=True, timeout=SECONDS) if done.returncode == 0 else wanted
        wrong = {k % len(made) for k, (one, other) in enumerate(zip(wanted.stdout.split(), got.stdout.split())) if one != other}
        for k in range(len(made)):
            yield f"translate: {compiler}: {bytes(made[k]).hex(' ')}", k not in wrong and len(got.stdout) == len(wanted.stdout)


def functions_of(data, last=0):
    """The functions of a module, once they are translated, but for the last ones."""
    module = Module(data)
    functions = [Function(module, [f"f{k}" for k in range(len(module.functions))], k) for k in range(len(module.functions) - last)]
    for it in functions:
        it.text()
    return functions


def is_refused(data, wanted):
    try:
        for it in functions_of(data):
            it.taken()
    except SystemExit as ended:
        return wanted in str(ended.code)
    return False


def refusals():
    plain = module_of([A])
    for name, data, wanted in (
        ("no module", b"\0elf" + plain[4:], "no module"),
        ("a cut module", plain[:-3], "cut off"),
        ("an import", plain + section(2), "another kind"),
        ("a table", plain + section(4), "another kind"),
        ("a section twice", plain + section(3), "twice"),
        ("two answers", module_of([A], types=((2, 2),)), "several answers"),
        ("a float", module_of([[*A, *B, 0xA0]]), "instruction 0xa0"),
        ("a call by a table", module_of([[*A, *B, *A_32, 0x11, 0, 0]]), "instruction 0x11"),
        ("memory that grows", module_of([[*A_32, 0x40, 0, EXTEND]]), "instruction 0x40"),
        ("bulk memory of another kind", module_of([[*AT, *A_32, *B_32, 0xFC, 8, 0, 0, *A]]), "instruction 0xfc 8"),
        ("an address of 32 bits", module_of([[*A_32, *B_32, 0x6A, 0x29, 0, 0]]), "an address of 32 bits"),
        ("another global", module_of([[0x23, 1]], globals_=2), "another global"),
        ("no value", module_of([[0x7C]]), "no value is left"),
        ("a value too many", module_of([[*A, *B]]), "values are left"),
        ("the stack in another way", module_of([[*A, 0x24, 0, *A]]), "the stack in another way"),
        ("a stack of a size that is found late", module_of([[0x23, 0, *A, 0x7D, TEE, 2, 0x24, 0, *A]]), "the stack in another way"),
        ("constants elsewhere", plain.replace(bytes([0, CONSTANT_32, *signed(STACK)]), bytes([0, CONSTANT_32, *signed(STACK + 4)])), "above the stack"),
    ):
        yield f"translate refuses {name}", is_refused(data, wanted)
    path = TOP / "packaging" / "c" / "translate"
    done = subprocess.run([sys.executable, "-B", path, TOP / "LICENSE", "/dev/null"], capture_output=True, text=True)
    yield "translate: its words", (done.returncode, done.stderr) == (1, "packaging/c/translate: this is no module\n")


def checks(folder, compilers, skipped):
    yield from of_instructions(folder, compilers, skipped)
    yield from refusals()
