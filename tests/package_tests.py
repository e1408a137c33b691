"""What the Python package holds and gives back: descriptors, memory and texts; and what goes wrong in the system under it, as its own errors.
Each check runs in a Python of its own, with the collector of cycles off."""
import os
import subprocess
import sys

from libraries import shipped
from spawned import SECONDS

BEGIN = """import gc, io, os, resource, sys, warnings
gc.disable()
import igesolid
from igesolid.content import content_of_file
from igesolid.where_lines import NotUnderstood
cube, turned, after = (f"{sys.argv[1]}/{name}" for name in ("cube.igs", "turned.igs", "no/bad_after.igs"))
engine = igesolid.Library(sys.argv[2]) if len(sys.argv) > 2 else igesolid.Program()
def descriptors():
    return len(os.listdir("/proc/self/fd"))
def size():
    return int(open("/proc/self/statm").read().split()[1]) * resource.getpagesize()
def fault_of(call, *given):
    try:
        return call(*given)
    except igesolid.Error as fault:
        return type(fault).__name__, fault.status, str(fault)
"""
# Of each check a name, a text, and what it prints.
BOTH = (
    ("descriptors over COUNT reads", """
before, kept = descriptors(), []
for n in range(COUNT):
    file = igesolid.read(cube, engine)
    kept.append(file.solids[0].verdict)
print(descriptors() - before, len(kept) == COUNT)
""", "0 True"),
    ("descriptors of COUNT files that are kept", """
resource.setrlimit(resource.RLIMIT_NOFILE, (40, 40))
kept = [igesolid.read(cube, engine) for n in range(COUNT)]
print(len(kept) == COUNT)
""", "True"),
    ("memory over reads", """
data = open(cube, "rb").read() + b" " * 4_000_000
sizes = []
for n in range(12):
    fault_of(igesolid.read, data, engine)
    sizes.append(size())
print(sizes[-1] - sizes[2] < 2_000_000)
""", "True"),
    ("close", """
file = igesolid.read(cube, engine)
solid = file.solids[0]
text = len(solid.extract())
file.close()
file.close()
print(text, file.size, solid.verdict, fault_of(solid.extract))
""", "8829 8829 closed ('NotRead', 4, 'the file is closed')"),
    ("with", """
with igesolid.read(cube, engine) as file:
    text = len(file.solids[0].compact())
print(text, file.is_closed, fault_of(lambda: file.solids[0].where))
""", "8829 True ('NotRead', 4, 'the file is closed')"),
    ("relayout, layout and reorient", """
print(repr(igesolid.layout(after, engine)), len(igesolid.relayout(after, engine)), len(igesolid.read(turned, engine).solids[0].reorient()))
file = igesolid.read(cube, engine)
print(repr(file.layout()), file.relayout() == open(cube, "rb").read(), igesolid.read(igesolid.relayout(after, engine), engine).is_closed)
""", "'after 13 line 7\\n' 486 8829\n'in layout\\n' True False"),
    ("relayout and reorient refused", """
print(fault_of(igesolid.relayout, b"short", engine), fault_of(igesolid.layout, b"short", engine))
for name in ("one_sided", "fail_pair", "fail_type", "extract_layout"):
    print(fault_of(igesolid.read(f"{sys.argv[1]}/no/{name}.igs", engine).solids[0].reorient))
""", """('BadLayout', 3, 'bad layout line 1 short') ('BadLayout', 3, 'bad layout line 1 short')
('NoFlags', 1, 'ORIENT 1\\nO 1 1\\nEND')
('NoFlags', 1, 'fail COUNT 7 1')
('WrongRecord', 1, 'fail TYPE 1 1')
('NoExtract', 7, 'no extract 11 layout')"""),
    ("mend", """
file = igesolid.read(turned, engine)
print(igesolid.read(file.solids[0].mend(), engine).is_closed, [step.name for it in file.solids[0].mended().remedies for step in it.steps])
solid = igesolid.read(cube, engine).solids[0]
print(solid.mend() == solid.extract(), solid.mended().is_closed, solid.mended().remedies)
""", "True ['turn']\nTrue True []"),
    ("mend refused", """
for name in ("one_sided", "fail_pair", "fail_type", "extract_layout"):
    solid = igesolid.read(f"{sys.argv[1]}/no/{name}.igs", engine).solids[0]
    print(fault_of(solid.mend), fault_of(solid.mend) == fault_of(solid.mended))
""", """('Stuck', 1, 'fail PAIR 7 1, stuck') True
('NeedsFaces', 1, 'fail PAIR 7 1, needs faces 1') True
('WrongRecord', 1, 'fail TYPE 1 1') True
('NoExtract', 7, 'no extract 11 layout') True"""),
    ("few descriptors", """
files = [igesolid.read(cube, engine) for n in range(3)]
resource.setrlimit(resource.RLIMIT_NOFILE, (descriptors() - 1, 40))
told = fault_of(igesolid.read, cube, engine)
print(told)
""", "('NotRead', 4, \"can't be opened: Too many open files\")"),
    ("little memory", """
data = bytes(60_000_000)
resource.setrlimit(resource.RLIMIT_AS, (size() + 150_000_000, -1))
kinds = {fault_of(igesolid.read, kind(data), engine)[:2] for kind in (bytes, bytearray) for n in range(3)}
print(kinds <= {("BadFile", 3), ("NoMemory", 6)})
""", "True"),
)  # fmt: skip
ALONE = (
    ("a source that has nothing yet", """
class Waiting(io.RawIOBase):
    def read(self, size=-1):
        return None
print(fault_of(content_of_file, Waiting()))
""", "('NotRead', 4, 'a read failed: Resource temporarily unavailable')"),
    ("a FIFO to which nobody writes", """
igesolid.content.SECONDS_FOR_A_WRITER = 0.1
os.mkfifo("fifo.igs")
before = descriptors()
print(fault_of(igesolid.read, "fifo.igs"), descriptors() - before)
os.system(f"cat {cube} >fifo.igs &")
igesolid.content.SECONDS_FOR_A_WRITER = 60
print(igesolid.read("fifo.igs").is_closed)
""", "('NotRead', 4, \"can't be opened: it is a FIFO, and nobody wrote to it in 0.1 seconds\") 0\nTrue"),
    ("hints without the line on more of them", """
text = "fail PAIR 1 1\\nunits - -\\nshells 1 failing 1\\nhint remedy 1 shell 1\\n  A sentence.\\nstep turn faces 4\\n  Another.\\nturn 3 plane\\nmore 3\\nhint more 2\\n\\nrule PAIR shell 1 faults 1 once 0 same-way 1 many 0\\n  A third.\\nedge 7 1 along 2 against 0\\n"
where = igesolid.Where(text)
print([hint.name for hint in where.remedies], where.more_hints, [rule.name for rule in where.rules])
print([(step.name, step.count, step.sentence, [it.told for it in step.items], step.more) for step in where.remedies[0].steps])
""", "['remedy'] 2 ['PAIR']\n[('turn', 4, 'Another.', [{'face': '3', 'surface_type': 'plane'}], 3)]"),
    ("mend by an engine of one's own", """
class Played(igesolid.Engine):
    def ask(self, command, content, *words):
        if command == "where":
            return igesolid.Answer(1, b"solids 2 failing 1\\nsolid 1 fail PAIR 7 1\\n  lines directory 4 record 72 72\\nsolid 3 unjudged\\nhint unjudged solids 1\\n  A sentence.\\n")
        if words[1:] == ("2",):
            return igesolid.Answer(0, b"a file" if command == "mend" else b"hint remedy 2 shell 1\\nstep sew seams 1\\n  A sentence.\\nseam places edge 7 1 edge 7 2\\n")
        return igesolid.Answer(1, b"fail PAIR 7 1\\nunsure 2\\n")
file = igesolid.read(cube, Played())
solid = file.solids[0]
print(fault_of(solid.mend), solid.mend(2), [[it.told["how"] for it in step.items] for it in solid.mended(2).remedies for step in it.steps])
try:
    solid.mend()
except igesolid.Unsure as fault:
    print(fault.remedy, fault.rule, fault.entity, fault.place)
try:
    solid.mended(7)
except ValueError as fault:
    print(fault)
print([(it.verdict.is_closed, it.verdict.is_judged, str(it.verdict)) for it in file.solids], file.is_closed)
""", """('Unsure', 1, 'fail PAIR 7 1, unsure 2') b'a file' [['places']]
2 PAIR 7 1
7 isn't the number of a remedy, from 1 to 6
[(False, True, 'fail PAIR 7 1'), (False, False, 'unjudged')] False"""),
    ("no library and no program", """
os.environ["PATH"] = "/none"
print(fault_of(igesolid.Program("/none").ask, "solids", igesolid.files.content_of_path(cube)))
print(fault_of(igesolid.Library, "/none.so")[:2])
""", "('NoProgram', 125, '/none: No such file or directory')\n('NoProgram', 125)"),
    ("why the library beside the package can't be loaded", """
import igesolid.files, igesolid.engine
broken = os.path.abspath("broken.so")
open(broken, "w").write("no library")
igesolid.files.library_beside = lambda: broken
igesolid.engine.launcher = lambda: igesolid.engine.shutil.which("none") or (_ for _ in ()).throw(igesolid.NoProgram("no launcher"))
with warnings.catch_warnings(record=True) as said:
    warnings.simplefilter("always")
    told = fault_of(igesolid.read, cube)
print(told[:2], told[2].startswith(f"no launcher; {broken}: "), [broken in str(it.message) for it in said])
""", "('NoProgram', 125) True [True]"),
)  # fmt: skip
# An interrupt that comes at once after the call of the library: the text that it gave is freed.
INTERRUPTED = """
freed, free, where = [], engine._free, engine._functions["igesolid-where"]
def freeing(text):
    freed.append(text.length)
    free(text)
def interrupted(*given):
    where(*given)
    raise KeyboardInterrupt
engine._free, engine._functions["igesolid-where"] = freeing, interrupted
try:
    igesolid.read(cube, engine)
except KeyboardInterrupt:
    print(freed[0] > 0, len(freed))
"""


def checks(copy, folder, skipped):
    """On a copy of the repository: by the programs, and by the shared library where dist/ has it."""
    library = shipped("libigesolid-x86_64-linux.so")
    if library is None:
        skipped("what the Python package holds over the library: dist/ holds none of these sources")
    for about, more in (("package", ()), ("package over the library", (library,))):
        if None in more:
            continue
        # A program takes a millisecond to start, a call of the library none.
        count = 1_000 if more else 150
        alone = (*ALONE, ("an interrupt after the call", INTERRUPTED, "True 1")) if more else ()
        for name, text, wanted in (*BOTH, *alone):
            words = [sys.executable, "-B", "-c", BEGIN + text.replace("COUNT", str(count)), copy.top / "examples", *more]
            environment = {**os.environ, "PYTHONPATH": str(copy.top / "python")}
            done = subprocess.run(words, cwd=folder, env=environment, stdin=subprocess.DEVNULL, capture_output=True, text=True, timeout=SECONDS)
            told = done.stdout.strip() if done.returncode == 0 else done.stderr
            yield f"{about}: {name.replace('COUNT', str(count))}{'' if told == wanted else f': {told}'}", told == wanted
