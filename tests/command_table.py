"""The table of programs, commands and statuses, commands.tsv, and whether all that repeats a part of it agrees with it.

A further command is a further line of the table; the checks then name each place where it is missing."""
import pathlib
import re
from typing import NamedTuple

from commands import COMMANDS

TOP = pathlib.Path(__file__).resolve().parent.parent


class Row(NamedTuple):
    """A line of the table: its kind, and what the head of the table says of its other columns."""

    kind: str
    owner: str
    words: str
    text: str


def rows_of(path):
    lines = [line for line in path.read_text().splitlines() if not line.startswith("#")]
    return [Row(*line.split("\t")) for line in lines]


ROWS = rows_of(TOP / "commands.tsv")


def of_kind(*kinds):
    return [row for row in ROWS if row.kind in kinds]


def programs():
    """The names of the proved programs."""
    return [row.owner for row in of_kind("program")]


def forms(program="igesolid"):
    """The words of each command that a program carries out, in the order of its usage line."""
    return tuple(row.words for row in of_kind("command") if row.owner == program)


def all_forms():
    """The words of each command, also of those in Python and of the launcher's own."""
    return tuple(row.words for row in of_kind("command", "python", "shell"))


def usage():
    """What the program igesolid prints where no command has such words."""
    return f"usage: igesolid {' | '.join(forms())}\n"


def statuses():
    """The number and the meaning of each status."""
    return {int(row.owner): row.text for row in of_kind("status")}


KINDS = "program", "command", "python", "shell", "option", "status"
SYNOPSIS = re.compile(r"(?s)\.nf\n(.*?)\.fi")
BLOCK = re.compile(r"(?ms)^```\n(igesolid solids .*?)^```$")
LISTED = re.compile(r"(?m)^igesolid (.*?)  +\S")


def itself():
    """The table is as its head says."""
    text = (TOP / "commands.tsv").read_text()
    lines = [line.split("\t") for line in text.splitlines() if not line.startswith("#")]
    yield "commands.tsv: four columns, none of them empty", all(len(line) == 4 and all(line) for line in lines)
    yield "commands.tsv: its kinds", {line[0] for line in lines} == set(KINDS)
    yield "commands.tsv: its programs", {name for row in of_kind("command", "python", "shell") for name in row.owner.split(",")} <= set(programs())
    yield "commands.tsv: all words, or the rest", {row.words for row in of_kind("program")} <= {"all", "rest"}
    yield "commands.tsv: always, sometimes or never", {row.words for row in of_kind("status")} <= {"always", "sometimes", "never"}
    yield "commands.tsv: each command once", len(set(all_forms())) == len(all_forms())


def plain(page):
    """The text of a man page without its fonts."""
    return re.sub(r"\\f[BIR]", "", page).replace("\\-", "-")


def pages(copy):
    """README's list has each command, in the order of the table, and so has the man page; docs/COMMANDS.md has each."""
    readme, commands, man = ((copy.top / name).read_text() for name in ("README.md", "docs/COMMANDS.md", "man/igesolid.1"))
    listed = LISTED.findall(BLOCK.search(readme)[1])
    yield "README: no command that isn't in commands.tsv", set(listed) <= set(all_forms())
    for form in all_forms():
        yield f"README: {form}", form in listed
        yield f"docs/COMMANDS.md: {form}", f"`igesolid {form}`" in commands
    wanted = [f"igesolid {form}" for form in all_forms()]
    yield "man page: its synopsis", plain(SYNOPSIS.search(man)[1]).splitlines()[: len(wanted)] == wanted
    for row in of_kind("option"):
        if row.owner == "everywhere":
            yield f"man page: {row.words}", row.words.split()[0] in plain(man)
    for number, meaning in statuses().items():
        yield f"man page: status {number}", f"\n.TP\n.B {number}\n" in man
        yield f"docs/COMMANDS.md: status {number}", f"\n| {number} | {meaning}" in commands


def helps(copy):
    """--help has each row of the table."""
    status, text, error = copy.run("./igesolid", "--help")
    lines = text.decode().splitlines()
    for row in of_kind("command", "python", "shell", "option"):
        yield f"--help: {row.words}", any(line.startswith(f"  igesolid {row.words} ") and line.endswith(f"  {row.text}") for line in lines)
    for number, meaning in statuses().items():
        yield f"--help: status {number}", f"{number} {meaning}" in text.decode()


def tests(commands):
    """The table of the tests of hostile inputs has each command of igesolid and of igesolid-repair."""
    listed = forms() + forms("igesolid-repair")
    for form in listed:
        yield f"tests/commands.py: {form}", form in commands
    for form in commands:
        yield f"commands.tsv: {form}", form in listed


def shipped(copy):
    """dist/ holds each program, for aarch64 each or none, and the usage line of igesolid is that of the table."""
    names = [line.split()[1] for line in (copy.top / "dist" / "SHA256SUMS").read_text().splitlines()]
    for machine in "x86_64", "aarch64":
        found = sorted(name for name in names if name.endswith(f"-{machine}-linux"))
        yield f"dist/SHA256SUMS: its programs for {machine}", found == sorted(f"{name}-{machine}-linux" for name in programs()) or (machine == "aarch64" and not found)
    yield "commands.tsv: the usage line", copy.run(copy.program)[:2] == (2, usage().encode())


def checks(copy):
    yield from itself()
    yield from pages(copy)
    yield from helps(copy)
    yield from tests([command.form for command in COMMANDS])
    yield from shipped(copy)
