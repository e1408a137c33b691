"""What docs/TRUSTED.md lists: the files of definitions by command, in an order in which they can be read from the top down; and
of `run` the constants, what is seen of private types, and the words of the standard library.
"""
import pathlib
import re

from definitions import Definitions, contract

COMMAND, DUE, LAWS = "crates/iges_solid_cmd/src/command.rt", "crates/iges_solid_cmd/specs/Due.antt", "crates/iges_solid_cmd/src/law.rt"
# Each command of `run` in the order in which the page takes them, with the definition of what it owes.
OWED = {
    "solids FILE": "OfSolids",
    "show FILE N": "OfShow",
    "verify FILE CERT": "OfVerify",
    "certify FILE N": "OfCertify",
    "certify FILE all": "OfCertifyAll",
    "upgrade FILE CERT": "OfUpgrade",
    "extract FILE N": "OfExtract",
    "compact FILE N": "OfCompact",
    "open-verify FILE CERT": "OfOpenVerify",
    "open FILE N": "OfOpen",
    "orient-verify FILE CERT": "OfOrientVerify",
    "orient FILE N": "OfOrient",
    "sample N": "OfSample",
}
# The law that says what a yes of this command means.
LAW_OF = {"verify FILE CERT": "yes_means_closed"}
EVERY, UNUSED = "Every command", "Imported alone"
OTHERS = {"`run_where`": "`igesolid-where`", "`run_repair`": "`igesolid-repair`", "laws": "Laws"}
DECLARED = re.compile(r"(?m)^ *(?:ghost )?use Rattle\.(\w+)\.specs\.declared\.([\w.]+?)(?:\.\{([^}]*)\}| as \w+)?;?$")
LIBRARY = re.compile(r"(?m)^ *(?:ghost )?use Rattle\.std\.specs\.([\w.]+)\.\{([^}]*)\};?$")
TYPE = re.compile(r"(?ms)^(?:pub )?(?:struct|enum|type) (\w+)(.*?)(?:;$|^\}$)")
MODEL = re.compile(r"(?m)^impl(?:<[^{\n]*?>)? Model for (\w+)(?:<[^{]*>)? \{$")


def short(command):
    """A command without the words for which others are put."""
    return "`" + " ".join(word for word in command.split() if word.islower()) + "`"


class Page:
    """The lists of the page, for sources, the files on which each call and the laws rest, and the contracts of `run` by their source."""

    def __init__(self, sources, rests, contracts):
        self.sources, self.rests, self.contracts = sources, rests, contracts
        self.run = rests["`run`"]
        self.definitions = Definitions(sources)

    def roots(self, command):
        """What a command owes, and what the law on its yes says."""
        known = self.definitions
        found = known.at(DUE, [OWED[command]]) or known.at(known.imports[DUE][OWED[command]], [OWED[command]])
        if command in LAW_OF:
            found |= known.cited(LAWS, contract(self.sources[LAWS], f"pub fn {LAW_OF[command]}("))
        return found

    def needs(self):
        """The files that every command needs, and those that each one does, by the words that the definitions use."""
        known = self.definitions
        own = {command: self.roots(command) for command in OWED}
        every = known.reached(set().union(*(known.cited(path, text) for path, text in self.contracts.items())), set().union(*own.values()))
        found = {EVERY: every} | {command: known.reached(roots) for command, roots in own.items()}
        return {name: {path for path, _ in items} for name, items in found.items()}

    def order(self, paths):
        """These files from the top down: each comes before the files that it imports, as far as they are among them."""
        done, found = set(), []

        def visit(path):
            if path not in done:
                done.add(path)
                for other in reversed(list(dict.fromkeys(self.definitions.imports[path].values()))):
                    visit(other)
                found.append(path)

        for path in reversed([path for path in self.first() if path in paths] + sorted(paths)):
            visit(path)
        return [path for path in reversed(found) if path in paths]

    def first(self):
        """The files that the contracts cite, in their order."""
        for path in (COMMAND, *self.contracts):
            imported, text = self.definitions.imports[path], self.contracts[path]
            yield from dict.fromkeys(imported[word] for word in re.findall(r"\w+", text) if word in imported)

    def sections(self):
        """Each heading with its files, in order: of the commands of `run`, and what others and the laws need besides."""
        needs, seen, found = self.needs(), set(), {}
        lists = [*needs.items(), (UNUSED, self.run), *((OTHERS[root], self.rests[root]) for root in OTHERS)]
        for name, paths in lists:
            heading = f"`{name}`" if name in OWED else name
            found[heading] = self.order(paths - seen)
            seen |= paths
        return found

    def commands(self, path, needs):
        """Which commands of `run` need a file."""
        if path in needs[EVERY]:
            return "all"
        with_it = [short(command) for command in OWED if path in needs[command]]
        without = [short(command) for command in OWED if path not in needs[command]]
        return "all but " + ", ".join(without) if len(without) < 4 else ", ".join(with_it) or "none"

    def counts(self):
        """How many files each command needs."""
        needs = self.needs()
        rows = "".join(f"| `{command}` | {len(needs[EVERY] | needs[command])} |\n" for command in OWED)
        return f"| Command | Files |\n|---|---|\n| every command | {len(needs[EVERY])} |\n{rows}"

    def constants(self):
        """The constants that the files and the contract of `run` name, with the words of their comments."""
        named = {name for path in self.run for crate, module, names in DECLARED.findall(self.sources[path]) if module == "TheConstants" for name in re.findall(r"\w+", names)}
        named |= set(re.findall(r"\b[A-Z][A-Z_]{3,}\b", self.contracts[COMMAND]))
        rows = {}
        for path, source in self.sources.items():
            for comment, name, value in re.findall(r"(?m)((?:^///.*\n)+)pub const (\w+): \w+ = (.*);$", source):
                if name in named:
                    words = " ".join(line.removeprefix("///").strip() for line in comment.splitlines()).rstrip(".")
                    rows[name] = f"| [`{name}`](../{path}) | {value.replace('_', ',')} | {words[0].lower()}{words[1:]} |\n"
        return "| Constant | Value | What it is |\n|---|---|---|\n" + "".join(rows[name] for name in sorted(rows))

    def library(self):
        """The words of the standard library that the files and contracts of `run` import."""
        found = {}
        for path in (*self.run, *self.contracts):
            text = self.sources[path] if path in self.run else self.contracts[path]
            for module, names in LIBRARY.findall(self.sources[path]):
                words = [name.split()[0] for name in names.split(", ")]
                found.setdefault(module, set()).update(word for word in words if path in self.run or word.strip("◌") in text)
        rows = "".join(f"| `{module}` | {' '.join(f'`{word}`' for word in sorted(words))} |\n" for module, words in sorted(found.items()) if words)
        return f"| Module | Words |\n|---|---|\n{rows}"

    def types(self):
        """The types of the code that the files and the contract of `run` name, and those of their fields, each with its file."""
        bodies = {(path, name): body for path, source in self.sources.items() if path.endswith(".rt") for name, body in TYPE.findall(source)}
        found, left = set(), []
        for path in (*self.run, COMMAND):
            for crate, module, names in DECLARED.findall(self.sources[path]):
                left += [(crate, name) for name in re.findall(r"\w+", module if module.endswith("Variants") else f"{module} {names}")]
        left += [("command_replies", "Words")]
        while left:
            crate, name = left.pop()
            for path, other in bodies:
                if other == name and path.split("/")[1] == crate and (path, name) not in found:
                    found.add((path, name))
                    left += self.named(path, bodies[path, name])
        return found

    def named(self, path, body):
        """The types in a body of a source, each with its crate; what begins a line names a variant."""
        crate, source = path.split("/")[1], self.sources[path]
        origins = {name: origin for origin, names in re.findall(r"(?ms)^use (\w+)::\{?([^;]*?)\}?;", source) for name in re.findall(r"\w+", names)}
        code = re.sub(r"(?m)//.*|^    [A-Z]\w*", "", body)
        for name in set(re.findall(r"\b[A-Z]\w+", code)):
            origin = origins.get(name, crate)
            yield (crate if origin == "crate" else origin), name

    def models(self):
        """What a clause sees of the private types."""
        rows = ""
        for path, name in sorted(self.types()):
            source = self.sources[path]
            for start in MODEL.finditer(source):
                if start[1] == name:
                    part = source[start.end() : source.index("\n}", start.end())]
                    value, view = (re.search(rf"(?s)ghost {word} = \{{ (.*?) \}};", part) for word in ("Value", "view"))
                    rows += f"| [`{name}`](../{path}) | `{value[1]}` | `{' '.join(view[1].split())}` |\n"
        return f"| Type | What is seen | As |\n|---|---|---|\n{rows}"

    def row(self, path, says, needs, of_run):
        """The row of a file: what it says, as the page has it or else by its first line, and for what it is."""
        first = self.sources[path].splitlines()[0].removeprefix("-- ").rstrip(".")
        text = says.get(path, first[0].lower() + first[1:])
        others = ", ".join(root for root, files in self.rests.items() if path in files and not (of_run and root == "`run`"))
        crate, name = path.split("/")[1], pathlib.Path(path).stem
        return f"| [{crate}/{name}](../{path}) | {text} | {self.commands(path, needs) + ' | ' if of_run else ''}{others} |\n"

    def tables(self, says):
        """Each table of the page by its heading; `says` has what a file says by its path."""
        needs = self.needs()
        found = {"How many": self.counts(), "Constants": self.constants(), "Private types": self.models(), "Words of the standard library": self.library()}
        for heading, paths in self.sections().items():
            of_run = heading not in OTHERS.values()
            head = "| File | What it says | Commands | Also for |\n|---|---|---|---|\n" if of_run else "| File | What it says | For |\n|---|---|---|\n"
            found[heading] = head + "".join(self.row(path, says, needs, of_run) for path in paths)
        return found
