"""The definitions of the files in crates/*/specs, each with the definitions whose words it uses."""
import re

USE = re.compile(r"(?m)^ *(?:ghost )?use Rattle\.(\w+)\.specs\.(\w+)(?:\.\{([^}]*)\}| as (\w+))?;?$")
HEAD = re.compile(r"(?:(?:abbrev|unfoldable) )*(?:pub )?(?:data |record )?(?:◌(\S+)◌|([^\W\d][\w']*)\b)")
# A constructor or a field.
PART = re.compile(r"  (?:pub )?((?:[^\W\d][\w']* )+):")
WORD = re.compile(r"[^\W\d][\w']*(?:\.[^\W\d][\w']*)*|[^\w\s(),;{}\[\]]+")


def imports(sources, source):
    """Each name that a source imports from a file of definitions, and the path of this file."""
    found = {}
    for crate, module, names, alias in USE.findall(source):
        path = f"crates/{crate}/specs/{module}.antt"
        if path in sources:
            found |= {name.split()[-1]: path for name in (alias or names or module).split(",") if name.strip()}
    return found


def contract(source, head):
    """An item of a source from its head on, without a body."""
    return re.split(r"(?m)^\{\}?$|^\}$", source[source.index(head) :])[0]


def texts(source):
    """The text of each definition by its name, and for each constructor or field the name of what has it."""
    found, holders, name = {}, {}, None
    for line in source.splitlines():
        if line.startswith(("--", "use ", "ghost use ")):
            continue
        head, part = HEAD.match(line), PART.match(line)
        if head:
            name = head[1] or head[2]
        if part and name:
            holders |= dict.fromkeys(part[1].split(), name)
        if name:
            found[name] = found.get(name, "") + line.split("--")[0] + "\n"
    return found, {part: name for part, name in holders.items() if part not in found}


class Definitions:
    """All definitions, each as its file's path and its name."""

    def __init__(self, sources):
        self.imports = {path: imports(sources, source) for path, source in sources.items()}
        self.texts = {path: texts(source) for path, source in sources.items() if "/specs/" in path}

    def at(self, path, names):
        """The definitions of a file that have one of these names, or a constructor or field of that name."""
        found, holders = self.texts.get(path, ({}, {}))
        return {(path, holders.get(name, name)) for name in names if name in found or name in holders}

    def cited(self, path, text):
        """The definitions whose words stand in a text of this source. An operator is imported with circles."""
        found = set()
        for word in set(WORD.findall(re.sub(r"(?://|--).*", "", text))):
            names = word.split(".")
            found |= self.at(path, names)
            for name in (names[0], f"◌{names[0]}◌"):
                if name in self.imports[path]:
                    found |= self.at(self.imports[path][name], [name.strip("◌"), *names])
        return found

    def reached(self, roots, but=frozenset()):
        """These definitions, and those whose words they use, and so on, except those left out."""
        found, left = set(), list(roots)
        while left:
            item = left.pop()
            if item not in found and item not in but:
                found.add(item)
                left += self.cited(item[0], self.texts[item[0]][0][item[1]])
        return found
