#!/usr/bin/env python3
"""`where --json`: the text made JSON is the text again, byte for byte, on the examples and on files of the tests of `where`; the table of
shapes, docs/WHERE.md and docs/where.schema.json say the same; and the launcher's command.

  tests/where_json_tests.py --mend   writes docs/where.schema.json anew, by the table of python/igesolid/where_lines.py"""
import itertools
import json
import pathlib
import re
import sys

import clone
import remedies
import where
from no_examples import printed_words
from spawned import Runner

TOP = pathlib.Path(__file__).resolve().parent.parent
SCHEMA = TOP / "docs" / "where.schema.json"
RANDOM_CASES, SEED = 300, 2
# One text in so many is compared with the schema, which takes long.
STEP = 40
NUMBER = {"type": "integer", "minimum": 0}


def package():
    """The package, imported in this part's process alone, for another imports that of a copy."""
    sys.path.insert(0, str(TOP / "python"))
    from igesolid import where_json, where_lines

    return where_json, where_lines


def of_value(lines, name):
    kind = lines.kind_of(name)
    if kind == lines.NUMBER:
        return NUMBER
    if kind == lines.NUMBERS:
        return {"type": "array", "items": NUMBER}
    if kind == lines.BIT:
        return {"enum": [0, 1]}
    return {"type": list(kind.json) if len(kind.json) > 1 else kind.json[0]}


def of_shape(lines, shape, more, required=()):
    values = {name: of_value(lines, name) for name in shape.names}
    needed = ["is", *shape.names, *required]
    return {"type": "object", "properties": {"is": {"const": shape.words}, **values, **more}, "required": needed, "additionalProperties": False}


def of_head(lines, shape, more):
    if not has_sentence(lines, shape.words):
        return of_shape(lines, shape, {name: it for name, it in more.items() if name != "items" or shape.words != lines.UNSAID})
    return of_shape(lines, shape, {**more, "sentence": {"type": "string"}}, [] if shape.words == lines.AT_TIMES else ["sentence"])


def has_sentence(lines, words):
    """Whether a head line of these fixed words has a sentence."""
    return words.split(" ")[0] in lines.SENTENCES and words != lines.UNSAID


def list_of(name):
    return {"type": "array", "items": {"$ref": f"#/$defs/{name}"}}


def schema(where_json, lines):
    """The schema of what `where --json` prints: of head lines by their first word, and of the facts of each."""
    definitions = {}
    for word, shapes in lines.FACTS.items():
        definitions[f"fact of {word}"] = {"anyOf": [of_shape(lines, shape, {}) for shape in shapes]}
    for word, shapes in lines.HEADS.items():
        more = {"facts": list_of(f"fact of {word}")} if word in lines.FACTS else {}
        if word in lines.ITEMS:
            more["items"] = list_of(f"item of {word}")
        definitions[word] = {"anyOf": [of_head(lines, shape, more) for shape in shapes]}
    named = lambda words: {"anyOf": [{"$ref": f"#/$defs/{word}"} for word in words]}
    definitions.update((f"item of {word}", named(its)) for word, its in lines.ITEMS.items())
    items = {it for its in lines.ITEMS.values() for it in its} - {"more"}
    definitions["head line"] = named(word for word in lines.HEADS if word not in items)
    whole = {"schema": {"const": where_json.SCHEMA}, "lines": list_of("head line")}
    about = {"$schema": "https://json-schema.org/draft/2020-12/schema", "title": "What igesolid where --json prints"}
    return {**about, "type": "object", "properties": whole, "required": ["schema", "lines"], "additionalProperties": False, "$defs": definitions}


def written(told):
    return json.dumps(told, indent=1) + "\n"


def rows(page, title):
    """The cells of the rows of the tables whose first row begins so."""
    for table in re.findall(rf"(?m)^\| {title} \|.*\n\|[-|]+\n((?:\|.*\n)+)", page):
        for row in table.splitlines():
            yield row[2:-2].split(" | ")


def quoted(cell):
    return re.findall(r"`(.*?)`", cell)


def on_page():
    """Each head line of docs/WHERE.md, whether it has a sentence there, and the facts of head lines by their first word."""
    page, heads, facts = (TOP / "docs" / "WHERE.md").read_text(), {}, {}
    for first, *_ in rows(page, "Hint"):
        heads.update((hint, True) for hint in quoted(first))
    for step, items, *_ in rows(page, "Step"):
        heads.update((it, True) for it in quoted(step))
        heads.update((it, False) for it in quoted(items) if it.split()[0] not in ("sure", "places", "curve"))
    for first, own, *_ in (*rows(page, "Item"), *rows(page, "Head line")):
        for head in quoted(first):
            heads[head] = own == "a sentence"
        facts.setdefault(head.split()[0], []).extend(quoted(own))
    facts["item"], facts["entity"] = ([it for first, *_ in rows(page, title) for it in quoted(first)] for title in ("Fact \\| At", "Fact \\| If"))
    facts["solid"] = facts["entity"]
    return heads, {word: own for word, own in facts.items() if own}


def in_table(lines):
    """The same by the table of the package."""
    facts, heads = {}, []
    for line in lines.TABLE.strip().split("\n"):
        if line.startswith("  "):
            facts.setdefault(heads[-1].split()[0], []).append(line[2:])
        else:
            heads.append(line)
    facts.update((word, facts[other]) for word, other in lines.ALIKE.items())
    return {head: has_sentence(lines, lines.Shape(head).words) for head in heads}, facts


def odd_names(lines):
    """The rules, hints and kinds of docs/WHERE.md without a sentence in the table beside it, and names there that are neither these nor reasons."""
    page, heads = (TOP / "docs" / "WHERE.md").read_text(), on_page()[0]
    named = {*lines.RECORD_RULES, *lines.SHELL_RULES, *(quoted(first)[0] for first, *_ in rows(page, "Kind"))}
    said = [head.split() for head, is_said in heads.items() if is_said]
    named |= {words[1] for words in said if words[0] == "hint"} - {"looks-like"} | {"-".join(words[:2]) for words in said if words[0] == "step"}
    names = {line.split("\t")[0] for line in (TOP / "docs" / "where_sentences.tsv").read_text().splitlines()}
    return sorted(named - names | names - named - printed_words(TOP))


def tables(where_json, lines):
    for name, told, wanted in zip(("head lines", "facts"), on_page(), in_table(lines)):
        odd = [it for it in {**told, **wanted} if told.get(it) != wanted.get(it)]
        yield f"docs/WHERE.md: the shapes of {name} are those of python/igesolid/where_lines.py, but for {odd}", not odd
    odd = odd_names(lines)
    yield f"docs/where_sentences.tsv: the names are those of docs/WHERE.md, but for {odd}", not odd
    wanted = written(schema(where_json, lines))
    yield "docs/where.schema.json: tests/where_json_tests.py --mend writes it anew", SCHEMA.exists() and SCHEMA.read_text() == wanted


def validator(skipped):
    """What tells whether an object is of the schema, by Debian's python3-jsonschema."""
    for folder in ("", "/usr/lib/python3/dist-packages"):
        sys.path += [folder] if folder else []
        try:
            import jsonschema

            return jsonschema.Draft202012Validator(json.loads(SCHEMA.read_text())).is_valid
        except (ImportError, AttributeError):
            continue
    skipped("JSON of where by its schema: python3-jsonschema isn't installed")
    return None


def texts(folder, program):
    """The texts of `where` on the examples and on files made and changed at random, by name."""
    runner, file = Runner(program), folder / "where.igs"
    for name, data in itertools.chain(where.files(), where.random_files(range(RANDOM_CASES), SEED)):
        file.write_bytes(data)
        for words in ([], *([str(number), *more] for number in where.numbers_of(data) for more in ([], ["all"]))):
            yield f"{name}: where {' '.join(['FILE', *words])}", runner.run([str(file), *words])[1].decode("utf-8", "surrogateescape")


def round_trips(folder, program, where_json, is_valid):
    for place, (name, text) in enumerate(texts(folder, program)):
        whole = where_json.json_of(text)
        told = json.loads(whole)
        yield f"{name}: JSON turned back is the text", where_json.text_of(told) == text
        yield f"{name}: JSON in pieces", "".join(where_json.pieces_of(text)) == whole
        if is_valid and place % STEP == 0:
            yield f"{name}: JSON is of the schema", is_valid(told)


def hand_made(where_json, is_valid):
    """Texts with each line of remedies, and their JSON."""
    for name, _, text in remedies.texts():
        whole = where_json.json_of(text)
        told = json.loads(whole)
        yield f"{name} with remedies: JSON turned back is the text", where_json.text_of(told) == text
        yield f"{name} with remedies: JSON in pieces", "".join(where_json.pieces_of(text)) == whole
        yield f"{name} with remedies: JSON is of the schema", not is_valid or is_valid(told)
    told = json.loads(where_json.json_of(remedies.UNJUDGED))
    yield "a solid that isn't judged: JSON", where_json.text_of(told) == remedies.UNJUDGED and (not is_valid or is_valid(told))


def refused(where_json, lines):
    """Texts with a line of no shape, or laid out otherwise."""
    good = (TOP / "tests" / "recorded" / "fail_pair.1.txt").read_text()
    changed = good + "more\n", good.replace("\n\n", "\n", 1), good.replace("once\n  against", "once against"), good[:-1]
    changed += (good.replace("once 1", "once one"),)
    for text in changed:
        try:
            where_json.json_of(text)
            is_refused = False
        except lines.NotUnderstood:
            is_refused = True
        yield f"where --json: refused: {text!r}", is_refused and text != good


def launched(copy):
    """The command in a clone: its answers, its statuses, and standard input."""
    cube, pair = "examples/cube.igs", "examples/no/fail_pair.igs"
    for words, status in ((pair, "1", "all"), 1), ((pair,), 1), ((cube, "1"), 0), (("examples/no/bad_length.igs", "1"), 3):
        told = copy.run("./igesolid", "where", "--json", *words)
        yield f"where --json {' '.join(words)}", (told[0], told[2]) == (status, "") and json.loads(told[1])["schema"] == 1
    plain = copy.run("./igesolid", "where", "--json", cube, "1")
    piped = copy.run("sh", "-c", f"cat {cube} | ./igesolid where --json - 1")
    yield "where --json of standard input", piped == plain
    yield "where --json of closed standard input", copy.run("sh", "-c", "./igesolid where --json - <&-") == (4, b"", "igesolid: standard input: is closed\n")
    yield "where --json of no file", copy.run("./igesolid", "where", "--json", "none.igs") == (4, b"", "igesolid: none.igs: can't be opened: No such file or directory\n")
    for words in ([], [cube, "x"], [cube, "1", "each"]):
        told = copy.run("./igesolid", "where", "--json", *words)
        yield f"where --json {' '.join(words)}: usage", told[:2] == (2, b"") and told[2].count("igesolid where --json FILE [N [all]]") == 1
    full = copy.run("sh", "-c", f"./igesolid where --json {cube} >/dev/full")
    yield "where --json on a full device", full[0] == 5 and full[2].count("\n") == 1 and "standard output failed" in full[2]
    script = copy.folder / "odd"
    clone.Clone.write(script, "#!/bin/sh\necho closed one\n")
    told = copy.run("companion/where", "--program", script, "--json", cube)
    yield "where --json of another text", told[:2] == (125, b"") and "isn't understood: closed one" in told[2]
    yield "where --json: no caches are left", not any((copy.top / "python").rglob("__pycache__"))


def checks(context):
    where_json, lines = package()
    yield from tables(where_json, lines)
    yield from refused(where_json, lines)
    is_valid = validator(context.skipped)
    yield from round_trips(context.new_folder(), context.programs.where, where_json, is_valid)
    yield from hand_made(where_json, is_valid)
    yield from launched(context.clone())


if __name__ == "__main__":
    if sys.argv[1:] != ["--mend"]:
        sys.exit(__doc__)
    SCHEMA.write_text(written(schema(*package())))
