"""What the checker of `where` takes from docs/WHERE.md and the tables beside it: sentences, words for types, and which lines there are. Hints and
lines that the page doesn't have aren't due."""

import textwrap

DOC = {}


def cut(sentence):
    """A sentence as facts."""
    return textwrap.wrap(sentence, 78, initial_indent="  ", subsequent_indent="  ", break_on_hyphens=False)


def table(path):
    return [line.split("\t") for line in path.read_text().splitlines()]


def sentences(docs):
    """Takes the sentences, the words for types and the page of this folder."""
    DOC.clear()
    DOC.update(table(docs / "where_sentences.tsv"))
    DOC["types"] = {int(kind): word for kind, word in table(docs / "where_types.tsv")}
    DOC["page"] = (docs / "WHERE.md").read_text()


def is_told(words):
    """Whether the page has lines that begin with these words."""
    return f"`{words}" in DOC["page"]


def type_word(kind):
    return DOC["types"].get(kind, f"type-{kind}")
