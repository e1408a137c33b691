"""Files that are formed here without the program: the one that `sample` makes, and solids of many loop uses."""

PLANE = 108, 0, [0, 0, 1, 0, 0, 0, 0, 0, 0]


def filled(words, width):
    """The words on lines of so many columns; a word that doesn't fit begins the next line, and one that is longer goes on there."""
    line = ""
    for word in words:
        if line and len(line) + len(word) > width:
            yield line.ljust(width)
            line = ""
        line += word
        while len(line) > width:
            yield line[:width]
            line = line[width:]
    yield line.ljust(width)


def text_of(records):
    """The canonical text of a file of these entries, each a type, a form and the values of its record."""
    directory, params = [], []
    for at, (kind, form, values) in enumerate(records):
        words = [f"{v}," for v in [kind, *values]]
        lines = list(filled([*words[:-1], words[-1][:-1] + ";"], 64))
        directory.append(f"{kind:8}{len(params) + 1:8}" + f"{0:8}" * 6 + "00000000")
        directory.append(f"{kind:8}{0:8}{0:8}{len(lines):8}{form:8}" + " " * 24 + f"{0:8}")
        params += [f"{line} {2 * at + 1:7}" for line in lines]
    sections = {"S": ["sample".ljust(72)], "G": ["1H,,1H;;".ljust(72)], "D": directory, "P": params}
    counts = "".join(f"{letter}{len(lines):7}" for letter, lines in sections.items()).ljust(72)
    sections["T"] = [counts]
    return "".join(f"{line}{letter}{number:7}\n" for letter, lines in sections.items() for number, line in enumerate(lines, 1)).encode()


def sample_text(n):
    """The canonical text of the sample of n times n faces."""
    squares = [(i, j) for i in range(n) for j in range(n)]
    place = lambda i, j: i % n * n + j % n
    edges = [(place(i, j) + 1, place(*end) + 1) for i, j in squares for end in ((i, j + 1), (i + 1, j))]
    records = [
        (186, 0, [3, 1, 0]),
        (514, 1, [n * n] + [v for i, j in squares for v in (13 + 4 * place(i, j), 1)]),
        (502, 1, [n * n] + [v for i, j in squares for v in (i, j, 0)]),
        (504, 1, [2 * n * n] + [v for start, end in edges for v in (9, 5, start, 5, end)]),
        (110, 0, [0, 0, 0, 1, 0, 0]),
        PLANE,
    ]
    for i, j in squares:
        uses = [(2 * place(i, j) + 1, 1), (2 * place(i, j + 1) + 2, 1), (2 * place(i + 1, j) + 1, 0), (2 * place(i, j) + 2, 0)]
        records.append((510, 1, [11, 1, 1, 15 + 4 * place(i, j)]))
        records.append((508, 1, [4] + [v for index, flag in uses for v in (0, 7, index, flag, 0)]))
    return text_of(records)


def solid_of_points(entry, vertices):
    """The records of a solid from this entry on, whose one loop uses these vertices alone."""
    uses = [v for index in vertices for v in (1, 9, index, 1, 0)]
    return [(186, 0, [entry + 2, 1, 0]), (514, 1, [1, entry + 4, 1]), (510, 1, [11, 1, 1, entry + 6]), (508, 1, [len(vertices), *uses])]


def points_text(uses, solids, last):
    """A file of solids that share a shell whose loop uses one vertex so often, and behind them what `last` gives of its entry."""
    records = [*solid_of_points(1, [1] * uses), (502, 1, [2, 0, 0, 0, 0, 0, 1]), PLANE, *[(186, 0, [3, 1, 0])] * (solids - 1)]
    entry = 2 * len(records) + 1
    return text_of([*records, *last(entry)]), entry
