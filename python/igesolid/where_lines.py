"""The lines of the text of `where`: one table of their shapes, by which they are read and written.

It is the tables of docs/WHERE.md, sections 2 to 6. A further edition of the text is further lines here, and their values in `KINDS`."""
import re
from typing import Dict, List, NamedTuple, Optional, Tuple, Union

from .errors import NoProgram

# A head line begins in the first column. The facts that may follow it, and other heads of the same first word, are below the last of these.
TABLE = """
closed <solid>
fail <rule> <entity> <place>
bad file line <line> <reason>
line <line> bytes <bytes> end <end>
  hex <hex>
  column <column>
  text <text>
  mark <mark>
solids <solids> failing <failing>
unjudged <count> <type>
  shell <shell> form <form> faces <its_faces>
  face <face>
  more <more>
units <unit_flag> <unit>
shells <shells> failing <failing>
shell <shell> entity <entity> flag <flag> faces <faces> edges <edges> vertices <vertices> JOIN <JOIN> PAIR <PAIR> REACH <REACH> LINK <LINK> APART <APART>
hint face-flags faces <faces>
hint remedy <remedy> shell <shell>
hint stuck shell <shell>
hint other-form form <form>
hint shell
hint solids <numbers> more <more>
hint solids <numbers>
hint empty-solid
hint loose-shells
hint loose-faces
hint trimmed
hint other-solids
hint no-solid
hint unjudged solids <solids>
hint looks-like <kind>
hint layout
hint more <more>
step remove faces <faces>
step turn faces <faces>
step reverse loops <loops>
step flags uses <uses>
step sew seams <seams>
step copy vertices <vertices>
step renew edges <edges>
step part bodies <bodies>
step fill rims <rims>
remove <F>
turn <F>
reverse loop <loop> face <F>
change loop <loop> tuple <tuple> flag <flag>
seam <how> edge <list> <index> edge <left_list> <left_index>
copy vertex <V>
renew edge <list> <index> start <start_list> <start_index> <start_x> <start_y> <start_z> end <end_list> <end_index> <end_x> <end_y> <end_z>
body <body> faces <faces> first <F>
rim <rim> edges <edges> edge <list> <index>
rule <rule> shell <shell> faults <faults> once <once> same-way <same_way> many <many>
rule <rule> shell <shell> faults <faults> parts <parts>
rule <rule> shell <shell> faults <faults>
rule <rule> faults <faults>
gap <loop> <tuple>
  face <F>
  this tuple <tuple> edge <list> <index> flag <flag> curve <curve> <curve_type>
  this tuple <tuple> vertex <list> <index>
  ends <V>
  next tuple <tuple> edge <list> <index> flag <flag> curve <curve> <curve_type>
  next tuple <tuple> vertex <list> <index>
  starts <V>
edge <list> <index> along <along> against <against>
  curve <curve> <curve_type>
  start <V>
  end <V>
  along face <F> loop <loop> tuple <tuple> flags <tuple_flag> <face_flag> <shell_flag>
  against face <F> loop <loop> tuple <tuple> flags <tuple_flag> <face_flag> <shell_flag>
  more <more>
part <part> faces <faces> edges <edges> vertices <vertices> unpaired <unpaired> touching <touching>
  at <V>
  touches <V>
  face <F>
  more <more>
vertex <V>
vertex <V> fans <fans> points <points>
  fan <fan> face <F> loop <loop> tuple <tuple> edge <list> <index> to <to_list> <to_index> <x> <y> <z>
  point face <F> loop <loop>
  in shell <shell> face <F>
  more <more>
item <entity> <place>
  value <value> found <found>
  line <line> column <column>
  text <text>
  mark <mark>
  due <due>
  why <why>
  entry <entry> <type> form <form>
  values <values>
  first <entity> item <item>
  list <list> <type> items <items>
  in solid <entity>
  in shell <entity> item <item>
  in face <entity> item <item>
  in loop <entity> item <item>
more <more>
entities <entities>
solid <solid> closed
solid <solid> fail <rule> <entity> <place>
solid <solid> unjudged
entity <entity> <type>
entity <entity> <type> surface <surface> <surface_type>
  lines directory <directory> record <first> <last>
  level <level>
  colour <colour> <red> <green> <blue> <name>
  colour <colour> <red> <green> <blue>
  colour <colour> <word>
  colour <colour>
  matrix <matrix>
  label <label>
  subscript <subscript>
  name <name>
  more <more>
"""
SHORT = {"<V>": "<list> <index> <x> <y> <z>", "<F>": "<face> <surface_type>"}
# Heads whose facts are a sentence, for people, but for one; and one that has it at times.
SENTENCES, UNSAID, AT_TIMES = ("bad", "hint", "rule", "step"), "hint more", "hint remedy shell"
# Heads that are items of the one of these before them, by its first word, and heads with the same facts.
ITEMS = {
    "hint": ("step",),
    "step": ("remove", "turn", "reverse", "change", "seam", "copy", "renew", "body", "rim", "more"),
    "rule": ("gap", "edge", "part", "vertex", "item", "more"),
}
ALIKE = {"solid": "entity"}

RECORD_RULES, SHELL_RULES = ("ENTRY", "TYPE", "RECORD", "ONCE", "INDEX", "GEOMETRY"), ("JOIN", "PAIR", "REACH", "LINK", "APART")
# The rule on records that `mend` mends, and all rules that it does.
ONCE = "ONCE"
MENDED_RULES = (ONCE, *SHELL_RULES)
FORMS_DUE = "solid form 0|shell form 1|(?:face|loop|edge-list|vertex-list) form 0 1"
VALUES_DUE = "geometry|pointer|index|flag|type|count|coordinate|count-or-pointer"
N = "(?:0|[1-9][0-9]*)"


class Kind(NamedTuple):
    """What a value may be, and what it is in JSON: `integer`, `null`, `array` of integers, `string`."""

    shape: str
    json: Tuple[str, ...] = ("string",)


NUMBER, SIGNED, BIT, COUNT = Kind(N, ("integer",)), Kind(f"-?{N}", ("integer",)), Kind("[01]", ("integer",)), Kind(f"{N}|-", ("integer", "null"))
NUMBERS, WORD, SPELLED, TEXT = Kind(f"{N}(?: {N})*", ("array",)), Kind("[a-z0-9-]+"), Kind("[^ ]+"), Kind(".*")
PAIR_OF_DIGITS = "[0-9a-f]{2}"
# The values that aren't numbers of 0 or above.
KINDS = {
    **dict.fromkeys(("level", "colour", "matrix", "subscript", "form"), SIGNED),
    **dict.fromkeys((f"{end}_{axis}" for end in ("start", "end") for axis in "xyz"), SPELLED),
    "how": Kind("sure|places|curve"),
    **dict.fromkeys(("flag", "tuple_flag", "face_flag", "shell_flag"), BIT),
    **dict.fromkeys(("type", "surface_type", "curve_type", "reason", "word", "kind"), WORD),
    **dict.fromkeys(("x", "y", "z", "red", "green", "blue", "unit_flag"), SPELLED),
    **dict.fromkeys(("unit", "found", "label", "name", "text"), TEXT),
    "rule": Kind("|".join(RECORD_RULES + SHELL_RULES)),
    "due": Kind(f"{FORMS_DUE}|{VALUES_DUE}"),
    "why": Kind("zero|negative|even|beyond|null"),
    "end": Kind("lf|crlf|cr|none"),
    "hex": Kind(f"{PAIR_OF_DIGITS}(?: {PAIR_OF_DIGITS})*"),
    "mark": Kind(r" *\^+"),
    "numbers": NUMBERS,
    **dict.fromkeys(("LINK", "its_faces"), COUNT),
}
Value = Union[int, str, List[int], None]


class NotUnderstood(NoProgram):
    """A line of the text that has none of the shapes."""


def whole(line: str) -> str:
    """A line of the table without what is short for several values."""
    for short, long in SHORT.items():
        line = line.replace(short, long)
    return line


class Shape:
    """A shape of lines: fixed words, and values in `<>` by their names."""

    def __init__(self, line: str):
        self.parts = whole(line).split(" ")
        self.names = [part[1:-1] for part in self.parts if part.startswith("<")]
        self.words = " ".join(part for part in self.parts if not part.startswith("<"))
        patterns = [f"({kind_of(part[1:-1]).shape})" if part.startswith("<") else re.escape(part) for part in self.parts]
        self.match = re.compile(" ".join(patterns)).fullmatch

    def told(self, line: str) -> Optional[Dict[str, str]]:
        """What a line of this shape says, by name; None for another line."""
        match = self.match(line)
        return dict(zip(self.names, match.groups())) if match else None

    def line(self, told: Dict[str, str]) -> str:
        return " ".join(told[part[1:-1]] if part.startswith("<") else part for part in self.parts)


def kind_of(name: str) -> Kind:
    return KINDS.get(name, NUMBER)


def _shapes() -> Tuple[Dict[str, List[Shape]], Dict[str, List[Shape]]]:
    heads: Dict[str, List[Shape]] = {}
    facts: Dict[str, List[Shape]] = {}
    word = ""
    for line in TABLE.strip().split("\n"):
        if line.startswith("  "):
            facts.setdefault(word, []).append(Shape(line[2:]))
        else:
            word = line.split(" ")[0]
            heads.setdefault(word, []).append(Shape(line))
    facts.update((word, facts[other]) for word, other in ALIKE.items())
    return heads, facts


# The shapes of head lines by their first word, and those of the facts that may follow these.
HEADS, FACTS = _shapes()


def read_line(shapes: Dict[str, List[Shape]], word: str, line: str) -> Tuple[Shape, Dict[str, str]]:
    """The shape of a line, by the first word of its head line, and what it says."""
    for shape in shapes.get(word, ()):
        told = shape.told(line)
        if told is not None:
            return shape, told
    raise NotUnderstood(f"a line of the text of igesolid-where isn't understood: {line}")
