"""What is told of a file, as a tree: solids with their hints and the rules that fail, and below these what each line of `where` names."""
from typing import Dict, List, NamedTuple, Optional, Tuple

from igesolid.check.html_report import MEANINGS
from igesolid.check.reasons import reason_of_file
from igesolid.content import Content, content_of_path
from igesolid.engine import Engine
from igesolid.errors import BadFile
from igesolid.files import File as Judged
from igesolid.files import Solid, default_engine
from igesolid.pictures.iges import File, lines_of
from igesolid.remedies import FACE_FLAGS, LEAVE_OUT, STUCK, is_left_out, words_of_hint, words_of_step
from igesolid.where import Hint, Holder, Line, Paragraph, Rule, Step, Where
from igesolid.where_lines import ONCE, RECORD_RULES

from .topology import Edge, Face, Topology, Vertex, millimetres

CLOSED, FAILS, PLAIN = "closed", "fails", "plain"
# FreeCAD may crash on files with such records; what is named twice it reads.
CRASHING = set(RECORD_RULES) - {ONCE}
# The lines of `where` in words, by the words of their shapes; any other line stands as it is.
WORDS = {
    "edge along against": "edge {index} of list {list}; uses along it: {along}, against it: {against}",
    "curve": "its curve is entity {curve} ({curve_type})",
    "start": "from vertex {index} of list {list} at {x}, {y}, {z}",
    "end": "to vertex {index} of list {list} at {x}, {y}, {z}",
    "along face loop tuple flags": "face {face} ({surface_type}) uses it along",
    "against face loop tuple flags": "face {face} ({surface_type}) uses it against",
    "vertex fans points": "vertex {index} of list {list} at {x}, {y}, {z}, where faces meet in {fans} fans",
    "vertex": "vertex {index} of list {list} at {x}, {y}, {z}",
    "fan face loop tuple edge to": "fan {fan}: face {face} ({surface_type}), along edge {index} of list {list}",
    "point face loop": "face {face} ({surface_type}) has a loop of this vertex alone",
    "in shell face": "face {face} ({surface_type}) of shell {shell}",
    "part faces edges vertices unpaired touching": "part {part} of {faces} faces",
    "at": "vertex {index} of list {list} at {x}, {y}, {z}",
    "touches": "touches another part at vertex {index} of list {list} at {x}, {y}, {z}",
    "face": "face {face} ({surface_type})",
    "gap": "gap in loop {loop} behind tuple {tuple}",
    "this tuple edge flag curve": "this tuple uses edge {index} of list {list}",
    "next tuple edge flag curve": "the next one uses edge {index} of list {list}",
    "this tuple vertex": "this tuple is vertex {index} of list {list}",
    "next tuple vertex": "the next one is vertex {index} of list {list}",
    "ends": "it ends at vertex {index} of list {list} at {x}, {y}, {z}",
    "starts": "that starts at vertex {index} of list {list} at {x}, {y}, {z}",
    "remove": "remove face {face} ({surface_type})",
    "turn": "turn face {face} ({surface_type})",
    "reverse loop face": "reverse loop {loop} of face {face} ({surface_type})",
    "change loop tuple flag": "tuple {tuple} of loop {loop} gets the flag {flag}",
    "seam edge edge": "edge {index} of list {list}, in place of edge {left_index} of list {left_list} ({how})",
    "copy vertex": "copy vertex {index} of list {list} at {x}, {y}, {z}",
    "renew edge start end": "copy edge {index} of list {list}",
    "body faces first": "body {body} of {faces} faces, the first of them face {face} ({surface_type})",
    "rim edges edge": "rim {rim} of {edges} edges, the first of them edge {index} of list {list}",
    "item": "item {place} of entity {entity}",
    "value found": "its value {value} is {found}",
    "line column": "line {line} of the file, column {column}",
    "text": "which reads {text}",
    "due": "due there: {due}",
    "why": "what it names is {why}",
    "entry form": "it names entity {entry} ({type}), of form {form}",
    "values": "the record has {values} values",
    "first item": "first named by item {item} of entity {entity}",
    "list items": "list {list} has {items} items",
    "in solid": "in solid {entity}",
    "in shell item": "in shell {entity}",
    "in face item": "in face {entity}",
    "in loop item": "in loop {entity}",
    "more": "{more} more",
}  # fmt: skip


# First words of lines whose faces, and those of their facts, use the edge that is named.
USING = "edge", "fan"
# Lines that name edges and vertices which don't fail themselves.
NEAR_BY = "fan face loop tuple edge to", "at", "seam edge edge", "copy vertex", "renew edge start end", "rim edges edge"
# The pairs of values by which a line names an edge or a vertex.
KEYS = ("list", "index"), ("to_list", "to_index"), ("left_list", "left_index"), ("start_list", "start_index"), ("end_list", "end_index")


class Node(NamedTuple):
    """A row of the tree: its words, a sentence on it, how it is shown, and the edges, vertices and faces that it names."""

    words: str
    sentence: str = ""
    kind: str = PLAIN
    edges: Tuple[Edge, ...] = ()
    vertices: Tuple[Vertex, ...] = ()
    faces: Tuple[Face, ...] = ()
    # Faces, edges and vertices that are named, but have no coordinates.
    lost: Tuple[str, ...] = ()
    is_near_by: bool = False
    nodes: Tuple["Node", ...] = ()
    # The number of a remedy.
    remedy: Optional[int] = None


# What mends a solid that names something twice.
LEFT_OUT = Node(f"remedy: {LEAVE_OUT}", "Mend does that in a copy. What fails then is mended, too, where the records tell how; otherwise no copy is written.")


class ToldSolid(NamedTuple):
    """A solid; of one that isn't closed what `where` tells of it, and its records."""

    number: int
    node: Node
    solid: Solid
    where: Optional[Where] = None
    topology: Optional[Topology] = None

    @property
    def is_closed(self) -> bool:
        return self.where is None

    @property
    def rule(self) -> Optional[str]:
        """The first that fails."""
        return self.where.rules[0].name if self.where is not None else None

    @property
    def is_by_flags(self) -> bool:
        """Whether it is closed with other face flags: then these are mended, and `where` tells no remedies."""
        return self.where is not None and any(it.name == FACE_FLAGS for it in self.where.hints)


class Told(NamedTuple):
    """A file: the bytes that were judged, what is said of all, its solids, whether FreeCAD may read it, and whether it's a bad file."""

    content: Content
    words: str
    sentence: str
    solids: Tuple[ToldSolid, ...]
    may_open: bool
    is_bad: bool = False


def told_of(path: str, engine: Optional[Engine] = None) -> Told:
    """What is told of a file; an igesolid.Error if it can't be judged."""
    engine = engine or default_engine()
    content = content_of_path(path)
    try:
        solids = Judged(content, engine).solids
    except BadFile as fault:
        return Told(content, str(fault), _reason(engine, content, True), (), False, True)
    if not solids:
        return Told(content, "no solid", _reason(engine, content, False), (), True)
    file = File(lines_of(content.bytes))
    told = tuple(_of_solid(it, file) for it in solids)
    failing = sum(not it.is_closed for it in told)
    counted = _count(len(told), "solid")
    words = f"{counted}, {failing:,} not closed" if failing else f"{counted}, closed"
    return Told(content, words, "", told, CRASHING.isdisjoint(it.rule for it in told))


def _reason(engine: Engine, content: Content, is_bad: bool) -> str:
    reason = reason_of_file(engine, content, is_bad)
    return "\n".join([reason.words, *map(str, reason.lines)])


def _count(number: int, noun: str, several: str = "") -> str:
    return f"{number:,} {noun if number == 1 else several or f'{noun}s'}"


def _of_solid(solid: Solid, file: File) -> ToldSolid:
    where = None if solid.verdict.is_closed else solid.where
    if where is None or where.is_closed:
        return ToldSolid(solid.number, Node(f"solid {solid.number}: closed", kind=CLOSED), solid)
    units = where.parts.units
    topology = Topology(file, millimetres(units.told["unit_flag"], units.told["unit"]) if units else 1.0)
    rule = where.verdict.told["rule"]
    words = f"solid {solid.number} isn't closed: {MEANINGS[rule]}"
    rows = [Node(f"verdict: {where.verdict.text}"), *([LEFT_OUT] if is_left_out(where) else []), *(_row(it, topology) for it in where.hints)]
    rows += [Node(f"{_count(where.more_hints, 'further remedy', 'further remedies')}, which the report shows")] if where.more_hints else []
    rows += [_row(it, topology) for it in where.rules]
    rows += _unwritten(where)
    node = Node(words, _moved(where, solid.number), FAILS, nodes=tuple(rows))
    return ToldSolid(solid.number, node, solid, where, topology)


def _unwritten(where: Where) -> List[Node]:
    """A word on failing shells that `where` only counts."""
    left = where.shells.number("failing") - len(where.failing) if where.shells else 0
    return [Node(f"{_count(left, 'further failing shell')}, which the report shows")] if left else []


def _moved(where: Where, number: int) -> str:
    """A word on a matrix, which isn't applied to coordinates."""
    facts = where.entities[number].facts if number in where.entities else []
    matrix = next((it.told["matrix"] for it in facts if "matrix" in it.told), None)
    return f"The solid is moved by a matrix, entity {matrix}: the coordinates are those before it." if matrix else ""


def _row(holder: Holder, topology: Topology) -> Node:
    """A hint, a step or a rule, with its items."""
    shell = f" in shell {holder.shell}" if holder.shell is not None else ""
    if isinstance(holder, Hint):
        words = _name(holder, shell)
    elif isinstance(holder, Step):
        words = words_of_step(holder)
    else:
        words = f"{holder.told['rule']}{shell}, {_count(holder.number('faults'), 'fault')}: {MEANINGS[holder.told['rule']]}"
    is_once = isinstance(holder, Rule) and holder.name == ONCE
    items = [_row(it, topology) if isinstance(it, Step) else _again(it, topology) if is_once else _node(it, topology) for it in holder.items]
    more = [Node(f"{holder.more:,} more, which the report shows")] if holder.more else []
    remedy = holder.number("remedy") if isinstance(holder, Hint) and holder.is_remedy else None
    return Node(words, holder.sentence, nodes=(*items, *more), remedy=remedy)


def _name(hint: Hint, shell: str) -> str:
    """What a hint is called; a remedy by its number and what it changes."""
    if hint.is_remedy:
        return f"remedy {hint.told['remedy']}{shell}: {words_of_hint(hint)}"
    if hint.name == FACE_FLAGS:
        return f"remedy: {words_of_hint(hint)}"
    return f"{STUCK}{shell}" if hint.name == "stuck" else f"hint: {hint.name}{shell}"


def _again(item: Paragraph, topology: Topology) -> Node:
    """An item that names something a second time; if that is a face, the row shows it."""
    named = next(int(it.told["found"]) for it in item.facts if "found" in it.told)
    faces, _ = _face_named(named, topology)
    return _node(item, topology)._replace(faces=faces)


def _node(line: Line, topology: Topology) -> Node:
    """A line of `where` with the lines below it."""
    edges, vertices, faces, lost = named_by(line, topology)
    facts = line.facts if isinstance(line, Paragraph) else ()
    below = tuple(_node(it, topology) for it in facts if it.word != "mark")
    if line.word in USING:
        users = faces + tuple(face for it in below for face in it.faces)
        edges = tuple(it._replace(faces=users) for it in edges)
    return Node(_words(line), "", PLAIN, edges, vertices, faces, lost, line.shape.words in NEAR_BY, below)


def _words(line: Line) -> str:
    try:
        return WORDS[line.shape.words].format(**line.told)
    except KeyError:
        return line.text


def named_by(line: Line, topology: Topology):
    """The edges, vertices and faces that a line names, and in words those of which nothing is known but their number."""
    told: Dict[str, str] = line.told
    edges: List[Edge] = []
    vertices: List[Vertex] = []
    lost: List[str] = []
    for names in KEYS:
        if not all(it in told for it in names):
            continue
        key = int(told[names[0]]), int(told[names[1]])
        edge, vertex = topology.edge_of(key), topology.vertex_of(key)
        edges += [edge] if edge else []
        vertices += [vertex] if vertex else []
        lost += [] if edge or vertex else [f"item {key[1]} of list {key[0]}"]
    number = told["face"] if "face" in told else told["entity"] if line.shape.words.startswith("in face") else None
    faces, lost_faces = _face_named(int(number), topology) if number else ((), [])
    return tuple(edges), tuple(vertices), faces, (*lost, *lost_faces)


def _face_named(number: int, topology: Topology) -> Tuple[Tuple[Face, ...], List[str]]:
    """The face of this number; its words where nothing is known but that."""
    face = topology.face_of(number)
    return ((face,), []) if face and (face.edges or face.vertices) else ((), [f"face {number}"])
