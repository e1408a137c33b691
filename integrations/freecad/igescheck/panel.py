"""The panel beside the 3D view: what is told of a file as a tree, and where it is in the model."""
import functools
import os
import pathlib
import textwrap
from typing import Any, Callable, Dict, Iterator, List, NamedTuple, Optional, Tuple

import FreeCAD
import FreeCADGui
import ImportGui
from PySide import QtCore, QtGui

from . import report
from .marks import Marker, Shown, remove_marks
from .mending import NotWritten, mended_copy
from .shapes import Element, Shapes, objects_of
from .telling import CLOSED, FAILS, Node, Told, told_of

NAME = "IgesCheck"
TRANSPARENCY = 60
# The width of the panel, and how many letters a row may have.
WIDTH, LETTERS = 520, 60
# So many elements are selected for a row at most.
MOST_SELECTED = 500
COLOURS = {CLOSED: "#19743a", FAILS: "#c1121f"}
WRONG_RECORDS = "FreeCAD doesn't open this file here: a record of a solid is wrong, and FreeCAD may crash on such a file."
ROLE = QtCore.Qt.UserRole


class Place(NamedTuple):
    """The solid and the remedy that a row is of, if it is of one."""

    number: Optional[int] = None
    remedy: Optional[int] = None


def guarded(slot: Callable[..., Any]) -> Callable[..., Any]:
    """What goes wrong in a slot is said in the panel."""

    @functools.wraps(slot)
    def call(self: "Panel", *words: Any) -> Any:
        QtGui.QApplication.setOverrideCursor(QtCore.Qt.WaitCursor)
        try:
            return slot(self, *words)
        except Exception as fault:
            self.say_error(fault)
        finally:
            QtGui.QApplication.restoreOverrideCursor()

    return call


class Panel(QtGui.QDockWidget):
    """A file, and the document in which it is shown; a new one if none is given."""

    def __init__(self, path: str, document: Any = None):
        super().__init__(f"IGES Check: {os.path.basename(path)}", FreeCADGui.getMainWindow())
        self.setObjectName(NAME)
        self.path, self.document = path, document
        self.told: Optional[Told] = None
        self.transparency: Dict[str, int] = {}
        self._build()
        self.check()

    def _build(self) -> None:
        self.summary, self.tree = QtGui.QLabel(), QtGui.QTreeWidget()
        self.summary.setWordWrap(True)
        self.summary.setTextInteractionFlags(QtCore.Qt.TextSelectableByMouse)
        self.tree.setHeaderLabels(["What fails", "In the model"])
        self.tree.setColumnWidth(0, WIDTH * 3 // 4)
        self.tree.currentItemChanged.connect(self.show_row)
        buttons = QtGui.QHBoxLayout()
        for words, tip, slot in BUTTONS:
            button = QtGui.QPushButton(words)
            button.setToolTip(tip)
            button.clicked.connect(functools.partial(slot, self))
            buttons.addWidget(button)
        layout, inside = QtGui.QVBoxLayout(), QtGui.QWidget()
        layout.addWidget(self.summary)
        layout.addWidget(self.tree)
        layout.addLayout(buttons)
        inside.setLayout(layout)
        inside.setMinimumWidth(WIDTH)
        self.setWidget(inside)

    def say(self, *sentences: str) -> None:
        self.summary.setText("\n".join(filter(None, sentences)))

    def say_error(self, fault: BaseException) -> None:
        self.say(f"{os.path.basename(self.path)}: {fault or type(fault).__name__}")

    @guarded
    def check(self, *_: Any) -> None:
        """Judges the file anew, and shows what is told of it."""
        self.tree.clear()
        self.told = told = told_of(self.path)
        self.forget_closed()
        opened = self._open(told)
        self.say(f"{os.path.basename(self.path)}: {told.words}", told.sentence, opened)
        document = self.document
        if document is None:
            return
        document.openTransaction("IGES Check")
        remove_marks(document)
        shapes = Shapes(document)
        for solid in told.solids:
            marker = None if solid.is_closed else Marker(document, shapes, solid)
            self._add(self.tree.invisibleRootItem(), solid.node, marker, Place(solid.number))
        document.recompute()
        document.commitTransaction()
        if any(not it.is_closed for it in told.solids):
            self._see_through()
        self._expand()

    def forget_closed(self) -> None:
        """A document that was closed meanwhile isn't there any more."""
        if self.document not in FreeCAD.listDocuments().values():
            self.document = None

    def _open(self, told: Told) -> str:
        """Opens the file, unless a document is there; what is to be said of that."""
        if self.document is not None or not told.solids:
            return ""
        stem = pathlib.Path(self.path).stem
        self.document = FreeCAD.newDocument(stem)
        # FreeCAD adds a digit to its label where other documents are open.
        self.document.Label = stem
        if not told.may_open:
            return WRONG_RECORDS
        try:
            ImportGui.insert(self.path, self.document.Name)
        except Exception as fault:
            return f"FreeCAD doesn't read this file: {fault}"
        if objects_of(self.document):
            return ""
        drawn = "" if all(it.is_closed for it in told.solids) else ", so what fails is drawn by its coordinates"
        return f"FreeCAD shows no face of this file{drawn}."

    def _add(self, parent: Any, node: Node, marker: Optional[Marker], place: Place) -> None:
        shown = marker.show(node) if marker else Shown()
        place = place._replace(remedy=node.remedy or place.remedy)
        row = self._row(parent, node.words, shown, place)
        if node.kind in COLOURS:
            row.setForeground(0, QtGui.QColor(COLOURS[node.kind]))
        if node.sentence:
            self._row(row, node.sentence, Shown(), place)
        for it in node.nodes:
            self._add(row, it, marker, place)

    def _row(self, parent: Any, words: str, shown: Shown, place: Place) -> Any:
        row = QtGui.QTreeWidgetItem(parent, [textwrap.fill(words, LETTERS), shown.words])
        row.setFirstColumnSpanned(not shown.words)
        row.setToolTip(1, shown.words)
        row.setData(0, ROLE, (place, shown))
        return row

    def _expand(self) -> None:
        """Opens the rows of solids, of hints and rules, and of what these name."""
        self.tree.expandToDepth(2)
        FreeCADGui.SendMsgToActiveView("ViewFit")

    def _see_through(self) -> None:
        for it in objects_of(self.document):
            self.transparency.setdefault(it.Name, it.ViewObject.Transparency)
            it.ViewObject.Transparency = max(TRANSPARENCY, it.ViewObject.Transparency)

    @guarded
    def show_row(self, row: Any, _: Any = None) -> None:
        """Selects what a row and those below it mean, and turns the view to it."""
        FreeCADGui.Selection.clearSelection()
        self.forget_closed()
        if row is None or self.document is None:
            return
        marks: List[str] = []
        elements: List[Element] = []
        for shown in _shown_below(row):
            marks += shown.marks if not shown.elements else ()
            elements += shown.elements
        named = dict.fromkeys([*elements, *(Element(it, "") for it in marks)])
        # What was deleted meanwhile isn't shown.
        chosen = [it for it in named if self.document.getObject(it.owner)][:MOST_SELECTED]
        for it in chosen:
            FreeCADGui.Selection.addSelection(self.document.Name, it.owner, it.name)
        if chosen:
            look_at(self.document, chosen)

    def _place(self) -> Place:
        """Of the chosen row."""
        row = self.tree.currentItem()
        return row.data(0, ROLE)[0] if row else Place()

    @guarded
    def mend(self, *_: Any) -> None:
        """Writes the mended copy of the chosen row's solid beside the file, and opens it; by the remedy of the row, if it is of one."""
        if self.told is None:
            return
        place = self._place()
        try:
            copy = mended_copy(self.path, self.told, place.number, place.remedy)
        except NotWritten as fault:
            self.say(f"{os.path.basename(self.path)}: {self.told.words}", str(fault))
            return
        opened = show(copy)
        opened.say(f"{os.path.basename(copy)} is written beside {os.path.basename(self.path)}.", opened.summary.text())

    @guarded
    def show_report(self, *_: Any) -> None:
        """Opens the page of the chosen row's solid in a browser."""
        if self.told is None:
            return
        page = report.write(self.told, self.path, self._place().number)
        QtGui.QDesktopServices.openUrl(QtCore.QUrl.fromLocalFile(str(page)))

    @guarded
    def clear(self, *_: Any) -> None:
        """Removes the marks, and shows the faces as they were."""
        self.forget_closed()
        if self.document is None:
            return
        remove_marks(self.document)
        for it in objects_of(self.document):
            it.ViewObject.Transparency = self.transparency.pop(it.Name, it.ViewObject.Transparency)
        self.document.recompute()
        self.tree.clear()


# The words of the buttons, what each does, and its slot.
TIP_OF_MEND = (
    "Writes a copy beside the file in which the chosen solid is closed, by the chosen remedy or the one that is sure, and opens it; "
    "of a bad file a copy with its lines put right"
)
BUTTONS: Tuple[Tuple[str, str, Callable[..., Any]], ...] = (
    ("Mend", TIP_OF_MEND, Panel.mend),
    ("Report", "Opens a page that draws the solid and where it fails, in a browser", Panel.show_report),
    ("Check again", "Reads the file again and judges it; the model stays as it was opened", Panel.check),
    ("Remove marks", "Removes what this panel drew into the document", Panel.clear),
)


def _shown_below(row: Any) -> Iterator[Shown]:
    yield row.data(0, ROLE)[1]
    for k in range(row.childCount()):
        yield from _shown_below(row.child(k))


def look_at(document: Any, chosen: List[Element]) -> None:
    """Fits the view to what is selected; to a point alone it only turns, since that has no size."""
    box = FreeCAD.BoundBox()
    for it in chosen:
        shape = document.getObject(it.owner).Shape
        box.add((shape.getElement(it.name) if it.name else shape).BoundBox)
    view = FreeCADGui.getDocument(document.Name).activeView()
    if box.DiagonalLength > 0:
        FreeCADGui.SendMsgToActiveView("ViewSelection")
    elif hasattr(view, "getCameraNode"):
        camera = view.getCameraNode()
        camera.position.setValue(*(box.Center - view.getViewDirection() * camera.focalDistance.getValue()))


def show(path: str, document: Any = None) -> Panel:
    """The panel on a file, in place of an earlier one."""
    window = FreeCADGui.getMainWindow()
    for old in window.findChildren(QtGui.QDockWidget, NAME):
        old.forget_closed()
        if document is not None and old.document == document:
            old.clear()
        window.removeDockWidget(old)
        old.deleteLater()
    panel = Panel(path, document)
    window.addDockWidget(QtCore.Qt.RightDockWidgetArea, panel)
    panel.show()
    panel.raise_()
    return panel
