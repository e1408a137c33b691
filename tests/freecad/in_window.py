# Run by FreeCAD in a window: what the panel says, what a click selects, and what its buttons do, as JSON.
import json
import os
import pathlib
import traceback

import FreeCAD
import FreeCADGui
from PySide import QtCore, QtGui

task = json.loads(pathlib.Path(os.environ["IGESCHECK_TASK"]).read_text())
answer = {}
opened = []


def rows_of(panel):
    """The words of all rows."""
    found = panel.tree.findItems("", QtCore.Qt.MatchContains | QtCore.Qt.MatchRecursive)
    return [[" ".join(it.text(0).split()), it.text(1)] for it in found]


def click(panel, words):
    """What is selected once a row that begins so is chosen."""
    row = panel.tree.findItems(words, QtCore.Qt.MatchStartsWith | QtCore.Qt.MatchRecursive)[0]
    panel.tree.setCurrentItem(row)
    return [[it.Object.Label, list(it.SubElementNames)] for it in FreeCADGui.Selection.getSelectionEx()]


def press(panel, words):
    next(it for it in panel.findChildren(QtGui.QPushButton) if it.text() == words).click()


def state_of(document):
    """Each object with its label, whether it is red, and its transparency."""
    views = [it.ViewObject for it in document.Objects]
    return [
        [it.Label, getattr(view, "LineColor", (0, 0, 0))[0] > 0.8, getattr(view, "Transparency", 0)] for it, view in zip(document.Objects, views)
    ]


def of_a_fault(gui):
    """A file of one failing edge: the panel, a click, the report, and the marks, which are removed and made again."""
    panel = gui.show(task["edge"])
    answer["rows"], answer["summary"], answer["seen"] = rows_of(panel), panel.summary.text(), is_seen(gui, panel)
    answer["selected"] = click(panel, "edge ")
    answer["state"] = state_of(panel.document)
    answer["vertex"] = [click(panel, "from vertex "), panel.summary.text() == answer["summary"]]
    answer["selected"] = click(panel, "edge ")
    press(panel, "Report")
    answer["page"] = opened[-1]
    if "picture" in task:
        take_picture(panel, task["picture"])
        return
    press(panel, "Remove marks")
    answer["removed"] = [rows_of(panel), state_of(panel.document)]
    press(panel, "Check again")
    answer["again"] = [rows_of(panel) == answer["rows"], state_of(panel.document) == answer["state"]]
    panel = gui.show(task["edge"], panel.document)
    press(panel, "Remove marks")
    answer["other_panel"] = state_of(panel.document)


def take_picture(panel, path):
    FreeCADGui.activeDocument().activeView().viewIsometric()
    FreeCADGui.SendMsgToActiveView("ViewFit")
    # However slow the machine is, all is laid out and painted then.
    for _ in range(20):
        wait(0.1)
        QtGui.QApplication.processEvents()
    QtGui.QApplication.primaryScreen().grabWindow(0).save(path)


def wait(seconds):
    loop = QtCore.QEventLoop()
    QtCore.QTimer.singleShot(int(1000 * seconds), loop.quit)
    loop.exec_()


def is_seen(gui, panel):
    """Whether the panel is in the window in its whole width, beside the model, once all is laid out."""
    window = FreeCADGui.getMainWindow()
    for _ in range(100):
        seen = panel.visibleRegion().boundingRect()
        left, right = (panel.mapTo(window, it).x() for it in (seen.topLeft(), seen.topRight()))
        if seen.width() >= gui.WIDTH and window.centralWidget().geometry().right() < left < right < window.width():
            return True
        wait(0.1)
    return False


def of_closed_document(gui):
    """A document that is closed while the panel stands is opened again by the button."""
    panel = gui.show(task["edge"])
    FreeCAD.closeDocument(panel.document.Name)
    selected = click(panel, "edge ")
    press(panel, "Check again")
    answer["closed_document"] = [selected, rows_of(panel) == answer["rows"], panel.summary.text() == answer["summary"], len(click(panel, "edge "))]


def of_others(gui):
    """Files that FreeCAD doesn't show, or that have no verdict."""
    for name in "marks", "closed", "record", "bad", "none":
        before = len(FreeCAD.listDocuments())
        panel = gui.show(task[name])
        told = answer[name] = {"summary": panel.summary.text(), "rows": rows_of(panel), "documents": len(FreeCAD.listDocuments()) - before}
        if name == "marks":
            told["selected"] = click(panel, "edge ")
            deleted = next(it for it in panel.document.Objects if it.Label == told["selected"][0][0])
            panel.document.removeObject(deleted.Name)
            click(panel, "verdict")
            told["deleted"] = [click(panel, "edge ") == told["selected"][1:], panel.summary.text() == told["summary"]]
        press(panel, "Report")
        told["page"], told["then"] = opened[-1], panel.summary.text()


def mended(gui, name):
    """A mended copy: its name, the rows on its solids, how many faces FreeCAD shows of it, what is said of it first, and whether it is seen."""
    press(gui.show(task[name]), "Mend")
    found = [it for it in FreeCADGui.getMainWindow().findChildren(QtGui.QDockWidget, gui.NAME) if it.path != task[name]][-1]
    faces = sum(len(it.Shape.Faces) for it in gui.objects_of(found.document))
    rows = [words for words, _ in rows_of(found) if words.startswith("solid ")]
    return [os.path.basename(found.path), rows, faces, found.summary.text().split("\n")[0], is_seen(gui, found)]


def unmended(gui, name):
    """Why there is no mended copy."""
    panel = gui.show(task[name])
    press(panel, "Mend")
    return panel.summary.text().split("\n")[1]


def of_mending(gui):
    """The button Mend: a copy of a name that is free, in a panel of its own; and why there is none."""
    panel = gui.show(task["twice"])
    answer["twice_rows"], answer["twice_selected"] = rows_of(panel), click(panel, "item 2 of entity 5")
    for name in "mend", "twice", "flags", "lines":
        answer[name] = [mended(gui, name) for _ in range(2 if name == "mend" else 1)]
    answer["stuck"], answer["bad_lines"] = unmended(gui, "stuck"), unmended(gui, "bad")
    answer["nothing"] = [unmended(gui, "closed"), unmended(gui, "record")]
    panel = gui.show(task["edge"])
    rows = panel.tree.findItems("remedy ", QtCore.Qt.MatchStartsWith | QtCore.Qt.MatchRecursive)[:2]
    answer["remedy"] = []
    for row in rows:
        panel.tree.setCurrentItem(row.child(0))
        answer["remedy"].append(panel._place().remedy)


def of_commands(gui):
    """The file of a document that FreeCAD opened itself, which its recent files tell unless two have the same name."""
    from igescheck import commands

    for name in list(FreeCAD.listDocuments()):
        FreeCAD.closeDocument(name)
    recent = FreeCAD.ParamGet(commands.RECENT)
    document = FreeCAD.newDocument(pathlib.Path(task["edge"]).stem)
    recent.SetString("MRU0", task["edge"])
    FreeCAD.setActiveDocument(document.Name)
    answer["file"] = commands.file_of(document)
    commands.chosen = lambda title: ""
    FreeCADGui.runCommand("IgesCheck_Document")
    panels = FreeCADGui.getMainWindow().findChildren(QtGui.QDockWidget, gui.NAME)
    answer["by_command"] = [panels[-1].path, panels[-1].document.Name == document.Name]
    recent.SetString("MRU1", task["same_name"])
    answer["two_files"] = commands.file_of(document)


def of_faults(gui):
    """What nobody expected is said in the panel, too."""

    def fails(path):
        raise RuntimeError("nobody expected this")

    kept, gui.told_of = gui.told_of, fails
    answer["unexpected"] = gui.show(task["edge"]).summary.text()
    gui.told_of = kept


def main():
    try:
        FreeCADGui.activateWorkbench("IgesCheckWorkbench")
        from igescheck import panel as gui

        QtGui.QDesktopServices.openUrl = lambda url: opened.append(url.toLocalFile())
        answer["commands"] = [it for it in FreeCADGui.listCommands() if it.startswith("IgesCheck")]
        for part in [of_a_fault] if "picture" in task else [of_a_fault, of_closed_document, of_others, of_mending, of_commands, of_faults]:
            part(gui)
    except BaseException:
        answer["fault"] = traceback.format_exc()
    pathlib.Path(task["answer"]).write_text(json.dumps(answer))
    os._exit(0)


QtCore.QTimer.singleShot(2000, main)
