"""The commands of the workbench."""
import pathlib
from typing import Any, List, Optional

import FreeCAD
import FreeCADGui
from PySide import QtGui

from . import TOP, panel

FILTER = "IGES (*.igs *.iges *.IGS *.IGES)"
ENDINGS = ".igs", ".iges"
ICON = str(TOP / "Resources" / "igescheck.svg")
RECENT = "User parameter:BaseApp/Preferences/RecentFiles"


def file_of(document: Any) -> Optional[str]:
    """The file that a document was read from: FreeCAD names the document after it, and has it among the recent files. None if there are
    several such, or none."""
    recent = FreeCAD.ParamGet(RECENT)
    paths = [pathlib.Path(recent.GetString(f"MRU{k}", "")) for k in range(recent.GetInt("RecentFiles", 4) + 1)]
    found = {it for it in paths if it.stem == document.Label and it.suffix.lower() in ENDINGS and it.is_file()}
    return str(found.pop()) if len(found) == 1 else None


def chosen(title: str) -> str:
    return QtGui.QFileDialog.getOpenFileName(FreeCADGui.getMainWindow(), title, "", FILTER)[0]


class CheckDocument:
    """Checks the file of the active document."""

    def GetResources(self):
        return {"MenuText": "Check this document", "ToolTip": "Whether the solids of the IGES file that this document was read from are closed", "Pixmap": ICON}

    def IsActive(self):
        return FreeCAD.ActiveDocument is not None

    def Activated(self):
        path = file_of(FreeCAD.ActiveDocument) or chosen("The IGES file of this document")
        if path:
            panel.show(path, FreeCAD.ActiveDocument)


class CheckFile:
    """Checks a file that is chosen, and opens it."""

    def GetResources(self):
        return {"MenuText": "Check and open a file...", "ToolTip": "Whether the solids of an IGES file are closed; then it is opened", "Pixmap": "document-open"}

    def Activated(self):
        path = chosen("Check and open")
        if path:
            panel.show(path)


def add() -> List[str]:
    commands = {"IgesCheck_Document": CheckDocument(), "IgesCheck_File": CheckFile()}
    for name, command in commands.items():
        FreeCADGui.addCommand(name, command)
    return list(commands)
