import FreeCADGui
import igescheck


class IgesCheckWorkbench(FreeCADGui.Workbench):
    MenuText = "IGES Check"
    ToolTip = "Whether the solids of an IGES file are closed, and where they fail"

    def Initialize(self):
        from igescheck import commands

        names = commands.add()
        self.appendToolbar("IGES Check", names)
        self.appendMenu("IGES Check", names)

    def GetClassName(self):
        return "Gui::PythonWorkbench"


# FreeCAD runs this file inside of a function, so the names above aren't known in the class.
IgesCheckWorkbench.Icon = str(igescheck.TOP / "Resources" / "igescheck.svg")
FreeCADGui.addWorkbench(IgesCheckWorkbench())
