# FreeCAD runs this without a window, where the add-on has nothing to do.
