"""The page of a solid, as `igesolid page` writes it."""
import os
import pathlib
from typing import Optional

import FreeCAD
from igesolid import NotUnderstood
from igesolid.check.html_report import page_name
from igesolid.files import default_engine
from igesolid.page import filled, packed, template

from .telling import Told


def write(told: Told, path: str, number: Optional[int]) -> pathlib.Path:
    """Writes the page of a solid, if none is named of the first that fails, or that of a bad file; where it lies."""
    if number is None:
        number = next((it.number for it in sorted(told.solids, key=lambda it: it.is_closed)), 0)
    if number == 0 and told.words == "no solid":
        raise NotUnderstood("there is no solid to draw")
    text = default_engine().ask("where", told.content, str(number or 1), "all").text
    name = os.fsencode(os.path.basename(path))
    folder = pathlib.Path(FreeCAD.getUserAppDataDir()) / "IgesCheck"
    folder.mkdir(parents=True, exist_ok=True)
    page = folder / page_name(path, number)
    page.write_bytes(filled(template(), name, str(number or ""), text, packed(told.content.bytes)))
    return page
