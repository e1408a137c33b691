"""The mended copy of a file, beside it: what `igesolid mend` writes, or `reorient` or `relayout`. FreeCAD isn't needed here."""
import itertools
import os
import pathlib
from typing import Optional, Sequence

from igesolid import BadFile, BadLayout, Error, NeedsFaces, NotMended, Unsure, WrongRecord, read, relayout
from igesolid.where_lines import MENDED_RULES

from .telling import Told, ToldSolid


class NotWritten(Exception):
    """There is no mended copy; why, in words."""


def solid_to_mend(told: Told, number: Optional[int]) -> ToldSolid:
    """The solid of this number, if it may be mended; where none is chosen, the first that may."""
    wanted = [it for it in told.solids if number in (None, it.number)]
    found = next((it for it in wanted if it.rule in MENDED_RULES), None)
    if found is None:
        raise NotWritten(_nothing(wanted))
    return found


def _nothing(wanted: Sequence[ToldSolid]) -> str:
    """Why none of these solids is mended."""
    if not wanted:
        return "There is no solid to mend in this file."
    wrong = next((it for it in wanted if not it.is_closed), None)
    if wrong:
        return f"Solid {wrong.number} isn't mended, since a record of it is wrong: the rows tell which, and what is due there."
    return "There is nothing to mend: the solid is closed." if len(wanted) == 1 else "There is nothing to mend: all solids are closed."


def _why(fault: NotMended, number: int) -> str:
    if isinstance(fault, Unsure):
        return f"The records don't tell which remedy of solid {number} is meant. Choose one in the tree, such as remedy {fault.remedy}, and press Mend again."
    if isinstance(fault, NeedsFaces):
        faces = "a face" if fault.faces == 1 else f"{fault.faces:,} faces"
        return f"Solid {number} isn't mended, since {faces} must be made anew: the rims of its first remedy tell where. Another remedy may do without: choose it."
    return f"No remedy is known that closes solid {number}."


def _new_file(path: str, data: bytes) -> str:
    """Writes a file of a name that is free, part-mended-1.igs or with the next number; its path."""
    whole = pathlib.Path(path)
    for k in itertools.count(1):
        new = whole.with_name(f"{whole.stem}-mended-{k}{whole.suffix}")
        try:
            with open(new, "xb") as file:
                file.write(data)
            return os.fspath(new)
        except FileExistsError:
            continue
        except OSError as fault:
            raise NotWritten(f"{new} can't be written: {fault.strerror}") from fault
    raise AssertionError


def _put_right(told: Told) -> bytes:
    """A bad file with its lines put right."""
    try:
        data = relayout(told.content.bytes)
        read(data)
        return data
    except BadLayout as fault:
        raise NotWritten(f"It isn't certain how the lines of this file are to be put right: line {fault.line} ({fault.reason}).") from fault
    except BadFile as fault:
        raise NotWritten(f"This file isn't one of the fixed form even with its lines put right: line {fault.line} ({fault.reason}).") from fault
    except Error as fault:
        raise NotWritten(f"The lines of this file aren't put right: {fault}") from fault


def mended_copy(path: str, told: Told, number: Optional[int], remedy: Optional[int]) -> str:
    """Writes the mended copy of a solid, by the remedy of this number or else by the one that is sure, or of a bad file; its path."""
    return _new_file(path, _put_right(told) if told.is_bad else _mended(told, number, remedy))


def _mended(told: Told, number: Optional[int], remedy: Optional[int]) -> bytes:
    chosen = solid_to_mend(told, number)
    try:
        return chosen.solid.reorient() if chosen.is_by_flags else chosen.solid.mend(remedy)
    except NotMended as fault:
        raise NotWritten(_why(fault, chosen.number)) from fault
    except WrongRecord as fault:
        raise NotWritten(f"Solid {chosen.number} isn't mended: a record of it is wrong also without what is named twice.") from fault
    except Error as fault:
        raise NotWritten(f"Solid {chosen.number} isn't mended: {fault}") from fault
