"""The hints on the shells of a solid that fails (docs/WHERE.md, section 6)."""
from .change_fits import shell_passes
from .remedies import tried_remedies
from .remedy_text import put_remedies
from .shells import check_apart
from .walking import Fail


def unset_faces(solid):
    """The faces of flag 0, if the solid is closed with all flags of faces 1."""
    faces = [face for shell in solid.shells for face in shell.faces]
    unset = [face for face in faces if face.flag == 0]
    for face in unset:
        face.flag = 1
    try:
        for place in range(1, len(solid.shells) + 1):
            check_apart(solid, solid.shells[:place])
        return unset if all(map(shell_passes, solid.shells)) else []
    except Fail:
        return []
    finally:
        for face in unset:
            face.flag = 0


def put_shell_hints(text, views, geometry):
    """Writes the remedies of each shell that is written."""
    for view in views:
        put_remedies(text, view, tried_remedies(view.solid, geometry, view.place - 1))
