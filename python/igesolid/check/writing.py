"""Files that are written at once, so that nobody ever sees a part of one."""
import contextlib
import os
import pathlib
import tempfile
from typing import Any, Iterator


def _mode() -> int:
    """What a new file may be used for, by the mask of this process."""
    mask = os.umask(0o022)
    os.umask(mask)
    return 0o666 & ~mask


MODE = _mode()


@contextlib.contextmanager
def write_whole(path: pathlib.Path, mode: str = "w", **how: Any) -> Iterator[Any]:
    """A file to write to, which takes the place of what was at the path only when all is written."""
    descriptor, new = tempfile.mkstemp(prefix=f".{path.name[:100]}.", suffix=".new", dir=path.parent)
    try:
        with open(descriptor, mode, **how) as out:
            yield out
        os.chmod(new, MODE)
        os.replace(new, path)
    except BaseException:
        os.unlink(new)
        raise
