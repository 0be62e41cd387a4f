"""Files that are written whole or not at all."""

import os
import stat
import tempfile
from pathlib import Path

from spfc_tools.exit_statuses import Ending, Status

_MODE = 0o666


def write(path: Path, text: str) -> None:
    """Writes a file next to its place, and then renames it. A link stays one: the file that it leads to is replaced.

    A device or a fifo is written to as it is.
    """
    try:
        if _is_special(path):
            path.write_text(text, encoding="latin-1")
        else:
            _replace(Path(os.path.realpath(path)), text)
    except OSError as error:
        raise Ending(Status.UNWRITTEN, f"{path} could not be written: {error.strerror}") from error


def are_same(one: Path, other: Path) -> bool:
    """Whether both paths lead to one plain file, or to one place where a file can be written."""
    if _is_special(one) or _is_special(other):
        return False
    try:
        return os.path.samefile(one, other)
    except OSError:
        return os.path.realpath(one) == os.path.realpath(other)


def _is_special(path: Path) -> bool:
    """Whether something other than a plain file or a folder is there."""
    try:
        mode = path.stat().st_mode
    except OSError:
        return False
    return not stat.S_ISREG(mode) and not stat.S_ISDIR(mode)


def _replace(path: Path, text: str) -> None:
    descriptor, temporary = tempfile.mkstemp(prefix=f".{path.name}.", dir=path.parent)
    try:
        with open(descriptor, "w", encoding="latin-1") as file:
            file.write(text)
            file.flush()
            os.fsync(file.fileno())
        os.chmod(temporary, _MODE & ~_mask())
        os.replace(temporary, path)
    except BaseException:
        os.unlink(temporary)
        raise


def _mask() -> int:
    """The mask of the modes of new files, which can only be read by setting it."""
    mask = os.umask(0)
    os.umask(mask)
    return mask
