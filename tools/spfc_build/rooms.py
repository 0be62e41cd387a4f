"""A copy of the tree for each check.

`rt` locks a crate and all crates below it while it works, so two checks that use one crate run at the same time only in
copies. A copy is in the repository's .git, where the gate looks for no sources. What was made of the crate itself is
moved there and back, and what was built of those below it is linked: `rt` replaces such a file, and never changes it.
"""

import fcntl
import os
import shutil
from collections.abc import Callable, Iterator, Mapping
from contextlib import ExitStack, contextmanager
from dataclasses import dataclass
from pathlib import Path

from .crates import LIST, PARTS, Crate, below

_MADE = "out"
"""The folder of what `rt` makes of a crate."""
_LIBRARY = "out/rlib"


def _link(source: str, target: str) -> str:
    try:
        os.link(source, target)
    except OSError:
        shutil.copy2(source, target)
    return target


def _rooms(top: Path) -> Path:
    """The folder of the copies."""
    git = top / ".git"
    return (git if git.is_dir() else top / _MADE) / "spfc-build"


@dataclass(frozen=True)
class Room:
    """The copy of the tree in which a crate is proved."""

    top: Path
    name: str

    @property
    def folder(self) -> Path:
        """Where the copy is."""
        return _rooms(self.top) / self.name

    @property
    def crate(self) -> Path:
        """The crate in the copy."""
        return self.folder / "crates" / self.name

    def make(self, crates: Mapping[str, Crate]) -> None:
        """Copies the crate and those below it, which are built."""
        names = [*below(crates, self.name), self.name]
        for name in names:
            for part in PARTS:
                source = self.top / "crates" / name / part
                if source.is_dir():
                    shutil.copytree(source, self.folder / "crates" / name / part)
            library = self.top / "crates" / name / _LIBRARY
            if name != self.name and library.is_dir():
                shutil.copytree(library, self.folder / "crates" / name / _LIBRARY, copy_function=_link)
        (self.folder / LIST).write_text("".join(f"{crates[name].entry}\n" for name in names))
        if (self.top / "HANDLES").exists():
            shutil.copyfile(self.top / "HANDLES", self.folder / "HANDLES")
        made = self.top / "crates" / self.name / _MADE
        if made.is_dir():
            made.rename(self.crate / _MADE)

    def leave(self) -> None:
        """Moves what was made of the crate back, and removes the copy."""
        made, place = self.crate / _MADE, self.top / "crates" / self.name / _MADE
        if made.is_dir() and place.parent.is_dir() and not place.exists():
            made.rename(place)
        shutil.rmtree(self.folder, ignore_errors=True)


def leave_all(top: Path) -> None:
    """Leaves each copy that a build has left behind which was killed."""
    if _rooms(top).is_dir():
        for folder in _rooms(top).iterdir():
            Room(top, folder.name).leave()


@contextmanager
def alone(top: Path, names: Mapping[str, Crate], wait: Callable[[str], None]) -> Iterator[None]:
    """Keeps other builds and each `rt` out of these crates, as `rt` does. Calls `wait` where it has to wait for one."""
    with ExitStack() as stack:
        for folder in sorted(os.path.realpath(top / "crates" / name) for name in names):
            held = os.open(folder, os.O_RDONLY)
            stack.callback(os.close, held)
            try:
                fcntl.flock(held, fcntl.LOCK_EX | fcntl.LOCK_NB)
            except BlockingIOError:
                wait(folder)
                fcntl.flock(held, fcntl.LOCK_EX)
        yield
