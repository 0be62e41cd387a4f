"""The one line that says how far a build is."""

import shutil
import sys
import time
from collections.abc import Collection
from typing import TextIO

_PAUSE = 10
"""The fewest seconds between two lines without a terminal."""
_ERASE = "\r\x1b[K"


def line(proved: int, whole: int, at_work: Collection[str], seconds: float) -> str:
    """How many crates are proved, which are at work, and for how many seconds the build has run."""
    names = f": {', '.join(at_work)}" if at_work else ""
    return f"{proved} of {whole} proved, {len(at_work)} at work{names}, {seconds:.0f} s"


class Progress:
    """Shows the line: on a terminal in place, else if it says something new and the last one is ten seconds old."""

    def __init__(self, whole: int, stream: TextIO = sys.stderr) -> None:
        self._whole = whole
        self._stream = stream
        self._begun = time.monotonic()
        self._in_place = stream.isatty()
        self._shown: tuple[int, tuple[str, ...]] | None = None
        self._next = 0.0

    @property
    def seconds(self) -> float:
        """For how long the build has run."""
        return time.monotonic() - self._begun

    def show(self, proved: int, at_work: Collection[str]) -> None:
        """Shows the line where it is time to."""
        now, state = time.monotonic(), (proved, tuple(at_work))
        if now < self._next or (not self._in_place and state == self._shown):
            return
        self._shown, self._next = state, now + (1 if self._in_place else _PAUSE)
        text = f"spfc: {line(proved, self._whole, at_work, self.seconds)}"
        if self._in_place:
            text = f"{_ERASE}{text[: shutil.get_terminal_size().columns - 1]}"
        print(text, end="" if self._in_place else "\n", file=self._stream, flush=True)

    def end(self) -> None:
        """Removes the line from a terminal."""
        if self._in_place and self._shown:
            print(_ERASE, end="", file=self._stream, flush=True)
