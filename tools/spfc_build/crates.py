"""The crates that the program is made of: what each uses, and how large it is."""

import os
from collections.abc import Iterator, Mapping
from dataclasses import dataclass
from pathlib import Path

PROGRAM = "spfc"
"""The crate of the program."""
LIST = "crates.txt"
"""The file at the top that has a line for each crate."""
PARTS = ("src", "specs", "proofs")
"""The folders of a crate that a proof reads."""


@dataclass(frozen=True)
class Crate:
    """A crate of the repository."""

    name: str
    uses: frozenset[str]
    """The crates of the repository that it names."""
    lines: int
    """Lines of code, definitions and proofs. The time to prove a crate is roughly in proportion."""
    entry: str = ""
    """Its line in crates.txt."""


def files(folder: Path) -> Iterator[Path]:
    """The files of a crate that a proof reads."""
    for part in PARTS:
        for place, _, names in os.walk(folder / part):
            yield from (Path(place, name) for name in names)


def _lines(folder: Path) -> int:
    return sum(file.read_bytes().count(b"\n") for file in files(folder) if file.suffix in (".rt", ".antt"))


@dataclass(frozen=True)
class _Entry:
    """A line of crates.txt."""

    text: str
    uses: list[str]


def _listed(top: Path) -> dict[str, _Entry]:
    """The crates that crates.txt has."""
    lines = (line.partition("#")[0] for line in (top / LIST).read_text().splitlines())
    pairs = ((line, *line.split(":", 1)) for line in lines if ":" in line)
    return {name.split()[0]: _Entry(line, uses.split()) for line, name, uses in pairs}


def read(top: Path, program: str = PROGRAM) -> dict[str, Crate]:
    """The program's crate and those below it, by their names."""
    listed = _listed(top)
    every = {
        name: Crate(
            name, frozenset(use for use in entry.uses if use in listed), _lines(top / "crates" / name), entry.text
        )
        for name, entry in listed.items()
    }
    needed = {program, *below(every, program)}
    return {name: crate for name, crate in every.items() if name in needed}


def below(crates: Mapping[str, Crate], name: str) -> set[str]:
    """The crates that a crate uses, and those that these use."""
    found: set[str] = set()
    left = [*crates[name].uses]
    while left:
        use = left.pop()
        if use not in found:
            found.add(use)
            left += crates[use].uses
    return found
