"""Runs the program spfc, and asks it what records, names and command lines mean."""

import os
import shutil
import subprocess
import tempfile
from collections.abc import Iterator, Sequence
from contextlib import contextmanager
from dataclasses import dataclass, field
from pathlib import Path

from spfc_tools.exit_statuses import Ending, Status
from spfc_tools.places import CHECKOUT, PREFIX
from spfc_tools.texts import presented

USAGE = 4
"""The status of spfc for words that give no job."""
_TRIED = "try.invalid"
_ADDRESSES = ("192.0.2.1", "2001:db8::1")


@dataclass(frozen=True)
class Run:
    """How a run ended: its status, and the texts of standard output and standard error."""

    status: int
    output: str
    line: str


def find_program() -> str:
    """The program that the variable SPFC names, or else that of the package, of the checkout, or on the path."""
    if named := os.environ.get("SPFC"):
        return named
    for place in (PREFIX / "libexec/spfc/spfc", CHECKOUT / "bin/spfc"):
        if os.access(place, os.X_OK):
            return str(place)
    if found := shutil.which("spfc"):
        return found
    raise Ending(Status.TOOL, "there is no program spfc here; the variable SPFC may name it")


@dataclass(frozen=True)
class Program:
    """The program, with a folder for the zones that it is to read."""

    path: str
    folder: Path
    _zone: Path = field(init=False)

    def __post_init__(self) -> None:
        object.__setattr__(self, "_zone", self.folder / "zone")

    def run(self, words: Sequence[str]) -> Run:
        """Runs the program with these words."""
        try:
            ended = subprocess.run([self.path, *words], stdin=subprocess.DEVNULL, capture_output=True, check=False)
        except OSError as error:
            raise Ending(Status.TOOL, f"{self.path}: {error.strerror}") from error
        return Run(ended.returncode, ended.stdout.decode("latin-1"), ended.stderr.decode("latin-1").rstrip("\n"))

    def over(self, words: Sequence[str], zone: str) -> Run:
        """Runs the program with these words, and with this text as the zone of the root."""
        return self.run([*words, *self.zones_of(zone)])

    def zones_of(self, zone: str, others: Sequence[str] = ()) -> list[str]:
        """The zone words for this text as the zone of the root, after those for others."""
        self._zone.write_text(zone, encoding="latin-1")
        return self.zones(others)

    def zones(self, others: Sequence[str] = ()) -> list[str]:
        """The zone words for others, and that for this zone."""
        return [*others, f".={self._zone}"]

    def knows(self, command: str, *words: str) -> bool:
        """Whether the program has this command, which takes these words before its zone words."""
        return self.over([command, *words], "").status != USAGE

    def questions(self, domain: str, reading: Sequence[str], zone: str, others: Sequence[str] = ()) -> list[str]:
        """The lines of `deps`: what the policy of the domain asks over this zone and others."""
        ended = self.over(["deps", domain, *reading, *others], zone)
        if ended.status == USAGE:
            raise Ending(Status.USAGE, f"spfc deps does not take these words: {' '.join([domain, *reading])}")
        if ended.status:
            raise Ending(Status.TOOL, f"spfc deps ended with {ended.status}: {ended.line}")
        return ended.output.splitlines()

    def is_policy(self, record: str) -> bool:
        """Whether a TXT record, in presentation form, is taken for an SPF record, well spelled or not."""
        ended = self.over(["check", _TRIED, _ADDRESSES[0]], f"{_TRIED}. IN TXT {record}\n")
        return ended.status == 0 and not ended.output.startswith("none norecord")


@contextmanager
def opened_program() -> Iterator[Program]:
    """The program, with a folder that is there as long as it is used."""
    with tempfile.TemporaryDirectory(prefix="spfc-") as folder:
        yield Program(find_program(), Path(folder))


_OTHER_FAMILY = {"REVERSE4": "ip6:::/0", "REVERSE6": "ip4:0.0.0.0/0"}
"""For a question of reversed addresses, a term that matches all addresses of the family that is not asked for."""
_TERMS = {
    "A": "exists:",
    "AAAA": "a:",
    "MX": "mx:",
    "TXT": "redirect=",
    "REVERSE4": "exists:%{ir}.",
    "REVERSE6": "exists:%{ir}.",
}
"""For each kind of question, the beginning of a term that asks it of the name at its end."""


class Asker:
    """Asks what the program makes of texts and names, over the zones of a command."""

    def __init__(self, program: Program, reading: Sequence[str], zones: Sequence[str]) -> None:
        self.program = program
        self._reading = list(reading)
        self._zones = list(zones)

    def outcome(self, domain: str, address: str, reading: Sequence[str] | None = None) -> str:
        """What check_host says of an address for a domain."""
        words = ["check", domain, address, *(self._reading if reading is None else reading), *self._zones]
        return self.program.run(words).output.rstrip("\n")

    def is_misspelled(self, text: str) -> bool:
        """Whether a record of this text breaks the grammar."""
        return f"permerror syntax {_TRIED} 0" in self._outcomes(text)

    def is_outside(self, question: str) -> bool:
        """Whether the answer to a question, as `deps` prints it, lies outside the zones, for some address at least."""
        name, _, kind = question.rpartition(" ")
        if kind in _OTHER_FAMILY:
            text = f"v=spf1 {_OTHER_FAMILY[kind]} {_TERMS[kind]}{name.replace('%', '%%')} -all"
            return self._compiled(text).endswith(f" outside {_TRIED} 2")
        if kind == "TXT":
            return self.outcome(name, _ADDRESSES[0]).startswith(f"open outside {name} 0")
        if kind not in _TERMS:
            return False
        outcomes = list(self._outcomes(f"v=spf1 {_TERMS[kind]}{name.replace('%', '%%')} -all"))
        return f"open outside {_TRIED} 1" in (outcomes[1:] if kind == "AAAA" else outcomes)

    def kept(self, question: str) -> str:
        """The kept list of a record that asks this question."""
        name, _, kind = question.rpartition(" ")
        term = _TERMS[kind] + name.replace("%", "%%")
        return self.program.run(["keep", _TRIED, *self._reading, *self._with_record(f"v=spf1 {term}")]).output

    def _outcomes(self, text: str) -> list[str]:
        """What check_host says of a record of this text, for an address of each family."""
        words = [*self._reading, *self._with_record(text)]
        lines = (self.program.run(["check", _TRIED, address, *words]) for address in _ADDRESSES)
        return [line.output.rstrip("\n") for line in lines]

    def _compiled(self, text: str) -> str:
        """The line with which `compile` ends for a record of this text."""
        return self.program.run(["compile", _TRIED, *self._reading, *self._with_record(text)]).line

    def _with_record(self, text: str) -> list[str]:
        """The zones, and one with a record of this text."""
        tiny = self.program.folder / "tiny"
        tiny.write_text(f"@ IN TXT {presented(text.encode('latin-1'))}\n", encoding="latin-1")
        return [*self._zones, f"{_TRIED}={tiny}"]
