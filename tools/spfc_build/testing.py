"""Runs all that tests a checkout but for the proofs: each part is a command, whose counts are summed."""

import re
import subprocess
import sys
import tempfile
import time
import xml.etree.ElementTree as ElementTree
from collections.abc import Collection, Iterator, Sequence
from contextlib import contextmanager
from dataclasses import dataclass
from pathlib import Path

from .needs import PYTHON, Group

_CHECKED_FOLDERS = ("tools", "tests/tools")
_COUNTS = re.compile(r"(?:\w+: )?(\d+) passed, (\d+) failed\n?")


@dataclass(frozen=True)
class Outcome:
    """How many tests passed, and how many failed."""

    passed: int
    failed: int

    def __add__(self, other: "Outcome") -> "Outcome":
        return Outcome(self.passed + other.passed, self.failed + other.failed)

    def __str__(self) -> str:
        return f"{self.passed} passed, {self.failed} failed"


CRASHED = Outcome(0, 1)
"""What a part counts as that ended without its counts."""


def _honest(outcome: Outcome, status: int) -> Outcome:
    """The outcome of a command that ended with this status: one that fails counts as failed, whatever it says."""
    return outcome + CRASHED if status != 0 and outcome.failed == 0 else outcome


@contextmanager
def _started(command: Sequence[str], top: Path, output: int | None = None) -> Iterator[subprocess.Popen[str]]:
    """A command with its two streams in one. It is ended where this process is told to end."""
    errors = sys.stdout.fileno() if output is None else subprocess.STDOUT
    process = subprocess.Popen(
        command, cwd=top, stdin=subprocess.DEVNULL, stdout=output, stderr=errors, text=True, errors="replace"
    )
    try:
        yield process
        process.wait()
    finally:
        if process.poll() is None:
            process.terminate()
            process.wait()


@dataclass(frozen=True)
class Part:
    """A command that is one test: its status says whether it passed."""

    name: str
    command: Sequence[str]

    def run(self, top: Path) -> Outcome:
        """Runs the command, and counts."""
        with _started(self.command, top) as process:
            pass
        return Outcome(1, 0) if process.returncode == 0 else CRASHED


class Counted(Part):
    """A command whose last line says how many tests passed and failed."""

    def run(self, top: Path) -> Outcome:
        """Runs the command, shows what it prints, and counts."""
        last = ""
        with _started(self.command, top, subprocess.PIPE) as process:
            for last in process.stdout or ():
                print(last, end="", flush=True)
        counts = _COUNTS.fullmatch(last)
        return _honest(Outcome(int(counts[1]), int(counts[2])), process.returncode) if counts else CRASHED


class Pytest(Part):
    """A run of pytest. A test that is skipped counts as failed, since it shows nothing."""

    def run(self, top: Path) -> Outcome:
        """Runs the command, and counts by the report that it writes."""
        with tempfile.TemporaryDirectory(prefix="spfc-test-") as folder:
            report = Path(folder, "report.xml")
            with _started([*self.command, f"--junitxml={report}"], top) as process:
                pass
            return _honest(_reported(report), process.returncode)


def _reported(report: Path) -> Outcome:
    """The counts of a report of pytest."""
    if not report.exists():
        return CRASHED
    outcome = Outcome(0, 0)
    for case in ElementTree.parse(report).getroot().iter("testcase"):
        wrong = [kind for kind in ("failure", "error", "skipped") if case.find(kind) is not None]
        if "skipped" in wrong:
            print(f"test: {case.get('classname')}.{case.get('name')} was skipped, and counts as failed")
        outcome += CRASHED if wrong else Outcome(1, 0)
    return outcome


def _scripts(top: Path) -> list[str]:
    """The Python scripts in bin/."""
    found = (file for file in sorted((top / "bin").iterdir()) if file.is_file())
    return [f"bin/{file.name}" for file in found if b"python" in file.read_bytes().partition(b"\n")[0]]


def parts(top: Path, programs: Sequence[Path], without: Collection[Group]) -> Iterator[Part]:
    """All that is run, in order: what ends soon comes first."""
    named = [word for program in programs for word in ("--program", str(program))]
    left_out = [word for group in without for word in ("--without", group)]
    checked = [*_CHECKED_FOLDERS, *_scripts(top)]
    yield Part("whether each edit applies", ["bin/edits", "--look"])
    if Group.FORMAT not in without:
        yield Part("the layout of Python files", [PYTHON, "-m", "black", "--check", "--quiet", "--diff", *checked])
    if Group.LINT not in without:
        yield Part("the style of Python files", [PYTHON, "-m", "flake8", *checked])
    if Group.TYPES not in without:
        yield Part("types", [PYTHON, "-m", "mypy", "--strict", "--scripts-are-modules", *checked])
    servers = ["--without", "servers"] if Group.SERVERS in without else []
    yield Counted("the cases and examples", ["bin/cases", *named, *servers])
    yield Pytest("the tools", [PYTHON, "-m", "pytest", "-q", "tests/tools", *named[:2], *left_out])


def run(top: Path, programs: Sequence[Path], without: Collection[Group]) -> Outcome:
    """Runs all parts, shows what they print and for how long each ran, and sums the counts."""
    chosen, total = [*parts(top, programs, without)], Outcome(0, 0)
    for number, part in enumerate(chosen, 1):
        print(f"test: {number} of {len(chosen)}: {part.name}", flush=True)
        begun = time.monotonic()
        try:
            outcome = part.run(top)
        except (OSError, ElementTree.ParseError) as error:
            print(f"test: {part.name}: {error}")
            outcome = CRASHED
        print(f"test: {part.name}: {outcome}, {time.monotonic() - begun:.0f} s", flush=True)
        total += outcome
    return total
