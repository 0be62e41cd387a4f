"""Builds the program where it is missing or older than a source."""

import os
import shutil
import signal
import subprocess
import sys
import tempfile
import time
from collections.abc import Iterator, Mapping
from contextlib import contextmanager
from dataclasses import dataclass
from graphlib import CycleError
from pathlib import Path
from typing import IO, NoReturn

from . import crates as crates_of
from .crates import Crate
from .progress import Progress
from .rooms import Room, alone, leave_all
from .schedule import Check, Machine, next_checks, ways_up

_PAUSE = 0.05
_LAST_LINES = 20
"""Lines of a failed check that are shown."""
_PATIENCE = 5
"""Seconds that a check has to end when it is told to."""
_ENDING = (signal.SIGTERM, signal.SIGHUP)


class BuildFailed(Exception):
    """Why there is no program."""


@dataclass(frozen=True)
class Running:
    """A check, with the copy of the tree that it works in, its process, and what that has written."""

    check: Check
    room: Room
    process: subprocess.Popen[bytes]
    log: IO[bytes]


def say(text: str) -> None:
    """Writes a line to standard error."""
    print(f"spfc: {text}", file=sys.stderr, flush=True)


def program_of(top: Path) -> Path:
    """Where the built program is."""
    return top / "crates" / crates_of.PROGRAM / "out" / crates_of.PROGRAM


def second_program_of(top: Path) -> Path:
    """Where `rt ci` leaves the program as Rattle's own compiler made it."""
    program = program_of(top)
    return program.with_name(f"{program.name}.by-rattle")


def programs(top: Path) -> list[Path]:
    """The built program and, where `rt ci` made it since the last build, that of the second compiler."""
    second = second_program_of(top)
    return [program_of(top), *([second] if os.access(second, os.X_OK) else [])]


def is_stale(top: Path, crates: Mapping[str, Crate]) -> bool:
    """Whether the program is missing, or older than a source."""
    program = program_of(top)
    if not os.access(program, os.X_OK):
        return True
    built = program.stat().st_mtime
    sources = [top / "crates.txt", *(file for name in crates for file in crates_of.files(top / "crates" / name))]
    return any(file.stat().st_mtime > built for file in sources)


def machine() -> Machine:
    """The processors that this process may use, and the memory that is free."""
    sizes = dict(line.split(":", 1) for line in Path("/proc/meminfo").read_text().splitlines())
    return Machine(len(os.sched_getaffinity(0)), 1024 * int(sizes["MemAvailable"].split()[0]))


def _command(check: Check) -> list[str]:
    """The command that proves a crate. It is told to end when this process is gone, however that ended."""
    # What is built is run once with no words, by which the program writes nothing to its output.
    verb = "run" if check.name == crates_of.PROGRAM else "lib"
    guard = ["setpriv", "--pdeathsig", "TERM"] if shutil.which("setpriv") else []
    return [*guard, "rt", verb, "--jobs", str(check.jobs)]


def _start(top: Path, crates: Mapping[str, Crate], check: Check) -> Running:
    room = Room(top, check.name)
    room.make(crates)
    log = tempfile.TemporaryFile()
    process = subprocess.Popen(_command(check), cwd=room.crate, stdin=subprocess.DEVNULL, stdout=log, stderr=log)
    return Running(check, room, process, log)


def _is_proved(top: Path, running: Running) -> bool:
    """Whether a check that has ended proved its crate. That of the program has the program's own status."""
    running.room.leave()
    if running.check.name == crates_of.PROGRAM:
        return os.access(program_of(top), os.X_OK)
    return running.process.returncode == 0


def _end(at_work: list[Running]) -> None:
    """Ends the checks that are at work. `rt` ends what it started itself."""
    for running in at_work:
        running.process.terminate()
    until = time.monotonic() + _PATIENCE
    for running in at_work:
        try:
            running.process.wait(max(0, until - time.monotonic()))
        except subprocess.TimeoutExpired:
            running.process.kill()
            running.process.wait()
        running.room.leave()


def _failed(running: Running, proved: int, whole: int, seconds: float) -> NoReturn:
    """Shows the last lines of a check that failed."""
    running.log.seek(0)
    lines = running.log.read().decode(errors="replace").splitlines()
    for line in lines[-_LAST_LINES:]:
        print(line, file=sys.stderr)
    place = f"{running.check.name}, with {proved} of {whole} proved"
    raise BuildFailed(f"the build failed at {place}, after {seconds:.0f} seconds")


def _prove(top: Path, crates: Mapping[str, Crate]) -> None:
    """Proves the crates, each after those below it, and builds the program."""
    try:
        ways = ways_up(crates)
    except CycleError as circle:
        raise BuildFailed(f"crates use each other in a circle: {' '.join(circle.args[1])}") from circle
    limits, proved = machine(), set[str]()
    at_work: list[Running] = []
    progress = Progress(len(crates))
    try:
        while len(proved) < len(crates):
            for check in next_checks(crates, ways, proved, [running.check for running in at_work], limits):
                at_work.append(_start(top, crates, check))
            progress.show(len(proved), [running.check.name for running in at_work])
            time.sleep(_PAUSE)
            for running in [it for it in at_work if it.process.poll() is not None]:
                if not _is_proved(top, running):
                    progress.end()
                    _failed(running, len(proved), len(crates), progress.seconds)
                at_work.remove(running)
                proved.add(running.check.name)
    finally:
        progress.end()
        _end(at_work)


def _stop(number: int, _: object) -> NoReturn:
    sys.exit(128 + number)


@contextmanager
def _ending() -> Iterator[None]:
    """Lets a signal that ends this process end its checks first."""
    before = {number: signal.signal(number, _stop) for number in _ENDING}
    try:
        yield
    finally:
        for number, handler in before.items():
            signal.signal(number, handler)


def _build(top: Path, crates: Mapping[str, Crate]) -> None:
    """Builds the program. It gets the time at which the build began, so that a later change of a source is seen."""
    begun = time.time()
    say("building the program: each crate is proved, which takes long the first time")
    program = program_of(top)
    leave_all(top)
    for made in (program, second_program_of(top)):
        made.unlink(missing_ok=True)
    _prove(top, crates)
    os.utime(program, (begun, begun))
    say(f"built in {time.time() - begun:.0f} seconds")


def ready(top: Path) -> Path:
    """The program, built where it is missing or older than a source. Raises BuildFailed where there is none."""
    if not is_stale(top, crates_of.read(top)):
        return program_of(top)
    if shutil.which("rt") is None:
        raise BuildFailed(
            "rt is not here, the command of the Rattle kit that proves and builds the program: see README"
        )
    with _ending(), alone(top, crates_of.read(top), lambda at: say(f"waiting for another command that works in {at}")):
        crates = crates_of.read(top)
        if is_stale(top, crates):
            _build(top, crates)
    return program_of(top)
