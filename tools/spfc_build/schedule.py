"""Which crates are proved next, and by how many jobs each. Nothing here runs a command."""

from collections.abc import Collection, Mapping
from dataclasses import dataclass
from graphlib import TopologicalSorter

from .crates import Crate

_MEMORY = 1_000_000_000
_MEMORY_OF_LINE = 300_000
_MEMORY_OF_JOB = 0.6
_USABLE_MEMORY = 0.85
"""The share of the free memory that is handed out, since some checks take more than is expected of them."""
_MOST_JOBS = 4
"""More jobs in one crate seldom help."""


@dataclass(frozen=True)
class Machine:
    """What a build may take."""

    processors: int
    memory: int
    """Bytes that were free when the build began."""


@dataclass(frozen=True)
class Check:
    """A crate at work."""

    name: str
    jobs: int
    memory: float
    """Bytes that it is expected to take at most."""


def memory_of(crate: Crate, jobs: int = 1) -> float:
    """The bytes that the check of a crate is expected to take at most."""
    return (_MEMORY + _MEMORY_OF_LINE * crate.lines) * (1 + _MEMORY_OF_JOB * (jobs - 1))


def ways_up(crates: Mapping[str, Crate]) -> dict[str, int]:
    """For each crate the lines along the longest way up from it: its own, and those of crates that wait for it.

    Raises CycleError where crates use each other in a circle.
    """
    ways = {name: 0 for name in crates}
    for name in reversed([*TopologicalSorter({name: crate.uses for name, crate in crates.items()}).static_order()]):
        ways[name] += crates[name].lines
        for use in crates[name].uses:
            ways[use] = max(ways[use], ways[name])
    return ways


def next_checks(
    crates: Mapping[str, Crate],
    ways: Mapping[str, int],
    proved: Collection[str],
    at_work: Collection[Check],
    machine: Machine,
) -> list[Check]:
    """The checks to start now: crates whose lower crates are proved, the longest way up first.

    A crate gets a share of the processors that are idle: more than one job only where fewer crates wait than processors
    are idle. The crate with the longest way up of all that are not proved gets two jobs at least where there are four
    processors, since the build takes as long as that way. A crate for which too little memory is left waits, unless
    nothing is at work.
    """
    begun = {*proved, *(check.name for check in at_work)}
    longest = sorted(way for name, way in ways.items() if name not in proved)[-2:]
    ready = [crate for crate in crates.values() if crate.name not in begun and crate.uses <= {*proved}]
    ready.sort(key=lambda crate: (-ways[crate.name], crate.name))
    idle = machine.processors - sum(check.jobs for check in at_work)
    memory = _USABLE_MEMORY * machine.memory - sum(check.memory for check in at_work)
    checks: list[Check] = []
    for position, crate in enumerate(ready):
        is_alone = not at_work and not checks
        if idle < 1 or (memory < memory_of(crate) and not is_alone):
            continue
        is_longest = longest.count(ways[crate.name]) == 1 and ways[crate.name] == longest[-1]
        least = 2 if is_longest and machine.processors >= _MOST_JOBS else 1
        jobs = max(least, min(_MOST_JOBS, idle // (len(ready) - position)))
        while jobs > 1 and memory < memory_of(crate, jobs):
            jobs -= 1
        checks.append(Check(crate.name, jobs, memory_of(crate, jobs)))
        idle -= jobs
        memory -= checks[-1].memory
    return checks
