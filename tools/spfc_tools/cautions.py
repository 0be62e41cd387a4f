"""What a policy may lack though spfc refuses nothing of it: addresses of a name, a record, any address that passes.

Such a policy says what its author did not mean, and mail is lost once it is published.
"""

import tempfile
from collections.abc import Callable, Iterator, Mapping, Sequence
from pathlib import Path

Runner = Callable[[Sequence[str]], tuple[int, str]]
"""Runs spfc with these words: its status, and what it wrote to standard output."""
_ADDRESS = "192.0.2.1"
_FOUND = "found"


def cautions(run: Runner, domain: str, reading: Sequence[str], zones: Sequence[str]) -> Iterator[str]:
    """A line for each thing to look at in the policy of a domain over zones."""
    _, outcome = run(["check", domain, _ADDRESS, *reading, *zones])
    if outcome.startswith("none norecord "):
        yield f"{domain} has no SPF record"
        return
    status, kept = run(["keep", domain, *reading, *zones])
    if status == 0:
        yield from _unanswered(_answers(kept))
    if _passes_nobody(run, domain, reading, zones):
        yield f"the policy of {domain} passes no address"


def _answers(kept: str) -> Mapping[tuple[str, str], str]:
    """The first word of the answer to each question of a kept list, by its name and its kind."""
    lines = (line.split(" ") for line in kept.splitlines()[1:])
    return {(line[0], line[1]): line[2] for line in lines}


def _unanswered(answers: Mapping[tuple[str, str], str]) -> Iterator[str]:
    """The names of `mx` terms without exchanges, and those of `a` terms and exchanges without any address.

    A term `exists` asks for A alone. So a name of which AAAA is asked too is that of a term `a` or of an exchange.
    """
    for (name, kind), answer in answers.items():
        if kind == "MX" and answer != _FOUND:
            yield f"{name} has no mail exchanger, and a term mx asks for its exchangers"
        elif kind == "AAAA" and answer != _FOUND and answers.get((name, "A"), _FOUND) != _FOUND:
            yield f"{name} has no address, and a term a or mx asks for its addresses"


def _passes_nobody(run: Runner, domain: str, reading: Sequence[str], zones: Sequence[str]) -> bool:
    """Whether the policy differs from one that fails every address for no address that passes."""
    with tempfile.TemporaryDirectory(prefix="spfc-") as folder:
        zone = Path(folder) / "zone"
        zone.write_text('@ IN TXT "v=spf1 -all"\n')
        status, differences = run(["compare", domain, domain, *reading, *zones, "with", f"{domain}={zone}"])
    return status == 0 and not any(line.startswith("differ pass ") for line in differences.splitlines())
