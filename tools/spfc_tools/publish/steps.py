"""The steps of a publication, as data: what every server may show before each, and what it must show after it."""

from __future__ import annotations

import enum
from collections.abc import Iterable, Mapping
from dataclasses import dataclass, replace

from dns.name import Name

from spfc_tools import names
from spfc_tools.program import Program
from spfc_tools.publish.authoritative import Authority, Reading, Server, TextSet
from spfc_tools.publish.published import Published, Text
from spfc_tools.publish.state import Move, Step


class Side(enum.Enum):
    """One of the two SPF records that a domain has during a publication."""

    SOURCE = "the record before"
    TARGET = "the record of the fragment"


@dataclass(frozen=True)
class Expected:
    """What every server shows."""

    at_domain: frozenset[Side]
    """The SPF records that the domain may have."""
    has_target: bool
    """Whether each record of the target's chain has to be there. Else it may be missing."""
    has_source: bool
    """The same for the chain of the source."""


_OLD, _EITHER, _NEW = frozenset({Side.SOURCE}), frozenset(Side), frozenset({Side.TARGET})
BEFORE: Mapping[Step, Expected] = {
    Step.ADD: Expected(_OLD, has_target=False, has_source=True),
    Step.WAIT: Expected(_OLD, has_target=False, has_source=True),
    Step.REPLACE: Expected(_EITHER, has_target=True, has_source=True),
    Step.COMPARE: Expected(_EITHER, has_target=True, has_source=True),
}
"""What a step may find. A call that was killed may have done the step already."""
AFTER: Mapping[Step, Expected] = {
    Step.ADD: Expected(_OLD, has_target=True, has_source=True),
    Step.WAIT: Expected(_OLD, has_target=True, has_source=True),
    Step.REPLACE: Expected(_NEW, has_target=True, has_source=True),
    Step.COMPARE: Expected(_NEW, has_target=True, has_source=True),
}
"""What every server has when a step is done."""


def of_undo(expected: Expected) -> Expected:
    """The same for an undo, which begins in the middle: at either record, and with a chain that may lack records."""
    at_domain = _EITHER if expected.at_domain == _OLD else expected.at_domain
    return replace(expected, at_domain=at_domain, has_source=False)


@dataclass(frozen=True)
class Sight:
    """What one server shows of a domain: its SPF records, its other TXT records, and the TXT records of its chains."""

    server: Server
    policies: frozenset[Text]
    others: frozenset[Text]
    ttl: int
    sets: Mapping[Name, TextSet]

    def at(self, name: Name) -> frozenset[Text]:
        """The texts that a name has by itself."""
        found = self.sets[name]
        return frozenset() if found.is_of_wildcard else found.texts


class Observer:
    """Looks at all servers of a zone, and has spfc say which texts are SPF records."""

    def __init__(self, authority: Authority, domain: Name, program: Program) -> None:
        self._authority = authority
        self._domain = domain
        self._program = program
        self._policies: dict[Text, bool] = {}

    def look(self, wanted: Iterable[Name]) -> list[Sight]:
        """What each server shows at the domain and at these names."""
        return [self._sight(reading) for reading in self._authority.read(self._domain, [self._domain, *wanted])]

    def _sight(self, reading: Reading) -> Sight:
        found = reading.sets[self._domain]
        policies = frozenset(filter(self._is_policy, found.texts))
        return Sight(reading.server, policies, found.texts - policies, found.ttl, reading.sets)

    def _is_policy(self, text: Text) -> bool:
        if text not in self._policies:
            self._policies[text] = self._program.is_policy(str(text))
        return self._policies[text]


def shown(texts: Iterable[Text]) -> str:
    """Texts for a person."""
    return ", ".join(sorted(map(str, texts))) or "no record"


def difference(sight: Sight, move: Move, expected: Expected) -> str | None:
    """The first thing that a server shows otherwise than expected, in words."""
    sides = {Side.SOURCE: move.source, Side.TARGET: move.target}
    allowed = [_texts(sides[side]) for side in Side if side in expected.at_domain]
    domain = move.target.domain
    if sight.policies not in allowed:
        wanted = " or ".join(map(shown, allowed))
        return f"{sight.server} has at {names.printed(domain)} {shown(sight.policies)}; expected {wanted}"
    chains = ((move.source, expected.has_source), (move.target, expected.has_target))
    for published, is_needed in chains:
        for record in published.chain:
            found = sight.at(record.name)
            if record.text not in found and (is_needed or found):
                return f"{sight.server} has at {names.printed(record.name)} {shown(found)}; expected {record.text}"
    return None


def is_missing(sight: Sight, published: Published) -> bool:
    """Whether the server lacks a record of the chain, and has no other TXT record in its place."""
    return any(not sight.at(record.name) for record in published.chain)


def _texts(published: Published) -> frozenset[Text]:
    return frozenset() if published.text is None else frozenset({published.text})
