"""The plan of a publication, for a person who enters the records: the way that changes nothing."""

from __future__ import annotations

from collections.abc import Iterator

from spfc_tools import names
from spfc_tools.publish.authoritative import Zone
from spfc_tools.publish.published import Published, TextRecord


def plan(source: Published, target: Published, zone: Zone, missing: float) -> Iterator[str]:
    """The steps in order, with each record as it is to be entered."""
    domain = names.printed(target.domain)
    numbers = iter(range(1, 10))
    if target.chain:
        yield f"{next(numbers)}. Add to the zone {names.printed(zone.name)}, and leave {domain} as it is:"
        yield from map(_entered, target.chain)
        yield f"{next(numbers)}. Wait until every server has them, and then {missing:.0f} seconds:"
        yield "   a resolver may remember that they were missing."
    replaced = f"Replace the SPF record of {domain}" if source.record else f"Add the SPF record of {domain}"
    yield f"{next(numbers)}. {replaced}, in one step, and leave its other TXT records:"
    if source.record:
        yield f"   old: {_entered(source.record).strip()}"
    if target.record:
        yield f"   new: {_entered(target.record).strip()}"
    old = [name for name in source.names if name not in target.names]
    if old:
        ttl = source.record.ttl if source.record else 0
        yield f"{next(numbers)}. After {ttl} seconds take out {' '.join(map(names.printed, old))}."


def _entered(record: TextRecord) -> str:
    return f"   {record}"
