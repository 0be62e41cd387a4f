"""What each way into the DNS offers: three changes, each done as a whole or not at all."""

from __future__ import annotations

from dataclasses import dataclass
from typing import Protocol

from dns.name import Name

from spfc_tools.publish.published import Text, TextRecord


class WayRefused(Exception):
    """The way says no, and has changed nothing."""


class WayOvertaken(Exception):
    """The records are not those that the change was made for; nothing was changed."""


class WayUnsure(Exception):
    """There was no clear answer: the change may have been made or not."""


@dataclass(frozen=True)
class Replacement:
    """The change of the SPF record of a domain, where there was one, is one, or both."""

    domain: Name
    old: Text | None
    new: Text | None
    others: frozenset[Text]
    """The other TXT records there, which stay."""
    ttl: int
    """Of the new record, in seconds."""

    @property
    def back(self) -> Replacement:
        """The change that undoes this one."""
        return Replacement(self.domain, self.new, self.old, self.others, self.ttl)


class Way(Protocol):
    """A way into the DNS. Each change ends with WayRefused, WayOvertaken or WayUnsure where it is not done."""

    def add(self, record: TextRecord) -> None:
        """Adds a record at a name that has no TXT record."""

    def replace(self, change: Replacement) -> None:
        """Replaces the old SPF record by the new one in one step, if the old one is there."""

    def remove(self, record: TextRecord) -> None:
        """Takes one record away, and leaves the rest at its name."""
