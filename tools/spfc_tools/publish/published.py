"""What a domain publishes: its SPF record, and the chain of records to which that leads."""

from __future__ import annotations

from collections.abc import Iterable
from dataclasses import dataclass, field
from pathlib import Path

import dns.exception
import dns.rdata
import dns.rdataclass
import dns.rdatatype
import dns.zone
from dns.name import Name
from dns.rdata import Rdata
from dns.rdtypes.ANY.TXT import TXT

from spfc_tools import names
from spfc_tools.publish.endings import refused

_MOST_OCTETS = 255
"""Of one string of a TXT record (RFC 1035, section 3.3.14)."""


@dataclass(frozen=True)
class Text:
    """The text of a TXT record. Two texts are equal where their octets are, however they are cut into strings."""

    octets: bytes
    strings: tuple[bytes, ...] = field(compare=False)

    @staticmethod
    def of(record: Rdata) -> Text:
        """The text of a TXT record."""
        assert isinstance(record, TXT)
        return Text(b"".join(record.strings), record.strings)

    @staticmethod
    def read(presented: str) -> Text:
        """The text of a record in presentation form."""
        return Text.of(dns.rdata.from_text(dns.rdataclass.IN, dns.rdatatype.TXT, presented))

    @staticmethod
    def cut(octets: bytes) -> Text:
        """The text in strings of 255 octets."""
        starts = range(0, len(octets), _MOST_OCTETS)
        return Text(octets, tuple(octets[start : start + _MOST_OCTETS] for start in starts) or (b"",))

    @property
    def rdata(self) -> TXT:
        """The record."""
        return TXT(dns.rdataclass.IN, dns.rdatatype.TXT, self.strings)

    def __str__(self) -> str:
        return self.rdata.to_text()


@dataclass(frozen=True)
class TextRecord:
    """A TXT record with its owner and its time to live in seconds."""

    name: Name
    text: Text
    ttl: int

    def __str__(self) -> str:
        return f"{names.absolute(self.name)} {self.ttl} IN TXT {self.text}"


@dataclass(frozen=True)
class Published:
    """The SPF record of a domain, if it has one, and the records of the chain after it."""

    domain: Name
    record: TextRecord | None
    chain: tuple[TextRecord, ...] = ()

    @property
    def names(self) -> list[Name]:
        """The names of the chain, without the domain."""
        return [record.name for record in self.chain]

    @property
    def text(self) -> Text | None:
        """The text of the SPF record."""
        return self.record.text if self.record else None

    @property
    def zone(self) -> str:
        """The records as a master file."""
        return master_file([*([self.record] if self.record else []), *self.chain])

    def is_same(self, other: Published) -> bool:
        """Whether both have the same texts at the same names, whatever their times to live."""
        return self.text == other.text and {(one.name, one.text) for one in self.chain} == {
            (one.name, one.text) for one in other.chain
        }


def master_file(records: Iterable[TextRecord]) -> str:
    """The records, a line each."""
    return "".join(f"{record}\n" for record in records)


def read_fragment(path: Path, domain: Name) -> Published:
    """The records of a fragment: TXT records at the domain and at names below it, one at each."""
    try:
        text = path.read_text(encoding="latin-1")
        zone = dns.zone.from_text(text, domain, relativize=False, check_origin=False)
    except OSError as error:
        raise refused(f"{path}: {error.strerror}") from error
    except (dns.exception.DNSException, ValueError) as error:
        raise refused(f"{path} is not a master file of {names.printed(domain)}: {error}") from error
    records = []
    for name, rdataset in zone.iterate_rdatasets():
        if rdataset.rdtype != dns.rdatatype.TXT or len(rdataset) != 1:
            raise refused(f"{path} has other records at {names.printed(name)} than one TXT record")
        records.append(TextRecord(name.canonicalize(), Text.of(rdataset[0]), rdataset.ttl))
    at_domain = [record for record in records if record.name == domain]
    if not at_domain:
        raise refused(f"{path} has no TXT record at {names.printed(domain)}")
    return Published(domain, at_domain[0], tuple(record for record in records if record.name != domain))
