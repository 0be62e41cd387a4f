"""Whole zones, from a transfer (RFC 5936) or from a file."""

import itertools
import logging
import time
from collections.abc import Iterable, Mapping
from dataclasses import dataclass
from pathlib import Path

import dns.exception
import dns.query
import dns.rcode
import dns.rdataclass
import dns.rdatatype
import dns.rrset
import dns.xfr
import dns.zone
from dns.name import Name
from dns.node import Node

from spfc_tools import names
from spfc_tools.exit_statuses import Ending, Status
from spfc_tools.facts import Alias, Data, Failure, Void
from spfc_tools.replies import has_alias
from spfc_tools.resolving import NO_REPLY, Resolver

_LOG = logging.getLogger(__name__)
_PORT = 53
_PATIENCE = 60
"""A transfer as a whole may take this many times the seconds of a reply."""
_MOST_RECORDS = 200_000
"""The records that a transfer may have. spfc reads at most 65,536 different ones of all zones."""
_TOO_LARGE = f"more than {_MOST_RECORDS} records"
_FINAL = ("REFUSED", "NOTAUTH", "NOTIMP", _TOO_LARGE)
"""Why a server is not asked again."""


@dataclass(frozen=True)
class Contents:
    """The names of a zone with what each is answered for A, its delegations, and the names of its DNAME records."""

    origin: Name
    answers: Mapping[Name, Alias | Data | Void]
    cuts: frozenset[Name]
    dnames: frozenset[Name]


def contents(zone: dns.zone.Zone, origin: Name) -> Contents:
    """The contents of the zone."""
    nodes = {name.canonicalize(): node for name, node in zone.nodes.items() if name.is_subdomain(origin)}
    return Contents(
        origin,
        {name: _answer(node) for name, node in nodes.items()},
        frozenset(name for name, node in nodes.items() if name != origin and _has(node, "NS")),
        frozenset(name for name, node in nodes.items() if _has(node, "DNAME")),
    )


def read_zone(word: str) -> dns.zone.Zone:
    """The zone of a zone word, whose file may lack what no zone lacks."""
    origin, _, file = word.partition("=")
    try:
        text = "$TTL 0\n" + Path(file).read_text(encoding="latin-1")
        return dns.zone.from_text(text, names.read(origin), relativize=False, check_origin=False)
    except OSError as error:
        raise Ending(Status.TOOL, f"{file}: {error.strerror}") from error
    except (ValueError, dns.exception.DNSException) as error:
        raise Ending(Status.TOOL, f"{file} is no zone of {origin}: {error}") from error


def _answer(node: Node) -> Alias | Data | Void:
    if alias := node.get_rdataset(dns.rdataclass.IN, dns.rdatatype.CNAME):
        return Alias(names.read(alias[0].to_text()))
    addresses = node.get_rdataset(dns.rdataclass.IN, dns.rdatatype.A)
    return Data(frozenset(record.to_text() for record in addresses)) if addresses else Void.NO_DATA


def _has(node: Node, kind: str) -> bool:
    return node.get_rdataset(dns.rdataclass.IN, dns.rdatatype.from_text(kind)) is not None


class _BoundedZone(dns.zone.Zone):
    """A zone that takes a bounded number of records from a transfer, so that they fit into memory."""

    def writer(self, replacement: bool = False) -> dns.zone.Transaction:
        """The transaction of a transfer, which counts the records."""
        transaction = super().writer(replacement)
        count = itertools.count(1)

        def check(*_: object) -> None:
            if next(count) > _MOST_RECORDS:
                raise _TooLargeError

        transaction.check_put_rdataset(check)
        return transaction


class _TooLargeError(Exception):
    """A zone has more records than a transfer may have."""


class NotGiven(Exception):
    """The servers of a zone do not give its contents: a person has to give its file."""

    def __init__(self, origin: Name, why: str) -> None:
        super().__init__(f"{why}; give the zone as a file: {names.printed(origin)}=FILE")


class Transfers:
    """The zones that were transferred, by the servers that a person named, or else by the name servers of each zone."""

    def __init__(self, resolver: Resolver, port: int = _PORT) -> None:
        self._resolver = resolver
        self._port = resolver.port if resolver.are_named else port
        self._zones: dict[Name, Contents | NotGiven] = {}

    def holding(self, name: Name) -> Contents:
        """The zone that holds a name."""
        return self.zone(self._origin(name))

    def zone(self, origin: Name) -> Contents:
        """The zone of this origin."""
        if origin not in self._zones:
            self._zones[origin] = self._transferred(origin)
        zone = self._zones[origin]
        if isinstance(zone, NotGiven):
            raise zone
        return zone

    def _origin(self, name: Name) -> Name:
        """The origin of the zone that holds a name, by the SOA record that a reply names.

        The reply for an alias may name that of another zone. So the name above it is asked, which is in the same zone.
        """
        for upper in names.with_ancestors(name):
            reply = self._resolver.reply(upper, "SOA")
            if isinstance(reply, Failure):
                raise NotGiven(name, f"no server says which zone it is in: {reply.why}")
            if has_alias(reply, upper):
                continue
            owners = [records.name.canonicalize() for records in (*reply.answer, *reply.authority) if _is_soa(records)]
            found = [owner for owner in owners if upper.is_subdomain(owner)]
            if not found:
                raise NotGiven(name, "no server says which zone it is in")
            return max(found, key=len)
        raise NotGiven(name, "it is in no zone")

    def _transferred(self, origin: Name) -> Contents | NotGiven:
        """Asks each server, and those anew that did not refuse."""
        if self._resolver.is_validated:
            return NotGiven(origin, f"no transfer of {names.printed(origin)}: DNSSEC does not cover a transfer")
        why = "no name server of it is known"
        servers = list(self._servers(origin))
        for _ in range(self._resolver.tries):
            for server in list(servers):
                begun = time.monotonic()
                zone = self._transfer(origin, server)
                said = f"{len(zone.answers)} names" if isinstance(zone, Contents) else zone.why
                place = f"{server} port {self._port}"
                seconds = time.monotonic() - begun
                _LOG.info("transfer of %s from %s: %s, %.3f s", names.printed(origin), place, said, seconds)
                if isinstance(zone, Contents):
                    return zone
                why = zone.why
                if why in _FINAL:
                    servers.remove(server)
        return NotGiven(origin, f"no transfer of {names.printed(origin)}: {why}")

    def _transfer(self, origin: Name, server: str) -> Contents | Failure:
        """What one server gives away, or why it does not."""
        zone = _BoundedZone(origin, relativize=False)
        seconds = self._resolver.seconds
        try:
            dns.query.inbound_xfr(server, zone, port=self._port, timeout=seconds, lifetime=seconds * _PATIENCE)
        except dns.xfr.TransferError as error:
            return Failure(dns.rcode.to_text(error.rcode))
        except _TooLargeError:
            return Failure(_TOO_LARGE)
        except (dns.exception.Timeout, OSError, EOFError):
            return Failure(NO_REPLY)
        except dns.exception.DNSException:
            return Failure("malformed reply")
        return contents(zone, origin)

    def _servers(self, origin: Name) -> Iterable[str]:
        """The addresses that are asked for the zone."""
        if self._resolver.are_named:
            return self._resolver.servers
        hosts = [names.read(host) for host in self._records(origin, "NS")]
        return dict.fromkeys(one for host in hosts for kind in ("A", "AAAA") for one in self._records(host, kind))

    def _records(self, name: Name, kind: str) -> list[str]:
        """The records of a kind, in presentation form."""
        reply = self._resolver.reply(name, kind)
        if isinstance(reply, Failure):
            return []
        wanted = dns.rdatatype.from_text(kind)
        return [record.to_text() for records in reply.answer if records.rdtype == wanted for record in records]


def _is_soa(records: dns.rrset.RRset) -> bool:
    return records.rdtype == dns.rdatatype.SOA and records.rdclass == dns.rdataclass.IN
