"""The authoritative servers of a zone, each of which is read."""

from __future__ import annotations

import ipaddress
import logging
import socket
import time
from collections.abc import Callable, Iterable, Iterator, Mapping, Sequence
from concurrent.futures import ThreadPoolExecutor
from dataclasses import dataclass, field
from typing import TypeVar

import dns.exception
import dns.flags
import dns.message
import dns.query
import dns.rcode
import dns.rdatatype
from dns.name import Name
from dns.rdata import Rdata
from dns.rdatatype import RdataType
from dns.rdtypes.ANY.NS import NS
from dns.rdtypes.ANY.SOA import SOA

from spfc_tools import names
from spfc_tools.facts import Failure
from spfc_tools.publish.endings import no_answer, refused
from spfc_tools.publish.published import Text
from spfc_tools.resolving import Resolver

_LOG = logging.getLogger(__name__)
_PAYLOAD = 1232
"""Octets of a reply over UDP; a longer one comes over TCP."""
_PAUSE = 0.5
"""Seconds between two tries of one question."""
_ANSWERED = (dns.rcode.NOERROR, dns.rcode.NXDOMAIN)
_MOST_SERVERS = 64
PORT = 53

_Found = TypeVar("_Found")


@dataclass(frozen=True)
class Server:
    """A name server: the name by which a person knows it, its address and port."""

    name: str
    address: str
    port: int = PORT

    def __str__(self) -> str:
        place = self.address if self.port == PORT else f"{self.address}#{self.port}"
        return place if self.name == self.address else f"{self.name} ({place})"


@dataclass(frozen=True)
class TextSet:
    """The TXT records that a server has at a name, and their time to live in seconds."""

    texts: frozenset[Text] = frozenset()
    ttl: int = 0
    is_of_wildcard: bool = False
    """Whether the server made them from a wildcard (RFC 4592), so that the name itself has none."""


@dataclass(frozen=True)
class Reading:
    """What one server has at some names."""

    server: Server
    sets: Mapping[Name, TextSet]


@dataclass(frozen=True)
class Zone:
    """A zone: its name, the primary server of its SOA record, and for how many seconds a missing name is remembered."""

    name: Name
    primary: Name
    negative: int


@dataclass(frozen=True)
class Authority:
    """The servers of a zone. Each is asked directly, so that nothing remembered comes between."""

    servers: tuple[Server, ...]
    tries: int = 3
    seconds: float = 5.0
    _zones: dict[Name, Zone] = field(default_factory=dict, compare=False)

    def zone(self, domain: Name) -> Zone:
        """The zone that the domain is in."""
        if domain not in self._zones:
            zones = self._of_each(lambda server: self._zone(server, domain))
            if len({zone.name for zone in zones}) > 1:
                raise refused(f"the servers of {names.printed(domain)} disagree in which zone it is")
            self._zones[domain] = max(zones, key=lambda zone: zone.negative)
        return self._zones[domain]

    def read(self, domain: Name, wanted: Iterable[Name]) -> list[Reading]:
        """What each server has at these names of the zone of the domain."""
        zone = self.zone(domain).name
        asked = list(dict.fromkeys(wanted))
        return self._of_each(lambda server: Reading(server, dict(self._sets(server, zone, asked))))

    def _of_each(self, ask: Callable[[Server], _Found]) -> list[_Found]:
        with ThreadPoolExecutor(len(self.servers)) as pool:
            return list(pool.map(ask, self.servers))

    def _sets(self, server: Server, zone: Name, asked: Sequence[Name]) -> Iterator[tuple[Name, TextSet]]:
        wildcards: dict[Name, TextSet] = {}
        for name in asked:
            found = self._texts(server, name)
            parent = name.parent()
            if found.texts and parent.is_subdomain(zone):
                wildcard = names.child(names.WILDCARD, parent)
                if wildcard is not None and wildcard not in wildcards:
                    wildcards[wildcard] = self._texts(server, wildcard)
                if wildcard is not None and wildcards[wildcard].texts == found.texts:
                    found = TextSet(found.texts, found.ttl, is_of_wildcard=True)
            yield name, found

    def _texts(self, server: Server, name: Name) -> TextSet:
        reply = self._ask(server, name, dns.rdatatype.TXT)
        texts = TextSet()
        for rrset in reply.answer:
            if rrset.rdtype in (dns.rdatatype.CNAME, dns.rdatatype.DNAME):
                raise refused(f"{names.printed(name)} is an alias at {server}")
            if rrset.rdtype == dns.rdatatype.TXT and rrset.name.canonicalize() == name:
                texts = TextSet(frozenset(map(Text.of, rrset)), rrset.ttl)
        return texts

    def _zone(self, server: Server, domain: Name) -> Zone:
        reply = self._ask(server, domain, dns.rdatatype.SOA)
        for rrset in [*reply.answer, *reply.authority]:
            if rrset.rdtype == dns.rdatatype.SOA and domain.is_subdomain(rrset.name):
                record = rrset[0]
                assert isinstance(record, SOA)
                return Zone(rrset.name.canonicalize(), record.mname, record.minimum)
        raise no_answer(f"no answer {names.printed(domain)} SOA: {server} has no SOA record for it")

    def _ask(self, server: Server, name: Name, kind: RdataType) -> dns.message.Message:
        """The authoritative answer of a server, asked anew where it fails."""
        why = "no reply"
        for attempt in range(self.tries):
            if attempt:
                time.sleep(_PAUSE)
            query = dns.message.make_query(name, kind, use_edns=0, payload=_PAYLOAD, flags=0)
            try:
                reply = dns.query.udp_with_fallback(
                    query, server.address, self.seconds, server.port, ignore_unexpected=True
                )[0]
            except (dns.exception.Timeout, OSError, EOFError):
                why = "no reply"
                continue
            except dns.exception.DNSException:
                why = "malformed reply"
                continue
            rcode = reply.rcode()
            _LOG.debug("%s was asked for %s %s: %s", server, names.printed(name), kind.name, dns.rcode.to_text(rcode))
            if rcode in _ANSWERED and reply.flags & dns.flags.AA and not reply.flags & dns.flags.TC:
                return reply
            why = dns.rcode.to_text(rcode) if rcode not in _ANSWERED else "it is not authoritative"
        raise no_answer(f"no answer {names.printed(name)} {kind.name}: {server}: {why}")


def find_servers(domain: Name, resolver: Resolver, port: int) -> tuple[Server, ...]:
    """The servers that the NS records of the domain's zone name, each with each of its addresses."""
    zone = _zone_name(domain, resolver)
    servers = [
        Server(names.printed(host), address, port)
        for host in sorted(_hosts(zone, resolver))
        for address in _addresses(host, resolver)
    ]
    reached = tuple(server for server in servers if _has_route(server))
    if not reached:
        raise no_answer(f"no name server of {names.printed(zone)} has an address that this machine can reach")
    if len(reached) > _MOST_SERVERS:
        raise refused(f"{names.printed(zone)} has more than {_MOST_SERVERS} servers: name some by --servers")
    return reached


def servers_of_host(host: Name, resolver: Resolver, port: int) -> tuple[Server, ...]:
    """A name server, at each of its addresses."""
    servers = tuple(Server(names.printed(host), address, port) for address in _addresses(host, resolver))
    if not servers:
        raise no_answer(f"there is no address of the name server {names.printed(host)}: name one by --primary")
    return servers


def servers_of_words(words: Iterable[str], port: int) -> tuple[Server, ...]:
    """The servers of words such as 192.0.2.53, ns1.example.com or 192.0.2.53#5353."""
    found = []
    for word in words:
        host, sign, given = word.partition("#")
        if sign and not (given.isascii() and given.isdigit() and 0 < int(given) < 65536):
            raise ValueError(f"expected ADDRESS or ADDRESS#PORT, got {word}")
        try:
            places = socket.getaddrinfo(host, None, type=socket.SOCK_DGRAM)
        except (OSError, UnicodeError) as error:
            raise no_answer(f"there is no address of the name server {host}") from error
        found += [Server(host, str(place[4][0]), int(given) if sign else port) for place in places]
    return tuple(dict.fromkeys(found))


def _zone_name(domain: Name, resolver: Resolver) -> Name:
    reply = _reply(resolver, domain, "SOA")
    for rrset in [*reply.answer, *reply.authority]:
        if rrset.rdtype == dns.rdatatype.SOA and domain.is_subdomain(rrset.name):
            return rrset.name.canonicalize()
    raise no_answer(f"no answer {names.printed(domain)} SOA: no zone is named")


def _hosts(zone: Name, resolver: Resolver) -> set[Name]:
    records = _records(_reply(resolver, zone, "NS"), dns.rdatatype.NS)
    return {record.target.canonicalize() for record in records if isinstance(record, NS)}


def _addresses(host: Name, resolver: Resolver) -> list[str]:
    kinds = {"A": dns.rdatatype.A, "AAAA": dns.rdatatype.AAAA}
    return sorted(
        record.to_text() for kind, number in kinds.items() for record in _records(_reply(resolver, host, kind), number)
    )


def _records(reply: dns.message.Message, kind: RdataType) -> Iterator[Rdata]:
    for rrset in reply.answer:
        if rrset.rdtype == kind:
            yield from rrset


def _reply(resolver: Resolver, name: Name, kind: str) -> dns.message.Message:
    reply = resolver.reply(name, kind)
    if isinstance(reply, Failure):
        raise no_answer(f"no answer {names.printed(name)} {kind}: {reply.why}")
    return reply


def _has_route(server: Server) -> bool:
    """Whether this machine has a way to the address at all, as none to IPv6 where it has IPv4 alone."""
    family = socket.AF_INET6 if ipaddress.ip_address(server.address).version == 6 else socket.AF_INET
    try:
        with socket.socket(family, socket.SOCK_DGRAM) as probe:
            probe.connect((server.address, server.port))
    except OSError:
        return False
    return True
