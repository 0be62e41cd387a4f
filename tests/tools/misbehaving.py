#!/usr/bin/python3
"""misbehaving.py PORT: a name server over UDP that does what it should not, for names below fake.test.

It answers from a table. The first label of a name may ask for a fault: `silent` no reply, `servfail`, `refused`,
`notimp`, `flaky` SERVFAIL twice and then well, `trunc` a truncated reply with no TCP behind it, `junk` a reply cut
short, `referral`. For some names it will not follow aliases.
"""

import socket
import sys
from collections import Counter
from dataclasses import dataclass

import dns.flags
import dns.message
import dns.name
import dns.rcode
import dns.rdata
import dns.rdataclass
import dns.rdatatype
import dns.rrset
from dns.rdatatype import A, AAAA, CNAME, MX, RRSIG, TXT, RdataType

_TTL = 300
_ZONE = dns.name.from_text("fake.test")
_RCODES = {"servfail": dns.rcode.SERVFAIL, "refused": dns.rcode.REFUSED, "notimp": dns.rcode.NOTIMP}
_SIGNATURE = "A 8 3 300 20361231000000 20260101000000 7 fake.test. eHh4eA=="


@dataclass(frozen=True)
class Entry:
    """A record, which is given for questions of some kinds alone where `only` names them."""

    kind: RdataType
    data: str
    only: tuple[RdataType, ...] = ()


def _chain(letter: str, count: int, end: str) -> dict[str, list[Entry]]:
    """Aliases letter0 to letterN-1, each of the next, and the last of `end`."""
    steps = [f"{letter}{number}" for number in range(count)]
    return {step: [Entry(CNAME, target)] for step, target in zip(steps, [*steps[1:], end])}


def _table() -> dict[str, list[Entry]]:
    table = {
        # an alias for A alone; another alias for each kind
        "mix": [Entry(TXT, '"v=spf1 a:lb.fake.test mx:lb.fake.test a:two.fake.test ip4:192.0.2.1 -all"')],
        "lb": [Entry(CNAME, "far", (A,)), Entry(MX, "5 h")],
        "far": [Entry(A, "192.0.2.77")],
        "two": [Entry(CNAME, "t4", (A,)), Entry(CNAME, "t6", (AAAA,))],
        "t4": [Entry(A, "192.0.2.44")],
        "t6": [Entry(AAAA, "2001:db8::66")],
        "h": [Entry(A, "192.0.2.5"), Entry(RRSIG, _SIGNATURE), Entry(AAAA, "2001:db8::5")],
        # answers at the third try
        "ok": [Entry(TXT, '"v=spf1 a:flaky.fake.test ip4:192.0.2.1 -all"')],
        "flaky": [Entry(A, "192.0.2.9"), Entry(AAAA, "2001:db8::9")],
        "long": [Entry(TXT, '"v=spf1 ip4:192.0.2.1 -all"')],
        # no address asks for the include once the exchange is known
        "early": [Entry(TXT, '"v=spf1 mx/0//0 include:servfail.fake.test -all"'), Entry(MX, "5 h")],
        # a zone where each name that does not exist answers as if it did (RFC 9824)
        "black": [Entry(TXT, f'"v=spf1 a:gone.black.fake.test {_odd_addresses()} -all"')],
        "_spf3.black": [Entry(TXT, '"old"')],
        # aliases that a resolver does not follow: a loop, a short chain
        "xloop": [Entry(TXT, '"v=spf1 ip4:192.0.2.1 include:r1.fake.test -all"')],
        "r1": [Entry(CNAME, "r2")],
        "r2": [Entry(CNAME, "r1")],
        "xstep": [Entry(TXT, '"v=spf1 ip4:192.0.2.1 include:s1.fake.test -all"')],
        "s1": [Entry(CNAME, "s2")],
        "s2": [Entry(CNAME, "s3")],
        "s3": [Entry(TXT, '"v=spf1 ip4:192.0.2.3 -all"')],
        # a chain of eight aliases, one of nine, and one whose end does not answer
        "eight": [Entry(TXT, '"v=spf1 include:hand1.fake.test -all"')],
        "nine": [Entry(TXT, '"v=spf1 include:hand0.fake.test -all"')],
        "hand9": [Entry(TXT, '"v=spf1 ip4:192.0.2.3 -all"')],
        "dead": [Entry(TXT, '"v=spf1 include:d1.fake.test -all"')],
        "deadnine": [Entry(TXT, '"v=spf1 include:d0.fake.test -all"')],
        # a name that says that it does not exist, though there are names below it
        "nxe": [Entry(TXT, '"v=spf1 a:a.nxe.fake.test include:b.nxe.fake.test -all"')],
        "a.nxe": [Entry(A, "192.0.2.30")],
        "b.nxe": [Entry(TXT, '"v=spf1 a:bb.b.nxe.fake.test ?all"')],
        **_chain("hand", 9, "hand9"),
        **_chain("d", 9, "servfail"),
    }
    for fault in ("silent", "servfail", "refused", "notimp", "trunc", "junk", "referral"):
        table[f"x{fault}"] = [Entry(TXT, f'"v=spf1 ip4:192.0.2.1 include:{fault}.fake.test -all"')]
        table[fault] = [Entry(TXT, '"v=spf1 ip4:192.0.2.2 -all"')]
    return table


def _odd_addresses() -> str:
    return " ".join(f"ip4:192.0.2.{number}" for number in range(1, 20, 2))


class Misbehaving:
    """The server, with what it was asked so far."""

    def __init__(self, server: socket.socket) -> None:
        self._server = server
        self._table = {dns.name.from_text(name, _ZONE): entries for name, entries in _table().items()}
        self._asked: Counter[tuple[dns.name.Name, RdataType]] = Counter()

    def serve(self) -> None:
        """Answers for ever."""
        while True:
            octets, peer = self._server.recvfrom(4096)
            reply = self._reply(dns.message.from_wire(octets))
            if reply is not None:
                self._server.sendto(reply, peer)

    def _reply(self, query: dns.message.Message) -> bytes | None:
        question = query.question[0]
        name = question.name.canonicalize()
        fault = name.labels[0].decode("latin-1")
        self._asked[name, question.rdtype] += 1
        count = self._asked[name, question.rdtype]
        reply = dns.message.make_response(query)
        reply.use_edns(-1)
        if fault == "silent":
            return None
        if fault == "referral":
            return reply.to_wire()
        reply.flags |= dns.flags.AA
        if fault in _RCODES:
            reply.set_rcode(_RCODES[fault])
        elif fault == "flaky" and count <= 2 or self._follows_not(fault) and question.rdtype != CNAME:
            reply.set_rcode(dns.rcode.SERVFAIL)
        else:
            self._answer(reply, name, question.rdtype, is_turned=count % 2 == 0)
        if fault == "trunc":
            reply.flags |= dns.flags.TC
        return reply.to_wire()[: -5 if fault == "junk" else None]

    def _answer(self, reply: dns.message.Message, name: dns.name.Name, kind: RdataType, *, is_turned: bool) -> None:
        """Answers from the table, with the records in another order each second time."""
        entries = [
            entry
            for entry in self._table.get(name, ())
            if (not entry.only or kind in entry.only) and entry.kind in (kind, CNAME, RRSIG)
        ]
        for entry in reversed(entries) if is_turned else entries:
            record = dns.rdata.from_text(dns.rdataclass.IN, entry.kind, entry.data, _ZONE, relativize=False)
            reply.answer.append(dns.rrset.from_rdata(name, _TTL, record))
        is_compact = name.is_subdomain(dns.name.from_text("black", _ZONE))
        if name not in self._table and not is_compact:
            reply.set_rcode(dns.rcode.NXDOMAIN)

    @staticmethod
    def _follows_not(label: str) -> bool:
        return label in ("r1", "r2", "s1", "s2") or label.startswith("hand") and label != "hand9"


def main() -> None:
    with socket.socket(socket.AF_INET, socket.SOCK_DGRAM) as server:
        server.bind(("127.0.0.1", int(sys.argv[1])))
        Misbehaving(server).serve()


if __name__ == "__main__":
    main()
