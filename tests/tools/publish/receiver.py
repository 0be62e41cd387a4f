#!/usr/bin/python3
"""receiver.py DOMAIN PORT ADDRESS..: a mail receiver that evaluates SPF for these addresses every 20 ms.

It asks a name server as a resolver does: it remembers records for their time to live, and a missing name for the last
number of the SOA record. When its standard input ends, it prints how often each address had which result, as JSON.
"""

import json
import select
import sys
import time
from collections import Counter

import dns.exception
import dns.message
import dns.query
import dns.rcode
import dns.rdatatype
import spf  # type: ignore[import]

_PAUSE = 0.02
_HOST = "127.0.0.1"
_SECONDS = 2.0
_LABELS = ("_spfa", "_spfb")
"""The labels of chains for whose first names somebody asks all the time, so that they are remembered as missing."""

Answer = list[tuple[tuple[str, str], list[bytes]]]


class Cache:
    """What a resolver remembers of TXT records."""

    def __init__(self, port: int, *, remembers: bool) -> None:
        self._port = port
        self._remembers = remembers
        self._known: dict[str, tuple[float, Answer]] = {}

    def look_up(self, name: str, kind: str, _tcp: object = True, _timeout: float = _SECONDS) -> Answer:
        """The records of a name, in the form of pyspf."""
        if kind != "TXT":
            return []
        until, answer = self._known.get(name, (0.0, []))
        if until <= time.monotonic():
            ttl, answer = self._ask(name)
            if self._remembers:
                self._known[name] = (time.monotonic() + ttl, answer)
        return answer

    def _ask(self, name: str) -> tuple[float, Answer]:
        query = dns.message.make_query(name, "TXT", use_edns=0, payload=1232)
        try:
            reply = dns.query.udp_with_fallback(query, _HOST, _SECONDS, self._port)[0]
        except (dns.exception.DNSException, OSError) as error:
            raise spf.TempError(f"DNS {error}") from error
        if reply.rcode() not in (dns.rcode.NOERROR, dns.rcode.NXDOMAIN):
            raise spf.TempError(f"DNS {reply.rcode()}")
        for rrset in reply.answer:
            if rrset.rdtype == dns.rdatatype.TXT:
                return rrset.ttl, [((name, "TXT"), list(record.strings)) for record in rrset]
        return max((rrset[0].minimum for rrset in reply.authority if rrset.rdtype == dns.rdatatype.SOA), default=0), []


def main() -> None:
    """Evaluates until standard input ends."""
    domain, port, addresses = sys.argv[1], int(sys.argv[2]), sys.argv[3:]
    caches = [Cache(port, remembers=True), Cache(port, remembers=False)]
    results: Counter[str] = Counter()
    rounds = 0
    while not select.select([sys.stdin], [], [], 0)[0]:
        begun = time.monotonic()
        spf.DNSLookup = caches[rounds % 2].look_up
        for label in _LABELS:
            caches[0].look_up(f"{label}1.{domain}", "TXT")
        for address in addresses:
            result, explanation = spf.check2(i=address, s=f"someone@{domain}", h=domain)
            results[f"{address} {result}"] += 1
            if result in ("permerror", "temperror", "none"):
                print(f"{time.time()} {address} {result} {explanation}", file=sys.stderr)
        rounds += 1
        time.sleep(max(0.0, begun + _PAUSE - time.monotonic()))
    json.dump({"rounds": rounds, "results": results}, sys.stdout)


if __name__ == "__main__":
    main()
