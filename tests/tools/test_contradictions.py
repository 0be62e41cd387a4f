"""Replies that contradict themselves: they are failures with a name, and another server is asked."""

import socket
import threading
from collections.abc import Iterator
from contextlib import contextmanager

import dns.flags
import dns.message
import dns.rcode
import dns.rrset
import pytest
from servers import HOST
from spfc_tools import names
from spfc_tools.facts import Alias, Answer, Data, Failure, Kind, Question, Void
from spfc_tools.replies import read_reply
from spfc_tools.resolving import Resolver

_QUESTION = Question(names.read("a.example"), Kind.A)
_ADDRESS = "a.example. 300 IN A 192.0.2.1"
_LIE = Failure("NXDOMAIN, but with records")


def _reply(code: str, *records: str, query: dns.message.Message | None = None) -> dns.message.Message:
    """A reply with this code, and with these records in its answer section."""
    reply = dns.message.make_response(query or dns.message.make_query("a.example", "A"))
    reply.flags |= dns.flags.AA
    reply.set_rcode(dns.rcode.from_text(code))
    for record in records:
        owner, ttl, family, kind, data = record.split(" ", 4)
        reply.answer.append(dns.rrset.from_text(owner, int(ttl), family, kind, data))
    return reply


@pytest.mark.parametrize(
    ("code", "records", "answer"),
    [
        ("NOERROR", [_ADDRESS], Data(frozenset({"192.0.2.1"}))),
        ("NXDOMAIN", [], Void.NO_NAME),
        ("NXDOMAIN", [_ADDRESS], _LIE),
        ("NXDOMAIN", ["other.example. 300 IN A 192.0.2.1"], _LIE),
        ("NXDOMAIN", ["a.example. 300 IN TXT x"], _LIE),
        ("SERVFAIL", [_ADDRESS], Failure("SERVFAIL")),
        ("REFUSED", [_ADDRESS], Failure("REFUSED")),
    ],
)
def test_answer_beside_a_code(code: str, records: list[str], answer: Answer) -> None:
    """Records beside an error code are no answer."""
    assert list(read_reply(_QUESTION, _reply(code, *records))) == [(_QUESTION, answer)]


def test_alias_of_a_name_that_does_not_exist() -> None:
    """NXDOMAIN with an alias is about the name to which the alias leads (RFC 2308)."""
    reply = _reply("NXDOMAIN", "a.example. 300 IN CNAME b.example.")
    assert list(read_reply(_QUESTION, reply)) == [(_QUESTION, Alias(names.read("b.example")))]


@contextmanager
def _server(replies: list[tuple[str, ...]]) -> Iterator[int]:
    """A server that gives these replies, the last one for ever. Gives its port."""
    with socket.socket(socket.AF_INET, socket.SOCK_DGRAM) as server:
        server.bind((HOST, 0))

        def serve() -> None:
            for number in range(1_000):
                octets, peer = server.recvfrom(4096)
                if not octets:
                    return
                reply = _reply(*replies[min(number, len(replies) - 1)], query=dns.message.from_wire(octets))
                server.sendto(reply.to_wire(), peer)

        thread = threading.Thread(target=serve)
        thread.start()
        port: int = server.getsockname()[1]
        yield port
        with socket.socket(socket.AF_INET, socket.SOCK_DGRAM) as last:
            last.sendto(b"", (HOST, port))
        thread.join()


@pytest.mark.parametrize(
    ("replies", "answer"),
    [
        ([("NXDOMAIN", _ADDRESS)], _LIE),
        ([("NXDOMAIN", _ADDRESS), ("NXDOMAIN",)], Void.NO_NAME),
        ([("NXDOMAIN", _ADDRESS), ("NOERROR", _ADDRESS)], Data(frozenset({"192.0.2.1"}))),
    ],
)
def test_contradiction_is_asked_anew(replies: list[tuple[str, ...]], answer: Answer) -> None:
    """A server that contradicts itself is asked once more, as one that fails."""
    with _server(replies) as port:
        assert Resolver((HOST,), port, 2, 2.0).ask(_QUESTION) == [(_QUESTION, answer)]
