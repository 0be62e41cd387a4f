"""Replies that nobody should believe, and what spfc-gather does not take from a server."""

import socket
import threading
from collections.abc import Callable, Iterator
from contextlib import contextmanager

import dns.flags
import dns.message
import dns.rrset
import pytest
from servers import HOST, Server
from spfc_tools import names, transfers
from spfc_tools.facts import Data, Failure, Kind, Question
from spfc_tools.resolving import NOT_VALIDATED, Resolver
from spfc_tools.transfers import NotGiven, Transfers
from workplace import Workplace

_QUESTION = Question(names.read("a.test"), Kind.A)
_TRUTH, _LIE = "192.0.2.1", "192.0.2.66"
Answerer = Callable[[socket.socket, dns.message.Message, tuple[str, int]], None]


@contextmanager
def _serving(answer: Answerer) -> Iterator[int]:
    """A server that answers each query by a function: its port."""
    with socket.socket(socket.AF_INET, socket.SOCK_DGRAM) as server:
        server.bind((HOST, 0))

        def serve() -> None:
            while octets := server.recvfrom(4096):
                if not octets[0]:
                    return
                answer(server, dns.message.from_wire(octets[0]), octets[1])

        port: int = server.getsockname()[1]
        thread = threading.Thread(target=serve)
        thread.start()
        try:
            yield port
        finally:
            with socket.socket(socket.AF_INET, socket.SOCK_DGRAM) as stopper:
                stopper.sendto(b"", (HOST, port))
            thread.join()


def _reply(query: dns.message.Message, address: str, flags: int = 0) -> dns.message.Message:
    reply = dns.message.make_response(query)
    reply.flags |= dns.flags.AA | flags
    reply.answer.append(dns.rrset.from_text("a.test.", 300, "IN", "A", address))
    return reply


def _asked(answer: Answerer, *, is_validated: bool = False) -> object:
    """What is learned of the question from this server."""
    with _serving(answer) as port:
        resolver = Resolver((HOST,), port, tries=1, seconds=1, is_validated=is_validated)
        [(question, found)] = resolver.ask(_QUESTION)
    assert question == _QUESTION
    return found


def _tell_the_truth(server: socket.socket, query: dns.message.Message, peer: tuple[str, int]) -> None:
    server.sendto(_reply(query, _TRUTH).to_wire(), peer)


def test_truth() -> None:
    """The server itself, so that the other tests show something."""
    assert _asked(_tell_the_truth) == Data(frozenset({_TRUTH}))


def test_reply_from_another_port() -> None:
    """A datagram from elsewhere is passed over, even with the right id; the answer of the server counts."""

    def answer(server: socket.socket, query: dns.message.Message, peer: tuple[str, int]) -> None:
        with socket.socket(socket.AF_INET, socket.SOCK_DGRAM) as other:
            other.bind((HOST, 0))
            other.sendto(_reply(query, _LIE).to_wire(), peer)
        _tell_the_truth(server, query, peer)

    assert _asked(answer) == Data(frozenset({_TRUTH}))


def test_reply_with_another_id() -> None:
    """A reply with a guessed id is none."""

    def answer(server: socket.socket, query: dns.message.Message, peer: tuple[str, int]) -> None:
        reply = _reply(query, _LIE)
        reply.id = query.id ^ 1
        server.sendto(reply.to_wire(), peer)

    assert isinstance(_asked(answer), Failure)


def test_reply_to_another_question() -> None:
    """A reply to a question that was not asked is none, even with the right id."""

    def answer(server: socket.socket, query: dns.message.Message, peer: tuple[str, int]) -> None:
        other = dns.message.make_query("b.test.", "A")
        other.id = query.id
        server.sendto(_reply(other, _LIE).to_wire(), peer)

    assert isinstance(_asked(answer), Failure)


def test_records_of_other_names() -> None:
    """Records that nobody asked for are not taken up."""

    def answer(server: socket.socket, query: dns.message.Message, peer: tuple[str, int]) -> None:
        reply = _reply(query, _TRUTH)
        for section in (reply.answer, reply.authority, reply.additional):
            section.append(dns.rrset.from_text("bank.test.", 300, "IN", "A", _LIE))
        server.sendto(reply.to_wire(), peer)

    assert _asked(answer) == Data(frozenset({_TRUTH}))


def test_ids_and_ports_differ() -> None:
    """Each query has an id and a port of its own that nobody can foresee."""
    seen: list[tuple[int, int]] = []

    def answer(server: socket.socket, query: dns.message.Message, peer: tuple[str, int]) -> None:
        seen.append((query.id, peer[1]))
        _tell_the_truth(server, query, peer)

    with _serving(answer) as port:
        for _ in range(40):
            Resolver((HOST,), port, tries=1, seconds=1).ask(_QUESTION)
    ids, ports = zip(*seen)
    assert len(set(ids)) > 35
    assert len(set(ports)) > 35
    assert list(ids) != sorted(ids)
    assert list(ports) != sorted(ports)


# ------------------------------------------------------------- validated replies alone


@pytest.mark.parametrize(
    ("flags", "wanted"), [(dns.flags.AD, Data(frozenset({_TRUTH}))), (0, Failure(NOT_VALIDATED))], ids=["AD", "none"]
)
def test_validated_replies(flags: int, wanted: object) -> None:
    """With `is_validated` the query has the AD bit, and so must the reply."""

    def answer(server: socket.socket, query: dns.message.Message, peer: tuple[str, int]) -> None:
        assert query.flags & dns.flags.AD
        server.sendto(_reply(query, _TRUTH, flags).to_wire(), peer)

    assert _asked(answer, is_validated=True) == wanted


def test_require_ad(workplace: Workplace, server: Server) -> None:
    """--require-ad refuses the replies of a server that validates nothing."""
    ended = workplace.gather(server, "nx.test", "--require-ad", "--tries", "1", "-o", "gathered")
    assert (ended.status, workplace.names()) == (1, [])
    assert "nx.test TXT: not validated by the resolver (no AD bit)" in ended.line


def test_require_ad_and_a_transfer(server: Server) -> None:
    """A transfer is not covered by DNSSEC: the zone is wanted as a file."""
    resolver = Resolver((HOST,), server.port, are_named=True, is_validated=True)
    with pytest.raises(NotGiven, match="DNSSEC does not cover a transfer; give the zone as a file: list.test=FILE"):
        Transfers(resolver).zone(names.read("list.test"))


# ------------------------------------------------------------- bounds


def test_zone_that_is_too_large(server: Server, monkeypatch: pytest.MonkeyPatch) -> None:
    """A transfer that does not end in reasonable bounds ends by itself."""
    resolver = Resolver((HOST,), server.port, are_named=True)
    Transfers(resolver).zone(names.read("list.test"))
    monkeypatch.setattr(transfers, "_MOST_RECORDS", 10)
    with pytest.raises(NotGiven, match="no transfer of list.test: more than 200000 records"):
        Transfers(resolver).zone(names.read("list.test"))
