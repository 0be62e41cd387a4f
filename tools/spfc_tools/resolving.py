"""Asks name servers.

dnspython sends each query with a random id from a fresh socket, whose port the system chooses. It passes over datagrams
from other addresses and ports, and reads no reply with another id or question. So an attacker who cannot see the query
has to guess its id and port. This does not help against a server that lies, or an attacker who can see or change the
queries: for that, ask a resolver of your own that validates DNSSEC, and take only what it validated (`is_validated`).
"""

import logging
import socket
import time
from collections.abc import Callable, Iterable, Iterator
from concurrent.futures import ThreadPoolExecutor
from dataclasses import dataclass, field
from threading import Event

import dns.exception
import dns.flags
import dns.message
import dns.query
import dns.rcode
import dns.resolver
from dns.name import Name

from spfc_tools import names
from spfc_tools.exit_statuses import Ending, Status
from spfc_tools.facts import Answer, Failure, Kind, Question
from spfc_tools.replies import ANSWERED, contradicts_itself, has_alias, read_reply

_PAUSE = 1.0
"""Seconds between two tries of one question."""
_PAYLOAD = 1232
"""Octets of a reply over UDP that is not cut on its way; a longer one comes over TCP."""

NOT_VALIDATED = "not validated by the resolver (no AD bit)"
"""Why a reply does not count that has no AD bit (RFC 4035, section 3.2.3)."""
NO_REPLY = "no reply"
"""Why a question failed that no server replied to."""

_LOG = logging.getLogger(__name__)

Learned = list[tuple[Question, Answer]]


def addresses(server: str | None) -> tuple[str, ...]:
    """The addresses of a server by its name or address, or those of the resolvers of this machine."""
    try:
        if server is None:
            return tuple(str(address) for address in dns.resolver.get_default_resolver().nameservers)
        return tuple(dict.fromkeys(str(found[4][0]) for found in socket.getaddrinfo(server, None)))
    except (OSError, UnicodeError, dns.exception.DNSException) as error:
        raise Ending(Status.TOOL, f"no name server {server or 'is named on this machine'}: {error}") from error


@dataclass(frozen=True)
class Resolver:
    """Name servers, and how patiently they are asked."""

    servers: tuple[str, ...]
    port: int = 53
    tries: int = 3
    seconds: float = 5.0
    at_once: int = 8
    are_named: bool = False
    """Whether a person named them. Else they are the resolvers of this machine."""
    is_validated: bool = False
    """Whether only those replies count that the server has validated by DNSSEC, as their AD bit says."""
    _stopped: Event = field(default_factory=Event)

    def ask_all(self, questions: Iterable[Question], tell: Callable[[int, Question], None]) -> Learned:
        """Asks all, some at a time, and returns the answers in the order of the questions."""
        learned: Learned = []
        pool = ThreadPoolExecutor(self.at_once)
        try:
            asked = [(question, pool.submit(self.ask, question)) for question in questions]
            for number, (question, answer) in enumerate(asked):
                tell(number, question)
                learned += answer.result()
        except BaseException:
            self._stopped.set()
            raise
        finally:
            pool.shutdown(wait=False, cancel_futures=True)
        return learned

    def ask(self, question: Question) -> Learned:
        """Asks one question, anew where it fails, each time of the next server."""
        learned: Learned = []
        for server in self._attempts():
            learned, is_final = self._try(question, server)
            if is_final:
                break
        return learned

    def reply(self, name: Name, kind: str) -> dns.message.Message | Failure:
        """The reply to a question for records of any type, asked anew where it fails."""
        reply: dns.message.Message | Failure = Failure(NO_REPLY)
        for server in self._attempts():
            reply = self._exchange(name, kind, server)
            if isinstance(reply, dns.message.Message) and reply.rcode() in ANSWERED:
                return reply
        return Failure(dns.rcode.to_text(reply.rcode())) if isinstance(reply, dns.message.Message) else reply

    def _attempts(self) -> Iterator[str]:
        """The server of each attempt at a question, with a pause between two."""
        for attempt in range(self.tries):
            if attempt and self._stopped.wait(_PAUSE):
                return
            yield self.servers[attempt % len(self.servers)]

    def _try(self, question: Question, server: str) -> tuple[Learned, bool]:
        """What one server says, and whether it need not be asked again.

        A resolver that gives up on a chain of aliases is asked for one step of it.
        """
        reply = self._exchange(question.name, question.kind, server)
        if isinstance(reply, Failure):
            return [(question, reply)], False
        if reply.rcode() == dns.rcode.SERVFAIL:
            step = self._exchange(question.name, Kind.CNAME, server)
            if not isinstance(step, Failure) and has_alias(step, question.name):
                return list(read_reply(question, step)), True
        is_refused = reply.rcode() == dns.rcode.REFUSED and len(self.servers) == 1
        is_answered = reply.rcode() in ANSWERED and not contradicts_itself(reply)
        return list(read_reply(question, reply)), is_refused or is_answered

    def _exchange(self, name: Name, kind: str, server: str) -> dns.message.Message | Failure:
        """A query and its reply, over TCP where UDP has no room for it."""
        begun = time.monotonic()
        reply = self._asked(name, kind, server)
        said = reply.why if isinstance(reply, Failure) else _in_words(reply)
        place = f"{server} port {self.port}"
        _LOG.info("%s %s of %s: %s, %.3f s", names.printed(name), kind, place, said, time.monotonic() - begun)
        return reply

    def _asked(self, name: Name, kind: str, server: str) -> dns.message.Message | Failure:
        query = dns.message.make_query(name, kind, use_edns=0, payload=_PAYLOAD)
        query.flags |= dns.flags.AD if self.is_validated else 0
        try:
            reply = dns.query.udp_with_fallback(query, server, self.seconds, self.port, ignore_unexpected=True)[0]
        except (dns.exception.Timeout, OSError, EOFError):
            return Failure(NO_REPLY)
        except dns.exception.DNSException:
            return Failure("malformed reply")
        is_doubted = self.is_validated and reply.rcode() in ANSWERED and not reply.flags & dns.flags.AD
        return Failure(NOT_VALIDATED) if is_doubted else reply


def _in_words(reply: dns.message.Message) -> str:
    """What a reply has, for the log."""
    count = sum(len(records) for records in reply.answer)
    return f"{dns.rcode.to_text(reply.rcode())}, {count} record{'' if count == 1 else 's'}"
