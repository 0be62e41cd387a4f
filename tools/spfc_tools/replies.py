"""Reads the replies of name servers into facts."""

from collections.abc import Iterator

import dns.flags
import dns.message
import dns.rcode
import dns.rdataclass
import dns.rdatatype
from dns.name import Name
from dns.rdata import Rdata
from dns.rdatatype import RdataType
from dns.rdtypes.ANY.CNAME import CNAME
from dns.rdtypes.ANY.MX import MX

from spfc_tools import names
from spfc_tools.facts import Alias, Answer, Data, Failure, Kind, Question, Void

ANSWERED = (dns.rcode.NOERROR, dns.rcode.NXDOMAIN)
_OF_ALIASES = (dns.rdatatype.CNAME, dns.rdatatype.DNAME, dns.rdatatype.RRSIG)
"""The types of records that may come with NXDOMAIN: those of the aliases that lead to a name that does not exist."""


def read_reply(question: Question, reply: dns.message.Message) -> Iterator[tuple[Question, Answer]]:
    """The facts of a reply: each step of the chain of aliases, and its end where the reply says what that has.

    The end of a chain that has no data here is left open: half a chain of an authoritative server looks the same.
    """
    if reply.rcode() not in ANSWERED:
        yield question, Failure(dns.rcode.to_text(reply.rcode()))
        return
    if reply.flags & dns.flags.TC:
        yield question, Failure("truncated")
        return
    if contradicts_itself(reply):
        yield question, Failure("NXDOMAIN, but with records")
        return
    end, aliases = question, _aliases(reply)
    is_alias = question.name in aliases
    while alias := aliases.pop(end.name, None):
        yield end, alias
        end = Question(alias.target, question.kind)
    if items := _items(reply, end):
        yield end, Data(items)
    elif not is_alias:
        yield end, _without_data(reply)


def contradicts_itself(reply: dns.message.Message) -> bool:
    """Whether the reply says that a name does not exist, and has records other than aliases and signatures."""
    has_data = any(records.rdtype not in _OF_ALIASES for records in reply.answer)
    return reply.rcode() == dns.rcode.NXDOMAIN and has_data


def has_alias(reply: dns.message.Message, name: Name) -> bool:
    """Whether the reply says that this name is an alias."""
    return reply.rcode() == dns.rcode.NOERROR and name in _aliases(reply)


def _without_data(reply: dns.message.Message) -> Void | Failure:
    """What a reply without an answer says: a server that neither is responsible nor asks others has only referred."""
    if reply.rcode() == dns.rcode.NXDOMAIN:
        return Void.NO_NAME
    return Void.NO_DATA if reply.flags & (dns.flags.AA | dns.flags.RA) else Failure("referral, no answer")


def _records(reply: dns.message.Message, kind: RdataType) -> Iterator[tuple[Name, Rdata]]:
    for records in reply.answer:
        if records.rdtype == kind and records.rdclass == dns.rdataclass.IN:
            yield from ((records.name.canonicalize(), record) for record in records)


def _aliases(reply: dns.message.Message) -> dict[Name, Alias]:
    dnames = [owner for owner, _ in _records(reply, dns.rdatatype.DNAME)]
    return {
        owner: Alias(
            record.target.canonicalize(), any(owner != upper and owner.is_subdomain(upper) for upper in dnames)
        )
        for owner, record in _records(reply, dns.rdatatype.CNAME)
        if isinstance(record, CNAME)
    }


def _items(reply: dns.message.Message, question: Question) -> frozenset[str]:
    if question.kind is Kind.CNAME:
        return frozenset()
    kind = dns.rdatatype.from_text(question.kind)
    return frozenset(_presented(record) for owner, record in _records(reply, kind) if owner == question.name)


def _presented(record: Rdata) -> str:
    if isinstance(record, MX):
        return f"{record.preference} {names.absolute(record.exchange)}"
    return record.to_text()
