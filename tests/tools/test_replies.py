"""Replies of name servers, read into facts."""

import dns.flags
import dns.message
import dns.rcode
import dns.rrset
import pytest
from dns.rdatatype import RdataType
from spfc_tools import names
from spfc_tools.facts import Alias, Answer, Data, Failure, Kind, Question, Void
from spfc_tools.replies import has_alias, read_reply

_AUTHORITATIVE = dns.flags.AA


def _reply(
    kind: Kind, *records: str, flags: int = _AUTHORITATIVE, rcode: dns.rcode.Rcode = dns.rcode.NOERROR
) -> dns.message.Message:
    """A reply to a question for a.test with these records, each `NAME TYPE DATA`."""
    reply = dns.message.make_response(dns.message.make_query("a.test.", kind))
    reply.flags |= flags
    reply.set_rcode(rcode)
    for record in records:
        name, record_type, data = record.split(" ", 2)
        reply.answer.append(dns.rrset.from_text(f"{name}.", 300, "IN", record_type, data))
    return dns.message.from_wire(reply.to_wire())


def _read(kind: Kind, reply: dns.message.Message) -> dict[str, Answer]:
    return {str(found): answer for found, answer in read_reply(Question(names.read("a.test"), kind), reply)}


@pytest.mark.parametrize(
    ("kind", "records", "items"),
    [
        (Kind.A, ("a.test A 192.0.2.1",), {"192.0.2.1"}),
        (Kind.AAAA, ("a.test AAAA 2001:DB8:0::1",), {"2001:db8::1"}),
        (Kind.MX, ("a.test MX 10 Mail.Test.",), {"10 mail.test."}),
        (Kind.TXT, ('a.test TXT "v=spf1 " "-all"',), {'"v=spf1 " "-all"'}),
        (Kind.A, ("A.TEST A 192.0.2.1", "a.test TXT x", "b.test A 192.0.2.2"), {"192.0.2.1"}),
    ],
)
def test_data(kind: Kind, records: tuple[str, ...], items: set[str]) -> None:
    """Records of the name and the type that were asked, and no others."""
    assert _read(kind, _reply(kind, *records)) == {f"a.test {kind}": Data(frozenset(items))}


def test_alias_with_data() -> None:
    """Each step of a chain of aliases is a fact, and so is the data at its end."""
    found = _read(Kind.A, _reply(Kind.A, "a.test CNAME b.test.", "b.test CNAME c.test.", "c.test A 192.0.2.1"))
    assert found == {
        "a.test A": Alias(names.read("b.test")),
        "b.test A": Alias(names.read("c.test")),
        "c.test A": Data(frozenset({"192.0.2.1"})),
    }


@pytest.mark.parametrize("rcode", [dns.rcode.NOERROR, dns.rcode.NXDOMAIN])
def test_alias_without_data(rcode: dns.rcode.Rcode) -> None:
    """The end of an alias is left open: an authoritative server may not know it."""
    assert _read(Kind.A, _reply(Kind.A, "a.test CNAME b.test.", rcode=rcode)) == {
        "a.test A": Alias(names.read("b.test"))
    }


def test_alias_of_a_dname() -> None:
    """An alias that a server made of a DNAME record is told from one of a CNAME record."""
    found = _read(Kind.A, _reply(Kind.A, "test DNAME other.", "a.test CNAME a.other."))
    assert found == {"a.test A": Alias(names.read("a.other"), is_made=True)}


def test_loop_of_aliases() -> None:
    """Aliases that lead round are read once."""
    found = _read(Kind.A, _reply(Kind.A, "a.test CNAME b.test.", "b.test CNAME a.test."))
    assert found == {"a.test A": Alias(names.read("b.test")), "b.test A": Alias(names.read("a.test"))}


@pytest.mark.parametrize(
    ("rcode", "flags", "answer"),
    [
        (dns.rcode.NXDOMAIN, _AUTHORITATIVE, Void.NO_NAME),
        (dns.rcode.NXDOMAIN, 0, Void.NO_NAME),
        (dns.rcode.NOERROR, _AUTHORITATIVE, Void.NO_DATA),
        (dns.rcode.NOERROR, dns.flags.RA, Void.NO_DATA),
        (dns.rcode.NOERROR, 0, Failure("referral, no answer")),
        (dns.rcode.SERVFAIL, _AUTHORITATIVE, Failure("SERVFAIL")),
        (dns.rcode.REFUSED, 0, Failure("REFUSED")),
    ],
)
def test_no_records(rcode: dns.rcode.Rcode, flags: int, answer: Answer) -> None:
    """A reply without records: no such name, no such data, or no answer."""
    assert _read(Kind.A, _reply(Kind.A, flags=flags, rcode=rcode)) == {"a.test A": answer}


def test_truncated() -> None:
    """Half a reply is a failure."""
    reply = _reply(Kind.A, "a.test A 192.0.2.1", flags=_AUTHORITATIVE | dns.flags.TC)
    assert _read(Kind.A, reply) == {"a.test A": Failure("truncated")}


def test_question_for_an_alias() -> None:
    """A question for CNAME: the name is an alias, or is none."""
    assert _read(Kind.CNAME, _reply(Kind.CNAME, "a.test CNAME b.test.")) == {
        "a.test CNAME": Alias(names.read("b.test"))
    }
    assert _read(Kind.CNAME, _reply(Kind.CNAME)) == {"a.test CNAME": Void.NO_DATA}


def test_has_alias() -> None:
    """Whether a reply says that a name is an alias."""
    reply = _reply(Kind.CNAME, "a.test CNAME b.test.")
    assert has_alias(reply, names.read("a.test"))
    assert not has_alias(reply, names.read("b.test"))
    assert not has_alias(_reply(Kind.CNAME, rcode=dns.rcode.SERVFAIL), names.read("a.test"))


def test_other_class() -> None:
    """Records of another class than IN do not count."""
    reply = _reply(Kind.A)
    reply.answer.append(dns.rrset.from_text("a.test.", 300, "CH", RdataType.TXT, "x"))
    assert _read(Kind.A, reply) == {"a.test A": Void.NO_DATA}
