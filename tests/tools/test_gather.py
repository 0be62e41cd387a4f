"""spfc-gather: servers that misbehave, questions without an answer, command lines, files, and what it leaves out."""

from dataclasses import dataclass

import pytest
import servers
from servers import Server
from spfc_tools import names
from spfc_tools.resolving import Resolver
from spfc_tools.transfers import Transfers
from workplace import Ended, Workplace, zone_words

_ONCE = ("--tries", "1", "--time", "1")


def _first_line(ended: Ended) -> Ended:
    return Ended(ended.status, ended.output, ended.line.split("\n")[0])


# ------------------------------------------------------------- a server that misbehaves


@dataclass(frozen=True)
class Misbehaviour:
    """A name below fake.test whose policy meets a fault: the line of the failure, or outcomes over the file."""

    label: str
    line: str = ""
    outcomes: tuple[tuple[str, str], ...] = ()


_MISBEHAVIOURS = (
    Misbehaviour(
        "mix",
        outcomes=(("2001:db8::66", "pass"), ("192.0.2.77", "pass"), ("192.0.2.44", "pass"), ("192.0.2.5", "pass")),
    ),
    Misbehaviour("xloop", outcomes=(("192.0.2.1", "pass"), ("192.0.2.3", "temperror alias r1.fake.test 0"))),
    Misbehaviour("xstep", outcomes=(("192.0.2.3", "pass"), ("192.0.2.4", "fail"))),
    Misbehaviour("ok", outcomes=(("192.0.2.9", "pass"), ("2001:db8::9", "pass"))),
    Misbehaviour("early", outcomes=(("192.0.2.9", "pass"), ("::1", "pass"))),
    Misbehaviour("nxe", outcomes=(("192.0.2.30", "pass"), ("192.0.2.31", "fail"))),
    Misbehaviour("eight", outcomes=(("192.0.2.3", "pass"),)),
    Misbehaviour("nine", outcomes=(("192.0.2.3", "temperror alias hand0.fake.test 0"),)),
    Misbehaviour("deadnine", outcomes=(("192.0.2.3", "temperror alias d0.fake.test 0"),)),
    Misbehaviour("dead", "no answer servfail.fake.test TXT: SERVFAIL"),
    Misbehaviour("xservfail", "no answer servfail.fake.test TXT: SERVFAIL"),
    Misbehaviour("xrefused", "no answer refused.fake.test TXT: REFUSED"),
    Misbehaviour("xnotimp", "no answer notimp.fake.test TXT: NOTIMP"),
    Misbehaviour("xjunk", "no answer junk.fake.test TXT: malformed reply"),
    Misbehaviour("xreferral", "no answer referral.fake.test TXT: referral, no answer"),
    Misbehaviour("xsilent", "no answer silent.fake.test TXT: no reply"),
    Misbehaviour("xtrunc", "no answer trunc.fake.test TXT: no reply"),
)


@pytest.mark.parametrize("fault", _MISBEHAVIOURS, ids=lambda fault: str(fault.label))
def test_misbehaving_server(fault: Misbehaviour, workplace: Workplace, misbehaving: Server) -> None:
    """A fault that can be overcome changes no outcome. Any other has a line with its question, and no file."""
    domain = f"{fault.label}.fake.test"
    ended = workplace.gather(misbehaving, domain, "--no-names", "--tries", "3", "--time", "1", "-o", "gathered")
    if fault.line:
        assert ended == Ended(1, "", f"spfc-gather: {fault.line}")
        assert workplace.names() == []
    else:
        assert (ended.status, ended.output) == (0, "")
        outcomes = dict(fault.outcomes)
        assert workplace.outcomes(domain, list(outcomes), ".=gathered") == outcomes


def test_server_that_denies_no_name(workplace: Workplace, misbehaving: Server) -> None:
    """A name that does not exist is answered without data (RFC 9824): free names are still told from taken ones."""
    domain = "black.fake.test"
    warned = "spfc-gather: warning: gone.black.fake.test has no address, and a term a or mx asks for its addresses"
    assert workplace.gather(misbehaving, domain, "-o", "gathered") == Ended(0, "", warned)
    outcomes = {"192.0.2.1": "pass", "192.0.2.2": "fail"}
    assert workplace.outcomes(domain, list(outcomes), ".=gathered") == outcomes
    taken = workplace.spfc("compile", domain, "--size", "100", ".=gathered")
    assert taken.line == "refused taken 3 _spf3.black.fake.test"


# ------------------------------------------------------------- questions without an answer


@pytest.mark.parametrize(
    ("words", "line"),
    [
        ("broke.deleg.test", "no answer _spf.broken.test TXT: SERVFAIL"),
        ("out.deleg.test", "no answer _spf.nowhere.invalid TXT: REFUSED"),
        ("ref.deleg.test", "no answer x.dead.deleg.test TXT: referral, no answer"),
        ("taken.test --label _d", "no answer _d1.taken.test CNAME: referral, no answer"),
    ],
)
def test_no_answer(words: str, line: str, workplace: Workplace, server: Server) -> None:
    """A zone that is not loaded, one that the server does not have, a delegation that leads nowhere."""
    domain, *options = words.split()
    assert workplace.gather(server, domain, *options, *_ONCE) == Ended(1, "", f"spfc-gather: {line}")


def test_no_names(workplace: Workplace, server: Server) -> None:
    """With --no-names the names of the chain are not asked, so that their failures do not count."""
    ended = workplace.gather(server, "taken.test", "--label", "_d", "--no-names")
    assert (ended.status, ended.line) == (0, "")


def test_no_server(workplace: Workplace) -> None:
    """A port where nothing listens."""
    port = str(servers.free_port())
    ended = workplace.tool("spfc-gather", "taken.test", "@127.0.0.1", "-p", port, "--tries", "1")
    assert ended == Ended(1, "", f"spfc-gather: no reply from 127.0.0.1 port {port}")


# ------------------------------------------------------------- command lines


@pytest.mark.parametrize(
    "words",
    [
        "",
        "no_dots",
        "-x.test",
        "a..test",
        "taken.test --lookups 9",
        "taken.test --lookups 21",
        "taken.test --lookups",
        "taken.test extra",
        "taken.test .=x",
        "taken.test @",
        "taken.test @one @two",
        "taken.test --label x",
        "taken.test --jobs 0",
        "taken.test -p x",
        "taken.test --size 4097",
    ],
)
def test_usage(words: str, workplace: Workplace) -> None:
    """A wrong command line has status 4 and no output."""
    ended = workplace.tool("spfc-gather", *words.split())
    assert (ended.status, ended.output) == (4, "")
    assert ended.line.startswith("spfc-gather: ")


def test_dots_and_case(workplace: Workplace, server: Server) -> None:
    """A final dot and capitals in the domain change nothing."""
    assert workplace.gather(server, "Taken.Test.") == workplace.gather(server, "taken.test")


def test_silence(workplace: Workplace, server: Server) -> None:
    """Nothing is written to standard error, until --verbose asks for the log."""
    quiet = workplace.gather(server, "nx.test")
    assert (quiet.status, quiet.line) == (0, "")
    verbose = workplace.gather(server, "nx.test", "--verbose")
    assert verbose.output == quiet.output
    asked = [line for line in verbose.line.splitlines() if f" nx.test TXT of 127.0.0.1 port {server.port}: " in line]
    assert [line.partition(": ")[2].partition("port")[2].split(", ")[:2] for line in asked] == [
        [f" {server.port}: NOERROR", "1 record"]
    ]


def test_log_of_a_transfer(workplace: Workplace, server: Server) -> None:
    """--verbose logs zone transfers too."""
    log = workplace.gather(server, "list.test", "--verbose").line
    assert f"transfer of list.test from 127.0.0.1 port {server.port}: " in log


# ------------------------------------------------------------- files


@pytest.mark.parametrize(
    ("domain", "options", "line"),
    [
        ("taken.test", ("--size", "100"), ""),
        ("taken.test", ("--label", "_q"), "not asked: whether _q1.taken.test to _q10.taken.test are free"),
        ("d1.limit.test", (), ""),
        ("d1.limit.test", ("--lookups", "20"), "not asked: d12.limit.test TXT"),
    ],
)
def test_holds(domain: str, options: tuple[str, ...], line: str, workplace: Workplace, server: Server) -> None:
    """Whether a file answers every question under other options than those of the day when it was gathered."""
    workplace.gather(server, domain, "-o", "gathered")
    wanted = Ended(1, "", f"spfc-gather: {line}") if line else Ended(0)
    assert workplace.tool("spfc-gather", domain, "--holds", "gathered", *options) == wanted


@pytest.mark.parametrize("domain", ["odd.test", "list.test"])
def test_twice_the_same(domain: str, workplace: Workplace, server: Server) -> None:
    """Gathering twice gives the same bytes, whatever the number of questions that are asked at once; no TTL is kept."""
    first = workplace.gather(server, domain)
    assert workplace.gather(server, domain, "--jobs", "1") == first
    assert [line for line in first.output.splitlines() if " IN " not in line and line[0] != ";"] == []


def test_file_is_written_whole_or_not_at_all(workplace: Workplace, server: Server) -> None:
    """A failure leaves the old file, and success leaves nothing else in the folder."""
    workplace.write("old", "old")
    assert workplace.gather(server, "nx.test", "-o", "nowhere/file").status == 6
    assert workplace.gather(server, "out.deleg.test", "--tries", "1", "-o", "old").status == 1
    assert (workplace.read("old"), workplace.names()) == ("old", ["old"])
    assert workplace.gather(server, "nx.test", "-o", "old").status == 0
    assert (workplace.read("old"), workplace.names()) == (workplace.gather(server, "nx.test").output, ["old"])


# ------------------------------------------------------------- what the file says of names that were not asked


def _closed(workplace: Workplace, *domains: str) -> dict[str, str]:
    return {domain: workplace.check(domain, "192.0.2.1", ".=gathered") for domain in domains}


@pytest.mark.parametrize(
    ("domain", "others"),
    [
        (
            "nx.test",
            "other.test a.nx.test below.gone.nx.test ent.nx.test not-gathered.invalid x.invalid",
        ),
        ("wild.test", "deep.wild.test below.host.deep.wild.test other.wild.test"),
        ("list.test", "two.list.test x.list.test 20.2.0.192.link.list.test"),
    ],
)
def test_closed_world(domain: str, others: str, workplace: Workplace, server: Server) -> None:
    """A name that was not asked lies outside the file: it does not count as one that does not exist."""
    workplace.gather(server, domain, "-o", "gathered")
    assert _closed(workplace, *others.split()) == {other: f"open outside {other} 0" for other in others.split()}


def test_name_that_does_not_exist(workplace: Workplace, server: Server) -> None:
    """A name of which DNS said that it does not exist has no record in the file."""
    workplace.gather(server, "nx.test", "-o", "gathered")
    assert workplace.check("gone.nx.test", "192.0.2.1", ".=gathered") == "none norecord gone.nx.test 0"


def test_dname(workplace: Workplace, server: Server) -> None:
    """The aliases that a server makes of a DNAME record are written one by one; the domain may be such an alias."""
    workplace.gather(server, "dname.test", "-o", "gathered")
    outcomes = {"192.0.2.5": "pass", "192.0.2.53": "pass", "192.0.2.54": "fail"}
    assert workplace.outcomes("dname.test", list(outcomes), ".=gathered") == outcomes
    workplace.gather(server, "a.old.dname.test", "-o", "alias")
    assert workplace.spfc("compile", "a.old.dname.test", ".=alias").line == "refused alias a.old.dname.test"


# ------------------------------------------------------------- zones from files


def test_zone_from_a_file(workplace: Workplace, server: Server) -> None:
    """No server is asked for a name of a zone that comes from a file, and `compile` over both has the same output."""
    own = zone_words("example.com")
    gathered = workplace.gather(server, "example.com", *own, "-o", "gathered")
    assert gathered == Ended(0)
    assert "asked example.com" not in workplace.read("gathered")
    words = ["compile", "example.com", *own]
    wanted = workplace.spfc(*words, *zone_words("mailone.example", "mailtwo.example"))
    assert workplace.spfc(*words, ".=gathered") == wanted


def test_alias_out_of_a_file(workplace: Workplace, server: Server) -> None:
    """An alias in a file that leads out of its zone: the name to which it leads is gathered."""
    own = zone_words("sub.deleg.test")
    workplace.gather(server, "deleg.test", *own, "--size", "70", "-o", "gathered")
    words = ["compile", "deleg.test", "--size", "70"]
    wanted = workplace.spfc(*words, *zone_words("deleg.test", "sub.deleg.test", "wild.test"))
    assert workplace.spfc(*words, *own, ".=gathered") == wanted


def test_flat_inner_policy(workplace: Workplace, server: Server) -> None:
    """A policy of 14 includes is compiled after an inner name is made flat, and read from a file."""
    assert workplace.gather(server, "d5.limit.test", "-o", "inner") == Ended(0)
    workplace.write("flat", workplace.spfc("compile", "d5.limit.test", "--size", "4096", ".=inner").output)
    assert workplace.gather(server, "d1.limit.test", "d5.limit.test=flat", "-o", "outer") == Ended(0)
    found = workplace.spfc("compile", "d1.limit.test", "d5.limit.test=flat", ".=outer")
    assert found == workplace.spfc("compile", "d1.limit.test", "--lookups", "20", *zone_words("limit.test"))


# ------------------------------------------------------------- lists of senders by address

_LISTED = {
    "192.0.2.10": "pass",
    "192.0.2.12": "softfail",
    "192.0.2.13": "softfail",
    "192.0.2.14": "softfail",
    "192.0.2.20": "pass",
    "192.0.2.22": "pass",
    "192.0.2.23": "softfail",
    "203.0.113.200": "pass",
    "198.18.100.76": "pass",
    "198.18.100.77": "softfail",
    "198.19.0.1": "pass",
    "198.19.1.9": "softfail",
    "198.19.1.8": "softfail",
    "198.19.2.1": "softfail",
    "198.51.100.7": "pass",
    "198.51.100.8": "pass",
    "198.51.100.9": "softfail",
    "198.51.100.10": "softfail",
    "2001:db8::25": "pass",
    "2001:db8::abcd": "pass",
    "2001:db8::26": "pass",
    "2001:db8:1::7": "softfail",
    "2001:db8:1::8": "softfail",
    "2001:db8:1:8000::1": "pass",
    "2001:db8:2f::1": "softfail",
    "2001:db8:2::1": "pass",
    "2001:db8:3::1": "pass",
}
"""What the policy of list.test says of some addresses, read from its zone by hand."""


def test_list(workplace: Workplace, server: Server) -> None:
    """A list comes whole, by zone transfer."""
    workplace.gather(server, "list.test", "-o", "gathered")
    assert workplace.outcomes("list.test", list(_LISTED), ".=gathered") == _LISTED


@pytest.mark.parametrize(
    ("domain", "question", "why"),
    [
        ("out.list.test", "allow.closed.test REVERSE4", "no transfer of closed.test: REFUSED; {} closed.test=FILE"),
        (
            "lame.list.test",
            "lame.list.test REVERSE4",
            "no transfer of 2.0.192.lame.list.test: NOTAUTH; {} 2.0.192.lame.list.test=FILE",
        ),
        (
            "dn.list.test",
            "old.dname.test REVERSE4",
            "a DNAME record at old.dname.test makes an alias for each address, to be written out; {} dname.test=FILE",
        ),
    ],
)
def test_list_that_no_server_transfers(
    domain: str, question: str, why: str, workplace: Workplace, server: Server
) -> None:
    """The line says which zone is wanted as a file, and nothing is written."""
    ended = workplace.gather(server, domain, "--tries", "1", "-o", "gathered")
    line = f"spfc-gather: no answer {question}: {why.format('give the zone as a file:')}"
    assert _first_line(ended) == Ended(1, "", line)
    assert workplace.names() == []


def test_list_from_a_file(workplace: Workplace, server: Server) -> None:
    """A list whose zone comes from a file: the names to which it leads are gathered."""
    own = zone_words("closed.test")
    assert workplace.gather(server, "out.list.test", *own, "-o", "gathered") == Ended(0)
    words = ["compile", "out.list.test"]
    found = workplace.spfc(*words, *own, ".=gathered")
    assert found == workplace.spfc(*words, *own, *zone_words("list.test", "cname.test", "wild.test"))
    assert "198.51.100.0/24" in found.output


def test_part_of_a_list_from_a_file(workplace: Workplace, server: Server) -> None:
    """A zone below that of a list comes from a file: the rest is transferred."""
    own = zone_words("100.51.198.allow.list.test")
    workplace.gather(server, "list.test", *own, "-o", "gathered")
    text = workplace.read("gathered")
    assert ("7.100.51.198" in text, "10.2.0.192" in text) == (False, True)
    words = ["compile", "list.test", *own]
    wanted = workplace.spfc(*words, *zone_words("list.test", "cname.test", "wild.test"))
    assert workplace.spfc(*words, ".=gathered") == wanted


def test_name_servers_of_a_zone(server: Server) -> None:
    """Without @SERVER a transfer is asked of the name servers of the zone."""
    resolver = Resolver((servers.HOST,), server.port)
    zone = Transfers(resolver, server.port).holding(names.read("10.2.0.192.allow.list.test"))
    assert names.printed(zone.origin) == "list.test"
