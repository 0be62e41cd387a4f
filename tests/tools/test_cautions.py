"""Warnings of policies that spfc takes, and that lose mail: no address, no record, nobody who passes."""

import shutil

import pytest
from nights import Domain, opened
from servers import free_port
from workplace import TOP, Ended, Workplace, run

_NO_RECORD = "corp.test has no SPF record"
_NOBODY = "the policy of corp.test passes no address"


def _no_address(name: str) -> str:
    return f"{name} has no address, and a term a or mx asks for its addresses"


_POLICIES = [
    ('@ TXT "v=spf1 ip4:192.0.2.1 -all"\n', []),
    ('@ TXT "v=spf1 mx -all"\n@ MX 10 mail.nodots.example\n', [_no_address("mail.nodots.example.corp.test"), _NOBODY]),
    (
        '@ TXT "v=spf1 mx ip4:192.0.2.1 -all"\n',
        ["corp.test has no mail exchanger, and a term mx asks for its exchangers"],
    ),
    ('@ TXT "v=spf1 a:one.corp.test ip4:192.0.2.1 -all"\none TXT x\n', [_no_address("one.corp.test")]),
    ('@ TXT "v=spf1 a:one.corp.test -all"\none A 192.0.2.1\n', []),
    ('@ TXT "v=spf1 a:one.corp.test -all"\none AAAA 2001:db8::1\n', []),
    ('@ TXT "v=spf1 a:one.corp.test -all"\none CNAME two\ntwo A 192.0.2.1\n', []),
    ('@ TXT "v=spf1 exists:one.corp.test ip4:192.0.2.1 -all"\n', []),
    ('@ TXT "v=spf1 -all"\n', [_NOBODY]),
    ('@ TXT "v=spf1 ?ip4:192.0.2.1 ~all"\n', [_NOBODY]),
    ('@ TXT "v=spf1 ip6:2001:db8::1 -all"\n', []),
    ('@ TXT "v=spf10 -all"\n', [_NO_RECORD]),
    ("", [_NO_RECORD]),
]
"""Zones of corp.test, and what is said of them."""


def _installed(workplace: Workplace) -> str:
    """The command spfc below a prefix, with the program of the tests."""
    prefix = workplace.folder / "prefix"
    shutil.copytree(TOP / "tools", prefix / "tools")
    for source, place in ((TOP / "bin/spfc", "bin/spfc"), (workplace.program, "libexec/spfc/spfc")):
        (prefix / place).parent.mkdir(parents=True)
        shutil.copy(source, prefix / place)
    return str(prefix / "bin/spfc")


def _warned(tool: str, lines: list[str]) -> str:
    return "\n".join(f"{tool}: warning: {line}" for line in lines)


@pytest.mark.parametrize(("zone", "lines"), _POLICIES)
def test_gather(zone: str, lines: list[str], workplace: Workplace) -> None:
    """spfc-gather warns, and its status and its file are as they were."""
    workplace.write("zone", zone)
    place = ["@127.0.0.1", "-p", str(free_port()), "--tries", "1"]
    ended = workplace.tool("spfc-gather", "corp.test", "corp.test=zone", *place, "-o", "gathered")
    assert ended == Ended(0, "", _warned("spfc-gather", lines))
    assert "gathered" in workplace.names()


@pytest.mark.parametrize(("zone", "lines"), [policy for policy in _POLICIES if policy[1] != [_NO_RECORD]])
def test_compile(zone: str, lines: list[str], workplace: Workplace) -> None:
    """The command spfc warns after `compile`, and its output and status are those of the program."""
    workplace.write("zone", zone)
    words = ["compile", "corp.test", "--size", "450", "corp.test=zone"]
    wanted = workplace.spfc(*words)
    assert run([_installed(workplace), *words], workplace.folder) == Ended(0, wanted.output, _warned("spfc", lines))


@pytest.mark.parametrize(
    "words", [["compile", "corp.test", "corp.test=zone"], ["check", "corp.test", "192.0.2.1", "corp.test=zone"]]
)
def test_no_warning_after_a_refusal_or_of_other_commands(words: list[str], workplace: Workplace) -> None:
    """A refusal is one line, and commands that write no records warn of nothing."""
    workplace.write("zone", "")
    assert run([_installed(workplace), *words], workplace.folder) == workplace.spfc(*words)


@pytest.mark.needs("servers")
def test_nightly(workplace: Workplace) -> None:
    """spfc-nightly warns of the policy."""
    policy = "v=spf1 a:gone.corp.test ip4:192.0.2.1 -all\n"
    with opened(workplace, Domain("corp.test", policy=policy)) as nights:
        night = nights.night()
    assert night.lines == ["same corp.test", f"spfc-nightly: warning: {_no_address('gone.corp.test')}"]
