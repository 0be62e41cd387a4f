"""spfc-gather of several domains: one file, over which `join` reads them together."""

import pytest
from servers import Server
from workplace import Ended, Workplace

_DOMAINS = ("taken.test", "cname.test", "example.com")


def test_join_over_one_file(workplace: Workplace, server: Server) -> None:
    """Each policy has over the common file the outcomes, and `compile` the output, that it has over its own."""
    assert workplace.gather(server, _DOMAINS[0], *_DOMAINS[1:], "-o", "all").status == 0
    for domain in _DOMAINS:
        workplace.gather(server, domain, "-o", domain)
        words = ["compile", domain, "--label", "_spf"]
        assert workplace.spfc(*words, ".=all") == workplace.spfc(*words, f".={domain}")
    assert workplace.spfc("join", *_DOMAINS[1:], ".=all").status == 0


def test_order_and_repetition(workplace: Workplace, server: Server) -> None:
    """A domain that is named twice is gathered once, and words of other sorts may be between the domains."""
    wanted = workplace.gather(server, "taken.test", "nx.test").output
    port = str(server.port)
    ended = workplace.tool("spfc-gather", "taken.test", "@127.0.0.1", "Nx.Test.", "-p", port, "taken.test")
    assert ended == Ended(0, wanted)


def test_head_of_the_file(workplace: Workplace, server: Server) -> None:
    """The file says of which domains it is, and whose names were asked for."""
    lines = workplace.gather(server, "taken.test", "nx.test", "--label", "_q").output.splitlines()
    what = "; What DNS answers to the questions on which the SPF policies of taken.test, nx.test rest."
    assert lines[:3] == [
        f"{what} To be read as .=FILE",
        "; Names asked for whether they are free: _q1 to _q10 of taken.test",
        "; Names asked for whether they are free: _q1 to _q10 of nx.test",
    ]


@pytest.mark.parametrize(
    ("gathered", "asked", "lines"),
    [
        (["taken.test", "nx.test"], ["nx.test", "taken.test"], []),
        (["taken.test", "nx.test"], ["nx.test"], []),
        (
            ["taken.test"],
            ["taken.test", "nx.test"],
            ["nx.test TXT", "whether _spf1.nx.test to _spf10.nx.test are free"],
        ),
        (["taken.test", "nx.test", "--no-names"], ["nx.test"], ["whether _spf1.nx.test to _spf10.nx.test are free"]),
    ],
)
def test_holds(gathered: list[str], asked: list[str], lines: list[str], workplace: Workplace, server: Server) -> None:
    """--holds says of each domain what was not asked."""
    first, *others = gathered
    workplace.gather(server, first, *others, "-o", "gathered")
    ended = workplace.tool("spfc-gather", *asked, "--holds", "gathered")
    wanted = "\n".join(f"spfc-gather: not asked: {line}" for line in lines)
    assert ended == Ended(1 if lines else 0, "", wanted)


def test_names_of_another_domain(workplace: Workplace, server: Server) -> None:
    """That the names of one domain were asked for says nothing of those of a domain that it includes."""
    workplace.gather(server, "example.com", "-o", "gathered")
    ended = workplace.tool("spfc-gather", "spf.mailtwo.example", "--holds", "gathered")
    line = "spfc-gather: not asked: whether _spf1.spf.mailtwo.example to _spf10.spf.mailtwo.example are free"
    assert ended == Ended(1, "", line)


def test_one_policy_file_for_one_domain(workplace: Workplace) -> None:
    """A policy from a file is that of one domain."""
    workplace.write("policy", "v=spf1 -all\n")
    ended = workplace.tool("spfc-gather", "a.test", "b.test", "--policy", "policy")
    assert ended.status == 4
    assert ended.line.startswith("spfc-gather: expected one DOMAIN with --policy, got a.test b.test\n")
