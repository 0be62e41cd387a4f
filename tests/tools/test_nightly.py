"""spfc-nightly over many nights, the example of the way from DNS to a published chain, and the nightly job by hand."""

from collections.abc import Callable, Iterator
from contextlib import ExitStack
from pathlib import Path

import pytest
from nights import Domain, Night, Nights, opened
from servers import HOST
from workplace import TOP, ZONES, Workplace, run

pytestmark = [pytest.mark.needs("servers"), pytest.mark.slow]
Opener = Callable[[Domain], Nights]

_WITH_KEPT = ("--kept", "kept")
_NETWORK_MORE = ("ip4:198.19.0.128/25 ~all", "ip4:198.19.0.128/25 ip4:198.19.7.0/24 ~all")
"""What is added to a list of a firm."""
_GAINED = "256 addresses, the least 198.19.7.0, from softfail to pass"
_LOST = "64 addresses, the least 198.19.0.64, from pass to softfail"
_CHANGED_ANSWER = "answered otherwise: _nb3.mailone.example TXT"


@pytest.fixture
def open_nights(workplace: Workplace) -> Iterator[Opener]:
    """Starts the nights of a domain."""
    with ExitStack() as stack:
        yield lambda domain: stack.enter_context(opened(workplace, domain))


@pytest.fixture
def nights(open_nights: Opener) -> Nights:
    """Nights of a domain that publishes its policy with includes."""
    return open_nights(Domain("corp.test"))


@pytest.fixture
def chain(nights: Nights) -> str:
    """The chain of the policy under the first label, which is published."""
    records = nights.compiled(nights.gather("--label", "_spfa"), "--label", "_spfa")
    nights.serve(records)
    return records


# ------------------------------------------------------------- without a kept list


def test_same(nights: Nights) -> None:
    """What is published is the policy itself, and then the chain of it."""
    assert nights.night() == nights.same
    nights.serve(nights.compiled(nights.gather("--label", "_spfa"), "--label", "_spfa"))
    assert nights.night() == nights.same


def test_label_in_use(nights: Nights) -> None:
    """Under the label of the published chain `compile` takes no name."""
    nights.serve(nights.compiled(nights.gather()))
    assert nights.compiled(nights.gather("--policy", "policy")) == "refused taken 1 _spf1.corp.test"


def test_changed(nights: Nights, chain: str) -> None:
    """A firm takes addresses out of its list: the records of the new policy are written under the other label."""
    nights.change("mailone.example", "198.19.0.0/25", "198.19.0.0/26")
    night = nights.night()
    assert (night.status, night.lines) == (1, ["changed corp.test", _LOST])
    assert night.records == nights.wanted("--label", "_spfb")
    assert night.records.count("IN TXT") == 3
    assert "_spfa1" not in night.records
    assert "redirect=_spfb1.corp.test" in night.records
    nights.serve(night.records)
    assert nights.night() == nights.same


def test_max_lost(nights: Nights, chain: str) -> None:
    """More addresses than --max-lost allows lose their pass, or no more."""
    nights.change("mailone.example", "198.19.0.0/25", "198.19.0.0/26")
    lines = ["refused corp.test", "64 addresses lose their pass", _LOST]
    assert nights.night("--max-lost", "63") == Night(2, lines)
    night = nights.night("--max-lost", "64")
    assert (night.status, night.lines) == (1, ["changed corp.test", _LOST])


def test_two_records(nights: Nights, chain: str) -> None:
    """The domain has two SPF records: what is published is refused, and the label in use is never taken."""
    other = nights.compiled(nights.gather("--label", "_spfb", "--policy", "policy"), "--label", "_spfb")
    nights.serve(other, chain)
    published = "published: refused 0.0.0.0 records corp.test 0"
    assert nights.night() == Night(2, ["refused corp.test", published, "refused taken 1 _spfa1.corp.test"])


def test_refused(nights: Nights, chain: str) -> None:
    """The policy includes a name that is gone."""
    nights.change("mailtwo.example", "\nspf  ", "\nspf_gone  ")
    assert nights.night() == Night(2, ["refused corp.test", "refused 0.0.0.0 missing corp.test 3"])


def test_unknown(nights: Nights) -> None:
    """The policy includes a name for which no server answers."""
    nights.workplace.write("policy", "v=spf1 include:_spf.nowhere.invalid -all\n")
    line = "spfc-nightly: no answer _spf.nowhere.invalid TXT: REFUSED"
    assert nights.night() == Night(3, ["unknown corp.test", line])


@pytest.mark.parametrize("words", ["--labels _a,_a", "--labels _a", "corp.test=zone", "--max-lost x", "--size 1"])
def test_usage(words: str, workplace: Workplace) -> None:
    """A wrong command line has status 4, before anything is asked."""
    workplace.write("policy", "v=spf1 -all\n")
    ended = workplace.tool("spfc-nightly", "corp.test", "policy", "new", f"@{HOST}", "-p", "1", *words.split())
    assert (ended.status, ended.output) == (4, "")


# ------------------------------------------------------------- with a kept list


@pytest.fixture
def kept_nights(nights: Nights) -> Nights:
    """Nights after the first one, which has kept a list."""
    assert nights.night(*_WITH_KEPT) == nights.same
    return nights


@pytest.fixture
def published(kept_nights: Nights) -> str:
    """The chain of the policy under the first label, which is published and whose answers are kept."""
    records = kept_nights.compiled(kept_nights.gather("--label", "_spfa"), "--label", "_spfa")
    kept_nights.serve(records)
    assert kept_nights.night(*_WITH_KEPT) == kept_nights.same
    return records


def test_kept_list(kept_nights: Nights) -> None:
    """The list is that of `keep`, it is written by itself, and the next night says nothing."""
    wanted = kept_nights.workplace.spfc("keep", kept_nights.domain.name, kept_nights.gather()).output
    assert kept_nights.kept == wanted
    assert kept_nights.night(*_WITH_KEPT) == kept_nights.same
    assert [name for name in kept_nights.workplace.names() if name.startswith(".")] == []


def test_other_answers_and_no_other_verdict(kept_nights: Nights) -> None:
    """Answers changed, and no verdict: the night is the same, names them all, and keeps the new ones in a new file."""
    old = kept_nights.kept
    kept = kept_nights.workplace.folder / "kept"
    yesterday = kept_nights.workplace.folder / "yesterday"
    yesterday.hardlink_to(kept)
    kept_nights.change("mailone.example", "ip4:198.19.0.0/25 ip4:198.19.0.128/25", "ip4:198.19.0.0/24")
    kept_nights.change("mailtwo.example", '"?all"', '"~all"')
    changed = [f"answered otherwise: {name} TXT" for name in ("_nb3.mailone.example", "b.mailtwo.example")]
    assert kept_nights.night(*_WITH_KEPT) == Night(0, ["same corp.test", *changed])
    assert kept_nights.kept != old
    assert yesterday.read_text() == old
    assert kept_nights.night(*_WITH_KEPT) == kept_nights.same


def test_network_more(kept_nights: Nights, published: str) -> None:
    """A firm adds a network: the change and the answer are named once, the change until the chain is published."""
    kept_nights.change("mailone.example", *_NETWORK_MORE)
    first, second = kept_nights.night(*_WITH_KEPT), kept_nights.night(*_WITH_KEPT)
    assert (first.status, first.lines) == (1, ["changed corp.test", _GAINED, _CHANGED_ANSWER])
    assert (second.status, second.lines) == (1, ["changed corp.test", _GAINED])
    kept_nights.serve(first.records)
    assert kept_nights.night(*_WITH_KEPT) == kept_nights.same
    kept_nights.serve(published)
    assert kept_nights.night(*_WITH_KEPT).status == 1


def test_include_less(kept_nights: Nights, published: str) -> None:
    """A firm takes an include out of its record, and puts it back: questions that are not asked, and asked again."""
    changed = "answered otherwise: _spf.mailone.example TXT"
    kept_nights.change("mailone.example", '"include:_nb3.mailone.example ~all"', '"~all"')
    night = kept_nights.night(*_WITH_KEPT)
    assert (night.status, night.lines[2:]) == (1, ["not asked any more: _nb3.mailone.example TXT", changed])
    kept_nights.change("mailone.example", '"~all"', '"include:_nb3.mailone.example ~all"')
    lines = ["same corp.test", changed, "asked besides: _nb3.mailone.example TXT"]
    assert kept_nights.night(*_WITH_KEPT) == Night(0, lines)


def _retyped(kept: str) -> tuple[str, str]:
    return kept.replace(" TXT ", " TEXT ", 1), f"bad list kept {kept.partition(' TXT ')[0].count(chr(10)) + 1}"


_DAMAGES: dict[str, Callable[[str], tuple[str, str]]] = {
    "empty": lambda kept: ("", "bad list kept 1"),
    "a type": _retyped,
    "other options": lambda kept: (
        kept.replace("; deps corp.test 10", "; deps corp.test 20"),
        "kept was kept for another domain, or with other options",
    ),
}
"""Ways to damage a kept list, each with why it does not count."""


@pytest.mark.parametrize("damage", _DAMAGES.values(), ids=_DAMAGES)
def test_damaged_list(damage: Callable[[str], tuple[str, str]], kept_nights: Nights) -> None:
    """A list that does not count is named, the night goes on, and the list is written anew."""
    good = kept_nights.kept
    text, why = damage(good)
    assert text != good
    kept_nights.workplace.write("kept", text)
    assert kept_nights.night(*_WITH_KEPT) == Night(0, ["same corp.test", f"the kept list does not count: {why}"])
    assert kept_nights.kept == good


def test_refused_night_leaves_the_list(kept_nights: Nights) -> None:
    """Each refused night names all that changed since the last good one."""
    good = kept_nights.kept
    kept_nights.change("mailtwo.example", "\nspf  ", "\nspf_gone  ")
    not_asked = [f"not asked any more: {name}.mailtwo.example TXT" for name in "ab"]
    lines = ["refused corp.test", *not_asked, "answered otherwise: spf.mailtwo.example TXT"]
    for _ in range(2):
        assert kept_nights.night(*_WITH_KEPT) == Night(2, [*lines, "refused 0.0.0.0 missing corp.test 3"])
        assert kept_nights.kept == good


@pytest.mark.parametrize(("place", "status"), [("nowhere/kept", 6), ("zones", 4)])
def test_list_that_cannot_be_written(place: str, status: int, nights: Nights) -> None:
    """No such folder, and a folder."""
    assert nights.night("--kept", place).status == status


# ------------------------------------------------------------- lists of senders by address


def test_list_of_senders(open_nights: Opener) -> None:
    """An address is added to a list of senders."""
    head = f"{Domain('').head}10.2.0.192.list 0 IN A 127.0.0.2\n"
    nights = open_nights(Domain("firm.test", head, "v=spf1 exists:%{ir}.list.firm.test -all\n"))
    assert nights.night(*_WITH_KEPT) == nights.same
    chain = nights.compiled(nights.gather("--label", "_spfa"), "--label", "_spfa")
    nights.serve(chain)
    assert nights.night(*_WITH_KEPT) == nights.same
    nights.serve(chain, "11.2.0.192.list 0 IN A 127.0.0.2\n")
    night = nights.night(*_WITH_KEPT)
    change = "1 address, the least 192.0.2.11, from fail to pass"
    assert night.lines == ["changed firm.test", change, "answered otherwise: list.firm.test REVERSE4"]
    assert (night.status, "ip4:192.0.2.10/31" in night.records) == (1, True)
    list_zone = nights.workplace.write("list", "10.2.0.192 0 IN A 127.0.0.2\n")
    assert nights.night(f"list.firm.test={list_zone}") == nights.same


# ------------------------------------------------------------- the documents


def test_example_from_dns(open_nights: Opener) -> None:
    """The commands of examples/from-dns give the files and lines that it shows."""
    example = TOP / "examples/from-dns"
    zone = (ZONES / "example.com").read_text().splitlines(keepends=True)
    head = "".join(line for line in zone if "v=spf1" not in line)
    nights = open_nights(Domain("example.com", head, (example / "policy").read_text()))
    gathered = nights.gather()
    assert nights.workplace.read("gathered") == (example / "gathered").read_text()
    fragment = nights.compiled(gathered)
    assert fragment == (example / "fragment").read_text()
    nights.serve(fragment)
    nights.workplace.write("fragment", fragment)
    verify = ["verify", "example.com", "fragment", nights.gather("--policy", "policy")]
    assert nights.workplace.spfc(*verify).output == "yes 57 3\n"
    assert nights.night(*_WITH_KEPT) == nights.same
    assert nights.kept == (example / "kept").read_text()
    nights.change("mailone.example", *_NETWORK_MORE)
    night = nights.night(*_WITH_KEPT)
    assert (night.status, night.lines) == (1, ["changed example.com", _GAINED, _CHANGED_ANSWER])
    readme = (example / "README.md").read_text()
    assert [line for line in night.lines if line not in readme] == []
    assert night.records == nights.wanted("--label", "_spfa")
    nights.serve(night.records)
    assert nights.night(*_WITH_KEPT) == nights.same


def test_by_hand(open_nights: Opener) -> None:
    """The commands of "The same by hand" in docs/ADMINISTRATORS.md, run as they are written there."""
    nights = open_nights(Domain("example.com"))
    tools = _commands(nights)
    fragment = nights.workplace.write("fragment", nights.compiled(nights.gather()))
    nights.serve(fragment.read_text())
    first, night, publish = _blocks("### The same by hand")
    _run_block(first, nights, tools)
    assert _run_block(night, nights, tools) == ["fresh", "yes 56 3", "equal"]
    nights.change("mailone.example", *_NETWORK_MORE)
    wanted = ["stale _nb3.mailone.example TXT", "no verdict 198.19.7.0", "differ softfail pass 198.19.7.0 256"]
    assert _run_block(night, nights, tools) == wanted
    _run_block(publish, nights, tools)
    assert fragment.read_text() == nights.wanted("--label", "_spfb")
    nights.serve(fragment.read_text())
    lines = _run_block(night, nights, tools)
    assert (lines[0], lines[-1]) == ("fresh", "equal")


def _commands(nights: Nights) -> Path:
    """A folder with the commands of the documents, which ask the server of these nights."""
    folder = nights.workplace.folder / "commands"
    folder.mkdir()
    place = " ".join([*nights.server.words, "--tries", "2", "--time", "2"])
    program, gather = nights.workplace.program, nights.workplace.bin / "spfc-gather"
    for name, command in {"spfc": f'{program} "$@"', "spfc-gather": f'{gather} "$@" {place}'}.items():
        (folder / name).write_text(f"#!/bin/sh\nSPFC={program} exec {command}\n")
        (folder / name).chmod(0o755)
    return folder


def _blocks(title: str) -> list[str]:
    """The blocks of commands after a title of the document, up to the next title."""
    text = (TOP / "docs/ADMINISTRATORS.md").read_text().split(f"\n{title}\n")[1].split("\n#")[0]
    parts = text.split("\n\n")
    return ["\n".join(line[4:] for line in part.split("\n")) for part in parts if part.startswith("    ")]


def _run_block(block: str, nights: Nights, tools: Path) -> list[str]:
    """Runs the commands of a block, and returns the lines that they print."""
    ended = run(["sh", "-c", f"({block}) 2>&1"], nights.workplace.folder, {"PATH": f"{tools}:/usr/bin:/bin"})
    return ended.output.splitlines()
