"""spfc-explain over a case of each line, cause and kind of its tables, and those tables in the documents."""

import shutil
import subprocess
import sys
from collections.abc import Iterator, Mapping
from dataclasses import dataclass
from functools import cache
from importlib.machinery import SourceFileLoader
from importlib.util import module_from_spec, spec_from_loader
from pathlib import Path
from types import ModuleType

import pytest
from spfc_tools.commands import COMMANDS
from spfc_tools.refusals import CAUSES, KINDS, LINES, QUESTIONS, REASONS, WATCHED, Entry, markdown, read_line
from workplace import TOP, Ended, Workplace

_BY_OTHERS = ("refused ADDRESS", "bad zone", "no zone", "bad list")
"""Lines whose cause or kind has an entry of its own, under which their cases are, or which have a test of their own."""
_ENTRIES: Mapping[str, Entry] = {**CAUSES, **KINDS, **LINES, **REASONS}


# ------------------------------------------------------------- a line alone

_LINES = {
    "refused 0.0.0.0 lookups example.com 12": "one lookup too many",
    "permerror missing example.com 2": "A receiver gives a permanent error.",
    "pass": "the address gets the verdict pass",
    "bad zone a file 4 OpenQuote": "close the quotes",
    "no file x y": "there is no such file",
    **{form.replace("NAME KIND", "example.com REVERSE6"): entry.plain.help for form, entry in WATCHED.items()},
}


@pytest.mark.parametrize("line", _LINES)
def test_line(line: str, workplace: Workplace) -> None:
    """A line, as one word and, unless its first word is a command, as several."""
    for words in [[line]] if line.split()[0] in COMMANDS else [[line], line.split()]:
        ended = workplace.tool("spfc-explain", *words)
        assert (ended.status, ended.line) == (0, "")
        assert _LINES[line] in ended.output


@pytest.mark.parametrize("line", ["hello", "refused 0.0.0.0 nothing example.com 12"])
def test_unknown_line(line: str, workplace: Workplace) -> None:
    """A line that spfc never prints."""
    ended = workplace.tool("spfc-explain", line)
    assert ended.status == 2
    assert "This is no line of spfc" in ended.output


def test_no_line(workplace: Workplace) -> None:
    """No words, and nothing on standard input."""
    assert workplace.tool("spfc-explain").status == 4


# ------------------------------------------------------------- a case of each entry


@dataclass(frozen=True)
class Case:
    """A folder of tests/cases or examples, and the words of a command that is run in it."""

    folder: Path
    words: tuple[str, ...]


@cache
def _cases_module() -> ModuleType:
    """bin/cases, which reads the folders of cases."""
    loader = SourceFileLoader("cases", str(TOP / "bin/cases"))
    spec = spec_from_loader("cases", loader)
    assert spec is not None
    module = module_from_spec(spec)
    loader.exec_module(module)
    return module


def _words_of(words: list[bytes]) -> tuple[str, ...]:
    return tuple(word.decode("latin-1") for word in words)


@cache
def _first_cases() -> dict[str, Case]:
    """For each entry of the tables the first case that prints its line."""
    module = _cases_module()
    found: dict[str, Case] = {}
    for folder in module.chosen([]):
        if not (folder / "full").exists() and not (folder / "memory").exists():
            for case in module.cases_of(folder):
                found.setdefault(
                    _key((case.line or case.output).decode("latin-1")), Case(folder, _words_of(case.words))
                )
    return found


def _key(text: str) -> str:
    """The key of the tables under which the line is; empty for a text that is none of their lines."""
    line = read_line(text.rstrip("\n"))
    return "" if line is None else line.cause or line.words.get("KIND") or line.form


def _explained(workplace: Workplace, folder: Path, words: tuple[str, ...]) -> Ended:
    """Explains a command that is run in a copy of a folder of cases."""
    copy = workplace.folder / "case"
    shutil.copytree(folder, copy)
    if (copy / "make").exists():
        subprocess.run([sys.executable, "make"], cwd=copy, check=True)
    return Workplace(copy, workplace.program, workplace.bin).tool("spfc-explain", *words)


@pytest.mark.parametrize("key", [key for key in _ENTRIES if not key.startswith(_BY_OTHERS)])
def test_entry(key: str, workplace: Workplace) -> None:
    """What the tables say of an entry is said of the first case that prints its line."""
    case = _first_cases()[key]
    ended = _explained(workplace, case.folder, case.words)
    assert (ended.status, ended.line) == (0, "")
    assert f"What helps: {_ENTRIES[key].plain.help}." in ended.output


# ------------------------------------------------------------- what looking into the files adds


@pytest.mark.parametrize(
    ("name", "text"),
    [
        ("refused-syntax", "This is no term of an SPF record: foo"),
        ("chain-name-is-taken", "This label is free in the files: --label _spfa"),
        ("size-tangle-beside-1500-octets-is-too-big", "The least size that does: --size 1545"),
        (
            "refused-address-outside-a-reversed-list",
            "For some address no file answers this question: list.example.com REVERSE4",
        ),
        ("bad-zone-open-quote-on-line-4", '    4: @ IN TXT "v=spf1 -all'),
        ("compile-eleven-hosts-are-one-lookup-too-many", "For 128.0.0.0 it takes 11: --lookups 11 reads it."),
    ],
)
def test_case(name: str, text: str, workplace: Workplace) -> None:
    """What is said of some cases besides the tables."""
    folder = TOP / "tests/cases" / name
    ended = _explained(workplace, folder, _words_of(_cases_module().cases_of(folder)[0].words))
    assert ended.status == 0
    assert text in ended.output


@pytest.mark.parametrize(
    ("words", "text"),
    [
        (
            "compare flat.example.com eleven.example.com example.com=zone",
            "For 0.0.0.0 it takes 11: --lookups 11 reads it.",
        ),
        ("compare flat.example.com reverse.example.com example.com=bad with example.com=zone", "    1: "),
        ("compare flat.example.com reverse.example.com example.com=zone with example.com=zone", "-->   1 ptr"),
    ],
)
def test_two_policies(words: str, text: str, workplace: Workplace) -> None:
    """Of two policies the one that is refused is looked into."""
    ended = _explained(workplace, TOP / "tests/cases/compare-refused", tuple(words.split()))
    assert ended.status == 0
    assert text in ended.output


# ------------------------------------------------------------- kept lists

_ZONE = """@ IN TXT "v=spf1 a:aa.example.com a:host.example.com mx exists:%{ir}.list.%{d} ~all"
aa IN A 192.0.2.1
aa IN AAAA 2001:db8::1
host IN A 192.0.2.3
host IN AAAA 2001:db8::3
@ IN MX 10 host
10.2.0.192.list IN A 127.0.0.2
"""
_CHANGED = {
    "": ["fresh", "each question of the list is answered as it was", "What helps: the policy asks for nothing"],
    "host IN A 192.0.2.3 => host IN A 192.0.2.9": [
        "stale host.example.com A",
        "What is asked: the IPv4 addresses of a name",
        "Kept, and not answered today: 192.0.2.3.",
        "Answered today, and not kept: 192.0.2.9.",
        "What helps: gather again, compile, and compare",
    ],
    "host IN AAAA 2001:db8::3 => other IN A 192.0.2.3": [
        "stale host.example.com AAAA",
        "Kept, and not answered today: 2001:db8::3.",
        "Answered today, and not kept: the name has no records of this kind.",
    ],
    "MX 10 host => MX 20 host": ["stale example.com MX", "Answered today, and not kept: 20 host.example.com."],
    "~all => -all": [
        "stale example.com TXT",
        'Kept, and not answered today: "v=spf1 a:aa.example.com a:host.example.com mx exists:%{ir}.list.%{d} ~all".',
        "-all",
    ],
    '"v=spf1 a:aa => "v=spf1 " "a:aa': ["stale example.com TXT", 'today, and not kept: "v=spf1 " "a:aa.example.com '],
    "10.2.0.192.list IN A 127.0.0.2 => *.2.0.192.list IN A 127.0.0.2": [
        "stale list.example.com REVERSE4",
        "10 addresses from 192.0.2.0 on: not listed in the kept list, listed today.",
        "245 addresses from 192.0.2.11 on: not listed in the kept list, listed today.",
    ],
    '10.2.0.192.list IN A 127.0.0.2 => 10.2.0.192.list IN TXT "gone"': [
        "1 address from 192.0.2.10 on: listed in the kept list, not listed today.",
    ],
    "aa IN A 192.0.2.1 => aa IN A 192.0.2.2 | a:aa.example.com => ip4:192.0.2.1": [
        "stale aa.example.com A",
        "Today the policy of example.com does not ask this any more.",
        "Answered today, and not kept: 192.0.2.2.",
        "Further questions of the list that are answered otherwise, or not asked any more: 2.",
    ],
}
"""Changes of the zone, `OLD => NEW`, and what is said of the list that was kept before."""
_DAMAGED = {
    "; deps example.com 10 2 10 => ; deps example.com 10 2": [
        "bad list kept 1",
        "The first line is to be: ; deps DOMAIN LOOKUPS VOIDS EXCHANGES",
        "    1: ; deps example.com 10 2",
    ],
    "example.com MX => example.com MAIL": [
        "bad list kept 4",
        "    4: example.com MAIL found",
        "Each line behind the first is to be: NAME KIND ANSWER, with one of the kinds A, AAAA, MX, TXT, REVERSE4",
    ],
    "*": ["bad list kept 1", "which is line 1 for an empty file"],
}
"""Changes of the list by hand (`*`: it is emptied), and what is said of it."""


@pytest.fixture
def kept(workplace: Workplace) -> str:
    """The kept list of the zone; both are files of the workplace."""
    workplace.write("zone", _ZONE)
    text = workplace.spfc("keep", "example.com", "example.com=zone").output
    workplace.write("kept", text)
    return text


def _edited(text: str, changes: str) -> str:
    for change in changes.split(" | ") if changes else ():
        old, new = change.split(" => ")
        assert text.count(old) == 1, f"there is {text.count(old)} times {old}"
        text = text.replace(old, new)
    return text


def _missing(workplace: Workplace, texts: list[str]) -> Iterator[str]:
    """Those of the texts that are not said of the list."""
    ended = workplace.tool("spfc-explain", "stale", "kept", "example.com=zone")
    assert (ended.status, ended.line) == (0, "")
    return (f"{text} is not in {ended.output}" for text in texts if text not in ended.output)


@pytest.mark.parametrize("changes", _CHANGED)
def test_changed_answers(changes: str, workplace: Workplace, kept: str) -> None:
    """The zone has changed since the list was kept."""
    workplace.write("zone", _edited(_ZONE, changes))
    assert list(_missing(workplace, _CHANGED[changes])) == []


@pytest.mark.parametrize("changes", _DAMAGED)
def test_damaged_list(changes: str, workplace: Workplace, kept: str) -> None:
    """The list was changed by hand."""
    workplace.write("kept", "" if changes == "*" else _edited(kept, changes))
    assert list(_missing(workplace, _DAMAGED[changes])) == []


# ------------------------------------------------------------- the documents

_MEANT = ("What it means", "What helps")


@pytest.mark.parametrize(
    ("heads", "table"),
    [
        (("CAUSE", *_MEANT), CAUSES),
        (("Line", *_MEANT), LINES),
        (("Line", *_MEANT), REASONS),
        (("Line", *_MEANT), WATCHED),
        (("KIND", *_MEANT), KINDS),
        (("KIND", "What is asked", "What asks it"), QUESTIONS),
    ],
    ids=["causes", "lines", "reasons", "watched", "kinds", "questions"],
)
def test_table_of_the_document(heads: tuple[str, str, str], table: Mapping[str, Entry]) -> None:
    """docs/ADMINISTRATORS.md has each table as spfc-explain has it."""
    assert markdown(heads, table.items()) in (TOP / "docs/ADMINISTRATORS.md").read_text()
