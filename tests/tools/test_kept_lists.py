"""Kept lists: read, compared, and their answers in words."""

import pytest
from spfc_tools.kept_lists import KeptList, changes, differences, in_words, joined_texts, read_list

_TEXT = """; deps example.com 10 2 10
example.com TXT found x763d73706631/202d616c6c
mail.example.com A found 192.0.2.1 192.0.2.2
"""
_READING = ("--lookups", "10", "--voids", "2", "--exchanges", "10")


def _kept(**answers: str) -> KeptList:
    return KeptList("example.com", _READING, {f"{name} A": answer for name, answer in answers.items()})


def test_read() -> None:
    """The domain, the reading options, and each question with its answer."""
    assert read_list(_TEXT) == KeptList(
        "example.com",
        _READING,
        {
            "example.com TXT": "found x763d73706631/202d616c6c",
            "mail.example.com A": "found 192.0.2.1 192.0.2.2",
        },
    )


@pytest.mark.parametrize("text", ["", "v=spf1 -all\n", "; deps example.com 10 2\n", "; deps example.com 10 2 x\n"])
def test_no_list(text: str) -> None:
    """A text whose first line is not that of a list."""
    assert read_list(text) is None


def test_differences() -> None:
    """A line for each question that is answered otherwise, not asked any more, or asked besides; none for the rest."""
    old = _kept(a="found 192.0.2.1", b="nodata", c="noname")
    new = _kept(a="found 192.0.2.2", b="nodata", d="nodata")
    assert list(differences(old, new)) == ["answered otherwise: a A", "not asked any more: c A", "asked besides: d A"]
    assert list(differences(old, old)) == []


@pytest.mark.parametrize(
    ("answer", "lines"),
    [
        ("found 192.0.2.1 192.0.2.2", ["192.0.2.1", "192.0.2.2"]),
        ("found 10/mail.example.com", ["10 mail.example.com"]),
        ("found x763d73706631/202d616c6c", ['"v=spf1" " -all"']),
        ("found x", ['""']),
        ("noname", ["the name does not exist"]),
        ("nodata", ["the name has no records of this kind"]),
        ("outside", ["the answer lies outside the zones"]),
    ],
)
def test_answer_in_words(answer: str, lines: list[str]) -> None:
    """A line for each record, or what there is in place of records."""
    assert in_words(answer) == lines


def test_joined_texts() -> None:
    """The strings of each TXT record are joined (RFC 7208, section 3.3)."""
    assert joined_texts("found x763d73706631/202d616c6c x00ff") == [b"v=spf1 -all", b"\x00\xff"]


@pytest.mark.parametrize(
    ("old", "new", "lines"),
    [
        (
            "found 192.0.2.1 192.0.2.2",
            "found 192.0.2.2 192.0.2.3",
            ["kept, and not answered today: 192.0.2.1", "answered today, and not kept: 192.0.2.3"],
        ),
        ("found 192.0.2.1 192.0.2.2", "found 192.0.2.2 192.0.2.1", ["the same records, in another order"]),
        (
            "nodata",
            "noname",
            [
                "kept, and not answered today: the name has no records of this kind",
                "answered today, and not kept: the name does not exist",
            ],
        ),
        (
            "reversed 0.0.0.0/1=void 128.0.0.0/1=void",
            "reversed 0.0.0.0/1=void 128.0.0.0/2=hit 192.0.0.0/2=hit",
            ["2147483648 addresses from 128.0.0.0 on: not listed in the kept list, listed today"],
        ),
        (
            "reversed ::/0=void",
            "reversed ::/1=hit",
            ["kept, and not answered today: reversed ::/0=void", "answered today, and not kept: reversed ::/1=hit"],
        ),
    ],
    ids=["records", "order", "void", "runs of addresses", "no whole list"],
)
def test_changes(old: str, new: str, lines: list[str]) -> None:
    """What one answer says and the other does not; of lists of senders each run of addresses."""
    assert changes(old, new) == lines


def test_many_changes() -> None:
    """Ten runs of addresses are shown, and the number of the rest."""
    new = " ".join(f"{number * 8}.0.0.0/5={'hit' if number % 2 else 'void'}" for number in range(32))
    lines = changes("reversed 0.0.0.0/0=void", f"reversed {new}")
    assert len(lines) == 11
    assert lines[0] == "134217728 addresses from 8.0.0.0 on: not listed in the kept list, listed today"
    assert lines[-1] == "and 6 more such runs of addresses"
