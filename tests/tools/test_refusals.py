"""The lines of spfc, read by the forms of the tables."""

import pytest
from spfc_tools.refusals import read_line


@pytest.mark.parametrize(
    ("text", "form", "words"),
    [
        (
            "refused 2001:db8::1 lookups example.com 12",
            "refused ADDRESS CAUSE NAME TERM",
            {"ADDRESS": "2001:db8::1", "CAUSE": "lookups", "NAME": "example.com", "TERM": "12"},
        ),
        (
            "permerror syntax a.test 0",
            "OUTCOME CAUSE NAME TERM",
            {"WAY": "permerror", "CAUSE": "syntax", "NAME": "a.test", "TERM": "0"},
        ),
        ("softfail", "VERDICT", {}),
        ("too big", "too big", {}),
        ("refused taken 3 _spf3.a.test", "refused taken K NAME", {"K": "3", "NAME": "_spf3.a.test"}),
        ("no file a b", "no file FILE", {"FILE": "a b"}),
        ("bad zone a b 7 NoType", "bad zone FILE LINE KIND", {"FILE": "a b", "LINE": "7", "KIND": "NoType"}),
        ("stale a.test REVERSE4", "stale NAME KIND", {"NAME": "a.test", "KIND": "REVERSE4"}),
    ],
)
def test_line(text: str, form: str, words: dict[str, str]) -> None:
    """The form of a line, and the words in its places."""
    line = read_line(text)
    assert line is not None
    assert (line.form, line.words) == (form, words)


@pytest.mark.parametrize(
    "text",
    [
        "",
        "passed",
        "refused",
        "refused 192.0.2.1 nothing a.test 1",
        "refused taken x a.test",
        "bad zone a b NoType",
        "pass ",
    ],
)
def test_no_line(text: str) -> None:
    """A text that is no line of spfc."""
    assert read_line(text) is None
