"""Lists of senders by address: which names below a list are those of addresses."""

from pathlib import Path

import pytest
from spfc_tools import names
from spfc_tools.facts import Kind, Question
from spfc_tools.sender_lists import answers_for_some, leads_to_some, targets_in_files

_DIGITS = ".".join("0" * 32)


@pytest.mark.parametrize(
    ("name", "kind", "answers", "leads"),
    [
        ("10.2.0.192.list.test", Kind.REVERSE4, True, True),
        ("2.0.192.list.test", Kind.REVERSE4, False, True),
        ("*.2.0.192.list.test", Kind.REVERSE4, True, False),
        ("*.list.test", Kind.REVERSE4, True, False),
        ("*.10.2.0.192.list.test", Kind.REVERSE4, False, False),
        ("list.test", Kind.REVERSE4, False, True),
        ("1.10.2.0.192.list.test", Kind.REVERSE4, False, False),
        ("256.2.0.192.list.test", Kind.REVERSE4, False, False),
        ("010.2.0.192.list.test", Kind.REVERSE4, False, False),
        ("x.list.test", Kind.REVERSE4, False, False),
        (f"{_DIGITS}.list.test", Kind.REVERSE6, True, True),
        ("8.b.d.0.1.0.0.2.list.test", Kind.REVERSE6, False, True),
        ("*.8.b.d.0.1.0.0.2.list.test", Kind.REVERSE6, True, False),
        ("10.list.test", Kind.REVERSE6, False, False),
        (f"0.{_DIGITS}.list.test", Kind.REVERSE6, False, False),
    ],
)
def test_reversed_name(name: str, kind: Kind, answers: bool, leads: bool) -> None:
    """Four octets, or 32 hexadecimal digits, the last first; and wildcards above them."""
    question = Question(names.read("list.test"), kind)
    assert (answers_for_some(names.read(name), question), leads_to_some(names.read(name), question)) == (answers, leads)


def test_targets_in_a_file(tmp_path: Path) -> None:
    """The names to which addresses of a list lead in the file of its zone."""
    zone = tmp_path / "zone"
    zone.write_text("10.2.0.192.list CNAME a.other.test.\nx.list CNAME b.other.test.\n11.2.0.192.list A 127.0.0.2\n")
    question = Question(names.read("list.own.test"), Kind.REVERSE4)
    assert list(targets_in_files([f"own.test={zone}"], question)) == [names.read("a.other.test")]
    assert list(targets_in_files([f"other.test={zone}"], question)) == []
