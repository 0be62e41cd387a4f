"""Names and texts in presentation form: whatever a stranger put into them, they are read back as they were."""

import dns.rdataclass
import dns.rdatatype
import dns.zone
import pytest
from dns.name import Name, root
from dns.rdtypes.ANY.TXT import TXT
from spfc_tools import names
from spfc_tools.texts import presented, presented_strings
from spfc_tools.world import Record

_ODD_LABELS = [bytes([octet]) for octet in range(256)] + [
    b"$INCLUDE",
    b"a.b",
    b"a b",
    b"a\nb",
    b'";',
    b"\\046",
    b"x" * 63,
]


def _zone(text: str) -> dns.zone.Zone:
    """A master file of the root."""
    return dns.zone.from_text(f"$TTL 0\n{text}\n", root, relativize=False, check_origin=False)


@pytest.mark.parametrize("label", _ODD_LABELS, ids=repr)
def test_odd_label(label: bytes) -> None:
    """A label with any octet is one line and one name, in a master file and as a person reads it."""
    name = Name((label, b"example", b"com", b""))
    text = names.printed(name)
    assert text.isprintable()
    assert " " not in text
    assert names.read(text) == name.canonicalize()
    line = str(Record(name, "A", "192.0.2.1"))
    assert list(_zone(line).nodes) == [name.canonicalize()]


@pytest.mark.parametrize("name", ["$INCLUDE.example.com", "$TTL", "@", "*", "a(b", "a;b"])
def test_name_is_no_directive(name: str) -> None:
    """A name that looks like a directive, the origin or a comment begins a line as a name."""
    owner = Name((*name.encode().split(b"."), b""))
    line = str(Record(owner, "TXT", '"x"'))
    assert line[0] not in "$@ ;"
    assert list(_zone(line).nodes) == [owner.canonicalize()]


@pytest.mark.parametrize(
    ("text", "wanted"),
    [("Example.COM", "example.com"), ("example.com.", "example.com"), (".", "."), (r"a\.b.com", r"a\046b.com")],
)
def test_printed_form(text: str, wanted: str) -> None:
    """Lower case, no final dot, and a dot within a label as \\046."""
    assert names.printed(names.read(text)) == wanted


def test_absolute_form() -> None:
    """The root is a dot, and other names end in one."""
    assert [names.absolute(names.read(text)) for text in (".", "a.test")] == [".", "a.test."]


def test_child_of_a_long_name() -> None:
    """A name has at most 255 octets (RFC 1035, section 2.3.4)."""
    parent = Name((b"a" * 63, b"b" * 63, b"c" * 63, b"d" * 59, b""))
    assert len(parent.to_wire() or b"") == 253
    assert names.child(b"x", parent) == Name((b"x", *parent.labels))
    assert names.child(b"xy", parent) is None


def test_with_ancestors() -> None:
    """A name and all above it, the root last."""
    assert list(map(names.printed, names.with_ancestors(names.read("a.b.c")))) == ["a.b.c", "b.c", "c", "."]


@pytest.mark.parametrize(
    "text",
    [
        b"",
        b"v=spf1 -all",
        bytes(range(256)),
        b'"',
        b"\\",
        b"a\n$INCLUDE /etc/passwd\n",
        b"x" * 255,
        b"x" * 256,
        b"y" * 600,
    ],
    ids=lambda text: repr(text[:20]),
)
def test_text(text: bytes) -> None:
    """A text is one line, cut into strings of 255 octets, and is read back with every octet."""
    data = presented(text)
    assert data.isprintable()
    node = next(iter(_zone(f"a.test. IN TXT {data}").nodes.values()))
    record = node.find_rdataset(dns.rdataclass.IN, dns.rdatatype.TXT)[0]
    assert isinstance(record, TXT)
    strings: tuple[bytes, ...] = record.strings
    assert b"".join(strings) == text
    assert [len(string) for string in strings[:-1]] == [255] * (len(strings) - 1)


def test_strings() -> None:
    """The cut of a text into strings is kept."""
    assert presented_strings([b"v=spf1 ", b"-all"]) == '"v=spf1 " "-all"'
