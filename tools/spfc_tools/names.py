"""Names as spfc prints them: labels joined by dots, in lower case, odd signs as a backslash and three digits."""

import dns.name
from dns.name import Name

_ESCAPED = frozenset(b'.\\";()@$')
_MOST_OCTETS = 255
WILDCARD = b"*"


def _printed_label(label: bytes) -> str:
    return "".join(chr(b) if 33 <= b <= 126 and b not in _ESCAPED else f"\\{b:03}" for b in label.lower())


def printed(name: Name) -> str:
    """The printed form, which has no final dot; the root is `.`."""
    return ".".join(map(_printed_label, name.labels[:-1])) or "."


def absolute(name: Name) -> str:
    """The form with a final dot, for master files."""
    return printed(name).removesuffix(".") + "."


def read(text: str) -> Name:
    """The name of a printed form, or of the words of a person, with or without a final dot."""
    return dns.name.from_text(text, dns.name.root).canonicalize()


def child(label: bytes, parent: Name) -> Name | None:
    """The name of a label below another name, where it is not too long for a name."""
    octets = 1 + len(label) + sum(1 + len(part) for part in parent.labels)
    return Name((label, *parent.labels)) if octets <= _MOST_OCTETS else None


def with_ancestors(name: Name) -> list[Name]:
    """The name and all names above it, the root last."""
    return [Name(name.labels[start:]) for start in range(len(name.labels))]
