"""The strings of TXT records."""

from collections.abc import Sequence

import dns.rdataclass
import dns.rdatatype
from dns.rdtypes.ANY.TXT import TXT

_MOST_OCTETS = 255
"""Of one string."""


def presented(text: bytes) -> str:
    """The text in presentation form, cut into strings."""
    return presented_strings(
        [text[start : start + _MOST_OCTETS] for start in range(0, len(text), _MOST_OCTETS)] or [b""]
    )


def presented_strings(strings: Sequence[bytes]) -> str:
    """Strings in presentation form."""
    return str(TXT(dns.rdataclass.IN, dns.rdatatype.TXT, strings).to_text())


_QUOTES = "\"'\u2018\u2019\u201a\u201c\u201d\u201e\u00ab\u00bb"
_MARK = "\ufeff"


def why_no_policy(text: bytes) -> str | None:
    """Why a text that was meant to be an SPF record is none; nothing if it was not meant to be one."""
    read = text.decode("utf-8", errors="replace")
    bare = read.strip(_MARK + _QUOTES + " \t\r\n")
    version = bare.split(" ", 1)[0].lower().translate({ord(quote): None for quote in _QUOTES})
    if not version.startswith("v=spf"):
        return None
    if read.startswith(_MARK):
        return "it begins with a byte order mark, which has to go"
    if read[:1] in _QUOTES:
        return f"it begins with the quote {read[:1]}, which is no part of the text"
    if read != read.lstrip():
        return "it begins with white space"
    if version != "v=spf1":
        return f"its version is {version}, and not v=spf1"
    return "after v=spf1 comes no plain space"
