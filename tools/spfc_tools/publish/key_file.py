"""A TSIG key in the form of BIND: `key NAME { algorithm ALGORITHM; secret "SECRET"; };` (RFC 8945)."""

from __future__ import annotations

import binascii
import re
import stat
from base64 import b64decode
from dataclasses import dataclass, field
from pathlib import Path

import dns.exception
import dns.name
import dns.tsig
from dns.name import Name

from spfc_tools.publish.endings import refused

_STRING_OR_COMMENT = re.compile(r'("[^"\n]*")|/\*.*?\*/|//[^\n]*|#[^\n]*', re.DOTALL)
_KEY = re.compile(r'key\s+"?([^\s"{]+)"?\s*\{([^}]*)\}', re.DOTALL)
_CLAUSE = re.compile(r'\s*(algorithm|secret)\s+"?([^\s";]+)"?\s*')
_ALGORITHMS = {
    "hmac-md5": dns.tsig.HMAC_MD5,
    "hmac-sha1": dns.tsig.HMAC_SHA1,
    "hmac-sha224": dns.tsig.HMAC_SHA224,
    "hmac-sha256": dns.tsig.HMAC_SHA256,
    "hmac-sha384": dns.tsig.HMAC_SHA384,
    "hmac-sha512": dns.tsig.HMAC_SHA512,
}


@dataclass(frozen=True)
class Key:
    """A key, whose secret no text of it shows."""

    name: Name
    algorithm: Name
    secret: bytes = field(repr=False)

    @property
    def ring(self) -> dict[Name, dns.tsig.Key]:
        """The key as dnspython takes it."""
        return {self.name: dns.tsig.Key(self.name, self.secret, self.algorithm)}  # type: ignore[no-untyped-call]


def read_key(path: Path) -> Key:
    """The one key of the file, which nobody but its owner may read."""
    refuse_open(path)
    try:
        text = _STRING_OR_COMMENT.sub(lambda found: found[1] or " ", path.read_text(encoding="ascii"))
    except (OSError, UnicodeError) as error:
        raise refused(f"{path} cannot be read as a key file") from error
    keys = _KEY.findall(text)
    if len(keys) != 1:
        raise refused(f"{path} has {len(keys) or 'no'} keys: expected one, as tsig-keygen writes it")
    name, body = keys[0]
    matches = filter(None, map(_CLAUSE.fullmatch, body.split(";")))
    clauses = {match[1]: match[2] for match in matches}
    algorithm = _ALGORITHMS.get(clauses.get("algorithm", "").lower().removesuffix("."))
    if algorithm is None or "secret" not in clauses:
        raise refused(f"{path} has a key without an algorithm that is known, or without a secret")
    try:
        secret = b64decode(clauses["secret"], validate=True)
        return Key(dns.name.from_text(name).canonicalize(), algorithm, secret)
    except (binascii.Error, dns.exception.DNSException) as error:
        raise refused(f"{path} has a key whose name or secret cannot be read") from error


def refuse_open(path: Path) -> None:
    """Refuses a file with a secret that others than its owner may read or write."""
    try:
        mode = path.stat().st_mode
    except OSError as error:
        raise refused(f"{path}: {error.strerror}") from error
    if not stat.S_ISREG(mode):
        raise refused(f"{path} is not a plain file")
    if mode & (stat.S_IRWXG | stat.S_IRWXO):
        raise refused(f"{path} can be read by others than its owner: chmod 600 {path}")
