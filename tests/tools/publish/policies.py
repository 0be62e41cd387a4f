"""Two policies, and the fragments that spfc makes of them."""

from dataclasses import dataclass
from pathlib import Path

from publish_servers import DOMAIN, SITE
from workplace import Workplace

SIZE = "200"
TTL = "1"
_FIRST = " ".join(f"ip4:198.18.{2 * number}.0/24" for number in range(20))
_SECOND = " ".join(f"ip4:198.18.{2 * number}.0/24" for number in range(2, 24))
TEXTS = {"a": f"v=spf1 {_FIRST} ip4:203.0.113.7 ~all", "b": f"v=spf1 {_SECOND} ip4:203.0.113.7 ~all"}
ADDRESSES = (
    "198.18.0.1",
    "198.18.1.1",
    "198.18.10.1",
    "198.18.20.200",
    "198.18.38.1",
    "198.18.46.9",
    "203.0.113.7",
    "203.0.113.8",
    "192.0.2.1",
    "2001:db8::1",
)


@dataclass(frozen=True)
class Policy:
    """A policy: the file with its text, and the fragment under a label of its own."""

    text: Path
    fragment: Path

    @property
    def words(self) -> list[str]:
        """The words by which the fragment is published."""
        return [DOMAIN, str(self.fragment), "--policy", str(self.text), "--size", SIZE]


def presented(text: str) -> str:
    """A text as the strings of a TXT record."""
    return " ".join(f'"{text[start:start + 255]}"' for start in range(0, len(text), 255))


def policy(workplace: Workplace, letter: str, label: str | None = None) -> Policy:
    """One of the two policies."""
    text = workplace.write(f"policy.{letter}", TEXTS[letter] + "\n")
    source = workplace.write(
        f"source.{letter}", f"{DOMAIN}. IN TXT {SITE}\n{DOMAIN}. IN TXT {presented(TEXTS[letter])}\n"
    )
    options = ["--size", SIZE, "--ttl", TTL, "--label", label or f"_spf{letter}"]
    compiled = workplace.spfc("compile", DOMAIN, *options, f".={source}")
    assert compiled.status == 0, compiled.line
    return Policy(text, workplace.write(f"fragment.{letter}{label or ''}", compiled.output))
