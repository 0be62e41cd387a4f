"""Kept lists, which `spfc keep` writes: each question to DNS that a policy asks, with its answer."""

import ipaddress
import re
from collections.abc import Iterator, Mapping, Sequence
from dataclasses import dataclass
from itertools import pairwise
from pathlib import Path

from spfc_tools import files
from spfc_tools.commands import READING
from spfc_tools.exit_statuses import Ending, Status
from spfc_tools.program import Program
from spfc_tools.texts import presented_strings

_FIRST = re.compile(r"; deps (\S+) (\d+) (\d+) (\d+)")


@dataclass(frozen=True)
class KeptList:
    """A list: its domain, the reading options under which it was kept, and the answers by the questions of `deps`."""

    domain: str
    reading: tuple[str, ...]
    answers: Mapping[str, str]


def read_list(text: str) -> KeptList | None:
    """The list of a text whose first line is that of a list. spfc judges all other lines."""
    first, _, rest = text.partition("\n")
    found = _FIRST.fullmatch(first)
    if found is None:
        return None
    reading = tuple(word for pair in zip(READING, found.groups()[1:]) for word in pair)
    lines = (line.split(" ", 2) for line in rest.split("\n") if line.count(" ") > 1)
    return KeptList(found[1], reading, {f"{name} {kind}": answer for name, kind, answer in lines})


def differences(old: KeptList, new: KeptList) -> Iterator[str]:
    """A line for each question that only one list has, or that the two answer differently."""
    for question in dict.fromkeys([*old.answers, *new.answers]):
        if question not in new.answers:
            yield f"not asked any more: {question}"
        elif question not in old.answers:
            yield f"asked besides: {question}"
        elif old.answers[question] != new.answers[question]:
            yield f"answered otherwise: {question}"


_WORDS = {
    "outside": "the answer lies outside the zones",
    "noname": "the name does not exist",
    "nodata": "the name has no records of this kind",
    "loop": "aliases lead on after 8 steps, or round",
}
_CLASSES = {
    "hit": "listed",
    "void": "not listed",
    "beyond": "outside the zones",
    "round": "an alias that leads round",
}
_FOUND, _REVERSED = "found", "reversed"
_STRINGS = re.compile(r"x([0-9a-f]{2})*(/([0-9a-f]{2})*)*")
_SHOWN = 10


def in_words(answer: str) -> list[str]:
    """What an answer says, a line for each record."""
    word, *items = answer.split(" ")
    if word == _FOUND:
        return [_item(item) for item in items]
    return [_WORDS.get(answer, answer)]


def changes(old: str, new: str) -> list[str]:
    """What one answer says and another does not."""
    parts = _leaves(old), _leaves(new)
    if parts[0] and parts[1]:
        return list(_shown(list(_changed_parts(*parts))))
    then, now = in_words(old), in_words(new)
    lines = [f"kept, and not answered today: {line}" for line in then if line not in now]
    lines += [f"answered today, and not kept: {line}" for line in now if line not in then]
    return lines or ["the same records, in another order"]


def joined_texts(answer: str) -> list[bytes]:
    """The texts of TXT records, each with its strings joined."""
    return [b"".join(_strings(item)) for item in answer.split(" ")[1:] if _STRINGS.fullmatch(item)]


def _item(item: str) -> str:
    """A record: an address, a preference and a name, or strings in hexadecimal after an x."""
    return presented_strings(_strings(item)) if _STRINGS.fullmatch(item) else item.replace("/", " ")


def _strings(item: str) -> list[bytes]:
    return [bytes.fromhex(string) for string in item[1:].split("/")]


@dataclass(frozen=True)
class _Leaf:
    """A network of a list of addresses, and what all its addresses are."""

    network: ipaddress.IPv4Network | ipaddress.IPv6Network
    name: str

    @property
    def first(self) -> int:
        """The number of the least address."""
        return int(self.network.network_address)

    @property
    def end(self) -> int:
        """The number after the greatest address."""
        return self.first + self.network.num_addresses


def _leaves(answer: str) -> list[_Leaf]:
    """The networks of a list of addresses, which divide those of a family; none if the answer is not such a list."""
    word, *items = answer.split(" ")
    parts = (item.rpartition("=") for item in items)
    try:
        leaves = [_Leaf(ipaddress.ip_network(network), _CLASSES.get(name, name)) for network, _, name in parts]
    except ValueError:
        return []
    are_parting = all(one.end == other.first for one, other in pairwise(leaves))
    is_whole = leaves and (leaves[0].first, leaves[-1].end) == (0, 1 << leaves[0].network.max_prefixlen)
    return leaves if word == _REVERSED and are_parting and is_whole else []


def _changed_parts(old: Sequence[_Leaf], new: Sequence[_Leaf]) -> Iterator[str]:
    """Each run of addresses that were one thing and are another."""
    runs: list[tuple[int, int, str, str]] = []
    edges = sorted({edge for leaf in (*old, *new) for edge in (leaf.first, leaf.end)})
    before, after = iter(old), iter(new)
    one, other = next(before), next(after)
    for first, end in pairwise(edges):
        one = one if first < one.end else next(before)
        other = other if first < other.end else next(after)
        if one.name != other.name:
            if runs and runs[-1][1:] == (first, one.name, other.name):
                first = runs.pop()[0]
            runs.append((first, end, one.name, other.name))
    address = type(old[0].network.network_address)
    for first, end, was, is_now in runs:
        yield f"{_counted(end - first)} from {address(first)} on: {was} in the kept list, {is_now} today"


def _counted(count: int) -> str:
    return "1 address" if count == 1 else f"{count} addresses"


def _shown(lines: Sequence[str]) -> Iterator[str]:
    yield from lines[:_SHOWN]
    if len(lines) > _SHOWN:
        yield f"and {len(lines) - _SHOWN} more such runs of addresses"


_FRESH = "fresh\n"


class Watch:
    """The kept list of a domain, in a file that need not be there yet.

    A file with anything else than a kept list ends the tool: it is not to be written over.
    """

    def __init__(self, program: Program, path: Path, of_domain: str, words: Sequence[str]) -> None:
        _judge(path)
        self._program = program
        self._path = path
        self._keep = ["keep", of_domain, *words]
        self._zones = [word for word in words if "=" in word]

    def changes(self, zone: str) -> list[str]:
        """A line for each question that is not answered as the list has it; or why the list does not count."""
        if not self._path.exists():
            return []
        ended = self._program.over(["stale", str(self._path), *self._zones], zone)
        if ended.status:
            return [_not_counted(ended.line)]
        old, new = read_list(self._path.read_text(encoding="latin-1")), self._list(zone)
        if old is None or (old.domain, old.reading) != (new.domain, new.reading):
            return [_not_counted(f"{self._path} was kept for another domain, or with other options")]
        if ended.output == _FRESH:
            return []
        return list(differences(old, new))

    def renew(self, zone: str) -> None:
        """Keeps the answers of today, whole or not at all."""
        files.write(self._path, self._text(zone))

    def _text(self, zone: str) -> str:
        ended = self._program.over(self._keep, zone)
        if ended.status:
            raise Ending(Status.TOOL, f"spfc keep ended with {ended.status}: {ended.line}")
        return ended.output

    def _list(self, zone: str) -> KeptList:
        found = read_list(self._text(zone))
        if found is None:
            raise Ending(Status.TOOL, "spfc keep wrote no list")
        return found


def _judge(path: Path) -> None:
    """Ends if the file cannot be read, or is not a kept list."""
    if not path.exists():
        return
    if not path.is_file():
        raise Ending(Status.USAGE, f"expected a kept list or a new file, got {path}, which is not a plain file")
    try:
        text = path.read_text(encoding="latin-1")
    except OSError as error:
        raise Ending(Status.TOOL, f"{path}: {error.strerror}") from error
    if text and read_list(text) is None:
        raise Ending(Status.USAGE, f"expected a kept list or a new file, got {path}, which is not a kept list")


def _not_counted(why: str) -> str:
    return f"the kept list does not count: {why}"
