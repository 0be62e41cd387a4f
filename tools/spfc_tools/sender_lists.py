"""Lists of senders by address: all that is at and below a name, in place of a question for each address."""

from collections.abc import Callable, Iterator, Sequence
from functools import cache

from dns.name import Name

from spfc_tools import names
from spfc_tools.facts import Alias, Answer, Failure, Kind, Listed, Question
from spfc_tools.names import WILDCARD
from spfc_tools.resolving import Learned
from spfc_tools.transfers import Contents, NotGiven, Transfers, contents, read_zone

_LABELS = {
    Kind.REVERSE4: (4, frozenset(str(octet).encode() for octet in range(256))),
    Kind.REVERSE6: (32, frozenset(f"{digit:x}".encode() for digit in range(16))),
}
"""How many labels an address has, and which they may be."""


def answers_for_some(owner: Name, question: Question) -> bool:
    """Whether a name answers for some address: it is the reversed name of one, or a wildcard above."""
    most, _ = _LABELS[question.kind]
    labels = _in_front(owner, question)
    if labels[:1] == (WILDCARD,):
        return len(labels) <= most and _are_of_address(labels[1:], question.kind)
    return len(labels) == most and _are_of_address(labels, question.kind)


def leads_to_some(name: Name, question: Question) -> bool:
    """Whether the reversed name of some address lies at or below a name."""
    most, _ = _LABELS[question.kind]
    labels = _in_front(name, question)
    return len(labels) <= most and _are_of_address(labels, question.kind)


def _in_front(name: Name, question: Question) -> tuple[bytes, ...]:
    """The labels of a name before those of the list."""
    return name.labels[: len(name.labels) - len(question.name.labels)]


def _are_of_address(labels: tuple[bytes, ...], kind: Kind) -> bool:
    _, known = _LABELS[kind]
    return all(label in known for label in labels)


class Lists:
    """Has the zones of lists transferred: nobody can ask for each address.

    What is at or below the origin of a zone that comes from a file is left to that file.
    """

    def __init__(self, transfers: Transfers, is_in_a_file: Callable[[Name], bool]) -> None:
        self._transfers = transfers
        self._is_in_a_file = is_in_a_file

    def ask(self, question: Question) -> Learned:
        """The list, and what its names are answered for A; or why they are not known."""
        try:
            zone = self._holding(question.name)
            found = self._standing(zone, question.name, question)
        except NotGiven as reason:
            return [(question, Failure(str(reason)))]
        asked = {Question(name, Kind.A): answer for name, answer in found.items() if answer is not None}
        reached = tuple(one for one in asked if answers_for_some(one.name, question))
        return [*asked.items(), (question, Listed(reached, frozenset(found)))]

    def _holding(self, name: Name) -> Contents:
        """The zone that holds a name, below whatever delegations."""
        zone = self._transfers.holding(name)
        while above := [cut for cut in zone.cuts if name.is_subdomain(cut)]:
            zone = self._transfers.zone(min(above, key=len))
        return zone

    def _standing(self, zone: Contents, top: Name, question: Question) -> dict[Name, Answer | None]:
        """What is at and below a name in its zone, and in those to which this delegates names of addresses.

        What a name is answered that is delegated, and below which no address is asked for, is not known.
        """
        self._judge_dnames(zone, top, question)
        cuts = {cut for cut in zone.cuts if cut.is_subdomain(top)}
        found: dict[Name, Answer | None] = {
            name: answer
            for name, answer in zone.answers.items()
            if name.is_subdomain(top) and not _is_cut_off(name, top, cuts)
        }
        for cut in cuts:
            if self._is_in_a_file(cut) or _is_cut_off(cut.parent(), top, cuts):
                continue
            found[cut] = None
            if leads_to_some(cut, question):
                found |= self._standing(self._transfers.zone(cut), cut, question)
        return found or _of_wildcard(zone, top)

    @staticmethod
    def _judge_dnames(zone: Contents, top: Name, question: Question) -> None:
        """A DNAME record makes an alias of every name below it, and another one for each address."""
        for name in sorted(zone.dnames):
            if top.is_subdomain(name) or name.is_subdomain(top) and leads_to_some(name, question):
                why = f"a DNAME record at {names.printed(name)} makes an alias for each address"
                raise NotGiven(zone.origin, f"{why}, to be written out")


def targets_in_files(words: Sequence[str], question: Question) -> Iterator[Name]:
    """What the names of addresses lead to in the zones of some zone words."""
    for word in words:
        origin = names.read(word.partition("=")[0])
        if question.name.is_subdomain(origin) or origin.is_subdomain(question.name):
            for name, answer in _contents_of(word, origin).answers.items():
                is_asked = name.is_subdomain(question.name) and answers_for_some(name, question)
                if isinstance(answer, Alias) and is_asked:
                    yield answer.target


@cache
def _contents_of(word: str, origin: Name) -> Contents:
    return contents(read_zone(word), origin)


def _is_cut_off(name: Name, top: Name, cuts: set[Name]) -> bool:
    """Whether a name lies at or below a delegation that is at or below the top."""
    if not cuts:
        return False
    most = len(name.labels) - len(top.labels)
    return any(Name(name.labels[start:]) in cuts for start in range(most + 1))


def _of_wildcard(zone: Contents, top: Name) -> dict[Name, Answer | None]:
    """What is below a name that does not exist: what the wildcard for it says (RFC 4592), or nothing."""
    existing = {upper for name in zone.answers for upper in names.with_ancestors(name)}
    closest = next(upper for upper in names.with_ancestors(top) if upper in existing)
    answer = zone.answers.get(Name((names.WILDCARD, *closest.labels)))
    return {} if answer is None else {Name((names.WILDCARD, *top.labels)): answer}
