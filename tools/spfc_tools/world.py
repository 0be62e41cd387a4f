"""The records of a gathered file: from them spfc gets the answers that DNS gave, and nothing else."""

from collections.abc import Collection, Iterable, Iterator
from dataclasses import dataclass

from dns.name import Name

from spfc_tools import names
from spfc_tools.exit_statuses import Ending, Status
from spfc_tools.facts import Alias, Answer, Data, Facts, Failure, Kind, Question, Void


@dataclass(frozen=True)
class Record:
    """A record of class IN: its owner, its type, and its data in presentation form."""

    owner: Name
    type: str
    data: str

    def __str__(self) -> str:
        return f"{names.absolute(self.owner)} IN {self.type} {self.data}"


def marker(owner: Name) -> Record:
    """A record of a type for private use, which spfc and name servers pass over: the name exists and has no data."""
    return Record(owner, "TYPE65280", r"\# 0")


OUT = names.read("not-gathered.invalid")
"""The name that whatever was not gathered is an alias of. It is delegated, so each answer for it lies outside."""


def closing(owners: Iterable[Name], whole: Collection[Name] = ()) -> Iterator[Record]:
    """Records for a zone of the root with records at these names.

    A name without records, above one that has some, is an alias that leads out. So is a wildcard below each name,
    which answers for all names that are not there. Of the names that are `whole` all that lies below is there.
    """
    owned = {owner for owner in owners if not is_below(owner, whole)} | {OUT}
    existing = {upper for owner in owned.union(whole) for upper in names.with_ancestors(owner)}
    existing = {name for name in existing if not is_below(name, whole)}
    for name in existing - owned:
        yield _leading_out(name)
    for name in existing.difference(whole, {OUT}):
        wildcard = names.child(names.WILDCARD, name)
        if wildcard is not None and wildcard not in existing:
            yield _leading_out(wildcard)
    yield Record(OUT, "NS", names.absolute(OUT))


def is_below(name: Name, tops: Collection[Name]) -> bool:
    """Whether a name lies below one of the tops."""
    return any(name != top and name.is_subdomain(top) for top in tops)


def _leading_out(name: Name) -> Record:
    return Record(name, "CNAME", names.absolute(OUT))


class World:
    """The records that answer some questions as the facts do.

    - Each step of an alias is a CNAME record. If a name is an alias for some types alone, or leads to different
      names, it cannot have a CNAME record: what the aliases lead to is written at the name.
    - A name without the data that was asked, or that does not exist, has a marker, so that it is void.
    - A list of senders by address has all its names, and no other name below its own is written, even if it is asked:
      there the list itself says what does not exist, and what a wildcard answers is written at the wildcard.
    - A name that must not have records itself (`floating`: it does not exist, or a wildcard answers for it, and this
      matters) is written as the wildcard below the name above it, as are all names below it.
    """

    def __init__(self, facts: Facts, questions: Iterable[Question], floating: Iterable[Name]) -> None:
        self._facts = facts
        self._floating = frozenset(floating)
        asked = list(questions)
        lists = [(question.name, listed) for question in asked if (listed := facts.listed(question))]
        self._whole = frozenset(name for name, _ in lists if self._owner(name) == name)
        self._listed = {one for name, listed in lists for one in listed.names - {name} or {name}}
        self._questions = list(dict.fromkeys([*asked, *(one for _, listed in lists for one in listed.questions)]))
        self._kinds: dict[Name, set[Kind]] = {}
        for question in self._questions:
            for step in facts.chain(question).steps:
                self._kinds.setdefault(step.name, set()).add(step.kind)
        self._written: dict[tuple[Name, str], frozenset[Record]] = {}

    def failures(self) -> Iterator[str]:
        """A line for each question that no server answered."""
        for question in self._questions:
            answer = self._facts.answer(end := self._facts.chain(question).end)
            if isinstance(answer, Failure):
                yield f"no answer {end}: {answer.why}"

    def records(self) -> set[Record]:
        """The records, or the end where the answers contradict each other."""
        self._written.clear()
        for question in self._questions:
            self._write(question)
        records = {record for written in self._written.values() for record in written}
        owners = {record.owner for record in records}
        records |= {marker(owner) for name in self._listed if (owner := self._owner(name)) not in owners}
        if any(record.owner.is_subdomain(OUT) for record in records):
            raise Ending(Status.CONTRADICTION, f"contradiction: the policy asks for {names.printed(OUT)}")
        return records

    def zone(self) -> str:
        """The records as a master file of the root, and after them those that close the world."""
        records = self.records()
        closed = closing({record.owner for record in records}, self._whole)
        lines = [*sorted(map(str, records)), "; What was not asked leads out of this file:", *sorted(map(str, closed))]
        return "\n".join(lines) + "\n"

    def absent(self) -> set[Name]:
        """The names that DNS said do not exist."""
        ends = [self._facts.chain(question).end for question in self._questions]
        return {end.name for end in ends if self._facts.answer(end) is Void.NO_NAME}

    def is_mixed(self, name: Name) -> bool:
        """Whether the name is an alias for some types, and has records or another target for other types."""
        answers = {kind: self._facts.answer(Question(name, kind)) for kind in self._kinds.get(name, ())}
        targets = {answer.target for answer in answers.values() if isinstance(answer, Alias)}
        others = any(isinstance(answer, Data | Void) for kind, answer in answers.items() if kind is not Kind.CNAME)
        return len(targets) > 1 or bool(targets and others)

    def _write(self, question: Question) -> None:
        """Writes the steps of the chain, up to its end or to a name that is mixed."""
        chain = self._facts.chain(question)
        for step in chain.steps:
            answer = self._facts.answer(step)
            if self.is_mixed(step.name):
                if chain.is_round:
                    raise Ending(Status.CONTRADICTION, f"contradiction: {step} goes round, and has other records")
                self._put(step, _next_to_others(self._facts.answer(chain.end)))
                return
            self._put(step, answer)

    def _put(self, step: Question, answer: Answer | None) -> None:
        owner = self._owner(step.name)
        if is_below(step.name, self._whole) and step.name not in self._listed:
            if step.kind is Kind.A or not isinstance(answer, Data):
                return
            owner = self._wildcard_of_list(step.name)
        match answer:
            case Alias():
                self._add(owner, step.kind, {Record(owner, "CNAME", names.absolute(answer.target))})
            case Data():
                self._add(owner, step.kind, {Record(owner, step.kind, item) for item in answer.items})
            case Void():
                self._add(owner, step.kind, {marker(owner)})

    def _add(self, owner: Name, kind: Kind, records: set[Record]) -> None:
        if self._written.setdefault((owner, kind), frozenset(records)) != records:
            raise Ending(Status.CONTRADICTION, f"contradiction: {names.printed(owner)} {kind} has different answers")

    def _owner(self, name: Name) -> Name:
        """The name itself, or the wildcard that is written for it."""
        above = [upper for upper in self._floating if name.is_subdomain(upper)]
        if not above:
            return name
        return Name((names.WILDCARD, *min(above, key=len).parent().labels))

    def _wildcard_of_list(self, name: Name) -> Name:
        """The wildcard of a list that answers for a name: the one below the closest name above that exists there."""
        above = names.with_ancestors(name)[1:]
        closest = next(upper for upper in above if any(one.is_subdomain(upper) for one in self._listed))
        return Name((names.WILDCARD, *closest.labels))


def _next_to_others(answer: Answer | None) -> Answer | None:
    """What is written of an answer at a name that has other records: no alias may be next to them."""
    return Void.NO_DATA if isinstance(answer, Alias) else answer
