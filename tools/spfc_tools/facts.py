"""Questions to DNS, the answer to each, and the chains of aliases in the answers."""

import enum
from collections.abc import Iterable
from dataclasses import dataclass

from dns.name import Name

from spfc_tools import names


class Kind(enum.StrEnum):
    """The type of the records that a question is for. CNAME is asked by the tools alone, of names that must be free.

    The two of reversed addresses ask for A at the reversed name of each address of a family, before the name.
    """

    A = "A"
    AAAA = "AAAA"
    MX = "MX"
    TXT = "TXT"
    REVERSE4 = "REVERSE4"
    REVERSE6 = "REVERSE6"
    CNAME = "CNAME"

    @property
    def is_reversed(self) -> bool:
        """Whether it is a question for each address of a family."""
        return self in (Kind.REVERSE4, Kind.REVERSE6)


@dataclass(frozen=True)
class Question:
    """What records of a kind a name has."""

    name: Name
    kind: Kind

    def __str__(self) -> str:
        return f"{names.printed(self.name)} {self.kind}"


def read_questions(lines: Iterable[str]) -> list[Question]:
    """The questions of the output of `spfc deps`."""
    return [read_question(line) for line in lines]


def read_question(line: str) -> Question:
    """The question of one line."""
    name, _, kind = line.rpartition(" ")
    return Question(names.read(name), Kind(kind))


MOST_ALIASES = 8
"""As many alias steps are followed by spfc, and by most receivers; the next one is a loop."""


@dataclass(frozen=True)
class Alias:
    """The name is an alias, of a CNAME record or, where `is_made`, of a DNAME record above the name."""

    target: Name
    is_made: bool = False


@dataclass(frozen=True)
class Data:
    """The data of the records, each in presentation form."""

    items: frozenset[str]


class Void(enum.Enum):
    """The name has no records of this kind, or does not exist."""

    NO_DATA = enum.auto()
    NO_NAME = enum.auto()


@dataclass(frozen=True)
class Failure:
    """No server said what the answer is."""

    why: str


@dataclass(frozen=True)
class Listed:
    """A list of senders by address: the questions for A that answer for some address, and all names that exist."""

    questions: tuple[Question, ...]
    names: frozenset[Name]


Answer = Alias | Data | Void | Failure | Listed


@dataclass(frozen=True)
class Chain:
    """A question and those that its aliases lead to. Where it `is_round` the last is an alias one step too far."""

    steps: tuple[Question, ...]
    is_round: bool

    @property
    def end(self) -> Question:
        """The last question."""
        return self.steps[-1]


class Facts:
    """The answers so far. The first answer to a question counts, and no later one is mixed into it."""

    def __init__(self) -> None:
        self._answers: dict[Question, Answer] = {}

    def learn(self, question: Question, answer: Answer) -> None:
        """Takes an answer up, unless the question has one that is not a failure."""
        if isinstance(self._answers.get(question, Failure("")), Failure):
            self._answers[question] = answer

    @property
    def has_answers(self) -> bool:
        """Whether any question has an answer that is not a failure."""
        return any(not isinstance(answer, Failure) for answer in self._answers.values())

    def answer(self, question: Question) -> Answer | None:
        """The answer itself, where there is one."""
        return self._answers.get(question)

    def chain(self, question: Question) -> Chain:
        """The question with what its aliases lead to. One for an alias is about the name itself, and leads nowhere."""
        steps = [question]
        if question.kind is Kind.CNAME:
            return Chain(tuple(steps), is_round=False)
        while isinstance(answer := self.answer(steps[-1]), Alias):
            if len(steps) > MOST_ALIASES:
                return Chain(tuple(steps), is_round=True)
            steps.append(Question(answer.target, question.kind))
        return Chain(tuple(steps), is_round=False)

    def missing(self, question: Question) -> Question | None:
        """The question at the end of the chain, where nothing is known of it, not even that it fails."""
        chain = self.chain(question)
        return None if chain.is_round or self.answer(chain.end) is not None else chain.end

    def listed(self, question: Question) -> Listed | None:
        """The list that a question for reversed addresses is answered by."""
        answer = self.answer(question)
        return answer if isinstance(answer, Listed) else None

    def exists(self, question: Question) -> bool:
        """Whether its name exists in DNS."""
        return self.answer(question) is Void.NO_DATA or isinstance(self.answer(question), Alias | Data)

    def is_data(self, question: Question) -> bool:
        """Whether the question, by its aliases, gets records."""
        chain = self.chain(question)
        return not chain.is_round and isinstance(self.answer(chain.end), Data)

    def are_same(self, one: Question, other: Question) -> bool:
        """Whether both get the same records, none, or a loop."""
        return self._outcome(one) == self._outcome(other)

    def replaced(self, question: Question, answer: Answer) -> "Facts":
        """The same facts with another answer to this question."""
        facts = Facts()
        facts._answers = {**self._answers, question: answer}
        return facts

    def _outcome(self, question: Question) -> object:
        chain = self.chain(question)
        if chain.is_round:
            return "round"
        answer = self.answer(chain.end)
        return answer.items if isinstance(answer, Data) else "void" if isinstance(answer, Void) else chain.end
