"""Asks DNS until every question that a policy asks is answered."""

import itertools
from collections.abc import Iterable, Iterator
from dataclasses import dataclass
from pathlib import Path

from dns.name import Name

from spfc_tools import names
from spfc_tools.exit_statuses import Ending, Status
from spfc_tools.facts import Alias, Answer, Chain, Data, Facts, Kind, Question, Void, read_question, read_questions
from spfc_tools.program import Asker, Program
from spfc_tools.progress import Progress
from spfc_tools.resolving import NO_REPLY, Resolver
from spfc_tools.sender_lists import Lists, targets_in_files
from spfc_tools.texts import presented, why_no_policy
from spfc_tools.transfers import Transfers
from spfc_tools.world import World


def read_policy(path: Path, program: Program) -> str:
    """The TXT record of the text in the file, in presentation form."""
    try:
        text = path.read_bytes().strip(b"\r\n")
    except OSError as error:
        raise Ending(Status.TOOL, f"{path}: {error.strerror}") from error
    record = presented(text)
    if b"\n" in text or not program.is_policy(record):
        why = "it has several lines" if b"\n" in text else why_no_policy(text)
        raise Ending(Status.USAGE, f"{path} is not the text of one SPF record{f': {why}' if why else ''}")
    return record


def in_place(answer: Answer, policy: str, program: Program) -> Answer:
    """The answer for TXT at the domain with this policy in place of the SPF records there; an alias stays one."""
    if isinstance(answer, Alias):
        return answer
    items = answer.items if isinstance(answer, Data) else frozenset()
    return Data(frozenset(item for item in items if not program.is_policy(item)) | {policy})


_MOST_ROUNDS = 1_000
_MOST_QUESTIONS = 20_000
_PROBE = b"_spfc"
NEEDED_NAMES = 10
"""The number of names that a chain may have after the domain."""


@dataclass(frozen=True)
class Request:
    """What to gather: the policies of domains under some reading options, and whether their chains' names are free.

    A `policy` is read in place of the record of the one domain. The `zones` name zones that are read
    together with the file, and of which DNS is asked nothing.
    """

    domains: tuple[str, ...]
    reading: tuple[str, ...] = ()
    exchanges: int = 10
    label: str | None = None
    policy: str | None = None
    zones: tuple[str, ...] = ()

    @property
    def names(self) -> list[Name]:
        """The domains as names."""
        return [names.read(domain) for domain in self.domains]

    @property
    def needed(self) -> list[Name]:
        """The names that the chain of each domain may need under the label, where they are asked for."""
        if self.label is None:
            return []
        places = itertools.product(self.domains, range(1, NEEDED_NAMES + 1))
        needed = (names.read(f"{self.label}{number}.{domain}") for domain, number in places)
        return [name for name in needed if not self.is_in_a_file(name)]

    def is_in_a_file(self, name: Name) -> bool:
        """Whether the name is at or below the origin of a zone that comes from a file."""
        return any(name.is_subdomain(names.read(word.partition("=")[0])) for word in self.zones)


@dataclass(frozen=True)
class Gathered:
    """A world in which spfc asks nothing that DNS was not asked, and these questions."""

    world: World
    questions: list[Question]


class Gathering:
    """The rounds: spfc says what it asks over the answers so far, and DNS is asked for what is not answered yet.

    A name that was not asked for lies outside the file, where an evaluation ends, so there are about as many rounds as
    the policy has terms that ask. A name with records of another kind seems void for a round: then spfc may ask what it
    does not ask in the end. So a failure counts where the last round asks for it.
    """

    def __init__(self, request: Request, program: Program, resolver: Resolver, progress: Progress) -> None:
        self._request = request
        self._program = program
        self._resolver = resolver
        self._lists = Lists(Transfers(resolver), request.is_in_a_file)
        self._progress = progress
        self._facts = Facts()
        self._policy_answer: Answer | None = None
        self._leading_out: set[str] = set()
        self._texts = [Question(name, Kind.TXT) for name in request.names]

    def gather(self) -> Gathered:
        """The world of what spfc asks over it, or the end where one of these questions has no answer."""
        questions = [text for text in self._texts if not self._request.is_in_a_file(text.name)]
        for number in range(1, _MOST_ROUNDS + 1):
            self._ask_missing(questions, f"round {number}")
            asked = self._asked(self._world([*questions, *self._expected(questions)]), number)
            known = set(questions)
            new = [question for question in asked if question not in known]
            if not new:
                return self._last_world(asked, number)
            questions += new
        raise Ending(Status.CONTRADICTION, f"no end after {_MOST_ROUNDS} rounds")

    def _last_world(self, questions: list[Question], number: int) -> Gathered:
        """The world of these questions alone. Other answers change nothing in it."""
        world = self._world(questions)
        if failures := list(world.failures()):
            raise Ending(Status.NO_ANSWER, *self._shown_failures(failures))
        for domain, name in zip(self._request.domains, self._request.names):
            if world.is_mixed(name):
                line = f"contradiction: {domain} is an alias for some kinds of records alone"
                raise Ending(Status.CONTRADICTION, line)
        if self._asked(world, number) != questions:
            raise Ending(Status.CONTRADICTION, "contradiction: the file would not answer as DNS does")
        return Gathered(world, questions)

    def _shown_failures(self, failures: list[str]) -> list[str]:
        """The lines of the failures, or one line where no server replied at all: no name is wrong then."""
        if self._facts.has_answers or not all(failure.endswith(f": {NO_REPLY}") for failure in failures):
            return failures
        return [f"{NO_REPLY} from {' '.join(self._resolver.servers)} port {self._resolver.port}"]

    def _asked(self, world: World, number: int) -> list[Question]:
        """What spfc asks over a world."""
        self._progress.tell(f"round {number}: asking spfc")
        request, zone = self._request, world.zone()
        asked_by = (self._program.questions(one, request.reading, zone, request.zones) for one in request.domains)
        lines = list(dict.fromkeys(itertools.chain.from_iterable(asked_by)))
        asker = Asker(self._program, request.reading, self._program.zones(request.zones))
        reversed_lines = [line for line in lines if read_question(line).kind.is_reversed]
        lines += [line for line in self._lines_of_lists(reversed_lines) if line not in lines]
        asked = read_questions(line for line in lines if not self._is_answered_by_a_file(line, asker))
        if len(asked) > _MOST_QUESTIONS:
            raise Ending(Status.CONTRADICTION, f"more than {_MOST_QUESTIONS} questions")
        return asked

    def _is_answered_by_a_file(self, line: str, asker: Asker) -> bool:
        """Whether the zones from files answer a question of `deps`, and it never led out of them."""
        question = read_question(line)
        if not self._request.is_in_a_file(question.name):
            return False
        if question.kind.is_reversed:
            return True
        if asker.is_outside(line):
            self._leading_out.add(line)
        return line not in self._leading_out

    def _lines_of_lists(self, lines: list[str]) -> Iterator[str]:
        """The questions to which lists of addresses lead in the zones from files."""
        for line in lines:
            targets = targets_in_files(self._request.zones, read_question(line))
            yield from sorted({str(Question(target, Kind.A)) for target in targets})

    def _ask_missing(self, questions: list[Question], place: str) -> None:
        """Asks what is missing, and what the answers lead to, until nothing is."""
        while missing := self._missing(questions):

            def tell(number: int, question: Question, total: int = len(missing)) -> None:
                self._progress.tell(f"{place}: question {number + 1} of {total}: {question}")

            lists = [question for question in missing if question.kind.is_reversed]
            others = [question for question in missing if not question.kind.is_reversed]
            for question, answer in self._resolver.ask_all(others, tell):
                self._facts.learn(question, answer)
            for number, question in enumerate(lists, len(others)):
                tell(number, question)
                for found, answer in self._lists.ask(question):
                    self._facts.learn(found, answer)

    def _missing(self, questions: list[Question]) -> list[Question]:
        """The questions to ask next, each once."""
        lists = (listed.questions for question in questions if (listed := self._facts.listed(question)))
        wanted = [*questions, *itertools.chain.from_iterable(lists), *self._expected(questions), *self._probes()]
        missing = (self._facts.missing(question) for question in wanted)
        return list(dict.fromkeys(question for question in missing if question is not None))

    def _expected(self, questions: list[Question]) -> Iterator[Question]:
        """The questions about the exchanges of a name, which need not wait for a round each."""
        for question in questions:
            if question.kind is Kind.MX:
                answer = self._facts.answer(self._facts.chain(question).end)
                items = answer.items if isinstance(answer, Data) else frozenset()
                exchanges = [names.read(item.partition(" ")[2]) for item in sorted(items)]
                if len(exchanges) <= self._request.exchanges + 1:
                    yield from (Question(name, kind) for name in exchanges for kind in (Kind.A, Kind.AAAA))

    # ------------------------------------------------------------- names that must not have records themselves

    def _probes(self) -> Iterator[Question]:
        """Questions that tell whether each domain has records itself, and whether the names of the chain are free."""
        for text in self._texts:
            if self._facts.exists(text):
                yield from self._probe(text.name)
        for name in self._request.needed:
            yield Question(name, Kind.CNAME)
            if self._facts.exists(Question(name, Kind.CNAME)):
                yield from self._probe(name)

    def _probe(self, name: Name) -> Iterator[Question]:
        probe = _probe_name(name)
        if probe is not None:
            yield Question(probe, Kind.CNAME)
            if self._facts.exists(Question(probe, Kind.CNAME)):
                yield from (Question(name, Kind.TXT), Question(probe, Kind.TXT))

    def _is_of_wildcard(self, name: Name) -> bool:
        """Whether a wildcard answers for the name: below a name that exists no wildcard from above is seen."""
        probe = _probe_name(name)
        if probe is None or any(self._is_of_dname(Question(name, kind)) for kind in Kind):
            return False
        texts = (Question(name, Kind.TXT), Question(probe, Kind.TXT))
        return self._facts.exists(Question(probe, Kind.CNAME)) and self._facts.are_same(*texts)

    def _is_of_dname(self, question: Question) -> bool:
        answer = self._facts.answer(question)
        return isinstance(answer, Alias) and answer.is_made

    def _floating(self) -> Iterator[Name]:
        """The domains and the names of the chains, if they have no records themselves."""
        for text in self._texts:
            has_more = self._facts.exists(text) and self._has_more_than_nothing(self._facts.chain(text))
            if has_more and self._is_of_wildcard(text.name):
                yield text.name
        for name in self._request.needed:
            question = Question(name, Kind.CNAME)
            if self._facts.answer(question) is Void.NO_NAME or (
                self._facts.exists(question) and self._is_of_wildcard(name)
            ):
                yield name

    def _has_more_than_nothing(self, chain: Chain) -> bool:
        return chain.is_round or isinstance(self._facts.answer(chain.end), Data)

    # ------------------------------------------------------------- the world

    def _world(self, questions: Iterable[Question]) -> World:
        """The world of these questions, in which each has its answer as far as it is known."""
        floating = set(self._floating())
        needed = [Question(name, Kind.CNAME) for name in self._request.needed if name not in floating]
        return World(self._shown(), [*questions, *needed], floating)

    def _shown(self) -> Facts:
        """The facts with the policy of the request in place of the one that DNS has."""
        text = self._texts[0]
        answer = self._facts.answer(text)
        if self._request.policy is None or not isinstance(answer, Alias | Data | Void):
            return self._facts
        if self._policy_answer is None:
            self._policy_answer = in_place(answer, self._request.policy, self._program)
        return self._facts.replaced(text, self._policy_answer)


def _probe_name(name: Name) -> Name | None:
    """A name that has an answer only where neither the name nor the wildcard below it exists (RFC 4592)."""
    wildcard = names.child(names.WILDCARD, name)
    return None if wildcard is None else names.child(_PROBE, wildcard)
