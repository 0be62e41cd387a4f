"""Looks into the files and asks the program, to say more of a line than the line does."""

from collections.abc import Iterator, Sequence
from itertools import count
from pathlib import Path

from spfc_tools.commands import NUMBERS, READING, Words
from spfc_tools.kept_lists import changes, joined_texts, read_list
from spfc_tools.program import USAGE, Asker, Program
from spfc_tools.refusals import QUESTIONS, Line, read_line
from spfc_tools.texts import presented, why_no_policy


def texts_at(name: str, domain: str, words: Sequence[str], zones: Sequence[str], program: Program) -> list[str]:
    """The SPF texts that the name has for the policy of the domain, as the program keeps them."""
    texts = all_texts_at(name, domain, words, zones, program)
    return [text.decode("latin-1") for text in texts if program.is_policy(presented(text))]


def all_texts_at(name: str, domain: str, words: Sequence[str], zones: Sequence[str], program: Program) -> list[bytes]:
    """All texts that the name has for the policy of the domain."""
    kept = read_list(program.run(["keep", domain, *words, *zones]).output)
    return joined_texts(kept.answers.get(f"{name} TXT", "")) if kept else []


_FIRST, _LATER = "; deps DOMAIN LOOKUPS VOIDS EXCHANGES", "NAME KIND ANSWER"
_SHOWN = 200


def look_stale(program: Program, path: Path, question: str, zones: Sequence[str]) -> Iterator[str]:
    """What the question was answered as the list was kept, and what it is answered today."""
    kept = read_list(path.read_text(encoding="latin-1"))
    if kept is None or question not in kept.answers:
        return
    today = read_list(program.run(["keep", kept.domain, *kept.reading, *zones]).output)
    answer = today.answers.get(question) if today else None
    if answer is None:
        yield f"Today the policy of {kept.domain} does not ask this any more."
        asked = read_list(Asker(program, kept.reading, zones).kept(question))
        answer = asked.answers.get(question) if asked else None
    if answer is not None:
        yield from (f"{line[0].upper()}{line[1:]}." for line in changes(kept.answers[question], answer))
    others = sum(today.answers.get(one) != was for one, was in kept.answers.items()) - 1 if today else 0
    if others > 0:
        yield f"Further questions of the list that are answered otherwise, or not asked any more: {others}."


def look_bad(path: Path, number: int) -> Iterator[str]:
    """What a line of the list has, and what it should have."""
    lines = path.read_text(encoding="latin-1").split("\n")
    yield f"{number:5}: {lines[number - 1][:_SHOWN]}"
    if number == 1:
        yield f"The first line is to be: {_FIRST}, with three numbers in the ranges of the reading options."
    else:
        kinds = ", ".join(QUESTIONS)
        yield f"Each line behind the first is to be: {_LATER}, with one of the kinds {kinds}."


_SHOWN_LINES = 3


class Looker:
    """What can be said of a line with the words of its command at hand."""

    def __init__(self, program: Program, words: Words) -> None:
        self._program = program
        self._words = words
        self._take(*words.policies[0])

    def _take(self, domain: str, zones: Sequence[str]) -> None:
        """Looks into this policy from here on."""
        self._domain, self._zones = domain, zones
        self._asker = Asker(self._program, self._words.reading, zones)

    def _take_refused(self, address: str) -> None:
        """Looks into the first policy that gives the address no verdict."""
        for domain, zones in self._words.policies:
            self._take(domain, zones)
            found = read_line(self._asker.outcome(domain, address))
            if found is not None and found.cause is not None:
                return

    def look(self, line: Line) -> Iterator[str]:
        """Lines that say more."""
        if line.cause is not None:
            if len(self._words.policies) > 1:
                self._take_refused(self._address(line))
            yield from self._record(line.words["NAME"], int(line.words["TERM"]))
            yield from self._of_cause(line)
        elif line.form.startswith("refused taken"):
            yield from self._free_label()
        elif line.form == "too big":
            yield from self._size_that_does()
        elif line.form.startswith("bad zone"):
            yield from _lines_of(Path(line.words["FILE"]), int(line.words["LINE"]))
        elif line.form.startswith("no zone"):
            yield from _lines_of(Path(self._words.places[1]), int(line.words["LINE"]))
        elif line.form.startswith("no verdict"):
            yield from self._verdicts(line.words["ADDRESS"])
        elif line.form.startswith("bad list"):
            yield from look_bad(Path(line.words["FILE"]), int(line.words["LINE"]))
        elif line.form.startswith("stale"):
            question = f"{line.words['NAME']} {line.words['KIND']}"
            yield from look_stale(self._program, Path(self._words.places[0]), question, self._zones)

    def _record(self, name: str, term: int) -> Iterator[str]:
        """The SPF records at the name, their terms numbered, with the term marked."""
        for text in self._texts(name):
            yield f"The record at {name}:"
            for number, part in enumerate(text.split()[1:], 1):
                yield f"{'-->' if number == term else '   '} {number:3} {part}"

    def _of_cause(self, line: Line) -> Iterator[str]:
        match line.cause:
            case "lookups" | "voids" | "exchanges":
                yield from self._counted(line)
            case "syntax":
                yield from self._misspelled(line.words["NAME"])
            case "outside":
                yield from self._outside()
            case "missing":
                yield from self._missing(line)
            case "norecord":
                yield from self._nearly(line.words["NAME"])

    def _address(self, line: Line) -> str:
        return line.words.get("ADDRESS") or self._words.places[1]

    def _counted(self, line: Line) -> Iterator[str]:
        """How far the limit had to be raised, and each place at which it is passed until then."""
        cause, address = str(line.cause), self._address(line)
        others = [
            word
            for option in self._words.options
            if option[0] in READING and option[0] != f"--{cause}"
            for word in option
        ]
        limits = NUMBERS[f"--{cause}"]
        shown = None
        for limit in range(limits.least, limits.most + 1):
            found = read_line(self._asker.outcome(self._domain, address, [*others, f"--{cause}", str(limit)]))
            if found is None or found.cause != cause:
                yield f"For {address} it takes {limit}: --{cause} {limit} reads it."
                return
            place = f"term {found.words['TERM']} of {found.words['NAME']}"
            if place != shown:
                yield f"Too many for a limit of {limit}: {place}"
            shown = place
        yield f"For {address} it takes more than {limits.most}."

    def _misspelled(self, name: str) -> Iterator[str]:
        """The terms that break the grammar, each alone or after those before it."""
        for text in self._texts(name):
            terms = text.split(" ")[1:]
            alone = [term for term in terms if term and self._asker.is_misspelled(f"v=spf1 {term}")]
            for term in alone:
                yield f"This is no term of an SPF record: {term}"
            if not alone:
                prefixes = (terms[:end] for end in range(1, len(terms) + 1))
                first = next(
                    (part for part in prefixes if self._asker.is_misspelled(" ".join(["v=spf1", *part]))), None
                )
                if first:
                    yield f"This term may not stand behind those before it: {first[-1]}"

    def _outside(self) -> Iterator[str]:
        """The questions that no file answers."""
        asked = self._program.run(["deps", self._domain, *self._words.reading, *self._zones])
        for question in asked.output.splitlines() if asked.status == 0 else ():
            if self._asker.is_outside(question):
                none = "For some address no" if " REVERSE" in question else "No"
                yield f"{none} file answers this question: {question}"

    def _missing(self, line: Line) -> Iterator[str]:
        """What the name of an include or a redirect has."""
        number = int(line.words["TERM"])
        for text in self._texts(line.words["NAME"]):
            term = dict(enumerate(text.split())).get(number, "")
            target = term.partition(":")[2] or term.partition("=")[2]
            if target and "%" not in target:
                outcome = self._asker.outcome(target.lower().removesuffix("."), self._address(line))
                yield f"Asked for {target}, the files say: {outcome or 'no legal name'}"

    def _nearly(self, name: str) -> Iterator[str]:
        """The texts at the name that were meant to be a record, each with what is wrong with it."""
        for text in all_texts_at(name, self._domain, self._words.reading, self._zones, self._program):
            if why := why_no_policy(text):
                yield f"This text of {name} is no SPF record, since {why}: {presented(text)}"

    def _texts(self, name: str) -> list[str]:
        """The SPF texts at the name."""
        return texts_at(name, self._domain, self._words.reading, self._zones, self._program)

    def _verdicts(self, address: str) -> Iterator[str]:
        """What the zones and the file give an address."""
        file = Asker(self._program, (), [f"{self._domain}={self._words.places[1]}"])
        yield f"By the zones {address} has: {self._asker.outcome(self._domain, address)}"
        yield f"By the file it has: {file.outcome(self._domain, address)}"

    def _free_label(self) -> Iterator[str]:
        """A label under which no name is taken."""
        for letter in "abcdefghijklmnopqrstuvwxyz":
            line = self._compiled("--label", f"_spf{letter}")
            if not line.startswith("refused taken"):
                yield f"This label is free in the files: --label _spf{letter}"
                return
        yield "The labels _spfa to _spfz are taken too."

    def _size_that_does(self) -> Iterator[str]:
        """The least size for which the list fits, by halves: what fits a size fits each larger one."""
        low, high = NUMBERS["--size"].least, NUMBERS["--size"].most
        if self._compiled("--size", str(high)) == "too big":
            yield f"Not even --size {high} would do."
            return
        while low < high:
            middle = (low + high) // 2
            low, high = (middle + 1, high) if self._compiled("--size", str(middle)) == "too big" else (low, middle)
        yield f"The least size that does: --size {low}"

    def _compiled(self, option: str, value: str) -> str:
        """The line of the same command with another value of an option."""
        return self._program.run(self._words.with_options(option, option, value)).line


def wrong_words(program: Program, given: list[str]) -> Iterator[str]:
    """The words that, taken out alone or with the next one, leave words that spfc takes."""
    for at in range(1, len(given)):
        for length in (1, 2):
            rest = given[:at] + given[at + length :]
            if at + length <= len(given) and program.run(rest).status != USAGE:
                yield " ".join(given[at : at + length])
                return


def _lines_of(path: Path, first: int) -> Iterator[str]:
    """The lines of a file that an entry begins with."""
    try:
        lines = path.read_text(encoding="latin-1").split("\n")
    except OSError:
        return
    for number, text in zip(count(first), lines[first - 1 : first - 1 + _SHOWN_LINES]):
        yield f"{number:5}: {text.rstrip()}"
