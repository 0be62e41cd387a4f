"""The commands of spfc and their words: one table for help, for spfc-explain and for the completion of shells."""

from collections.abc import Mapping, Sequence
from dataclasses import dataclass


@dataclass(frozen=True)
class Numbers:
    """The numbers that an option takes, and its default."""

    least: int
    most: int
    default: int


@dataclass(frozen=True)
class Option:
    """An option: how its value is called (empty for a flag), what it does, and the values that it takes."""

    value: str
    purpose: str
    numbers: Numbers | None = None
    form: str = ""
    """The values and the default of an option that takes no number."""

    @property
    def range_text(self) -> str:
        """The values that it takes and its default, in words."""
        if self.numbers is None:
            return self.form
        return f"{self.numbers.least:,} to {self.numbers.most:,}, by default {self.numbers.default:,}"

    @property
    def is_flag(self) -> bool:
        """Whether no value follows it."""
        return not self.value


NUMBERS: Mapping[str, Numbers] = {
    "--lookups": Numbers(10, 20, 10),
    "--voids": Numbers(2, 20, 2),
    "--exchanges": Numbers(10, 100, 10),
    "--size": Numbers(64, 4_096, 450),
    "--ttl": Numbers(0, 2_147_483_647, 3_600),
}
"""The options that take a number."""
OPTIONS: Mapping[str, Option] = {
    "--lookups": Option("N", "the most terms that ask the DNS", NUMBERS["--lookups"]),
    "--voids": Option("N", "the most of them that get a void answer", NUMBERS["--voids"]),
    "--exchanges": Option("N", "the most exchanges of an mx term", NUMBERS["--exchanges"]),
    "--size": Option("N", "what a record takes is less than this, in octets", NUMBERS["--size"]),
    "--ttl": Option("N", "the TTL of the records, in seconds", NUMBERS["--ttl"]),
    "--label": Option(
        "L",
        "what the names of the further records begin with",
        form="_ and up to 60 letters, digits, - and _, by default _spf",
    ),
    "--trace": Option("", "print each question of deps on standard error"),
    "--weakest": Option("", "give each address the weakest of the verdicts of the domains, and not the strongest"),
}
READING = ("--lookups", "--voids", "--exchanges")
READING_WORD = "READING"
"""The word for these options in the short synopsis."""
WITH = "with"
"""The word between the zones of two policies."""
MORE = ".."
"""The end of a place that takes one word or more."""
_ZONES = "ORIGIN=FILE.."


@dataclass(frozen=True)
class Command:
    """A command: the words before its options, its options, the zone words after them, and what it is for."""

    places: tuple[str, ...]
    options: tuple[str, ...]
    zones: str
    purpose: str

    def synopsis(self, name: str) -> str:
        """How the words go."""
        return self._words(name, [_bracketed(option) for option in self.options])

    def short(self, name: str) -> str:
        """The same, with one word for the reading options."""
        others = [_bracketed(option) for option in self.options if option not in READING]
        return self._words(name, [f"[{READING_WORD}]", *others] if len(others) < len(self.options) else others)

    def _words(self, name: str, options: Sequence[str]) -> str:
        return " ".join([name, *self.places, *options, self.zones]).rstrip()


def _bracketed(option: str) -> str:
    return f"[{option} {OPTIONS[option].value}".rstrip() + "]"


COMMANDS: Mapping[str, Command] = {
    "compile": Command(
        ("DOMAIN",),
        (*READING, "--size", "--ttl", "--label", "--trace"),
        _ZONES,
        "the records to publish: a shortest list with the verdicts of the policy, in the fewest records",
    ),
    "check": Command(("DOMAIN", "ADDRESS"), READING, _ZONES, "what the policy says of an address"),
    "deps": Command(("DOMAIN",), READING, _ZONES, "the questions to the DNS on which the policy rests"),
    "compare": Command(
        ("DOMAIN", "DOMAIN"),
        READING,
        f"{_ZONES} [{WITH} {_ZONES}]",
        "for which addresses two policies, or one before and after a change, have different verdicts",
    ),
    "join": Command(
        ("DOMAIN", f"DOMAIN{MORE}"),
        (*READING, "--weakest", "--size", "--ttl", "--label"),
        _ZONES,
        "the records to publish for one policy that gives each address the strongest verdict of 2 to 8 domains",
    ),
    "keep": Command(("DOMAIN",), READING, _ZONES, "each question on which the policy rests, and its answer, as a list"),
    "stale": Command(("FILE",), (), _ZONES, "whether the zones still answer each question of a kept list as it says"),
    "verify": Command(
        ("DOMAIN", "FILE"),
        (*READING, "--size"),
        _ZONES,
        "whether records that anyone wrote say the same, and are fewest",
    ),
    "trial": Command(("START", "N"), (), "", "how large the answer is for a policy of N networks that START makes"),
}


@dataclass(frozen=True)
class Words:
    """The words of a command line, parted."""

    command: str
    places: Sequence[str]
    options: Sequence[tuple[str, ...]]
    zones: Sequence[str]

    @property
    def reading(self) -> list[str]:
        """The reading options with their values."""
        return [word for option in self.options if option[0] in READING for word in option]

    @property
    def policies(self) -> list[tuple[str, Sequence[str]]]:
        """The domain of each policy that is read, with the zone words over which it is."""
        match self.command:
            case "join":
                return [(domain, self.zones) for domain in self.places]
            case "compare":
                at = self.zones.index(WITH) if WITH in self.zones else len(self.zones)
                first, others = self.zones[:at], self.zones[at + 1 :]
                return list(zip(self.places, (first, others or first)))
            case "stale":
                return [("", self.zones)]
            case _:
                return [(self.places[0], self.zones)]

    def with_options(self, dropped: str, *added: str) -> list[str]:
        """All words, without this option and with these words added."""
        kept = [word for option in self.options if option[0] != dropped for word in option]
        return [self.command, *self.places, *kept, *added, *self.zones]


def part(words: Sequence[str]) -> Words | None:
    """The parts of the words of a command that is known."""
    command = COMMANDS.get(words[0]) if words else None
    if command is None:
        return None
    start = 1 + _count(command.places, words[1:])
    rest, options = list(words[start:]), []
    while rest and rest[0] in OPTIONS:
        count = 1 if OPTIONS[rest[0]].is_flag else 2
        options.append(tuple(rest[:count]))
        del rest[:count]
    return Words(words[0], words[1:start], options, rest)


def _count(places: Sequence[str], words: Sequence[str]) -> int:
    """The number of words in the places. The last place may take more than one."""
    if not places[-1].endswith(MORE):
        return len(places)
    return next((number for number, word in enumerate(words) if word in OPTIONS or "=" in word), len(words))
