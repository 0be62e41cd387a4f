"""Which word of a command line spfc does not take: each is tried in a command whose other words are right."""

from collections.abc import Iterator, Sequence

from spfc_tools.commands import COMMANDS, MORE, OPTIONS, WITH, Words, part
from spfc_tools.program import USAGE, Program

_OTHER_DOMAIN = "example.net"
_MOST_JOINED = 8
_GOOD = {"DOMAIN": "example.com", "ADDRESS": "192.0.2.1", "FILE": "/dev/null", "START": "1", "N": "1"}
"""A word that spfc takes in each place."""
_ZONE = ".=/dev/null"
_MOST_ZONES = 64
_QUOTES = str.maketrans("", "", "'\"\u2018\u2019\u201c\u201d")


def bad_words(program: Program, given: Sequence[str]) -> Iterator[str]:
    """What is wrong with the first word that spfc does not take; nothing where each word alone is right."""
    words = part(given)
    if words is None:
        return
    yield from next((found for found in _all(program, words) if found), [])


def _all(program: Program, words: Words) -> Iterator[list[str]]:
    yield _places(program, words)
    yield _options(program, words)
    yield _zones(program, words)


def _is_taken(program: Program, command: str, places: Sequence[str], *options: str, zone: str = _ZONE) -> bool:
    """Whether spfc takes these words, with a zone if the command has any."""
    zones = [zone] if COMMANDS[command].zones else []
    return program.run([command, *places, *options, *zones]).status != USAGE


def _good_places(command: str) -> list[str]:
    """Right words for the places of a command."""
    return [_GOOD[place.removesuffix(MORE)] for place in COMMANDS[command].places]


def _right(command: str) -> list[str]:
    """Right words for all places."""
    return _places_with(command, 0, _good_places(command)[0])


def _places(program: Program, words: Words) -> list[str]:
    names = COMMANDS[words.command].places
    for number, word in enumerate(words.places):
        place = min(number, len(names) - 1)
        name = names[place].removesuffix(MORE)
        if "=" in word or word in OPTIONS:
            return [f"A word is missing: {name} comes before {word}."]
        if not _is_taken(program, words.command, _places_with(words.command, place, word)):
            return [f"{name} is not valid: {word}{_of_place(name, word)}"]
    if len(words.places) < len(names):
        return [f"A word is missing: {names[len(words.places)].removesuffix(MORE)}."]
    return _joined(words) if words.command == "join" else []


def _places_with(command: str, place: int, word: str) -> list[str]:
    """Right words for the places, with this one among them; the domains that are joined differ."""
    good = _good_places(command)
    if command == "join":
        return [word, _OTHER_DOMAIN if word != _OTHER_DOMAIN else _GOOD["DOMAIN"]]
    good[place] = word
    return good


def _joined(words: Words) -> list[str]:
    """What is wrong with the domains of `join` together."""
    if twice := [word for number, word in enumerate(words.places) if word in words.places[:number]]:
        return [f"This domain is named twice: {twice[0]}."]
    return [f"More than {_MOST_JOINED} domains are named."] if len(words.places) > _MOST_JOINED else []


def _of_place(name: str, word: str) -> str:
    """What a person may have meant."""
    bare = word.translate(_QUOTES).removesuffix(".").lower()
    if name == "DOMAIN" and bare and bare != word.lower():
        return f" (perhaps {bare})"
    return ""


def _options(program: Program, words: Words) -> list[str]:
    seen: set[str] = set()
    for name, *value in words.options:
        if name not in COMMANDS[words.command].options:
            return [f"The command {words.command} has no option {name}."]
        if name in seen:
            return [f"This option is written twice: {name}."]
        seen.add(name)
        if not OPTIONS[name].is_flag and not value:
            return [f"The option {name} has no value: it takes {OPTIONS[name].range_text}."]
        if not _is_taken(program, words.command, _right(words.command), name, *value):
            return [f"The option {name} does not take {value[0]}: it takes {OPTIONS[name].range_text}."]
    return []


def _zones(program: Program, words: Words) -> list[str]:
    if not COMMANDS[words.command].zones:
        return [f"The command {words.command} reads no zones: {words.zones[0]}."] if words.zones else []
    origins: set[str] = set()
    for word in words.zones:
        origin, equals, file = word.partition("=")
        if word == WITH and words.command == "compare":
            origins = set()
        elif word in OPTIONS:
            return [f"This option comes after a zone word, and has to come before all of them: {word}."]
        elif word.startswith("-"):
            return [f"This option is unknown: {word}."]
        elif not equals:
            return [f"Expected ORIGIN=FILE, got {word} (perhaps .={word}, for a file that spfc-gather wrote)"]
        elif not file or not _is_taken(program, words.command, _right(words.command), zone=f"{origin}=/dev/null"):
            return [f"Expected ORIGIN=FILE, got {word}"]
        elif origin.removesuffix(".").lower() in origins:
            return [f"Two zone words have one origin: {word}"]
        else:
            origins.add(origin.removesuffix(".").lower())
    if not words.zones or words.zones[-1] == WITH or words.zones[0] == WITH:
        return ["No zone is named: a word ORIGIN=FILE is missing, such as .=gathered."]
    return [f"There are more than {_MOST_ZONES} zone words."] if len(words.zones) > _MOST_ZONES else []
