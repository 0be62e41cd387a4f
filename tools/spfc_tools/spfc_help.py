"""What spfc says of itself: help and its version."""

import shutil
import subprocess
from collections.abc import Iterator

from spfc_tools.commands import COMMANDS, OPTIONS, READING, READING_WORD, WITH
from spfc_tools.places import data_file, version_number

_PROVED = (
    "Proved: the records that compile writes give every IPv4 and every IPv6 address the verdict that check_host "
    "(RFC 7208) gives it over the files that were read, and no list of networks with these verdicts is shorter."
)
_PLACES = {
    "DOMAIN": "a domain, without a final dot",
    "ADDRESS": "an IPv4 or an IPv6 address",
    "FILE": "the file that is judged: records to publish, or of stale a kept list",
}
_MORE = "spfc help COMMAND: more of a command; spfc version: what is proved"
_TOOLS = "spfc-gather asks DNS, spfc-nightly watches what is published, spfc-explain says what a line means"


def overview() -> str:
    """The synopsis of every command, on one screen."""
    lines = ["spfc, a compiler for SPF policies kept in DNS master files", ""]
    for name, command in COMMANDS.items():
        lines += [f"spfc {command.short(name)}", f"    {command.purpose}"]
    reading = " ".join(f"[{name} {OPTIONS[name].value}]" for name in READING)
    lines += [f"{READING_WORD}: {reading}", _MORE, _TOOLS]
    return "\n".join(lines) + "\n"


def of_command(name: str) -> str | None:
    """The words of a command and its options, where there is such a command."""
    command = COMMANDS.get(name)
    if command is None:
        return None
    lines = [f"spfc {command.synopsis(name)}", f"    {command.purpose}"]
    lines += [f"  {place:13} {_PLACES[place]}" for place in dict.fromkeys(command.places) if place in _PLACES]
    lines += _options(command.options)
    if command.zones:
        lines.append(
            "  ORIGIN=FILE   FILE is the master file of the zone at ORIGIN; 1 to 64 such words, of different origins"
        )
    if WITH in command.zones:
        lines.append(f"  {WITH:13} the second policy is read over the zones after it, or else over the same ones")
    return "\n".join(lines) + "\n"


def _options(names: tuple[str, ...]) -> Iterator[str]:
    for name in names:
        option = OPTIONS[name]
        written = f"{name} {option.value}".rstrip()
        rest = f": {option.range_text}" if option.range_text else ""
        yield f"  {written:13} {option.purpose}{rest}"


def version() -> str:
    """The version, the kit that proved the program, and the promise that it proved."""
    kit = data_file("KIT")
    line = kit.read_text().strip() if kit else kit_line()
    return f"spfc {version_number()}, proved with {line}\n{_PROVED}\n"


def kit_line() -> str:
    """The line by which the kit names itself."""
    if shutil.which("rt") is None:
        return "a kit that is not here"
    return subprocess.run(["rt", "version"], capture_output=True, text=True, check=False).stdout.strip()
