"""spfc-gather: asks DNS until every question on which the SPF policies of domains depend is answered.

It writes one master file of the root origin that holds the answers: `spfc compile DOMAIN .=FILE`.
Only at status 0 anything is written.
"""

import argparse
import itertools
import sys
from collections.abc import Collection, Iterator, Sequence
from dataclasses import replace
from pathlib import Path

from spfc_tools import command_line, files, names
from spfc_tools.command_line import CHAIN, Parser
from spfc_tools.commands import READING
from spfc_tools.exit_statuses import Ending, GatherStatus
from spfc_tools.gathering import NEEDED_NAMES, Gathered, Gathering, Request, read_policy
from spfc_tools.program import Program, opened_program
from spfc_tools.progress import Progress

TOOL = "spfc-gather"
_LABEL = "_spf"
_ASKED = "; asked "


def _parser() -> Parser:
    parser = Parser(
        TOOL,
        "Asks DNS until every question on which the SPF policy of each DOMAIN depends is answered, and writes the\n"
        "answers as one master file, which spfc reads as .=FILE.",
        examples=(
            "spfc-gather example.com -o gathered",
            "spfc compile example.com .=gathered",
            "spfc-gather a.example.com b.example.com -o both",
            "spfc join a.example.com b.example.com .=both",
        ),
        statuses=GatherStatus,
    )
    command_line.add_domains_servers_and_zones(parser)
    group = parser.add_argument_group("files")
    for flags, purpose in (
        (("-o", "--output"), "write FILE, whole or not at all, and not standard output"),
        (("--policy",), "read the text of the SPF record of the one DOMAIN from FILE"),
        (("--holds",), "ask no server: check whether FILE answers every question"),
    ):
        group.add_argument(*flags, metavar="FILE", type=command_line.path, help=purpose)
    group.add_argument("--no-names", action="store_true", help="do not ask whether the names of a chain are free")
    command_line.add_server_options(parser)
    command_line.add_spfc_options(parser, READING + CHAIN, "options of spfc compile: give the same ones")
    return parser


def _judge(program: Program, arguments: argparse.Namespace, reading: Sequence[str]) -> None:
    """Has the program say whether it takes the words."""
    for domain in arguments.domains:
        if arguments.no_names:
            command_line.judge_check(program, domain, [*reading, *arguments.zones])
        else:
            options = [*reading, *command_line.spfc_options(arguments, CHAIN)]
            command_line.judge(program, ["compile", domain, *options, *arguments.zones])
    first = arguments.domains[0]
    if not program.knows("deps", first, *reading):
        raise Ending(GatherStatus.TOOL, f"{program.path} has no command deps")
    command_line.judge_zones(program, first, reading, arguments.zones)


def _request(program: Program, arguments: argparse.Namespace) -> Request:
    reading = command_line.spfc_options(arguments, READING)
    command_line.judge_files(arguments.output, (arguments.policy, arguments.holds), arguments.zones)
    _judge(program, arguments, reading)
    return Request(
        domains=arguments.domains,
        reading=reading,
        exchanges=command_line.number(arguments, "--exchanges"),
        label=None if arguments.no_names else (arguments.label or _LABEL).lower(),
        policy=read_policy(arguments.policy, program) if arguments.policy else None,
        zones=arguments.zones,
    )


def gather(request: Request, program: Program, arguments: argparse.Namespace) -> str:
    """The gathered file."""
    progress = Progress(TOOL)
    try:
        gathered = Gathering(request, program, command_line.resolver(arguments), progress).gather()
    finally:
        progress.clear()
    return gathered_text(request, gathered)


def _run(words: Sequence[str]) -> int:
    """Gathers, or says whether a file answers every question, and returns the exit status."""
    parser = _parser()
    arguments = command_line.parse(parser, words)
    if not arguments.domains:
        parser.error("expected a DOMAIN, got none")
    if arguments.policy and len(arguments.domains) > 1:
        parser.error(f"expected one DOMAIN with --policy, got {' '.join(arguments.domains)}")
    with opened_program() as program:
        request = _request(program, arguments)
        if arguments.holds:
            if missing := not_asked(request, arguments.holds, program):
                raise Ending(GatherStatus.NO_ANSWER, *missing)
            return GatherStatus.DONE
        text = gather(request, program, arguments)
        for domain in request.domains:
            command_line.warn(TOOL, program, domain, request.reading, request.zones, text)
    if arguments.output:
        files.write(arguments.output, text)
    else:
        _print(text)
    return GatherStatus.DONE


def _print(text: str) -> None:
    try:
        sys.stdout.write(text)
        sys.stdout.flush()
    except OSError as error:
        raise Ending(GatherStatus.UNWRITTEN, f"the file could not be written: {error.strerror}") from error


def main() -> int:
    """Runs the tool with the words of the command line, and returns its exit status."""
    return command_line.run(TOOL, _run)


def gathered_text(request: Request, gathered: Gathered) -> str:
    """The whole file."""
    asked = [f"{_ASKED}{question}" for question in gathered.questions]
    absent = [f"; no such name: {name}" for name in sorted(map(names.absolute, gathered.world.absent()))]
    return "\n".join([*_head(request), *asked, *absent]) + "\n" + gathered.world.zone()


def not_asked(request: Request, path: Path, program: Program) -> list[str]:
    """A line for whatever spfc asks under the options of the request, and that was not asked for the file."""
    try:
        zone = path.read_text(encoding="latin-1")
    except OSError as error:
        raise Ending(GatherStatus.TOOL, f"{path}: {error.strerror}") from error
    lines = set(zone.splitlines())
    by_domain = (program.questions(domain, request.reading, zone, request.zones) for domain in request.domains)
    asked = dict.fromkeys(itertools.chain.from_iterable(by_domain))
    missing = [f"not asked: {question}" for question in asked if _ASKED + question not in lines]
    for domain in request.domains:
        if request.label is not None and not _are_names_asked(request.label, domain, lines):
            needed = replace(request, domains=(domain,)).needed
            first, last = names.printed(needed[0]), names.printed(needed[-1])
            missing.append(f"not asked: whether {first} to {last} are free")
    return missing


def _are_names_asked(label: str, domain: str, lines: Collection[str]) -> bool:
    """Whether the lines of a gathered file say that the names of the chain of a domain were asked for."""
    is_alone = _policy_line([domain]) in lines
    return _names_line(label, domain) in lines or is_alone and _names_line(label) in lines


def _head(request: Request) -> Iterator[str]:
    yield _policy_line(request.domains)
    if request.zones:
        yield f"; To be read beside zones of {' '.join(word.partition('=')[0] for word in request.zones)}"
    if request.reading:
        yield f"; Reading options: {' '.join(request.reading)}"
    if request.policy is not None:
        yield "; The SPF record at the domain is not that of DNS, but the one of --policy."
    if request.label is not None:
        of_domains = request.domains if len(request.domains) > 1 else (None,)
        yield from (_names_line(request.label, domain) for domain in of_domains)


def _policy_line(domains: Sequence[str]) -> str:
    rest = f"policy of {domains[0]} rests" if len(domains) == 1 else f"policies of {', '.join(domains)} rest"
    return f"; What DNS answers to the questions on which the SPF {rest}. To be read as .=FILE"


def _names_line(label: str, domain: str | None = None) -> str:
    """Which names were asked for: those of the one domain, or of one of several."""
    of_domain = f" of {domain}" if domain else ""
    return f"; Names asked for whether they are free: {label}1 to {label}{NEEDED_NAMES}{of_domain}"
