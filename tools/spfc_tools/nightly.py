"""spfc-nightly: says whether what a domain publishes still gives every address the verdict of its policy.

The policy is the old record, the one with the includes, in a file. The first line of the output has one of the words of
`NightlyStatus` and the domain. More lines follow.
"""

import argparse
import sys
from collections.abc import Sequence
from dataclasses import dataclass, replace

from spfc_tools import command_line, files
from spfc_tools.command_line import Parser
from spfc_tools.commands import READING
from spfc_tools.exit_statuses import Ending, NightlyStatus
from spfc_tools.facts import Kind, Question
from spfc_tools.gathering import Gathered, Gathering, Request, read_policy
from spfc_tools.kept_lists import Watch
from spfc_tools.names import read
from spfc_tools.program import Program, Run, opened_program
from spfc_tools.progress import Progress

TOOL = "spfc-nightly"
_LABELS = ("_spfa", "_spfb")
_NOBODYS_LABEL = "_spfc-nightly"
_CUTTING = ("--size", "--ttl")
_REFUSED = (1, 2)


@dataclass(frozen=True)
class Change:
    """How many addresses have one verdict by what is published, and another by the policy."""

    old: str
    new: str
    least: str
    count: int

    @property
    def text(self) -> str:
        """In words."""
        counted = "1 address" if self.count == 1 else f"{self.count} addresses"
        return f"{counted}, the least {self.least}, from {self.old} to {self.new}"


class Nightly:
    """One night's work for a domain."""

    def __init__(self, arguments: argparse.Namespace, program: Program) -> None:
        self._arguments = arguments
        self._program = program
        self._domain = arguments.domain
        self._reading = command_line.spfc_options(arguments, READING)
        self._zones = arguments.zones
        self._compiling = [*self._reading, *command_line.spfc_options(arguments, _CUTTING), *self._zones]
        exchanges = command_line.number(arguments, "--exchanges")
        self._request = Request((self._domain,), self._reading, exchanges, zones=self._zones)
        self._policy = read_policy(arguments.policy, program)
        self._watch = None
        if arguments.kept is not None:
            self._watch = Watch(program, arguments.kept, self._domain, [*self._reading, *self._zones])

    def run(self) -> NightlyStatus:
        """Gathers what is published and what the policy says today, and compares their verdicts."""
        live = self._gathered(self._request)
        source = self._gathered(replace(self._request, policy=self._policy))
        live_zone, zone = live.world.zone(), source.world.zone()
        command_line.warn(TOOL, self._program, self._domain, self._reading, self._zones, zone)
        wanted = self._compiled(_NOBODYS_LABEL, zone)
        if wanted.status:
            return self._refused(wanted, zone)
        published = self._compiled(_NOBODYS_LABEL, live_zone)
        if published.status == 0 and published.output == wanted.output:
            return self._end(NightlyStatus.SAME, zone)
        if published.status:
            print(f"published: {published.line}", file=sys.stderr)
        changes = self._changes(live_zone, zone) if published.status == 0 else []
        lost = sum(change.count for change in changes if change.old == "pass")
        if self._arguments.max_lost is not None and lost > self._arguments.max_lost:
            return self._end(
                NightlyStatus.REFUSED, zone, f"{lost} addresses lose their pass", *(one.text for one in changes)
            )
        return self._publish(live, changes)

    def _publish(self, live: Gathered, changes: list[Change]) -> NightlyStatus:
        """Writes the fragment under the label that is not in use."""
        label = self._unused_label(live)
        source = self._gathered(replace(self._request, policy=self._policy, label=label))
        zone = source.world.zone()
        fragment = self._compiled(label, zone)
        if fragment.status:
            return self._refused(fragment, zone)
        files.write(self._arguments.output, fragment.output)
        return self._end(NightlyStatus.CHANGED, zone, *(change.text for change in changes))

    def _gathered(self, request: Request) -> Gathered:
        progress = Progress(TOOL)
        try:
            return Gathering(request, self._program, command_line.resolver(self._arguments), progress).gather()
        finally:
            progress.clear()

    def _compiled(self, label: str, zone: str) -> Run:
        return self._program.over(["compile", self._domain, "--label", label, *self._compiling], zone)

    def _unused_label(self, live: Gathered) -> str:
        """That of the two labels under which the published chain has no record."""
        one, other = self._arguments.labels
        is_used = Question(read(f"{one}1.{self._domain}"), Kind.TXT) in live.questions
        return str(other if is_used else one)

    def _changes(self, live: str, zone: str) -> list[Change]:
        """What `compare` says, where the program has it."""
        before = self._program.folder / "published"
        before.write_text(live, encoding="latin-1")
        policies = [self._domain, self._domain, *self._reading]
        command = ["compare", *policies, *self._zones, f".={before}", "with", *self._zones]
        ended = self._program.over(command, zone)
        lines = [line.split(" ") for line in ended.output.splitlines() if line.startswith("differ ")]
        return [Change(old, new, least, _number(least, count)) for _, old, new, least, count in lines]

    def _refused(self, ended: Run, zone: str) -> NightlyStatus:
        print(ended.line, file=sys.stderr)
        return self._end(NightlyStatus.REFUSED if ended.status in _REFUSED else NightlyStatus.UNKNOWN, zone)

    def _end(self, verdict: NightlyStatus, zone: str, *lines: str) -> NightlyStatus:
        """Prints what the night ends with, and which answers changed since the kept list was written.

        A night that is refused leaves the list as it is, so that each such night says what has changed since.
        """
        changes = self._watch.changes(zone) if self._watch else []
        print(f"{verdict.name.lower()} {self._domain}", *lines, *changes, sep="\n")
        if self._watch and verdict in (NightlyStatus.SAME, NightlyStatus.CHANGED):
            self._watch.renew(zone)
        return verdict


def _number(least: str, count: str) -> int:
    """The number of a count of `compare`, where `all` is each address of the family."""
    return int(count) if count.isdigit() else 1 << (128 if ":" in least else 32)


def _labels(text: str) -> tuple[str, str]:
    one, comma, other = text.lower().partition(",")
    if not comma or one == other:
        raise argparse.ArgumentTypeError(f"expected two different labels A,B, got {text!r}")
    return one, other


def _parser() -> Parser:
    parser = Parser(
        TOOL,
        "Compares what DOMAIN publishes with what its policy says today, for all addresses. If they differ, writes\n"
        "the records to publish. The first line of the output has one of the words same, changed, refused and unknown.",
        examples=("spfc-nightly example.com policy new --kept kept",),
        statuses=NightlyStatus,
    )
    file = command_line.path
    parser.add_argument(
        "domain", metavar="DOMAIN", type=command_line.domain, help="the domain that publishes flat records"
    )
    parser.add_argument("policy", metavar="POLICY", type=file, help="a file with the text of its old SPF record")
    parser.add_argument("output", metavar="FILE", type=file, help="the records to publish are written to this file")
    command_line.add_servers_and_zones(parser)
    group = parser.add_argument_group("watching")
    labels = f"the labels in turn, by default {','.join(_LABELS)}"
    group.add_argument("--labels", metavar="A,B", type=_labels, default=_LABELS, help=labels)
    group.add_argument(
        "--kept", metavar="FILE", type=file, help="keep the answers in FILE, and name those that changed"
    )
    group.add_argument("--max-lost", metavar="N", type=int, help="refuse if more than N addresses lose their pass")
    command_line.add_server_options(parser)
    command_line.add_spfc_options(parser, (*READING, *_CUTTING), "options of spfc compile: give the same ones")
    return parser


def _judge(program: Program, arguments: argparse.Namespace) -> None:
    """Judges the files, and has the program say whether it takes the words and has the commands that they need."""
    reading = command_line.spfc_options(arguments, READING)
    command_line.judge_files(arguments.output, (arguments.policy, arguments.kept), arguments.zones)
    command_line.judge_files(arguments.kept, (arguments.policy,), arguments.zones)
    for label in arguments.labels:
        options = [*reading, *command_line.spfc_options(arguments, _CUTTING), "--label", label]
        command_line.judge(program, ["compile", arguments.domain, *options, *arguments.zones])
    if Request((arguments.domain,), zones=arguments.zones).is_in_a_file(read(arguments.domain)):
        raise Ending(
            NightlyStatus.USAGE, f"the zone of {arguments.domain} is not to be a file: DNS says what is published"
        )
    wanted = {"deps": [arguments.domain, *reading]}
    if arguments.kept is not None:
        wanted |= {"keep": [arguments.domain, *reading], "stale": [str(arguments.kept)]}
    for command, given in wanted.items():
        if not program.knows(command, *given):
            raise Ending(NightlyStatus.TOOL, f"{program.path} has no command {command}")
    if arguments.max_lost is not None and not program.knows("compare", arguments.domain, arguments.domain, *reading):
        raise Ending(NightlyStatus.TOOL, f"{program.path} has no command compare, which --max-lost needs")
    command_line.judge_zones(program, arguments.domain, reading, arguments.zones)


def _run(words: Sequence[str]) -> int:
    """Does one night's work, and gives the status."""
    arguments = command_line.parse(_parser(), words)
    with opened_program() as program:
        _judge(program, arguments)
        night = Nightly(arguments, program)
        try:
            return night.run()
        except Ending as ending:
            if ending.status in (NightlyStatus.USAGE, NightlyStatus.UNWRITTEN):
                raise
            print(f"unknown {arguments.domain}")
            raise Ending(NightlyStatus.UNKNOWN, *ending.lines) from ending


def main() -> int:
    """Runs the tool with the words of the command line, and returns its exit status."""
    return command_line.run(TOOL, _run)
