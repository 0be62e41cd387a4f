"""spfc-publish: puts the records of a fragment into the DNS, in an order in which no receiver sees a broken chain.

Without --to it prints the plan and changes nothing. Each step is kept in a state file before it is done, so a call that
was broken off goes on where it stopped.
"""

from __future__ import annotations

import argparse
import shlex
import sys
from collections.abc import Sequence
from pathlib import Path

from dns.name import Name

from spfc_tools import command_line, names
from spfc_tools.command_line import Parser, path, positive
from spfc_tools.commands import READING
from spfc_tools.exit_statuses import Ending, PublishStatus
from spfc_tools.program import Program, opened_program
from spfc_tools.progress import Progress
from spfc_tools.publish.authoritative import Authority, Server, find_servers, servers_of_host, servers_of_words
from spfc_tools.publish.by_lexicon import ByLexicon
from spfc_tools.publish.endings import refused, usage
from spfc_tools.publish.judging import Judge
from spfc_tools.publish.key_file import read_key
from spfc_tools.publish.master_file import MasterFile
from spfc_tools.publish.printed import plan
from spfc_tools.publish.publication import Publication, Waiting, undone, when
from spfc_tools.publish.published import Published, read_fragment
from spfc_tools.publish.state import Move, State, Step, Store, default_path
from spfc_tools.publish.steps import Observer, Sight, is_missing, shown
from spfc_tools.publish.update import Update
from spfc_tools.publish.ways import Way

TOOL = "spfc-publish"
_EXAMPLES = (
    "spfc-publish example.com fragment --policy policy",
    "spfc-publish example.com fragment --policy policy --to update --key key",
    "spfc-publish example.com --sweep --to update --key key",
)
_TO = "--to"
_WAYS = ("print", "update", "zone", "lexicon")
_WAYS_WITH_WORD = ("zone", "lexicon")
_MOST_MISSING = 3600
_PATIENCE = 600


class Tool:
    """One call of spfc-publish."""

    def __init__(self, arguments: argparse.Namespace, program: Program) -> None:
        self._arguments = arguments
        self._program = program
        self._domain: Name = names.read(arguments.domain)
        self._judge = Judge(
            program,
            self._domain,
            command_line.spfc_options(arguments, READING),
            command_line.spfc_options(arguments, ("--size",)),
            command_line.number(arguments, "--exchanges"),
            Progress(TOOL),
        )
        self._store = Store(arguments.state or default_path(arguments.domain))
        self._authority = Authority(self._servers(), arguments.tries, float(arguments.time))
        self._observer = Observer(self._authority, self._domain, program)
        self._zone = self._authority.zone(self._domain)
        missing = min(self._zone.negative, _MOST_MISSING) if arguments.missing is None else arguments.missing
        self._waiting = Waiting(float(arguments.patience), float(missing))

    def run(self) -> PublishStatus:
        """Prints the plan, publishes, undoes or sweeps."""
        way, word = self._arguments.to
        if way == "print":
            return self._print()
        with self._store.locked():
            opened = self._way(way, word)
            state = self._state()
            publication = Publication(
                self._store,
                state,
                self._observer,
                opened,
                self._waiting,
                lambda target: self._difference(state, target),
            )
            if self._arguments.sweep:
                return self._sweep(publication)
            publication.run()
            return self._end(publication)

    # ------------------------------------------------------------- servers and ways

    def _servers(self) -> tuple[Server, ...]:
        arguments = self._arguments
        if arguments.servers:
            return servers_of_words(arguments.servers, arguments.port)
        return find_servers(self._domain, command_line.resolver(arguments), arguments.port)

    def _way(self, way: str, word: str) -> Way:
        arguments = self._arguments
        if way == "zone":
            return MasterFile(Path(word), self._zone.name, shlex.split(arguments.reload or ""))
        if way == "lexicon":
            return ByLexicon(word, self._zone.name, arguments.config or Path.cwd())
        key = read_key(arguments.key) if arguments.key else None
        return Update(self._zone.name, self._primary(), key, float(arguments.time) * 2)

    def _primary(self) -> tuple[Server, ...]:
        """The server that takes changes: the one that the words name, or that of the SOA record."""
        arguments = self._arguments
        if arguments.primary:
            return servers_of_words([arguments.primary], arguments.port)
        known = [server for server in self._authority.servers if server.name == names.printed(self._zone.primary)]
        return tuple(known) or servers_of_host(self._zone.primary, command_line.resolver(arguments), arguments.port)

    # ------------------------------------------------------------- the state

    def _state(self) -> State:
        """The state that this call begins with, which is written."""
        state = self._store.load(self._domain)
        if self._arguments.undo or self._arguments.sweep:
            if state is None:
                raise refused(f"there is no state file {self._store.path}: nothing was published from here")
            if self._arguments.undo:
                state = undone(state, self._observer.look([*state.move.source.names, *state.move.target.names]))
            return self._store.save(state)
        target = self._target()
        if state is not None and state.move.step is not Step.DONE:
            if state.move.target.is_same(target) and not state.move.is_undo:
                return state
            if self._is_begun(state):
                raise Ending(
                    PublishStatus.PARTLY,
                    f"another publication was begun, and is not finished ({self._store.path})",
                    "call as before to finish it, or with --undo",
                )
        return self._store.save(self._begun(target, state))

    def _is_begun(self, state: State) -> bool:
        """Whether anything of a publication that was broken off is there."""
        sights = self._observer.look(state.move.target.names)
        added = any(record.text in sight.at(record.name) for sight in sights for record in state.move.target.chain)
        return added or state.move.is_undo or state.move.step not in (Step.ADD, Step.WAIT)

    def _begun(self, target: Published, before: State | None) -> State:
        """A new publication, of a fragment that was judged, over what is published now."""
        source, _ = self._judge.published(self._observer)
        sights = self._observer.look([*source.names, *target.names])
        if not source.is_same(target):
            self._verify()
            self._refuse_names_in_use(source, target, sights)
        move = Move(source, target, was_missing=any(is_missing(sight, target) for sight in sights))
        if source.is_same(target):
            move = Move(source, target, step=Step.COMPARE)
        if before is None:
            return State(self._domain, move)
        return State(self._domain, move, before.leftovers, before.remembered)

    def _target(self) -> Published:
        if self._arguments.fragment is None:
            raise usage("expected a FRAGMENT, or --undo or --sweep")
        return read_fragment(self._arguments.fragment, self._domain)

    def _verify(self) -> None:
        zones = self._arguments.zones or self._judge.gathered(
            command_line.resolver(self._arguments), self._arguments.policy
        )
        self._judge.verify(self._arguments.fragment, zones)

    @staticmethod
    def _refuse_names_in_use(source: Published, target: Published, sights: Sequence[Sight]) -> None:
        for name in target.names:
            if name in source.names:
                raise refused(
                    f"{names.printed(name)} is a name of the chain that is published now",
                    "compile with another --label, such as _spfa and _spfb by turns",
                )
            for sight in sights:
                if found := sight.at(name):
                    raise refused(
                        f"{sight.server} has at {names.printed(name)} {shown(found)}",
                        "take it out (--sweep, if it is of an earlier chain), or compile with another --label",
                    )

    def _difference(self, state: State, target: Published) -> str | None:
        """What the servers say otherwise than the target; of an undo, what they have was compared as texts."""
        if state.move.is_undo and not target.chain:
            return None
        return self._judge.difference(self._authority, target)

    # ------------------------------------------------------------- what is said

    def _print(self) -> PublishStatus:
        target = self._target()
        source, _ = self._judge.published(self._observer)
        if source.is_same(target):
            print(f"published {self._arguments.domain}: these records are there")
            return PublishStatus.PUBLISHED
        self._verify()
        self._refuse_names_in_use(source, target, self._observer.look([*source.names, *target.names]))
        print(*plan(source, target, self._zone, self._waiting.missing), sep="\n")
        return PublishStatus.PUBLISHED

    def _end(self, publication: Publication) -> PublishStatus:
        move = publication.state.move
        swept = publication.sweep(may_wait=self._arguments.wait) if self._arguments.wait else []
        if move.is_undo and not move.was_published:
            swept += publication.sweep(may_wait=False)
        word = "undone" if move.is_undo else "published"
        print(f"{word} {self._arguments.domain}", *self._swept(publication, swept), sep="\n")
        return PublishStatus.PUBLISHED

    def _sweep(self, publication: Publication) -> PublishStatus:
        if publication.state.move.step is not Step.DONE:
            raise Ending(
                PublishStatus.PARTLY, "a publication is not finished", "call as before to finish it, or with --undo"
            )
        swept = publication.sweep(may_wait=self._arguments.wait)
        print(f"swept {self._arguments.domain}", *self._swept(publication, swept), sep="\n")
        return PublishStatus.PUBLISHED if not publication.state.leftovers else PublishStatus.REFUSED

    @staticmethod
    def _swept(publication: Publication, swept: Sequence[Name]) -> list[str]:
        lines = [f"taken out: {names.printed(name)}" for name in swept]
        for leftover in publication.state.leftovers:
            of_chain = " ".join(names.printed(record.name) for record in leftover.records)
            lines.append(f"to be taken out from {when(leftover.not_before)} by --sweep: {of_chain}")
        return lines


# ------------------------------------------------------------- the command line


def _joined(words: Sequence[str]) -> list[str]:
    """The words, with those of `--to zone FILE` and `--to lexicon PROVIDER` as one."""
    joined: list[str] = []
    rest = list(words)
    while rest:
        word = rest.pop(0)
        if word == _TO and len(rest) > 1 and rest[0] in _WAYS_WITH_WORD and not rest[1].startswith(("-", "@")):
            joined.append(f"{_TO}={rest.pop(0)} {rest.pop(0)}")
        else:
            joined.append(word)
    return joined


def _to(text: str) -> tuple[str, str]:
    way, _, word = text.partition(" ")
    if way not in _WAYS or (way in _WAYS_WITH_WORD) != bool(word):
        raise argparse.ArgumentTypeError(f"expected print, update, zone FILE or lexicon PROVIDER, got {text!r}")
    return way, word


def _number(text: str) -> int:
    return 0 if text == "0" else positive(text)


def _parser() -> Parser:
    purpose = (__doc__ or "").partition("\n\n")[0].removeprefix("spfc-publish: ")
    parser = Parser(TOOL, purpose, examples=_EXAMPLES, statuses=PublishStatus)
    parser.add_argument("domain", metavar="DOMAIN", type=command_line.domain, help="the domain of the records")
    parser.add_argument(
        "servers_and_zones",
        metavar="FRAGMENT | @SERVER | ORIGIN=FILE",
        nargs="*",
        help="the records to publish; ask this resolver; judge the fragment over this zone, and ask no resolver for it",
    )
    doing = parser.add_argument_group("what is done")
    doing.add_argument(
        _TO,
        metavar="WAY",
        type=_to,
        default=("print", ""),
        help="print (the plan alone, the default), update (RFC 2136), zone FILE, or lexicon PROVIDER",
    )
    doing.add_argument("--undo", action="store_true", help="put back what was published before")
    doing.add_argument("--sweep", action="store_true", help="take out the names of chains that are no longer of use")
    doing.add_argument("--wait", action="store_true", help="wait until these names may be taken out, and do so")
    doing.add_argument("--policy", metavar="FILE", type=path, help="the text of the policy that was compiled")
    doing.add_argument("--state", metavar="FILE", type=path, help="the state file, by default one for the domain")
    ways = parser.add_argument_group("the way into the DNS")
    ways.add_argument("--key", metavar="FILE", type=path, help="update: a TSIG key, as tsig-keygen writes it")
    ways.add_argument("--primary", metavar="HOST[#PORT]", help="update: the server, by default that of the SOA record")
    ways.add_argument("--reload", metavar="COMMAND", help="zone: run this after the file was written")
    ways.add_argument("--config", metavar="FOLDER", type=path, help="lexicon: where lexicon_PROVIDER.yml is")
    ways.add_argument(
        "--servers",
        metavar="HOST[#PORT],..",
        type=lambda text: text.split(","),
        help="the authoritative servers, by default those of the NS records",
    )
    ways.add_argument(
        "--patience", metavar="S", type=_number, default=_PATIENCE, help="seconds for all servers to follow (600)"
    )
    ways.add_argument(
        "--missing",
        metavar="S",
        type=_number,
        help="seconds for which a missing name is remembered (SOA, at most 3600)",
    )
    command_line.add_server_options(parser)
    command_line.add_spfc_options(parser, (*READING, "--size"), "options of spfc verify")
    return parser


def _parsed(words: Sequence[str]) -> argparse.Namespace:
    parser = _parser()
    arguments = command_line.parse(parser, _joined(words))
    fragments = arguments.domains
    if len(fragments) > 1:
        parser.error(f"expected one FRAGMENT, got {' '.join(fragments)}")
    arguments.fragment = Path(fragments[0]) if fragments else None
    if bool(arguments.fragment) + arguments.undo + arguments.sweep != 1:
        parser.error("expected one of FRAGMENT, --undo and --sweep")
    if arguments.to[0] == "print" and (arguments.undo or arguments.sweep):
        parser.error("--undo and --sweep need --to update, zone FILE or lexicon PROVIDER")
    return arguments


def publish(words: Sequence[str]) -> int:
    """Publishes, and returns the exit status."""
    arguments = _parsed(words)
    try:
        with opened_program() as program:
            command_line.judge_check(program, arguments.domain, command_line.spfc_options(arguments, READING))
            return Tool(arguments, program).run()
    except ValueError as error:
        raise usage(str(error)) from error


def main() -> int:
    """Runs spfc-publish."""
    return command_line.run(TOOL, publish)


if __name__ == "__main__":
    sys.exit(main())
