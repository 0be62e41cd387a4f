"""What spfc itself says before and after a publication: of the fragment, of the published records, and of both."""

from __future__ import annotations

from dataclasses import dataclass
from pathlib import Path

from dns.name import Name

from spfc_tools import names
from spfc_tools.exit_statuses import Ending, Status
from spfc_tools.facts import Kind, read_questions
from spfc_tools.gathering import Gathering, Request, read_policy
from spfc_tools.program import USAGE, Program
from spfc_tools.progress import Progress
from spfc_tools.publish.authoritative import Authority, Server
from spfc_tools.publish.endings import no_answer, refused, usage
from spfc_tools.publish.published import Published, TextRecord, master_file
from spfc_tools.publish.steps import Observer, Sight, shown
from spfc_tools.resolving import Resolver

_NO_CHAIN = ("no zone", "no chain")
"""How the lines of `verify` begin for a file that has other records than a chain."""
_MOST_NAMES = 64
_EQUAL = "equal"


@dataclass(frozen=True)
class Judge:
    """The program, with the options under which a policy is read."""

    program: Program
    domain: Name
    reading: tuple[str, ...]
    cutting: tuple[str, ...]
    exchanges: int
    progress: Progress

    @property
    def _word(self) -> str:
        return names.printed(self.domain)

    # ------------------------------------------------------------- the fragment

    def verify(self, fragment: Path, zones: tuple[str, ...]) -> None:
        """Refuses a fragment that does not say what the policy in the zones says."""
        words = ["verify", self._word, str(fragment), *self.reading, *self.cutting, *zones]
        ended = self.program.run(words)
        if ended.status == USAGE:
            raise usage(f"spfc does not take these words: {' '.join(words)}")
        if ended.status:
            advice = f"{fragment} is not the fragment of this policy"
            raise refused(ended.line, advice, "--policy FILE names the text of the policy that it was compiled from")

    def gathered(self, resolver: Resolver, policy: Path | None) -> tuple[str, ...]:
        """The policy in the DNS, or the text of a file in its place, with all that it depends on: as zone words."""
        text = read_policy(policy, self.program) if policy else None
        zone = self._gather(Request((self._word,), self.reading, self.exchanges, policy=text), resolver)
        path = self.program.folder / "policy"
        path.write_text(zone, encoding="latin-1")
        return (f".={path}",)

    def _gather(self, request: Request, resolver: Resolver) -> str:
        try:
            return Gathering(request, self.program, resolver, self.progress).gather().world.zone()
        except Ending as ending:
            if ending.status in (Status.USAGE, Status.TOOL):
                raise
            raise no_answer(*ending.lines) from ending
        finally:
            self.progress.clear()

    # ------------------------------------------------------------- the published records

    def published(self, observer: Observer) -> tuple[Published, list[Sight]]:
        """What the domain publishes now, by every server: its SPF record, and the chain to which it leads."""
        wanted: list[Name] = []
        while True:
            sights = observer.look(wanted)
            records = self._records(sights, wanted)
            questions = self.program.questions(self._word, self.reading, master_file(records))
            asked = [question.name for question in read_questions(questions) if question.kind is Kind.TXT]
            more = [name for name in asked if name.is_subdomain(self.domain) and name not in (self.domain, *wanted)]
            if not more or len(wanted) + len(more) > _MOST_NAMES:
                break
            wanted += dict.fromkeys(more)
        record = next((record for record in records if record.name == self.domain), None)
        chain = tuple(record for record in records if record.name != self.domain)
        published = Published(self.domain, record, chain)
        return (published if self._is_chain(published) else Published(self.domain, record)), sights

    def _records(self, sights: list[Sight], wanted: list[Name]) -> list[TextRecord]:
        """The SPF record and the texts of names, which all servers have to show alike."""
        first = sights[0]
        for sight in sights:
            for name in (self.domain, *wanted):
                if sight.sets[name].texts != first.sets[name].texts:
                    line = f"{first.server} and {sight.server} have different TXT records at {names.printed(name)}"
                    raise refused(line, "wait until the servers agree")
        if len(first.policies) > 1:
            raise refused(f"{self._word} has {len(first.policies)} SPF records: {shown(first.policies)}", "leave one")
        if first.policies and first.sets[self.domain].is_of_wildcard:
            raise refused(f"the SPF record of {self._word} is that of a wildcard: write one at {self._word} first")
        at_domain = [TextRecord(self.domain, text, first.ttl) for text in first.policies]
        return at_domain + [
            TextRecord(name, text, first.sets[name].ttl) for name in wanted for text in sorted(first.at(name), key=str)
        ]

    def _is_chain(self, published: Published) -> bool:
        """Whether the records are one chain of flat records, as `verify` reads them."""
        if not published.chain:
            return False
        path = self.program.folder / "chain"
        path.write_text(published.zone, encoding="latin-1")
        ended = self.program.over(["verify", self._word, str(path), *self.reading], published.zone)
        return not ended.line.startswith(_NO_CHAIN)

    # ------------------------------------------------------------- both together

    def difference(self, authority: Authority, target: Published) -> str | None:
        """What some server says otherwise than the new records; None if all say the same."""
        path = self.program.folder / "target"
        path.write_text(target.zone, encoding="latin-1")
        for server in authority.servers:
            if (line := self._difference(server, authority, path)) is not None:
                return f"{server}: {line}"
        return None

    def _difference(self, server: Server, authority: Authority, target: Path) -> str | None:
        resolver = Resolver((server.address,), server.port, authority.tries, authority.seconds, are_named=True)
        try:
            zone = self._gather(Request((self._word,), self.reading, self.exchanges), resolver)
        except Ending as ending:
            return "; ".join(ending.lines)
        before = self.program.folder / "shown"
        before.write_text(zone, encoding="latin-1")
        policies = [self._word, self._word, *self.reading]
        ended = self.program.run(["compare", *policies, f".={before}", "with", f"{self._word}={target}"])
        said = ended.output.strip() or ended.line
        return None if ended.status == 0 and said == _EQUAL else said.replace("\n", "; ")
