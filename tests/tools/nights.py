"""A name server of a test's own, whose zones change from night to night."""

import shutil
from collections.abc import Iterator
from contextlib import contextmanager
from dataclasses import dataclass

import servers
from workplace import ZONES, Ended, Workplace

POLICY = "v=spf1 mx include:_spf.mailone.example include:spf.mailtwo.example ip4:203.0.113.17 ~all\n"
HEAD = """@ 300 IN SOA ns h 1 7200 900 1209600 1
@ 300 IN NS ns
ns 300 IN A 192.0.2.53
@ 0 IN TXT "site=123456789 123456789 123456789 123456789 123456789 123456789 123456789 123456789 123456789"
@ 0 IN MX 10 ns
ns 0 IN AAAA 2001:db8::53
"""


@dataclass(frozen=True)
class Domain:
    """A domain, its zone without the SPF record, and the text of its policy."""

    name: str
    head: str = HEAD
    policy: str = POLICY

    @property
    def record(self) -> str:
        """The policy as a record of the zone."""
        return f'@ 0 IN TXT "{self.policy.strip()}"\n'


@dataclass(frozen=True)
class Night:
    """How a night ended: the exit status, the lines of both streams, and the records that were written."""

    status: int
    lines: list[str]
    records: str = ""


class Nights:
    """The server and its zones: that of the domain, and those of two firms."""

    def __init__(self, workplace: Workplace, domain: Domain) -> None:
        self.workplace = workplace
        self.domain = domain
        self._zones = workplace.folder / "zones"
        self._zones.mkdir()
        for name in ("mailone.example", "mailtwo.example"):
            shutil.copy(ZONES / name, self._zones / name)
        self._stamp = 0
        self._served = ""
        self._write(domain.head + domain.record)
        workplace.write("policy", domain.policy)
        self.server = servers.named(workplace.folder / "named", self._zones)

    @property
    def same(self) -> Night:
        """A night on which nothing is to be done."""
        return Night(0, [f"same {self.domain.name}"])

    @property
    def kept(self) -> str:
        """The kept list, empty if there is none."""
        return self.workplace.read("kept") if (self.workplace.folder / "kept").exists() else ""

    @property
    def probe(self) -> str:
        """A name of the domain whose text tells which zone is served."""
        return f"probe.{self.domain.name}"

    def serve(self, *records: str) -> None:
        """Has the server answer with other records of the domain."""
        self._write(self.domain.head + "".join(records))
        self._reload()

    def change(self, zone: str, old: str, new: str) -> None:
        """Changes the zone of a firm."""
        path = self._zones / zone
        text = path.read_text()
        assert text.count(old) == 1, f"{zone} has {text.count(old)} times {old}"
        path.write_text(text.replace(old, new))
        self._write(self._served)
        self._reload()

    def _write(self, text: str) -> None:
        self._served = text
        self._stamp += 1
        (self._zones / self.domain.name).write_text(f'{text}{self.probe}. 0 IN TXT "stamp {self._stamp}"\n')

    def _reload(self) -> None:
        self.server.reload()
        self.server.wait_for(self.probe, f'"stamp {self._stamp}"')

    def gather(self, *words: str) -> str:
        """Gathers the domain into the file `gathered`, and returns its zone word."""
        ended = self.workplace.gather(self.server, self.domain.name, *words, "-o", "gathered")
        assert ended == Ended(0)
        return ".=gathered"

    def compiled(self, zone: str, *words: str) -> str:
        """The records, or the line of the refusal, of `compile` over a zone word."""
        ended = self.workplace.spfc("compile", self.domain.name, *words, zone)
        return ended.output or ended.line

    def wanted(self, *words: str) -> str:
        """The records of `compile` over the zones themselves, with the policy in that of the domain."""
        own = self.workplace.write("own", self.domain.head + self.domain.record)
        firms = [f"{path.name}={path}" for path in sorted(self._zones.iterdir()) if path.name != self.domain.name]
        return self.workplace.spfc("compile", self.domain.name, *words, f"{self.domain.name}={own}", *firms).output

    def night(self, *words: str) -> Night:
        """Runs spfc-nightly."""
        new = self.workplace.folder / "new"
        new.unlink(missing_ok=True)
        place = [*self.server.words, "--tries", "2", "--time", "2"]
        ended = self.workplace.tool("spfc-nightly", self.domain.name, "policy", "new", *place, *words)
        lines = [*ended.output.splitlines(), *ended.line.splitlines()]
        return Night(ended.status, lines, new.read_text() if new.exists() else "")


@contextmanager
def opened(workplace: Workplace, domain: Domain) -> Iterator[Nights]:
    """The nights of a domain, whose server runs as long as they are used."""
    nights = Nights(workplace, domain)
    with nights.server as server:
        server.wait_for(nights.probe)
        yield nights
