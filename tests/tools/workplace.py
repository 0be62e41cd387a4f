"""A folder in which a test runs the tools and the program."""

import os
import signal
import subprocess
from collections.abc import Mapping, Sequence
from dataclasses import dataclass
from pathlib import Path

from servers import Server

TOP = Path(__file__).resolve().parents[2]
ZONES = Path(__file__).with_name("zones")
_SECONDS = 120
"""The time that one command may take."""


@dataclass(frozen=True)
class Ended:
    """How a command ended: its exit status, standard output, and standard error without the last line feed."""

    status: int
    output: str = ""
    line: str = ""


def run(command: Sequence[str], folder: Path, environment: Mapping[str, str] | None = None) -> Ended:
    """Runs a command in a folder. If it takes too long, it is killed with all that it started."""
    process = subprocess.Popen(
        command,
        cwd=folder,
        env={**os.environ, **(environment or {})},
        stdin=subprocess.DEVNULL,
        stdout=subprocess.PIPE,
        stderr=subprocess.PIPE,
        start_new_session=True,
    )
    try:
        output, line = process.communicate(timeout=_SECONDS)
    except subprocess.TimeoutExpired:
        os.killpg(process.pid, signal.SIGKILL)
        process.communicate()
        return Ended(-1, "", f"no end within {_SECONDS} seconds")
    return Ended(process.returncode, output.decode("latin-1"), line.decode("latin-1").rstrip("\n"))


@dataclass(frozen=True)
class Workplace:
    """A folder, the program, and the folder `bin` of the tools to try."""

    folder: Path
    program: Path
    bin: Path

    def tool(self, name: str, *words: str) -> Ended:
        """Runs a tool."""
        return run([str(self.bin / name), *words], self.folder, {"SPFC": str(self.program)})

    def gather(self, server: Server, domain: str, *words: str) -> Ended:
        """Runs spfc-gather, which asks this server."""
        return self.tool("spfc-gather", domain, *server.words, *words)

    def spfc(self, *words: str) -> Ended:
        """Runs the program."""
        return run([str(self.program), *words], self.folder)

    def check(self, domain: str, address: str, *zones: str) -> str:
        """The outcome that the program prints for an address."""
        return self.spfc("check", domain, address, *zones).output.rstrip("\n")

    def outcomes(self, domain: str, addresses: Sequence[str], *zones: str) -> dict[str, str]:
        """The outcomes of some addresses."""
        return {address: self.check(domain, address, *zones) for address in addresses}

    def read(self, name: str) -> str:
        """The text of a file in the folder."""
        return (self.folder / name).read_text(encoding="latin-1")

    def write(self, name: str, text: str) -> Path:
        """Writes a file in the folder, and returns its path."""
        path = self.folder / name
        path.write_text(text, encoding="latin-1")
        return path

    def names(self) -> list[str]:
        """The names of the files in the folder, hidden ones too."""
        return sorted(path.name for path in self.folder.iterdir())

    def within(self, name: str) -> "Workplace":
        """A workplace in a new folder of this one."""
        folder = self.folder / name
        folder.mkdir()
        return Workplace(folder, self.program, self.bin)


def zone_words(*names: str) -> list[str]:
    """The words by which the program reads these zones of the tests, or all of them that it can read."""
    unread = ("broken.test", "dname.test")
    chosen = names or [path.name for path in sorted(ZONES.iterdir()) if path.name not in unread]
    return [f"{name}={ZONES / name}" for name in chosen]
