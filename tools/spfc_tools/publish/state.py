"""The state of a publication, in a file that only its owner can read: written before each step, whole or not at all."""

from __future__ import annotations

import enum
import fcntl
import json
import os
import tempfile
from collections.abc import Iterator, Mapping
from contextlib import contextmanager
from dataclasses import dataclass, field, replace
from pathlib import Path
from typing import Any
from urllib.parse import quote

from dns.name import Name

from spfc_tools import names
from spfc_tools.exit_statuses import Ending, PublishStatus
from spfc_tools.publish.endings import partly, refused
from spfc_tools.publish.published import Published, Text, TextRecord

_VERSION = 1
_MODE = 0o600
"""Of the lock; the state itself has the mode of a temporary file, which is the same."""
_FOLDER_MODE = 0o700


class Step(enum.Enum):
    """The step that comes next."""

    ADD = "add"
    WAIT = "wait"
    REPLACE = "replace"
    COMPARE = "compare"
    DONE = "done"


@dataclass(frozen=True)
class Move:
    """The way from what a domain publishes to what it is to publish. Times are seconds since 1970."""

    source: Published
    target: Published
    step: Step = Step.ADD
    is_undo: bool = False
    was_missing: bool = False
    """Whether a server lacked a name of the target's chain when the move began."""
    was_published: bool = True
    """Whether a receiver may have seen the source's record at the domain."""
    others: frozenset[Text] = frozenset()
    """The other TXT records at the domain, just before its SPF record was replaced."""
    complete: float | None = None
    """When each server was seen with the target's chain."""
    replaced: float | None = None
    """When each server was seen with the target's record at the domain."""


@dataclass(frozen=True)
class Leftover:
    """Records of an old chain, and the time from which they may be taken out."""

    records: tuple[TextRecord, ...]
    not_before: float


@dataclass(frozen=True)
class State:
    """All that is kept of the publications of a domain."""

    domain: Name
    move: Move
    leftovers: tuple[Leftover, ...] = ()
    remembered: Mapping[Name, float] = field(default_factory=dict)
    """Until when a resolver may remember a record that was taken out, by its name."""

    def with_move(self, **changes: Any) -> State:
        """The state with some parts of its move changed."""
        return replace(self, move=replace(self.move, **changes))


@dataclass(frozen=True)
class Store:
    """The file of a state."""

    path: Path

    def load(self, domain: Name) -> State | None:
        """The state, if there is one."""
        try:
            text = self.path.read_text(encoding="utf-8")
        except FileNotFoundError:
            return None
        except (OSError, UnicodeError) as error:
            raise refused(f"the state file {self.path} cannot be read") from error
        try:
            state = _state(json.loads(text))
        except (ValueError, KeyError, TypeError, AttributeError) as error:
            raise refused(f"{self.path} is not a state file of spfc-publish: it is left as it is") from error
        if state.domain != domain:
            raise refused(f"{self.path} is the state of {names.printed(state.domain)}: name another by --state")
        return state

    def save(self, state: State) -> State:
        """Writes the state, and gives it back."""
        text = json.dumps(_written(state), indent=1) + "\n"
        try:
            descriptor, temporary = tempfile.mkstemp(prefix=f".{self.path.name}.", dir=self.path.parent)
            try:
                with open(descriptor, "w", encoding="utf-8") as file:
                    file.write(text)
                    file.flush()
                    os.fsync(file.fileno())
                os.replace(temporary, self.path)
            except BaseException:
                os.unlink(temporary)
                raise
        except OSError as error:
            raise Ending(PublishStatus.UNWRITTEN, f"{self.path} could not be written: {error.strerror}") from error
        return state

    @contextmanager
    def locked(self) -> Iterator[None]:
        """Within it, no other call works on this state."""
        try:
            self.path.parent.mkdir(mode=_FOLDER_MODE, parents=True, exist_ok=True)
            lock = os.open(self.path.with_name(f"{self.path.name}.lock"), os.O_RDWR | os.O_CREAT | os.O_CLOEXEC, _MODE)
        except OSError as error:
            raise refused(f"{self.path.parent}: {error.strerror}") from error
        try:
            fcntl.flock(lock, fcntl.LOCK_EX | fcntl.LOCK_NB)
            yield
        except BlockingIOError as error:
            raise partly(f"another call works with {self.path}: wait for its end") from error
        finally:
            os.close(lock)


def default_path(domain: str) -> Path:
    """The state file of a domain where the words name none: that of systemd's service, or of the user."""
    if folder := os.environ.get("STATE_DIRECTORY"):
        top = Path(folder.partition(":")[0])
    else:
        top = Path(os.environ.get("XDG_STATE_HOME") or Path.home() / ".local/state") / "spfc"
    return top / f"{quote(domain, safe='')}.publish.json"


def _written(state: State) -> dict[str, Any]:
    move = state.move
    return {
        "version": _VERSION,
        "domain": names.absolute(state.domain),
        "move": {
            "step": move.step.value,
            "is_undo": move.is_undo,
            "was_missing": move.was_missing,
            "was_published": move.was_published,
            "source": _written_published(move.source),
            "target": _written_published(move.target),
            "others": sorted(map(str, move.others)),
            "complete": move.complete,
            "replaced": move.replaced,
        },
        "leftovers": [
            {"not_before": leftover.not_before, "records": list(map(_written_record, leftover.records))}
            for leftover in state.leftovers
        ],
        "remembered": {names.absolute(name): until for name, until in state.remembered.items()},
    }


def _state(read: dict[str, Any]) -> State:
    if read["version"] != _VERSION:
        raise ValueError("another version")
    domain, move = names.read(read["domain"]), read["move"]
    return State(
        domain,
        Move(
            source=_published(domain, move["source"]),
            target=_published(domain, move["target"]),
            step=Step(move["step"]),
            is_undo=bool(move["is_undo"]),
            was_missing=bool(move["was_missing"]),
            was_published=bool(move["was_published"]),
            others=frozenset(map(Text.read, move["others"])),
            complete=_time(move["complete"]),
            replaced=_time(move["replaced"]),
        ),
        tuple(
            Leftover(tuple(map(_record, leftover["records"])), float(leftover["not_before"]))
            for leftover in read["leftovers"]
        ),
        {names.read(name): float(until) for name, until in read["remembered"].items()},
    )


def _written_published(published: Published) -> dict[str, Any]:
    record = published.record
    return {
        "record": _written_record(record) if record else None,
        "chain": list(map(_written_record, published.chain)),
    }


def _published(domain: Name, read: dict[str, Any]) -> Published:
    record = read["record"]
    return Published(domain, _record(record) if record else None, tuple(map(_record, read["chain"])))


def _written_record(record: TextRecord) -> dict[str, Any]:
    return {"name": names.absolute(record.name), "ttl": record.ttl, "text": str(record.text)}


def _record(read: dict[str, Any]) -> TextRecord:
    return TextRecord(names.read(read["name"]), Text.read(read["text"]), int(read["ttl"]))


def _time(read: float | None) -> float | None:
    return None if read is None else float(read)
