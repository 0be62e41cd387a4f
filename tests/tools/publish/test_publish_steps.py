"""The engine over servers in memory: broken off at each point, and servers that do otherwise than they were told."""

from __future__ import annotations

from collections.abc import Callable, Iterable
from dataclasses import dataclass, field, replace
from pathlib import Path

import pytest
from dns.name import Name, from_text

from spfc_tools.exit_statuses import Ending, PublishStatus
from spfc_tools.publish.authoritative import Server, TextSet
from spfc_tools.publish.publication import Publication, Waiting, undone
from spfc_tools.publish.published import Published, Text, TextRecord
from spfc_tools.publish.state import Move, State, Step, Store
from spfc_tools.publish.steps import Sight
from spfc_tools.publish.ways import Replacement, WayOvertaken, WayRefused, WayUnsure

DOMAIN = from_text("example.com")
OTHER = Text.cut(b"site=1")
_SPF = b"v=spf1"


class Killed(BaseException):
    """The call is broken off here."""


def record(name: str, text: str) -> TextRecord:
    """A record of a chain."""
    return TextRecord(from_text(name), Text.cut(text.encode()), 0)


def chain(label: str) -> Published:
    """A chain of three records."""
    first, second = f"{label}1.example.com", f"{label}2.example.com"
    return Published(
        DOMAIN,
        record("example.com", f"v=spf1 ip4:192.0.2.1 redirect={first}"),
        (
            record(first, f"v=spf1 ip4:192.0.2.2 redirect={second}"),
            record(second, f"v=spf1 ip4:192.0.2.3 {label} -all"),
        ),
    )


OLD, NEW = chain("_spfa"), chain("_spfb")


def unchanged(text: Text) -> Text:
    """What a server publishes that does as it is told."""
    return text


@dataclass
class World:
    """A server in memory: it is a way too, and keeps count of all that is done."""

    texts: dict[Name, set[Text]]
    seen: list[dict[Name, frozenset[Text]]] = field(default_factory=list)
    done: list[str] = field(default_factory=list)
    points: int = 0
    killed_at: int = 0
    published: Callable[[Text], Text] = unchanged
    fault: Exception | None = None
    is_deaf: bool = False

    @staticmethod
    def of(published: Published) -> World:
        """A server with these records and another one at the domain."""
        texts: dict[Name, set[Text]] = {one.name: {one.text} for one in published.chain}
        texts[DOMAIN] = {OTHER, *([published.record.text] if published.record else [])}
        return World(texts)

    def point(self) -> None:
        """A place where a call may be broken off."""
        self.points += 1
        if self.points == self.killed_at:
            raise Killed

    def look(self, wanted: Iterable[Name]) -> list[Sight]:
        """What an observer sees."""
        self.point()
        here = frozenset(self.texts[DOMAIN])
        policies = frozenset(text for text in here if text.octets.startswith(_SPF))
        sets = {name: TextSet(frozenset(self.texts.get(name, set())), 0) for name in (DOMAIN, *wanted)}
        return [Sight(Server("ns", "192.0.2.53"), policies, here - policies, 0, sets)]

    def _change(self, what: str, change: Callable[[], None]) -> None:
        self.point()
        if self.fault:
            raise self.fault
        if not self.is_deaf:
            change()
            self.done.append(what)
            self.seen.append({name: frozenset(texts) for name, texts in self.texts.items()})
        self.point()

    def add(self, added: TextRecord) -> None:
        """Adds a record."""
        if self.texts.get(added.name):
            raise WayOvertaken("there is one")
        self._change(f"add {added.name}", lambda: self.texts.update({added.name: {self.published(added.text)}}))

    def replace(self, change: Replacement) -> None:
        """Replaces the SPF record."""
        wanted = {change.old, *change.others} - {None}
        if self.texts[DOMAIN] != wanted:
            raise WayOvertaken("others are there")
        new = set(change.others) | ({self.published(change.new)} if change.new else set())
        self._change("replace", lambda: self.texts.update({DOMAIN: new}))

    def remove(self, removed: TextRecord) -> None:
        """Takes a record out."""
        self._change(f"remove {removed.name}", lambda: self.texts[removed.name].discard(removed.text))


class CountingStore(Store):
    """A store where a call may be broken off before and after each writing."""

    world: World

    def save(self, state: State) -> State:
        """Writes the state."""
        world = WORLDS[self.path]
        world.point()
        saved = super().save(state)
        world.point()
        return saved


WORLDS: dict[Path, World] = {}


def publication(world: World, path: Path, state: State | None = None) -> Publication:
    """The engine over a server in memory, with the state of the file or a new one."""
    store = CountingStore(path)
    WORLDS[path] = world
    begun = state or store.load(DOMAIN)
    assert begun is not None
    waiting = Waiting(patience=0.0, missing=0.0)
    observer: object = world
    return Publication(store, begun, observer, world, waiting, lambda target: None)  # type: ignore[arg-type]


def started(path: Path, source: Published, target: Published) -> State:
    """The state of a new move, in its file."""
    return Store(path).save(State(DOMAIN, Move(source, target, was_missing=True)))


def is_whole(texts: dict[Name, frozenset[Text]]) -> bool:
    """Whether the one SPF record at the domain leads through a chain of which nothing is missing."""
    here = [text for text in texts[DOMAIN] if text.octets.startswith(_SPF)]
    for published in (OLD, NEW):
        assert published.record is not None
        if here == [published.record.text]:
            return OTHER in texts[DOMAIN] and all(one.text in texts.get(one.name, ()) for one in published.chain)
    return False


def finish(world: World, path: Path, undo: bool = False) -> Publication:
    """Goes on to the end, and takes the old chain out."""
    engine = publication(world, path)
    if undo:
        engine = publication(world, path, undone(engine.state, world.look([*OLD.names, *NEW.names])))
    engine.run()
    engine.sweep(may_wait=True)
    return engine


@pytest.mark.parametrize("undo", (False, True))
def test_broken_off_at_each_point(tmp_path: Path, undo: bool) -> None:
    """A call that is broken off anywhere, and called again, ends as if it had not been; at each moment all is whole."""
    plain = World.of(OLD)
    started(tmp_path / "plain", OLD, NEW)
    finish(plain, tmp_path / "plain")
    assert [*plain.done[:3]] == ["add _spfb1.example.com.", "add _spfb2.example.com.", "replace"]
    points = plain.points
    if undo:
        finish(plain, tmp_path / "plain", undo=True)
        points = plain.points
    assert points > 20
    for number in range(1, points + 1):
        world, path = World.of(OLD), tmp_path / f"state{number}"
        started(path, OLD, NEW)
        world.killed_at = number
        with pytest.raises(Killed):
            finish(world, path)
            finish(world, path, undo=True)
        finish(world, path)
        if undo:
            finish(world, path, undo=True)
        assert {name: texts for name, texts in world.texts.items() if texts} == {
            name: texts for name, texts in plain.texts.items() if texts
        }
        assert all(map(is_whole, world.seen))


def stopped(world: World, path: Path) -> Ending:
    """How a publication ends that does not come to its end."""
    with pytest.raises(Ending) as found:
        publication(world, path).run()
    return found.value


def test_a_server_that_refuses(tmp_path: Path) -> None:
    """Nothing was changed, and the next call goes on."""
    world = World.of(OLD)
    world.fault = WayRefused("NOTAUTH")
    started(tmp_path / "state", OLD, NEW)
    ended = stopped(world, tmp_path / "state")
    assert ended.status is PublishStatus.REFUSED
    assert ended.lines == ("could not add _spfb1.example.com: NOTAUTH", "nothing was changed")
    assert world.texts == World.of(OLD).texts
    world.fault = None
    finish(world, tmp_path / "state")
    assert is_whole({name: frozenset(texts) for name, texts in world.texts.items()})


@pytest.mark.parametrize("fault", (None, WayUnsure("no reply")))
def test_a_server_that_loses_updates(tmp_path: Path, fault: Exception | None) -> None:
    """What is not there after a while is named; the next call sends it again."""
    world = World.of(OLD)
    world.is_deaf, world.fault = True, fault
    started(tmp_path / "state", OLD, NEW)
    ended = stopped(world, tmp_path / "state")
    assert ended.status is PublishStatus.REFUSED
    assert ended.lines[0].startswith("not there after 0 seconds: ns (192.0.2.53) has at _spfb1.example.com no record")
    world.is_deaf, world.fault = False, None
    finish(world, tmp_path / "state")
    assert not world.texts[OLD.names[0]]


def test_a_lost_replacement(tmp_path: Path) -> None:
    """The chain is there, the record before too: that is said, and the next call replaces it."""
    world = World.of(OLD)
    started(tmp_path / "state", OLD, NEW)
    for one in NEW.chain:
        world.add(one)
    world.is_deaf = True
    ended = stopped(world, tmp_path / "state")
    assert ended.status is PublishStatus.PARTLY
    assert ended.lines[0].startswith("not replaced after 0 seconds: ns (192.0.2.53) has at example.com")
    assert ended.lines[1] == (
        "there now: no new record at example.com, and of the chain _spfb1.example.com _spfb2.example.com"
    )
    world.is_deaf = False
    finish(world, tmp_path / "state")
    assert all(map(is_whole, world.seen))


def test_another_record_than_expected(tmp_path: Path) -> None:
    """Somebody else replaced the record: it is left as it is."""
    world = World.of(OLD)
    started(tmp_path / "state", OLD, NEW)
    foreign = Text.cut(b"v=spf1 ip4:198.51.100.1 -all")
    world.texts[DOMAIN] = {OTHER, foreign}
    ended = stopped(world, tmp_path / "state")
    assert ended.status is PublishStatus.REFUSED
    assert OLD.record is not None
    assert ended.lines[0] == f"ns (192.0.2.53) has at example.com {foreign}; expected {OLD.record.text}"
    assert not world.done


def test_a_provider_that_cuts_the_chain(tmp_path: Path) -> None:
    """What was added is taken out again before the domain leads to it."""
    world = World.of(OLD)
    world.published = lambda text: Text.cut(text.octets[:20])
    started(tmp_path / "state", OLD, NEW)
    ended = stopped(world, tmp_path / "state")
    assert ended.status is PublishStatus.REFUSED
    assert ended.lines[-1] == "what was added is taken out again"
    assert all(map(is_whole, world.seen))
    assert not world.texts[NEW.names[0]] and not world.texts[NEW.names[1]]


def test_a_provider_that_cuts_the_record(tmp_path: Path) -> None:
    """The old record is put back."""
    world = World.of(OLD)
    assert NEW.record is not None
    cut = Text.cut(NEW.record.text.octets[:25])
    world.published = lambda text: cut if NEW.record and text == NEW.record.text else text
    started(tmp_path / "state", OLD, NEW)
    ended = stopped(world, tmp_path / "state")
    assert ended.status is PublishStatus.PARTLY
    assert ended.lines[1] == "the old record was put back"
    assert is_whole({name: frozenset(texts) for name, texts in world.texts.items()})
    engine = publication(world, tmp_path / "state")
    engine = publication(world, tmp_path / "state", undone(engine.state, world.look([*OLD.names, *NEW.names])))
    engine.run()
    engine.sweep(may_wait=True)
    assert not world.texts[NEW.names[0]]


def test_verdicts_that_differ(tmp_path: Path) -> None:
    """Where a server does not give each address its verdict, the old record is put back."""
    world = World.of(OLD)
    state = started(tmp_path / "state", OLD, NEW)
    engine = publication(world, tmp_path / "state", state)
    engine._compare_verdicts = lambda target: "differ pass fail 192.0.2.3 1"
    with pytest.raises(Ending) as found:
        engine.run()
    assert found.value.lines[:2] == ("differ pass fail 192.0.2.3 1", "the old record was put back")
    assert engine.state.move.step is Step.REPLACE


def test_a_name_that_is_remembered(tmp_path: Path) -> None:
    """A label is used again only when its older records are forgotten."""
    world = World.of(OLD)
    state = started(tmp_path / "state", OLD, NEW)
    state = replace(state, remembered={NEW.names[0]: 4e9})
    engine = publication(world, tmp_path / "state", replace(state, move=replace(state.move, complete=1.0)))
    assert engine._known_from() == 4e9


def test_a_sweep_takes_out_nothing_that_is_in_use(tmp_path: Path) -> None:
    """What another person put at the domain is not undone by a sweep."""
    world = World.of(OLD)
    started(tmp_path / "state", OLD, NEW)
    publication(world, tmp_path / "state").run()
    assert OLD.record is not None
    world.texts[DOMAIN] = {OTHER, OLD.record.text}
    with pytest.raises(Ending) as found:
        publication(world, tmp_path / "state").sweep(may_wait=True)
    assert found.value.status is PublishStatus.REFUSED
    assert world.texts[OLD.names[0]]
