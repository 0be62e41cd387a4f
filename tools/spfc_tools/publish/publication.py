"""One publication: the steps of a move, each begun only where every server shows what the state file says."""

from __future__ import annotations

import logging
import time
from collections.abc import Callable, Iterator, Mapping, Sequence
from dataclasses import dataclass, replace
from datetime import datetime
from functools import partial

from dns.name import Name

from spfc_tools import names
from spfc_tools.exit_statuses import Ending
from spfc_tools.publish.endings import no_answer, partly, refused
from spfc_tools.publish.published import Published, TextRecord
from spfc_tools.publish.state import Leftover, Move, State, Step, Store
from spfc_tools.publish.steps import AFTER, BEFORE, Expected, Observer, Sight, difference, is_missing, of_undo, shown
from spfc_tools.publish.ways import Replacement, Way, WayOvertaken, WayRefused, WayUnsure

_LOG = logging.getLogger(__name__)
_TRIES = 3
_SHORTEST, _LONGEST = 0.1, 5.0
"""Seconds between two looks at the servers."""


@dataclass(frozen=True)
class Waiting:
    """For how many seconds the servers may take to follow, and a missing name is remembered."""

    patience: float
    missing: float


Compare = Callable[[Published], str | None]
"""Says of what every server has, whether it gives each address its verdict: None, or what it does not."""


class Publication:
    """The engine. It is the same for all ways, and for an undo."""

    def __init__(
        self, store: Store, state: State, observer: Observer, way: Way, waiting: Waiting, compare: Compare
    ) -> None:
        self._store = store
        self.state = state
        self._observer = observer
        self._way = way
        self._waiting = waiting
        self._compare_verdicts = compare

    @property
    def _move(self) -> Move:
        return self.state.move

    def run(self) -> None:
        """Does what is left of the move, step by step."""
        actions = {
            Step.ADD: self._add,
            Step.WAIT: self._wait,
            Step.REPLACE: self._replace,
            Step.COMPARE: self._compare,
        }
        while self._move.step is not Step.DONE:
            _LOG.info("step: %s", self._move.step.value)
            actions[self._move.step]()

    # ------------------------------------------------------------- the steps

    def _add(self) -> None:
        """Adds the records of the chain that no server has yet."""
        sights = self._look(BEFORE)
        for record in self._move.target.chain:
            if not any(record.text in sight.at(record.name) for sight in sights):
                self._do(partial(self._way.add, record), f"add {names.printed(record.name)}")
        self._save(step=Step.WAIT)

    def _wait(self) -> None:
        """Waits until every server has the chain, and until no resolver remembers that a name of it was missing."""
        for sights, is_last in self._looks():
            wrong = self._wrong(sights)
            if wrong is not None:
                self._take_back(wrong)
            late = self._differences(sights, AFTER)
            if not late:
                break
            if is_last:
                self._save(step=Step.ADD)
                raise self._stopped(f"not there after {self._waiting.patience:.0f} seconds: {late[0]}")
        if self._move.complete is None:
            self._save(complete=time.time())
        self._sleep_until(self._known_from(), "a missing name may be remembered")
        self._save(step=Step.REPLACE)

    def _replace(self) -> None:
        """Replaces the SPF record of the domain, where no server shows the new one yet."""
        target = self._move.target.text
        for _ in range(_TRIES):
            sights = self._look(BEFORE)
            if any(sight.policies == ({target} if target else set()) for sight in sights):
                break
            change = self._replacement(sights)
            self._save(others=change.others)
            try:
                self._do(partial(self._way.replace, change), "replace the SPF record")
                break
            except WayOvertaken as error:
                _LOG.info("%s", error)
                time.sleep(_SHORTEST)
        else:
            raise self._stopped(f"the TXT records at {self._domain} change while they are replaced")
        self._save(step=Step.COMPARE)

    def _compare(self) -> None:
        """Waits until every server has the new record, and compares the verdicts; else the old one is put back."""
        for sights, is_last in self._looks():
            wrong = self._differences(sights, BEFORE)
            if wrong:
                self._put_back(sights, wrong[0])
            late = self._differences(sights, AFTER)
            if not late:
                break
            if is_last:
                self._save(step=Step.REPLACE)
                raise self._stopped(f"not replaced after {self._waiting.patience:.0f} seconds: {late[0]}")
        if self._move.replaced is None:
            self._save(replaced=time.time())
        if line := self._compare_verdicts(self._move.target):
            self._put_back(sights, line)
        self._save_leftover()
        if lost := self._move.others - frozenset.intersection(*(sight.others for sight in sights)):
            raise partly(
                f"{self._domain} has the new record, and these TXT records are gone: {shown(lost)}", "put them back"
            )

    def _save_leftover(self) -> None:
        """Notes what may be taken out when the last resolver has forgotten the old record."""
        move, leftovers = self._move, list(self.state.leftovers)
        old = tuple(record for record in move.source.chain if record.name not in move.target.names)
        if old:
            seconds = move.source.record.ttl if move.was_published and move.source.record else 0
            leftovers.append(Leftover(old, (move.replaced or time.time()) + seconds))
        self.state = self._store.save(replace(self.state, leftovers=tuple(leftovers)).with_move(step=Step.DONE))

    # ------------------------------------------------------------- what is taken out

    def sweep(self, *, may_wait: bool) -> list[Name]:
        """Takes out the records of old chains, as far as their time has come, and returns the names."""
        swept: list[Name] = []
        for leftover in self.state.leftovers:
            if leftover.not_before > time.time():
                if not may_wait:
                    continue
                self._sleep_until(leftover.not_before, "the old record may be remembered")
            self._sweep(leftover)
            swept += [record.name for record in leftover.records]
        return swept

    def _sweep(self, leftover: Leftover) -> None:
        wanted = [record.name for record in leftover.records]
        in_use = set(wanted) & set(self._move.target.names)
        if in_use:
            raise refused(f"{names.printed(min(in_use))} is in use: it is not taken out")
        published = Expected(AFTER[Step.COMPARE].at_domain, has_target=True, has_source=False)
        sights = self._observer.look([*self._names(), *wanted])
        if lines := self._differences(sights, {self._move.step: published}):
            raise refused(lines[0], "nothing was taken out")
        for record in leftover.records:
            for text in {text for sight in sights for text in sight.at(record.name) if text == record.text}:
                self._do(
                    partial(self._way.remove, replace(record, text=text)), f"take out {names.printed(record.name)}"
                )
        self._wait_for_absence(leftover.records)
        now = time.time()
        remembered = {name: until for name, until in self.state.remembered.items() if until > now}
        remembered |= {record.name: now + record.ttl for record in leftover.records}
        rest = tuple(other for other in self.state.leftovers if other != leftover)
        self.state = self._store.save(replace(self.state, leftovers=rest, remembered=remembered))

    def _wait_for_absence(self, records: Sequence[TextRecord]) -> None:
        for sights, is_last in self._looks([record.name for record in records]):
            left = [record for record in records if any(record.text in sight.at(record.name) for sight in sights)]
            if not left:
                return
            if is_last:
                raise partly(f"{names.printed(left[0].name)} is still there: call again")

    # ------------------------------------------------------------- what goes wrong

    def _wrong(self, sights: Sequence[Sight]) -> str | None:
        """What a server has in place of a record that was added. Another difference ends the call."""
        lines = self._differences(sights, BEFORE)
        if not lines:
            return None
        for sight in sights:
            for record in self._move.target.chain:
                found = sight.at(record.name)
                if found and record.text not in found:
                    return f"{sight.server} has at {names.printed(record.name)} {shown(found)}, not {record.text}"
        raise self._stopped(lines[0])

    def _take_back(self, line: str) -> None:
        """Takes out the records that were added, since one of them was published otherwise."""
        sights = self._observer.look(self._names())
        records = {
            replace(record, text=text)
            for record in self._move.target.chain
            for sight in sights
            for text in sight.at(record.name)
        }
        for record in records:
            self._do(partial(self._way.remove, record), f"take out {names.printed(record.name)}")
        self._wait_for_absence(sorted(records, key=str))
        remembered = {record.name: time.time() + record.ttl for record in records}
        self.state = replace(self.state, remembered={**self.state.remembered, **remembered})
        self._save(step=Step.ADD, complete=None)
        raise refused(line, "what was added is taken out again")

    def _put_back(self, sights: Sequence[Sight], line: str) -> None:
        """Puts the old record back in place of whatever was published."""
        source = self._move.source.text
        kept = self._move.target.record or self._move.source.record
        ttl = kept.ttl if kept else 0
        for text in {text for sight in sights for text in sight.policies} - {source}:
            is_there = any(source is not None and {source, text} <= sight.policies for sight in sights)
            change = Replacement(self.state.domain, text, None if is_there else source, sights[0].others, ttl)
            self._do(partial(self._way.replace, change), "put the old record back")
        self._save(step=Step.REPLACE, replaced=None)
        old = frozenset() if source is None else frozenset({source})
        for looked, is_last in self._looks():
            if all(sight.policies == old for sight in looked):
                raise partly(line, "the old record was put back", *self._advice())
            if is_last:
                raise partly(line, f"{self._domain} has {shown(looked[0].policies)}", "the old record is not back yet")

    def _advice(self) -> list[str]:
        chain = " ".join(map(names.printed, self._move.target.names)) or "no other record"
        return [f"there now: the old record, and {chain}", "call again, or with --undo"]

    def _stopped(self, line: str) -> Ending:
        """The end at what was seen, with what is there now."""
        try:
            sights = self._observer.look(self._names())
        except Ending:
            return no_answer(line, "what is there now is not known: call again, or with --undo")
        move = self._move
        is_new = any(move.target.text in sight.policies for sight in sights if move.target.text)
        added = [
            record.name for record in move.target.chain if any(record.text in sight.at(record.name) for sight in sights)
        ]
        if not is_new and not added and move.step in (Step.ADD, Step.WAIT):
            return refused(line, "nothing was changed")
        at_domain = "the new record" if is_new else "no new record"
        chain = " ".join(map(names.printed, added)) or "none"
        return partly(
            line,
            f"there now: {at_domain} at {self._domain}, and of the chain {chain}",
            "call again, or with --undo",
        )

    # ------------------------------------------------------------- looking and changing

    @property
    def _domain(self) -> str:
        return names.printed(self.state.domain)

    def _names(self) -> list[Name]:
        return [*self._move.source.names, *self._move.target.names]

    def _differences(self, sights: Sequence[Sight], table: Mapping[Step, Expected]) -> list[str]:
        expected = table[self._move.step]
        if self._move.is_undo:
            expected = of_undo(expected)
        return [line for sight in sights if (line := difference(sight, self._move, expected)) is not None]

    def _look(self, table: Mapping[Step, Expected]) -> list[Sight]:
        """What every server shows; the call ends where one shows what the step does not expect."""
        sights = self._observer.look(self._names())
        if lines := self._differences(sights, table):
            raise self._stopped(lines[0])
        return sights

    def _looks(self, more: Sequence[Name] = ()) -> Iterator[tuple[list[Sight], bool]]:
        """Looks at all servers, again and again, and whether it is the last time."""
        pause, end = _SHORTEST, time.monotonic() + self._waiting.patience
        while True:
            is_last = time.monotonic() >= end
            yield self._observer.look([*self._names(), *more]), is_last
            if is_last:
                return
            time.sleep(min(pause, max(0.0, end - time.monotonic())))
            pause = min(pause * 1.5, _LONGEST)

    def _replacement(self, sights: Sequence[Sight]) -> Replacement:
        """The change of the SPF record, with the texts as the first server has them cut."""
        others = sights[0].others
        if any(sight.others != others for sight in sights):
            raise self._stopped(f"the servers have different TXT records at {self._domain}")
        record = self._move.target.record or self._move.source.record
        assert record is not None
        ttl = sights[0].ttl if others else record.ttl
        old = next(iter(sights[0].policies), None)
        return Replacement(self.state.domain, old, self._move.target.text, others, ttl)

    def _do(self, change: Callable[[], None], what: str) -> None:
        """Makes a change. Whether one without a clear answer was made is seen by the looks that follow."""
        _LOG.info("%s", what)
        try:
            change()
        except WayRefused as error:
            raise self._stopped(f"could not {what}: {error}") from error
        except WayUnsure as error:
            _LOG.warning("%s: %s", what, error)
        except WayOvertaken as error:
            if what.startswith("replace"):
                raise
            raise self._stopped(f"could not {what}: {error}") from error

    def _known_from(self) -> float:
        """From when on no resolver remembers a name of the chain as missing, or with an older record."""
        assert self._move.complete is not None
        until = self._move.complete + (self._waiting.missing if self._move.was_missing else 0)
        return max([until, *(self.state.remembered.get(name, 0.0) for name in self._move.target.names)])

    @staticmethod
    def _sleep_until(until: float, why: str) -> None:
        while (left := until - time.time()) > 0:
            _LOG.info("waiting %.0f seconds: %s", left, why)
            time.sleep(min(left, 60.0))

    def _save(self, **changes: object) -> None:
        self.state = self._store.save(self.state.with_move(**changes))


def undone(state: State, sights: Sequence[Sight]) -> State:
    """The state of the move back to what was there before."""
    move = state.move
    if move.is_undo:
        return state
    back = Move(
        source=move.target,
        target=move.source,
        is_undo=True,
        was_missing=any(is_missing(sight, move.source) for sight in sights),
        was_published=move.step in (Step.REPLACE, Step.COMPARE, Step.DONE),
    )
    names_again = set(move.source.names)
    leftovers = tuple(
        leftover for leftover in state.leftovers if not names_again & {record.name for record in leftover.records}
    )
    return replace(state, move=back, leftovers=leftovers)


def when(seconds: float) -> str:
    """A time for a person."""
    return datetime.fromtimestamp(seconds).astimezone().strftime("%Y-%m-%d %H:%M:%S %Z")
