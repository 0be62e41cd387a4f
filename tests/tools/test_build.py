"""How `bin/spfc` builds the program: which crates it proves at once, and how a build ends."""

import fcntl
import io
import os
import shutil
import signal
import subprocess
import sys
import time
from pathlib import Path

import pytest
from spfc_build import building, crates, progress, schedule
from spfc_build.crates import Crate
from spfc_build.rooms import Room
from spfc_build.schedule import Check, Machine

TOP = Path(__file__).resolve().parents[2]
PLENTY = Machine(4, 64_000_000_000)
RT = """#!/usr/bin/python3
import fcntl, os, sys, time
from pathlib import Path

here, said = Path.cwd(), os.environ
folders = sorted(here.parent.iterdir())
for folder in folders:
    fcntl.flock(os.open(folder, os.O_RDONLY), fcntl.LOCK_EX)
for folder in folders:
    assert folder == here or (folder / "out/rlib/library").read_text() == folder.name
Path("out/incremental").mkdir(parents=True, exist_ok=True)
with open("out/incremental/kept", "a") as kept:
    print("begun", file=kept)
with open(said["FAKE_LOG"], "a") as log:
    print(here.name, file=log)
if here.name == said["FAKE_HANGS"]:
    time.sleep(300)
if here.name == said["FAKE_FAILS"]:
    print(*range(1, 31), sep="\\n")
    sys.exit(1)
meets = {*said["FAKE_MEETS"].split()}
while here.name in meets and not meets <= {*Path(said["FAKE_LOG"]).read_text().split()}:
    time.sleep(0.02)
if sys.argv[1] == "lib":
    Path("out/rlib").mkdir(exist_ok=True)
    Path("out/rlib/library").write_text(here.name)
else:
    Path("out/spfc").write_text("#!/bin/sh\\n")
    Path("out/spfc").chmod(0o755)
"""
"""Stands in for `rt`: it locks a crate and those below it, proves nothing, and makes libraries and the program."""
CODE = """
import sys
from pathlib import Path

from spfc_build import building
from spfc_build.schedule import Machine

building.machine = lambda: Machine(4, 64_000_000_000)
print(building.ready(Path(sys.argv[1])))
"""
"""Builds the program of a repository, and prints where it is."""


def made(**uses: str) -> dict[str, Crate]:
    """Crates of 100 lines that use these."""
    return {name: Crate(name, frozenset(below.split()), 100) for name, below in uses.items()}


def started(
    of: dict[str, Crate], proved: set[str], at_work: list[Check] | None = None, machine: Machine = PLENTY
) -> dict[str, int]:
    """The crates that are started, in order, and the jobs of each."""
    checks = schedule.next_checks(of, schedule.ways_up(of), proved, at_work or [], machine)
    return {check.name: check.jobs for check in checks}


def test_longest_way_up_is_first() -> None:
    """A crate that others wait for comes before one that none waits for, whatever their names."""
    of = made(alone="", low="", middle="low", top="middle alone")
    assert schedule.ways_up(of) == {"alone": 200, "low": 300, "middle": 200, "top": 100}
    assert [*started(of, set())] == ["low", "alone"]


def test_crate_waits_for_those_below() -> None:
    """No crate is proved before each crate that it uses."""
    of = made(one="", two="", top="one two")
    assert [*started(of, {"one"})] == ["two"]
    assert started(of, {"one"}, [Check("two", 1, 0)]) == {}
    assert [*started(of, {"one", "two"})] == ["top"]


def test_as_many_as_there_are_processors() -> None:
    """A processor has one job, but for a second one of the crate that the build waits for longest."""
    of = made(**{f"part{number}": "" for number in range(6)})
    assert started(of, set(), machine=Machine(3, PLENTY.memory)) == {"part0": 1, "part1": 1, "part2": 1}
    assert started(of, set(), [Check("part5", 4, 0)]) == {}


def test_idle_processors_are_shared() -> None:
    """Where fewer crates wait than processors are idle, a crate gets several jobs."""
    assert started(made(one=""), set()) == {"one": 4}
    assert started(made(one=""), set(), machine=Machine(1, PLENTY.memory)) == {"one": 1}
    assert started(made(one="", two=""), set()) == {"one": 2, "two": 2}
    assert started(made(one="", two="", three=""), set()) == {"one": 1, "three": 1, "two": 2}


def test_longest_way_gets_two_jobs() -> None:
    """The crate that the build waits for longest has two jobs, also where each other processor is taken."""
    of = made(a="", b="", c="", d="", top="d")
    assert started(of, set()) == {"d": 2, "a": 1, "b": 1}


def test_memory_bounds_the_checks() -> None:
    """A crate for which no memory is left waits, but one is always at work."""
    of = made(one="", two="", three="")
    bytes_of_one = schedule.memory_of(of["one"]) / 0.85
    assert len(started(of, set(), machine=Machine(3, int(3.1 * bytes_of_one)))) == 3
    assert len(started(of, set(), machine=Machine(3, int(2.9 * bytes_of_one)))) == 2
    assert started(made(one=""), set(), machine=Machine(4, int(1.7 * bytes_of_one))) == {"one": 2}
    assert len(started(of, set(), machine=Machine(3, 0))) == 1
    assert started(of, {"one"}, [Check("two", 1, 0)], Machine(3, 0)) == {}


def test_order_of_the_lines_is_free(tmp_path: Path) -> None:
    """What the program doesn't need is left out, and comments and libraries of the kit are passed over."""
    lines = ["# crates", "spfc: high", "high: low itoa # two", "other: low", "low:"]
    (tmp_path / "crates.txt").write_text("\n".join(lines) + "\n")
    source = tmp_path / "crates/low/src/deep"
    source.mkdir(parents=True)
    (source / "lib.rt").write_text("one\ntwo\n")
    (source / "notes").write_text("three\n")
    found = crates.read(tmp_path)
    assert {name: crate.uses for name, crate in found.items()} == {"spfc": {"high"}, "high": {"low"}, "low": set()}
    assert found["low"].lines == 2


def test_every_crate_of_the_program_is_proved_once() -> None:
    """The crates of this repository all get their turn, whatever the machine."""
    of = crates.read(TOP)
    for machine in (PLENTY, Machine(1, 0), Machine(64, PLENTY.memory)):
        proved: set[str] = set()
        while len(proved) < len(of):
            names = [*started(of, proved, machine=machine)]
            assert names and not proved & {*names}
            proved |= {*names}


def test_line_of_progress() -> None:
    """The line names what is at work."""
    assert progress.line(12, 35, ["prefix_trie", "spfc_words"], 213.6) == (
        "12 of 35 proved, 2 at work: prefix_trie, spfc_words, 214 s"
    )
    assert progress.line(35, 35, [], 9) == "35 of 35 proved, 0 at work, 9 s"


def test_few_lines_without_a_terminal() -> None:
    """Without a terminal a second line waits, also where something has changed."""
    stream = io.StringIO()
    shown = progress.Progress(2, stream)
    shown.show(0, ["one"])
    shown.show(1, ["two"])
    shown.end()
    assert stream.getvalue() == "spfc: 0 of 2 proved, 1 at work: one, 0 s\n"


class Tree:
    """A repository, and an `rt` that proves nothing."""

    def __init__(self, top: Path, *lines: str) -> None:
        self.top, self.log = top, top / "log"
        (top / "crates.txt").write_text("".join(f"{line}\n" for line in lines))
        for line in lines:
            source = top / "crates" / line.partition(":")[0] / "src"
            source.mkdir(parents=True)
            (source / "lib.rt").write_text("\n")
        (top / "bin").mkdir()
        (top / "bin" / "rt").write_text(RT)
        (top / "bin" / "rt").chmod(0o755)

    def start(self, **environment: str) -> subprocess.Popen[str]:
        """Starts a build."""
        path = f"{self.top / 'bin'}:{os.environ['PATH']}"
        fixed = {"PATH": path, "PYTHONPATH": str(TOP / "tools"), "FAKE_LOG": str(self.log)}
        return subprocess.Popen(
            [sys.executable, "-c", CODE, str(self.top)],
            env={**os.environ, "FAKE_HANGS": "", "FAKE_FAILS": "", "FAKE_MEETS": "", **fixed, **environment},
            stdout=subprocess.PIPE,
            stderr=subprocess.PIPE,
            text=True,
        )

    def build(self, **environment: str) -> None:
        """Builds the program."""
        output, said = self.start(**environment).communicate(timeout=60)
        assert output.strip() == str(building.program_of(self.top)), said
        assert not [*self.top.glob("**/spfc-build/*")]

    def kept(self, name: str) -> int:
        """How many checks of the crate went on with what is kept of it."""
        return len((self.top / "crates" / name / "out/incremental/kept").read_text().split())

    def built(self) -> list[str]:
        """The crates that `rt` was called for since this was last asked."""
        names = self.log.read_text().split() if self.log.exists() else []
        self.log.unlink(missing_ok=True)
        return names

    def wait_for(self, name: str) -> None:
        """Waits until `rt` is called for the crate."""
        until = time.monotonic() + 60
        while not self.log.exists() or name not in self.log.read_text().split():
            assert time.monotonic() < until, f"{name} is not proved"
            time.sleep(0.02)


@pytest.fixture(params=["git", "no git"])
def tree(tmp_path: Path, request: pytest.FixtureRequest) -> Tree:
    """A repository to build in: a clone, or its files alone."""
    if request.param == "git":
        (tmp_path / ".git").mkdir()
    return Tree(tmp_path, "spfc: high", "high: low", "low:")


def test_build_and_no_build(tree: Tree) -> None:
    """The crates are proved in order, and not again until a source changes."""
    tree.build()
    assert tree.built() == ["low", "high", "spfc"]
    tree.build()
    assert tree.built() == []
    later = time.time() + 60
    os.utime(tree.top / "crates/high/src/lib.rt", (later, later))
    tree.build()
    assert tree.built() == ["low", "high", "spfc"]
    assert [tree.kept(name) for name in ("low", "high", "spfc")] == [2, 2, 2]


def test_crates_that_share_one_are_proved_at_once(tmp_path: Path) -> None:
    """Two checks over one crate run at the same time, though `rt` locks it."""
    tree = Tree(tmp_path, "spfc: one two three", "one: low", "two: low", "three: low", "low:")
    tree.build(FAKE_MEETS="one two three")
    assert sorted(tree.built()[1:-1]) == ["one", "three", "two"]


def test_source_that_changes_meanwhile(tree: Tree) -> None:
    """A source that was changed after the build began makes the program stale."""
    tree.build()
    os.utime(tree.top / "crates/low/src/lib.rt")
    assert building.is_stale(tree.top, crates.read(tree.top))


def test_program_of_the_second_compiler(tree: Tree) -> None:
    """What `rt ci` made of an older program is removed."""
    tree.build()
    second = building.second_program_of(tree.top)
    shutil.copy(building.program_of(tree.top), second)
    assert building.programs(tree.top) == [building.program_of(tree.top), second]
    building.program_of(tree.top).unlink()
    tree.build()
    assert building.programs(tree.top) == [building.program_of(tree.top)]


def test_crate_that_fails(tree: Tree) -> None:
    """The build ends with the crate's name and its last lines, and no crate above it is proved."""
    process = tree.start(FAKE_FAILS="high")
    _, said = process.communicate(timeout=60)
    assert process.returncode != 0
    assert "the build failed at high, with 1 of 3 proved" in said
    assert "\n11\n" in said and "\n30\n" in said and "\n10\n" not in said
    assert tree.built() == ["low", "high"]
    tree.build()
    assert [tree.kept(name) for name in ("low", "high", "spfc")] == [2, 2, 1]


@pytest.mark.parametrize("number", [signal.SIGTERM, signal.SIGINT, signal.SIGHUP, signal.SIGKILL])
def test_build_that_is_broken_off_goes_on(tree: Tree, number: signal.Signals) -> None:
    """However a build is ended, nothing that it started is left, and the next one goes on with what it kept."""
    process = tree.start(FAKE_HANGS="high")
    tree.wait_for("high")
    children = Path(f"/proc/{process.pid}/task/{process.pid}/children").read_text().split()
    assert children
    process.send_signal(number)
    process.communicate(timeout=60)
    until = time.monotonic() + 60
    while any(Path("/proc", child).exists() for child in children):
        assert time.monotonic() < until
        time.sleep(0.02)
    assert not building.program_of(tree.top).exists()
    tree.build()
    assert [tree.kept(name) for name in ("low", "high", "spfc")] == [2, 2, 1]


def test_copy_of_a_crate_that_is_gone(tree: Tree) -> None:
    """What a killed build left of a crate that is not built any more is removed, and what was made of it is kept."""
    for name in ("gone", "there"):
        (Room(tree.top, name).crate / "out").mkdir(parents=True)
    (tree.top / "crates/there").mkdir()
    tree.build()
    assert (tree.top / "crates/there/out").is_dir()
    assert not (tree.top / "crates/gone").exists()


def test_second_build_waits(tree: Tree) -> None:
    """Two builds in one tree: the second waits, and takes what the first built."""
    first = tree.start(FAKE_HANGS="high")
    tree.wait_for("high")
    second = tree.start()
    assert second.stderr is not None
    assert "waiting for another command" in second.stderr.readline()
    first.terminate()
    first.communicate(timeout=60)
    output, _ = second.communicate(timeout=60)
    assert output.strip() == str(building.program_of(tree.top))


def test_build_waits_for_rt(tree: Tree) -> None:
    """A build waits while an `rt` works in one of its crates."""
    held = os.open(tree.top / "crates/low", os.O_RDONLY)
    fcntl.flock(held, fcntl.LOCK_EX)
    process = tree.start()
    assert process.stderr is not None
    assert f"waiting for another command that works in {tree.top}/crates/low" in process.stderr.readline()
    os.close(held)
    process.communicate(timeout=60)
    assert process.returncode == 0


def test_no_kit(tree: Tree, monkeypatch: pytest.MonkeyPatch) -> None:
    """Without `rt` the build says what is missing."""
    monkeypatch.setenv("PATH", str(tree.top / "nothing"))
    assert shutil.which("rt") is None
    with pytest.raises(building.BuildFailed, match="rt is not here"):
        building.ready(tree.top)


def test_crates_in_a_circle(tree: Tree, monkeypatch: pytest.MonkeyPatch) -> None:
    """Crates that use each other end the build."""
    (tree.top / "crates.txt").write_text("spfc: high\nhigh: spfc\n")
    monkeypatch.setenv("PATH", f"{tree.top / 'bin'}:{os.environ['PATH']}")
    with pytest.raises(building.BuildFailed, match="in a circle"):
        building.ready(tree.top)
