"""How `bin/test` counts, and what it says of a machine that lacks something."""

import os
import subprocess
import sys
from pathlib import Path

import pytest
from spfc_build import needs, testing
from spfc_build.needs import Group, Need
from spfc_build.testing import CRASHED, Counted, Outcome, Part, Pytest

TOP = Path(__file__).resolve().parents[2]


def python(code: str) -> list[str]:
    """A command that runs this Python code."""
    return [sys.executable, "-c", code]


def test_part_is_one_test(tmp_path: Path) -> None:
    """A command passes by its status."""
    assert Part("good", python("pass")).run(tmp_path) == Outcome(1, 0)
    assert Part("bad", python("raise SystemExit(3)")).run(tmp_path) == Outcome(0, 1)


@pytest.mark.parametrize(
    ("code", "outcome"),
    [
        ("print('cases: 3 passed, 0 failed')", Outcome(3, 0)),
        ("print('5 passed, 0 failed')", Outcome(5, 0)),
        ("print('cases: 3 passed, 2 failed'); raise SystemExit(1)", Outcome(3, 2)),
        ("print('cases: 3 passed, 0 failed'); raise SystemExit(1)", Outcome(3, 1)),
        ("print('cases: 3 passed, 0 failed'); print('and more')", CRASHED),
        ("print('cases: 3 passed, 0 fai'); raise SystemExit(1)", CRASHED),
        ("pass", CRASHED),
        ("import os; os.kill(os.getpid(), 9)", CRASHED),
    ],
)
def test_counts_of_a_last_line(tmp_path: Path, code: str, outcome: Outcome) -> None:
    """A command that ends without its counts, or with a status that they do not explain, counts as failed."""
    assert Counted("some", python(code)).run(tmp_path) == outcome


@pytest.mark.parametrize(
    ("body", "outcome"),
    [
        ("def test_a(): pass\ndef test_b(): pass", Outcome(2, 0)),
        ("def test_a(): pass\ndef test_b(): assert False", Outcome(1, 1)),
        ("import pytest\ndef test_a(): pytest.skip('no')\ndef test_b(): pass", Outcome(1, 1)),
        ("import pytest\n@pytest.mark.xfail\ndef test_a(): assert False", Outcome(0, 1)),
        ("import nothing_of_this_name\ndef test_a(): pass", Outcome(0, 1)),
        ("import pytest\n@pytest.fixture\ndef it(): raise OSError\ndef test_a(it): pass", Outcome(0, 1)),
        ("", CRASHED),
        ("import os\ndef test_a(): os._exit(0)", CRASHED),
    ],
)
def test_counts_of_pytest(tmp_path: Path, body: str, outcome: Outcome) -> None:
    """A test that is skipped counts as failed, and so does a run without any test."""
    (tmp_path / "test_it.py").write_text(f"{body}\n")
    command = [needs.PYTHON, "-m", "pytest", "-q", "-p", "no:cacheprovider", "test_it.py"]
    assert Pytest("some", command).run(tmp_path) == outcome


def test_sum_and_command_that_is_not_there(tmp_path: Path, monkeypatch: pytest.MonkeyPatch) -> None:
    """The counts of all parts are summed, and a part that does not start counts as failed."""
    chosen = [Part("one", python("pass")), Part("two", [str(tmp_path / "nothing")]), Part("three", python("1 / 0"))]
    monkeypatch.setattr(testing, "parts", lambda *_: chosen)
    assert testing.run(tmp_path, [], []) == Outcome(1, 2)


def test_parts_that_are_left_out() -> None:
    """Only what --without names is left out, and the others are told what."""
    every = {part.name for part in testing.parts(TOP, [Path("/p")], [])}
    assert {part.name for part in testing.parts(TOP, [Path("/p")], [Group.TYPES])} == every - {"types"}
    parts = {part.name: part.command for part in testing.parts(TOP, [Path("/p"), Path("/q")], [Group.SERVERS])}
    assert {*parts} == every
    words = [*parts["the cases and examples"]]
    assert words == ["bin/cases", "--program", "/p", "--program", "/q", "--without", "servers"]
    assert [*parts["the tools"]][-4:] == ["--program", "/p", "--without", "servers"]


def test_missing(monkeypatch: pytest.MonkeyPatch) -> None:
    """What is missing is found, unless only tests that are left out need it."""
    lacks = Need("some-server", "no-such-server", "serves", Group.SERVERS)
    module = Need("some-module", "python:no_such_module", "imports")
    monkeypatch.setattr(
        needs, "NEEDS", (lacks, module, Need("shell", "sh", "runs"), Need("python", "python:json", "reads"))
    )
    assert needs.missing([]) == [lacks, module]
    assert needs.missing([Group.SERVERS]) == [module]


def test_each_group_has_a_meaning_and_a_package() -> None:
    """The table covers every group that can be left out."""
    assert {*needs.MEANING} == {*Group} == {need.group for need in needs.NEEDS} - {None}


@pytest.mark.parametrize("tool", ["test", "test-tools"])
def test_machine_without_a_server(tmp_path: Path, tool: str) -> None:
    """Where named is missing and cannot be installed, the test fails and says what is missing."""
    for name in ("nsd", "named-checkzone", "mandoc", "dpkg-deb", "py3compile"):
        (tmp_path / name).write_text("#!/bin/sh\n")
        (tmp_path / name).chmod(0o755)
    command = [needs.PYTHON, str(TOP / "bin" / tool)]
    ran = subprocess.run(command, env={**os.environ, "PATH": str(tmp_path)}, capture_output=True, text=True)
    assert ran.returncode == 1
    assert "named is missing, of the package bind9" in ran.stderr
    assert "apt-get install --yes --no-install-recommends bind9" in ran.stderr
    if tool == "test":
        assert ran.stdout.splitlines()[-1] == "0 passed, 1 failed"


def test_last_line_names_what_is_left_out(tmp_path: Path) -> None:
    """The last line says what was left out, also where the test fails."""
    command = [needs.PYTHON, str(TOP / "bin/test"), "--without", "servers", "--without", "types"]
    words = ["--program", str(tmp_path / "nothing")]
    ran = subprocess.run([*command, *words], capture_output=True, text=True)
    assert ran.returncode == 1
    assert ran.stdout.splitlines() == [
        f"test: there is no program {tmp_path / 'nothing'}",
        "0 passed, 1 failed; without servers, types",
    ]
