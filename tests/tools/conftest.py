"""What the tests of the tools share: options, name servers for a session, and a workplace for each test."""

import importlib.util
import itertools
import os
import shutil
import sys
from collections.abc import Iterator
from pathlib import Path

import pytest
import servers
from spfc_build.needs import NEEDS, Group, Need
from workplace import TOP, ZONES, Workplace

_NEEDS_OF_FIXTURES = {
    "server": "servers",
    "second_server": "servers",
    "forwarder": "servers",
    "nights": "servers",
    "open_nights": "servers",
}
"""The groups of bin/test-tools that fixtures need."""


def pytest_addoption(parser: pytest.Parser) -> None:
    """The options of these tests."""
    group = parser.getgroup("tools of spfc")
    program = TOP / "crates/spfc/out/spfc"
    group.addoption("--program", type=Path, default=program, metavar="P", help="the program spfc that the tools run")
    group.addoption("--tree", type=Path, default=TOP, metavar="PATH", help="the checkout whose tools are tried")
    group.addoption(
        "--without",
        action="append",
        default=[],
        choices=list(Group),
        help="leave out the tests of a group of bin/test-tools; else they fail if its packages are missing",
    )


def pytest_configure(config: pytest.Config) -> None:
    """Has the tests import the package of the checkout whose tools are tried."""
    sys.path.insert(0, str(config.getoption("tree").resolve() / "tools"))


def _needs(item: pytest.Item) -> set[str]:
    """The names of what a test needs."""
    fixtures = getattr(item, "fixturenames", ())
    marked = {str(mark.args[0]) for mark in item.iter_markers("needs")}
    return marked | {_NEEDS_OF_FIXTURES[fixture] for fixture in fixtures if fixture in _NEEDS_OF_FIXTURES}


def pytest_collection_modifyitems(config: pytest.Config, items: list[pytest.Item]) -> None:
    """Leaves out what --without names, and spreads the tests that take longest, so that no worker ends late."""
    without = set(config.getoption("without"))
    left_out = [item for item in items if _needs(item) & without]
    config.hook.pytest_deselected(items=left_out)
    kept = [item for item in items if not _needs(item) & without]
    slow = [item for item in kept if item.get_closest_marker("slow")]
    items[:] = _spread(slow, [item for item in kept if not item.get_closest_marker("slow")])


def _spread(slow: list[pytest.Item], quick: list[pytest.Item]) -> list[pytest.Item]:
    """All tests, the slow ones evenly over the first quarter: pytest-xdist first gives each worker a part of this."""
    gap = len(quick) // 4 // max(len(slow), 1)
    chunks = ([item, *quick[number * gap : (number + 1) * gap]] for number, item in enumerate(slow))
    return [*itertools.chain.from_iterable(chunks), *quick[len(slow) * gap :]]


def _is_installed(need: Need) -> bool:
    """Whether a command or a module of Python is there."""
    _, colon, name = need.probe.rpartition(":")
    return importlib.util.find_spec(name) is not None if colon else servers.has_tool(name)


def pytest_runtest_setup(item: pytest.Item) -> None:
    """Fails a test if a program that it needs is missing."""
    for need in NEEDS:
        if need.group in _needs(item) and not _is_installed(need):
            pytest.fail(f"{need.package} is not installed; --without {need.group} leaves this test out", pytrace=False)


@pytest.fixture(scope="session")
def program(pytestconfig: pytest.Config) -> Path:
    """The program."""
    path: Path = pytestconfig.getoption("program").resolve()
    if not os.access(path, os.X_OK):
        pytest.fail(f"there is no program {path}; `bin/spfc` builds it", pytrace=False)
    return path


@pytest.fixture
def workplace(tmp_path: Path, program: Path, pytestconfig: pytest.Config) -> Workplace:
    """A folder in which a test runs the tools and the program."""
    return Workplace(tmp_path, program, pytestconfig.getoption("tree").resolve() / "bin")


@pytest.fixture(scope="session")
def zones(tmp_path_factory: pytest.TempPathFactory) -> Path:
    """A copy of the zones that the servers have."""
    return Path(shutil.copytree(ZONES, tmp_path_factory.mktemp("zones") / "zones"))


@pytest.fixture(scope="session")
def server(tmp_path_factory: pytest.TempPathFactory, zones: Path) -> Iterator[servers.Server]:
    """named with the zones of the tests."""
    with servers.named(tmp_path_factory.mktemp("named") / "named", zones) as running:
        running.wait_for("example.com")
        yield running


@pytest.fixture(scope="session")
def second_server(tmp_path_factory: pytest.TempPathFactory, zones: Path) -> Iterator[servers.Server]:
    """nsd with the same zones."""
    with servers.nsd(tmp_path_factory.mktemp("nsd") / "nsd", zones) as running:
        running.wait_for("example.com")
        yield running


@pytest.fixture(scope="session")
def forwarder(tmp_path_factory: pytest.TempPathFactory, server: servers.Server) -> Iterator[servers.Server]:
    """named as a resolver that asks the first server."""
    with servers.forwarding(tmp_path_factory.mktemp("forwarder") / "named", server) as running:
        running.wait_for("example.com")
        yield running


@pytest.fixture(scope="session")
def misbehaving(tmp_path_factory: pytest.TempPathFactory) -> Iterator[servers.Server]:
    """A server that breaks the rules, in Python."""
    with servers.misbehaving(tmp_path_factory.mktemp("misbehaving") / "misbehaving") as running:
        running.wait_for("long.fake.test")
        yield running
