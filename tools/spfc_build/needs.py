"""What the tests need of the machine: Debian's packages, each with what it is for."""

import os
import shutil
import subprocess
import sys
from collections.abc import Collection
from dataclasses import dataclass
from enum import StrEnum

PYTHON = "/usr/bin/python3"
"""Debian's Python, whose packages the tests use."""
_SYSTEM_FOLDERS = ("/usr/sbin", "/sbin")
"""Where Debian has its servers. They are not on the path of each user."""
_INSTALL = ("apt-get", "install", "--yes", "--no-install-recommends")


class Group(StrEnum):
    """Tests that can be left out by name."""

    SERVERS = "servers"
    PUBLISHING = "publishing"
    PACKAGE = "package"
    MAN = "man"
    TYPES = "types"
    FORMAT = "format"
    LINT = "lint"


MEANING = {
    Group.SERVERS: "what needs a name server or its tools",
    Group.PUBLISHING: "what publishes records in name servers of several kinds",
    Group.PACKAGE: "the Debian package",
    Group.MAN: "the check of the manual pages",
    Group.TYPES: "the check of types",
    Group.FORMAT: "the check of the layout of Python files",
    Group.LINT: "the check of the style of Python files",
}


@dataclass(frozen=True)
class Need:
    """A package of Debian."""

    package: str
    probe: str
    """A command that it brings or, with a prefix `python:`, a module."""
    purpose: str
    group: Group | None = None
    """The tests that need it, or none where all do."""


NEEDS = (
    Need("python3-dnspython", "python:dns", "the tools ask DNS by it"),
    Need("python3-pytest", "python:pytest", "runs the checks of the tools"),
    Need("python3-pytest-xdist", "python:xdist", "runs several of them at once"),
    Need("bind9", "named", "a name server that the tools are tried with", Group.SERVERS),
    Need("nsd", "nsd", "another name server", Group.SERVERS),
    Need("bind9-utils", "named-checkzone", "loads what `compile` writes", Group.SERVERS),
    Need("knot", "knotd", "a name server that takes updates", Group.PUBLISHING),
    Need("pdns-server", "pdns_server", "a name server that is changed over HTTP", Group.PUBLISHING),
    Need("pdns-backend-sqlite3", "pdnsutil", "keeps its zones", Group.PUBLISHING),
    Need("sqlite3", "sqlite3", "makes the database of these", Group.PUBLISHING),
    Need("python3-lexicon", "python:lexicon", "changes zones at providers", Group.PUBLISHING),
    Need("python3-spf", "python:spf", "evaluates policies as a mail receiver does", Group.PUBLISHING),
    Need("dpkg", "dpkg-deb", "makes the Debian package", Group.PACKAGE),
    Need("python3-minimal", "py3compile", "compiles its modules as it is installed", Group.PACKAGE),
    Need("mandoc", "mandoc", "checks the manual pages", Group.MAN),
    Need("mypy", "python:mypy", "checks types", Group.TYPES),
    Need("black", "python:black", "checks the layout of Python files", Group.FORMAT),
    Need("python3-flake8", "python:flake8", "checks the style of Python files", Group.LINT),
)


def _has_module(name: str) -> bool:
    code = f"import importlib.util, sys; sys.exit(importlib.util.find_spec({name!r}) is None)"
    return os.access(PYTHON, os.X_OK) and subprocess.run([PYTHON, "-c", code]).returncode == 0


def _is_there(need: Need) -> bool:
    kind, colon, name = need.probe.rpartition(":")
    return _has_module(name) if colon else shutil.which(name) is not None


def missing(without: Collection[Group]) -> list[Need]:
    """What the tests need and the machine lacks, but for what only groups that are left out need."""
    return [need for need in NEEDS if need.group not in without and not _is_there(need)]


def add_system_folders() -> None:
    """Has servers found by a user whose path lacks their folders. A path without Debian's folders stays as it is."""
    folders = os.environ.get("PATH", "").split(":")
    if "/usr/bin" in folders:
        os.environ["PATH"] = ":".join([*folders, *(folder for folder in _SYSTEM_FOLDERS if folder not in folders)])


def _shown(lacks: Collection[Need]) -> None:
    for need in lacks:
        kind, colon, name = need.probe.rpartition(":")
        what = f"the module {name}" if colon else name
        print(f"test-tools: {what} is missing, of the package {need.package}: {need.purpose}", file=sys.stderr)


def install(without: Collection[Group]) -> bool:
    """Installs what is missing, and gives whether all is there. A user who is not root is told the line to run."""
    lacks = missing(without)
    if not lacks:
        return True
    _shown(lacks)
    words = [*_INSTALL, *dict.fromkeys(need.package for need in lacks)]
    line = f"apt-get update && {' '.join(words)}"
    if os.geteuid() != 0:
        print(f"test-tools: run this as root: {line}", file=sys.stderr)
        return False
    if shutil.which("apt-get") is None:
        print(f"test-tools: there is no apt-get to install it by: {line}", file=sys.stderr)
        return False
    environment = {**os.environ, "DEBIAN_FRONTEND": "noninteractive"}
    for command in (["apt-get", "update"], words):
        if subprocess.run(command, stdin=subprocess.DEVNULL, stdout=sys.stderr, env=environment).returncode != 0:
            break
    left = missing(without)
    _shown(left)
    return not left
