"""The Debian package, the man pages, and what bin/spfc and the tools say of themselves."""

import os
import pty
import re
import subprocess
import tomllib
from pathlib import Path

import pytest
from servers import Server
from spfc_tools.commands import COMMANDS, NUMBERS, OPTIONS, READING
from spfc_tools.exit_statuses import ExitStatus, ExplainStatus, GatherStatus, NightlyStatus, PublishStatus
from workplace import TOP, Ended, Workplace, run

_PLACES = {
    "DOMAIN": "example.com",
    "DOMAIN..": "b.example.com",
    "ADDRESS": "192.0.2.1",
    "FILE": "zone",
    "START": "0",
    "N": "1",
}
_ZONE = '@ IN TXT "v=spf1 ip4:192.0.2.0/24 -all"\n'
_VERSION = (TOP / "VERSION").read_text().strip()
_STATUSES: dict[str, type[ExitStatus]] = {
    "spfc-gather": GatherStatus,
    "spfc-nightly": NightlyStatus,
    "spfc-explain": ExplainStatus,
    "spfc-publish": PublishStatus,
}
"""The tools that have an enum of exit statuses, an option --help and a man page."""
_SCRIPTS = tomllib.loads((TOP / "pyproject.toml").read_text())["project"]["scripts"]
_USAGE = 4


# ------------------------------------------------------------- the table of commands, against the program


def _words(name: str) -> list[str]:
    """The command with a word at each of its places."""
    return [name, *(_PLACES[place] for place in COMMANDS[name].places)]


def _is_taken(workplace: Workplace, name: str, *options: str) -> bool:
    """Whether the program takes the command with these options."""
    workplace.write("zone", _ZONE)
    zones = ["example.com=zone"] if COMMANDS[name].zones else []
    return workplace.spfc(*_words(name), *options, *zones).status != _USAGE


@pytest.mark.parametrize("name", COMMANDS)
def test_command(name: str, workplace: Workplace) -> None:
    """The program has the command, with the options of the table and no others."""
    assert _is_taken(workplace, name)
    values = {option: [str(numbers.least)] for option, numbers in NUMBERS.items()} | {"--label": ["_a"]}
    taken = {option for option in OPTIONS if _is_taken(workplace, name, option, *values.get(option, []))}
    assert taken == set(COMMANDS[name].options)


@pytest.mark.parametrize("option", NUMBERS)
def test_range(option: str, workplace: Workplace) -> None:
    """The program takes the least and the greatest number of the table, and none beyond."""
    numbers = NUMBERS[option]
    beyond = [numbers.least - 1] * (numbers.least > 0) + [numbers.most + 1]
    assert all(_is_taken(workplace, "compile", option, str(number)) for number in (numbers.least, numbers.most))
    assert not any(_is_taken(workplace, "compile", option, str(number)) for number in beyond)


@pytest.mark.parametrize("option", READING)
def test_default_of_a_reading_option(option: str, workplace: Workplace) -> None:
    """A kept list names the default of the table."""
    workplace.write("zone", _ZONE)
    first = workplace.spfc("keep", "example.com", "example.com=zone").output.split("\n")[0]
    assert first.split(" ")[3 + READING.index(option)] == str(NUMBERS[option].default)


# ------------------------------------------------------------- help


@pytest.mark.parametrize("word", ["help", "--help", "-h"])
def test_help(word: str, workplace: Workplace) -> None:
    """bin/spfc lists all commands on one screen."""
    ended = run([str(workplace.bin / "spfc"), word], workplace.folder)
    assert [name for name in COMMANDS if f"spfc {name} " not in ended.output] == []
    assert len(ended.output.splitlines()) <= 24


@pytest.mark.parametrize("name", COMMANDS)
def test_help_of_a_command(name: str, workplace: Workplace) -> None:
    """bin/spfc help COMMAND begins with the synopsis."""
    ended = run([str(workplace.bin / "spfc"), "help", name], workplace.folder)
    assert (ended.status, ended.output.split("\n")[0]) == (0, f"spfc {COMMANDS[name].synopsis(name)}")


def test_help_of_no_command(workplace: Workplace) -> None:
    """There is no such command."""
    assert run([str(workplace.bin / "spfc"), "help", "nothing"], workplace.folder).status == _USAGE


@pytest.mark.parametrize("word", ["version", "--version"])
def test_version(word: str, workplace: Workplace) -> None:
    """bin/spfc names its version and the kit."""
    ended = run([str(workplace.bin / "spfc"), word], workplace.folder)
    assert ended.status == 0
    assert ended.output.startswith(f"spfc {_VERSION}, proved with ")


@pytest.mark.parametrize("tool", _SCRIPTS)
def test_help_of_a_tool(tool: str, workplace: Workplace) -> None:
    """Each tool of pyproject.toml is in bin/, and has --help with an example and --version."""
    ended = run([str(workplace.bin / tool), "--help"], workplace.folder)
    assert (ended.status, ended.line) == (0, "")
    assert re.search(rf"\nexamples:\n  {tool} ", ended.output)
    assert run([str(workplace.bin / tool), "--version"], workplace.folder) == Ended(0, f"{tool} {_VERSION}\n")


@pytest.mark.parametrize("tool", _STATUSES)
def test_statuses_in_help(tool: str, workplace: Workplace) -> None:
    """--help of a tool ends with its exit statuses."""
    lines = [f"  {status.value}  {status.meaning}" for status in _STATUSES[tool]]
    assert run([str(workplace.bin / tool), "--help"], workplace.folder).output.splitlines()[-len(lines) :] == lines


# ------------------------------------------------------------- man pages


@pytest.mark.needs("man")
def test_man_pages_have_no_warning() -> None:
    """mandoc finds nothing in any page."""
    pages = sorted(str(page) for page in (TOP / "packaging/man").glob("*.1"))
    assert run(["mandoc", "-Tlint", "-Wwarning", *pages], TOP) == Ended(0)


def test_man_page_of_spfc() -> None:
    """The page names each command and option."""
    text = (TOP / "packaging/man/spfc.1").read_text()
    assert [option for option in OPTIONS if f"Fl {option[1:]}" not in text] == []
    assert [name for name in COMMANDS if f".It Cm {name}" not in text] == []


@pytest.mark.parametrize("tool", _STATUSES)
def test_man_page_of_a_tool(tool: str, workplace: Workplace) -> None:
    """The page names each option of --help and each exit status, and no others."""
    text = (TOP / f"packaging/man/{tool}.1").read_text()
    output = run([str(workplace.bin / tool), "--help"], workplace.folder).output
    options = set(re.findall(r"(?<![\w-])--[a-z][a-z-]+", output.split("\nexamples:")[0]))
    assert [option for option in sorted(options.difference(OPTIONS)) if f"Fl {option[1:]}" not in text] == []
    statuses = re.findall(r"^\.It (\d+)$", text.split(".Sh EXIT STATUS")[1].split(".Sh ")[0], re.MULTILINE)
    assert statuses == [str(status.value) for status in _STATUSES[tool]]


# ------------------------------------------------------------- the package


@pytest.fixture
def installed(workplace: Workplace) -> Workplace:
    """The package, unpacked below the folder `root`: a workplace with its tools."""
    command = [str(TOP / "bin/package"), "--program", str(workplace.program), "made"]
    made = run(command, workplace.folder)
    assert (made.status, made.line) == (0, "")
    package = workplace.folder / made.output.strip()
    unpacked = run(["dpkg-deb", "-x", str(package), "root"], workplace.folder)
    assert unpacked.status == 0
    workplace.write("zone", _ZONE)
    return Workplace(workplace.folder, workplace.program, workplace.folder / "root/usr/bin")


def _environment(installed: Workplace) -> dict[str, str]:
    """What has the tools of the unpacked package find their modules and the program there."""
    modules = installed.folder / "root/usr/lib/python3/dist-packages"
    return {"PATH": "/usr/bin:/bin", "SPFC": "", "PYTHONPATH": str(modules)}


def _run_installed(installed: Workplace, tool: str, *words: str) -> Ended:
    """Runs a tool of the unpacked package."""
    return run([str(installed.bin / tool), *words], installed.folder, _environment(installed))


@pytest.mark.needs("package")
def test_package_is_reproducible(workplace: Workplace) -> None:
    """Packaging twice gives the same bytes."""
    command = [str(TOP / "bin/package"), "--program", str(workplace.program)]
    made = [run([*command, folder], workplace.folder).output.strip() for folder in ("one", "two")]
    one, two = ((workplace.folder / path).read_bytes() for path in made)
    assert one == two


@pytest.mark.needs("package")
def test_installed_tools(installed: Workplace, workplace: Workplace, server: Server) -> None:
    """The installed tools do what those of the checkout do."""
    for tool in _SCRIPTS:
        assert _run_installed(installed, tool, "--version") == Ended(0, f"{tool} {_VERSION}\n")
    words = ["check", "example.com", "192.0.2.1", "example.com=zone"]
    assert _run_installed(installed, "spfc", *words) == Ended(0, "pass\n")
    assert _run_installed(installed, "spfc", "version").output.startswith(f"spfc {_VERSION}, ")
    assert "the verdict pass" in _run_installed(installed, "spfc-explain", *words).output
    gathered = _run_installed(installed, "spfc-gather", "example.com", *server.words)
    assert gathered == workplace.gather(server, "example.com")


@pytest.mark.needs("package")
def test_modules_of_the_package(installed: Workplace) -> None:
    """The package has each module of the checkout, and its types."""
    made = installed.folder / "root/usr/lib/python3/dist-packages/spfc_tools"
    source = TOP / "tools/spfc_tools"
    wanted = [path.relative_to(source) for path in source.rglob("*") if path.suffix == ".py" or path.name == "py.typed"]
    assert sorted(path.relative_to(made) for path in made.rglob("*") if path.is_file()) == sorted(wanted)


@pytest.mark.needs("package")
def test_links_of_the_package(installed: Workplace) -> None:
    """Each link of an installed document, and each document that a man page names, is there."""
    root = installed.folder / "root"
    documents = [*(root / "usr/share/doc/spfc").rglob("*.md")]
    targets = [(file, found) for file in documents for found in re.findall(r"\]\(([^)#:\s]+)", file.read_text())]
    assert [(file.name, target) for file, target in targets if not (file.parent / target).exists()] == []
    pages = "".join(page.read_text() for page in (TOP / "packaging/man").glob("*.1"))
    named = re.findall(r"Pa (/usr/share/doc/spfc\S*)", pages)
    assert (len(documents) > 8, len(targets) > 8, len(named) > 1) == (True, True, True)
    assert [path for path in named if not (root / path.rstrip(".,").removeprefix("/")).exists()] == []


@pytest.mark.needs("package")
def test_refusal_at_a_terminal(installed: Workplace) -> None:
    """At a terminal bin/spfc names the command that explains a refusal."""
    command = [str(installed.bin / "spfc"), "check", "x"]
    lines = _at_a_terminal(command, installed.folder, {**os.environ, **_environment(installed)})
    assert lines[-1] == "see: spfc-explain check x"


def _at_a_terminal(command: list[str], folder: Path, environment: dict[str, str]) -> list[str]:
    """The lines that a person sees."""
    ours, theirs = pty.openpty()
    with os.fdopen(ours, "rb", buffering=0) as seen:
        with os.fdopen(theirs, "wb", buffering=0) as terminal:
            process = subprocess.Popen(
                command, cwd=folder, env=environment, stdin=subprocess.DEVNULL, stdout=terminal, stderr=terminal
            )
            process.wait(60)
        return seen.read(4096).decode().splitlines()
