"""Options, words and exit statuses that the tools have in common."""

import argparse
import re
import sys
from collections.abc import Sequence

import pytest
from spfc_tools import command_line
from spfc_tools.command_line import Parser
from spfc_tools.commands import COMMANDS, NUMBERS, OPTIONS, part
from spfc_tools.exit_statuses import Ending, ExitStatus, GatherStatus, Status
from spfc_tools.gather import TOOL as GATHER


def _parser() -> Parser:
    parser = Parser("spfc-try", "Tries.", examples=["spfc-try x"], statuses=GatherStatus)
    command_line.add_servers_and_zones(parser)
    command_line.add_server_options(parser)
    command_line.add_spfc_options(parser, list(OPTIONS), "options of spfc")
    return parser


def _parsed(*words: str) -> argparse.Namespace:
    return command_line.parse(_parser(), words)


def test_servers_and_zones() -> None:
    """The server and the zones, in any order."""
    arguments = _parsed("a.test=one", "@192.0.2.53", "-p", "5353", "b.test=two")
    assert (arguments.server, arguments.port, arguments.zones) == ("192.0.2.53", 5353, ("a.test=one", "b.test=two"))


def test_defaults() -> None:
    """Without words the resolvers of the machine are asked at port 53."""
    arguments = _parsed()
    assert (arguments.server, arguments.zones, arguments.port, arguments.tries) == (None, (), 53, 3)


@pytest.mark.parametrize(
    ("words", "wanted"),
    [
        (["x"], "expected @SERVER or ORIGIN=FILE, got 'x'"),
        (["@"], "expected @SERVER or ORIGIN=FILE, got '@'"),
        ([".=x"], "expected @SERVER or ORIGIN=FILE, got '.=x'"),
        (["a.test="], "expected @SERVER or ORIGIN=FILE, got 'a.test='"),
        (["@a", "@b"], "expected one @SERVER, got @a @b"),
        (["--jobs", "0"], "expected a number from 1 to 99999, got '0'"),
        (["--time", "1.5"], "expected a number from 1 to 99999, got '1.5'"),
        (["-p", "100000"], "expected a number from 1 to 99999, got '100000'"),
        (["--tries", "\u0663"], "expected a number from 1 to 99999, got '\u0663'"),
        (["--lookup=11"], "unrecognized arguments: --lookup=11"),
    ],
)
def test_error(words: Sequence[str], wanted: str) -> None:
    """An error has status 4, and says what was expected and what came."""
    with pytest.raises(Ending) as raised:
        _parsed(*words)
    assert raised.value.status == Status.USAGE
    assert raised.value.lines[0].startswith("spfc-try: ")
    assert wanted in raised.value.lines[0]


def test_options_of_spfc() -> None:
    """The options that were given, in the order that is asked for, and defaults for the numbers of the others."""
    arguments = _parsed("--exchanges", "20", "--lookups", "11")
    assert command_line.spfc_options(arguments, ["--lookups", "--voids", "--exchanges"]) == (
        "--lookups",
        "11",
        "--exchanges",
        "20",
    )
    assert command_line.number(arguments, "--exchanges") == 20
    assert command_line.number(arguments, "--voids") == NUMBERS["--voids"].default


def test_help() -> None:
    """Help has the example, each option of spfc with its range, and each exit status."""
    text = _parser().format_help()
    assert "\nexamples:\n  spfc-try x\n" in text
    plain = re.sub(r"\s+", " ", text)
    assert [option.range_text for option in OPTIONS.values() if option.range_text not in plain] == []
    assert [status for status in GatherStatus if f"  {status.value}  {status.meaning}" not in text] == []


@pytest.mark.parametrize(("text", "wanted"), [("Example.COM.", "example.com"), ("a", "a"), (".", "")])
def test_domain(text: str, wanted: str) -> None:
    """Lower case, and no final dot."""
    assert command_line.domain(text) == wanted


# ------------------------------------------------------------- exit statuses


@pytest.mark.parametrize("status", Status)
def test_run_ends_with_the_status(
    status: ExitStatus, monkeypatch: pytest.MonkeyPatch, capsys: pytest.CaptureFixture[str]
) -> None:
    """An ending is the exit status, and its lines are on standard error, each with the name of the tool once."""

    def main(words: Sequence[str]) -> int:
        assert words == ["one", "two"]
        raise Ending(status, "first", f"{GATHER}: second")

    monkeypatch.setattr(sys, "argv", [GATHER, "one", "two"])
    assert command_line.run(GATHER, main) == status
    assert capsys.readouterr() == ("", f"{GATHER}: first\n{GATHER}: second\n")


def test_run_returns_what_the_tool_returns(monkeypatch: pytest.MonkeyPatch) -> None:
    """A tool that ends by itself."""
    monkeypatch.setattr(sys, "argv", [GATHER])
    assert command_line.run(GATHER, lambda _words: 3) == 3


@pytest.mark.parametrize("statuses", ExitStatus.__subclasses__())
def test_statuses(statuses: type[ExitStatus]) -> None:
    """Each status has a number of its own and a meaning; the common ones have the same number in each tool."""
    assert len({status.value for status in statuses}) == len(statuses.__members__)
    assert all(status.meaning for status in statuses)
    common = {"USAGE": 4, "TOOL": 5, "UNWRITTEN": 6}
    found = {name: status.value for name, status in statuses.__members__.items() if name in common}
    assert found == {name: common[name] for name in found}


# ------------------------------------------------------------- command lines of spfc


def test_parts_of_a_command_line() -> None:
    """The places, the options with their values, and the zones."""
    words = part(["join", "a.test", "b.test", "--weakest", "--size", "90", "a.test=a", "b.test=b"])
    assert words is not None
    assert words.places == ["a.test", "b.test"]
    assert words.options == [("--weakest",), ("--size", "90")]
    assert words.zones == ["a.test=a", "b.test=b"]
    assert words.policies == [("a.test", words.zones), ("b.test", words.zones)]
    assert words.with_options("--size", "--size", "64")[3:] == ["--weakest", "--size", "64", "a.test=a", "b.test=b"]


def test_policies_of_compare() -> None:
    """Two policies over the same zones, or each over its own."""
    one = part(["compare", "a.test", "b.test", "--voids", "3", "a.test=a", "with", "b.test=b"])
    assert one is not None
    assert one.policies == [("a.test", ["a.test=a"]), ("b.test", ["b.test=b"])]
    assert one.reading == ["--voids", "3"]
    both = part(["compare", "a.test", "b.test", ".=all"])
    assert both is not None
    assert both.policies == [("a.test", [".=all"]), ("b.test", [".=all"])]


@pytest.mark.parametrize("words", [[], ["nothing"], ["--help"]])
def test_no_command(words: Sequence[str]) -> None:
    """Words that do not begin with a command."""
    assert part(words) is None


@pytest.mark.parametrize("name", COMMANDS)
def test_synopsis(name: str) -> None:
    """A synopsis has each option once; the short one has one word for the reading options."""
    synopsis = COMMANDS[name].synopsis(name)
    assert [synopsis.count(f"[{option}") for option in COMMANDS[name].options] == [1] * len(COMMANDS[name].options)
    assert "--lookups" not in COMMANDS[name].short(name)
