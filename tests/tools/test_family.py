"""spfc-explain of the tools' own lines, of wrong words, and of texts that nearly are SPF records."""

import ast
import re
from collections.abc import Iterator

import pytest
from servers import Server, free_port
from spfc_tools.commands import COMMANDS
from spfc_tools.texts import why_no_policy
from spfc_tools.tool_lines import PUBLISH_LINES, TOOL_LINES, read_tool_line
from workplace import TOP, Ended, Workplace

_SAMPLES = {
    "NAME": "a.example.com",
    "DOMAIN": "example.com",
    "KIND": "AAAA",
    "WHY": "SERVFAIL",
    "N": "7",
    "COUNT": "7 addresses",
    "ADDRESS": "192.0.2.1",
    "VERDICT": "pass",
    "LINE": "refused taken 3 _spf3.example.com",
    "COMMAND": "deps",
    "OPTION": "--size",
    "REASON": "Permission denied",
}
"""What is written in the places of the forms; any other place has its own name."""


def _sample(form: str) -> str:
    return re.sub(r"\b[A-Z]+\b", lambda found: _SAMPLES.get(found[0], found[0]), form)


# ------------------------------------------------------------- lines of the tools


@pytest.mark.parametrize("form", [*TOOL_LINES, *PUBLISH_LINES])
def test_form(form: str) -> None:
    """Each form of the table is read as itself, with and without the name of a tool."""
    for prefix in ("", "spfc-gather: ", "spfc-nightly: warning: "):
        line = read_tool_line(prefix + _sample(form))
        assert line is not None
        assert line.entry == {**TOOL_LINES, **PUBLISH_LINES}[form].plain


@pytest.mark.parametrize(
    "words",
    [
        ["nx.test", "--policy", "nope"],
        ["nx.test", "--policy", "empty"],
        ["nx.test", "x.test=nope"],
        ["nx.test", "-o", "nowhere/file"],
        ["broke.deleg.test", "--tries", "1"],
        ["nx.test", "@nowhere.invalid"],
        ["nx.test", "@127.0.0.1:53"],
        ["nx.test", "--jobs", "0"],
        ["nx.test", "--holds", "empty"],
        ["out.list.test", "--tries", "1"],
        ["uncovered.test", "a.test=empty", "--no-names"],
    ],
)
def test_line_of_gather(words: list[str], workplace: Workplace, server: Server) -> None:
    """Each line with which spfc-gather ends is explained."""
    workplace.write("empty", "")
    domain, *others = words
    place = [] if any(word.startswith("@") for word in others) else server.words
    ended = workplace.tool("spfc-gather", domain, *place, *others)
    lines = [line for line in ended.line.splitlines() if line.startswith("spfc-gather: ")]
    assert lines or ended.status == 0
    for line in lines:
        explained = workplace.tool("spfc-explain", line)
        assert (explained.status, explained.output.count("What helps: ")) == (0, 1)


def test_lines_of_a_night(workplace: Workplace) -> None:
    """A whole output is explained line by line, with the lines of spfc that are in it."""
    lines = [
        "changed example.com",
        "256 addresses, the least 198.19.7.0, from softfail to pass",
        "1 address, the least 192.0.2.1, from pass to fail",
        "answered otherwise: _nb3.mailone.example TXT",
        "the kept list does not count: bad list kept 3",
        "published: refused 0.0.0.0 lookups example.com 12",
    ]
    night = workplace.write("night", "\n".join(lines) + "\n")
    ended = workplace.tool("spfc-explain", night.read_text())
    assert (ended.status, ended.line) == (0, "")
    assert all(line in ended.output.splitlines() for line in lines)
    assert ended.output.count("What helps: ") == len(lines) + 2
    assert "one lookup too many" in ended.output


def test_unknown_line_among_others(workplace: Workplace) -> None:
    """A line that no tool prints is said to be one, and has its status."""
    ended = workplace.tool("spfc-explain", "same example.com\nhello\n")
    assert ended.status == 2
    assert "nothing has to be done" in ended.output
    assert "This is no line of spfc: hello" in ended.output


# ------------------------------------------------------------- words


@pytest.mark.parametrize(
    ("words", "said"),
    [
        ("check example.com 192.0.2.999 .=z", "ADDRESS is not valid: 192.0.2.999"),
        ("check example.com .=z", "A word is missing: ADDRESS comes before .=z."),
        ("check Example.com. 192.0.2.1 .=z", "DOMAIN is not valid: Example.com. (perhaps example.com)"),
        ("compile example.com z", "Expected ORIGIN=FILE, got z (perhaps .=z, for a file that spfc-gather wrote)"),
        ("compile example.com .=", "Expected ORIGIN=FILE, got .="),
        ("compile example.com", "No zone is named: a word ORIGIN=FILE is missing, such as .=gathered."),
        ("compile example.com .=z --size 450", "This option comes after a zone word, and has to come before all of"),
        ("compile example.com --size 63 .=z", "The option --size does not take 63: it takes 64 to 4,096"),
        ("compile example.com --label x .=z", "The option --label does not take x: it takes _ and up to 60"),
        ("compile example.com --size 64 --size 65 .=z", "This option is written twice: --size."),
        ("check example.com 192.0.2.1 --size 64 .=z", "The command check has no option --size."),
        ("compile example.com --sise 64 .=z", "This option is unknown: --sise."),
        ("compile example.com .=z .=z", "Two zone words have one origin: .=z"),
        ("compile example..com .=z", "DOMAIN is not valid: example..com"),
        ("compare a.test b.test .=z with", "No zone is named: a word ORIGIN=FILE is missing"),
        ("join a.test b.test a.test .=z", "This domain is named twice: a.test."),
        ("join a.test b..test .=z", "DOMAIN is not valid: b..test"),
        ("join a.test .=z", "A word is missing: DOMAIN"),
        ("trial 0 10001", "N is not valid: 10001"),
        ("trial 0 1 .=z", "The command trial reads no zones: .=z."),
        ("compile .=z", "A word is missing: DOMAIN comes before .=z."),
    ],
)
def test_first_bad_word(words: str, said: str, workplace: Workplace) -> None:
    """`usage` names the first word that is wrong."""
    workplace.write("z", "")
    ended = workplace.tool("spfc-explain", *words.split())
    assert (ended.status, ended.line) == (0, "")
    assert said in ended.output


@pytest.mark.parametrize("command", COMMANDS)
def test_good_words_are_good(command: str, workplace: Workplace) -> None:
    """A command without any wrong word is not said to have one."""
    places = {"DOMAIN": "example.com", "ADDRESS": "192.0.2.1", "FILE": "/dev/null", "START": "1", "N": "1"}
    words = [places[place.removesuffix("..")] for place in COMMANDS[command].places]
    words = [words[0], "example.net"] if command == "join" else words
    ended = workplace.tool("spfc-explain", command, *words, *([] if command == "trial" else [".=/dev/null"]))
    assert "usage" not in ended.output.splitlines()


# ------------------------------------------------------------- texts that nearly are records

_NEAR = [
    ("\ufeffv=spf1 -all", "it begins with a byte order mark, which has to go"),
    ("\u201cv=spf1 -all\u201d", "it begins with the quote \u201c, which is no part of the text"),
    ('"v=spf1 -all"', 'it begins with the quote ", which is no part of the text'),
    (" v=spf1 -all", "it begins with white space"),
    ("v=spf10 -all", "its version is v=spf10, and not v=spf1"),
    ("v=spf2 -all", "its version is v=spf2, and not v=spf1"),
    ("v=spf1\t-all", "its version is v=spf1\t-all, and not v=spf1"),
    ("site=1", None),
    ("", None),
    ("v=DKIM1", None),
]


@pytest.mark.parametrize(("text", "why"), _NEAR)
def test_why_no_policy(text: str, why: str | None) -> None:
    """Why a text that was meant to be a record is none."""
    assert why_no_policy(text.encode()) == why


def test_norecord_shows_the_text(workplace: Workplace) -> None:
    """spfc-explain shows the text of the domain that nearly is its record."""
    workplace.write("zone", '@ TXT "v=spf10 -all"\n@ TXT "site=1"\n')
    ended = workplace.tool("spfc-explain", "check", "corp.test", "192.0.2.1", "corp.test=zone")
    wanted = 'This text of corp.test is no SPF record, since its version is v=spf10, and not v=spf1: "v=spf10 -all"'
    assert wanted in ended.output.splitlines()
    assert "site=1" not in ended.output


@pytest.mark.parametrize("text", ['"v=spf1 -all"\n', "\ufeffv=spf1 -all\n", "v=spf1 -all\nv=spf1 -all\n"])
def test_policy_file_that_nearly_is_one(text: str, workplace: Workplace) -> None:
    """A policy file with quotes, a mark or two lines is refused with the reason."""
    (workplace.folder / "policy").write_text(text, encoding="utf-8")
    ended = workplace.tool("spfc-gather", "corp.test", "--policy", "policy")
    assert ended.status == 4
    assert ended.line.startswith("spfc-gather: policy is not the text of one SPF record: it ")


# ------------------------------------------------------------- servers


@pytest.mark.parametrize("server", ["127.0.0.1:5399", "127.0.0.1#5399", "[::1]:5399", "ns.example.com:5399"])
def test_server_with_a_port(server: str, workplace: Workplace) -> None:
    """A port behind the server points to -p."""
    ended = workplace.tool("spfc-gather", "corp.test", f"@{server}")
    wanted = f"spfc-gather: expected @SERVER, got @{server}: give the port by -p 5399"
    assert (ended.status, ended.line.splitlines()[0]) == (4, wanted)


def test_server_that_never_replies(workplace: Workplace) -> None:
    """It is one line, and not one for each name."""
    port = str(free_port())
    ended = workplace.tool("spfc-gather", "corp.test", "@127.0.0.1", "-p", port, "--tries", "1", "--time", "1")
    assert ended == Ended(1, "", f"spfc-gather: no reply from 127.0.0.1 port {port}")


# ------------------------------------------------------------- every message of the tools

_ENDINGS = ("Ending", "error", "refused", "partly", "no_answer", "usage")
"""The calls that end a tool with lines, in the modules of the tools."""


def _messages() -> Iterator[tuple[str, str]]:
    """Each message in the source of the tools, with its module: what is computed in it is left as `{}`."""
    package = TOP / "tools/spfc_tools"
    for module in sorted(package.rglob("*.py")):
        for node in ast.walk(ast.parse(module.read_text())):
            if isinstance(node, ast.Call) and _name_of(node.func) in _ENDINGS:
                yield from ((module.name, text) for argument in node.args if (text := _text_of(argument)))


def _name_of(function: ast.expr) -> str:
    return function.attr if isinstance(function, ast.Attribute) else getattr(function, "id", "")


def _text_of(argument: ast.expr) -> str:
    """The text of a message, empty for what is none."""
    if isinstance(argument, ast.Constant) and isinstance(argument.value, str):
        return argument.value
    if isinstance(argument, ast.JoinedStr):
        text = "".join(str(part.value) if isinstance(part, ast.Constant) else "{}" for part in argument.values)
        return "" if not text.replace("{}", "").strip(": ") else text
    return ""


@pytest.mark.parametrize(("module", "message"), dict.fromkeys(_messages()))
def test_every_message_is_known(module: str, message: str) -> None:
    """No message with which a tool ends is missing in the table."""
    samples = ("7", "a.example.com", "spfc: A", "deps", ": it", "A")
    assert any(read_tool_line(message.replace("{}", sample)) for sample in samples), f"{module}: {message}"
