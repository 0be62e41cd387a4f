"""spfc-explain: says in plain words what a line of spfc means, and what helps."""

import argparse
import sys
from collections.abc import Iterable, Iterator, Sequence
from pathlib import Path

from spfc_tools import command_line
from spfc_tools.bad_words import bad_words
from spfc_tools.commands import COMMANDS, part
from spfc_tools.exit_statuses import ExplainStatus
from spfc_tools.looking import Looker, wrong_words
from spfc_tools.program import USAGE, Program, Run, opened_program
from spfc_tools.refusals import (
    CAUSES,
    KINDS,
    LINES,
    OUTCOME,
    QUESTIONS,
    REASONS,
    STATUSES,
    VERDICT,
    WATCHED,
    Entry,
    Line,
    read_line,
)
from spfc_tools.tool_lines import ToolLine, read_tool_line, without_tool

TOOL = "spfc-explain"
_WAYS = {
    "none": "There is no policy for this address.",
    "permerror": "A receiver gives a permanent error.",
    "temperror": "A receiver gives a temporary error.",
    "open": "The files alone do not say what a receiver gives.",
}


def explained(line: Line, looked: Iterable[str] = ()) -> Iterator[str]:
    """What the line means by the tables, what was found by looking into the files, and what helps."""
    yield line.text
    if line.form == VERDICT:
        yield f"What it means: the address gets the verdict {line.text}."
        return
    entries = _entries(line)
    for entry in entries:
        yield f"What it means: {entry.meaning}."
    if line.form == OUTCOME:
        yield _WAYS[line.text.partition(" ")[0]]
    elif line.form.startswith("refused ADDRESS"):
        yield f"The least address that has no verdict: {line.words['ADDRESS']}."
    elif line.words.get("KIND") in QUESTIONS:
        yield f"What is asked: {QUESTIONS[line.words['KIND']].plain.meaning}."
    yield from looked
    yield f"What helps: {entries[-1].help}."


def _entries(line: Line) -> list[Entry]:
    """The entries of the tables for a line, the one that says most at the end."""
    if line.cause is not None:
        return [CAUSES[line.cause].plain]
    kind = line.words.get("KIND", "")
    entry = next(table[line.form] for table in (LINES, REASONS, WATCHED) if line.form in table)
    return [entry.plain, *([KINDS[kind].plain] if kind in KINDS else [])]


def explain_lines(text: str) -> int:
    """Explains each line of a text."""
    statuses = set()
    for number, line in enumerate(line.strip() for line in text.splitlines() if line.strip()):
        if number:
            print()
        statuses.add(explain_line(line))
    return max(statuses)


def explain_line(text: str) -> int:
    """Explains a line alone, of spfc or of a tool around it."""
    if line := read_line(without_tool(text)):
        print(*explained(line), sep="\n")
    elif tool_line := read_tool_line(text):
        print(*explained_of_tool(tool_line), sep="\n")
    else:
        print(f"This is no line of spfc: {text}")
        return ExplainStatus.NOT_KNOWN
    return ExplainStatus.DONE


def explained_of_tool(line: ToolLine) -> Iterator[str]:
    """What the line of a tool means, what helps, and the same of the line of spfc in it."""
    yield line.text
    yield f"What it means: {line.entry.meaning}."
    yield f"What helps: {line.entry.help}."
    if inner := read_line(line.inner):
        yield ""
        yield from explained(inner)


def explain_run(program: Program, given: list[str]) -> int:
    """Runs a command, and explains what it says."""
    ended = program.run(given)
    if ended.status == USAGE:
        looked = list(bad_words(program, given)) or [
            f"Without these words the others give a job: {words}" for words in wrong_words(program, given)
        ]
        print(
            *explained(
                Line("usage", "usage", {}), [*looked, f"How they go: spfc {COMMANDS[given[0]].synopsis(given[0])}"]
            ),
            sep="\n",
        )
        return ExplainStatus.DONE
    line, words = read_line(_last_line(given, ended)), part(given)
    if ended.status in STATUSES:
        entry = STATUSES[ended.status].plain
        print(f"status {ended.status}", f"What it means: {entry.meaning}.", f"What helps: {entry.help}.", sep="\n")
    elif line is not None and words is not None:
        print(*explained(line, Looker(program, words).look(line)), sep="\n")
    elif ended.status == 0:
        print("The command has done its work: there is nothing to explain.")
    else:
        print(f"This is not known here: {ended.line}")
        return ExplainStatus.NOT_KNOWN
    return ExplainStatus.DONE


def _last_line(given: Sequence[str], ended: Run) -> str:
    """The line of the refusal, after the lines of --trace, or the one line that `check` or `stale` printed."""
    if ended.status:
        return ended.line.rpartition("\n")[2]
    return ended.output.rstrip("\n") if given[0] in ("check", "stale") else ""


def _parser() -> command_line.Parser:
    parser = command_line.Parser(
        TOOL,
        "Says in plain words what a line of spfc or of a tool means, and what helps. If the words are a command line\n"
        "of spfc, runs it, looks into its files, and explains what it printed.",
        examples=(
            "spfc-explain refused 0.0.0.0 lookups example.com 12",
            "spfc-explain compile example.com .=gathered",
            "spfc compile example.com .=gathered 2>&1 >fragment | spfc-explain",
        ),
        statuses=ExplainStatus,
    )
    help_text = "a line that spfc printed, or a command line of spfc; by default a line from standard input"
    parser.usage = f"{TOOL} [-h] [--version] [LINE | COMMAND WORD..]"
    parser.add_argument("words", metavar="LINE | COMMAND WORD..", nargs=argparse.REMAINDER, help=help_text)
    return parser


def _run(given: Sequence[str]) -> int:
    """Explains a line or a command, and returns the exit status."""
    parser = _parser()
    given = parser.parse_args(given).words
    if given and Path(given[0]).name == "spfc":
        given = given[1:]
    if given and given[0] in COMMANDS:
        with opened_program() as program:
            return explain_run(program, list(given))
    text = " ".join(given) if given else sys.stdin.read()
    if not text.strip():
        parser.error("expected a line of spfc, got none")
    return explain_lines(text)


def main() -> int:
    """Runs the tool with the words of the command line, and returns its exit status."""
    return command_line.run(TOOL, _run)
