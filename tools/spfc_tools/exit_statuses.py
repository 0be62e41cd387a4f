"""The exit statuses of the tools, one enum a tool, and the exception that ends one."""

import enum
from typing import Self


class ExitStatus(enum.IntEnum):
    """An exit status with its meaning, as `--help` and the man pages print it."""

    meaning: str

    def __new__(cls, value: int, meaning: str) -> Self:
        """Makes a member of its number and its meaning."""
        member = int.__new__(cls, value)
        member._value_ = value
        member.meaning = meaning
        return member


class Status(ExitStatus):
    """The statuses of the errors that more than one tool can end with."""

    NO_ANSWER = 1, "a question has no answer, or no server transfers the zone of a list"
    CONTRADICTION = 2, "the answers contradict each other, or there are too many"
    USAGE = 4, "the command line is wrong"
    TOOL = 5, "something that the tool needs is missing or failed: a file, the program spfc, the address of a server"
    UNWRITTEN = 6, "the output could not be written"


class GatherStatus(ExitStatus):
    """The exit statuses of spfc-gather."""

    DONE = 0, "the file is written; with --holds: FILE answers every question"
    NO_ANSWER = Status.NO_ANSWER, f"{Status.NO_ANSWER.meaning}; with --holds: FILE does not answer every question"
    CONTRADICTION = Status.CONTRADICTION, Status.CONTRADICTION.meaning
    USAGE = Status.USAGE, Status.USAGE.meaning
    TOOL = Status.TOOL, Status.TOOL.meaning
    UNWRITTEN = Status.UNWRITTEN, Status.UNWRITTEN.meaning


class NightlyStatus(ExitStatus):
    """The exit statuses of spfc-nightly. The first four have a word, which is printed."""

    SAME = 0, "same: the published records give each address the verdict of the policy"
    CHANGED = 1, "changed: they do not, and FILE has the records to publish, under the label that is not in use"
    REFUSED = 2, "refused: the policy has no flat records today, or too many addresses lose their pass"
    UNKNOWN = 3, "unknown: DNS did not answer; nothing is known, and nothing is written"
    USAGE = Status.USAGE, Status.USAGE.meaning
    TOOL = Status.TOOL, Status.TOOL.meaning
    UNWRITTEN = Status.UNWRITTEN, Status.UNWRITTEN.meaning


class ExplainStatus(ExitStatus):
    """The exit statuses of spfc-explain."""

    DONE = 0, "the line is explained, or the command had nothing to explain"
    NOT_KNOWN = 2, "spfc prints no such line"
    USAGE = Status.USAGE, Status.USAGE.meaning
    TOOL = Status.TOOL, Status.TOOL.meaning


class PublishStatus(ExitStatus):
    """The exit statuses of spfc-publish."""

    PUBLISHED = (
        0,
        "published, and every server gives each address its verdict; or the plan is printed, or the names are out",
    )
    REFUSED = 1, "refused before anything was changed"
    PARTLY = 2, "changed in part: the lines say what is there now and what to do"
    NO_ANSWER = 3, "a server does not answer"
    USAGE = Status.USAGE, Status.USAGE.meaning
    TOOL = Status.TOOL, Status.TOOL.meaning
    UNWRITTEN = Status.UNWRITTEN, "the state file could not be written"


class Ending(Exception):
    """The end of a tool, with its exit status and the lines for standard error that say why."""

    def __init__(self, status: ExitStatus, *lines: str) -> None:
        super().__init__("\n".join(lines))
        self.status = status
        self.lines = lines
