"""How spfc-publish ends where it does not come to its end."""

from spfc_tools.exit_statuses import Ending, PublishStatus


def refused(*lines: str) -> Ending:
    """An end before anything was changed."""
    return Ending(PublishStatus.REFUSED, *lines)


def partly(*lines: str) -> Ending:
    """An end in the middle, with what is there now and what to do."""
    return Ending(PublishStatus.PARTLY, *lines)


def no_answer(*lines: str) -> Ending:
    """An end because a server does not answer."""
    return Ending(PublishStatus.NO_ANSWER, *lines)


def usage(*lines: str) -> Ending:
    """An end because the command line is wrong."""
    return Ending(PublishStatus.USAGE, *lines)
