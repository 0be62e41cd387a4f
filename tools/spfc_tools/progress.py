"""The line on a terminal that says what a tool does just now."""

import logging
import sys

_COLUMNS = 100
_BACK = "\r\x1b[K"


class Progress:
    """The line. It is shown if standard error is a terminal and no log is written there."""

    def __init__(self, tool: str) -> None:
        self._tool = tool
        self._is_shown = sys.stderr.isatty() and not logging.getLogger("spfc_tools").isEnabledFor(logging.INFO)

    def tell(self, text: str) -> None:
        """Shows a text in place of the last one."""
        if self._is_shown:
            print(_BACK + f"{self._tool}: {text}"[:_COLUMNS], end="", file=sys.stderr, flush=True)

    def clear(self) -> None:
        """Removes the line."""
        if self._is_shown:
            print(_BACK, end="", file=sys.stderr, flush=True)
