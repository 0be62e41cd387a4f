"""Starts a tool of this checkout, whose package is in tools/."""

import signal

# Until the tool itself handles it, an interrupt ends the process without a traceback.
signal.signal(signal.SIGINT, signal.SIG_DFL)

import sys  # noqa: E402
from importlib import import_module  # noqa: E402
from pathlib import Path  # noqa: E402


def start(module: str) -> int:
    """Runs the tool of this module with the words of the command line, and returns its exit status."""
    sys.path.insert(0, str(Path(__file__).resolve().parent.parent / "tools"))
    status: int = import_module(module).main()
    return status
