"""A signal ends a tool at once, without a traceback: as it starts, and while it waits for a server."""

import os
import signal
import socket
import subprocess
import threading
import time
from collections.abc import Iterator
from contextlib import contextmanager
from pathlib import Path

import dns.flags
import dns.message
import pytest
from servers import HOST
from workplace import Workplace

_SIGNALS = [signal.SIGINT, signal.SIGTERM, signal.SIGHUP]
_TOOLS = ["spfc-gather", "spfc-nightly", "spfc-explain"]


def _wait_for(path: Path) -> None:
    end = time.monotonic() + 60
    while not path.exists():
        assert time.monotonic() < end
        time.sleep(0.02)


@pytest.mark.parametrize("tool", _TOOLS)
def test_interrupt_as_the_tool_starts(tool: str, workplace: Workplace) -> None:
    """The library for DNS takes time to load: an interrupt then leaves no traceback."""
    slow = workplace.within("slow").folder
    (slow / "dns").mkdir()
    began = slow / "began"
    (slow / "dns/__init__.py").write_text(f"import time\nopen({str(began)!r}, 'w').close()\ntime.sleep(60)\n")
    command = [str(workplace.bin / tool), "corp.test"]
    process = subprocess.Popen(
        command, env={**os.environ, "PYTHONPATH": str(slow)}, stdout=subprocess.PIPE, stderr=subprocess.PIPE
    )
    _wait_for(began)
    process.send_signal(signal.SIGINT)
    assert process.communicate(timeout=60) == (b"", b"")
    assert process.returncode in (-signal.SIGINT, 128 + signal.SIGINT)


@contextmanager
def _dead_over_tcp(asked: Path) -> Iterator[int]:
    """A server that sends each question on to TCP, and takes connections there, but never replies. Gives its port."""
    with (
        socket.socket(socket.AF_INET, socket.SOCK_STREAM) as streams,
        socket.socket(socket.AF_INET, socket.SOCK_DGRAM) as datagrams,
    ):
        streams.bind((HOST, 0))
        streams.listen(16)
        port: int = streams.getsockname()[1]
        datagrams.bind((HOST, port))

        def serve() -> None:
            while octets := (received := datagrams.recvfrom(4096))[0]:
                reply = dns.message.make_response(dns.message.from_wire(octets))
                reply.flags |= dns.flags.TC
                datagrams.sendto(reply.to_wire(), received[1])
                asked.touch()

        thread = threading.Thread(target=serve)
        thread.start()
        yield port
        with socket.socket(socket.AF_INET, socket.SOCK_DGRAM) as last:
            last.sendto(b"", (HOST, port))
        thread.join()


@pytest.mark.parametrize("number", _SIGNALS)
@pytest.mark.parametrize("tool", ["spfc-gather", "spfc-nightly"])
def test_signal_while_a_dead_server_is_waited_for(tool: str, number: signal.Signals, workplace: Workplace) -> None:
    """The tool ends within a second, whatever its threads wait for, and leaves nothing behind."""
    workplace.write("policy", "v=spf1 -all\n")
    asked = workplace.within("server").folder / "asked"
    rooms = workplace.within("rooms").folder
    words = ["policy", "new"] if tool == "spfc-nightly" else ["-o", "new"]
    with _dead_over_tcp(asked) as port:
        process = subprocess.Popen(
            [str(workplace.bin / tool), "corp.test", *words, f"@{HOST}", "-p", str(port), "--time", "50"],
            cwd=workplace.folder,
            env={**os.environ, "SPFC": str(workplace.program), "TMPDIR": str(rooms)},
            stdout=subprocess.PIPE,
            stderr=subprocess.PIPE,
        )
        _wait_for(asked)
        time.sleep(0.5)
        begun = time.monotonic()
        process.send_signal(number)
        assert process.communicate(timeout=60) == (b"", b"")
        assert time.monotonic() - begun < 3  # a second, on a machine that has other work
    assert process.returncode == 128 + number
    assert (list(rooms.iterdir()), "new" in workplace.names()) == ([], False)
