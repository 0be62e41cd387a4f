"""Name servers on 127.0.0.1, at free ports, each a process that is ended by its id."""

import os
import shutil
import signal
import socket
import subprocess
import sys
import time
from collections.abc import Sequence
from contextlib import ExitStack
from pathlib import Path

import dns.exception
import dns.message
import dns.query

HOST = "127.0.0.1"
CLOSED = ("closed.test",)
"""Zones that no server gives away."""
_SECONDS = 20
_NAMED = """
options {{
    directory "{folder}";
    listen-on port {port} {{ {host}; }};
    listen-on-v6 {{ none; }};
    pid-file none;
    session-keyfile none;
    dnssec-validation no;
    {options}
}};
controls {{ }};
"""
_AUTHORITATIVE = "recursion no; notify no; check-names primary ignore;"
_FORWARDING = """recursion yes; allow-recursion {{ {host}; }}; empty-zones-enable no;
    forward only; forwarders {{ {host} port {port}; }};"""
_NSD = """
server:
 ip-address: {host}@{port}
 do-ip6: no
 username: ""
 chroot: ""
 database: ""
 server-count: 1
 pidfile: "{folder}/pid"
 xfrdfile: "{folder}/xfrd"
 zonelistfile: "{folder}/list"
 xfrdir: "{folder}"
 cookie-secret-file: ""
 zonesdir: "{zones}"
remote-control:
 control-enable: no
"""


class Silent(Exception):
    """A server does not answer."""


def free_port() -> int:
    """A port that nobody has, neither over UDP nor over TCP."""
    while True:
        with ExitStack() as stack:
            datagrams = stack.enter_context(socket.socket(socket.AF_INET, socket.SOCK_DGRAM))
            streams = stack.enter_context(socket.socket(socket.AF_INET, socket.SOCK_STREAM))
            datagrams.bind((HOST, 0))
            port: int = datagrams.getsockname()[1]
            try:
                streams.bind((HOST, port))
            except OSError:
                continue
            return port


class Server:
    """A running name server."""

    def __init__(self, command: Sequence[str], port: int, log: Path) -> None:
        self.port = port
        self._log = log
        with log.open("wb") as file:
            self._process = subprocess.Popen(command, stdin=subprocess.DEVNULL, stdout=file, stderr=file)

    def __enter__(self) -> "Server":
        return self

    def __exit__(self, *_: object) -> None:
        self._process.terminate()
        try:
            self._process.wait(_SECONDS)
        except subprocess.TimeoutExpired:
            self._process.kill()
            self._process.wait()

    @property
    def words(self) -> list[str]:
        """The words by which a tool asks this server."""
        return [f"@{HOST}", "-p", str(self.port)]

    def reload(self) -> None:
        """Has the server read its zones again."""
        self._process.send_signal(signal.SIGHUP)

    def texts(self, name: str) -> set[str]:
        """The TXT records of a name, none where the server does not answer yet."""
        query = dns.message.make_query(name, "TXT")
        try:
            reply = dns.query.udp_with_fallback(query, HOST, 1, self.port)[0]
        except (dns.exception.DNSException, OSError):
            return set()
        return {record.to_text() for records in reply.answer for record in records}

    def wait_for(self, name: str, text: str = "") -> None:
        """Waits until a name has a TXT record in which this text stands."""
        end = time.monotonic() + _SECONDS
        while not any(text in found for found in self.texts(name)):
            if time.monotonic() > end or self._process.poll() is not None:
                raise Silent(f"no server at {self.port}: {self._log.read_text(errors='replace')[-400:]}")
            time.sleep(0.05)


def named(folder: Path, zones: Path) -> Server:
    """A server of the zones in a folder, whose files have the names of their origins."""
    lines = [
        f'zone "{file.name}" {{ type primary; file "{file}"; allow-transfer {{ {_takers(file.name)}; }}; }};\n'
        for file in sorted(zones.iterdir())
    ]
    return _named(folder, _AUTHORITATIVE, "".join(lines))


def _takers(zone: str) -> str:
    """Whom the server gives a zone to."""
    return "none" if zone in CLOSED else HOST


def forwarding(folder: Path, upstream: Server) -> Server:
    """A resolver that asks another server."""
    return _named(folder, _FORWARDING.format(host=HOST, port=upstream.port), "")


def _named(folder: Path, options: str, zones: str) -> Server:
    folder.mkdir()
    port = free_port()
    text = _NAMED.format(folder=folder, port=port, host=HOST, options=options) + zones
    (folder / "named.conf").write_text(text)
    command = [_runnable("named", folder), "-f", "-n", "1", "-c", str(folder / "named.conf")]
    return Server(command, port, folder / "log")


def nsd(folder: Path, zones: Path) -> Server:
    """The same zones by another server."""
    folder.mkdir()
    port = free_port()
    lines = [
        f'zone:\n name: "{file.name}"\n zonefile: "{file.name}"\n'
        + ("" if file.name in CLOSED else f" provide-xfr: {HOST} NOKEY\n")
        for file in sorted(zones.iterdir())
    ]
    text = _NSD.format(host=HOST, port=port, folder=folder, zones=zones) + "".join(lines)
    (folder / "nsd.conf").write_text(text)
    return Server([_runnable("nsd", folder), "-d", "-c", str(folder / "nsd.conf")], port, folder / "log")


def misbehaving(folder: Path) -> Server:
    """A server that does what it should not."""
    folder.mkdir()
    port = free_port()
    program = Path(__file__).with_name("misbehaving.py")
    return Server([sys.executable, str(program), str(port)], port, folder / "log")


def _runnable(name: str, folder: Path) -> str:
    """The program or, where the system lets it read its own folders alone, a copy, which may read ours."""
    enabled = Path("/sys/module/apparmor/parameters/enabled")
    is_confined = Path(f"/etc/apparmor.d/usr.sbin.{name}").exists() and enabled.exists() and may_run_in(folder)
    if not is_confined or enabled.read_text().strip() != "Y":
        return _tool(name)
    return str(shutil.copy(_tool(name), folder / name))


def _tool(name: str) -> str:
    return shutil.which(name) or shutil.which(name, path="/usr/sbin:/usr/local/sbin") or name


def may_run_in(folder: Path) -> bool:
    """Whether programs that stand in the folder may be run."""
    return not os.statvfs(folder).f_flag & os.ST_NOEXEC


def has_tool(name: str) -> bool:
    """Whether this program is installed."""
    return shutil.which(_tool(name)) is not None
