"""Name servers that take changes, on free ports of 127.0.0.1, and how spfc-publish changes each."""

from __future__ import annotations

import os
import subprocess
import time
from base64 import b64encode
from collections.abc import Iterator, Sequence
from contextlib import ExitStack, contextmanager
from dataclasses import dataclass
from pathlib import Path

from servers import HOST, Server, free_port

DOMAIN = "example.com"
KEY = "publisher"
TOKEN = "a-token-that-nobody-may-see"
SITE = '"site=123456789"'
HEAD = f"""$TTL 1
@ IN SOA ns hostmaster 7 60 60 600 1
@ IN NS ns
ns IN A 127.0.0.1
@ IN TXT {SITE}
"""
_SCHEMA = Path("/usr/share/pdns-backend-sqlite3/schema/schema.sqlite3.sql")


@dataclass(frozen=True)
class Publisher:
    """Servers of a zone, and the words by which spfc-publish reads and changes them."""

    servers: tuple[Server, ...]
    way: tuple[str, ...]
    folder: Path

    @property
    def words(self) -> list[str]:
        """The words that say which servers are asked, and the way."""
        places = ",".join(f"{HOST}#{server.port}" for server in self.servers)
        return [*self.servers[0].words, "--servers", places, *self.way]


def zone_text(*texts: str) -> str:
    """A zone with these TXT records at its apex too."""
    return HEAD + "".join(f"@ IN TXT {text}\n" for text in texts)


def secret() -> str:
    """A new secret of a key."""
    return b64encode(os.urandom(32)).decode()


def write_key(path: Path, key_secret: str) -> Path:
    """A key file in the form of BIND."""
    path.write_text(f'key "{KEY}" {{\n\talgorithm hmac-sha256;\n\tsecret "{key_secret}";\n}};\n')
    path.chmod(0o600)
    return path


def _update_way(folder: Path, port: int, key: Path) -> tuple[str, ...]:
    return ("--to", "update", "--key", str(key), "--primary", f"{HOST}#{port}")


@contextmanager
def named(folder: Path, text: str) -> Iterator[Publisher]:
    """A primary and a secondary named; the primary takes updates with a key."""
    folder.mkdir(parents=True)
    key = write_key(folder / "key", secret())
    primary, second = free_port(), free_port()
    (folder / "zone").write_text(text)
    with ExitStack() as stack:
        servers = []
        for port, zone in (
            (
                primary,
                f'type primary; file "zone"; allow-update {{ key {KEY}; }}; notify explicit; '
                f"also-notify {{ {HOST} port {second}; }}; notify-delay 0;",
            ),
            (second, f'type secondary; file "copy"; primaries {{ {HOST} port {primary}; }}; notify no;'),
        ):
            config = folder / f"named.{port}.conf"
            config.write_text(
                f'include "{key}";\noptions {{ directory "{folder}"; listen-on port {port} {{ {HOST}; }}; '
                "listen-on-v6 { none; }; pid-file none; session-keyfile none; dnssec-validation no; recursion no; "
                f"serial-query-rate 100; startup-notify-rate 100; notify-rate 100; }};\ncontrols {{ }};\n"
                f'zone "{DOMAIN}" {{ {zone} }};\n'
            )
            command = ["named", "-f", "-n", "1", "-c", str(config)]
            servers.append(stack.enter_context(Server(command, port, folder / f"log.{port}")))
            servers[-1].wait_for(DOMAIN)
        yield Publisher(tuple(servers), _update_way(folder, primary, key), folder)


@contextmanager
def knot(folder: Path, text: str) -> Iterator[Publisher]:
    """A Knot DNS that takes updates with a key."""
    folder.mkdir(parents=True)
    key_secret = secret()
    key = write_key(folder / "key", key_secret)
    (folder / "zone").write_text(text)
    port = free_port()
    (folder / "knot.conf").write_text(
        f"server:\n    listen: {HOST}@{port}\n    rundir: {folder}\n    udp-workers: 1\n    tcp-workers: 1\n"
        f"database:\n    storage: {folder}\n"
        f"key:\n  - id: {KEY}\n    algorithm: hmac-sha256\n    secret: {key_secret}\n"
        f"acl:\n  - id: publish\n    key: {KEY}\n    action: update\n"
        f"zone:\n  - domain: {DOMAIN}\n    storage: {folder}\n    file: zone\n    acl: publish\n"
    )
    with Server(["knotd", "-c", str(folder / "knot.conf")], port, folder / "log") as server:
        server.wait_for(DOMAIN)
        yield Publisher((server,), _update_way(folder, port, key), folder)


@contextmanager
def powerdns(folder: Path, text: str) -> Iterator[Publisher]:
    """A PowerDNS with sqlite, which lexicon changes over its interface."""
    folder.mkdir(parents=True)
    (folder / "zone").write_text(text)
    port, web = free_port(), free_port()
    (folder / "pdns.conf").write_text(
        f"launch=gsqlite3\ngsqlite3-database={folder}/db\nsocket-dir={folder}\n"
        f"local-address={HOST}\nlocal-port={port}\n"
        f"api=yes\napi-key={TOKEN}\nwebserver=yes\nwebserver-address={HOST}\nwebserver-port={web}\n"
        "daemon=no\nguardian=no\nsetuid=\nsetgid=\nenable-lua-records=no\n"
    )
    tool = ["pdnsutil", f"--config-dir={folder}"]
    subprocess.run(["sqlite3", str(folder / "db"), f".read {_SCHEMA}"], check=True)
    subprocess.run([*tool, "load-zone", DOMAIN, str(folder / "zone")], check=True, capture_output=True)
    config = folder / "lexicon_powerdns.yml"
    config.write_text(f"auth_token: {TOKEN}\npdns_server: http://{HOST}:{web}\n")
    config.chmod(0o600)
    way = ("--to", "lexicon", "powerdns", "--config", str(folder))
    with Server(["pdns_server", f"--config-dir={folder}"], port, folder / "log") as server:
        server.wait_for(DOMAIN)
        yield Publisher((server,), way, folder)


@contextmanager
def master_file(folder: Path, text: str) -> Iterator[Publisher]:
    """A named whose master file is changed, and which is told to read it again."""
    folder.mkdir(parents=True)
    (folder / "zone").write_text(text)
    port = free_port()
    (folder / "named.conf").write_text(
        f'options {{ directory "{folder}"; listen-on port {port} {{ {HOST}; }}; listen-on-v6 {{ none; }}; '
        f'pid-file "{folder}/pid"; session-keyfile none; dnssec-validation no; recursion no; notify no; }};\n'
        f'controls {{ }};\nzone "{DOMAIN}" {{ type primary; file "zone"; }};\n'
    )
    with Server(["named", "-f", "-n", "1", "-c", str(folder / "named.conf")], port, folder / "log") as server:
        server.wait_for(DOMAIN)
        pid = (folder / "pid").read_text().strip()
        way = ("--to", "zone", str(folder / "zone"), "--reload", f"kill -HUP {pid}")
        yield Publisher((server,), way, folder)


WAYS = {"named": named, "knot": knot, "powerdns": powerdns, "zone": master_file}


@dataclass
class Receiver:
    """A mail receiver that goes on evaluating while a publication does."""

    process: subprocess.Popen[bytes]
    begun: float

    def results(self) -> tuple[bytes, bytes]:
        """What it prints when it is told to end: its counts, and each error."""
        return self.process.communicate(b"end\n", timeout=60)


def receiver(port: int, addresses: Sequence[str]) -> Receiver:
    """A receiver that asks the server at a port."""
    program = Path(__file__).with_name("receiver.py")
    command = ["/usr/bin/python3", str(program), DOMAIN, str(port), *addresses]
    pipes = {"stdin": subprocess.PIPE, "stdout": subprocess.PIPE, "stderr": subprocess.PIPE}
    return Receiver(subprocess.Popen(command, **pipes), time.monotonic())  # type: ignore[call-overload]
