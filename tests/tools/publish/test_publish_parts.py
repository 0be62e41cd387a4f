"""The parts of spfc-publish: key files, master files, fragments, state files, and what lexicon is allowed to do."""

from __future__ import annotations

from datetime import datetime
from pathlib import Path
from typing import Any

import dns.tsig
import dns.zone
import pytest
from dns.name import from_text

from spfc_tools.exit_statuses import Ending, PublishStatus
from spfc_tools.publish.authoritative import servers_of_words
from spfc_tools.publish.by_lexicon import _guarded, _text, _TwoSteps
from spfc_tools.publish.key_file import read_key
from spfc_tools.publish.master_file import MasterFile, next_serial
from spfc_tools.publish.published import Published, Text, TextRecord, read_fragment
from spfc_tools.publish.state import Leftover, Move, State, Step, Store, default_path
from spfc_tools.publish.ways import Replacement, WayOvertaken, WayRefused

DOMAIN = from_text("example.com")
OLD = Text.cut(b"v=spf1 mx -all")
NEW = Text.cut(b"v=spf1 ip4:192.0.2.1 redirect=_spf1.example.com")
OTHER = Text.cut(b"site=1")


def write(path: Path, text: str, mode: int = 0o600) -> Path:
    """A file with a mode."""
    path.write_bytes(text.encode("latin-1"))
    path.chmod(mode)
    return path


# ------------------------------------------------------------- key files

_KEY = 'key "name.example" { algorithm hmac-sha512; secret "abc//#/+w=="; };\n'


def test_a_key_file(tmp_path: Path) -> None:
    """Comments are left out, and what looks like one within a secret is not."""
    text = f"// the key\n# of /* one */ server\n/* {_KEY} */ {_KEY.replace('abc//#/+w==', 'abc//w==')}"
    key = read_key(write(tmp_path / "key", text))
    assert (str(key.name), key.algorithm) == ("name.example.", dns.tsig.HMAC_SHA512)
    assert key.secret.hex() == "69b73fff"
    assert "69b7" not in repr(key) and "abc" not in repr(key)


@pytest.mark.parametrize("mode", (0o640, 0o604, 0o620, 0o602, 0o644))
def test_a_key_file_that_others_can_read(tmp_path: Path, mode: int) -> None:
    """It is refused, with what to do."""
    path = write(tmp_path / "key", _KEY, mode)
    with pytest.raises(Ending) as found:
        read_key(path)
    assert found.value.lines == (f"{path} can be read by others than its owner: chmod 600 {path}",)


@pytest.mark.parametrize(
    "text",
    (
        "",
        "nothing",
        _KEY * 2,
        _KEY.replace("sha512", "sha3"),
        "key k { algorithm hmac-sha256; };",
        _KEY.replace("abc", "a"),
    ),
)
def test_a_key_file_that_is_none(tmp_path: Path, text: str) -> None:
    """It is refused, and no line shows what it has."""
    path = write(tmp_path / "key", text)
    with pytest.raises(Ending) as found:
        read_key(path)
    assert found.value.status is PublishStatus.REFUSED
    assert "//#" not in str(found.value)


# ------------------------------------------------------------- master files

_ZONE = """; the zone
$TTL 1h
@\tIN SOA ns hostmaster ( 41 ; the serial
   7200 900 1209600 300 )
  NS ns
\tTXT "site=1"   ; keep
example.com.  60 IN TXT ( "v=spf1 "
   "mx -all" ) ; the policy
 MX 10 ns
$ORIGIN sub.example.com.
_spf1 IN TXT "in another place"
  A 192.0.2.9
$ORIGIN example.com.
ns A 192.0.2.53
_spfa1 TXT "v=spf1 -all"
 A 192.0.2.10
semi TXT "a;b" ; \\" c
"""


def changed(path: Path) -> dns.zone.Zone:
    """The zone of a file."""
    return dns.zone.from_file(str(path), DOMAIN, relativize=False)


def test_a_record_is_replaced_in_its_place(tmp_path: Path) -> None:
    """Every other octet stays, but for the serial number."""
    path = write(tmp_path / "zone", _ZONE, 0o640)
    MasterFile(path, DOMAIN).replace(Replacement(DOMAIN, OLD, NEW, frozenset({OTHER}), 300))
    assert path.read_text() == _ZONE.replace("41", "42").replace("60 IN", "300 IN").replace(
        '"v=spf1 "\n   "mx -all" )', f"{NEW}\n    )"
    )
    assert path.stat().st_mode & 0o777 == 0o640
    changed(path)


def test_a_record_is_added_and_taken_out(tmp_path: Path) -> None:
    """The next record keeps its owner; what is at the end is added with its whole name."""
    path = write(tmp_path / "zone", _ZONE.rstrip("\n"))
    way = MasterFile(path, DOMAIN)
    way.remove(TextRecord(from_text("_spfa1.example.com"), Text.cut(b"v=spf1 -all"), 60))
    assert path.read_text() == _ZONE.replace("41", "42").replace(
        '_spfa1 TXT "v=spf1 -all"\n A', "_spfa1.example.com. A"
    ).rstrip("\n")
    way.add(TextRecord(from_text("_spf1.example.com"), NEW, 60))
    assert path.read_text().endswith(f"\n_spf1.example.com. 60 IN TXT {NEW}\n")
    zone = changed(path)
    assert zone.find_rdataset("_spf1.example.com.", "TXT").ttl == 60
    assert zone.find_rdataset("_spfa1.example.com.", "A")


def test_line_ends_of_windows_stay(tmp_path: Path) -> None:
    """A carriage return is no part of a word."""
    path = write(tmp_path / "zone", _ZONE.replace("\n", "\r\n"))
    MasterFile(path, DOMAIN).replace(Replacement(DOMAIN, OLD, None, frozenset({OTHER}), 300))
    assert b"v=spf1 mx" not in path.read_bytes()
    assert path.read_bytes().count(b"\r\n") == len(_ZONE.splitlines()) - 2


@pytest.mark.parametrize(
    ("text", "error"),
    (
        (_ZONE.replace("mx -all", "a -all"), WayOvertaken),
        (_ZONE.replace('TXT "site=1"', 'TXT "site=2"'), WayOvertaken),
        ("$INCLUDE other\n", WayOvertaken),
        ('@ TXT "unended\n', WayRefused),
        (_ZONE.replace("SOA", "TYPE65280"), WayRefused),
    ),
)
def test_a_master_file_that_is_not_as_seen(tmp_path: Path, text: str, error: type[Exception]) -> None:
    """It is left as it is."""
    path = write(tmp_path / "zone", text)
    with pytest.raises(error):
        MasterFile(path, DOMAIN).replace(Replacement(DOMAIN, OLD, NEW, frozenset({OTHER}), 300))
    assert path.read_text() == text
    assert [found.name for found in tmp_path.iterdir()] == ["zone"]


def test_a_link_stays_a_link(tmp_path: Path) -> None:
    """The file that it leads to is written."""
    path = write(tmp_path / "zone", _ZONE)
    (tmp_path / "link").symlink_to(path)
    MasterFile(tmp_path / "link", DOMAIN).add(TextRecord(from_text("x.example.com"), NEW, 1))
    assert (tmp_path / "link").is_symlink() and "x.example.com. 1 IN TXT" in path.read_text()


@pytest.mark.parametrize(
    ("serial", "following"),
    (
        (1, 2),
        (4294967295, 1),
        (2026120105, 2026120200),
        (2026120200, 2026120201),
        (2026120300, 2026120301),
        (1999, 2000),
    ),
)
def test_the_next_serial_number(serial: int, following: int) -> None:
    """One more, or the first of today."""
    assert next_serial(serial, datetime(2026, 12, 2)) == following


# ------------------------------------------------------------- fragments and states


@pytest.mark.parametrize(
    "text",
    (
        "",
        "_spf1 TXT x\n",
        "@ TXT x\n@ TXT y\n",
        "@ TXT x\n@ A 192.0.2.1\n",
        "@ TXT x\nother.example. TXT y\n$INCLUDE /etc/passwd\n",
        "@ TXT (\n",
    ),
)
def test_a_fragment_that_is_none(tmp_path: Path, text: str) -> None:
    """It is refused before anything is asked."""
    with pytest.raises(Ending) as found:
        read_fragment(write(tmp_path / "fragment", text), DOMAIN)
    assert found.value.status is PublishStatus.REFUSED


def test_a_state_is_read_as_it_was_written(tmp_path: Path) -> None:
    """With odd octets in texts and names, and a mode for its owner alone."""
    odd = TextRecord(from_text(r"od\.d\"\010.example.com"), Text(b'a"\n\xff\\b', (b'a"\n', b"\xff\\b")), 7)
    published = Published(DOMAIN, TextRecord(DOMAIN, NEW, 3), (odd,))
    move = Move(published, Published(DOMAIN, None), Step.WAIT, others=frozenset({OTHER}), complete=1.5)
    state = State(DOMAIN, move, (Leftover((odd,), 9.5),), {odd.name: 4.0})
    store = Store(tmp_path / "state")
    store.save(state)
    assert store.load(DOMAIN) == state
    assert store.path.stat().st_mode & 0o777 == 0o600
    assert [path.name for path in tmp_path.iterdir()] == ["state"]


@pytest.mark.parametrize("text", ("", "{}", "[]", '{"version": 2}', '{"version": 1, "domain": 4}', "v=spf1 -all"))
def test_a_file_that_is_no_state(tmp_path: Path, text: str) -> None:
    """It is left as it is."""
    path = write(tmp_path / "state", text)
    with pytest.raises(Ending) as found:
        Store(path).load(DOMAIN)
    assert found.value.lines == (f"{path} is not a state file of spfc-publish: it is left as it is",)
    assert path.read_text() == text


def test_two_calls_at_once(tmp_path: Path) -> None:
    """The second one is refused."""
    store = Store(tmp_path / "state")
    with store.locked():
        with pytest.raises(Ending) as found, store.locked():
            pass
    assert found.value.status is PublishStatus.PARTLY
    with store.locked():
        pass


def test_the_default_state_file(monkeypatch: pytest.MonkeyPatch) -> None:
    """It is one for the domain, in a folder that no domain can leave."""
    monkeypatch.delenv("STATE_DIRECTORY", raising=False)
    monkeypatch.setenv("XDG_STATE_HOME", "/state")
    assert default_path("../../etc/x") == Path("/state/spfc/..%2F..%2Fetc%2Fx.publish.json")
    monkeypatch.setenv("STATE_DIRECTORY", "/var/lib/spfc")
    assert default_path("example.com") == Path("/var/lib/spfc/example.com.publish.json")


@pytest.mark.parametrize("word", ("127.0.0.1#", "127.0.0.1#0", "127.0.0.1#65536", "127.0.0.1#x"))
def test_a_word_that_is_no_server(word: str) -> None:
    """The port is a number that there is."""
    with pytest.raises(ValueError, match="expected ADDRESS or ADDRESS#PORT"):
        servers_of_words([word], 53)


# ------------------------------------------------------------- lexicon


@pytest.mark.parametrize(
    ("content", "octets"),
    (
        ("v=spf1 -all", b"v=spf1 -all"),
        ('"v=spf1 -all"', b"v=spf1 -all"),
        ('v=spf1 " "-all', b"v=spf1 -all"),
        ('"v=spf1 " "-all"', b"v=spf1 -all"),
        (r"a\"b", b'a"b'),
        ('a"b', b'a"b'),
    ),
)
def test_a_content_of_lexicon(content: str, octets: bytes) -> None:
    """Providers give texts with quotes, between them, or without."""
    assert _text(content).octets == octets


class TwoSteps:
    """A provider that deletes and creates."""

    def __init__(self) -> None:
        self.done: list[str] = []

    def _delete_record(self, *_: Any) -> None:
        self.done.append("delete")

    def _create_record(self, *_: Any) -> None:
        self.done.append("create")

    def update_record(self, *_: Any) -> None:
        """Replaces a record."""
        self._delete_record()
        self._create_record()


def test_a_provider_that_replaces_in_two_steps() -> None:
    """It is stopped before the first of them, and is as before after that."""
    provider = TwoSteps()
    with pytest.raises(_TwoSteps), _guarded(provider):
        provider.update_record()
    assert provider.done == []
    provider.update_record()
    assert provider.done == ["delete", "create"]
