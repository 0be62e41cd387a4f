"""The way by a master file (RFC 1035, section 5.1): the records are changed in it, and every other octet is kept."""

from __future__ import annotations

import io
import os
import shutil
import subprocess
import tempfile
from collections.abc import Iterator, Sequence
from dataclasses import dataclass
from datetime import datetime, timezone
from pathlib import Path

import dns.exception
import dns.name
import dns.rdatatype
import dns.tokenizer
from dns.name import Name
from dns.rdatatype import RdataType

from spfc_tools import names
from spfc_tools.publish.published import Text, TextRecord
from spfc_tools.publish.ways import Replacement, WayOvertaken, WayRefused, WayUnsure

_MOST_SERIAL = 0xFFFF_FFFF
_SERIAL = 2
"""The place of the serial number among the data of a SOA record, from 0."""
_SECONDS = 60.0
"""That the command which loads the zone may take."""


@dataclass(frozen=True)
class Word:
    """A word of a master file and its place, in octets from the start."""

    start: int
    end: int
    value: str


@dataclass(frozen=True)
class Entry:
    """A record of a master file, with the place of its lines."""

    start: int
    end: int
    owner: Name
    has_owner: bool
    """Whether the owner is written, and not that of the record before."""
    body: Sequence[Word]
    """The words after the owner."""
    kind: RdataType
    data: Sequence[Word]

    def text(self) -> Text:
        """The text of a TXT record."""
        return Text.read(" ".join(f'"{word.value}"' for word in self.data))


@dataclass(frozen=True)
class Edit:
    """A part of a file, and what is written in its place."""

    start: int
    end: int
    text: str


class _CountedText(io.StringIO):
    """A text that counts what was read of it."""

    count = 0

    def read(self, size: int | None = -1, /) -> str:
        """The next characters."""
        found = super().read(size)
        self.count += len(found)
        return found


class _Reader:
    """Reads the entries of a master file by the tokenizer of dnspython, and where they are."""

    def __init__(self, text: str, zone: Name) -> None:
        self._file = _CountedText(text)
        self._length = len(text)
        self._tokens = dns.tokenizer.Tokenizer(self._file)
        self._origin = zone
        self._owner = zone

    def entries(self) -> Iterator[Entry]:
        """All records. A directive changes how the next ones are read."""
        while self._place() < self._length:
            start = self._place()
            is_blank, words = self._line()
            if not words:
                continue
            if not is_blank and words[0].value.startswith("$"):
                if words[0].value.upper() == "$ORIGIN" and len(words) > 1:
                    self._origin = dns.name.from_text(words[1].value, self._origin)
                continue
            if not is_blank:
                self._owner = dns.name.from_text(words[0].value, self._origin).canonicalize()
            body = words if is_blank else words[1:]
            kind, data = _kind_and_data(body)
            yield Entry(start, self._place(), self._owner, not is_blank, body, kind, data)

    def _place(self) -> int:
        return self._file.count - (1 if self._tokens.ungotten_char else 0)

    def _line(self) -> tuple[bool, list[Word]]:
        """Whether the next entry begins with a blank, and its words, over all its lines."""
        token = self._tokens.get(want_leading=True)
        is_blank = token.is_whitespace()
        if is_blank:
            token = self._tokens.get()
        words = []
        while not token.is_eol_or_eof():
            word = self._word(token)
            if word.value or token.is_quoted_string():
                words.append(word)
            token = self._tokens.get()
        return is_blank, words

    def _word(self, token: dns.tokenizer.Token) -> Word:
        """A word with its place: what was read last is its last character, and the quote after it is read next."""
        end, quote = self._place(), 1 if token.is_quoted_string() else 0
        value = token.value if quote else token.value.removesuffix("\r")
        start = end - len(token.value)
        return Word(start - quote, start + len(value) + quote, value)


def _kind_and_data(body: Sequence[Word]) -> tuple[RdataType, Sequence[Word]]:
    """The type of a record after its time to live and its class, and its data."""
    for number, word in enumerate(body):
        if not word.value[:1].isdigit() and word.value.upper() not in ("IN", "CH", "HS"):
            try:
                return dns.rdatatype.from_text(word.value), body[number + 1 :]
            except (dns.exception.DNSException, ValueError):
                break
    return dns.rdatatype.NONE, ()


def _rewritten(entry: Entry, text: Text, ttl: int) -> Iterator[Edit]:
    """A TXT record with another text and time to live: word by word, since parentheses and comments may lie between."""
    written = next((word for word in entry.body if word not in entry.data and word.value[:1].isdigit()), None)
    if written:
        yield Edit(written.start, written.end, str(ttl))
    else:
        yield Edit(entry.body[0].start, entry.body[0].start, f"{ttl} ")
    yield Edit(entry.data[0].start, entry.data[0].end, str(text))
    yield from (Edit(word.start, word.end, "") for word in entry.data[1:])


class MasterFile:
    """A zone in a master file, and the command that has the server load it."""

    def __init__(self, path: Path, zone: Name, command: Sequence[str] = ()) -> None:
        self._path = path.resolve()
        self._zone = zone
        self._command = command

    def add(self, record: TextRecord) -> None:
        """Writes a record at the end, if its name has no TXT record."""
        source = _Source(self._path, self._zone)
        if source.texts(record.name):
            raise WayOvertaken(f"{self._path} has a TXT record at {names.printed(record.name)}")
        self._write(source, [source.appended(record)])

    def replace(self, change: Replacement) -> None:
        """Writes one SPF record in the place of another, if the file has the records that were seen."""
        source = _Source(self._path, self._zone)
        texts = {entry.text(): entry for entry in source.texts(change.domain)}
        if set(texts) != {text for text in (change.old, *change.others) if text is not None}:
            raise WayOvertaken(f"{self._path} has other TXT records at {names.printed(change.domain)} than the servers")
        edits = []
        if change.old is None and change.new is not None:
            edits = [source.appended(TextRecord(change.domain, change.new, change.ttl))]
        elif change.old is not None and change.new is None:
            edits = source.without(texts[change.old])
        elif change.old is not None and change.new is not None:
            edits = list(_rewritten(texts[change.old], change.new, change.ttl))
        self._write(source, edits)

    def remove(self, record: TextRecord) -> None:
        """Leaves a record out, if the file has it."""
        source = _Source(self._path, self._zone)
        for entry in source.texts(record.name):
            if entry.text() == record.text:
                self._write(source, source.without(entry))
                return

    def _write(self, source: _Source, edits: Sequence[Edit]) -> None:
        """Writes the file anew with a raised serial number, and has the server load it."""
        source.write([*edits, source.serial()])
        if not self._command:
            return
        try:
            ended = subprocess.run(
                self._command, stdin=subprocess.DEVNULL, capture_output=True, check=False, timeout=_SECONDS
            )
        except (OSError, subprocess.TimeoutExpired) as error:
            raise WayUnsure(f"{self._command[0]} did not come to its end: {type(error).__name__}") from error
        if ended.returncode:
            raise WayUnsure(f"{self._command[0]} ended with {ended.returncode}")


class _Source:
    """A master file as it was read."""

    def __init__(self, path: Path, zone: Name) -> None:
        self._path = path
        try:
            self._stat = path.stat()
            self._text = path.read_bytes().decode("latin-1")
            self._entries = list(_Reader(self._text, zone).entries())
        except OSError as error:
            raise WayRefused(f"{path}: {error.strerror}") from error
        except (dns.exception.DNSException, ValueError) as error:
            raise WayRefused(f"{path} is not a master file: {error}") from error

    def texts(self, name: Name) -> list[Entry]:
        """The TXT records at a name."""
        return [entry for entry in self._entries if entry.kind == dns.rdatatype.TXT and entry.owner == name]

    def appended(self, record: TextRecord) -> Edit:
        """A record at the end, which needs no directive before it."""
        end = len(self._text)
        return Edit(end, end, f"{'' if self._text.endswith(chr(10)) or not end else chr(10)}{record}\n")

    def without(self, entry: Entry) -> list[Edit]:
        """The file without an entry, whose owner the next one gets if it has none written."""
        edits = [Edit(entry.start, entry.end, "")]
        following = self._entries[self._entries.index(entry) + 1 :]
        if entry.has_owner and following and not following[0].has_owner:
            start = following[0].start
            edits.append(Edit(start, start, names.absolute(entry.owner)))
        return edits

    def serial(self) -> Edit:
        """The next serial number."""
        for entry in self._entries:
            if entry.kind == dns.rdatatype.SOA and len(entry.data) > _SERIAL:
                word = entry.data[_SERIAL]
                if word.value.isascii() and word.value.isdigit():
                    return Edit(word.start, word.end, str(next_serial(int(word.value))))
        raise WayRefused(f"{self._path} has no SOA record with a serial number")

    def write(self, edits: Sequence[Edit]) -> None:
        """Writes the file with the edits by renaming, if nobody has changed it since it was read."""
        parts, end = [], len(self._text)
        for edit in sorted(edits, key=lambda edit: (edit.start, edit.end), reverse=True):
            parts += [self._text[edit.end : end], edit.text]
            end = edit.start
        text = "".join(reversed([*parts, self._text[:end]]))
        try:
            self._rename(text)
        except OSError as error:
            raise WayRefused(f"{self._path} could not be written: {error.strerror}") from error

    def _rename(self, text: str) -> None:
        descriptor, temporary = tempfile.mkstemp(prefix=f".{self._path.name}.", dir=self._path.parent)
        try:
            with open(descriptor, "wb") as file:
                file.write(text.encode("latin-1"))
                file.flush()
                os.fsync(file.fileno())
            shutil.copymode(self._path, temporary)
            if (os.geteuid(), os.getegid()) != (self._stat.st_uid, self._stat.st_gid):
                os.chown(temporary, self._stat.st_uid, self._stat.st_gid)
            now = self._path.stat()
            if (now.st_ino, now.st_mtime_ns, now.st_size) != (
                self._stat.st_ino,
                self._stat.st_mtime_ns,
                self._stat.st_size,
            ):
                raise WayOvertaken(f"{self._path} was changed while it was read")
            os.replace(temporary, self._path)
        except BaseException:
            os.unlink(temporary)
            raise


def next_serial(serial: int, today: datetime | None = None) -> int:
    """The serial number after another: one more (RFC 1982), or the first of today where it is made of a date."""
    first = int(f"{today or datetime.now(timezone.utc):%Y%m%d}00")
    if _is_dated(serial) and serial < first:
        return first
    return 1 if serial >= _MOST_SERIAL else serial + 1


def _is_dated(serial: int) -> bool:
    try:
        datetime.strptime(str(serial)[:-2], "%Y%m%d")
    except ValueError:
        return False
    return True
