"""The way by lexicon, which speaks the interfaces of some eighty hosting providers.

lexicon takes tokens from variables LEXICON_.. and from files lexicon.yml and lexicon_PROVIDER.yml, and is called as a
library: no token is ever a word of a command. Its own errors may show an address with a token in it, so only their kind
is told.
"""

from __future__ import annotations

import importlib
import importlib.util
import logging
import queue
import threading
from collections.abc import Callable, Iterator, Mapping
from contextlib import contextmanager
from pathlib import Path
from typing import Any, TypeVar

import dns.exception
from dns.name import Name

from spfc_tools import names
from spfc_tools.publish.endings import usage
from spfc_tools.publish.key_file import refuse_open
from spfc_tools.publish.published import Text, TextRecord
from spfc_tools.publish.ways import Replacement, WayOvertaken, WayRefused, WayUnsure

_LOG = logging.getLogger(__name__)
_SECONDS = 60.0
_WANT_STRINGS = ("powerdns", "route53")
"""Providers that take a text as quoted strings; all others cut it by themselves."""
_POWERDNS = "powerdns"

_Found = TypeVar("_Found")


class _TwoSteps(Exception):
    """A provider would replace a record by two changes."""


class ByLexicon:
    """The records of a zone at a provider."""

    def __init__(self, provider: str, zone: Name, folder: Path, seconds: float = _SECONDS) -> None:
        self._name = provider
        self._zone = names.printed(zone)
        self._folder = folder
        self._seconds = seconds
        module = _module(f"lexicon.providers.{provider}", f"lexicon knows no provider {provider}")
        self._class = module.Provider
        self._config = _module("lexicon.config", "lexicon has no module config")
        for file in (folder / "lexicon.yml", folder / f"lexicon_{provider}.yml"):
            if file.exists():
                refuse_open(file)

    def add(self, record: TextRecord) -> None:
        """Adds a record, if the provider has no TXT record at its name."""

        def change(provider: Any) -> None:
            if found := list(_texts(provider, record.name)):
                raise WayOvertaken(f"{self._name} has {len(found)} TXT records at {names.printed(record.name)}")
            provider.create_record("TXT", names.printed(record.name), self._content(record.text))

        self._call(record.ttl, change)

    def replace(self, change: Replacement) -> None:
        """Replaces the record in one step, if the provider has it, and the others, just before."""

        def replace(provider: Any) -> None:
            listed = dict(_texts(provider, change.domain))
            if set(listed) != {text for text in (change.old, *change.others) if text is not None}:
                raise WayOvertaken(
                    f"{self._name} has other TXT records at {names.printed(change.domain)} than were seen"
                )
            if change.new is None and change.old is not None:
                self._delete(provider, change.domain, listed[change.old])
            elif change.old is None and change.new is not None:
                provider.create_record("TXT", names.printed(change.domain), self._content(change.new))
            elif change.old is not None and change.new is not None:
                self._update(provider, change.domain, listed[change.old], change.new)

        self._call(change.ttl, replace)

    def remove(self, record: TextRecord) -> None:
        """Takes a record away, if the provider has it."""

        def remove(provider: Any) -> None:
            listed = dict(_texts(provider, record.name))
            if record.text in listed:
                self._delete(provider, record.name, listed[record.text])

        self._call(record.ttl, remove)

    def _update(self, provider: Any, domain: Name, listed: Mapping[str, Any], new: Text) -> None:
        """One change that puts a text in the place of a record."""
        content = self._content(new)
        if self._name == _POWERDNS:
            _forget(provider, domain, listed)
            provider.create_record("TXT", names.printed(domain), content)
            return
        with _guarded(provider):
            provider.update_record(listed.get("id"), "TXT", names.printed(domain), content)

    def _delete(self, provider: Any, name: Name, listed: Mapping[str, Any]) -> None:
        """Takes one record away; the identifiers that lexicon makes for PowerDNS end at the first slash of a text."""
        identifier = None if self._name == _POWERDNS else listed.get("id")
        content = f'"{listed["content"]}"' if self._name == _POWERDNS else listed["content"]
        provider.delete_record(identifier, "TXT", names.printed(name), content)

    def _content(self, text: Text) -> str:
        """A text as the provider takes it."""
        if self._name in _WANT_STRINGS:
            return str(Text.cut(text.octets))
        return text.octets.decode("latin-1")

    def _call(self, ttl: int, change: Callable[[Any], None]) -> None:
        """Makes a change by a provider of its own, and waits for its end for some time."""

        def work() -> None:
            settings = {
                "provider_name": self._name,
                "action": "update",
                "domain": self._zone,
                "type": "TXT",
                "ttl": ttl,
            }
            config = self._config.ConfigResolver().with_dict(settings).with_env().with_config_dir(str(self._folder))
            provider = self._class(config)
            provider.authenticate()
            change(provider)

        error = _ended(work, self._seconds)
        if isinstance(error, (WayOvertaken, WayRefused)):
            raise error
        if isinstance(error, _TwoSteps):
            raise WayRefused(
                f"lexicon replaces a record of {self._name} in two steps, with none or two SPF records between them:"
                " replace it by hand"
            )
        if error is not None:
            raise WayUnsure(f"lexicon could not change the zone at {self._name}: {_kind(error)}")


def _module(name: str, line: str) -> Any:
    if importlib.util.find_spec("lexicon") is None:
        raise usage("lexicon is not installed: apt install lexicon")
    try:
        return importlib.import_module(name)
    except ImportError as error:
        raise usage(line) from error


def _texts(provider: Any, name: Name) -> Iterator[tuple[Text, Mapping[str, Any]]]:
    """The TXT records that the provider lists at a name, with what it says of each."""
    for record in provider.list_records("TXT", names.printed(name)):
        if record["type"] == "TXT" and names.read(str(record["name"])) == name:
            yield _text(str(record["content"])), record


def _text(content: str) -> Text:
    """The text of a content, which some providers write in quotes, some between the outer quotes, and some without."""
    for presented in (content, f'"{content}"'):
        if presented.startswith('"'):
            try:
                return Text.read(presented)
            except (dns.exception.DNSException, ValueError):
                continue
    return Text.cut(content.encode("latin-1"))


def _forget(provider: Any, domain: Name, listed: Mapping[str, Any]) -> None:
    """Leaves a record out of what lexicon knows of a zone of PowerDNS, whose records at a name are written as one."""
    gone = f'"{listed["content"]}"'
    for rrset in provider.zone_data()["rrsets"]:
        if rrset["type"] == "TXT" and names.read(str(rrset["name"])) == domain:
            rrset["records"] = [record for record in rrset["records"] if record["content"] != gone]


@contextmanager
def _guarded(provider: Any) -> Iterator[None]:
    """Within it, a provider that deletes and creates in place of an update is stopped before it does either."""

    def stop(*_: object, **__: object) -> None:
        raise _TwoSteps

    guarded = [name for name in dir(provider) if "delete_record" in name or "create_record" in name]
    for name in guarded:
        setattr(provider, name, stop)
    try:
        yield
    finally:
        for name in guarded:
            delattr(provider, name)


def _ended(work: Callable[[], None], seconds: float) -> Exception | None:
    """How the work ended. lexicon waits for a provider for ever, so it is left alone after some time."""
    ends: queue.SimpleQueue[Exception | None] = queue.SimpleQueue()

    def run() -> None:
        try:
            work()
        except Exception as error:  # of whatever provider
            ends.put(error)
        else:
            ends.put(None)

    threading.Thread(target=run, daemon=True).start()
    try:
        return ends.get(timeout=seconds)
    except queue.Empty:
        return TimeoutError()


def _kind(error: Exception) -> str:
    """What may be told of an error of lexicon: its kind, and the number of an answer of HTTP."""
    status = getattr(getattr(error, "response", None), "status_code", None)
    return f"{type(error).__name__} {status}" if status else type(error).__name__
