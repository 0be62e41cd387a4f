"""The way by DNS UPDATE (RFC 2136), signed by TSIG (RFC 8945): BIND, Knot DNS, PowerDNS, Windows."""

from __future__ import annotations

import logging
from collections.abc import Iterable, Sequence
from dataclasses import dataclass

import dns.exception
import dns.message
import dns.query
import dns.rcode
import dns.rdataset
import dns.rdatatype
import dns.tsig
import dns.update
from dns.name import Name

from spfc_tools.publish.authoritative import Server
from spfc_tools.publish.key_file import Key
from spfc_tools.publish.published import Text, TextRecord
from spfc_tools.publish.ways import Replacement, WayOvertaken, WayRefused, WayUnsure

_LOG = logging.getLogger(__name__)
_OVERTAKEN = (dns.rcode.YXDOMAIN, dns.rcode.YXRRSET, dns.rcode.NXDOMAIN, dns.rcode.NXRRSET)
"""What a server answers where a prerequisite does not hold (RFC 2136, section 3.2)."""
_ABSENT = 0
"""The time to live of a record that is to go."""


@dataclass(frozen=True)
class Update:
    """Changes of a zone that are sent to its primary server, over TCP."""

    zone: Name
    primary: Sequence[Server]
    """The addresses of the primary server; the first that can be reached is sent the change."""
    key: Key | None
    seconds: float = 10.0

    def add(self, record: TextRecord) -> None:
        """Adds a record, if its name has no TXT record."""
        message = self._message()
        message.absent(record.name, "TXT")
        message.add(record.name, record.ttl, record.text.rdata)
        self._send(message)

    def replace(self, change: Replacement) -> None:
        """Replaces the record in one message, if the TXT records at the domain are those that were seen."""
        message = self._message()
        seen = [text for text in (change.old, *change.others) if text is not None]
        if seen:
            message.present(change.domain, _rdataset(seen))
        else:
            message.absent(change.domain, "TXT")
        if change.old is not None:
            message.delete(change.domain, change.old.rdata)
        if change.new is not None:
            message.add(change.domain, change.ttl, change.new.rdata)
        self._send(message)

    def remove(self, record: TextRecord) -> None:
        """Takes the very record away."""
        message = self._message()
        message.delete(record.name, record.text.rdata)
        self._send(message)

    def _message(self) -> dns.update.UpdateMessage:
        if self.key is None:
            return dns.update.UpdateMessage(self.zone)
        return dns.update.UpdateMessage(
            self.zone, keyring=self.key.ring, keyname=self.key.name, keyalgorithm=self.key.algorithm
        )

    def _send(self, message: dns.update.UpdateMessage) -> None:
        """Sends a change to the primary server, and reads what it says."""
        place = self.primary[0]
        try:
            reply = dns.query.tcp(message, place.address, self.seconds, place.port)
        except ConnectionRefusedError as error:
            raise WayRefused(f"{place} takes no connection") from error
        except dns.tsig.PeerError as error:
            raise WayRefused(f"{place} does not take the key: {type(error).__name__}") from error
        except dns.exception.TooBig as error:
            raise WayRefused("the records are too large for one message") from error
        except dns.exception.Timeout as error:
            raise WayUnsure(f"no reply of {place} to an update") from error
        except (OSError, EOFError, dns.exception.DNSException) as error:
            raise WayUnsure(f"no readable reply of {place} to an update: {type(error).__name__}") from error
        rcode = reply.rcode()
        _LOG.debug("%s was sent an update: %s", place, dns.rcode.to_text(rcode))
        if rcode in _OVERTAKEN:
            raise WayOvertaken(f"{place}: {dns.rcode.to_text(rcode)}")
        if rcode != dns.rcode.NOERROR:
            raise WayRefused(f"{place} refuses the update: {dns.rcode.to_text(rcode)}")
        if self.key is not None and not reply.had_tsig:
            raise WayUnsure(f"the reply of {place} is not signed")


def _rdataset(texts: Iterable[Text]) -> dns.rdataset.Rdataset:
    return dns.rdataset.from_rdata_list(_ABSENT, [text.rdata for text in texts])
