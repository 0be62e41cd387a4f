"""Over a gathered file spfc says what it says over the zones themselves, from whatever server they were gathered."""

import ipaddress
import random
import re
from collections.abc import Iterator
from dataclasses import dataclass
from pathlib import Path

import pytest
from servers import Server
from workplace import Ended, Workplace, zone_words

_READING = ("--lookups", "--voids", "--exchanges")
_NETWORK4 = re.compile(r"(?<![0-9.])(\d+\.\d+\.\d+\.\d+)(/\d+)?")
_REVERSED4 = re.compile(r"^(?:\*\.)?((?:\d+\.){1,4})(?=[a-z])", re.MULTILINE)
_REVERSED6 = re.compile(r"^(?:\*\.)?((?:[0-9a-f]\.){4,32})(?=[a-z][a-z])", re.MULTILINE)
_NETWORK6 = re.compile(r"(?<![0-9A-Za-z:.])(?:ip6:)?([0-9a-fA-F]{0,4}(?::[0-9a-fA-F]{0,4}){2,7})(/\d+)?")
_PATIENCE = ("--tries", "2", "--time", "2")
_COUNT = 10
"""The number of addresses that are tried in each case."""


@dataclass(frozen=True)
class Case:
    """A domain and options of `spfc compile`, under a name."""

    name: str
    domain: str
    options: tuple[str, ...]

    @property
    def reading(self) -> list[str]:
        """The reading options among them."""
        pairs = zip(self.options[::2], self.options[1::2])
        return [word for pair in pairs if pair[0] in _READING for word in pair]

    @property
    def has_lists(self) -> bool:
        """Whether the policy has lists of senders by address, which come by zone transfer alone."""
        return "list" in self.name


def _cases() -> list[Case]:
    lines = Path(__file__).with_name("gather_cases").read_text().splitlines()
    return [Case(name, domain, tuple(options)) for name, domain, *options in map(str.split, lines)]


@pytest.mark.parametrize("case", _cases(), ids=lambda case: str(case.name))
def test_case(case: Case, workplace: Workplace, server: Server, second_server: Server, forwarder: Server) -> None:
    """Servers of three kinds give the same file; over it `compile` and `check` say what they say over the zones."""
    gathered = workplace.gather(server, case.domain, *_PATIENCE, *case.options)
    assert gathered.status == 0
    assert all(line.startswith("spfc-gather: warning: ") for line in gathered.line.splitlines())
    workplace.write("gathered", gathered.output)
    for other in [second_server] if case.has_lists else [second_server, forwarder]:
        assert workplace.gather(other, case.domain, *_PATIENCE, *case.options) == gathered
    zones, file = zone_words(), ".=gathered"
    words = ["compile", case.domain, *case.options]
    assert workplace.spfc(*words, file) == workplace.spfc(*words, *zones)
    addresses = list(_near(case.name, gathered.output))
    found = workplace.outcomes(case.domain, addresses, *case.reading, file)
    assert found == workplace.outcomes(case.domain, addresses, *case.reading, *zones)


def test_output_file(workplace: Workplace, server: Server) -> None:
    """-o FILE has the bytes that go to standard output without it."""
    gathered = workplace.gather(server, "example.com")
    assert workplace.gather(server, "example.com", "-o", "gathered") == Ended(0)
    assert workplace.read("gathered") == gathered.output


# ------------------------------------------------------------- addresses near the networks of a text


def _near(seed: str, text: str) -> Iterator[str]:
    """Addresses at the ends of the networks in a text, in them, next to them, and anywhere."""
    chance = random.Random(seed)
    networks = {
        4: [*_networks(_NETWORK4, text), *_listed4(text)],
        6: [*_networks(_NETWORK6, text), *_listed6(text)],
    }
    for _ in range(_COUNT):
        family = chance.choice((4, 4, 6))
        bits = 32 if family == 4 else 128
        number = chance.getrandbits(bits)
        if networks[family] and chance.random() < 0.8:
            network = chance.choice(networks[family])
            low, high = int(network[0]), int(network[-1])
            flipped = low ^ (1 << chance.randrange(bits))
            number = chance.choice((low, high, low - 1, high + 1, chance.randint(low, high), flipped)) % (1 << bits)
        yield str(ipaddress.IPv4Address(number) if family == 4 else ipaddress.IPv6Address(number))


def _listed4(text: str) -> Iterator[ipaddress.IPv4Network]:
    """The networks whose reversed names begin a line of the text: an address if all four numbers are there."""
    for found in _REVERSED4.finditer(text):
        octets = found[1].split(".")[-2::-1]
        if all(int(octet) < 256 for octet in octets):
            number = int.from_bytes(bytes([*map(int, octets)]).ljust(4, b"\0"), "big")
            yield ipaddress.IPv4Network((number, 8 * len(octets)))


def _listed6(text: str) -> Iterator[ipaddress.IPv6Network]:
    """The same for IPv6 and its digits."""
    for found in _REVERSED6.finditer(text):
        digits = "".join(found[1].split(".")[::-1])
        yield ipaddress.IPv6Network((int(digits.ljust(32, "0"), 16), 4 * len(digits)))


def _networks(form: re.Pattern[str], text: str) -> Iterator[ipaddress.IPv4Network | ipaddress.IPv6Network]:
    for found in form.finditer(text):
        try:
            yield ipaddress.ip_network(found[1] + (found[2] or ""), strict=False)
        except ValueError:
            pass
