"""Publications over servers of every way, while a mail receiver evaluates without a pause."""

import json
from pathlib import Path

import pytest
from policies import ADDRESSES, TEXTS, Policy, policy, presented
from publish_servers import DOMAIN, SITE, TOKEN, WAYS, Publisher, receiver, zone_text
from workplace import Ended, Workplace

pytestmark = [pytest.mark.slow, pytest.mark.needs("servers"), pytest.mark.needs("publishing")]


def publish(workplace: Workplace, publisher: Publisher, *words: str) -> Ended:
    """Runs spfc-publish."""
    state = ["--state", str(workplace.folder / "state"), "--patience", "20"]
    return workplace.tool("spfc-publish", *words, *publisher.words, *state)


def outcomes(workplace: Workplace, chosen: Policy) -> dict[str, str]:
    """The verdicts of a policy."""
    found = workplace.outcomes(DOMAIN, ADDRESSES, f"{DOMAIN}={chosen.fragment}")
    return {address: outcome.partition(" ")[0] for address, outcome in found.items()}


@pytest.mark.parametrize("way", WAYS)
def test_no_receiver_sees_a_broken_chain(workplace: Workplace, way: str) -> None:
    """First publication, a new chain, undo, and sweep: each address has its verdict before or after, and no error."""
    first, second = policy(workplace, "a"), policy(workplace, "b")
    allowed = {
        f"{address} {verdict}" for chosen in (first, second) for address, verdict in outcomes(workplace, chosen).items()
    }
    with WAYS[way](workplace.folder / "server", zone_text(presented(TEXTS["a"]))) as publisher:
        receivers = [receiver(server.port, ADDRESSES) for server in publisher.servers]
        ended = {
            "first": publish(workplace, publisher, *first.words),
            "again": publish(workplace, publisher, *first.words),
            "second": publish(workplace, publisher, *second.words),
            "undo": publish(workplace, publisher, DOMAIN, "--undo"),
            "sweep": publish(workplace, publisher, DOMAIN, "--sweep", "--wait"),
            "third": publish(workplace, publisher, *second.words, "--wait"),
        }
        found = [one.results() for one in receivers]
        assert {name: one.status for name, one in ended.items()} == dict.fromkeys(ended, 0), ended
        server = publisher.servers[0]
        assert server.texts("_spfa1.example.com") == set()
        assert len(server.texts("_spfb1.example.com")) == 1
        assert len(server.texts(DOMAIN)) == 2
        assert SITE in server.texts(DOMAIN)
    rounds = 0
    for output, errors in found:
        counts = json.loads(output)
        rounds += counts["rounds"]
        assert errors == b""
        assert set(counts["results"]) <= allowed
    assert rounds >= 100
    print(f"{way}: {rounds * len(ADDRESSES)} evaluations")
    _refuse_secrets(workplace.folder, ended)


def _refuse_secrets(folder: Path, ended: dict[str, Ended]) -> None:
    """No secret is in the state file or in what was printed, and nobody else reads the state."""
    key = folder / "server/key"
    secrets = [TOKEN, *([key.read_text().split('"')[3]] if key.exists() else [])]
    state = folder / "state"
    for text in (state.read_text(), *(one.output + one.line for one in ended.values())):
        assert not any(secret in text for secret in secrets)
    assert state.stat().st_mode & 0o777 == 0o600
