"""spfc-publish as a command over named: killed at each step, and what it refuses."""

import json
import os
import signal
import subprocess
import time
from collections.abc import Iterator
from pathlib import Path

import dns.query
import dns.rcode
import dns.update
import pytest
from policies import ADDRESSES, SIZE, TEXTS, Policy, policy, presented
from publish_servers import DOMAIN, Publisher, named, receiver, secret, write_key, zone_text
from servers import HOST
from workplace import Ended, Workplace

from spfc_tools.publish.key_file import read_key

pytestmark = [pytest.mark.slow, pytest.mark.needs("servers"), pytest.mark.needs("publishing")]
_OLD = "v=spf1 ip4:192.0.2.1 -all"


@pytest.fixture
def publisher(workplace: Workplace) -> Iterator[Publisher]:
    """Two servers with the policy as one record."""
    with named(workplace.folder / "server", zone_text(presented(TEXTS["a"]))) as running:
        yield running


def words(workplace: Workplace, publisher: Publisher, *given: str) -> list[str]:
    """The words of a call."""
    state = ["--state", str(workplace.folder / "state"), "--patience", "15"]
    return [given[0], *publisher.words, *state, *given[1:]]


def publish(workplace: Workplace, publisher: Publisher, *given: str) -> Ended:
    """Runs spfc-publish to its end."""
    return workplace.tool("spfc-publish", *words(workplace, publisher, *given))


def update(publisher: Publisher, *changes: tuple[str, str, str]) -> None:
    """Changes the zone as another person does."""
    key = read_key(publisher.folder / "key")
    message = dns.update.UpdateMessage(DOMAIN, keyring=key.ring, keyname=key.name, keyalgorithm=key.algorithm)
    for what, name, text in changes:
        if what == "add":
            message.add(f"{name}.", 1, "TXT", text)
        else:
            message.delete(f"{name}.", "TXT", text)
    reply = dns.query.tcp(message, HOST, 5, publisher.servers[0].port)
    assert reply.rcode() == dns.rcode.NOERROR
    for server in publisher.servers:
        server.wait_for(changes[-1][1], changes[-1][2].strip('"')[:40])


def kill_at(step: str, workplace: Workplace, given: list[str]) -> bool:
    """Runs spfc-publish, and kills it by its id when its state says that this step comes next: whether it was."""
    state = workplace.folder / "state"
    command = [str(workplace.bin / "spfc-publish"), *given]
    process = subprocess.Popen(
        command,
        cwd=workplace.folder,
        env={**os.environ, "SPFC": str(workplace.program)},
        stdout=subprocess.DEVNULL,
        stderr=subprocess.DEVNULL,
    )
    while process.poll() is None:
        if state.exists() and json.loads(state.read_text())["move"]["step"] == step:
            process.send_signal(signal.SIGKILL)
            process.wait()
            return True
        time.sleep(0.0005)
    return False


def test_killed_at_each_step(workplace: Workplace, publisher: Publisher) -> None:
    """Killed at each step in turn and called again, it ends as if it had not been, and no receiver sees an error."""
    chosen = {"a": policy(workplace, "a"), "b": policy(workplace, "b")}
    receivers = [receiver(server.port, ADDRESSES) for server in publisher.servers]
    killed = []
    for letter, step in zip("abab", ("add", "wait", "replace", "compare")):
        given = words(workplace, publisher, *chosen[letter].words)
        if kill_at(step, workplace, given):
            killed.append(step)
        ended = workplace.tool("spfc-publish", *given)
        assert ended.status == 0, ended
        swept = publish(workplace, publisher, DOMAIN, "--sweep", "--wait")
        assert swept.status == 0, swept
        for server in publisher.servers:
            assert any(f"_spf{letter}1.example.com" in text for text in server.texts(DOMAIN))
            assert len(server.texts(DOMAIN)) == 2
            assert not server.texts(f"_spf{'b' if letter == 'a' else 'a'}1.example.com")
    assert killed == ["add", "wait", "replace", "compare"]
    for one in receivers:
        output, errors = one.results()
        assert errors == b""
        assert json.loads(output)["rounds"] > 50


def _refused(workplace: Workplace, publisher: Publisher, chosen: Policy, *more: str) -> Ended:
    before = [server.texts(DOMAIN) for server in publisher.servers]
    ended = publish(workplace, publisher, *chosen.words, *more)
    assert [server.texts(DOMAIN) for server in publisher.servers] == before
    return ended


def test_what_is_refused(workplace: Workplace, publisher: Publisher) -> None:
    """Each with its line and status, and nothing is changed."""
    first, second = policy(workplace, "a"), policy(workplace, "b")
    other_key = write_key(workplace.folder / "other", secret())
    key = publisher.folder / "key"

    ended = _refused(workplace, publisher, first, "--key", str(other_key))
    assert (ended.status, ended.line.splitlines()[-1]) == (1, "spfc-publish: nothing was changed")
    assert "does not take the key: PeerBadSignature" in ended.line or "PeerBad" in ended.line
    assert not publisher.servers[0].texts("_spfa1.example.com")

    key.chmod(0o644)
    ended = _refused(workplace, publisher, first)
    assert (ended.status, ended.line) == (
        1,
        f"spfc-publish: {key} can be read by others than its owner: chmod 600 {key}",
    )
    key.chmod(0o600)

    ended = _refused(workplace, publisher, Policy(first.text, second.fragment))
    assert (ended.status, ended.line.splitlines()[0]) == (1, "spfc-publish: no verdict 198.18.0.0")

    update(publisher, ("add", "_spfa2.example.com", '"taken"'))
    ended = _refused(workplace, publisher, first)
    assert ended.status == 1
    assert 'has at _spfa2.example.com "taken"' in ended.line

    update(publisher, ("add", DOMAIN, f'"{_OLD}"'))
    ended = _refused(workplace, publisher, second)
    assert (ended.status, ended.line.split(":")[1]) == (1, " example.com has 2 SPF records")


def test_a_label_in_use(workplace: Workplace, publisher: Publisher) -> None:
    """A new chain does not take the names of the one that is published; another record there is not replaced."""
    assert publish(workplace, publisher, *policy(workplace, "a").words).status == 0
    ended = _refused(workplace, publisher, policy(workplace, "b", label="_spfa"))
    assert ended.status == 1
    assert ended.line.splitlines()[0] == "spfc-publish: _spfa1.example.com is a name of the chain that is published now"
    record = next(text for text in publisher.servers[0].texts(DOMAIN) if "spf1" in text)
    update(publisher, ("delete", DOMAIN, record), ("add", DOMAIN, f'"{_OLD}"'))
    ended = publish(workplace, publisher, DOMAIN, "--undo")
    assert ended.status in (1, 2)
    assert f'has at example.com "{_OLD}"; expected' in ended.line
    for server in publisher.servers:
        assert f'"{_OLD}"' in server.texts(DOMAIN)


def test_the_plan_changes_nothing(workplace: Workplace, publisher: Publisher) -> None:
    """Without --to each record is printed as it is to be entered, and no state is kept."""
    chosen = policy(workplace, "a")
    before = publisher.servers[0].texts(DOMAIN)
    place = ["--servers", ",".join(f"{HOST}#{server.port}" for server in publisher.servers)]
    ended = workplace.tool("spfc-publish", *chosen.words, *publisher.servers[0].words, *place)
    assert ended.status == 0
    assert [line for line in ended.output.splitlines() if not line.startswith(" ")] == [
        "1. Add to the zone example.com, and leave example.com as it is:",
        "2. Wait until every server has them, and then 1 seconds:",
        "3. Replace the SPF record of example.com, in one step, and leave its other TXT records:",
    ]
    lines = set(chosen.fragment.read_text().splitlines())
    texts = {line.partition(" IN TXT ")[2] for line in lines if " IN TXT " in line}
    assert texts == {
        line.partition(" IN TXT ")[2] for line in ended.output.splitlines() if line.startswith(("   _spf", "   new"))
    }
    assert publisher.servers[0].texts(DOMAIN) == before
    assert not Path(workplace.folder / "state").exists()


@pytest.mark.parametrize(
    "given",
    (
        [],
        ["example.com"],
        ["example.com", "fragment", "--undo"],
        ["example.com", "--undo"],
        ["example.com", "fragment", "other"],
        ["example.com", "fragment", "--to", "nowhere"],
        ["example.com", "fragment", "--to", "zone"],
        ["example.com", "fragment", "--servers", "127.0.0.1#x", "--size", SIZE],
        ["example.com", "fragment", "--lookups", "x"],
    ),
)
def test_words_that_are_none(workplace: Workplace, given: list[str]) -> None:
    """Status 4, before anything is asked."""
    workplace.write("fragment", '@ TXT "v=spf1 -all"\n')
    ended = workplace.tool("spfc-publish", *given, "@127.0.0.1", "-p", "9")
    assert ended.status == 4, ended
    assert "Traceback" not in ended.line


def test_a_server_that_does_not_answer(workplace: Workplace) -> None:
    """Status 3, with the question."""
    chosen = policy(workplace, "a")
    place = ["--servers", f"{HOST}#9", "--tries", "1", "--time", "1"]
    ended = workplace.tool("spfc-publish", *chosen.words, *place)
    assert (ended.status, ended.line) == (
        3,
        f"spfc-publish: no answer example.com SOA: {HOST}#9: no reply",
    )
