"""The records of a gathered file: they answer what was asked as DNS did, and lead out of the file for all else."""

from collections.abc import Iterable, Mapping

import pytest
from spfc_tools import names
from spfc_tools.exit_statuses import Ending, Status
from spfc_tools.facts import Alias, Answer, Data, Facts, Failure, Kind, Listed, Question, Void, read_question
from spfc_tools.world import OUT, World, closing

_MARKER = r"TYPE65280 \# 0"


def _data(*items: str) -> Data:
    return Data(frozenset(items))


def _alias(target: str) -> Alias:
    return Alias(names.read(target))


def _world(answers: Mapping[str, Answer], asked: Iterable[str] = (), floating: Iterable[str] = ()) -> World:
    """The world of these answers, of which all or some were asked for."""
    facts = Facts()
    for question, answer in answers.items():
        facts.learn(read_question(question), answer)
    questions = [read_question(question) for question in (asked or answers)]
    return World(facts, questions, map(names.read, floating))


def _records(world: World) -> set[str]:
    """The records of the world without the class."""
    return {str(record).replace(". IN ", " ") for record in world.records()}


def test_data() -> None:
    """Each record of an answer is one of the file."""
    world = _world({"a.test A": _data("192.0.2.1", "192.0.2.2"), "a.test MX": _data("10 b.test.")})
    assert _records(world) == {"a.test A 192.0.2.1", "a.test A 192.0.2.2", "a.test MX 10 b.test."}


@pytest.mark.parametrize("answer", [Void.NO_DATA, Void.NO_NAME])
def test_void(answer: Void) -> None:
    """A name without data, or none at all, has a marker: else it would lie outside the file."""
    assert _records(_world({"a.test A": answer})) == {f"a.test {_MARKER}"}


def test_absent() -> None:
    """The names that do not exist, also at the end of an alias."""
    world = _world({"a.test A": _alias("b.test"), "b.test A": Void.NO_NAME, "c.test A": Void.NO_DATA})
    assert world.absent() == {names.read("b.test")}


def test_steps_of_an_alias() -> None:
    """Each step of a chain of aliases has a record of its own, though only its beginning was asked."""
    answers: dict[str, Answer] = {"a.test A": _alias("b.test"), "b.test A": _alias("c.test")}
    answers["c.test A"] = _data("192.0.2.1")
    wanted = {"a.test CNAME b.test.", "b.test CNAME c.test.", "c.test A 192.0.2.1"}
    assert _records(_world(answers, ["a.test A"])) == wanted


def test_what_was_not_asked_is_not_written() -> None:
    """An answer that no question led to."""
    answers = {"a.test A": _data("192.0.2.1"), "b.test A": _data("192.0.2.2")}
    assert _records(_world(answers, ["a.test A"])) == {"a.test A 192.0.2.1"}


@pytest.mark.parametrize(
    "others",
    [
        {"a.test MX": _data("10 c.test.")},
        {"a.test AAAA": _alias("d.test"), "d.test AAAA": _data("2001:db8::1")},
        {"a.test AAAA": Void.NO_DATA},
    ],
)
def test_mixed_name(others: dict[str, Answer]) -> None:
    """A name that is an alias for some types alone: what the alias leads to is written at the name."""
    world = _world({"a.test A": _alias("b.test"), "b.test A": _data("192.0.2.1"), **others}, ["a.test A", *others])
    assert world.is_mixed(names.read("a.test"))
    records = _records(world)
    assert "a.test A 192.0.2.1" in records
    assert not any(record.startswith("a.test CNAME") for record in records)


def test_alias_for_all_types_is_not_mixed() -> None:
    """The same target for each type is one alias."""
    answers = {f"a.test {kind}": _alias("b.test") for kind in ("A", "AAAA")}
    ends = {f"b.test {kind}": Void.NO_DATA for kind in ("A", "AAAA")}
    world = _world({**answers, **ends})
    assert not world.is_mixed(names.read("a.test"))
    assert _records(world) == {"a.test CNAME b.test.", f"b.test {_MARKER}"}


def test_mixed_name_that_leads_round() -> None:
    """Aliases that lead round cannot be written at a name that has other records."""
    answers: dict[str, Answer] = {"a.test A": _alias("b.test"), "b.test A": _alias("a.test")}
    answers["a.test MX"] = _data("10 c.test.")
    with pytest.raises(Ending) as raised:
        _world(answers, ["a.test A", "a.test MX"]).records()
    assert raised.value.status == Status.CONTRADICTION


def test_failures() -> None:
    """A line for each question without an answer, also at the end of an alias."""
    answers: dict[str, Answer] = {"a.test A": _alias("b.test"), "b.test A": Failure("SERVFAIL")}
    assert list(_world(answers, ["a.test A"]).failures()) == ["no answer b.test A: SERVFAIL"]


def test_floating_name() -> None:
    """A name that a wildcard answers for is written as the wildcard, and so are names below it."""
    answers = {"a.b.test TXT": _data('"x"'), "c.a.b.test TXT": _data('"x"')}
    assert _records(_world(answers, floating=["a.b.test"])) == {'*.b.test TXT "x"'}


def test_different_answers_of_a_wildcard() -> None:
    """Two names for which one wildcard is written have different records."""
    answers = {"a.test TXT": _data('"x"'), "b.test TXT": _data('"y"')}
    with pytest.raises(Ending) as raised:
        _world(answers, floating=["a.test", "b.test"]).records()
    assert raised.value.status == Status.CONTRADICTION


def test_policy_that_asks_for_the_name_that_leads_out() -> None:
    """The name of the delegation that closes the world is nobody's."""
    name = names.printed(OUT)
    with pytest.raises(Ending) as raised:
        _world({f"a.{name} A": _data("192.0.2.1")}).records()
    assert raised.value.status == Status.CONTRADICTION


def test_list_of_senders() -> None:
    """All names of a list are written, those without an address as a marker."""
    listed = Listed((Question(names.read("1.2.0.192.list.test"), Kind.A),), frozenset(map(names.read, _LISTED)))
    world = _world({"list.test REVERSE4": listed, "1.2.0.192.list.test A": _data("127.0.0.2")}, ["list.test REVERSE4"])
    assert _records(world) == {"1.2.0.192.list.test A 127.0.0.2", f"x.list.test {_MARKER}"}


_LISTED = ("1.2.0.192.list.test", "x.list.test")


# ------------------------------------------------------------- the closed world


def _closed(*owners: str, whole: Iterable[str] = ()) -> set[str]:
    """The names that lead out of a file with records at these names."""
    records = list(closing(map(names.read, owners), [names.read(name) for name in whole]))
    assert [str(record) for record in records if record.type == "NS"] == [
        "not-gathered.invalid. IN NS not-gathered.invalid."
    ]
    return {names.printed(record.owner) for record in records if record.type == "CNAME"}


def test_names_around_are_closed() -> None:
    """A name above, and every name next to or below what was gathered, leads out of the file."""
    assert _closed("a.b.test") == {
        "*.a.b.test",
        "b.test",
        "*.b.test",
        "test",
        "*.test",
        ".",
        "*",
        "invalid",
        "*.invalid",
    }


def test_wildcard_stays() -> None:
    """A wildcard that DNS has stays as it is."""
    closed = _closed("*.a.test")
    assert "*.a.test" not in closed
    assert "*.*.a.test" in closed


def test_list_is_whole() -> None:
    """Below a list of senders no wildcard is written: what it lacks does not exist."""
    closed = _closed("1.list.test", whole=["list.test"])
    assert {name for name in closed if name.endswith("list.test")} == {"list.test"}


def test_zone_is_sorted() -> None:
    """The same records give the same bytes, and the records come before those that close the world."""
    answers = {"b.test A": _data("192.0.2.2", "192.0.2.1"), "a.test A": _data("192.0.2.3")}
    lines = _world(answers).zone().splitlines()
    end = lines.index("; What was not asked leads out of this file:")
    assert lines[:end] == sorted(lines[:end])
    assert lines[end + 1 :] == sorted(lines[end + 1 :])
    assert _world(dict(reversed(answers.items()))).zone().splitlines() == lines
