"""What the tools leave alone: files of others, and what they do if words or files cannot be read."""

import os
import stat
import threading
import tty
from pathlib import Path

import pytest
from nights import Domain, opened
from servers import Server, free_port
from spfc_tools import files
from workplace import Ended, Workplace, zone_words

_NOWHERE = ("--tries", "1", "--time", "1")


def _text(workplace: Workplace, server: Server) -> str:
    return workplace.gather(server, "nx.test").output


# ------------------------------------------------------------- outputs that are no plain files


def test_device_is_written_to(workplace: Workplace, server: Server) -> None:
    """`-o` with a device writes to it. A terminal stands for all, since no file can be put in its place."""
    master, slave = os.openpty()
    tty.setraw(slave)
    wanted = _text(workplace, server)
    read = bytearray()

    def reader() -> None:
        while len(read) < len(wanted):
            read.extend(os.read(master, 4096))

    thread = threading.Thread(target=reader, daemon=True)
    thread.start()
    assert workplace.gather(server, "nx.test", "-o", os.ttyname(slave)) == Ended(0)
    thread.join(10)
    assert (read.decode("latin-1"), stat.S_ISCHR(os.fstat(slave).st_mode)) == (wanted, True)
    os.close(slave)
    os.close(master)


def test_fifo_is_written_to(workplace: Workplace, server: Server) -> None:
    """`-o` with a fifo writes to whoever reads it."""
    fifo = workplace.folder / "fifo"
    os.mkfifo(fifo)
    read: list[str] = []
    reader = threading.Thread(target=lambda: read.append(fifo.read_text(encoding="latin-1")))
    reader.start()
    ended = workplace.gather(server, "nx.test", "-o", "fifo")
    reader.join()
    assert (ended, read, stat.S_ISFIFO(fifo.lstat().st_mode)) == (Ended(0), [_text(workplace, server)], True)


@pytest.mark.parametrize("is_there", [True, False])
def test_link_is_followed(is_there: bool, workplace: Workplace, server: Server) -> None:
    """A symbolic link stays one, and the file that it leads to is replaced or made."""
    target = workplace.within("far").folder / "target"
    if is_there:
        target.write_text("old")
    link = workplace.folder / "link"
    link.symlink_to(Path("far") / "target")
    assert workplace.gather(server, "nx.test", "-o", "link") == Ended(0)
    assert (link.is_symlink(), target.read_text()) == (True, _text(workplace, server))
    assert [file.name for file in target.parent.iterdir()] == ["target"]


def test_same_files(tmp_path: Path) -> None:
    """Two paths are one file by links of both sorts, and where no file is yet; devices are none."""
    one, hard, soft, other = (tmp_path / name for name in ("one", "hard", "soft", "other"))
    for file in (one, other):
        file.write_text("")
    hard.hardlink_to(one)
    soft.symlink_to(one)
    assert all(files.are_same(one, same) for same in (one, hard, soft, tmp_path / "." / "one"))
    assert not files.are_same(one, other)
    assert files.are_same(tmp_path / "new", tmp_path / "x" / ".." / "new")
    assert not files.are_same(tmp_path / "new", one)
    assert not files.are_same(Path("/dev/null"), Path("/dev/null"))


# ------------------------------------------------------------- outputs that are also inputs


@pytest.mark.parametrize(
    "words",
    [
        ["--policy", "policy", "-o", "policy"],
        ["--policy", "policy", "-o", "./policy"],
        ["--policy", "policy", "-o", "link"],
        ["closed.test=policy", "-o", "policy"],
    ],
)
def test_gather_writes_over_no_input(words: list[str], workplace: Workplace) -> None:
    """An output that is also read has status 4, before anything is asked."""
    workplace.write("policy", "v=spf1 -all\n")
    (workplace.folder / "link").symlink_to("policy")
    ended = workplace.tool("spfc-gather", "nx.test", "@127.0.0.1", "-p", str(free_port()), *_NOWHERE, *words)
    assert (ended.status, workplace.read("policy")) == (4, "v=spf1 -all\n")
    assert (
        ended.line == f"spfc-gather: expected another file to write to than those that are read, got {Path(words[-1])}"
    )


@pytest.mark.parametrize(
    ("output", "words"),
    [
        ("policy", []),
        ("new", ["--kept", "policy"]),
        ("new", ["--kept", "new"]),
        ("zone", ["closed.test=zone"]),
        ("new", ["--kept", "zone", "closed.test=zone"]),
    ],
)
def test_nightly_writes_over_no_input(output: str, words: list[str], workplace: Workplace) -> None:
    """The same for both files that spfc-nightly writes."""
    workplace.write("policy", "v=spf1 -all\n")
    workplace.write("zone", "")
    place = ["@127.0.0.1", "-p", str(free_port()), *_NOWHERE]
    ended = workplace.tool("spfc-nightly", "nx.test", "policy", output, *place, *words)
    assert (ended.status, ended.output) == (4, "")
    assert ended.line.startswith("spfc-nightly: expected another file to write to than those that are read, got ")
    assert (workplace.read("policy"), workplace.read("zone")) == ("v=spf1 -all\n", "")


@pytest.mark.parametrize(
    ("text", "why"),
    [
        ("v=spf1 include:_spf.mailone.example ~all\n", "which is not a kept list"),
        ("; kept corp.test 10 2 10\n", "which is not a kept list"),
        (None, "which is not a plain file"),
    ],
)
def test_foreign_file_as_kept_list(text: str | None, why: str, workplace: Workplace) -> None:
    """A file that is no kept list is named, with status 4, and left alone."""
    workplace.write("policy", "v=spf1 -all\n")
    if text is None:
        (workplace.folder / "notes").mkdir()
    else:
        workplace.write("notes", text)
    place = ["@127.0.0.1", "-p", str(free_port()), *_NOWHERE]
    ended = workplace.tool("spfc-nightly", "nx.test", "policy", "new", "--kept", "notes", *place)
    wanted = f"spfc-nightly: expected a kept list or a new file, got notes, {why}"
    assert ended == Ended(4, "", wanted)
    assert text is None or workplace.read("notes") == text


@pytest.mark.needs("servers")
def test_empty_file_as_kept_list(workplace: Workplace) -> None:
    """An empty file may become a kept list."""
    workplace.write("kept", "")
    with opened(workplace, Domain("corp.test")) as nights:
        assert nights.night("--kept", "kept").lines == [
            "same corp.test",
            "the kept list does not count: bad list kept 1",
        ]
        assert nights.kept.startswith("; deps corp.test ")


# ------------------------------------------------------------- files that cannot be read


@pytest.mark.parametrize(
    ("words", "line"),
    [
        (["nope", "new"], "nope: No such file or directory"),
        (["zones", "new"], "zones: Is a directory"),
        (["policy", "new", "closed.test=nope"], "no file nope"),
        (["policy", "new", "closed.test=bad"], "bad zone bad 1 NoOwner"),
    ],
)
def test_nightly_reads_its_files_first(words: list[str], line: str, workplace: Workplace) -> None:
    """A path that cannot be read is no matter of DNS: it has status 5, and nothing is printed or asked."""
    workplace.write("policy", "v=spf1 -all\n")
    workplace.write("bad", " IN TXT x\n")
    (workplace.folder / "zones").mkdir()
    place = ["@127.0.0.1", "-p", str(free_port()), *_NOWHERE]
    assert workplace.tool("spfc-nightly", "nx.test", *words, *place) == Ended(5, "", f"spfc-nightly: {line}")


@pytest.mark.parametrize(
    ("words", "status", "line"),
    [
        (["--policy", "nope"], 5, "nope: No such file or directory"),
        (["--policy", "bad"], 4, "bad is not the text of one SPF record"),
        (["--holds", "nope"], 5, "nope: No such file or directory"),
        (["closed.test=nope"], 5, "no file nope"),
        (["closed.test=bad"], 5, "bad zone bad 1 NoOwner"),
    ],
)
def test_gather_reads_its_files_first(words: list[str], status: int, line: str, workplace: Workplace) -> None:
    """The same for spfc-gather."""
    workplace.write("bad", " IN TXT x\n")
    place = ["@127.0.0.1", "-p", str(free_port()), *_NOWHERE]
    assert workplace.tool("spfc-gather", "nx.test", *words, *place) == Ended(status, "", f"spfc-gather: {line}")


def test_silent_server_is_unknown(workplace: Workplace) -> None:
    """That DNS does not answer is still `unknown`, status 3."""
    workplace.write("policy", "v=spf1 -all\n")
    place = ["@127.0.0.1", "-p", str(free_port()), *_NOWHERE]
    ended = workplace.tool("spfc-nightly", "nx.test", "policy", "new", *place)
    assert (ended.status, ended.output) == (3, "unknown nx.test\n")


def test_own_zones_beside(workplace: Workplace, server: Server) -> None:
    """Zones that can be read are no fault."""
    assert workplace.gather(server, "example.com", *zone_words("example.com")).status == 0
