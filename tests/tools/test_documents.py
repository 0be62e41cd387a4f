"""The documents: each link leads somewhere, and the commands of README print what it shows."""

import re
import shlex
from pathlib import Path

import pytest
from workplace import TOP, Workplace, run

_README = TOP / "README.md"
_DOCUMENTS = [_README, TOP / "CHANGELOG.md", *sorted((TOP / "docs").glob("*.md")), *sorted(TOP.glob("examples/*/*.md"))]
_LINK = re.compile(r"\[[^\]]*\]\(([^)\s]+)\)")


def _anchors(document: Path) -> set[str]:
    """The anchors of the titles of a document, as Git hosts make them."""
    titles = re.findall(r"^#+ (.*)$", document.read_text(), re.MULTILINE)
    return {re.sub(r"[^\w\- ]", "", title.lower()).replace(" ", "-") for title in titles}


def _is_broken(document: Path, target: str) -> bool:
    path, _, anchor = target.partition("#")
    place = document.parent / path if path else document
    return not place.exists() or (anchor != "" and anchor not in _anchors(place))


@pytest.mark.parametrize("document", _DOCUMENTS, ids=lambda path: str(path.relative_to(TOP)))
def test_links(document: Path) -> None:
    """Each link leads to a file or folder of the repository, and to a title in it if it names one."""
    assert [target for target in _LINK.findall(document.read_text()) if _is_broken(document, target)] == []


def _blocks() -> list[list[str]]:
    """The blocks of code in README, as lines without their indent."""
    lines = [line[4:] if line.startswith("    ") else "" for line in _README.read_text().splitlines()]
    return [block.split("\n") for block in re.split(r"\n\n+", "\n".join(lines).strip("\n"))]


def _missing(shown: list[str], output: str) -> list[str]:
    """The shown lines that the output does not have in this order. `..` is shown for what was left out."""
    rest = iter(output.splitlines())
    patterns = [(line, re.escape(line).replace(r"\ \.\.\ ", " .* ")) for line in shown if line != ".."]
    return [line for line, pattern in patterns if not any(re.fullmatch(pattern, printed) for printed in rest)]


def test_first_command(workplace: Workplace) -> None:
    """The first command prints the output of its example, of which README shows a part."""
    blocks = _blocks()
    at = next(number for number, block in enumerate(blocks) if block[0].startswith("bin/spfc compile"))
    output = run([str(workplace.program), *shlex.split(blocks[at][0])[1:]], TOP).output
    assert _missing(blocks[at + 1], output) == []
    assert output == (TOP / "examples/one-record/output").read_text()


def test_compile_of_an_administrator(workplace: Workplace) -> None:
    """`compile` over the gathered file of the example prints what README shows."""
    block = next(block for block in _blocks() if block[0].startswith("$ spfc-gather"))
    start, end = (next(at for at, line in enumerate(block) if line.startswith(f"$ spfc{name}")) for name in (" ", "-n"))
    words = shlex.split(block[start], comments=True)[2:]
    output = run([str(workplace.program), *words], TOP / "examples/from-dns").output
    assert _missing(block[start + 1 : end], output) == []
