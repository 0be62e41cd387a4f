"""Where the program and its files are: in a checkout, or installed below a prefix such as /usr."""

from importlib import metadata
from pathlib import Path

_HERE = Path(__file__).resolve()
CHECKOUT = _HERE.parents[2]
"""The top of the checkout, if this is one."""
PREFIX = _HERE.parents[min(4, len(_HERE.parents) - 1)]
"""The prefix below which lib/python3/dist-packages has this package, if it is installed."""


def data_file(name: str) -> Path | None:
    """The file of this name, such as VERSION, at the top of the checkout or in PREFIX/share/spfc."""
    places = (CHECKOUT / name, PREFIX / "share/spfc" / name)
    return next((place for place in places if place.is_file()), None)


def version_number() -> str:
    """The version of spfc and its tools."""
    file = data_file("VERSION")
    return file.read_text().strip() if file else metadata.version("spfc-tools")
