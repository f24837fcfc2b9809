"""Reads docs/drivers.md: the rows of its tables of errors, and the rules for exceptions that it shows."""

import re
from typing import NamedTuple

from support import REPOSITORY

PAGE = REPOSITORY / "docs" / "drivers.md"
ROW = re.compile(r"\| (.+?) \| (.+) \| `(fail|lost)` \|(?: (.+?))? \|")
NAMED = re.compile(r"`(\w+)`")
BLOCK = re.compile(r"(?:^    .*\n|^\n)+", re.MULTILINE)


class Row(NamedTuple):
    """A row of a table: the names in its first column, how a call ends that raises such an error, and what was seen of it, if anything."""

    names: tuple
    end: str
    seen: str


def section(name):
    """The rows of the table of errors of a section, and the Python that it shows."""
    text = PAGE.read_text(encoding="utf-8").partition(f"\n## {name}\n")[2].partition("\n## ")[0]
    rows = [Row(tuple(NAMED.findall(found[1])), found[3], found[4] or "") for found in map(ROW.fullmatch, text.splitlines()) if found]
    return rows, "\n".join(re.sub(r"(?m)^    ", "", block) for block in BLOCK.findall(text))
