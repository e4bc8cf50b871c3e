"""Answers as people read them: tables, and values in JSON or YAML.

On a terminal tables are fitted to its width, and words that tell a verdict have a colour. Elsewhere a table has no width, so that a
command behind a pipe sees each row on one line.
"""

import dataclasses
import json
import os
import re
import shutil
import sys
import textwrap
from typing import Any

from mesh_front.faults import Fault, Status
from mesh_front.gaps import Gaps

LEAST = 10  # columns that a cell has at least
GAP = "   "
IDENTITY = re.compile(r"\.serviceaccount\.identity\.[a-z0-9.-]*[a-z0-9]")
BOLD, PLAIN = "\033[1m", "\033[0m"
COLOURS = {
    "\033[32m": re.compile(r"\b(allowed|admits|opens)\b"),
    "\033[31m": re.compile(r"\b(denied|not found|closes|refused|missing)\b"),
    "\033[33m": re.compile(r"\b(incomplete|not known|not computed)\b"),
}


@dataclasses.dataclass
class Look:
    """How answers are printed: the width that tables have at most, whether words have colours, and whether values are YAML."""

    width: int | None = None
    has_colours: bool = False
    is_yaml: bool = False


LOOK = Look()


def set_look(form: str) -> None:
    """Prints from here on as the form of the words and standard output want it."""
    is_terminal = sys.stdout.isatty()
    LOOK.width = shutil.get_terminal_size((80, 24)).columns if is_terminal and form != "wide" else None
    LOOK.has_colours = is_terminal and not os.environ.get("NO_COLOR") and os.environ.get("TERM") != "dumb"
    LOOK.is_yaml = form == "yaml"


def widths_of(rows: list[list[str]]) -> list[int]:
    """The width of each column: that of its widest cell."""
    return [max(len(row[place]) for row in rows) for place in range(len(rows[0]))]


def fitted(rows: list[list[str]], width: int) -> list[list[str]]:
    """The rows of a table with its cells in several lines, so that it has a width: identities are shortened, and the widest columns wrapped."""
    if sum(widths_of(rows)) + len(GAP) * (len(rows[0]) - 1) > width:
        rows = [[IDENTITY.sub("", cell) for cell in row] for row in rows]
    widths = widths_of(rows)
    while sum(widths) + len(GAP) * (len(widths) - 1) > width and max(widths) > LEAST:
        widths[widths.index(max(widths))] -= 1
    found = []
    for row in rows:
        cells = [textwrap.wrap(cell, columns) or [""] for cell, columns in zip(row, widths)]
        for place in range(max(map(len, cells))):
            found.append([cell[place] if place < len(cell) else "" for cell in cells])
    return found


def table(headings: list[str], rows: list[list[str]]) -> list[str]:
    """The lines of a table: each column as wide as its widest cell, or on a terminal as narrow as it must be."""
    every = [headings, *rows]
    if LOOK.width is not None:
        every = fitted(every, LOOK.width)
    widths = widths_of(every)
    found = [GAP.join(cell.ljust(width) for cell, width in zip(row, widths)).rstrip() for row in every]
    return [f"{BOLD}{found[0]}{PLAIN}", *found[1:]] if LOOK.has_colours else found


def values(answer: Any) -> Any:
    """An answer as values of JSON."""
    if dataclasses.is_dataclass(answer):
        return {it.name: values(getattr(answer, it.name)) for it in dataclasses.fields(answer)}
    if isinstance(answer, (list, tuple)):
        return [values(it) for it in answer]
    return answer


def yaml_text(value: Any) -> str:
    """A value in YAML."""
    try:
        import yaml  # type: ignore[import]
    except ImportError as error:
        raise Fault(Status.NO_TOOL, "-o yaml needs Python's module yaml: tools/packages --install installs it") from error
    return yaml.safe_dump(value, sort_keys=False, allow_unicode=True).rstrip("\n")


def in_colours(line: str) -> str:
    """A line with the colours of its words."""
    for colour, words in COLOURS.items():
        line = words.sub(lambda found: f"{colour}{found[0]}{PLAIN}", line)
    return line


def show(gaps: Gaps, answer: Any, lines: list[str], is_value: bool) -> None:
    """Prints an answer as a value in JSON or YAML, or in lines, behind what the feed lacks for it."""
    if is_value:
        value = {**values(gaps), **values(answer)}
        print(yaml_text(value) if LOOK.is_yaml else json.dumps(value, indent=2))
        return
    every = gaps.lines() + lines
    print("\n".join(map(in_colours, every) if LOOK.has_colours else every))
