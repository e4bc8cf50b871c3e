"""A page with a grid of signs, for a browser without a network: each cell has a sign and a text, and the page finds names in it."""

import json
import pathlib
from dataclasses import dataclass

PAGE = pathlib.Path(__file__).with_suffix(".html")
PLACE = "/*SHEET*/"


@dataclass
class Heading:
    """The name of a row or a column, and what is said of it. What is pale is not enforced."""

    name: str
    note: str
    is_pale: bool = False


@dataclass(frozen=True)
class Mark:
    """A sign, its colour as a class of the page's style, and what it means."""

    sign: str
    style: str
    meaning: str


@dataclass
class Sheet:
    """What a page shows: its marks by the words of cells, and the cells of each row."""

    title: str
    notes: list[str]
    marks: dict[str, Mark]
    rows: list[Heading]
    columns: list[Heading]
    cells: list[list[tuple[str, str]]]


def sheet_values(sheet: Sheet) -> dict:
    """The sheet as values of JSON. Each text is there once, and cells have the places of their marks and texts."""
    words = {it: place for place, it in enumerate(sheet.marks)}
    texts: dict[str, int] = {}
    cells = [[[words[word], texts.setdefault(text, len(texts))] for word, text in row] for row in sheet.cells]
    headings = [[[it.name, it.note, it.is_pale] for it in one] for one in (sheet.rows, sheet.columns)]
    marks = [[it.sign, it.style, it.meaning] for it in sheet.marks.values()]
    return {"title": sheet.title, "notes": sheet.notes, "marks": marks, "rows": headings[0], "columns": headings[1], "texts": list(texts), "cells": cells}


def page(sheet: Sheet) -> str:
    """The page."""
    data = json.dumps(sheet_values(sheet), separators=(",", ":")).replace("<", "\\u003c")
    return PAGE.read_text(encoding="utf-8").replace(PLACE, data)
