"""`tools/feed --from`: the lines of a recording."""

import pathlib
import threading
from typing import BinaryIO, Iterable, Iterator

from mesh_front.faults import Fault, Status
from mesh_front.feed import Key, is_control, json_of
from mesh_front.feeding import FeedLink, Line, Lines, say, send_until_closed
from mesh_front.filling import Holding, ListLine, fill
from mesh_front.kinds import Kind, kind_of
from mesh_front.links import ServerAddress

LEFT_OUT = ("subscribe", "cancel", "drain")


def recorded_line(number: int, data: bytes) -> Line:
    """A line of a recording. A control line that a feed link does not have is a blank line here, so that others keep their numbers."""
    data = data.removesuffix(b"\n")
    value = json_of(data) if b'"control"' in data else None
    word = value["control"] if is_control(value) else None
    return Line(f"line {number}", b"" if word in LEFT_OUT else data, word == "stop", number)


def recorded_list(number: int, data: bytes) -> ListLine | None:
    """A list of a recording; None where the line is none of a kind that is known."""
    value = json_of(data) if b'List"' in data else None
    if not isinstance(value, dict) or value.get("control") is not None or value.get("type") is not None:
        return None
    name = value.get("kind")
    kind = kind_of(name.removesuffix("List"), value.get("apiVersion")) if isinstance(name, str) and name.endswith("List") else None
    return ListLine(kind, value, f"line {number}", number, data.removesuffix(b"\n")) if kind else None


def first_lists(numbered: Iterator[tuple[int, bytes]]) -> tuple[list[ListLine], Iterable[tuple[int, bytes]]]:
    """The lists of different kinds with which a recording begins, and the lines after them."""
    lists: dict[Kind, ListLine] = {}
    for number, data in numbered:
        listing = recorded_list(number, data)
        if listing is None or listing.kind in lists:
            return list(lists.values()), chain_of((number, data), numbered)
        lists[listing.kind] = listing
    return list(lists.values()), ()


def chain_of(first: tuple[int, bytes], others: Iterable[tuple[int, bytes]]) -> Iterator[tuple[int, bytes]]:
    """A line and those after it."""
    yield first
    yield from others


def read_recording(source: BinaryIO, lines: Lines, is_stream: bool, skipped: frozenset[Key]) -> None:
    """Puts the lines of a recording. The lists with which a file begins are put in the order of a fill."""
    left_out_lines = 0
    with source:
        numbered: Iterable[tuple[int, bytes]] = enumerate(source, 1)
        if not is_stream:
            lists, numbered = first_lists(iter(numbered))
            fill({it.kind: Holding(it.kind, lines, True) for it in lists}, lists, skipped)
        for number, data in numbered:
            line = recorded_line(number, data)
            left_out_lines += not line.data and bool(data.strip())
            lines.put(line)
    if left_out_lines:
        lines_of_control = "1 line" if left_out_lines == 1 else f"{left_out_lines} lines"
        say(f"left out {lines_of_control} of control ({', '.join(LEFT_OUT)}), which a feed link does not have")
    lines.put(None)


def send_recording(address: ServerAddress, path: pathlib.Path, skipped: frozenset[Key]) -> Status:
    """Sends a recording, and answers how it ended."""
    is_stream = str(path) == "-"
    try:
        source: BinaryIO = open(0, "rb", closefd=False) if is_stream else path.open("rb")
    except OSError as error:
        raise Fault(Status.USAGE, f"cannot read {path}: {error.strerror}") from error
    link, lines = FeedLink(address), Lines()
    answers = threading.Thread(target=link.read_answers, daemon=True)
    answers.start()
    lines.put_by(lambda: read_recording(source, lines, is_stream, skipped))
    send_until_closed(link, lines)
    link.link.end()
    answers.join()
    link.raise_failure()
    return link.status()
