"""What a feed lacks of the kinds on which an answer rests.

A feed that says nothing of a kind is not one in which there is nothing of it: the kind may never have been recorded, or its list may
have been refused. Such an answer says so on its first line, and by its status.
"""

from dataclasses import dataclass
from typing import Any, Iterable

from mesh_front.faults import Status
from mesh_front.feed import Feed, Key, kind_of_line, object_of_line
from mesh_front.kinds import Kind

SHOWN = 3  # refused lines that are named one by one


@dataclass(frozen=True)
class Gaps:
    """The kinds of which a feed has neither a list nor an event, and the refused lines that may be of these kinds."""

    missing: list[str]
    refused: list[str]

    def __bool__(self) -> bool:
        return bool(self.missing or self.refused)

    def sentence(self) -> str:
        """What is missing."""
        parts = []
        if self.missing:
            parts.append(f"the feed has neither a list nor an event of {', '.join(self.missing)}")
        if self.refused:
            more = len(self.refused) - SHOWN
            lines = ", ".join(self.refused[:SHOWN]) + (f" and {more} more" if more > 0 else "")
            parts.append(f"refused: {lines}")
        return "; ".join(parts)

    def lines(self) -> list[str]:
        """The first line of an answer, where something is missing."""
        return [f"incomplete: {self.sentence()}"] if self else []

    def status(self, status: Status) -> Status:
        """The status of an answer that without gaps has this one. The status of refused lines is told elsewhere."""
        return Status.INCOMPLETE if self.missing else status


def is_replaced(number: int, key: Key | None, kind: Kind, lists: dict[Kind, int], events: dict[Key, int]) -> bool:
    """Whether a later line that is accepted says what a refused one did not."""
    return lists.get(kind, 0) > number or (key is not None and events.get(key, 0) > number)


def gaps_of(feed: Feed, refusals: dict[int, str], kinds: Iterable[Kind]) -> Gaps:
    """What a feed lacks of some kinds, of which these lines are refused."""
    lists: dict[Kind, int] = {}
    events: dict[Key, int] = {}
    seen: set[Kind] = set()
    for number, value in enumerate(feed.values, 1):
        kind = kind_of_line(value)
        if kind is None or number in refusals:
            continue
        seen.add(kind)
        key = object_of_line(value)
        if key is None:
            lists[kind] = number
        else:
            events[key] = number
    wanted = list(kinds)
    refused = []
    for number, why in refusals.items():
        value = feed.values[number - 1]
        kind = kind_of_line(value)
        if kind is None and not is_of_another_kind(value, why):
            refused.append(f"line {number} (of an unknown kind)")
        elif kind in wanted and not is_replaced(number, object_of_line(value), kind, lists, events):
            refused.append(f"line {number} ({object_of_line(value) or f'the list of {kind.title}'})")
    return Gaps([kind.title for kind in wanted if kind not in seen], refused)


def is_of_another_kind(value: Any, why: str) -> bool:
    """Whether a refused line is of a kind that no answer rests on. A `List` may have items of any kind."""
    return why.startswith("UnknownKind") and isinstance(value, dict) and value.get("kind") != "List"
