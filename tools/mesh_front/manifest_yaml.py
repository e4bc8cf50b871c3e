"""The values of manifests in YAML, by PyYAML.

Words that YAML 1.1 and 1.2 read differently are marked, and so are anchors, aliases and tags, so that nothing is read as something
else than `kubectl` reads. A mark is refused where it is part of an object that is read.
"""

import re
from dataclasses import dataclass
from typing import Any, Iterator

from mesh_front.faults import Fault, Status
from mesh_front.packages import INSTALL

UNCLEAR = re.compile(
    r"(?i)y|yes|n|no|on|off|<<|="  # words that are true or false in YAML 1.1, and marks of it
    r"|[-+]?0[0-9_o]+|[-+]?0[xb][0-9a-f_]+"  # octal, hexadecimal and binary numbers
    r"|[-+]?[0-9.][0-9_.]*_[0-9_.]*|[-+]?[0-9]+(:[0-9]+)+"  # numbers with underscores, and to the base 60
    r"|[-+]?\.(inf|nan)|[-+]?[0-9]*\.0*|[-+]?[0-9]*\.?[0-9]*e[-+]?[0-9]+"  # numbers that JSON writes in another way
)
WORDS: dict[str, bool | None] = {"": None, "~": None, "null": None, "Null": None, "NULL": None}
WORDS |= {"true": True, "True": True, "TRUE": True, "false": False, "False": False, "FALSE": False}


class Unreadable(Exception):
    """A line that is not read, and why."""

    def __init__(self, line: int, why: str):
        super().__init__(f"line {line}: {why}")


@dataclass(frozen=True)
class Unclear:
    """A value that is not read, and why."""

    line: int
    why: str


class Reader:
    """The events of PyYAML, from the first to the last."""

    def __init__(self, events: Iterator[Any]):
        self.events = events

    def next(self) -> tuple[str, Any, int]:
        """The name of the next event without its ending, the event, and its line."""
        event = next(self.events)
        return type(event).__name__.removesuffix("Event"), event, event.start_mark.line + 1

    def documents(self) -> list[Any]:
        """The values of all documents, without the empty ones."""
        values: list[Any] = []
        while True:
            name, _, _ = self.next()
            if name == "StreamEnd":
                return [it for it in values if it is not None]
            if name == "DocumentStart":
                values.append(self.value(*self.next()))

    def value(self, name: str, event: Any, line: int) -> Any:
        """The value that begins with this event."""
        if name == "Alias":
            return Unclear(line, f"the alias *{event.anchor} is not read here")
        if name == "Scalar":
            value = scalar(event, line)
        elif name == "SequenceStart":
            value = self.items()
        else:
            value = self.members()
        tag = event.tag if event.tag not in (None, "!") else None
        return Unclear(line, f"the {f'tag {tag}' if tag else f'anchor &{event.anchor}'} is not read here") if tag or event.anchor else value

    def items(self) -> list[Any]:
        """The items of a list, up to its end."""
        values = []
        while (row := self.next())[0] != "SequenceEnd":
            values.append(self.value(*row))
        return values

    def members(self) -> dict[str, Any]:
        """The members of a mapping, up to its end."""
        values: dict[str, Any] = {}
        while (row := self.next())[0] != "MappingEnd":
            key, line = self.value(*row), row[2]
            value = self.value(*self.next())
            if isinstance(key, str) and key not in values:
                values[key] = value
            else:
                why = key.why if isinstance(key, Unclear) else f"the key {key} is not a string, or comes a second time"
                values[str(key)] = Unclear(line, why)
        return values


def scalar(event: Any, line: int) -> Any:
    """The value of a string, a number or a word."""
    text = event.value
    if event.style is not None:
        return text
    if text in WORDS:
        return WORDS[text]
    if UNCLEAR.fullmatch(text):
        return Unclear(line, f"{text} is not read here; put it into quotes if it is a string")
    if re.fullmatch(r"[-+]?[0-9]+", text):
        return int(text)
    return float(text) if re.fullmatch(r"[-+]?([0-9]+\.[0-9]*|\.[0-9]+)", text) else text


def values_of(text: str) -> list[Any]:
    """The values of the documents of a file, without the empty ones, in which what is unclear is marked."""
    try:
        import yaml  # type: ignore[import]
    except ImportError as error:
        raise Fault(Status.NO_TOOL, f"there is no PyYAML, which reads YAML: {INSTALL}") from error
    try:
        return Reader(yaml.parse(text, Loader=yaml.SafeLoader)).documents()
    except yaml.MarkedYAMLError as error:
        mark = error.problem_mark or error.context_mark
        raise Unreadable(mark.line + 1 if mark else 1, error.problem or error.context or "it is no YAML") from error
    except yaml.YAMLError as error:
        raise Unreadable(1, str(error).splitlines()[0]) from error


def require_clear(value: Any) -> None:
    """Refuses a value of which a part is marked."""
    if isinstance(value, Unclear):
        raise Unreadable(value.line, value.why)
    if isinstance(value, dict):
        for it in value.values():
            require_clear(it)
    elif isinstance(value, list):
        for it in value:
            require_clear(it)


def documents(text: str) -> list[Any]:
    """The values of the documents of a file, without the empty ones; what is unclear is refused."""
    values = values_of(text)
    require_clear(values)
    return values
