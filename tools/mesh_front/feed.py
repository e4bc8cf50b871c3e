"""A feed, and the names of the objects that it holds.

Objects are looked at for what people read (names, ports, addresses), and to know which questions there are to ask. What
follows from them is the program's to say.
"""

import json
import pathlib
import sys
from dataclasses import dataclass
from typing import Any, Iterable

from mesh_front.faults import Fault, Status
from mesh_front.kinds import SERVER, Kind, kind_of


@dataclass(frozen=True)
class Key:
    """What names an object."""

    kind: Kind
    namespace: str
    name: str

    def __str__(self) -> str:
        return f"{self.kind.title} {self.namespace}/{self.name}"


def json_of(line: bytes) -> Any:
    """The JSON value of a line, or None where it is none."""
    try:
        return json.loads(line)
    except (ValueError, RecursionError):
        return None


def is_control(value: Any) -> bool:
    """Whether the value of a line is that of a control line."""
    return isinstance(value, dict) and value.get("control") is not None


def members(value: Any, *path: str) -> dict:
    """The object at the end of a path of members, the empty one where something else is there."""
    for name in path:
        value = value.get(name) if isinstance(value, dict) else None
    return value if isinstance(value, dict) else {}


def items(value: Any, *path: str) -> list[dict]:
    """The objects in the list at the end of a path of members."""
    result = members(value, *path[:-1]).get(path[-1])
    return [it for it in result if isinstance(it, dict)] if isinstance(result, list) else []


def key_of(value: dict) -> Key | None:
    """The key of an object, or None where it has none."""
    kind, metadata = kind_of(value.get("kind"), value.get("apiVersion")), members(value, "metadata")
    name, namespace = metadata.get("name"), metadata.get("namespace") or "default"
    return Key(kind, namespace, name) if kind and isinstance(name, str) and isinstance(namespace, str) else None


def kind_of_line(value: Any) -> Kind | None:
    """The kind of the list or the event that the value of a line is, None of a BOOKMARK and of what is neither."""
    if not isinstance(value, dict):
        return None
    if value.get("type") is not None:
        one = members(value, "object")
        return kind_of(one.get("kind"), one.get("apiVersion")) if value["type"] in ("ADDED", "MODIFIED", "DELETED") else None
    name = value.get("kind")
    return kind_of(name.removesuffix("List"), value.get("apiVersion")) if isinstance(name, str) and name.endswith("List") else None


def object_of_line(value: Any) -> Key | None:
    """The key of the object of an event; None of a list, and where it has none."""
    return key_of(members(value, "object")) if isinstance(value, dict) and value.get("type") is not None else None


def apply_list(objects: dict[Key, dict], value: dict) -> None:
    """Holds the items of a list in place of all objects of its kind."""
    kind = kind_of(value["kind"].removesuffix("List"), value.get("apiVersion"))
    if kind is None:
        return
    for key in [key for key in objects if key.kind == kind]:
        del objects[key]
    for item in items(value, "items"):
        item_value = {**item, "kind": kind.name, "apiVersion": value.get("apiVersion") or kind.api_version}
        item_key = key_of(item_value)
        if item_key:
            objects[item_key] = item_value


def apply(objects: dict[Key, dict], value: Any) -> None:
    """Does to the held objects what the line with this value does."""
    if not isinstance(value, dict):
        return
    if value.get("type") is not None:
        key = key_of(members(value, "object"))
        if key and value["type"] in ("ADDED", "MODIFIED"):
            objects[key] = value["object"]
        elif key and value["type"] == "DELETED":
            objects.pop(key, None)
    elif isinstance(value.get("kind"), str) and value["kind"].endswith("List"):
        apply_list(objects, value)


class Objects:
    """The objects that a feed holds at its end."""

    def __init__(self, by_key: dict[Key, dict]):
        self.by_key = by_key
        self.keys: dict[Kind, list[Key]] = {}
        for key in sorted(by_key, key=lambda it: (it.namespace, it.name)):
            self.keys.setdefault(key.kind, []).append(key)

    def of(self, kind: Kind, namespace: str | None = None) -> list[Key]:
        """The keys of a kind, in order, of one namespace or of all."""
        return [key for key in self.keys.get(kind, []) if namespace in (None, key.namespace)]

    def get(self, kind: Kind, namespace: str, name: str) -> dict | None:
        """An object, or None where it is not held."""
        return self.by_key.get(Key(kind, namespace, name))

    def spec(self, key: Key) -> dict:
        """The `spec` of an object."""
        return members(self.by_key[key], "spec")

    def free_name(self, namespace: str) -> str:
        """A name that no object of the namespace has."""
        names = {key.name for key in self.by_key if key.namespace == namespace}
        return next(name for name in (f"mesh-question-{number}" for number in range(len(names) + 1)) if name not in names)

    def service_ports(self, key: Key) -> list[int]:
        """The port numbers of a Service, in its order, each once."""
        return list(dict.fromkeys(it["port"] for it in items(self.spec(key), "ports") if isinstance(it.get("port"), int)))

    def pod_ports(self, key: Key) -> list[int]:
        """The ports of a Pod that its containers name or that a Server of its namespace has as a number."""
        container_ports = [port.get("containerPort") for it in items(self.spec(key), "containers") for port in items(it, "ports")]
        numbers = [self.spec(server).get("port") for server in self.of(SERVER, key.namespace)]
        return sorted({port for port in container_ports + numbers if isinstance(port, int) and 0 < port < 65536})


class Feed:
    """The lines of a feed. Lines of control are empty lines here, so that the others keep their numbers."""

    def __init__(self, data: bytes):
        self.lines = data.removesuffix(b"\n").split(b"\n") if data else []
        self.ends_with_line_feed = data.endswith(b"\n")
        self.values = [json_of(line) for line in self.lines]
        for place, value in enumerate(self.values):
            if is_control(value):
                self.lines[place], self.values[place] = b"", None

    def objects(self, refusals: Iterable[int] = ()) -> Objects:
        """What is held at the end if the lines with these numbers, counted from 1, are refused."""
        objects: dict[Key, dict] = {}
        for number, value in enumerate(self.values, 1):
            if number not in refusals:
                apply(objects, value)
        return Objects(objects)


def read_bytes(path: pathlib.Path) -> bytes:
    """The bytes of a file that the words name; `-` is standard input."""
    if str(path) == "-" and sys.stdin.isatty():
        print("mesh: waiting for a feed on standard input, up to Ctrl-D; --feed FILE reads a file", file=sys.stderr)
    try:
        return sys.stdin.buffer.read() if str(path) == "-" else path.read_bytes()
    except OSError as error:
        raise Fault(Status.USAGE, f"cannot read {path}: {error.strerror}") from error
