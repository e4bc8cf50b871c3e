"""Frames and the messages in them, as Google's `protoc` decodes them by docs/proxy.proto.

`protoc` accepts bytes that are no message of the program: it keeps unknown fields, and lets the last of two values count.
Here a message is decoded only if `protoc` knows each field, encodes what it decoded to the same bytes, and all parts are
there that the messages of the method always have.
"""

import ipaddress
import pathlib
import re
import shutil
import subprocess
from dataclasses import dataclass, field
from typing import Any

from mesh_front.faults import Fault, Status
from mesh_front.packages import INSTALL

ROOT = pathlib.Path(__file__).resolve().parent.parent.parent
METHODS = {"Get": "Update", "GetProfile": "DestinationProfile", "WatchPort": "Server", "WatchPort2": "ServerUpdate", "Watch": "OutboundPolicy"}
PROTOC = ["protoc", f"--proto_path={ROOT / 'docs'}", f"--proto_path={pathlib.Path(__file__).parent}"]
MODES = {"decode": ["--decode"], "encode": ["--deterministic_output", "--encode"]}
ESCAPES = {b"n": b"\n", b"r": b"\r", b"t": b"\t"}


def require_protoc() -> None:
    """Raises a Fault where there is no `protoc`."""
    if shutil.which("protoc") is None:
        raise Fault(Status.NO_TOOL, f"there is no protoc: {INSTALL}")


@dataclass
class Message:
    """The fields of a message, in order of their numbers, each as often as it is there."""

    fields: list = field(default_factory=list)

    def all(self, name: str) -> list:
        """The values of a field."""
        return [value for key, value in self.fields if key == name]

    def one(self, name: str, default: Any = None) -> Any:
        """The value of a field that is there once, or the default."""
        return next(iter(self.all(name)), default)

    def at(self, name: str) -> "Message":
        """The message in a field, the empty one where the field is absent."""
        return self.one(name, Message())

    def names(self) -> set[str]:
        """The names of the fields that are there."""
        return {name for name, _ in self.fields}


def message_in(digits: str) -> bytes | None:
    """The message of a frame in hex, or None where the digits are not one frame."""
    try:
        frame = bytes.fromhex(digits)
    except ValueError:
        return None
    if len(frame) < 5 or frame[0] != 0 or int.from_bytes(frame[1:5], "big") != len(frame) - 5:
        return None
    return frame[5:]


def scalar(text: str) -> str | int | bool:
    """The value that a scalar of protoc's text has: a string, a number, a bool, or the name of an enum's value."""
    if text.startswith('"'):
        parts = re.findall(rb"\\([0-7]{3}|.)|([^\\]+)", text[1:-1].encode())
        return b"".join(plain or byte_of_escape(code) for code, plain in parts).decode()
    if text in ("true", "false"):
        return text == "true"
    return int(text) if re.fullmatch(r"-?\d+", text) else text


def byte_of_escape(code: bytes) -> bytes:
    """The byte that an escape of protoc's text stands for."""
    return bytes([int(code, 8)]) if len(code) == 3 else ESCAPES.get(code, code)


def tree(rows: list[str]) -> Message:
    """The message that rows of protoc's text are of."""
    open_messages = [Message()]
    for row in map(str.strip, rows):
        if row == "}":
            open_messages.pop()
        elif row.endswith(" {") and ": " not in row:
            inner = Message()
            open_messages[-1].fields.append((row[:-2], inner))
            open_messages.append(inner)
        else:
            name, text = row.split(": ", 1)
            open_messages[-1].fields.append((name, scalar(text)))
    return open_messages[0]


def varint(number: int) -> bytes:
    """A number in seven bits a byte, the low ones first."""
    digits = []
    while number > 127:
        digits.append(number & 127 | 128)
        number >>= 7
    return bytes([*digits, number])


def protoc(mode: str, message: str, data: bytes) -> bytes | None:
    """What protoc makes of the bytes or the text of a message of this name, or None where it refuses them."""
    *options, word = MODES[mode]
    command = [*PROTOC, *options, f"{word}=holzhybat.proxy.{message}", "messages.proto"]
    run = subprocess.run(command, input=data, capture_output=True)
    if run.returncode == 0:
        return run.stdout
    if mode == "decode" and b"Failed to parse" in run.stderr:
        return None
    raise Fault(Status.TOOL_FAILED, f"protoc failed: {run.stderr.decode(errors='replace').strip()}")


def split(text: str) -> list[list[str]]:
    """The rows of each message in protoc's text of several, without their indentation."""
    result: list[list[str]] = []
    for row in text.splitlines():
        if row == "messages {":
            result.append([])
        elif row != "}":
            result[-1].append(row[2:])
    return result


def is_whole(method: str, message: Message) -> bool:
    """Whether a message has the parts that each message of its method has."""
    names = message.names()
    if method == "Get":
        return len(names) == 1 and all(message.at(name).all("addrs") for name in names & {"add", "remove"})
    if method == "GetProfile":
        return "fully_qualified_name" in names or not names & {"routes", "dst_overrides"}
    if method == "WatchPort":
        return not names or {"protocol", "policy"} <= names
    if method == "WatchPort2":
        lists = {"put": "rows", "gone": "keys"}
        return len(names) == 1 and all(message.at(name).all(lists[name]) if name in lists else is_whole("WatchPort", message.at(name)) for name in names)
    parts = {"service": {"namespace", "name"}, "forward": {"endpoint"}}
    return len(names) == 1 and all(parts.get(name, set()) <= message.at(name).names() for name in names)


def decode_together(method: str, messages: list[bytes]) -> list[list[str]] | None:
    """The rows of protoc's text of each message, or None where one of them is not a message of the method."""
    data = b"".join(b"\n" + varint(len(it)) + it for it in messages)
    name = f"{method}Messages"
    text = protoc("decode", name, data)
    if text is None or re.search(rb"(?m)^ *\d+(:| \{)", text) or protoc("encode", name, text) != data:
        return None
    rows = split(text.decode())
    return rows if all(is_whole(method, tree(it)) for it in rows) else None


def decode_each(method: str, messages: list[bytes]) -> list[list[str] | None]:
    """The rows of protoc's text of each message, None for one that is not a message of the method."""
    if not messages:
        return []
    rows = decode_together(method, messages)
    if rows is not None:
        return [*rows]
    if len(messages) == 1:
        return [None]
    half = len(messages) // 2
    return decode_each(method, messages[:half]) + decode_each(method, messages[half:])


def address(message: Message) -> str:
    """The usual notation of an IPAddress."""
    if "ipv4" in message.names():
        return str(ipaddress.IPv4Address(message.one("ipv4")))
    halves = message.at("ipv6")
    return str(ipaddress.IPv6Address(halves.one("first", 0) << 64 | halves.one("last", 0)))


def address_after(rows: list[str], place: int) -> str:
    """The comment behind a row of protoc's text in which an address begins, else nothing."""
    if re.fullmatch(r" *ipv4: \d+", rows[place]):
        return f"  # {address(tree(rows[place : place + 1]))}"
    if not re.fullmatch(r" *ipv6 \{", rows[place]):
        return ""
    end = next(it for it in range(place, len(rows)) if rows[it].strip() == "}")
    return f"  # {address(tree(rows[place : end + 1]))}"


def shown_rows(rows: list[str]) -> list[str]:
    """The rows of protoc's text as they are shown: indented, with the usual notation of each address behind it."""
    return [f"  {row}{address_after(rows, place)}" for place, row in enumerate(rows)]
