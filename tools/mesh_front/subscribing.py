"""`tools/subscribe`: a request to a server, and the messages with which it answers."""

import ipaddress
import re
import sys
import time
from typing import Callable, Iterator

from mesh_front.faults import Fault, Status
from mesh_front.links import PATHS, Link, ServerAddress
from mesh_front.messages import decode_each, protoc, shown_rows
from mesh_front.names import pod_port, port_number, service_name
from mesh_front.program import PORT_METHODS, Query

MEANINGS = {
    Status.DONE: "as many messages have come, or as many seconds have passed, as the words say",
    Status.USAGE: "wrong words",
    Status.NO_TOOL: "protoc is not there",
    Status.TOOL_FAILED: "protoc failed, or the server sent what is no message of the method",
    Status.NO_SERVER: "no server can be reached at the address",
    Status.CLOSED: "the server closed the link",
}
REQUESTS = {"Get": "GetDestination", "GetProfile": "GetDestination", "WatchPort": "PortSpec", "WatchPort2": "PortSpec", "Watch": "TrafficSpec"}
FORMS = {
    "Get": "SERVICE[.NS][:PORT]",
    "GetProfile": "SERVICE[.NS][:PORT] or IP[:PORT]",
    "WatchPort": "NS/POD:PORT",
    "WatchPort2": "NS/POD:PORT",
    "Watch": "SERVICE[.NS][:PORT] or IP[:PORT]",
}
USUAL_PORT = 80
MESSAGE_BYTES = 4_194_304


def frame(message: bytes) -> bytes:
    """The frame of a message."""
    return b"\0" + len(message).to_bytes(4, "big") + message


def address_path(word: str) -> str | None:
    """The path of an address `IP[:PORT]`, with an IPv6 address in brackets if a port follows; None where it is none."""
    match = re.fullmatch(r"(?:\[([^\]]+)\]|([0-9.]+))(?::(\d+))?", word)
    try:
        ip = ipaddress.ip_address((match[1] or match[2]) if match else word)
    except ValueError:
        return None
    port = port_number(match[3]) if match and match[3] else USUAL_PORT
    return f"[{ip}]:{port}" if ip.version == 6 else f"{ip}:{port}"


def path_of(method: str, target: str, domain: str) -> str:
    """The path of a target of Get, GetProfile or Watch; a ValueError where it is none."""
    path = None if method == "Get" else address_path(target)
    if path is not None:
        return path
    service = service_name(target)
    return Query(method, f"{service.name}.{service.namespace}", service.port or USUAL_PORT).members(domain)["path"]


def quoted(value: str) -> str:
    """A string as protoc reads it."""
    return '"' + "".join(chr(it) if 32 < it < 127 and it not in b'"\\' else f"\\{it:03o}" for it in value.encode()) + '"'


def request_text(method: str, target: str, domain: str, token: str) -> str:
    """The request in protoc's text."""
    if method in PORT_METHODS:
        place = pod_port(target)
        return f"workload: {quoted(f'{place.pod.namespace}:{place.pod.name}')} port: {place.port}"
    path = quoted(path_of(method, target, domain))
    if method == "Watch":
        return f"authority: {path}"
    return f"path: {path}" + (f" context_token: {quoted(token)}" if token else "")


def request(method: str, target: str, domain: str, token: str) -> bytes:
    """The frame of a request, which protoc encodes; a Fault where the target is none of the method."""
    try:
        text = request_text(method, target, domain, token)
    except ValueError as error:
        raise Fault(Status.USAGE, f"{target!r} is not {FORMS[method]}, as {method} takes it") from error
    return frame(protoc("encode", REQUESTS[method], text.encode()) or b"")


class Messages:
    """The messages of a link, as they come."""

    def __init__(self, link: Link, seconds: float | None):
        self.link, self.count = link, 0
        self.deadline = None if seconds is None else time.monotonic() + seconds

    def receive(self) -> bytes | None:
        """The next bytes, or None where the time is over; a Fault where the server has closed the link."""
        left = None if self.deadline is None else self.deadline - time.monotonic()
        if left is not None and left <= 0:
            return None
        self.link.limit(left)
        try:
            data = self.link.receive()
        except TimeoutError:
            return None
        if data:
            return data
        after = f"after {self.count} message{'' if self.count == 1 else 's'}" if self.count else "and sent no message"
        raise Fault(Status.CLOSED, f"{self.link.address} closed the link {after}")

    def each(self) -> Iterator[bytes]:
        """The messages until the time is over."""
        data = b""
        while (piece := self.receive()) is not None:
            data += piece
            while (message := whole_message(data)) is not None:
                self.count += 1
                data = data[len(message) + 5 :]
                yield message


def whole_message(data: bytes) -> bytes | None:
    """The message of the frame at the beginning of the bytes, or None where it is not whole; a Fault where it is no frame."""
    size = int.from_bytes(data[1:5], "big")
    if data[:1] not in (b"", b"\0") or len(data) >= 5 and size > MESSAGE_BYTES:
        raise Fault(Status.TOOL_FAILED, f"the server sent what is no frame: {data[:16].hex()}")
    return data[5 : 5 + size] if len(data) >= 5 + size else None


def show(method: str, number: int, message: bytes) -> None:
    """Prints a message as `tools/decode` does."""
    [rows] = decode_each(method, [message])
    if rows is None:
        raise Fault(Status.TOOL_FAILED, f"the message {number} is none that answers {method}: {message[:40].hex()}")
    print("\n".join([f"message {number}", *shown_rows(rows)]))


def show_line(method: str, number: int, message: bytes) -> None:
    """Prints a message as `replay` writes it for the id 1."""
    print(f"frame 1 {frame(message).hex()}")


def run(address: ServerAddress, method: str, asked: bytes, most: int | None, seconds: float | None, shows: Callable) -> Status:
    """Subscribes, and prints the messages as they come."""
    link = Link(address, PATHS[method])
    link.send(asked)
    messages = Messages(link, seconds)
    for message in messages.each():
        shows(method, messages.count, message)
        sys.stdout.flush()
        if messages.count == most:
            break
    return Status.DONE
