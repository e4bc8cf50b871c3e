"""Links to a server: a path line, and then the lines of a feed or the frame of a request."""

import re
import socket
from dataclasses import dataclass

from mesh_front.faults import Fault, Status
from mesh_front.names import port_number

FEED = "/feed"
PATHS = {
    "Get": "/io.linkerd.proxy.destination.Destination/Get",
    "GetProfile": "/io.linkerd.proxy.destination.Destination/GetProfile",
    "WatchPort": "/io.linkerd.proxy.inbound.InboundServerPolicies/WatchPort",
    "WatchPort2": "/io.linkerd.proxy.inbound.InboundServerPolicies/WatchPort2",
    "Watch": "/io.linkerd.proxy.outbound.OutboundPolicies/Watch",
}
CONNECT_SECONDS = 10
BLOCK = 65_536


@dataclass(frozen=True)
class ServerAddress:
    """The address of a server, `HOST:PORT`, with an IPv6 address in brackets."""

    host: str
    port: int

    def __str__(self) -> str:
        return f"[{self.host}]:{self.port}" if ":" in self.host else f"{self.host}:{self.port}"


def server_address(word: str) -> ServerAddress:
    """The address of a word `HOST:PORT`; a ValueError where it is none."""
    match = re.fullmatch(r"(?:\[([0-9a-fA-F:.]+)\]|([^\s:\[\]/]+)):(\d+)", word)
    if not match:
        raise ValueError
    return ServerAddress(match[1] or match[2], port_number(match[3]))


class Link:
    """A link to a server that has sent its path. A close by the server is an end of what is received."""

    def __init__(self, address: ServerAddress, path: str):
        self.address = address
        try:
            self.socket = socket.create_connection((address.host, address.port), CONNECT_SECONDS)
        except OSError as error:
            raise Fault(Status.NO_SERVER, f"no server at {address}: {error.strerror or error}") from error
        self.socket.settimeout(None)
        self.send(path.encode() + b"\n")

    def send(self, data: bytes) -> bool:
        """Sends bytes, and answers whether the link still took them."""
        try:
            self.socket.sendall(data)
        except OSError:
            return False
        return True

    def end(self) -> None:
        """Says that nothing more is sent."""
        try:
            self.socket.shutdown(socket.SHUT_WR)
        except OSError:
            pass  # The server has closed the link, which the next read tells.

    def cut(self) -> None:
        """Ends the link in both directions, so that a thread that receives from it ends too."""
        try:
            self.socket.shutdown(socket.SHUT_RDWR)
        except OSError:
            pass  # The server has closed the link already.

    def receive(self) -> bytes:
        """The next bytes, none where the server has closed the link; a TimeoutError where `limit` has passed."""
        try:
            return self.socket.recv(BLOCK)
        except TimeoutError:
            raise
        except OSError:
            return b""

    def limit(self, seconds: float | None) -> None:
        """Limits how long the next reads wait."""
        self.socket.settimeout(seconds)
