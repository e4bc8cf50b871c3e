"""A server on the loopback interface that does with each link what a test says. It waits for nothing longer than a minute."""

import socket
import struct
import threading
from typing import Callable

SECONDS = 60


class FakeServer:
    """Accepts one link for each of the handlers, one after another. A handler reads and writes the link; then it is closed."""

    def __init__(self, *handlers: Callable[[socket.socket], None]):
        self.listener = socket.create_server(("127.0.0.1", 0))
        self.listener.settimeout(SECONDS)
        self.address = f"127.0.0.1:{self.listener.getsockname()[1]}"
        self.handlers, self.failures = handlers, []
        self.thread = threading.Thread(target=self.run, daemon=True)

    def __enter__(self) -> "FakeServer":
        self.thread.start()
        return self

    def __exit__(self, *_) -> None:
        self.thread.join(2 * SECONDS)
        self.listener.close()
        assert not self.failures, self.failures

    def run(self) -> None:
        """Accepts the links."""
        try:
            for handler in self.handlers:
                link, _ = self.listener.accept()
                link.settimeout(SECONDS)
                with link:
                    handler(link)
        except Exception as error:  # told by the thread of the test
            self.failures.append(error)


class Feed:
    """A handler of a feed link: answers each line with `ok`, or as the test says (not at all for the empty string), and closes the link
    after so many lines, if there are as many."""

    def __init__(self, answers: dict[int, str] | None = None, most: int | None = None):
        self.answers, self.most = answers or {}, most
        self.path, self.lines = b"", []

    def __call__(self, link: socket.socket) -> None:
        with link.makefile("rb") as source:
            self.path = source.readline()
            while len(self.lines) != self.most and (line := source.readline()):
                self.lines.append(line)
                number = len(self.lines)
                answer = self.answers.get(number, f"ok {number}")
                if line.strip() and answer:
                    link.sendall(f"{answer}\n".encode())


class Method:
    """A handler of a link that asks: keeps the path and the request, sends pieces, and then closes the link once it is told so."""

    def __init__(self, *pieces: bytes, stays: float = 0):
        self.pieces, self.stays = pieces, stays
        self.path, self.request, self.is_left = b"", b"", threading.Event()

    def __call__(self, link: socket.socket) -> None:
        with link.makefile("rb") as source:
            self.path = source.readline()
            head = source.read(5)
            [size] = struct.unpack(">I", head[1:])
            self.request = head + source.read(size)
            for piece in self.pieces:
                link.sendall(piece)
            self.is_left.wait(self.stays)
