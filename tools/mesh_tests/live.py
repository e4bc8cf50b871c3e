"""A case with a server of the program. Skipped with a program that has no server."""

import signal
import socket
import subprocess
import time

from mesh_tests.support import Case, Run, program

SECONDS = 60


def free_address() -> str:
    """An address of the loopback interface at which nobody listens."""
    with socket.create_server(("127.0.0.1", 0)) as listener:
        return f"127.0.0.1:{listener.getsockname()[1]}"


def diagnosis(feed: bytes, *words: str) -> str:
    """The frames of a view of the objects in a feed, as lines."""
    run = subprocess.run([program(), "diagnose", "--id", "1", *words], input=feed, capture_output=True)
    return run.stdout.decode().replace("view 1 ", "frame 1 ")


class ServerCase(Case):
    """A server from its start to its stop."""

    def setUp(self):
        super().setUp()
        self.address = free_address()
        self.server = self.start(self.address)

    def start(self, address: str) -> subprocess.Popen:
        """A server that listens at an address."""
        server = subprocess.Popen([program(), "serve", "--bind", address], stdin=subprocess.DEVNULL, stderr=subprocess.PIPE)
        self.addCleanup(self.end, server)
        end = time.monotonic() + SECONDS
        while server.poll() is None and time.monotonic() < end and not self.listens(address):
            time.sleep(0.02)
        if server.poll() == 2:
            self.skipTest("the program has no server")
        return server

    def listens(self, address: str) -> bool:
        """Whether somebody listens there."""
        host, port = address.split(":")
        try:
            socket.create_connection((host, int(port)), 1).close()
        except OSError:
            return False
        return True

    def end(self, server: subprocess.Popen) -> None:
        """Ends a server that this test started."""
        if server.poll() is None:
            server.send_signal(signal.SIGKILL)
        server.wait(SECONDS)
        server.stderr.close()

    def feed(self, data: bytes, *words) -> Run:
        """Sends lines."""
        return self.run_tool("feed", self.address, "--from", self.file("feed.jsonl", data), *words)

    def view(self, method: str, target: str, count: int = 1) -> Run:
        """The messages that a new subscriber gets, as lines."""
        return self.run_tool("subscribe", self.address, method, target, "--lines", "--count", count, "--seconds", SECONDS)
