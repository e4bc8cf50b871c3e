"""The process of a server: it is started, started again where it ends, and ended."""

import logging
import subprocess
import threading
import time
from typing import IO, Any

from mesh_front.faults import Fault, Status
from mesh_front.health import Health
from mesh_front.waiting import Backoff

LOG = logging.getLogger("server")
WRONG_WORDS, NO_PROGRAM = 2, 70  # statuses with which a further start is no use
LISTENING = "listening on "
END_SECONDS = 10


def how_ended(status: int) -> str:
    """How a process ended."""
    return f"by signal {-status}" if status < 0 else f"with status {status}"


class Supervisor:
    """The server, and whether it listens, ended for good, or is to end."""

    def __init__(self, command: list[str], health: Health):
        self.command, self.health = command, health
        self.is_listening, self.is_stopping = threading.Event(), threading.Event()
        self.fault: Fault | None = None
        self.lock = threading.Lock()
        self.process: subprocess.Popen[bytes] | None = None
        self.thread = threading.Thread(target=self.run, daemon=True)

    def run(self) -> None:
        """Starts the server until it is to end, with a pause that grows while it ends soon."""
        backoff = Backoff()
        while not self.is_stopping.is_set() and self.fault is None:
            began = time.monotonic()
            status = self.run_once()
            if self.is_stopping.is_set():
                return
            backoff.take(time.monotonic() - began)
            if status in (WRONG_WORDS, NO_PROGRAM):
                self.fault = Fault(Status.TOOL_FAILED, f"the server cannot be run: it ended {how_ended(status)}")
                return
            seconds = backoff.seconds()
            LOG.error("the server ended %s; starting it again in %d s", how_ended(status), seconds)
            self.is_stopping.wait(seconds)

    def run_once(self) -> int:
        """Runs the server until it ends, and answers its status."""
        self.health.begin_server()
        try:
            with self.lock:
                if self.is_stopping.is_set():
                    return 0
                pipes: dict[str, Any] = {"stdin": subprocess.DEVNULL, "stdout": subprocess.DEVNULL, "stderr": subprocess.PIPE}
                # In a session of its own, so that Ctrl-C ends the controller, which then ends the server.
                self.process = process = subprocess.Popen(self.command, **pipes, start_new_session=True)
                self.health.process = process.pid
        except OSError as error:
            LOG.error("cannot run %s: %s", self.command[0], error.strerror)
            return NO_PROGRAM
        if process.stderr is not None:
            self.read_lines(process.stderr)
        status = process.wait()
        self.is_listening.clear()
        self.health.set_up(False)
        return status

    def read_lines(self, source: IO[bytes]) -> None:
        """Logs what the server says, up to its end."""
        with source:
            for data in source:
                line = data.decode(errors="replace").strip().removeprefix("linkerd_cli: ")
                LOG.log(logging.WARNING if "NOT PROVED" in line else logging.INFO, "%s", line)
                if line.startswith(LISTENING):
                    self.health.set_up(True)
                    self.is_listening.set()

    def restart(self, process: "subprocess.Popen[bytes] | None") -> None:
        """Ends the server, so that it is started again, empty; nothing where another one has been started since."""
        with self.lock:
            if process is not None and self.process is process and process.poll() is None:
                self.is_listening.clear()
                self.process.terminate()

    def stop(self) -> None:
        """Ends the server for good."""
        self.is_stopping.set()
        with self.lock:
            process = self.process
        if process is None or process.poll() is not None:
            return
        process.terminate()
        try:
            process.wait(END_SECONDS)
        except subprocess.TimeoutExpired:
            process.kill()
            process.wait()
