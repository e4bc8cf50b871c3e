"""`tools/feed`: lines that are sent to a server on a feed link, and its answers."""

import logging
import queue
import threading
from dataclasses import dataclass
from typing import Callable, Iterator

from mesh_front.faults import Fault, Status
from mesh_front.links import FEED, Link, ServerAddress
from mesh_front.observing import Observer
from mesh_front.refusals import told

MEANINGS = {
    Status.DONE: "the recording is sent, and the server accepted each line; or it stopped, as a line asked",
    Status.USAGE: "wrong words, or a file that they name cannot be read",
    Status.NO_TOOL: "kubectl is not there",
    Status.TOOL_FAILED: "kubectl failed",
    Status.REFUSED: "the recording is sent, and the server refused a line; or it refused a policy, and no Pod is sent",
    Status.NO_SERVER: "no server can be reached at the address",
    Status.CLOSED: "the server closed the link",
    Status.NO_LINKERD: "the cluster has none of Linkerd's kinds",
}
WAITING = 256  # lines that are read and not yet sent
LOG = logging.getLogger("feed")


class Outcome:
    """What the server answers to a line, for the thread that waits for it."""

    def __init__(self) -> None:
        self.is_known, self.fault = threading.Event(), ""

    def know(self, fault: str) -> None:
        """Takes the answer: a fault, or the empty string where the line is accepted."""
        self.fault = fault
        self.is_known.set()


@dataclass(frozen=True)
class Line:
    """A line to send, without its line feed, its name in what is said of it, and who waits for its answer, if somebody does."""

    title: str
    data: bytes
    stops: bool = False
    number: int = 0
    outcome: Outcome | None = None


def say(sentence: str, level: int = logging.INFO) -> None:
    """Says something, in the form that the tool has set for its log."""
    LOG.log(level, "%s", sentence)


def counted(count: int, word: str) -> str:
    """A count with its word, as `1 line` and `2 lines`."""
    return f"{count} {word}{'' if count == 1 else 's'}"


class FeedLink:
    """A feed link: what was sent and is not answered yet, and the answers."""

    def __init__(self, address: ServerAddress, observer: Observer = Observer()):
        self.link, self.observer = Link(address, FEED), observer
        self.sent, self.refused, self.stops = 0, 0, 0
        self.unanswered: dict[int, Line] = {}
        self.closed = threading.Event()
        self.failure: BrokenPipeError | None = None

    def send(self, line: Line) -> None:
        """Sends a line. A blank line has no answer."""
        self.sent += 1
        self.stops += line.stops
        if line.data.strip(b" \t\r"):
            self.unanswered[self.sent] = line
        self.link.send(line.data + b"\n")

    def read_answers(self) -> None:
        """Reads the answers until the server closes the link: names the refused lines, and prints the verdicts."""
        rest = b""
        try:
            while data := self.link.receive():
                *answers, rest = (rest + data).split(b"\n")
                for answer in answers:
                    self.take_answer(answer.decode(errors="replace"))
        except BrokenPipeError as failure:
            self.failure = failure
        self.closed.set()

    def raise_failure(self) -> None:
        """Raises what ended the reading of answers: the reader of standard output has left."""
        if self.failure is not None:
            raise self.failure

    def take_answer(self, answer: str) -> None:
        """Takes an answer."""
        word, number, rest = (*answer.split(" ", 2), "", "")[:3]
        line = self.unanswered.pop(int(number), None) if number.isdecimal() else None
        if word == "refused" and line is not None:
            self.refused += 1
            self.stops -= line.stops
            say(f"{line.title} is refused: {told(rest, line.data)}", logging.WARNING)
        elif word == "verdict" and line is not None:
            print(f"verdict {line.number} {rest}", flush=True)
        elif word != "ok" or line is None:
            say(f"the server sent what answers no line: {answer[:80]}", logging.WARNING)
        if line is not None:
            self.know(line, rest if word == "refused" else "")

    def know(self, line: Line, fault: str) -> None:
        """Takes the outcome of a line."""
        self.observer.answer(line.data, fault)
        if line.outcome is not None:
            line.outcome.know(fault)

    def status(self) -> Status:
        """How a recording ended whose lines are all sent, once the server has closed the link."""
        if self.stops:
            say("the server stopped, as a line of the recording asked")
        elif self.unanswered:
            raise self.closed_fault()
        return Status.REFUSED if self.refused else Status.DONE

    def closed_fault(self) -> Fault:
        """What is said of a link that the server closed."""
        count = len(self.unanswered)
        lines = f"; {counted(count, 'line')} {'is' if count == 1 else 'are'} not answered" if count else ""
        return Fault(Status.CLOSED, f"{self.link.address} closed the link after {counted(self.sent, 'line')}{lines}")


class NotWanted(Exception):
    """No line is wanted any more: the link is closed, or the feed ends."""


class Lines:
    """The lines to send, in order: threads put them, and one takes them. None says that there are no more, a Fault that the feed ends so.
    The observer is told how far the kinds have come whose lines they are."""

    def __init__(self, observer: Observer = Observer()) -> None:
        self.observer = observer
        self.queue: queue.Queue[Line | Fault | None] = queue.Queue(WAITING)
        self.are_wanted = True

    def put(self, line: Line | Fault | None) -> None:
        """Puts a line, once there is room for it; a NotWanted where none is wanted any more."""
        while self.are_wanted:
            try:
                return self.queue.put(line, timeout=0.2)
            except queue.Full:
                continue
        raise NotWanted

    def fault_of(self, outcome: Outcome) -> str:
        """The fault of a line that was put, the empty string where it is accepted, once it is answered."""
        while self.are_wanted:
            if outcome.is_known.wait(0.2):
                return outcome.fault
        raise NotWanted

    def ask(self, title: str, data: bytes, number: int = 0) -> str:
        """Puts a line, and answers its fault once it is answered."""
        outcome = Outcome()
        self.put(Line(title, data, number=number, outcome=outcome))
        return self.fault_of(outcome)

    def until(self, closed: threading.Event) -> Iterator[Line]:
        """The lines, up to the last or until the link is closed."""
        while not closed.is_set():
            try:
                line = self.queue.get(timeout=0.2)
            except queue.Empty:
                continue
            if line is None:
                return
            if isinstance(line, Fault):
                raise line
            yield line

    def put_by(self, produce: Callable[[], None]) -> None:
        """Starts a thread that puts lines, of which a Fault ends the feed."""

        def run() -> None:
            try:
                try:
                    produce()
                except Fault as fault:
                    self.put(fault)
            except NotWanted:
                pass

        threading.Thread(target=run, daemon=True).start()


def send_until_closed(link: FeedLink, lines: Lines) -> None:
    """Sends lines up to the last, or until the server closes the link, which is a Fault unless a line asked for it."""
    try:
        for line in lines.until(link.closed):
            link.send(line)
        link.raise_failure()
        if link.closed.is_set() and not link.stops:
            raise link.closed_fault()
    finally:
        lines.are_wanted = False
