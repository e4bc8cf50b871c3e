"""Exit statuses, and what keeps a command from answering."""

import enum
import os
import sys
from typing import Callable


class Status(enum.IntEnum):
    """The exit statuses of `tools/mesh`, `tools/feed` and `tools/subscribe`."""

    DONE = 0
    NO = 1
    USAGE = 2
    UNKNOWN = 3
    EMPTY = 4
    NO_TOOL = 5
    TOOL_FAILED = 6
    REFUSED = 7
    NO_SERVER = 8
    CLOSED = 9
    NO_LINKERD = 10
    INCOMPLETE = 11
    NOT_COMPUTED = 12


MEANINGS = {
    Status.DONE: "the question is answered; ask: the request is allowed; diff and map of two: nothing changes; check: no problem",
    Status.NO: "ask: the request is denied or matches no route; diff and map of two: something changes; check: there are problems",
    Status.USAGE: "wrong words, or a file that they name cannot be read",
    Status.UNKNOWN: "no Service, Pod or port of this name is in the feed; diff: nothing of the name that is to be removed",
    Status.EMPTY: "the feed holds no object",
    Status.NO_TOOL: "linkerd_cli, protoc or kubectl is not there",
    Status.TOOL_FAILED: "linkerd_cli, protoc or kubectl failed",
    Status.REFUSED: "a line of the feed is refused, and the answer is without it; or the simulation or the change is refused",
    Status.INCOMPLETE: "the feed says nothing of a kind on which the answer rests: the first line of the answer names the kinds",
    Status.NOT_COMPUTED: "diff: some of what the change does is not computed: the answer names it",
}


class Fault(Exception):
    """What keeps a command from answering: one sentence, and the exit status."""

    def __init__(self, status: Status, sentence: str):
        super().__init__(sentence)
        self.status = status


def epilog(meanings: dict[Status, str]) -> str:
    """The exit statuses of a command, as its help has them."""
    return "exit status:\n" + "\n".join(f"  {int(status):<3}{meaning}" for status, meaning in meanings.items())


def run_tool(name: str, run: Callable[[], int]) -> int:
    """Runs a tool, and answers its exit status. Where a Fault ends it, its sentence is printed."""
    try:
        status = run()
        sys.stdout.flush()
        return int(status)
    except Fault as fault:
        print(f"{name}: {fault}", file=sys.stderr)
        return int(fault.status)
    except KeyboardInterrupt:
        return 130
    except BrokenPipeError:
        # What is left in the buffer has no reader: at exit it goes nowhere.
        os.dup2(os.open(os.devnull, os.O_WRONLY), sys.stdout.fileno())
        return 141
