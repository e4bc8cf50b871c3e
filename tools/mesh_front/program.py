"""Questions about a feed, as lines appended to it, and what one run of linkerd_cli answers."""

import json
import pathlib
import re
import subprocess
import sys
import tempfile
from dataclasses import dataclass, field
from typing import IO, Callable, Iterable, TypeVar

from mesh_front.faults import Fault, Status
from mesh_front.feed import Feed, Objects
from mesh_front.gaps import Gaps, gaps_of
from mesh_front.kinds import Kind
from mesh_front.messages import Message, decode_each, message_in, tree

Numbers = TypeVar("Numbers")
PORT_METHODS = ("WatchPort", "WatchPort2")


@dataclass(frozen=True)
class Query:
    """What a proxy subscribes to."""

    method: str
    target: str
    port: int
    is_address: bool = False
    token: str | None = None

    def members(self, domain: str) -> dict:
        """The query of a `subscribe` line. The target of a port's method is `namespace:pod`, of the others `name.namespace` or an address."""
        if self.method in PORT_METHODS:
            return {"method": self.method, "workload": self.target, "port": self.port}
        path = f"{self.target}{'' if self.is_address else f'.svc.{domain}'}:{self.port}"
        return {"method": self.method, "path": path, **({"token": self.token} if self.token else {})}


@dataclass
class Script:
    """Lines to append to a feed."""

    domain: str
    first: int
    lines: list[str] = field(default_factory=list)
    methods: dict[int, str] = field(default_factory=dict)
    events: set[int] = field(default_factory=set)

    def add(self, value: dict) -> int:
        """Appends a line, and answers its number in the feed."""
        self.lines.append(json.dumps(value))
        return self.first + len(self.lines) - 1

    def hold(self, *by_key: dict) -> None:
        """Holds objects."""
        for it in by_key:
            self.events.add(self.add({"type": "MODIFIED", "object": it}))

    def remove(self, *by_key: dict) -> None:
        """Removes objects."""
        for it in by_key:
            self.events.add(self.add({"type": "DELETED", "object": it}))

    def view(self, query: Query) -> int:
        """Asks for the view of a query over what is held here, and answers the id of the question."""
        number = len(self.methods) + 1
        self.methods[number] = query.method
        self.add({"control": "subscribe", "id": number, "query": query.members(self.domain)})
        self.add({"control": "drain", "id": number})
        self.add({"control": "cancel", "id": number})
        return number

    def simulate(self, request: dict) -> int:
        """Asks what comes of a request over what is held here, and answers the number of the question."""
        return self.add({"control": "simulate", **request})


@dataclass
class Answers:
    """What a run says: the refused lines, the messages of each view, and the verdicts, by line."""

    refusals: dict[int, str]
    views: dict[int, list[Message]]
    verdicts: dict[int, str]

    def view(self, number: int) -> list[Message]:
        """The messages of a view; none where the program refuses the query."""
        return self.views.get(number, [])


# Warnings that are left out: mesh names the refused lines of the feed itself, the program counts the questions among them, and
# the first run over a feed asks nothing.
SAID_BY_MESH = re.compile(r"linkerd_cli: (warning: \d+ lines? (was|were) refused, |no line subscribed or simulated, )")


class Program:
    """The program linkerd_cli with its configuration."""

    def __init__(self, path: pathlib.Path, options: list[str], tell: Callable[[str], None] = lambda line: print(line, file=sys.stderr, flush=True)):
        self.path, self.options, self.tell = path, options, tell
        self.lines_on_error: set[str] = set()

    def replay(self, lines: list[bytes]) -> list[str]:
        """What `replay` writes for these lines. What else it says on standard error is passed on, each line once."""
        with tempfile.TemporaryFile() as source, tempfile.TemporaryFile() as output:
            source.writelines(line + b"\n" for line in lines)
            source.seek(0)
            status, last = self.run(source, output)
            output.seek(0)
            output_lines = output.read().decode("utf-8", "surrogateescape").splitlines()
        if status not in (0, 1):
            status_kind = Status.NO_TOOL if status == 70 else Status.TOOL_FAILED
            raise Fault(status_kind, f"{self.path} replay ended with status {status}: {last or 'it says nothing'}")
        return output_lines

    def run(self, source: IO[bytes], output: IO[bytes]) -> tuple[int, str]:
        """Runs `replay`, and answers its status and the last line that it wrote on standard error."""
        last = ""
        try:
            command = [str(self.path), "replay", *self.options]
            with subprocess.Popen(command, stdin=source, stdout=output, stderr=subprocess.PIPE, text=True, errors="replace") as run:
                for line in run.stderr or ():
                    last = line.strip()
                    if line not in self.lines_on_error and not SAID_BY_MESH.match(line):
                        self.lines_on_error.add(line)
                        self.tell(line.rstrip("\n"))
        except OSError as error:
            raise Fault(Status.NO_TOOL, f"cannot run {self.path}: {error.strerror}") from error
        return run.returncode, last


def answers_in(output: list[str], methods: dict[int, str]) -> Answers:
    """What the lines that `replay` wrote answer to views of these methods."""
    answers = Answers({}, {}, {})
    frames: dict[str, list[tuple[int, bytes]]] = {method: [] for method in methods.values()}
    for line in output:
        word, number, rest = (*line.split(" ", 2), "", "")[:3]
        message = message_in(rest) if word == "frame" else None
        if message is not None and int(number) in methods:
            frames[methods[int(number)]].append((int(number), message))
        elif word == "refused":
            answers.refusals[int(number)] = rest
        elif word == "verdict":
            answers.verdicts[int(number)] = rest
        else:
            raise Fault(Status.TOOL_FAILED, f"the program wrote a line that answers no question: {line[:80]}")
    for method, pairs in frames.items():
        for (question, _), rows in zip(pairs, decode_each(method, [message for _, message in pairs])):
            if rows is None:
                raise Fault(Status.TOOL_FAILED, f"protoc cannot read a message that answers {method}")
            answers.views.setdefault(question, []).append(tree(rows))
    return answers


class Session:
    """A feed, the program, and what is known of the feed so far: whether and which of its lines the program refuses."""

    def __init__(self, feed: Feed, program: Program, domain: str):
        self.feed, self.program, self.domain = feed, program, domain
        self.refusals: dict[int, str] = {}
        self.objects, self.is_known = feed.objects(), False

    def ask(self, questions: Callable[[Objects, Script], Numbers]) -> tuple[Numbers, Answers]:
        """Asks questions in one run: `questions` appends them by the names that are held.

        Which lines of the feed are refused is known after the first run alone. If others are held than was thought, the
        questions are made again.
        """
        while True:
            previous = self.objects
            try:
                self.require_objects()
                script = Script(self.domain, len(self.feed.lines) + 1)
                numbers = questions(self.objects, script)
            except Fault:
                if self.is_known:
                    raise
                self.learn(self.replay(Script(self.domain, len(self.feed.lines) + 1)))
                continue
            answers = self.replay(script)
            self.learn(answers)
            if self.objects.by_key == previous.by_key:
                self.require_events(script, answers)
                return numbers, answers

    def known_objects(self) -> Objects:
        """What is held, once it is known which lines are refused."""
        self.ask(lambda _, script: None)
        return self.objects

    def replay(self, script: Script) -> Answers:
        """Runs the program over the feed and the lines of a script."""
        lines = self.feed.lines + [line.encode() for line in script.lines]
        return answers_in(self.program.replay(lines), script.methods)

    def learn(self, answers: Answers) -> None:
        """Leaves out what the lines that are refused would hold."""
        self.refusals = {number: why for number, why in answers.refusals.items() if number <= len(self.feed.lines)}
        self.objects, self.is_known = self.feed.objects(self.refusals), True

    def require_events(self, script: Script, answers: Answers) -> None:
        """Raises a Fault where an event that the questions need is refused, as it is where too many objects are held."""
        for number in script.events & answers.refusals.keys():
            raise Fault(Status.TOOL_FAILED, f"an event that the question needs is refused: {answers.refusals[number]}")

    def gaps(self, kinds: Iterable[Kind]) -> Gaps:
        """What the feed lacks of some kinds."""
        return gaps_of(self.feed, self.refusals, kinds)

    def require_objects(self) -> None:
        """Raises a Fault where the feed holds nothing."""
        if not self.objects.by_key:
            raise Fault(Status.EMPTY, "the feed holds no object")
