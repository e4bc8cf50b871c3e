"""What is known of a server that is fed: how far each kind has come, what the server answered, and why it is not ready."""

import threading
import time
from dataclasses import dataclass, field

from mesh_front.feed import Key, json_of, key_of, kind_of_line, members, object_of_line
from mesh_front.kinds import FILL_ORDER, Kind
from mesh_front.links import ServerAddress
from mesh_front.live_map import packed
from mesh_front.observing import Observer, Stage
from mesh_front.refusals import listed_objects

ACCEPTED, REFUSED = "accepted", "refused"


@dataclass
class KindHealth:
    """What is known of a kind. The stages are those of the present feed; what is held, that of the present server."""

    stages: set[Stage] = field(default_factory=set)
    ended: float = 0
    last_line: float | None = None
    lines: dict[str, int] = field(default_factory=lambda: {ACCEPTED: 0, REFUSED: 0})
    held: dict[Key, bytes] = field(default_factory=dict)
    watch_ends: int = 0

    def take(self, stage: Stage) -> None:
        """Takes that the kind has come so far."""
        if stage is Stage.ENDED:
            self.stages.discard(Stage.WATCHED)
            self.ended = time.monotonic()
            self.watch_ends += 1
        self.stages.add(stage)

    def accept(self, change: "HeldChange") -> None:
        """Takes an accepted line of the kind, with what the server holds after it."""
        self.last_line = time.monotonic()
        if change.is_list:
            self.held = change.put
            return
        if change.gone is not None:
            self.held.pop(change.gone, None)
        self.held.update(change.put)

    def age(self) -> float | None:
        """The seconds since the last accepted line, None where there is none."""
        return None if self.last_line is None else time.monotonic() - self.last_line

    def state(self, fresh_seconds: float) -> tuple[bool, str]:
        """Whether the kind is ready, and how far it has come."""
        if Stage.ABSENT in self.stages:
            return True, "not in the cluster"
        if Stage.LISTED not in self.stages:
            return False, "not listed yet"
        if Stage.FILLED not in self.stages:
            return False, "listed, not accepted yet"
        if Stage.WATCHED in self.stages:
            return True, "watched"
        if Stage.ENDED not in self.stages:
            return False, "accepted, not watched yet"
        seconds = time.monotonic() - self.ended
        return seconds <= fresh_seconds, f"not watched for {seconds:.0f} s"


@dataclass(frozen=True)
class HeldChange:
    """What an accepted line changes of what is held: all objects of a kind, or one. Objects that are not kept are empty."""

    is_list: bool
    put: dict[Key, bytes] = field(default_factory=dict)
    gone: Key | None = None


def held_change(value: dict, is_kept: bool) -> HeldChange:
    """What a line changes once it is accepted."""

    def kept(it: dict) -> bytes:
        return packed(it) if is_kept else b""

    if value.get("type") is None:
        return HeldChange(True, {key: kept(it) for it in listed_objects(value) if (key := key_of(it))})
    key = object_of_line(value)
    if key is None or value["type"] == "DELETED":
        return HeldChange(False, gone=key)
    return HeldChange(False, {key: kept(members(value, "object"))})


@dataclass(frozen=True)
class Check:
    """A condition of being ready: what it is about, whether it holds, and what there is to say."""

    title: str
    holds: bool
    about: str


class Health:
    """What is known of a server and of its feed. Threads tell it, and others ask."""

    def __init__(self, program: str, fresh_seconds: float, kept: frozenset[Kind] = frozenset(), address: ServerAddress | None = None):
        self.program, self.fresh_seconds, self.kept, self.address = program, fresh_seconds, kept, address
        self.process: int | None = None
        self.lock = threading.Lock()
        self.kinds = {kind: KindHealth() for kind in FILL_ORDER}
        self.is_up, self.starts, self.feeds = False, 0, 0
        self.feed: FeedHealth | None = None

    def begin_server(self) -> None:
        """A server is started, which holds nothing. What the feed of an earlier one still tells counts no longer."""
        with self.lock:
            self.starts += 1
            self.feed = None
            for health in self.kinds.values():
                health.stages, health.held = set(), {}

    def kept_objects(self) -> tuple[set[Kind], list[bytes]]:
        """The kinds that are accepted or not in the cluster, and the objects of all kinds that are kept."""
        with self.lock:
            filled = {kind for kind, it in self.kinds.items() if it.stages & {Stage.FILLED, Stage.ABSENT}}
            return filled, [data for kind, it in self.kinds.items() if kind in self.kept for data in it.held.values()]

    def set_up(self, is_up: bool) -> None:
        """The server listens, or does so no longer."""
        with self.lock:
            self.is_up = is_up

    def begin_feed(self) -> "FeedHealth":
        """A feed begins, which has sent nothing, and what is told of it. It connects after this."""
        with self.lock:
            self.feeds += 1
            self.feed = FeedHealth(self)
            for health in self.kinds.values():
                health.stages = set()
            return self.feed

    def end_feed(self) -> None:
        """The feed has ended: what the server holds is followed by nobody."""
        with self.lock:
            self.feed = None
            for health in self.kinds.values():
                health.stages = set()

    def checks(self) -> list[Check]:
        """The conditions of being ready."""
        with self.lock:
            server = Check("server", self.is_up, "listens" if self.is_up else "does not listen")
            return [server, *(Check(kind.title, *it.state(self.fresh_seconds)) for kind, it in self.kinds.items())]

    def is_ready(self) -> bool:
        """Whether each condition holds."""
        return all(it.holds for it in self.checks())


class FeedHealth(Observer):
    """What is told of one feed. It counts while the server lives to which the feed is connected, and no further feed has begun."""

    def __init__(self, health: Health):
        self.health = health

    def tell(self, kind: Kind, stage: Stage) -> None:
        """Takes that a kind has come so far."""
        with self.health.lock:
            if self.health.feed is self:
                self.health.kinds[kind].take(stage)

    def answer(self, data: bytes, fault: str) -> None:
        """Takes the answer to a line."""
        value = json_of(data)
        kind = kind_of_line(value)
        if kind is None:
            return
        change = None if fault else held_change(value, kind in self.health.kept)  # before the lock, since a list takes long
        with self.health.lock:
            known = self.health.kinds[kind]
            known.lines[REFUSED if fault else ACCEPTED] += 1
            if change is not None and self.health.feed is self:
                known.accept(change)
