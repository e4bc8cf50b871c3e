"""How a server is brought to lists: policies before what they protect, and what is readable where a list is refused."""

from dataclasses import dataclass, field
from typing import Iterable

from mesh_front.faults import Fault, Status
from mesh_front.feed import Key, key_of
from mesh_front.feeding import Line, Lines, Outcome, counted
from mesh_front.kinds import FILL_ORDER, KINDS, PROTECTING_KINDS, Kind
from mesh_front.observing import Stage
from mesh_front.record import line_of
from mesh_front.refusals import listed_object, listed_objects

def in_order(kinds: Iterable[Kind]) -> list[Kind]:
    """Kinds in the order in which they are sent."""
    return sorted(kinds, key=FILL_ORDER.index)


def skipped_keys(word: str) -> frozenset[Key]:
    """The keys that a word `KIND/NAMESPACE/NAME` names: two for an HTTPRoute without its group; a ValueError where it names none."""
    kind, namespace, name = word.split("/")
    keys = frozenset(Key(it, namespace, name) for it in KINDS if kind in (it.name, it.title))
    if not (keys and namespace and name):
        raise ValueError
    return keys


def skip_word(key: Key) -> str:
    """The option that leaves an object out."""
    return f"--skip {key.kind.title}/{key.namespace}/{key.name}"


@dataclass(frozen=True)
class ListLine:
    """A list of a kind with its name in what is said of it, its number in a recording, and its line."""

    kind: Kind
    value: dict
    title: str
    number: int = 0
    line: bytes = b""

    def data(self) -> bytes:
        """The line."""
        return self.line or line_of(self.value).encode()

    def without(self, skipped: frozenset[Key]) -> "ListLine | None":
        """The list without the objects with these keys; None where it has none of them."""
        rows = self.value.get("items")
        rest = [it for it in rows or [] if not (isinstance(it, dict) and key_of(listed_object(self.value, it)) in skipped)]
        if len(rest) == len(rows or []):
            return None
        return ListLine(self.kind, {**self.value, "items": rest}, f"{self.title} without what --skip names", self.number)


@dataclass
class Unreadable:
    """An object that the server refuses."""

    key: Key | None
    title: str


@dataclass
class Holding:
    """What a feed has sent of a kind: lists, or events alone."""

    kind: Kind
    lines: Lines
    sends_lists: bool
    keys: set[Key] = field(default_factory=set)

    def replace(self, listing: ListLine, skipped: frozenset[Key] = frozenset()) -> list[Unreadable]:
        """Brings the server to a list, and answers which of its objects are refused. They keep the version that the server holds."""
        refused = self.replace_by_lists(listing, skipped)
        self.lines.observer.tell(self.kind, Stage.FILLED)
        return refused

    def replace_by_lists(self, listing: ListLine, skipped: frozenset[Key]) -> list[Unreadable]:
        """Sends a list, then the list without what is to be skipped, and then events, until one is accepted."""
        candidates = [listing, listing.without(skipped)] if self.sends_lists else []
        for it in filter(None, candidates):
            if not self.lines.ask(it.title, it.data(), it.number):
                self.keys = {key for value in listed_objects(it.value) if (key := key_of(value))}
                return []
        return self.replace_by_events(listing)

    def replace_by_events(self, listing: ListLine) -> list[Unreadable]:
        """Sends what is in a list object by object, and then removes what was sent before and is gone."""
        objects = listed_objects(listing.value)
        sent = [(key_of(it), it, self.put_event("MODIFIED", it)) for it in objects]
        keys = {key for key, _, _ in sent if key}
        removals = [self.put_event("DELETED", removed_object(key)) for key in sorted(self.keys - keys, key=str)]
        refused = [Unreadable(key, title_of(key, self.kind)) for key, _, outcome in sent if self.lines.fault_of(outcome)]
        for outcome in removals:
            self.lines.fault_of(outcome)
        self.keys = keys
        strays = len(listing.value.get("items") or []) - len(objects)
        return refused + [Unreadable(None, f"an item of {listing.title} that is no object")] * strays

    def put_event(self, word: str, value: dict) -> Outcome:
        """Puts an event."""
        outcome = Outcome()
        data = line_of({"type": word, "object": value}).encode()
        self.lines.put(Line(f"{word} {title_of(key_of(value), self.kind)}", data, outcome=outcome))
        return outcome


def title_of(key: Key | None, kind: Kind) -> str:
    """An object in what is said of it."""
    return str(key or f"{kind.title} without a name")


def removed_object(key: Key) -> dict:
    """The object of an event that removes what has this key."""
    metadata = {"name": key.name, "namespace": key.namespace}
    return {"apiVersion": key.kind.api_version, "kind": key.kind.name, "metadata": metadata}


def fill(holdings: dict[Kind, Holding], listings: list[ListLine], skipped: frozenset[Key]) -> None:
    """Brings the server to the first lists. A Fault where a policy is refused that is not to be skipped: then no Pod is sent."""
    by_kind = {it.kind: it for it in listings}
    unreadable: list[Unreadable] = []
    for kind in in_order(by_kind):
        if unreadable and kind not in PROTECTING_KINDS:
            break
        refused = holdings[kind].replace(by_kind[kind], skipped)
        unreadable += [it for it in refused if kind in PROTECTING_KINDS and it.key not in skipped]
    if unreadable:
        raise refused_policies(unreadable)


def refused_policies(unreadable: list[Unreadable]) -> Fault:
    """What is said where policies are refused before the Pods are sent."""
    objects = ", ".join(it.title for it in unreadable)
    skips = " ".join(skip_word(it.key) for it in unreadable if it.key)
    cure = f"; mend {'it' if len(unreadable) == 1 else 'them'}, or go on without by {skips}" if skips else ""
    count = counted(len(unreadable), "policy object")
    return Fault(Status.REFUSED, f"stopped before any Pod was sent, since the server refused {count}: {objects}{cure}")
