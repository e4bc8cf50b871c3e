"""`tools/feed` without a recording: the lists of a cluster, and then what changes."""

import logging
import queue
import threading
import time
from dataclasses import dataclass
from typing import Any, Callable

from mesh_front.faults import Fault, Status
from mesh_front.feed import Key, json_of, key_of, members
from mesh_front.feeding import FeedLink, Line, Lines, NotWanted, counted, say, send_until_closed
from mesh_front.filling import Holding, ListLine, fill, in_order, title_of
from mesh_front.kinds import FILL_ORDER, POLICY, PROFILE, Kind
from mesh_front.links import ServerAddress
from mesh_front.observing import Observer, Stage
from mesh_front.record import Cluster, Listing, Watch, left_out, listing_of
from mesh_front.waiting import Backoff

GATHER_SECONDS = 0.2  # kinds whose watches end so close together are listed again in the order of a fill


class KindFeed:
    """The watches of one kind of a cluster."""

    def __init__(self, cluster: Cluster, kind: Kind, namespaces: list[str], lines: Lines):
        self.cluster, self.kind, self.namespaces, self.lines = cluster, kind, namespaces, lines
        self.holding = Holding(kind, lines, not namespaces)
        self.watches: list[Watch] = []
        self.backoff = Backoff()

    def list_line(self, listing: Listing) -> ListLine:
        """The list as a line."""
        return ListLine(self.kind, listing.value, f"the list of {self.kind.title}")

    def follow(self, listing: Listing, ended: "queue.Queue[KindFeed]") -> None:
        """Puts what changes from a list on, until a watch ends."""
        began = time.monotonic()
        reason = self.watch(listing)
        if self.lines.are_wanted:
            self.lines.observer.tell(self.kind, Stage.ENDED)
            say(f"the watch of {self.kind.title} ended{reason and f': {reason}'}; listing {self.kind.title} again")
        self.backoff.take(time.monotonic() - began)
        ended.put(self)

    def listing_again(self) -> Listing | None:
        """A further list; None where it cannot be read, which is said."""
        try:
            listing = listing_of(self.cluster, self.kind, self.namespaces)
        except Fault as fault:
            say(str(fault), logging.WARNING)
            return None
        if listing is None:
            say(f"the cluster does not have {self.kind.title} any more", logging.WARNING)
        return listing

    def watch(self, listing: Listing) -> str:
        """Puts the events of the watches from a list on until one of them ends, and answers why it did."""
        reasons: list[str] = []
        self.watches = []
        try:
            for path, version in listing.versions.items():
                self.watches.append(self.cluster.watch(path, version))
        except Fault as fault:
            reasons.append(str(fault))
            self.end()
        if not self.lines.are_wanted:
            self.end()
        elif not reasons:
            self.lines.observer.tell(self.kind, Stage.WATCHED)
        readers = [threading.Thread(target=self.read, args=(it, reasons), daemon=True) for it in self.watches]
        for reader in readers:
            reader.start()
        for reader in readers:
            reader.join()
        return next(filter(None, reasons), "")

    def read(self, watch: Watch, reasons: list[str]) -> None:
        """Puts the events of a watch. Where it ends, the other watches of the kind end too."""
        reason = ""
        try:
            for data in watch.lines():
                event = json_of(data)
                if isinstance(event, dict) and event.get("type") == "ERROR":
                    reason = str(members(event, "object").get("message") or "an error of the API server")
                    break
                self.put_event(event, data)
        except NotWanted:
            pass
        watch.end()
        reasons.append(reason or watch.reason())
        self.end()

    def put_event(self, event: Any, data: bytes) -> None:
        """Puts an event of a watch, with its type and its object in what is said of it."""
        key = key_of(members(event, "object"))
        word = event.get("type") if isinstance(event, dict) else "an event"
        if key and word == "DELETED":
            self.holding.keys.discard(key)
        elif key:
            self.holding.keys.add(key)
        self.lines.put(Line(f"{word} {title_of(key, self.kind)}", data))

    def end(self) -> None:
        """Ends the watches."""
        for watch in self.watches:
            watch.end()


def first_listings(cluster: Cluster, namespaces: list[str], observer: Observer) -> dict[Kind, Listing]:
    """The list of each kind that the cluster has; a Fault where it has none of Linkerd's.

    What is sent last is listed first, so that each Pod that is sent has the policies that there were when it was listed.
    """
    listings: dict[Kind, Listing | None] = {}
    for kind in reversed(FILL_ORDER):
        listings[kind] = listing_of(cluster, kind, namespaces)
        observer.tell(kind, Stage.LISTED if listings[kind] else Stage.ABSENT)
    found = {kind: listings[kind] for kind in FILL_ORDER}
    if not any(found[kind] for kind in FILL_ORDER if kind.group in (PROFILE.group, POLICY)):
        groups = f"{PROFILE.group} and {POLICY}"
        raise Fault(Status.NO_LINKERD, f"the cluster has none of Linkerd's kinds (the groups {groups}): is Linkerd installed there?")
    for kind, listing in found.items():
        if listing is None:
            say(left_out(kind), logging.WARNING)
    return {kind: listing for kind, listing in found.items() if listing is not None}


@dataclass
class ClusterFeed:
    """The kinds of a cluster: their first lists, their watches, and their lists again once a watch has ended."""

    kinds: dict[Kind, KindFeed]
    address: ServerAddress
    skipped: frozenset[Key]

    def run(self, listings: dict[Kind, Listing]) -> None:
        """Fills the server, and follows the kinds."""
        holdings = {kind: it.holding for kind, it in self.kinds.items()}
        fill(holdings, [self.kinds[kind].list_line(it) for kind, it in listings.items()], self.skipped)
        lists = counted(len(listings), "list")
        if any(it.namespaces for it in self.kinds.values()):
            lists = f"the objects of {lists}"
        say(f"sent {lists} to {self.address}, watching")
        ended: queue.Queue[KindFeed] = queue.Queue()
        for kind, listing in listings.items():
            self.start(kind, listing, ended)
        self.list_again(ended)

    def start(self, kind: Kind, listing: Listing, ended: "queue.Queue[KindFeed]") -> None:
        """Starts the watches of a kind."""
        threading.Thread(target=self.kinds[kind].follow, args=(listing, ended), daemon=True).start()

    def list_again(self, ended: "queue.Queue[KindFeed]") -> None:
        """Lists the kinds whose watches end again, those that end together in the order of a fill."""
        due: dict[Kind, float] = {}
        while True:
            for it in self.those_ended(ended, min(due.values(), default=None)):
                if not it.lines.are_wanted:
                    raise NotWanted
                due[it.kind] = time.monotonic() + it.backoff.seconds()
            for kind in in_order([kind for kind, at in due.items() if at <= time.monotonic()]):
                del due[kind]
                feed = self.kinds[kind]
                listing = feed.listing_again()
                if listing is None:
                    due[kind] = time.monotonic() + feed.backoff.seconds()
                    continue
                feed.holding.replace(feed.list_line(listing))
                self.start(kind, listing, ended)

    def those_ended(self, ended: "queue.Queue[KindFeed]", until: float | None) -> list[KindFeed]:
        """The kinds whose watches have ended: waits for one until a time, and then a moment for others."""
        found: list[KindFeed] = []
        try:
            found.append(ended.get(timeout=None if until is None else max(until - time.monotonic(), 0)))
            while True:
                found.append(ended.get(timeout=GATHER_SECONDS))
        except queue.Empty:
            return found


@dataclass(frozen=True)
class Source:
    """What is read of a cluster: its namespaces, or all of them where none are named, and the policies that may be left out."""

    cluster: Cluster
    namespaces: list[str]
    skipped: frozenset[Key]


def send_cluster(address: ServerAddress, source: Source, observer: Observer = Observer(), is_wanted: Callable[[], bool] = lambda: True) -> Status:
    """Sends the lists of a cluster, and then what changes, until the server closes the link. Once it is connected, it asks whether this
    server is wanted."""
    link, lines = FeedLink(address, observer), Lines(observer)
    try:
        if not is_wanted():
            raise Fault(Status.CLOSED, "the server was started again meanwhile")
        return follow_cluster(link, lines, source)
    finally:
        link.link.cut()


def follow_cluster(link: FeedLink, lines: Lines, source: Source) -> Status:
    """Sends what is read of a cluster on a link, until the server closes it."""
    say(f"listing {len(FILL_ORDER)} kinds for {link.link.address}")
    listings = first_listings(source.cluster, source.namespaces, lines.observer)
    kinds = {kind: KindFeed(source.cluster, kind, source.namespaces, lines) for kind in listings}
    threading.Thread(target=link.read_answers, daemon=True).start()
    lines.put_by(lambda: ClusterFeed(kinds, link.link.address, source.skipped).run(listings))
    try:
        send_until_closed(link, lines)
        raise link.closed_fault()
    finally:
        for it in kinds.values():
            it.end()
