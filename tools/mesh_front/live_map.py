"""The map of who may call whom, as a controller shows it: of the objects that its server holds, drawn when somebody asks for it."""

import json
import threading
import time
import zlib
from typing import TYPE_CHECKING

from mesh_front import access_map
from mesh_front.faults import Fault, Status
from mesh_front.feed import Feed
from mesh_front.kinds import POLICY_KINDS, Kind
from mesh_front.messages import require_protoc
from mesh_front.program import Program, Session
from mesh_front.record import empty_list, line_of

if TYPE_CHECKING:
    from mesh_front.health import Health

KEEP_SECONDS = 15   # for which a map is shown again,
KEEP_TIMES = 3      # and how many times as long as it took to draw, if that is longer
MOST_CELLS = 50_000
KINDS = frozenset(POLICY_KINDS)


def packed(value: dict) -> bytes:
    """An object as it is kept. What its managers have written is left out: no view rests on it."""
    metadata = {name: it for name, it in value["metadata"].items() if name != "managedFields"}
    return zlib.compress(json.dumps({**value, "metadata": metadata}, separators=(",", ":")).encode(), 1)


def feed_lines(filled: set[Kind], held: list[bytes]) -> bytes:
    """A feed with the kinds that are filled or not in the cluster, and with the objects that are kept."""
    lists = [line_of(empty_list(kind)).encode() for kind in POLICY_KINDS if kind in filled]
    return b"\n".join([*lists, *(b'{"type":"ADDED","object":%b}' % zlib.decompress(it) for it in held), b""])


class LiveMap:
    """Draws the map of what a server holds, one at a time."""

    def __init__(self, health: "Health", program: Program, domain: str):
        self.health, self.program, self.domain = health, program, domain
        self.lock, self.text, self.ends = threading.Lock(), "", 0.0

    def page(self) -> str:
        """The page. One that was drawn is shown again for a while; a Fault where it cannot be drawn."""
        with self.lock:
            begin = time.monotonic()
            if not self.text or begin >= self.ends:
                self.text = self.draw()
                end = time.monotonic()
                self.ends = end + max(KEEP_SECONDS, KEEP_TIMES * (end - begin))
            return self.text

    def draw(self) -> str:
        """The page of what is held now."""
        require_protoc()
        session = Session(Feed(feed_lines(*self.health.kept_objects())), self.program, self.domain)
        plan = access_map.plan_of(session)
        count = len(plan.clients) * len(plan.targets)
        if count > MOST_CELLS:
            raise Fault(Status.NO, f"it would have {count:,} cells, more than {MOST_CELLS:,}: record the cluster, and ask `tools/mesh map --to NS/WORKLOAD`")
        answer = access_map.find(session, plan)
        at = time.strftime("%Y-%m-%d %H:%M:%S UTC", time.gmtime())
        return access_map.page_of([*session.gaps(POLICY_KINDS).lines(), f"What the server held at {at}."], answer)
