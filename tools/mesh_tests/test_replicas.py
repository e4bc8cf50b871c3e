"""Two servers that follow the same objects independently, each kind at its own pace, by events and by lists, and subscribers that move
between them. Skipped with a program that has no server."""

import json
import random
import subprocess
import threading
import time

from mesh_front.faults import Fault
from mesh_front.feeding import FeedLink, Lines, send_until_closed
from mesh_front.links import PATHS, Link, server_address
from mesh_front.subscribing import Messages, frame, request
from mesh_tests.live import SECONDS, ServerCase, diagnosis, free_address
from mesh_tests.support import POLICY, feed_of, new_object, pod, policy, program, reference, server
from mesh_tests.test_feed import event, objects_page
from mesh_tests.test_live_fill import QUERIES, SERVICE, SLICE

SEEDS = (1, 2)
CHANGES = 12  # of each kind
WINDOW = 0.3  # seconds without a message after which what has come is folded
CLIENT = "client.shop.serviceaccount.identity.linkerd.cluster.local"
ROUTE = {"parentRefs": [reference("Server", "web")], "rules": [{"matches": [{"path": {"value": "/admin"}}]}]}
# The versions of each object, among which a history chooses.
VERSIONS = {
    "Service": [[SERVICE, {**SERVICE, "spec": {**SERVICE["spec"], "ports": [{"port": 80, "appProtocol": "http"}]}}]],
    "EndpointSlice": [[SLICE, {**SLICE, "endpoints": []}, {**SLICE, "endpoints": [{"addresses": ["10.1.2.3"]}, {"addresses": ["10.1.2.4"]}]}]],
    "Pod": [[pod("web-1", "web", "10.1.2.3", 8080, 9090)], [pod("web-2", "web", "10.1.2.4", 8080), pod("web-2", "web", "10.1.2.9", 8080)]],
    "Server": [[server("web", "web", 8080, proxyProtocol=it) for it in ("HTTP/1", "gRPC")], [server("edge", "web", 9090)]],
    "HTTPRoute": [[new_object("HTTPRoute", "admin", ROUTE)]],
    "AuthorizationPolicy": [[policy("admits", reference("Server", "web"), reference("MeshTLSAuthentication", it)) for it in ("all", "one")]],
    "MeshTLSAuthentication": [
        [new_object("MeshTLSAuthentication", "all", {"identities": ["*"]}, f"{POLICY}/v1alpha1")],
        [new_object("MeshTLSAuthentication", "one", {"identities": [CLIENT]}, f"{POLICY}/v1alpha1")],
    ],
}


class History:
    """The states of a kind, one after another, each of which differs in one object from the one before, and the events between them. The
    last state has the last version of each object."""

    def __init__(self, choice: random.Random, kind: str):
        self.kind, self.api = kind, VERSIONS[kind][0][0]["apiVersion"]
        self.states: list[dict] = [{}]
        self.events: list[dict] = []
        for _ in range(CHANGES):
            self.add(choice.choice(choice.choice(VERSIONS[kind])), choice.random() < 0.3)
        for versions in VERSIONS[kind]:
            self.add(versions[-1], False)

    def add(self, version: dict, is_removed: bool) -> None:
        """Adds the state after an object has a version, or is removed if it is there."""
        state, name = dict(self.states[-1]), version["metadata"]["name"]
        if name in state and is_removed:
            self.events.append(event("DELETED", state.pop(name)))
        else:
            self.events.append(event("MODIFIED" if name in state else "ADDED", version))
            state[name] = version
        self.states.append(state)

    def list_line(self, place: int) -> dict:
        """The list of a state."""
        objects = self.states[place].values()
        return objects_page(self.kind, *objects, api=self.api)


class Replica:
    """A server, with the place of each history that it was told."""

    def __init__(self, address: str, histories: list[History], choice: random.Random):
        self.address, self.histories, self.choice = server_address(address), histories, choice
        self.places = {it.kind: 0 for it in histories}
        self.link, self.lines = FeedLink(self.address), Lines()
        threading.Thread(target=self.link.read_answers, daemon=True).start()
        threading.Thread(target=self.send, daemon=True).start()

    def send(self) -> None:
        """Sends the lines until the test ends the link."""
        try:
            send_until_closed(self.link, self.lines)
        except Fault:
            pass

    def step(self) -> bool:
        """Tells the next change of some kind, or lists it at some later state; answers whether there was one."""
        behind = [it for it in self.histories if self.places[it.kind] < len(it.events)]
        if not behind:
            return False
        history = self.choice.choice(behind)
        place = self.places[history.kind]
        if self.choice.random() < 0.25:
            self.places[history.kind] = self.choice.randint(place, len(history.events))
            line = history.list_line(self.places[history.kind])
        else:
            self.places[history.kind], line = place + 1, history.events[place]
        fault = self.lines.ask("a line", json.dumps(line).encode())
        assert not fault, (fault, line)
        return True

    def objects(self) -> bytes:
        """A feed with the objects that it holds."""
        return feed_of(*(it for history in self.histories for it in history.states[self.places[history.kind]].values()))


class Proxy:
    """A subscriber of a query, with the messages that it was sent since it moved to its replica."""

    def __init__(self, method: str, target: str):
        self.method, self.words = method, ("--method", method, *QUERIES[method, target])
        self.asked = request(method, target, "cluster.local", "")
        self.link: Link | None = None
        self.lines: list[str] = []

    def move(self, replica: Replica) -> None:
        """Connects to a replica, and forgets what another one has sent."""
        self.leave()
        self.link, self.lines = Link(replica.address, PATHS[self.method]), []
        self.link.send(self.asked)

    def leave(self) -> None:
        """Closes its link."""
        if self.link is not None:
            self.link.cut()
            self.link.socket.close()

    def receive(self, count: int | None, seconds: float) -> None:
        """Takes messages, so many of them or what comes in some time."""
        messages = Messages(self.link, seconds)
        for message in messages.each():
            self.lines.append(f"frame 1 {frame(message).hex()}\n")
            if messages.count == count:
                return

    def view(self) -> str:
        """What its messages fold to."""
        run = subprocess.run([program(), "fold", "--id", "1", "--method", self.method], input="".join(self.lines), capture_output=True, text=True)
        return run.stdout.replace("view 1 ", "frame 1 ")


class Replicas(ServerCase):
    """A subscriber may come to any of them."""

    def setUp(self):
        super().setUp()
        self.other = free_address()
        self.start(self.other)

    def test_subscribers_that_move(self):
        """After each move the first message is the view of what the replica holds; in the end each folds to the same view."""
        for seed in SEEDS:
            with self.subTest(seed=seed):
                self.run_history(random.Random(seed))

    def run_history(self, choice: random.Random) -> None:
        """Both replicas follow one history, and the subscribers move."""
        histories = [History(choice, kind) for kind in VERSIONS]
        replicas = [Replica(it, histories, choice) for it in (self.address, self.other)]
        proxies = [Proxy(*query) for query in QUERIES]
        for it in proxies:
            self.addCleanup(it.leave)
            it.move(choice.choice(replicas))
        while any([it.step() for it in choice.sample(replicas, 2)]):
            if choice.random() < 0.2:
                proxy, replica = choice.choice(proxies), choice.choice(replicas)
                proxy.move(replica)
                proxy.receive(1, SECONDS)
                self.assertEqual(diagnosis(replica.objects(), *proxy.words), "".join(proxy.lines))
        self.assertEqual(*(it.objects() for it in replicas))
        self.require_views(proxies, replicas[0].objects())
        for it in replicas:
            for history in histories:
                self.assertEqual("", it.lines.ask("an empty list", json.dumps(objects_page(history.kind, api=history.api)).encode()))
            it.link.link.cut()

    def require_views(self, proxies: list[Proxy], objects: bytes) -> None:
        """Each subscriber has the view of the objects, once all that it is due has come."""
        for proxy in proxies:
            expected, end = diagnosis(objects, *proxy.words), time.monotonic() + SECONDS
            proxy.receive(None, WINDOW)
            while proxy.view() != expected and time.monotonic() < end:
                proxy.receive(None, WINDOW)
            self.assertEqual(expected, proxy.view(), proxy.words)
            self.assertNotEqual(diagnosis(b"", *proxy.words), expected)
