"""A server that is filled while subscribers watch: what they are sent, and that no port is open that a policy closes."""

import json
import socket
import subprocess
import sys
import threading
import time

from mesh_front.messages import ROOT
from mesh_tests.live import SECONDS, ServerCase, diagnosis
from mesh_tests.support import POLICY, feed_of, new_object, pod, policy, reference, server

APART = 1.0  # seconds between two lists
IDENTITY = "client.shop.serviceaccount.identity.linkerd.cluster.local"


def page(*objects: dict) -> dict:
    """A list of objects of one kind."""
    rows = [{key: value for key, value in it.items() if key not in ("kind", "apiVersion")} for it in objects]
    return {"kind": f"{objects[0]['kind']}List", "apiVersion": objects[0]["apiVersion"], "metadata": {}, "items": rows}


def route(name: str, parent: dict, rule: dict) -> dict:
    """An HTTPRoute of Linkerd with one rule."""
    return new_object("HTTPRoute", name, {"parentRefs": [parent], "rules": [rule]})


WEB = server("web", "web", 8080, proxyProtocol="HTTP/1")
EDGE = server("edge", "web", 9090)
SERVICE = new_object("Service", "web", {"clusterIP": "10.96.0.1", "ports": [{"port": 80}]}, "v1")
SLICE = {
    **new_object("EndpointSlice", "web-1", None, "discovery.k8s.io/v1", {"kubernetes.io/service-name": "web"}),
    "addressType": "IPv4",
    "endpoints": [{"addresses": ["10.1.2.3"], "targetRef": {"kind": "Pod", "name": "web-1", "namespace": "shop"}}],
    "ports": [{"port": 8080}],
}
ADMIN = {"matches": [{"path": {"value": "/admin"}}]}
OUTBOUND = {"backendRefs": [{"name": "web", "port": 80}], "timeouts": {"request": "3s"}}
SERVICE_PARENT = {"group": "core", "kind": "Service", "name": "web", "port": 80}
# In the order in which `mesh record` wrote them: a recording may have any.
LISTS = (
    (SERVICE,),
    (pod("web-1", "web", "10.1.2.3", 8080, 9090),),
    (SLICE,),
    (new_object("ServiceProfile", "web.shop.svc.cluster.local", {"routes": []}, "linkerd.io/v1alpha2"),),
    (WEB, EDGE),
    (new_object("ServerAuthorization", "near", {"server": {"name": "web"}, "client": {"meshTLS": {"identities": [IDENTITY]}}}),),
    (policy("admits", reference("HTTPRoute", "admin"), reference("MeshTLSAuthentication", "all")),),
    (new_object("MeshTLSAuthentication", "all", {"identities": ["*"]}, f"{POLICY}/v1alpha1"),),
    (new_object("NetworkAuthentication", "net", {"networks": [{"cidr": "10.0.0.0/8"}]}, f"{POLICY}/v1alpha1"),),
    (route("admin", reference("Server", "web"), ADMIN), route("out", SERVICE_PARENT, OUTBOUND)),
)
QUERIES = {
    ("WatchPort", "shop/web-1:8080"): ("--workload", "shop:web-1", "--port", "8080"),
    ("WatchPort", "shop/web-1:9090"): ("--workload", "shop:web-1", "--port", "9090"),
    ("WatchPort2", "shop/web-1:8080"): ("--workload", "shop:web-1", "--port", "8080"),
    ("Get", "web.shop:80"): ("--path", "web.shop.svc.cluster.local:80"),
    ("Watch", "web.shop:80"): ("--path", "web.shop.svc.cluster.local:80"),
    ("GetProfile", "10.96.0.1:80"): ("--path", "10.96.0.1:80"),
}


class SlowLink:
    """A relay to a server that holds each line back."""

    def __init__(self, address: str):
        self.server, self.listener = address, socket.create_server(("127.0.0.1", 0))
        self.address = f"127.0.0.1:{self.listener.getsockname()[1]}"
        self.sent: list[bytes] = []
        threading.Thread(target=self.run, daemon=True).start()

    def run(self) -> None:
        """Relays one link: lines of the client, and all that the server sends."""
        client, _ = self.listener.accept()
        host, port = self.server.split(":")
        with client, socket.create_connection((host, int(port))) as server_side:
            threading.Thread(target=self.relay, args=(server_side, client), daemon=True).start()
            for line in client.makefile("rb"):
                time.sleep(APART)
                self.sent.append(line)
                server_side.sendall(line)
            server_side.shutdown(socket.SHUT_WR)
            time.sleep(APART)

    def relay(self, source: socket.socket, sink: socket.socket) -> None:
        """Passes on what comes, until the source is closed."""
        try:
            while data := source.recv(65536):
                sink.sendall(data)
            sink.shutdown(socket.SHUT_WR)
        except OSError:
            pass


class LiveFill(ServerCase):
    """Subscribers that are there before the first list."""

    def subscribe(self) -> dict:
        """A subscriber of each query, each of which has its first message."""
        started = {}
        for method, target in QUERIES:
            words = [sys.executable, ROOT / "tools" / "subscribe", self.address, method, target, "--lines"]
            started[method, target] = subprocess.Popen(words, stdout=subprocess.PIPE, stderr=subprocess.PIPE, text=True)
            self.addCleanup(self.close, started[method, target])
        for query, it in started.items():
            self.assertEqual(diagnosis(b"", "--method", query[0], *QUERIES[query]), it.stdout.readline())
        return started

    def close(self, subscriber: subprocess.Popen) -> None:
        """Ends a subscriber."""
        if subscriber.poll() is None:
            subscriber.kill()
        subscriber.wait(SECONDS)
        subscriber.stdout.close()
        subscriber.stderr.close()

    def stop(self, started: dict) -> dict:
        """What each subscriber was sent after its first message, once the server has stopped."""
        path = self.file("stop.jsonl", b'{"control":"stop"}\n')
        self.require_status(0, self.run_tool("feed", self.address, "--from", path))
        return {query: it.stdout.read() for query, it in started.items()}

    def require_status(self, status: int, run) -> None:
        """Compares how a run ended."""
        self.assertEqual(status, run.status, run.error_output)

    def views(self, objects: bytes) -> dict:
        """What `diagnose` says of each query over objects."""
        return {query: diagnosis(objects, "--method", query[0], *words) for query, words in QUERIES.items()}

    def recording(self, lists) -> bytes:
        """A recording of lists."""
        return b"".join(json.dumps(page(*it)).encode() + b"\n" for it in lists)

    def test_lists_a_second_apart(self):
        """Each subscriber is sent that nothing is there, then the view of all listed objects, and nothing between."""
        started, link = self.subscribe(), SlowLink(self.address)
        path = self.file("feed.jsonl", self.recording(LISTS))
        self.require_status(0, self.run_tool("feed", link.address, "--from", path))
        self.assertEqual(len(LISTS) + 1, len(link.sent))
        objects = feed_of(*(value for it in LISTS for value in it))
        self.assertEqual(self.views(objects), self.stop(started))

    def test_a_server_that_is_refused(self):
        """No subscriber is sent anything: the ports of its Pods, and those of other Servers, stay closed. Once it is skipped, they have
        the policies of the others."""
        bad = server("edge", "web", 9090, proxyProtocol="http")
        lists = [[bad if it is EDGE else it for it in objects] for objects in LISTS]
        started = self.subscribe()
        run = self.feed(self.recording(lists))
        self.require_status(7, run)
        self.assertRegex(run.error_output, "stopped before any Pod was sent.*Server shop/edge")
        for (method, target), it in QUERIES.items():
            self.assertEqual(diagnosis(b"", "--method", method, *it), self.view(method, target).output)
        self.require_status(7, self.feed(self.recording(lists), "--skip", "Server/shop/edge"))
        objects = feed_of(*(value for it in LISTS for value in it if value is not EDGE))
        self.assertEqual(self.views(objects), self.stop(started))

    def test_namespaces(self):
        """A feed of one namespace leaves the objects of others as they are."""
        other = {**pod("web-1", "web", "10.1.2.9"), "metadata": {"name": "web-1", "namespace": "other"}}
        self.require_status(0, self.feed(feed_of(other)))
        words = ("--workload", "other:web-1", "--port", "8080")
        there = diagnosis(feed_of(other), "--method", "WatchPort", *words)
        self.put_kubectl(self.answers())
        link = [sys.executable, ROOT / "tools" / "feed", self.address, "shop"]
        with subprocess.Popen(link, stderr=subprocess.PIPE, text=True) as feed:
            for line in feed.stderr:
                if "watching" in line:
                    break
            self.assertEqual(there, self.view("WatchPort", "other/web-1:8080").output)
            objects = feed_of(*(value for it in LISTS for value in it if value["kind"] in ("Pod", "Service", "Server")), other)
            shown = diagnosis(objects, "--method", "WatchPort", "--workload", "shop:web-1", "--port", "9090")
            self.assertEqual(shown, self.view("WatchPort", "shop/web-1:9090").output)
            feed.kill()

    def answers(self) -> dict:
        """The answers of an API server with Services, Pods and Servers in the namespace `shop`."""
        lists = {"/api/v1": ("services", LISTS[0]), "/api/v1#": ("pods", LISTS[1]), f"/apis/{POLICY}/v1beta3": ("servers", LISTS[4])}
        versions = {"versions": [{"version": "v1beta3"}], "preferredVersion": {"version": "v1beta3"}}
        answers: dict = {f"/apis/{POLICY}": versions}
        for root, (plural, objects) in lists.items():
            path = f"{root.rstrip('#')}/namespaces/shop/{plural}"
            answers[f"{path}?limit=500"] = {**page(*objects), "metadata": {"resourceVersion": "7"}}
            answers[f"{path}?watch=1&resourceVersion=7"] = {"events": [], "seconds": 60}
        return answers
