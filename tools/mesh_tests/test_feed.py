"""`tools/feed`, with a server that keeps what it is sent, and a kubectl that answers from files."""

import json
import socket

from mesh_tests.fake_server import Feed, FakeServer
from mesh_tests.support import POLICY, Case, list_page, pod

BOOKMARK = '{"type":"BOOKMARK","object":{}}'
SUBSCRIBE = '{"control":"subscribe","id":1,"query":{"method":"Get","path":"web.app.svc.cluster.local:80"}}'
SIMULATE = '{"control":"simulate","workload":"app:web-1","port":8080,"client":"10.0.0.5"}'
LISTING = "feed: listing 11 kinds for {}\n"
SERVERS = f"/apis/{POLICY}/v1beta3/servers"


def text_of(*lines: str) -> bytes:
    """Lines, each with its line feed."""
    return "".join(f"{line}\n" for line in lines).encode()


class Recording(Case):
    """Lines of a file or of standard input."""

    def send(self, data: bytes, feed: Feed):
        """Sends a file to a server that handles the link so."""
        with FakeServer(feed) as server:
            run = self.run_tool("feed", server.address, "--from", self.file("feed.jsonl", data))
        return run, server.address

    def test_accepted_lines(self):
        """They are sent as they are, after the path, and nothing is said; a last line without line feed is one."""
        feed = Feed()
        run, _ = self.send(text_of(BOOKMARK, "", BOOKMARK) + b"{}", feed)
        self.require(run, 0)
        self.assertEqual((b"/feed\n", [b'{"type":"BOOKMARK","object":{}}\n', b"\n", b'{"type":"BOOKMARK","object":{}}\n', b"{}\n"]), (feed.path, feed.lines))

    def test_refused_lines(self):
        """Each is named by its number in the file, and the others are sent all the same."""
        feed = Feed({2: "refused 2 NotJson", 4: "refused 4 Full 100000"})
        run, _ = self.send(text_of(BOOKMARK, "{", "", BOOKMARK, BOOKMARK), feed)
        self.require(run, 7, "", "feed: line 2 is refused: NotJson\nfeed: line 4 is refused: Full 100000\n")
        self.assertEqual(5, len(feed.lines))

    def test_lines_of_control(self):
        """Subscriptions are blank lines, so that the others keep their numbers, and a simulation has its verdict."""
        feed = Feed({3: "verdict 3 allowed default all-unauthenticated"})
        run, _ = self.send(text_of(SUBSCRIBE, '{"control":"drain","id":1}', SIMULATE), feed)
        left_out = "feed: left out 2 lines of control (subscribe, cancel, drain), which a feed link does not have\n"
        self.require(run, 0, "verdict 3 allowed default all-unauthenticated\n", left_out)
        self.assertEqual([b"\n", b"\n"], feed.lines[:2])

    def test_a_line_that_stops_the_server(self):
        """The server closes the link, with or without the answers to what came with the line."""
        for answers in ({}, {2: ""}, {1: "", 2: ""}):
            run, _ = self.send(text_of(BOOKMARK, '{"control":"stop"}'), Feed(answers, most=2))
            self.require(run, 0, "", "feed: the server stopped, as a line of the recording asked\n")

    def test_a_stop_that_is_refused(self):
        """The server goes on, and the line is named like any other that is refused."""
        run, _ = self.send(text_of('{"control":"stop"}', BOOKMARK), Feed({1: "refused 1 NotHere"}))
        self.require(run, 7, "", "feed: line 1 is refused: NotHere\n")

    def test_a_server_that_closes_the_link(self):
        """It is said how far the recording came."""
        run, address = self.send(text_of(BOOKMARK), Feed(most=0))
        self.assertEqual((9, ""), (run.status, run.output))
        self.assertRegex(run.error_output, f"^feed: {address} closed the link after [01] lines?(; 1 line is not answered)?\n$")

    def test_answers_that_are_none(self):
        """What answers no line is shown, and the lines count as not answered."""
        run, address = self.send(text_of(BOOKMARK), Feed({1: "HTTP/1.1 400 Bad Request"}))
        said = f"feed: the server sent what answers no line: HTTP/1.1 400 Bad Request\nfeed: {address} closed the link after 1 line; 1 line is not answered\n"
        self.require(run, 9, "", said)

    def test_many_lines(self):
        """More lines and answers than the sockets hold: neither side waits for the other forever."""
        feed = Feed()
        run, _ = self.send(text_of(BOOKMARK) * 50_000, feed)
        self.require(run, 0)
        self.assertEqual(50_000, len(feed.lines))

    def test_standard_input(self):
        """The name of a file that is `-`."""
        feed = Feed({1: "refused 1 NoForm"})
        with FakeServer(feed) as server:
            run = self.run_tool("feed", server.address, "--from", "-", text="{}\n")
        self.require(run, 7, "", "feed: line 1 is refused: NoForm\n")

    def test_what_is_not_there(self):
        """A server, a file, an address: one sentence each."""
        with socket.create_server(("127.0.0.1", 0)) as listener:
            address = f"127.0.0.1:{listener.getsockname()[1]}"
        run = self.run_tool("feed", address, "--from", self.file("feed.jsonl", b""))
        self.require(run, 8, "", f"feed: no server at {address}: Connection refused\n")
        run = self.run_tool("feed", address, "--from", self.room / "none")
        self.require(run, 2, "", f"feed: cannot read {self.room}/none: No such file or directory\n")
        run = self.run_tool("feed", "localhost", "--from", "x")
        self.require(run, 2, "", "feed: argument ADDRESS: 'localhost' is not HOST:PORT; feed --help tells more\n")
        run = self.run_tool("feed", address, "shop", "--from", "x")
        self.require(run, 2, "", "feed: a recording is sent whole: give --from without namespaces and without --context\n")


def event(kind: str, value: dict) -> dict:
    """An event of a watch."""
    return {"type": kind, "object": value}


def named(kind: str, name: str, namespace: str = "shop", api: str = "v1") -> dict:
    """An object that has a name alone."""
    return {"apiVersion": api, "kind": kind, "metadata": {"name": name, "namespace": namespace}}


def service(name: str, namespace: str) -> dict:
    """A Service without ports."""
    return {**named("Service", name, namespace), "spec": {}}


def objects_page(kind: str, *objects: dict, api: str = "v1") -> dict:
    """A list of objects, with items as an API server writes them."""
    rows = [{key: value for key, value in it.items() if key not in ("kind", "apiVersion")} for it in objects]
    return {"kind": f"{kind}List", "apiVersion": api, "metadata": {"resourceVersion": "7"}, "items": rows}


class Cluster(Case):
    """The objects of a cluster and what changes."""

    def cluster(self, **others) -> dict:
        """The answers of an API server that has Services, Pods and Servers, and whose watches tell nothing."""
        quiet = {"events": [], "seconds": 20}
        return {
            "/api/v1/services?limit=500": list_page("Service", "web"),
            "/api/v1/services?watch=1&resourceVersion=7": quiet,
            "/api/v1/pods?limit=500": list_page("Pod"),
            "/api/v1/pods?watch=1&resourceVersion=7": quiet,
            f"/apis/{POLICY}": {"versions": [{"version": "v1beta3"}], "preferredVersion": {"version": "v1beta3"}},
            f"{SERVERS}?limit=500": list_page("Server"),
            f"{SERVERS}?watch=1&resourceVersion=7": quiet,
            **others,
        }

    def send(self, answers: dict, feed: Feed, *words):
        """Feeds a server with a cluster whose API server has these answers."""
        self.put_kubectl(answers)
        with FakeServer(feed) as server:
            run = self.run_tool("feed", server.address, *words)
        values = [json.loads(line) for line in feed.lines]
        return run, server.address, values

    def test_lists_and_events(self):
        """The lists come first, policies before Pods and Services, then the events. A refused one is named by its object."""
        web = pod("web-1", "web", "10.1.2.3")
        changes = {"/api/v1/pods?watch=1&resourceVersion=7": {"events": [event("ADDED", web), event("DELETED", web)], "seconds": 20}}
        run, address, values = self.send(self.cluster(**changes), Feed({4: "refused 4 BadValue object.status.podIP Address"}, most=5))
        lists = [list_page("Server"), list_page("Pod"), list_page("Service", "web")]
        self.assertEqual([*lists, event("ADDED", web), event("DELETED", web)], values)
        said = run.error_output.splitlines()
        self.assertEqual(9, run.status)
        self.assertIn("feed: left out EndpointSlice: the cluster does not have it in the group discovery.k8s.io", said)
        self.assertEqual(LISTING.format(address), f"{said[0]}\n")
        self.assertIn(f"feed: sent 3 lists to {address}, watching", said)
        why = 'BadValue object.status.podIP Address; Pod shop/web-1 has "10.1.2.3" at status.podIP, allowed: an IP address'
        self.assertIn(f"feed: ADDED Pod shop/web-1 is refused: {why}", said)
        self.assertRegex(said[-1], f"^feed: {address} closed the link after 5 lines")

    def test_a_watch_that_ends(self):
        """The kind is listed again, and watched from there; an ERROR event isn't sent."""
        gone = event("ERROR", {"kind": "Status", "message": "too old resource version"})
        later = list_page("Pod", "b")
        later["metadata"]["resourceVersion"] = "9"
        changes = {
            "/api/v1/pods?limit=500": [list_page("Pod", "a"), later],
            "/api/v1/pods?watch=1&resourceVersion=7": {"events": [gone], "seconds": 20},
            "/api/v1/pods?watch=1&resourceVersion=9": {"events": [event("ADDED", pod("c", "web", "10.1.2.3"))], "seconds": 20},
        }
        run, _, values = self.send(self.cluster(**changes), Feed(most=5))
        self.assertEqual([later, event("ADDED", pod("c", "web", "10.1.2.3"))], values[3:])
        self.assertIn("feed: the watch of Pod ended: too old resource version; listing Pod again\n", run.error_output)

    def test_single_namespaces(self):
        """Events alone, so that objects of other namespaces stay; a watch of each. Where one ends, both are listed again, and what is
        gone is removed."""
        answers = self.cluster()
        for namespace in "xy":
            for path in list(answers):
                if path.startswith(("/api/v1/", SERVERS)):
                    root, _, rest = path.rpartition("/")
                    answers[f"--context c {root}/namespaces/{namespace}/{rest}"] = answers[path]
            pages = [objects_page("Service", service(name, namespace)) for name in ("web", "db")]
            answers[f"--context c /api/v1/namespaces/{namespace}/services?limit=500"] = pages
        answers[f"--context c /apis/{POLICY}"] = answers[f"/apis/{POLICY}"]
        answers["--context c /api/v1/namespaces/y/services?watch=1&resourceVersion=7"] = {"events": [], "seconds": 0, "error": "Unauthorized"}
        run, _, values = self.send(answers, Feed(most=6), "x", "y", "x", "--context", "c")
        first = [event("MODIFIED", service("web", namespace)) for namespace in "xy"]
        later = [event("MODIFIED", service("db", namespace)) for namespace in "xy"]
        removed = [event("DELETED", named("Service", "web", namespace)) for namespace in "xy"]
        self.assertEqual([*first, *later, *removed], values)
        self.assertIn("feed: the watch of Service ended: Unauthorized; listing Service again\n", run.error_output)

    def test_a_cluster_without_linkerd(self):
        """One sentence after that of the lists, and nothing is sent."""
        answers = {path: it for path, it in self.cluster().items() if POLICY not in path}
        run, address, values = self.send(answers, Feed())
        said = "feed: the cluster has none of Linkerd's kinds (the groups linkerd.io and policy.linkerd.io): is Linkerd installed there?\n"
        self.require(run, 10, "", LISTING.format(address) + said)
        self.assertEqual([], values)

    def test_a_kubectl_that_fails_or_is_not_there(self):
        """One sentence each, after that of the lists."""
        run, address, _ = self.send({"/api/v1/services?limit=500": "Unable to connect to the server"}, Feed())
        self.require(run, 6, "", LISTING.format(address) + "feed: listing Service failed: Unable to connect to the server\n")
        (self.room / "kubectl").unlink()
        run, address, _ = self.send({}, Feed())
        self.require(run, 5, "", LISTING.format(address) + "feed: cannot run kubectl: No such file or directory\n")
