"""The order in which `tools/feed` sends lists, and what it does where the server refuses one: a server that keeps what it is sent."""

import json
import queue
import threading

from mesh_front.cluster_feed import ClusterFeed, KindFeed
from mesh_front.feeding import Lines
from mesh_front.kinds import AUTHORIZATION_POLICY, POD as POD_KIND, SERVER, SERVICE
from mesh_front.links import server_address
from mesh_front.record import Cluster, Listing
from mesh_tests.fake_server import Feed, FakeServer
from mesh_tests.support import POLICY, Case, list_page, new_object, pod, policy, reference, server

BETA = f"{POLICY}/v1beta3"
ALPHA = f"{POLICY}/v1alpha1"
SERVERS = f"/apis/{POLICY}/v1beta3/servers"
AUTHORIZATIONS = f"/apis/{POLICY}/v1alpha1/authorizationpolicies"
CHOICE = "BadValue items[1].spec.proxyProtocol Choice"
WORDS = "allowed: unknown, HTTP/1, HTTP/2, gRPC, opaque, TLS"
IS_HTTP = f'Server shop/edge has "http" at spec.proxyProtocol, {WORDS}'


def page(kind: str, *objects: dict, api: str = "v1", version: str = "7") -> dict:
    """A list of objects, with items as an API server writes them."""
    rows = [{key: value for key, value in it.items() if key not in ("kind", "apiVersion")} for it in objects]
    return {"kind": f"{kind}List", "apiVersion": api, "metadata": {"resourceVersion": version}, "items": rows}


def modified(*objects: dict) -> list[dict]:
    """An event for each object."""
    return [{"type": "MODIFIED", "object": it} for it in objects]


def removed(value: dict) -> dict:
    """The event that removes an object."""
    metadata = {"name": value["metadata"]["name"], "namespace": "shop"}
    return {"type": "DELETED", "object": {"apiVersion": value["apiVersion"], "kind": value["kind"], "metadata": metadata}}


WEB, EDGE = server("web", "web", 8080), server("edge", "web", 9090, proxyProtocol="http")
OLD_EDGE, GONE = server("edge", "web", 9090), server("gone", "web", 7070)
POD = pod("web-1", "web", "10.1.2.3")
ADMITS = policy("admits", reference("Server", "web"), reference("MeshTLSAuthentication", "all"))


class ListedAgain(KindFeed):
    """A kind of which each list is empty."""

    def listing_again(self) -> Listing:
        return Listing(page(self.kind.name), {})


class NotWatched(ClusterFeed):
    """A cluster whose kinds are not watched."""

    def start(self, *_) -> None:
        pass


class Fill(Case):
    """The first lists of a cluster, and the lists of a kind whose watch has ended."""

    def cluster(self, **others) -> dict:
        """The answers of an API server with a Pod, a Server and an AuthorizationPolicy, and whose watches tell nothing."""
        answers = {
            "/api/v1/services?limit=500": page("Service"),
            "/api/v1/pods?limit=500": page("Pod", POD),
            f"{SERVERS}?limit=500": page("Server", WEB, EDGE, api=BETA),
            f"{AUTHORIZATIONS}?limit=500": page("AuthorizationPolicy", ADMITS, api=ALPHA),
        }
        quiet = {path.replace("limit=500", "watch=1&resourceVersion=7"): {"events": [], "seconds": 20} for path in answers}
        versions = [{"version": version} for version in ("v1beta3", "v1alpha1")]
        return {**answers, **quiet, f"/apis/{POLICY}": {"versions": versions, "preferredVersion": versions[0]}, **others}

    def send(self, answers: dict, feed: Feed, *words):
        """Feeds a server with a cluster whose API server has these answers, and answers what the server is sent."""
        self.put_kubectl(answers)
        with FakeServer(feed) as fake:
            run = self.run_tool("feed", fake.address, *words)
        return run, [json.loads(line) for line in feed.lines]

    def test_policies_come_before_pods(self):
        """Authentications, authorizations, routes, Servers, profiles, Pods, EndpointSlices, Services."""
        groups = {"linkerd.io": "v1alpha2", "discovery.k8s.io": "v1", "gateway.networking.k8s.io": "v1"}
        answers = {f"/apis/{group}": {"versions": [{"version": it}], "preferredVersion": {"version": it}} for group, it in groups.items()}
        of_policy = ("v1beta3", "v1beta1", "v1alpha1")
        answers[f"/apis/{POLICY}"] = {"versions": [{"version": it} for it in of_policy], "preferredVersion": {"version": "v1beta3"}}
        order = {
            f"/apis/{POLICY}/v1alpha1/meshtlsauthentications": "MeshTLSAuthentication",
            f"/apis/{POLICY}/v1alpha1/networkauthentications": "NetworkAuthentication",
            f"/apis/{POLICY}/v1beta1/serverauthorizations": "ServerAuthorization",
            AUTHORIZATIONS: "AuthorizationPolicy",
            f"/apis/{POLICY}/v1beta3/httproutes": "HTTPRoute",
            "/apis/gateway.networking.k8s.io/v1/httproutes": "HTTPRoute",
            SERVERS: "Server",
            "/apis/linkerd.io/v1alpha2/serviceprofiles": "ServiceProfile",
            "/api/v1/pods": "Pod",
            "/apis/discovery.k8s.io/v1/endpointslices": "EndpointSlice",
            "/api/v1/services": "Service",
        }
        answers.update({f"{path}?limit=500": list_page(kind) for path, kind in order.items()})
        answers.update({f"{path}?watch=1&resourceVersion=7": {"events": [], "seconds": 20} for path in order})
        _, values = self.send(answers, Feed(most=11))
        self.assertEqual([f"{kind}List" for kind in order.values()], [it["kind"] for it in values])

    def test_a_policy_that_is_refused(self):
        """It is named with its member, its value and what is allowed; the readable rest is sent, and no Pod."""
        feed = Feed({2: f"refused 2 {CHOICE}", 4: "refused 4 BadValue object.spec.proxyProtocol Choice"})
        run, values = self.send(self.cluster(), feed)
        lists = [page("AuthorizationPolicy", ADMITS, api=ALPHA), page("Server", WEB, EDGE, api=BETA)]
        self.assertEqual([*lists, *modified(WEB, EDGE)], values)
        stop = "stopped before any Pod was sent, since the server refused 1 policy object: Server shop/edge"
        said = [
            f"feed: the list of Server is refused: {CHOICE}; {IS_HTTP}",
            f"feed: MODIFIED Server shop/edge is refused: BadValue object.spec.proxyProtocol Choice; {IS_HTTP}",
            f"feed: {stop}; mend it, or go on without by --skip Server/shop/edge",
        ]
        self.assertEqual((7, said), (run.status, run.error_output.splitlines()[-3:]))

    def test_a_policy_that_is_skipped(self):
        """The list without it is sent, and then the Pods."""
        feed = Feed({2: f"refused 2 {CHOICE}"}, most=5)
        run, values = self.send(self.cluster(), feed, "--skip", "Server/shop/edge")
        servers = [page("Server", WEB, EDGE, api=BETA), page("Server", WEB, api=BETA)]
        lists = [page("AuthorizationPolicy", ADMITS, api=ALPHA), *servers, page("Pod", POD), page("Service")]
        self.assertEqual((9, lists), (run.status, values))

    def test_an_object_that_is_skipped_and_accepted(self):
        """What the server can read is sent all the same."""
        _, values = self.send(self.cluster(), Feed(most=4), "--skip", "Server/shop/edge")
        self.assertEqual(page("Server", WEB, EDGE, api=BETA), values[1])

    def test_words_that_skip_nothing(self):
        """One sentence each."""
        for word in ("edge", "Server/edge", "Servr/shop/edge", "Server//edge", "Server/shop/edge/x"):
            run = self.run_tool("feed", "127.0.0.1:1", "--skip", word)
            self.require(run, 2, "", f"feed: argument --skip: {word!r} is not KIND/NAMESPACE/NAME; feed --help tells more\n")

    def test_a_pod_that_is_refused(self):
        """The other Pods are sent, and then the Services."""
        bad = pod("bad", "web", "10.1.2")
        answers = self.cluster(**{"/api/v1/pods?limit=500": page("Pod", POD, bad)})
        wrong = "BadValue object.status.podIP Address"
        run, values = self.send(answers, Feed({3: "refused 3 BadValue items[1].status.podIP Address", 5: f"refused 5 {wrong}"}, most=6))
        self.assertEqual([*modified(POD, bad), page("Service")], values[3:])
        why = f'{wrong}; Pod shop/bad has "10.1.2" at status.podIP, allowed: an IP address'
        self.assertIn(f"feed: MODIFIED Pod shop/bad is refused: {why}\n", run.error_output)

    def test_a_list_that_is_refused_after_a_watch(self):
        """An event for each item, and one that removes what is gone; the unreadable object keeps the version that the server holds."""
        gone = {"events": [{"type": "ERROR", "object": {"message": "too old"}}], "seconds": 20}
        answers = self.cluster(**{
            f"{SERVERS}?limit=500": [page("Server", OLD_EDGE, GONE, api=BETA), page("Server", WEB, EDGE, api=BETA, version="9")],
            f"{SERVERS}?watch=1&resourceVersion=7": gone,
            f"{SERVERS}?watch=1&resourceVersion=9": {"events": [], "seconds": 20},
        })
        feed = Feed({5: f"refused 5 {CHOICE}", 7: "refused 7 BadValue object.spec.proxyProtocol Choice"}, most=8)
        run, values = self.send(answers, feed)
        self.assertEqual([page("Server", WEB, EDGE, api=BETA, version="9"), *modified(WEB, EDGE), removed(GONE)], values[4:])
        self.assertIn(f"feed: the list of Server is refused: {CHOICE}; {IS_HTTP}\n", run.error_output)

    def test_watches_that_end_together(self):
        """Their kinds are listed again in the order of the first lists."""
        lines, ended = Lines(), queue.Queue()
        feeds = {kind: ListedAgain(Cluster([]), kind, [], lines) for kind in (SERVICE, POD_KIND, SERVER, AUTHORIZATION_POLICY)}
        for it in feeds.values():
            ended.put(it)
        lines.put_by(lambda: NotWatched(feeds, server_address("127.0.0.1:1"), frozenset()).list_again(ended))
        titles = []
        for line in lines.until(threading.Event()):
            titles.append(line.title)
            line.outcome.know("")
            if len(titles) == len(feeds):
                break
        lines.are_wanted = False
        self.assertEqual([f"the list of {kind}" for kind in ("AuthorizationPolicy", "Server", "Pod", "Service")], titles)


class RecordedFill(Case):
    """The lists with which a recording begins."""

    def send(self, lines: list[dict], feed: Feed, *words):
        """Sends a recording."""
        path = self.file("feed.jsonl", b"".join(json.dumps(it).encode() + b"\n" for it in lines))
        with FakeServer(feed) as fake:
            run = self.run_tool("feed", fake.address, "--from", path, *words)
        return run, [json.loads(line) for line in feed.lines]

    def test_policies_come_before_pods(self):
        """Lines keep the numbers that they have in the file."""
        lists = [page("Pod", POD), page("Server", WEB, api=BETA)]
        simulate = {"control": "simulate", "workload": "shop:web-1", "port": 8080, "client": "10.0.0.5"}
        changes = [*modified(POD), page("Pod"), simulate, {"type": "SYNC"}]
        feed = Feed({5: "verdict 5 denied default deny", 6: "refused 6 UnknownType"})
        run, values = self.send([*lists, *changes], feed)
        self.assertEqual([lists[1], lists[0], *changes], values)
        self.require(run, 7, "verdict 5 denied default deny\n", "feed: line 6 is refused: UnknownType\n")

    def test_a_policy_that_is_refused(self):
        """The feed stops before the Pods, unless the object is skipped."""
        lists = [page("Pod", POD), page("Server", WEB, EDGE, api=BETA)]
        feed = Feed({1: f"refused 1 {CHOICE}", 3: "refused 3 BadValue object.spec.proxyProtocol Choice"})
        run, values = self.send(lists, feed)
        self.assertEqual([lists[1], *modified(WEB, EDGE)], values)
        self.assertEqual((7, True), (run.status, f"feed: line 2 is refused: {CHOICE}; {IS_HTTP}\n" in run.error_output))
        run, values = self.send(lists, Feed({1: f"refused 1 {CHOICE}"}), "--skip", "Server/shop/edge")
        self.assertEqual([lists[1], page("Server", WEB, api=BETA), lists[0]], values)

    def test_what_a_refusal_says(self):
        """The object, the member, its value and what is allowed, where the fault names them."""
        profile = new_object("ServiceProfile", "web", {"routes": [{}]}, "linkerd.io/v1alpha2")
        lines = {
            "Missing object.spec.routes[0].name": (profile, "ServiceProfile shop/web has no spec.routes[0].name"),
            "BadValue object.spec.port Range": (server("web", "web", 0), "Server shop/web has 0 at spec.port, allowed: a whole number from 1 to 65535"),
            "WrongType object.spec.podSelector": (
                {**WEB, "spec": {"podSelector": []}},
                "Server shop/web has [] at spec.podSelector, allowed: what docs/FEED.md has for the kind",
            ),
            "BadName object.metadata.name": (
                new_object("Service", "Web", api="v1"),
                'Service shop/Web has "Web" at metadata.name, allowed: 1 to 253 of a-z, 0-9, - and .',
            ),
            "UnknownKind": (new_object("ConfigMap", "web", api="v1"), ""),
        }
        feed = Feed({number: f"refused {number} {fault}" for number, fault in enumerate(lines, 1)})
        run, _ = self.send(modified(*(value for value, _ in lines.values())), feed)
        said = [f"feed: line {number} is refused: {fault}{what and f'; {what}'}" for number, (fault, (_, what)) in enumerate(lines.items(), 1)]
        self.assertEqual(said, run.error_output.splitlines())

    def test_an_item_that_comes_twice(self):
        """It is named."""
        run, _ = self.send([page("Pod", POD, POD)], Feed({1: "refused 1 RepeatedItem 1"}))
        self.assertIn("feed: line 1 is refused: RepeatedItem 1; Pod shop/web-1 is in the list twice\n", run.error_output)
