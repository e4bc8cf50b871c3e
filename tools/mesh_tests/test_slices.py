"""The EndpointSlices that follow from a change, beside what Kubernetes documents and what its controller made in the recordings."""

import copy
import json
import unittest

from mesh_front import slices
from mesh_front.feed import Feed, Objects
from mesh_front.kinds import POD, SERVICE
from mesh_tests.support import EXAMPLES, RECORDINGS, Case, empty_lists, events_of, feed_of, lines_of, new_object, pod

LISTS = RECORDINGS / "kubernetes_lists.jsonl"
READY = {"conditions": [{"type": "Ready", "status": "True"}]}
LABELS = {slices.SERVICE_LABEL: "web", slices.MANAGER_LABEL: "endpointslice-controller.k8s.io"}


def ready_pod(name: str, app: str, address: str, *ports: int, **status) -> dict:
    """A Pod that is ready."""
    value = pod(name, app, address, *ports)
    return {**value, "status": {**value["status"], **READY, **status}}


def service(*ports: dict, **spec) -> dict:
    """A Service `web` for the Pods with the label `app=web`."""
    return new_object("Service", "web", {"clusterIP": "10.96.0.1", "selector": {"app": "web"}, "ports": list(ports), **spec}, "v1")


def endpoint_slice(*addresses: str, pods: list[str], port: int, labels: dict | None = None, name: str = "web-1") -> dict:
    """A slice of the Service `web`."""
    rows = [{"addresses": [it], "conditions": {"ready": True}, "targetRef": {"kind": "Pod", "name": one}} for it, one in zip(addresses, pods)]
    value = new_object("EndpointSlice", name, api="discovery.k8s.io/v1", labels=LABELS if labels is None else labels)
    return {**value, "addressType": "IPv4", "endpoints": rows, "ports": [{"name": "http", "port": port}]}


def named_port(name: str, number: int, protocol: str = "TCP") -> dict:
    """A port of a container."""
    return {"name": name, "containerPort": number, "protocol": protocol}


class Computed(unittest.TestCase):
    """The slices of one Service over some Pods, by the rules of Kubernetes' controller."""

    def rows(self, value: dict, *pods: dict) -> dict:
        """Each address with its readiness and its ports."""
        objects = Feed(feed_of(value, *pods)).objects()
        [key] = objects.of(SERVICE)
        result = {}
        for it in slices.slices_of(objects, key, value):
            ports = [(port["name"], port["port"], port["protocol"]) for port in it["ports"]]
            result |= {row["addresses"][0]: (row["conditions"]["ready"], ports) for row in it["endpoints"]}
        return result

    def test_which_pods(self):
        """Those with all labels of the selector, in its namespace, with an address, that have not ended."""
        elsewhere = ready_pod("f", "web", "10.0.0.6", 80)
        elsewhere["metadata"]["namespace"] = "other"
        pods = [
            ready_pod("a", "web", "10.0.0.1", 80),
            ready_pod("b", "api", "10.0.0.2", 80),
            ready_pod("c", "web", "10.0.0.3", 80, phase="Succeeded"),
            ready_pod("d", "web", "10.0.0.4", 80, phase="Failed"),
            ready_pod("e", "web", "", 80),
            elsewhere,
        ]
        self.assertEqual(["10.0.0.1"], list(self.rows(service({"port": 80}), *pods)))
        self.assertEqual({}, self.rows(service({"port": 80}, selector={"app": "web", "tier": "x"}), *pods))
        self.assertEqual({}, self.rows(service({"port": 80}, selector=None), *pods))
        self.assertEqual({}, self.rows(service({"port": 80}, type="ExternalName"), *pods))

    def test_readiness(self):
        """Ready is the condition of the Pod, unless it is ending; `publishNotReadyAddresses` makes every endpoint ready."""
        ending = ready_pod("c", "web", "10.0.0.3", 80)
        ending["metadata"]["deletionTimestamp"] = "2026-01-01T00:00:00Z"
        not_ready = ready_pod("b", "web", "10.0.0.2", 80, conditions=[{"type": "Ready", "status": "False"}])
        pods = [ready_pod("a", "web", "10.0.0.1", 80), not_ready, ending, pod("d", "web", "10.0.0.4", 80)]
        self.assertEqual([True, False, False, False], [it[0] for it in self.rows(service({"port": 80}), *pods).values()])
        published = self.rows(service({"port": 80}, publishNotReadyAddresses=True), *pods)
        self.assertEqual([True] * 4, [it[0] for it in published.values()])

    def test_ports(self):
        """A number, the port of the Service by default, and a name that each Pod has at its own number or not at all."""
        pods = [ready_pod(f"p{place}", "web", f"10.0.0.{place}") for place in range(1, 5)]
        pods[0]["spec"]["containers"] = [{"ports": [named_port("http", 8080)]}, {"ports": [named_port("http", 9090)]}]
        pods[1]["spec"]["containers"] = [{"ports": [named_port("http", 53, "UDP"), named_port("http", 8081)]}]
        pods[2]["spec"]["initContainers"] = [
            {"ports": [named_port("http", 1)]},
            {"restartPolicy": "Always", "ports": [named_port("http", 8082)]},
        ]
        ports = [{"name": "http", "port": 80, "targetPort": "http"}, {"name": "n", "port": 81, "targetPort": 8181}, {"name": "d", "port": 82}]
        others = [("n", 8181, "TCP"), ("d", 82, "TCP")]
        expected = {
            "10.0.0.1": (True, [("http", 8080, "TCP"), *others]),
            "10.0.0.2": (True, [("http", 8081, "TCP"), *others]),
            "10.0.0.3": (True, [("http", 8082, "TCP"), *others]),
            "10.0.0.4": (True, others),
        }
        self.assertEqual(expected, self.rows(service(*ports), *pods))
        udp = service({"name": "dns", "port": 53, "protocol": "UDP", "targetPort": "http"})
        self.assertEqual([("dns", 53, "UDP")], self.rows(udp, pods[1])["10.0.0.2"][1])

    def test_headless(self):
        """Without a cluster IP the endpoints are the same; without ports too, they have none."""
        one = ready_pod("a", "web", "10.0.0.1", 80)
        self.assertEqual({"10.0.0.1": (True, [("", 80, "TCP")])}, self.rows(service({"port": 80}, clusterIP="None"), one))
        self.assertEqual({"10.0.0.1": (True, [])}, self.rows(service(clusterIP="None"), one))

    def test_families(self):
        """The families of the Service; without any that of its address, and for a headless one both."""
        one = ready_pod("a", "web", "10.0.0.1", 80, podIPs=[{"ip": "10.0.0.1"}, {"ip": "fd00::1"}])
        families = {
            ("10.96.0.1", ()): ["10.0.0.1"],
            ("fd00:96::1", ()): ["fd00::1"],
            ("None", ()): ["10.0.0.1", "fd00::1"],
            ("None", ("IPv6",)): ["fd00::1"],
            ("10.96.0.1", ("IPv4", "IPv6")): ["10.0.0.1", "fd00::1"],
        }
        for (address, names), expected in families.items():
            value = service({"port": 80}, clusterIP=address, ipFamilies=list(names))
            self.assertEqual(expected, list(self.rows(value, one)), (address, names))
        objects = Feed(feed_of(service({"port": 80}), one)).objects()
        self.assertEqual({4}, slices.families(service(clusterIP=None), slices.primary_family(objects)))


class Followed(Case):
    """What `mesh diff` makes of a change of a Service or a Pod."""

    def feed(self, *more: dict) -> bytes:
        """A Service of two Pods, with the slice that the controller makes of them."""
        first, second = ready_pod("web-1", "web", "10.0.0.1"), ready_pod("web-2", "web", "10.0.0.2")
        for it in (first, second):
            it["spec"]["containers"][0]["ports"] = [named_port("http", 8080), named_port("admin", 9990)]
        made = endpoint_slice("10.0.0.1", "10.0.0.2", pods=["web-1", "web-2"], port=8080)
        return feed_of(service({"name": "http", "port": 80, "targetPort": "http"}), first, second, made, *more)

    def diff(self, feed: bytes, *words, manifests: tuple[dict, ...] = ()):
        """Compares a feed before and after changes."""
        changes = ["--apply", self.file("change", lines_of(*manifests))] if manifests else []
        return self.mesh("diff", feed, *changes, *words)

    def endpoints_after(self, run) -> str:
        """The part of an answer on the endpoints of the Service."""
        return run.output.partition("endpoints of Service web.shop:80\n")[2].partition("\n\n")[0]

    def test_a_typo_in_the_selector_of_a_service(self):
        """It selects no Pod: the Service has no endpoints, which is said first."""
        wrong = service({"name": "http", "port": 80, "targetPort": "http"}, selector={"app": "wbe"})
        run = self.diff(self.feed(), manifests=(wrong,))
        hint = "identity web.shop.serviceaccount.identity.linkerd.cluster.local hint HTTP/2, tunnel 4143"
        self.require(run, 1, f"""
            computed, as Kubernetes does: the EndpointSlices of Service shop/web

            closes  web.shop:80 has no endpoint any more

            endpoints of Service web.shop:80
            - 10.0.0.1:8080 Pod web-1 account web {hint}
            - 10.0.0.2:8080 Pod web-2 account web {hint}
            + the Service exists and has no endpoints

            views that change: 1 of 7
        """)

    def test_another_target_port(self):
        """Its number in the Pods is 9990; a name that they lack leaves no port."""
        run = self.diff(self.feed(), manifests=(service({"name": "http", "port": 80, "targetPort": "admin"}),))
        rows = [row.split()[1] for row in self.endpoints_after(run).splitlines() if row.startswith("+")]
        self.assertEqual((1, ["10.0.0.1:9990", "10.0.0.2:9990"]), (run.status, rows))
        run = self.diff(self.feed(), manifests=(service({"name": "http", "port": 80, "targetPort": "htpp"}),))
        self.assertTrue(self.endpoints_after(run).endswith("\n+ the Service exists and has no endpoints"), run.output)

    def test_a_pod_that_goes_or_changes_its_labels(self):
        """Its endpoint goes in both cases, and comes back with the label."""
        run = self.diff(self.feed(), "--delete", "Pod/shop/web-1")
        self.assertEqual(["- 10.0.0.1:8080"], [row[:15] for row in self.endpoints_after(run).splitlines()])
        self.assertIn("computed, as Kubernetes does: the EndpointSlices of Service shop/web\n", run.output)
        run = self.diff(self.feed(), manifests=(pod("web-2", "api", "10.0.0.2", 8080),))
        self.assertEqual(["- 10.0.0.2:8080"], [row[:15] for row in self.endpoints_after(run).splitlines()])
        other = self.feed(ready_pod("api-1", "api", "10.0.0.3", 80))
        relabelled = ready_pod("api-1", "web", "10.0.0.3")
        relabelled["spec"]["containers"][0]["ports"] = [named_port("http", 7070)]
        run = self.diff(other, manifests=(relabelled,))
        self.assertEqual(["+ 10.0.0.3:7070"], [row[:15] for row in self.endpoints_after(run).splitlines()])

    def test_a_pod_that_comes(self):
        """One with an address has its endpoint; of one without an address that is not computed, and the status says so."""
        new = ready_pod("web-3", "web", "10.0.0.3")
        new["spec"]["containers"][0]["ports"] = [named_port("http", 8080)]
        run = self.diff(self.feed(), manifests=({"type": "ADDED", "object": new},))
        self.assertEqual((1, ["+ 10.0.0.3:8080"]), (run.status, [row[:15] for row in self.endpoints_after(run).splitlines()]))
        run = self.diff(self.feed(), manifests=({name: value for name, value in new.items() if name != "status"},))
        self.assertEqual(12, run.status)
        self.assertEqual("not computed: the endpoints of Service shop/web: Pod shop/web-3 is new and has no address yet", run.output.splitlines()[0])
        self.assertEqual("", self.endpoints_after(run))

    def test_a_service_that_comes(self):
        """A new Service of Pods that are there has their endpoints."""
        new = new_object("Service", "api", {"selector": {"app": "web"}, "ports": [{"port": 80, "targetPort": 9990}]}, "v1")
        run = self.diff(self.feed(), manifests=(new,))
        part = run.output.partition("endpoints of Service api.shop:80\n")[2].partition("\n\n")[0]
        self.assertEqual(["+ 10.0.0.1:9990", "+ 10.0.0.2:9990"], [row[:15] for row in part.splitlines() if "Pod" in row])
        self.assertIn("opens   api.shop:80 has endpoints, and had none\n", run.output)

    def test_slices_that_the_controller_does_not_make(self):
        """What somebody else manages stays; where the feed's slices are others than the controller makes, nothing is computed."""
        custom = endpoint_slice("10.9.0.1", pods=["x"], port=8080, labels={**LABELS, slices.MANAGER_LABEL: "me.example"}, name="web-2")
        run = self.diff(self.feed(custom), "--delete", "Pod/shop/web-1")
        self.assertEqual(["- 10.0.0.1:8080"], [row[:15] for row in self.endpoints_after(run).splitlines()])
        more = endpoint_slice("10.9.0.1", pods=["x"], port=8080, name="web-2")
        run = self.diff(self.feed(more), "--delete", "Pod/shop/web-1")
        why = "its EndpointSlices in the feed are not those that Kubernetes makes of its Pods there"
        self.assertEqual((12, f"not computed: the endpoints of Service shop/web: {why}"), (run.status, run.output.splitlines()[0]))

    def test_without_a_list_of_pods(self):
        """Where the feed says nothing of Pods, a changed selector is not computed, and both are said."""
        value = service({"name": "http", "port": 80, "targetPort": "http"})
        feed = empty_lists("Pod") + events_of(value, endpoint_slice("10.0.0.1", pods=["web-1"], port=8080))
        run = self.diff(feed, manifests=({**value, "spec": {**value["spec"], "selector": {"app": "wbe"}}},))
        self.assertEqual(11, run.status)
        self.assertEqual([
            "incomplete: the feed has neither a list nor an event of Pod",
            "not computed: the endpoints of Service shop/web: the feed has neither a list nor an event of Pod",
        ], run.output.splitlines()[:2])
        feed = empty_lists() + events_of(value, endpoint_slice("10.0.0.1", pods=["web-1"], port=8080))
        self.assertEqual(12, self.diff(feed, manifests=({**value, "spec": {**value["spec"], "selector": {"app": "wbe"}}},)).status)

    def test_changes_that_concern_no_slice(self):
        """An annotation of the Service, a member that has its default, an annotation of its Pod, and a Pod that no Service selects."""
        annotated = service({"name": "http", "port": 80, "targetPort": "http", "protocol": "TCP"}, sessionAffinity="None")
        annotated["metadata"]["annotations"] = {"config.linkerd.io/opaque-ports": "80"}
        own = ready_pod("web-1", "web", "10.0.0.1")
        own["spec"]["containers"][0]["ports"] = [named_port("http", 8080), named_port("admin", 9990)]
        own["metadata"]["annotations"] = {"config.linkerd.io/opaque-ports": "9990"}
        run = self.diff(self.feed(), manifests=(annotated, own, pod("other", "other", "10.0.0.9", 80)))
        self.assertEqual(1, run.status)
        self.assertNotIn("computed", run.output)

    def test_json(self):
        """What is computed and what is not is in JSON too."""
        value = self.diff(self.feed(), "--delete", "Pod/shop/web-1", "-o", "json").json()
        self.assertEqual((["Service shop/web"], []), (value["computed"], value["not_computed"]))


def objects_of(path) -> Objects:
    """What a recording holds."""
    return Feed(path.read_bytes()).objects()


class Recorded(Case):
    """What Kubernetes' own controller made of the recorded Pods."""

    @unittest.skipUnless(LISTS.is_file(), "the recordings are not there")
    def test_each_service_of_the_lists(self):
        """The slices of each Service are those that were recorded."""
        objects = objects_of(LISTS)
        counts = {}
        for key in objects.of(SERVICE):
            computed = slices.ready_places(slices.slices_of(objects, key, objects.by_key[key]))
            self.assertEqual(slices.ready_places(slices.held_slices(objects, key)), computed, key)
            counts[f"{key.name}.{key.namespace}"] = len(computed)
        self.assertEqual(12, counts["web.gamma"], "six Pods with two ports, as examples/README.md has them")

    @unittest.skipUnless(LISTS.is_file(), "the recordings are not there")
    def test_each_pod_that_comes(self):
        """Without a Pod and its endpoint, the Pod comes: then the slices are again those that were recorded."""
        objects = objects_of(LISTS)
        count = 0
        for pod_key in objects.of(POD):
            by_key = copy.deepcopy({key: value for key, value in objects.by_key.items() if key != pod_key})
            for value in by_key.values():
                if value["kind"] == "EndpointSlice":
                    rows = value.get("endpoints") or []
                    value["endpoints"] = [it for it in rows if (it["targetRef"]["namespace"], it["targetRef"]["name"]) != (pod_key.namespace, pod_key.name)]
            found = slices.follow(Objects(by_key), objects, {pod_key}, [])
            self.assertEqual([], found.failed)
            for service_key in [key for key in objects.of(SERVICE) if str(key) in found.services]:
                own = [it for it in found.added if slices.labels(it)[slices.SERVICE_LABEL] == service_key.name]
                self.assertEqual(slices.ready_places(slices.held_slices(objects, service_key)), slices.ready_places(own))
                count += 1
        self.assertGreater(count, len(objects.of(POD)) // 2)

    def test_a_recording_without_pods(self):
        """examples/recorded.jsonl has no Pods: a changed selector is not computed."""
        feed = (EXAMPLES / "recorded.jsonl").read_bytes()
        changed = copy.deepcopy(next(it for it in map(json.loads, feed.splitlines()) if it["object"]["metadata"]["name"] == "web")["object"])
        changed["spec"]["selector"] = {"app": "wbe"}
        run = self.mesh("diff", feed, "--apply", self.file("change", lines_of(changed)))
        self.assertEqual(11, run.status)
        self.assertIn("not computed: the endpoints of Service gamma/web: ", run.output)
