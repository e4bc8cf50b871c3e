"""`mesh endpoints`."""

import json

from mesh_tests.support import EXAMPLES, Case, empty_lists, feed_of, lines_of, list_of, new_object, pod

NO_SLICE = (
    "no EndpointSlice of app has the label kubernetes.io/service-name=web; it has no selector, so that Kubernetes makes no "
    "EndpointSlices of it"
)


def service(*ports: dict, **spec) -> dict:
    """The Service `web`, whose selector is `app=web` unless another is given."""
    return new_object("Service", "web", {"selector": {"app": "web"}, "ports": list(ports), **spec}, "v1")


def endpoint_slice(name: str, ports: list[dict], *rows: dict, address_type: str = "IPv4") -> dict:
    """A slice of the Service `web`."""
    value = new_object("EndpointSlice", name, None, "discovery.k8s.io/v1", {"kubernetes.io/service-name": "web"})
    return {**value, "addressType": address_type, "endpoints": list(rows), "ports": ports}


def row(address: str, name: str | None = None, **conditions: bool) -> dict:
    """An endpoint of a slice."""
    target = {"targetRef": {"kind": "Pod", "name": name}} if name else {}
    return {"addresses": [address], "conditions": conditions, **target}


class Endpoints(Case):
    """Which endpoints a Service has."""

    def test_each_port_of_a_service_whose_pods_are_not_held(self):
        """The only slice of `api` has one address, at 8080 for the port `http` and at 9990 for `admin`. The feed has no Pods."""
        self.require(self.mesh("endpoints", "first.jsonl", "api.gamma"), 11, """
            incomplete: the feed has neither a list nor an event of Pod
            SERVICE PORT   ADDRESS      PORT   POD   ACCOUNT   MESHED   HINT
            80             10.42.0.20   8080   -     -         -        -
            9990           10.42.0.20   9990   -     -         -        -
        """)

    def test_a_meshed_pod_and_one_without_a_proxy(self):
        """After the seventh line both Pods are behind the Service; `web-2` has no label of a control plane."""
        feed = b"\n".join((EXAMPLES / "changes.jsonl").read_bytes().split(b"\n")[:7])
        self.require(self.mesh("endpoints", feed, "web.app:80"), 0, """
            SERVICE PORT   ADDRESS    PORT   POD     ACCOUNT   MESHED   HINT
            80             10.1.2.3   8080   web-1   web       yes      HTTP/2, tunnel 4143
            80             10.1.2.4   8080   web-2   web       no       -
        """)

    def test_json(self):
        """The identity is in JSON alone. The control plane is that of the options."""
        words = ["--cluster-domain", "k8s.example", "--control-plane-namespace=linkerd-prod", "-o", "json"]
        row = {
            "address": "10.42.0.3",
            "port": 8080,
            "weight": 10000,
            "pod": "web-1",
            "account": "web",
            "identity": "web.app.serviceaccount.identity.linkerd-prod.cluster.local",
            "http2": True,
            "tunnel_port": 4143,
        }
        run = self.mesh("endpoints", "configured.jsonl", "web.app", *words)
        ports = [{"service_port": 80, "exists": True, "endpoints": [row], "reason": None, "absent": []}]
        self.assertEqual({"missing": [], "refused": [], "ports": ports}, run.json())
        self.assertEqual(0, run.status)

    def test_a_pod_of_another_control_plane_is_not_meshed(self):
        """Without options the control plane is `linkerd`, and the Pod is labelled for `linkerd-prod`."""
        self.require(self.mesh("endpoints", "configured.jsonl", "web.app"), 0, """
            SERVICE PORT   ADDRESS     PORT   POD     ACCOUNT   MESHED   HINT
            80             10.42.0.3   8080   web-1   web       no       -
        """)

    def test_a_page_of_a_list(self):
        """The second page replaces the first. The program's warning is passed on."""
        service = {"metadata": {"name": "web", "namespace": "app"}, "spec": {"ports": [{"name": "http", "port": 80}]}}
        pages = [
            {"apiVersion": "v1", "kind": "ServiceList", "metadata": {"continue": "abc"}, "items": [service]},
            {"apiVersion": "v1", "kind": "ServiceList", "metadata": {}, "items": [service]},
        ]
        run = self.mesh("endpoints", b"".join(json.dumps(page).encode() + b"\n" for page in pages), "web.app:80")
        self.assertEqual("linkerd_cli: warning: line 1 is one page of a list of kind Service: it counts as the whole list and "
                         "replaces all objects of the kind\n", run.error_output)
        self.assertEqual(11, run.status)

    def test_what_kubernetes_own_controller_found(self):
        """The ready addresses that examples/README.md has from the Endpoints objects."""
        expected = {
            "web": [41, 53, 88, 95, 109, 113],
            "api": [26, 35, 47, 64, 72, 86, 99, 103, 116],
            "db": [82, 107],
            "cart": [38, 73, 85, 110, 115],
        }
        for name, ends in expected.items():
            run = self.mesh("endpoints", "recorded.jsonl", f"{name}.gamma:80", "-o", "json")
            self.assertEqual((["Pod"], 11), (run.json()["missing"], run.status))
            [port] = run.json()["ports"]
            rows = [(it["address"], it["port"]) for it in port["endpoints"]]
            self.assertEqual([(f"10.42.0.{end}", 8080) for end in ends], rows)

    def test_an_external_name(self):
        """An ExternalName is held and counts as not existing."""
        run = self.mesh("endpoints", "recorded.jsonl", "ext.gamma")
        missing = "incomplete: the feed has neither a list nor an event of Pod\n"
        self.require(run, 11, f"{missing}ext.gamma:80 counts as not existing: it is an ExternalName, of example.com\n")

    def test_no_endpoints(self):
        """The Service of this feed has no slice and no selector."""
        self.require(self.mesh("endpoints", "policy.jsonl", "web.app"), 0, f"web.app:80 exists and has no endpoints: {NO_SLICE}\n")

    def test_unknown_names(self):
        """An unknown Service is told with the nearest names, an unknown port with those that there are."""
        run = self.mesh("endpoints", "recorded.jsonl", "wbe.gamma")
        self.require(run, 3, "", "mesh: there is no Service wbe.gamma in the feed; the nearest: web.gamma, db.gamma, ext.gamma\n")
        run = self.mesh("endpoints", "first.jsonl", "api.gamma:81")
        self.require(run, 3, "", "mesh: the Service api.gamma has no port 81; it has 80, 9990\n")

    def test_a_removed_service(self):
        """The last line of the feed removes the only Service."""
        self.require(self.mesh("endpoints", "changes.jsonl", "web.app"), 3, "", "mesh: there is no Service web.app in the feed\n")

    def test_refused_lines(self):
        """Line 2 is refused and so the Service is that of line 1. The answer is printed, and its first line says which lines are refused.

        Line 5 is cut, so that nobody knows its kind.
        """
        feed = empty_lists() + (EXAMPLES / "refused.jsonl").read_bytes()
        self.require(self.mesh("endpoints", feed, "web.app"), 7, """
            incomplete: refused: line 13 (Service app/web), line 15 (EndpointSlice app/web-b), line 16 (of an unknown kind)
            SERVICE PORT   ADDRESS    PORT   POD   ACCOUNT   MESHED   HINT
            80             10.1.2.3   8080   -     -         -        -
        """, "mesh: 3 lines are refused; the first is line 13: BadValue object.spec.ports[0].port Range\n")

    def test_a_refused_line_that_does_not_matter(self):
        """A later line says it all, or the line is of a kind on which the answer does not rest, or of none that is read."""
        service = {"metadata": {"name": "web", "namespace": "app"}, "spec": {"ports": [{"port": 80}]}}
        wrong = {"metadata": {"name": "web", "namespace": "app"}, "spec": {"ports": [{"port": 0}]}}
        others = [
            {"type": "ADDED", "object": {"kind": "Server", "apiVersion": "policy.linkerd.io/v1beta3"}},
            {"type": "ADDED", "object": {"kind": "ConfigMap", "apiVersion": "v1", "metadata": {"name": "a"}}},
        ]
        for refused in (list_of("Service", "v1", wrong), {"type": "ADDED", "object": {"kind": "Service", "apiVersion": "v1", **wrong}}):
            feed = empty_lists("Service") + lines_of(refused, *others, list_of("Service", "v1", service))
            run = self.mesh("endpoints", feed, "web.app")
            self.assertEqual((7, f"web.app:80 exists and has no endpoints: {NO_SLICE}\n"), (run.status, run.output))
        run = self.mesh("endpoints", empty_lists("Service") + lines_of(list_of("Service", "v1", service), list_of("Service", "v1", wrong)), "web.app")
        self.assertEqual("incomplete: refused: line 12 (the list of Service)", run.output.splitlines()[0])


class NoEndpoints(Case):
    """Why an address or a Pod is no endpoint: an endpoint is ready unless its condition says no, and the slice must have the port's name."""

    HTTP = {"name": "http", "port": 80}

    def absent(self, *objects: dict, words: str = "web.shop:80") -> list[list[str | None]]:
        """The address, the Pod and the reason of what is no endpoint."""
        [port] = self.mesh("endpoints", feed_of(*objects), words, "-o", "json").json()["ports"]
        return [[it["address"], it["pod"], it["why"]] for it in port["absent"]]

    def reason(self, *objects: dict, words: str = "web.shop:80") -> str:
        """Why there is no endpoint."""
        [port] = self.mesh("endpoints", feed_of(*objects), words, "-o", "json").json()["ports"]
        self.assertEqual([], port["endpoints"])
        return port["reason"]

    def test_one_of_three(self):
        """The table has what is not ready, what ends, what another slice has under another port, and Pods that no slice has."""
        ready = endpoint_slice("web-a", [{"name": "http", "port": 8080}], row("10.0.0.1", "web-1"), row("10.0.0.2", "web-2", ready=False),
                               row("10.0.0.3", "web-3", ready=False, serving=True, terminating=True))
        other = endpoint_slice("web-b", [{"name": "web", "port": 8080}], row("10.0.0.4", "web-4"), row("10.0.0.5", "web-5", ready=False))
        pods = [pod(f"web-{number}", "web", f"10.0.0.{number}", 8080) for number in range(1, 6)]
        ended = {**pod("web-6", "web", "10.0.0.6", 8080), "status": {"phase": "Failed", "podIP": "10.0.0.6"}}
        waiting = {**pod("web-7", "web", "", 8080), "status": {"phase": "Pending"}}
        strange = pod("db-1", "db", "10.0.0.9", 80)
        feed = feed_of(service(self.HTTP), ready, other, *pods, ended, waiting, strange, pod("web-8", "web", "10.0.0.8", 8080))
        self.require(self.mesh("endpoints", feed, "web.shop:80"), 0, """
            SERVICE PORT   ADDRESS    PORT   POD     ACCOUNT   MESHED   HINT
            80             10.0.0.1   8080   web-1   web       yes      HTTP/2, tunnel 4143

            SERVICE PORT   NO ENDPOINT   POD     WHY
            80             10.0.0.2      web-2   it is not ready
            80             10.0.0.3      web-3   it is terminating, and still serves
            80             10.0.0.4      web-4   its EndpointSlice web-b has no TCP port named http; its ports: web
            80             10.0.0.5      web-5   it is not ready, and its EndpointSlice web-b has no TCP port named http; its ports: web
            80             10.0.0.6      web-6   no EndpointSlice has it: its phase is Failed
            80             -             web-7   no EndpointSlice has it: it has no address yet
            80             10.0.0.8      web-8   no EndpointSlice has it, although the selector selects it
        """)

    def test_an_address_that_another_slice_has(self):
        """While an endpoint moves to another slice, it is an endpoint if one of the two has it ready."""
        old = endpoint_slice("web-a", [self.HTTP], row("10.0.0.1", ready=False))
        new = endpoint_slice("web-b", [self.HTTP], row("10.0.0.1"))
        self.assertEqual([], self.absent(service(self.HTTP), old, new))

    def test_ports_that_no_slice_has(self):
        """A port without a name, a port of UDP, and a slice with names in place of addresses."""
        named = endpoint_slice("web-a", [{"name": "http", "port": 8080}], row("10.0.0.1"))
        udp = endpoint_slice("web-a", [{**self.HTTP, "protocol": "UDP"}], row("10.0.0.1"))
        names = endpoint_slice("web-a", [self.HTTP], row("a.example"), address_type="FQDN")
        self.assertEqual([["10.0.0.1", None, "its EndpointSlice web-a has no TCP port without a name; its ports: http"]], self.absent(service({"port": 80}), named))
        self.assertEqual([["10.0.0.1", None, "its EndpointSlice web-a has no TCP port named http; its ports: http (UDP)"]], self.absent(service(self.HTTP), udp))
        self.assertEqual([["a.example", None, "its EndpointSlice web-a has addresses of the type FQDN and the ports http"]], self.absent(service(self.HTTP), names))

    def test_why_there_are_none(self):
        """No slice, by the selector; slices without an address; a port of UDP; and addresses none of which is ready."""
        none = "no EndpointSlice of shop has the label kubernetes.io/service-name=web; its selector app=web selects"
        self.assertEqual(f"{none} no Pod of the feed", self.reason(service(self.HTTP)))
        self.assertEqual(f"{none} 1 Pod of the feed", self.reason(service(self.HTTP), pod("web-1", "web", "10.0.0.1", 80)))
        empty = endpoint_slice("web-a", [self.HTTP])
        self.assertEqual("its EndpointSlices have no address; its selector app=web selects no Pod of the feed", self.reason(service(self.HTTP), empty))
        udp = service({"name": "dns", "port": 53, "protocol": "UDP"})
        self.assertEqual("it has no TCP port 53; its ports: dns (UDP)", self.reason(udp, empty, words="web.shop:53"))
        unready = endpoint_slice("web-a", [self.HTTP], row("10.0.0.1", ready=False))
        self.assertEqual("no address of its EndpointSlices is a ready endpoint of this port", self.reason(service(self.HTTP), unready))
