"""`mesh diff`."""

import json

from mesh_tests.support import (
    EXAMPLES,
    IDENTITIES,
    POLICY,
    Case,
    empty_lists,
    events_of,
    feed_of,
    lines_of,
    list_of,
    new_object,
    pod,
    policy,
    program,
    reference,
    server,
)

OPEN_SERVER = (EXAMPLES / "open-server.yaml").read_bytes()
OPENED = "denied default deny -> allowed default all-unauthenticated"
DEPLOYMENT = """
---
# Source: shop/templates/config.yaml
apiVersion: v1
kind: ConfigMap
metadata: {name: settings}
data:
  on: yes
  text: >-
    of two
    lines
---
apiVersion: v1
kind: ConfigMap
metadata: {name: others}
---
apiVersion: rbac.authorization.k8s.io/v1
kind: Role
metadata: {name: reader}
"""


class Diff(Case):
    """Which views a change of objects changes."""

    def diff(self, feed, data: bytes, *words):
        """Compares a feed with and without the objects of a file."""
        return self.mesh("diff", feed, "--apply", self.file("change", data), *words)

    def test_a_policy_of_a_server(self):
        """The port of the Pod has another policy; the three views of the Service stay. The route `admin` is for `/admin` alone."""
        self.require(self.diff("policy.jsonl", OPEN_SERVER), 1, f"""
            opens   app/web-1:8080 to anyone (203.0.113.7, no identity), GET /admin: {OPENED}
            closes  nothing that was tried

            inbound policy of Pod app/web-1:8080
            - policy deny
            + policy all-unauthenticated

            views that change: 1 of 4
        """)

    def test_nothing_changes(self):
        """The Server as it is in the feed."""
        data = OPEN_SERVER.replace(b"  accessPolicy: all-unauthenticated\n", b"")
        self.require(self.diff("policy.jsonl", data), 0, "views that change: 0 of 4\n")

    def test_objects_that_are_removed(self):
        """Without its Service there are no endpoints and no routes; without its authorization the gateway is not admitted."""
        words = ["--delete", "AuthorizationPolicy/app/from-gateway", "--delete", "Service/web", "-n", "app", "-o", "json"]
        run = self.mesh("diff", "policy.jsonl", *words)
        value = run.json()
        groups = {it["views"][0]: it for it in value["changes"]}
        self.assertEqual((1, 4), (run.status, value["compared"]))
        expected = ["inbound policy of Pod app/web-1:8080", "endpoints of Service web.app:80", "outbound policy of Service web.app:80"]
        self.assertEqual(expected, list(groups))
        gone = f"AuthorizationPolicy/from-gateway for Server/web: networks 10.0.0.0/8 except 10.9.0.0/16, clients gateway.edge.{IDENTITIES}"
        self.assertEqual([f"- {gone}"], groups[expected[0]]["changed_rows"])
        self.assertEqual(["the Service exists and has no endpoints"], groups[expected[1]]["before"])
        self.assertEqual(["the Service does not exist"], groups[expected[1]]["after"])
        self.assertEqual(["absent"], groups[expected[2]]["after"])
        client = f"the clients of AuthorizationPolicy/from-gateway (10.1.2.3, gateway.edge.{IDENTITIES})"
        verdicts = "allowed AuthorizationPolicy app/from-gateway -> denied default deny"
        self.assertEqual(([], [f"app/web-1:8080 to {client}, GET /admin: {verdicts}"]), (value["opens"], value["closes"]))

    def test_a_new_pod(self):
        """A Pod that comes is told with its port, and so is the row of an endpoint that it gets. The file has the slice."""
        feed = empty_lists() + b"\n".join((EXAMPLES / "changes.jsonl").read_bytes().split(b"\n")[:3])
        second = (EXAMPLES / "changes.jsonl").read_bytes().split(b"\n")[5:7]
        self.require(self.diff(feed, b"\n".join(second)), 1, """
            opens   app/web-2:8080 to anyone (203.0.113.7, no identity): no-workload -> allowed default all-unauthenticated
            closes  nothing that was tried

            inbound policy of Pod app/web-2:8080
            - the Pod does not exist
            + server none
            + protocol unknown
            + policy all-unauthenticated

            endpoints of Service web.app:80
            + 10.1.2.4:8080 Pod web-2 account web hint -

            views that change: 2 of 5
        """)

    def test_a_bundle_and_a_deletion(self):
        """The items of a `List` are manifests; an event removes an object."""
        feed = feed_of(pod("a-1", "a", "10.0.0.1", 80))
        first, second = server("a", "a", 80), server("b", "a", 80)
        bundle = {"kind": "List", "apiVersion": "v1", "items": [first, second]}
        self.require(self.diff(feed, json.dumps(bundle, indent=2).encode()), 1, """
            opens   nothing that was tried
            closes  shop/a-1:80 to anyone (203.0.113.7, no identity): allowed default all-unauthenticated -> denied default deny

            inbound policy of Pod shop/a-1:80
            - server none
            + server a
            - policy all-unauthenticated
            + policy deny

            views that change: 1 of 1
        """)
        event = {"type": "DELETED", "object": first}
        self.require(self.diff(feed + events_of(first, second), json.dumps(event).encode()), 1, """
            opens   nothing that was tried
            closes  nothing that was tried

            inbound policy of Pod shop/a-1:80
            - server a
            + server b

            views that change: 1 of 1
        """)

    def test_a_whole_list_or_recording(self):
        """A list would remove what it lacks, and a change does not, and so it is refused; so are a line of control and what is held as it is."""
        feed = feed_of(pod("a-1", "a", "10.0.0.1", 80), server("a", "a", 80))
        change, hint = self.room / "change", "two recordings are compared by `mesh diff OLD NEW`"
        what = f"mesh: {change} has a whole ServerList, as a recording has, and a change has single objects: {hint}"
        servers = list_of("Server", f"{POLICY}/v1beta3", server("b", "a", 80))
        for data in (json.dumps(servers).encode(), json.dumps(servers, indent=1).encode(), b"kind: ServerList\napiVersion: policy.linkerd.io/v1beta3\n"):
            self.require(self.diff(feed, data), 2, "", f"{what}, and objects of a list are given as manifests\n")
        run = self.diff(feed, (EXAMPLES / "recorded.jsonl").read_bytes())
        self.assertEqual((2, ""), (run.status, run.output))
        self.assertIn(f"{change} has a line of control, as a feed has", run.error_output)
        run = self.diff(feed, events_of(pod("b-1", "b", "10.0.0.2", 80), server("a", "a", 80)))
        self.require(run, 2, "", f"mesh: Server shop/a is added and is in the feed already, as where a recording is applied: {hint}\n")

    def test_a_change_that_is_refused(self):
        """The program refuses a misspelt policy, and its fault is told."""
        run = self.diff("policy.jsonl", OPEN_SERVER.replace(b"all-unauthenticated", b"open"))
        error_output = "mesh: the change of Server app/web is refused: BadValue object.spec.accessPolicy Choice\n"
        self.require(run, 7, "", error_output)

    def test_wrong_files(self):
        """A file that is no YAML, an event of another kind, one that is unclear or not there, and none."""
        change = self.room / "change"
        run = self.diff("policy.jsonl", b"kind: Server\n  name: web\n")
        self.require(run, 2, "", f"mesh: cannot read {change}: line 2: mapping values are not allowed here\n")
        run = self.diff("policy.jsonl", b'{"type":"ADDED","object":{"kind":"ConfigMap","metadata":{"name":"a"}}}')
        what = f"{change} has an event ADDED of ConfigMap a"
        self.require(run, 2, "", f"mesh: {what}, which is none of the kinds that are read, or no change of an object\n")
        run = self.diff("policy.jsonl", OPEN_SERVER.replace(b"all-unauthenticated", b"no"))
        self.require(run, 2, "", f"mesh: cannot read {change}: line 8: no is not read here; put it into quotes if it is a string\n")
        self.require(self.diff("policy.jsonl", b"# nothing\n---\n"), 2, "", f"mesh: {change} has no object\n")
        run = self.mesh("diff", "policy.jsonl", "--apply", self.room / "none")
        self.require(run, 2, "", f"mesh: cannot read {self.room}/none: No such file or directory\n")
        self.require(self.mesh("diff", "policy.jsonl"), 2, "", "mesh: give --apply FILE or --delete KIND/NS/NAME, or two recordings\n")

    def test_an_unknown_object_to_remove(self):
        """A typo is an error with the nearest names, as a word and as an event; two kinds of one name need their groups."""
        run = self.mesh("diff", "policy.jsonl", "--delete", "Server/app/wbe")
        error_output = "mesh: there is no Server app/wbe to remove in the feed; the nearest: app/web\n"
        self.require(run, 3, "", error_output)
        event = {"type": "DELETED", "object": {**server("wbe", "a", 80), "metadata": {"name": "wbe", "namespace": "app"}}}
        self.require(self.diff("policy.jsonl", json.dumps(event).encode()), 3, "", error_output)
        run = self.mesh("diff", "policy.jsonl", "--delete", "Server/web")
        self.require(run, 3, "", "mesh: there is no Server default/web to remove in the feed; the nearest: app/web\n")
        run = self.mesh("diff", "policy.jsonl", "--delete", "Sever/app/web")
        self.require(run, 2, "", "mesh: argument --delete: 'Sever/app/web' is not KIND/[NS/]NAME; mesh diff --help tells more\n")
        routes = [new_object("HTTPRoute", "r"), new_object("HTTPRoute", "r", api="gateway.networking.k8s.io/v1")]
        names = ["HTTPRoute.policy.linkerd.io", "HTTPRoute.gateway.networking.k8s.io"]
        run = self.mesh("diff", feed_of(*routes), "--delete", "HTTPRoute/shop/r")
        self.require(run, 2, "", f"mesh: there are {names[0]} shop/r and {names[1]} shop/r: say which by {names[0]} or {names[1]}\n")
        self.require(self.mesh("diff", feed_of(*routes), "--delete", f"{names[1]}/shop/r"), 0, "views that change: 0 of 0\n")

    def test_other_kinds(self):
        """What helm and kustomize print goes in as it is: other kinds are left out with a note, whatever words they have."""
        run = self.diff("policy.jsonl", DEPLOYMENT.encode() + b"---\n" + OPEN_SERVER)
        note = f"mesh: left out of {self.room}/change, since no view rests on them: 2 ConfigMap, 1 Role\n"
        self.assertEqual((1, note), (run.status, run.error_output))
        self.assertTrue(run.output.endswith("views that change: 1 of 4\n"), run.output)
        run = self.diff("policy.jsonl", DEPLOYMENT.encode())
        self.require(run, 0, "views that change: 0 of 4\n", note)

    def test_kinds_that_may_change_views(self):
        """The Pods of a Deployment, a kind of Linkerd's that is not read, and a misspelt kind or group: that is not `nothing changes`."""
        objects = {
            "the Pods of Deployment app/web": ("Deployment", "apps/v1"),
            "what follows from a kind of policy.linkerd.io that is not read: EgressNetwork app/web": ("EgressNetwork", f"{POLICY}/v1alpha1"),
            "what is no Server of policy.linkerd.io/v1beta3 but of v1: Server app/web": ("Server", "v1"),
            "the EndpointSlices of Endpoints app/web": ("Endpoints", "v1"),
        }
        for what, (kind, api) in objects.items():
            value = {"kind": kind, "apiVersion": api, "metadata": {"name": "web", "namespace": "app"}}
            self.require(self.diff("policy.jsonl", json.dumps(value).encode()), 12, f"""
                not computed: {what}

                views that change: 0 of 4
            """)
        value = {"kind": "Namespace", "apiVersion": "v1", "metadata": {"name": "app", "annotations": {"config.linkerd.io/default-inbound-policy": "deny"}}}
        self.assertEqual(12, self.diff("policy.jsonl", json.dumps(value).encode()).status)

    def test_the_namespace(self):
        """Objects without a namespace are in the one that is given, which the answer says."""
        data = OPEN_SERVER.replace(b"  namespace: app\n", b"")
        run = self.diff("policy.jsonl", data, "-n", "app")
        self.assertEqual((1, "in the namespace app, since they name none: Server web"), (run.status, run.output.splitlines()[0]))
        run = self.diff("policy.jsonl", data, "-o", "json")
        self.assertEqual((0, "default", ["Server web"]), (run.status, run.json()["namespace"], run.json()["without_namespace"]))

    def test_views_that_change_alike(self):
        """Three Pods of one Server are told once, and a fourth of another Server on its own."""
        pods = [pod(f"a-{number}", "a", f"10.0.0.{number}", 80) for number in (1, 2, 3)] + [pod("b-1", "b", "10.0.0.4", 80)]
        feed = feed_of(*pods, server("a", "a", 80), server("b", "b", 80))
        manifests = [server("a", "a", 80, accessPolicy="all-authenticated"), server("b", "b", 80, accessPolicy="cluster-unauthenticated")]
        verdict = "denied default deny -> allowed default"
        self.require(self.diff(feed, lines_of(*manifests)), 1, f"""
            opens   shop/a-1:80, shop/a-2:80, shop/a-3:80 to any identity (203.0.113.7, any): {verdict} all-authenticated
            opens   shop/b-1:80 to anyone in the cluster (10.0.0.1, no identity): {verdict} cluster-unauthenticated
            closes  nothing that was tried

            inbound policy of Pods shop/a-1:80, shop/a-2:80, shop/a-3:80
            - policy deny
            + policy all-authenticated

            inbound policy of Pod shop/b-1:80
            - policy deny
            + policy cluster-unauthenticated

            views that change: 4 of 4
        """)

    def test_a_typo_in_the_selector_of_a_server(self):
        """No Server selects the port any more: it is open, and that is the first thing that is said."""
        feed = feed_of(pod("a-1", "a", "10.0.0.1", 80), server("a", "a", 80))
        self.require(self.diff(feed, lines_of(server("a", "aa", 80))), 1, f"""
            opens   shop/a-1:80 to anyone (203.0.113.7, no identity): {OPENED}
            closes  nothing that was tried

            inbound policy of Pod shop/a-1:80
            - server a
            + server none
            - policy deny
            + policy all-unauthenticated

            views that change: 1 of 1
        """)

    def test_what_is_tried(self):
        """Each match of a route, with its method, host, header and query; a probe; and the clients of an authorization."""
        match = {
            "path": {"type": "Exact", "value": "/x"},
            "method": "PUT",
            "headers": [{"name": "x-a", "value": "1"}],
            "queryParams": [{"name": "q", "value": "2"}],
        }
        spec = {"parentRefs": [reference("Server", "a")], "hostnames": ["*.example"], "rules": [{"matches": [match]}]}
        feed = feed_of(pod("a-1", "a", "10.0.0.1", 80), server("a", "a", 80, proxyProtocol="HTTP/1"), new_object("HTTPRoute", "r", spec))
        account = {"kind": "ServiceAccount", "name": "cli"}
        run = self.diff(feed, lines_of(policy("cli", reference("HTTPRoute", "r"), account)))
        client = f"the clients of AuthorizationPolicy/cli (10.0.0.1, cli.shop.{IDENTITIES})"
        request, verdicts = "PUT /x?q=2 of the host x.example with x-a=1", "denied default deny -> allowed AuthorizationPolicy shop/cli"
        self.assertEqual(f"opens   shop/a-1:80 to {client}, {request}: {verdicts}", run.output.splitlines()[0])
        feed = (EXAMPLES / "probes.jsonl").read_bytes()
        run = self.mesh("diff", feed, "--delete", "Server/app/web")
        self.assertIn("opens   app/web-1:8080 to anyone (203.0.113.7, no identity): denied default deny -> allowed", run.output)

    def test_an_authorization_that_admits_others(self):
        """Of an authorization that stays, an identity, a network and the end of an exception come, and an identity goes: each is told."""
        rules = reference("Server", "a"), reference("MeshTLSAuthentication", "who"), reference("NetworkAuthentication", "where")

        def authentications(identities, *networks):
            who = new_object("MeshTLSAuthentication", "who", {"identities": list(identities)}, f"{POLICY}/v1alpha1")
            return who, new_object("NetworkAuthentication", "where", {"networks": list(networks)}, f"{POLICY}/v1alpha1")

        before = authentications("ab", {"cidr": "10.0.0.0/8", "except": ["10.9.0.0/16"]})
        after = authentications("bc", {"cidr": "10.0.0.0/8"}, {"cidr": "192.168.0.0/16"})
        feed = feed_of(pod("a-1", "a", "10.0.0.1", 80), server("a", "a", 80), policy("p", *rules), *before)
        value = self.diff(feed, lines_of(*after), "-o", "json").json()
        clients, denied, allowed = "the clients of AuthorizationPolicy/p", "denied default deny", "allowed AuthorizationPolicy shop/p"
        opens = f"shop/a-1:80 to {clients} (10.0.0.1, c; 10.9.0.0, b; 192.168.0.0, b): {denied} -> {allowed}"
        self.assertEqual(([opens], [f"shop/a-1:80 to {clients} (10.0.0.1, a): {allowed} -> {denied}"]), (value["opens"], value["closes"]))

    def test_what_the_api_server_sets(self):
        """A manifest of a route keeps the time of its creation, and one of a Pod its address."""
        older, newer = (new_object("HTTPRoute", name, {"parentRefs": [reference("Server", "a")], "rules": [{}]}) for name in ("z", "a"))
        manifest = json.loads(json.dumps(older))
        for value, hour in ((older, 1), (newer, 2)):
            value["metadata"]["creationTimestamp"] = f"2026-01-01T0{hour}:00:00Z"
        one = pod("a-1", "a", "10.0.0.1", 80)
        feed = feed_of(one, server("a", "a", 80, proxyProtocol="HTTP/1"), older, newer)
        without_status = {name: value for name, value in one.items() if name != "status"}
        self.require(self.diff(feed, lines_of(manifest, without_status)), 0, "views that change: 0 of 1\n")

    def test_two_recordings(self):
        """What is only in the new one comes, and what is only in the old one goes."""
        old = self.file("old", feed_of(pod("a-1", "a", "10.0.0.1", 80), server("a", "a", 80)))
        new = self.file("new", feed_of(pod("a-1", "a", "10.0.0.1", 80), pod("a-2", "a", "10.0.0.2", 80)))
        words = ["diff", "--program", program()]
        self.require(self.run_mesh(*words, old, new), 1, f"""
            opens   shop/a-1:80 to anyone (203.0.113.7, no identity): {OPENED}
            opens   shop/a-2:80 to anyone (203.0.113.7, no identity): no-workload -> allowed default all-unauthenticated
            closes  nothing that was tried

            inbound policy of Pod shop/a-1:80
            - server a
            + server none
            - policy deny
            + policy all-unauthenticated

            inbound policy of Pod shop/a-2:80
            - the Pod does not exist
            + server none
            + protocol unknown
            + policy all-unauthenticated

            views that change: 2 of 2
        """)
        partial = self.file("partial", empty_lists("Server", "HTTPRoute") + events_of(pod("a-1", "a", "10.0.0.1", 80)))
        run = self.run_mesh(*words, old, partial)
        missing = ", ".join(f"{kind} in {partial}" for kind in ("Server", "HTTPRoute.policy.linkerd.io", "HTTPRoute.gateway.networking.k8s.io"))
        self.assertEqual((11, f"incomplete: the feed has neither a list nor an event of {missing}"), (run.status, run.output.splitlines()[0]))
        run = self.run_mesh(*words, old, old)
        self.require(run, 2, "", "mesh: give two recordings that are not the same file\n")
        for more in ([old], [old, new, old], [old, new, "--delete", "Server/shop/a"], [old, new, "--feed", old]):
            run = self.run_mesh(*words, *more)
            what = "give two recordings, OLD and NEW, and neither --feed nor changes; or a feed and changes alone"
            self.require(run, 2, "", f"mesh: {what}\n")

    def test_refused_lines_of_two_recordings(self):
        """The recording of a refused line is named."""
        old = self.file("old", feed_of(pod("a-1", "a", "10.0.0.1", 80)))
        new = self.file("new", feed_of(pod("a-1", "a", "10.0.0.1", 80), server("a", "a", 0)))
        run = self.run_mesh("diff", "--program", program(), old, new)
        self.require(run, 7, f"""
            incomplete: refused: line 13 (Server shop/a) of {new}
            views that change: 0 of 1
        """, f"mesh: 1 line of {new} is refused; the first is line 13: BadValue object.spec.port Range\n")

    def test_an_incomplete_feed(self):
        """A feed without Servers: the answer is not `nothing changes` alone."""
        feed = empty_lists("Server") + events_of(pod("a-1", "a", "10.0.0.1", 80))
        run = self.diff(feed, lines_of(policy("p", reference("Server", "a"))))
        self.require(run, 11, """
            incomplete: the feed has neither a list nor an event of Server
            views that change: 0 of 1
        """)
