"""`mesh check`."""

import textwrap

from mesh_tests.support import EXAMPLES, Case, Run, empty_lists, feed_of, lines_of, list_of, new_object, pod, policy, reference, server


LINKERD_KINDS = ["Server", "ServerAuthorization", "AuthorizationPolicy", "MeshTLSAuthentication", "NetworkAuthentication"]
KINDS = """
    KIND                                  HELD
    Service                               1
    Pod                                   2
    EndpointSlice                         1
    ServiceProfile                        0
    Server                                3
    ServerAuthorization                   1
    AuthorizationPolicy                   3
    MeshTLSAuthentication                 1
    NetworkAuthentication                 0
    HTTPRoute.policy.linkerd.io           1
    HTTPRoute.gateway.networking.k8s.io   1
"""


class Check(Case):
    """What in a feed refers to nothing."""

    def problems(self, feed, status: int, expected: str) -> None:
        """Checks a feed, and compares the part of the answer behind the kinds."""
        run = self.mesh("check", feed)
        kinds, _, problems = run.output.partition("\n\n")
        self.assertEqual("", run.error_output)
        self.assertTrue(kinds.startswith("KIND "), kinds)
        self.require(Run(run.status, problems, ""), status, expected)

    def test_the_kinds(self):
        """The answer begins with what is held of each kind, behind what the feed lacks."""
        run = self.mesh("check", "mistakes.jsonl")
        first_line, _, rest = run.output.partition("\n")
        self.assertEqual("incomplete: refused: line 8 (Server shop/web)", first_line)
        self.assertEqual(textwrap.dedent(KINDS).strip(), rest.partition("\n\n")[0])
        kinds = {it["kind"]: it["held"] for it in self.mesh("check", "first.jsonl", "-o", "json").json()["kinds"]}
        self.assertEqual({"Service": 1, "EndpointSlice": 1}, {kind: held for kind, held in kinds.items() if held is not None})

    def test_each_sort_of_mistake(self):
        """examples/mistakes.jsonl has one of each."""
        run = self.mesh("check", "mistakes.jsonl")
        self.require(Run(run.status, run.output.partition("\n\n")[2], run.error_output), 1, """
            OBJECT                                           PROBLEM
            line 8                                           it is refused: BadValue object.spec.proxyProtocol Choice
            AuthorizationPolicy shop/from-web                it refers to MeshTLSAuthentication shop/web-clients, which is not in the feed, and so it admits nobody
            AuthorizationPolicy shop/to-carts                its target Server shop/carts is not in the feed
            ServerAuthorization shop/old-carts               it names Server shop/carts, which is not in the feed
            HTTPRoute.policy.linkerd.io shop/pay             its parent Server shop/checkout is not in the feed
            Server shop/old                                  it selects no port of a Pod in the feed
            Pod shop/cart-1:8080                             the Servers cart and cart-all select it, and cart is the one that counts
            HTTPRoute.gateway.networking.k8s.io shop/split   its backend shop/cart-next:80 is missing
        """)

    def test_a_missing_backend(self):
        """The Service `web-new` is not in the feed, and the list of slices is empty, so that `web` has no endpoints."""
        run = self.mesh("check", "policy.jsonl", "-o", "json")
        problem = {"object": "HTTPRoute.gateway.networking.k8s.io app/split", "problem": "its backend app/web-new:80 is missing"}
        self.assertEqual(1, run.status)
        self.assertEqual(problem, run.json()["problems"][0])
        self.assertEqual(["Service app/web", "its port has no endpoints"], [run.json()["problems"][1][it] for it in ("object", "problem")])
        self.assertEqual(2, len(run.json()["problems"]))

    def test_no_problem(self):
        """A Service with one slice, and nothing else."""
        feed = empty_lists() + (EXAMPLES / "first.jsonl").read_bytes()
        self.problems(feed, 0, "no problem found\n")

    def test_a_server_behind_others(self):
        """Both ports have `a` and `b` behind it; `c`, which never counts, selects a port, and `d` selects none."""
        feed = feed_of(
            pod("x-1", "x", "10.0.0.1", 80),
            *(server(name, "x", 80) for name in "abc"),
            server("d", "x", 80, podSelector={"matchLabels": {"app": "y"}}),
        )
        self.problems(feed, 1, """
            OBJECT            PROBLEM
            Server shop/d     it selects no port of a Pod in the feed
            Pod shop/x-1:80   the Servers a and b select it, and a is the one that counts
        """)

    def test_a_port_that_no_container_names(self):
        """A Server may have the number of a port that no container names."""
        feed = feed_of(pod("x-1", "x", "10.0.0.1"), server("a", "x", 81))
        self.problems(feed, 0, "no problem found\n")

    def test_policies_that_apply_to_nothing(self):
        """A route without a Server, a Server of another namespace, and a kind that no policy applies to."""
        route = new_object("HTTPRoute", "r", {"parentRefs": [{"group": "", "kind": "Service", "name": "s"}]})
        elsewhere = server("e", "x", 80)
        elsewhere["metadata"]["namespace"] = "other"
        feed = feed_of(
            new_object("Service", "s", {"type": "ExternalName", "ports": [{"port": 80}]}, "v1"),
            route,
            elsewhere,
            policy("of-route", reference("HTTPRoute", "r")),
            policy("of-other", {**reference("Server", "e"), "namespace": "other"}),
            policy("of-service", {"kind": "Service", "name": "s"}),
            policy("of-namespace", {"kind": "Namespace", "name": "other"}),
        )
        self.problems(feed, 1, """
            OBJECT                                  PROBLEM
            AuthorizationPolicy shop/of-namespace   its target Namespace other is not its own
            AuthorizationPolicy shop/of-other       its target Server other/e is in another namespace, and so it applies to nothing
            AuthorizationPolicy shop/of-route       its target HTTPRoute.policy.linkerd.io shop/r is attached to no Server of the feed, and so it applies to nothing
            AuthorizationPolicy shop/of-service     its target Service s of the group core is none that it can apply to
            Server other/e                          it selects no port of a Pod in the feed
        """)

    def test_references_of_another_kind(self):
        """A policy can refer to authentications and ServiceAccounts alone."""
        feed = feed_of(
            pod("a-1", "a", "10.0.0.1", 80),
            server("a", "a", 80),
            policy("secret", reference("Server", "a"), {"kind": "Secret", "name": "s"}),
            policy("account", reference("Server", "a"), {"kind": "ServiceAccount", "name": "a"}),
        )
        self.problems(feed, 1, """
            OBJECT                            PROBLEM
            AuthorizationPolicy shop/secret   it refers to Secret s of the group core, to which it cannot refer, and so it admits nobody
        """)
        run = self.mesh("ask", feed, "shop/a-1:80", "--client", "10.0.0.9")
        self.assertIn("not counted: AuthorizationPolicy shop/secret: it refers to Secret s of the group core, to which it cannot refer\n", run.output)

    def test_a_feed_that_says_nothing_of_kinds(self):
        """One list of Pods: there are no problems in what is held, and the first line and the status say what is missing."""
        feed = lines_of(list_of("Pod", "v1", pod("a-1", "a", "10.0.0.1", 80)))
        run = self.mesh("check", feed)
        missing = ["Service", "EndpointSlice", "ServiceProfile", *LINKERD_KINDS, "HTTPRoute.policy.linkerd.io", "HTTPRoute.gateway.networking.k8s.io"]
        first_line = f"incomplete: the feed has neither a list nor an event of {', '.join(missing)}"
        self.assertEqual((11, first_line), (run.status, run.output.splitlines()[0]))
        self.assertIn("\nServer                                -\n", run.output)


class Values(Case):
    """Values that lead to nothing: each with the object, the value, what is allowed, and what it does to answers."""

    def values(self, *objects: dict) -> list[list[str]]:
        """The object, the value and what is allowed of each problem that has a value."""
        problems = self.mesh("check", feed_of(*objects), "-o", "json").json()["problems"]
        self.assertTrue(all(it["effect"] for it in problems if "value" in it))
        return [[it["object"], it["value"], it["allowed"]] for it in problems if "value" in it]

    def test_a_table(self):
        """Each value is told in one line."""
        feed = feed_of(pod("a-1", "a", "10.0.0.1", 80), server("a", "a", "80"))
        run = self.mesh("check", feed)
        line = 'Server shop/a   its port is a string of digits: "80"; allowed: 80 without quotes, or the name of a port; it is read as the name of a port, which has no port of a Pod'
        self.assertEqual((1, line), (run.status, run.output.splitlines()[-1]))
        self.assertIn("Server shop/a   it selects no port of a Pod in the feed\n", run.output)

    def test_regular_expressions(self):
        """Those of paths, headers, parameters and ServiceProfiles; one that builds is no problem. Rust's crate regex has no look-ahead."""
        matches = [
            {"path": {"type": "RegularExpression", "value": "/a("}},
            {"headers": [{"type": "RegularExpression", "name": "h", "value": "(?=x)"}]},
            {"queryParams": [{"type": "RegularExpression", "name": "q", "value": "[0-9]+"}]},
            {"path": {"type": "Exact", "value": "/("}},
        ]
        condition = {"all": [{"not": {"pathRegex": "*"}}, {"any": [{"pathRegex": "/ok/.*"}]}]}
        profile = new_object("ServiceProfile", "web.shop.svc.cluster.local", {"routes": [{"name": "r", "condition": condition}]}, "linkerd.io/v1alpha2")
        web = new_object("Service", "web", {"type": "ExternalName"}, "v1")
        allowed = "the regular expressions of Rust's crate regex"
        self.assertEqual([
            ["HTTPRoute.policy.linkerd.io shop/r", "/a(", allowed],
            ["HTTPRoute.policy.linkerd.io shop/r", "(?=x)", allowed],
            ["ServiceProfile shop/web.shop.svc.cluster.local", "*", allowed],
        ], self.values(new_object("HTTPRoute", "r", {"rules": [{"matches": matches}]}), profile, web))

    def test_ports_that_a_service_lacks(self):
        """Of a backend and of a parent. The port of a parent that is a Server does not matter."""
        web = new_object("Service", "web", {"ports": [{"port": 80}, {"port": 81}]}, "v1")
        parents = [{"group": "", "kind": "Service", "name": "web", "port": 8080}, {"group": "policy.linkerd.io", "kind": "Server", "name": "a", "port": 9}]
        spec = {"parentRefs": parents, "rules": [{"backendRefs": [{"name": "web", "port": 8081}, {"name": "web", "port": 81}]}]}
        found = [it for it in self.values(web, server("a", "a", 80), new_object("HTTPRoute", "r", spec)) if it[0].startswith("HTTPRoute")]
        self.assertEqual([["HTTPRoute.policy.linkerd.io shop/r", "8080", "80, 81"], ["HTTPRoute.policy.linkerd.io shop/r", "8081", "80, 81"]], found)

    def test_accounts_that_no_pod_uses(self):
        """In a ServerAuthorization, an AuthorizationPolicy and a MeshTLSAuthentication; the account of a Pod that names none is `default`."""
        account = {"kind": "ServiceAccount", "name": "wbe"}
        nameless = pod("b-1", "b", "10.0.0.2", 81)
        del nameless["spec"]["serviceAccountName"]
        client = {"meshTLS": {"serviceAccounts": [{"name": "web"}, {"name": "web", "namespace": "edge"}, {"name": "default"}]}}
        found = self.values(
            pod("web-1", "web", "10.0.0.1", 80), nameless, server("web", "web", 80),
            policy("p", reference("Server", "web"), account),
            new_object("MeshTLSAuthentication", "m", {"identityRefs": [account]}),
            new_object("ServerAuthorization", "s", {"server": {"name": "web"}, "client": client}),
        )
        near = "shop/web, shop/default"
        self.assertEqual([
            ["ServerAuthorization shop/s", "edge/web", near],
            ["AuthorizationPolicy shop/p", "shop/wbe", near],
            ["MeshTLSAuthentication shop/m", "shop/wbe", near],
        ], found)

    def test_identities(self):
        """`*`, `*.s`, and the whole name are well-formed; a `*` elsewhere, a part of the name and capitals are not."""
        good = ["*", "*.shop.serviceaccount.identity.linkerd.cluster.local", "web.shop.serviceaccount.identity.linkerd.cluster.local", "*.cluster.local"]
        bad = ["web.shop", "*shop.serviceaccount.identity.linkerd.cluster.local", "web.*", "Web.shop.serviceaccount.identity.linkerd.cluster.local", ""]
        found = self.values(new_object("MeshTLSAuthentication", "m", {"identities": good + bad}))
        self.assertEqual(bad, [value for _, value, _ in found])

    def test_profiles_of_no_service(self):
        """The name has another Service, or another form. The allowed names are those of the Services, the nearest first."""
        web = new_object("Service", "web", {"type": "ExternalName"}, "v1")
        profiles = [new_object("ServiceProfile", name, {"routes": []}, "linkerd.io/v1alpha2") for name in ("web.shop.svc.cluster.local", "wbe.shop.svc.cluster.local", "web")]
        self.assertEqual([
            ["ServiceProfile shop/wbe.shop.svc.cluster.local", "wbe.shop.svc.cluster.local", "web.shop.svc.cluster.local"],
            ["ServiceProfile shop/web", "web", "web.shop.svc.cluster.local"],
        ], sorted(self.values(web, *profiles)))

    def test_services_without_endpoints(self):
        """A port whose slices have none ready, and the name of a port that no slice has."""
        ports = [{"name": "http", "port": 80}, {"name": "web", "port": 81}, {"name": "dns", "port": 53, "protocol": "UDP"}]
        web = new_object("Service", "web", {"ports": ports}, "v1")
        one = new_object("EndpointSlice", "web-a", None, "discovery.k8s.io/v1", {"kubernetes.io/service-name": "web"})
        rows = {"addressType": "IPv4", "endpoints": [{"addresses": ["10.0.0.1"], "conditions": {"ready": False}}], "ports": [{"name": "http", "port": 8080}]}
        self.assertEqual([
            ["Service shop/web", "80", "a port with a ready address in its EndpointSlices"],
            ["Service shop/web", "web", "http"],
        ], self.values(web, {**one, **rows}))

    def test_kinds_that_are_not_recorded(self):
        """Without Pods nobody knows which accounts are used, without slices not which Services have endpoints."""
        web = new_object("Service", "web", {"ports": [{"port": 80}]}, "v1")
        named = new_object("MeshTLSAuthentication", "m", {"identityRefs": [{"kind": "ServiceAccount", "name": "x"}]}, "policy.linkerd.io/v1alpha1")
        feed = empty_lists("Pod", "EndpointSlice") + lines_of(*({"type": "ADDED", "object": it} for it in (web, named)))
        run = self.mesh("check", feed)
        self.assertEqual((11, "no problem found"), (run.status, run.output.splitlines()[-1]))

    def test_many_refused_lines(self):
        """3,000 refused lines are summed up by their faults."""
        wrong = {"type": "ADDED", "object": new_object("Service", "web", {"ports": [{"port": 0}]}, "v1")}
        feed = empty_lists() + lines_of(*[wrong] * 2000) + b"{\n" * 1000 + lines_of({"type": "ADDED", "object": server("a", "a", 80)})
        self.assertEqual([
            ["lines 12, 13, 14 and 1,997 more", "refused: BadValue object.spec.ports[].port Range"],
            ["lines 2012, 2013, 2014 and 997 more", "refused: NotJson"],
            ["Server shop/a", "it selects no port of a Pod in the feed"],
        ], [[it["object"], it["problem"]] for it in self.mesh("check", feed, "-o", "json").json()["problems"]])


class OtherThanLinkerd(Case):
    """The objects with which this program does something else than Linkerd."""

    def found(self, *objects: dict) -> list[list[str]]:
        """The problems of a feed with these objects, without values that lead to nothing."""
        return [[it["object"], it["problem"]] for it in self.mesh("check", feed_of(*objects), "-o", "json").json()["problems"] if "value" not in it]

    def test_topology_hints(self):
        """A slice with hints and one without them, of one Service."""
        endpoint = {"addresses": ["10.0.0.1"], "hints": {"forZones": [{"name": "z1"}]}}
        labels = {"kubernetes.io/service-name": "web"}
        slices = [new_object("EndpointSlice", name, api="discovery.k8s.io/v1", labels=labels) for name in ("with", "without")]
        slices[0] |= {"addressType": "IPv4", "endpoints": [endpoint], "ports": [{"port": 80}]}
        slices[1] |= {"addressType": "IPv4", "endpoints": [{"addresses": ["10.0.0.2"]}], "ports": [{"port": 80}]}
        why = "its EndpointSlice with has topology hints, which do not count: clients are sent the endpoints of all zones"
        self.assertEqual([["Service shop/web", why]], self.found(*slices))

    def test_a_consumer_route(self):
        """A route in the namespace of its clients, and one in that of the Service."""
        service = new_object("Service", "web", {"ports": [{"port": 80}]}, "v1")
        service["metadata"]["namespace"] = "app"
        parent = {"group": "core", "kind": "Service", "name": "web", "namespace": "app"}
        routes = [new_object("HTTPRoute", "retry", {"parentRefs": [parent]}) for _ in "ab"]
        routes[1]["metadata"]["namespace"] = "app"
        why = "its parent Service app/web is in another namespace, and so it does not count, not even for the clients in shop"
        self.assertEqual([["HTTPRoute.policy.linkerd.io shop/retry", why]], self.found(service, *routes))

    def test_the_hint_of_an_opaque_port(self):
        """The Server makes port 80 of three Pods opaque: one says so itself, one has no proxy, and the endpoint of the third keeps the hint."""
        annotated, plain, unmeshed = (pod(name, "a", "10.0.0.1", 80, is_meshed=name != "a-3") for name in ("a-1", "a-2", "a-3"))
        annotated["metadata"]["annotations"] = {"config.linkerd.io/opaque-ports": "80"}
        why = "shop/a-2:80 is opaque by it, and still sent with the HTTP/2 hint, which only the annotation config.linkerd.io/opaque-ports of the Pod ends"
        self.assertEqual([["Server shop/db", why]], self.found(annotated, plain, unmeshed, server("db", "a", 80, proxyProtocol="opaque")))
        self.assertEqual([], self.found(plain, server("db", "a", 80, proxyProtocol="HTTP/1")))

    def test_a_native_sidecar(self):
        """Of the ports of init containers, a Server would select that of the one that is restarted."""
        value = pod("a-1", "a", "10.0.0.1", 80)
        ports = {"ports": [{"name": "admin", "containerPort": 4191}]}
        value["spec"]["initContainers"] = [{"name": "proxy", "restartPolicy": "Always", **ports}, {"name": "init", **ports}]
        why = "its container proxy is a native sidecar, whose ports and probes are not read; if they were, the Server admin would be that of the port"
        self.assertEqual([["Pod shop/a-1:4191", why]], [it for it in self.found(value, server("admin", "a", "admin")) if it[0].startswith("Pod")])
        self.assertEqual([], self.found(value))
