"""`mesh ask`."""

from mesh_tests.support import (
    AUTHENTICATIONS,
    IDENTITIES,
    POLICY,
    Case,
    empty_lists,
    events_of,
    feed_of,
    lines_of,
    list_of,
    new_object,
    pod,
    policy,
    reference,
    server,
)

OPERATOR = f"cli.ops.{IDENTITIES}"
GATEWAY = f"gateway.edge.{IDENTITIES}"


class Ask(Case):
    """What comes of a request, and why."""

    def ask(self, feed, *words):
        """Asks over a feed."""
        return self.mesh("ask", feed, *words)

    def test_the_identity_is_missing(self):
        """10.0.0.5 is in the network of `from-gateway` and in that of `operators-only`, which is everywhere."""
        self.require(self.ask("policy.jsonl", "app/web-1:8080", "--client", "10.0.0.5", "--path", "/admin"), 1, f"""
            VERDICT  denied by the policy deny of the Server web: no authorization admits the client
            REQUEST  GET /admin to app/web-1:8080
            CLIENT   10.0.0.5, no identity
            SERVER   web, protocol HTTP/1, policy deny
            ROUTE    HTTPRoute/admin of policy.linkerd.io, rule 0, match 0: prefix /admin
            MESHED   yes

            AUTHORIZATION                        FOR               NETWORK   CLIENT
            AuthorizationPolicy/from-gateway     Server/web        admits    needs {GATEWAY}
            AuthorizationPolicy/operators-only   HTTPRoute/admin   admits    needs *.ops.{IDENTITIES}
        """)

    def test_the_network_is_wrong(self):
        """10.9.0.5 is in the exception of the network, and the gateway is no operator."""
        run = self.ask("policy.jsonl", "app/web-1:8080", "--client", "10.9.0.5", "--identity", GATEWAY, "--path", "/admin/x")
        self.require(run, 1, f"""
            VERDICT  denied by the policy deny of the Server web: no authorization admits the client
            REQUEST  GET /admin/x to app/web-1:8080
            CLIENT   10.9.0.5, {GATEWAY}
            SERVER   web, protocol HTTP/1, policy deny
            ROUTE    HTTPRoute/admin of policy.linkerd.io, rule 0, match 0: prefix /admin
            MESHED   yes

            AUTHORIZATION                        FOR               NETWORK                               CLIENT
            AuthorizationPolicy/from-gateway     Server/web        needs 10.0.0.0/8 except 10.9.0.0/16   admits
            AuthorizationPolicy/operators-only   HTTPRoute/admin   admits                                needs *.ops.{IDENTITIES}
        """)

    def test_an_allowed_request(self):
        """An operator is admitted from any address; the gateway's policy would need both parts."""
        run = self.ask("policy.jsonl", "app/web-1:8080", "--client", "10.9.0.5", "--identity", OPERATOR, "--path", "/admin")
        self.require(run, 0, f"""
            VERDICT  allowed by AuthorizationPolicy app/operators-only
            REQUEST  GET /admin to app/web-1:8080
            CLIENT   10.9.0.5, {OPERATOR}
            SERVER   web, protocol HTTP/1, policy deny
            ROUTE    HTTPRoute/admin of policy.linkerd.io, rule 0, match 0: prefix /admin
            MESHED   yes

            AUTHORIZATION                        FOR               NETWORK                               CLIENT
            AuthorizationPolicy/from-gateway     Server/web        needs 10.0.0.0/8 except 10.9.0.0/16   needs {GATEWAY}
            AuthorizationPolicy/operators-only   HTTPRoute/admin   admits                                admits
        """)

    def test_a_probe(self):
        """The path of a probe, from an address of the cluster."""
        run = self.ask("probes.jsonl", "app/web-1:8080", "--client", "10.0.0.5", "--path", "/live")
        self.require(run, 0, """
            VERDICT  allowed as a probe: the Pod has a probe of /live, and the address is of the cluster
            REQUEST  GET /live to app/web-1:8080
            CLIENT   10.0.0.5, no identity
            SERVER   web, protocol unknown, policy deny
            MESHED   yes
        """)

    def test_what_a_probe_needs(self):
        """The path of a probe, from elsewhere: the policy denies everyone, but not probes from the cluster. A POST is none."""
        words = ["probes.jsonl", "app/web-1:8080", "--client", "203.0.113.7", "--path", "/live"]
        self.require(self.ask(*words), 1, """
            VERDICT  denied by the policy deny of the Server web: no authorization applies
            PROBE    needs an address of the cluster, such as 10.1.2.3
            REQUEST  GET /live to app/web-1:8080
            CLIENT   203.0.113.7, no identity
            SERVER   web, protocol unknown, policy deny
            MESHED   yes
        """)
        self.assertNotIn("PROBE", self.ask(*words, "--method", "POST").output)

    def test_no_route_matches(self):
        """The only route is for `/admin`."""
        self.require(self.ask("policy.jsonl", "app/web-1:8080", "--client", "10.0.0.5"), 1, """
            VERDICT  not found: the Server web has routes, and none matches the request
            REQUEST  GET / to app/web-1:8080
            CLIENT   10.0.0.5, no identity
            SERVER   web, protocol HTTP/1, policy deny
            MESHED   yes

            ROUTE             GROUP               HOSTNAMES   MATCHES
            HTTPRoute/admin   policy.linkerd.io   *           prefix /admin
        """)

    def test_a_connection_that_is_not_http(self):
        """Routes do not count, and so neither does the policy of a route."""
        run = self.ask("policy.jsonl", "app/web-1:8080", "--client", "10.0.0.5", "--identity", OPERATOR, "--no-http")
        self.require(run, 1, f"""
            VERDICT  denied by the policy deny of the Server web: no authorization admits the client
            REQUEST  a connection to app/web-1:8080, not HTTP
            CLIENT   10.0.0.5, {OPERATOR}
            SERVER   web, protocol HTTP/1, policy deny
            MESHED   yes

            AUTHORIZATION                        FOR                            NETWORK   CLIENT
            AuthorizationPolicy/from-gateway     Server/web                     admits    needs {GATEWAY}
            AuthorizationPolicy/operators-only   HTTPRoute/admin, not matched   -         -
        """)

    def test_without_a_server(self):
        """The Pod asks itself: its address and its identity are those of the feed."""
        self.require(self.ask("policy.jsonl", "app/web-1:9090", "--from", "app/web-1"), 0, f"""
            VERDICT  allowed by the default policy all-unauthenticated: no Server selects this port
            REQUEST  GET / to app/web-1:9090
            CLIENT   10.1.2.3, web.app.{IDENTITIES}
            SERVER   none, default policy all-unauthenticated
            MESHED   yes
        """)

    def test_what_a_policy_needs(self):
        """The policies that admit some clients: by their identity, by an address of the cluster's networks, or by both."""
        place = "an address of the cluster, such as 10.1.2.3"
        needs = {
            ("all-authenticated", "203.0.113.7"): "an identity",
            ("cluster-unauthenticated", "203.0.113.7"): place,
            ("cluster-authenticated", "10.0.0.5"): "an identity",
            ("cluster-authenticated", "203.0.113.7"): f"an identity and {place}",
        }
        for (word, address), need in needs.items():
            run = self.ask("policy.jsonl", "app/web-1:9090", "--client", address, "--default-policy", word)
            verdict = f"VERDICT  denied by the default policy {word}: no Server selects this port\nPOLICY   {word} needs {need}\n"
            self.assertEqual((1, verdict), (run.status, run.output[: len(verdict)]))
        run = self.ask("policy.jsonl", "app/web-1:9090", "--client", "10.0.0.5", "--default-policy", "deny")
        self.assertNotIn("POLICY", run.output)

    def test_a_reference_is_missing(self):
        """`from-web` refers to an authentication that the feed lacks. The client has no proxy, and so no identity.

        A Server is refused, which may be the one that counts for the port, and so the verdict is not known.
        """
        self.require(self.ask("mistakes.jsonl", "shop/cart-1:8080", "--from", "shop/web-1"), 7, f"""
            incomplete: refused: line 8 (Server shop/web)
            VERDICT  not known; as far as the feed goes: denied by the policy deny of the Server cart: no authorization admits the client
            REQUEST  GET / to shop/cart-1:8080
            CLIENT   10.1.0.2, no identity
            SERVER   cart, protocol HTTP/1, policy deny
            MESHED   yes

            AUTHORIZATION                  FOR           NETWORK   CLIENT
            AuthorizationPolicy/shoppers   Server/cart   admits    needs *.shop.{IDENTITIES}

            not counted: AuthorizationPolicy shop/from-web: MeshTLSAuthentication shop/web-clients is not in the feed
        """, "mesh: 1 line is refused; the first is line 8: BadValue object.spec.proxyProtocol Choice\n")

    def test_a_pod_without_a_proxy(self):
        """It is decided as if the Pod had one, and said that it has none."""
        run = self.ask("mistakes.jsonl", "shop/web-1:9090", "--client", "10.0.0.1")
        self.assertIn("MESHED   no: the Pod has no proxy of this control plane to apply this\n", run.output)

    def test_an_authorization_that_admits_nobody(self):
        """A NetworkAuthentication without networks admits from nowhere, a MeshTLSAuthentication without identities nobody."""
        feed = feed_of(
            pod("a-1", "a", "10.0.0.1", 80),
            server("a", "a", 80),
            new_object("NetworkAuthentication", "none"),
            new_object("MeshTLSAuthentication", "none"),
            policy("from-nowhere", reference("Server", "a"), reference("NetworkAuthentication", "none")),
            policy("of-nobody", reference("Server", "a"), reference("MeshTLSAuthentication", "none")),
        )
        self.require(self.ask(feed, "shop/a-1:80", "--client", "10.0.0.9"), 1, """
            VERDICT  denied by the policy deny of the Server a: no authorization admits the client
            REQUEST  GET / to shop/a-1:80
            CLIENT   10.0.0.9, no identity
            SERVER   a, protocol unknown, policy deny
            MESHED   yes

            AUTHORIZATION                      FOR        NETWORK          CLIENT
            AuthorizationPolicy/from-nowhere   Server/a   admits nowhere   -
            AuthorizationPolicy/of-nobody      Server/a   -                admits nobody
        """)

    def test_tls_without_an_identity(self):
        """`unauthenticatedTLS` admits a client with TLS; without TLS that part is missing."""
        spec = {"server": {"name": "a"}, "client": {"meshTLS": {"unauthenticatedTLS": True}}}
        feed = feed_of(pod("a-1", "a", "10.0.0.1", 80), server("a", "a", 80), new_object("ServerAuthorization", "tls", spec))
        self.assertEqual(0, self.ask(feed, "shop/a-1:80", "--client", "10.0.0.9", "--tls").status)
        run = self.ask(feed, "shop/a-1:80", "--client", "10.0.0.9")
        self.assertIn("ServerAuthorization/tls   Server/a   admits    needs any client with TLS\n", run.output)

    def test_host_header_query_and_method(self):
        """The route matches a request with all parts, and none without one of them."""
        match = {"method": "PUT", "headers": [{"name": "x-a", "value": "1"}], "queryParams": [{"name": "q", "value": "2"}]}
        spec = {"parentRefs": [reference("Server", "a")], "hostnames": ["a.example"], "rules": [{"matches": [match]}]}
        open_server = server("a", "a", 80, accessPolicy="all-unauthenticated", proxyProtocol="HTTP/1")
        feed = feed_of(pod("a-1", "a", "10.0.0.1", 80), open_server, new_object("HTTPRoute", "r", spec))
        parts = ["--method=PUT", "--header=x-a=1", "--query=q=2", "--host=a.example"]
        run = self.ask(feed, "shop/a-1:80", "--client=10.0.0.9", *parts)
        self.assertEqual(0, run.status)
        self.assertIn("REQUEST  PUT /?q=2 of the host a.example to shop/a-1:80\n", run.output)
        for part in parts:
            reader = [it for it in parts if it != part]
            self.assertEqual(1, self.ask(feed, "shop/a-1:80", "--client=10.0.0.9", *reader).status, part)

    def test_a_regular_expression_that_is_refused(self):
        """The simulation is refused, and there is no verdict."""
        match = {"path": {"type": "RegularExpression", "value": "("}}
        route = new_object("HTTPRoute", "r", {"parentRefs": [reference("Server", "a")], "rules": [{"matches": [match]}]})
        feed = feed_of(pod("a-1", "a", "10.0.0.1", 80), server("a", "a", 80, proxyProtocol="HTTP/1"), route)
        run = self.ask(feed, "shop/a-1:80", "--client", "10.0.0.9")
        self.require(run, 7, "", "mesh: the simulation is refused: Pattern shop/r 0 0\n")

    def test_json(self):
        """The verdict as the program writes it, what decides, the match, and which part admits."""
        words = ["app/web-1:8080", "--client", "10.9.0.5", "--path", "/admin", "-o", "json"]
        value = self.ask("policy.jsonl", *words).json()
        self.assertEqual(["missing", "refused", "allowed", "decider", "route", "verdict"], list(value)[:6])
        self.assertEqual(([], [], False, "denied default deny"), (value["missing"], value["refused"], value["allowed"], value["verdict"]))
        self.assertEqual("policy deny of Server app/web", value["decider"])
        route = {"name": "admin", "group": "policy.linkerd.io", "rule": 0, "match": 0, "text": "prefix /admin"}
        self.assertEqual(route, value["route"])
        parts = [(it["authorization"]["name"], it["network_admits"], it["client_admits"]) for it in value["reasons"]]
        self.assertEqual([("from-gateway", False, False), ("operators-only", True, False)], parts)

    def test_deciders_in_json(self):
        """An authorization, a probe, a default policy, and nothing where no route matches."""
        operator = ["--client=10.9.0.5", f"--identity={OPERATOR}"]
        deciders = {
            ("policy.jsonl", "app/web-1:8080", "--path=/admin", *operator): (True, "AuthorizationPolicy app/operators-only", "admin"),
            ("probes.jsonl", "app/web-1:8080", "--path=/live", "--client=10.0.0.5"): (True, "probe GET /live", None),
            ("policy.jsonl", "app/web-1:9090", "--client=10.0.0.5"): (True, "default policy all-unauthenticated", None),
            ("policy.jsonl", "app/web-1:8080", "--client=10.0.0.5"): (False, None, None),
        }
        for words, expected in deciders.items():
            value = self.ask(*words, "-o", "json").json()
            self.assertEqual(expected, (value["allowed"], value["decider"], (value["route"] or {}).get("name")), words)

    def test_null_where_the_table_has_a_hyphen(self):
        """The policy of a route that is not used says nothing of this request."""
        words = ["app/web-1:8080", "--client", "10.0.0.5", "--identity", OPERATOR, "--no-http", "-o", "json"]
        value = self.ask("policy.jsonl", *words).json()
        parts = [(it["counts"], it["network_admits"], it["client_admits"]) for it in value["reasons"]]
        self.assertEqual([(True, True, False), (False, None, None)], parts)
        self.assertIsNone(value["route"])

    def test_the_match_that_decides(self):
        """Of the matches that hold, the longest prefix is the best; of two alike, that of the older route, then that of the first rule."""
        def route(name, *rules, created=None, **rest):
            value = new_object("HTTPRoute", name, {"parentRefs": [reference("Server", "a")], "rules": rules, **rest})
            value["metadata"]["creationTimestamp"] = created
            return value

        def prefixes(*values):
            return {"matches": [{"path": {"type": "PathPrefix", "value": it}} for it in values]}

        gateway = route("z", prefixes("/g"), created="2026-01-01T00:00:00Z")
        gateway["apiVersion"] = "gateway.networking.k8s.io/v1"
        routes = [
            route("a", prefixes("/x/y", "/q", "/q"), prefixes("/x/y/z", "/g"), created="2026-01-02T00:00:00Z"),
            route("b", {}, prefixes("/q"), prefixes("/deep/er"), created="2026-01-01T00:00:00Z", hostnames=["b.example"]),
            gateway,
        ]
        open_server = server("a", "a", 80, accessPolicy="all-unauthenticated", proxyProtocol="HTTP/1")
        feed = feed_of(pod("a-1", "a", "10.0.0.1", 80), open_server, *routes)
        matches = {
            "/x/y/z": ("a", 1, 0, "prefix /x/y/z"),
            "/x/y/w": ("a", 0, 0, "prefix /x/y"),
            "/q": ("a", 0, 1, "prefix /q"),
            "/g": ("z", 0, 0, "prefix /g"),
            "http://b.example/q": ("b", 1, 0, "prefix /q"),
            "http://b.example:8080/other": ("b", 0, 0, "prefix /"),
        }
        for path, expected in matches.items():
            found = self.ask(feed, "shop/a-1:80", "--client=10.0.0.9", "--path", path, "-o", "json").json()["route"]
            self.assertEqual(expected, (found["name"], found["rule"], found["match"], found["text"]), path)
        run = self.ask(feed, "shop/a-1:80", "--client=10.0.0.9", "--path", "/g")
        self.assertIn("\nROUTE    HTTPRoute/z of gateway.networking.k8s.io, rule 0, match 0: prefix /g\n", run.output)

    def test_paths_and_urls(self):
        """A query and a fragment are cut from the path, a URL has the host too, and a method is in capitals."""
        requests = {
            "/admin?x=1#top": "GET /admin?x=1 to app/web-1:8080",
            "http://web.app:80/admin?x=1#top": "GET /admin?x=1 of the host web.app to app/web-1:8080",
            "HTTPS://Web.App": "GET / of the host web.app to app/web-1:8080",
            "/admin?": "GET /admin to app/web-1:8080",
            "//admin": "GET //admin to app/web-1:8080",
        }
        for path, request in requests.items():
            run = self.ask("policy.jsonl", "app/web-1:8080", "--client=10.0.0.5", "--method=get", "--path", path)
            self.assertIn(f"\nREQUEST  {request}\n", run.output)
        for path in ("admin", "", "*", "/a b", "/a\n", "ftp://x/", "http:///x", "?a=1"):
            run = self.ask("policy.jsonl", "app/web-1:8080", "--client=10.0.0.5", f"--path={path}")
            self.assertEqual((2, ""), (run.status, run.output), path)
            self.assertIn("is not a path that begins with / or a URL", run.error_output)
        words = ["policy.jsonl", "app/web-1:8080", "--client=10.0.0.5"]
        run = self.ask(*words, "--path=/a?b=1", "--query=c=2")
        self.require(run, 2, "", "mesh: give the query in --path or as --query, not both\n")
        run = self.ask(*words, "--path=http://a/", "--host=b")
        self.require(run, 2, "", "mesh: give the host in --path or as --host, not both\n")

    def test_a_feed_without_policies(self):
        """One list of Pods says nothing of policies: the first line, the verdict, `allowed` and the status say so."""
        feed = lines_of(list_of("Pod", "v1", pod("a-1", "a", "10.0.0.1", 80)))
        missing = ["Server", "ServerAuthorization", *AUTHENTICATIONS, "HTTPRoute.policy.linkerd.io", "HTTPRoute.gateway.networking.k8s.io"]
        self.require(self.ask(feed, "shop/a-1:80", "--client", "10.0.0.9"), 11, f"""
            incomplete: the feed has neither a list nor an event of {", ".join(missing)}
            VERDICT  not known; as far as the feed goes: allowed by the default policy all-unauthenticated: no Server selects this port
            REQUEST  GET / to shop/a-1:80
            CLIENT   10.0.0.9, no identity
            SERVER   none, default policy all-unauthenticated
            MESHED   yes
        """)
        value = self.ask(feed, "shop/a-1:80", "--client", "10.0.0.9", "-o", "json").json()
        self.assertEqual((missing, None, "allowed default all-unauthenticated"), (value["missing"], value["allowed"], value["verdict"]))
        run = self.mesh("policy", feed, "shop/a-1:80")
        self.assertEqual((11, f"incomplete: the feed has neither a list nor an event of {', '.join(missing)}"), (run.status, run.output.splitlines()[0]))

    def test_a_policy_kind_that_is_refused_or_absent(self):
        """A list of one kind is refused, or is not there: `allowed` is never said alone."""
        held = events_of(pod("a-1", "a", "10.0.0.1", 80))
        kinds = {"Server": "v1beta3", "ServerAuthorization": "v1beta1", **dict.fromkeys(AUTHENTICATIONS, "v1alpha1")}
        for kind, version in kinds.items():
            bad_list = list_of(kind, f"{POLICY}/{version}", {"metadata": {"name": "A"}})
            for feed in (empty_lists(kind) + held, empty_lists(kind) + lines_of(bad_list) + held):
                run = self.ask(feed, "shop/a-1:80", "--client", "10.0.0.9")
                self.assertEqual(11, run.status)
                self.assertTrue(run.output.startswith(f"incomplete: the feed has neither a list nor an event of {kind}"), run.output)
                self.assertIn("\nVERDICT  not known; as far as the feed goes: allowed by", run.output)
            run = self.ask(empty_lists() + lines_of(bad_list) + held, "shop/a-1:80", "--client", "10.0.0.9")
            self.assertEqual(7, run.status)
            self.assertTrue(run.output.startswith(f"incomplete: refused: line 12 (the list of {kind})\nVERDICT  not known; "), run.output)
        run = self.ask(empty_lists("Service", "EndpointSlice", "ServiceProfile") + held, "shop/a-1:80", "--client", "10.0.0.9")
        self.assertEqual((0, "VERDICT  allowed by the default"), (run.status, run.output[:31]))

    def test_wrong_words(self):
        """Who the client is must be said, in one way."""
        self.require(self.ask("policy.jsonl", "app/web-1:8080"), 2, "", "mesh: give either --from or --client\n")
        run = self.ask("policy.jsonl", "app/web-1:8080", "--from", "app/web-1", "--client", "10.0.0.1")
        self.require(run, 2, "", "mesh: give either --from or --client\n")
