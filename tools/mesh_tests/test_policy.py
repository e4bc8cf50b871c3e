"""`mesh policy`."""

from mesh_tests.support import IDENTITIES, Case, feed_of, new_object, pod, server


class Policy(Case):
    """Who may connect to a port of a Pod."""

    def test_authorizations_and_routes(self):
        """The policy for the route `admin` names no networks: it admits from all addresses."""
        self.require(self.mesh("policy", "policy.jsonl", "app/web-1:8080"), 0, f"""
            SERVER   PROTOCOL   POLICY
            web      HTTP/1     deny

            AUTHORIZATION                        FOR               NETWORKS                        CLIENTS
            AuthorizationPolicy/from-gateway     Server/web        10.0.0.0/8 except 10.9.0.0/16   gateway.edge.{IDENTITIES}
            AuthorizationPolicy/operators-only   HTTPRoute/admin   0.0.0.0/0, ::/0                 *.ops.{IDENTITIES}

            ROUTE             GROUP               HOSTNAMES   MATCHES
            HTTPRoute/admin   policy.linkerd.io   *           prefix /admin
        """)

    def test_without_a_server(self):
        """No Server selects port 9090; the default policy is that of the options."""
        words = ["app/web-1:9090", "--default-policy", "cluster-authenticated"]
        self.require(self.mesh("policy", "policy.jsonl", *words), 0, """
            SERVER   PROTOCOL   POLICY
            none     unknown    cluster-authenticated
        """)

    def test_a_server_that_nobody_may_connect_to(self):
        """A Server that names no policy denies; its protocol is unknown unless it says one."""
        feed = feed_of(pod("a-1", "a", "10.0.0.1", 80), server("a", "a", 80))
        self.require(self.mesh("policy", feed, "shop/a-1:80"), 0, """
            SERVER   PROTOCOL   POLICY
            a        unknown    deny

            No authorization applies.
        """)

    def test_clients_of_a_server_authorization(self):
        """A network with an exception, any client with TLS, and a route that asks for a method, a header and a parameter."""
        client = {"networks": [{"cidr": "fd00::/8", "except": ["fd00::5"]}], "meshTLS": {"unauthenticatedTLS": True}}
        authorization = new_object("ServerAuthorization", "tls", {"server": {"name": "a"}, "client": client})
        match = {
            "method": "GET",
            "path": {"type": "Exact", "value": "/x"},
            "headers": [{"name": "x-a", "value": "1"}],
            "queryParams": [{"type": "RegularExpression", "name": "q", "value": "[0-9]"}],
        }
        parent = {"group": "policy.linkerd.io", "kind": "Server", "name": "a"}
        route = new_object("HTTPRoute", "r", {"parentRefs": [parent], "hostnames": ["a.example"], "rules": [{"matches": [match]}]})
        feed = feed_of(pod("a-1", "a", "10.0.0.1", 80), server("a", "a", 80, proxyProtocol="HTTP/2"), authorization, route)
        self.require(self.mesh("policy", feed, "shop/a-1:80"), 0, """
            SERVER   PROTOCOL   POLICY
            a        HTTP/2     deny

            AUTHORIZATION             FOR        NETWORKS                      CLIENTS
            ServerAuthorization/tls   Server/a   fd00::/8 except fd00::5/128   any client with TLS

            ROUTE         GROUP               HOSTNAMES   MATCHES
            HTTPRoute/r   policy.linkerd.io   a.example   GET exact /x header x-a=1 ?q~[0-9]
        """)

    def test_probes(self):
        """The path of the Pod's probe, without its query."""
        self.require(self.mesh("policy", "probes.jsonl", "app/web-1:8080"), 0, """
            SERVER   PROTOCOL   POLICY
            web      unknown    deny

            No authorization applies.

            PROBE
            GET /live
        """)

    def test_json(self):
        """The Server of the example, its routes and the first authorization."""
        value = self.mesh("policy", "policy.jsonl", "app/web-1:8080", "-o", "json").json()
        self.assertEqual(["HTTP/1", "deny", "web"], [value["protocol"], value["policy"], value["server"]])
        self.assertEqual([{"network": "10.0.0.0/8", "exceptions": ["10.9.0.0/16"]}], value["authorizations"][0]["networks"])
        self.assertEqual([None, "admin"], [it["route"] for it in value["authorizations"]])
        self.assertEqual("2026-01-05T09:00:00Z", value["routes"][0]["created"])

    def test_an_unknown_pod(self):
        """The nearest name is told."""
        run = self.mesh("policy", "policy.jsonl", "app/web-2:8080")
        self.require(run, 3, "", "mesh: there is no Pod app/web-2 in the feed; the nearest: app/web-1\n")
