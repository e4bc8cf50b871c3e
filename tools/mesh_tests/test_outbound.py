"""`mesh profile` and `mesh routes`. What is expected is what docs/RULES.md says of profiles and outbound policies."""

from mesh_tests.support import Case, feed_of, new_object, pod

GATEWAY = "gateway.networking.k8s.io/v1"


def service(name: str, *ports: int, **spec) -> dict:
    """A Service with these ports."""
    return new_object("Service", name, {"ports": [{"port": it} for it in ports], **spec}, "v1")


def profile(namespace: str, name: str, **spec) -> dict:
    """A ServiceProfile of the Service `web` of `shop`, in a namespace, with a route of a name."""
    value = new_object("ServiceProfile", "web.shop.svc.cluster.local", {"routes": [{"name": name, **spec}]}, "linkerd.io/v1alpha2")
    return {**value, "metadata": {**value["metadata"], "namespace": namespace}}


class Profile(Case):
    """The routes, the split and the opaque ports of a Service or an address."""

    def test_a_route(self):
        """Its condition, whether it is retried, its timeout, and the responses that are failures."""
        condition = {"all": [{"method": "GET"}, {"not": {"pathRegex": "/live"}}]}
        failure = {"condition": {"status": {"min": 500, "max": 599}}, "isFailure": True}
        fine = {"condition": {"status": {"min": 404, "max": 404}}}
        one = profile("shop", "list", condition=condition, responseClasses=[failure, fine], isRetryable=True, timeout="1.25s")
        self.require(self.mesh("profile", feed_of(service("web", 80), one), "web.shop"), 0, """
            TARGET        FULL NAME                    OPAQUE
            web.shop:80   web.shop.svc.cluster.local   no

            ROUTE   CONDITION                     RETRYABLE   TIMEOUT   FAILURES
            list    (GET) and (not (path /live))  yes         1.25s     500 to 599
        """.replace("/live))  yes", "/live))   yes").replace("CONDITION                     RETRYABLE", "CONDITION                      RETRYABLE"))

    def test_the_namespace_of_the_client(self):
        """The ServiceProfile in the namespace of the client goes first."""
        feed = feed_of(service("web", 80), profile("shop", "own", condition={"method": "GET"}), profile("edge", "theirs", condition={"method": "GET"}))
        for words, name in (([], "own"), (["--client-namespace", "edge"], "theirs"), (["--client-namespace", "other"], "own")):
            [port] = self.mesh("profile", feed, "web.shop", "-o", "json", *words).json()["ports"]
            self.assertEqual([name], [it["name"] for it in port["routes"]])

    def test_a_split(self):
        """Weights are shown as they are written."""
        value = new_object("ServiceProfile", "web.shop.svc.cluster.local", {"dstOverrides": [{"authority": "new.shop:80", "weight": "500m"}]}, "linkerd.io/v1alpha2")
        run = self.mesh("profile", feed_of(service("web", 80), value), "web.shop:80")
        self.assertEqual(["SPLIT TO      WEIGHT", "new.shop:80   0.5"], run.output.splitlines()[-2:])

    def test_opaque_ports(self):
        """Those of the Service's annotation; each port of the Service is shown."""
        value = service("web", 80, 5432)
        value["metadata"]["annotations"] = {"config.linkerd.io/opaque-ports": "5432"}
        self.require(self.mesh("profile", feed_of(value), "web.shop"), 0, """
            TARGET          FULL NAME                    OPAQUE
            web.shop:80     web.shop.svc.cluster.local   no
            web.shop:5432   web.shop.svc.cluster.local   yes

            no ServiceProfile has routes or a split for it
        """)

    def test_addresses(self):
        """The address of a Service is the Service, that of a Pod its endpoint, and that of nobody neither; a default opaque port is one."""
        feed = feed_of(service("web", 80, clusterIP="10.96.0.1"), pod("a-1", "a", "10.0.0.1", 8080))
        [port] = self.mesh("profile", feed, "10.96.0.1:80", "-o", "json").json()["ports"]
        self.assertEqual(["web.shop.svc.cluster.local", None], [port["name"], port["endpoint"]])
        [port] = self.mesh("profile", feed, "10.0.0.1:8080", "-o", "json").json()["ports"]
        self.assertEqual([None, "a-1"], [port["name"], port["endpoint"]["pod"]])
        self.require(self.mesh("profile", feed, "10.9.9.9:25"), 0, """
            TARGET        FULL NAME   OPAQUE
            10.9.9.9:25   -           yes
        """)
        [port] = self.mesh("profile", feed, "[fd00::1]:80", "-o", "json").json()["ports"]
        self.assertEqual(["[fd00::1]:80", None, None], [port["target"], port["name"], port["endpoint"]])


class Routes(Case):
    """Where requests lead."""

    def test_rules(self):
        """A row for each backend of a rule, with filters and timeouts; a backend that is not held is missing; the port of a parent counts."""
        filters = [
            {"type": "RequestHeaderModifier", "requestHeaderModifier": {"set": [{"name": "a", "value": "1"}], "remove": ["b"]}},
            {"type": "RequestRedirect", "requestRedirect": {"scheme": "https", "port": 443, "statusCode": 301}},
        ]
        split = {"backendRefs": [{"name": "web", "port": 80, "weight": 9}, {"name": "new", "port": 81}], "timeouts": {"request": "2s", "backendRequest": "500ms"}}
        spec = {"parentRefs": [{"group": "", "kind": "Service", "name": "web", "port": 80}], "hostnames": ["a.example"], "rules": [split, {"filters": filters}]}
        self.require(self.mesh("routes", feed_of(service("web", 80, 81), new_object("HTTPRoute", "r", spec, GATEWAY)), "web.shop"), 0, """
            TARGET        LEADS TO      OPAQUE
            web.shop:80   web.shop:80   no
            web.shop:81   web.shop:81   no

            PORT   ROUTE         HOSTNAMES   MATCHES    BACKEND       WEIGHT       FILTERS AND TIMEOUTS
            80     HTTPRoute/r   a.example   prefix /   web.shop:80   9            request 2s; backend 0.5s
            80     HTTPRoute/r   a.example   prefix /   new.shop:81   1, missing   request 2s; backend 0.5s
            80     HTTPRoute/r   a.example   prefix /   the Service   -            set a=1, remove b; redirect 301 scheme https port 443
        """)

    def test_other_targets(self):
        """An ExternalName counts as not existing; the address of a Pod leads to it; a Service without routes has none."""
        feed = feed_of(service("web", 80), service("ext", 80, type="ExternalName", externalName="a.example"), pod("a-1", "a", "10.0.0.1", 8080))
        self.require(self.mesh("routes", feed, "ext.shop"), 0, """
            TARGET        LEADS TO                     OPAQUE
            ext.shop:80   nowhere: it does not exist   no
        """)
        self.require(self.mesh("routes", feed, "web.shop"), 0, """
            TARGET        LEADS TO      OPAQUE
            web.shop:80   web.shop:80   no

            no route has it as a parent
        """)
        self.require(self.mesh("routes", feed, "10.0.0.1:8080"), 0, """
            TARGET          LEADS TO      OPAQUE
            10.0.0.1:8080   an endpoint   no

            ADDRESS    PORT   POD   ACCOUNT   MESHED   HINT
            10.0.0.1   8080   a-1   a         yes      HTTP/2, tunnel 4143
        """)

    def test_words(self):
        """An unknown Service, and what is neither a Service nor an address."""
        run = self.mesh("routes", feed_of(service("web", 80)), "wep.shop")
        self.require(run, 3, "", "mesh: there is no Service wep.shop in the feed; the nearest: web.shop\n")
        self.assertEqual(2, self.run_mesh("profile", "a/b").status)
        self.assertEqual(2, self.run_mesh("profile", "10.0.0.300:80").status)
