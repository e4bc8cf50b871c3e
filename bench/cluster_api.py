"""A cluster that changes, as its API server tells it: lists, and watches that end after a while. For bench/soak.py.

Each Service `web-N` of the namespace `shop` has two Pods, a slice, a profile, a Server of the port 8080 with a route, an authentication
and authorizations, and a route of its own. The port 9090 of the Pods has no Server. A Server of an even number is never removed, so its
port never has the default policy. A change gives one object another version, or removes it, or brings it back."""
import copy
import http.server
import json
import random
import threading
import time
import urllib.parse

POLICY = "policy.linkerd.io"
NAMESPACE = "shop"
KINDS = {
    ("", "v1"): {"services": "Service", "pods": "Pod"},
    ("discovery.k8s.io", "v1"): {"endpointslices": "EndpointSlice"},
    ("linkerd.io", "v1alpha2"): {"serviceprofiles": "ServiceProfile"},
    (POLICY, "v1beta3"): {"servers": "Server", "httproutes": "HTTPRoute"},
    (POLICY, "v1beta1"): {"serverauthorizations": "ServerAuthorization"},
    (POLICY, "v1alpha1"): {
        "authorizationpolicies": "AuthorizationPolicy",
        "meshtlsauthentications": "MeshTLSAuthentication",
        "networkauthentications": "NetworkAuthentication",
    },
}  # the group gateway.networking.k8s.io is not installed
WATCH_SECONDS = (20, 60)   # after which a watch ends
LATENCY_SECONDS = 0.3      # by which a watch may be behind
DOWN_SECONDS = 5           # for which an API server that restarts refuses what it is asked


def value(kind, api, name, spec=None, **metadata):
    """An object."""
    head = {"name": name, "namespace": NAMESPACE, **metadata}
    return {"apiVersion": api, "kind": kind, "metadata": head, **({} if spec is None else {"spec": spec})}


def reference(kind, name):
    return {"group": POLICY, "kind": kind, "name": name}


def address(number, place, turn):
    """The address of a Pod, one of four."""
    return f"10.{number % 250 + 1}.{place}.{turn + 1}"


def identity(name):
    return f"{name}.{NAMESPACE}.serviceaccount.identity.linkerd.cluster.local"


def service(number, turn):
    port = {"port": 80, "targetPort": 8080} | ({"appProtocol": "http"} if turn % 2 else {})
    return value("Service", "v1", f"web-{number}", {"clusterIP": f"10.96.{number // 250}.{number % 250 + 1}", "ports": [port]})


def pod(number, place, turn):
    ports = [{"containerPort": 8080}, {"containerPort": 9090}]
    labels = {"app": f"web-{number}", "linkerd.io/control-plane-ns": "linkerd"}
    spec = {"serviceAccountName": f"web-{number}", "containers": [{"name": "c", "ports": ports}]}
    return {**value("Pod", "v1", f"web-{number}-{place}", spec, labels=labels), "status": {"podIP": address(number, place, turn)}}


def slices(number, turn):
    rows = [
        {"addresses": [address(number, place, turn if place else 0)], "conditions": {"ready": turn != 2 or not place},
         "targetRef": {"kind": "Pod", "name": f"web-{number}-{place}", "namespace": NAMESPACE}}
        for place in range(2)
    ]
    head = value("EndpointSlice", "discovery.k8s.io/v1", f"web-{number}", labels={"kubernetes.io/service-name": f"web-{number}"})
    return {**head, "addressType": "IPv4", "ports": [{"port": 8080}], "endpoints": rows[: 1 if turn == 3 else 2]}


def profile(number, turn):
    route = {"name": f"route {turn}", "condition": {"pathRegex": f"/turn{turn}/.*", "method": "GET"}, "isRetryable": turn % 2 == 0}
    return value("ServiceProfile", "linkerd.io/v1alpha2", f"web-{number}.{NAMESPACE}.svc.cluster.local", {"routes": [route]})


def server(number, turn):
    spec = {"podSelector": {"matchLabels": {"app": f"web-{number}"}}, "port": 8080, "proxyProtocol": ("HTTP/1", "HTTP/2", "gRPC", "HTTP/1")[turn]}
    return value("Server", f"{POLICY}/v1beta3", f"web-{number}", spec)


def route(number, turn):
    matches = [{"path": {"type": "PathPrefix", "value": f"/turn{turn}"}}, {"method": "GET"}]
    spec = {"parentRefs": [reference("Server", f"web-{number}")], "rules": [{"matches": matches[: turn % 2 + 1]}]}
    return value("HTTPRoute", f"{POLICY}/v1beta3", f"admin-{number}", spec)


def outbound(number, turn):
    parent = {"group": "core", "kind": "Service", "name": f"web-{number}", "port": 80}
    rule = {"backendRefs": [{"name": f"web-{number}", "port": 80, "weight": turn + 1}], "timeouts": {"request": f"{turn + 1}s"}}
    return value("HTTPRoute", f"{POLICY}/v1beta3", f"out-{number}", {"parentRefs": [parent], "rules": [rule]})


def near(number, turn):
    client = {"meshTLS": {"identities": [identity(f"near-{turn}")]}}
    return value("ServerAuthorization", f"{POLICY}/v1beta1", f"near-{number}", {"server": {"name": f"web-{number}"}, "client": client})


def admits(number, turn):
    target = reference(*(("Server", f"web-{number}"), ("HTTPRoute", f"admin-{number}"))[turn % 2])
    clients = [reference("MeshTLSAuthentication", f"clients-{number}")]
    clients += [reference("NetworkAuthentication", f"net-{number}")] if turn > 1 else []
    return value("AuthorizationPolicy", f"{POLICY}/v1alpha1", f"admits-{number}", {"targetRef": target, "requiredAuthenticationRefs": clients})


def clients_of(number, turn):
    names = [identity(f"client-{it}") for it in range(turn)] or ["*"]
    return value("MeshTLSAuthentication", f"{POLICY}/v1alpha1", f"clients-{number}", {"identities": names})


def networks(number, turn):
    return value("NetworkAuthentication", f"{POLICY}/v1alpha1", f"net-{number}", {"networks": [{"cidr": f"10.{turn}.0.0/16"}]})


TURNS = 4  # versions of each object
MAKERS = {
    "Service": (service,),
    "Pod": (lambda number, turn: pod(number, 0, 0), lambda number, turn: pod(number, 1, turn)),
    "EndpointSlice": (slices,),
    "ServiceProfile": (profile,),
    "Server": (server,),
    "HTTPRoute": (route, outbound),
    "ServerAuthorization": (near,),
    "AuthorizationPolicy": (admits,),
    "MeshTLSAuthentication": (clients_of,),
    "NetworkAuthentication": (networks,),
}
STAYS = ("Service", "Pod", "MeshTLSAuthentication")  # kinds whose objects change and are not removed, as odd Servers are


class Collection:
    """The objects of a kind by name, and the events that led to them, each with its version."""

    def __init__(self):
        self.objects, self.events = {}, []


class Cluster:
    """The objects, and how they change."""

    def __init__(self, services, seed):
        self.services, self.choice = services, random.Random(seed)
        self.changed = threading.Condition()
        self.version, self.is_over, self.down_until = 0, False, 0.0
        self.collections = {kind: Collection() for kind in MAKERS}
        self.watches = 0
        for number in range(services):
            for kind, makers in MAKERS.items():
                for maker in makers:
                    self.put(kind, maker(number, 0))

    def put(self, kind, object_):
        """An object in place of the one of its name, or a new one."""
        it = self.collections[kind]
        word = "MODIFIED" if object_["metadata"]["name"] in it.objects else "ADDED"
        self.tell(kind, word, object_)
        it.objects[object_["metadata"]["name"]] = it.events[-1][1]["object"]

    def remove(self, kind, name):
        self.tell(kind, "DELETED", self.collections[kind].objects.pop(name))

    def tell(self, kind, word, object_):
        self.version += 1
        shown = copy.deepcopy(object_)
        shown["metadata"]["resourceVersion"] = str(self.version)
        self.collections[kind].events.append((self.version, {"type": word, "object": shown}))

    def change(self):
        """One change of one object."""
        kind = self.choice.choice(list(MAKERS))
        number, turn = self.choice.randrange(self.services), self.choice.randrange(TURNS)
        object_ = self.choice.choice(MAKERS[kind])(number, turn)
        name = object_["metadata"]["name"]
        may_go = kind not in STAYS and not (kind == "Server" and number % 2 == 0)
        with self.changed:
            if may_go and name in self.collections[kind].objects and self.choice.random() < 0.3:
                self.remove(kind, name)
            else:
                self.put(kind, object_)
            self.changed.notify_all()

    def restart(self):
        """The API server goes: its watches end, and it refuses what it is asked for a while."""
        with self.changed:
            self.down_until = time.monotonic() + DOWN_SECONDS
            self.changed.notify_all()

    def end(self):
        with self.changed:
            self.is_over = True
            self.changed.notify_all()

    def is_down(self):
        return self.is_over or time.monotonic() < self.down_until

    def list(self, kind, api):
        with self.changed:
            rows = [{name: it[name] for name in it if name not in ("kind", "apiVersion")} for it in self.collections[kind].objects.values()]
            return {"kind": f"{kind}List", "apiVersion": api, "metadata": {"resourceVersion": str(self.version)}, "items": rows}

    def held(self):
        """The lists of all kinds."""
        apis = {kind: f"{group}/{version}" if group else version for (group, version), plurals in KINDS.items() for kind in plurals.values()}
        return {kind: self.list(kind, apis[kind]) for kind in MAKERS}

    def events_after(self, kind, version, seconds):
        """The events after a version, once there are some, the time is over, or the API server goes."""
        end = time.monotonic() + seconds
        with self.changed:
            while True:
                rows = self.collections[kind].events
                place = len(rows)
                while place and rows[place - 1][0] > version:
                    place -= 1
                left = end - time.monotonic()
                if rows[place:] or left <= 0 or self.is_down():
                    return rows[place:]
                self.changed.wait(left)


class ApiServer(http.server.ThreadingHTTPServer):
    """The API server of a cluster on the loopback interface."""

    daemon_threads, request_queue_size = True, 128

    def __init__(self, cluster):
        self.cluster = cluster
        super().__init__(("127.0.0.1", 0), Request)
        threading.Thread(target=self.serve_forever, daemon=True).start()

    def handle_error(self, request, client_address):
        """A client that leaves is none of our errors."""


class Request(http.server.BaseHTTPRequestHandler):
    """A list, a watch, or the versions of a group."""

    def do_GET(self):
        path, _, query = self.path.partition("?")
        words = urllib.parse.parse_qs(query)
        _, root, *rest = path.split("/")
        group, place = ("", 0) if root == "api" else (rest[0], 1)
        if self.server.cluster.is_down():
            return self.tell(503, {"kind": "Status", "message": "the API server is shutting down"})
        if root == "apis" and len(rest) == 1:
            versions = [{"version": version} for name, version in KINDS if name == group]
            return self.tell(200 if versions else 404, {"kind": "APIGroup", "versions": versions, "preferredVersion": (versions or [{}])[0]})
        version, plural = rest[place], rest[-1]
        kind = KINDS.get((group, version), {}).get(plural)
        if kind is None:
            return self.tell(404, {"kind": "Status", "message": "the server could not find the requested resource"})
        if "watch" in words:
            return self.watch(kind, int(words["resourceVersion"][0]))
        self.tell(200, self.server.cluster.list(kind, f"{group}/{version}" if group else version))

    def tell(self, status, answer):
        data = json.dumps(answer).encode()
        self.send_response(status)
        self.send_header("Content-Type", "application/json")
        self.send_header("Content-Length", str(len(data)))
        self.end_headers()
        self.wfile.write(data)

    def watch(self, kind, version):
        """Events until the watch ends: cut off, at its end, or by a version that is too old."""
        cluster, dice = self.server.cluster, random.Random()
        cluster.watches += 1
        end = time.monotonic() + dice.uniform(*WATCH_SECONDS)
        self.send_response(200)
        self.send_header("Content-Type", "application/json")
        self.end_headers()
        self.wfile.flush()
        while (left := end - time.monotonic()) > 0 and not cluster.is_down():
            for version, event in cluster.events_after(kind, version, left):
                self.wfile.write(json.dumps(event).encode() + b"\n")
            self.wfile.flush()
            time.sleep(dice.uniform(0, LATENCY_SECONDS))
        if dice.random() < 0.3:
            gone = {"kind": "Status", "code": 410, "message": "too old resource version"}
            self.wfile.write(json.dumps({"type": "ERROR", "object": gone}).encode() + b"\n")

    def log_message(self, *_):
        """Nothing is logged."""


KUBECTL = """#!/usr/bin/env -S python3 -S -E
# Prints what the API server of the soak answers at a path: `kubectl get --raw PATH`.
import socket, sys
with socket.create_connection(("127.0.0.1", {port})) as link:
    link.sendall(f"GET {{sys.argv[3]}} HTTP/1.0\\r\\n\\r\\n".encode())
    with link.makefile("rb") as source:
        status = int(source.readline().split()[1])
        while source.readline().strip():
            pass
        if status != 200:
            sys.exit("Error from server" + (" (NotFound): the server could not find the requested resource" if status == 404 else ": not available"))
        while data := source.read1(65536):
            sys.stdout.buffer.write(data)
            sys.stdout.buffer.flush()
"""


def put_kubectl(folder, api):
    """A stand-in for kubectl that asks the API server."""
    path = folder / "kubectl"
    path.write_text(KUBECTL.format(port=api.server_address[1]))
    path.chmod(0o755)
