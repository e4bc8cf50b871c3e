"""What views say, in the words of Kubernetes and Linkerd."""

from dataclasses import dataclass, field

from mesh_front.kinds import GATEWAY_ROUTE, LINKERD_ROUTE, Kind
from mesh_front.messages import Message, address

PROTOCOLS = {"HTTP_1": "HTTP/1", "HTTP_2": "HTTP/2", "GRPC": "gRPC", "TLS": "TLS", "UNKNOWN": "unknown", "OPAQUE": "opaque"}
AUTHORIZATIONS = {"SERVER_AUTHORIZATION": "ServerAuthorization", "AUTHORIZATION_POLICY": "AuthorizationPolicy"}
ROUTES = {"LINKERD_ROUTE": "policy.linkerd.io", "GATEWAY_ROUTE": "gateway.networking.k8s.io"}
PATHS = {"EXACT": "exact", "PREFIX": "prefix", "REGEX": "regex"}


@dataclass
class Endpoint:
    """An endpoint of a Service."""

    address: str
    port: int
    weight: int
    pod: str | None
    account: str | None
    identity: str | None
    http2: bool
    tunnel_port: int | None

    @property
    def hint(self) -> str:
        """How the endpoint can be reached besides plain HTTP/1 and TCP."""
        return ", ".join(["HTTP/2"] * self.http2 + [f"tunnel {self.tunnel_port}"] * (self.tunnel_port is not None)) or "-"

    def cells(self) -> list[str]:
        """The endpoint in a row of a table. Of an endpoint whose Pod is not held, nobody knows whether it is meshed."""
        meshed = "yes" if self.identity else "no" if self.pod else "-"
        return [self.address, str(self.port), self.pod or "-", self.account or "-", meshed, self.hint]


@dataclass
class Endpoints:
    """The endpoints of a port of a Service, and whether the Service exists."""

    exists: bool
    endpoints: list[Endpoint]


@dataclass
class Network:
    """The addresses of a network that are in none of the exceptions."""

    network: str
    exceptions: list[str]

    def __str__(self) -> str:
        return self.network + (f" except {' '.join(self.exceptions)}" if self.exceptions else "")


@dataclass
class Clients:
    """Who is admitted: anyone, any client with TLS, or clients by their identities."""

    anyone: bool
    any_tls: bool
    any_identity: bool
    identities: list[str]
    suffixes: list[str]

    def __str__(self) -> str:
        words = ["anyone"] * self.anyone + ["any client with TLS"] * self.any_tls + ["any identity"] * self.any_identity
        return ", ".join(words + self.identities + [f"*{suffix}" for suffix in self.suffixes]) or "nobody"


@dataclass
class Authorization:
    """An authorization, and the route that it is for, where it is not for the Server."""

    kind: str
    name: str
    networks: list[Network]
    clients: Clients
    route: str | None

    @property
    def title(self) -> str:
        """The kind and the name."""
        return f"{self.kind}/{self.name}"

    def where(self) -> str:
        """The networks, as people read them."""
        return ", ".join(map(str, self.networks)) or "nowhere"


@dataclass
class Route:
    """An HTTPRoute, and its matches as people read them."""

    name: str
    group: str
    created: str | None
    hostnames: list[str]
    matches: list[str]

    @property
    def title(self) -> str:
        """The kind and the name."""
        return f"HTTPRoute/{self.name}"


def route_kind(one: Route) -> Kind:
    """The kind of a route of a view."""
    return GATEWAY_ROUTE if one.group == GATEWAY_ROUTE.group else LINKERD_ROUTE


@dataclass
class Inbound:
    """What holds for a port of a Pod. Without the Pod there is no protocol and no policy."""

    protocol: str | None
    policy: str | None
    server: str | None
    authorizations: list[Authorization] = field(default_factory=list)
    routes: list[Route] = field(default_factory=list)
    probes: list[str] = field(default_factory=list)


def endpoint(row: Message) -> Endpoint:
    """The endpoint of a WeightedAddr."""
    at, hint = row.at("addr"), row.at("protocol_hint")
    labels = {it.one("key", ""): it.one("value", "") for it in row.all("metric_labels")}
    identity = row.at("tls_identity").at("dns_like_identity").one("name")
    tunnel = hint.at("opaque_transport").one("inbound_port")
    pod, account = labels.get("pod"), labels.get("serviceaccount")
    return Endpoint(address(at.at("ip")), at.one("port", 0), row.one("weight", 0), pod, account, identity, "h2" in hint.names(), tunnel)


def endpoints(messages: list[Message]) -> Endpoints:
    """The endpoints that the messages of a new subscriber tell."""
    rows = [endpoint(row) for message in messages for row in message.at("add").all("addrs")]
    return Endpoints(bool(rows) or any(it.at("no_endpoints").one("exists", False) for it in messages), rows)


def network_text(message: Message) -> str:
    """The usual notation of an IPNetwork."""
    return f"{address(message.at('ip'))}/{message.one('prefix_len', 0)}"


def authorization(row: Message, route: str | None) -> Authorization:
    """The authorization of an Authz."""
    networks = [Network(network_text(it.at("net")), list(map(network_text, it.all("except")))) for it in row.all("networks")]
    who = row.at("authentication")
    clients_by_identity = who.at("clients")
    everyone = clients_by_identity.one("everyone", False)
    clients = Clients("anyone" in who.names(), "any_tls" in who.names(), everyone, clients_by_identity.all("identities"), clients_by_identity.all("suffixes"))
    return Authorization(AUTHORIZATIONS[row.one("kind")], row.one("name", ""), networks, clients, route)


def name_match(match: Message, mark: str) -> str:
    """A match of a header or a query parameter, as people read it."""
    return f"{mark}{match.one('name', '')}{'~' if match.one('regex', False) else '='}{match.one('value', '')}"


def match_text(match: Message) -> str:
    """A match of a request, as people read it."""
    path = match.at("path")
    words = [match.one("method", ""), PATHS[path.one("kind")], path.one("value", "")]
    words += [name_match(it, "header ") for it in match.all("headers")] + [name_match(it, "?") for it in match.all("query")]
    return " ".join(filter(None, words))


def route(row: Message) -> Route:
    """The route of an HttpRoute."""
    matches = [match_text(match) for rule in row.all("rules") for match in rule.all("matches")]
    return Route(row.one("name", ""), ROUTES[row.one("kind")], row.one("created"), row.all("hostnames"), matches)


def inbound(messages: list[Message]) -> Inbound:
    """What the message of a new subscriber tells of a port of a Pod."""
    view = messages[0] if messages else Message()
    if not view.names():
        return Inbound(None, None, None)
    routes = view.all("routes")
    authorizations = [authorization(it, None) for it in view.all("authorizations")]
    authorizations += [authorization(it, inner.one("name", "")) for inner in routes for it in inner.all("authorizations")]
    policy = view.one("policy").lower().replace("_", "-")
    return Inbound(PROTOCOLS[view.one("protocol")], policy, view.one("server"), authorizations, list(map(route, routes)), view.all("probes"))
