"""What a change opens and closes: requests of several clients, simulated before and after it.

The clients are one without and one with an identity, at an address outside and inside of the cluster, and one for each authorization of
the views. The requests are one for each match of a route and for each probe, and `GET /`. So the answer names what was tried, and what was
not tried is not said to be closed.
"""

import ipaddress
from dataclasses import dataclass, field, replace

from mesh_front import views
from mesh_front.ask import Client, address_in
from mesh_front.messages import Message
from mesh_front.names import PodPort

OUTSIDE = "203.0.113.7"
INSIDE = "10.0.0.1"
BY_AUTHORIZATION = ("allowed ServerAuthorization ", "allowed AuthorizationPolicy ")
NAMED = 3  # clients that are named one by one
ANYONE, ANYONE_INSIDE = "anyone", "anyone in the cluster"
ANY_IDENTITY, ANY_IDENTITY_INSIDE = "any identity", "any identity in the cluster"
GENERAL = (ANYONE, ANYONE_INSIDE, ANY_IDENTITY, ANY_IDENTITY_INSIDE)


@dataclass(frozen=True)
class Trial:
    """A request of a client, with the words for both."""

    words: str
    client: Client
    request: str
    line: dict = field(hash=False, compare=False)


@dataclass
class Access:
    """Ports on which a request of some clients is admitted before or after the change alone, with both verdicts."""

    ports: list[str]
    words: str
    clients: list[Client]
    request: str | None
    before: str
    after: str

    def __str__(self) -> str:
        request = f", {self.request}" if self.request else ""
        more = f" and {len(self.clients) - NAMED} more" if len(self.clients) > NAMED else ""
        who = f"{self.words} ({'; '.join(map(str, self.clients[:NAMED]))}{more})"
        return f"{', '.join(self.ports)} to {who}{request}: {self.before} -> {self.after}"


def is_in(address: str, network: views.Network) -> bool:
    """Whether a network has an address, outside of its exceptions."""
    one, nets = ipaddress.ip_address(address), [ipaddress.ip_network(it, strict=False) for it in (network.network, *network.exceptions)]
    return one in nets[0] and not any(one in it for it in nets[1:])


def addresses_of(authorization: views.Authorization, inside: str) -> list[str]:
    """An address of each network and of each exception that an authorization shows, one that it admits first: of the cluster if it can be.

    Of all addresses of a family none is taken beside that one.
    """
    near = [it for it in (inside, OUTSIDE) if any(is_in(it, network) for network in authorization.networks)][:1]
    others = [it for it in authorization.networks if not near or not (it.network.endswith("/0") or is_in(near[0], it))]
    own = [it for it in map(address_in, others) if it]
    exceptions = [str(ipaddress.ip_network(it, strict=False).network_address) for network in authorization.networks for it in network.exceptions]
    return list(dict.fromkeys(near + own + exceptions)) or [inside]


def identities_of(authorization: views.Authorization) -> list[Client]:
    """A client of each identity that an authorization shows, at no address yet."""
    who = authorization.clients
    if who.anyone:
        return [Client("")]
    names = [*filter(None, who.identities), *(f"any{suffix}" for suffix in who.suffixes), *["any"] * who.any_identity]
    return [Client("", tls=True)] * who.any_tls + [Client("", name) for name in names] or [Client("")]


def clients_of(versions: list[views.Authorization], inside: str) -> list[Client]:
    """The clients that are tried for an authorization, as it is before and after.

    Each identity is tried at an address that each version admits, and one identity, which both versions show if one does, at an address of
    each network and of each exception.
    """
    places, people = [addresses_of(it, inside) for it in versions], [identities_of(it) for it in versions]
    shared = [it for it in people[0] if all(it in rows for rows in people)]
    everybody = list(dict.fromkeys(shared + [it for rows in people for it in rows]))
    near, others = [rows[0] for rows in places], [it for rows in places for it in rows[1:]]
    return [replace(who, address=it) for it in near for who in everybody] + [replace(everybody[0], address=it) for it in others]


def clients(inbound: list[views.Inbound], inside: str) -> list[tuple[str, Client]]:
    """The clients that are tried, the more general ones first, each with its words."""
    result = [
        (ANYONE, Client(OUTSIDE)),
        (ANYONE_INSIDE, Client(inside)),
        (ANY_IDENTITY, Client(OUTSIDE, "any")),
        (ANY_IDENTITY_INSIDE, Client(inside, "any")),
    ]
    versions: dict[str, list[views.Authorization]] = {}
    for view in inbound:
        for it in view.authorizations:
            versions.setdefault(it.title, []).append(it)
    for title, rows in versions.items():
        result += [(f"the clients of {title}", client) for client in clients_of(rows, inside)]
    return list(dict.fromkeys(result))


def is_part(one: Trial, whole: Trial) -> bool:
    """Whether the clients of a trial are among the more general ones of another one of the same request."""
    if one.request != whole.request or one.words == whole.words or whole.words not in GENERAL:
        return False
    is_near = whole.words in (ANYONE, ANY_IDENTITY) or one.client.address == whole.client.address
    return is_near and (whole.words in (ANYONE, ANYONE_INSIDE) or one.client.identity is not None)


def match_request(match: Message, hosts: list[str]) -> dict | None:
    """A request that has a match, None where that takes a regular expression."""
    path, parts = match.at("path"), [*match.all("headers"), *match.all("query")]
    if path.one("kind") == "REGEX" or any(it.one("regex", False) for it in parts):
        return None
    request = {"method": match.one("method", "GET"), "path": path.one("value", "/")}
    if hosts:
        request["host"] = f"x{hosts[0][1:]}" if hosts[0].startswith("*.") else hosts[0]
    if match.all("headers"):
        request["headers"] = [[it.one("name", ""), it.one("value", "")] for it in match.all("headers")]
    if match.all("query"):
        request["query"] = "&".join(f"{it.one('name', '')}={it.one('value', '')}" for it in match.all("query"))
    return request


def request_words(http: dict) -> str:
    """A request as people read it."""
    query, host = f"?{http['query']}" if "query" in http else "", f" of the host {http['host']}" if "host" in http else ""
    headers = "".join(f" with {name}={value}" for name, value in http.get("headers", []))
    return f"{http['method']} {http['path']}{query}{host}{headers}"


def requests(messages: list[Message]) -> dict[str, dict]:
    """The requests that the routes and the probes of a view ask for, and one of the path `/`."""
    found = [{"method": "GET", "path": "/"}]
    for message in messages:
        for route in message.all("routes"):
            for match in [it for rule in route.all("rules") for it in rule.all("matches")]:
                request = match_request(match, route.all("hostnames"))
                found += [request] if request else []
        found += [{"method": "GET", "path": path} for path in message.all("probes")]
    return {request_words(it): it for it in found}


def trials(target: PodPort, before: list[Message], after: list[Message], inside: str) -> list[Trial]:
    """What is tried for a port whose view changes."""
    workload = f"{target.pod.namespace}:{target.pod.name}"
    people = clients([views.inbound(before), views.inbound(after)], inside)
    return [
        Trial(word, client, text, {"workload": workload, "port": target.port, **client.members(), "http": http})
        for text, http in requests([*before[:1], *after[:1]]).items()
        for word, client in people
    ]


def changed(tried: list[Trial], before: list[str], after: list[str], opens: bool) -> list[tuple[Trial, str, str]]:
    """The trials that are admitted after the change alone, or before it alone, without those of clients who are among others.

    Of the clients of an authorization only what an authorization decides is told: the rest shows in the general ones.
    """
    rows = [row for row in zip(tried, before, after) if (is_allowed(row[1]), is_allowed(row[2])) == (not opens, opens)]
    rows = [row for row in rows if row[0].words in GENERAL or row[1].startswith(BY_AUTHORIZATION) or row[2].startswith(BY_AUTHORIZATION)]
    return [row for row in rows if not any(is_part(row[0], other[0]) for other in rows)]


def is_allowed(verdict: str) -> bool:
    """Whether a verdict admits."""
    return verdict.startswith("allowed")


def accesses(port: str, tried: list[Trial], before: list[str], after: list[str], opens: bool) -> list[Access]:
    """What a change opens or closes on a port. A client for whom each request is alike is told once."""
    rows = changed(tried, before, after, opens)
    count = len({it.request for it in tried})
    result = []
    for words, client in dict.fromkeys((trial.words, trial.client) for trial, _, _ in rows):
        own = [row for row in rows if (row[0].words, row[0].client) == (words, client)]
        pairs = {(old, new) for _, old, new in own}
        if len(own) == count and len(pairs) == 1:
            result.append(Access([port], words, [client], None, *pairs.pop()))
        else:
            result += [Access([port], words, [client], trial.request, old, new) for trial, old, new in own]
    return result


def together(found: list[Access]) -> list[Access]:
    """What is alike for several clients, and then on several ports, told once."""
    by_clients: dict[tuple, Access] = {}
    for it in found:
        alike = by_clients.setdefault((tuple(it.ports), it.words, it.request, it.before, it.after), it)
        alike.clients += [] if alike is it else it.clients
    by_ports: dict[tuple, Access] = {}
    for it in by_clients.values():
        alike = by_ports.setdefault((it.words, tuple(it.clients), it.request, it.before, it.after), it)
        alike.ports += [] if alike is it else it.ports
    return list(by_ports.values())
