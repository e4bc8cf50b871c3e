"""`mesh ask`: what comes of a request, and why.

The reasons are found by asking again. Of each authorization in the view all others are removed, and the request is simulated as
it is, from an address that the authorization shows, as a client that it shows, and as both. Where the policy of the Server or the
default one denies, the request is simulated with an identity, at the address of a Pod, and with both, so that the answer can say what
the client lacks for the policy to admit it, or for the request to be a probe. A policy that names the Server and is not in the view
is asked for once more with the references that it lacks. Which match of a route holds is found with a route for each match, and a policy
for each of these routes that admits everyone: the policy that decides names the match.
"""

import ipaddress
from dataclasses import dataclass, replace

from mesh_front import policy, probes, views
from mesh_front.faults import Fault, Status
from mesh_front.feed import Key, Objects, items, members
from mesh_front.kinds import AUTHORIZATION_POLICY, LINKERD_ROUTE, POD, POLICY_KINDS, SERVER, SERVER_AUTHORIZATION
from mesh_front.names import PodName, PodPort, require_pod
from mesh_front.program import Answers, Script, Session
from mesh_front.tables import show, table

NOBODY = "nobody"
KINDS = {kind.name: kind for kind in (SERVER_AUTHORIZATION, AUTHORIZATION_POLICY)}


@dataclass(frozen=True)
class Client:
    """Who sends the request."""

    address: str
    identity: str | None = None
    tls: bool = False

    def __str__(self) -> str:
        return f"{self.address}, {self.identity or ('TLS without an identity' if self.tls else 'no identity')}"

    def members(self) -> dict:
        """The members of a `simulate` line."""
        return {"client": self.address, "tls": self.tls} | ({"identity": self.identity} if self.identity else {})


@dataclass(frozen=True)
class Words:
    """What the words of the command ask."""

    target: PodPort
    pod: PodName | None
    client: Client | None
    http: dict | None

    def request(self, client: Client) -> dict:
        """The members of a `simulate` line."""
        workload = f"{self.target.pod.namespace}:{self.target.pod.name}"
        http = {} if self.http is None else {"http": self.http}
        return {"workload": workload, "port": self.target.port, **client.members(), **http}

    def request_text(self) -> str:
        """The request as people read it."""
        if self.http is None:
            return f"a connection to {self.target}, not HTTP"
        query = f"?{self.http['query']}" if "query" in self.http else ""
        host = f" of the host {self.http['host']}" if "host" in self.http else ""
        return f"{self.http['method']} {self.http['path']}{query}{host} to {self.target}"


@dataclass
class Reason:
    """An authorization of the view, and which part of it admits the client. Without `counts` that is asked only of what admits nobody."""

    authorization: views.Authorization
    admits: bool
    counts: bool
    network_admits: bool | None
    client_admits: bool | None


@dataclass
class HiddenPolicy:
    """A policy that names the Server or a route of it and that the view does not show, and why."""

    policy: str
    why: str


@dataclass
class MatchedRoute:
    """The route that the request uses, and its match: the place of the rule in the route, and of the match in the rule, from 0."""

    name: str
    group: str
    rule: int
    match: int
    text: str

    def __str__(self) -> str:
        return f"HTTPRoute/{self.name} of {self.group}, rule {self.rule}, match {self.match}: {self.text}"


@dataclass
class Answer:
    """What comes of the request, and why. Where the feed lacks something, `allowed` is not known.

    Where a policy denies: what the client would need for it, and for the request as a probe.
    """

    allowed: bool | None
    decider: str | None
    route: MatchedRoute | None
    verdict: str
    policy_needs: str | None
    probe_needs: str | None
    request: str
    client: Client
    is_meshed: bool
    view: views.Inbound
    reasons: list[Reason]
    hidden_policies: list[HiddenPolicy]


@dataclass
class First:
    """What the first run tells: the view, the identity of the Pod, and the client."""

    view: views.Inbound
    is_meshed: bool
    client: Client


@dataclass
class Match:
    """The simulation over a route for each match, and the match of each verdict that it can have."""

    number: int
    matches: dict[str, MatchedRoute]

    def matched(self, answers: Answers) -> MatchedRoute | None:
        """The match that the request has, None where no route is used."""
        return self.matches.get(answers.verdicts.get(self.number, ""))


@dataclass
class Trial:
    """The simulations for one authorization: the request as it is, and with the address, the client or both replaced."""

    as_it_is: int
    with_address: int
    with_client: int
    with_both: int


def address_of(objects: Objects, pod: PodName) -> str:
    """The address of a held Pod."""
    address = members(objects.by_key[require_pod(objects, pod)], "status").get("podIP")
    if not isinstance(address, str):
        raise Fault(Status.UNKNOWN, f"the Pod {pod} has no address in the feed; give --client and --identity")
    return address


def first_run(session: Session, words: Words) -> First:
    """Asks for the view of the port, whether its Pod is meshed, and who the client is."""

    def questions(objects: Objects, script: Script) -> tuple[int, list[int], str | None]:
        require_pod(objects, words.target.pod)
        address = address_of(objects, words.pod) if words.pod else None
        pods = [words.target.pod] + ([words.pod] if words.pod else [])
        view = script.view(policy.inbound_query(words.target))
        return view, [probes.ask_row(objects, script, pod) for pod in pods], address

    (view, rows, address), answers = session.ask(questions)
    identities = [probes.identity(answers, number) for number in rows]
    client = words.client or Client(str(address), identities[1])
    return First(policy.require_view(views.inbound(answers.view(view)), words.target), identities[0] is not None, client)


def address_in(network: views.Network) -> str | None:
    """An address of a network that is in none of its exceptions, None where no try finds one."""
    whole = ipaddress.ip_network(network.network, strict=False)
    exceptions = [ipaddress.ip_network(it, strict=False) for it in network.exceptions]
    holes = [it for it in exceptions if it.version == whole.version]
    first, last, kind = int(whole.network_address), int(whole.broadcast_address), type(whole.network_address)
    tries = [first, *(int(it.broadcast_address) + 1 for it in holes), *(int(it.network_address) - 1 for it in holes)]
    free = [kind(it) for it in tries if first <= it <= last and not any(kind(it) in hole for hole in holes)]
    return str(free[0]) if free else None


def shown_address(authorization: views.Authorization, client: Client) -> Client:
    """The client at an address that the authorization shows."""
    addresses = list(filter(None, map(address_in, authorization.networks)))
    return replace(client, address=addresses[0]) if addresses else client


def shown_client(authorization: views.Authorization, client: Client) -> Client:
    """The client as one that the authorization shows."""
    who = authorization.clients
    names = list(filter(None, who.identities)) + [f"any{suffix}" for suffix in who.suffixes] + ["any"] * who.any_identity
    if names and not who.anyone and not who.any_tls:
        return replace(client, identity=names[0])
    return replace(client, tls=True) if who.any_tls and not client.identity else client


def object_of(objects: Objects, namespace: str, authorization: views.Authorization) -> dict:
    """The object of an authorization of the view."""
    return objects.by_key[Key(KINDS[authorization.kind], namespace, authorization.name)]


def ask_trial(script: Script, words: Words, client: Client, one: views.Authorization) -> Trial:
    """Asks which part of an authorization admits the client, where it is the only one."""
    elsewhere, other = shown_address(one, client), shown_client(one, client)
    clients = [client, elsewhere, other, shown_client(one, elsewhere)]
    return Trial(*(script.simulate(words.request(it)) for it in clients))


def split_routes(objects: Objects, namespace: str, view: views.Inbound) -> list[tuple[MatchedRoute, dict]]:
    """A route for each match of the routes of a view, in their order, with the match that it has."""
    name = objects.free_name(namespace)
    routes: list[tuple[MatchedRoute, dict]] = []
    for one in view.routes:
        spec = objects.spec(Key(views.route_kind(one), namespace, one.name))
        texts = iter(one.matches)
        for place, rule in enumerate(items(spec, "rules")):
            for number, match in enumerate(items(rule, "matches") or [{}]):
                parent = {"group": SERVER.group, "kind": SERVER.name, "name": view.server}
                rest = {"hostnames": spec.get("hostnames"), "parentRefs": [parent], "rules": [{"matches": [match]}]}
                value = probes.new_object(LINKERD_ROUTE, namespace, f"{name}-{len(routes):06}", spec=rest)
                routes.append((MatchedRoute(one.name, one.group, place, number, next(texts, "-")), value))
    return routes


def open_policy(route: dict) -> dict:
    """A policy of a route that admits everyone."""
    metadata = route["metadata"]
    target = {"group": LINKERD_ROUTE.group, "kind": LINKERD_ROUTE.name, "name": metadata["name"]}
    spec = {"targetRef": target, "requiredAuthenticationRefs": []}
    return probes.new_object(AUTHORIZATION_POLICY, metadata["namespace"], metadata["name"], spec=spec)


def ask_match(objects: Objects, script: Script, words: Words, first: First) -> Match:
    """Asks which match the request has."""
    namespace = words.target.pod.namespace
    routes = split_routes(objects, namespace, first.view)
    own = [it for _, value in routes for it in (value, open_policy(value))]
    values = [object_of(objects, namespace, it) for it in first.view.authorizations]
    values += [objects.by_key[Key(views.route_kind(it), namespace, it.name)] for it in first.view.routes]
    script.remove(*values)
    script.hold(*own)
    number = script.simulate(words.request(first.client))
    script.remove(*own)
    script.hold(*values)
    verdicts = {f"allowed {AUTHORIZATION_POLICY.name} {namespace}/{value['metadata']['name']}": it for it, value in routes}
    return Match(number, verdicts)


def hidden_policies(objects: Objects, first: First, namespace: str) -> list[Key]:
    """The policies that name the Server or a route of it and are not in the view."""
    policies = probes.named_policies(objects, namespace, "Server", str(first.view.server))
    policies += probes.named_policies(objects, namespace, "Namespace", namespace)
    for it in first.view.routes:
        policies += probes.named_policies(objects, namespace, "HTTPRoute", it.name, it.group)
    names = {(it.kind, it.name) for it in first.view.authorizations}
    return [key for key in dict.fromkeys(policies) if (key.kind.name, key.name) not in names]


def ask_reasons(objects: Objects, script: Script, words: Words, first: First) -> list[Trial]:
    """Asks for each authorization of the view which part of it admits the client."""
    trials = []
    values = [object_of(objects, words.target.pod.namespace, it) for it in first.view.authorizations]
    script.remove(*values)
    for authorization, value in zip(first.view.authorizations, values):
        script.hold(value)
        trials.append(ask_trial(script, words, first.client, authorization))
        script.remove(value)
    script.hold(*values)
    return trials


def ask_policy(objects: Objects, script: Script, words: Words, first: First) -> dict[str, int]:
    """Asks what a client would need to be admitted where no authorization is held, the least first."""
    values = [object_of(objects, words.target.pod.namespace, it) for it in first.view.authorizations]
    addresses = [members(objects.by_key[key], "status").get("podIP") for key in objects.of(POD)]
    script.remove(*values)
    somebody = replace(first.client, identity=first.client.identity or "any")
    numbers = {"an identity": script.simulate(words.request(somebody))}
    for address in [it for it in addresses if isinstance(it, str)][:1]:
        place = f"an address of the cluster, such as {address}"
        numbers[place] = script.simulate(words.request(replace(first.client, address=address)))
        numbers[f"an identity and {place}"] = script.simulate(words.request(replace(somebody, address=address)))
    script.hold(*values)
    return numbers


def reason(authorization: views.Authorization, namespace: str, trial: Trial, answers: Answers) -> Reason:
    """What the simulations of an authorization say."""
    verdict = f"allowed {authorization.kind} {namespace}/{authorization.name}"
    as_it_is, address, client, both = (answers.verdicts.get(number) == verdict for number in vars(trial).values())
    if as_it_is or both:
        return Reason(authorization, as_it_is, True, as_it_is or client, as_it_is or address)
    no_place = None if authorization.networks else False
    return Reason(authorization, False, False, no_place, False if str(authorization.clients) == NOBODY else None)


def least(needs: dict[str, int], decider: str, answers: Answers) -> str | None:
    """The least with which this decider admits the client, None where it never does."""
    return next((what for what, line in needs.items() if answers.verdicts.get(line, "").startswith(f"allowed {decider} ")), None)


def why_hidden(objects: Objects, key: Key, after: views.Inbound) -> HiddenPolicy:
    """Why a policy is not in the view, by the view in which what it refers to is held."""
    absent = probes.missing_references(objects, key)
    if absent and key.name in {it.name for it in after.authorizations if it.kind == key.kind.name}:
        return HiddenPolicy(str(key), f"{' and '.join(map(str, absent))} is not in the feed")
    other = probes.other_references(objects, key)
    if other:
        return HiddenPolicy(str(key), f"it refers to {' and '.join(other)}, to which it cannot refer")
    return HiddenPolicy(str(key), "its target is of another group or namespace")


def second_run(session: Session, words: Words, first: First) -> Answer:
    """Asks for the verdict, and why."""
    namespace = words.target.pod.namespace

    def questions(objects: Objects, script: Script) -> tuple[int, Match | None, dict[str, int], list[Trial], list[Key], int]:
        verdict = script.simulate(words.request(first.client))
        match = ask_match(objects, script, words, first) if first.view.routes and words.http is not None else None
        trials = ask_reasons(objects, script, words, first) if first.view.server else []
        needs = ask_policy(objects, script, words, first)
        hidden_keys = hidden_policies(objects, first, namespace) if first.view.server else []
        script.hold(*probes.stand_ins([it for key in hidden_keys for it in probes.missing_references(objects, key)]))
        return verdict, match, needs, trials, hidden_keys, script.view(policy.inbound_query(words.target))

    (verdict, match, needs, trials, hidden_keys, number), answers = session.ask(questions)
    if verdict in answers.refusals:
        raise Fault(Status.REFUSED, f"the simulation is refused: {answers.refusals[verdict]}")
    reasons = [reason(it, namespace, trial, answers) for it, trial in zip(first.view.authorizations, trials)]
    after = views.inbound(answers.view(number))
    policies = [why_hidden(session.objects, key, after) for key in hidden_keys]
    text = answers.verdicts[verdict]
    policy_needs, probe_needs = (least(needs, it, answers) if text.startswith("denied") else None for it in ("default", "probe"))
    reasons_for_request = [] if text == "not-found" else reasons
    allowed = None if session.gaps(POLICY_KINDS) else text.startswith("allowed")
    return Answer(
        allowed,
        decider(text, first.view, namespace),
        match.matched(answers) if match else None,
        text,
        policy_needs,
        probe_needs,
        words.request_text(),
        first.client,
        first.is_meshed,
        first.view,
        reasons_for_request,
        policies,
    )


def decider(verdict: str, view: views.Inbound, namespace: str) -> str | None:
    """What decides, None where no route matches."""
    _, *rest = verdict.split(" ")
    if not rest:
        return None
    if rest[0] == "probe":
        return f"probe GET {view.probes[int(rest[1])]}"
    if rest[0] != "default":
        return " ".join(rest)
    return f"policy {rest[1]} of Server {namespace}/{view.server}" if view.server else f"default policy {rest[1]}"


def verdict_text(answer: Answer) -> str:
    """The verdict as people read it, which is not known where the feed lacks something."""
    return ("not known; as far as the feed goes: " if answer.allowed is None else "") + plain_verdict_text(answer)


def plain_verdict_text(answer: Answer) -> str:
    """The verdict over what is held."""
    word, *rest = answer.verdict.split(" ")
    if word == "not-found":
        return f"not found: the Server {answer.view.server} has routes, and none matches the request"
    if rest[0] == "probe":
        return f"{word} as a probe: the Pod has a probe of {answer.view.probes[int(rest[1])]}, and the address is of the cluster"
    if rest[0] != "default":
        return f"{word} by {' '.join(rest)}"
    if answer.view.server is None:
        return f"{word} by the default policy {rest[1]}: no Server selects this port"
    none = "no authorization admits the client" if answer.reasons else "no authorization applies"
    return f"{word} by the policy {rest[1]} of the Server {answer.view.server}: {none}"


def reason_cells(it: Reason, view: views.Inbound) -> list[str]:
    """A reason in a row of a table."""
    one = it.authorization
    parts = [(one.where(), it.network_admits), (str(one.clients), it.client_admits)]
    if it.counts:
        cells = ["admits" if admits else f"needs {text}" for text, admits in parts]
    else:
        cells = ["-" if admits is None else f"admits {text}" for text, admits in parts]
    other = ", not matched" if one.route and not it.counts and cells == ["-", "-"] else ""
    return [one.title, policy.scope(one, view) + other, *cells]


def lines(answer: Answer) -> list[str]:
    """The answer as people read it."""
    view = answer.view
    server = f"{view.server}, protocol {view.protocol}, policy" if view.server else "none, default policy"
    pairs = {
        "VERDICT": verdict_text(answer),
        **({"POLICY": f"{view.policy} needs {answer.policy_needs}"} if answer.policy_needs else {}),
        **({"PROBE": f"needs {answer.probe_needs}"} if answer.probe_needs else {}),
        "REQUEST": answer.request,
        "CLIENT": answer.client,
        "SERVER": f"{server} {view.policy}",
        **({"ROUTE": answer.route} if answer.route else {}),
        "MESHED": "yes" if answer.is_meshed else "no: the Pod has no proxy of this control plane to apply this",
    }
    output = [f"{name:<9}{text}" for name, text in pairs.items()]
    if answer.reasons:
        rows = [reason_cells(it, view) for it in answer.reasons]
        output += ["", *table(["AUTHORIZATION", "FOR", "NETWORK", "CLIENT"], rows)]
    if answer.verdict == "not-found":
        output += ["", *policy.route_table(view.routes)]
    if answer.hidden_policies:
        output += ["", *(f"not counted: {it.policy}: {it.why}" for it in answer.hidden_policies)]
    return output


def run(session: Session, words: Words, as_json: bool) -> Status:
    """Shows what comes of a request, and why."""
    answer = second_run(session, words, first_run(session, words))
    gaps = session.gaps(POLICY_KINDS)
    show(gaps, answer, lines(answer), as_json)
    return gaps.status(Status.DONE if answer.verdict.startswith("allowed") else Status.NO)
