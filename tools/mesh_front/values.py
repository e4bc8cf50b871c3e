"""Values of objects that lead to nothing, for `mesh check`: each with what is allowed and what it does to answers.

Whether a regular expression builds is asked of the program, by a made-up route of which it is the path; and so is whether a port of a
Service has endpoints. The other values are names and ports that no object of the feed has.
"""

import difflib
import re
from dataclasses import dataclass, field

from mesh_front import absences, probes, views, workloads
from mesh_front.feed import Key, Objects, items, members
from mesh_front.kinds import (
    AUTHORIZATION_POLICY,
    LINKERD_ROUTE,
    MESH_AUTHENTICATION,
    POD,
    PROFILE,
    ROUTE_KINDS,
    SERVER,
    SERVER_AUTHORIZATION,
    SERVICE,
    SLICE,
)
from mesh_front.program import Answers, Query, Script

SHOWN = 5  # allowed words that are told
ADDRESS = "192.0.2.1"
PATTERN = "RegularExpression"
IDENTITY_FORM = "*, *.SUFFIX, ACCOUNT.NAMESPACE.serviceaccount.identity.CONTROL-PLANE.TRUST-DOMAIN"
IDENTITY = re.compile(r"\*|\*(\.[a-z0-9-]+)+|[a-z0-9.-]+\.serviceaccount\.identity(\.[a-z0-9-]+)+|spiffe://\S+")


@dataclass(frozen=True)
class Value:
    """A value of an object that leads to nothing."""

    object: str
    problem: str
    value: str
    allowed: str
    effect: str


@dataclass(frozen=True)
class Pattern:
    """A regular expression of an object."""

    object: Key
    text: str
    effect: str


@dataclass
class Questions:
    """What is asked: whether each regular expression builds, and for the endpoints of each TCP port of each Service."""

    patterns: dict[Pattern, int] = field(default_factory=dict)
    ports: dict[tuple[Key, int], int] = field(default_factory=dict)


def patterns_of_route(objects: Objects, key: Key) -> list[str]:
    """The regular expressions of an HTTPRoute."""
    found = []
    for match in [it for rule in items(objects.spec(key), "rules") for it in items(rule, "matches")]:
        parts = [members(match, "path"), *items(match, "headers"), *items(match, "queryParams")]
        found += [it["value"] for it in parts if it.get("type") == PATTERN and isinstance(it.get("value"), str)]
    return found


def patterns_of_condition(condition: dict) -> list[str]:
    """The regular expressions of a condition of a ServiceProfile."""
    inner = [it for name in ("all", "any", "not") for it in items(condition, name)]
    inner += [members(condition, "not")] if members(condition, "not") else []
    own = [condition["pathRegex"]] if isinstance(condition.get("pathRegex"), str) else []
    return own + [text for it in inner for text in patterns_of_condition(it)]


def patterns(objects: Objects) -> list[Pattern]:
    """The regular expressions of the feed, each once for an object."""
    found = []
    for kind in ROUTE_KINDS:
        for key in objects.of(kind):
            effect = "a simulated request that needs it has no verdict, and proxies are sent it as it is"
            found += [Pattern(key, text, effect) for text in patterns_of_route(objects, key)]
    for key in objects.of(PROFILE):
        texts = [text for it in items(objects.spec(key), "routes") for text in patterns_of_condition(members(it, "condition"))]
        found += [Pattern(key, text, "proxies are sent it as it is, and no verdict rests on it") for text in texts]
    return list(dict.fromkeys(found))


def ask_patterns(objects: Objects, script: Script, found: list[Pattern]) -> dict[Pattern, int]:
    """Asks whether regular expressions build: each as the path of the only route of a made-up Server."""
    namespace = "default"
    name = objects.free_name(namespace)
    pod = probes.new_object(POD, namespace, name, {name: name})
    server = probes.new_object(SERVER, namespace, name, spec={"podSelector": {"matchLabels": {name: name}}, "port": 1})
    parent = {"group": SERVER.group, "kind": SERVER.name, "name": name}
    script.hold(pod, server)
    numbers = {}
    for it in found:
        rule = {"matches": [{"path": {"type": PATTERN, "value": it.text}}]}
        script.hold(probes.new_object(LINKERD_ROUTE, namespace, name, spec={"parentRefs": [parent], "rules": [rule]}))
        numbers[it] = script.simulate({"workload": f"{namespace}:{name}", "port": 1, "client": ADDRESS, "http": {"path": "/"}})
    script.remove(probes.new_object(LINKERD_ROUTE, namespace, name), server, pod)
    return numbers


def ask(objects: Objects, script: Script) -> Questions:
    """Asks what the problems rest on."""
    questions = Questions()
    found = patterns(objects)
    questions.patterns = ask_patterns(objects, script, found) if found else {}
    for key in objects.of(SERVICE):
        for port in objects.service_ports(key):
            if absences.tcp_port(objects, key, port):
                questions.ports[key, port] = script.view(Query("Get", f"{key.name}.{key.namespace}", port))
    return questions


def nearest(word: str, names: list[str]) -> str:
    """The names that are allowed, the nearest first."""
    close = difflib.get_close_matches(word, names, n=SHOWN, cutoff=0)
    more = len(names) - len(close)
    return ", ".join(close) + (f" and {more} more" if more else "") if names else "none"


def pattern_problems(questions: Questions, answers: Answers) -> list[Value]:
    """The regular expressions that do not build."""
    rows = [it for it, number in questions.patterns.items() if answers.refusals.get(number, "").startswith("Pattern ")]
    allowed = "the regular expressions of Rust's crate regex"
    return [Value(str(it.object), "its regular expression does not build", it.text, allowed, it.effect) for it in rows]


def port_values(objects: Objects, route: Key, references: list[dict], what: str, effect: str) -> list[Value]:
    """The ports of references of a route to Services that are held and lack them."""
    found = []
    for it in references:
        service = Key(SERVICE, it.get("namespace") or route.namespace, str(it.get("name")))
        ports = objects.service_ports(service) if service in objects.by_key else []
        port = it.get("port")
        if isinstance(port, int) and ports and port not in ports:
            allowed = ", ".join(map(str, ports))
            found.append(Value(str(route), f"{what} {service} lacks its port", str(port), allowed, effect))
    return found


def route_port_problems(objects: Objects) -> list[Value]:
    """The ports of backends and of parents that a Service lacks."""
    found = []
    for kind in ROUTE_KINDS:
        for key in objects.of(kind):
            parents = [it for it in items(objects.spec(key), "parentRefs") if "group" in it and probes.referred_kind(it) == SERVICE]
            found += port_values(objects, key, parents, "its parent", "the route counts at this port alone, which has no endpoints")
            backends = [it for rule in items(objects.spec(key), "rules") for it in items(rule, "backendRefs")]
            own = [it for it in backends if probes.referred_kind({"kind": "Service", **it}) == SERVICE]
            found += port_values(objects, key, own, "its backend", "it is sent with its weight, and has no endpoints")
    return list(dict.fromkeys(found))


def account_references(objects: Objects) -> list[tuple[Key, str, str]]:
    """The ServiceAccounts that authorizations and authentications name: the object, the namespace and the name."""
    found = []
    for key in objects.of(SERVER_AUTHORIZATION):
        rows = items(objects.spec(key), "client", "meshTLS", "serviceAccounts")
        found += [(key, str(it.get("namespace") or key.namespace), str(it.get("name"))) for it in rows]
    for kind, member in ((AUTHORIZATION_POLICY, "requiredAuthenticationRefs"), (MESH_AUTHENTICATION, "identityRefs")):
        for key in objects.of(kind):
            rows = [it for it in items(objects.spec(key), member) if it.get("kind") == "ServiceAccount" and it.get("group") in (None, "", "core")]
            found += [(key, str(it.get("namespace") or key.namespace), str(it.get("name"))) for it in rows]
    return found


def account_problems(objects: Objects) -> list[Value]:
    """The ServiceAccounts that no Pod uses."""
    used = {(key.namespace, workloads.account(objects, key)) for key in objects.of(POD)}
    names = [f"{namespace}/{name}" for namespace, name in sorted(used)]
    effect = "no Pod of the feed has its identity, and so it admits none of them"
    return [
        Value(str(key), "no Pod uses its ServiceAccount", f"{namespace}/{name}", nearest(f"{namespace}/{name}", names), effect)
        for key, namespace, name in account_references(objects)
        if (namespace, name) not in used
    ]


def identity_problems(objects: Objects) -> list[Value]:
    """The identities that no client can have."""
    found = []
    for kind, path in ((MESH_AUTHENTICATION, ()), (SERVER_AUTHORIZATION, ("client", "meshTLS"))):
        for key in objects.of(kind):
            words = members(objects.spec(key), *path).get("identities")
            for it in words if isinstance(words, list) else []:
                if isinstance(it, str) and not IDENTITY.fullmatch(it):
                    effect = "no Pod has it, and so it admits none of them"
                    found.append(Value(str(key), "its identity is malformed", it, IDENTITY_FORM, effect))
    return found


def profile_problems(objects: Objects, domain: str) -> list[Value]:
    """The ServiceProfiles whose name is that of no Service."""
    names = {f"{it.name}.{it.namespace}.svc.{domain}" for it in objects.of(SERVICE)}
    effect = "it is used by its name, and so for no Service of the feed"
    return [Value(str(key), "its name is that of no Service", key.name, nearest(key.name, sorted(names)), effect) for key in objects.of(PROFILE) if key.name not in names]


def digits_problems(objects: Objects) -> list[Value]:
    """The Servers whose port is a string of digits, which is read as a name."""
    found = []
    for key in objects.of(SERVER):
        port = objects.spec(key).get("port")
        if isinstance(port, str) and port.isdecimal():
            effect = "it is read as the name of a port, which has no port of a Pod"
            found.append(Value(str(key), "its port is a string of digits", f'"{port}"', f"{port} without quotes, or the name of a port", effect))
    return found


def endpoint_problems(objects: Objects, questions: Questions, answers: Answers) -> list[Value]:
    """The ports of Services without endpoints, and the names of ports that no slice has."""
    found = []
    for (key, port), number in questions.ports.items():
        view = views.endpoints(answers.view(number))
        if not view.exists or view.endpoints:
            continue
        own = [objects.by_key[it] for it in absences.own_slices(objects, key)]
        rows = [it for one in own for it in items(one, "ports") if (it.get("protocol") or "TCP") == "TCP"]
        names = sorted({str(it.get("name") or "") for it in rows})
        name = str((absences.tcp_port(objects, key, port) or {}).get("name") or "")
        if names and name not in names:
            allowed = ", ".join(it or '""' for it in names)
            found.append(Value(str(key), f"no EndpointSlice of it has the name of its port {port}", name or '""', allowed, "the port has no endpoints"))
        else:
            why = absences.why_none(objects, key, port)
            found.append(Value(str(key), "its port has no endpoints", str(port), "a port with a ready address in its EndpointSlices", why))
    return found


def problems(objects: Objects, questions: Questions, answers: Answers, missing: list[str], domain: str) -> list[Value]:
    """The values that lead to nothing. What rests on a kind of which the feed says nothing is left out."""
    found = pattern_problems(questions, answers) + digits_problems(objects) + identity_problems(objects) + route_port_problems(objects)
    found += [] if POD.title in missing else account_problems(objects)
    found += [] if SERVICE.title in missing else profile_problems(objects, domain)
    return found + ([] if SLICE.title in missing else endpoint_problems(objects, questions, answers))
