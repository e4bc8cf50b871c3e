"""`mesh profile` and `mesh routes`: the profile of a target, and where its routes lead."""

import json
from dataclasses import dataclass

from mesh_front import views
from mesh_front.faults import Status
from mesh_front.feed import Objects
from mesh_front.kinds import GATEWAY_ROUTE, LINKERD_ROUTE, POD, PROFILE, SERVICE, Kind
from mesh_front.messages import Message
from mesh_front.names import AddressPort, Target, require_service
from mesh_front.program import Query, Script, Session
from mesh_front.tables import show, table

PROFILE_KINDS = (SERVICE, PROFILE)
ROUTES_KINDS = (SERVICE, LINKERD_ROUTE, GATEWAY_ROUTE)


@dataclass
class ProfileRoute:
    """A route of a ServiceProfile."""

    name: str
    condition: str
    retryable: bool
    timeout: str | None
    failures: list[str]


@dataclass
class Split:
    """A part of the traffic, with its weight in thousandths."""

    authority: str
    weight: int


@dataclass
class PortProfile:
    """The profile of a port: that of a Service with its full name, or that of an address with its endpoint."""

    target: str
    name: str | None
    opaque: bool
    routes: list[ProfileRoute]
    splits: list[Split]
    endpoint: views.Endpoint | None


@dataclass
class Backend:
    """Where a rule of a route leads."""

    namespace: str
    name: str
    port: int
    weight: int
    missing: bool


@dataclass
class Rule:
    """A rule of a route."""

    route: str
    group: str
    hostnames: list[str]
    matches: list[str]
    filters: list[str]
    request_timeout: str | None
    backend_timeout: str | None
    backends: list[Backend]


@dataclass
class PortRoutes:
    """Where a port leads: to a Service by its rules, to an endpoint, or nowhere."""

    target: str
    exists: bool
    service: str | None
    opaque: bool
    rules: list[Rule]
    endpoint: views.Endpoint | None


@dataclass
class ProfileAnswer:
    """The profile of each port that is asked for."""

    ports: list[PortProfile]


@dataclass
class RoutesAnswer:
    """Where each port that is asked for leads."""

    ports: list[PortRoutes]


def queries(objects: Objects, method: str, target: Target, namespace: str | None) -> dict[str, Query]:
    """The queries for the ports of a target, by the words for them."""
    token = json.dumps({"ns": namespace}) if namespace else None
    if isinstance(target, AddressPort):
        return {str(target): Query(method, target.address, target.port, True, token)}
    key = require_service(objects, target)
    name = f"{target.name}.{target.namespace}"
    ports = [target.port] if target.port else objects.service_ports(key) or [80]
    return {f"{name}:{port}": Query(method, name, port, False, token) for port in ports}


def ask(session: Session, method: str, target: Target, namespace: str | None = None) -> dict[str, list[Message]]:
    """The messages for each port of a target."""

    def questions(objects: Objects, script: Script) -> dict[str, int]:
        return {word: script.view(query) for word, query in queries(objects, method, target, namespace).items()}

    numbers, answers = session.ask(questions)
    return {word: answers.view(number) for word, number in numbers.items()}


def duration(message: Message) -> str | None:
    """A duration as people read it, None where there is none."""
    if not message.names():
        return None
    nanos = f"{message.one('nanos', 0):09}".rstrip("0")
    return f"{message.one('seconds', 0)}{'.' + nanos if nanos else ''}s"


def condition(match: Message) -> str:
    """A condition of a request or of a response, as people read it."""
    names = match.names()
    if "not" in names:
        return f"not ({condition(match.at('not'))})"
    for name, word in (("all", " and "), ("any", " or ")):
        if name in names:
            return word.join(f"({condition(it)})" for it in match.at(name).all("matches")) or f"{name} of nothing"
    if "path" in names:
        return f"path {match.at('path').one('regex', '')}"
    if "method" in names:
        return str(match.at("method").one("name", ""))
    return f"{match.at('status').one('min', 0)} to {match.at('status').one('max', 0)}" if "status" in names else "-"


def profile_route(row: Message) -> ProfileRoute:
    """A route of a profile."""
    labels = {it.one("key", ""): it.one("value", "") for it in row.all("metrics_labels")}
    failures = [condition(it.at("condition")) for it in row.all("response_classes") if it.one("is_failure", False)]
    timeout = duration(row.at("timeout"))
    return ProfileRoute(labels.get("route", ""), condition(row.at("condition")), row.one("is_retryable", False), timeout, failures)


def profile(word: str, messages: list[Message]) -> PortProfile:
    """The profile that the messages of a new subscriber tell."""
    view = messages[0] if messages else Message()
    splits = [Split(it.one("authority", ""), it.one("weight", 0)) for it in view.all("dst_overrides")]
    endpoint = views.endpoint(view.at("endpoint")) if "endpoint" in view.names() else None
    routes = [profile_route(it) for it in view.all("routes")]
    return PortProfile(word, view.one("fully_qualified_name"), view.one("opaque_protocol", False), routes, splits, endpoint)


def filter_text(row: Message) -> str:
    """A filter of a rule, as people read it."""
    change, redirect = row.at("headers"), row.at("redirect")
    if "redirect" in row.names():
        parts = [f"{name} {redirect.one(name)}" for name in ("scheme", "hostname", "port") if redirect.one(name)]
        return " ".join(["redirect", str(redirect.one("status", 0)), *parts])
    words = [f"{verb} {it.one('name', '')}={it.one('value', '')}" for verb in ("add", "set") for it in change.all(verb)]
    return ", ".join([*words, *(f"remove {it}" for it in change.all("remove"))]) or "-"


def rules(row: Message) -> list[Rule]:
    """The rules of a route."""
    route = views.route(row)
    found = []
    for rule in row.all("rules"):
        names = ("namespace", "name", "port", "weight", "missing")
        backends = [Backend(*(it.one(name, default) for name, default in zip(names, ("", "", 0, 0, False)))) for it in rule.all("backends")]
        timeouts = duration(rule.at("request_timeout")), duration(rule.at("backend_timeout"))
        matches = [views.match_text(it) for it in rule.all("matches")]
        filters = [filter_text(it) for it in rule.all("filters")]
        found.append(Rule(route.title, route.group, route.hostnames, matches, filters, *timeouts, backends))
    return found


def port_routes(word: str, messages: list[Message]) -> PortRoutes:
    """Where the messages of a new subscriber lead."""
    view = messages[0] if messages else Message()
    service, forward = view.at("service"), view.at("forward")
    name = f"{service.one('name', '')}.{service.one('namespace', '')}:{service.one('port', 0)}" if "service" in view.names() else None
    endpoint = views.endpoint(forward.at("endpoint")) if "forward" in view.names() else None
    found = [it for row in service.all("routes") for it in rules(row)]
    is_opaque = service.one("opaque", False) or forward.one("opaque", False)
    return PortRoutes(word, name is not None or endpoint is not None, name, is_opaque, found, endpoint)


def kinds_of(target: Target, kinds: tuple[Kind, ...]) -> tuple[Kind, ...]:
    """The kinds on which an answer rests: an address may be that of a Pod."""
    return (*kinds, POD) if isinstance(target, AddressPort) else kinds


def yes(value: bool) -> str:
    """A flag as people read it."""
    return "yes" if value else "no"


def endpoint_lines(endpoint: views.Endpoint | None) -> list[str]:
    """An endpoint in a table."""
    return ["", *table(["ADDRESS", "PORT", "POD", "ACCOUNT", "MESHED", "HINT"], [endpoint.cells()])] if endpoint else []


def profile_lines(answer: ProfileAnswer) -> list[str]:
    """The answer as people read it. The routes and the split are those of the Service, and so alike for its ports."""
    output = table(["TARGET", "FULL NAME", "OPAQUE"], [[it.target, it.name or "-", yes(it.opaque)] for it in answer.ports])
    for it in answer.ports[:1]:
        rows = [[one.name, one.condition, yes(one.retryable), one.timeout or "-", ", ".join(one.failures) or "-"] for one in it.routes]
        output += ["", *table(["ROUTE", "CONDITION", "RETRYABLE", "TIMEOUT", "FAILURES"], rows)] if rows else []
        splits = [[one.authority, f"{one.weight / 1000:g}"] for one in it.splits]
        output += ["", *table(["SPLIT TO", "WEIGHT"], splits)] if splits else []
        output += endpoint_lines(it.endpoint)
        output += ["", "no ServiceProfile has routes or a split for it"] if it.name and not rows and not splits else []
    return output


def rule_rows(it: PortRoutes) -> list[list[str]]:
    """The rules of a port in rows of a table, one for each backend."""
    rows = []
    for rule in it.rules:
        timeouts = [f"{name} {value}" for name, value in (("request", rule.request_timeout), ("backend", rule.backend_timeout)) if value]
        cells = [it.target.rpartition(":")[2], rule.route, ", ".join(rule.hostnames) or "*", ", ".join(rule.matches) or "-"]
        what = "; ".join(rule.filters + timeouts) or "-"
        backends = [[f"{one.name}.{one.namespace}:{one.port}", f"{one.weight}{', missing' if one.missing else ''}"] for one in rule.backends]
        rows += [[*cells, *one, what] for one in backends or [["the Service", "-"]]]
    return rows


def routes_lines(answer: RoutesAnswer) -> list[str]:
    """The answer as people read it."""
    words = [[it.target, it.service or ("an endpoint" if it.endpoint else "nowhere: it does not exist"), yes(it.opaque)] for it in answer.ports]
    output = table(["TARGET", "LEADS TO", "OPAQUE"], words)
    rows = [row for it in answer.ports for row in rule_rows(it)]
    if rows:
        output += ["", *table(["PORT", "ROUTE", "HOSTNAMES", "MATCHES", "BACKEND", "WEIGHT", "FILTERS AND TIMEOUTS"], rows)]
    for it in answer.ports:
        output += endpoint_lines(it.endpoint)
    return output + (["", "no route has it as a parent"] if not rows and any(it.service for it in answer.ports) else [])


def run_profile(session: Session, target: Target, namespace: str | None, as_json: bool) -> Status:
    """Shows the profile of a target."""
    answer = ProfileAnswer([profile(*it) for it in ask(session, "GetProfile", target, namespace).items()])
    gaps = session.gaps(kinds_of(target, PROFILE_KINDS))
    show(gaps, answer, profile_lines(answer), as_json)
    return gaps.status(Status.DONE)


def run_routes(session: Session, target: Target, as_json: bool) -> Status:
    """Shows where the routes of a target lead."""
    answer = RoutesAnswer([port_routes(*it) for it in ask(session, "Watch", target).items()])
    gaps = session.gaps(kinds_of(target, ROUTES_KINDS))
    show(gaps, answer, routes_lines(answer), as_json)
    return gaps.status(Status.DONE)
