"""`mesh check`: what in a feed points at nothing, or has no effect.

Most answers come from the program: of each Server it is asked what applies to it, of each port of each Pod which Server it
has, also without that Server, and of each port of each Service where its routes lead. From the feed alone comes which names
the objects refer to.
"""

import re
from dataclasses import dataclass, field

from mesh_front import limits, policy, probes, values, views
from mesh_front.faults import Status
from mesh_front.feed import Key, Objects, items, members
from mesh_front.kinds import AUTHORIZATION_POLICY, KINDS, POD, ROUTE_KINDS, SERVER, SERVER_AUTHORIZATION, SERVICE
from mesh_front.messages import Message
from mesh_front.names import PodName, PodPort
from mesh_front.program import Answers, Query, Script, Session
from mesh_front.tables import show, table

MOST_LINES = 20  # refused lines that are told one by one
FIRST_LINES = 3


@dataclass(frozen=True)
class Problem:
    """What is wrong with an object, or with a line."""

    object: str
    problem: str

    def text(self) -> str:
        """The problem as people read it."""
        return self.problem


@dataclass(frozen=True)
class ValueProblem(Problem):
    """A value that leads to nothing, with what is allowed there, and what it does to answers."""

    value: str
    allowed: str
    effect: str

    def text(self) -> str:
        """The problem as people read it."""
        return f"{self.problem}: {self.value}; allowed: {self.allowed}; {self.effect}"


@dataclass(frozen=True)
class Held:
    """How many objects of a kind the feed holds at its end, None where it says nothing of the kind."""

    kind: str
    held: int | None


@dataclass
class Answer:
    """What the feed holds, and the problems in it."""

    kinds: list[Held]
    problems: list[Problem]


@dataclass
class First:
    """What the first run is asked: what applies to each Server, the Server of each port of a Pod, and each Service port."""

    servers: dict[Key, int] = field(default_factory=dict)
    ports: dict[PodPort, int] = field(default_factory=dict)
    services: dict[tuple[Key, int], int] = field(default_factory=dict)
    questions: values.Questions = field(default_factory=values.Questions)


@dataclass
class Second:
    """What the second run is asked: each Server with all that policies refer to, the ports without their Servers, and the limits."""

    servers: dict[Key, int]
    ports: dict[PodPort, int]
    limits: limits.Questions


def parents(objects: Objects, route: Key) -> list[dict]:
    """The parents of a route."""
    return items(objects.spec(route), "parentRefs")


def watched_ports(objects: Objects) -> list[tuple[Key, int]]:
    """The ports of the Services: their own, and those that routes name as parents."""
    ports = {(key, port) for key in objects.of(SERVICE) for port in objects.service_ports(key) or [80]}
    for kind in ROUTE_KINDS:
        for route in objects.of(kind):
            for it in parents(objects, route):
                key = Key(SERVICE, it.get("namespace") or route.namespace, str(it.get("name")))
                if key in objects.by_key and isinstance(it.get("port"), int):
                    ports.add((key, it["port"]))
    return sorted(ports, key=lambda it: (it[0].namespace, it[0].name, it[1]))


def first_questions(objects: Objects, script: Script) -> First:
    """Asks what applies to each Server, which Server each port of a Pod has, and where each Service's routes lead."""
    first = First(questions=values.ask(objects, script))
    for server in objects.of(SERVER):
        first.servers[server] = probes.ask_server(objects, script, server)
    for pod in objects.of(POD):
        for port in objects.pod_ports(pod):
            target = PodPort(PodName(pod.namespace, pod.name), port)
            first.ports[target] = script.view(policy.inbound_query(target))
    for key, port in watched_ports(objects):
        first.services[key, port] = script.view(Query("Watch", f"{key.name}.{key.namespace}", port))
    return first


def views_of(ports: dict[PodPort, int], answers: Answers) -> dict[PodPort, views.Inbound]:
    """The view of each port."""
    return {target: views.inbound(answers.view(number)) for target, number in ports.items()}


def servers_of(inbound: dict[PodPort, views.Inbound]) -> dict[PodPort, str]:
    """The Server of each port that has one."""
    return {target: view.server for target, view in inbound.items() if view.server}


def by_server(server_by_port: dict[PodPort, str]) -> dict[tuple[str, str], list[PodPort]]:
    """The ports of each Server, by its namespace and name."""
    ports: dict[tuple[str, str], list[PodPort]] = {}
    for target, server in server_by_port.items():
        ports.setdefault((target.pod.namespace, server), []).append(target)
    return ports


def second_questions(objects: Objects, script: Script, inbound: dict[PodPort, views.Inbound]) -> Second:
    """Asks for each port with a Server which one it has without it, and what applies to each Server with all references."""
    ports, questions = {}, limits.ask(objects, script, inbound)
    for (namespace, name), targets in by_server(servers_of(inbound)).items():
        server = objects.by_key[Key(SERVER, namespace, name)]
        script.remove(server)
        for target in targets:
            ports[target] = script.view(policy.inbound_query(target))
        script.hold(server)
    absent = [key for it in objects.of(AUTHORIZATION_POLICY) for key in probes.missing_references(objects, it)]
    script.hold(*probes.stand_ins(absent))
    return Second({server: probes.ask_server(objects, script, server) for server in objects.of(SERVER)}, ports, questions)


def ask_without(objects: Objects, script: Script, first: First, rest: set[Key]) -> dict[PodPort, int]:
    """Asks which Server each port of a Pod has where only these Servers are held."""
    script.remove(*(objects.by_key[key] for key in objects.of(SERVER) if key not in rest))
    places = {it.namespace for it in rest}
    return {it: script.view(policy.inbound_query(it)) for it in first.ports if it.pod.namespace in places}


def idle_servers_of(session: Session, first: First, rest: set[Key]) -> set[Key]:
    """Of the Servers that no port has beside all others, those that no port has without the others either."""
    while rest:
        ports, answers = session.ask(lambda objects, script: ask_without(objects, script, first, rest))
        servers = {Key(SERVER, namespace, name) for namespace, name in by_server(servers_of(views_of(ports, answers)))}
        if not servers & rest:
            break
        rest = rest - servers
    return rest


def shown_names(view: views.Inbound) -> set[tuple[str, str]]:
    """The kinds and names of the authorizations of a view."""
    return {(it.kind, it.name) for it in view.authorizations}


def shown_policies(servers: dict[Key, int], answers: Answers) -> set[Key]:
    """The AuthorizationPolicies that apply to some Server, or to a route of one."""
    policies = set()
    for server, number in servers.items():
        for kind, name in shown_names(views.inbound(answers.view(number))):
            if kind == AUTHORIZATION_POLICY.name:
                policies.add(Key(AUTHORIZATION_POLICY, server.namespace, name))
    return policies


def target_problem(objects: Objects, key: Key) -> str:
    """What is wrong with the target of an AuthorizationPolicy that no view shows."""
    target = members(objects.spec(key), "targetRef")
    kind, name, group = probes.referred_kind(target), target.get("name"), target.get("group") or "core"
    if (target.get("kind"), group) == ("Namespace", "core"):
        return "it applies to no Server" if name == key.namespace else f"its target Namespace {name} is not its own"
    if kind is None or kind not in (SERVER, *ROUTE_KINDS):
        return f"its target {target.get('kind')} {name} of the group {group} is none that it can apply to"
    target_key = Key(kind, target.get("namespace") or key.namespace, str(name))
    if target_key not in objects.by_key:
        return f"its target {target_key} is not in the feed"
    if target_key.namespace != key.namespace:
        return f"its target {target_key} is in another namespace, and so it applies to nothing"
    return f"its target {target_key} is attached to no Server of the feed, and so it applies to nothing"


def policy_problems(objects: Objects, before: set[Key], after: set[Key]) -> list[Problem]:
    """The AuthorizationPolicies that are not in the view of any Server, each with the reason."""
    problems = []
    for key in objects.of(AUTHORIZATION_POLICY):
        if key in before:
            continue
        absent, other = probes.missing_references(objects, key), probes.other_references(objects, key)
        why = [f"it refers to {it}, which is not in the feed, and so it admits nobody" for it in absent]
        why += [f"it refers to {it}, to which it cannot refer, and so it admits nobody" for it in other]
        why += [target_problem(objects, key)] if key not in after and not other else []
        problems += [Problem(str(key), it) for it in why]
    return problems


def parent_problems(objects: Objects) -> list[Problem]:
    """The ServerAuthorizations and routes that name a Server or a Service that is not held."""
    problems = []
    for key in objects.of(SERVER_AUTHORIZATION):
        name = members(objects.spec(key), "server").get("name")
        if name and objects.get(SERVER, key.namespace, name) is None:
            problems.append(Problem(str(key), f"it names Server {key.namespace}/{name}, which is not in the feed"))
    for kind in ROUTE_KINDS:
        for key in objects.of(kind):
            problems += [Problem(str(key), f"its parent {it} is not in the feed") for it in absent_parents(objects, key)]
    return problems


def absent_parents(objects: Objects, route: Key) -> list[Key]:
    """The Servers and Services that a route names as parents and that are not held."""
    pairs = [(probes.referred_kind(it), it) for it in parents(objects, route) if "group" in it]
    own = [(kind, it) for kind, it in pairs if kind is not None and kind in (SERVER, SERVICE)]
    keys = [Key(kind, it.get("namespace") or route.namespace, str(it.get("name"))) for kind, it in own]
    return [key for key in keys if key not in objects.by_key]


def missing_backends(route: Message) -> list[str]:
    """The backends of a route of an outbound view that are missing."""
    backends = [it for rule in route.all("rules") for it in rule.all("backends") if it.one("missing", False)]
    return [f"{it.one('namespace', '')}/{it.one('name', '')}:{it.one('port', 0)}" for it in backends]


def backend_problems(first: First, answers: Answers) -> list[Problem]:
    """The backends that the program calls missing, each once."""
    problems = []
    for (service, _), number in first.services.items():
        for message in answers.view(number):
            for route in message.at("service").all("routes"):
                one = views.route(route)
                key = Key(views.route_kind(one), service.namespace, one.name)
                problems += [Problem(str(key), f"its backend {it} is missing") for it in missing_backends(route)]
    return list(dict.fromkeys(problems))


def port_problems(server_by_port: dict[PodPort, str], second: dict[PodPort, str]) -> list[Problem]:
    """The ports that two Servers select."""
    pairs = [(target, server_by_port[target], other) for target, other in second.items()]
    return [Problem(f"Pod {it}", f"the Servers {one} and {other} select it, and {one} is the one that counts") for it, one, other in pairs]


def refused_problems(refusals: dict[int, str]) -> list[Problem]:
    """The refused lines, each by itself, or, where there are many, together by their faults."""
    if len(refusals) <= MOST_LINES:
        return [Problem(f"line {number}", f"it is refused: {why}") for number, why in refusals.items()]
    by_fault: dict[str, list[int]] = {}
    for number, why in refusals.items():
        by_fault.setdefault(re.sub(r"\[\d+\]", "[]", why), []).append(number)
    return [Problem(lines_text(numbers), f"refused: {why}") for why, numbers in by_fault.items()]


def lines_text(numbers: list[int]) -> str:
    """Some lines by their numbers, of which the first ones are told."""
    more = len(numbers) - FIRST_LINES
    words = ", ".join(map(str, numbers[:FIRST_LINES])) + (f" and {more:,} more" if more > 0 else "")
    return f"line{'s' if len(numbers) > 1 else ''} {words}"


def find(session: Session) -> list[Problem]:
    """The problems of a feed."""
    first, answers = session.ask(first_questions)
    inbound = views_of(first.ports, answers)
    second, more = session.ask(lambda objects, script: second_questions(objects, script, inbound))
    server_by_port, second_servers = servers_of(inbound), servers_of(views_of(second.ports, more))
    names = {name for servers in (server_by_port, second_servers) for name in by_server(servers)}
    servers_in_use = {Key(SERVER, *name) for name in names}
    idle_servers = idle_servers_of(session, first, set(session.objects.of(SERVER)) - servers_in_use)
    problems = refused_problems(session.refusals)
    problems += policy_problems(session.objects, shown_policies(first.servers, answers), shown_policies(second.servers, more))
    problems += parent_problems(session.objects)
    problems += [Problem(str(key), "it selects no port of a Pod in the feed") for key in sorted(idle_servers, key=str)]
    problems += port_problems(server_by_port, second_servers)
    problems += backend_problems(first, answers)
    missing = session.gaps(KINDS).missing
    found = values.problems(session.objects, first.questions, answers, missing, session.domain)
    problems += [ValueProblem(it.object, it.problem, it.value, it.allowed, it.effect) for it in found]
    return problems + [Problem(*it) for it in limits.problems(session.objects, second.limits, more, inbound)]


def held_kinds(session: Session) -> list[Held]:
    """What the feed holds of each kind."""
    missing = session.gaps(KINDS).missing
    return [Held(kind.title, None if kind.title in missing else len(session.objects.of(kind))) for kind in KINDS]


def lines(answer: Answer) -> list[str]:
    """The answer as people read it."""
    output = table(["KIND", "HELD"], [[it.kind, "-" if it.held is None else str(it.held)] for it in answer.kinds])
    rows = [[it.object, it.text()] for it in answer.problems]
    return [*output, "", *(table(["OBJECT", "PROBLEM"], rows) if rows else ["no problem found"])]


def run(session: Session, as_json: bool) -> Status:
    """Shows what a feed holds, and its problems."""
    problems = find(session)
    answer, gaps = Answer(held_kinds(session), problems), session.gaps(KINDS)
    show(gaps, answer, lines(answer), as_json)
    return gaps.status(Status.NO if problems else Status.DONE)
