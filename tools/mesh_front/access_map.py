"""`mesh map`: who may call whom, as workloads.

Each account of a Pod is tried at each port of each workload: with a request for each match of the port's routes and each probe, and one of
the path `/`. The first run of the program asks for the identities of the Pods and for the policies of the ports, the second one simulates
all requests. Of two recordings, both are asked for the requests of both.
"""

import sys
from dataclasses import dataclass, field

from mesh_front import access, ask, policy, probes, views, workloads
from mesh_front.faults import Fault, Status
from mesh_front.feed import Key, Objects
from mesh_front.gaps import Gaps
from mesh_front.kinds import POLICY_KINDS
from mesh_front.map_page import Heading, Mark, Sheet, page
from mesh_front.messages import Message
from mesh_front.names import PodPort, nearest_names
from mesh_front.program import Answers, Script, Session
from mesh_front.tables import show, table
from mesh_front.workloads import Account, WorkloadPort

ALL, SOME, NONE, UNKNOWN = "all", "some", "none", "unknown"
UNENFORCED = ", not enforced"
WORDS = {ALL: "yes", SOME: "some paths", NONE: "no", UNKNOWN: "not known"}
RAW = ("opaque", "TLS")
MANY = 10_000  # requests
ABSENT = "not there"
OPENS, CLOSES, BOTH, SAME = "opens", "closes", "opens and closes", "same"


@dataclass
class Verdict:
    """What comes of a request, and what decides. Whether it is admitted is not known where the simulation is refused."""

    request: str
    allowed: bool | None
    decider: str

    def __str__(self) -> str:
        return f"{self.request}: {self.decider}"


@dataclass
class Cell:
    """What an account may do at a port of a workload."""

    client: str
    port: str
    access: str
    verdicts: list[Verdict]


@dataclass
class Client:
    """An account, the workloads that have it, and the address and identity with which it is tried."""

    name: str
    meshed: bool
    workloads: list[str]
    address: str
    identity: str | None


@dataclass
class Port:
    """A port of a workload, the Pod at which it is tried, and the Server of the port."""

    name: str
    meshed: bool
    pod: str
    server: str | None
    policy: str
    account: str


@dataclass
class Answer:
    """Who is tried at what, and what comes of it, by rows of clients and in each by ports."""

    clients: list[Client]
    ports: list[Port]
    cells: list[Cell]


@dataclass
class Change:
    """What an account may do at a port after a change, and could not do before it, or the other way round."""

    client: str
    port: str
    change: str
    before: list[Verdict]
    after: list[Verdict]


@dataclass
class ChangeAnswer:
    """Who is tried at what before and after a change, and what opens and closes."""

    clients: list[Client]
    ports: list[Port]
    changes: list[Change]


@dataclass
class First:
    """What the first run is asked: the identity of each Pod that stands for others, and the policy of each port."""

    rows: dict[Key, int] = field(default_factory=dict)
    views: dict[WorkloadPort, int] = field(default_factory=dict)
    pods: dict[WorkloadPort, PodPort] = field(default_factory=dict)


@dataclass
class Target:
    """A port, the Pod at which it is tried, its policy, and the requests that are tried."""

    port: WorkloadPort
    pod: PodPort
    is_meshed: bool
    account: str
    view: views.Inbound
    requests: dict[str, dict | None]


@dataclass
class Plan:
    """Who is tried, and at which ports."""

    clients: list[Client]
    targets: list[Target]


def first_questions(objects: Objects, script: Script) -> First:
    """Asks for the identities of the Pods and the policies of the ports."""
    first = First(pods=workloads.pod_ports(objects))
    for key in workloads.live_pods(objects):
        first.rows[key] = probes.ask_row(objects, script, workloads.pod_name(key))
    for port, pod in first.pods.items():
        first.views[port] = script.view(policy.inbound_query(pod))
    return first


def requests_of(messages: list[Message]) -> dict[str, dict | None]:
    """The requests that are tried at a port; at an opaque one, and at one with TLS, a connection."""
    if views.inbound(messages).protocol in RAW:
        return {"a connection": None}
    return {**access.requests(messages[:1])}


def targets(objects: Objects, first: First, answers: Answers, identities: dict[str, str | None]) -> list[Target]:
    """The ports that are tried: those that containers name, and those that a Server selects."""
    found = []
    for port, pod in first.pods.items():
        messages = answers.view(first.views[port])
        view = views.inbound(messages)
        key = next(it for it in first.rows if workloads.pod_name(it) == pod.pod)
        if view.policy is not None and (view.server or pod.port in workloads.container_ports(objects, key)):
            name = workloads.account(objects, key)
            found.append(Target(port, pod, identities[str(pod.pod)] is not None, f"{key.namespace}/{name}", view, requests_of(messages)))
    return sorted(found, key=lambda it: (str(it.port.workload), it.port.port))


def callers(objects: Objects, first: First, identities: dict[str, str | None]) -> list[Client]:
    """The accounts of the Pods, in order of their names."""
    found: dict[Account, Client] = {}
    for key in first.rows:
        pod = workloads.pod_name(key)
        identity = identities[str(pod)]
        account = Account(key.namespace, workloads.account(objects, key), identity is not None)
        address = ask.address_of(objects, pod)
        one = found.setdefault(account, Client(str(account), account.is_meshed, [], address, identity))
        owner = str(workloads.owner(objects, key))
        one.workloads += [] if owner in one.workloads else [owner]
    return sorted(found.values(), key=lambda it: it.name)


def request_line(target: Target, client: Client, http: dict | None) -> dict:
    """The members of a `simulate` line."""
    who = ask.Client(client.address, client.identity).members()
    return {"workload": f"{target.pod.pod.namespace}:{target.pod.pod.name}", "port": target.pod.port, **who, **({"http": http} if http else {})}


def verdict(request: str, number: int, answers: Answers, target: Target) -> Verdict:
    """What a simulation says."""
    text = answers.verdicts.get(number)
    if text is None:
        return Verdict(request, None, f"the simulation is refused: {answers.refusals.get(number)}")
    who = ask.decider(text, target.view, target.port.workload.namespace)
    word = text.split(" ")[0]
    return Verdict(request, access.is_allowed(text), f"{word} by {who}" if who else "no route matches")


def access_of(verdicts: list[Verdict]) -> str:
    """What some verdicts say together."""
    found = {it.allowed for it in verdicts}
    return UNKNOWN if None in found else ALL if found == {True} else NONE if found == {False} else SOME


def plan_of(session: Session) -> Plan:
    """Who is to be tried, and at which ports."""
    first, answers = session.ask(first_questions)
    identities = {str(workloads.pod_name(key)): probes.identity(answers, number) for key, number in first.rows.items()}
    return Plan(callers(session.objects, first, identities), targets(session.objects, first, answers, identities))


def find(session: Session, plan: Plan) -> Answer:
    """Who may call whom, by one run of the program."""

    def questions(objects: Objects, script: Script) -> list[tuple[Client, Target, dict[str, int]]]:
        pairs = [(client, target) for client in plan.clients for target in plan.targets]
        return [(client, it, {text: script.simulate(request_line(it, client, http)) for text, http in it.requests.items()}) for client, it in pairs]

    rows, verdicts = session.ask(questions)
    answer = Answer(plan.clients, [port_of(it) for it in plan.targets], [])
    for client, target, numbers in rows:
        own = [verdict(text, number, verdicts, target) for text, number in numbers.items()]
        answer.cells.append(Cell(client.name, str(target.port), access_of(own), own))
    return answer


def say_how_many(plan: Plan) -> None:
    """Says on a terminal how many requests are tried, where that takes long."""
    count = len(plan.clients) * sum(len(it.requests) for it in plan.targets)
    if count > MANY and sys.stderr.isatty():
        print(f"mesh: trying {count:,} requests; --to and --from try fewer", file=sys.stderr)


def port_of(target: Target) -> Port:
    """A port as the answer has it."""
    return Port(str(target.port), target.is_meshed, str(target.pod), target.view.server, str(target.view.policy), target.account)


def workload_of(port: Port) -> str:
    """The workload of a port."""
    return port.name.rpartition(":")[0]


def is_port(port: Port, word: str) -> bool:
    """Whether a word names a port, its workload, the Pod that stands for it, or the port of the Pod."""
    return word in (port.name, workload_of(port), port.pod, port.pod.rpartition(":")[0])


def is_client(client: Client, word: str) -> bool:
    """Whether a word names an account, or a workload of it."""
    return word in (client.name, client.name.removesuffix(" (no proxy)"), *client.workloads)


def selected_ports(answer: Answer, word: str | None) -> list[Port]:
    """The ports that a word names, all without one; a Fault where it names none."""
    found = [it for it in answer.ports if word is None or is_port(it, word)]
    if word is not None and not found:
        names = list(dict.fromkeys(map(workload_of, answer.ports)))
        raise Fault(Status.UNKNOWN, f"there is no workload {word} with a port in the feed{nearest_names(word, names)}")
    return found


def selected_clients(answer: Answer, word: str | None) -> list[Client]:
    """The accounts that a word names, all without one; a Fault where it names none."""
    found = [it for it in answer.clients if word is None or is_client(it, word)]
    if word is not None and not found:
        names = [name for it in answer.clients for name in (it.name, *it.workloads)]
        raise Fault(Status.UNKNOWN, f"there is no workload or account {word} in the feed{nearest_names(word, list(dict.fromkeys(names)))}")
    return found


def select(plan: Plan, client: str | None, port: str | None) -> Plan:
    """The part of a plan that words name: nothing else is tried."""
    whole = Answer(plan.clients, [port_of(it) for it in plan.targets], [])
    columns = {it.name for it in selected_ports(whole, port)}
    return Plan(selected_clients(whole, client), [it for it in plan.targets if str(it.port) in columns])


def why(verdicts: list[Verdict]) -> str:
    """What decides some verdicts. What is alike is told once."""
    deciders = list(dict.fromkeys(it.decider for it in verdicts))
    return deciders[0] if len(deciders) == 1 else "; ".join(map(str, verdicts)) or ABSENT


def lines(answer: Answer) -> list[str]:
    """The answer as people read it."""
    ports = {it.name: it for it in answer.ports}
    rows = [[it.client, it.port, WORDS[it.access] + ("" if ports[it.port].meshed else UNENFORCED), why(it.verdicts)] for it in answer.cells]
    return table(["CLIENT", "WORKLOAD PORT", "MAY CALL", "WHY"], rows)


def merge(before: Plan, after: Plan) -> None:
    """Tries at each port that both have the requests of both."""
    old = {str(it.port): it for it in before.targets}
    for it in after.targets:
        other = old.get(str(it.port))
        if other:
            it.requests = other.requests = {**other.requests, **it.requests}


def change_of(before: list[Verdict], after: list[Verdict]) -> str:
    """Whether some requests are admitted after a change alone, or before it alone."""
    old, new = ({it.request for it in verdicts if it.allowed} for verdicts in (before, after))
    return BOTH if new - old and old - new else OPENS if new - old else CLOSES if old - new else SAME


def compare(before: Answer, after: Answer) -> ChangeAnswer:
    """What opens and what closes between two answers. What is not there in one of them is not admitted there."""
    old, new = ({(it.client, it.port): it.verdicts for it in one.cells} for one in (before, after))
    clients = {it.name: it for it in [*before.clients, *after.clients]}
    ports = {it.name: it for it in [*before.ports, *after.ports]}
    answer = ChangeAnswer([clients[it] for it in sorted(clients)], sorted(ports.values(), key=port_order), [])
    for client in answer.clients:
        for port in answer.ports:
            pair = old.get((client.name, port.name), []), new.get((client.name, port.name), [])
            answer.changes.append(Change(client.name, port.name, change_of(*pair), *pair))
    return answer


def port_order(port: Port) -> tuple[str, int]:
    """The place of a port among others."""
    workload, _, number = port.name.rpartition(":")
    return workload, int(number)


def change_why(change: Change) -> str:
    """What decided before a change, and what decides after it."""
    return f"{why(change.before)} -> {why(change.after)}"


def change_lines(answer: ChangeAnswer) -> list[str]:
    """What opens and closes, as people read it."""
    ports = {it.name: it for it in answer.ports}
    changed = [it for it in answer.changes if it.change != SAME]
    rows = [[it.client, it.port, it.change + ("" if ports[it.port].meshed else UNENFORCED), change_why(it)] for it in changed]
    return table(["CLIENT", "WORKLOAD PORT", "CHANGE", "WHY"], rows) if rows else ["nothing that was tried opens or closes"]


MARKS = {
    ALL: Mark("\u2713", "yes", "all that was tried is admitted"),
    NONE: Mark("\u2717", "no", "nothing that was tried is admitted"),
    SOME: Mark("\u25d0", "some", "some paths are admitted"),
    UNKNOWN: Mark("?", "unknown", "not known"),
}
CHANGE_MARKS = {
    OPENS: Mark("+", "yes", "opens"),
    CLOSES: Mark("\u2212", "no", "closes"),
    BOTH: Mark("\u00b1", "some", "opens for some paths and closes for others"),
    SAME: Mark("\u00b7", "same", "as before"),
}


def client_note(client: Client) -> str:
    """What is said of an account."""
    return f"{', '.join(client.workloads)}; tried from {client.address}, {client.identity or 'no identity'}"


def port_note(port: Port) -> str:
    """What is said of a port."""
    server = f"Server {port.server}, policy {port.policy}" if port.server else f"no Server, default policy {port.policy}"
    return f"{server}; account {port.account}; tried at {port.pod}"


def headings(clients: list[Client], ports: list[Port]) -> tuple[list[Heading], list[Heading]]:
    """The headings of the rows and of the columns of a page."""
    return [Heading(it.name, client_note(it)) for it in clients], [Heading(it.name, port_note(it), not it.meshed) for it in ports]


def in_rows(cells: list[tuple[str, str]], width: int) -> list[list[tuple[str, str]]]:
    """Cells in rows of a width."""
    return [cells[place : place + width] for place in range(0, len(cells), width)] if width else []


def page_of(notes: list[str], answer: Answer) -> str:
    """The page of an answer."""
    cells = [(it.access, "\n".join(map(str, it.verdicts))) for it in answer.cells]
    rows, columns = headings(answer.clients, answer.ports)
    return page(Sheet("Who may call whom", notes, MARKS, rows, columns, in_rows(cells, len(columns))))


def change_page_of(notes: list[str], names: list[str], answer: ChangeAnswer) -> str:
    """The page of what opens and closes."""
    cells = [(it.change, change_text(it)) for it in answer.changes]
    rows, columns = headings(answer.clients, answer.ports)
    title = f"What opens and closes from {names[0]} to {names[1]}"
    return page(Sheet(title, notes, CHANGE_MARKS, rows, columns, in_rows(cells, len(columns))))


def change_text(change: Change) -> str:
    """The verdicts before and after a change, by request."""
    old, new = ({it.request: it.decider for it in verdicts} for verdicts in (change.before, change.after))
    requests = list(dict.fromkeys([*old, *new]))
    pairs = [(it, old.get(it, ABSENT), new.get(it, ABSENT)) for it in requests]
    return "\n".join(f"{it}: {one}" if one == other else f"{it}: {one} -> {other}" for it, one, other in pairs) or ABSENT


def run(session: Session, client: str | None, port: str | None, form: str) -> Status:
    """Shows who may call whom, as a page, a table or JSON."""
    plan = select(plan_of(session), client, port)
    say_how_many(plan)
    answer = find(session, plan)
    gaps = session.gaps(POLICY_KINDS)
    if form == "html":
        print(page_of(gaps.lines(), answer), end="")
    else:
        show(gaps, answer, lines(answer), form == "json")
    return gaps.status(Status.DONE)


def run_recordings(sessions: dict[str, Session], form: str) -> Status:
    """Shows what opens and what closes between two recordings."""
    plans = [plan_of(it) for it in sessions.values()]
    merge(*plans)
    for plan in plans:
        say_how_many(plan)
    answer = compare(*(find(it, plan) for it, plan in zip(sessions.values(), plans)))
    gaps = [it.gaps(POLICY_KINDS) for it in sessions.values()]
    both = Gaps(list(dict.fromkeys(kind for it in gaps for kind in it.missing)), [line for it in gaps for line in it.refused])
    if form == "html":
        print(change_page_of(both.lines(), list(sessions), answer), end="")
    else:
        answer.changes = [it for it in answer.changes if it.change != SAME]
        show(both, answer, change_lines(answer), form == "json")
    return both.status(Status.NO if any(it.change != SAME for it in answer.changes) else Status.DONE)
