"""`mesh diff`: which views differ, before and after a change of objects, or in two recordings.

Views are those of linkerd_cli. What opens and what closes is found by simulating requests on both sides (`access`), and the EndpointSlices
that follow from a change of a Service or a Pod are computed as Kubernetes' controller does (`slices`).
"""

import difflib
from dataclasses import dataclass
from typing import Callable, Iterable, Protocol

from mesh_front import access, policy, slices, views
from mesh_front.faults import Fault, Status
from mesh_front.feed import Key, Objects, apply, key_of, members
from mesh_front.gaps import Gaps
from mesh_front.kinds import KINDS, POD, SERVICE, Kind
from mesh_front.manifests import Change, Changes, resolve
from mesh_front.messages import Message, address
from mesh_front.names import PodName, PodPort
from mesh_front.program import Answers, Query, Script, Session
from mesh_front.tables import show

SERVICE_METHODS = ("Get", "GetProfile", "Watch")
WHAT = {"Get": "endpoints of Service", "GetProfile": "profile of Service", "Watch": "outbound policy of Service", "WatchPort": "inbound policy of Pod"}
NAMED = 10  # views that change alike and are named one by one


@dataclass(frozen=True)
class Question:
    """A view that may change."""

    name: str
    query: Query
    target: PodPort | None = None

    @property
    def title(self) -> str:
        """What the view is and of what."""
        return f"{WHAT[self.query.method]} {self.name}"


@dataclass
class Difference:
    """A view that changes: its messages and its rows before and after."""

    question: Question
    messages: tuple[list[Message], list[Message]]
    before: list[str]
    after: list[str]

    def changed_rows(self) -> list[str]:
        """The rows that go and come."""
        rows = list(difflib.unified_diff(self.before, self.after, lineterm="", n=0))[2:]
        return [f"{row[0]} {row[1:]}" for row in rows if not row.startswith("@@")]


@dataclass
class Group:
    """Views that change alike: their names, and the rows that go and come. The rows before and after are those of the first."""

    views: list[str]
    changed_rows: list[str]
    before: list[str]
    after: list[str]


@dataclass
class Answer:
    """What opens and closes, the views that change, of how many, and how the change was read."""

    opens: list[str]
    closes: list[str]
    changes: list[Group]
    compared: int
    namespace: str | None
    without_namespace: list[str]
    computed: list[str]
    not_computed: list[str]
    left_out: list[str]


@dataclass
class Side:
    """The answers before or after: the questions' numbers, and the answers to them."""

    numbers: list[int]
    answers: Answers

    def views(self) -> list[list[Message]]:
        """The messages of each view."""
        return [self.answers.view(it) for it in self.numbers]

    def verdicts(self) -> list[str]:
        """The verdict on each simulated request. One that is refused admits nobody."""
        return [self.answers.verdicts.get(it) or f"refused {self.answers.refusals.get(it, '')}" for it in self.numbers]


class Comparison(Protocol):
    """Two states of a cluster, and questions over both."""

    states: tuple[Objects, Objects]

    def ask(self, questions: Callable[[Script], list[int]]) -> tuple[Side, Side]:
        """Asks the same questions over both states."""

    def gaps(self, kinds: Iterable[Kind]) -> Gaps:
        """What the feeds lack of some kinds."""


class ChangedFeed:
    """A feed before and after changes."""

    def __init__(self, session: Session, all_changes: Changes):
        self.session = session
        before = session.known_objects()
        self.changes = resolve(all_changes, before)
        after = after_changes(before, self.changes)
        changed = {it.key for it in self.changes if before.by_key.get(it.key) != after.by_key.get(it.key)}
        self.follow = slices.follow(before, after, changed, session.gaps(KINDS).missing)
        self.events: list[dict] = [{"type": it.type, "object": it.object} for it in self.changes]
        self.events += [{"type": "DELETED", "object": it} for it in self.follow.removed]
        self.events += [{"type": "MODIFIED", "object": it} for it in self.follow.added]
        self.states = before, after

    def ask(self, questions: Callable[[Script], list[int]]) -> tuple[Side, Side]:
        """Asks before the changes and after them."""

        def both(_: Objects, script: Script) -> tuple[list[int], list[int], list[int]]:
            before = questions(script)
            lines = [script.add(it) for it in self.events]
            return before, lines, questions(script)

        (before, lines, after), answers = self.session.ask(both)
        self.require_events(lines, answers)
        return Side(before, answers), Side(after, answers)

    def require_events(self, lines: list[int], answers: Answers) -> None:
        """Raises a Fault where the program refuses a change."""
        for line, event in zip(lines, self.events):
            if line in answers.refusals:
                key = key_of(members(event, "object"))
                raise Fault(Status.REFUSED, f"the change of {key} is refused: {answers.refusals[line]}")

    def gaps(self, kinds: Iterable[Kind]) -> Gaps:
        """What the feed lacks of some kinds."""
        return self.session.gaps(kinds)


class TwoFeeds:
    """Two feeds, by their names."""

    def __init__(self, sessions: dict[str, Session]):
        self.sessions = sessions
        old, new = (it.known_objects() for it in sessions.values())
        self.states = old, new

    def ask(self, questions: Callable[[Script], list[int]]) -> tuple[Side, Side]:
        """Asks over each feed."""
        old, new = (Side(*it.ask(lambda _, script: questions(script))) for it in self.sessions.values())
        return old, new

    def gaps(self, kinds: Iterable[Kind]) -> Gaps:
        """What either feed lacks of some kinds."""
        found = {name: it.gaps(kinds) for name, it in self.sessions.items()}
        missing = [f"{title} in {name}" for name, it in found.items() for title in it.missing]
        return Gaps(missing, [f"{line} of {name}" for name, it in found.items() for line in it.refused])


def flat(message: Message, prefix: str = "") -> list[str]:
    """The fields of a message, each with its path."""
    rows: list[str] = []
    for name in dict.fromkeys(name for name, _ in message.fields):
        values = message.all(name)
        for place, value in enumerate(values):
            path = f"{prefix}{name}[{place}]" if len(values) > 1 else f"{prefix}{name}"
            if not isinstance(value, Message):
                rows.append(f"{path} {value}")
            elif value.names() & {"ipv4", "ipv6"}:
                rows.append(f"{path} {address(value)}")
            else:
                rows += flat(value, f"{path}.") or [path]
    return rows


def endpoint_rows(view: views.Endpoints) -> list[str]:
    """Endpoints in rows."""
    if not view.endpoints:
        return ["the Service exists and has no endpoints" if view.exists else "the Service does not exist"]
    rows = []
    for it in view.endpoints:
        pod = f" Pod {it.pod} account {it.account}" if it.pod else ""
        identity = f" identity {it.identity}" if it.identity else ""
        rows.append(f"{it.address}:{it.port}{pod}{identity} hint {it.hint}")
    return rows


def inbound_rows(view: views.Inbound) -> list[str]:
    """The view of a port of a Pod in rows."""
    if view.policy is None:
        return ["the Pod does not exist"]
    rows = [f"server {view.server or 'none'}", f"protocol {view.protocol}", f"policy {view.policy}"]
    for one in view.authorizations:
        rows.append(f"{one.title} for {policy.scope(one, view)}: networks {one.where()}, clients {one.clients}")
    for it in view.routes:
        rows.append(f"{it.title} ({it.group}): hostnames {', '.join(it.hostnames) or '*'}, matches {', '.join(it.matches) or '-'}")
    return rows + [f"probe GET {path}" for path in view.probes]


def rows_of(method: str, messages: list[Message]) -> list[str]:
    """A view in rows."""
    if method == "Get":
        return endpoint_rows(views.endpoints(messages))
    if method == "WatchPort":
        return inbound_rows(views.inbound(messages))
    return [row for message in messages for row in flat(message)]


def difference(question: Question, before: list[Message], after: list[Message]) -> Difference | None:
    """How a view differs, or None where it does not."""
    if before == after:
        return None
    rows = [rows_of(question.query.method, messages) for messages in (before, after)]
    if rows[0] == rows[1]:
        rows = [[row for message in messages for row in flat(message)] for messages in (before, after)]
    return Difference(question, (before, after), rows[0], rows[1])


def after_changes(objects: Objects, changes: list[Change]) -> Objects:
    """What is held after the changes."""
    by_key = dict(objects.by_key)
    for it in changes:
        apply(by_key, {"type": it.type, "object": it.object})
    return Objects(by_key)


def by_name(pair: tuple[Key, int]) -> tuple[str, str, int]:
    """The order of questions."""
    return pair[0].namespace, pair[0].name, pair[1]


def questions_of(states: Iterable[Objects]) -> list[Question]:
    """Each port of each Pod and each port of each Service that some of these states have."""
    pod_ports, service_ports = set(), set()
    for objects in states:
        pod_ports |= {(key, port) for key in objects.of(POD) for port in objects.pod_ports(key)}
        service_ports |= {(key, port) for key in objects.of(SERVICE) for port in objects.service_ports(key) or [80]}
    questions = []
    for key, port in sorted(pod_ports, key=by_name):
        target = PodPort(PodName(key.namespace, key.name), port)
        questions.append(Question(str(target), policy.inbound_query(target), target))
    for key, port in sorted(service_ports, key=by_name):
        name = f"{key.name}.{key.namespace}"
        questions += [Question(f"{name}:{port}", Query(method, name, port)) for method in SERVICE_METHODS]
    return questions


def groups(differences: list[Difference]) -> list[Group]:
    """The views that change, those that change alike together."""
    found: dict[tuple[str, tuple[str, ...]], Group] = {}
    for it in differences:
        rows = it.changed_rows()
        group = found.setdefault((it.question.query.method, tuple(rows)), Group([], rows, it.before, it.after))
        group.views.append(it.question.title)
    return list(found.values())


def inside_address(states: Iterable[Objects]) -> str:
    """An address of a Pod."""
    pods = [(objects, key) for objects in states for key in objects.of(POD)]
    return next((it for objects, key in pods for it in slices.addresses(objects.by_key[key])), access.INSIDE)


def port_accesses(comparison: Comparison, differences: list[Difference]) -> dict[bool, list[str]]:
    """What opens and what closes of ports of Pods, by simulated requests."""
    inside = inside_address(comparison.states)
    ports = [(it, it.question.target) for it in differences if it.question.target]
    tried = [access.trials(target, *it.messages, inside) for it, target in ports]
    found: dict[bool, list[access.Access]] = {True: [], False: []}
    if ports:
        before, after = comparison.ask(lambda script: [script.simulate(one.line) for rows in tried for one in rows])
        verdicts = before.verdicts(), after.verdicts()
        start = 0
        for (it, _), rows in zip(ports, tried):
            old, new = (values[start : start + len(rows)] for values in verdicts)
            start += len(rows)
            for opens, accesses in found.items():
                accesses.extend(access.accesses(it.question.name, rows, old, new, opens))
    return {opens: [str(it) for it in access.together(rows)] for opens, rows in found.items()}


def endpoint_accesses(differences: list[Difference]) -> dict[bool, list[str]]:
    """What opens and what closes of Services, by whether they have endpoints."""
    found: dict[bool, list[str]] = {True: [], False: []}
    for it in differences:
        if it.question.query.method == "Get":
            before, after = (bool(views.endpoints(messages).endpoints) for messages in it.messages)
            if before != after:
                found[after].append(f"{it.question.name} {'has endpoints, and had none' if after else 'has no endpoint any more'}")
    return found


def group_title(group: Group) -> str:
    """The views that change alike, as people read them."""
    what = group.views[0].rpartition(" ")[0]
    names = [it.rpartition(" ")[2] for it in group.views]
    more = f" and {len(names) - NAMED} more" if len(names) > NAMED else ""
    return f"{what}{'s' if len(names) > 1 else ''} {', '.join(names[:NAMED])}{more}"


def headline(answer: Answer) -> list[str]:
    """What opens and what closes, as people read it; that nothing of it was found is said where requests were tried."""
    is_tried = any(it.views[0].startswith(WHAT["WatchPort"]) for it in answer.changes)
    heads = {"opens": answer.opens, "closes": answer.closes}
    rows = [f"{word:<8}{row}" for word, found in heads.items() for row in found or ["nothing that was tried"] * is_tried]
    return [*rows, ""] if rows else []


def lines(answer: Answer) -> list[str]:
    """The differences as people read them."""
    output = [f"not computed: {it}" for it in answer.not_computed]
    if answer.without_namespace:
        output.append(f"in the namespace {answer.namespace}, since they name none: {', '.join(answer.without_namespace)}")
    output += [f"computed, as Kubernetes does: the EndpointSlices of {it}" for it in answer.computed]
    output += [""] if output else []
    output += headline(answer)
    for group in answer.changes:
        output += [group_title(group), *group.changed_rows, ""]
    count = sum(len(group.views) for group in answer.changes)
    return [*output, f"views that change: {count} of {answer.compared}"]


def compare(comparison: Comparison) -> Answer:
    """The views that differ."""
    questions = questions_of(comparison.states)
    before, after = comparison.ask(lambda script: [script.view(it.query) for it in questions])
    results = [difference(*row) for row in zip(questions, before.views(), after.views())]
    differences = [it for it in results if it]
    ports, services = port_accesses(comparison, differences), endpoint_accesses(differences)
    opened, closed = (ports[opens] + services[opens] for opens in (True, False))
    return Answer(opened, closed, groups(differences), len(questions), None, [], [], [], [])


def finish(comparison: Comparison, answer: Answer, as_json: bool) -> Status:
    """Shows an answer."""
    gaps = comparison.gaps(KINDS)
    show(gaps, answer, lines(answer), as_json)
    status = Status.NO if answer.changes else Status.DONE
    return gaps.status(Status.NOT_COMPUTED if answer.not_computed else status)


def run(session: Session, all_changes: Changes, as_json: bool) -> Status:
    """Shows each view that changes of objects change."""
    comparison = ChangedFeed(session, all_changes)
    answer = compare(comparison)
    answer.namespace, answer.without_namespace = all_changes.namespace, all_changes.without_namespace
    answer.computed, answer.left_out = comparison.follow.services, all_changes.left_out
    answer.not_computed = all_changes.not_computed + comparison.follow.failed
    return finish(comparison, answer, as_json)


def run_recordings(sessions: dict[str, Session], as_json: bool) -> Status:
    """Shows each view that differs in two recordings."""
    comparison = TwoFeeds(sessions)
    return finish(comparison, compare(comparison), as_json)
