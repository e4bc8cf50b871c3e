"""Objects with which this program does something else than Linkerd does, as README lists it.

Whether an object is concerned is asked of the program where it depends on a rule: which Server a port has, which hint an endpoint, and
what the view of a port would be if a native sidecar were a container as any other.
"""

from dataclasses import dataclass, field

from mesh_front import policy, probes, views
from mesh_front.feed import Key, Objects, items, members
from mesh_front.kinds import POD, ROUTE_KINDS, SERVICE, SLICE
from mesh_front.names import PodName, PodPort
from mesh_front.program import Answers, Script

SERVICE_LABEL = "kubernetes.io/service-name"
OPAQUE = "opaque by it, and still sent with the HTTP/2 hint, which only the annotation config.linkerd.io/opaque-ports of the Pod ends"
NAMED = 3  # ports that are named one by one


@dataclass(frozen=True)
class Sidecar:
    """A port of a native sidecar, which is an init container that is restarted."""

    target: PodPort
    container: str


@dataclass
class Questions:
    """The rows of endpoints at opaque ports, and the views of ports of sidecars, as they are and with the sidecars as containers."""

    rows: dict[PodPort, int] = field(default_factory=dict)
    sidecars: dict[Sidecar, tuple[int, int]] = field(default_factory=dict)


def native_sidecars(objects: Objects, pod: Key) -> list[dict]:
    """The native sidecars of a Pod."""
    return [it for it in items(objects.spec(pod), "initContainers") if it.get("restartPolicy") == "Always"]


def ask_sidecars(objects: Objects, script: Script, questions: Questions) -> None:
    """Asks for the view of each port of a native sidecar, with and without it among the containers."""
    for key in objects.of(POD):
        targets = []
        for one in native_sidecars(objects, key):
            numbers = [it.get("containerPort") for it in items(one, "ports")]
            ports = [number for number in numbers if isinstance(number, int) and 0 < number < 65536]
            targets += [Sidecar(PodPort(PodName(key.namespace, key.name), port), str(one.get("name"))) for port in ports]
        if not targets:
            continue
        value, spec = objects.by_key[key], objects.spec(key)
        before = [script.view(policy.inbound_query(it.target)) for it in targets]
        script.hold({**value, "spec": {**spec, "containers": items(spec, "containers") + native_sidecars(objects, key)}})
        after = [script.view(policy.inbound_query(it.target)) for it in targets]
        script.hold(value)
        questions.sidecars.update(zip(targets, zip(before, after)))


def ask(objects: Objects, script: Script, inbound: dict[PodPort, views.Inbound]) -> Questions:
    """Asks what can be concerned, by the views of the ports."""
    questions = Questions()
    for target, view in inbound.items():
        if view.server and view.protocol == "opaque":
            questions.rows[target] = probes.ask_row(objects, script, target.pod, target.port)
    ask_sidecars(objects, script, questions)
    return questions


def hint_problems(questions: Questions, answers: Answers, inbound: dict[PodPort, views.Inbound]) -> list[tuple[str, str]]:
    """The Servers that make a port opaque whose endpoints are still sent the HTTP/2 hint."""
    targets: dict[str, list[PodPort]] = {}
    for target, number in questions.rows.items():
        if any(it.http2 for it in views.endpoints(answers.view(number)).endpoints):
            targets.setdefault(f"Server {target.pod.namespace}/{inbound[target].server}", []).append(target)
    return [(server, f"{named(it)} {OPAQUE}") for server, it in targets.items()]


def named(targets: list[PodPort]) -> str:
    """Some ports, with a verb for what follows."""
    more = [f"{len(targets) - NAMED} more"] if len(targets) > NAMED else []
    words = [str(it) for it in targets[:NAMED]] + more
    return f"{' and '.join([', '.join(words[:-1]), words[-1]] if words[:-1] else words)} {'is' if len(targets) == 1 else 'are'}"


def sidecar_problems(questions: Questions, answers: Answers) -> list[tuple[str, str]]:
    """The ports of native sidecars whose views would be others if the sidecars were read."""
    problems = []
    for sidecar, (before, after) in questions.sidecars.items():
        if answers.view(before) == answers.view(after):
            continue
        servers = [views.inbound(answers.view(number)).server for number in (before, after)]
        what = f"the Server {servers[1]} would be that of the port" if servers[0] != servers[1] else "the view of the port would be another"
        why = f"its container {sidecar.container} is a native sidecar, whose ports and probes are not read; if they were, {what}"
        problems.append((f"Pod {sidecar.target}", why))
    return problems


def topology_problems(objects: Objects) -> list[tuple[str, str]]:
    """The Services whose slices have topology hints."""
    slices: dict[tuple[str, str], list[str]] = {}
    for key in objects.of(SLICE):
        value = objects.by_key[key]
        if any(items(it, "hints", "forZones") for it in items(value, "endpoints")):
            service = str(members(value, "metadata", "labels").get(SERVICE_LABEL) or "-")
            slices.setdefault((key.namespace, service), []).append(key.name)
    why = "has topology hints, which do not count: clients are sent the endpoints of all zones"
    return [(f"Service {namespace}/{service}", f"its EndpointSlice {', '.join(names)} {why}") for (namespace, service), names in slices.items()]


def consumer_problems(objects: Objects) -> list[tuple[str, str]]:
    """The routes of a Service in another namespace."""
    problems = []
    for kind in ROUTE_KINDS:
        for key in objects.of(kind):
            for it in items(objects.spec(key), "parentRefs"):
                place = it.get("namespace") or key.namespace
                if "group" in it and probes.referred_kind(it) == SERVICE and place != key.namespace:
                    why = f"its parent Service {place}/{it.get('name')} is in another namespace, and so it does not count"
                    problems.append((str(key), f"{why}, not even for the clients in {key.namespace}"))
    return problems


def problems(objects: Objects, questions: Questions, answers: Answers, inbound: dict[PodPort, views.Inbound]) -> list[tuple[str, str]]:
    """The objects that are concerned, each with what is different."""
    found = topology_problems(objects) + consumer_problems(objects)
    return found + hint_problems(questions, answers, inbound) + sidecar_problems(questions, answers)
