"""`mesh endpoints`: where a Service is served, and what keeps other addresses out."""

from dataclasses import dataclass, field

from mesh_front import absences, views
from mesh_front.faults import Status
from mesh_front.feed import Key, Objects
from mesh_front.kinds import ENDPOINT_KINDS, SERVICE
from mesh_front.names import ServiceName, require_service
from mesh_front.program import Query, Script, Session
from mesh_front.tables import show, table

HEADINGS = ["SERVICE PORT", "ADDRESS", "PORT", "POD", "ACCOUNT", "MESHED", "HINT"]
ABSENCE_HEADINGS = ["SERVICE PORT", "NO ENDPOINT", "POD", "WHY"]


@dataclass
class PortEndpoints:
    """The endpoints of a port of the Service, why there are none, and the addresses and Pods that are none, each with the reason."""

    service_port: int
    exists: bool
    endpoints: list[views.Endpoint]
    reason: str | None = None
    absent: list[absences.Absence] = field(default_factory=list)


@dataclass
class Answer:
    """The endpoints of each port that is asked for."""

    ports: list[PortEndpoints]


def reason_lines(service: ServiceName, it: PortEndpoints) -> list[str]:
    """Why a port has no endpoints."""
    name, why = f"{service.name}.{service.namespace}:{it.service_port}", f": {it.reason}" if it.reason else ""
    if not it.exists:
        return [f"{name} counts as not existing{why}"]
    return [] if it.endpoints else [f"{name} exists and has no endpoints{why}"]


def lines(service: ServiceName, answer: Answer) -> list[str]:
    """The answer as people read it."""
    rows = [[str(it.service_port), *row.cells()] for it in answer.ports for row in it.endpoints]
    output = table(HEADINGS, rows) if rows else []
    for it in answer.ports:
        output += reason_lines(service, it)
    absent = [[str(it.service_port), row.address or "-", row.pod or "-", row.why] for it in answer.ports for row in it.absent]
    return output + (["", *table(ABSENCE_HEADINGS, absent)] if absent else [])


def find(session: Session, service: ServiceName) -> Answer:
    """The endpoints of each port that is asked for, and what keeps other addresses of its slices out."""
    key = Key(SERVICE, service.namespace, service.name)

    def questions(objects: Objects, script: Script) -> list[tuple[int, int]]:
        ports = [service.port] if require_service(objects, service) and service.port else objects.service_ports(key) or [80]
        return [(port, script.view(Query("Get", f"{service.name}.{service.namespace}", port))) for port in ports]

    numbers, answers = session.ask(questions)
    found = {port: views.endpoints(answers.view(number)) for port, number in numbers}
    shown = {port: {it.address for it in one.endpoints} for port, one in found.items()}
    trials: list[absences.Trial] = []
    if needs_more(session.objects, key, shown):
        trials, answers = session.ask(lambda objects, script: absences.ask(objects, script, key, shown))
    objects, answer = session.objects, Answer([])
    for port, one in found.items():
        absent = absences.of_slices(objects, key, trials, answers, shown[port], port) + absences.of_pods(objects, key)
        reason = None if one.endpoints else absences.why_none(objects, key, port)
        answer.ports.append(PortEndpoints(port, one.exists, one.endpoints, reason, absent))
    return answer


def needs_more(objects: Objects, key: Key, shown: dict[int, set[str]]) -> bool:
    """Whether a slice of the Service has an address that some view lacks."""
    addresses = [absences.all_addresses(objects.by_key[it]) for it in absences.own_slices(objects, key)]
    return any(not it <= found for it in addresses for found in shown.values())


def run(session: Session, service: ServiceName, as_json: bool) -> Status:
    """Shows the endpoints of a port of a Service, or of each of its ports."""
    answer = find(session, service)
    gaps = session.gaps(ENDPOINT_KINDS)
    show(gaps, answer, lines(service, answer), as_json)
    return gaps.status(Status.DONE)
