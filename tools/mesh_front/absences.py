"""Why an address or a Pod is no endpoint of a port of a Service.

The reasons are found by asking again: each EndpointSlice that has an address which the view lacks is held with all its endpoints ready,
with the port named as that of the Service, and with both. The change that brings the address into the view names what keeps it out.
Which Pods the selector selects is looked up as `mesh_front.slices` has it, since no view says it.
"""

from dataclasses import dataclass
from typing import Any

from mesh_front import slices, views
from mesh_front.feed import Key, Objects, items, members
from mesh_front.kinds import POD, SLICE
from mesh_front.program import Answers, Query, Script


@dataclass(frozen=True)
class Absence:
    """An address of a slice, or a Pod, that is no endpoint, and why."""

    address: str | None
    pod: str | None
    slice: str | None
    why: str


@dataclass(frozen=True)
class Trial:
    """A port of a Service, a slice of it, and the views with the slice ready, with the port named, and with both."""

    port: int
    slice: Key
    ready: int
    named: int
    both: int


def own_slices(objects: Objects, service: Key) -> list[Key]:
    """The EndpointSlices of a Service."""
    return [it for it in objects.of(SLICE, service.namespace) if slices.labels(objects.by_key[it]).get(slices.SERVICE_LABEL) == service.name]


def tcp_port(objects: Objects, service: Key, number: int) -> dict | None:
    """The first TCP port of a Service with a number, None where it has none."""
    ports = [it for it in items(objects.spec(service), "ports") if it.get("port") == number]
    return next((it for it in ports if (it.get("protocol") or "TCP") == "TCP"), None)


def all_addresses(value: dict) -> set[str]:
    """The addresses of a slice."""
    return {it for row in items(value, "endpoints") for it in row.get("addresses") or [] if isinstance(it, str)}


def ask(objects: Objects, script: Script, service: Key, shown: dict[int, set[str]]) -> list[Trial]:
    """Asks what keeps the addresses of the slices of a Service out of the views of its ports, where some are out."""
    trials: list[Trial] = []
    if objects.spec(service).get("type") == "ExternalName":
        return trials
    for key in own_slices(objects, service):
        value = objects.by_key[key]
        for number, found in shown.items():
            port = tcp_port(objects, service, number)
            if port is None or all_addresses(value) <= found:
                continue
            ready: dict[str, Any] = {"endpoints": [{**it, "conditions": {}} for it in items(value, "endpoints")]}
            named: dict[str, Any] = {"ports": [{**it, "name": port.get("name"), "protocol": "TCP"} for it in items(value, "ports")]}
            numbers = []
            for change in (ready, named, {**ready, **named}):
                script.hold({**value, **change})
                numbers.append(script.view(Query("Get", f"{service.name}.{service.namespace}", number)))
            script.hold(value)
            trials.append(Trial(number, key, *numbers))
    return trials


def readiness(row: dict) -> str:
    """What the conditions of an endpoint that is not ready say."""
    conditions = members(row, "conditions")
    if conditions.get("terminating") is not True:
        return "it is not ready"
    return "it is terminating" + (", and still serves" if conditions.get("serving") is True else "")


def names_of_ports(rows: list[dict]) -> str:
    """The ports of a slice, or of a Service, as people read them."""
    words = [f"{it.get('name') or 'without a name'}{'' if (it.get('protocol') or 'TCP') == 'TCP' else ' (' + str(it['protocol']) + ')'}" for it in rows]
    return ", ".join(words) or "none"


def why_address(trial: Trial, answers: Answers, value: dict, row: dict, address: str, name: str) -> str:
    """Why an address of a slice is not in the view: what brings it in."""

    def brings(number: int) -> bool:
        return address in {it.address for it in views.endpoints(answers.view(number)).endpoints}

    ports = f"its EndpointSlice {trial.slice.name} has no TCP port {name}; its ports: {names_of_ports(items(value, 'ports'))}"
    if brings(trial.ready):
        return readiness(row)
    if brings(trial.named):
        return ports
    if brings(trial.both):
        return f"{readiness(row)}, and {ports}"
    return f"its EndpointSlice {trial.slice.name} has addresses of the type {value.get('addressType')} and the ports {names_of_ports(items(value, 'ports'))}"


def target_pod(row: dict) -> str | None:
    """The name of the Pod that an endpoint targets."""
    target = members(row, "targetRef")
    return target.get("name") if target.get("kind") == "Pod" else None


def of_slices(objects: Objects, service: Key, trials: list[Trial], answers: Answers, shown: set[str], number: int) -> list[Absence]:
    """The addresses of slices that are no endpoints of a port, each with its reason."""
    port = tcp_port(objects, service, number) or {}
    name = f"named {port['name']}" if port.get("name") else "without a name"
    found = []
    for trial in (it for it in trials if it.port == number):
        value = objects.by_key[trial.slice]
        for row in items(value, "endpoints"):
            for address in row.get("addresses") or []:
                if address not in shown:
                    why = why_address(trial, answers, value, row, address, name)
                    found.append(Absence(address, target_pod(row), trial.slice.name, why))
    return found


def why_pod(pod: dict) -> str:
    """Why no slice has a Pod that the selector selects, as far as the Pod says it."""
    status = members(pod, "status")
    if status.get("phase") in slices.ENDED:
        return f"no EndpointSlice has it: its phase is {status['phase']}"
    if not slices.addresses(pod):
        return "no EndpointSlice has it: it has no address yet"
    if members(pod, "metadata").get("deletionTimestamp"):
        return "no EndpointSlice has it: it is being deleted"
    return "no EndpointSlice has it, although the selector selects it"


def of_pods(objects: Objects, service: Key) -> list[Absence]:
    """The Pods that the selector selects and that no slice of the Service has."""
    rows = [row for key in own_slices(objects, service) for row in items(objects.by_key[key], "endpoints")]
    named = {target_pod(row) for row in rows}
    placed = {address for row in rows for address in row.get("addresses") or []}
    found = []
    for key in objects.of(POD, service.namespace):
        pod = objects.by_key[key]
        if slices.is_selected(objects.by_key[service], pod) and key.name not in named and not placed & set(slices.addresses(pod)):
            found.append(Absence(next(iter(slices.addresses(pod)), None), key.name, None, why_pod(pod)))
    return found


def selector_reason(objects: Objects, service: Key) -> str:
    """What the selector of a Service without endpoints selects."""
    selector = members(objects.spec(service), "selector")
    if not selector:
        return "it has no selector, so that Kubernetes makes no EndpointSlices of it"
    text = ",".join(f"{name}={value}" for name, value in selector.items())
    selected = [it for it in objects.of(POD, service.namespace) if slices.is_selected(objects.by_key[service], objects.by_key[it])]
    if selected:
        return f"its selector {text} selects {len(selected)} Pod{'s' if len(selected) > 1 else ''} of the feed"
    return f"its selector {text} selects no Pod of the feed"


def why_none(objects: Objects, service: Key, number: int) -> str:
    """Why a port of a Service has no endpoints, in one sentence."""
    spec = objects.spec(service)
    if spec.get("type") == "ExternalName":
        return f"it is an ExternalName, of {spec.get('externalName') or 'no name'}"
    if tcp_port(objects, service, number) is None:
        return f"it has no TCP port {number}; its ports: {names_of_ports(items(spec, 'ports'))}"
    own = own_slices(objects, service)
    if not own:
        return f"no EndpointSlice of {service.namespace} has the label {slices.SERVICE_LABEL}={service.name}; {selector_reason(objects, service)}"
    if not any(all_addresses(objects.by_key[it]) for it in own):
        return f"its EndpointSlices have no address; {selector_reason(objects, service)}"
    return "no address of its EndpointSlices is a ready endpoint of this port"
