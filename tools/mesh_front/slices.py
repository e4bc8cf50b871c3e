"""The EndpointSlices that Kubernetes' EndpointSlice controller makes of a Service and its Pods.

A change of a Service or of a Pod changes slices that no manifest has. Here they are computed as the controller does: the Pods that the
selector selects, without those that have ended or have no address; the number of each port in the Pod that `targetPort` names; ready if
the Pod is, and does not end, or if the Service publishes addresses that are not ready. This is the one rule that is written down here and
not asked of linkerd_cli, which reads slices and makes none. So it is used only where the slices of the feed are those that it makes of the
objects of the feed.
"""

import ipaddress
from dataclasses import dataclass, field

from mesh_front.feed import Key, Objects, items, members
from mesh_front.kinds import POD, SERVICE, SLICE
from mesh_front.probes import new_object

SERVICE_LABEL = "kubernetes.io/service-name"
MANAGER_LABEL = "endpointslice.kubernetes.io/managed-by"
MANAGER = "endpointslice-controller.k8s.io"
ADDRESS_TYPES = {4: "IPv4", 6: "IPv6"}
ENDED = ("Succeeded", "Failed")

Port = tuple[str, int | None, str]  # its name, number and protocol
Place = tuple[str, str, Port]  # an address, the Pod behind it, and a port there


@dataclass
class Follow:
    """The changes of slices that follow from changes of other objects: of which Services, and of which they cannot be computed, and why."""

    removed: list[dict] = field(default_factory=list)
    added: list[dict] = field(default_factory=list)
    services: list[str] = field(default_factory=list)
    failed: list[str] = field(default_factory=list)


def labels(value: dict) -> dict:
    """The labels of an object."""
    return members(value, "metadata", "labels")


def is_selected(service: dict | None, pod: dict | None) -> bool:
    """Whether the selector of a Service selects a Pod. Without a selector, and as an ExternalName, it selects none."""
    selector = members(service, "spec", "selector")
    if pod is None or not selector or members(service, "spec").get("type") == "ExternalName":
        return False
    return all(labels(pod).get(name) == value for name, value in selector.items())


def addresses(pod: dict) -> list[str]:
    """The addresses of a Pod."""
    status = members(pod, "status")
    found = [it.get("ip") for it in items(status, "podIPs")] or [status.get("podIP")]
    return [it for it in found if isinstance(it, str) and it]


def family(address: str) -> int:
    """4 or 6; a ValueError where it is no address."""
    return ipaddress.ip_address(address).version


def families(service: dict, primary: int | None) -> set[int]:
    """The families of the addresses in the slices of a Service. `primary` is that of a new Service that names none."""
    spec = members(service, "spec")
    named = {"IPv4": 4, "IPv6": 6}
    given = {named[it] for it in spec.get("ipFamilies") or [] if it in named}
    if given:
        return given
    address = spec.get("clusterIP")
    if isinstance(address, str) and address not in ("", "None"):
        return {family(address)}
    if primary is None or spec.get("ipFamilyPolicy") in ("PreferDualStack", "RequireDualStack"):
        return {4, 6}
    return {primary}


def is_ready(service: dict, pod: dict) -> bool:
    """Whether the endpoint of a Pod is ready."""
    if members(service, "spec").get("publishNotReadyAddresses") is True:
        return True
    conditions = {it.get("type"): it.get("status") for it in items(pod, "status", "conditions")}
    return conditions.get("Ready") == "True" and not members(pod, "metadata").get("deletionTimestamp")


def port_number(pod: dict, port: dict) -> int | None:
    """The number in a Pod of a port of a Service, None where no container of the Pod names it."""
    target, protocol = port.get("targetPort") or port.get("port"), port.get("protocol") or "TCP"
    if isinstance(target, int):
        return target
    sidecars = [it for it in items(pod, "spec", "initContainers") if it.get("restartPolicy") == "Always"]
    for container in items(pod, "spec", "containers") + sidecars:
        for it in items(container, "ports"):
            if (it.get("name"), it.get("protocol") or "TCP") == (target, protocol):
                return it.get("containerPort")
    return None


def ports(service: dict, pod: dict) -> tuple[Port, ...]:
    """The ports of the endpoint of a Pod. A port that the Pod does not name is left out."""
    found = []
    for it in items(service, "spec", "ports"):
        number = port_number(pod, it)
        if number is not None:
            found.append((it.get("name") or "", number, it.get("protocol") or "TCP"))
    return tuple(found)


def endpoints(objects: Objects, key: Key, service: dict, primary: int | None) -> dict[tuple[int, tuple[Port, ...]], list[dict]]:
    """The endpoints of a Service, by the family of their addresses and by their ports, each of which has slices of its own."""
    found: dict[tuple[int, tuple[Port, ...]], list[dict]] = {}
    for pod_key in objects.of(POD, key.namespace):
        pod = objects.by_key[pod_key]
        if not is_selected(service, pod) or members(pod, "status").get("phase") in ENDED:
            continue
        for number in sorted(families(service, primary)):
            own = [it for it in addresses(pod) if family(it) == number]
            target = {"kind": "Pod", "namespace": pod_key.namespace, "name": pod_key.name}
            one = {"addresses": own, "conditions": {"ready": is_ready(service, pod)}, "targetRef": target}
            if own:
                found.setdefault((number, ports(service, pod)), []).append(one)
    return found


def slices_of(objects: Objects, key: Key, service: dict, primary: int | None = None) -> list[dict]:
    """The slices of a Service."""
    name = objects.free_name(key.namespace)
    found: list[dict] = []
    marks = {SERVICE_LABEL: key.name, MANAGER_LABEL: MANAGER}
    for (number, port_list), rows in endpoints(objects, key, service, primary).items():
        values = [{"name": it[0], "port": it[1], "protocol": it[2]} for it in port_list]
        rest = {"addressType": ADDRESS_TYPES[number], "endpoints": rows, "ports": values}
        found.append(new_object(SLICE, key.namespace, f"{name}-{key.name}-{len(found)}", marks, **rest))
    return found


def held_slices(objects: Objects, key: Key) -> list[dict]:
    """The slices of a Service that are held and that the controller makes. One that names no manager is taken for one of these."""
    values = [objects.by_key[it] for it in objects.of(SLICE, key.namespace)]
    own = [it for it in values if labels(it).get(SERVICE_LABEL) == key.name]
    return [it for it in own if labels(it).get(MANAGER_LABEL, MANAGER) == MANAGER]


def ready_places(slices: list[dict]) -> set[Place]:
    """Each ready address of some slices with its Pod and each port there."""
    found: set[Place] = set()
    for value in slices:
        numbers: list[Port] = [(it.get("name") or "", it.get("port"), it.get("protocol") or "TCP") for it in items(value, "ports")]
        for row in items(value, "endpoints"):
            if members(row, "conditions").get("ready") is not False:
                pod = members(row, "targetRef").get("name") or ""
                found |= {(address, pod, port) for address in row.get("addresses") or [] for port in numbers}
    return found


def primary_family(objects: Objects) -> int:
    """The family of the addresses of new Services, which is that of the others."""
    spec_addresses = [objects.spec(key).get("clusterIP") for key in objects.of(SERVICE)]
    pod_addresses = [it for key in objects.of(POD) for it in addresses(objects.by_key[key])[:1]]
    for it in [*spec_addresses, *pod_addresses]:
        if isinstance(it, str) and it not in ("", "None"):
            return family(it)
    return 4


def service_parts(service: dict) -> tuple:
    """What of a Service its slices follow from, with the defaults of the API server."""
    spec = members(service, "spec")
    rows = [(it.get("name") or "", it.get("protocol") or "TCP", it.get("targetPort") or it.get("port")) for it in items(spec, "ports")]
    flags = spec.get("publishNotReadyAddresses") is True, spec.get("type") == "ExternalName"
    return members(spec, "selector"), rows, flags, [spec.get(name) for name in ("clusterIP", "ipFamilies", "ipFamilyPolicy")]


def pod_parts(pod: dict) -> tuple:
    """What of a Pod the slices follow from."""
    spec = members(pod, "spec")
    named_ports = [items(it, "ports") for it in items(spec, "containers") + items(spec, "initContainers")]
    return labels(pod), named_ports, members(pod, "status").get("phase") in ENDED, addresses(pod), is_ready({}, pod)


def is_concerned(before: Objects, after: Objects, key: Key, pods: list[Key]) -> bool:
    """Whether a change of a Service or of one of these Pods concerns its slices."""
    old, new = before.by_key.get(key), after.by_key[key]
    if members(new, "spec", "selector") and (old is None or service_parts(old) != service_parts(new)):
        return True
    return any(is_selected(it, state.by_key.get(pod)) for it, state in ((old, before), (new, after)) for pod in pods)


def why_not(before: Objects, after: Objects, key: Key) -> str | None:
    """Why the slices of a Service cannot be computed, None where they can."""
    for pod in after.of(POD, key.namespace):
        value = after.by_key[pod]
        if pod not in before.by_key and is_selected(after.by_key[key], value) and not addresses(value):
            return f"{pod} is new and has no address yet"
    old = before.by_key.get(key)
    if old is None or not members(old, "spec", "selector"):
        return None
    if ready_places(held_slices(before, key)) != ready_places(slices_of(before, key, old)):
        return "its EndpointSlices in the feed are not those that Kubernetes makes of its Pods there"
    return None


def has_other_parts(old: dict | None, new: dict | None) -> bool:
    """Whether a Pod that comes, goes or changes may change slices."""
    return old is None or new is None or pod_parts(old) != pod_parts(new)


def follow(before: Objects, after: Objects, changed: set[Key], missing: list[str]) -> Follow:
    """The changes of slices that follow from these changes. `missing` are the kinds of which the feed says nothing."""
    result = Follow()
    pods = [key for key in changed if key.kind == POD and has_other_parts(before.by_key.get(key), after.by_key.get(key))]
    changed_slices = [(key, state.by_key.get(key, {})) for key in changed if key.kind == SLICE for state in (before, after)]
    given = {(key.namespace, labels(value).get(SERVICE_LABEL)) for key, value in changed_slices}
    lacking = [kind.title for kind in (SERVICE, POD, SLICE) if kind.title in missing]
    for key in after.of(SERVICE):
        near_pods = [it for it in pods if it.namespace == key.namespace]
        if (key.namespace, key.name) in given or not is_concerned(before, after, key, near_pods):
            continue
        why = f"the feed has neither a list nor an event of {', '.join(lacking)}" if lacking else failure(before, after, key, result)
        if why:
            result.failed.append(f"the endpoints of {key}: {why}")
        else:
            result.services.append(str(key))
    return result


def failure(before: Objects, after: Objects, key: Key, result: Follow) -> str | None:
    """Adds the changes of the slices of a Service; why that cannot be done, where it cannot."""
    try:
        why = why_not(before, after, key)
        if why is None and is_managed(after.by_key[key]):
            primary = None if key in before.by_key else primary_family(before)
            result.removed += held_slices(before, key) if key in before.by_key else []
            result.added += slices_of(after, key, after.by_key[key], primary)
        return why
    except ValueError as error:
        return str(error)


def is_managed(service: dict) -> bool:
    """Whether the controller makes slices of a Service. If not, those that are there stay."""
    spec = members(service, "spec")
    return bool(members(spec, "selector")) and spec.get("type") != "ExternalName"
