"""Words for Services, Pods and ports as people write them, and the objects that they name.

A Service is `web.shop`, `svc/web`, or its full name in the cluster; a Pod is `shop/web-1`, or the workload that owns it, as `deploy/web`. A
port may be a number or its name.
"""

import re
from dataclasses import dataclass
from typing import Union

from mesh_front import workloads
from mesh_front.faults import Fault, Status
from mesh_front.feed import Key, Objects, items
from mesh_front.kinds import POD, SERVICE
from mesh_front.names import LABEL, NAME, AddressPort, PodName, PodPort, ServiceName, Target, nearest_names, port_number, target

NAMESPACE = "default"
SERVICES = ("svc", "service", "services")
WORKLOADS = {
    "Deployment": ("deploy", "deployment", "deployments"),
    "StatefulSet": ("sts", "statefulset", "statefulsets"),
    "DaemonSet": ("ds", "daemonset", "daemonsets"),
    "ReplicaSet": ("rs", "replicaset", "replicasets"),
    "Job": ("job", "jobs"),
    "Pod": ("po", "pod", "pods"),
}
KINDS = {word: kind for kind, words in WORKLOADS.items() for word in words}
PORT = r"(?::([a-z0-9-]+))?"
Port = Union[int, str, None]


@dataclass(frozen=True)
class ServiceWord:
    """A Service, its namespace where the word gives one, and a port or the name of one."""

    name: str
    namespace: str | None
    port: Port


@dataclass(frozen=True)
class PodWord:
    """A Pod, or the workload of a kind that owns it. What is before the first slash may be a namespace, too."""

    prefix: str | None
    kind: str
    namespace: str | None
    name: str
    port: Port

    def __str__(self) -> str:
        return f"{self.namespace}/{self.name}" if self.namespace else self.name


def port_of(word: str | None) -> Port:
    """A port or the name of one; a ValueError where it is a number that is no port."""
    return port_number(word) if word and word.isdecimal() else word


def service_word(word: str) -> ServiceWord:
    """The Service of a word; a ValueError where it is none."""
    kinds = "|".join(SERVICES)
    match = re.fullmatch(rf"(?:(?:{kinds})/)?({LABEL})(?:\.({LABEL})(?:\.svc(?:\.[a-z0-9.-]+)?)?)?{PORT}", word)
    if not match:
        raise ValueError
    return ServiceWord(match[1], match[2], port_of(match[3]))


def target_word(word: str) -> ServiceWord | AddressPort:
    """The Service or the address of a word; a ValueError where it is neither."""
    if re.match(r"\[|\d+\.\d+\.\d+\.", word):
        address = target(word)
        if not isinstance(address, AddressPort):
            raise ValueError
        return address
    return service_word(word)


def pod_word(word: str) -> PodWord:
    """The Pod of a word, or the workload that owns it; a ValueError where it is neither."""
    match = re.fullmatch(rf"(?:({LABEL})/)?(?:({LABEL})/)?({NAME}){PORT}", word)
    if not match or match[2] and match[1] not in KINDS:
        raise ValueError
    prefix, namespace, name, port = match.groups()
    if prefix in KINDS:
        return PodWord(prefix, KINDS[prefix], namespace, name, port_of(port))
    return PodWord(None, "Pod", prefix, name, port_of(port))


def pod_port_word(word: str) -> PodWord:
    """The port of a Pod of a word; a ValueError where it has no port."""
    found = pod_word(word)
    if found.port is None:
        raise ValueError
    return found


def find_service(objects: Objects, word: ServiceWord, namespace: str | None) -> ServiceName:
    """The Service that a word names. Its port is looked up where it is a name."""
    place = word.namespace or namespace or NAMESPACE
    if not isinstance(word.port, str):
        return ServiceName(word.name, place, word.port)
    key = Key(SERVICE, place, word.name)
    ports = items(objects.by_key.get(key, {}), "spec", "ports")
    found = [it["port"] for it in ports if it.get("name") == word.port and isinstance(it.get("port"), int)]
    if key in objects.by_key and not found:
        names = [str(it["name"]) for it in ports if it.get("name")]
        text = ", ".join(names) or "none with a name"
        raise Fault(Status.UNKNOWN, f"the Service {word.name}.{place} has no port {word.port}; it has {text}")
    return ServiceName(word.name, place, found[0] if found else None)


def find_target(objects: Objects, word: ServiceWord | AddressPort, namespace: str | None) -> Target:
    """The Service or the address that a word names."""
    return word if isinstance(word, AddressPort) else find_service(objects, word, namespace)


def find_pod(objects: Objects, word: PodWord, namespace: str | None) -> PodName:
    """The Pod that a word names: the first one with an address of a workload."""
    place = word.namespace or namespace or NAMESPACE
    if word.prefix and word.namespace is None and Key(POD, word.prefix, word.name) in objects.by_key:
        return PodName(word.prefix, word.name)
    if word.kind == "Pod":
        return PodName(place, word.name)
    owners = {key: workloads.owner(objects, key) for key in workloads.live_pods(objects)}
    wanted = workloads.Workload(place, word.kind, word.name)
    found = next((key for key, owner in owners.items() if owner == wanted), None)
    if found is None and objects.by_key:
        names = list(dict.fromkeys(str(it) for it in owners.values() if it.kind == word.kind))
        raise Fault(Status.UNKNOWN, f"there is no {word.kind} {wanted} with a Pod in the feed{nearest_names(str(wanted), names)}")
    return PodName(place, found.name if found else word.name)


def find_pod_port(objects: Objects, word: PodWord, namespace: str | None) -> PodPort:
    """The port of a Pod that a word names."""
    pod = find_pod(objects, word, namespace)
    key = Key(POD, pod.namespace, pod.name)
    if not isinstance(word.port, str):
        return PodPort(pod, word.port or 0)
    ports = [it for one in items(objects.by_key.get(key, {}), "spec", "containers") for it in items(one, "ports")]
    found = [it["containerPort"] for it in ports if it.get("name") == word.port and isinstance(it.get("containerPort"), int)]
    if key in objects.by_key and not found:
        names = ", ".join(str(it["name"]) for it in ports if it.get("name")) or "none with a name"
        raise Fault(Status.UNKNOWN, f"the Pod {pod} has no port {word.port}; it has {names}")
    return PodPort(pod, found[0] if found else 1)


def workload_word(word: str | None, namespace: str | None) -> str | None:
    """A workload, an account or a port of a workload, as `mesh map` names it: with its namespace and without its kind."""
    if word is None:
        return None
    parts = word.split("/")
    if parts[0] in KINDS and len(parts) in (2, 3):
        parts = parts[1:]
    return "/".join(parts) if len(parts) > 1 else f"{namespace or NAMESPACE}/{parts[0]}"
