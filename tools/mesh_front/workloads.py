"""The workloads of a feed: who calls, by the accounts of Pods, and what is called, by their owners and ports.

Pods of one owner are alike, and so the first one that has an address stands for them. So it is for the Pods of one account.
"""

from dataclasses import dataclass

from mesh_front import slices
from mesh_front.feed import Key, Objects, items, members
from mesh_front.kinds import POD, SERVER
from mesh_front.names import PodName, PodPort

PROXY = "linkerd-proxy"
HASH_LABEL = "pod-template-hash"


@dataclass(frozen=True)
class Workload:
    """The owner of some Pods, or a Pod that has none."""

    namespace: str
    kind: str
    name: str

    def __str__(self) -> str:
        return f"{self.namespace}/{self.name}"


@dataclass(frozen=True)
class Account:
    """A ServiceAccount whose Pods have a proxy, or have none."""

    namespace: str
    name: str
    is_meshed: bool

    def __str__(self) -> str:
        return f"{self.namespace}/{self.name}{'' if self.is_meshed else ' (no proxy)'}"


@dataclass(frozen=True)
class WorkloadPort:
    """A port of a workload."""

    workload: Workload
    port: int

    def __str__(self) -> str:
        return f"{self.workload}:{self.port}"


def owner(objects: Objects, pod: Key) -> Workload:
    """The workload of a Pod: what controls it, and of a ReplicaSet of a Deployment the Deployment."""
    value = objects.by_key[pod]
    owners = [it for it in items(value, "metadata", "ownerReferences") if it.get("controller") is True and isinstance(it.get("name"), str)]
    if not owners:
        return Workload(pod.namespace, "Pod", pod.name)
    kind, name = str(owners[0].get("kind")), owners[0]["name"]
    suffix = f"-{slices.labels(value).get(HASH_LABEL)}"
    if kind == "ReplicaSet" and name.endswith(suffix):
        return Workload(pod.namespace, "Deployment", name.removesuffix(suffix))
    return Workload(pod.namespace, kind, name)


def account(objects: Objects, pod: Key) -> str:
    """The name of the account of a Pod."""
    name = objects.spec(pod).get("serviceAccountName")
    return name if isinstance(name, str) and name else "default"


def live_pods(objects: Objects) -> list[Key]:
    """The Pods that have an address and have not ended."""
    states = {key: members(objects.by_key[key], "status") for key in objects.of(POD)}
    return [key for key, state in states.items() if state.get("podIP") and state.get("phase") not in slices.ENDED]


def container_ports(objects: Objects, pod: Key) -> set[int]:
    """The TCP ports that the containers of a Pod name, without those of its proxy."""
    containers = [it for it in items(objects.spec(pod), "containers") if it.get("name") != PROXY]
    ports = [it for one in containers for it in items(one, "ports") if (it.get("protocol") or "TCP") == "TCP"]
    return {it["containerPort"] for it in ports if isinstance(it.get("containerPort"), int) and 0 < it["containerPort"] < 65536}


def server_ports(objects: Objects, namespace: str) -> set[int]:
    """The ports that the Servers of a namespace have as numbers."""
    ports = {objects.spec(it).get("port") for it in objects.of(SERVER, namespace)}
    return {it for it in ports if isinstance(it, int) and 0 < it < 65536}


def pod_name(key: Key) -> PodName:
    """The name of a Pod."""
    return PodName(key.namespace, key.name)


def pod_ports(objects: Objects) -> dict[WorkloadPort, PodPort]:
    """The ports that workloads may have, each at a Pod of the workload: those of containers, and those that a Server has as a number."""
    found: dict[WorkloadPort, PodPort] = {}
    for key in live_pods(objects):
        for port in sorted(container_ports(objects, key) | server_ports(objects, key.namespace)):
            found.setdefault(WorkloadPort(owner(objects, key), port), PodPort(pod_name(key), port))
    return found
