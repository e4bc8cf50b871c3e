"""Objects that are made up to ask the program a question that no subscription asks directly."""

from typing import Any

from mesh_front import views
from mesh_front.feed import Key, Objects, items, members
from mesh_front.kinds import AUTHORIZATION_POLICY, MESH_AUTHENTICATION, NETWORK_AUTHENTICATION, POD, SERVER, SERVICE, SLICE, Kind, kind_of
from mesh_front.names import PodName
from mesh_front.program import Answers, Query, Script

AUTHENTICATIONS = (MESH_AUTHENTICATION, NETWORK_AUTHENTICATION)
PORT = 1
ADDRESS = "192.0.2.1"


def new_object(kind: Kind, namespace: str, name: str, labels: dict | None = None, **rest: Any) -> dict:
    """An object of a kind."""
    metadata = {"name": name, "namespace": namespace, "labels": labels or {}}
    return {"apiVersion": kind.api_version, "kind": kind.name, "metadata": metadata, **rest}


def ask_row(objects: Objects, script: Script, pod: PodName, port: int = PORT) -> int:
    """Asks for the row of a Pod at a port, whatever its address is: by a Service with one endpoint that targets it."""
    name = objects.free_name(pod.namespace)
    service = new_object(SERVICE, pod.namespace, name, spec={"ports": [{"port": PORT}]})
    target = {"kind": "Pod", "namespace": pod.namespace, "name": pod.name}
    endpoints = [{"addresses": [ADDRESS], "targetRef": target}]
    labels = {"kubernetes.io/service-name": name}
    endpoint_slice = new_object(SLICE, pod.namespace, name, labels, addressType="IPv4", endpoints=endpoints, ports=[{"port": port}])
    script.hold(service, endpoint_slice)
    number = script.view(Query("Get", f"{name}.{pod.namespace}", PORT))
    script.remove(service, endpoint_slice)
    return number


def identity(answers: Answers, number: int) -> str | None:
    """The identity of the Pod that `ask_row` asked for, None where it is not meshed."""
    rows = views.endpoints(answers.view(number)).endpoints
    return rows[0].identity if rows else None


def ask_server(objects: Objects, script: Script, server: Key) -> int:
    """Asks for what applies to a Server, whichever Pods it selects: by a Pod that it selects here, and a port of its own."""
    name = objects.free_name(server.namespace)
    numbers = {objects.spec(it).get("port") for it in objects.of(SERVER, server.namespace)}
    port = next(number for number in range(1, 65536) if number not in numbers)
    pod = new_object(POD, server.namespace, name, {name: name})
    value = objects.by_key[server]
    spec = {**objects.spec(server), "podSelector": {"matchLabels": {name: name}}, "port": port}
    script.hold(pod, {**value, "spec": spec})
    number = script.view(Query("WatchPort", f"{server.namespace}:{name}", port))
    script.remove(pod)
    script.hold(value)
    return number


def referred_kind(reference: dict) -> Kind | None:
    """The kind of the objects of a feed that a reference names, or None."""
    group = reference.get("group") or ""
    return kind_of(reference.get("kind"), "v1" if group == "core" else f"{group}/")


def missing_references(objects: Objects, policy: Key) -> list[Key]:
    """The authentications that an AuthorizationPolicy refers to and that are not held."""
    keys = []
    for reference in items(objects.spec(policy), "requiredAuthenticationRefs"):
        kind = referred_kind(reference)
        if kind is None or kind not in AUTHENTICATIONS:
            continue
        key = Key(kind, reference.get("namespace") or policy.namespace, str(reference.get("name")))
        if key not in objects.by_key:
            keys.append(key)
    return keys


def other_references(objects: Objects, policy: Key) -> list[str]:
    """What an AuthorizationPolicy refers to that is neither an authentication nor a ServiceAccount."""
    references = items(objects.spec(policy), "requiredAuthenticationRefs")
    others = [it for it in references if referred_kind(it) not in AUTHENTICATIONS and it.get("kind") != "ServiceAccount"]
    return [f"{it.get('kind')} {it.get('name')} of the group {it.get('group') or 'core'}" for it in others]


def named_policies(objects: Objects, namespace: str, kind: str, name: str, group: str | None = None) -> list[Key]:
    """The AuthorizationPolicies of a namespace whose target has this kind, this name and, if one is given, this group."""
    keys = []
    for key in objects.of(AUTHORIZATION_POLICY, namespace):
        target = members(objects.spec(key), "targetRef")
        if (target.get("kind"), target.get("name")) == (kind, name) and group in (None, target.get("group")):
            keys.append(key)
    return keys


def stand_ins(keys: list[Key]) -> list[dict]:
    """Empty objects at these keys."""
    return [new_object(key.kind, key.namespace, key.name, spec={}) for key in keys]
