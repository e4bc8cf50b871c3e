"""Changes of objects: manifests in YAML or JSON, and watch events."""

import json
import pathlib
import re
from collections import Counter
from dataclasses import dataclass, field
from typing import Any

from mesh_front.faults import Fault, Status
from mesh_front.feed import Key, Objects, is_control, key_of, members, read_bytes
from mesh_front.kinds import GATEWAY, KINDS, POLICY, PROFILE, SERVICE, SLICE, Kind, kind_of
from mesh_front.manifest_yaml import Unreadable, require_clear, values_of
from mesh_front.names import nearest_names

POD_MAKERS = ("Deployment", "ReplicaSet", "StatefulSet", "DaemonSet", "Job", "CronJob", "ReplicationController")
RECORDINGS = "two recordings are compared by `mesh diff OLD NEW`"
SERVER_SET = ("clusterIP", "clusterIPs", "ipFamilies", "ipFamilyPolicy")


@dataclass
class Change:
    """A change of one object. That of a manifest lacks what the API server and controllers set."""

    type: str
    object: dict
    key: Key
    is_manifest: bool = False


@dataclass(frozen=True)
class Deletion:
    """A word `KIND/NS/NAME`, or `KIND/NAME` in the namespace of what names none."""

    kinds: tuple[Kind, ...]
    namespace: str | None
    name: str


@dataclass
class Changes:
    """What files and words change, what of it names no namespace, and what is left out and which of it may change views all the same."""

    changes: list[Change] = field(default_factory=list)
    deletions: list[Deletion] = field(default_factory=list)
    namespace: str = "default"
    without_namespace: list[str] = field(default_factory=list)
    left_out: list[str] = field(default_factory=list)
    not_computed: list[str] = field(default_factory=list)


def json_values(text: str) -> list | None:
    """The values of a file that has JSON alone: one value, or one on each line."""
    for parts in ([text], text.splitlines()):
        try:
            return [json.loads(part) for part in parts if part.strip()]
        except ValueError:
            continue
    return None


def value_words(value: dict) -> tuple[str, str]:
    """The kind and the `apiVersion` of an object, empty where they are no strings."""
    kind, api_version = value.get("kind"), value.get("apiVersion")
    return kind if isinstance(kind, str) else "", api_version if isinstance(api_version, str) else ""


def add_value(result: Changes, value: Any, path: pathlib.Path) -> None:
    """Adds what a value of a file changes: an event, an object, or the items of a `List`."""
    if not isinstance(value, dict):
        raise Fault(Status.USAGE, f"{path} has a value that is no object")
    if is_control(value):
        raise Fault(Status.USAGE, f"{path} has a line of control, as a feed has, and a change has single objects: {RECORDINGS}")
    kind, _ = value_words(value)
    if isinstance(value.get("type"), str) and isinstance(value.get("object"), dict):
        add_event(result, value["type"], value["object"], path)
    elif kind == "List":
        for it in value.get("items") or []:
            add_value(result, it, path)
    elif kind.endswith("List") and ("items" in value or kind_of(kind.removesuffix("List"), value.get("apiVersion"))):
        what = f"{path} has a whole {kind}, as a recording has, and a change has single objects"
        raise Fault(Status.USAGE, f"{what}: {RECORDINGS}, and objects of a list are given as manifests")
    else:
        add_manifest(result, value, path)


def add_event(result: Changes, word: str, value: dict, path: pathlib.Path) -> None:
    """Adds a watch event."""
    require_readable(value, path)
    key = key_of(value)
    if key is None or word not in ("ADDED", "MODIFIED", "DELETED"):
        name = f"{value.get('kind')} {members(value, 'metadata').get('name')}"
        raise Fault(Status.USAGE, f"{path} has an event {word} of {name}, which is none of the kinds that are read, or no change of an object")
    result.changes.append(Change(word, value, key))


def require_readable(value: Any, path: pathlib.Path) -> None:
    """Refuses an object of which a part is unclear."""
    try:
        require_clear(value)
    except Unreadable as error:
        raise Fault(Status.USAGE, f"cannot read {path}: {error}") from error


def add_manifest(result: Changes, value: dict, path: pathlib.Path) -> None:
    """Adds an object, in the namespace that is given where it names none; one of another kind is left out."""
    kind, api_version = value_words(value)
    if not kind:
        raise Fault(Status.USAGE, f"{path} has an object without a kind")
    if kind_of(kind, api_version) is None:
        leave_out(result, kind, api_version, value)
        return
    require_readable(value, path)
    metadata = members(value, "metadata")
    if not metadata.get("namespace"):
        value = {**value, "metadata": {**metadata, "namespace": result.namespace}}
    key = key_of(value)
    if key is None:
        raise Fault(Status.USAGE, f"{path} has a {kind} without a name")
    if not metadata.get("namespace"):
        result.without_namespace.append(f"{key.kind.title} {key.name}")
    result.changes.append(Change("MODIFIED", value, key, True))


def leave_out(result: Changes, kind: str, api_version: str, value: dict) -> None:
    """Leaves out an object of another kind, and says what of it is not computed."""
    metadata = members(value, "metadata")
    place = f"{metadata['namespace']}/" if isinstance(metadata.get("namespace"), str) else ""
    title, why = f"{kind} {place}{metadata.get('name')}", why_it_matters(kind, api_version, metadata)
    if why:
        result.not_computed.append(f"{why} {title}")
    else:
        result.left_out.append(kind)


def why_it_matters(kind: str, api_version: str, metadata: dict) -> str | None:
    """What an object of a kind that is not read may change all the same, None where no view depends on it."""
    group = api_version.split("/")[0] if "/" in api_version else ""
    if kind in POD_MAKERS:
        return "the Pods of"
    if kind == "Endpoints" and not group:
        return "the EndpointSlices of"
    if kind == "Namespace" and any("linkerd.io/" in str(it) for it in members(metadata, "annotations")):
        return "what follows from the annotations of"
    if group in (POLICY, PROFILE.group, SLICE.group) or (group == GATEWAY and kind.endswith("Route")):
        return f"what follows from a kind of {group} that is not read:"
    names = {it.name.lower(): it for it in KINDS}
    near = names.get(kind.lower())
    return f"what is no {near.name} of {near.api_version} but of {api_version or 'no apiVersion'}:" if near else None


def read_changes(result: Changes, path: pathlib.Path) -> None:
    """Adds the changes of a file."""
    try:
        text = read_bytes(path).decode()
        values = json_values(text) if text.lstrip()[:1] in ("{", "[") else None
        values = values_of(text) if values is None else values
    except (Unreadable, UnicodeDecodeError) as error:
        raise Fault(Status.USAGE, f"cannot read {path}: {error}") from error
    if not values:
        raise Fault(Status.USAGE, f"{path} has no object")
    for value in values:
        add_value(result, value, path)


def counts(kinds: list[str]) -> str:
    """Kinds with their numbers."""
    return ", ".join(f"{number} {kind}" for kind, number in Counter(kinds).items())


def deletion(word: str) -> Deletion:
    """The object of a word `KIND/NS/NAME` or `KIND/NAME`; a ValueError where it is none."""
    match = re.fullmatch(r"([^/]+)/(?:([^/]+)/)?([^/]+)", word)
    kinds = tuple(kind for kind in KINDS if match and match[1] in (kind.title, kind.name))
    if not match or not kinds:
        raise ValueError
    return Deletion(kinds, match[2], match[3])


def deleted(one: Deletion, objects: Objects, namespace: str) -> Change:
    """The change that removes an object; a Fault where it is not held, with the nearest names."""
    place = one.namespace or namespace
    keys = [key for kind in one.kinds if (key := Key(kind, place, one.name)) in objects.by_key]
    if len(keys) > 1:
        raise Fault(Status.USAGE, f"there are {' and '.join(map(str, keys))}: say which by {' or '.join(key.kind.title for key in keys)}")
    if not keys:
        raise not_held(Key(one.kinds[0], place, one.name), one.kinds, objects)
    return Change("DELETED", objects.by_key[keys[0]], keys[0])


def not_held(key: Key, kinds: tuple[Kind, ...], objects: Objects) -> Fault:
    """What is said of an object to remove that is not held."""
    names = [f"{it.namespace}/{it.name}" for kind in kinds for it in objects.of(kind)]
    nearest = nearest_names(f"{key.namespace}/{key.name}", names)
    return Fault(Status.UNKNOWN, f"there is no {key.kind.name} {key.namespace}/{key.name} to remove in the feed{nearest}")


def with_server_set(change: Change, held: dict | None) -> dict:
    """The object of a change. A manifest keeps of the held object what the API server and controllers set, where it says nothing of it."""
    if not change.is_manifest or held is None:
        return change.object
    old, new = members(held, "metadata"), members(change.object, "metadata")
    kept = {name: old[name] for name in ("creationTimestamp", "uid") if name in old}
    value = {**{name: held[name] for name in ("status",) if name in held}, **change.object, "metadata": {**kept, **new}}
    if change.key.kind == SERVICE and members(change.object, "spec").get("type") != "ExternalName":
        own = {name: members(held, "spec")[name] for name in SERVER_SET if name in members(held, "spec")}
        value["spec"] = {**own, **members(change.object, "spec")}
    return value


def resolve(all_changes: Changes, objects: Objects) -> list[Change]:
    """The changes over what is held, one after another; a Fault where one removes what is not held."""
    by_key, result = dict(objects.by_key), []
    for it in all_changes.changes:
        if it.type == "DELETED":
            if it.key not in by_key:
                raise not_held(it.key, (it.key.kind,), Objects(by_key))
            del by_key[it.key]
            result.append(it)
        else:
            if it.type == "ADDED" and it.object == by_key.get(it.key):
                raise Fault(Status.USAGE, f"{it.key} is added and is in the feed already, as where a recording is applied: {RECORDINGS}")
            value = with_server_set(it, by_key.get(it.key))
            by_key[it.key] = value
            result.append(Change(it.type, value, it.key))
    for one in all_changes.deletions:
        change = deleted(one, Objects(by_key), all_changes.namespace)
        del by_key[change.key]
        result.append(change)
    return result
