"""What is said of a line that a server refuses: the object, the member that cannot be read, its value, and what is allowed there."""

import json
import re
from typing import Any

from mesh_front.feed import items, json_of, key_of, members
from mesh_front.kinds import kind_of

MOST_BYTES = 80
PORTS = "a whole number from 1 to 65535"
POLICIES = "all-unauthenticated, all-authenticated, cluster-unauthenticated, cluster-authenticated, deny, audit"
CHOICES = {
    "accessPolicy": POLICIES,
    "addressType": "IPv4, IPv6, FQDN",
    "operator": "In, NotIn, Exists, DoesNotExist",
    "proxyProtocol": "unknown, HTTP/1, HTTP/2, gRPC, opaque, TLS",
    "type": "Exact, RegularExpression; PathPrefix for a path",
}
RANGES = {
    "max": "a whole number from 100 to 599, and not below min",
    "min": "a whole number from 100 to 599",
    "statusCode": "a whole number from 100 to 999",
    "weight": "a whole number from 0 to 1000000",
}
FORMS = {
    "Address": "an IP address",
    "Duration": "a duration, for example 1m30s",
    "Method": "the name of a method",
    "Network": "a network, for example 10.0.0.0/8",
    "Quantity": 'a whole number, or a string such as "0.25" or "500m"',
    "TwoReferences": "at most one NetworkAuthentication, and one MeshTLSAuthentication or ServiceAccount",
}
TABLES = "what docs/FEED.md has for the kind"
PLACE = re.compile(r"(?:object|items\[(\d+)\])(?:\.(.*))?")


def refused_object(fault: str, value: Any) -> dict | None:
    """The object in the value of a line that a fault is about, with its kind; None where it names none."""
    word, place = (*fault.split(" "), "")[:2]
    match = PLACE.fullmatch(f"items[{place}]" if word == "RepeatedItem" else place)
    if match is None or not isinstance(value, dict):
        return None
    if match[1] is None:
        return members(value, "object") or None
    rows = value.get("items")
    row = rows[int(match[1])] if isinstance(rows, list) and int(match[1]) < len(rows) else None
    return listed_object(value, row) if isinstance(row, dict) else None


def listed_object(value: dict, item: dict) -> dict:
    """An item of a list as an object of its own."""
    kind = kind_of(str(value.get("kind")).removesuffix("List"), value.get("apiVersion"))
    name = kind.name if kind else str(value.get("kind")).removesuffix("List")
    return {**item, "apiVersion": value.get("apiVersion") or (kind.api_version if kind else ""), "kind": name}


def listed_objects(value: dict) -> list[dict]:
    """The items of a list as objects of their own."""
    return [listed_object(value, item) for item in items(value, "items")]


def value_at(value: Any, path: str) -> Any:
    """The value at a path of members and places, as `spec.ports[0].port`; None where there is none."""
    for name, place in re.findall(r"([^.\[\]]+)|\[(\d+)\]", path):
        if place:
            value = value[int(place)] if isinstance(value, list) and int(place) < len(value) else None
        else:
            value = value.get(name) if isinstance(value, dict) else None
    return value


def allowed(word: str, what: str, path: str) -> str:
    """What is allowed at a path where a fault is found."""
    member = re.sub(r"\[\d+\]", "", path).rpartition(".")[2]
    if word == "BadName":
        return "1 to 63 of a-z, 0-9 and -" if member == "namespace" else "1 to 253 of a-z, 0-9, - and ."
    if what == "Range":
        return RANGES.get(member, PORTS)
    if what == "Choice":
        return CHOICES.get(member, TABLES)
    if what == "Shape" and member == "port":
        return f"{PORTS}, or the name of a port"
    return FORMS.get(what, TABLES)


def told(fault: str, data: bytes) -> str:
    """A fault of a line, and what it is about where it names an object."""
    found = refused_object(fault, json_of(data))
    if found is None:
        return fault
    word, place, what = (*fault.split(" "), "", "")[:3]
    title = str(key_of(found) or f"{found.get('kind') or 'an object'} without a name")
    if word == "RepeatedItem":
        return f"{fault}; {title} is in the list twice"
    match = PLACE.fullmatch(place)
    path = match[2] if match else None
    if not path:
        return f"{fault}; {title}"
    if word == "Missing":
        return f"{fault}; {title} has no {path}"
    shown = json.dumps(value_at(found, path))
    shown = shown if len(shown) <= MOST_BYTES else f"{shown[:MOST_BYTES]}.."
    return f"{fault}; {title} has {shown} at {path}, allowed: {allowed(word, what, path)}"
