#!/usr/bin/env python3
"""What the store costs, on EndpointSlices of about 1.2 KB as an API server writes them, beside Python's json.loads over
the same lines with a dict. Needs the proved program (tools/prove).

Objects set in random order of their keys (each new one moves those after it in the sorted list), twice as many of them, one
list line of all of them (sorted once), a list line of nearly the greatest length, events on objects that are held, and list
lines of one kind of HTTPRoute beside as many of the other kind of the same Service. The peak memory of a list line is about 14
times its length, because its JSON tree is."""
import json
import os
import random
import tempfile

from feed import joined, service_line, slice_line, subscribe_line, text_of
from measure import table, write

HELD = 20_000
LONGEST = 55_000  # in one list line of at most 64 MiB
EVENTS = 100_000
ROUTES = 10_000
RELISTS = 10


def added(numbers):
    return (slice_line(number, number % 100) for number in numbers)


def modified(numbers):
    return (line.replace('"ADDED"', '"MODIFIED"', 1) for line in added(numbers))


def listed(numbers):
    items = [json.loads(line)["object"] for line in added(numbers)]
    for item in items:
        del item["kind"], item["apiVersion"]
    kind = {"kind": "EndpointSliceList", "apiVersion": "discovery.k8s.io/v1", "metadata": {"resourceVersion": "1"}}
    yield text_of(dict(kind, items=items))


def routes(group, count):
    """One list line of HTTPRoutes of one Service."""
    version = {"policy.linkerd.io": "v1beta3", "gateway.networking.k8s.io": "v1"}[group]
    spec = {"parentRefs": [{"group": "core", "kind": "Service", "name": "web-0", "port": 80}],
            "rules": [{"matches": [{"path": {"type": "PathPrefix", "value": "/"}}]}]}
    items = [{"metadata": {"name": f"route-{number:05}", "namespace": "app"}, "spec": spec} for number in range(count)]
    kind = {"kind": "HTTPRouteList", "apiVersion": f"{group}/{version}", "metadata": {"resourceVersion": "1"}}
    yield text_of(dict(kind, items=items))


def relisted(others):
    """LinkerdRoutes listed again and again, beside so many GatewayRoutes, whose keys stand behind theirs."""
    yield from routes("gateway.networking.k8s.io", others)
    for _ in range(RELISTS):
        yield from routes("policy.linkerd.io", ROUTES)


def scattered(count):
    return random.sample(range(count), count)


def main():
    random.seed(1)
    events = [random.randrange(HELD) for _ in range(EVENTS)]
    runs = (
        ("20,000 objects set in random order", added(scattered(HELD))),
        ("40,000 objects set in random order", added(scattered(2 * HELD))),
        ("one list line of 20,000 objects", listed(scattered(HELD))),
        ("one list line of 55,000 objects", listed(scattered(LONGEST))),
        ("20,000 objects, then 100,000 events on them", (line for part in (listed(range(HELD)), modified(events)) for line in part)),
        ("10,000 LinkerdRoutes relisted ten times", relisted(0)),
        ("10,000 LinkerdRoutes relisted ten times beside 10,000 GatewayRoutes of one Service", relisted(ROUTES)),
    )
    with tempfile.TemporaryDirectory() as folder:
        path = os.path.join(folder, "feed.jsonl")
        for title, lines in runs:
            write(path, joined([service_line(0)], lines, [subscribe_line(1, 0)]))
            table(title, path, keeps=True)


if __name__ == "__main__":
    main()
