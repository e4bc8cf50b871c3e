#!/usr/bin/env python3
"""What kept rows of Servers, routes, authorizations and outbound views save: a program beside an older one, row by row.

    bench/policy.py --program FILE --old FILE   both, in turn, with the ratios of the older to the newer
    bench/policy.py                             the proved program (tools/prove) alone
    bench/policy.py --rows servers              these rows alone: clusters, servers, simulations, routes, authorizations, memory
    bench/policy.py --instructions              instructions as valgrind counts them, which don't depend on what else runs

Each row is one measurement of `replay`, as compare.py says. The time of a change is that of a run less that of a run over the same feed
without the changes. Both have one change before, which pays for what is done once at the first."""
import random
import subprocess

from compare import Bench, main
from feed import drain_line, endpoint, slice_line, text_of
from simulations import added, authorizations, pod, route, server, simulation

SERVERS = 5_000       # of one namespace, with a Pod and a WatchPort each
# what is done so often: by the program, and by the older one, which takes long
CHANGES = 100, 4      # changes of one of these Servers, which all WatchPorts are drained of
DRAINED = 1_000, 10   # changes of one of these Servers, which one WatchPort is drained of
LINE = 200            # bytes of a line that does nothing
LINES = 100_000       # of these
SIMULATED = 10_000, 1_000
MANY = 2_000          # routes of one Server, and authorizations
MADE = 100, 5         # simulations over these, and views made anew
ALLOWED = 1_000       # authorizations of one Server
OBJECTS, ASKED = 100_000, 10_000


def pod_named(name, label, address=None):
    """A Pod with one port; half of the generated ones are in the mesh."""
    labels = {"app": label}
    spec = {"containers": [{"ports": [{"name": "http", "containerPort": 8080}]}]}
    line = added("v1", "Pod", name, spec, labels=labels)
    if address is not None:
        line["object"]["status"] = {"podIP": address}
    return line


def server_of(name, label, **spec):
    return added("policy.linkerd.io/v1beta3", "Server", name, {"podSelector": {"matchLabels": {"app": label}}, "port": 8080, **spec})


def watch_line(number, workload, method="WatchPort"):
    return text_of({"control": "subscribe", "id": number, "query": {"method": method, "workload": f"app:{workload}", "port": 8080}})


def idle_line():
    """A line of LINE bytes that does nothing."""
    front = text_of({"type": "BOOKMARK", "object": {"kind": "Pod", "apiVersion": "v1", "metadata": {"uid": ""}}})
    return front.replace('""', '"%s"' % ("0" * (LINE - 1 - len(front))))


def given(objects):
    return (text_of(it) for it in objects)


# ------------------------------------------------------------------------------------------------ the generated cluster

def cluster_objects(count):
    """What each Service of the cluster has: itself, a Pod, a slice and a Server."""
    for number in range(count):
        name, address = f"s{number}", f"10.0.{number // 250}.{number % 250 + 1}"
        yield text_of(added("v1", "Service", name, {"ports": [{"name": "http", "port": 80}]}))
        line = pod_named(f"p{number}", name, address)
        if number % 2 == 0:
            line["object"]["metadata"]["labels"]["linkerd.io/control-plane-ns"] = "linkerd"
        yield text_of(line)
        yield text_of(cluster_slice(number, "ADDED"))
        yield text_of(server_of(f"v{number}", name))


def cluster_slice(number, kind):
    name, address = f"s{number}", f"10.0.{number // 250}.{number % 250 + 1}"
    return {"type": kind, "object": {
        "apiVersion": "discovery.k8s.io/v1", "kind": "EndpointSlice",
        "metadata": {"name": f"{name}-a", "namespace": "app", "labels": {"kubernetes.io/service-name": name}},
        "addressType": "IPv4", "ports": [{"name": "http", "port": 8080}],
        "endpoints": [{"addresses": [address], "targetRef": {"kind": "Pod", "namespace": "app", "name": f"p{number}"}}]}}


def cluster(count):
    """The cluster that `sample` generates, for any count: two subscriptions of each Service, of which one is drained, simulations of each
    fourth Pod, and each fifth slice deleted."""
    yield from cluster_objects(count)
    for number in range(count):
        query = {"method": "Get", "path": f"s{number}.app.svc.cluster.local:80"}
        yield text_of({"control": "subscribe", "id": 2 * number + 1, "query": query})
        yield watch_line(2 * number + 2, f"p{number}")
    for number in range(0, count, 4):
        yield text_of({"control": "simulate", "workload": f"app:p{number}", "port": 8080, "client": "10.0.0.9", "http": {"path": "/"}})
    for number in range(count):
        yield drain_line(2 * number + 1)
    for number in range(0, count, 5):
        yield text_of(cluster_slice(number, "DELETED"))


def clusters(bench):
    rows = []
    for count in (1_000, 5_000):
        # the verdicts, each Get and WatchPort once, and each Get again whose slice was deleted
        wanted = -(-count // 4) + 2 * count + -(-count // 5)
        rows.append(bench.tell(f"the generated cluster of {count:,} Services", bench.replays(cluster(count), wanted)))
    bench.ratio("5,000 to 1,000 (to reach: 5.3)", rows[1], rows[0])


# ------------------------------------------------------------------------------------------------ a Server among many

def watched(count):
    """So many Servers of one namespace, each with a Pod and a drained WatchPort."""
    for number in range(count):
        yield text_of(pod_named(f"web-{number}", f"web-{number}"))
        yield text_of(server_of(f"web-{number}", f"web-{number}"))
    for number in range(count):
        yield watch_line(number + 1, f"web-{number}")
        yield drain_line(number + 1)


def changed(count, times, drained):
    """One Server takes another policy once and then so often, and the WatchPorts of the first `drained` Pods are drained each time. In the
    end all subscriptions are cancelled, so that nothing is drained there."""
    yield from watched(count)
    for time in range(1 + times):
        yield text_of(server_of("web-0", "web-0", accessPolicy=("audit", "deny")[time % 2]))
        for number in range(drained):
            yield drain_line(number + 1)
    for number in range(count):
        yield text_of({"control": "cancel", "id": number + 1})


def servers(bench):
    for drained, title, counts in ((SERVERS, "all", CHANGES), (1, "one", DRAINED)):
        found = bench.changes(counts, lambda count: changed(SERVERS, count, drained), lambda count: SERVERS + 1 + count)
        bench.tell(f"one of {SERVERS:,} Servers changes, {title} drained", found, bench.some(counts[0]))
    times, lines = bench.some(DRAINED[0]), bench.some(LINES)
    reads = bench.tell(f"a line of {LINE} bytes that does nothing", bench.replays((idle_line() for _ in range(lines)), 0), lines)
    scaled = [run.scaled(SERVERS * times / lines) for run in reads]
    bench.ratio(f"one drained to {SERVERS:,} such lines (to reach: 0.05)", found, scaled)


# ------------------------------------------------------------------------------------------------ simulations

def simulated(others, times):
    """Simulations over a Server with 20 routes and 50 authorizations, in a namespace of so many Servers more."""
    random.seed(1)
    yield from given([pod(), server(), *(route(number) for number in range(20))])
    for number in range(50):
        yield from given(authorizations(number))
    for number in range(others):
        yield text_of(pod_named(f"other-{number}", f"other-{number}"))
        yield text_of(server_of(f"other-{number}", f"other-{number}"))
    for _ in range(times):
        yield text_of(simulation())


def simulations(bench):
    for others in (0, 100, 1_000):
        found = bench.changes(SIMULATED, lambda count: simulated(others, count), lambda count: count)
        bench.tell(f"a simulation, {others + 1:,} Servers in the namespace", found, bench.some(SIMULATED[0]))


# ------------------------------------------------------------------------------------------------ many routes

def many_routes(count):
    """A Server with so many routes, each with a policy of its own."""
    yield from given([pod(), server()])
    for number in range(count):
        spec = {"parentRefs": [{"group": "policy.linkerd.io", "kind": "Server", "name": "web"}],
                "rules": [{"matches": [{"path": {"type": "PathPrefix", "value": f"/items{number}"}}]}]}
        yield text_of(added("policy.linkerd.io/v1", "HTTPRoute", f"r{number:04}", spec))
        spec = {"targetRef": {"group": "policy.linkerd.io", "kind": "HTTPRoute", "name": f"r{number:04}"},
                "requiredAuthenticationRefs": [{"group": "policy.linkerd.io", "kind": "NetworkAuthentication", "name": "all"}]}
        yield text_of(added("policy.linkerd.io/v1alpha1", "AuthorizationPolicy", f"p{number:04}", spec))
    yield text_of(added("policy.linkerd.io/v1alpha1", "NetworkAuthentication", "all", {"networks": [{"cidr": "0.0.0.0/0"}]}))


def routed(times, line):
    """These routes, and so often a line."""
    yield from many_routes(MANY)
    for number in range(times):
        yield line(number)


def remade(times):
    """A WatchPort of that Server, of which one route changes once and then so often, drained each time."""
    yield from many_routes(MANY)
    yield watch_line(1, "web-1")
    yield drain_line(1)
    for time in range(1 + times):
        spec = {"parentRefs": [{"group": "policy.linkerd.io", "kind": "Server", "name": "web"}],
                "rules": [{"matches": [{"path": {"type": "PathPrefix", "value": f"/time{time}"}}]}]}
        yield text_of(added("policy.linkerd.io/v1", "HTTPRoute", "r0000", spec))
        yield drain_line(1)


def routes(bench):
    request = {"control": "simulate", "workload": "app:web-1", "port": 8080, "client": "10.0.0.9", "http": {"path": "/items7"}}
    found = bench.changes(MADE, lambda count: routed(count, lambda _: text_of(request)), lambda count: count)
    bench.tell(f"a simulation over {MANY:,} routes and {MANY:,} authorizations", found, bench.some(MADE[0]))
    found = bench.changes(MADE, remade, lambda count: count + 2)
    bench.tell("one of these routes changes, the WatchPort is drained", found, bench.some(MADE[0]))


# ------------------------------------------------------------------------------------------------ authorizations

def allowing(number, cidr="10.0.0.0/8"):
    """One authorization of the Server `web`."""
    spec = {"server": {"name": "web"}, "client": {"networks": [{"cidr": cidr}], "unauthenticated": True}}
    return added("policy.linkerd.io/v1beta1", "ServerAuthorization", f"a{number:04}", spec)


def allowed(times, method):
    """A port of a Server with ALLOWED authorizations, one of which changes once and then so often, drained each time."""
    yield text_of(pod_named("web-1", "web"))
    yield text_of(server_of("web", "web"))
    for number in range(ALLOWED):
        yield text_of(allowing(number))
    yield watch_line(1, "web-1", method)
    yield drain_line(1)
    for time in range(1 + times):
        yield text_of(allowing(0, f"10.{time % 200}.0.0/16"))
        yield drain_line(1)


def bytes_sent(bench, lines):
    """The bytes of all frames that the program writes."""
    with open(bench.write("feed.jsonl", lines), "rb") as source:
        run = subprocess.run([bench.programs[0], "replay"], stdin=source, capture_output=True, check=True)
    return sum(len(frame.split()[2]) // 2 for frame in run.stdout.splitlines())


def authorizations_of_a_server(bench):
    """Both versions of the stream. The second is measured of the program alone, since the older one may not know it."""
    for method, some in (("WatchPort", bench), ("WatchPort2", Bench(bench.programs[:1], bench.meter, bench.folder))):
        found = some.changes(MADE, lambda count, method=method: allowed(count, method), lambda count: count + 2)
        some.tell(f"one of {ALLOWED:,} authorizations changes, the {method} is drained", found, some.some(MADE[0]))
        sent = bytes_sent(bench, allowed(1, method)) - bytes_sent(bench, allowed(0, method))
        print(f"  one change sends {sent:,} bytes", flush=True)


# ------------------------------------------------------------------------------------------------ memory

def held(asked):
    """Pods and Servers of one namespace and slices, and so many subscriptions of ports, each drained. At the end a Server is set again,
    since new rows are put at their marks by the first change after them."""
    for number in range(OBJECTS // 4):
        yield text_of(pod_named(f"web-{number}", f"web-{number}", f"10.{number // 62500}.{number // 250 % 250}.{number % 250 + 1}"))
        yield text_of(server_of(f"web-{number}", f"web-{number}"))
        yield slice_line(2 * number, number, "ADDED", [endpoint(number)])
        yield slice_line(2 * number + 1, number, "ADDED", [])
    for number in range(asked):
        yield watch_line(number + 1, f"web-{number}")
        yield drain_line(number + 1)
    yield text_of(server_of("web-0", "web-0"))


def memory(bench):
    without = bench.tell(f"{OBJECTS:,} objects", bench.replays(held(0), 0), with_memory=True)
    found = bench.tell(f"{OBJECTS:,} objects and {ASKED:,} WatchPorts", bench.replays(held(ASKED), ASKED), with_memory=True)
    for name, run, base in zip(("the program", "the older one"), found, without):
        if run.memory and base.memory:
            print(f"  a subscription, {name} (to reach: 1.0): {(run.memory - base.memory) * 1024 / ASKED:.2f} KB", flush=True)


ROWS = {"clusters": clusters, "servers": servers, "simulations": simulations, "routes": routes, "authorizations": authorizations_of_a_server, "memory": memory}


if __name__ == "__main__":
    main(__doc__, ROWS)
