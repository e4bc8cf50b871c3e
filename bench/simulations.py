#!/usr/bin/env python3
"""What a simulated request costs: 10,000 of them over one Server with 20 routes, half of which have regular expressions, and 50
authorizations. Processor time for each, without what reading the objects takes. Needs the proved program (tools/prove)."""
import os
import random
import tempfile

from feed import text_of
from measure import PROGRAM, best, present, write

SIMULATIONS = 10_000
ROUTES = 20
AUTHORIZATIONS = 50
TRUST = "serviceaccount.identity.linkerd.cluster.local"


def added(group, kind, name, spec, **meta):
    return {"type": "ADDED", "object": {"apiVersion": group, "kind": kind, "metadata": {"name": name, "namespace": "app", **meta}, "spec": spec}}


def pod():
    return added("v1", "Pod", "web-1", {"containers": [{"ports": [{"name": "http", "containerPort": 8080}]}]}, labels={"app": "web"})


def server():
    return added("policy.linkerd.io/v1beta3", "Server", "web", {"podSelector": {"matchLabels": {"app": "web"}}, "port": 8080})


def route(number):
    path = {"type": "RegularExpression", "value": f"/api/v[0-9]+/items{number}/[^/]+"} if number % 2 else {"type": "PathPrefix", "value": f"/items{number}"}
    spec = {"parentRefs": [{"group": "policy.linkerd.io", "kind": "Server", "name": "web"}], "rules": [{"matches": [{"path": path}]}]}
    return added("policy.linkerd.io/v1", "HTTPRoute", f"r{number:02}", spec)


def authorizations(number):
    """A policy and the authentication that it refers to; every second one is for a route."""
    target = ("HTTPRoute", f"r{number % ROUTES:02}") if number % 2 else ("Server", "web")
    spec = {"targetRef": {"group": "policy.linkerd.io", "kind": target[0], "name": target[1]},
            "requiredAuthenticationRefs": [{"group": "policy.linkerd.io", "kind": "MeshTLSAuthentication", "name": f"a{number:02}"}]}
    identities = [f"client{number}.app.{TRUST}", f"*.team{number}.{TRUST}"]
    yield added("policy.linkerd.io/v1alpha1", "AuthorizationPolicy", f"p{number:02}", spec)
    yield added("policy.linkerd.io/v1alpha1", "MeshTLSAuthentication", f"a{number:02}", {"identities": identities})


def simulation():
    number = random.randrange(ROUTES)
    path = f"/api/v1/items{number}/7" if number % 2 else f"/items{number}/7"
    return {"control": "simulate", "workload": "app:web-1", "port": 8080, "client": "10.0.0.5",
            "identity": f"client{random.randrange(AUTHORIZATIONS)}.app.{TRUST}", "http": {"path": path}}


def lines(simulations):
    """The objects, and so many simulations over them."""
    objects = [pod(), server(), *(route(number) for number in range(ROUTES))]
    for number in range(AUTHORIZATIONS):
        objects.extend(authorizations(number))
    yield from map(text_of, objects)
    for _ in range(simulations):
        yield text_of(simulation())


def main():
    program = present(PROGRAM)
    random.seed(1)
    with tempfile.TemporaryDirectory() as folder:
        path = os.path.join(folder, "feed.jsonl")
        write(path, lines(0))
        before = best([program, "replay"], path)[0]
        write(path, lines(SIMULATIONS))
        seconds, memory, status = best([program, "replay"], path)
    print(f"{SIMULATIONS} simulations over {ROUTES} routes and {AUTHORIZATIONS} authorizations: {seconds:.2f} s, {memory:.0f} MB peak, status {status}")
    print(f"  {(seconds - before) / SIMULATIONS * 1e6:.0f} microseconds of processor time for each")


if __name__ == "__main__":
    main()
