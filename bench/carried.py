#!/usr/bin/env python3
"""How many subscribers a server carries, and what each of them takes.

    bench/carried.py [--program FILE] [--subscribers N] [--services M]

A server holds the objects of M Services, as in bench/soak.py. N subscribers of one method connect, and are sent their first view: the
memory that the server takes more than before, for each of them. Then links are opened until the server closes one at once. Needs a program
with the command `serve`."""
import argparse
import json

from cluster_api import Cluster
from links import Feed, Loop, Peer, Server
from measure import PROGRAM, present
from recording import Wrong
from soak import PATHS, queries


def fed(program, loop, services):
    """A server with the objects of a cluster, and its feed."""
    server = Server(program)
    feed = Feed(loop, server.address)
    for it in Cluster(services, 1).held().values():
        feed.line(json.dumps(it))
    loop.until(feed.all_answered, "the objects")
    return server, feed


def carried(program, method, subscribers, services):
    """Prints the memory of subscribers of a method."""
    loop = Loop()
    server, _ = fed(program, loop, services)
    with server:
        before = server.memory()
        asked = [it for it in queries(services) if it.method == method]
        peers = []
        for number in range(subscribers):
            peers.append(Peer(loop, server.address, asked[number % len(asked)].request()))
            if number % 50 == 49:
                loop.until(lambda: all(it.received for it in peers), "the first views")
        loop.until(lambda: all(it.received for it in peers), "the first views")
        after = server.memory()
        if any(it.is_closed for it in peers):
            raise Wrong("a subscriber was closed")
        print(f"{method}: {subscribers:,} subscribers of {len(asked):,} queries take {(after - before) * 1024 / subscribers:.1f} KB each; the server {after:.1f} MB, {before:.1f} before", flush=True)
        for it in peers:
            it.close()


def limit(program, services):
    """Prints how many links may be open."""
    loop = Loop()
    server, _ = fed(program, loop, services)
    request = queries(services)[0].request()
    with server:
        peers = []
        while not any(it.is_closed for it in peers):
            peers.append(Peer(loop, server.address, request))
            loop.until(lambda: peers[-1].received or peers[-1].is_closed, "the first view")
        print(f"the server closed link {len(peers) + 1:,} at once, its feed counted", flush=True)


def main():
    words = argparse.ArgumentParser(description=__doc__.splitlines()[0])
    words.add_argument("--program", default=PROGRAM, help="the built linkerd_cli")
    words.add_argument("--subscribers", type=int, default=1000, help="at most 1,000")
    words.add_argument("--services", type=int, default=100)
    options = words.parse_args()
    Loop.limit = 600
    for method in PATHS:
        carried(present(options.program), method, options.subscribers, options.services)
    limit(options.program, options.services)


if __name__ == "__main__":
    main()
