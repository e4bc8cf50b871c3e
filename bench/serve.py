#!/usr/bin/env python3
"""A server on the loopback interface: how fast it is, that subscribers get what they should, and that no peer disturbs another.

    bench/serve.py [--program FILE] [--subscribers N] [--services M] [--changes K] [--hostile H] [--rounds R] [--limit S]

1. Changes at once: N subscribers of M Services while a feed sends K changes as fast as they are answered. Events a second, until each
   subscriber has the last change.
2. Changes one by one: the next change is sent once each subscriber of its Service has all bytes of it. The time from the line to the
   last byte: the median, the 99th percentile, the greatest.
3. The same changes one by one, beside H subscribers that never read, H that read a byte at a time, and H links that send garbage. The
   bytes of all others must be those of the second run. A server has at most 1,024 links, so there may be fewer others than N.
4. R rounds of K changes, each with subscribers that come and go: the memory of the server must not grow after the first quarter.

After each run what each subscriber was sent must fold to what `diagnose` shows over the same feed; after the last one, of some Services
alone. Each wait is bounded by --limit seconds; where it is passed, or something doesn't hold, it is said and the status is 1. Needs a
program with the command `serve`."""
import argparse
import random
import sys
import time

from links import PATH, Loop, Peer, Scene, Slow, address_bytes, order_of, percentile, request
from measure import PROGRAM, present
from recording import Wrong

LARGE = 400        # endpoints of the Service whose subscribers never read,
LARGE_EVERY = 10   # and after how many changes of others they all change
MOST_LINKS = 1_000  # of ours at once: a server has 1,024, and sees with a delay that one was closed
CHECKED = 5        # Services of the long run whose subscribers are compared with `diagnose`
GARBAGE = (b"GET / HTTP/1.1\r\nHost: x\r\n\r\n", b"/x\n", b"a" * 200, b"\n", b"/feed", PATH + b"\x01\x00\x00\x00\x00", PATH + b"\0\xff\xff\xff\xff",
           PATH + b"\0\0\0\0\x02\xff\xff", PATH + b"\0\0\0\0\x05", bytes(300), b"/feed\n{\n\xff\xff\n[]\n")


# ------------------------------------------------------------------------------------------------ runs

def at_once(program, subscribers, services, changes):
    with Scene(program, subscribers, services) as scene:
        order = order_of(services, changes)
        for service in order:
            scene.cluster.change(service)
        used, begin = scene.server.seconds(), time.monotonic()  # nothing is sent before the loop goes on
        ends = {service: address_bytes(scene.cluster.numbers[service][-1]) for service in set(order)}
        scene.loop.until(lambda: scene.feed.all_answered() and all(
            peer.received.rfind(ends[service]) >= 0 for service in ends for peer in scene.peers[service]), "the last changes")
        scene.loop.rest(0.5)
        seconds = max(scene.feed.last, *(peer.last for peer in scene.all())) - begin
        used = scene.server.seconds() - used
        print(f"at once: {changes:,} changes of {services:,} Services to {subscribers:,} subscribers in {seconds:.2f} s, "
              f"{changes / seconds:,.0f} events a second; server {used:.2f} s of processor time, {scene.server.memory():.1f} MB")
        print(f"  {scene.check()} subscribers fold to what diagnose shows", flush=True)


def one_by_one(program, subscribers, services, changes, hostile_links=0):
    """The bytes of the subscribers of each Service."""
    with Scene(program, subscribers, services) as scene:
        others = Hostile(scene, hostile_links) if hostile_links else None
        begin, spans = time.monotonic(), []
        for place, service in enumerate(order_of(services, changes)):
            spans.append(scene.change(service))
            if others:
                others.go(place)
        seconds = time.monotonic() - begin
        title = "one by one, beside hostile peers" if others else "one by one"
        print(f"{title}: {changes:,} changes to {subscribers:,} subscribers, {changes / seconds:,.0f} events a second; from the line to the last byte: "
              f"median {percentile(spans, 0.5) * 1e3:.2f} ms, 99th percentile {percentile(spans, 0.99) * 1e3:.2f} ms, greatest {max(spans) * 1e3:.2f} ms; {scene.server.memory():.1f} MB")
        sent = {service: [bytes(peer.received) for peer in peers] for service, peers in scene.peers.items()}
        if others:
            others.end()
        print(f"  {scene.check()} subscribers fold to what diagnose shows", flush=True)
        return sent


class Hostile:
    """So many subscribers of a large Service that never read, subscribers that read a byte at a time, and links that send garbage."""

    def __init__(self, scene, count):
        self.scene, self.count, self.large = scene, count, scene.cluster.large
        services = len(scene.peers)
        scene.cluster.put(self.large, LARGE)
        address = scene.server.address
        self.deaf = [Peer(scene.loop, address, request(self.large), is_read=False, room=4_096) for _ in range(count)]
        self.slow = [(number % services, Slow(scene.loop, address, request(number % services))) for number in range(count)]
        self.strangers, self.sent, self.dice = [], 0, random.Random(2)
        scene.loop.until(scene.feed.all_answered, "the large Service")

    def go(self, place):
        """Changes all endpoints of the large Service, which nobody reads, and sends garbage on a new link."""
        if place % LARGE_EVERY == 0:
            self.scene.cluster.change(self.large, LARGE)
        data = self.dice.choice(GARBAGE) + self.dice.randbytes(self.dice.randrange(50))
        self.strangers.append(Peer(self.scene.loop, self.scene.server.address, data))
        self.sent += 1
        if len(self.strangers) > self.count:
            self.strangers.pop(0).close()

    def end(self):
        """Lets them read at last, so that they are compared with `diagnose` too."""
        scene, waiting = self.scene, [*self.deaf, *(peer for _, peer in self.slow)]
        read = [len(peer.received) for peer in waiting]
        scene.loop.slow.clear()
        for peer in waiting:
            peer.is_read = True
            peer.want()
        while read != (now := [len(peer.received) for peer in waiting]) or not all(now):
            read = now
            scene.loop.rest(0.5)
        closed = sum(peer.is_closed for peer in self.strangers)
        print(f"  {self.sent} links sent garbage, and of the last {len(self.strangers)} the server closed {closed}; "
              f"{len(self.deaf)} links did not read and {len(self.slow)} read a byte at a time until the end")
        scene.peers[self.large] = self.deaf
        for service, peer in self.slow:
            scene.peers[service].append(peer)


def hostile(program, subscribers, services, changes, count):
    alone = one_by_one(program, subscribers, services, changes)
    others = min(subscribers, MOST_LINKS - 3 * count)
    beside = one_by_one(program, others, services, changes, count)
    wrong = sum(one != other for service, peers in beside.items() for one, other in zip(peers, alone[service]))
    if wrong:
        raise Wrong(f"{wrong} subscribers were sent other bytes beside hostile peers")
    print(f"  the bytes of {others} subscribers are the same without and with them", flush=True)


def long_run(program, services, changes, rounds):
    """Rounds of changes, each with subscribers that come, get their view and go."""
    with Scene(program, services, services) as scene:
        sizes = []
        for _ in range(rounds):
            guests = [scene.subscriber(number % services) for number in range(100)]
            for service in order_of(services, changes):
                scene.cluster.change(service)
            scene.loop.until(lambda: scene.feed.all_answered() and all(peer.received for peer in guests), "a round")
            for peer in guests:
                peer.close()
            scene.loop.rest(0.1)
            sizes.append(scene.server.memory())
        quarter = max(1, rounds // 4)
        first = max(sizes[:quarter])
        print(f"{rounds} rounds of {changes:,} changes and 100 subscribers that come and go: "
              f"at most {first:.1f} MB in the first {quarter}, {sizes[-1]:.1f} MB at the end")
        print(f"  {scene.check(CHECKED)} subscribers fold to what diagnose shows")
        if sizes[-1] > first * 1.05 + 1:
            raise Wrong("the memory of the server grows")


def main():
    words = argparse.ArgumentParser(description=__doc__.splitlines()[0])
    words.add_argument("--program", default=PROGRAM, metavar="FILE", help="the built linkerd_cli")
    for name, value in (("subscribers", 200), ("services", 20), ("changes", 2_000), ("hostile", 20), ("rounds", 24), ("limit", Loop.limit)):
        words.add_argument(f"--{name}", type=int, default=value, metavar="N", help=f"default: {value:,}")
    it = words.parse_args()
    present(it.program)
    Loop.limit = it.limit
    try:
        at_once(it.program, it.subscribers, it.services, it.changes)
        hostile(it.program, it.subscribers, it.services, it.changes, it.hostile)
        long_run(it.program, it.services, it.changes, it.rounds)
    except Wrong as wrong:
        print(f"WRONG: {wrong}")
        return 1
    return 0


if __name__ == "__main__":
    sys.exit(main())
