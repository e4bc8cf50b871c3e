#!/usr/bin/env python3
"""What links that misbehave do to others: a server on the loopback interface, 200 subscribers, and one misbehaviour after another.

    bench/hostile.py [--program FILE] [--subscribers N] [--services M] [--changes K] [--limit S] [--only WORD,..]

First K changes one by one, each sent once every subscriber of its Service has all bytes of the one before. Then the same changes on a
new server beside each misbehaviour, where each subscriber must be sent the same bytes, and must fold to what `diagnose` shows. A line
for each says what came of it, how long the slowest change took from its line to the last byte, and the server's processor time and
memory. All links lead to that server, at most MOST_LINKS besides the subscribers are open at once, and each wait is bounded by --limit
seconds. If a wait passes it, or a subscriber is sent other bytes, or the server does with a link what docs/SERVE.md does not say, it is
said and the status is 1. Needs a program with the command `serve`."""
import argparse
import random
import resource
import socket
import struct
import sys

from feed import text_of
from links import PATH, Loop, Peer, Scene, field, frame, order_of, request
from measure import PROGRAM, present
from recording import Wrong

MOST_LINKS = 1_024       # that a server has at once,
MOST_REQUEST = 65_536    # bytes that a request may have,
MOST_LINE = 67_108_864   # and a line of a feed
DEEP = 1_000_000         # brackets of a deep line
STATES, PATH_LENGTH = 1_000, 20_000  # of the pattern that is expensive, and of the path that it is searched in


# ------------------------------------------------------------------------------------------------ links that misbehave

class Misbehaviour:
    """Some links beside the subscribers. `go` is called before each change, and `end` after the last one: it says what came of them."""

    def __init__(self, scene, changes):
        self.scene, self.changes, self.peers = scene, changes, []
        self.begin()

    def begin(self):
        pass

    def go(self, place):
        pass

    def end(self):
        return f"{len(self.peers)} links"

    def open(self, data=b"", **how):
        self.peers.append(Peer(self.scene.loop, self.scene.server.address, data, **how))
        return self.peers[-1]

    def share(self, place, count):
        """How many of `count` are due before this change."""
        return count * (place + 1) // self.changes - count * place // self.changes

    def until_closed(self, what):
        self.scene.loop.until(lambda: all(peer.is_closed for peer in self.peers), what)

    def stay_open(self, what):
        self.scene.loop.rest(0.3)
        if any(peer.is_closed for peer in self.peers):
            raise Wrong(f"the server closed {what}")


class Resets(Misbehaviour):
    """Half of a request, and a reset."""

    def go(self, place):
        half = request(0)[:-20]
        with socket.create_connection(self.scene.server.address, Loop.limit) as link:
            link.sendall(half)
            link.setsockopt(socket.SOL_SOCKET, socket.SO_LINGER, struct.pack("ii", 1, 0))

    def end(self):
        return f"{self.changes} links were reset in the middle of their requests"


class HalfOpen(Misbehaviour):
    """Links that send half of a request and then nothing, and links that end their side after a whole one."""

    def begin(self):
        self.silent = [Peer(self.scene.loop, self.scene.server.address, request(0)[:-20]) for _ in range(50)]

    def go(self, place):
        for _ in range(self.share(place, 50)):
            peer = self.open()
            peer.socket.setblocking(True)
            peer.socket.sendall(request(0))
            peer.socket.shutdown(socket.SHUT_WR)
            peer.socket.setblocking(False)

    def end(self):
        self.until_closed("a link that ended its side is closed")
        ended, self.peers = self.peers, self.silent
        self.stay_open("a link that is silent")
        return f"{len(ended)} links that ended their side are closed, {len(self.silent)} silent ones are open"


class Sends(Misbehaviour):
    """Links that send `data`, some before each change. They must be closed, and sent nothing."""

    count, data = 50, b""

    def go(self, place):
        for _ in range(self.share(place, self.count)):
            self.open(self.data)

    def end(self):
        self.until_closed("the links are closed")
        if any(peer.received for peer in self.peers):
            raise Wrong("a link was sent something")
        return f"{len(self.peers)} links are closed"


class LongPath(Sends):
    """128 bytes without a line feed."""

    data = b"a" * 128


class Announced(Sends):
    """A request of 4 GiB is announced, and its beginning sent."""

    data = PATH + b"\0\xff\xff\xff\xff" + bytes(MOST_REQUEST)


def padded_request(size):
    """A request of so many bytes, filled up in its token."""
    path = field(2, b"web-0.app.svc.cluster.local:80")
    token = b" " * (size - len(path) - 4)
    message = path + field(3, token)
    assert len(message) == size
    return PATH + frame(message)


class TooLongRequest(Sends):
    """A request of 65,537 bytes."""

    data = padded_request(MOST_REQUEST + 1)


class LongRequest(Misbehaviour):
    """Requests of 65,536 bytes, which are answered."""

    def go(self, place):
        if place % 4 == 0:
            self.open(padded_request(MOST_REQUEST))

    def end(self):
        self.scene.loop.until(lambda: all(peer.received for peer in self.peers), "the requests are answered")
        self.stay_open("a link with a long request")
        return f"{len(self.peers)} links are answered"


class SlowRequest(Misbehaviour):
    """Requests of which a byte comes before each change, and the rest after the last one."""

    def begin(self):
        self.left = request(0)
        for _ in range(20):
            self.open()

    def go(self, place):
        byte, self.left = self.left[:1], self.left[1:]
        for peer in self.peers:
            peer.send(byte)

    def end(self):
        begun = len(request(0)) - len(self.left)
        for peer in self.peers:
            peer.send(self.left)
        self.scene.loop.until(lambda: all(peer.received for peer in self.peers), "the requests are answered")
        return f"{len(self.peers)} links sent {begun} bytes one by one, and are answered once their requests are whole"


class TooManyLinks(Misbehaviour):
    """More links than a server has. They stay, and those beyond the limit are closed."""

    def begin(self):
        for _ in range(MOST_LINKS):
            self.open()
        others = 1 + len(self.scene.all())
        self.scene.loop.until(lambda: sum(peer.is_closed for peer in self.peers) >= others, "the links beyond the limit are closed")

    def end(self):
        self.scene.loop.rest(0.3)
        closed, others = sum(peer.is_closed for peer in self.peers), 1 + len(self.scene.all())
        if closed != others:
            raise Wrong(f"{closed} links were closed in place of {others}")
        return f"{len(self.peers) - closed} links stay open and {closed} beyond {MOST_LINKS:,} are closed"


class ConnectsAndCloses(Misbehaviour):
    """A thousand links that are opened and closed."""

    def go(self, place):
        for _ in range(self.share(place, 1_000)):
            socket.create_connection(self.scene.server.address, Loop.limit).close()

    def end(self):
        return "1,000 links were opened and closed"


# ------------------------------------------------------------------------------------------------ feeds that misbehave

class Lines(Misbehaviour):
    """A feed of its own that sends some lines, at the first change, and their answers."""

    def lines(self):
        """Each line with what must be answered after its number, or none where anything may be."""
        raise NotImplementedError

    def begin(self):
        self.wanted = list(self.lines())
        self.feed = None

    def go(self, place):
        if place == 0:
            self.feed = self.open(b"/feed\n" + b"".join(line + b"\n" for line, _ in self.wanted))

    def answers(self):
        return bytes(self.feed.received).split(b"\n")[:-1]

    def end(self):
        self.scene.loop.until(lambda: len(self.answers()) == len(self.wanted) or self.feed.is_closed, "the lines are answered")
        if self.feed.is_closed:
            raise Wrong("the server closed the feed link")
        for place, (answer, (_, wanted)) in enumerate(zip(self.answers(), self.wanted), 1):
            word, _, rest = wanted.partition(" ")
            if answer.decode() != f"{word} {place} {rest}".rstrip():
                raise Wrong(f"line {place} was answered {answer.decode()} in place of {wanted}")
        return f"{len(self.wanted)} lines, the last one answered {self.answers()[-1].decode()}"


def filled(size):
    """A line of so many bytes that does nothing."""
    text = b'{"type":"BOOKMARK","object":{"kind":"Pod","apiVersion":"v1"}}'
    return text + b" " * (size - len(text))


class LongLine(Lines):
    """A line of 64 MiB."""

    def lines(self):
        yield filled(MOST_LINE), "ok"


class TooLongLine(Lines):
    """A line of 64 MiB and one byte."""

    def lines(self):
        yield filled(MOST_LINE + 1), "refused TooLong"


class DeepLine(Lines):
    """Lines of nested arrays and of nested objects."""

    def lines(self):
        yield b"[" * DEEP + b"]" * DEEP, "refused NotJson"
        yield b'{"a":' * DEEP + b"7" + b"}" * DEEP, "refused NotJson"
        yield b'{"type":"ADDED","object":' * DEEP, "refused NotJson"


def object_line(group, kind, name, spec, **meta):
    value = {"type": "ADDED", "object": {"apiVersion": group, "kind": kind, "metadata": {"name": name, "namespace": "other", **meta}, "spec": spec}}
    return text_of(value).encode()


def pattern_lines(pattern):
    """A Pod, a Server and a route of the pattern, of a namespace of their own."""
    match = {"path": {"type": "RegularExpression", "value": pattern}}
    parent = {"group": "policy.linkerd.io", "kind": "Server", "name": "s"}
    return [object_line("v1", "Pod", "p", {"containers": [{"ports": [{"name": "http", "containerPort": 8080}]}]}, labels={"app": "p"}),
            object_line("policy.linkerd.io/v1beta3", "Server", "s", {"podSelector": {"matchLabels": {"app": "p"}}, "port": 8080}),
            object_line("policy.linkerd.io/v1", "HTTPRoute", "r", {"parentRefs": [parent], "rules": [{"matches": [match]}]})]


def simulation(path):
    value = {"control": "simulate", "workload": "other:p", "port": 8080, "client": "10.0.0.5", "http": {"path": path}}
    return text_of(value).encode()


class Patterns(Lines):
    """Patterns that are refused: one that is none, one whose groups nest too deep, and one that would take too much memory."""

    def lines(self):
        for pattern in ("/a(", "(" * 300 + ")" * 300, "(?:(?:a{1,999}){1,999}){1,999}"):
            for line in pattern_lines(pattern):
                yield line, "ok"
            for _ in range(10):
                yield simulation("/aaa"), "refused Pattern other/r 0 0"


class ExpensivePattern(Lines):
    """A pattern whose search keeps as many states as its count, for each byte of a long path that does not repeat itself."""

    def lines(self):
        for line in pattern_lines("/[ab]*a[ab]{%d}" % STATES):
            yield line, "ok"
        dice = random.Random(1)
        path = "/" + "".join(dice.choice("ab") for _ in range(PATH_LENGTH))
        yield simulation(path + "b" * (STATES + 1)), "verdict not-found"


# ------------------------------------------------------------------------------------------------ runs

def run(program, words, kind=None):
    """The bytes of each subscriber, what came of the misbehaviour, and the seconds of the slowest change."""
    with Scene(program, words.subscribers, words.services) as scene:
        used = scene.server.seconds()
        order = order_of(words.services, words.changes)
        others, spans = kind and kind(scene, len(order)), []
        for place, service in enumerate(order):
            if others:
                others.go(place)
            spans.append(scene.change(service))
        came = others.end() if others else "nobody misbehaves"
        scene.check()
        sent = [bytes(peer.received) for peer in scene.all()]
        cost = f"slowest change {max(spans) * 1e3:.1f} ms; server {scene.server.seconds() - used:.2f} s, {scene.server.memory():.0f} MB"
        return sent, f"{came}; {cost}"


KINDS = {
    "reset": Resets, "half-open": HalfOpen, "long-path": LongPath, "announced": Announced, "long-request": LongRequest,
    "too-long-request": TooLongRequest, "slow-request": SlowRequest, "too-many-links": TooManyLinks, "connects": ConnectsAndCloses,
    "long-line": LongLine, "too-long-line": TooLongLine, "deep-line": DeepLine, "refused-patterns": Patterns, "expensive-pattern": ExpensivePattern,
}


def raise_file_limit(subscribers):
    """As many open files as this process needs, and the server."""
    needed = MOST_LINKS + subscribers + 100
    now, most = resource.getrlimit(resource.RLIMIT_NOFILE)
    if most != resource.RLIM_INFINITY and most < needed:
        sys.exit(f"this needs {needed:,} open files, and the system allows {most:,}")
    resource.setrlimit(resource.RLIMIT_NOFILE, (max(now, needed), most))


def main():
    words = argparse.ArgumentParser(description=__doc__.splitlines()[0])
    words.add_argument("--program", default=PROGRAM, metavar="FILE", help="the built linkerd_cli")
    words.add_argument("--only", default=",".join(KINDS), metavar="WORD,..", help=f"of {', '.join(KINDS)}")
    for name, value in (("subscribers", 200), ("services", 20), ("changes", 100), ("limit", Loop.limit)):
        words.add_argument(f"--{name}", type=int, default=value, metavar="N", help=f"default: {value:,}")
    it = words.parse_args()
    present(it.program)
    if unknown := set(it.only.split(",")) - set(KINDS):
        sys.exit(f"there is no misbehaviour {', '.join(sorted(unknown))}")
    raise_file_limit(it.subscribers)
    Loop.limit, is_wrong = it.limit, False
    alone, came = run(it.program, it)
    print(f"{'alone':18} {came}", flush=True)
    for name in it.only.split(","):
        try:
            beside, came = run(it.program, it, KINDS[name])
            wrong = sum(one != other for one, other in zip(alone, beside))
            if wrong:
                raise Wrong(f"{wrong} subscribers were sent other bytes; {came}")
            print(f"{name:18} {came}; {len(alone)} subscribers are sent the same bytes", flush=True)
        except Wrong as wrong:
            is_wrong = True
            print(f"{name:18} WRONG: {wrong}", flush=True)
    return int(is_wrong)


if __name__ == "__main__":
    sys.exit(main())
