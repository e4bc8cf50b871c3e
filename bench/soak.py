#!/usr/bin/env python3
"""A controller that is kept running while all about it goes: subscribers, feeds that are cut, a server that is killed.

    bench/soak.py [--program FILE] [--seconds S] [--subscribers N] [--services M] [--rate R] [--reconnect T] [--kills K]
                  [--replicas N] [--moves S] [--limit L]

tools/controller runs a server and feeds it from a cluster of M Services whose objects change R times a second. Its kubectl is a stand-in
that asks an API server of this process, whose watches end after a while, in part by 410, and which restarts once. The link of the feed is
cut every T seconds, and the server is killed K times. N subscribers of endpoints, profiles, routes and ports connect to each server anew
and fold from none. Of several replicas each watches the API server by itself; a subscriber moves to some replica every S seconds or so.
At the end these must hold:

- What each subscriber was sent since it connected folds to what `diagnose` shows over the objects of the cluster.
- Each view that a subscriber of a port was shown is the view of some state of its server: the objects after some line that the server
  accepted. `replay` computes the views of all states, and of some of them `diagnose` too.
- No view of a port whose Server is never removed lacks this Server, or admits whom no authorization names.
- The controller counts the objects of the cluster and K restarts, is ready, and ends by SIGTERM with status 0. Its map is that of
  `tools/mesh map` over the objects of the cluster.

The status is 1 where one of them does not hold, or where something takes longer than --limit seconds."""
import argparse
import collections
import dataclasses
import json
import os
import pathlib
import random
import re
import shlex
import signal
import socket
import subprocess
import sys
import tempfile
import threading
import time
import urllib.error
import urllib.request

from cluster_api import NAMESPACE, ApiServer, Cluster, put_kubectl
from links import Loop, Peer, field, frame, messages_in, varint
from measure import PROGRAM, present
from recording import Wrong, records
from relayed import STEADY

HERE = pathlib.Path(__file__).resolve().parent
CONTROLLER = HERE.parent / "tools" / "controller"
PATHS = {
    "Get": "/io.linkerd.proxy.destination.Destination/Get",
    "GetProfile": "/io.linkerd.proxy.destination.Destination/GetProfile",
    "WatchPort": "/io.linkerd.proxy.inbound.InboundServerPolicies/WatchPort",
    "WatchPort2": "/io.linkerd.proxy.inbound.InboundServerPolicies/WatchPort2",
    "Watch": "/io.linkerd.proxy.outbound.OutboundPolicies/Watch",
}
LIMIT = 60            # seconds for a page
AGAIN_SECONDS = 0.2   # between two tries of subscribers to connect
STEP_SECONDS = 0.05   # for which a step waits
LOOK_SECONDS = 0.25   # between two looks at /readyz,
MAP_SECONDS = 60      # and at /map
DENY = 5
MARK = b"a line that is refused, by which the place in the output is found\n"


# ------------------------------------------------------------------------------------------------ queries

class Query:
    """What a subscriber asks."""

    def __init__(self, method, number, path=None, workload=None, port=None):
        self.method, self.number, self.port = method, number, port
        if workload:
            self.members = {"method": method, "workload": workload, "port": port}
            self.message = field(1, workload.encode()) + b"\x10" + varint(port)
        else:
            self.members = {"method": method, "path": path}
            self.message = field(3 if method == "Watch" else 2, path.encode())

    def words(self):
        return [word for name, it in self.members.items() for word in (f"--{name}", str(it))]

    def request(self):
        return PATHS[self.method].encode() + b"\n" + frame(self.message)

    def is_guarded(self):
        """Whether the Server of the port is never removed."""
        return self.port == 8080 and self.number % 2 == 0


def queries(services):
    """All queries, in an order in which those of one Service are apart."""
    found = []
    for number in range(services):
        name = f"web-{number}.{NAMESPACE}.svc.cluster.local:80"
        address = f"10.96.{number // 250}.{number % 250 + 1}:80"
        found.append([
            Query("WatchPort", number, workload=f"{NAMESPACE}:web-{number}-0", port=8080),
            Query("Get", number, path=name),
            Query("WatchPort2", number, workload=f"{NAMESPACE}:web-{number}-1", port=8080),
            Query("Watch", number, path=name),
            Query("WatchPort", number, workload=f"{NAMESPACE}:web-{number}-1", port=9090),
            Query("GetProfile", number, path=address),
            Query("GetProfile", number, path=name),
        ])
    return [it for row in zip(*found) for it in row]


# ------------------------------------------------------------------------------------------------ subscribers

class Session(Peer):
    """A link of a subscriber to one server, with all that it was sent."""

    def __init__(self, loop, server, query):
        self.server, self.query = server, query
        super().__init__(loop, server.address, query.request())

    def messages(self):
        """The whole messages."""
        data, found = bytes(self.received), []
        while len(data) >= 5 and len(data) >= 5 + int.from_bytes(data[1:5], "big"):
            size = 5 + int.from_bytes(data[1:5], "big")
            found.append(data[5:size])
            data = data[size:]
        return found


class Subscriber:
    """Somebody who asks one query of each server, one after another."""

    def __init__(self, loop, query):
        self.loop, self.query = loop, query
        self.sessions, self.session = [], None

    def go(self, replicas, choice):
        """Connects to some replica where it is not connected."""
        if self.is_connected():
            return
        server = choice.choice(replicas).server()
        try:
            self.session = server and Session(self.loop, server, self.query)
        except OSError:
            return
        self.sessions += [self.session] if self.session else []

    def is_connected(self):
        return self.session is not None and not self.session.is_closed

    def leave(self):
        """Closes its link, to connect to some replica next."""
        if self.is_connected():
            self.session.close()


# ------------------------------------------------------------------------------------------------ what is run

@dataclasses.dataclass(eq=False)
class Server:
    """A server that was started: the file of its record, its address and its process."""

    record: pathlib.Path
    address: tuple
    process: int

    def recorded(self, suffix):
        """The lines that the relay has recorded."""
        path = self.record.with_suffix(suffix)
        return path.read_bytes().splitlines(keepends=True) if path.exists() else []

    def memory(self):
        return memory(self.process)


class Replica:
    """A controller with its servers, one after another."""

    def __init__(self, words, room, number):
        self.words, self.folder = words, room / f"replica-{number}"
        self.folder.mkdir()
        self.be_steady(True)
        self.servers, self.is_ready, self.first_ready, self.not_ready, self.memory = [], False, None, 0.0, 0.0
        program, relay = self.folder / "server", [sys.executable, HERE / "relayed.py", self.folder, words.reconnect, os.path.abspath(words.program)]
        other = f'[ "$1" = serve ] || exec {shlex.quote(relay[-1])} "$@"'  # as the map runs it
        program.write_text(f"#!/bin/sh\n{other}\nexec {shlex.join(map(str, relay))} \"$@\"\n")
        program.chmod(0o755)
        self.health = free_address()
        command = [sys.executable, words.controller, "--bind", free_address(), "--health", self.health, "--program", program]
        environment = {**os.environ, "PATH": f"{room}:{os.environ['PATH']}"}
        with (self.folder / "log").open("wb") as log:
            self.controller = subprocess.Popen(command, stdin=subprocess.DEVNULL, stderr=log, env=environment)
        self.is_over = False
        threading.Thread(target=self.look, daemon=True).start()

    def log(self):
        return (self.folder / "log").read_text()[-4000:]

    def page(self, path):
        try:
            with urllib.request.urlopen(f"http://{self.health}{path}", timeout=LIMIT) as answer:
                return answer.status, answer.read().decode()
        except urllib.error.HTTPError as error:
            with error:
                return error.code, error.read().decode()
        except OSError:
            return 0, ""

    def look(self):
        """Asks whether it is ready, until the end."""
        begin = last = map_due = time.monotonic()
        while not self.is_over:
            if time.monotonic() >= map_due:
                self.page("/map")
                map_due = time.monotonic() + MAP_SECONDS
            self.is_ready = self.page("/readyz")[0] == 200
            now = time.monotonic()
            if self.first_ready is not None and not self.is_ready:
                self.not_ready += now - last
            if self.first_ready is None and self.is_ready:
                self.first_ready = now - begin
            last = now
            time.sleep(LOOK_SECONDS)

    def server(self):
        """The server that was started last."""
        path = self.folder / f"{len(self.servers)}.json"
        if path.exists():
            about = json.loads(path.read_text())
            self.servers.append(Server(path, (about["host"], about["port"]), about["process"]))
        return self.servers[-1] if self.servers else None

    def require_alive(self):
        if self.controller.poll() is not None:
            raise Wrong(f"the controller ended with status {self.controller.returncode}\n{self.log()}")

    def be_steady(self, is_steady):
        """Lets the relay cut no feed, or cut them again: a feed that is filling a server is not cut before it is ready."""
        if is_steady:
            (self.folder / STEADY).touch()
        else:
            (self.folder / STEADY).unlink()

    def stop(self):
        """Ends the controller, and gives its status."""
        self.is_over = True
        if self.controller.poll() is None:
            self.controller.terminate()
        return self.controller.wait(self.words.limit)


class Soak:
    """A cluster, replicas that follow it, and subscribers."""

    def __init__(self, words, room):
        self.words, self.room = words, room
        self.cluster, self.choice = Cluster(words.services, words.seed), random.Random(words.seed)
        self.api = ApiServer(self.cluster)
        self.loop, self.replicas = Loop(), []
        all_queries = queries(words.services)
        self.subscribers = [Subscriber(self.loop, all_queries[it % len(all_queries)]) for it in range(words.subscribers)]
        self.queries = list(dict.fromkeys(it.query for it in self.subscribers))
        self.changes, self.moves, self.spans, self.connect_due = 0, 0, [], 0.0

    def start(self):
        """Starts the controllers."""
        put_kubectl(self.room, self.api)
        for number in range(self.words.replicas):
            self.replicas.append(Replica(self.words, self.room, number))

    def servers(self):
        """All servers that there were."""
        return [it for replica in self.replicas for it in replica.servers]

    def step(self):
        """Lets the subscribers connect and read."""
        if time.monotonic() >= self.connect_due:
            self.connect_due = time.monotonic() + AGAIN_SECONDS
            for it in self.subscribers:
                it.go(self.replicas, self.choice)
        self.loop.step(STEP_SECONDS)

    def until(self, is_done, what):
        end = time.monotonic() + self.words.limit
        while not is_done():
            self.step()
            if time.monotonic() > end:
                raise Wrong(f"{what}: not after {self.words.limit:g} s\n{self.replicas[0].log()}")
            for it in self.replicas:
                it.require_alive()

    def kill(self, replica):
        """Kills the server of a replica, and waits until it is ready again."""
        replica.memory = max(replica.memory, replica.server().memory())
        count, begin = len(replica.servers), time.monotonic()
        replica.be_steady(True)
        os.kill(replica.server().process, signal.SIGKILL)
        self.until(lambda: replica.server() and len(replica.servers) > count, "the server is started again")
        replica.is_ready = False
        until = time.monotonic() + 2 * LOOK_SECONDS
        self.until(lambda: time.monotonic() > until and replica.is_ready, "the controller is ready again")
        self.spans.append(time.monotonic() - begin)
        replica.be_steady(False)

    def run(self):
        """The soak itself."""
        words = self.words
        self.until(lambda: all(it.is_ready for it in self.replicas), "the controllers are ready")
        for it in self.replicas:
            it.be_steady(False)
        begin = time.monotonic()
        kills = [words.seconds * (it + 1) / (words.kills + 1) for it in range(words.kills)]
        restarts = [words.seconds / 2 + 1] if words.seconds >= 60 else []
        while (now := time.monotonic() - begin) < words.seconds:
            self.step()
            while self.changes < now * words.rate:
                self.cluster.change()
                self.changes += 1
            while words.moves and self.moves < now * len(self.subscribers) / words.moves:
                self.choice.choice(self.subscribers).leave()
                self.moves += 1
            if kills and now > kills[0]:
                kills.pop(0)
                self.kill(self.replicas[len(kills) % len(self.replicas)])
            if restarts and now > restarts[0]:
                restarts.pop(0)
                self.cluster.restart()
            for it in self.replicas:
                it.require_alive()

    def stop(self):
        """Ends the controllers and the cluster, and gives the statuses of the controllers."""
        statuses = [it.stop() for it in self.replicas]
        self.cluster.end()
        self.api.shutdown()
        return statuses


def free_address():
    with socket.create_server(("127.0.0.1", 0)) as listener:
        return "127.0.0.1:%d" % listener.getsockname()[1]


def memory(process):
    """Resident MB."""
    with open(f"/proc/{process}/status") as status:
        return next(int(line.split()[1]) for line in status if line.startswith("VmRSS")) / 1024


# ------------------------------------------------------------------------------------------------ what must hold

def ran(program, words, data):
    return subprocess.run([program, *words], input=data, capture_output=True).stdout.decode()


def diagnosis(program, query, feed):
    """The frames of a view, as `diagnose` writes them."""
    return ran(program, ["diagnose", "--id", "1", *query.words()], feed)


class Ends:
    """Whether what each subscriber was sent folds to what `diagnose` shows over the objects of the cluster."""

    def __init__(self, soak):
        self.soak, self.program = soak, soak.words.program
        feed = b"".join(json.dumps(it).encode() + b"\n" for it in soak.cluster.held().values())
        self.expected = {it: diagnosis(self.program, it, feed) for it in soak.queries}
        self.folded = {}

    def folds(self, subscriber):
        """Whether it does, by `fold`."""
        data = bytes(subscriber.session.received)
        known = self.folded.get(subscriber)
        if known is None or known[0] != data:
            lines = "".join(f"frame 1 {frame(it).hex()}\n" for it in subscriber.session.messages())
            view = ran(self.program, ["fold", "--id", "1", "--method", subscriber.query.method], lines.encode())
            known = self.folded[subscriber] = data, view == self.expected[subscriber.query]
        return known[1]

    def all_do(self):
        it = self.soak
        return all(one.is_connected() and self.folds(one) for one in it.subscribers)


class PortView:
    """The view of a port, folded from the messages of WatchPort or WatchPort2, in a form that can be compared."""

    def __init__(self, method):
        self.method, self.whole, self.rows = method, b"", {}

    def take(self, message):
        if self.method == "WatchPort":
            self.whole = message
            return message
        [(number, value)] = records(message)
        if number == 1:
            fields = list(records(value))
            self.whole = tuple(it for it in fields if it[0] != 4)
            self.rows = {self.key(it): it for place, it in fields if place == 4}
        elif number == 2:
            self.rows.update({self.key(it): it for _, it in records(value)})
        else:
            for _, it in records(value):
                del self.rows[self.key(it)]
        return self.whole, frozenset(self.rows.values())

    def key(self, row):
        """The kind and the name of an authorization."""
        fields = dict(records(row))
        return fields[1], fields[2]


def server_of(query, message):
    """The fields of the Server in a message of WatchPort, or in a whole one of WatchPort2; None in others."""
    if query.method == "WatchPort":
        return dict(records(message)) if message else {}
    [(number, value)] = records(message)
    return dict(records(value)) if number == 1 else None


def check_guard(query, message):
    """A port whose Server is never removed has this Server, or there is no Pod."""
    fields = server_of(query, message)
    if fields and (fields.get(3) != f"web-{query.number}".encode() or fields.get(2) != DENY):
        raise Wrong(f"a subscriber of {query.members} was shown a port without its Server: {message.hex()}")


def number_of(line):
    """The number of the Service that an event is about; None for a list."""
    object_ = json.loads(line).get("object")
    return int(re.search(r"-(\d+)", object_["metadata"]["name"])[1]) if object_ else None


class States:
    """The views of ports in each state of one server."""

    def __init__(self, soak, server):
        self.soak, self.program, self.server = soak, soak.words.program, server
        self.queries = [it for it in soak.queries if it.port]
        self.lines = server.recorded(".lines") + server.recorded(".unanswered")
        self.views = {it: {PortView(it.method).take(b"") if it.method == "WatchPort" else (b"", frozenset())} for it in self.queries}
        self.count = 0

    def drains(self, number):
        """The lines that drain the ports of a Service, or all ports."""
        return b"".join(b'{"control":"drain","id":%d}\n' % place for place, it in enumerate(self.queries, 1) if number in (None, it.number))

    def compute(self, samples):
        """Computes the views by `replay`, and some of them by `diagnose`, which must be the same."""
        dice = random.Random(len(self.lines))
        marks = sorted(dice.sample(range(1, len(self.lines) + 1), min(samples, len(self.lines))))
        chosen = {place: dice.choice(self.queries) for place in marks}
        path = self.soak.room / "states.jsonl"
        with path.open("wb") as out:
            for number, query in enumerate(self.queries, 1):
                out.write(json.dumps({"control": "subscribe", "id": number, "query": query.members}).encode() + b"\n")
            out.write(self.drains(None))
            for place, line in enumerate(self.lines, 1):
                out.write(line + self.drains(number_of(line)) + (MARK if place in chosen else b""))
        places = iter(marks)
        folds = [PortView(it.method) for it in self.queries]
        now = [None] * len(folds)
        with path.open("rb") as source:
            replay = subprocess.Popen([self.program, "replay"], stdin=source, stdout=subprocess.PIPE, stderr=subprocess.DEVNULL)
        with replay.stdout as output:
            for line in output:
                word, number, rest = line.split(None, 2)
                if word == b"frame":
                    place = int(number) - 1
                    for message in messages_in(bytes.fromhex(rest.decode())):
                        now[place] = folds[place].take(message)
                    self.views[self.queries[place]].add(now[place])
                elif word == b"refused":
                    self.compare(next(places), chosen, now)
        replay.wait()
        path.unlink()
        if next(places, None) is not None:
            raise Wrong("replay has refused fewer lines than marks")

    def compare(self, place, chosen, now):
        """Compares a view of a state with that of `diagnose`."""
        query = chosen[place]
        fold, last = PortView(query.method), None
        for line in diagnosis(self.program, query, b"".join(self.lines[:place])).splitlines():
            for message in messages_in(bytes.fromhex(line.split()[2])):
                last = fold.take(message)
        if last != now[self.queries.index(query)]:
            raise Wrong(f"replay and diagnose differ for {query.members} after {place} lines")
        self.count += 1

    def check(self, session):
        """Each view that a subscriber was shown is that of some state."""
        fold, shown = PortView(session.query.method), 0
        for message in session.messages():
            if session.query.is_guarded():
                check_guard(session.query, message)
            if fold.take(message) not in self.views[session.query]:
                raise Wrong(f"a subscriber of {session.query.members} was shown what no state gives: {message.hex()}")
            shown += 1
        return shown


def check_states(soak):
    """Checks what each subscriber of a port was shown, and gives the numbers of lines, views and samples."""
    counts = collections.Counter()
    servers = soak.servers()
    for server in servers:
        states = States(soak, server)
        if not states.lines:
            continue
        states.compute(soak.words.samples // len(servers))
        counts["lines"] += len(states.lines)
        counts["unanswered"] += len(server.recorded(".unanswered"))
        counts["refused"] += len(server.recorded(".refused"))
        counts["views"] += sum(map(len, states.views.values()))
        counts["samples"] += states.count
        sessions = [it for one in soak.subscribers for it in one.sessions if it.server is server and it.query.port]
        counts["shown"] += sum(states.check(it) for it in sessions)
    return counts


def metrics(soak, replica):
    """What the metrics of a controller are, what they must be, and the number of its feeds: it is ready, and counts objects and restarts."""
    status, text = replica.page("/metrics")
    samples = dict(line.rsplit(" ", 1) for line in text.splitlines() if not line.startswith("#"))
    expected = {"ready": 1, "server_up": 1, "server_restarts_total": len(replica.servers) - 1}
    for kind, it in soak.cluster.held().items():
        title = "HTTPRoute.policy.linkerd.io" if kind == "HTTPRoute" else kind
        expected[f'objects{{kind="{title}"}}'] = len(it["items"])
    found = {name: float(samples.get(f"linkerd_cli_{name}", -1)) for name in expected}
    return found, expected, int(float(samples.get("linkerd_cli_feeds_total", 0)))


def has_metrics(soak, replica):
    """Whether the metrics of a controller are what they must be."""
    found, expected, _ = metrics(soak, replica)
    return found == expected


def sheet_of(text):
    """The clients, ports and verdicts of the page of a map."""
    match = re.search('<script id="sheet" type="application/json">(.*?)</script>', text, re.DOTALL)
    sheet = json.loads(match[1]) if match else {}
    return {name: it for name, it in sheet.items() if name != "notes"}


def map_of(soak):
    """The map of `tools/mesh map` over the objects of the cluster."""
    path = soak.room / "objects.jsonl"
    gateway = {"kind": "HTTPRouteList", "apiVersion": "gateway.networking.k8s.io/v1", "items": []}
    path.write_text("".join(json.dumps(it) + "\n" for it in [*soak.cluster.held().values(), gateway]))
    command = [sys.executable, CONTROLLER.parent / "mesh", "map", "--program", os.path.abspath(soak.words.program), "--feed", path]
    run = subprocess.run(command, capture_output=True, text=True)
    if run.returncode:
        raise Wrong(f"mesh map ended with status {run.returncode}: {run.stderr}")
    return sheet_of(run.stdout)


def soak_once(words, room):
    """Runs a soak, checks it, and prints its figures."""
    soak = Soak(words, room)
    soak.start()
    try:
        soak.run()
        for it in soak.replicas:
            it.be_steady(True)
        begin = time.monotonic()
        soak.until(Ends(soak).all_do, "each subscriber folds to what diagnose shows over the objects of the cluster")
        seconds = time.monotonic() - begin
        shown = map_of(soak)
        soak.until(lambda: all(sheet_of(it.page("/map")[1]) == shown for it in soak.replicas), "the maps are those of the cluster")
        soak.until(lambda: all(has_metrics(soak, it) for it in soak.replicas), "the metrics are those of the cluster")
        feeds = sum(metrics(soak, it)[2] for it in soak.replicas)
        most = max(max(it.memory, it.server().memory()) for it in soak.replicas)
        of_controller = max(memory(it.controller.pid) for it in soak.replicas)
    finally:
        statuses = soak.stop()
    if any(statuses) or len(soak.servers()) != words.replicas + words.kills:
        raise Wrong(f"the controllers ended with statuses {statuses} by SIGTERM, after {len(soak.servers())} servers\n{soak.replicas[0].log()}")
    sessions = [it for one in soak.subscribers for it in one.sessions]
    counts = check_states(soak)
    print(f"{words.seconds:g} s, replicas: {words.replicas}; {soak.changes:,} changes of {words.services} Services and their objects; {feeds} feeds, "
          f"{soak.cluster.watches} watches, server killed {words.kills} times, {soak.moves} moves")
    print(f"  {counts['lines']:,} lines applied, {counts['refused']} refused, {counts['unanswered']} not answered before a kill")
    print(f"  {len(soak.subscribers)} subscribers of {len(soak.queries)} queries, {len(sessions):,} links, "
          f"{sum(len(it.messages()) for it in sessions):,} messages, {sum(len(it.received) for it in sessions) / 1e6:.1f} MB")
    print(f"  {len(soak.subscribers)} of them fold to what diagnose shows, {seconds:.1f} s after the last change")
    print(f"  {counts['shown']:,} views of ports were shown, each that of a state; {counts['views']:,} views in all states, {counts['samples']} of them by diagnose, too")
    print(f"  ready after {max(it.first_ready for it in soak.replicas):.1f} s; {', '.join(f'{it:.1f} s' for it in soak.spans) or 'never'} after a kill; "
          f"not ready for {sum(it.not_ready for it in soak.replicas):.0f} s in all")
    print(f"  server {most:.1f} MB, controller {of_controller:.1f} MB", flush=True)


def main():
    words = argparse.ArgumentParser(description=__doc__.splitlines()[0])
    words.add_argument("--program", default=PROGRAM, help="the built linkerd_cli")
    words.add_argument("--controller", default=CONTROLLER, help="the controller (default: tools/controller)")
    words.add_argument("--replicas", type=int, default=1, help="replicas, each with a server and a feed of its own")
    words.add_argument("--moves", type=float, default=0, help="seconds after which a subscriber moves to some replica, on the average; 0 is never")
    for name, default, about in (("subscribers", 200, "subscribers"), ("services", 20, "Services"), ("kills", 2, "kills of the server"), ("seed", 1, "of what changes"),
                                 ("samples", 30, "states of which diagnose computes a view, too")):
        words.add_argument(f"--{name}", type=int, default=default, help=about)
    for name, default, about in (("seconds", 1200, "how long it goes on"), ("rate", 5, "changes a second"), ("limit", 60, "seconds for each wait"), ("reconnect", 30, "seconds after which a feed is cut")):
        words.add_argument(f"--{name}", type=float, default=default, help=about)
    options = words.parse_args()
    present(options.program)
    try:
        with tempfile.TemporaryDirectory() as room:
            soak_once(options, pathlib.Path(room))
    except Wrong as wrong:
        sys.exit(f"soak: {wrong}")


if __name__ == "__main__":
    main()
