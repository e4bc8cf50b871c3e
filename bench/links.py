"""Links to a server on the loopback interface, for the measurements in this folder: feeds, subscribers, and a fed cluster that changes."""
import os
import random
import selectors
import signal
import socket
import subprocess
import sys
import tempfile
import time

from feed import address_of, endpoint, service_line, slice_line
from measure import write
from recording import View, Wrong

PATH = b"/io.linkerd.proxy.destination.Destination/Get\n"
WIDTH = 4          # endpoints of a Service, of which one changes
LARGE_FROM = 10_000_000  # the number of the first endpoint of the large Service


# ------------------------------------------------------------------------------------------------ bytes

def varint(number):
    digits = []
    while number > 127:
        digits.append(number & 127 | 128)
        number >>= 7
    return bytes([*digits, number])


def field(number, *parts):
    value = b"".join(parts)
    return bytes([number << 3 | 2]) + varint(len(value)) + value


def frame(message):
    return b"\0" + len(message).to_bytes(4, "big") + message


def request(service):
    return PATH + frame(field(2, f"web-{service}.app.svc.cluster.local:80".encode()))


def address_bytes(number):
    return field(1, b"\x0d" + bytes(int(part) for part in reversed(address_of(number).split("."))))


def remove_frame(numbers):
    """The frame that removes these endpoints."""
    in_order = sorted(numbers, key=lambda number: [int(part) for part in address_of(number).split(".")])
    return frame(field(2, b"".join(field(1, address_bytes(number) + b"\x10\x90\x3f") for number in in_order)))


def messages_in(data):
    while data:
        size = int.from_bytes(data[1:5], "big")
        if data[0] or len(data) < 5 + size:
            raise Wrong("what was sent does not end with a whole frame")
        yield data[5:5 + size]
        data = data[5 + size:]


def fold(data):
    view = View()
    for message in messages_in(data):
        view.take(message)
    return view.exists, view.rows


# ------------------------------------------------------------------------------------------------ peers

class Loop:
    """Sockets, and what is done with each that is ready. No wait takes longer than the limit, in seconds."""

    limit = 60

    def __init__(self):
        self.poller = selectors.DefaultSelector()
        self.slow = []

    def until(self, is_done, what):
        end = time.monotonic() + self.limit
        while not is_done():
            self.step(0.01)
            if time.monotonic() > end:
                raise Wrong(f"{what}: not after {self.limit} s")

    def step(self, seconds):
        for peer in self.slow:
            peer.read_one()
        for key, mask in self.poller.select(0.001 if self.slow else seconds):
            key.data.ready(mask)

    def rest(self, seconds):
        end = time.monotonic() + seconds
        while time.monotonic() < end:
            self.step(0.01)


class Peer:
    """A link that sends and keeps what it receives."""

    def __init__(self, loop, address, data=b"", is_read=True, room=None):
        self.loop, self.out, self.received, self.is_closed, self.last = loop, bytearray(data), bytearray(), False, 0.0
        self.is_read = is_read
        self.socket = socket.socket()
        if room:
            self.socket.setsockopt(socket.SOL_SOCKET, socket.SO_RCVBUF, room)
        self.socket.connect(address)
        self.socket.setsockopt(socket.IPPROTO_TCP, socket.TCP_NODELAY, 1)
        self.socket.setblocking(False)
        self.mask = 0
        self.want()

    def want(self):
        mask = 0 if self.is_closed else selectors.EVENT_READ * self.is_read | selectors.EVENT_WRITE * bool(self.out)
        if mask == self.mask:
            return
        if not mask:
            self.loop.poller.unregister(self.socket)
        elif self.mask:
            self.loop.poller.modify(self.socket, mask, self)
        else:
            self.loop.poller.register(self.socket, mask, self)
        self.mask = mask

    def send(self, data):
        self.out += data
        self.want()

    def ready(self, mask):
        try:
            if mask & selectors.EVENT_READ:
                self.take(self.socket.recv(262_144))
            if mask & selectors.EVENT_WRITE and self.out:
                del self.out[:self.socket.send(self.out)]
        except BlockingIOError:
            pass
        except OSError:
            self.is_closed = True
        self.want()

    def take(self, data):
        self.last = time.monotonic()
        self.is_closed = not data
        self.received += data

    def close(self):
        self.is_closed = True
        self.want()
        self.socket.close()


class Feed(Peer):
    """A feed link. Each line is kept, and each answer must be `ok`."""

    def __init__(self, loop, address):
        super().__init__(loop, address, b"/feed\n")
        self.lines, self.answers, self.rest = [], 0, b""

    def line(self, text):
        self.lines.append(text)
        self.send(text.encode() + b"\n")

    def take(self, data):
        super().take(data)
        self.received.clear()
        *answers, self.rest = (self.rest + data).split(b"\n")
        for answer in answers:
            self.answers += 1
            if answer != b"ok %d" % self.answers:
                raise Wrong(f"the feed was answered {answer!r}")
        if self.is_closed:
            raise Wrong("the server closed the feed link")

    def all_answered(self):
        return self.answers == len(self.lines)


class Slow(Peer):
    """A subscriber that reads a byte at a time."""

    def __init__(self, loop, address, data):
        super().__init__(loop, address, data, is_read=False, room=4_096)
        loop.slow.append(self)

    def read_one(self):
        if self.is_closed:
            return
        try:
            self.take(self.socket.recv(1))
        except BlockingIOError:
            pass
        except OSError:
            self.is_closed = True


# ------------------------------------------------------------------------------------------------ server

class Server:
    """A server of the program on a free port of the loopback interface."""

    def __init__(self, program):
        with socket.create_server(("127.0.0.1", 0)) as listener:
            self.address = listener.getsockname()
        words = [program, "serve", "--bind", "%s:%d" % self.address]
        self.process = subprocess.Popen(words, stdin=subprocess.DEVNULL, stdout=subprocess.DEVNULL)
        end = time.monotonic() + Loop.limit
        while self.process.poll() is None and time.monotonic() < end and not self.listens():
            time.sleep(0.02)
        if self.process.poll() is not None:
            sys.exit(f"{program} serve ended with status {self.process.returncode}")

    def listens(self):
        try:
            socket.create_connection(self.address, 1).close()
        except OSError:
            return False
        return True

    def __enter__(self):
        return self

    def __exit__(self, *_):
        if self.process.poll() is None:
            self.process.send_signal(signal.SIGKILL)
        self.process.wait()

    def memory(self):
        """Resident MB."""
        with open(f"/proc/{self.process.pid}/status") as status:
            return next(int(line.split()[1]) for line in status if line.startswith("VmRSS")) / 1024

    def seconds(self):
        """Processor seconds."""
        with open(f"/proc/{self.process.pid}/stat") as stat:
            parts = stat.read().rpartition(")")[2].split()
        return (int(parts[11]) + int(parts[12])) / os.sysconf("SC_CLK_TCK")


class Cluster:
    """Services with a slice each, and the endpoints that each has now. The large Service has numbers of its own."""

    def __init__(self, feed, services):
        self.feed, self.large = feed, services
        self.fresh = {True: LARGE_FROM, False: 0}
        self.numbers = {}
        for service in range(services):
            self.put(service, WIDTH)

    def new_numbers(self, service, count):
        first = self.fresh[service == self.large]
        self.fresh[service == self.large] += count
        return list(range(first, first + count))

    def put(self, service, count):
        """A Service of so many endpoints."""
        self.numbers[service] = self.new_numbers(service, count)
        self.feed.line(service_line(service))
        self.feed.line(self.slice(service, "ADDED"))

    def slice(self, service, kind):
        return slice_line(service, service, kind, [endpoint(number) for number in self.numbers[service]])

    def change(self, service, count=1):
        """Sends a slice with new endpoints in place of the first ones, and gives the frame that removes these."""
        gone, left = self.numbers[service][:count], self.numbers[service][count:]
        self.numbers[service] = left + self.new_numbers(service, count)
        self.feed.line(self.slice(service, "MODIFIED"))
        return remove_frame(gone)


class Scene:
    """A server with a fed cluster and subscribers that have their first view."""

    def __init__(self, program, subscribers, services):
        self.program, self.server, self.loop = program, Server(program), Loop()
        self.feed = Feed(self.loop, self.server.address)
        self.cluster = Cluster(self.feed, services)
        self.loop.until(self.feed.all_answered, "the first objects")
        self.peers = {}
        for number in range(subscribers):
            service = number % services
            self.peers.setdefault(service, []).append(self.subscriber(service))
        self.loop.until(lambda: all(peer.received for peer in self.all()), "the first views")
        self.loop.rest(0.1)

    def __enter__(self):
        return self

    def __exit__(self, *_):
        self.server.__exit__()

    def subscriber(self, service):
        return Peer(self.loop, self.server.address, request(service))

    def all(self):
        return [peer for peers in self.peers.values() for peer in peers]

    def change(self, service, count=1):
        """Sends a change, and waits until each subscriber of the Service has all bytes of it. The seconds from the line to the last byte."""
        last = self.cluster.change(service, count)
        peers, begin = self.peers.get(service, []), time.monotonic()
        self.loop.until(lambda: self.feed.all_answered() and all(peer.received.endswith(last) for peer in peers), f"a change of web-{service}")
        return max([peer.last for peer in peers], default=begin) - begin

    def check(self, most=None):
        """Compares what each subscriber of so many Services, or of all, folds to with what `diagnose` shows over the same feed."""
        checked = list(self.peers)[:most]
        with tempfile.TemporaryDirectory() as folder:
            path = write(os.path.join(folder, "feed.jsonl"), self.feed.lines)
            expected = {service: self.diagnosis(path, service) for service in checked}
        for service in checked:
            for peer in self.peers[service]:
                if peer.is_closed:
                    raise Wrong(f"a subscriber of web-{service} was closed")
                if fold(bytes(peer.received)) != expected[service]:
                    raise Wrong(f"a subscriber of web-{service} folds to something else than diagnose shows")
        return sum(len(self.peers[service]) for service in checked)

    def diagnosis(self, path, service):
        words = ["diagnose", "--id", "1", "--method", "Get", "--path", f"web-{service}.app.svc.cluster.local:80"]
        with open(path, "rb") as source:
            run = subprocess.run([self.program, *words], stdin=source, capture_output=True)
        return fold(b"".join(bytes.fromhex(line.split()[2]) for line in run.stdout.decode().splitlines()))


# ------------------------------------------------------------------------------------------------ changes

def order_of(services, changes):
    dice = random.Random(1)
    return [dice.randrange(services) for _ in range(changes)]


def percentile(values, part):
    return sorted(values)[min(len(values) - 1, int(len(values) * part))]
