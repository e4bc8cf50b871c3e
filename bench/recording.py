#!/usr/bin/env python3
"""Compares what subscribers are sent with what Kubernetes' own controller made of the same recording.

    bench/recording.py PROGRAM FOLDER

PROGRAM is the built linkerd_cli. FOLDER has what a kube-apiserver printed: `kubernetes.jsonl`, the events of all kinds as
`kubectl get --raw PATH?watch=1` prints them; `kubernetes_lists.jsonl`, the lists of the same kinds at the end, one a line; and
`endpoints.json`, the Endpoints objects at the end. Frames are decoded here, by docs/proxy.proto. Each Service port has a
subscription, and these must hold:

- Its endpoints are those of the Endpoints object: addresses, port and the names of the Pods. An endpoint's account is its
  Pod's, and it has an identity where its Pod is labelled for the control plane `linkerd`. It is then reached by HTTP/2 unless
  its port is among the Pod's opaque ports.
- The events, in the order of the file and in the order in which they happened, and the lists give the same frames.
- With a drain of each subscription after each hundredth event, the messages so far give what a new subscriber is sent after
  that event. No message adds what is there, or removes what is not, and what is written up to an event does not change
  with the events after it.

The status is 1 where one of them does not hold."""
import argparse
import ipaddress
import json
import pathlib
import re
import subprocess
import sys

EVERY = 100
OPAQUE_PORTS = "25,587,3306,4444,5432,6379,9300,11211"


class Wrong(Exception):
    """What does not hold."""


# ------------------------------------------------------------------------------------------------ messages

def varint(data, at):
    value = shift = 0
    while True:
        byte = data[at]
        at += 1
        value |= (byte & 127) << shift
        shift += 7
        if byte < 128:
            return value, at


def records(message):
    """The field numbers and the values of a message's records."""
    at = 0
    while at < len(message):
        tag, at = varint(message, at)
        wire = tag & 7
        if wire == 0:
            value, at = varint(message, at)
        else:
            size, at = varint(message, at) if wire == 2 else ({1: 8, 5: 4}[wire], at)
            value, at = message[at:at + size], at + size
            if wire != 2:
                value = int.from_bytes(value, "little")
        if at > len(message):
            raise Wrong("a record ends after its message")
        yield tag >> 3, value


def fields(message):
    """The last value of each field."""
    return dict(records(message))


def tcp_address(message):
    """An address as text, and its port."""
    parts = fields(message)
    ip = fields(parts[1])
    if 1 in ip:
        return str(ipaddress.IPv4Address(ip[1])), parts.get(2, 0)
    halves = fields(ip[2])
    return str(ipaddress.IPv6Address(halves.get(1, 0) << 64 | halves.get(2, 0))), parts.get(2, 0)


def text_in(message, *path):
    """The text at the end of a path of fields, or None where a message on the way is absent."""
    for field in path:
        message = fields(message).get(field)
        if message is None:
            return None
    return message.decode()


def endpoint(message):
    """The address of an endpoint, and all else that is told of it."""
    parts = fields(message)
    labels = [fields(value) for field, value in records(message) if field == 4]
    hint = fields(parts.get(6, b""))
    return tcp_address(parts[1]), {
        "weight": parts.get(3, 0),
        "labels": {label[1].decode(): label[2].decode() for label in labels},
        "identity": text_in(message, 5, 1, 1),
        "h2": 1 in hint,
        "tunnel": fields(hint.get(2, b"")).get(1),
    }


class View:
    """What a subscriber knows after its messages."""

    def __init__(self):
        self.exists, self.rows = False, {}

    def take(self, message):
        [(field, inner)] = records(message)
        if field == 1:
            self.add([endpoint(value) for _, value in records(inner)])
        elif field == 2:
            self.remove([tcp_address(value) for _, value in records(inner)])
        elif field == 3:
            self.exists, self.rows = bool(fields(inner).get(1, 0)), {}
        else:
            raise Wrong(f"a message with field {field}")

    def add(self, endpoints):
        self.exists = True
        for address, row in endpoints:
            if self.rows.get(address) == row:
                raise Wrong(f"{address} is added as it is there already")
            self.rows[address] = row

    def remove(self, addresses):
        for address in addresses:
            if self.rows.pop(address, None) is None:
                raise Wrong(f"{address} is removed and is not there")


def views_after(output):
    """What the subscribers know after these lines, by id."""
    views = {}
    for line in output:
        word, number, digits = line.split(" ")
        frame = bytes.fromhex(digits)
        if word != "frame" or frame[0] != 0 or int.from_bytes(frame[1:5], "big") != len(frame) - 5:
            raise Wrong(f"the program wrote {line}")
        views.setdefault(int(number), View()).take(frame[5:])
    return {number: (view.exists, view.rows) for number, view in views.items()}


# ------------------------------------------------------------------------------------------------ feeds

def replay(program, lines):
    """What the program writes for these lines."""
    feed = "".join(f"{line}\n" for line in lines)
    run = subprocess.run([program, "replay"], input=feed, capture_output=True, text=True)
    output = run.stdout.splitlines()
    if run.returncode != 0:
        others = [line for line in output if not line.startswith("frame ")]
        raise Wrong(f"the program ended with status {run.returncode}: {others[:3]} {run.stderr.strip()}")
    return output


def subscription(number, port):
    namespace, name, number_of_port = port
    path = f"{name}.{namespace}.svc.cluster.local:{number_of_port}"
    return json.dumps({"control": "subscribe", "id": number, "query": {"method": "Get", "path": path}})


def as_they_happened(events):
    return sorted(events, key=lambda line: int(json.loads(line)["object"]["metadata"]["resourceVersion"]))


def with_drains(subscriptions, events):
    yield from subscriptions
    for place, line in enumerate(events, 1):
        yield line
        if place % EVERY == 0:
            for number in range(1, len(subscriptions) + 1):
                yield json.dumps({"control": "drain", "id": number})


# ------------------------------------------------------------------------------------------------ what must come

def items_of(lists, kind):
    """The objects of a kind in the lists, by namespace and name."""
    for line in lists:
        value = json.loads(line)
        if value["kind"] == kind + "List":
            return {(it["metadata"]["namespace"], it["metadata"]["name"]): it for it in value["items"]}
    raise Wrong(f"there is no list of {kind}")


def service_ports(services):
    """Each port of each Service with its name; port 80 of one that has no ports."""
    for (namespace, name), service in sorted(services.items()):
        for port in service["spec"].get("ports", [{"port": 80}]):
            yield (namespace, name, port["port"]), port.get("name", "")


def ready_endpoints(endpoints, name_of_port):
    """The ready addresses of an Endpoints object at the ports of a name, each with its Pod's name."""
    found = {}
    for subset in endpoints.get("subsets", []):
        for port in subset.get("ports", []):
            if port.get("name", "") == name_of_port and port.get("protocol", "TCP") == "TCP":
                for address in subset.get("addresses", []):
                    found[address["ip"], port["port"]] = address["targetRef"]["name"]
    return found


def is_opaque(pod, port):
    """Whether a port is among the opaque ports of a Pod, which its annotation gives; without it they are the usual ones."""
    listed = pod["metadata"].get("annotations", {}).get("config.linkerd.io/opaque-ports", OPAQUE_PORTS)
    ranges = (re.fullmatch(r"([0-9]+)(?:-([0-9]+))?", entry.strip()) for entry in listed.split(","))
    return any(int(it[1]) <= port <= int(it[2] or it[1]) for it in ranges if it)


def wanted_row(namespace, pod, port):
    """What must be told of an endpoint at a port of this Pod."""
    account = pod["spec"].get("serviceAccountName") or "default"
    is_meshed = pod["metadata"].get("labels", {}).get("linkerd.io/control-plane-ns") == "linkerd"
    identity = f"{account}.{namespace}.serviceaccount.identity.linkerd.cluster.local"
    return {
        "weight": 10000,
        "labels": {"pod": pod["metadata"]["name"], "serviceaccount": account},
        "identity": identity if is_meshed else None,
        "h2": is_meshed and not is_opaque(pod, port),
        "tunnel": 4143 if is_meshed else None,
    }


def wanted_views(folder, lists):
    """For each Service port what a subscriber must know at the end, by Kubernetes' own Endpoints objects."""
    services, pods = items_of(lists, "Service"), items_of(lists, "Pod")
    listed = json.loads((folder / "endpoints.json").read_text())["items"]
    endpoints = {(it["metadata"]["namespace"], it["metadata"]["name"]): it for it in listed}
    wanted = {}
    for port, name_of_port in service_ports(services):
        namespace, name, _ = port
        exists = services[namespace, name]["spec"].get("type") != "ExternalName"
        found = ready_endpoints(endpoints.get((namespace, name), {}), name_of_port) if exists else {}
        wanted[port] = exists, {address: wanted_row(namespace, pods[namespace, pod], address[1]) for address, pod in found.items()}
    return wanted


# ------------------------------------------------------------------------------------------------ the comparisons

def differences(found, wanted):
    """The addresses at which two views differ."""
    return [address for address in {**found[1], **wanted[1]} if found[1].get(address) != wanted[1].get(address)]


def compare(what, ports, found, wanted):
    for number, port in enumerate(ports, 1):
        if found.get(number) != wanted[number]:
            ours, theirs = found.get(number, (False, {})), wanted[number]
            places = differences(ours, theirs)
            rows = [(place, ours[1].get(place), theirs[1].get(place)) for place in places[:3]]
            raise Wrong(f"{what}: port {port}: exists {ours[0]}, wanted {theirs[0]}; {len(places)} addresses differ: {rows}")


def compare_drains(program, ports, subscriptions, events):
    """How many frames the drains gave, over all of the events."""
    before = []
    for end in sorted({*range(EVERY, len(events), EVERY), len(events)}):
        output = replay(program, with_drains(subscriptions, events[:end]))
        if output[:len(before)] != before:
            raise Wrong(f"what was written up to an event before line {end} changed with the events after it")
        before = output
        afresh = views_after(replay(program, [*events[:end], *subscriptions]))
        compare(f"after event {end}", ports, views_after(output), afresh)
    return len(before)


def check(program, folder):
    events = (folder / "kubernetes.jsonl").read_text().splitlines()
    lists = (folder / "kubernetes_lists.jsonl").read_text().splitlines()
    wanted = wanted_views(folder, lists)
    ports = list(wanted)
    subscriptions = [subscription(number, port) for number, port in enumerate(ports, 1)]
    output = replay(program, [*lists, *subscriptions])
    compare("lists", ports, views_after(output), dict(enumerate(wanted.values(), 1)))
    endpoints = sum(len(rows) for _, rows in wanted.values())
    print(f"{len(ports)} Service ports with {endpoints} endpoints: as Kubernetes' own controller has them")
    for title, order in (("as recorded", events), ("as they happened", as_they_happened(events))):
        if replay(program, [*order, *subscriptions]) != output:
            raise Wrong(f"the events {title} and the lists give different frames")
        frames = compare_drains(program, ports, subscriptions, order)
        print(f"{len(order)} events {title}: the frames of the lists; drained after each {EVERY}, {frames} frames give the same views")


def main():
    words = argparse.ArgumentParser(description=__doc__.splitlines()[0])
    words.add_argument("program", type=pathlib.Path, help="the built linkerd_cli")
    words.add_argument("folder", type=pathlib.Path, help="the recordings")
    arguments = words.parse_args()
    try:
        check(arguments.program.resolve(), arguments.folder)
    except Wrong as wrong:
        print(f"WRONG: {wrong}")
        return 1
    return 0


if __name__ == "__main__":
    sys.exit(main())
