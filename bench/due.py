#!/usr/bin/env python3
"""What an event, a drain and a cancellation cost beside many subscriptions, in processor time. Needs the proved program
(tools/prove), or the path of a program as its argument.

- 1,000 and 5,000 Services have a slice and a drained `Get` each, and one of the slices changes 10,000 times. The time for an event
  is to be the same beside both.
- 1,000 Pods of one namespace have a drained `WatchPort` each, and a Server; each Pod takes another label ten times.
- 1,000 drained subscriptions are drained 1,000,000 times more, where nothing has changed.
- 10,000 subscriptions are cancelled, beginning with the first, beginning with the last, and each before the next one is made.

The time for each is that of the run less that of a run without these lines; of cancellations it is that of a subscription with its
cancellation. Beside events and drains stands what it takes to read lines that do nothing: as many BOOKMARK events. A run is ended
after LIMIT seconds of processor time, and the table then says so. A run that doesn't end with status 0, or doesn't write as many
lines as it should, ends the measurement."""
import os
import subprocess
import tempfile

from feed import drain_line, endpoint, joined, service_line, slice_line, subscribe_line, text_of
from measure import is_ended, program_of, require_lines, seconds_of, wait, write

EVENTS = 10_000
PODS = 1_000
ROUNDS = 10
ASKED = 1_000
DRAINS = 1_000_000
CANCELS = 10_000
TIMES = 3  # runs of each feed, of which the least counts
LIMIT = 120  # seconds of processor time of one run


def cancel_line(number):
    return text_of({"control": "cancel", "id": number})


def bookmark_line():
    return text_of({"type": "BOOKMARK", "object": {"kind": "Pod", "apiVersion": "v1"}})


# ------------------------------------------------------------------------------------------------ runs

def run(program, path, wanted):
    """Processor seconds of a run that writes so many lines, or None where it took too long."""
    with open(path, "rb") as source, tempfile.TemporaryFile() as sink:
        status, usage = wait([program, "replay"], source, sink, subprocess.DEVNULL, LIMIT)
        if is_ended(status):
            return None
        require_lines(program, status, sink, wanted)
    return seconds_of(usage)


def least(program, folder, lines, wanted):
    """The least processor seconds of TIMES runs over a feed, or None where one took too long."""
    path = write(os.path.join(folder, "feed.jsonl"), lines)
    found = []
    for _ in range(TIMES):
        found.append(run(program, path, wanted))
        if found[-1] is None:
            return None
    return min(found)


def tell(title, count, seconds, before=0.0):
    if seconds is None or before is None:
        print(f"{title:58} {count:9,}   more than {LIMIT} s")
        return
    print(f"{title:58} {count:9,} {seconds - before:8.2f} s {(seconds - before) / count * 1e6:9.1f} us each", flush=True)


# ------------------------------------------------------------------------------------------------ feeds

def services(count):
    """So many Services with a slice and a drained subscription each."""
    for number in range(count):
        yield service_line(number)
        yield slice_line(number, number)
    for number in range(count):
        yield subscribe_line(number + 1, number)
        yield drain_line(number + 1)


def changes(count):
    """The first slice with another endpoint each time. The last one isn't that of the beginning."""
    for number in range(count):
        yield slice_line(0, 0, "MODIFIED", [endpoint(number + 1)])


def pod_line(number, label):
    return text_of({"type": "MODIFIED", "object": {
        "kind": "Pod", "apiVersion": "v1", "metadata": {"name": f"web-{number}", "namespace": "app", "labels": {"app": "web", "round": label}},
        "spec": {"containers": [{"ports": [{"name": "http", "containerPort": 8080}]}]}, "status": {"podIP": f"10.1.{number // 250}.{number % 250}"}}})


def ports():
    """Pods that a Server selects, with a drained subscription each."""
    yield text_of({"type": "ADDED", "object": {
        "kind": "Server", "apiVersion": "policy.linkerd.io/v1beta3", "metadata": {"name": "web", "namespace": "app"},
        "spec": {"podSelector": {"matchLabels": {"app": "web"}}, "port": 8080}}})
    for number in range(PODS):
        yield pod_line(number, "first")
    for number in range(PODS):
        yield text_of({"control": "subscribe", "id": number + 1, "query": {"method": "WatchPort", "workload": f"app:web-{number}", "port": 8080}})
        yield drain_line(number + 1)


def relabelled():
    for label in range(ROUNDS):
        for number in range(PODS):
            yield pod_line(number, str(label))


def all_cancelled(count):
    """At the end of a feed, so that nothing is drained there."""
    return (cancel_line(number + 1) for number in range(count))


def cancelled(order):
    for number in range(CANCELS):
        yield subscribe_line(number + 1, number)
        if order == "at once":
            yield cancel_line(number + 1)
    if order == "first":
        yield from all_cancelled(CANCELS)
    if order == "last":
        yield from (cancel_line(CANCELS - number) for number in range(CANCELS))


# ------------------------------------------------------------------------------------------------ measurements

def measure_events(program, folder):
    for count in (1_000, 5_000):
        before = least(program, folder, services(count), count)
        after = least(program, folder, joined(services(count), changes(EVENTS)), count + 2)
        tell(f"changes of one slice beside {count:,} Services with a Get", EVENTS, after, before)
    before = least(program, folder, services(1), 1)
    after = least(program, folder, joined(services(1), changes(EVENTS)), 1 + 2)
    tell("the same beside no other Service", EVENTS, after, before)


def measure_pods(program, folder):
    before = least(program, folder, joined(ports(), all_cancelled(PODS)), PODS)
    after = least(program, folder, joined(ports(), relabelled(), all_cancelled(PODS)), PODS)
    tell(f"labels of {PODS:,} Pods change beside {PODS:,} WatchPort", ROUNDS * PODS, after, before)


def measure_drains(program, folder):
    before = least(program, folder, services(ASKED), ASKED)
    after = least(program, folder, joined(services(ASKED), (drain_line(number % ASKED + 1) for number in range(DRAINS))), ASKED)
    tell(f"drains of {ASKED:,} ids that aren't due", DRAINS, after, before)
    bookmarks = least(program, folder, joined(services(ASKED), (bookmark_line() for _ in range(DRAINS))), ASKED)
    tell("lines that do nothing, in place of these drains", DRAINS, bookmarks, before)


def measure_cancels(program, folder):
    for order, words in (("first", "cancelled from the first on"), ("last", "cancelled from the last on"), ("at once", "each cancelled at once")):
        tell(f"subscriptions, {words}", CANCELS, least(program, folder, cancelled(order), 0))


def main():
    program = program_of(__doc__)
    with tempfile.TemporaryDirectory() as folder:
        measure_events(program, folder)
        measure_pods(program, folder)
        measure_drains(program, folder)
        measure_cancels(program, folder)


if __name__ == "__main__":
    main()
