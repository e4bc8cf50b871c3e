#!/usr/bin/env python3
"""What an event and a drain cost after a small change of a large Service, in processor time. Needs the proved program (tools/prove), or the
path of a program as its argument.

One Service has 10,000 endpoints in 100 slices. A hundred times, one of its slices comes with one endpoint in place of another,
and the subscription is drained: one address is added, one removed. The time for each drain is that of the run less that of a
run over the same events, whose subscription is drained at the end alone, divided by 100. That for each event is the time of this
run less that of a run in which nobody subscribes before the events, divided by 100. The second time each endpoint has its Pod, so
that it has labels, an identity and a hint."""
import os
import subprocess
import sys
import tempfile

from feed import drain_line, endpoint, pod_line, service_line, slice_line, subscribe_line
from measure import best, program_of, write

SLICES = 100
WIDTH = 100  # endpoints of a slice
DRAINS = 100
MESSAGE = 1_000  # addresses of a message


def numbers_of(place, change):
    """The endpoints of a slice after so many changes, each of which puts a new one in place of the first."""
    first = place * WIDTH
    numbers = list(range(first, first + WIDTH))
    if change:
        numbers[0] = SLICES * WIDTH + change
    return numbers


def line_of(place, change=0):
    kind = "MODIFIED" if change else "ADDED"
    return slice_line(place, 0, kind, [endpoint(number) for number in numbers_of(place, change)])


def lines(has_pods, has_drains, is_early=True):
    yield service_line(0)
    if has_pods:
        for number in range(SLICES * WIDTH + DRAINS + 1):
            yield pod_line(number)
    for place in range(SLICES):
        yield line_of(place)
    if is_early:
        yield subscribe_line(1, 0)
    if has_drains:
        yield drain_line(1)
    for change in range(1, DRAINS + 1):
        yield line_of(SLICES // 2, change)
        if has_drains:
            yield drain_line(1)
    if not is_early:
        yield subscribe_line(1, 0)


def frames(program, path):
    """How many frames a run gives."""
    with open(path, "rb") as source:
        run = subprocess.run([program, "replay"], stdin=source, capture_output=True)
    return sum(line.startswith(b"frame 1 ") for line in run.stdout.splitlines())


def measure(program, folder, title, has_pods):
    path = {has_drains: os.path.join(folder, f"{has_drains}.jsonl") for has_drains in (False, True)}
    for has_drains in path:
        write(path[has_drains], lines(has_pods, has_drains))
    late = os.path.join(folder, "late.jsonl")
    write(late, lines(has_pods, False, is_early=False))
    at_once = SLICES * WIDTH // MESSAGE
    wanted, found = (at_once, at_once + 2 * DRAINS), (frames(program, path[False]), frames(program, path[True]))
    if found != wanted:
        sys.exit(f"{title}: {found} frames without and with drains in place of {wanted}")
    without, with_them = (best([program, "replay"], path[has_drains]) for has_drains in (False, True))
    unasked = best([program, "replay"], late)
    each, event = (with_them[0] - without[0]) / DRAINS, (without[0] - unasked[0]) / DRAINS
    print(f"{title}: {without[0]:.2f} s without drains, {with_them[0]:.2f} s with {DRAINS}, {with_them[1]:.0f} MB peak")
    print(f"  for each event {event * 1000:.2f} ms, for each drain {each * 1000:.2f} ms")


def main():
    program = program_of(__doc__)
    with tempfile.TemporaryDirectory() as folder:
        measure(program, folder, "10,000 endpoints", has_pods=False)
        measure(program, folder, "10,000 endpoints with their Pods", has_pods=True)


if __name__ == "__main__":
    main()
