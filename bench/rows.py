#!/usr/bin/env python3
"""What shared rows of endpoints save: a program beside an older one, in processor time and peak memory, or in instructions.

    bench/rows.py --program FILE --old FILE     both, in turn, with the ratios of the older to the newer
    bench/rows.py                               the proved program (tools/prove) alone
    bench/rows.py --rows few,shared             these rows alone: few, cluster, shared, wide, slices, annotated, folds, given
    bench/rows.py --instructions                instructions as valgrind counts them, which don't depend on what else runs

Each row is one measurement of `replay`, or of `fold`, as compare.py says. The time of a change is that of a run less that of a run
over the same feed without the changes."""
import json
import os
import random
import subprocess

from compare import less, main
from due import bookmark_line, changes, services
from feed import drain_line, endpoint, joined, pod_line, service_line, slice_line, subscribe_line, text_of
from folds import lines as fold_lines
from slices import LINES, by_key

FEW = 10_000       # changes of one slice, each with a drain
CHANGES = 50_000
FOLDED = 10_000
BOOKMARKS = 200_000
ANNOTATED, ANNOTATION = 50, 250_000  # Pods with an annotation, and its bytes
CHANGES_BESIDE = 100  # changes of a slice beside them
WIDE = 2_000, 100  # changes of a Service in many slices: with the program, and with the older one


# ------------------------------------------------------------------------------------------------ rows

def drained_changes(count):
    """The first slice with another endpoint each time, and a drain of its subscription."""
    for text in changes(count):
        yield text
        yield drain_line(1)


def few(bench):
    rows, changed = [], bench.some(FEW)
    for count in (400, 4_000):
        before = bench.replays(services(count), count)
        after = bench.replays(joined(services(count), drained_changes(changed)), count + 2 * changed)
        rows.append(bench.tell(f"a slice changes, its Get is drained, among {count:,} Services", less(after, before), changed))
    bench.ratio("4,000 to 400 (to reach: 1.2)", rows[1], rows[0])


def cluster(bench):
    changed = bench.some(CHANGES)
    lines = joined(services(5_000), drained_changes(changed))
    bench.tell(f"{changed:,} such changes with drains among 5,000 Services", bench.replays(lines, 5_000 + 2 * changed))


def asked(count, endpoints, is_changed):
    """A Service with so many endpoints and so many drained subscriptions, and a change of one endpoint, which the end of the feed drains."""
    numbers = list(range(endpoints))
    yield service_line(0)
    yield slice_line(0, 0, "ADDED", [endpoint(number) for number in numbers])
    for number in range(count):
        yield subscribe_line(number + 1, 0)
        yield drain_line(number + 1)
    if is_changed:
        yield slice_line(0, 0, "MODIFIED", [endpoint(number) for number in [endpoints, *numbers[1:]]])
        yield from (drain_line(number + 1) for number in range(count))


def shared_row(bench, count, endpoints):
    """Of the drains of the first view and of those after the change, the latter."""
    batches = -(-endpoints // 1_000)
    before = bench.replays(asked(count, endpoints, False), count * batches)
    after = bench.replays(asked(count, endpoints, True), count * (batches + 2))
    bench.tell(f"{count:,} Gets of one Service, {endpoints:,} endpoints: all", after, with_memory=True)
    return bench.tell("  one change, for each subscriber", less(after, before), count)


def shared(bench):
    found, lines = shared_row(bench, 10_000, 10), bench.some(BOOKMARKS)
    reads = bench.replays((bookmark_line() for _ in range(lines)), 0)
    bench.tell("  a BOOKMARK line", reads, lines)
    bench.ratio("a subscriber to a BOOKMARK line (to reach: 2)", [run.scaled(lines / 10_000) for run in found], reads)


def wide(bench):
    shared_row(bench, 1_000, 1_000)


def sliced(slices, width, count):
    """A Service in slices, each endpoint with its Pod, whose first slice changes so often and is drained each time."""
    yield from (pod_line(number) for number in range(slices * width + count + 1))
    yield from fold_lines(slices, width, count)


def slices(bench):
    rows = []
    for count in (1, 100):
        at_once = -(-count * 100 // 1_000)
        found = bench.changes(WIDE, lambda times: sliced(count, 100, times), lambda times: at_once + 2 * times)
        rows.append(bench.tell(f"a slice of a Service of {count * 100:,} Pods changes, drained", found, bench.some(WIDE[0])))
    bench.ratio("100 slices to one slice (to reach: 3)", rows[1], rows[0])


def annotated_pod(number):
    """The Pod that an endpoint targets, with an annotation of ANNOTATION bytes, which names no port of it."""
    line = json.loads(pod_line(number))
    line["object"]["metadata"]["annotations"]["config.linkerd.io/opaque-ports"] = ("1-2," * (ANNOTATION // 4))[:-1]
    return text_of(line)


def annotated_pods(count):
    """A Service of ANNOTATED Pods in one slice, and of one endpoint more in another, which changes so often and is drained each time."""
    yield service_line(0)
    for number in range(ANNOTATED):
        yield annotated_pod(number)
    yield slice_line(0, 0, "ADDED", [endpoint(number) for number in range(ANNOTATED)])
    yield slice_line(1, 0, "ADDED", [endpoint(ANNOTATED)])
    yield subscribe_line(1, 0)
    yield drain_line(1)
    for number in range(count):
        yield slice_line(1, 0, "MODIFIED", [endpoint(ANNOTATED + 1 + number)])
        yield drain_line(1)


def annotated(bench):
    changed = bench.some(CHANGES_BESIDE)
    before = bench.replays(annotated_pods(0), 1)
    after = bench.replays(annotated_pods(changed), 1 + 2 * changed)
    bench.tell(f"a slice changes beside {ANNOTATED} Pods with annotations of {ANNOTATION // 1_000} KB, drained", less(after, before), changed)


def folded(bench, slices, width, count):
    """A run of `fold` of each program over what the newest one writes for so many changes."""
    feed, frames = bench.write("feed.jsonl", fold_lines(slices, width, count)), os.path.join(bench.folder, "frames.txt")
    with open(feed, "rb") as source, open(frames, "wb") as sink:
        subprocess.run([bench.programs[0], "replay"], stdin=source, stdout=sink, stderr=subprocess.DEVNULL, check=True)
    wanted = -(-slices * width // 1_000)
    return bench.each([([program, "fold", "--id", "1", "--method", "Get"], frames, wanted) for program in bench.programs])


def folds(bench):
    rows, changed = [], bench.some(FOLDED)
    for count, width in ((1, 10), (1_000, 10)):
        found = less(folded(bench, count, width, changed), folded(bench, count, width, 0))
        rows.append(bench.tell(f"fold of a change of a view of {count * width:,} endpoints", found, changed))
    bench.ratio("10,000 to 10 endpoints (to reach: 3)", rows[1], rows[0])


def given(bench):
    random.seed(1)
    orders = {"in order of their keys": by_key(range(LINES)), "in random order": random.sample(range(LINES), LINES)}
    for title, numbers in orders.items():
        lines = joined((service_line(number) for number in range(100)), (slice_line(number, number % 100) for number in numbers))
        bench.tell(f"{LINES:,} slices {title}", bench.replays(lines, 0), with_memory=True)


ROWS = {"few": few, "cluster": cluster, "shared": shared, "wide": wide, "slices": slices, "annotated": annotated, "folds": folds, "given": given}


if __name__ == "__main__":
    main(__doc__, ROWS)
