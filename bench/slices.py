#!/usr/bin/env python3
"""Runs 99,900 EndpointSlice lines of about 1.2 KB, as an API server writes them, through the program and through Python's
json.loads. Needs the proved program (tools/prove).

The first table is the list of a cluster as an API server sends it, in order of the keys. The second has as many events
on a tenth of the slices: the memory falls with the objects held. The third has the lines of the first in random order, in
which each new object moves those after it in a chunk of the list of its kind. The fourth adds a hundred subscriptions to the second, each of
which costs a pass over the objects held at the end of the input."""
import os
import random
import tempfile

from feed import service_line, slice_line, subscribe_line
from measure import table, write

LINES = 99_900  # with the Services, as many objects as may be held


def lines(numbers, subscriptions):
    """A hundred Services, slices with these numbers, and so many subscriptions."""
    yield from (service_line(service) for service in range(100))
    yield from (slice_line(number, number % 100) for number in numbers)
    yield from (subscribe_line(number + 1, number % 100) for number in range(subscriptions))


def by_key(numbers):
    return sorted(numbers, key=lambda number: "web-%d-%05x" % (number % 100, number))


def main():
    random.seed(1)
    held = range(LINES // 10)
    runs = (
        ("99,900 slices in order of their keys", by_key(range(LINES)), 1),
        ("99,900 events on 9,990 slices", by_key(held) * 10, 1),
        ("99,900 slices in random order", random.sample(range(LINES), LINES), 1),
        ("99,900 events on 9,990 slices, 100 subscriptions", by_key(held) * 10, 100),
    )
    with tempfile.TemporaryDirectory() as folder:
        path = os.path.join(folder, "feed.jsonl")
        for title, numbers, subscriptions in runs:
            write(path, lines(numbers, subscriptions))
            table(title, path)


if __name__ == "__main__":
    main()
