#!/usr/bin/env python3
"""What `fold` takes for each change of a large view and of a small one, in processor time. Needs the proved program (tools/prove),
or the path of a program as its argument.

A Service has 10 or 10,000 endpoints. 2,000 times one of its slices comes with one endpoint in place of another, and the subscription
is drained: a message adds an address, another removes one. The time for each change is that of a fold of all frames less that of a
fold of the first view alone, divided by 2,000."""
import os
import subprocess
import tempfile

from feed import drain_line, endpoint, service_line, slice_line, subscribe_line
from measure import best, program_of, write

CHANGES = 2_000


def lines(slices, width, changes):
    yield service_line(0)
    for place in range(slices):
        yield slice_line(place, 0, "ADDED", [endpoint(number) for number in range(place * width, (place + 1) * width)])
    yield subscribe_line(1, 0)
    yield drain_line(1)
    for change in range(1, changes + 1):
        numbers = [slices * width + change, *range(1, width)]
        yield slice_line(0, 0, "MODIFIED", [endpoint(number) for number in numbers])
        yield drain_line(1)


def fold(program, folder, slices, width, changes):
    """Processor seconds of a fold of what a replay writes."""
    feed, frames = os.path.join(folder, "feed.jsonl"), os.path.join(folder, "frames.txt")
    write(feed, lines(slices, width, changes))
    with open(feed, "rb") as source, open(frames, "wb") as sink:
        subprocess.run([program, "replay"], stdin=source, stdout=sink, stderr=subprocess.DEVNULL, check=True)
    return best([program, "fold", "--id", "1", "--method", "Get"], frames)[0]


def main():
    program = program_of(__doc__)
    with tempfile.TemporaryDirectory() as folder:
        for slices, width in ((1, 10), (100, 100)):
            whole, first = (fold(program, folder, slices, width, changes) for changes in (CHANGES, 0))
            each = (whole - first) / CHANGES
            print(f"{slices * width:,} endpoints: {whole:.3f} s, the first view alone {first:.3f} s, each change {each * 1e6:.1f} us")


if __name__ == "__main__":
    main()
