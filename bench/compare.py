"""Runs a program beside an older one, row by row, in processor time and peak memory, or in instructions.

The time of a row is the least of TIMES runs, of which each is ended after LIMIT seconds of processor time. Its peak memory is what GNU
`time` tells: what the kernel tells of a process that Python starts is no less than what Python itself holds. Instructions are those of
one run, with a tenth of the changes. A run that doesn't write as many lines as it should ends the measurement."""
import argparse
import os
import re
import shutil
import sys
import tempfile

from measure import PROGRAM, is_ended, present, require_lines, seconds_of, wait, write

TIMES = 3
LIMIT = 300


class Run:
    """The cost of a run and its peak MB; without either where it took too long."""

    def __init__(self, cost=None, memory=None):
        self.cost, self.memory = cost, memory

    def less(self, other):
        return Run() if None in (self.cost, other.cost) else Run(self.cost - other.cost, self.memory)

    def scaled(self, factor):
        return Run(self.cost and self.cost * factor, self.memory)


class Clock:
    """Costs in processor seconds: the least of TIMES runs. Two runs of one feed may differ by `noise`."""

    times, share, limit, noise = TIMES, 1, LIMIT, 0.005

    def command(self, words):
        return ["time", "-f", "%M", *words]

    def run(self, usage, told):
        return Run(seconds_of(usage), int(told.splitlines()[-1]) / 1024)

    def shown(self, cost, count):
        return f"{cost:9.3f} s" if count is None else f"{cost / count * 1e6:9.1f} us"


class Counter:
    """Costs in instructions: one run under valgrind, with a tenth of the changes."""

    times, share, limit, noise = 1, 10, 10 * LIMIT, 10_000

    def command(self, words):
        return ["valgrind", "--tool=cachegrind", "--cache-sim=no", "--cachegrind-out-file=/dev/null", *words]

    def run(self, _, told):
        return Run(int(re.search(rb"I +refs: +([0-9,]+)", told)[1].replace(b",", b"")))

    def shown(self, cost, count):
        return f"{cost / 1e6:9,.0f} M" if count is None else f"{cost / count:11,.0f}"


class Bench:
    """The programs, the newer one first, what is measured of their runs, and a folder for feeds."""

    def __init__(self, programs, meter, folder):
        self.programs, self.meter, self.folder = programs, meter, folder

    def some(self, count):
        """So many changes, or the share of them that is measured."""
        return max(1, count // self.meter.share)

    def write(self, name, lines):
        return write(os.path.join(self.folder, name), lines)

    def replays(self, lines, wanted):
        """A run of `replay` of each program."""
        path = self.write("feed.jsonl", lines)
        return self.each([([program, "replay"], path, wanted) for program in self.programs])

    def changes(self, counts, feed, wanted):
        """What so many changes take each program, by its own count of them, and scaled to the first: the runs of `replay` over
        `feed(count)`, each of which writes `wanted(count)` lines, less those over `feed(0)`. The older program may take long."""
        counts = [self.some(count) for count in counts[:len(self.programs)]]
        before = self.replays(feed(0), wanted(0))
        paths = {count: self.write(f"feed{count}.jsonl", feed(count)) for count in counts}
        runs = [([program, "replay"], paths[count], wanted(count)) for program, count in zip(self.programs, counts)]
        return [run.scaled(counts[0] / count) for run, count in zip(less(self.each(runs), before), counts)]

    def each(self, runs):
        """The least of some runs of each command, in turn: its words, the file that it reads, and how many lines it writes."""
        found = [[] for _ in runs]
        for _ in range(self.meter.times):
            for place, run in enumerate(runs):
                if not found[place] or found[place][-1].cost is not None:
                    found[place].append(self.run_once(*run))
        return [min(it, key=lambda run: run.cost) if it[-1].cost is not None else Run() for it in found]

    def run_once(self, words, path, wanted):
        """A run over a file that writes so many lines."""
        with open(path, "rb") as source, tempfile.TemporaryFile() as sink, tempfile.TemporaryFile() as told:
            status, usage = wait(self.meter.command(words), source, sink, told, self.meter.limit)
            if is_ended(status):
                return Run()
            require_lines(words[0], status, sink, wanted)
            told.seek(0)
            return self.meter.run(usage, told.read())

    def is_told(self, run):
        return run.cost is not None and run.cost >= self.meter.noise

    def shown(self, run, count):
        if run.cost is None:
            return f"over {self.meter.limit} s"
        return self.meter.shown(run.cost, count) if self.is_told(run) else "   as nothing"

    def tell(self, title, runs, count=None, with_memory=False):
        """Prints a row: the cost of each program, for each of `count` if it is given, and the ratios of the older to the newer."""
        has_memory = with_memory and all(run.memory for run in runs)
        cells = [self.shown(run, count) + (f" {run.memory:6.0f} MB" if has_memory else "") for run in runs]
        if len(runs) == 2 and all(self.is_told(run) for run in runs):
            cells.append(f"1/{runs[1].cost / runs[0].cost:.1f}")
            if has_memory:
                cells.append(f"memory 1/{runs[1].memory / runs[0].memory:.1f}")
        print(f"{title:64} " + "   ".join(cells), flush=True)
        return runs

    def ratio(self, title, wide, narrow):
        """Prints how much more one row takes than another, for each program."""
        pairs = zip(wide, narrow)
        cells = [f"{a.cost / b.cost:9.2f}   " if self.is_told(a) and self.is_told(b) else "        -   " for a, b in pairs]
        print(f"  {title:62} " + "   ".join(cells), flush=True)


def less(after, before):
    return [run.less(other) for run, other in zip(after, before)]


def main(doc, rows):
    """Reads the words of a command line, and measures the rows that it names: all, if it names none."""
    words = argparse.ArgumentParser(description=doc.splitlines()[0])
    words.add_argument("--program", default=PROGRAM, metavar="FILE", help="the program (default: the proved one)")
    words.add_argument("--old", metavar="FILE", help="an older program to compare it with")
    words.add_argument("--rows", default=",".join(rows), metavar="ROW,..", help="these rows alone")
    words.add_argument("--instructions", action="store_true", help="count instructions with valgrind in place of processor time")
    words.add_argument("--times", type=int, metavar="N", help=f"the least of so many runs (default: {TIMES}, and one of instructions)")
    arguments = words.parse_args()
    programs = [present(os.path.abspath(it)) for it in (arguments.program, arguments.old) if it]
    unknown = set(arguments.rows.split(",")) - set(rows)
    if unknown:
        sys.exit(f"there is no row {', '.join(sorted(unknown))}; the rows are {', '.join(rows)}")
    tool = "valgrind" if arguments.instructions else "time"
    if shutil.which(tool) is None:
        sys.exit(f"there is no command {tool}: install it first")
    print(f"{'':64} {'the program':>11}" + ("     the older one" if arguments.old else ""))
    with tempfile.TemporaryDirectory() as folder:
        meter = Counter() if arguments.instructions else Clock()
        meter.times = arguments.times or meter.times
        bench = Bench(programs, meter, folder)
        for name in arguments.rows.split(","):
            rows[name](bench)
