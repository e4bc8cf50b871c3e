"""What the measurements in this folder share: the program that they measure, the files that it reads, and runs of it with their costs."""
import argparse
import os
import resource
import signal
import subprocess
import sys

HERE = os.path.dirname(os.path.abspath(__file__))
PROGRAM = os.path.join(HERE, "..", "crates", "linkerd_cli", "out", "linkerd_cli")

PYTHON = """
import json, sys
held = {}
for line in sys.stdin.buffer:
    value = json.loads(line)
    for item in value.get("items") or [value.get("object", {})]:
        meta = item.get("metadata", {})
        held[meta.get("namespace"), meta.get("name")] = item
"""

PYTHON_READ_ALONE = """
import json, sys
for line in sys.stdin.buffer:
    json.loads(line)
"""


def present(program):
    """A program that is there. Else the measurement ends, and says how to get one."""
    if not os.access(program, os.X_OK):
        sys.exit(f"there is no program {program}: run tools/prove first")
    return program


def program_of(doc):
    """The program that a command line names: the proved one, if it names none."""
    words = argparse.ArgumentParser(description=doc.splitlines()[0])
    words.add_argument("program", nargs="?", default=PROGRAM, help="the built linkerd_cli")
    return present(words.parse_args().program)


def write(path, lines):
    """Writes the lines of a feed, and gives the path."""
    with open(path, "w") as out:
        out.writelines(f"{line}\n" for line in lines)
    return path


def wait(words, source, sink, told=None, limit=None):
    """The wait status of a run and its usage. It is ended after so many processor seconds, if there is a limit."""
    set_limit = limit and (lambda: resource.setrlimit(resource.RLIMIT_CPU, (limit, limit + 1)))
    child = subprocess.Popen(words, stdin=source, stdout=sink, stderr=told, preexec_fn=set_limit)
    _, status, usage = os.wait4(child.pid, 0)
    child.returncode = status
    return status, usage


def seconds_of(usage):
    """Processor seconds."""
    return usage.ru_utime + usage.ru_stime


def is_ended(status):
    """Whether a command took too long, alone or under `time`, which tells a signal by a status above 128."""
    number = os.WTERMSIG(status) if os.WIFSIGNALED(status) else os.WEXITSTATUS(status) - 128
    return number in (signal.SIGXCPU, signal.SIGKILL)


def require_lines(program, status, sink, wanted):
    """Ends the measurement where a run has failed or has not written so many lines."""
    sink.seek(0)
    found = sum(1 for _ in sink)
    if status or found != wanted:
        sys.exit(f"{program}: status {os.waitstatus_to_exitcode(status)}, {found} lines written in place of {wanted}")


def run(words, path):
    """(processor seconds, peak memory in MB, exit status) of a run with the file as its standard input."""
    with open(path, "rb") as source, open(os.devnull, "wb") as sink:
        status, usage = wait(words, source, sink)
    return seconds_of(usage), usage.ru_maxrss / 1024, os.waitstatus_to_exitcode(status)


def best(words, path, times=3):
    runs = [run(words, path) for _ in range(times)]
    return min(runs)


def table(title, path, keeps=False):
    """Prints the program beside Python's json.loads over the same lines, and returns the ratio of their times."""
    size = os.path.getsize(path) / 1e6
    ours = best([present(PROGRAM), "replay"], path)
    theirs = best([sys.executable, "-c", PYTHON if keeps else PYTHON_READ_ALONE], path)
    print(f"{title}: {size:.0f} MB")
    for name, (seconds, memory, status) in (("linkerd_cli replay", ours), ("json.loads", theirs)):
        print(f"  {name:20} {seconds:7.2f} s  {size / seconds:7.1f} MB/s  {memory:8.0f} MB peak  status {status}")
    ratio = ours[0] / theirs[0]
    print(f"  processor time, program to Python: {ratio:.2f}")
    return ratio
