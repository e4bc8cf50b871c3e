#!/usr/bin/env python3
"""What reading and writing messages costs, in rows a second, beside Python's protobuf on the same bytes. Needs the proved program
(tools/prove), or the path of a program as its argument, `protoc`, and for the comparison Python's package protobuf (in Debian
python3-protobuf; then run this with /usr/bin/python3).

Reading: `fold` over 1,000 lines, each the frame of one message with 1,000 endpoints of meshed Pods, so 1,000,000 rows; the view
stays at 1,000 rows. The time has the hex and the folding in it. Writing: a thousand `Get` subscriptions of a Service with 1,000
such endpoints, drained at the end, less a run over the same feed with one subscription; the time has the making of the views in
it. Python parses and serializes the message a thousand times, and does nothing else."""
import os
import subprocess
import sys
import tempfile
import time

from feed import endpoint, pod_line, service_line, slice_line, subscribe_line
from measure import best, program_of, write

HERE = os.path.dirname(os.path.abspath(__file__))
ROWS = 1_000  # endpoints of a message
TIMES = 1_000


def feed(subscriptions):
    yield service_line(0)
    for number in range(ROWS):
        yield pod_line(number)
    yield slice_line(0, 0, "ADDED", [endpoint(number) for number in range(ROWS)])
    for number in range(subscriptions):
        yield subscribe_line(number + 1, 0)


def first_frame(program, path):
    with open(path, "rb") as source:
        answer = subprocess.run([program, "replay"], stdin=source, stdout=subprocess.PIPE, check=False)
    (line,) = answer.stdout.decode().splitlines()
    return line


def python_seconds(frame):
    """(seconds to parse, seconds to serialize, the name of the implementation), or nothing where there is no protobuf."""
    try:
        from google.protobuf.internal import api_implementation
    except ImportError:
        return None
    message = bytes.fromhex(frame)[5:]
    with tempfile.TemporaryDirectory() as room:
        subprocess.run(["protoc", "-I", os.path.join(HERE, "..", "docs"), "--python_out", room, "proxy.proto"], check=True)
        sys.path.insert(0, room)
        import proxy_pb2
        begun = time.process_time()
        for _ in range(TIMES):
            update = proxy_pb2.Update.FromString(message)
        parsed = time.process_time() - begun
        begun = time.process_time()
        for _ in range(TIMES):
            update.SerializeToString()
        return parsed, time.process_time() - begun, api_implementation.Type()


def main():
    program = program_of(__doc__)
    with tempfile.TemporaryDirectory() as room:
        one, many, lines = (os.path.join(room, name) for name in ("one", "many", "lines"))
        write(one, feed(1))
        write(many, feed(TIMES))
        frame = first_frame(program, one)
        write(lines, [frame] * TIMES)
        count = ROWS * TIMES
        read = best([program, "fold", "--id", "1", "--method", "Get"], lines)[0]
        written = best([program, "replay"], many)[0] - best([program, "replay"], one)[0]
        print(f"a message of {ROWS:,} rows has {len(frame.split()[2]) // 2:,} bytes")
        print(f"  fold               {count / read:12,.0f} rows/s read, hex and folding included")
        print(f"  replay             {count / written:12,.0f} rows/s written, views and hex included")
        theirs = python_seconds(frame.split()[2])
        if theirs is None:
            print("  Python's protobuf isn't there")
        else:
            print(f"  Python's protobuf  {count / theirs[0]:12,.0f} rows/s parsed ({theirs[2]})")
            print(f"  Python's protobuf  {count / theirs[1]:12,.0f} rows/s serialized ({theirs[2]})")


if __name__ == "__main__":
    main()
