#!/usr/bin/env python3
"""Runs a server behind a relay for feeds, for bench/soak.py: `relayed.py FOLDER SECONDS PROGRAM serve --bind ADDRESS [OPTION..]`.

The server listens at an address of its own, which it writes into a new file FOLDER/K.json with its process. Feeds connect to ADDRESS, one
after another. Each is cut after so many seconds: no further line is passed on, the answers of the server to the lines before are awaited,
and the feed is left without them. Once there is a file FOLDER/steady, none is cut. The lines that the server accepted are appended to
FOLDER/K.lines, those that it refused to FOLDER/K.refused, and those that it has not answered when it ends to FOLDER/K.unanswered. It ends
as the server does, and by SIGTERM with it."""
import json
import os
import pathlib
import signal
import socket
import subprocess
import sys
import threading
import time

LISTENING = b"listening on "
STEADY = "steady"


class Record:
    """The files of one server."""

    def __init__(self, folder, address, process):
        number = len(list(folder.glob("*.json")))
        self.path = folder / str(number)
        about = folder / f"{number}.new"
        about.write_text(json.dumps({"host": address[0], "port": address[1], "process": process}))
        about.rename(folder / f"{number}.json")

    def is_steady(self):
        """Whether feeds are cut no longer."""
        return (self.path.parent / STEADY).exists()

    def add(self, suffix, line):
        with self.path.with_suffix(suffix).open("ab") as out:
            out.write(line)


class FeedRelay:
    """One feed, between its client and the server."""

    def __init__(self, client, address, record, seconds):
        self.client, self.record, self.end = client, record, time.monotonic() + seconds
        self.server = socket.create_connection(address)
        self.unanswered, self.number, self.lock = {}, 0, threading.Lock()
        self.is_cut = False

    def run(self):
        """Relays until the client or the server ends, or the time is over."""
        answers = threading.Thread(target=self.take_answers, daemon=True)
        answers.start()
        rest = b""
        try:
            while (left := self.end - time.monotonic()) > 0 or self.record.is_steady():
                self.client.settimeout(left if left > 0 else None)
                try:
                    data = self.client.recv(65_536)
                except TimeoutError:
                    continue
                if not data:
                    break
                *lines, rest = (rest + data).split(b"\n")
                for line in lines:
                    self.pass_on(line + b"\n")
        except OSError:
            pass  # The time is over, or one side has gone.
        self.is_cut = True
        try:
            self.server.shutdown(socket.SHUT_WR)
        except OSError:
            pass
        answers.join()
        for line in self.unanswered.values():
            self.record.add(".unanswered", line)
        self.server.close()
        self.client.close()

    def pass_on(self, line):
        """Passes a line on. The first one is the path of the link and has no answer."""
        with self.lock:
            if self.number:
                self.unanswered[self.number] = line
            self.number += 1
        self.server.sendall(line)

    def take_answers(self):
        """Records the lines that are answered, and passes the answers on unless the feed is cut."""
        try:
            with self.server.makefile("rb") as source:
                for answer in source:
                    word, number = answer.split()[:2]
                    with self.lock:
                        line = self.unanswered.pop(int(number))
                    self.record.add(".lines" if word == b"ok" else ".refused", line)
                    if not self.is_cut:
                        self.client.sendall(answer)
        except OSError:
            pass  # One side has gone.
        finally:
            try:
                self.client.shutdown(socket.SHUT_RDWR)
            except OSError:
                pass


def relay_feeds(listener, inner, record, seconds):
    while True:
        client, _ = listener.accept()
        try:
            FeedRelay(client, inner, record, seconds).run()
        except OSError:
            client.close()


def main():
    folder, seconds, program, serve, bind, outer, *options = sys.argv[1:]
    with socket.create_server(("127.0.0.1", 0)) as listener:
        inner = listener.getsockname()
    server = subprocess.Popen([program, serve, bind, "%s:%d" % inner, *options], stderr=subprocess.PIPE)
    signal.signal(signal.SIGTERM, lambda *_: server.terminate())
    host, port = outer.split(":")
    for line in server.stderr:
        if line.removeprefix(b"linkerd_cli: ").startswith(LISTENING):
            record = Record(pathlib.Path(folder), inner, server.pid)
            listener = socket.create_server((host, int(port)))
            threading.Thread(target=relay_feeds, args=(listener, inner, record, float(seconds)), daemon=True).start()
            line = LISTENING + outer.encode() + b"\n"
        sys.stderr.buffer.write(line)
        sys.stderr.buffer.flush()
    status = server.wait()
    time.sleep(0.2)  # for what the relay still records
    if status < 0:
        signal.signal(-status, signal.SIG_DFL) if -status != signal.SIGKILL else None
        os.kill(os.getpid(), -status)
    sys.exit(status)


if __name__ == "__main__":
    main()
