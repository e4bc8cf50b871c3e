"""`serve` of the program, with `tools/feed` and `tools/subscribe` as its peers. Skipped with a program that has no server."""

import re
import subprocess

from mesh_tests.live import SECONDS, ServerCase, diagnosis
from mesh_tests.support import EXAMPLES, program, replay

STOP = b'{"control":"stop"}\n'


class Serve(ServerCase):
    """A server from its start to its stop."""

    def test_views_are_those_of_diagnose(self):
        """Each method, over the objects of an example."""
        data = (EXAMPLES / "policy.jsonl").read_bytes()
        objects = b"".join(line for line in data.splitlines(True) if b'"control"' not in line)
        self.require(self.feed(objects), 0)
        service = "web.app.svc.cluster.local:80"
        cases = {
            ("Get", "web.app"): ("--path", service),
            ("GetProfile", "web.app"): ("--path", service),
            ("Watch", "web.app"): ("--path", service),
            ("WatchPort", "app/web-1:8080"): ("--workload", "app:web-1", "--port", "8080"),
            ("WatchPort2", "app/web-1:8080"): ("--workload", "app:web-1", "--port", "8080"),
        }
        for (method, target), words in cases.items():
            self.require(self.view(method, target), 0, diagnosis(objects, "--method", method, *words))

    def test_changes_are_sent(self):
        """A subscriber that is there before the objects folds to what diagnose shows after them."""
        data = (EXAMPLES / "changes.jsonl").read_bytes()
        objects = b"".join(line for line in data.splitlines(True) if b'"control"' not in line)
        words = ["subscribe", self.address, "Get", "web.app", "--lines", "--seconds", "2"]
        with subprocess.Popen([EXAMPLES.parent / "tools" / words[0], *words[1:]], stdout=subprocess.PIPE, text=True) as subscriber:
            first = subscriber.stdout.readline()
            self.assertEqual("frame 1 00000000021a00\n", first)
            self.require(self.feed(objects), 0)
            output = first + subscriber.stdout.read()
        fold = subprocess.run([program(), "fold", "--id", "1", "--method", "Get"], input=output, capture_output=True, text=True).stdout
        self.assertEqual(diagnosis(objects, "--method", "Get", "--path", "web.app.svc.cluster.local:80"), fold.replace("view 1 ", "frame 1 "))

    def test_refused_lines_and_verdicts(self):
        """They are told by the numbers that the lines have."""
        lines = (EXAMPLES / "refused.jsonl").read_bytes().splitlines(True)
        data = b"".join(b"\n" if b'"control"' in line else line for line in lines)
        refused = [line.split(" ", 2) for line in replay(data).decode().splitlines() if line.startswith("refused")]
        run = self.feed(b"".join(lines))
        self.assertEqual((True, 7), (bool(refused), run.status))
        for _, number, fault in refused:
            self.assertRegex(run.error_output, rf"(?m)^feed: line {number} is refused: {re.escape(fault)}(;.*)?$")

    def test_stop(self):
        """The server ends with status 0, and the links of others are closed."""
        words = [EXAMPLES.parent / "tools" / "subscribe", self.address, "Get", "web.app", "--lines"]
        with subprocess.Popen(words, stdout=subprocess.PIPE, stderr=subprocess.PIPE, text=True) as subscriber:
            self.assertEqual("frame 1 00000000021a00\n", subscriber.stdout.readline())
            self.assertEqual(0, self.feed(STOP).status)
            self.assertEqual(9, subscriber.wait(SECONDS))
        self.assertEqual(0, self.server.wait(SECONDS))

    def test_an_address_in_use(self):
        """A second server at the address ends with status 4 and says so."""
        second = self.start(self.address)
        self.assertEqual(4, second.wait(SECONDS))
        self.assertIn(b"cannot listen", second.stderr.read())
