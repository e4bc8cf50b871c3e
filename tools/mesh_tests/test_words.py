"""The words of `tools/mesh`, and what keeps it from answering."""

import json
import subprocess

from mesh_front.messages import ROOT
from mesh_tests.support import EXAMPLES, Case, program

MESH = ROOT / "tools" / "mesh"


class Words(Case):
    """Wrong words, empty feeds, and programs that are not there: one sentence each."""

    def test_wrong_words(self):
        """Each is named."""
        run = self.run_mesh("endpoints", "a/b")
        self.require(run, 2, "", "mesh: argument SERVICE[.NS][:PORT]: 'a/b' is not SERVICE[.NS][:PORT]; mesh endpoints --help tells more\n")
        run = self.run_mesh("policy", "app/web-1")
        self.require(run, 2, "", "mesh: argument NS/POD:PORT: 'app/web-1' is not NS/POD:PORT; mesh policy --help tells more\n")
        run = self.run_mesh("policy", "app/web-1:65536")
        self.assertEqual(2, run.status)
        run = self.run_mesh("check", "--fed", "x")
        self.require(run, 2, "", "mesh: unrecognized arguments: --fed x; mesh --help tells more\n")
        self.assertIn("invalid choice: 'endpoint'", self.run_mesh("endpoint").error_output)

    def test_help(self):
        """Each command has it, with the exit statuses."""
        for command in ("record", "endpoints", "policy", "ask", "diff", "check"):
            run = self.run_mesh(command, "--help")
            self.assertEqual(0, run.status)
            self.assertIn("exit status:\n  0  ", run.output)

    def test_an_empty_feed(self):
        """An empty file, and one without any line that is read."""
        error_output = "mesh: the feed holds no object\n"
        self.require(self.mesh("endpoints", b"", "web.app"), 4, "", error_output)
        self.require(self.mesh("check", b"\n\n"), 4, "", error_output)
        indented = json.dumps(json.loads((EXAMPLES / "first.jsonl").read_text().splitlines()[0]), indent=1).encode()
        run = self.mesh("endpoints", indented, "api.gamma")
        self.assertEqual((4, ""), (run.status, run.output))
        self.assertRegex(run.error_output, r"mesh: \d+ lines are refused; the first is line 1: NotJson\n")

    def test_subscriptions_of_the_feed(self):
        """Lines of control do not count: neither ids nor verdicts of the feed are taken for answers."""
        run = self.mesh("endpoints", "configured.jsonl", "web.app")
        self.assertEqual((0, ""), (run.status, run.error_output))

    def test_a_program_that_is_not_there(self):
        """The program that the words name, and one that fails."""
        feed = EXAMPLES / "first.jsonl"
        run = self.run_mesh("check", "--program", self.room / "none", "--feed", feed)
        self.require(run, 5, "", f"mesh: cannot run {self.room}/none: No such file or directory\n")
        failing_program = self.file("failing", b"#!/bin/sh\necho 'out of memory' >&2\nexit 3\n")
        failing_program.chmod(0o755)
        run = self.run_mesh("check", "--program", failing_program, "--feed", feed)
        self.require(run, 6, "", f"out of memory\nmesh: {failing_program} replay ended with status 3: out of memory\n")

    def test_an_event_that_the_question_needs(self):
        """Where too many objects are held, the made-up ones are refused, and there is no answer."""
        full = self.file("full", b"#!/bin/sh\ngrep -n mesh-question | sed 's/:.*//; s/.*/refused & Full 100000/'\nexit 1\n")
        full.chmod(0o755)
        run = self.run_mesh("check", "--program", full, "--feed", EXAMPLES / "policy.jsonl")
        self.require(run, 6, "", "mesh: an event that the question needs is refused: Full 100000\n")

    def test_a_feed_that_is_not_there(self):
        """One sentence with the system's reason."""
        run = self.run_mesh("check", "--feed", self.room / "none")
        self.require(run, 2, "", f"mesh: cannot read {self.room}/none: No such file or directory\n")

    def test_a_configuration_that_the_program_refuses(self):
        """The program names what is wrong; its status is told."""
        run = self.mesh("check", "first.jsonl", "--default-policy", "open")
        self.assertEqual((6, ""), (run.status, run.output))
        self.assertIn("replay ended with status 2", run.error_output)

    def test_standard_input_and_a_reader_that_leaves(self):
        """The feed is read from standard input; where the reader of the output leaves, the status is 141."""
        words = [MESH, "endpoints", "--program", program(), "api.gamma:80"]
        feed = (EXAMPLES / "first.jsonl").read_bytes()
        run = subprocess.run(words, input=feed, capture_output=True)
        self.assertEqual((11, b""), (run.returncode, run.stderr))
        self.assertTrue(run.stdout.endswith(b"80             10.42.0.20   8080   -     -         -        -\n"))
        with subprocess.Popen(words, stdin=subprocess.PIPE, stdout=subprocess.PIPE, stderr=subprocess.PIPE) as reader:
            reader.stdout.close()
            reader.stdin.write(feed)
            reader.stdin.close()
            self.assertEqual(b"", reader.stderr.read())
        self.assertEqual(141, reader.returncode)
