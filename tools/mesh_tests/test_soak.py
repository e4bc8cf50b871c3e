"""bench/soak.py for some seconds: a controller whose feed is cut, whose server is killed, and replicas that follow one cluster."""

import shutil
import subprocess
import sys

from mesh_front.messages import ROOT
from mesh_tests.support import Case, program

SOAK = ROOT / "bench" / "soak.py"
SMALL = ("--seconds", "6", "--subscribers", "14", "--services", "2", "--rate", "10", "--samples", "6", "--limit", "300")


class Soak(Case):
    """What is shown of a controller while all about it goes."""

    def soak(self, *words) -> subprocess.CompletedProcess:
        """Runs it for some seconds."""
        command = [sys.executable, SOAK, "--program", program(), *SMALL, *map(str, words)]
        return subprocess.run(command, capture_output=True, text=True, timeout=1200)

    def require_end(self, run: subprocess.CompletedProcess, *sentences: str) -> None:
        """It ends well, and says so."""
        self.assertEqual((0, ""), (run.returncode, run.stderr))
        for it in sentences:
            self.assertIn(it, run.stdout)

    def test_one_replica(self):
        """The feed is cut and the server killed: each subscriber ends in the view of the cluster, and was shown no other policy."""
        self.require_end(self.soak("--reconnect", 3, "--kills", 1), "server killed 1 times, 0 moves", "14 of them fold to what diagnose shows")

    def test_two_replicas(self):
        """Two controllers watch one cluster independently, and subscribers move between them, each time from none."""
        run = self.soak("--replicas", 2, "--moves", 2, "--kills", 1, "--reconnect", 6)
        self.require_end(run, "replicas: 2;", "14 of them fold to what diagnose shows")
        self.assertRegex(run.stdout, " [1-9][0-9]* moves")

    def test_a_controller_that_is_wrong(self):
        """One that sends Pods before the policies is found out."""
        tools = self.room / "tools"
        tools.mkdir()
        (self.room / "docs").mkdir()
        shutil.copy(ROOT / "docs" / "proxy.proto", self.room / "docs")
        shutil.copy(ROOT / "tools" / "controller", tools)
        shutil.copytree(ROOT / "tools" / "mesh_front", tools / "mesh_front")
        kinds = tools / "mesh_front" / "kinds.py"
        text = kinds.read_text()
        right = "FILL_ORDER = (*PROTECTING_KINDS, PROFILE, POD, SLICE, SERVICE)"
        self.assertIn(right, text)
        kinds.write_text(text.replace(right, "FILL_ORDER = (POD, SLICE, SERVICE, PROFILE, *PROTECTING_KINDS)"))
        run = self.soak("--controller", tools / "controller", "--kills", 1, "--reconnect", 60)
        self.assertEqual(1, run.returncode, run.stdout)
        self.assertRegex(run.stderr, "soak: a subscriber of .* was shown a port without its Server")
