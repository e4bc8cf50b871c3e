"""What `tools/packages`, `tools/test` and `.ci/run` say of packages and programs that are missing."""

import os
import pathlib
import subprocess
import sys

from mesh_front.messages import ROOT
from mesh_front.packages import PACKAGES, cure, sentence
from mesh_tests.support import Case

PROTOC, YAML = PACKAGES


class Missing(Case):
    """A machine without protoc."""

    def run_without_protoc(self, *words: str, **commands: str) -> subprocess.CompletedProcess:
        """Runs a command with these scripts on the PATH, and of the system's what it cannot do without."""
        for name in ("bash", "env", "mktemp", "rm", "tail", "tee", "printf", "dirname", "readlink"):
            found = pathlib.Path("/usr/bin") / name
            if found.exists():
                (self.room / name).symlink_to(found)
        (self.room / "python3").symlink_to(sys.executable)
        for name, text in commands.items():
            self.file(name.replace("_", "-"), f"#!/bin/bash\n{text}\n".encode()).chmod(0o755)
        environment = {**os.environ, "PATH": str(self.room), "ROOM": str(self.room)}
        return subprocess.run(words, cwd=ROOT, env=environment, capture_output=True, text=True, timeout=120)

    def test_the_command_to_type(self):
        """One command for what is missing."""
        sudo = "" if os.geteuid() == 0 else "sudo "
        self.assertEqual(f"{sudo}apt-get install -y protobuf-compiler", cure([PROTOC]))
        self.assertEqual(f"protoc is missing: {cure([PROTOC])}", sentence([PROTOC]))
        self.assertIn("protoc and Python's module yaml are missing: ", sentence([PROTOC, YAML]))

    def test_the_tests_fail(self):
        """They are not skipped."""
        run = self.run_without_protoc(str(ROOT / "tools" / "test"))
        self.assertEqual((2, "", f"test: {sentence([PROTOC])}\n"), (run.returncode, run.stdout, run.stderr))

    def test_the_gate_does_not_begin(self):
        """Where nothing may be installed, it says what to type, and rt is not run."""
        run = self.run_without_protoc(str(ROOT / ".ci" / "run"), apt_get="exit 100", sudo="exit 1", rt="echo 1 passed, 0 failed")
        self.assertEqual((1, "", f"packages: {sentence([PROTOC])}\n"), (run.returncode, run.stdout, run.stderr))

    def test_the_gate_installs(self):
        """What is missing is installed first, after the lists of packages where these are needed. The last line is the gate's."""
        install = 'if [ "$1" = update ]; then : >"$ROOM/lists"; exit; fi\n[ -e "$ROOM/lists" ] || exit 100\n/bin/ln -s /bin/true "$ROOM/protoc"'
        run = self.run_without_protoc(str(ROOT / ".ci" / "run"), apt_get=install, sudo='shift; exec "$@"', rt="echo ok; echo 3 passed, 1 failed; exit 1")
        self.assertEqual((1, "ok\n3 passed, 1 failed\n", ""), (run.returncode, run.stdout, run.stderr))


class NoProgram(Case):
    """A clone without a program."""

    def test_the_cure_is_named(self):
        """How to get one, proved or not."""
        run = self.run_tool("test", "--program", self.room / "none")
        cures = "tools/prove builds the proved one; `./linkerd_cli sample 0` compiles one without proofs, for --program out/linkerd_cli_without_proofs"
        self.require(run, 2, "", f"test: there is no program {self.room}/none: {cures}\n")
