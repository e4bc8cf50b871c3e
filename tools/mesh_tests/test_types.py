"""The types of the tools, and names that are not used, where the programs that check them are installed."""

import pathlib
import shutil
import subprocess
import tempfile
import unittest

from mesh_front.messages import ROOT

TOOLS = ROOT / "tools"
SCRIPTS = ["mesh", "feed", "subscribe", "decode", "test", "check-docs", "packages", "prove", "crates", "controller"]
MYPY = ["mypy", "--python-version=3.10", "--check-untyped-defs", "--disallow-untyped-defs", "--no-error-summary"]


class Types(unittest.TestCase):
    """Nothing is found."""

    def found(self, *command: str) -> str:
        """What a program finds in the folder of the tools."""
        run = subprocess.run(command, cwd=TOOLS, capture_output=True, text=True, timeout=3600)
        return run.stdout + run.stderr

    @unittest.skipUnless(shutil.which("mypy"), "mypy is not installed")
    def test_types(self):
        """The functions of the tools are typed, and used as their types say. Scripts have their names in no module."""
        with tempfile.TemporaryDirectory() as room:
            scripts = [pathlib.Path(room) / f"script_{name.replace('-', '_')}.py" for name in SCRIPTS]
            for name, script in zip(SCRIPTS, scripts):
                script.write_text((TOOLS / name).read_text())
            self.assertEqual("", self.found(*MYPY, f"--cache-dir={room}", "mesh_front"))
            options = [*MYPY, f"--cache-dir={room}", "--allow-untyped-defs", "--follow-imports=silent"]
            self.assertEqual("", self.found(*options, *map(str, scripts)))

    @unittest.skipUnless(shutil.which("ruff") or shutil.which("pyflakes3"), "neither ruff nor pyflakes is installed")
    def test_names(self):
        """Each name is defined and used."""
        checker = ["ruff", "check", "--select=F", "--quiet"] if shutil.which("ruff") else ["pyflakes3"]
        self.assertEqual("", self.found(*checker, "mesh_front", "mesh_tests", *SCRIPTS))
