"""The list of the crates: its order, its headings, and the table made of it."""

import pathlib
import subprocess
import tempfile
import unittest

from mesh_front.messages import ROOT


def run(top: pathlib.Path, *words: str) -> subprocess.CompletedProcess[str]:
    """Runs tools/crates of a repository."""
    return subprocess.run([top / "tools" / "crates", *words], capture_output=True, text=True, check=False)


def repository(room: str, listed: str, table: str) -> pathlib.Path:
    """A repository of two crates, with this crates.txt and this table in docs/ARCHITECTURE.md."""
    top = pathlib.Path(room)
    for name in ("low", "high"):
        source = top / "crates" / name / "src"
        source.mkdir(parents=True)
        (source / "lib.rt").write_text(f"//! The crate {name}. It has more to say.\n//!\n//! Depends on nothing.\n")
    (top / "crates" / "low" / "specs").mkdir()
    (top / "crates" / "low" / "specs" / "Rules.antt").write_text("")
    (top / "crates.txt").write_text(listed)
    (top / "docs").mkdir()
    (top / "docs" / "ARCHITECTURE.md").write_text(f"before\n\n<!-- made by tools/crates table -->\n\n{table}\n\n<!-- end of the table -->\n")
    (top / "tools").mkdir()
    (top / "tools" / "crates").write_bytes((ROOT / "tools" / "crates").read_bytes())
    (top / "tools" / "crates").chmod(0o755)
    return top


LISTED = "# Lowest first.\n\n# Below\nlow:\n\n# Above\nhigh: low serde_json\n"
TABLE = """### Below

| crate | what it is | definitions |
|---|---|---|
| low | The crate low | `Rules` |

### Above

| crate | what it is | definitions |
|---|---|---|
| high | The crate high |  |"""


class Crates(unittest.TestCase):
    """tools/crates over this repository, and over small ones."""

    def test_this_repository_is_in_order(self) -> None:
        """Each crate comes after those that it stands on, below a heading, and the table is the one that is made."""
        self.assertEqual(run(ROOT, "check").stdout, "")

    def test_the_table_is_made_of_headings_and_root_files(self) -> None:
        """A heading follows an empty line; a row has the first sentence of the root file, and the modules of specs."""
        with tempfile.TemporaryDirectory() as room:
            top = repository(room, LISTED, TABLE)
            self.assertEqual(run(top, "table").stdout, TABLE + "\n")
            self.assertEqual(run(top, "check").returncode, 0)

    def test_crates_above_another(self) -> None:
        """A change in a crate proves those that depend on it, and an unknown crate is an error."""
        with tempfile.TemporaryDirectory() as room:
            top = repository(room, LISTED, TABLE)
            self.assertEqual(run(top, "above", "low").stdout, "high\n")
            self.assertEqual(run(top, "above", "none").returncode, 2)

    def test_a_wrong_order_or_table_is_told(self) -> None:
        """A crate before its library, one below no heading, and another table are told with status 1."""
        with tempfile.TemporaryDirectory() as room:
            top = repository(room, "high: low\n\n# Below\nlow:\n", TABLE)
            found = run(top, "check")
            self.assertEqual(found.returncode, 1)
            self.assertIn("high before low", found.stdout)
            self.assertIn("high below no heading", found.stdout)
            self.assertIn("another table", found.stdout)


if __name__ == "__main__":
    unittest.main()
