"""The pages that a person reads first: their length, and that each question is shown with its output."""

import re
import unittest

from mesh_front.messages import ROOT

# The question that needs a cluster: docs/DECISIONS.md says so.
WITHOUT_OUTPUT = {"how-do-i-record-a-cluster"}


def text_of(name: str) -> str:
    """A document."""
    return (ROOT / name).read_text()


def sections(text: str) -> dict[str, str]:
    """The sections below the headings of the second level, by their anchors."""
    parts = re.split(r"^## +(.*)$", text, flags=re.M)
    return {re.sub(r"[^\w\- ]", "", head.lower()).replace(" ", "-"): part for head, part in zip(parts[1::2], parts[2::2])}


class Documents(unittest.TestCase):
    """README, PROMISES and HOWTO."""

    def test_readme_is_short(self) -> None:
        """At most 120 lines of at most 100 columns."""
        lines = text_of("README.md").splitlines()
        self.assertLessEqual(len(lines), 120)
        self.assertEqual([], [it for it in lines if len(it) > 100])

    def test_the_first_page_of_promises(self) -> None:
        """At most 1,500 words before the details: twelve promises, each with its premises, call and clause, and what is not promised."""
        page, line, details = text_of("docs/PROMISES.md").partition("\n# The details\n")
        self.assertTrue(line and details)
        self.assertLessEqual(len(page.split()), 1500)
        rows = re.findall(r"^\| (\d+) \| \*\*(.+)\|(.+)\|(.+)\|(.+)\|$", page, re.M)
        self.assertEqual([str(number) for number in range(1, 13)], [row[0] for row in rows])
        self.assertIn("not-promised", sections(page))

    def test_each_question_is_shown(self) -> None:
        """The questions of README and of HOWTO are the same, and each has a command with its output."""
        asked = set(re.findall(r"docs/HOWTO[.]md#([\w-]+)", text_of("README.md")))
        howto = sections(text_of("docs/HOWTO.md"))
        self.assertEqual(asked, set(howto) - {"exit-status"})
        self.assertEqual(WITHOUT_OUTPUT, {it for it in asked if not re.search(r"^\$ ", howto[it], re.M)})


if __name__ == "__main__":
    unittest.main()
