"""The YAML that is read, beside the values that it has by the standard, and what is refused."""

import sys
import unittest
from unittest import mock

from mesh_front.faults import Fault, Status
from mesh_front.manifest_yaml import Unreadable, documents

MANIFEST = """
---
# a comment
kind: Server   # the kind
metadata:
  name: "web"
  labels: {app: web, "a/b": 'it''s', m: "1"}
  annotations:
    lines: |
      first # no comment
        second

      third
    stripped: |-
      x
    url: http://example.com:80/a#b
    empty: ""
spec:
  list:
  - key: prom
    values: [web, 'x y', "z"]
  -   key: app
      operator: In
  nested:
  - - 1
    - -2
  -
    a: 1.5
  - "quoted: colon"
  none:
  tilde: ~
  yes-or-no: true
...
---
kind: Pod
"""
WANTED = {
    "kind": "Server",
    "metadata": {
        "name": "web",
        "labels": {"app": "web", "a/b": "it's", "m": "1"},
        "annotations": {
            "lines": "first # no comment\n  second\n\nthird\n",
            "stripped": "x",
            "url": "http://example.com:80/a#b",
            "empty": "",
        },
    },
    "spec": {
        "list": [{"key": "prom", "values": ["web", "x y", "z"]}, {"key": "app", "operator": "In"}],
        "nested": [[1, -2], {"a": 1.5}, "quoted: colon"],
        "none": None,
        "tilde": None,
        "yes-or-no": True,
    },
}
FOLDED = """
--- # Source: chart/templates/server.yaml
a: >-
  two lines
  of one string
b: two lines
  of one string
c: [1,
  "x"]
d: {e: f,
  g: "two lines
  of one string"}
? h
: - i
"""
FOLDED_VALUE = {
    "a": "two lines of one string",
    "b": "two lines of one string",
    "c": [1, "x"],
    "d": {"e": "f", "g": "two lines of one string"},
    "h": ["i"],
}
REFUSED = [
    "a: yes",
    "a: 010",
    "a: 0x1f",
    "a: 1_000",
    "a: 1:30",
    "a: 1e3",
    "a: 1.0",
    "yes: 1",
    "a: [1, [no]]",
    "a: &x 1",
    "a: *x",
    "a: &x 1\nb: *x",
    "a: {<<: {b: 1}}",
    "a: !!str 1",
    "a: [1",
    "a: {b: 1, b: 2}",
    "a: 1\na: 2",
    "a: b: c",
    'a: "x',
    "a:\n  - 1\n b: 2",
    "\ta: 1",
]


class Yaml(unittest.TestCase):
    """What is read has its value, and everything else is refused."""

    maxDiff = None

    def test_what_is_read(self):
        """Two documents; the part before the first `---` is empty."""
        self.assertEqual([WANTED, {"kind": "Pod"}], documents(MANIFEST))

    def test_strings_and_brackets_over_several_lines(self):
        """Folded strings, plain and quoted strings over several lines, and a document behind a comment."""
        self.assertEqual([FOLDED_VALUE], documents(FOLDED))

    def test_without_pyyaml(self):
        """The package that is missing is named."""
        with mock.patch.dict(sys.modules, {"yaml": None}), self.assertRaises(Fault) as raised:
            documents("a: 1")
        self.assertEqual(Status.NO_TOOL, raised.exception.status)
        self.assertEqual("there is no PyYAML, which reads YAML: tools/packages --install installs it", str(raised.exception))

    def test_what_is_refused(self):
        """What is not read, or is read in two ways by two versions of YAML."""
        for text in REFUSED:
            with self.subTest(text), self.assertRaises(Unreadable):
                documents(text)
