"""What input in another form than that of a feed is, and what to do about it, where the program does not say so."""

import json
import re
from typing import Any

from mesh_front.feed import Feed

ZSTD = b"\x28\xb5\x2f\xfd"
HTML = re.compile(rb"\s*<(!doctype\s+html|html)\b", re.I)
KUBECTL = re.compile(rb"(error: |Error from server|Unable to connect to the server|The connection to the server|E\d{4} )")


def hint(feed: Feed, refusals: dict[int, str]) -> str | None:
    """What the refused lines of a feed look like, None where that is nothing known."""
    first = next((line for line in feed.lines if line.strip()), b"")
    if not refusals:
        return None
    if first.startswith(ZSTD):
        return "the input is compressed with zstd: `zstd -dc FILE` prints the feed"
    if HTML.match(first):
        return "the input is a page of HTML, perhaps of a proxy or a login before the API server"
    if KUBECTL.match(first):
        return f"the input is an error of kubectl: {first[:80].decode(errors='replace')}"
    value = next((it for it in feed.values if it is not None), None)
    if isinstance(value, list):
        return "the input is an array: `jq -c '.[] | {type: \"ADDED\", object: .}'` prints a line for each object"
    if is_table(value):
        return "the input is a Table, which the API server prints for people: ask for the objects, with `kubectl get -o json`"
    return cut_hint(feed, refusals)


def is_table(value: Any) -> bool:
    """Whether a value is a Table of the API server."""
    return isinstance(value, dict) and value.get("kind") == "Table" and str(value.get("apiVersion")).startswith("meta.k8s.io/")


def cut_hint(feed: Feed, refusals: dict[int, str]) -> str | None:
    """What is said of a last line that begins as JSON, is refused and has no line feed."""
    number = len(feed.lines)
    if feed.ends_with_line_feed or number not in refusals or not feed.lines[-1].startswith(b"{"):
        return None
    try:
        json.loads(feed.lines[-1])
    except ValueError:
        return f"the last line, {number}, is cut: the recording ended inside of it, and what it had is not known"
    return None
