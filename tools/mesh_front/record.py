"""`mesh record`: the lists of a cluster's objects, by kubectl, and the watches that continue them."""

import json
import subprocess
import sys
import tempfile
import urllib.parse
from dataclasses import dataclass
from typing import Iterator

from mesh_front.faults import Fault, Status
from mesh_front.feed import members
from mesh_front.kinds import FILL_ORDER, KINDS, Kind

PAGE = 500
PAGE_MEMBERS = ("continue", "remainingItemCount")


class NotFound(Exception):
    """The API server has nothing at a path."""


def cannot_run(error: OSError) -> Fault:
    """What is said of a kubectl that cannot be run."""
    return Fault(Status.NO_TOOL, f"cannot run kubectl: {error.strerror}")


@dataclass
class Listing:
    """The list of a kind, and of each path that it was read at the version from which a watch continues."""

    value: dict
    versions: dict[str, str]


class Watch:
    """A watch that kubectl prints, one event a line, until it ends or is ended."""

    def __init__(self, command: list[str]):
        self.errors = tempfile.TemporaryFile()
        self.process = subprocess.Popen(command, stdin=subprocess.DEVNULL, stdout=subprocess.PIPE, stderr=self.errors)

    def lines(self) -> Iterator[bytes]:
        """The events. A last line that is cut is none."""
        return (line[:-1] for line in self.process.stdout or () if line.endswith(b"\n"))

    def end(self) -> None:
        """Ends the watch, if it goes on."""
        self.process.terminate()

    def reason(self) -> str:
        """What kubectl says of the end of the watch."""
        status = self.process.wait()
        self.errors.seek(0)
        message = self.errors.read().decode(errors="replace").strip()
        return message or (f"kubectl ended with status {status}" if status > 0 else "")


class Cluster:
    """A cluster that kubectl reaches."""

    def __init__(self, options: list[str]):
        self.options = options

    def command(self, path: str) -> list[str]:
        """The command that prints what the API server answers at a path."""
        return ["kubectl", *self.options, "get", "--raw", path]

    def get(self, path: str, kind: Kind) -> bytes:
        """What the API server answers at a path; the kind is named where kubectl fails."""
        try:
            run = subprocess.run(self.command(path), stdin=subprocess.DEVNULL, capture_output=True)
        except OSError as error:
            raise cannot_run(error) from error
        message = run.stderr.decode(errors="replace").strip()
        if run.returncode and "(NotFound)" in message:
            raise NotFound
        if run.returncode:
            raise Fault(Status.TOOL_FAILED, f"listing {kind.title} failed: {message or f'kubectl ended with status {run.returncode}'}")
        return run.stdout

    def watch(self, path: str, version: str) -> Watch:
        """The watch of a path from a version on."""
        query = urllib.parse.urlencode({"watch": 1, "resourceVersion": version})
        try:
            return Watch(self.command(f"{path}?{query}"))
        except OSError as error:
            raise cannot_run(error) from error

    def value(self, path: str, kind: Kind) -> dict:
        """The JSON object at a path."""
        try:
            result = json.loads(self.get(path, kind))
        except ValueError:
            result = None
        if not isinstance(result, dict):
            raise Fault(Status.TOOL_FAILED, f"listing {kind.title} failed: kubectl printed no JSON object for {path}")
        return result


def versions(cluster: Cluster, kind: Kind) -> list[str]:
    """The versions of a kind's group to ask for: the recorded one, then what the cluster has, its preferred version first."""
    if not kind.group:
        return [kind.version]
    group = cluster.value(f"/apis/{kind.group}", kind)
    preferred = members(group, "preferredVersion").get("version")
    others = [str(it.get("version")) for it in group.get("versions") or [] if isinstance(it, dict)]
    served_versions = [version for version in (kind.version, str(preferred), *others) if version in others]
    return list(dict.fromkeys(served_versions))


def collection(kind: Kind, version: str, namespace: str | None) -> str:
    """The path of the objects of a kind, in a namespace or in all."""
    root = f"/apis/{kind.group}/{version}" if kind.group else f"/api/{version}"
    return f"{root}/namespaces/{namespace}/{kind.plural}" if namespace else f"{root}/{kind.plural}"


def pages(cluster: Cluster, kind: Kind, path: str) -> list[dict]:
    """The pages of a list."""
    all_pages: list[dict] = []
    more = ""
    while not all_pages or more:
        query = {"limit": PAGE} | ({"continue": more} if more else {})
        page = cluster.value(f"{path}?{urllib.parse.urlencode(query)}", kind)
        if page.get("kind") != f"{kind.name}List" or not isinstance(page.get("items"), (list, type(None))):
            raise Fault(Status.TOOL_FAILED, f"listing {kind.title} failed: {path} has a {page.get('kind')}, not a {kind.name}List")
        all_pages.append(page)
        more = members(page, "metadata").get("continue") or ""
    return all_pages


def whole_list(parts: list[dict]) -> dict:
    """One list with the items of all."""
    metadata = {key: value for key, value in members(parts[0], "metadata").items() if key not in PAGE_MEMBERS}
    return {**parts[0], "metadata": metadata, "items": [it for part in parts for it in part.get("items") or []]}


def listing_of(cluster: Cluster, kind: Kind, namespaces: list[str]) -> Listing | None:
    """The list of a kind, or None where the cluster lacks the kind."""
    try:
        candidates = versions(cluster, kind)
    except NotFound:
        candidates = []
    for version in candidates:
        try:
            paths = [collection(kind, version, namespace) for namespace in dict.fromkeys(namespaces) or [None]]
            parts = {path: pages(cluster, kind, path) for path in paths}
        except NotFound:
            continue
        versions_by_path = {path: members(it[0], "metadata").get("resourceVersion") or "" for path, it in parts.items()}
        return Listing(whole_list([page for it in parts.values() for page in it]), versions_by_path)
    if not kind.group:
        raise Fault(Status.TOOL_FAILED, f"listing {kind.title} failed: the API server does not have the kind")
    return None


def line_of(value: dict) -> str:
    """A list or an event as a line."""
    return json.dumps(value, separators=(",", ":"))


def left_out(kind: Kind) -> str:
    """What is said of a kind that the cluster lacks."""
    return f"left out {kind.title}: the cluster does not have it in the group {kind.group}"


def empty_list(kind: Kind) -> dict:
    """The list of a kind that the cluster lacks."""
    return {"kind": f"{kind.name}List", "apiVersion": kind.api_version, "metadata": {}, "items": []}


def run(cluster: Cluster, namespaces: list[str]) -> Status:
    """Prints a list of each kind, one a line, once all are read, policies first. The list of a kind that the cluster lacks is empty."""
    lists = {}
    for kind in KINDS:
        if sys.stderr.isatty():
            print(f"mesh: listing {kind.title}", file=sys.stderr)
        listing = listing_of(cluster, kind, namespaces)
        if listing is None:
            print(f"mesh: the list of {kind.title} is empty: the cluster does not have it in the group {kind.group}", file=sys.stderr)
        lists[kind] = listing.value if listing else empty_list(kind)
    for kind in FILL_ORDER:
        print(line_of(lists[kind]))
    return Status.DONE
