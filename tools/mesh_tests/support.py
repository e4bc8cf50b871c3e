"""What the tests share: running `tools/mesh` and `tools/decode`, feeds, and comparing what is printed."""

import contextlib
import io
import json
import os
import pathlib
import subprocess
import sys
import tempfile
import textwrap
import unittest
from dataclasses import dataclass
from unittest import mock

from mesh_front.messages import ROOT
from mesh_front.words import main

EXAMPLES = ROOT / "examples"
RECORDINGS = ROOT.parent / "shared" / "recordings"
PROGRAM = "LINKERD_CLI"
POLICY = "policy.linkerd.io"
AUTHENTICATIONS = ["AuthorizationPolicy", "MeshTLSAuthentication", "NetworkAuthentication"]
IDENTITIES = "serviceaccount.identity.linkerd.cluster.local"


# Answers from a file, by options and path: an object, a message of an error, or the events of a watch with what ends it. A list of
# answers has one for each call, of which the last stays.
KUBECTL = """#!/usr/bin/env python3
import json, pathlib, sys, time
room = pathlib.Path(__file__).parent
*options, get, raw, path = sys.argv[1:]
answer = json.loads((room / "answers.json").read_text()).get(" ".join([*options, path]))
if isinstance(answer, list):
    calls = room / (path.replace("/", "_") + ".calls")
    count = len(calls.read_text()) if calls.exists() else 0
    calls.write_text("x" * (count + 1))
    answer = answer[min(count, len(answer) - 1)]
if answer is None:
    sys.exit('Error from server (NotFound): the server could not find the requested resource')
if isinstance(answer, str):
    sys.exit(answer)
if "events" not in answer:
    print(json.dumps(answer))
    sys.exit()
for event in answer["events"]:
    print(json.dumps(event), flush=True)
time.sleep(answer["seconds"])
sys.exit(answer.get("error", 0))
"""


@dataclass
class Run:
    """How a command ended, and what it wrote on standard output and standard error."""

    status: int
    output: str
    error_output: str

    def json(self):
        """The value of the output."""
        return json.loads(self.output)


def program() -> str:
    """The program that the tests run."""
    return os.environ[PROGRAM]


def replay(feed: bytes) -> bytes:
    """What `replay` writes."""
    return subprocess.run([program(), "replay"], input=feed, capture_output=True).stdout


def new_object(kind: str, name: str, spec: dict | None = None, api: str = f"{POLICY}/v1beta3", labels: dict | None = None) -> dict:
    """An object in the namespace `shop`."""
    metadata = {"name": name, "namespace": "shop", "labels": labels or {}}
    return {"apiVersion": api, "kind": kind, "metadata": metadata, "spec": spec or {}}


def reference(kind: str, name: str) -> dict:
    """A reference to a kind of Linkerd's policy."""
    return {"group": POLICY, "kind": kind, "name": name}


def pod(name: str, app: str, address: str, *ports: int, is_meshed: bool = True) -> dict:
    """A Pod with a label `app`, the account of that name, and containers with these ports."""
    labels = {"app": app} | ({"linkerd.io/control-plane-ns": "linkerd"} if is_meshed else {})
    containers = [{"name": "c", "ports": [{"containerPort": port} for port in ports]}]
    value = new_object("Pod", name, {"serviceAccountName": app, "containers": containers}, "v1", labels)
    return {**value, "status": {"podIP": address}}


def server(name: str, app: str, port: int, **spec) -> dict:
    """A Server for the Pods with a label `app`."""
    return new_object("Server", name, {"podSelector": {"matchLabels": {"app": app}}, "port": port, **spec})


def policy(name: str, target: dict, *references: dict) -> dict:
    """An AuthorizationPolicy."""
    spec = {"targetRef": target, "requiredAuthenticationRefs": list(references)}
    return new_object("AuthorizationPolicy", name, spec, f"{POLICY}/v1alpha1")


def lines_of(*values: dict) -> bytes:
    """Lines with these values."""
    return b"".join(json.dumps(it).encode() + b"\n" for it in values)


def events_of(*objects: dict) -> bytes:
    """The events that add the objects."""
    return lines_of(*({"type": "ADDED", "object": it} for it in objects))


def empty_lists(*without: str) -> bytes:
    """The empty lists of all kinds of docs/FEED.md but some, which are named `Kind` or `Kind.group`."""
    kinds = {
        "v1": ["Service", "Pod"],
        "discovery.k8s.io/v1": ["EndpointSlice"],
        "linkerd.io/v1alpha2": ["ServiceProfile"],
        f"{POLICY}/v1": ["Server", "ServerAuthorization", *AUTHENTICATIONS, "HTTPRoute"],
        "gateway.networking.k8s.io/v1": ["HTTPRoute"],
    }
    pairs = [(kind, api) for api, names in kinds.items() for kind in names]
    return lines_of(*(list_of(kind, api) for kind, api in pairs if not {kind, f"{kind}.{api.split('/')[0]}"} & set(without)))


def list_of(kind: str, api: str, *items: dict) -> dict:
    """A list."""
    return {"kind": f"{kind}List", "apiVersion": api, "items": list(items)}


def feed_of(*objects: dict) -> bytes:
    """A feed that holds the objects and lists of all kinds."""
    return empty_lists() + events_of(*objects)


def list_page(kind: str, *names: str, more: str = "") -> dict:
    """A page of a list."""
    metadata = {"resourceVersion": "7"} | ({"continue": more, "remainingItemCount": 1} if more else {})
    return {"kind": f"{kind}List", "apiVersion": "v1", "metadata": metadata, "items": [{"metadata": {"name": it}} for it in names]}


class Case(unittest.TestCase):
    """A test with a folder for its files."""

    maxDiff = None

    def setUp(self):
        room = tempfile.TemporaryDirectory()
        self.addCleanup(room.cleanup)
        self.room = pathlib.Path(room.name)

    def file(self, name: str, data: bytes) -> pathlib.Path:
        """A file with these bytes."""
        path = self.room / name
        path.write_bytes(data)
        return path

    def run_mesh(self, *words) -> Run:
        """Runs `tools/mesh` in this process."""
        output, error_output = io.StringIO(), io.StringIO()
        with contextlib.redirect_stdout(output), contextlib.redirect_stderr(error_output):
            try:
                status = main([str(word) for word in words])
            except SystemExit as end:
                status = int(end.code or 0)
        return Run(status, output.getvalue(), error_output.getvalue())

    def mesh(self, command: str, feed, *words) -> Run:
        """Runs a command of `tools/mesh` over a feed: an example, or bytes."""
        path = self.file("feed.jsonl", feed) if isinstance(feed, bytes) else EXAMPLES / feed
        return self.run_mesh(command, "--program", program(), "--feed", path, *words)

    def run_tool(self, name: str, *words, text: str = "") -> Run:
        """Runs a tool over a standard input, for two minutes at most."""
        command = [sys.executable, str(ROOT / "tools" / name), *map(str, words)]
        run = subprocess.run(command, input=text, capture_output=True, text=True, timeout=120)
        return Run(run.returncode, run.stdout, run.stderr)

    def decode(self, text: str, *words) -> Run:
        """Runs `tools/decode`."""
        return self.run_tool("decode", *words, text=text)

    def put_kubectl(self, answers: dict) -> None:
        """Puts a kubectl with these answers in front of the PATH of this test; without answers there is none on it."""
        if answers:
            self.file("kubectl", KUBECTL.encode()).chmod(0o755)
            self.file("answers.json", json.dumps(answers).encode())
        path = f"{self.room}:{os.environ['PATH']}" if answers else str(self.room)
        replaced = mock.patch.dict(os.environ, {"PATH": path})
        replaced.start()
        self.addCleanup(replaced.stop)

    def require(self, run: Run, status: int, output: str = "", error_output: str = "") -> None:
        """Compares how a run ended and all that it wrote."""
        expected = Run(status, textwrap.dedent(output).lstrip("\n"), textwrap.dedent(error_output).lstrip("\n"))
        self.assertEqual(vars(expected), vars(run))
