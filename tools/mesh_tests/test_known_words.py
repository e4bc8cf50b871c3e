"""Words that people know from kubectl, forms of answers, terminals, completion, and hints for input in another form."""

import json
import os
import pty
import re
import shutil
import subprocess
import unittest
from unittest import mock

from mesh_front import tables
from mesh_front.messages import ROOT
from mesh_tests.support import EXAMPLES, Case, empty_lists, feed_of, new_object, pod, program, server

MESH = ROOT / "tools" / "mesh"


def owned(value: dict, kind: str, name: str, **labels: str) -> dict:
    """A Pod that something controls."""
    metadata = value["metadata"]
    owners = [{"kind": kind, "name": name, "controller": True}]
    return {**value, "metadata": {**metadata, "labels": {**metadata["labels"], **labels}, "ownerReferences": owners}}


def shop() -> bytes:
    """A Service `web` with two named ports, a Pod of the Deployment `web`, and one of the StatefulSet `db`."""
    service = new_object("Service", "web", {"ports": [{"name": "http", "port": 80}, {"name": "admin", "port": 90}]}, "v1")
    web = owned(pod("web-5d-x", "web", "10.0.0.1", 8080), "ReplicaSet", "web-5d", **{"pod-template-hash": "5d"})
    web["spec"]["containers"][0]["ports"][0]["name"] = "http"
    return feed_of(service, web, owned(pod("db-0", "db", "10.0.0.2", 5432), "StatefulSet", "db"), server("web", "web", 8080))


class Names(Case):
    """Services, Pods and workloads by the words that people know."""

    def ports(self, *words: str) -> list[int]:
        """The ports of the Service that words name."""
        return [it["service_port"] for it in self.mesh("endpoints", shop(), *words, "-o", "json").json()["ports"]]

    def test_services(self):
        """Its full name, `svc/`, the namespace of `-n`, and a port by its name."""
        for words in (["web.shop.svc.cluster.local:80"], ["web.shop.svc:80"], ["svc/web:80", "-n", "shop"], ["service/web.shop:http"], ["web:http", "-n", "shop"]):
            self.assertEqual([80], self.ports(*words))
        self.assertEqual([80, 90], self.ports("web", "-n", "shop"))
        self.assertEqual([90], self.ports("web.shop:admin", "-n", "edge"))

    def test_pods_and_workloads(self):
        """A Pod by its namespace, by `-n` and with `pod/`, a workload by its kind, and a port by its name."""
        for words in (["shop/web-5d-x:8080"], ["web-5d-x:8080", "-n", "shop"], ["pod/web-5d-x:http", "-n", "shop"], ["deploy/web:8080", "-n", "shop"], ["deployment/shop/web:http"]):
            self.assertEqual("web", self.mesh("policy", shop(), *words, "-o", "json").json()["server"])
        run = self.mesh("ask", shop(), "deploy/web:8080", "--from", "sts/db", "-n", "shop", "-o", "json")
        client = {"address": "10.0.0.2", "identity": "db.shop.serviceaccount.identity.linkerd.cluster.local", "tls": False}
        self.assertEqual(client, run.json()["client"])
        run = self.mesh("map", shop(), "--from", "sts/db", "--to", "deploy/web", "-n", "shop", "-o", "json")
        self.assertEqual([["shop/db", "shop/web:8080"]], [[it["client"], it["port"]] for it in run.json()["cells"]])

    def test_a_namespace_that_is_called_as_a_kind(self):
        """A Pod of the namespace `deploy` is found by it."""
        value = pod("web", "web", "10.0.0.1", 80)
        value["metadata"]["namespace"] = "deploy"
        self.assertEqual(0, self.mesh("policy", feed_of(value), "deploy/web:80").status)

    def test_unknown_names(self):
        """A name that another namespace has is the nearest; unknown ports and workloads are told with those that there are."""
        run = self.mesh("endpoints", shop(), "web")
        self.require(run, 3, "", "mesh: there is no Service web.default in the feed; the nearest: web.shop\n")
        run = self.mesh("policy", shop(), "edge/db-0:5432")
        self.assertIn("mesh: there is no Pod edge/db-0 in the feed; the nearest: shop/db-0", run.error_output)
        run = self.mesh("endpoints", shop(), "web.shop:grpc")
        self.require(run, 3, "", "mesh: the Service web.shop has no port grpc; it has http, admin\n")
        run = self.mesh("policy", shop(), "shop/web-5d-x:grpc")
        self.require(run, 3, "", "mesh: the Pod shop/web-5d-x has no port grpc; it has http\n")
        run = self.mesh("policy", shop(), "deploy/wep:8080", "-n", "shop")
        self.require(run, 3, "", "mesh: there is no Deployment shop/wep with a Pod in the feed; the nearest: shop/web\n")


class Forms(Case):
    """Forms of answers and of help."""

    def test_yaml(self):
        """The values of JSON."""
        try:
            import yaml
        except ImportError:
            self.skipTest("PyYAML is not installed")
        for command in (["policy", "shop/web-5d-x:8080"], ["check"], ["map"]):
            name, *words = command
            found = [self.mesh(name, shop(), *words, "-o", form).output for form in ("yaml", "json")]
            self.assertEqual(json.loads(found[1]), yaml.safe_load(found[0]))

    def test_wide_is_a_table(self):
        """Where the output is no terminal, tables are wide by themselves."""
        found = [self.mesh("policy", "policy.jsonl", "app/web-1:8080", "-o", form).output for form in ("wide", "table")]
        self.assertEqual(*found)

    def test_help(self):
        """Each command has an example and its own statuses alone."""
        for command in ("record", "endpoints", "policy", "profile", "routes", "ask", "diff", "map", "check", "completion"):
            text = self.run_mesh(command, "--help").output
            self.assertRegex(text, rf"example:\n  .*tools/mesh {command}")
            self.assertIn("exit status:\n  0  ", text)
            self.assertEqual(command == "diff", "not computed" in text)
            self.assertEqual(command in ("ask", "diff", "map", "check"), "\n  1  " in text)
            self.assertEqual([], [it for it in ("ask:", "diff:", "check:") if it in text and it != f"{command}:"])

    def test_version(self):
        """That of the program, as ./linkerd_cli prints it."""
        run = subprocess.run([MESH, "--version"], capture_output=True, text=True)
        self.assertEqual((0, "linkerd_cli "), (run.returncode, run.stdout[:12]))


class Terminal(Case):
    """On a terminal tables are fitted to its width, and verdicts have colours."""

    def on_terminal(self, columns: int, *words: str, **environment: str) -> str:
        """What `tools/mesh` prints on standard output where it is a terminal."""
        files = {"stdin": subprocess.DEVNULL, "stderr": subprocess.DEVNULL}
        return self.shown([*words, "--program", program()], {"stdout": None, **files}, COLUMNS=str(columns), **environment)

    def shown(self, words: list[str], files: dict[str, int | None], typed: bytes = b"", **environment: str) -> str:
        """What `tools/mesh` shows on a terminal, which those of its files are that are None."""
        outer, inner = pty.openpty()
        os.write(outer, typed)
        variables = {**os.environ, "TERM": "xterm", **environment}
        with subprocess.Popen([MESH, *words], env=variables, **{name: inner if it is None else it for name, it in files.items()}):
            os.close(inner)
            output = b""
            while True:
                try:
                    part = os.read(outer, 65536)
                except OSError:
                    break
                if not part:
                    break
                output += part
        os.close(outer)
        return output.decode().replace("\r\n", "\n")

    def test_a_feed_that_is_typed(self):
        """It is said that standard input is waited for; from a pipe nothing is said."""
        words = ["check", "--program", program()]
        waiting = "mesh: waiting for a feed on standard input, up to Ctrl-D; --feed FILE reads a file\n"
        self.assertIn(waiting, self.shown(words, {"stdin": None, "stdout": subprocess.DEVNULL, "stderr": None}, typed=b"\x04"))
        self.assertNotIn("waiting", self.mesh("check", shop()).error_output)

    def test_lists_of_a_cluster(self):
        """Each kind is named while it is listed, on a terminal alone."""
        self.put_kubectl({"/api/v1/services?limit=500": "Unable to connect to the server"})
        none = {"stdin": subprocess.DEVNULL, "stdout": subprocess.DEVNULL}
        sentences = ["mesh: listing Service\n", "mesh: listing Service failed: Unable to connect to the server\n"]
        self.assertEqual("".join(sentences), self.shown(["record"], {**none, "stderr": None}))
        self.assertEqual(sentences[1], self.run_mesh("record").error_output)

    def test_within_eighty_columns(self):
        """Identities are shortened; `-o wide` has all of them. NO_COLOR leaves out the colours."""
        words = ["policy", "app/web-1:8080", "--feed", str(EXAMPLES / "policy.jsonl")]
        text = self.on_terminal(80, *words, NO_COLOR="1")
        self.assertNotIn("\033", text)
        self.assertLessEqual(max(map(len, text.splitlines())), 80)
        self.assertIn("gateway.edge\n", text)
        wide = self.on_terminal(80, *words, "-o", "wide", NO_COLOR="1")
        self.assertIn("gateway.edge.serviceaccount.identity.linkerd.cluster.local\n", wide)

    def test_colours(self):
        """A verdict has one; a dumb terminal has none."""
        words = ["ask", "app/web-1:8080", "--client", "10.9.0.5", "--path", "/admin", "--feed", str(EXAMPLES / "policy.jsonl")]
        environment = {name: value for name, value in os.environ.items() if name != "NO_COLOR"}
        with mock.patch.dict(os.environ, environment, clear=True):
            self.assertIn("VERDICT  \033[31mdenied\033[0m by", self.on_terminal(80, *words))
            self.assertNotIn("\033", self.on_terminal(80, *words, TERM="dumb"))

    def test_a_narrow_table(self):
        """Cells are wrapped at words, the widest column first, and no row has less than it had."""
        rows = [["HEAD", "TEXT"], ["a", "one two three four five six"]]
        found = tables.fitted(rows, 22)
        self.assertEqual([["HEAD", "TEXT"], ["a", "one two three"], ["", "four five six"]], found)


class Completion(Case):
    """The scripts that complete words."""

    def complete(self, *words: str) -> list[str]:
        """What bash offers for the last word."""
        script = self.run_mesh("completion", "bash").output
        command = f"{script}\nCOMP_WORDS=(mesh {' '.join(it or chr(39) * 2 for it in words)}); COMP_CWORD={len(words)}; _mesh; printf '%s\\n' \"${{COMPREPLY[@]}}\""
        return subprocess.run(["bash", "-c", command], capture_output=True, text=True, cwd=self.room).stdout.split()

    def test_bash(self):
        """Commands, options, forms and files."""
        self.assertEqual(["policy", "profile"], sorted(self.complete("p")))
        self.assertEqual(["--delete"], self.complete("diff", "--del"))
        self.assertEqual(["json"], self.complete("check", "-o", "j"))
        self.assertEqual(["bash", "zsh"], self.complete("completion", ""))
        self.file("feed.jsonl", b"")
        self.assertEqual(["feed.jsonl"], self.complete("check", "--feed", "fe"))

    @unittest.skipUnless(shutil.which("zsh"), "zsh is not installed")
    def test_zsh(self):
        """zsh reads its script."""
        script = self.run_mesh("completion", "zsh").output
        run = subprocess.run(["zsh", "-fc", f"{script}\necho ready"], capture_output=True, text=True, cwd=self.room)
        self.assertEqual("ready\n", run.stdout)

    def test_zsh_uses_the_functions_of_bash(self):
        """They are loaded first."""
        lines = self.run_mesh("completion", "zsh").output.splitlines()
        self.assertIn("bashcompinit", lines[1])


class Hints(Case):
    """What input in another form is."""

    def hint(self, feed: bytes) -> str:
        """The last line on standard error."""
        lines = self.mesh("endpoints", feed, "web.shop").error_output.splitlines()
        return next(it for it in lines if re.match(r"mesh: the (input|last line)", it))

    def test_each(self):
        """A page of HTML, an error of kubectl, an array, a Table, and data of zstd."""
        self.assertIn("a page of HTML", self.hint(b"<!DOCTYPE html>\n<html></html>\n"))
        self.assertIn("an error of kubectl: Error from server (Forbidden): x", self.hint(b"Error from server (Forbidden): x\n"))
        self.assertIn("an array: `jq -c", self.hint(b'[{"kind":"Pod"}]\n'))
        self.assertIn("a Table, which", self.hint(b'{"kind":"Table","apiVersion":"meta.k8s.io/v1","rows":[]}\n'))
        self.assertIn("compressed with zstd: `zstd -dc FILE`", self.hint(b"\x28\xb5\x2f\xfd\x04\x00\n"))

    def test_a_cut_last_line(self):
        """A last line without a line feed that is not whole; a whole one is read."""
        whole = shop()
        line = b'{"type":"ADDED","object":{"kind":"Service","apiVersion":"v1","metadata":{"name":"a","namespace":"shop"},"spec":{}}}'
        self.assertIn(f"the last line, {whole.count(10) + 1}, is cut", self.hint(whole + line[:60]))
        self.assertEqual("", self.mesh("endpoints", whole + line, "a.shop").error_output)

    def test_other_refused_lines(self):
        """A line that is refused for what it says has no hint."""
        feed = empty_lists() + b'{"kind":"Status","code":403}\n' + (EXAMPLES / "first.jsonl").read_bytes()
        self.assertNotIn("the input", self.mesh("endpoints", feed, "api.gamma").error_output)
