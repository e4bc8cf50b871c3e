"""The files in deploy/: the unit by systemd's own check, the others as what they are parsed to."""

import json
import re
import shutil
import subprocess
import unittest

import yaml

from mesh_front.kinds import KINDS
from mesh_front.messages import ROOT
from mesh_tests.support import Case

DEPLOY = ROOT / "deploy"
PLACE = "/opt/holzhybat"  # where the unit and the image have the tree
UNIT = "holzhybat.service"
MOST_EXPOSURE = 20  # tenths, of which systemd calls less than 2 safe


class Unit(Case):
    """The unit of systemd."""

    def copy(self):
        """The unit, with the tools of this tree."""
        return self.file(UNIT, (DEPLOY / UNIT).read_text().replace(PLACE, str(ROOT)).encode())

    @unittest.skipUnless(shutil.which("systemd-analyze"), "systemd is not installed")
    def test_systemd_verifies_it(self):
        """Nothing is found."""
        run = subprocess.run(["systemd-analyze", "verify", "--man=no", self.copy()], capture_output=True, text=True)
        self.assertEqual((0, "", ""), (run.returncode, run.stdout, run.stderr))

    @unittest.skipUnless(shutil.which("systemd-analyze"), "systemd is not installed")
    def test_it_is_confined(self):
        """Its exposure is low by systemd's own measure."""
        command = ["systemd-analyze", "security", "--offline=yes", "--no-pager", f"--threshold={MOST_EXPOSURE}", self.copy()]
        run = subprocess.run(command, capture_output=True, text=True)
        if "unrecognized option" in run.stderr or "Unknown" in run.stderr:
            self.skipTest("this systemd does not measure files")
        self.assertEqual(0, run.returncode, run.stdout[-400:] + run.stderr)

    def test_it_waits_until_it_is_ready(self):
        """systemd is told, and no time limits how long that takes."""
        lines = (DEPLOY / UNIT).read_text().splitlines()
        self.assertLessEqual({"Type=notify", "NotifyAccess=main", "TimeoutStartSec=infinity"}, set(lines))


class Image(Case):
    """The Containerfile."""

    def test_instructions(self):
        """What is copied is in the tree, the program apart; it runs the controller, not as root."""
        text = re.sub(r"\\\n", "", (DEPLOY / "Containerfile").read_text())
        steps = [line.split(maxsplit=1) for line in text.splitlines() if line and not line.startswith("#")]
        self.assertLessEqual({name for name, _ in steps}, {"FROM", "RUN", "COPY", "ENV", "USER", "ENTRYPOINT"})
        copies = [rest.split() for name, rest in steps if name == "COPY" and "--from" not in rest]
        program = "crates/linkerd_cli/out/linkerd_cli"
        for source, target in copies:
            self.assertEqual(f"{PLACE}/{source}", target)
            self.assertTrue(source == program or (ROOT / source).exists(), source)
        self.assertIn(["docs/proxy.proto", f"{PLACE}/docs/proxy.proto"], copies)
        self.assertIn("protobuf-compiler", " ".join(rest for name, rest in steps if name == "RUN").split(), "the map decodes messages")
        [user] = [rest for name, rest in steps if name == "USER"]
        self.assertRegex(user, r"^[1-9]\d*:[1-9]\d*$")
        [words] = [json.loads(rest) for name, rest in steps if name == "ENTRYPOINT"]
        self.assertEqual([f"{PLACE}/tools/controller", "--program", f"{PLACE}/{program}"], words)

    def test_nothing_else_is_needed(self):
        """The controller runs with what the image has: the standard library, and the modules beside it."""
        tools = self.room / "tools"
        tools.mkdir()
        shutil.copy(ROOT / "tools" / "controller", tools)
        shutil.copytree(ROOT / "tools" / "mesh_front", tools / "mesh_front")
        run = subprocess.run(["python3", "-S", tools / "controller", "--help"], capture_output=True, text=True)
        self.assertEqual((0, ""), (run.returncode, run.stderr))


class Manifests(Case):
    """The objects of the Deployment."""

    def setUp(self):
        super().setUp()
        objects = list(yaml.safe_load_all((DEPLOY / "deployment.yaml").read_text()))
        self.objects = {it["kind"]: it for it in objects}
        self.assertEqual(len(objects), len(self.objects))

    def test_they_belong_together(self):
        """One namespace, one account, one label of the Pods."""
        name = self.objects["Namespace"]["metadata"]["name"]
        free = ("Namespace", "ClusterRole", "ClusterRoleBinding")
        self.assertEqual({name}, {it["metadata"]["namespace"] for kind, it in self.objects.items() if kind not in free})
        binding, template = self.objects["ClusterRoleBinding"], self.objects["Deployment"]["spec"]["template"]
        account = self.objects["ServiceAccount"]["metadata"]["name"]
        self.assertEqual([{"kind": "ServiceAccount", "name": account, "namespace": name}], binding["subjects"])
        self.assertEqual(self.objects["ClusterRole"]["metadata"]["name"], binding["roleRef"]["name"])
        self.assertEqual(account, template["spec"]["serviceAccountName"])
        labels = template["metadata"]["labels"]
        self.assertEqual(labels, self.objects["Service"]["spec"]["selector"])
        for kind, member in (("Deployment", "selector"), ("PodDisruptionBudget", "selector"), ("NetworkPolicy", "podSelector")):
            self.assertEqual({"matchLabels": labels}, self.objects[kind]["spec"][member])

    def test_the_account_may_read_the_kinds(self):
        """List and watch of each kind that is read, and nothing else."""
        allowed = []
        for rule in self.objects["ClusterRole"]["rules"]:
            allowed += [(group, plural, rule["verbs"]) for group in rule["apiGroups"] for plural in rule["resources"]]
        self.assertEqual(sorted((it.group, it.plural, ["list", "watch"]) for it in KINDS), sorted(allowed))

    def test_two_replicas_that_are_asked_whether_they_are_ready(self):
        """One may be disrupted at a time, and the probes are the pages of the controller."""
        spec = self.objects["Deployment"]["spec"]
        self.assertGreater(spec["replicas"], self.objects["PodDisruptionBudget"]["spec"]["minAvailable"])
        self.assertEqual(0, spec["strategy"]["rollingUpdate"]["maxUnavailable"])
        [container] = spec["template"]["spec"]["containers"]
        ports = {it["name"]: it["containerPort"] for it in container["ports"]}
        words = dict(zip(container["args"][::2], container["args"][1::2]))
        self.assertEqual({"--bind": f"$(POD_IP):{ports['serve']}", "--health": f"$(POD_IP):{ports['health']}", "--log": "json"}, words)
        for probe, path in (("readinessProbe", "/readyz"), ("livenessProbe", "/livez")):
            self.assertEqual({"path": path, "port": "health"}, container[probe]["httpGet"])
        self.assertEqual("serve", self.objects["Service"]["spec"]["ports"][0]["targetPort"])
