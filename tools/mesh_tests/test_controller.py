"""`tools/controller`, with the program and a kubectl that answers from files, on the loopback interface. Each wait is bounded."""

import contextlib
import json
import os
import pathlib
import signal
import socket
import subprocess
import sys
import time
import urllib.error
import urllib.request
from unittest import mock

from mesh_front.controller import SCRIPT, provenance
from mesh_front.messages import ROOT
from mesh_tests.live import diagnosis, free_address
from mesh_tests.support import POLICY, Case, feed_of, list_page, pod, program, server
from mesh_tests.test_feed import SERVERS, event, objects_page
from mesh_tests.text_format import samples_of

SECONDS = 120
PODS, SERVICES = "/api/v1/pods", "/api/v1/services"
QUIET = {"events": [], "seconds": 600}
WEB = pod("web-1", "web", "10.1.2.3", 8080)
WEB_SERVER = server("web", "web", 8080)
NO_LIST = {"events": [], "seconds": 600}


def watch_of(path: str, version: int = 7) -> str:
    """The watch of a path."""
    return f"{path}?watch=1&resourceVersion={version}"


def list_of(path: str) -> str:
    """The list at a path."""
    return f"{path}?limit=500"


def version_of(value: dict, version: int) -> dict:
    """A list at another version."""
    return {**value, "metadata": {"resourceVersion": str(version)}}


def cluster(**others) -> dict:
    """The answers of an API server with a Pod, a Server and no Service, without the other kinds."""
    return {
        list_of(SERVICES): list_page("Service"),
        watch_of(SERVICES): QUIET,
        list_of(PODS): objects_page("Pod", WEB),
        watch_of(PODS): QUIET,
        f"/apis/{POLICY}": {"versions": [{"version": "v1beta3"}], "preferredVersion": {"version": "v1beta3"}},
        list_of(SERVERS): objects_page("Server", WEB_SERVER, api=f"{POLICY}/v1beta3"),
        watch_of(SERVERS): QUIET,
        **others,
    }


class Controller(Case):
    """A controller from its start to its end."""

    def setUp(self):
        super().setUp()
        self.address, self.health = free_address(), free_address()
        self.notices = socket.socket(socket.AF_UNIX, socket.SOCK_DGRAM)
        self.notices.bind(str(self.room / "notify"))
        self.notices.setblocking(False)
        self.addCleanup(self.notices.close)

    def start(self, answers: dict, *words: str) -> subprocess.Popen:
        """A controller over a cluster whose API server has these answers."""
        self.put_kubectl(answers)
        command = [sys.executable, ROOT / "tools" / "controller", "--bind", self.address, "--health", self.health, "--program", program()]
        environment = {**os.environ, "NOTIFY_SOCKET": str(self.room / "notify")}
        with (self.room / "log").open("wb") as log:
            controller = subprocess.Popen([*command, *words], stdin=subprocess.DEVNULL, stderr=log, env=environment)
        self.addCleanup(self.end, controller)
        return controller

    def end(self, controller: subprocess.Popen) -> None:
        """Ends a controller that is still there, by SIGTERM, so that its server ends too."""
        if controller.poll() is None:
            controller.terminate()
        try:
            controller.wait(SECONDS)
        finally:
            controller.kill()

    def log(self) -> str:
        """What was logged."""
        return (self.room / "log").read_text()

    def page(self, path: str) -> tuple[int, str]:
        """The status and the text of a page; status 0 where nobody listens yet."""
        try:
            with urllib.request.urlopen(f"http://{self.health}{path}", timeout=SECONDS) as answer:
                return answer.status, answer.read().decode()
        except urllib.error.HTTPError as error:
            with error:
                return error.code, error.read().decode()
        except OSError:
            return 0, ""

    def until(self, path: str, status: int, text: str = "") -> str:
        """The text of a page, once it has a status and a text."""
        end, found = time.monotonic() + SECONDS, (0, "")
        while time.monotonic() < end:
            found = self.page(path)
            if found[0] == status and text in found[1]:
                return found[1]
            time.sleep(0.1)
        self.fail(f"{path} is {found}, not {status} with {text!r}\n{self.log()}")

    def notice(self) -> str:
        """The notices to systemd that have come."""
        found = []
        with contextlib.suppress(BlockingIOError):
            while True:
                found.append(self.notices.recv(4096).decode())
        return "\n".join(found)

    def metrics(self) -> dict:
        """The samples of /metrics, without the prefix of their names."""
        return {(name.removeprefix("linkerd_cli_"), *labels): value for (name, *labels), value in samples_of(self.page("/metrics")[1]).items()}

    def server_of(self, controller: subprocess.Popen) -> int:
        """The process of its server."""
        for path in pathlib.Path("/proc").glob("[0-9]*/stat"):
            with contextlib.suppress(OSError):
                is_child = int(path.read_text().rpartition(")")[2].split()[1]) == controller.pid
                if is_child and b"\0serve\0" in (path.parent / "cmdline").read_bytes():
                    return int(path.parent.name)
        return self.fail("there is no server")

    def require_view(self, feed: bytes = feed_of(WEB, WEB_SERVER)) -> None:
        """A subscriber of the port of the Pod is sent its view over the objects of a feed, by default of the cluster."""
        run = self.run_tool("subscribe", self.address, "WatchPort", "shop/web-1:8080", "--lines", "--count", "1", "--seconds", SECONDS)
        words = ("--method", "WatchPort", "--workload", "shop:web-1", "--port", "8080")
        self.require(run, 0, diagnosis(feed, *words))

    def require_absent(self) -> None:
        """A subscriber of the port of the Pod is sent that nothing is there."""
        self.require_view(b"")

    def require_map(self) -> None:
        """The page has a map, in which the Server of the port denies the account of the Pod."""
        self.assertIn('<iframe src="/map"', self.page("/")[1])
        status, text = self.page("/map")
        self.assertEqual(200, status, text)
        self.assertIn('"texts":["GET /: denied by policy deny of Server shop/web"]', text)

    def require_end(self, controller: subprocess.Popen) -> None:
        """SIGTERM ends the controller and its server, and a line says so."""
        process = self.server_of(controller)
        controller.send_signal(signal.SIGTERM)
        self.assertEqual(0, controller.wait(SECONDS), self.log())
        self.assertIn("ended, with the server", self.log().splitlines()[-1])
        self.assertFalse(pathlib.Path(f"/proc/{process}").exists())
        self.require_no_kubectl()
        self.assertIn("STOPPING=1", self.notice())

    def require_no_kubectl(self) -> None:
        """No kubectl of this test stays."""
        end, left = time.monotonic() + SECONDS, ["?"]
        while left and time.monotonic() < end:
            left = []
            for path in pathlib.Path("/proc").glob("[0-9]*/cmdline"):
                with contextlib.suppress(OSError):
                    left += [path] if f"{self.room}/kubectl".encode() in path.read_bytes() else []
        self.assertEqual([], left)

    def test_a_server_that_is_killed(self):
        """It is started again and filled again, and is not ready in between. What is counted is what it holds."""
        controller = self.start(cluster())
        *checks, last = self.until("/readyz", 200).splitlines()
        self.assertEqual("ready", last)
        present = {it for it in checks if "not in the cluster" not in it}
        self.assertEqual({"[+]Pod: watched", "[+]Service: watched", "[+]Server: watched", "[+]server: listens"}, present)
        self.assertIn("[+]HTTPRoute.gateway.networking.k8s.io: not in the cluster", checks)
        self.require_view()
        self.require_map()
        metrics = self.metrics()
        self.assertEqual(1, metrics["links",], "the feed")
        self.assertEqual((1, 0, 1, 1), tuple(metrics[it,] for it in ("ready", "server_restarts_total", "server_up", "feeds_total")))
        self.assertEqual((1, 1, 0), tuple(metrics["objects", ("kind", it)] for it in ("Pod", "Server", "Service")))
        self.assertEqual((1, 0), tuple(metrics["lines_total", ("kind", "Pod"), ("outcome", it)] for it in ("accepted", "refused")))
        self.assertIn(("last_line_age_seconds", ("kind", "Pod")), metrics)
        self.assertNotIn(("last_line_age_seconds", ("kind", "ServiceProfile")), metrics)
        os.kill(self.server_of(controller), signal.SIGKILL)
        self.until("/readyz", 503)
        self.until("/readyz", 200)
        self.require_view()
        metrics = self.metrics()
        self.assertEqual((1, 1, 2), (metrics["ready",], metrics["server_restarts_total",], metrics["lines_total", ("kind", "Pod"), ("outcome", "accepted")]))
        self.assertIn("the server ended by signal 9; starting it again", self.log())
        self.require_end(controller)

    def test_a_list_that_never_comes(self):
        """The server is alive, not ready, and systemd is not told that it is. SIGTERM ends it all the same."""
        controller = self.start(cluster(**{list_of(PODS): NO_LIST}), "--no-map")
        self.until("/readyz", 503, "[-]Pod: not listed yet")
        self.until("/readyz", 503, "[+]server: listens")
        self.until("/readyz", 503, "[-]Service: listed, not accepted yet")
        self.require_absent()
        self.assertEqual((200, "ok\n"), self.page("/livez"))
        self.assertEqual([404, 404], [self.page(it)[0] for it in ("/other", "/map")])
        self.assertIn("<h1>not ready</h1>", self.page("/")[1])
        self.assertNotIn("READY=1", self.notice())
        self.assertNotIn("ready", [json.loads(line.rpartition("part=controller ")[2]) for line in self.log().splitlines() if "part=controller" in line])
        self.require_end(controller)

    def test_a_policy_that_is_refused_and_mended(self):
        """Nothing is ready and no Pod is sent until the policy is accepted; systemd is told only then."""
        bad = server("web", "web", 8080, proxyProtocol="http")
        pages = [objects_page("Server", it, api=f"{POLICY}/v1beta3") for it in (bad, bad, WEB_SERVER)]
        controller = self.start(cluster(**{list_of(SERVERS): pages}), "--log", "json")
        self.until("/readyz", 200)
        self.require_view()
        lines = [json.loads(line) for line in self.log().splitlines()]
        stops = [it for it in lines if "stopped before any Pod was sent" in it["message"] and it["part"] == "controller"]
        self.assertEqual((2, {"warning"}), (len(stops), {it["level"] for it in stops}))
        metrics = self.metrics()
        self.assertEqual((4, 1), tuple(metrics["lines_total", ("kind", "Server"), ("outcome", it)] for it in ("refused", "accepted")))
        self.assertEqual(1, metrics["lines_total", ("kind", "Pod"), ("outcome", "accepted")])
        self.assertIn("READY=1", self.notice().splitlines())
        self.require_end(controller)

    def test_a_feed_of_a_namespace_that_begins_again(self):
        """The server is started again, so that nothing stays of what the first feed brought and the cluster no longer has."""
        gone = pod("gone", "web", "10.1.2.5", 8080)
        bad = server("web", "web", 8080, proxyProtocol="http")
        answers = cluster(**{list_of(SERVERS): [objects_page("Server", it, api=f"{POLICY}/v1beta3") for it in (WEB_SERVER, bad, WEB_SERVER)]})
        answers[list_of(PODS)] = [objects_page("Pod", WEB, gone), objects_page("Pod", WEB)]
        inside = {path.replace("/pods", "/namespaces/shop/pods").replace("/services", "/namespaces/shop/services"): it for path, it in answers.items()}
        controller = self.start({path.replace("/servers", "/namespaces/shop/servers"): it for path, it in inside.items()}, "shop")
        self.until("/readyz", 200)
        self.until("/metrics", 200, 'linkerd_cli_objects{kind="Pod"} 2\n')
        os.kill(self.server_of(controller), signal.SIGKILL)
        self.until("/metrics", 200, "linkerd_cli_feeds_total 3\n")
        self.until("/readyz", 200)
        self.require_view()
        metrics = self.metrics()
        self.assertEqual(1, metrics["objects", ("kind", "Pod")])
        self.assertEqual(2, metrics["server_restarts_total",], "one for the kill, and one for the feed whose policy is refused")
        self.require_end(controller)

    def test_watches_that_end(self):
        """By 410, after which the kind is listed again at once; by an API server that restarts, whose lists fail meanwhile. The server is
        not ready then once the kind is no longer fresh, and ready again once it is listed and watched again."""
        gone = event("ERROR", {"kind": "Status", "code": 410, "message": "too old resource version"})
        other = pod("web-2", "web", "10.1.2.4", 8080)
        fails, services = "Unable to connect to the server", version_of(list_page("Service"), 9)
        changes = {
            list_of(PODS): [objects_page("Pod", WEB), version_of(objects_page("Pod", WEB, other), 9)],
            watch_of(PODS): {"events": [gone], "seconds": 0},
            watch_of(PODS, 9): {"events": [event("DELETED", other), event("ADDED", other)], "seconds": 600},
            list_of(SERVICES): [list_page("Service"), fails, fails, services],
            watch_of(SERVICES): {"events": [], "seconds": 0, "error": "unexpected EOF"},
            watch_of(SERVICES, 9): QUIET,
        }
        controller = self.start(cluster(**changes), "--fresh", "0")
        self.until("/readyz", 503, "[-]Service: not watched for")
        self.until("/metrics", 200, 'linkerd_cli_watch_ends_total{kind="Pod"} 1\n')
        self.until("/readyz", 200)
        self.until("/metrics", 200, 'linkerd_cli_lines_total{kind="Pod",outcome="accepted"} 4\n')
        metrics = self.metrics()
        self.assertEqual((2, 0), tuple(metrics["objects", ("kind", it)] for it in ("Pod", "Service")))
        self.assertEqual((1, 0), (metrics["feeds_total",], metrics["server_restarts_total",]))
        self.assertIn("the watch of Pod ended: too old resource version; listing Pod again", self.log())
        self.assertIn("listing Service failed: Unable to connect to the server", self.log())
        self.require_end(controller)


class Words(Case):
    """What a controller cannot run with."""

    def require_last(self, status: int, sentence: str, *words) -> str:
        """How the controller ends, and the last line of its log; answers the whole log."""
        run = self.run_tool("controller", "--log", "json", "--bind", free_address(), "--program", program(), *words)
        last = json.loads(run.error_output.splitlines()[-1])
        self.assertEqual((status, "error", "controller", sentence), (run.status, last["level"], last["part"], last["message"]))
        return run.error_output

    def test_which_program_serves(self):
        """The script runs the proved program wherever it is built, and otherwise one that is named as not proved."""
        built = self.file("linkerd_cli", b"")
        for path, expected in ((built, "proved"), (self.room / "none", "not proved")):
            with mock.patch("mesh_front.controller.PROVED", path):
                self.assertEqual(expected, provenance(SCRIPT))
        with mock.patch("mesh_front.controller.PROVED", built):
            self.assertEqual(["proved", "given by --program"], [provenance(it) for it in (built, self.file("other", b""))])

    def test_one_sentence_each(self):
        """An address that is taken, a word that is wrong, a program that is none, a kubectl that is not there."""
        with socket.create_server(("127.0.0.1", 0)) as listener:
            taken = f"127.0.0.1:{listener.getsockname()[1]}"
            self.require_last(2, f"cannot listen on {taken} for health and metrics: Address already in use", "--health", taken)
        run = self.run_tool("controller", "--bind", "localhost")
        self.require(run, 2, "", "controller: argument --bind: 'localhost' is not HOST:PORT; controller --help tells more\n")
        health = ("--health", free_address())
        log = self.require_last(6, "the server cannot be run: it ended with status 70", *health, "--program", self.room / "none")
        self.assertIn(f"cannot run {self.room}/none: No such file or directory", log)
        log = self.require_last(6, "the server cannot be run: it ended with status 2", *health, "--default-policy", "open")
        self.assertIn("--default-policy", log)
        self.put_kubectl({})
        self.require_last(5, "cannot run kubectl: No such file or directory", *health)
