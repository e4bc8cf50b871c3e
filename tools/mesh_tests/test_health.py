"""What is known of a server, as conditions, metrics and a page; the log, the notices and the pauses of a controller."""

import json
import logging
import os
import shutil
import socket
import subprocess
import sys
import unittest
from unittest import mock

from mesh_front import live_map
from mesh_front.health import FeedHealth, Health
from mesh_front.health_pages import HealthServer, Metric, answer_of, metrics_text
from mesh_front.kinds import FILL_ORDER, POD, SERVER, SERVICE
from mesh_front.links import ServerAddress
from mesh_front.live_map import LiveMap
from mesh_front.notices import LogFormat, notify
from mesh_front.observing import Stage
from mesh_front.process_figures import open_links, resident_bytes, table_address
from mesh_front.program import Program
from mesh_front.waiting import Backoff
from mesh_tests.live import free_address
from mesh_tests.support import Case, feed_of, lines_of, list_page, pod, program, server
from mesh_tests.test_feed import event, objects_page
from mesh_tests.test_map import CHROMIUM, colours, shop
from mesh_tests.text_format import samples_of

PARSER = "prometheus_client.parser"
# Reads metrics by Prometheus' own client, and writes the samples.
READ = f"""import json, sys
from {PARSER} import text_string_to_metric_families
samples = [it for family in text_string_to_metric_families(sys.stdin.read()) for it in family.samples]
print(json.dumps([[it.name, sorted(it.labels.items()), it.value] for it in samples]))"""


def python_with_client() -> str | None:
    """A Python that has Prometheus' client: this one, or the system's."""
    for python in (sys.executable, "/usr/bin/python3"):
        if os.access(python, os.X_OK) and subprocess.run([python, "-c", f"import {PARSER}"], capture_output=True).returncode == 0:
            return python
    return None


STAGES = (Stage.LISTED, Stage.FILLED, Stage.WATCHED)


def ready_health(fresh_seconds: float = 300, **others) -> tuple[Health, FeedHealth]:
    """A server that listens and its feed, with all kinds listed, accepted and watched."""
    health = Health("proved", fresh_seconds, **others)
    health.begin_server()
    health.set_up(True)
    feed = health.begin_feed()
    for kind in FILL_ORDER:
        for stage in STAGES:
            feed.tell(kind, stage)
    return health, feed


def line(value: dict) -> bytes:
    """The line of a value."""
    return lines_of(value)[:-1]


class Ready(Case):
    """When a server is ready."""

    def test_each_kind_is_needed(self):
        """Listed, accepted and watched, or not in the cluster."""
        for kind in FILL_ORDER:
            health = Health("proved", 300)
            health.set_up(True)
            feed = health.begin_feed()
            for other in FILL_ORDER:
                for stage in STAGES if other is not kind else ():
                    feed.tell(other, stage)
            abouts = []
            for stage in STAGES:
                abouts += [(it.title, it.about) for it in health.checks() if not it.holds]
                feed.tell(kind, stage)
            expected = [(kind.title, it) for it in ("not listed yet", "listed, not accepted yet", "accepted, not watched yet")]
            self.assertEqual((expected, True), (abouts, health.is_ready()))
            feed = health.begin_feed()
            self.assertFalse(health.is_ready())
            for other in FILL_ORDER:
                feed.tell(other, Stage.ABSENT)
            self.assertTrue(health.is_ready())
            health.set_up(False)
            self.assertFalse(health.is_ready())

    def test_a_server_that_is_started_again(self):
        """It is not ready, whatever the feed of the one before still tells, until a feed of its own has filled it."""
        health, old = ready_health()
        health.set_up(False)
        health.begin_server()
        health.set_up(True)
        self.assertFalse(health.is_ready())
        for kind in FILL_ORDER:
            for stage in STAGES:
                old.tell(kind, stage)
        old.answer(line(list_page("Service", "web")), "")
        self.assertEqual((False, 0, 1), (health.is_ready(), len(health.kinds[SERVICE].held), health.kinds[SERVICE].lines["accepted"]))
        feed = health.begin_feed()
        for kind in FILL_ORDER:
            for stage in STAGES:
                feed.tell(kind, stage)
        self.assertTrue(health.is_ready())

    def test_a_watch_that_ended(self):
        """The kind is fresh for some time; then it is not, until it is watched again."""
        (health, feed), (stale, stale_feed) = ready_health(), ready_health(0)
        for it in (feed, stale_feed):
            it.tell(POD, Stage.ENDED)
        self.assertTrue(health.is_ready())
        with mock.patch("mesh_front.health.time.monotonic", return_value=health.kinds[POD].ended + 301):
            self.assertFalse(health.is_ready())
            self.assertEqual((503, True), (answer_of(health, "/readyz")[0], "[-]Pod: not watched for 301 s\n" in answer_of(health, "/readyz")[2]))
        with mock.patch("mesh_front.health.time.monotonic", return_value=stale.kinds[POD].ended + 1):
            self.assertFalse(stale.is_ready())
            stale_feed.tell(POD, Stage.WATCHED)
            self.assertTrue(stale.is_ready())


class Counts(Case):
    """What the answers of a server tell."""

    def held(self, health: Health) -> tuple:
        """The objects and the lines of Pods."""
        it = health.kinds[POD]
        return len(it.held), it.lines["accepted"], it.lines["refused"]

    def test_objects(self):
        """A list replaces, events add and remove, and what is refused changes nothing. A new server holds nothing."""
        health, feed = ready_health()
        a, b = pod("a", "web", "10.1.2.3"), pod("b", "web", "10.1.2.4")
        steps = [
            (objects_page("Pod", a, b), "", (2, 1, 0)),
            (event("MODIFIED", a), "", (2, 2, 0)),
            (event("DELETED", a), "", (1, 3, 0)),
            (event("DELETED", b), "NoForm", (1, 3, 1)),
            (objects_page("Pod", a), "TooLong", (1, 3, 2)),
            (list_page("Pod"), "", (0, 4, 2)),
            (event("ADDED", b), "", (1, 5, 2)),
            (event("BOOKMARK", {"kind": "Pod", "apiVersion": "v1"}), "", (1, 5, 2)),
            ({"control": "stop"}, "NotHere", (1, 5, 2)),
        ]
        for value, fault, expected in steps:
            feed.answer(line(value), fault)
            self.assertEqual(expected, self.held(health), value)
        health.begin_server()
        self.assertEqual((0, 5, 2), self.held(health))


class Metrics(Case):
    """The text format of Prometheus."""

    def text(self) -> str:
        """Metrics with some counts."""
        health, feed = ready_health()
        feed.answer(line(list_page("Service", "web", "db")), "")
        feed.answer(line(event("ADDED", {"kind": "Server", "apiVersion": "policy.linkerd.io/v1beta3"})), "Missing object.metadata.name")
        health.kinds[SERVICE].lines["accepted"] = 1_234_567_891
        feed.tell(SERVER, Stage.ENDED)
        return metrics_text(health)

    def test_samples(self):
        """Each is there once, with whole counts."""
        samples = samples_of(self.text())
        self.assertEqual(1_234_567_891, samples["linkerd_cli_lines_total", ("kind", "Service"), ("outcome", "accepted")])
        self.assertEqual(1, samples["linkerd_cli_lines_total", ("kind", "Server"), ("outcome", "refused")])
        self.assertEqual((2, 1), (samples["linkerd_cli_objects", ("kind", "Service")], samples["linkerd_cli_watch_ends_total", ("kind", "Server")]))
        self.assertEqual(1, samples["linkerd_cli_info", ("program", "proved")])
        self.assertEqual(1, sum(name == "linkerd_cli_last_line_age_seconds" for name, *_ in samples))

    def test_what_the_kernel_knows(self):
        """The connections to the address that are open, and the memory of the process. What is not known is left out."""
        with socket.create_server(("127.0.0.1", 0)) as listener:
            address = ServerAddress(*listener.getsockname())
            links = [socket.create_connection(listener.getsockname()) for _ in range(3)]
            for it in links:
                self.addCleanup(it.close)
            health, _ = ready_health(address=address)
            health.process = os.getpid()
            samples = samples_of(metrics_text(health))
            self.assertEqual(3, samples["linkerd_cli_links",])
            self.assertGreater(samples["linkerd_cli_server_resident_bytes",], 1_000_000)
            self.assertEqual(0, open_links(ServerAddress("127.0.0.2", address.port)))
            self.assertEqual(3, open_links(ServerAddress("0.0.0.0", address.port)))
        self.assertEqual((None, None), (open_links(ServerAddress("localhost", 1)), resident_bytes(None)))
        samples = samples_of(self.text())
        self.assertFalse({("linkerd_cli_links",), ("linkerd_cli_server_resident_bytes",)} & samples.keys())

    def test_addresses_of_the_kernel(self):
        """Words of four bytes, each reversed: proc(5)."""
        self.assertEqual(("127.0.0.1", 8086), table_address("0100007F:1F96"))
        self.assertEqual(("127.0.0.1", 8086), table_address("0000000000000000FFFF00000100007F:1F96"))
        self.assertEqual(("::1", 8086), table_address("00000000000000000000000001000000:1F96"))

    def test_labels(self):
        """Quotes, backslashes and line feeds are escaped."""
        metric = Metric("x", "gauge", "About.")
        metric.add(0.25, a='a"b\\c\nd')
        self.assertEqual({("linkerd_cli_x", ("a", 'a"b\\c\nd')): 0.25}, samples_of("\n".join(metric.lines())))

    @unittest.skipUnless(shutil.which("promtool"), "promtool is not installed")
    def test_promtool(self):
        """Prometheus' own check finds nothing."""
        run = subprocess.run(["promtool", "check", "metrics"], input=self.text(), capture_output=True, text=True)
        self.assertEqual((0, "", ""), (run.returncode, run.stdout, run.stderr))

    @unittest.skipUnless(python_with_client(), "Prometheus' client for Python is not installed")
    def test_the_client_of_prometheus(self):
        """Its parser finds the same samples."""
        text = self.text()
        run = subprocess.run([python_with_client(), "-c", READ], input=text, capture_output=True, text=True, check=True)
        found = {(name, *map(tuple, labels)): value for name, labels, value in json.loads(run.stdout)}
        self.assertEqual({(name, *sorted(labels)): value for (name, *labels), value in samples_of(text).items()}, found)


class Pages(Case):
    """The page that people read."""

    def test_what_it_shows(self):
        """The state and the counts of each kind."""
        health, feed = ready_health()
        feed.answer(line(list_page("Service", "web", "db")), "")
        status, form, text = answer_of(health, "/")
        self.assertEqual((200, "text/html; charset=utf-8"), (status, form))
        self.assertIn("<h1>ready</h1><p>Server: listens, program: proved, starts: 1, feeds: 1\n", text)
        self.assertIn("<tr><td>Service<td>yes<td>watched<td class=n>2<td class=n>1<td class=n>0<td class=n>0 s ago", text)
        self.assertIn("<tr><td>Pod<td>yes<td>watched<td class=n>0<td class=n>0<td class=n>0<td class=n>\n", text)


    def test_the_map_beside_it(self):
        """The page has the map in a frame of its own, so that what is searched in it stays; without the map it says so."""
        health, _ = ready_health()
        shown = LiveMap(health, Program(program(), []), "cluster.local")
        self.assertIn('<iframe src="/map" title="Who may call whom">', answer_of(health, "/", shown)[2])
        self.assertIn("runs with --no-map", answer_of(health, "/")[2])
        self.assertEqual(404, answer_of(health, "/map")[0])
        self.assertTrue(answer_of(health, "/", shown)[2].find(answer_of(health, "/state", shown)[2]) > 0)


class Map(Case):
    """The map of what a server holds."""

    def setUp(self):
        super().setUp()
        self.health, self.feed = ready_health(kept=live_map.KINDS)
        self.said: list[str] = []
        self.map = LiveMap(self.health, Program(program(), [], self.said.append), "cluster.local")

    def take(self, *objects: dict) -> None:
        """The server accepts objects, which their managers have written."""
        for it in objects:
            managed = {**it, "metadata": {**it["metadata"], "managedFields": [{"manager": "m"}]}}
            self.feed.answer(line(event("ADDED", managed)), "")

    def sheet(self, text: str) -> dict:
        """What a page shows."""
        return json.loads(text.split('<script id="sheet" type="application/json">')[1].split("</script>")[0])

    def test_what_is_held(self):
        """It is that of `mesh map` over the same objects, also after one is removed; what is refused is not in it."""
        objects = shop()
        self.take(*objects, new := pod("gone-1", "gone", "10.0.0.8", 80))
        self.feed.answer(line(event("DELETED", new)), "")
        self.feed.answer(line(event("ADDED", server("bad", "web", 80, proxyProtocol="http"))), "BadValue")
        status, form, text = answer_of(self.health, "/map", self.map)
        self.assertEqual((200, "text/html; charset=utf-8"), (status, form))
        shown, expected = self.sheet(text), self.sheet(self.mesh("map", feed_of(*objects)).output)
        [note] = shown.pop("notes")
        self.assertRegex(note, "^What the server held at .* UTC.$")
        self.assertEqual([], expected.pop("notes"))
        self.assertEqual(expected, shown)
        self.assertNotIn("managedFields", str(self.health.kept_objects()[1]))

    def test_it_is_drawn_now_and_then(self):
        """One that was drawn is shown again for a while: at least a quarter of a minute, and three times as long as it took."""
        self.take(*shop())
        with mock.patch("mesh_front.live_map.time.monotonic", side_effect=[0, 6, 10, 23.9, 24, 25]), mock.patch.object(self.map, "draw", side_effect=["1", "2"]) as draw:
            self.assertEqual(["1", "1", "1", "2"], [self.map.page() for _ in range(4)])
        self.assertEqual(2, draw.call_count)

    def test_what_is_not_there(self):
        """A kind that is not accepted yet is named first. A server that holds nothing has no map, nor has a machine without protoc."""
        self.assertEqual((503, "no map: the feed holds no object\n"), answer_of(self.health, "/map", self.map)[::2])
        self.take(*shop())
        self.health.kinds[SERVER].stages.clear()
        self.health.kinds[SERVER].held.clear()
        self.assertIn("incomplete: the feed has neither a list nor an event of Server", self.sheet(answer_of(self.health, "/map", self.map)[2])["notes"][0])
        self.map.text = ""
        with mock.patch("mesh_front.live_map.MOST_CELLS", 8):
            self.assertRegex(answer_of(self.health, "/map", self.map)[2], "^no map: it would have 9 cells, more than 8: ")
        with mock.patch("mesh_front.messages.shutil.which", return_value=None):
            self.assertRegex(answer_of(self.health, "/map", self.map)[2], "^no map: there is no protoc")

    @unittest.skipUnless(CHROMIUM, "chromium is not installed")
    def test_in_a_browser(self):
        """The page shows what is known, and has the map in its frame."""
        self.take(*shop())
        address = ServerAddress("127.0.0.1", int(free_address().rpartition(":")[2]))
        HealthServer(address, self.health, self.map).start()
        self.map.page()  # so that the browser need not wait for it
        command = [str(CHROMIUM), "--headless", "--no-sandbox", "--disable-gpu", f"--user-data-dir={self.room}/home"]
        picture = self.room / "page.png"
        shot = [f"--screenshot={picture}", "--window-size=1200,1600", f"http://{address}/"]
        subprocess.run([*command, *shot], capture_output=True, timeout=300)
        found = {it.hex() for it in colours(picture)}
        self.assertEqual(set(), {"1b7a43", "b3263a", "c4e6d0"} - found)


class Says(Case):
    """The log and the notices."""

    def test_the_log(self):
        """One line for each record, in both forms."""
        record = logging.LogRecord("feed", logging.WARNING, "", 0, "%s", ('a "b"\nc',), None)
        record.created = 1_700_000_000.25
        time = "2023-11-14T22:13:20.250Z"
        self.assertEqual(f'{time} WARNING part=feed "a \\"b\\"\\nc"', LogFormat(False).format(record))
        value = {"time": time, "level": "warning", "part": "feed", "message": 'a "b"\nc'}
        self.assertEqual(value, json.loads(LogFormat(True).format(record)))

    def test_notices(self):
        """They are datagrams at a path or an abstract name; without NOTIFY_SOCKET there are none."""
        path, abstract = str(self.room / "notify"), f"holzhybat-test-{os.getpid()}"
        for name, address in ((path, path), (f"@{abstract}", f"\0{abstract}")):
            with socket.socket(socket.AF_UNIX, socket.SOCK_DGRAM) as link, mock.patch.dict(os.environ, {"NOTIFY_SOCKET": name}):
                link.settimeout(60)
                link.bind(address)
                notify("READY=1", "STATUS=ready")
                self.assertEqual(b"READY=1\nSTATUS=ready", link.recv(4096))
        with mock.patch.dict(os.environ):
            os.environ.pop("NOTIFY_SOCKET", None)
            notify("READY=1")

    def test_pauses(self):
        """They grow up to half a minute, and begin again after what lasted."""
        backoff = Backoff()
        self.assertEqual([0, 1, 2, 5, 10, 30, 30], [backoff.seconds() for _ in range(7)])
        backoff.take(9)
        self.assertEqual(30, backoff.seconds())
        backoff.take(10)
        self.assertEqual(0, backoff.seconds())
