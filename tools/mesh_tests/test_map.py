"""`mesh map`: who may call whom. What is expected is what docs/RULES.md says of simulated requests."""

import pathlib
import re
import shutil
import struct
import subprocess
import tempfile
import unittest
import zlib

from mesh_front import access_map
from mesh_front.map_page import Heading, Mark, Sheet, page
from mesh_tests.support import Case, feed_of, list_of, lines_of, new_object, pod, policy, program, reference, server

CHROMIUM = shutil.which("chromium") or shutil.which("chromium-browser")
CELL = r'<td tabindex="[^"]*" class="\w[^>]*>([^<]*)</td>'
WALK = """<script>
addEventListener("load", () => {
  const press = (key, place) => place.dispatchEvent(new KeyboardEvent("keydown", { key, bubbles: true, cancelable: true }));
  const out = document.createElement("pre"), say = it => { out.textContent += it.split("\\n").join(" | ") + "\\n"; };
  press("/", document.body);
  say("at " + document.activeElement.id);
  press("ArrowDown", document.activeElement);
  say(told.textContent);
  press("ArrowRight", document.activeElement);
  say(told.textContent);
  press("ArrowDown", document.activeElement);
  say(told.textContent);
  press("Home", document.activeElement);
  say(told.textContent);
  say(document.querySelectorAll("td[tabindex='0']").length + " stop");
  byId("row").value = "WEB";
  draw();
  say(byId("count").textContent);
  out.id = "walk";
  document.body.append(out);
});
</script>"""


def owned(value: dict, kind: str, name: str, **labels: str) -> dict:
    """A Pod that something controls."""
    metadata = value["metadata"]
    owners = [{"kind": kind, "name": name, "controller": True}]
    return {**value, "metadata": {**metadata, "labels": {**metadata["labels"], **labels}, "ownerReferences": owners}}


def clients_of(name: str, account: str) -> tuple[dict, dict]:
    """An authentication of an account of `shop`, and a reference to it."""
    identity = f"{account}.shop.serviceaccount.identity.linkerd.cluster.local"
    spec = {"identities": [identity]}
    return new_object("MeshTLSAuthentication", name, spec, "policy.linkerd.io/v1alpha1"), reference("MeshTLSAuthentication", name)


def shop(*more: dict) -> list[dict]:
    """Two Pods of the Deployment `web`, a Pod `cart-1` whose Server admits `web`, and a Pod `old-1` without a proxy."""
    web = [owned(pod(f"web-5d-{number}", "web", f"10.0.0.{number}", 80), "ReplicaSet", "web-5d", **{"pod-template-hash": "5d"}) for number in (1, 2)]
    authentication, clients = clients_of("web", "web")
    admits = policy("web", reference("Server", "cart"), clients)
    old = pod("old-1", "old", "10.0.0.9", 7070, is_meshed=False)
    return [*web, pod("cart-1", "cart", "10.0.0.3", 8080), old, server("cart", "cart", 8080, proxyProtocol="HTTP/1"), authentication, admits, *more]


def route(name: str, path: str) -> dict:
    """A route of the Server `cart`."""
    parent = {"group": "policy.linkerd.io", "kind": "Server", "name": "cart"}
    return new_object("HTTPRoute", name, {"parentRefs": [parent], "rules": [{"matches": [{"path": {"type": "PathPrefix", "value": path}}]}]})


class Map(Case):
    """Accounts by workload ports, as a table and as JSON."""

    def test_accounts_by_ports(self):
        """The Pods of a Deployment are one workload. Without a Server the default policy admits everyone; a Server denies whom nothing admits."""
        default = "allowed by default policy all-unauthenticated"
        denied = "denied by policy deny of Server shop/cart"
        self.require(self.mesh("map", feed_of(*shop()), "-o", "table"), 0, f"""
            CLIENT                WORKLOAD PORT      MAY CALL            WHY
            shop/cart             shop/cart-1:8080   no                  {denied}
            shop/cart             shop/old-1:7070    yes, not enforced   {default}
            shop/cart             shop/web:80        yes                 {default}
            shop/old (no proxy)   shop/cart-1:8080   no                  {denied}
            shop/old (no proxy)   shop/old-1:7070    yes, not enforced   {default}
            shop/old (no proxy)   shop/web:80        yes                 {default}
            shop/web              shop/cart-1:8080   yes                 allowed by AuthorizationPolicy shop/web
            shop/web              shop/old-1:7070    yes, not enforced   {default}
            shop/web              shop/web:80        yes                 {default}
        """)

    def test_who_may_call_and_whom(self):
        """A workload, one of its ports, its Pod, an account: each in a table. An unknown name is told with the nearest."""
        feed = feed_of(*shop(route("api", "/api")))
        expected = """
            CLIENT                WORKLOAD PORT      MAY CALL     WHY
            shop/cart             shop/cart-1:8080   no           GET /: no route matches; GET /api: denied by policy deny of Server shop/cart
            shop/old (no proxy)   shop/cart-1:8080   no           GET /: no route matches; GET /api: denied by policy deny of Server shop/cart
            shop/web              shop/cart-1:8080   some paths   GET /: no route matches; GET /api: allowed by AuthorizationPolicy shop/web
        """
        for word in ("shop/cart-1", "shop/cart-1:8080"):
            self.require(self.mesh("map", feed, "--to", word), 0, expected)
        self.require(self.mesh("map", feed, "--from", "shop/web", "--to", "shop/web"), 0, """
            CLIENT     WORKLOAD PORT   MAY CALL   WHY
            shop/web   shop/web:80     yes        allowed by default policy all-unauthenticated
        """)
        run = self.mesh("map", feed, "--to", "shop/carts")
        self.assertEqual((3, ""), (run.status, run.output))
        self.assertIn("mesh: there is no workload shop/carts with a port in the feed; the nearest: shop/cart-1", run.error_output)
        run = self.mesh("map", feed, "--from", "shop/wep")
        self.assertEqual((3, ""), (run.status, run.output))
        self.assertIn("mesh: there is no workload or account shop/wep in the feed; the nearest: shop/web", run.error_output)

    def test_json(self):
        """Each verdict with its request, and the workloads of an account."""
        value = self.mesh("map", feed_of(*shop()), "--from", "shop/web", "--to", "shop/cart-1", "-o", "json").json()
        verdicts = [{"request": "GET /", "allowed": True, "decider": "allowed by AuthorizationPolicy shop/web"}]
        self.assertEqual([{"client": "shop/web", "port": "shop/cart-1:8080", "access": "all", "verdicts": verdicts}], value["cells"])
        self.assertEqual([["shop/web"], True], [value["clients"][0]["workloads"], value["clients"][0]["meshed"]])

    def test_ports(self):
        """A number of a Server is a port of the Pods that it selects alone. Ports of a proxy, of UDP, and Pods that have ended are none."""
        proxy = pod("a-1", "a", "10.0.0.1", 80)
        proxy["spec"]["containers"] += [{"name": "linkerd-proxy", "ports": [{"containerPort": 4143}]}, {"name": "d", "ports": [{"containerPort": 53, "protocol": "UDP"}]}]
        ended = {**pod("b-1", "b", "10.0.0.2", 81), "status": {"phase": "Succeeded", "podIP": "10.0.0.2"}}
        value = self.mesh("map", feed_of(proxy, ended, pod("c-1", "c", "10.0.0.3", 82), server("a", "a", 9000)), "-o", "json").json()
        self.assertEqual(["shop/a-1:80", "shop/a-1:9000", "shop/c-1:82"], [it["name"] for it in value["ports"]])
        self.assertEqual(["shop/a", "shop/c"], [it["name"] for it in value["clients"]])

    def test_a_regular_expression_that_is_refused(self):
        """A simulation that the program refuses is not known."""
        bad = new_object("HTTPRoute", "bad", {"parentRefs": [{"group": "policy.linkerd.io", "kind": "Server", "name": "cart"}],
                                              "rules": [{"matches": [{"path": {"type": "RegularExpression", "value": "("}}]}]})
        run = self.mesh("map", feed_of(*shop(bad)), "--to", "shop/cart-1", "--from", "shop/web")
        self.assertEqual("shop/web   shop/cart-1:8080   not known   the simulation is refused: Pattern shop/bad 0 0", run.output.splitlines()[1])

    def test_a_feed_without_servers(self):
        """A feed that says nothing of a kind is not one without it: the first line and the status tell it."""
        run = self.mesh("map", lines_of(list_of("Pod", "v1", *[{"metadata": it["metadata"], "spec": it["spec"], "status": it["status"]} for it in shop()[:1]])), "-o", "table")
        self.assertEqual(11, run.status)
        self.assertTrue(run.output.startswith("incomplete: the feed has neither a list nor an event of Server,"))


class MapOfTwo(Case):
    """What opens and what closes between two recordings."""

    def two(self, old: list[dict], new: list[dict], *words: str):
        """Runs `map` over two recordings."""
        paths = [self.file(f"{name}.jsonl", feed_of(*it)) for name, it in (("old", old), ("new", new))]
        return self.run_mesh("map", "--program", program(), *paths, *words)

    def test_opens_and_closes(self):
        """A route closes what it does not match, and a policy for all opens the rest. Both recordings are asked for the paths of both."""
        authentication, clients = clients_of("cart", "cart")
        opened = policy("cart", reference("Server", "cart"), clients)
        run = self.two(shop(), shop(route("api", "/api"), authentication, opened), "-o", "table")
        denied = "denied by policy deny of Server shop/cart"
        allowed = "allowed by AuthorizationPolicy shop/web"
        self.require(run, 1, f"""
            CLIENT      WORKLOAD PORT      CHANGE   WHY
            shop/cart   shop/cart-1:8080   opens    {denied} -> GET /: no route matches; GET /api: allowed by AuthorizationPolicy shop/cart
            shop/web    shop/cart-1:8080   closes   {allowed} -> GET /: no route matches; GET /api: {allowed}
        """)

    def test_nothing(self):
        """The same objects twice."""
        self.require(self.two(shop(), shop(), "-o", "table"), 0, "nothing that was tried opens or closes\n")

    def test_words(self):
        """Two recordings, and neither a feed nor a workload."""
        run = self.run_mesh("map", "a", "b", "--to", "shop/web")
        self.require(run, 2, "", "mesh: give two recordings, OLD and NEW, and neither --feed nor --to nor --from; or a feed alone\n")


class Page(Case):
    """The page: one file, no network, a sign in each cell."""

    def html(self) -> str:
        """The page of a feed."""
        return self.mesh("map", feed_of(*shop(route("api", "/api")))).output

    def test_no_network(self):
        """Nothing is loaded: no address, no source, and a policy that forbids it."""
        text = self.html()
        self.assertEqual([], re.findall(r"https?://|src=|@import|url\(", text))
        self.assertIn("default-src 'none'", text)

    def test_names_are_text(self):
        """A name with marks of HTML ends neither the data nor a cell."""
        sheet = Sheet("</script><b>", [], {"x": Mark("x", "yes", "x")}, [Heading("<i>", "")], [Heading("c", "")], [[("x", "</script>")]])
        self.assertEqual(2, page(sheet).count("</script>"))

    def test_signs(self):
        """Each word has a sign of its own, so that no colour is needed."""
        for marks in (access_map.MARKS, access_map.CHANGE_MARKS):
            self.assertEqual(4, len({it.sign for it in marks.values()}))


@unittest.skipUnless(CHROMIUM, "chromium is not installed")
class Browser(Case):
    """The page in a browser."""

    def chromium(self, html: str, *words: str) -> str:
        """What a browser prints of a page."""
        path = self.file("page.html", html.encode())
        with tempfile.TemporaryDirectory() as home:
            command = [str(CHROMIUM), "--headless", "--no-sandbox", "--disable-gpu", f"--user-data-dir={home}", *words, path.as_uri()]
            return subprocess.run(command, capture_output=True, text=True, timeout=300).stdout

    def test_by_keyboard(self):
        """The search is reached by `/`, the cells by arrows, one cell is a stop of the tabulator, and what it says is told."""
        html = self.mesh("map", feed_of(*shop(route("api", "/api")))).output
        dom = self.chromium(html.replace("</body>", f"{WALK}</body>"), "--dump-dom", "--virtual-time-budget=10000")
        denied = "GET /: no route matches | GET /api: denied by policy deny of Server shop/cart"
        default = "GET /: allowed by default policy all-unauthenticated"
        self.assertEqual([
            "at row",
            f"shop/cart → shop/cart-1:8080: nothing that was tried is admitted | {denied}",
            f"shop/cart → shop/old-1:7070: all that was tried is admitted; the Pod has no proxy, so nothing enforces it | {default}",
            f"shop/old (no proxy) → shop/old-1:7070: all that was tried is admitted; the Pod has no proxy, so nothing enforces it | {default}",
            f"shop/old (no proxy) → shop/cart-1:8080: nothing that was tried is admitted | {denied}",
            "1 stop",
            "1 of 3 clients, 3 of 3 ports",
        ], re.findall(r'<pre id="walk">([^<]*)', dom)[0].strip().splitlines())

    def test_signs_and_colours(self):
        """Each cell has a sign, and the picture has the colours of the styles."""
        html = self.mesh("map", feed_of(*shop(route("api", "/api")))).output
        dom = self.chromium(html, "--dump-dom", "--virtual-time-budget=10000")
        cells = re.findall(CELL, dom)
        self.assertEqual("✗ (✓) ✓ ✗ (✓) ✓ ◐ (✓) ✓".split(), cells)
        picture = self.room / "page.png"
        self.chromium(html, f"--screenshot={picture}", "--window-size=1000,700")
        found = colours(picture)
        for name in ("1b7a43", "b3263a", "f0a53a", "c4e6d0"):
            self.assertIn(bytes.fromhex(name), found)

    def test_two_hundred_workloads(self):
        """The page says how long it took to open: less than a second. On a busy machine it may take longer, so it is opened up to five times."""
        names = [f"shop/app-{number}" for number in range(200)]
        cells = [[("all" if (row + column) % 3 else "none", f"GET /: {row % 7}") for column in range(200)] for row in range(200)]
        headings = [Heading(it, "") for it in names]
        text, found = page(Sheet("Big", [], access_map.MARKS, headings, headings, cells)), []
        while not found or found[-1] >= 1000 and len(found) < 5:
            dom = self.chromium(text, "--dump-dom", "--virtual-time-budget=10000")
            self.assertEqual(40_000, len(re.findall(CELL, dom)))
            found.append(int(re.findall(r'data-milliseconds="(\d+)"', dom)[0]))
        self.assertLess(found[-1], 1000, found)


def colours(path: pathlib.Path) -> set[bytes]:
    """The colours of a picture in PNG, of eight bits for each of three or four channels."""
    data, place, packed, channels, width = path.read_bytes(), 8, b"", 3, 0
    while place < len(data):
        size, kind = struct.unpack(">I4s", data[place : place + 8])
        part = data[place + 8 : place + 8 + size]
        if kind == b"IHDR":
            width, channels = struct.unpack(">I", part[:4])[0], 4 if part[9] == 6 else 3
        packed += part if kind == b"IDAT" else b""
        place += size + 12
    raw, stride, found = zlib.decompress(packed), width * channels + 1, set()
    above = bytearray(stride - 1)
    for start in range(0, len(raw), stride):
        above = line_of(raw[start], bytearray(raw[start + 1 : start + stride]), above, channels)
        found |= {bytes(above[it : it + 3]) for it in range(0, len(above), channels)}
    return found


def line_of(kind: int, line: bytearray, above: bytearray, channels: int) -> bytearray:
    """A line of a picture without its filter."""
    for it in range(len(line)):
        left, corner = (line[it - channels], above[it - channels]) if it >= channels else (0, 0)
        line[it] = line[it] + (0, left, above[it], (left + above[it]) // 2, paeth(left, above[it], corner))[kind] & 255
    return line


def paeth(left: int, above: int, corner: int) -> int:
    """The nearest of three neighbours to what they foretell."""
    guess = left + above - corner
    return min((left, above, corner), key=lambda it: abs(guess - it))
