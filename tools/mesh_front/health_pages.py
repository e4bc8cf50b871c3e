"""Health and metrics over HTTP: `/livez`, `/readyz`, `/metrics`, and a page that shows the same and the map of who may call whom."""

import html
import http.server
import socket
import socketserver
import threading
from dataclasses import dataclass, field

from mesh_front.faults import Fault, Status
from mesh_front.health import Check, Health
from mesh_front.links import ServerAddress
from mesh_front.live_map import LiveMap
from mesh_front.process_figures import open_links, resident_bytes

PREFIX = "linkerd_cli_"
TEXT = "text/plain; charset=utf-8"
METRICS = "text/plain; version=0.0.4; charset=utf-8"
PAGE = "text/html; charset=utf-8"
REQUEST_SECONDS = 10
STYLE = (
    "body{font-family:sans-serif;margin:2em}td,th{padding:.2em 1em;text-align:left}td.n,th.n{text-align:right}"
    "iframe{width:100%;height:90vh;border:1px solid #bbb}"
)
# Reads what is known again, without the map, which would lose what is searched in it.
SCRIPT = """setInterval(async () => {
  try { document.getElementById("state").innerHTML = await (await fetch("/state")).text(); } catch { document.title = "no answer"; }
}, 5000);"""
POLICY = "default-src 'none'; style-src 'unsafe-inline'; script-src 'unsafe-inline'; connect-src 'self'; frame-src 'self'"


@dataclass
class Metric:
    """A metric in the text format of Prometheus."""

    name: str
    form: str
    about: str
    samples: list[tuple[dict[str, str], float]] = field(default_factory=list)

    def add(self, value: float, **labels: str) -> None:
        """Adds a sample."""
        self.samples.append((labels, value))

    def lines(self) -> list[str]:
        """The lines of the metric."""
        name = PREFIX + self.name
        lines = [f"# HELP {name} {self.about}", f"# TYPE {name} {self.form}"]
        for labels, value in self.samples:
            shown = ",".join(f'{key}="{escaped(it)}"' for key, it in labels.items())
            lines.append(f"{name}{{{shown}}} {value:.15g}" if shown else f"{name} {value:.15g}")
        return lines


def escaped(text: str) -> str:
    """The value of a label."""
    return text.replace("\\", r"\\").replace("\n", r"\n").replace('"', r"\"")


def metrics_of(health: Health) -> list[Metric]:
    """The metrics of what is known."""
    ready = Metric("ready", "gauge", "Whether /readyz says yes.")
    ready.add(health.is_ready())
    with health.lock:
        info = Metric("info", "gauge", "The program that serves: proved, not proved, or given by --program.")
        info.add(1, program=health.program)
        up = Metric("server_up", "gauge", "Whether the server listens.")
        up.add(health.is_up)
        restarts = Metric("server_restarts_total", "counter", "How often the server was started again.")
        restarts.add(max(health.starts - 1, 0))
        feeds = Metric("feeds_total", "counter", "How often a feed was begun.")
        feeds.add(health.feeds)
    return [ready, info, up, restarts, feeds, *process_metrics(health), *kind_metrics(health)]


def process_metrics(health: Health) -> list[Metric]:
    """The metrics that the kernel knows. What it does not tell is left out."""
    links = Metric("links", "gauge", "Connections to the server that are open, its feed among them, as the kernel counts them.")
    if health.address is not None and (count := open_links(health.address)) is not None:
        links.add(count)
    memory = Metric("server_resident_bytes", "gauge", "The memory of the process of the server.")
    if (size := resident_bytes(health.process)) is not None:
        memory.add(size)
    return [links, memory]


def kind_metrics(health: Health) -> list[Metric]:
    """The metrics of each kind."""
    is_ready = Metric("kind_ready", "gauge", "Whether the kind is listed, accepted and fresh, or not in the cluster.")
    ages = Metric("last_line_age_seconds", "gauge", "Seconds since the last accepted line of the kind.")
    lines = Metric("lines_total", "counter", "Lines of the kind that the server answered.")
    held = Metric("objects", "gauge", "Objects of the kind that the server holds, counted from its answers.")
    ends = Metric("watch_ends_total", "counter", "Watches of the kind that ended.")
    with health.lock:
        for kind, it in health.kinds.items():
            is_ready.add(it.state(health.fresh_seconds)[0], kind=kind.title)
            if (age := it.age()) is not None:
                ages.add(round(age, 3), kind=kind.title)
            for outcome, count in it.lines.items():
                lines.add(count, kind=kind.title, outcome=outcome)
            held.add(len(it.held), kind=kind.title)
            ends.add(it.watch_ends, kind=kind.title)
    return [is_ready, ages, lines, held, ends]


def metrics_text(health: Health) -> str:
    """The metrics in the text format of Prometheus."""
    return "".join(f"{line}\n" for metric in metrics_of(health) for line in metric.lines())


def checks_text(checks: list[Check]) -> str:
    """The conditions of being ready, one a line, in the form of Kubernetes' own health endpoints."""
    lines = [f"[{'+' if it.holds else '-'}]{it.title}: {it.about}" for it in checks]
    return "\n".join([*lines, "ready" if all(it.holds for it in checks) else "not ready", ""])


def state_of(health: Health) -> str:
    """The part of the page that shows what is known."""
    checks = {it.title: it for it in health.checks()}
    is_ready = all(it.holds for it in checks.values())
    cells = ["<tr><th>kind<th>ready<th>state<th class=n>objects<th class=n>accepted<th class=n>refused<th class=n>last line"]
    with health.lock:
        for kind, it in health.kinds.items():
            check, age = checks[kind.title], it.age()
            words = [kind.title, "yes" if check.holds else "no", check.about]
            numbers = [len(it.held), *it.lines.values(), "" if age is None else f"{age:.0f} s ago"]
            shown = [f"<td>{html.escape(word)}" for word in words] + [f"<td class=n>{number}" for number in numbers]
            cells.append(f"<tr>{''.join(shown)}")
        starts = f"starts: {health.starts}, feeds: {health.feeds}"
    links, memory = (None if health.address is None else open_links(health.address)), resident_bytes(health.process)
    figures = ([] if links is None else [f"links: {links}"]) + ([] if memory is None else [f"memory: {memory / 1e6:.0f} MB"])
    server = ", ".join([f"Server: {checks['server'].about}", f"program: {health.program}", starts, *figures])
    return "\n".join([f"<h1>{'ready' if is_ready else 'not ready'}</h1><p>{html.escape(server)}", "<table>", *cells, "</table>", ""])


def page_of(health: Health, has_map: bool) -> str:
    """The page that shows what is known, and the map."""
    title = "ready" if health.is_ready() else "not ready"
    head = f'<!doctype html><html lang=en><meta charset=utf-8><meta http-equiv="Content-Security-Policy" content="{POLICY}">'
    head += f"<noscript><meta http-equiv=refresh content=5></noscript><title>{title}</title><style>{STYLE}</style>"
    links = '<p><a href="/readyz">/readyz</a> <a href="/livez">/livez</a> <a href="/metrics">/metrics</a>'
    shown = '<h2>Who may call whom</h2><p><a href="/map">The map by itself</a><p><iframe src="/map" title="Who may call whom"></iframe>'
    rest = shown if has_map else "<p>The controller runs with --no-map."
    return "\n".join([head, f"<div id=state>{state_of(health)}</div>", links, rest, f"<script>{SCRIPT}</script>", ""])


def map_answer(shown: LiveMap) -> tuple[int, str, str]:
    """The status, the type and the text of the map."""
    try:
        return 200, PAGE, shown.page()
    except Fault as fault:
        return 503, TEXT, f"no map: {fault}\n"


def answer_of(health: Health, path: str, shown: LiveMap | None = None) -> tuple[int, str, str]:
    """The status, the type and the text of a path."""
    if path == "/livez":
        return 200, TEXT, "ok\n"
    if path == "/readyz":
        checks = health.checks()
        return 200 if all(it.holds for it in checks) else 503, TEXT, checks_text(checks)
    if path == "/metrics":
        return 200, METRICS, metrics_text(health)
    if path == "/":
        return 200, PAGE, page_of(health, shown is not None)
    if path == "/state":
        return 200, PAGE, state_of(health)
    if path == "/map" and shown is not None:
        return map_answer(shown)
    return 404, TEXT, f"not found: there are /, {'/map, ' if shown else ''}/livez, /readyz and /metrics\n"


class HealthServer(http.server.ThreadingHTTPServer):
    """A server of the pages."""

    daemon_threads = True

    def __init__(self, address: ServerAddress, health: Health, shown: LiveMap | None):
        self.health, self.shown = health, shown
        self.address_family = socket.AF_INET6 if ":" in address.host else socket.AF_INET
        try:
            super().__init__((address.host, address.port), HealthRequest)
        except OSError as error:
            raise Fault(Status.USAGE, f"cannot listen on {address} for health and metrics: {error.strerror or error}") from error

    def server_bind(self) -> None:
        """Binds the address without asking for its name, which may take long."""
        socketserver.TCPServer.server_bind(self)
        self.server_name, self.server_port = str(self.server_address[0]), int(self.server_address[1])

    def start(self) -> None:
        """Serves in a thread of its own."""
        threading.Thread(target=self.serve_forever, daemon=True).start()


class HealthRequest(http.server.BaseHTTPRequestHandler):
    """A request for a page."""

    server: HealthServer
    timeout = REQUEST_SECONDS

    def do_GET(self) -> None:
        """Answers with the page."""
        self.answer(True)

    def do_HEAD(self) -> None:
        """Answers without the page."""
        self.answer(False)

    def answer(self, with_text: bool) -> None:
        """Answers."""
        status, form, text = answer_of(self.server.health, self.path.partition("?")[0], self.server.shown)
        data = text.encode()
        self.send_response(status)
        self.send_header("Content-Type", form)
        self.send_header("Content-Length", str(len(data)))
        self.end_headers()
        if with_text:
            self.wfile.write(data)

    def log_message(self, format: str, *args: object) -> None:
        """Keeps requests out of the log."""
