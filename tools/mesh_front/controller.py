"""`tools/controller`: a server with its feed, its health and its metrics."""

import logging
import pathlib
import threading
import time
from dataclasses import dataclass

from mesh_front import live_map
from mesh_front.cluster_feed import Source, send_cluster
from mesh_front.faults import Fault, Status
from mesh_front.health import Health
from mesh_front.health_pages import HealthServer
from mesh_front.links import ServerAddress
from mesh_front.messages import ROOT
from mesh_front.notices import notify
from mesh_front.program import Program
from mesh_front.supervisor import Supervisor
from mesh_front.waiting import Backoff

MEANINGS = {
    Status.DONE: "SIGTERM or Ctrl-C ended it, and the server with it",
    Status.USAGE: "wrong words, or it cannot listen at the address of health and metrics",
    Status.NO_TOOL: "kubectl is not there",
    Status.TOOL_FAILED: "the server cannot be run",
}
FOR_GOOD = (Status.USAGE, Status.NO_TOOL)  # faults of a feed after which a further try is no use
SCRIPT = ROOT / "linkerd_cli"
PROVED = ROOT / "crates" / "linkerd_cli" / "out" / "linkerd_cli"
NOT_PROVED = "not proved"
LOOK_SECONDS = 0.2
LOG = logging.getLogger("controller")


class Ended(BaseException):
    """The controller was asked to end."""


@dataclass(frozen=True)
class Settings:
    """What a controller runs: a program with its options, where it listens and where health is told, and what is read."""

    program: pathlib.Path
    options: list[str]
    address: ServerAddress
    health_address: ServerAddress
    source: Source
    fresh_seconds: float
    domain: str
    has_map: bool

    def command(self) -> list[str]:
        """The command of the server."""
        return [str(self.program), "serve", "--bind", str(self.address), *self.options]


def provenance(program: pathlib.Path) -> str:
    """Whether a program is the proved one: ./linkerd_cli runs the proved one wherever it is built."""
    if program.resolve() not in (SCRIPT.resolve(), PROVED.resolve()):
        return "given by --program"
    return "proved" if PROVED.exists() else NOT_PROVED


def run_controller(settings: Settings) -> Status:
    """Runs a server and feeds it until an Ended."""
    kept = live_map.KINDS if settings.has_map else frozenset()
    health = Health(provenance(settings.program), settings.fresh_seconds, kept, settings.address)
    program = Program(settings.program, settings.options, logging.getLogger("map").info)
    shown = live_map.LiveMap(health, program, settings.domain) if settings.has_map else None
    supervisor = Supervisor(settings.command(), health)
    try:
        HealthServer(settings.health_address, health, shown).start()
        LOG.info("health and metrics on http://%s, program: %s", settings.health_address, health.program)
        if health.program == NOT_PROVED:
            LOG.warning("a server without proofs grows with each line that it reads: tools/prove builds the proved program")
        supervisor.thread.start()
        threading.Thread(target=watch_readiness, args=(health, supervisor.is_stopping), daemon=True).start()
        feed_until_ended(settings, supervisor, health)
    except Ended:
        notify("STOPPING=1")
    finally:
        supervisor.stop()
    LOG.info("ended, with the server")
    return Status.DONE


def feed_until_ended(settings: Settings, supervisor: Supervisor, health: Health) -> None:
    """Feeds the server whenever it listens, with a pause that grows while feeds end soon."""
    backoff = Backoff()
    while True:
        wait_for_server(supervisor)
        process, began = supervisor.process, time.monotonic()
        observer = health.begin_feed()
        try:
            send_cluster(settings.address, settings.source, observer, lambda: supervisor.process is process)
        except Fault as fault:
            if fault.status in FOR_GOOD:
                raise
            reason = str(fault)
        finally:
            health.end_feed()
        if settings.source.namespaces:
            # Events alone do not remove what an earlier feed brought and the cluster no longer has.
            supervisor.restart(process)
        backoff.take(time.monotonic() - began)
        seconds = backoff.seconds()
        LOG.warning("the feed ended: %s; feeding again in %d s", reason, seconds)
        time.sleep(seconds)


def wait_for_server(supervisor: Supervisor) -> None:
    """Waits until the server listens; a Fault where it cannot be run."""
    while not supervisor.is_listening.wait(LOOK_SECONDS):
        if supervisor.fault is not None:
            raise supervisor.fault


def watch_readiness(health: Health, is_stopping: threading.Event) -> None:
    """Says when the server becomes ready and when it no longer is. systemd is told that it is ready once it is so for the first time."""
    was_ready = False
    while not is_stopping.wait(LOOK_SECONDS):
        lacking = [f"{it.title} {it.about}" for it in health.checks() if not it.holds]
        if was_ready == (not lacking):
            continue
        was_ready = not lacking
        if was_ready:
            LOG.info("ready")
            notify("READY=1", "STATUS=ready")
        else:
            LOG.warning("not ready: %s", ", ".join(lacking))
            notify(f"STATUS=not ready: {lacking[0]}")
