"""`mesh policy`: what holds for a port of a Pod."""

from mesh_front import views
from mesh_front.faults import Fault, Status
from mesh_front.feed import Objects
from mesh_front.kinds import POLICY_KINDS
from mesh_front.names import PodPort, require_pod
from mesh_front.program import Query, Script, Session
from mesh_front.tables import show, table


def inbound_query(target: PodPort) -> Query:
    """The query for a port of a Pod."""
    return Query("WatchPort", f"{target.pod.namespace}:{target.pod.name}", target.port)


def scope(authorization: views.Authorization, view: views.Inbound) -> str:
    """What an authorization of the view is for."""
    return f"HTTPRoute/{authorization.route}" if authorization.route else f"Server/{view.server}"


def require_view(view: views.Inbound, target: PodPort) -> views.Inbound:
    """The view; a Fault where the program knows no policy of the port."""
    if view.policy is None:
        raise Fault(Status.UNKNOWN, f"the program knows no policy of {target}")
    return view


def route_table(routes: list[views.Route]) -> list[str]:
    """Routes as people read them."""
    rows = [[it.title, it.group, ", ".join(it.hostnames) or "*", ", ".join(it.matches) or "-"] for it in routes]
    return table(["ROUTE", "GROUP", "HOSTNAMES", "MATCHES"], rows)


def lines(view: views.Inbound) -> list[str]:
    """The view as people read it."""
    output = table(["SERVER", "PROTOCOL", "POLICY"], [[view.server or "none", str(view.protocol), str(view.policy)]])
    if view.server and not view.authorizations:
        output += ["", "No authorization applies."]
    if view.authorizations:
        rows = [[it.title, scope(it, view), it.where(), str(it.clients)] for it in view.authorizations]
        output += ["", *table(["AUTHORIZATION", "FOR", "NETWORKS", "CLIENTS"], rows)]
    if view.routes:
        output += ["", *route_table(view.routes)]
    if view.probes:
        output += ["", *table(["PROBE"], [[f"GET {path}"] for path in view.probes])]
    return output


def run(session: Session, target: PodPort, as_json: bool) -> Status:
    """Shows the Server of a port of a Pod, its policy, its authorizations and its routes, and the probes of the Pod."""

    def questions(objects: Objects, script: Script) -> int:
        require_pod(objects, target.pod)
        return script.view(inbound_query(target))

    number, answers = session.ask(questions)
    view = require_view(views.inbound(answers.view(number)), target)
    gaps = session.gaps(POLICY_KINDS)
    show(gaps, view, lines(view), as_json)
    return gaps.status(Status.DONE)
