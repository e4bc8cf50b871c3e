"""The words of `tools/mesh`: its commands, their options, and what each runs."""

import argparse
import ipaddress
import pathlib
import re
import subprocess
import sys
import urllib.parse
from dataclasses import dataclass
from typing import Any, Callable, NoReturn

from mesh_front import access_map, ask, check, completion, diff, endpoints, finding, hints, outbound, policy, record, tables
from mesh_front.faults import MEANINGS, Fault, Status, epilog, run_tool
from mesh_front.feed import Feed, read_bytes
from mesh_front.manifests import Changes, counts, deletion, read_changes
from mesh_front.messages import ROOT, require_protoc
from mesh_front.names import LABEL
from mesh_front.program import Program, Session

CONFIGURATION = {
    "cluster-domain": "NAME",
    "trust-domain": "NAME",
    "control-plane-namespace": "NAME",
    "cluster-networks": "NETWORKS",
    "default-policy": "POLICY",
}
DOMAIN = "cluster.local"
FORMS = ("table", "wide", "json", "yaml")
VALUES = ("json", "yaml")
STANDARD_INPUT = pathlib.Path("-")
ABOUT = "Answers questions about a recorded cluster by running linkerd_cli and decoding its messages."
STATUSES = epilog(MEANINGS)
SERVICE_FORM = "SERVICE[.NS][:PORT]"
POD_FORM = "NS/POD:PORT"
POD_HELP = "also KIND/NAME:PORT of a workload, as deploy/web:80; PORT may be a name"
EXAMPLES = {
    "record": "tools/mesh record -n shop > feed.jsonl",
    "endpoints": "tools/mesh endpoints web.shop:http --feed feed.jsonl",
    "policy": "tools/mesh policy deploy/web:8080 -n shop --feed feed.jsonl",
    "profile": "tools/mesh profile web.shop --feed feed.jsonl",
    "routes": "tools/mesh routes web.shop:80 --feed feed.jsonl",
    "ask": "tools/mesh ask shop/web-1:8080 --from deploy/cart -n shop --path /pay --feed feed.jsonl",
    "diff": "tools/mesh diff --apply server.yaml --feed feed.jsonl",
    "map": "tools/mesh map --feed feed.jsonl > map.html",
    "check": "tools/mesh check --feed feed.jsonl",
    "completion": "source <(tools/mesh completion bash)",
}
WITHOUT_FEED = {
    Status.DONE: "it is printed",
    Status.USAGE: "wrong words",
    Status.NO_TOOL: "kubectl is not there",
    Status.TOOL_FAILED: "kubectl failed",
}
OWN = {
    "ask": {Status.DONE: "the request is allowed", Status.NO: "the request is denied, or matches no route"},
    "diff": {Status.DONE: "nothing changes", Status.NO: "some view changes"},
    "map": {Status.DONE: "the question is answered; of two recordings, nothing changes", Status.NO: "of two recordings, something opens or closes"},
    "check": {Status.DONE: "no problem", Status.NO: "there are problems"},
}
LACKING = {
    "check": (Status.UNKNOWN, Status.REFUSED, Status.NOT_COMPUTED),
    "diff": (),
}


def statuses(name: str) -> dict[Status, str]:
    """The exit statuses of a command."""
    if name in ("record", "completion"):
        return WITHOUT_FEED if name == "record" else {it: WITHOUT_FEED[it] for it in (Status.DONE, Status.USAGE)}
    own = OWN.get(name, {Status.DONE: "the question is answered"})
    rest = {it: re.sub(r"; diff: .*", "", text) if name != "diff" else text for it, text in MEANINGS.items() if it not in (Status.DONE, Status.NO)}
    return {**own, **{it: text for it, text in rest.items() if it not in LACKING.get(name, (Status.NOT_COMPUTED,))}}


class Parser(argparse.ArgumentParser):
    """A parser that names a wrong word in one line."""

    def error(self, message: str) -> NoReturn:
        raise Fault(Status.USAGE, f"{message}; {self.prog} --help tells more")


def of_form(read: Callable, form: str) -> Callable:
    """A type of argparse that names the form of a word."""

    def value(word: str) -> Any:
        try:
            return read(word)
        except ValueError as error:
            raise argparse.ArgumentTypeError(f"{word!r} is not {form}") from error

    return value


def header(word: str) -> list[str]:
    """A header of a word `NAME=VALUE`."""
    name, equals, value = word.partition("=")
    if not equals or not name:
        raise ValueError
    return [name, value]


@dataclass(frozen=True)
class RequestPath:
    """The path of a request, and the host and the query that were written with it."""

    path: str
    host: str | None = None
    query: str | None = None


def request_path(word: str) -> RequestPath:
    """The path of a word, which may be a URL; a ValueError where there is none. What follows a `#` is not sent."""
    is_url = re.match("(?i)https?://", word) is not None
    url = urllib.parse.urlsplit(word if is_url else f"http://host{word}")
    path = url.path or "/"
    if not re.fullmatch("[!-~]+", word) or not path.startswith("/") or not (url.hostname if is_url else word.startswith("/")):
        raise ValueError
    return RequestPath(path, url.hostname if is_url else None, url.query or None)


def only_one(what: str, in_path: str | None, given: str | None) -> str | None:
    """A part of the request that the path or an option gives."""
    if in_path is not None and given is not None:
        raise Fault(Status.USAGE, f"give the {what} in --path or as --{what}, not both")
    return in_path if given is None else given


def common(wants_feed: bool, forms: tuple[str, ...]) -> argparse.ArgumentParser:
    """The options that the commands over a feed share."""
    options = argparse.ArgumentParser(add_help=False)
    if wants_feed:
        path: dict[str, Any] = {"type": pathlib.Path, "metavar": "FILE"}
        options.add_argument("--feed", **path, default=STANDARD_INPUT, help="the feed (default: standard input)")
        options.add_argument("--program", **path, default=ROOT / "linkerd_cli", help="the program (default: ./linkerd_cli)")
        options.add_argument("-o", "--output", choices=forms, default=forms[0], help=f"the form of the answer (default: {forms[0]})")
        add_configuration(options)
    return options


def add_configuration(options: argparse.ArgumentParser) -> None:
    """Adds the options of the configuration."""
    settings = options.add_argument_group("configuration of the recorded control plane, as docs/COMMANDS.md has it")
    for name, value in CONFIGURATION.items():
        settings.add_argument(f"--{name}", metavar=value)


def configuration_options(words: argparse.Namespace) -> list[str]:
    """The configuration as options of the program."""
    values = {name: getattr(words, name.replace("-", "_")) for name in CONFIGURATION}
    return [f"--{name}={value}" for name, value in values.items() if value is not None]


def add_command(commands: Any, name: str, about: str, run: Callable, wants_feed: bool = True, forms: tuple[str, ...] = FORMS) -> argparse.ArgumentParser:
    """Adds a command that `run` runs."""
    formatter = argparse.RawDescriptionHelpFormatter
    ends = f"example:\n  {EXAMPLES[name]}\n\n{epilog(statuses(name))}"
    texts = {"help": about, "description": about, "epilog": ends, "formatter_class": formatter}
    parser = commands.add_parser(name, **texts, parents=[common(wants_feed, forms)], allow_abbrev=False)
    parser.set_defaults(run=run)
    return parser


def add_namespace(parser: argparse.ArgumentParser) -> None:
    """Adds the option for the namespace of names that give none."""
    what = of_form(label, "a namespace")
    parser.add_argument("-n", "--namespace", type=what, metavar="NS", help="the namespace of names that give none (default: default)")


def add_record(commands: Any) -> None:
    """Adds the command `record`."""
    about = "Prints a feed of the cluster that kubectl reaches: a list of each kind."
    parser = add_command(commands, "record", about, run_record, False)
    several: dict[str, Any] = {"action": "append", "default": [], "metavar": "NS"}
    parser.add_argument("-n", "--namespace", **several, help="this namespace alone; may be repeated")
    parser.add_argument("--context", metavar="NAME", help="kubectl's context")


def add_diff(commands: Any) -> None:
    """Adds the command `diff`."""
    about = "Shows which views a change of objects changes, or which views differ in two recordings."
    parser = add_command(commands, "diff", about, run_diff)
    two = "two recordings, in place of a feed and changes of it"
    parser.add_argument("recordings", nargs="*", type=pathlib.Path, metavar="OLD NEW", help=two)
    several: dict[str, Any] = {"action": "append", "default": []}
    objects = "objects in YAML or JSON, as helm and kustomize print them, each of which replaces the object of its name; may be repeated"
    parser.add_argument("--apply", **several, type=pathlib.Path, metavar="FILE", help=objects)
    form = "KIND/[NS/]NAME"
    parser.add_argument("--delete", **several, type=of_form(deletion, form), metavar=form, help="an object to remove; may be repeated")
    namespace = "the namespace of objects that name none (default: default)"
    parser.add_argument("-n", "--namespace", default="default", metavar="NS", help=namespace)


def add_ask(commands: Any) -> None:
    """Adds the command `ask`."""
    parser = add_command(commands, "ask", "Tells whether a request to a port of a Pod is admitted, and why.", run_ask)
    parser.add_argument("target", type=of_form(finding.pod_port_word, POD_FORM), metavar=POD_FORM, help=POD_HELP)
    add_namespace(parser)
    client = parser.add_argument_group("the client: a Pod of the feed, or an address")
    from_pod = of_form(finding.pod_word, "NS/POD")
    client.add_argument("--from", dest="pod", type=from_pod, metavar="NS/POD", help="a Pod, or KIND/NAME of its workload, with its address and identity")
    client.add_argument("--client", type=of_form(ipaddress.ip_address, "an address"), metavar="IP", help="an address")
    client.add_argument("--identity", metavar="ID", help="the identity of the client at the address")
    client.add_argument("--tls", action="store_true", help="the client uses TLS without an identity")
    request = parser.add_argument_group("the request")
    request.add_argument("--method", default="GET", help="the method (default: GET)")
    path: dict[str, Any] = {"type": of_form(request_path, "a path that begins with / or a URL"), "metavar": "PATH"}
    request.add_argument("--path", **path, default=RequestPath("/"), help="the path, with a query or not, or a URL (default: /)")
    request.add_argument("--host", help="the host")
    request.add_argument("--query", help="the query without the question mark")
    pair = of_form(header, "NAME=VALUE")
    request.add_argument("--header", action="append", type=pair, metavar="NAME=VALUE", help="a header; may be repeated")
    request.add_argument("--no-http", action="store_true", help="the connection is not HTTP")


def add_map(commands: Any) -> None:
    """Adds the command `map`."""
    about = "Prints a page with who may call whom, or what opens and closes between two recordings."
    parser = add_command(commands, "map", about, run_map, forms=("html", *FORMS))
    add_namespace(parser)
    two = "two recordings, in place of a feed: what opens and what closes"
    parser.add_argument("recordings", nargs="*", type=pathlib.Path, metavar="OLD NEW", help=two)
    parser.add_argument("--to", metavar="NS/WORKLOAD[:PORT]", help="who may call this workload, as a table")
    parser.add_argument("--from", dest="client", metavar="NS/NAME", help="whom this account or workload may call, as a table")


def add_outbound(commands: Any) -> None:
    """Adds the commands `profile` and `routes`."""
    form = f"{SERVICE_FORM} or IP[:PORT]"
    word: dict[str, Any] = {"type": of_form(finding.target_word, form), "metavar": "TARGET", "help": f"{form}; PORT may be a name"}
    profile = add_command(commands, "profile", "Shows the routes, the split and the opaque ports of a Service or an address.", run_profile)
    profile.add_argument("target", **word)
    profile.add_argument("--client-namespace", type=of_form(label, "a namespace"), metavar="NS", help="the namespace of the client, whose ServiceProfile goes first")
    routes = add_command(commands, "routes", "Shows where requests to a Service or an address lead.", run_routes)
    routes.add_argument("target", **word)
    add_namespace(profile)
    add_namespace(routes)


def label(word: str) -> str:
    """A namespace; a ValueError where the word is none."""
    if not re.fullmatch(LABEL, word):
        raise ValueError
    return word


def parser() -> Parser:
    """The parser of all words."""
    formatter = argparse.RawDescriptionHelpFormatter
    words = Parser(prog="mesh", description=ABOUT, epilog=STATUSES, formatter_class=formatter, allow_abbrev=False)
    words.add_argument("--version", action=Version, nargs=0, help="print the version of the program and of the kit that proved it")
    commands = words.add_subparsers(dest="command", required=True, metavar="COMMAND", parser_class=Parser)
    add_record(commands)
    endpoints_parser = add_command(commands, "endpoints", "Shows the endpoints of a Service.", run_endpoints)
    service = "also svc/SERVICE or the full name in the cluster; PORT may be a name; without PORT each port is shown"
    endpoints_parser.add_argument("service", type=of_form(finding.service_word, SERVICE_FORM), metavar=SERVICE_FORM, help=service)
    add_namespace(endpoints_parser)
    policy_parser = add_command(commands, "policy", "Shows who may connect to a port of a Pod.", run_policy)
    policy_parser.add_argument("target", type=of_form(finding.pod_port_word, POD_FORM), metavar=POD_FORM, help=POD_HELP)
    add_namespace(policy_parser)
    add_outbound(commands)
    add_ask(commands)
    add_diff(commands)
    add_map(commands)
    add_command(commands, "check", "Shows what in a feed refers to nothing, has no effect or is refused.", run_check)
    shells = add_command(commands, "completion", "Prints a script that completes the words of tools/mesh.", run_completion, False)
    shells.add_argument("shell", choices=completion.SHELLS, help="the shell that is to source it")
    return words


class Version(argparse.Action):
    """Prints the version and ends."""

    def __call__(self, *_: Any, **__: Any) -> NoReturn:
        run = subprocess.run([str(ROOT / "linkerd_cli"), "--version"], capture_output=True, text=True)
        print(run.stdout, end="")
        raise SystemExit(run.returncode)


def run_completion(words: argparse.Namespace) -> Status:
    """Runs `completion`."""
    whole = parser()
    commands = next(it.choices for it in whole._actions if isinstance(it, argparse._SubParsersAction))
    print(completion.script(words.shell, commands, completion.options(whole)), end="")
    return Status.DONE


def session(words: argparse.Namespace, feed: pathlib.Path | None = None) -> Session:
    """The feed, which is another one where it is given, and the program that the words name."""
    require_protoc()
    program = Program(words.program, configuration_options(words))
    return Session(Feed(read_bytes(feed or words.feed)), program, words.cluster_domain or DOMAIN)


def answer_over_feed(words: argparse.Namespace, run: Callable[[Session], Status]) -> Status:
    """Runs a question over the feed; where lines of the feed are refused, it is said and the status tells it."""
    return answer_over_feeds({"": session(words)}, lambda sessions: run(sessions[""]))


def answer_over_feeds(sessions: dict[str, Session], run: Callable[[dict[str, Session]], Status]) -> Status:
    """Runs a question over feeds by their names; where lines of one are refused, it is said and the status tells it."""
    try:
        status = run(sessions)
    finally:
        for name, it in sessions.items():
            if it.refusals:
                number, why = next(iter(it.refusals.items()))
                is_one, place = len(it.refusals) == 1, f" of {name}" if name else ""
                lines = f"{'1 line' if is_one else f'{len(it.refusals)} lines'}{place} {'is' if is_one else 'are'}"
                print(f"mesh: {lines} refused; the first is line {number}: {why}", file=sys.stderr)
                print_hint(it)
    is_worse = status in (Status.INCOMPLETE, Status.NOT_COMPUTED)
    return Status.REFUSED if any(it.refusals for it in sessions.values()) and not is_worse else status


def print_hint(session: Session) -> None:
    """Says what the refused lines look like, where that is known."""
    hint = hints.hint(session.feed, session.refusals)
    if hint:
        print(f"mesh: {hint}", file=sys.stderr)


def run_record(words: argparse.Namespace) -> Status:
    """Runs `record`."""
    return record.run(record.Cluster(["--context", words.context] if words.context else []), words.namespace)


def run_endpoints(words: argparse.Namespace) -> Status:
    """Runs `endpoints`."""
    return answer_over_feed(words, lambda it: endpoints.run(it, finding.find_service(it.objects, words.service, words.namespace), words.output in VALUES))


def run_policy(words: argparse.Namespace) -> Status:
    """Runs `policy`."""
    return answer_over_feed(words, lambda it: policy.run(it, finding.find_pod_port(it.objects, words.target, words.namespace), words.output in VALUES))


def run_profile(words: argparse.Namespace) -> Status:
    """Runs `profile`."""

    def run(it: Session) -> Status:
        target = finding.find_target(it.objects, words.target, words.namespace)
        return outbound.run_profile(it, target, words.client_namespace, words.output in VALUES)

    return answer_over_feed(words, run)


def run_routes(words: argparse.Namespace) -> Status:
    """Runs `routes`."""
    return answer_over_feed(words, lambda it: outbound.run_routes(it, finding.find_target(it.objects, words.target, words.namespace), words.output in VALUES))


def ask_words(words: argparse.Namespace) -> Callable[[Session], ask.Words]:
    """What the words of `ask` ask, once the objects are known that they name."""
    if bool(words.pod) == bool(words.client):
        raise Fault(Status.USAGE, "give either --from or --client")
    if words.pod and (words.identity or words.tls):
        raise Fault(Status.USAGE, "--identity and --tls go with --client; with --from the identity is that of the Pod")
    host, query = only_one("host", words.path.host, words.host), only_one("query", words.path.query, words.query)
    http = {"method": words.method.upper(), "path": words.path.path, "host": host, "query": query, "headers": words.header}
    values = {name: value for name, value in http.items() if value is not None}
    client = ask.Client(str(words.client), words.identity, words.tls) if words.client else None

    def of_objects(it: Session) -> ask.Words:
        target = finding.find_pod_port(it.objects, words.target, words.namespace)
        pod = finding.find_pod(it.objects, words.pod, words.namespace) if words.pod else None
        return ask.Words(target, pod, client, None if words.no_http else values)

    return of_objects


def run_ask(words: argparse.Namespace) -> Status:
    """Runs `ask`."""
    question = ask_words(words)
    return answer_over_feed(words, lambda it: ask.run(it, question(it), words.output in VALUES))


def run_diff(words: argparse.Namespace) -> Status:
    """Runs `diff`."""
    if words.recordings:
        return run_diff_of_recordings(words)
    changes = Changes(deletions=words.delete, namespace=words.namespace)
    for path in words.apply:
        left_out = len(changes.left_out)
        read_changes(changes, path)
        if changes.left_out[left_out:]:
            print(f"mesh: left out of {path}, since no view rests on them: {counts(changes.left_out[left_out:])}", file=sys.stderr)
    if not words.apply and not words.delete:
        raise Fault(Status.USAGE, "give --apply FILE or --delete KIND/NS/NAME, or two recordings")
    return answer_over_feed(words, lambda it: diff.run(it, changes, words.output in VALUES))


def two_sessions(words: argparse.Namespace) -> dict[str, Session]:
    """The two recordings that the words name."""
    old, new = words.recordings
    if old == new:
        raise Fault(Status.USAGE, "give two recordings that are not the same file")
    return {str(path): session(words, path) for path in (old, new)}


def run_diff_of_recordings(words: argparse.Namespace) -> Status:
    """Runs `diff` over two recordings."""
    if len(words.recordings) != 2 or words.apply or words.delete or words.feed != STANDARD_INPUT:
        raise Fault(Status.USAGE, "give two recordings, OLD and NEW, and neither --feed nor changes; or a feed and changes alone")
    return answer_over_feeds(two_sessions(words), lambda it: diff.run_recordings(it, words.output in VALUES))


def run_map(words: argparse.Namespace) -> Status:
    """Runs `map`. What is asked of one workload is a table unless another form is given."""
    is_of_one = bool(words.to or words.client)
    if words.recordings:
        if len(words.recordings) != 2 or is_of_one or words.feed != STANDARD_INPUT:
            raise Fault(Status.USAGE, "give two recordings, OLD and NEW, and neither --feed nor --to nor --from; or a feed alone")
        return answer_over_feeds(two_sessions(words), lambda it: access_map.run_recordings(it, map_form(words.output)))
    form = "table" if is_of_one and words.output == "html" else map_form(words.output)
    client, port = (finding.workload_word(it, words.namespace) for it in (words.client, words.to))
    return answer_over_feed(words, lambda it: access_map.run(it, client, port, form))


def map_form(output: str) -> str:
    """The form of the answer of `map`: what is wide is a table, and YAML has the values of JSON."""
    return {"wide": "table", "yaml": "json"}.get(output, output)


def run_check(words: argparse.Namespace) -> Status:
    """Runs `check`. Refused lines are among the problems, and so the status is that of problems."""
    one = session(words)
    try:
        return check.run(one, words.output in VALUES)
    finally:
        print_hint(one)


def main(arguments: list[str]) -> int:
    """Runs the command that the words give, and answers the exit status."""

    def run() -> Status:
        words = parser().parse_args(arguments)
        tables.set_look(getattr(words, "output", "table"))
        return words.run(words)

    return run_tool("mesh", run)
