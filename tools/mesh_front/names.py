"""The names that words give: Services, Pods, ports, and what is said where none has the name."""

import difflib
import ipaddress
import re
from dataclasses import dataclass
from typing import Iterable, Union

from mesh_front.faults import Fault, Status
from mesh_front.feed import Key, Objects
from mesh_front.kinds import POD, SERVICE

LABEL = r"[a-z0-9-]+"
NAME = r"[a-z0-9.-]+"


@dataclass(frozen=True)
class ServiceName:
    """`SERVICE[.NS][:PORT]`."""

    name: str
    namespace: str
    port: int | None


@dataclass(frozen=True)
class PodName:
    """`NS/POD`."""

    namespace: str
    name: str

    def __str__(self) -> str:
        return f"{self.namespace}/{self.name}"


@dataclass(frozen=True)
class PodPort:
    """`NS/POD:PORT`."""

    pod: PodName
    port: int

    def __str__(self) -> str:
        return f"{self.pod}:{self.port}"


@dataclass(frozen=True)
class AddressPort:
    """`IP:PORT`, of IPv6 `[IP]:PORT`. Without a port it is 80."""

    address: str
    port: int

    def __str__(self) -> str:
        return f"{self.address}:{self.port}"


Target = Union[ServiceName, AddressPort]


def port_number(digits: str) -> int:
    """A port; a ValueError where it is none."""
    if not 1 <= int(digits) <= 65535:
        raise ValueError
    return int(digits)


def service_name(word: str) -> ServiceName:
    """The Service of a word `SERVICE[.NS][:PORT]`; a ValueError where it is none."""
    match = re.fullmatch(rf"({LABEL})(?:\.({LABEL}))?(?::(\d+))?", word)
    if not match:
        raise ValueError
    return ServiceName(match[1], match[2] or "default", port_number(match[3]) if match[3] else None)


def target(word: str) -> Target:
    """The Service or the address of a word; a ValueError where it is neither."""
    match = re.fullmatch(r"(\[[0-9a-fA-F:.]+\]|\d+\.\d+\.\d+\.\d+)(?::(\d+))?", word)
    if not match:
        return service_name(word)
    address = str(ipaddress.ip_address(match[1].strip("[]")))
    return AddressPort(f"[{address}]" if ":" in address else address, port_number(match[2] or "80"))


def pod_name(word: str) -> PodName:
    """The Pod of a word `NS/POD`; a ValueError where it is none."""
    match = re.fullmatch(rf"({LABEL})/({NAME})", word)
    if not match:
        raise ValueError
    return PodName(match[1], match[2])


def pod_port(word: str) -> PodPort:
    """The port of a Pod of a word `NS/POD:PORT`; a ValueError where it is none."""
    pod, colon, port = word.partition(":")
    if not colon or not port.isdecimal():
        raise ValueError
    return PodPort(pod_name(pod), port_number(port))


def nearest_names(name: str, names: list[str], same: Iterable[str] = ()) -> str:
    """The nearest of the names, in a clause for a sentence. The same name in another namespace goes first."""
    match = list(dict.fromkeys([*same, *difflib.get_close_matches(name, names, n=3, cutoff=0.5)]))[:3]
    return f"; the nearest: {', '.join(match)}" if match else ""


def require_pod(objects: Objects, pod: PodName) -> Key:
    """The key of a Pod; a Fault where it is not held."""
    key = Key(POD, pod.namespace, pod.name)
    if key not in objects.by_key:
        names = [f"{it.namespace}/{it.name}" for it in objects.of(POD)]
        same = [f"{it.namespace}/{it.name}" for it in objects.of(POD) if it.name == pod.name]
        raise Fault(Status.UNKNOWN, f"there is no Pod {pod} in the feed{nearest_names(str(pod), names, same)}")
    return key


def require_service(objects: Objects, service: ServiceName) -> Key:
    """The key of a Service; a Fault where it, or the port that the words give, is not held."""
    key = Key(SERVICE, service.namespace, service.name)
    if key not in objects.by_key:
        names = [f"{it.name}.{it.namespace}" for it in objects.of(SERVICE)]
        word = f"{service.name}.{service.namespace}"
        same = [f"{it.name}.{it.namespace}" for it in objects.of(SERVICE) if it.name == service.name]
        raise Fault(Status.UNKNOWN, f"there is no Service {word} in the feed{nearest_names(word, names, same)}")
    ports = objects.service_ports(key)
    if service.port and ports and service.port not in ports:
        port_list = ", ".join(map(str, ports))
        raise Fault(Status.UNKNOWN, f"the Service {service.name}.{service.namespace} has no port {service.port}; it has {port_list}")
    return key
