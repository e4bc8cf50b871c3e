"""What the kernel knows of a server: how many connections to it are open, and how much memory it takes."""

import ipaddress
import os
import pathlib

from mesh_front.links import ServerAddress

TABLES = (pathlib.Path("/proc/self/net/tcp"), pathlib.Path("/proc/self/net/tcp6"))
OPEN_STATES = ("01", "08")  # established, and closed by the other side


def table_address(word: str) -> tuple[str, int]:
    """The address and the port of a word of a table: hexadecimal, in words of four bytes whose bytes are reversed."""
    digits, port = word.split(":")
    data = bytes.fromhex(digits)
    ordered = b"".join(data[place : place + 4][::-1] for place in range(0, len(data), 4))
    address = ipaddress.ip_address(ordered)
    mapped = address.ipv4_mapped if isinstance(address, ipaddress.IPv6Address) else None
    return str(mapped or address), int(port, 16)


def open_links(address: ServerAddress) -> int | None:
    """The connections to an address that are open, None where that is not known."""
    try:
        rows = [line.split() for table in TABLES if table.exists() for line in table.read_text().splitlines()[1:]]
        host = str(ipaddress.ip_address(address.host))
    except (OSError, ValueError):
        return None
    places = [table_address(row[1]) for row in rows if row[3] in OPEN_STATES]
    is_any = ipaddress.ip_address(host).is_unspecified
    return sum(port == address.port and (is_any or found == host) for found, port in places) if rows else None


def resident_bytes(process: int | None) -> int | None:
    """The memory of a process, None where that is not known."""
    try:
        return int(pathlib.Path(f"/proc/{process}/statm").read_text().split()[1]) * os.sysconf("SC_PAGE_SIZE")
    except OSError:
        return None
