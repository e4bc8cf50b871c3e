"""What a controller says: its log, and its notices to systemd."""

import datetime
import json
import logging
import os
import socket


class LogFormat(logging.Formatter):
    """Lines with a time, a level, the part that speaks, and a sentence: as text, or as JSON."""

    def __init__(self, is_json: bool):
        super().__init__()
        self.is_json = is_json

    def format(self, record: logging.LogRecord) -> str:
        """The line of a record."""
        time = datetime.datetime.fromtimestamp(record.created, datetime.timezone.utc)
        shown = time.isoformat(timespec="milliseconds").replace("+00:00", "Z")
        fields = {"time": shown, "level": record.levelname.lower(), "part": record.name, "message": record.getMessage()}
        if self.is_json:
            return json.dumps(fields)
        return f"{shown} {record.levelname:<7} part={record.name} {json.dumps(fields['message'], ensure_ascii=False)}"


def start_log(is_json: bool) -> None:
    """Writes the log on standard error."""
    handler = logging.StreamHandler()
    handler.setFormatter(LogFormat(is_json))
    logging.basicConfig(handlers=[handler], level=logging.INFO, force=True)


def notify(*states: str) -> None:
    """Tells systemd states such as `READY=1`, where it started this process and asked for notices."""
    path = os.environ.get("NOTIFY_SOCKET", "")
    if not path:
        return
    address = f"\0{path[1:]}" if path.startswith("@") else path
    try:
        with socket.socket(socket.AF_UNIX, socket.SOCK_DGRAM) as link:
            link.sendto("\n".join(states).encode(), address)
    except OSError as error:
        logging.getLogger("controller").warning("cannot notify systemd: %s", error.strerror or error)
