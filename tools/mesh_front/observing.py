"""What is told of a feed while it goes on: how far each kind has come, and what the server answers."""

import enum

from mesh_front.kinds import Kind


class Stage(enum.Enum):
    """How far a kind has come."""

    ABSENT = "not in the cluster"
    LISTED = "listed"
    FILLED = "accepted"
    WATCHED = "watched"
    ENDED = "its watch ended"


class Observer:
    """Who is told how a feed goes. This one keeps nothing of it."""

    def tell(self, kind: Kind, stage: Stage) -> None:
        """Takes that a kind has come so far."""

    def answer(self, data: bytes, fault: str) -> None:
        """Takes the answer to a line: a fault, or the empty string where the line is accepted."""
