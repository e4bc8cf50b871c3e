"""How long a further try waits."""

RETRY_SECONDS = (0, 1, 2, 5, 10, 30)
STEADY_SECONDS = 10  # after what lasted so long the next try needs no wait


class Backoff:
    """The pause before a further try, which grows while the tries end soon."""

    def __init__(self) -> None:
        self.failures = 0

    def take(self, lasted_seconds: float) -> None:
        """Takes how long a try lasted that has ended."""
        if lasted_seconds >= STEADY_SECONDS:
            self.failures = 0

    def seconds(self) -> float:
        """How long the next try waits, which counts as a further one."""
        self.failures += 1
        return RETRY_SECONDS[min(self.failures, len(RETRY_SECONDS)) - 1]
