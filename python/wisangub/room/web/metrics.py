"""Metrics as Prometheus reads them: what the service counts itself, and what the database says as they are read."""

from collections import Counter

from prometheus_client import CONTENT_TYPE_LATEST, CollectorRegistry
from prometheus_client import Counter as Total
from prometheus_client import Gauge, Histogram, generate_latest

from wisangub.room.store.alarms import KINDS
from wisangub.room.store.gauges import Gauges

from .wall import STATES, Card

_SECONDS = (0.005, 0.01, 0.025, 0.05, 0.1, 0.25, 0.5, 1.0, 2.5, 5.0, 10.0)


class Metrics:
    """Those of one service."""

    CONTENT_TYPE = CONTENT_TYPE_LATEST

    def __init__(self) -> None:
        self.own = CollectorRegistry()
        self.requests = Total("wisangub_requests", "Requests that were answered", ("kind", "status"), registry=self.own)
        self.seconds = Histogram(
            "wisangub_request_seconds",
            "How long a request took, but for streams of events",
            ("kind",),
            buckets=_SECONDS,
            registry=self.own,
        )

    def count(self, kind: str, status: int, seconds: float) -> None:
        """A request that was answered."""
        self.requests.labels(kind, str(status)).inc()
        if kind != "events":
            self.seconds.labels(kind).observe(seconds)

    def text(self, held: Gauges, cards: list[Card], connections: int, streams: int) -> bytes:
        """All of them: those of the service, and those of the database as it is now."""
        registry = CollectorRegistry()

        def gauge(name: str, words: str, value: float) -> None:
            Gauge(f"wisangub_{name}", words, registry=registry).set(value)

        def gauge_by(name: str, words: str, label: str, values: dict[str, int]) -> None:
            made = Gauge(f"wisangub_{name}", words, (label,), registry=registry)
            for key, value in values.items():
                made.labels(key).set(value)

        states = Counter(card.state for card in cards)
        gauge_by("signs", "Signs by their state", "state", {state: states[state] for state in STATES})
        gauge("signs_not_ours", "Signs that show what no centre here activated", sum(card.is_other for card in cards))
        gauge_by("alarms", "Alarms that stand", "kind", {kind: held.alarms.get(kind, 0) for kind in KINDS})
        gauge("commands_open", "Commands that have not ended", held.open)
        gauge("commands_waiting", "Commands that wait for their turn", held.waiting)
        gauge("oldest_command_seconds", "How long the oldest of them has not ended", held.oldest)
        gauge("connections", "Connections to the pages", connections)
        gauge("event_streams", "Streams of events", streams)
        if held.worker_age is not None:
            gauge("worker_look_age_seconds", "Since a worker looked for alarms", held.worker_age)
        asked = Total("wisangub_commands_asked", "Commands that were ever asked for", registry=registry)
        asked.inc(held.asked)
        found: bytes = generate_latest(registry) + generate_latest(self.own)
        return found
