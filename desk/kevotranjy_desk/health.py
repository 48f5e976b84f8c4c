"""Health and measures: `/health` for probes, `/metrics` for Prometheus, at an address of their own without TLS."""
import time
from collections import Counter as Count
from collections.abc import Iterator
from datetime import datetime, timezone
from typing import Any, cast

from aiohttp import web
from prometheus_client import CollectorRegistry, Histogram, generate_latest
from prometheus_client.core import CounterMetricFamily, GaugeMetricFamily, Metric

from .accounts import Accounts
from .exchange import Exchange
from .guard import Watch, on_prepare, outermost
from .wording import refusal_name

BUCKETS = (0.0005, 0.001, 0.002, 0.005, 0.01, 0.02, 0.05, 0.1, 0.3, 1, 3, 10)
KIND = "text/plain; version=0.0.4; charset=utf-8"


def seconds_since(minute: str) -> float | None:
    """How long ago a minute of the feed was."""
    try:
        moment = datetime.strptime(minute, "%Y-%m-%dT%H:%M:%SZ").replace(tzinfo=timezone.utc)
    except ValueError:
        return None
    return max(0.0, time.time() - moment.timestamp())


class Health:
    """What is told of the board and of the desk."""

    def __init__(self, exchange: Exchange, accounts: Accounts, watches: dict[str, Watch]) -> None:
        self.exchange, self.accounts, self.watches = exchange, accounts, watches
        self.mirror = exchange.mirror
        self.front: dict[str, Any] = {}
        self.last_entry: dict[str, str] = {}
        self.registry = CollectorRegistry()
        self.reply = Histogram(
            "desk_reply_seconds",
            "From a line of the desk to the board's reply",
            buckets=BUCKETS,
            registry=self.registry,
        )
        exchange.on_reply = self.reply.observe
        self.mirror.on_entry.append(lambda entry: self.last_entry.__setitem__(entry.role, entry.minute))
        self.registry.register(cast(Any, self))

    def app(self, names: tuple[str, ...]) -> web.Application:
        """The routes, for who asks by an address of this machine or a name of the desk."""
        own = self.exchange.settings.health
        known = {*names, "localhost", "127.0.0.1", "[::1]", *([own[0], f"[{own[0]}]"] if own else [])}
        app = web.Application(middlewares=[outermost(tuple(known))])
        app.on_response_prepare.append(on_prepare)
        app.add_routes([web.get("/health", self.health), web.get("/metrics", self.metrics)])
        return app

    def facts(self) -> dict[str, Any]:
        """The state in a few facts."""
        mirror, exchange = self.mirror, self.exchange
        is_ready = mirror.is_live and not any(exchange.is_away(name) for name in exchange.lines)
        last = mirror.entries[-1].minute if mirror.entries else None
        return {
            "is_board_live": mirror.is_live,
            "is_ready": is_ready,
            "trouble": None if is_ready else mirror.trouble,
            "entries": mirror.next,
            "room": mirror.room,
            "last_entry": last,
            "last_tick": mirror.last_tick or None,
            "seconds_since_tick": seconds_since(mirror.last_tick),
            "unexplained_entries": len(exchange.ledger.unexplained(mirror.journal)),
            "sessions": self.accounts.count(),
        }

    async def health(self, _request: web.Request) -> web.Response:
        """200 where the board is there, 503 where it is away."""
        facts = self.facts()
        return web.json_response(facts, status=200 if facts["is_ready"] else 503)

    async def metrics(self, _request: web.Request) -> web.Response:
        return web.Response(body=generate_latest(self.registry), headers={"Content-Type": KIND})

    def collect(self) -> Iterator[Metric]:
        """The measures of the moment."""
        mirror, facts = self.mirror, self.facts()
        for name, about, value in (
            ("desk_board_up", "Whether the board's feed is followed", float(mirror.is_live)),
            ("desk_ready", "Whether lines can be sent at each address", float(facts["is_ready"])),
            ("acdm_entries", "Entries of the journal", mirror.next),
            ("acdm_room", "Entries that the journal takes", mirror.room),
            ("acdm_flights", "Flights on the board", len(mirror.board.flights)),
            ("desk_sessions", "Browsers in which somebody has signed in", facts["sessions"]),
            (
                "desk_unexplained_entries",
                "Entries of the desk's sessions that its log can't explain",
                facts["unexplained_entries"],
            ),
            ("acdm_tick_age_seconds", "Since the last tick; none where there was none", facts["seconds_since_tick"]),
        ):
            if value is not None:
                yield GaugeMetricFamily(name, about, value=value)
        yield from self.counted()
        names = Count(name for record in mirror.board.flights.values() for name in record["alerts"])
        alerts = GaugeMetricFamily("acdm_alerts", "Flights with an alert", labels=["name"])
        for name, count in sorted(names.items()):
            alerts.add_metric([name], count)
        yield alerts
        last = GaugeMetricFamily("acdm_last_entry_age_seconds", "Since the last entry of a role", labels=["role"])
        for role, minute in sorted(self.last_entry.items()):
            last.add_metric([role], seconds_since(minute) or 0.0)
        yield last
        links = GaugeMetricFamily("desk_connections", "Connections of people and of partners", labels=["listener"])
        for listener, watch in sorted(self.watches.items()):
            links.add_metric([listener], len(watch.connections))
        yield links
        front = GaugeMetricFamily("desk_partner_up", "Clients of a partner of lines over TLS", labels=["partner"])
        for partner, count in sorted(self.front.items()):
            front.add_metric([partner], count)
        yield front

    def counted(self) -> Iterator[Metric]:
        """What only grows, while the journal is the same."""
        entered = CounterMetricFamily("acdm_commands", "Entries by role", labels=["role"])
        for role, count in sorted(self.mirror.entered.items()):
            entered.add_metric([role], count)
        yield entered
        refused = CounterMetricFamily(
            "acdm_refusals", "Refused entries by role and code", labels=["role", "code", "name"]
        )
        for (role, code), count in sorted(self.mirror.refused.items()):
            refused.add_metric([role, str(code), refusal_name(code)], count)
        yield refused
        let_go = CounterMetricFamily("desk_let_go", "Connections that were too slow or too many", labels=["listener"])
        for listener, watch in sorted(self.watches.items()):
            let_go.add_metric([listener], watch.let_go)
        yield let_go
