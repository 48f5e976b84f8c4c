"""The dashboard and the rules of alerts name measures that the desk has; what these are, and when a rule tells."""
import asyncio
import http.client
import json
import re
import shutil
import subprocess
import time
from types import SimpleNamespace
from typing import Any

import pytest
from harness import TOP, Client, Running, instant
from test_parts import REPORT, connected, feed_line, told

from kevotranjy_desk.guard import Watch
from kevotranjy_desk.health import Health
from kevotranjy_desk.mirror import Mirror

FOLDER = TOP / "desk" / "monitoring"
OF_PROMETHEUS = {"rate", "histogram_quantile", "by", "or", "unless", "name", "role", "code", "listener", "partner"}


def measures(running: Running) -> str:
    link = http.client.HTTPConnection("127.0.0.1", running.health_port, timeout=10)
    link.request("GET", "/metrics")
    return link.getresponse().read().decode()


def test_each_measure_of_dashboard_and_alerts_is_there(running: Running, anna: Client) -> None:
    assert anna.enter(7, 11, "now").status == 200
    # (a flight that is due, and has no plan)
    texts = {"callsign": "DLH50", "type": "A320", "reg": "DAIBC", "dest": "EGLL", "sobt": instant(5)}
    running.board.ask("APT", cmd="schedule", flight=50, mttt=40, exit=5, exot=10, stand=1, **texts)
    running.board.ask("APT", cmd="tick")
    running.in_step()
    told = set(re.findall(r"^(\w+)", measures(running), re.M))
    dashboard = json.loads((FOLDER / "dashboard.json").read_text(encoding="utf-8"))
    texts = [target["expr"] for panel in dashboard["panels"] for target in panel["targets"]]
    texts += re.findall(r"expr: (.*)", (FOLDER / "alerts.yml").read_text(encoding="utf-8"))
    assert len(texts) > 20
    for text in texts:
        names = set(re.findall(r"\b(?:acdm|desk)_\w+", text))
        assert names and names <= told, (text, names - told)
    assert 'desk_partner_up{partner="tower"}' in measures(running)


@pytest.mark.skipif(not shutil.which("promtool"), reason="promtool is not installed")
def test_the_rules_of_alerts_fire_when_they_should() -> None:
    subprocess.run(["promtool", "check", "rules", str(FOLDER / "alerts.yml")], check=True, capture_output=True)
    subprocess.run(["promtool", "test", "rules", str(FOLDER / "alerts_test.yml")], check=True, capture_output=True)


def test_a_rule_tells_what_its_words_say() -> None:
    """The numbers of an expression are those of its summary, and how long it holds before somebody is woken."""
    text = (FOLDER / "alerts.yml").read_text(encoding="utf-8")
    found = {}
    for rule in text.split("- alert: ")[1:]:
        fields = dict(re.findall(r"^ +(\w+): (.*)$", rule, re.M))
        found[rule.split()[0]] = (fields["expr"], fields.get("for"), fields["labels"], fields["annotations"])
    age = "acdm_tick_age_seconds"
    replies = "histogram_quantile(0.99, rate(desk_reply_seconds_bucket[5m])) > 0.3"
    wanted = {
        "BoardAway": ("desk_board_up == 0", "30s", "critical", "does not reach the board"),
        "NoTick": (f"{age} > 180 or (desk_board_up == 1 unless {age})", "1m", "critical", "for three minutes"),
        "RoomAt80": ("acdm_entries / acdm_room > 0.8", None, "warning", "80 per cent"),
        "RoomAt95": ("acdm_entries / acdm_room > 0.95", None, "critical", "95 per cent"),
        "PartnerGone": ("desk_partner_up == 0", "2m", "warning", "$labels.partner }} is connected"),
        "RoleSilent": ("acdm_last_entry_age_seconds > 1800", None, "warning", "for half an hour"),
        "SlowReplies": (replies, "5m", "warning", "One in a hundred replies takes longer than 300 milliseconds"),
        "UnexplainedEntries": ("desk_unexplained_entries > 0", None, "critical", "can't explain"),
    }
    assert list(found) == list(wanted)
    for name, (expression, holds, severity, words) in wanted.items():
        assert found[name][:3] == (expression, holds, f"{{severity: {severity}}}"), name
        assert words in found[name][3], name


def health_of(mirror: Mirror, away: set[str], watch: Watch) -> Health:
    """The health of a desk of two addresses, beside stand-ins of all else."""
    ledger = SimpleNamespace(unexplained=lambda _journal: [7, 8])
    exchange: Any = SimpleNamespace(mirror=mirror, ledger=ledger, lines={"GH": 1, "AO": 2}, is_away=away.__contains__)
    accounts: Any = SimpleNamespace(count=lambda: 3)
    return Health(exchange, accounts, {"people": watch})


def measured(health: Health) -> dict[str, float]:
    """The measures by their names and labels."""
    answer = asyncio.run(health.metrics(None))  # type: ignore[arg-type]
    assert isinstance(answer.body, bytes) and answer.headers["Content-Type"].startswith("text/plain; version=0.0.4")
    rows = [line.rpartition(" ") for line in answer.body.decode().splitlines() if not line.startswith("#")]
    return {name: float(value) for name, _, value in rows if "_created" not in name}


def test_measures_are_those_of_the_board_and_the_desk(monkeypatch: pytest.MonkeyPatch) -> None:
    mirror, away, watch = Mirror(("127.0.0.1", 1)), set[str](), Watch(9)
    health = health_of(mirror, away, watch)
    health.front = {"tower": 2, "handler": 0}
    told(mirror, 0, {"cmd": "schedule", "flight": 7}, callsign="DLH7", alerts=["CDM01", "LOC03"])
    told(mirror, 1, REPORT, code=205)
    told(mirror, 2, REPORT, code=205)
    told(mirror, 3, {"cmd": "tick"})
    later = {"minute": "2025-02-20T09:01:00Z", "role": "APT", "command": {"cmd": "tick"}, "changed": []}
    mirror.take({**feed_line(4), **later})
    mirror.room, mirror.is_live, watch.let_go = 100, True, 4
    links = [connected(watch) for _ in range(2)]
    # (all entries but the last are of 2025-02-20T09:00Z)
    monkeypatch.setattr(time, "time", lambda: 1740042000.0 + 90)
    health.reply.observe(0.004)
    found = measured(health)
    wanted: dict[str, float] = {
        "desk_board_up": 1,
        "desk_ready": 1,
        "acdm_entries": 5,
        "acdm_room": 100,
        "acdm_flights": 1,
        "desk_sessions": 3,
        "desk_unexplained_entries": 2,
        "acdm_tick_age_seconds": 30,
        'acdm_commands_total{role="AO"}': 4,
        'acdm_refusals_total{code="205",name="not_set",role="AO"}': 2,
        'acdm_alerts{name="CDM01"}': 1,
        'acdm_alerts{name="LOC03"}': 1,
        'acdm_last_entry_age_seconds{role="AO"}': 90,
        'acdm_last_entry_age_seconds{role="APT"}': 30,
        'desk_connections{listener="people"}': 2,
        'desk_partner_up{partner="tower"}': 2,
        'desk_partner_up{partner="handler"}': 0,
        'desk_let_go_total{listener="people"}': 4,
        "desk_reply_seconds_count": 1,
        'desk_reply_seconds_bucket{le="0.002"}': 0,
        'desk_reply_seconds_bucket{le="0.005"}': 1,
    }
    assert {name: found.get(name) for name in wanted} == wanted
    for live, gone, status, trouble in (
        (True, set[str](), 200, None),
        (True, {"AO"}, 503, "why"),
        (False, set[str](), 503, "why"),
    ):
        mirror.is_live, mirror.trouble = live, "why"
        away.clear()
        away.update(gone)
        told_ = asyncio.run(health.health(None))  # type: ignore[arg-type]
        assert isinstance(told_.body, bytes)
        facts = json.loads(told_.body)
        assert told_.status == status and (facts["is_ready"], facts["is_board_live"]) == (status == 200, live)
        assert facts["trouble"] == trouble and facts["last_entry"] == "2025-02-20T09:01:00Z"
        found = measured(health)
        assert (found["desk_board_up"], found["desk_ready"]) == (live, status == 200)
    for link in links:
        link.connection_lost(None)
