"""Parts that need no board: clock times, second factors, shares of a minute, records, names."""
import asyncio
import json
import time
from datetime import datetime, timedelta, timezone
from pathlib import Path
from types import SimpleNamespace
from typing import Any

import pytest
from aiohttp.test_utils import make_mocked_request
from harness import TOP  # noqa: F401  pylint: disable=unused-import

from kevotranjy_desk import front, guard
from kevotranjy_desk.accounts import IDLE_SECONDS, SESSION_SECONDS, code_at, step_of
from kevotranjy_desk.guard import Patient, Watch, host_name, is_navigation, is_own_origin
from kevotranjy_desk.ledger import REPLIED, Author, Ledger
from kevotranjy_desk.mirror import Mirror
from kevotranjy_desk.moments import BadTime, instant
from kevotranjy_desk.rates import Rate
from kevotranjy_desk.records import alerted, instant_of, shown_record, unloaded
from kevotranjy_desk.scopes import ALL, NONE, Clause, Scope
from kevotranjy_desk.settings import Limits
from kevotranjy_desk.streams import Stream, Told, page_change, page_event, partner_event
from kevotranjy_desk.wording import change_words, command_words, event_of, refusal_words

EVENING = datetime(2025, 2, 20, 22, 30, 40, tzinfo=timezone.utc)


@pytest.mark.parametrize(
    "text, stands, wanted",
    [
        ("22:45", None, "2025-02-20T22:45:00Z"),
        ("0015", None, "2025-02-21T00:15:00Z"),
        ("18:30", None, "2025-02-20T18:30:00Z"),
        ("18:29", None, "2025-02-21T18:29:00Z"),
        ("9:05Z", None, "2025-02-21T09:05:00Z"),
        ("now", None, "2025-02-20T22:30:00Z"),
        ("+5", "2025-02-20T23:58:00Z", "2025-02-21T00:03:00Z"),
        ("-10", "2025-02-20T23:58:00Z", "2025-02-20T23:48:00Z"),
    ],
)
def test_a_time_is_that_of_the_day_about_now(text: str, stands: str | None, wanted: str) -> None:
    assert instant(text, EVENING, stands) == wanted


@pytest.mark.parametrize("text", ["24:00", "10:60", "", "ten", "1:2", "10:20\n{}", "+5", "٣٠:١٥"])
def test_what_is_no_time_is_told(text: str) -> None:
    with pytest.raises(BadTime):
        instant(text, EVENING, None)


# The rows of RFC 6238, appendix B, for SHA-1, of which the last six digits count here.
SECRET = "GEZDGNBVGY3TQOJQGEZDGNBVGY3TQOJQ"


@pytest.mark.parametrize(
    "seconds, code",
    [
        (59, "287082"),
        (1111111109, "081804"),
        (1111111111, "050471"),
        (1234567890, "005924"),
        (2000000000, "279037"),
        (20000000000, "353130"),
    ],
)
def test_codes_are_those_of_the_standard(seconds: int, code: str) -> None:
    assert code_at(SECRET, seconds // 30) == code
    assert step_of(SECRET, code, 0, seconds) == seconds // 30
    assert step_of(SECRET, code, 0, seconds + 30) == seconds // 30
    assert step_of(SECRET, code, 0, seconds + 90) is None
    assert step_of(SECRET, code, seconds // 30, seconds) is None, "a code counts once"


def test_a_share_fills_again(monkeypatch: pytest.MonkeyPatch) -> None:
    moment = [0.0]
    monkeypatch.setattr(time, "monotonic", lambda: moment[0])
    rate = Rate(60)
    assert sum(rate.takes("a") for _ in range(100)) == 60 and rate.takes("b")
    moment[0] = 2.5
    assert sum(rate.takes("a") for _ in range(100)) == 2


def test_scopes_are_unions_of_clauses() -> None:
    scope = Scope((Clause(("DLH",), frozenset(), ((10, 19),)), Clause((), frozenset({12}), ())))
    rows = [("DLH1", 1, 10, True), ("DLH1", 1, 20, False), ("BAW1", 1, 10, False), ("BAW1", 12, 99, True)]
    assert [scope.has_flight(*row[:3]) for row in rows] == [row[3] for row in rows]
    assert ALL.has_flight("X", 1, 1) and not NONE.has_flight("X", 1, 1)


def test_replies_are_read_by_name() -> None:
    # (docs/RULES.md, "The record", reads these digits)
    digits = "0700000000000000" "444c483700000000" + "A320".encode().hex() * 2 + ("DAIBC".encode().hex() + "000000") * 2
    digits += (
        "EDDM".encode().hex() * 2 + "03000000" "00000000" "2800" "0a00" "0c00" "01" "05" + "3884ba01" * 2 + "00" * 56
    )
    record = shown_record(digits)
    assert record["flight"] == 7 and record["callsign"] == "DLH7" and record["plan_dest"] == "EDDM"
    assert record["sobt"] == record["eobt"] == "2025-02-20T10:00:00Z" and record["tobt"] is None
    assert (record["mttt"], record["exot"], record["stand"], record["exit"]) == (40, 10, 12, 5)
    assert record["reached"] == [0, 1] and record["alerts"] == []
    with pytest.raises(ValueError):
        shown_record(digits + "00")
    assert instant_of(4294967295) == "10136-02-16T04:15:00Z"
    assert alerted("7:CDM08,CDM07a;9:CDM01") == [
        {"flight": 7, "alerts": ["CDM08", "CDM07a"]},
        {"flight": 9, "alerts": ["CDM01"]},
    ]
    assert alerted("-") == [] and unloaded("-") == []
    assert unloaded("7:tobt:308:2")[0] == {"milestone": 7, "kind": "tobt", "code": 308, "slot": 2}


@pytest.mark.parametrize(
    "text, name", [("Desk.Example:8443", "desk.example"), ("[::1]:8443", "[::1]"), ("[::1]", "[::1]"), ("a", "a")]
)
def test_a_host_is_told_without_its_port(text: str, name: str) -> None:
    assert host_name(text) == name


def test_bounds_are_those_of_the_page() -> None:
    """What desk/README.md says of times, sizes and shares of a minute."""
    page, limits = " ".join((TOP / "desk" / "README.md").read_text(encoding="utf-8").split()), Limits()
    heads, bodies, held = guard.LONGEST_HEAD >> 10, guard.LONGEST_BODY >> 10, int(guard.HEAD_SECONDS)
    stalled = int(guard.STALLED_SECONDS)
    for text in (
        f"heads of {heads} KiB, bodies of {bodies} KiB (partners: 1 MiB), {held} seconds for each, {stalled} for what",
        f"{limits.connections} from one address, {guard.MOST_CONNECTIONS:,} in all; of a stranger's events 30 a minute",
        f"{SESSION_SECONDS // 3600} hours, {IDLE_SECONDS // 3600} without a request",
        f"`lines` of a person ({limits.lines}), `partner_lines` ({limits.partner_lines}) and `sign_ins`",
        f"one address ({limits.sign_ins}); `connections` of one address at a time ({limits.connections})",
        f"an `Idempotency-Key` is known ({limits.key_days})",
    ):
        assert text in page, text
    assert guard.BODY_SECONDS == guard.HEAD_SECONDS and front.STALLED_SECONDS == guard.STALLED_SECONDS
    assert front.HANDSHAKE_SECONDS == guard.HANDSHAKE_SECONDS == 5


def test_a_link_of_another_site_opens_the_page_alone() -> None:
    """A browser says that it comes by a link; a form that is sent from there is none."""
    own = {"Host": "desk.example:8443", "Sec-Fetch-Site": "cross-site", "Sec-Fetch-Mode": "navigate"}
    rows = (("GET", own, True), ("POST", own, False), ("GET", {**own, "Sec-Fetch-Mode": "cors"}, False))
    for method, headers, wanted in rows:
        request = make_mocked_request(method, "/", headers=headers)
        assert is_navigation(request) is wanted and not is_own_origin(request), (method, headers)
    for origin, wanted in (
        ("https://desk.example:8443", True),
        ("HTTPS://Desk.Example:8443", True),
        ("http://desk.example:8443", False),
        ("https://desk.example", False),
        ("null", False),
        ("", False),
    ):
        request = make_mocked_request("POST", "/", headers={**own, "Origin": origin})
        assert is_own_origin(request) is wanted, origin


class Transport:
    """A connection of which so much is not sent yet."""

    def __init__(self, client: str = "192.0.2.1") -> None:
        self.client, self.unsent, self.is_aborted = client, 0, False

    def get_extra_info(self, _name: str) -> tuple[str, int]:
        return self.client, 1

    def get_write_buffer_size(self) -> int:
        return self.unsent

    def abort(self) -> None:
        self.is_aborted = True


def connected(watch: Watch, client: str = "192.0.2.1") -> Patient:
    """A connection of a client that a watch looks after."""
    inner: Any = SimpleNamespace(
        connection_made=lambda _it: None, data_received=lambda _it: None, connection_lost=lambda _it: None
    )
    transport: Any = Transport(client)
    patient = Patient(inner, watch)
    patient.connection_made(transport)
    return patient


def test_who_is_too_slow_is_told_from_who_is_slow(monkeypatch: pytest.MonkeyPatch) -> None:
    """A head has 10 seconds, also the second one of a connection; what is sent may wait for 30, while some is taken."""
    moment = [100.0]
    monkeypatch.setattr(time, "monotonic", lambda: moment[0])
    patient = connected(Watch(5))
    transport: Any = patient.transport
    assert not patient.is_too_slow(110) and patient.is_too_slow(110.1)
    patient.begin()
    assert not patient.is_too_slow(200), "an answer may take its time"
    patient.end()
    assert not patient.is_too_slow(300), "a connection may be kept"
    moment[0] = 300
    patient.data_received(b"G")
    moment[0] = 309
    patient.data_received(b"E")
    assert not patient.is_too_slow(310) and patient.is_too_slow(310.1)
    patient.begin()
    patient.data_received(b"more of the body")
    assert not patient.is_too_slow(400)
    for later, unsent, is_slow in (
        (401, 9, False),
        (430, 9, False),
        (431, 8, False),
        (461, 8, False),
        (461.1, 8, True),
    ):
        transport.unsent = unsent
        assert patient.is_too_slow(later) is is_slow, later
    transport.unsent = 0
    assert not patient.is_too_slow(500)


def test_connections_of_a_client_are_counted_while_they_are_there() -> None:
    watch = Watch(3)
    own = [connected(watch) for _ in range(3)]
    one_more, other = connected(watch), connected(watch, "192.0.2.2")
    aborted: Any = [it.transport for it in (*own, one_more, other)]
    assert [it.is_aborted for it in aborted] == [False, False, False, True, False] and watch.let_go == 1
    one_more.connection_lost(None)
    for _ in range(100):
        own.pop().connection_lost(None)
        own.append(connected(watch))
    assert watch.let_go == 1 and dict(watch.of_client) == {"192.0.2.1": 3, "192.0.2.2": 1}
    for patient in (*own, other):
        patient.connection_lost(None)
        patient.connection_lost(None)
    assert not watch.connections and not watch.of_client


def test_the_front_lets_go_who_takes_nothing(monkeypatch: pytest.MonkeyPatch) -> None:
    """Of either end, behind 30 seconds; a handshake and the connection to the board have their time."""
    closed: list[tuple[Any, str]] = []
    monkeypatch.setattr(front, "tell", lambda *_, **__: None)
    given: Any = SimpleNamespace(fileno=lambda: -1, close=lambda: None)
    own = front.Front.__new__(front.Front)
    monkeypatch.setattr(own, "close", lambda pair, why: closed.append((pair, why)))

    def pair(stage: str, until: float, client: float | None = None, board: float | None = None) -> front.Pair:
        made = front.Pair(given, "192.0.2.1")
        made.stage, made.until, made.board = stage, until, front.End(made, given, False)
        for end, since in ((made.client, client), (made.board, board)):
            if since is not None:
                end.since = since
                end.waiting.append(b"x")
        return made

    slow = [pair("pass", 0, client=69.9), pair("pass", 0, board=69.9), pair("handshake", 99.9), pair("connect", 99.9)]
    kept = [pair("pass", 0), pair("pass", 0, client=70.1, board=70.1), pair("handshake", 100.1), pair("connect", 100.1)]
    own.pairs = {*slow, *kept}
    own.let_go_slow(100)
    stalled = "nothing was taken for 30 seconds"
    wanted = dict(zip(slow, (stalled, stalled, "no handshake in time", "the board is away")))
    assert dict(closed) == wanted


def test_an_entry_has_one_line(folder: Path) -> None:
    """A second line is told, and left without the entry; who did what stays with the first."""
    ledger, log = Ledger(folder / "desk.sqlite", folder / "desk.log"), folder / "desk.log"
    numbers = [ledger.begin("journal", Author(name, "person", "h"), "GH", REPORT) for name in ("anna", "otto", "vera")]
    for number in numbers[:2]:
        ledger.end(number, REPLIED, 4, "ok 4")
    assert ledger.who("journal", [4]) == {4: "anna"}
    assert [(it.who, it.entry, it.state) for it in ledger.lines_of(7, None, 2)] == [
        ("otto", None, REPLIED),
        ("vera", None, "sent"),
    ], "the last ones, the oldest first"
    assert [it.number for it in ledger.open_lines("journal")] == numbers[2:]
    events = [json.loads(line) for line in log.read_text(encoding="ascii").splitlines()]
    assert [(it["event"], it.get("entry")) for it in events] == [
        ("line", 4),
        ("an entry has two lines", 4),
        ("line", 4),
    ]
    ledger.close()


def test_events_of_a_stranger_that_are_left_out_are_counted(folder: Path, monkeypatch: pytest.MonkeyPatch) -> None:
    moment = [0.0]
    monkeypatch.setattr(time, "monotonic", lambda: moment[0])
    ledger = Ledger(folder / "desk.sqlite", folder / "desk.log")
    for name in ("a", "a", "b"):
        for _ in range(20):
            ledger.tell_of_stranger("refused", name, who="x")
    moment[0] = 2.1
    ledger.tell_of_stranger("refused", "a", who="y")
    ledger.tell_of_stranger("refused", "b", who="y")
    moment[0] = 4.2
    ledger.tell_of_stranger("refused", "a", who="z")
    ledger.close()
    events = [json.loads(line) for line in (folder / "desk.log").read_text(encoding="ascii").splitlines()]
    assert [sum(it["client"] == name for it in events) for name in "ab"] == [32, 21]
    assert [it.get("left_out") for it in events[-3:]] == [10, None, None], "each is counted once"


def requested(ledger: Ledger, key: str, moment: str, is_replied: bool = True) -> int:
    """A line of a request with a key, which came at a moment."""
    ledger.note_request("swiss", key, f"digest of {key}")
    ledger.base.execute("update request set moment = ? where key = ?", (moment, key))
    author, command = Author("swiss", "partner", "127.0.0.1"), {"cmd": "report", "flight": 8}
    number = ledger.begin("journal", author, "partner swiss", command, (key, 0))
    if is_replied:
        ledger.end(number, REPLIED, number, f"ok {number}")
    return number


def test_keys_of_requests_are_forgotten_with_age_and_their_lines_stay(folder: Path) -> None:
    ledger, today = Ledger(folder / "desk.sqlite", None), datetime.now(timezone.utc)
    ages = {"new": 0.0, "young": 6.9, "old": 7.1, "older": 400.0}
    for key, days in ages.items():
        requested(ledger, key, (today - timedelta(days=days)).isoformat().replace("+00:00", "Z"))
    requested(ledger, "no reply", "2020-01-01T00:00:00.000Z", is_replied=False)
    assert ledger.forget_requests(7) == 2 and ledger.forget_requests(7) == 0
    known = {key: ledger.request_of("swiss", key) is not None for key in [*ages, "no reply"]}
    assert known == {"new": True, "young": True, "old": False, "older": False, "no reply": True}
    assert [len(ledger.lines_of_request("swiss", key)) for key in ages] == [1, 1, 0, 0]
    assert len(ledger.lines_of(8, "swiss", 100)) == 5, "who did what is not forgotten"
    # (the key of a forgotten request is a new one)
    number = requested(ledger, "old", today.isoformat())
    assert list(ledger.lines_of_request("swiss", "old").values())[0].number == number
    ledger.close()


def feed_line(number: int) -> dict[str, Any]:
    """The line of an entry that changes a flight, by docs/FORMATS.md."""
    times = "sobt eobt ctot otot eldt aldt aibt acgt tobt tsat asbt ardt asrt asat aobt atot".split()
    texts = "callsign scheduled_type plan_type scheduled_reg plan_reg scheduled_dest plan_dest".split()
    record = {"flight": 7, **dict.fromkeys(texts, "X"), **dict.fromkeys(times), "mttt": number, "exit": 5, "exot": 10}
    return {
        "entry": number,
        "minute": "2025-02-20T09:00:00Z",
        "session": 1,
        "role": "APT",
        "command": {"cmd": "schedule", "flight": 7},
        "outcome": "ok",
        "answers": [],
        "changed": [{**record, "stand": 1, "reached": [], "alerts": []}],
    }


def told(mirror: Mirror, number: int, command: dict[str, Any], code: int = 0, **fields: Any) -> None:
    """An entry that leaves flight 7 with these fields; without one it changes nothing."""
    line = feed_line(number)
    record = {**line["changed"][0], "mttt": 40, **fields}
    outcome = {"code": code, "name": "x"} if code else "ok"
    mirror.take({**line, "role": "AO", "command": command, "outcome": outcome, "changed": [record] if fields else []})


REPORT = {"cmd": "report", "flight": 7, "milestone": 9, "time": "2025-02-20T10:00:00Z"}


def test_what_became_of_a_flight_is_told_in_words() -> None:
    mirror, tick = Mirror(("127.0.0.1", 1)), {"cmd": "tick"}
    told(mirror, 0, {"cmd": "schedule", "flight": 7}, callsign="DLH7")
    told(mirror, 1, REPORT, callsign="DLH7", tobt="2025-02-20T10:00:00Z", reached=[9])
    told(mirror, 2, tick, callsign="DLH7", tobt="2025-02-20T10:00:00Z", reached=[9], alerts=["CDM01", "LOC03"])
    told(mirror, 3, {**REPORT, "time": None}, callsign="DLH7", reached=[], alerts=["LOC03"])
    told(mirror, 4, {**REPORT, "milestone": 6}, code=201)
    told(mirror, 5, {"cmd": "show", "flight": 7})
    told(mirror, 6, tick, callsign="DLH7", reached=[], alerts=[])
    words = [change_words(it, 7) for it in mirror.events_of(7)]
    assert words[1] == ["TOBT 10:00"] and words[4] == []
    assert len(words[2]) == 2 and words[2][0].startswith("+ ") and words[2][1] == "+ local alert 03"
    assert words[3][0] == "TOBT 10:00 → –" and words[3][1].startswith("− ") and len(words[3]) == 2
    # (a question is no part of its history; an alert that comes alone is no change to ask about)
    assert [it.number for it in mirror.events_of(7)] == [0, 1, 2, 3, 4, 6] and mirror.last_of(7) == 3
    assert mirror.reported_of(7) == {9: "AO"} and mirror.refused == {("AO", 201): 1} and mirror.last_tick != ""
    event = event_of(mirror.events_of(7)[4], 7, None)
    assert (event["who"], event["refused"], event["code"]) == ("AO, session 1", refusal_words(201), 201)
    assert event_of(mirror.events_of(7)[1], 7, "anna")["who"] == "anna"
    assert command_words({**REPORT, "time": None}).endswith(" taken back") and command_words(tick) == "tick"
    alone = page_event(mirror.entries[6], ALL)
    assert alone and alone["flights"] == [{"alerts": [], "flight": "7"}]
    end = mirror.after(7)
    assert [it.number for it in mirror.after(4) or ()] == [4, 5, 6] and end is not None and not list(end)
    assert mirror.after(8) is None


def test_a_flight_that_leaves_or_enters_ones_sight() -> None:
    """One that enters is told whole, one that leaves as gone, one that others see not at all."""
    mirror, mine = Mirror(("127.0.0.1", 1)), Scope((Clause((), frozenset(), ((10, 19),)),))
    for number, stand in enumerate((5, 12, 13, 20, 21)):
        told(mirror, number, REPORT, stand=stand)
    events = [page_event(it, mine) for it in mirror.entries]
    assert events[0] is None and events[4] is None
    assert events[1] and "callsign" in events[1]["flights"][0] and events[1]["gone"] == []
    assert events[2] and events[2]["flights"] == [{"stand": 13, "flight": "7", "last": 2, "reported": {9: "AO"}}]
    assert events[3] and (events[3]["flights"], events[3]["gone"]) == ([], ["7"])
    assert page_change(mirror.entries[4].changes[0], mine, mirror.entries[4]) == (None, None)
    partner = [partner_event(it, mine) for it in mirror.entries]
    assert [it is None for it in partner] == [True, False, False, False, True]


def test_what_is_kept_of_entries_has_a_bound(monkeypatch: pytest.MonkeyPatch) -> None:
    monkeypatch.setattr("kevotranjy_desk.mirror.KEPT_ENTRIES", 3)
    mirror = Mirror(("127.0.0.1", 1))
    for number in range(5):
        told(mirror, number, REPORT, stand=number)
    assert (mirror.first_kept, [it.number for it in mirror.entries]) == (2, [2, 3, 4])
    assert mirror.after(1) is None and [it.number for it in mirror.after(2) or ()] == [2, 3, 4]
    monkeypatch.setattr("kevotranjy_desk.mirror.KEPT_CHANGES", 2)
    told(mirror, 5, REPORT, stand=9)
    assert [it.number for it in mirror.entries] == [4, 5]


def test_an_entry_that_comes_while_another_is_written_is_told_at_once(monkeypatch: pytest.MonkeyPatch) -> None:
    mirror, written = Mirror(("127.0.0.1", 1)), []

    async def write(self: Stream, data: bytes) -> None:
        assert self.mirror is mirror
        written.append(data)
        if mirror.next == 1:
            mirror.take(feed_line(1))
        elif mirror.next == 2 and b"id: 2" in data:
            mirror.end()

    async def prepared(*_: object) -> None:
        return None

    async def main() -> None:
        stream = Stream(mirror, Told(page_event), ALL)
        monkeypatch.setattr(stream.response, "prepare", prepared)
        request: Any = None
        await asyncio.wait_for(stream.run(request, (0, ""), lambda: b"", lambda: True), 5)

    monkeypatch.setattr(Stream, "write", write)
    mirror.take(feed_line(0))
    asyncio.run(main())
    assert b"id: 1" in written[0] and b"id: 2" in written[1]
