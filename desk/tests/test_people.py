"""The desk for people: signing in, entering times, what changed meanwhile, history, events, rights."""
import gzip
import json
import re
import threading
import time
from datetime import datetime, timedelta, timezone

import pytest
from harness import PASSWORD, Client, Running, instant, until

from kevotranjy_desk.accounts import code_at


def clock_in(minutes: int) -> str:
    """A clock time so many minutes from now."""
    return (datetime.now(timezone.utc) + timedelta(minutes=minutes)).strftime("%H:%M")


def field(running: Running, flight: int, name: str) -> str | None:
    running.in_step()
    record = running.desk.exchange.mirror.flight(flight)
    assert record
    value: str | None = record[name]
    return value


def test_who_has_not_signed_in_sees_nothing(running: Running) -> None:
    stranger = Client(running)
    for path in ("/me", "/board", "/events", "/flights/7/history"):
        assert stranger.get(path).status == 401, path
    assert stranger.get("/").status == 303
    assert stranger.post("/enter", {}).status == 401


@pytest.mark.parametrize(
    "name, password", [("anna", "another pass-word"), ("nobody", PASSWORD), ("anna", ""), ("", "")]
)
def test_a_wrong_password_is_refused_in_the_same_words(running: Running, name: str, password: str) -> None:
    answer = Client(running).post("/sign-in", {"name": name, "password": password})
    assert (answer.status, answer.words) == (401, "name, password or code is not right")


def test_a_second_factor_is_asked_for_and_counts_once(running: Running) -> None:
    client = Client(running)
    assert client.post("/sign-in", {"name": "tom", "password": PASSWORD}).status == 401
    code = code_at(running.factor, int(time.time() // 30))
    wrong = f"{(int(code) + 1) % 10**6:06}"
    assert client.post("/sign-in", {"name": "tom", "password": PASSWORD, "code": wrong}).status == 401
    client.sign_in("tom", code)
    assert client.get("/me").value["name"] == "tom"
    assert Client(running).post("/sign-in", {"name": "tom", "password": PASSWORD, "code": code}).status == 401


def test_a_target_is_entered_by_clock_moved_and_taken_back(running: Running, anna: Client) -> None:
    answer = anna.enter(7, 9, clock_in(55))
    assert answer.status == 200 and answer.value["is_accepted"], answer.body
    assert answer.words == f"TOBT {clock_in(55)} entered" or "entered" in answer.words
    first = field(running, 7, "tobt")
    assert first == instant(55) or first == instant(54)
    assert anna.enter(7, 9, "+5").value["is_accepted"]
    moved = datetime.strptime(first or "", "%Y-%m-%dT%H:%M:%SZ") + timedelta(minutes=5)
    assert field(running, 7, "tobt") == moved.strftime("%Y-%m-%dT%H:%M:%SZ")
    assert anna.enter(7, 9, "+10").value["is_accepted"]
    assert anna.enter(7, 9, None).words.startswith("TOBT taken back entered")
    assert field(running, 7, "tobt") is None
    refused = anna.enter(7, 9, "+5")
    assert refused.status == 400 and "no time yet" in refused.words


def test_each_role_enters_what_is_its_own(running: Running) -> None:
    board = running.board
    board.flight(20, "DLH20", 14, 30)
    people = {name: Client(running).sign_in(name) for name in ("anna", "lena", "otto", "paula")}
    assert people["otto"].get("/me").value["milestones"] == [4, 5, 6, 10, 13, 14, 15, 16]
    assert people["anna"].get("/me").value["milestones"] == [8, 9, 11, 12]
    for name, milestone, text in (
        ("otto", 6, "now"),
        ("paula", 7, "now"),
        ("anna", 8, "now"),
        ("lena", 9, "now"),
        ("anna", 11, "now"),
        ("lena", 12, "now"),
        ("otto", 10, "now"),
        ("otto", 13, "now"),
        ("otto", 14, "now"),
        ("otto", 15, "now"),
        ("otto", 16, "now"),
    ):
        answer = people[name].enter(20, milestone, text)
        assert answer.status == 200 and answer.value["is_accepted"], (name, milestone, answer.body)
    roles = {
        entry["command"]["milestone"]: entry["role"]
        for entry in board.entries()
        if entry["command"].get("flight") == 20 and entry["command"].get("milestone")
    }
    assert roles[6] == roles[10] == "ATC" and roles[9] == roles[12] == "AO" and roles[8] == "GH" and roles[7] == "APT"


def test_what_the_board_refuses_is_told_in_words(running: Running, anna: Client) -> None:
    running.board.flight(21)
    answer = anna.enter(21, 11, "now")
    assert answer.status == 200 and not answer.value["is_accepted"]
    assert answer.value["code"] == 205 and answer.value["name"] == "not_set"
    assert answer.words.startswith("boarding refused: TOBT, or TSAT, is not set")
    foreign = anna.enter(21, 10, "now")
    assert foreign.value["code"] == 201


def test_what_changed_since_the_person_looked_is_asked_about(running: Running, anna: Client) -> None:
    running.board.flight(22)
    target = instant(50)
    running.in_step()
    seen = anna.last(22)
    assert running.board.ask("AO", cmd="report", flight=22, milestone=9, time=target).startswith("ok")
    running.in_step()
    count = running.board.count()
    body = {"cmd": "report", "flight": "22", "milestone": 9, "time": clock_in(40), "seen": seen}
    asked = anna.post("/enter", body)
    assert asked.status == 409 and running.board.count() == count, "nothing was sent"
    told = asked.value["events"]
    assert len(told) == 1 and told[0]["role"] == "AO" and told[0]["what"] == "TOBT"
    assert told[0]["changes"][0] == f"TOBT {target[11:16]}"
    sent = anna.post("/enter", {**body, "seen": asked.value["last"]})
    assert sent.status == 200 and sent.value["is_accepted"]


def test_a_tick_is_no_change_to_ask_about(running: Running, anna: Client) -> None:
    running.board.flight(23, off=5)
    running.in_step()
    seen = anna.last(23)
    assert running.board.ask("APT", cmd="tick").startswith("ok")
    running.in_step()
    body = {"cmd": "report", "flight": "23", "milestone": 9, "time": "now", "seen": seen}
    assert anna.post("/enter", body).status == 200


def test_history_names_people_and_refusals(running: Running, anna: Client) -> None:
    running.board.flight(24)
    anna.enter(24, 12, "now")
    anna.enter(24, 9, clock_in(30))
    running.board.ask("AO", cmd="report", flight=24, milestone=9, time=instant(45))
    running.in_step()
    events = anna.get("/flights/24/history").value["events"]
    last = [(event["who"], event["what"], bool(event["refused"])) for event in events[-3:]]
    assert last[0] == ("anna", "ready", True) and last[1] == ("anna", "TOBT", False)
    assert re.fullmatch(r"AO, session \d+", last[2][0])
    assert events[-1]["changes"][0] == f"TOBT {clock_in(30)} → {instant(45)[11:16]}" or "→" in events[-1]["changes"][0]


def test_people_see_and_send_for_their_flights_alone(running: Running) -> None:
    lena = Client(running).sign_in("lena")
    running.in_step()
    board = lena.get("/board").value
    zipped = lena.get("/board", Accept_Encoding="gzip")
    assert zipped.headers["Content-Encoding"] == "gzip" and json.loads(gzip.decompress(zipped.body)) == board
    seen = {flight["callsign"] for flight in board["flights"]}
    assert "SWR8" in seen and "BAW9" not in seen and "DLH7" in seen
    assert "8" in board["others"] and "7" not in board["others"]
    count = running.board.count()
    for flight, status in ((8, 403), (9, 403), (4000, 403)):
        body = {"cmd": "report", "flight": str(flight), "milestone": 9, "time": "now", "seen": 10**6}
        answer = lena.post("/enter", body)
        assert (answer.status, answer.words) == (status, "not a flight of yours")
    assert lena.get("/flights/9/history").status == 404 and lena.get("/flights/4000/history").status == 404
    assert lena.get("/flights/8/history").status == 200
    assert running.board.count() == count


def test_who_may_only_look_sends_nothing(running: Running) -> None:
    vera = Client(running).sign_in("vera")
    assert vera.get("/me").value["milestones"] == []
    body = {"cmd": "report", "flight": "7", "milestone": 9, "time": "now", "seen": 10**6}
    assert vera.post("/enter", body).status == 403


def test_a_flight_is_scheduled_and_deiced(running: Running) -> None:
    paula, dora = Client(running).sign_in("paula"), Client(running).sign_in("dora")
    texts = {"callsign": "DLH30", "type": "A320", "reg": "DAIBD", "dest": "EGLL"}
    numbers = {"mttt": 40, "exit": 5, "exot": 10, "stand": 3}
    body = {"cmd": "schedule", "flight": "30", "time": clock_in(90), "seen": -1, **texts, **numbers}
    assert paula.post("/enter", {**body, "callsign": "A B"}).status == 400
    assert paula.post("/enter", {**body, "stand": 70000}).status == 400
    assert paula.post("/enter", body).value["is_accepted"]
    running.board.flight(31)
    running.in_step()
    deice = {"cmd": "deice", "flight": "31", "field": "eczt", "time": clock_in(20), "seen": dora.last(31)}
    early = dora.post("/enter", deice).value
    if not early["is_accepted"]:
        assert all("eczt" not in flight for flight in dora.get("/board").value["flights"])
        assert early["code"] == 325
        assert running.board.ask("APT", cmd="migrate").startswith("migrated")
        running.in_step()
        assert dora.post("/enter", {**deice, "seen": dora.last(31)}).value["is_accepted"]
    assert field(running, 31, "eczt") in (instant(20), instant(19))
    flights = dora.get("/board").value["flights"]
    assert len(flights) > 3 and all("eczt" in flight for flight in flights)


@pytest.mark.parametrize(
    "body",
    [
        [],
        {"cmd": "tick", "seen": 1},
        {"cmd": "report", "flight": 7, "milestone": 9, "time": "now", "seen": 10**6},
        {"cmd": "report", "flight": "07", "milestone": 9, "time": "now", "seen": 10**6},
        {"cmd": "report", "flight": "7", "milestone": 1, "time": "now", "seen": 10**6},
        {"cmd": "report", "flight": "7", "milestone": True, "time": "now", "seen": 10**6},
        {"cmd": "report", "flight": "7", "milestone": 9, "time": "tomorrow", "seen": 10**6},
        {"cmd": "report", "flight": "7", "milestone": 12, "time": None, "seen": 10**6},
        {"cmd": "report", "flight": "7", "milestone": 9, "time": "now"},
        {"cmd": "deice", "flight": "7", "field": "tobt", "time": "now", "seen": 10**6},
    ],
)
def test_what_is_nothing_to_enter_is_told_and_not_sent(running: Running, anna: Client, body: object) -> None:
    count = running.board.count()
    answer = anna.post("/enter", body)
    assert answer.status == 400 and answer.words
    assert running.board.count() == count


def events_of(client: Client, path: str, wanted: int, has: str = "entry") -> list[str]:
    """So many events of a stream that have a text."""
    import http.client  # pylint: disable=import-outside-toplevel

    link = http.client.HTTPSConnection("127.0.0.1", client.port, context=client.context, timeout=10)
    link.putrequest("GET", path, skip_host=True)
    link.putheader("Host", client.host)
    link.putheader("Cookie", client.cookie)
    link.endheaders()
    answer, found = link.getresponse(), []
    while len(found) < wanted:
        line = answer.readline().decode()
        if line.startswith("data: ") and has in line:
            found.append(line[6:])
    link.close()
    return found


def test_events_tell_what_differs_of_flights_in_sight(running: Running, anna: Client) -> None:
    lena = Client(running).sign_in("lena")
    running.in_step()
    first, target = running.board.count(), instant(33)
    for flight in (9, 7):
        assert running.board.ask("GH", cmd="report", flight=flight, milestone=9, time=target).startswith("ok")
    (told,) = events_of(lena, f"/events?from={first}", 1)
    event = json.loads(told)
    assert event["entry"] == first + 1 and "BAW9" not in told
    (fields,) = event["flights"]
    assert fields["flight"] == "7" and fields["tobt"] == target and fields["last"] == first + 1
    assert fields["reported"] == {"9": "GH"}
    (known,) = [flight for flight in lena.get("/board").value["flights"] if flight["flight"] == "7"]
    assert known["reported"]["9"] == "GH" and known["reported"]["1"] == "NM"
    assert "callsign" not in fields
    both = [json.loads(line)["entry"] for line in events_of(anna, f"/events?from={first}", 2)]
    assert both == [first, first + 1]
    place = anna.get("/board").value["place"]
    assert place == f"{running.board.count()}.{running.desk.exchange.mirror.journal}"
    other = f"{first}.{'0' * 32}"
    assert events_of(anna, f"/events?from={other}", 1, "{}") == ["{}\n"], "of another journal it is begun anew"


def test_many_who_enter_at_once_are_all_answered(running: Running) -> None:
    clients = [Client(running).sign_in("anna") for _ in range(12)]
    statuses: list[int] = []

    def enter(client: Client) -> None:
        for _ in range(8):
            body = {"cmd": "report", "flight": "7", "milestone": 9, "time": "now", "seen": 10**9}
            statuses.append(client.post("/enter", body).status)

    work = [threading.Thread(target=enter, args=(client,)) for client in clients]
    for thread in work:
        thread.start()
    for thread in work:
        thread.join()
    assert statuses == [200] * 96


def test_a_session_ends_with_its_sign_out(running: Running) -> None:
    client = Client(running).sign_in("anna")
    cookie = client.cookie
    assert client.post("/sign-out", {}).status == 200
    client.cookie = cookie
    assert client.get("/me").status == 401


def test_numbers_beyond_those_of_browsers_are_exact(running: Running, anna: Client) -> None:
    number = 2**64 - 1
    running.board.flight(number, "BIG")
    answer = anna.enter(number, 9, "now")
    assert answer.value["is_accepted"]
    entry = running.board.entries()[answer.value["entry"]]
    assert entry["command"]["flight"] == number
    assert any(flight["flight"] == str(number) for flight in anna.get("/board").value["flights"])


def test_health_and_measures(running: Running) -> None:
    import http.client  # pylint: disable=import-outside-toplevel

    link = http.client.HTTPConnection("127.0.0.1", running.health_port, timeout=10)
    link.request("GET", "/health")
    answer = link.getresponse()
    facts = json.loads(answer.read())
    assert answer.status == 200 and facts["is_board_live"] and facts["room"] == 100000
    assert until(lambda: running.desk.exchange.mirror.next == running.board.count())
    link.request("GET", "/metrics")
    text = link.getresponse().read().decode()
    for name in (
        "acdm_entries ",
        "acdm_room 100000.0",
        'acdm_commands_total{role="GH"}',
        'acdm_refusals_total{code="205",name="not_set",role="GH"}',
        "desk_reply_seconds_count",
        "desk_sessions ",
        'acdm_alerts{name="CDM',
    ):
        assert name in text, name
