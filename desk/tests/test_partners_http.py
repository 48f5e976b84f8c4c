"""HTTP for partners: lines and their replies, keys that are used again, events, rights, and the document."""
import http.client
import json
import random
import threading
from typing import Any

import jsonschema
import pytest
from harness import Answer, Client, Running, instant, until

from kevotranjy_desk import openapi


class Partner(Client):
    """A partner by HTTP, with a token or a certificate."""

    def __init__(self, running: Running, name: str = "", certificate: str = "") -> None:
        super().__init__(running, certificate, running.http_port)
        self.bearer = f"Bearer {running.tokens[name]}" if name else None

    def ask(self, method: str, path: str, body: Any = None, **headers: str | None) -> Answer:
        own = {"Authorization": self.bearer, "Origin": None}
        return super().ask(method, path, body, **{**own, **headers})


@pytest.fixture(name="swiss")
def _swiss(running: Running) -> Partner:
    running.in_step()
    return Partner(running, "swiss")


@pytest.fixture(name="airport")
def _airport(running: Running) -> Partner:
    running.in_step()
    return Partner(running, "airport")


def target(flight: int, minutes: int = 40) -> dict[str, Any]:
    return {"cmd": "report", "flight": flight, "milestone": 9, "time": instant(minutes)}


def test_who_is_not_known_is_refused(running: Running) -> None:
    for client in (Partner(running), Partner(running, certificate="nobody")):
        for method, path in (
            ("GET", "/v1/flights"),
            ("POST", "/v1/lines"),
            ("GET", "/v1/events"),
            ("GET", "/v1/alerts"),
        ):
            assert client.ask(method, path, target(8) if method == "POST" else None).status == 401
    wrong = Partner(running)
    wrong.bearer = "Bearer " + "x" * 43
    assert wrong.get("/v1/flights").status == 401


def test_a_certificate_names_its_partner(running: Running) -> None:
    swiss = Partner(running, certificate="swiss")
    running.in_step()
    assert [flight["callsign"] for flight in swiss.get("/v1/flights").value["flights"]] == ["SWR8"]


def test_a_line_is_answered_by_an_object(swiss: Partner) -> None:
    line = target(8)
    answer = swiss.post("/v1/lines", line)
    assert answer.status == 200 and answer.value["outcome"] == "ok"
    entry = swiss.running.board.entries()[answer.value["entry"]]
    assert (entry["role"], entry["command"]["time"]) == ("AO", line["time"])
    shown = swiss.post("/v1/lines", {"cmd": "show", "flight": 8}).value
    swiss.running.in_step()
    record = swiss.get("/v1/flights/8").value["flight"]
    assert shown["record"] == record and record["tobt"] == entry["command"]["time"]
    refused = swiss.post("/v1/lines", {**target(8), "milestone": 10}).value["outcome"]
    assert (refused["code"], refused["name"]) == (201, "not_owner")
    bad = swiss.post("/v1/lines", {"cmd": "report", "flight": 8}).value
    assert bad["entry"] is None and bad["outcome"]["code"] == 103
    assert swiss.post("/v1/lines", {"cmd": "dance"}).value["outcome"]["code"] == 102


def test_many_lines_are_answered_in_order(airport: Partner) -> None:
    lines = [{"cmd": "tick"}, {"cmd": "show", "flight": 4000}, {"cmd": "alerts"}]
    replies = airport.post("/v1/lines", lines).value["replies"]
    numbers = [reply["entry"] for reply in replies]
    assert numbers == sorted(numbers) and [reply["outcome"] == "ok" for reply in replies] == [True, False, True]
    assert isinstance(replies[2]["alerts"], list)
    text = b'{"cmd":"tick"}\n\n{"cmd":"show","flight":7}\n'
    rows = airport.post("/v1/lines", text, Content_Type="application/x-ndjson").value["replies"]
    assert rows[0]["outcome"] == "ok" and rows[1]["record"]["callsign"] == "DLH7"


def test_a_request_that_is_repeated_has_its_first_reply(swiss: Partner) -> None:
    body = [target(8, 41), target(8, 42)]
    first = swiss.post("/v1/lines", body, Idempotency_Key="one")
    count = swiss.running.board.count()
    again = swiss.post("/v1/lines", body, Idempotency_Key="one")
    assert again.value == first.value and swiss.running.board.count() == count
    assert swiss.post("/v1/lines", [target(8, 43)], Idempotency_Key="one").status == 422
    other = swiss.post("/v1/lines", body, Idempotency_Key="two")
    assert other.value["replies"][0]["entry"] == count
    assert swiss.post("/v1/lines", body, Idempotency_Key="no key").status == 400


def test_a_request_that_is_repeated_after_a_restart_has_its_first_reply(swiss: Partner) -> None:
    running, line = swiss.running, target(8, 44)
    first = swiss.post("/v1/lines", line, Idempotency_Key="restart").value
    running.stop()
    running.start()
    count = running.board.count()
    assert swiss.post("/v1/lines", line, Idempotency_Key="restart").value == first
    assert running.board.count() == count


def test_of_requests_at_the_same_time_with_one_key_one_is_entered(swiss: Partner) -> None:
    count, answers = swiss.running.board.count(), []
    body = [target(8, 50 + number) for number in range(20)]
    work = [
        threading.Thread(target=lambda: answers.append(swiss.post("/v1/lines", body, Idempotency_Key="same")))
        for _ in range(4)
    ]
    for thread in work:
        thread.start()
    for thread in work:
        thread.join()
    assert swiss.running.board.count() == count + 20
    values = [answer.value for answer in answers if answer.status == 200]
    assert values and all(value == values[0] for value in values)
    assert {answer.status for answer in answers} <= {200, 409}


def test_texts_with_line_feeds_are_one_line(airport: Partner) -> None:
    count = airport.running.board.count()
    evil = 'X"}\n{"cmd":"tick"}\n{"a":"'
    for text in (evil, "A\nB", "A\rB", "A\u2028B", "A\x00B"):
        body = {
            "cmd": "schedule",
            "flight": 77,
            "callsign": text,
            "type": "A320",
            "reg": "D",
            "dest": "E",
            "sobt": instant(9),
        }
        reply = airport.post("/v1/lines", {**body, "mttt": 1, "exit": 1, "exot": 1, "stand": 1}).value
        assert reply["entry"] is None and reply["outcome"]["code"] == 104
    reply = airport.post("/v1/lines", {"cmd": "show", "flight": 7, evil: evil}).value
    assert reply["outcome"] == "ok" and airport.running.board.count() == count + 1


@pytest.mark.parametrize(
    "body, kind, status",
    [
        (b"{", "application/json", 400),
        (b"", "application/json", 400),
        (b"[]", "application/json", 400),
        (b"[1]", "application/json", 400),
        (b'"x"', "application/json", 400),
        (b'{"cmd":"tick","x":1e999}', "application/json", 400),
        (b'{"cmd":"tick","x":NaN}', "application/json", 400),
        (b"[" * 100000, "application/json", 400),
        (b'{"cmd":"tick"}', "text/plain", 415),
        (b'{"cmd":"tick"}', "application/x-www-form-urlencoded", 415),
        (b"[" + b'{"cmd":"tick"},' * 100 + b'{"cmd":"tick"}]', "application/json", 400),
        (b" " * (1 << 20) + b"   ", "application/json", 413),
    ],
)
def test_what_is_no_request_is_told_and_not_sent(airport: Partner, body: bytes, kind: str, status: int) -> None:
    count = airport.running.board.count()
    answer = airport.post("/v1/lines", body, Content_Type=kind)
    assert answer.status == status and answer.words and airport.running.board.count() == count


def stream(client: Partner, wanted: int, last: int | str | None = None) -> list[tuple[str, Any]]:
    """So many events with data, each with its id."""
    link = http.client.HTTPSConnection("127.0.0.1", client.port, context=client.context, timeout=15)
    headers = {"Host": client.host, "Authorization": client.bearer or ""}
    if last is not None:
        headers["Last-Event-ID"] = str(last)
    link.request("GET", "/v1/events", headers=headers)
    answer, found, name, kind = link.getresponse(), [], "", ""
    assert answer.status == 200 and answer.headers["Content-Type"] == "text/event-stream"
    while len(found) < wanted:
        line = answer.readline().decode().rstrip("\n")
        if line.startswith("id: "):
            name = line[4:]
        elif line.startswith("event: "):
            kind = line[7:]
        elif line.startswith("data: ") and not kind:
            found.append((name, json.loads(line[6:])))
        elif not line:
            kind = ""
    link.close()
    return found


def test_events_begin_with_the_board_and_go_on_where_they_were(swiss: Partner) -> None:
    running = swiss.running
    ((name, board),) = stream(swiss, 1)
    assert name == f"{board['next']}.{board['journal']}" and board["journal"] == running.desk.exchange.mirror.journal
    assert board["next"] == running.board.count() and board["room"] == 100000
    assert [flight["callsign"] for flight in board["flights"]] == ["SWR8"]
    running.board.ask("AO", **target(7))
    running.board.ask("AO", **target(8, 30))
    running.board.ask("APT", cmd="tick")
    running.board.ask("GH", **target(8, 31))
    events = stream(swiss, 2, name)
    marks = [(mark, event["entry"]) for mark, event in events]
    assert marks[0] == (f"{board['next'] + 2}.{board['journal']}", board["next"] + 1)
    assert stream(swiss, 2, board["next"]) == events, "a number alone is of the journal that there is"
    assert all(record["callsign"] == "SWR8" for _, event in events for record in event["changed"])
    assert "DLH7" not in json.dumps(events)
    for last in (10**12, f"{board['next']}.{'0' * 32}", "x", f"1.{board['journal'][1:]}"):
        ((again, _),) = stream(swiss, 1, last)
        wanted = f"{running.board.count()}.{board['journal']}"
        assert again == wanted, "an entry that is not there, or of another journal: the board again"


# Who may what: of each partner the flights that it sees, for which it sends, and its role. Of flight 7 is DLH7, of 8 SWR8.
SEES: dict[str, set[int]] = {"swiss": {8}, "airport": {7, 8, 9}, "viewer": {7, 8, 9}, "": set()}
SENDS: dict[str, set[int]] = {"swiss": {8}, "airport": {7, 8, 9}, "viewer": set(), "": set()}


@pytest.mark.parametrize("name", ["swiss", "airport", "viewer", ""])
@pytest.mark.parametrize("flight", [7, 8, 9, 4001])
def test_the_matrix_of_rights(running: Running, name: str, flight: int) -> None:
    """Each partner at each route, for a flight of its own, of others, and one that is not there."""
    running.in_step()
    partner, count = Partner(running, name), running.board.count()
    # (who may schedule makes the one that is not there)
    flight += len(name) if flight > 4000 else 0
    is_seen, is_sent = flight in SEES[name], flight in SENDS[name]
    read = 401 if not name else 200 if is_seen else 404
    assert partner.get(f"/v1/flights/{flight}").status == read
    assert partner.get(f"/v1/flights/{flight}/history").status == read
    for path, key in (("/v1/flights", "flights"), ("/v1/alerts", "flights")):
        answer = partner.get(path)
        assert answer.status == (200 if name else 401)
        if name:
            assert {it["flight"] for it in answer.value[key]} & {7, 8, 9} <= SEES[name]
    for line in (
        target(flight),
        {"cmd": "deice", "flight": flight, "field": "eczt", "time": None},
        {"cmd": "schedule", "flight": flight, "callsign": "BAW1", "type": "A", "reg": "B", "dest": "C", "sobt": instant(1), "mttt": 1, "exit": 1, "exot": 1, "stand": 1},
        {"cmd": "show", "flight": flight},
        {"cmd": "tick"},
        {"cmd": "load", "milestone": 9, "kind": "alert", "program": "9500000000000000"},
        {"cmd": "unload", "milestone": 9, "kind": "alert"},
    ):  # fmt: skip
        answer = partner.post("/v1/lines", line)
        if not name:
            wanted = 401
        elif name == "viewer":
            wanted = 403
        elif name == "airport":
            wanted = 200
        elif line["cmd"] in ("tick", "load", "unload", "schedule"):
            # (a bound partner changes nothing for all, and gives no flight a call sign of others)
            wanted = 403
        else:
            wanted = 200 if (is_seen if line["cmd"] == "show" else is_sent) else 403
        assert answer.status == wanted, (line, answer.body)
        if answer.status == 403 and name != "viewer":
            assert "outcome" not in answer.value or answer.value["outcome"]["name"] == "not_yours"
    if name != "airport" and not is_sent:
        assert running.board.count() == count


def test_a_bound_partner_begins_flights_of_its_own_alone(swiss: Partner) -> None:
    plan = {"cmd": "report", "flight": 300, "milestone": 1, "time": instant(9), "type": "A320", "reg": "D", "dest": "E"}
    assert swiss.post("/v1/lines", {**plan, "callsign": "DLH300"}).status == 403
    assert swiss.post("/v1/lines", {**plan, "callsign": "SWR300"}).value["outcome"]["code"] == 201
    assert swiss.post("/v1/lines", {**plan, "callsign": 7}).status == 403


def test_a_board_that_is_away_is_told(swiss: Partner) -> None:
    running, lines = swiss.running, [target(8), target(8)]
    running.board.kill()
    try:
        assert until(lambda: not running.desk.exchange.mirror.is_live)
        answer = swiss.post("/v1/lines", lines, Idempotency_Key="away")
        assert answer.status == 503
        assert {reply["outcome"]["name"] for reply in answer.value["replies"]} == {"away"}
        assert swiss.get("/v1/flights").value["is_live"] is False
    finally:
        running.board.start()
    assert until(running.is_ready)
    count = running.board.count()
    assert swiss.post("/v1/lines", lines, Idempotency_Key="away").status == 200
    assert running.board.count() == count + 2, "what was not sent is sent with the same key"


# The document against the running program.
DOCUMENT = json.loads((openapi.TOP / "docs" / "schema" / "desk.json").read_text(encoding="utf-8"))


def test_the_document_is_that_of_this_program() -> None:
    assert openapi.document() == DOCUMENT


def test_each_route_is_in_the_document(running: Running) -> None:
    app = running.desk.partners.app(running.desk.watches["partners"])
    routes = {
        (route.method.lower(), route.resource.canonical)
        for route in app.router.routes()
        if route.resource and route.method != "HEAD"
    }
    assert routes == {(method, path) for path, item in DOCUMENT["paths"].items() for method in item}


def check_answer(method: str, path: str, answer: Answer) -> None:
    """An answer is one that the document tells of, and of its form."""
    responses = DOCUMENT["paths"][path][method]["responses"]
    assert str(answer.status) in responses, (method, path, answer.status, answer.body)
    content = responses[str(answer.status)]["content"]
    kind = str(answer.headers["Content-Type"]).partition(";")[0]
    assert kind in content, (path, answer.status, kind)
    if kind == "application/json":
        schema = {**content[kind]["schema"], "components": DOCUMENT["components"]}
        jsonschema.Draft202012Validator(schema).validate(answer.value)


CHANCE = random.Random(20250220)
VALUES: list[Any] = [None, True, -1, 0, 1, 7, 8, 2**64, 1.5, "", "7", "A320", "SWR8", [], {}, "\u2028", instant(5), 9]


def random_line() -> dict[str, Any]:
    """A line, of which fields are missing or of any kind."""
    line: dict[str, Any] = {
        "cmd": CHANCE.choice(["report", "schedule", "deice", "show", "alerts", "tick", "unload", "x", 7])
    }
    for name in "flight milestone time callsign type reg dest sobt mttt exit exot stand kind field".split():
        if CHANCE.random() < 0.8:
            line[name] = CHANCE.choice(VALUES)
    if CHANCE.random() < 0.6:
        line["flight"] = CHANCE.choice([7, 8, 9])
    return line


@pytest.mark.parametrize("name", ["swiss", "airport", "viewer", ""])
def test_answers_are_those_of_the_document(running: Running, name: str) -> None:
    running.in_step()
    partner = Partner(running, name)
    for _ in range(60):
        body: Any = random_line() if CHANCE.random() < 0.7 else [random_line() for _ in range(CHANCE.randint(0, 4))]
        check_answer("post", "/v1/lines", partner.post("/v1/lines", body))
    for flight in ("7", "8", "4000", "0", "x", "07", "9" * 21, "%0a"):
        for path in ("/v1/flights/{flight}", "/v1/flights/{flight}/history"):
            check_answer("get", path, partner.get(path.replace("{flight}", flight)))
    for path in ("/v1/flights", "/v1/alerts"):
        check_answer("get", path, partner.get(path))
    check_answer("get", "/v1/flights", partner.get("/v1/flights", Host="elsewhere.test"))
    check_answer("get", "/v1/flights", partner.get("/v1/flights", Origin="https://elsewhere.test"))
