"""The matrix of rights: each person at each route, for a flight of his own, one that he only sees, and one of others."""
from typing import Any

import pytest
from harness import Answer, Client, Running

# Who has which role, which flights he sees and for which he sends; DLH7 is 7, SWR8 at stand 41 is 8, BAW9 is 9.
PEOPLE: dict[str, tuple[str, set[int], set[int]]] = {
    "anna": ("GH", {7, 8, 9}, {7, 8, 9}),
    "lena": ("AO", {7, 8}, {7}),
    "otto": ("ATC", {7, 8, 9}, {7, 8, 9}),
    "paula": ("APT", {7, 8, 9}, {7, 8, 9}),
    "dora": ("DIC", {7, 8, 9}, {7, 8, 9}),
    "vera": ("none", {7, 8, 9}, set()),
    "": ("", set(), set()),
}
# The owners of milestones, by docs/CONNECT.md.
OWNED = {"NM": {1, 2, 3}, "ATC": {4, 5, 6, 10, 13, 14, 15, 16}, "APT": {7, 15}, "AO": {9, 11, 12}, "GH": {8, 9, 11, 12}}
# What is the same for everybody, and for who has signed in, whatever the flight.
OPEN = {"/sign-in": 200, "/words.js": 200, "/desk.css": 200, "/desk.js": 200, "/icon.svg": 200, "/nothing": 404}
OWN = ("/me", "/board")
MISSING = 4000


def client_of(running: Running, name: str) -> Client:
    client = Client(running)
    return client.sign_in(name) if name else client


def entered(client: Client, flight: int, **command: Any) -> Answer:
    return client.post("/enter", {"flight": str(flight), "time": "now", "seen": 10**9, **command})


@pytest.mark.parametrize("name", PEOPLE)
def test_each_person_at_each_route(running: Running, name: str) -> None:
    client, (_, seen, _) = client_of(running, name), PEOPLE[name]
    for path, status in OPEN.items():
        assert client.get(path).status == status, path
    for path in OWN:
        assert client.get(path).status == (200 if name else 401), path
    assert client.get("/").status == (200 if name else 303)
    running.in_step()
    if name:
        shown = {int(flight["flight"]) for flight in client.get("/board").value["flights"]}
        assert shown & {7, 8, 9} == seen
    for flight in (7, 8, 9, MISSING):
        wanted = 401 if not name else 200 if flight in seen else 404
        assert client.get(f"/flights/{flight}/history").status == wanted, flight
    assert client.post("/sign-out", {}).status == (200 if name else 401)
    assert client.get("/me").status == 401


@pytest.mark.parametrize("name", PEOPLE)
@pytest.mark.parametrize("flight", [7, 8, 9, MISSING])
def test_each_person_enters_each_thing(running: Running, name: str, flight: int) -> None:
    client, (role, seen, sent) = client_of(running, name), PEOPLE[name]
    running.in_step()
    count = running.board.count()
    # (of a flight that is not there nobody is told so but who sees all)
    may = flight in sent or (flight == MISSING and len(sent) == 3)
    for milestone in range(2, 17):
        answer = entered(client, flight, cmd="report", milestone=milestone)
        assert answer.status == (401 if not name else 200 if may else 403), (milestone, answer.body)
        if answer.status == 200 and flight != MISSING:
            assert (answer.value.get("code") == 201) == (milestone not in OWNED.get(role, set())), milestone
    for command in (
        {"cmd": "deice", "field": "eczt"},
        {"cmd": "schedule", "callsign": "BAW1", "type": "A", "reg": "B", "dest": "C", "mttt": 1, "exit": 1, "exot": 1, "stand": 1},
    ):  # fmt: skip
        if command["cmd"] == "schedule" and flight == MISSING and role == "APT":
            continue
        answer = entered(client, flight, **command)
        is_foreign = command["cmd"] == "schedule" and name == "lena"
        assert answer.status == (401 if not name else 200 if may and not is_foreign else 403), answer.body
        if answer.status == 200 and role not in ("APT", "DIC"):
            assert answer.value["code"] == 201
    assert may or running.board.count() == count
    assert seen >= sent


def test_the_matrix_has_each_route(running: Running) -> None:
    app = running.desk.people.app(running.desk.watches["people"])
    routes = {(route.method, route.resource.canonical) for route in app.router.routes() if route.resource}
    known = {("GET", path) for path in ("/", "/{name}", "/words.js", "/sign-in", "/me", "/board", "/events")}
    known |= {("GET", "/flights/{flight}/history")} | {("POST", path) for path in ("/sign-in", "/sign-out", "/enter")}
    assert {it for it in routes if it[0] != "HEAD"} == known
