"""Partners of lines that are bound to some flights: each line is judged before the board has it."""
import json
import ssl
from typing import Any

import pytest
from harness import Client, Running, instant, until
from test_front import asked, connected, events

NOT_YOURS = "bad 601"
# By role, and the flights that each sees and for which it sends: 7 is DLH7, 8 is SWR8 at stand 41, 9 is BAW9.
PARTNERS: dict[str, tuple[set[int], set[int]]] = {"bound": ({7, 8}, {7}), "bound-airport": ({8}, {8})}
MISSING = 4100


def replies(link: ssl.SSLSocket, count: int) -> list[str]:
    """So many replies."""
    data = b""
    while data.count(b"\n") < count:
        piece = link.recv(1 << 16)
        assert piece, data
        data += piece
    return data.decode().splitlines()


def schedule(flight: int, callsign: str, stand: int = 41) -> dict[str, Any]:
    texts = {"callsign": callsign, "type": "A320", "reg": "DAIBC", "dest": "EGLL"}
    return {"cmd": "schedule", "flight": flight, **texts, "sobt": instant(60), "mttt": 40, "exit": 5, "exot": 10, "stand": stand}  # fmt: skip


# What changes one flight, what asks for one, and what changes the board for all.
def lines_for(flight: int) -> dict[str, dict[str, Any]]:
    text = {"callsign": "BAW1", "type": "A", "reg": "B", "dest": "C"}
    return {
        "report": {"cmd": "report", "flight": flight, "milestone": 9, "time": instant(40)},
        "plan": {"cmd": "report", "flight": flight, "milestone": 1, "time": instant(40), **text},
        "deice": {"cmd": "deice", "flight": flight, "field": "eczt", "time": None},
        "schedule": schedule(flight, "BAW1"),
        "show": {"cmd": "show", "flight": flight},
        "alerts": {"cmd": "alerts"},
        "tick": {"cmd": "tick"},
        "load": {"cmd": "load", "milestone": 9, "kind": "alert", "program": "9500000000000000"},
        "unload": {"cmd": "unload", "milestone": 9, "kind": "alert"},
        "migrate": {"cmd": "migrate", "layout": 2},
    }


@pytest.mark.parametrize("name", PARTNERS)
@pytest.mark.parametrize("flight", [7, 8, 9, MISSING])
def test_the_matrix_of_rights(running: Running, name: str, flight: int) -> None:
    """Each partner with each command, for a flight of its own, one that it only sees, of others, and none."""
    seen, sent = PARTNERS[name]
    running.in_step()
    with connected(running, name) as link:
        for kind, line in lines_for(flight).items():
            count = running.board.count()
            reply = asked(link, line)
            # (no flight of its own gets the call sign of another)
            may = {"show": flight in seen, "alerts": True, "report": flight in sent, "deice": flight in sent}
            if may.get(kind, False):
                assert reply != NOT_YOURS and running.board.count() == count + 1, (kind, reply)
            else:
                assert reply == NOT_YOURS and running.board.count() == count, (kind, reply)


def test_alerts_of_others_are_not_told(running: Running) -> None:
    running.board.ask("APT", cmd="tick")
    for number, callsign in ((31, "DLH31"), (32, "BAW32")):
        running.board.ask("APT", **schedule(number, callsign))
        # (its type is another than the schedule's)
        plan = {"callsign": callsign, "type": "B738", "reg": "DAIBC", "dest": "EGLL", "time": instant(60)}
        running.board.ask("NM", cmd="report", flight=number, milestone=1, **plan)
    whole = running.board.ask("APT", cmd="alerts")
    running.in_step()
    with connected(running, "bound") as link:
        reply = asked(link, {"cmd": "alerts"})
    assert "31:" in whole and "32:" in whole and "31:" in reply and "32:" not in reply
    assert reply.split()[0] == "alerts" and int(reply.split()[1]) == int(whole.split()[1]) + 1
    with connected(running, "bound-airport") as link:
        told = asked(link, {"cmd": "alerts"}).split()
        assert "31:" not in told[2] and "32:" not in told[2]


def test_lines_that_come_together_are_answered_in_order(running: Running) -> None:
    lines = [
        schedule(51, "SWR51"),
        {"cmd": "show", "flight": 51},
        {"cmd": "show", "flight": 9},
        schedule(52, "SWR52", 12),
        schedule(53, "SWR53", 49),
        {"cmd": "report", "flight": 53, "milestone": 9, "time": instant(30)},
    ]
    with connected(running, "bound-airport") as link:
        link.sendall(b"".join(json.dumps(line).encode() + b"\n" for line in lines))
        told = replies(link, len(lines))
    kinds = [" ".join(reply.split()[:1] if reply[:3] != "bad" else [reply]) for reply in told]
    assert kinds == ["ok", "rec", NOT_YOURS, NOT_YOURS, "ok", "no"], told
    assert told[-1].endswith(" 201"), "its role does not own a TOBT, as the board says"


@pytest.mark.parametrize(
    "line, reply",
    [
        (b'{"cmd":"report"', "bad 101"),
        (b"\xff{}", "bad 101"),
        (b'{"cmd":"report","flight":7,"milestone":9,"time":NaN}', "bad 101"),
        (b"[" * 100_000, "bad 105"),
        (b"[" * 60_000, "bad 101"),
        (b"{" + b" " * 70_001, "bad 105"),
        (b"[7]", "bad 102"),
        (b'{"cmd":"dance"}', "bad 102"),
        (b'{"cmd":"show","flight":"7"}', "bad 103"),
        (b'{"cmd":"show","flight":7.0}', "bad 103"),
        (b'{"cmd":"show","flight":true}', "bad 103"),
        (b'{"cmd":"show","flight":0}', NOT_YOURS),
        (b'{"cmd":"report","flight":7,"milestone":17,"time":null}', "bad 104"),
        (b'{"cmd":"show","flight":9}', NOT_YOURS),
        (b'{"cmd":"show","flight":7,"flight":9}', NOT_YOURS),
        (b'{"cmd":"show","\\u0066light":9}', NOT_YOURS),
        (b'{"cmd":"report","flight":9,"milestone":9,"time":null,"x":"\\n{}"}', NOT_YOURS),
    ],
)
def test_what_is_judged_is_what_is_sent(running: Running, line: bytes, reply: str) -> None:
    """A line that two readers may read in two ways, and lines that are none: nothing for a flight of others is entered."""
    running.in_step()
    count = running.board.count()
    with connected(running, "bound") as link:
        link.sendall(line + b"\n")
        assert replies(link, 1) == [reply]
        assert asked(link, {"cmd": "show", "flight": 7}).startswith("rec ")
    assert running.board.count() == count + 1


def test_of_a_field_that_stands_twice_the_last_one_is_judged_and_sent(running: Running) -> None:
    running.in_step()
    with connected(running, "bound") as link:
        link.sendall(b'{"cmd":"show","flight":9,"flight":7}\n')
        (reply,) = replies(link, 1)
    assert running.board.entries()[int(reply.split()[1])]["command"] == {"cmd": "show", "flight": 7}


def test_a_part_of_a_line_is_not_entered(running: Running) -> None:
    running.in_step()
    count = running.board.count()
    with connected(running, "bound") as link:
        link.sendall(b'{"cmd":"show","flight":7}')
    assert until(lambda: events(running, "lines: gone")[-1]["partner"] == "bound")
    assert running.board.count() == count


def test_a_board_that_is_away_ends_the_connection_and_nothing_is_sent_later(running: Running) -> None:
    running.in_step()
    with connected(running, "bound") as link:
        assert asked(link, {"cmd": "show", "flight": 7}).startswith("rec ")
        running.board.kill()
        try:
            assert until(lambda: not running.desk.exchange.mirror.is_live)
            try:
                assert asked(link, {"cmd": "show", "flight": 7}) == ""
            except OSError:
                pass
        finally:
            running.board.start()
    assert until(running.is_ready)
    running.in_step()
    with connected(running, "bound") as link:
        assert asked(link, {"cmd": "show", "flight": 7}).startswith("rec ")


def test_what_is_not_sent_is_in_the_log_with_its_partner(running: Running) -> None:
    running.in_step()
    with connected(running, "bound") as link:
        assert asked(link, {"cmd": "report", "flight": 9, "milestone": 9, "time": instant(9)}) == NOT_YOURS
    told = events(running, "not sent")[-1]
    assert (told["who"], told["client"], told["why"]) == ("bound", "127.0.0.1", "not a flight of yours")


def test_the_entries_of_a_bound_partner_bear_its_name(running: Running) -> None:
    running.in_step()
    with connected(running, "bound") as link:
        reply = asked(link, {"cmd": "report", "flight": 7, "milestone": 9, "time": instant(50)})
        entry = running.board.entries()[int(reply.split()[1])]
    assert until(lambda: running.desk.exchange.partner_sessions.get(entry["session"]) == "bound")
    told = Client(running).sign_in("anna").get("/flights/7/history").value["events"]
    assert (told[-1]["who"], told[-1]["what"]) == ("bound", "TOBT")
