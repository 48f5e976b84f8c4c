"""Who did what: lines tied to entries, over crashes of the desk, of the board, and a board that does not answer."""
import asyncio
import contextlib
import json
import random
import signal
import socket
import subprocess
import sys
import threading
import time
from collections.abc import Iterator
from pathlib import Path

import pytest
from harness import PASSWORD, PROGRAM, TOP, Board, Certificates, Client, Running, instant, listens, until

from carry import carried

from kevotranjy_desk import board_line
from kevotranjy_desk.app import Desk
from kevotranjy_desk.exchange import AWAY
from kevotranjy_desk.ledger import Ledger

DESK = TOP / "desk" / "desk"


@pytest.fixture(name="own")
def _own(folder: Path, certificates: Certificates) -> Iterator[Running]:
    """A desk and a board for one test alone."""
    if not PROGRAM.is_file():
        pytest.skip(f"there is no program at {PROGRAM}, name it by ACDM")
    board = Board(folder)
    board.flight(7)
    running = Running(folder, certificates, board)
    try:
        yield running
    finally:
        running.stop()
        board.kill()


def logged(running: Running, *words: str) -> list[dict[str, object]]:
    """What `desk log` prints."""
    command = [sys.executable, str(DESK), "log", "--settings", str(running.file), "--json", *words]
    done = subprocess.run(command, capture_output=True, text=True, check=True)
    return [json.loads(line) for line in done.stdout.splitlines()]


def check_all_explained(running: Running, of_another: int = 0) -> None:
    """Each entry of a session of the desk has one line of the log, with the same command and outcome.

    So many lines of people are those of another journal, which come first.
    """
    told = [line for line in logged(running) if line["entry"] is not None]
    if of_another:
        places = [place for place, line in enumerate(told) if line["kind"] == "person"]
        told = told[places[of_another - 1] + 1 :]
    lines = {line["entry"]: line for line in told}
    journal, ledger = running.desk.exchange.mirror.journal, Ledger(running.settings.data, None)
    first = {session: start for session, (_, start) in ledger.sessions(journal).items()}
    assert ledger.unexplained(journal) == []
    ledger.close()
    for entry in running.board.entries():
        if entry["entry"] >= first.get(entry["session"], 10**9):
            line = lines.pop(entry["entry"])
            command = line["command"]
            assert isinstance(command, dict) and command["cmd"] == entry["command"]["cmd"], entry
    assert not lines, "the log has entries that the board has not"


def test_a_line_is_tied_to_person_address_and_moment(own: Running) -> None:
    anna = Client(own).sign_in("anna")
    answer = anna.enter(7, 9, "now")
    (line,) = logged(own, "--flight", "7")
    assert line["who"] == "anna" and line["kind"] == "person" and line["client"] == "127.0.0.1"
    assert line["entry"] == answer.value["entry"] and line["address"] == "GH" and line["state"] == "replied"
    own.stop()
    text = (own.folder / "desk.log").read_text(encoding="ascii")
    events = [json.loads(row) for row in text.splitlines()]
    assert any(event["event"] == "line" and event.get("entry") == line["entry"] for event in events)
    assert PASSWORD not in text and anna.token not in text and anna.cookie.partition("=")[2] not in text


def test_a_board_that_is_away_is_told_and_nothing_is_sent_later(own: Running) -> None:
    anna = Client(own).sign_in("anna")
    count = own.board.count()
    own.board.kill()
    assert until(lambda: not own.desk.exchange.mirror.is_live)
    body = {"cmd": "report", "flight": "7", "milestone": 9, "time": "now", "seen": anna.last(7)}
    answer = anna.post("/enter", body)
    assert (answer.status, answer.words) == (503, AWAY) and not anna.get("/board").value["is_live"]
    own.board.start()
    assert until(own.is_ready)
    own.in_step()
    cmds = [entry["command"]["cmd"] for entry in own.board.entries()[count:]]
    assert set(cmds) == {"show"}, "the desk's own questions alone"
    assert anna.enter(7, 9, "now").value["is_accepted"]
    check_all_explained(own)


def test_another_journal_is_another_board(own: Running) -> None:
    anna = Client(own).sign_in("anna")
    assert anna.enter(7, 9, "now").value["is_accepted"]
    own.board.kill()
    own.board.start("next.journal")
    assert until(lambda: own.desk.exchange.mirror.flight(7) is None)
    own.board.flight(8)
    assert until(own.is_ready)
    assert anna.enter(8, 9, "now").value["is_accepted"]
    check_all_explained_of_journal(own, 8)


def test_a_journal_that_is_carried_over_is_another_board(own: Running, monkeypatch: pytest.MonkeyPatch) -> None:
    """The next day begins with the same flights: what was entered before is not taken for what is entered now."""
    monkeypatch.setenv("ACDM", str(PROGRAM))
    anna = Client(own).sign_in("anna")
    before = [anna.enter(7, 9, "now").value["entry"] for _ in range(3)]
    journal = own.desk.exchange.mirror.journal
    own.board.kill()
    lines = "".join(line + "\n" for line in carried(own.folder / "day.journal", False))
    command = [str(PROGRAM), "run", "--keep", str(own.folder / "next.journal")]
    replies = subprocess.run(command, input=lines, capture_output=True, text=True, check=True).stdout
    assert replies.count("\n") == lines.count("\n")
    own.board.start("next.journal")
    assert until(lambda: own.desk.exchange.mirror.journal not in ("", journal))
    assert until(own.is_ready)
    answer = anna.enter(7, 9, "now")
    assert answer.value["is_accepted"], answer.body
    check_all_explained(own, len(before))
    check_all_explained_of_journal(own, 7)


def check_all_explained_of_journal(running: Running, flight: int) -> None:
    """The last line of a flight is tied to the entry that the board has now."""
    line = logged(running, "--flight", str(flight))[-1]
    entry = line["entry"]
    assert isinstance(entry, int) and running.board.entries()[entry]["command"]["flight"] == flight


def test_a_line_without_a_reply_is_found_in_the_feed(own: Running, monkeypatch: pytest.MonkeyPatch) -> None:
    monkeypatch.setattr(board_line, "ANSWER", 0.5)
    anna = Client(own).sign_in("anna")
    own.in_step()
    seen = anna.last(7)
    assert own.board.process
    own.board.process.send_signal(signal.SIGSTOP)
    body = {"cmd": "report", "flight": "7", "milestone": 9, "time": "now", "seen": seen}
    answer = anna.post("/enter", body)
    assert answer.status == 504 and "may have been entered" in answer.words
    assert anna.post("/enter", body).status == 503, "nothing is sent behind it"
    own.board.process.send_signal(signal.SIGCONT)
    assert until(own.is_ready)
    line = logged(own, "--flight", "7")[-1]
    assert line["state"] in ("from the feed", "replied") and isinstance(line["entry"], int)
    assert own.board.entries()[line["entry"]]["command"]["milestone"] == 9
    check_all_explained(own)


def test_an_entry_of_another_at_the_desks_address_is_told(own: Running, monkeypatch: pytest.MonkeyPatch) -> None:
    from harness import Caller  # pylint: disable=import-outside-toplevel

    from kevotranjy_desk import exchange  # pylint: disable=import-outside-toplevel

    monkeypatch.setattr(exchange, "LOOK", 0.2)
    intruder = Caller(own.board.ports["GH"])
    reply = intruder.ask({"cmd": "report", "flight": 7, "milestone": 9, "time": instant(20)})
    intruder.close()
    own.stop()
    own.start()
    entry = int(reply.split()[1])
    ledger = Ledger(own.settings.data, None)
    assert until(lambda: ledger.unexplained(own.desk.exchange.mirror.journal) == [entry])
    ledger.close()
    assert logged(own, "--flight", "7") == []
    assert "an entry that no line explains" in (own.folder / "desk.log").read_text(encoding="ascii")


class Process:
    """A desk as a program of its own, which can be killed."""

    def __init__(self, running: Running) -> None:
        self.running = running
        self.process: subprocess.Popen[str] | None = None

    def start(self) -> None:
        self.process = subprocess.Popen(  # pylint: disable=consider-using-with
            [sys.executable, str(DESK), "run", "--settings", str(self.running.file)],
            stdout=subprocess.DEVNULL, stderr=subprocess.DEVNULL, text=True,
        )  # fmt: skip
        assert until(lambda: listens(self.running.listen))

    def kill(self) -> None:
        assert self.process
        self.process.kill()
        self.process.wait()


def test_kill_9_leaves_no_entry_that_the_log_can_not_explain(own: Running) -> None:
    for number in range(10, 26):
        own.board.flight(number)
    own.stop()
    desk, chance = Process(own), random.Random(20250220)
    for _ in range(4):
        desk.start()
        client = Client(own)
        assert until(
            lambda client=client: client.post("/sign-in", {"name": "anna", "password": PASSWORD}).status == 200
        )
        client.token = client.get("/me").value["token"]
        stop = threading.Event()

        def work(first: int, client: Client = client, stop: threading.Event = stop) -> None:
            number = first
            while not stop.is_set():
                number = 10 + (number - 9) % 16
                body = {"cmd": "report", "flight": str(number), "milestone": 9, "time": "now", "seen": 10**6}
                try:
                    client.post("/enter", body)
                except OSError:
                    return

        threads = [threading.Thread(target=work, args=(10 + 4 * place,)) for place in range(4)]
        for thread in threads:
            thread.start()
        stop.wait(chance.uniform(0.4, 1.2))
        desk.kill()
        stop.set()
        for thread in threads:
            thread.join()
    own.start()
    own.in_step()
    check_all_explained(own)
    states = {str(line["state"]) for line in logged(own)}
    assert "sent" not in states and "replied" in states


def test_a_board_that_is_killed_gets_each_line_once_at_most(own: Running) -> None:
    for number in range(10, 14):
        own.board.flight(number)
    own.in_step()
    chance, stop = random.Random(7), threading.Event()
    told: list[tuple[int, int | None]] = []

    def work(flight: int) -> None:
        client = Client(own).sign_in("anna")
        while not stop.is_set():
            body = {"cmd": "report", "flight": str(flight), "milestone": 9, "time": "now", "seen": 10**6}
            answer = client.post("/enter", body)
            told.append((answer.status, answer.value.get("entry")))
            stop.wait(0.01 if answer.status == 200 else 0.1)

    threads = [threading.Thread(target=work, args=(flight,)) for flight in range(10, 14)]
    for thread in threads:
        thread.start()
    for _ in range(4):
        stop.wait(chance.uniform(0.3, 0.8))
        own.board.kill()
        stop.wait(chance.uniform(0.0, 0.5))
        own.board.start()
        assert until(own.is_ready)
    stop.set()
    for thread in threads:
        thread.join()
    assert until(own.is_ready)
    own.in_step()
    check_all_explained(own)
    entered = [entry for status, entry in told if status == 200]
    assert len(entered) == len(set(entered)) > 20 and {status for status, _ in told} <= {200, 503, 504}
    lines = [line for line in logged(own) if line["who"] == "anna" and line["entry"] is not None]
    # (those beyond the replies are of lines that were answered as unknown, and were found later)
    assert len(entered) <= len(lines) <= len(entered) + sum(status == 504 for status, _ in told)


def test_it_ends_at_whatever_moment_it_is_told_to(own: Running) -> None:
    """Also while it reads the feed and greets the board: each of its tasks has to take its cancellation."""
    for number in range(10, 40):
        own.board.flight(number)
    own.stop()

    async def begin_and_end(seconds: float) -> None:
        desk = Desk(own.settings)
        await desk.start()
        await asyncio.sleep(seconds)
        ending = asyncio.create_task(desk.stop())
        done, _ = await asyncio.wait([ending], timeout=20)
        assert done, f"it does not end {seconds} s after its start"

    for number in range(12):
        asyncio.run(begin_and_end(number * 0.005))


def test_it_ends_while_the_board_does_not_answer(own: Running) -> None:
    assert own.board.process
    anna = Client(own).sign_in("anna")
    own.in_step()
    body = {"cmd": "report", "flight": "7", "milestone": 9, "time": "now", "seen": anna.last(7)}
    own.board.process.send_signal(signal.SIGSTOP)

    def enter() -> None:
        # (whether it is answered is not said: its line is looked for at the next start)
        with contextlib.suppress(ConnectionError):
            anna.post("/enter", body)

    waiting = threading.Thread(target=enter)
    waiting.start()
    ledger = Ledger(own.settings.data, None)
    assert until(lambda: any(it.who == "anna" for it in ledger.open_lines(own.desk.exchange.mirror.journal)))
    ledger.close()
    begun = time.monotonic()
    own.stop()
    assert not own.thread.is_alive() and time.monotonic() - begun < 15
    own.board.process.send_signal(signal.SIGCONT)
    waiting.join()
    own.start()
    own.in_step()
    check_all_explained(own)


def test_a_connection_that_is_kept_ends_where_the_desk_begins_anew(own: Running) -> None:
    """No request is answered by the desk that has ended."""
    desk = Process(own)
    own.stop()
    desk.start()
    context, link = own.certificates.context(), None
    try:
        raw = socket.create_connection(("127.0.0.1", own.listen), timeout=20)
        link = context.wrap_socket(raw, server_hostname="localhost")
        request = f"GET /sign-in HTTP/1.1\r\nHost: localhost:{own.listen}\r\n\r\n".encode()
        link.sendall(request)
        assert link.recv(1 << 16).startswith(b"HTTP/1.1 200 ")
        assert desk.process
        desk.process.send_signal(signal.SIGHUP)
        rest = link.recv(1 << 16)
        while rest:
            rest = link.recv(1 << 16)
    except ConnectionError:
        pass
    finally:
        if link:
            link.close()
        desk.kill()


def test_sighup_reads_the_settings_again(own: Running) -> None:
    own.stop()
    desk, good = Process(own), own.file.read_text(encoding="utf-8")
    desk.start()
    try:
        anna = Client(own)
        assert until(lambda: anna.post("/sign-in", {"name": "anna", "password": PASSWORD}).status == 200)
        own.file.write_text(good.replace('role = "GH"', 'role = "XX"', 1), encoding="utf-8")
        assert desk.process
        desk.process.send_signal(signal.SIGHUP)
        assert not until(lambda: anna.get("/me").value["role"] != "GH", 1), "faulty settings change nothing"
        own.file.write_text(good.replace('role = "GH"', 'role = "AO"', 1), encoding="utf-8")
        desk.process.send_signal(signal.SIGHUP)

        def role() -> str:
            try:
                return str(anna.get("/me").value["role"])
            except OSError:
                return ""

        assert until(lambda: role() == "AO"), "the session goes on, with the new role"
        desk.process.send_signal(signal.SIGTERM)
        assert desk.process.wait(20) == 0
    finally:
        desk.kill()
