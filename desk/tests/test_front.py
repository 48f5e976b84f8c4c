"""Partners of lines over TLS: who is let in, who is refused and logged, and bytes that pass unchanged."""
import json
import random
import select
import socket
import ssl
import subprocess
import sys
import threading
import time
from collections.abc import Iterator
from contextlib import contextmanager
from pathlib import Path

import pytest
from harness import LIMIT, TOP, Board, Certificates, Client, Running, free_ports, instant, until


def events(running: Running, name: str) -> list[dict[str, object]]:
    """The events of the log with this name."""
    text = (running.folder / "desk.log").read_text(encoding="ascii")
    return [event for event in map(json.loads, text.splitlines()) if event["event"] == name]


def connected(running: Running, certificate: str) -> ssl.SSLSocket:
    """A connection of a partner's client."""
    stream = socket.create_connection(("127.0.0.1", running.lines_port), timeout=LIMIT)
    return running.certificates.context(certificate).wrap_socket(stream, server_hostname="localhost")


def asked(link: ssl.SSLSocket, line: dict[str, object]) -> str:
    link.sendall(json.dumps(line).encode() + b"\n")
    data = b""
    while not data.endswith(b"\n"):
        piece = link.recv(1 << 16)
        if not piece:
            return data.decode()
        data += piece
    return data.decode().strip()


def test_a_partner_with_its_certificate_is_served(running: Running) -> None:
    with connected(running, "tower") as link:
        reply = asked(link, {"cmd": "report", "flight": 7, "milestone": 6, "time": instant(-5)})
        assert reply.startswith("ok ")
        entry = running.board.entries()[int(reply.split()[1])]
        assert entry["role"] == "ATC"
    running.in_step()
    assert until(lambda: running.desk.exchange.partner_sessions.get(entry["session"]) == "tower")
    told = Client(running).sign_in("anna").get("/flights/7/history").value["events"]
    assert (told[-1]["who"], told[-1]["what"]) == ("tower", "landed")
    assert until(lambda: events(running, "lines: here")[-1]["partner"] == "tower")
    assert until(lambda: events(running, "lines: gone")[-1]["partner"] == "tower")


@pytest.mark.parametrize(
    "certificate, why",
    [
        ("", "PEER_DID_NOT_RETURN_A_CERTIFICATE"),
        ("stranger", "unable to get local issuer certificate"),
        ("expired", "certificate has expired"),
        ("revoked", "certificate revoked"),
        ("nobody", "nobody's certificate"),
        ("swiss", "nobody's certificate"),
    ],
)
def test_who_has_no_certificate_of_a_partner_is_refused_before_a_byte(
    running: Running, certificate: str, why: str
) -> None:
    count, before = running.board.count(), len(events(running, "lines: refused"))
    try:
        with connected(running, certificate) as link:
            assert asked(link, {"cmd": "tick"}) == ""
    except (ssl.SSLError, ConnectionError):
        pass
    assert until(lambda: len(events(running, "lines: refused")) > before)
    assert why.lower() in str(events(running, "lines: refused")[-1]["why"]).lower()
    assert running.board.count() == count


def test_two_clients_of_a_partner_have_a_session_each(running: Running) -> None:
    with connected(running, "handler") as one, connected(running, "handler") as other:
        sessions = []
        for link in (one, other, one, other):
            reply = asked(link, {"cmd": "show", "flight": 7})
            sessions.append(running.board.entries()[int(reply.split()[1])]["session"])
        assert sessions[0] == sessions[2] != sessions[1] == sessions[3]
        with connected(running, "handler") as third:
            assert asked(third, {"cmd": "show", "flight": 7}).startswith("rec ")
            assert until(lambda: asked_or_gone(one) == "")
            assert asked(other, {"cmd": "show", "flight": 7}).startswith("rec "), "the oldest makes room, not both"


def asked_or_gone(link: ssl.SSLSocket) -> str:
    try:
        return asked(link, {"cmd": "show", "flight": 7})
    except OSError:
        return ""


def test_a_client_that_says_nothing_is_let_go(running: Running) -> None:
    with socket.create_connection(("127.0.0.1", running.lines_port), timeout=LIMIT) as link:
        begun = time.monotonic()
        assert link.recv(10) == b"" and 4 < time.monotonic() - begun < 10


def test_a_board_that_is_away_is_no_partner_and_comes_back(running: Running) -> None:
    running.board.kill()
    with connected(running, "tower") as link:
        try:
            assert asked(link, {"cmd": "show", "flight": 7}) == ""
        except OSError:
            pass
    running.board.start()
    with connected(running, "tower") as link:
        assert asked(link, {"cmd": "show", "flight": 7}).startswith("rec ")
    assert until(running.is_ready)


WANTS = (ssl.SSLWantReadError, ssl.SSLWantWriteError, BlockingIOError)
FRONT = """[desk]
listen = "127.0.0.1:1"
names = ["localhost"]
certificate = "{folder}/desk.pem"
key = "{folder}/desk.key"
data = "desk.sqlite"
log = "desk.log"
[board]
changes = "127.0.0.1:1"
[partners]
lines = "{host}:{port}"
authorities = "{folder}/partners.pem"
[[partner]]
name = "tower"
role = "ATC"
see = "all"
send = "all"
lines = ["{host}:{board}"]
certificate = "{print}"
"""


def front_command(certificates: Certificates, folder: Path, host: str, port: int, board: int) -> list[str]:
    """What begins the process in front alone, at a port of a host, before another one."""
    file = folder / "front.toml"
    names = {"folder": certificates.folder, "host": host, "port": port, "board": board}
    file.write_text(FRONT.format(**names, print=certificates.prints["tower"]), encoding="utf-8")
    return [sys.executable, str(TOP / "desk" / "desk"), "front", str(file)]


@contextmanager
def front_of(certificates: Certificates, folder: Path, board: int, host: str = "127.0.0.1") -> Iterator[int]:
    """The process in front alone, before an address: its port."""
    (port,) = free_ports(1)
    command = front_command(certificates, folder, host, port, board)
    with subprocess.Popen(command, stdin=subprocess.PIPE, stdout=subprocess.PIPE) as process:
        assert process.stdout and process.stdin and b"listens" in process.stdout.readline()
        try:
            yield port
        finally:
            process.stdin.close()
            assert process.wait(LIMIT) == 0, "it ends with its standard input"


def sent_and_read(link: socket.socket, data: bytes, chance: random.Random) -> bytes:
    """All that comes back for data that is sent in pieces by chance, and read at the same time: by one thread, since
    a connection of TLS is not for two."""
    link.setblocking(False)
    found, wanted, place, piece = [], data.count(b"\n"), 0, 1
    end = time.monotonic() + 300
    while wanted > 0:
        assert time.monotonic() < end, f"{wanted} replies are missing"
        is_sending = place < len(data)
        select.select([link], [link] if is_sending else [], [], 1 if not is_sending else 0.01)
        try:
            if is_sending:
                place += link.send(data[place : place + piece])
                piece = chance.choice([1, 100, 5000, 200000])
        except WANTS:
            pass
        try:
            while True:
                come = link.recv(1 << 18)
                assert come, found[-1:]
                found.append(come)
                wanted -= come.count(b"\n")
        except WANTS:
            pass
    return b"".join(found)


def lines_of_day(flights: int) -> bytes:
    """The lines of a day, and some that are none."""
    command = [sys.executable, str(TOP / "bench/traffic/generate.py"), "--flights", str(flights)]
    day = subprocess.run(command, capture_output=True, check=True).stdout.splitlines()
    lines = b"".join(line.split(b" ", 3)[3] + b"\n" for line in day)
    return lines + b'{"cmd":"x"}\n' + b'{"\xff\xfe\n' + b"{" + b" " * 70001 + b"\n{}\r\n"


@pytest.mark.parametrize("flights", [40, pytest.param(4000, marks=pytest.mark.slow)])
def test_a_day_passes_byte_for_byte(certificates: Certificates, folder: Path, flights: int) -> None:
    """A day's lines, straight to a board and through the front to another: the same replies, the same journals."""
    data, chance, told, journals = lines_of_day(flights), random.Random(1), [], []
    for name in ("straight", "through"):
        (folder / name).mkdir()
        board = Board(folder / name)
        try:
            with front_of(certificates, folder, board.ports["ATC"]) as port:
                link = socket.create_connection(("127.0.0.1", board.ports["ATC"] if name == "straight" else port), 60)
                if name == "through":
                    link = certificates.context("tower").wrap_socket(link, server_hostname="localhost")
                with link:
                    told.append(sent_and_read(link, data, chance))
            lines = (folder / name / "day.journal").read_bytes().splitlines()
            # (the third word is the minute of the machine's clock)
            journals.append([line.split(b" ")[:2] + line.split(b" ")[3:] for line in lines])
        finally:
            board.kill()
    assert told[0] == told[1] and told[0].count(b"\n") == data.count(b"\n")
    assert journals[0] == journals[1] and len(journals[0]) > 10 * flights


def test_any_bytes_pass_both_ways(certificates: Certificates, folder: Path) -> None:
    """What is no line of the board's: bytes by chance, to the end of either side."""
    data = random.Random(2).randbytes(3_000_000)
    taken: list[bytes] = []
    with socket.create_server(("127.0.0.1", 0)) as listener:

        def serve() -> None:
            stream = listener.accept()[0]
            with stream:
                while len(b"".join(taken)) < len(data):
                    taken.append(stream.recv(1 << 16))
                stream.sendall(data[::-1])

        server = threading.Thread(target=serve)
        server.start()
        with front_of(certificates, folder, listener.getsockname()[1]) as port:
            link = socket.create_connection(("127.0.0.1", port), 60)
            with certificates.context("tower").wrap_socket(link, server_hostname="localhost") as partner:
                partner.sendall(data)
                found = b""
                while piece := partner.recv(1 << 16):
                    found += piece
        server.join()
    assert b"".join(taken) == data and found == data[::-1]


def test_it_listens_and_connects_by_ipv6(certificates: Certificates, folder: Path) -> None:
    try:
        listener = socket.create_server(("::1", 0), family=socket.AF_INET6)
    except OSError:
        pytest.skip("there is no IPv6 here")
    listener.settimeout(20)
    with listener, front_of(certificates, folder, listener.getsockname()[1], "[::1]") as port:
        link = socket.create_connection(("::1", port), 60)
        with certificates.context("tower").wrap_socket(link, server_hostname="localhost") as partner:
            partner.sendall(b"{}\n")
            board = listener.accept()[0]
            with board:
                assert board.recv(10) == b"{}\n"
                board.sendall(b"bad 102\n")
                assert partner.recv(10) == b"bad 102\n"


def test_a_board_that_does_not_answer_is_given_up(certificates: Certificates, folder: Path) -> None:
    """Its connections are not taken: the client is let go after three seconds."""
    with socket.socket() as listener:
        listener.bind(("127.0.0.1", 0))
        listener.listen(0)
        board = listener.getsockname()[1]
        waiting = []
        for _ in range(8):
            stream = socket.socket()
            stream.setblocking(False)
            stream.connect_ex(("127.0.0.1", board))
            waiting.append(stream)
        with front_of(certificates, folder, board) as port:
            link = socket.create_connection(("127.0.0.1", port), LIMIT)
            begun = time.monotonic()
            with certificates.context("tower").wrap_socket(link, server_hostname="localhost") as partner:
                try:
                    assert partner.recv(1) == b""
                except OSError:
                    pass
            assert 2.5 < time.monotonic() - begun < 15
        for stream in waiting:
            stream.close()


def test_an_address_that_is_taken_is_told(certificates: Certificates, folder: Path) -> None:
    with socket.create_server(("127.0.0.1", 0)) as listener:
        port = listener.getsockname()[1]
        command = front_command(certificates, folder, "127.0.0.1", port, 1)
        done = subprocess.run(command, stdin=subprocess.DEVNULL, capture_output=True, text=True, check=False)
    assert (done.returncode, done.stdout) == (2, "")
    assert (
        done.stderr.startswith(f"desk: lines: 127.0.0.1:{port}: Address already in use")
        and done.stderr.count("\n") == 1
    )
