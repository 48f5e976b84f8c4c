"""Hostile use: each attack is refused, and comes through where its defence is taken away."""
import json
import re
import socket
import ssl
import time
from collections.abc import Callable, Iterator
from typing import Any

import pytest
from harness import LIMIT, PASSWORD, Board, Certificates, Client, Room, Running, instant, until

from kevotranjy_desk import board_line, guard, ledger, rates

ELSEWHERE = "https://elsewhere.test"
BODY = {"cmd": "report", "flight": "7", "milestone": 9, "time": "now", "seen": 10**9}


@pytest.fixture(name="counted")
def _counted(running: Running) -> Callable[[], int]:
    """How many entries were made since the test began."""
    running.in_step()
    first = running.board.count()
    return lambda: running.board.count() - first


def test_a_form_of_another_site_enters_nothing(
    running: Running, anna: Client, counted: Callable[[], int], monkeypatch: pytest.MonkeyPatch
) -> None:
    """CSRF: a page of another site sends a request with the cookie. Four defences each stop it; without all it comes."""

    def attack() -> int:
        sent = {"Origin": ELSEWHERE, "Content_Type": "text/plain", "X_Desk_Token": None}
        return anna.ask("POST", "/enter", BODY, **sent).status

    assert attack() == 403
    monkeypatch.setattr(guard, "is_own_origin", lambda _request: True)
    assert attack() == 415
    monkeypatch.setattr(guard, "is_json", lambda _request: True)
    assert attack() == 403
    assert counted() == 0
    monkeypatch.setattr(guard, "has_token", lambda *_: True)
    assert attack() == 200 and counted() == 1
    assert running.board.count()


@pytest.mark.parametrize("defence", ["is_own_origin", "is_json", "has_token"])
def test_each_defence_against_forms_stands_alone(
    anna: Client, counted: Callable[[], int], monkeypatch: pytest.MonkeyPatch, defence: str
) -> None:
    attack = {
        "is_own_origin": {"Origin": ELSEWHERE},
        "is_json": {"Content_Type": "text/plain"},
        "has_token": {"X_Desk_Token": "x"},
    }[defence]
    assert anna.ask("POST", "/enter", BODY, **attack).status in (403, 415) and counted() == 0
    monkeypatch.setattr(guard, defence, lambda *_: True)
    assert anna.ask("POST", "/enter", BODY, **attack).status == 200 and counted() == 1


def test_the_token_of_another_session_is_none(running: Running, anna: Client, counted: Callable[[], int]) -> None:
    other = Client(running).sign_in("otto")
    assert anna.post("/enter", BODY, X_Desk_Token=other.token).status == 403
    assert anna.post("/sign-out", {}, X_Desk_Token=other.token).status == 403 and counted() == 0


def test_the_cookie_is_kept_from_scripts_other_sites_and_plain_http(
    running: Running, monkeypatch: pytest.MonkeyPatch
) -> None:
    def cookie() -> str:
        answer = Client(running).post("/sign-in", {"name": "anna", "password": PASSWORD})
        return str(answer.headers["Set-Cookie"]).lower()

    told = cookie()
    for word in ("__host-desk=", "httponly", "secure", "samesite=strict", "path=/"):
        assert word in told, word
    assert "domain" not in told
    monkeypatch.setattr(guard, "set_cookie", lambda response, value: response.set_cookie("__Host-desk", value))
    assert "httponly" not in cookie()


@pytest.mark.parametrize("path", ["/", "/sign-in", "/desk.js", "/me", "/board", "/events", "/nothing"])
@pytest.mark.parametrize("host", ["elsewhere.test", "localhost.elsewhere.test", "", "127.0.0.1.elsewhere.test:8443"])
def test_a_name_that_leads_here_is_not_the_desks(
    running: Running, anna: Client, monkeypatch: pytest.MonkeyPatch, path: str, host: str
) -> None:
    """DNS rebinding: a page of another site has its own name lead here, so that it is of the same origin."""
    answer = anna.get(path, Host=host)
    assert answer.status == 421 and b"DLH" not in answer.body
    if path == "/me":
        monkeypatch.setattr(guard, "is_own_host", lambda *_: True)
        assert anna.get(path, Host=host).status == 200 and running


def test_a_page_of_another_site_reads_nothing(anna: Client, monkeypatch: pytest.MonkeyPatch) -> None:
    for path in ("/board", "/me", "/flights/7/history"):
        assert anna.get(path, Origin=ELSEWHERE).status == 403
        assert anna.get(path, Sec_Fetch_Site="cross-site").status == 403
        assert anna.get(path, Sec_Fetch_Site="same-site").status == 403
        answer = anna.get(path)
        assert answer.status == 200 and "Access-Control-Allow-Origin" not in answer.headers
    monkeypatch.setattr(guard, "is_own_origin", lambda _request: True)
    assert anna.get("/board", Sec_Fetch_Site="cross-site").status == 200


def test_no_answer_can_be_framed_sniffed_or_run_inline(anna: Client, monkeypatch: pytest.MonkeyPatch) -> None:
    for path in ("/", "/sign-in", "/me", "/desk.js", "/nothing", "/board"):
        headers = anna.get(path).headers
        policy = str(headers["Content-Security-Policy"])
        assert "frame-ancestors 'none'" in policy and headers["X-Frame-Options"] == "DENY"
        assert "unsafe" not in policy and "default-src 'none'" in policy and "base-uri 'none'" in policy
        assert headers["X-Content-Type-Options"] == "nosniff" and headers["Cache-Control"] == "no-store"
        assert headers["Strict-Transport-Security"].startswith("max-age=")
        assert "aiohttp" not in str(headers["Server"]).lower()
    monkeypatch.setattr(guard, "HEADERS", {})
    assert "X-Frame-Options" not in anna.get("/").headers


def test_the_pages_have_nothing_inline() -> None:
    from kevotranjy_desk.people import PAGES  # pylint: disable=import-outside-toplevel

    for file in PAGES.glob("*.html"):
        text = file.read_text(encoding="utf-8")
        assert "<style" not in text and not re.search(r"\s(style|on\w+)\s*=", text), file.name
        assert text.count("<script") == text.count("<script src=")
    for file in PAGES.glob("*.js"):
        text = file.read_text(encoding="utf-8")
        for word in ("innerHTML", "outerHTML", "insertAdjacentHTML", "eval(", "document.write", "Function("):
            assert word not in text, (file.name, word)


def test_trials_to_sign_in_are_limited(certificates: Certificates, monkeypatch: pytest.MonkeyPatch) -> None:
    with Room() as folder:
        board = Board(folder)
        running = Running(folder, certificates, board, sign_ins=5)
        try:
            client = Client(running)
            statuses = [client.post("/sign-in", {"name": "anna", "password": "x" * 12}).status for _ in range(8)]
            assert statuses == [401] * 5 + [429] * 3
            assert client.post("/sign-in", {"name": "anna", "password": PASSWORD}).status == 429
            monkeypatch.setattr(rates.Rate, "takes", lambda *_: True)
            assert client.post("/sign-in", {"name": "anna", "password": PASSWORD}).status == 200
        finally:
            running.stop()
            board.kill()


def test_lines_of_a_person_are_limited(running: Running, anna: Client, counted: Callable[[], int]) -> None:
    rate, running.desk.people.lines = running.desk.people.lines, rates.Rate(3)
    try:
        statuses = [anna.post("/enter", BODY).status for _ in range(5)]
        assert statuses == [200] * 3 + [429] * 2 and counted() == 3
    finally:
        running.desk.people.lines = rate
    assert anna.post("/enter", BODY).status == 200


def opened(running: Running) -> ssl.SSLSocket:
    stream = socket.create_connection(("127.0.0.1", running.listen), timeout=LIMIT)
    return running.certificates.context().wrap_socket(stream, server_hostname="localhost")


def head(running: Running, *lines: str) -> bytes:
    return "\r\n".join(["GET /sign-in HTTP/1.1", f"Host: localhost:{running.listen}", *lines, "", ""]).encode()


@pytest.mark.parametrize(
    "data",
    [
        b"GET /" + b"a" * 10000 + b" HTTP/1.1\r\nHost: localhost\r\n\r\n",
        b"GET / HTTP/1.1\r\nHost: localhost\r\nX: " + b"a" * 10000 + b"\r\n\r\n",
        b"GET / HTTP/1.1\r\nHost: localhost\r\n" + b"X: " + b"a" * 4000 + b"\r\n" + b"\x00\r\n\r\n",
        b"\x00" * 1000 + b"\r\n\r\n",
        b"POST /sign-in HTTP/1.1\r\nHost: localhost\r\nContent-Length: 5\r\nTransfer-Encoding: chunked\r\n\r\n0\r\n\r\nGET /me",
        b"POST /sign-in HTTP/1.1\r\nHost: localhost\r\nContent-Length: -5\r\n\r\n",
    ],
)
def test_heads_that_are_none_or_too_long_are_refused(running: Running, data: bytes) -> None:
    with opened(running) as link:
        link.sendall(data)
        link.settimeout(5)
        answer = b""
        try:
            while piece := link.recv(4096):
                answer += piece
        except (TimeoutError, ConnectionError):
            pass
        assert b" 200 " not in answer and (not answer or answer.startswith(b"HTTP/1.")), answer[:100]
    assert Client(running).get("/sign-in").status == 200


def test_many_fields_are_no_head(running: Running) -> None:
    with opened(running) as link:
        try:
            for _ in range(50):
                link.sendall(b"GET / HTTP/1.1\r\n" + b"".join(b"X%d: y\r\n" % number for number in range(5000)))
        except OSError:
            pass
        link.settimeout(15)
        try:
            answer = link.recv(100)
        except (TimeoutError, ConnectionError):
            answer = b""
        assert b" 200 " not in answer
    assert Client(running).get("/sign-in").status == 200


def test_a_long_body_is_refused(running: Running, anna: Client, monkeypatch: pytest.MonkeyPatch) -> None:
    body = json.dumps({**BODY, "x": "y" * guard.LONGEST_BODY}).encode()
    try:
        status = anna.post("/enter", body).status
    except (ConnectionError, ssl.SSLError):
        # (it is answered before all of it was taken)
        status = 413
    assert status == 413 and running and monkeypatch


def test_a_head_that_does_not_come_is_let_go(running: Running, monkeypatch: pytest.MonkeyPatch) -> None:
    monkeypatch.setattr(guard, "HEAD_SECONDS", 1.0)

    def is_let_go(seconds: float) -> bool:
        with opened(running) as link:
            link.settimeout(0.2)
            link.sendall(b"GET / HTTP/1.1\r\nX: ")
            end = time.monotonic() + seconds
            while time.monotonic() < end:
                try:
                    link.sendall(b"x")
                    if link.recv(1) == b"":
                        return True
                except TimeoutError:
                    continue
                except OSError:
                    return True
        return False

    assert is_let_go(5)
    monkeypatch.setattr(guard.Patient, "is_too_slow", lambda *_: False)
    assert not is_let_go(3)


def test_a_body_that_does_not_come_is_let_go(running: Running, monkeypatch: pytest.MonkeyPatch) -> None:
    monkeypatch.setattr(guard, "BODY_SECONDS", 0.5)
    with opened(running) as link:
        own = f"https://localhost:{running.listen}"
        link.sendall(
            f"POST /sign-in HTTP/1.1\r\nHost: localhost:{running.listen}\r\nOrigin: {own}\r\nContent-Type: application/json\r\nContent-Length: 50\r\n\r\n{{".encode()
        )
        link.settimeout(5)
        assert link.recv(100).startswith(b"HTTP/1.1 408 ")


def test_who_takes_nothing_is_let_go(running: Running, anna: Client, monkeypatch: pytest.MonkeyPatch) -> None:
    monkeypatch.setattr(guard, "STALLED_SECONDS", 1.0)
    watch, before = running.desk.watches["people"], running.desk.watches["people"].let_go
    with opened(running) as link:
        link.setsockopt(socket.SOL_SOCKET, socket.SO_RCVBUF, 4096)
        request = head(running, f"Cookie: {anna.cookie}").replace(b"/sign-in", b"/desk.js")
        try:
            for _ in range(400):
                link.sendall(request)
        except OSError:
            pass
        assert until(lambda: watch.let_go > before, 15)


def test_so_many_connections_of_one_address_and_no_more(running: Running, monkeypatch: pytest.MonkeyPatch) -> None:
    monkeypatch.setattr(running.desk.watches["people"], "most_of_one", 5)
    links = [opened(running) for _ in range(5)]
    try:
        assert until(lambda: running.desk.watches["people"].of_client["127.0.0.1"] >= 5)
        with pytest.raises((OSError, AssertionError)):
            with opened(running) as link:
                link.sendall(head(running))
                assert link.recv(10) != b""
        monkeypatch.setattr(guard.Watch, "is_full", lambda *_: False)
        assert Client(running).get("/sign-in").status == 200
    finally:
        for link in links:
            link.close()


def test_plain_http_and_old_tls_are_not_spoken(running: Running) -> None:
    with socket.create_connection(("127.0.0.1", running.listen), timeout=LIMIT) as stream:
        stream.sendall(b"GET / HTTP/1.1\r\nHost: localhost\r\n\r\n")
        try:
            assert not stream.recv(100).startswith(b"HTTP/")
        except ConnectionError:
            pass
    context = ssl.SSLContext(ssl.PROTOCOL_TLS_CLIENT)
    context.check_hostname, context.verify_mode = False, ssl.CERT_NONE
    context.set_ciphers("DEFAULT:@SECLEVEL=0")
    context.minimum_version = ssl.TLSVersion.TLSv1
    context.maximum_version = ssl.TLSVersion.TLSv1_1
    with pytest.raises((ssl.SSLError, OSError)):
        with socket.create_connection(("127.0.0.1", running.listen), timeout=LIMIT) as stream:
            context.wrap_socket(stream)


def test_texts_of_a_schedule_are_one_line(running: Running, counted: Callable[[], int]) -> None:
    """A text with a line feed would be two lines, were it not refused, and were JSON not to escape it."""
    paula = Client(running).sign_in("paula")
    texts = {"callsign": 'A"}\n{"cmd":"tick"}', "type": "A320", "reg": "D", "dest": "E"}
    body = {"cmd": "schedule", "flight": "70", "time": "now", "seen": -1, **texts, "mttt": 1, "exit": 1, "exot": 1}
    assert paula.post("/enter", {**body, "stand": 1}).status == 400 and counted() == 0
    assert "\n" not in board_line.line_text({"cmd": 'x\n"}', "y\n": "\u2028\r"})
    with pytest.raises(ValueError):
        board_line.line_text({"x": float("nan")})


def test_no_log_has_a_secret_or_a_line_of_a_strangers_making(running: Running, anna: Client) -> None:
    name = 'mallory\n{"event":"signed in","who":"anna"}'
    Client(running).post("/sign-in", {"name": name, "password": "hunter2-hunter2"})
    anna.enter(7, 9, "now")
    lines = (running.folder / "desk.log").read_text(encoding="utf-8").splitlines()
    events = [json.loads(line) for line in lines]
    refused = [event for event in events if event["event"] == "refused to sign in"]
    assert refused[-1]["who"] == name[:40]
    data = (running.folder / "desk.sqlite").read_bytes() + (running.folder / "desk.sqlite-wal").read_bytes()
    for secret in ("hunter2-hunter2", PASSWORD, anna.cookie.partition("=")[2], *running.tokens.values()):
        assert secret not in "\n".join(lines) and secret.encode() not in data


def test_names_that_are_known_are_not_told_by_time_or_words(running: Running) -> None:
    """A name that is not known is held against a password as well."""
    calls: list[Any] = []
    accounts = running.desk.accounts
    plain = accounts._matches  # pylint: disable=protected-access
    accounts._matches = lambda kept, given: bool(calls.append(kept)) or plain(kept, given)  # type: ignore[method-assign]
    try:
        bodies = [
            Client(running).post("/sign-in", {"name": name, "password": "wrong-wrong"}).body
            for name in ("anna", "nobody")
        ]
    finally:
        accounts._matches = plain  # type: ignore[method-assign]
    assert bodies[0] == bodies[1] and len(calls) == 2


@pytest.fixture(name="proxied")
def _proxied(certificates: Certificates) -> Iterator[tuple[Running, Running]]:
    """Two desks with single sign-on: one whose proxy is this machine, one whose proxy is another."""
    with Room() as near, Room() as far:
        boards = [Board(near), Board(far)]
        text = '[sign_on]\nheader = "X-Remote-User"\nfrom = ["{}"]\n'
        both = [
            Running(folder, certificates, board, text.format(address))
            for folder, board, address in zip((near, far), boards, ("127.0.0.0/8", "192.0.2.7"))
        ]
        yield both[0], both[1]
        for running, board in zip(both, boards):
            running.stop()
            board.kill()


def test_a_header_of_the_single_sign_on_counts_from_its_proxy_alone(proxied: tuple[Running, Running]) -> None:
    near, far = proxied
    client = Client(near)
    assert client.get("/", X_Remote_User="anna").status == 200
    assert client.get("/me").value["name"] == "anna"
    stranger = Client(far)
    assert stranger.get("/", X_Remote_User="anna").status == 303 and stranger.cookie == ""
    for named in ("nobody", "", "anna, otto"):
        assert Client(near).get("/", X_Remote_User=named).status == 303


def test_the_log_is_closed_to_others(running: Running) -> None:
    for name in ("desk.sqlite", "desk.log"):
        assert (running.folder / name).stat().st_mode & 0o077 == 0, name
    assert ledger.now().endswith("Z") and instant(0)


def test_a_stranger_does_not_fill_the_log(running: Running) -> None:
    def told() -> list[dict[str, Any]]:
        text = (running.folder / "desk.log").read_text(encoding="utf-8")
        return [event for event in map(json.loads, text.splitlines()) if event["event"] == "refused to sign in"]

    before = len(told())
    for _ in range(80):
        assert Client(running).post("/sign-in", {"name": "nobody", "password": "x"}).status == 401
    assert len(told()) - before < 50


def test_measures_are_not_for_pages_of_other_sites(running: Running, monkeypatch: pytest.MonkeyPatch) -> None:
    import http.client  # pylint: disable=import-outside-toplevel

    def status(host: str) -> int:
        link = http.client.HTTPConnection("127.0.0.1", running.health_port, timeout=10)
        link.request("GET", "/metrics", headers={"Host": host})
        return link.getresponse().status

    assert status("elsewhere.test") == 421 and status(f"127.0.0.1:{running.health_port}") == 200
    monkeypatch.setattr(guard, "is_own_host", lambda *_: True)
    assert status("elsewhere.test") == 200


@pytest.mark.parametrize("text", ["\xff\xfe", "\ud800", "x" * 4000, "\u0661\u0662\u0663\u0664\u0665\u0666"])
def test_texts_that_are_no_text_are_refused_and_no_fault(running: Running, anna: Client, text: str) -> None:
    for body in (
        {"name": text, "password": text},
        {"name": "anna", "password": text},
        {"name": "tom", "password": text},
    ):
        assert Client(running).post("/sign-in", {**body, "code": text}).status == 401
    good = Client(running).post("/sign-in", {"name": "tom", "password": PASSWORD, "code": text})
    assert good.status == 401
    if "\ud800" not in text:
        header = text.encode("utf-8").decode("latin-1") if text.isascii() is False and ord(text[0]) > 255 else text
        assert anna.post("/enter", BODY, X_Desk_Token=header).status == 403
        assert Client(running).get("/me", Cookie=f"__Host-desk={header}").status == 401
        partner = Client(running, port=running.http_port)
        assert partner.get("/v1/flights", Authorization=f"Bearer {header}").status == 401
    entered = {"cmd": "schedule", "flight": "7", "callsign": text, "time": text, "seen": 10**9}
    assert Client(running).sign_in("paula").post("/enter", entered).status == 400
