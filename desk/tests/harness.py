"""What the tests of the desk share: a real board, a desk with real TLS, and clients that speak to both."""
import asyncio
import http.client
import itertools
import json
import os
import shutil
import socket
import ssl
import subprocess
import sys
import tempfile
import threading
import time
from collections.abc import Callable
from concurrent.futures import Future
from pathlib import Path
from typing import Any

TESTS = Path(__file__).resolve().parent
TOP = TESTS.parents[1]
sys.path.insert(0, str(TESTS.parent))

from argon2 import PasswordHasher  # noqa: E402
from kevotranjy_desk import accounts as accounts_module  # noqa: E402
from kevotranjy_desk.accounts import Accounts  # noqa: E402
from kevotranjy_desk.app import Desk  # noqa: E402
from kevotranjy_desk.demo import fingerprint, free_ports, make_authority, make_certificate  # noqa: E402
from kevotranjy_desk.ledger import Ledger  # noqa: E402
from kevotranjy_desk.settings import read_settings  # noqa: E402

# (a cheap one: tests sign in often)
accounts_module.HASHER = PasswordHasher(time_cost=1, memory_cost=64, parallelism=1)
PLACES = [TOP / "crates/acdm/out/acdm", TOP / "target/unproved/acdm"]
PROGRAM = Path(os.environ["ACDM"]) if os.environ.get("ACDM") else next((it for it in PLACES if it.is_file()), PLACES[0])
# (on this machine it is half past five where it is midnight in UTC: a local time is no time of the board)
os.environ["TZ"] = "Asia/Kolkata"
time.tzset()
ROLES = ("APT", "NM", "ATC", "AO", "GH", "DIC")
PASSWORD = "a long pass-word"
LIMIT = 60.0
Line = dict[str, Any]


def until(holds: Callable[[], Any], seconds: float = LIMIT) -> bool:
    """Whether something comes to hold within so many seconds."""
    end = time.monotonic() + seconds
    while not holds():
        if time.monotonic() > end:
            return False
        time.sleep(0.01)
    return True


def instant(minutes: int) -> str:
    """The instant so many minutes from now."""
    return time.strftime("%Y-%m-%dT%H:%M:00Z", time.gmtime(time.time() + 60 * minutes))


class Caller:
    """A connection of another partner straight to the board."""

    def __init__(self, port: int) -> None:
        self.stream = socket.create_connection(("127.0.0.1", port), timeout=LIMIT)
        self.replies = self.stream.makefile("rb")

    def ask(self, command: Line) -> str:
        self.stream.sendall(json.dumps(command).encode() + b"\n")
        return self.replies.readline().decode().strip()

    def close(self) -> None:
        self.replies.close()
        self.stream.close()


class Board:
    """A board: for each role an address of the desk and one of another partner, and some more by name."""

    def __init__(self, folder: Path, more: tuple[str, ...] = (), words: tuple[str, ...] = ()) -> None:
        self.folder, self.words = folder, words
        self.names = [*ROLES, *(f"{role} other" for role in ROLES), *more]
        ports = free_ports(2 + len(self.names))
        self.changes, self.control, self.ports = ports[0], ports[1], dict(zip(self.names, ports[2:]))
        self.callers: dict[str, Caller] = {}
        self.process: subprocess.Popen[bytes] | None = None
        self.start()

    def start(self, journal: str = "day.journal") -> None:
        """Starts it, from the journal that it kept."""
        command = [str(PROGRAM), "serve", "--again", "--journal", "100000", "--keep", str(self.folder / journal)]
        command += [*self.words, "--changes", f"127.0.0.1:{self.changes}", "--control", str(self.control)]
        command += [f"{name.split()[0]}=127.0.0.1:{port}" for name, port in self.ports.items()]
        self.process = subprocess.Popen(  # pylint: disable=consider-using-with
            command, stdin=subprocess.DEVNULL, stdout=subprocess.DEVNULL, stderr=subprocess.DEVNULL
        )
        assert until(lambda: listens(self.changes)), "the board does not start"

    def kill(self) -> None:
        """Kills it."""
        for caller in self.callers.values():
            caller.close()
        self.callers.clear()
        if self.process:
            self.process.kill()
            self.process.wait()

    def ask(self, role: str, **command: Any) -> str:
        """The reply to a line of another partner."""
        name = f"{role} other"
        if name not in self.callers:
            self.callers[name] = Caller(self.ports[name])
        return self.callers[name].ask(command)

    def flight(self, number: int, callsign: str = "", stand: int = 12, off: int = 60) -> None:
        """Schedules a flight, and gives it its plan."""
        texts = {"callsign": callsign or f"DLH{number}", "type": "A320", "reg": "DAIBC", "dest": "EGLL"}
        place = {"mttt": 40, "exit": 5, "exot": 10, "stand": stand}
        assert self.ask("APT", cmd="schedule", flight=number, sobt=instant(off), **texts, **place).startswith("ok")
        plan = self.ask("NM", cmd="report", flight=number, milestone=1, time=instant(off), **texts)
        assert plan.startswith("ok"), plan

    def entries(self) -> list[Line]:
        """All entries that there are, as the feed tells them."""
        with socket.create_connection(("127.0.0.1", self.changes), timeout=LIMIT) as stream:
            stream.sendall(b"board\n")
            count = json.loads(stream.makefile("rb").readline())["next"]
        with socket.create_connection(("127.0.0.1", self.changes), timeout=LIMIT) as stream:
            stream.sendall(b"from 0\n")
            found = (json.loads(line) for line in stream.makefile("rb"))
            return list(itertools.islice((line for line in found if "entry" in line), count))

    def count(self) -> int:
        return len(self.entries())


def listens(port: int) -> bool:
    """Whether somebody listens at a port of this machine, by the system's table: nothing connects there."""
    rows = [line.split() for line in Path("/proc/net/tcp").read_text(encoding="ascii").splitlines()[1:]]
    return any(row[3] == "0A" and int(row[1].rpartition(":")[2], 16) == port for row in rows)


class Certificates:
    """Certificates of a trial: of the desk, of partners, of a stranger, one expired, one revoked."""

    def __init__(self, folder: Path) -> None:
        self.folder = folder
        make_authority(folder, "authority", "authority")
        make_authority(folder, "partners", "partners")
        make_authority(folder, "elsewhere", "elsewhere")
        make_certificate(folder, "desk", "localhost", "authority", "DNS:localhost,IP:127.0.0.1")
        for name in ("swiss", "tower", "handler", "bound", "bound-airport", "nobody", "revoked"):
            make_certificate(folder, name, name, "partners")
        make_certificate(folder, "stranger", "tower", "elsewhere")
        self.expire("expired")
        self.revoke("revoked")
        self.prints = {
            name: fingerprint(folder, name) for name in ("swiss", "tower", "handler", "bound", "revoked", "expired")
        }

    def openssl(self, *words: str) -> None:
        subprocess.run(["openssl", *words], cwd=self.folder, capture_output=True, check=True)

    def authority_settings(self) -> list[str]:
        """The file by which `openssl ca` works, made once."""
        file = self.folder / "ca.cnf"
        if not file.exists():
            text = f"[ca]\ndefault_ca = d\n[d]\ndir = {self.folder}\ndatabase = {self.folder}/index\nserial = {self.folder}/serial\n"
            text += f"new_certs_dir = {self.folder}\ndefault_md = sha256\npolicy = p\ndefault_crl_days = 30\nunique_subject = no\n"
            text += "[p]\ncommonName = supplied\n"
            file.write_text(text, encoding="ascii")
            (self.folder / "index").write_text("", encoding="ascii")
            (self.folder / "serial").write_text("77\n", encoding="ascii")
        return ["-config", "ca.cnf", "-cert", "partners.pem", "-keyfile", "partners.key"]

    def expire(self, name: str) -> None:
        """Makes a certificate whose time is over."""
        key = ["-newkey", "ec", "-pkeyopt", "ec_paramgen_curve:prime256v1", "-nodes", "-keyout", f"{name}.key"]
        self.openssl("req", *key, "-subj", f"/CN={name}", "-out", f"{name}.csr")
        dates = ["-startdate", "20200101000000Z", "-enddate", "20200201000000Z"]
        self.openssl("ca", "-batch", *self.authority_settings(), *dates, "-in", f"{name}.csr", "-out", f"{name}.pem")

    def revoke(self, name: str) -> None:
        """Revokes a certificate, in the list `revoked.crl`."""
        self.openssl("ca", *self.authority_settings(), "-revoke", f"{name}.pem")
        self.openssl("ca", *self.authority_settings(), "-gencrl", "-out", "revoked.crl")

    def context(self, name: str = "") -> ssl.SSLContext:
        """TLS of a client that trusts the desk's authority, and shows a certificate where one is named."""
        context = ssl.create_default_context(cafile=str(self.folder / "authority.pem"))
        if name:
            context.load_cert_chain(self.folder / f"{name}.pem", self.folder / f"{name}.key")
        return context


PEOPLE = """
[[person]]
name = "anna"
role = "GH"
see = "all"
send = "all"

[[person]]
name = "lena"
role = "AO"
see = [{ airlines = ["DLH"] }, { stands = ["40-49"] }]
send = [{ airlines = ["DLH"] }]

[[person]]
name = "otto"
role = "ATC"
see = "all"
send = "all"

[[person]]
name = "paula"
role = "APT"
see = "all"
send = "all"

[[person]]
name = "dora"
role = "DIC"
see = "all"
send = "all"

[[person]]
name = "vera"
role = "none"
see = "all"
send = "none"

[[person]]
name = "tom"
role = "GH"
see = "all"
send = "all"
second_factor = true
"""


class Running:
    """A desk in a thread, in front of a board."""

    def __init__(self, folder: Path, certificates: Certificates, board: Board, more: str = "", **limits: int) -> None:
        self.folder, self.certificates, self.board = folder, certificates, board
        self.file = folder / "desk.toml"
        lines = "".join(f'{role} = "127.0.0.1:{board.ports[role]}"\n' for role in ROLES)
        self.listen, self.http_port, self.lines_port, self.health_port = free_ports(4)
        # (tests sign in more often than people do)
        limit = "".join(
            f"{name} = {value}\n"
            for name, value in {"lines": 100000, "partner_lines": 100000, "sign_ins": 100000, **limits}.items()
        )
        self.file.write_text(
            f"""[desk]
listen = "127.0.0.1:{self.listen}"
names = ["localhost", "127.0.0.1"]
certificate = "{certificates.folder}/desk.pem"
key = "{certificates.folder}/desk.key"
data = "desk.sqlite"
log = "desk.log"
health = "127.0.0.1:{self.health_port}"
[board]
changes = "127.0.0.1:{board.changes}"
[board.lines]
{lines}
[limits]
{limit}
[partners]
http = "127.0.0.1:{self.http_port}"
lines = "127.0.0.1:{self.lines_port}"
authorities = "{certificates.folder}/partners.pem"
revoked = "{certificates.folder}/revoked.crl"
{PEOPLE}
{more}
""",
            encoding="utf-8",
        )
        self.settings = read_settings(self.file)
        ledger = Ledger(self.settings.data, None)
        accounts = Accounts(ledger.base)
        for name in self.settings.people:
            if not ledger.base.execute("select 1 from secret where name = ?", (name,)).fetchone():
                accounts.set_password(name, PASSWORD)
        self.factor = accounts.set_factor("tom")
        self.tokens = {name: accounts.add_token(name) for name in self.settings.partners}
        ledger.close()
        self.start()

    def start(self) -> None:
        """Starts it, and waits until lines can be sent."""
        started: Future[None] = Future()

        async def main() -> None:
            self.desk, self.end = Desk(self.settings), asyncio.Event()
            try:
                await self.desk.start()
                started.set_result(None)
                await self.end.wait()
            except BaseException as error:  # pylint: disable=broad-exception-caught
                if not started.done():
                    started.set_exception(error)
                raise
            finally:
                await self.desk.stop()

        def work() -> None:
            # (it ends what is left of connections, too)
            with asyncio.Runner() as runner:
                self.loop = runner.get_loop()
                runner.run(main())

        self.thread = threading.Thread(target=work, daemon=True)
        self.thread.start()
        started.result(LIMIT)
        assert until(self.is_ready), "the desk is not ready"

    def is_ready(self) -> bool:
        lines = self.desk.exchange.lines
        front = self.desk.front_ready.is_set() or not any(it.lines for it in self.settings.partners.values())
        return front and not any(self.desk.exchange.is_away(name) for name in lines)

    def reached(self, number: int) -> bool:
        """Whether the desk knows all entries before a number, soon."""
        return until(lambda: self.desk.exchange.mirror.next >= number)

    def in_step(self) -> None:
        """Waits until the desk knows all that the board has."""
        assert self.reached(self.board.count())

    def stop(self) -> None:
        """Ends it."""
        if self.thread.is_alive():
            self.loop.call_soon_threadsafe(self.end.set)
            self.thread.join(LIMIT)


class Answer:
    """An answer of HTTP."""

    def __init__(self, answer: http.client.HTTPResponse) -> None:
        self.status, self.headers, self.body = answer.status, answer.headers, answer.read()

    @property
    def value(self) -> Any:
        return json.loads(self.body)

    @property
    def words(self) -> str:
        return str(self.value["words"])


class Client:
    """A browser without a screen: it keeps its cookie, and sends what a page of the desk would."""

    def __init__(self, running: Running, certificate: str = "", port: int | None = None) -> None:
        self.running, self.port = running, port or running.listen
        self.context = running.certificates.context(certificate)
        self.host = f"localhost:{self.port}"
        self.cookie, self.token = "", ""

    def ask(self, method: str, path: str, body: Any = None, **headers: str | None) -> Answer:
        """An answer; headers are named with `_` for `-`, and None leaves one out."""
        sent: dict[str, str | None] = {"Host": self.host}
        if self.cookie:
            sent["Cookie"] = self.cookie
        data = body if isinstance(body, bytes) else None if body is None else json.dumps(body).encode()
        if method == "POST":
            sent |= {"Content-Type": "application/json", "Origin": f"https://{self.host}"}
            if self.token:
                sent["X-Desk-Token"] = self.token
        sent |= {name.replace("_", "-"): value for name, value in headers.items()}
        link = http.client.HTTPSConnection("127.0.0.1", self.port, context=self.context, timeout=LIMIT)
        try:
            link.putrequest(method, path, skip_host=True, skip_accept_encoding=True)
            for name, value in sent.items():
                if value is not None:
                    link.putheader(name, value)
            if data is not None:
                link.putheader("Content-Length", str(len(data)))
            link.endheaders(data)
            answer = Answer(link.getresponse())
        finally:
            link.close()
        kept = answer.headers.get("Set-Cookie")
        if kept:
            self.cookie = kept.partition(";")[0]
        return answer

    def get(self, path: str, **headers: str | None) -> Answer:
        return self.ask("GET", path, None, **headers)

    def post(self, path: str, body: Any, **headers: str | None) -> Answer:
        return self.ask("POST", path, body, **headers)

    def sign_in(self, name: str, code: str = "", password: str = PASSWORD) -> "Client":
        """Signs in, and takes the token of the page."""
        answer = self.post("/sign-in", {"name": name, "password": password, "code": code})
        assert answer.status == 200, answer.body
        self.token = self.get("/me").value["token"]
        return self

    def last(self, flight: int) -> int:
        """The last entry of a flight, as the page knows it."""
        found = [it for it in self.get("/board").value["flights"] if it["flight"] == str(flight)]
        return int(found[0]["last"]) if found else -1

    def enter(self, flight: int, milestone: int, time_text: str | None, **more: Any) -> Answer:
        """Enters a time for a milestone, as one who has just looked."""
        self.running.in_step()
        body = {"cmd": "report", "flight": str(flight), "milestone": milestone, "time": time_text}
        return self.post("/enter", {**body, "seen": self.last(flight), **more})


class Room:
    """A folder that is removed at the end."""

    def __init__(self) -> None:
        self.path = Path(tempfile.mkdtemp(prefix="acdm-desk-"))

    def __enter__(self) -> Path:
        return self.path

    def __exit__(self, *_: object) -> None:
        shutil.rmtree(self.path, ignore_errors=True)
