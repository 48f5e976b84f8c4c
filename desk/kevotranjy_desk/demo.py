"""A trial of the desk on one machine: certificates, settings, people, a board with flights, and time that passes."""
import asyncio
import json
import os
import random
import secrets
import signal
import socket
import subprocess
import sys
from collections.abc import Iterator
from contextlib import contextmanager
from datetime import datetime, timedelta, timezone
from pathlib import Path

from words import ROLES

from . import TOP
from .accounts import Accounts
from .app import Desk
from .ledger import Ledger
from .settings import BadSettings, read_settings

# (the first is that of an archive; in a checkout there is a script of this name)
PLACES = ("acdm", "crates/acdm/out/acdm", "target/unproved/acdm")
PEOPLE = {
    "anna": ("GH", '"all"', '"all"'),
    "lena": ("AO", '[{ airlines = ["DLH", "EWG"] }]', '[{ airlines = ["DLH", "EWG"] }]'),
    "otto": ("ATC", '"all"', '"all"'),
    "paula": ("APT", '"all"', '"all"'),
    "dora": ("DIC", '"all"', '"all"'),
    "vera": ("none", '"all"', '"none"'),
}
FLIGHTS, AIRLINES = 24, ("DLH", "SWR", "EWG", "AUA", "BAW", "KLM")
DESTINATIONS = ("EGLL", "LSZH", "LOWW", "EHAM", "LFPG", "ENGM")


def find_program() -> Path:
    """The board's program: that of ACDM, else the proved one, else one that is built without proofs."""
    named = os.environ.get("ACDM")
    places = [Path(named)] if named else [TOP / place for place in PLACES]
    for place in places:
        if place.is_file() and (named or place.read_bytes()[:4] == b"\x7fELF"):
            return place
    raise BadSettings(f"there is no program of the board at {places[-1]}: ./acdm prove builds it, or name it by ACDM")


def openssl(folder: Path, *words: str) -> None:
    """Runs openssl in a folder."""
    try:
        subprocess.run(["openssl", *words], cwd=folder, capture_output=True, check=True)
    except FileNotFoundError:
        raise BadSettings("openssl is not there: apt-get install openssl") from None
    except subprocess.CalledProcessError as error:
        raise BadSettings(f"openssl {words[0]}: {error.stderr.decode(errors='replace').strip()[-200:]}") from None


def make_authority(folder: Path, name: str, about: str) -> None:
    """Makes an authority that signs certificates: NAME.pem and NAME.key."""
    key = ["-newkey", "ec", "-pkeyopt", "ec_paramgen_curve:prime256v1", "-nodes", "-keyout", f"{name}.key"]
    openssl(folder, "req", "-x509", *key, "-days", "30", "-subj", f"/CN={about}", "-out", f"{name}.pem")


def make_certificate(folder: Path, name: str, common: str, authority: str, names: str = "", days: int = 30) -> None:
    """Makes a certificate that an authority signs: NAME.pem and NAME.key."""
    key = ["-newkey", "ec", "-pkeyopt", "ec_paramgen_curve:prime256v1", "-nodes", "-keyout", f"{name}.key"]
    openssl(folder, "req", *key, "-subj", f"/CN={common}", "-out", f"{name}.csr")
    (folder / f"{name}.ext").write_text(f"subjectAltName={names}\n" if names else "basicConstraints=CA:FALSE\n")
    signing = ["-CA", f"{authority}.pem", "-CAkey", f"{authority}.key", "-CAcreateserial", "-days", str(days)]
    openssl(folder, "x509", "-req", "-in", f"{name}.csr", *signing, "-extfile", f"{name}.ext", "-out", f"{name}.pem")
    for rest in ("csr", "ext"):
        (folder / f"{name}.{rest}").unlink()


def fingerprint(folder: Path, name: str) -> str:
    """The SHA-256 of a certificate."""
    done = subprocess.run(
        ["openssl", "x509", "-in", f"{name}.pem", "-noout", "-fingerprint", "-sha256"],
        cwd=folder,
        capture_output=True,
        check=True,
        text=True,
    )
    return "sha256:" + done.stdout.strip().partition("=")[2]


def free_ports(count: int) -> list[int]:
    """Ports at which nobody listens."""
    listeners = [socket.create_server(("127.0.0.1", 0)) for _ in range(count)]
    ports = [int(listener.getsockname()[1]) for listener in listeners]
    for listener in listeners:
        listener.close()
    return ports


def settings_text(changes: int, lines: dict[str, int], partners: dict[str, int], prints: dict[str, str]) -> str:
    """The file of settings of a trial."""
    text = f"""# The desk of a trial: everybody is on this machine.
[desk]
listen = "127.0.0.1:8443"            # people, with a browser
names = ["localhost", "127.0.0.1"]   # what a browser may call it
certificate = "desk.pem"
key = "desk.key"
data = "desk.sqlite"                 # passwords, sessions, who did what
log = "desk.log"                     # each event, a line of JSON
health = "127.0.0.1:9180"            # /health and /metrics, without TLS

[board]
changes = "127.0.0.1:{changes}"

[board.lines]                        # the addresses at which the desk sends what people enter
"""
    text += "".join(f'{role} = "127.0.0.1:{port}"\n' for role, port in lines.items())
    text += """
[partners]
http = "127.0.0.1:8444"
lines = "127.0.0.1:8445"
authorities = "partners.pem"

[[partner]]                          # sends and reads by HTTP, for its own flights
name = "swiss"
role = "AO"
"""
    text += f'http = "127.0.0.1:{partners["swiss"]}"\ncertificate = "{prints["swiss"]}"\n'
    text += """see = [{ airlines = ["SWR"] }]
send = [{ airlines = ["SWR"] }]

[[partner]]                          # sends lines over TLS, as at the board's own address
name = "tower"
role = "ATC"
"""
    text += f'lines = ["127.0.0.1:{partners["tower"]}"]\ncertificate = "{prints["tower"]}"\nsee = "all"\nsend = "all"\n'
    for name, (role, see, send) in PEOPLE.items():
        text += f'\n[[person]]\nname = "{name}"\nrole = "{role}"\nsee = {see}\nsend = {send}\n'
    return text


@contextmanager
def board_of(program: Path, folder: Path, ports: dict[str, int], changes: int, control: int) -> Iterator[None]:
    """A board that serves for a trial, and closes in good order."""
    words = ["serve", "--again", "--journal", "100000", "--keep", str(folder / "day.journal")]
    words += ["--changes", f"127.0.0.1:{changes}", "--control", str(control)]
    words += [f"{name.split()[0]}=127.0.0.1:{port}" for name, port in ports.items()]
    with (folder / "board.log").open("wb") as log:
        # (it is closed below, in good order)
        process = subprocess.Popen(  # pylint: disable=consider-using-with
            [str(program), *words], stdin=subprocess.DEVNULL, stdout=log, stderr=log, start_new_session=True
        )
    try:
        yield
    finally:
        try:
            with socket.create_connection(("127.0.0.1", control), timeout=5) as stream:
                stream.sendall(b"close\n")
                stream.recv(100)
            process.wait(10)
        except (OSError, subprocess.TimeoutExpired):
            process.kill()


class Player:
    """Partners that bring a trial its flights, and let time pass."""

    def __init__(self, ports: dict[str, int]) -> None:
        self.ports, self.chance = ports, random.Random(7)
        self.streams: dict[str, tuple[asyncio.StreamReader, asyncio.StreamWriter]] = {}

    async def ask(self, role: str, **command: object) -> str:
        """The reply to a line of a role."""
        if role not in self.streams:
            self.streams[role] = await asyncio.open_connection("127.0.0.1", self.ports[f"{role} of the trial"])
        reader, writer = self.streams[role]
        writer.write(json.dumps(command).encode() + b"\n")
        return (await reader.readline()).decode().strip()

    async def begin(self) -> None:
        """Brings the flights of the next hours."""
        now = datetime.now(timezone.utc)
        await self.ask("APT", cmd="migrate")
        for number in range(1, FLIGHTS + 1):
            off = now + timedelta(minutes=20 + 7 * number)
            time, airline = off.strftime("%Y-%m-%dT%H:%M:00Z"), AIRLINES[number % len(AIRLINES)]
            texts = {
                "callsign": f"{airline}{100 + number}",
                "type": "A320",
                "reg": f"DAI{chr(64 + number)}",
                "dest": DESTINATIONS[number % 6],
            }
            place = {"mttt": 40, "exit": 5, "exot": 10, "stand": 10 + number}
            await self.ask("APT", cmd="schedule", flight=number, sobt=time, **texts, **place)
            await self.ask("NM", cmd="report", flight=number, milestone=1, time=time, **texts)
            if number < 14:
                landed = (off - timedelta(minutes=50)).strftime("%Y-%m-%dT%H:%M:00Z")
                await self.ask("ATC", cmd="report", flight=number, milestone=6, time=landed)

    async def run(self) -> None:
        """Lets time pass, and reports now and then."""
        await self.begin()
        while True:
            await self.ask("APT", cmd="tick")
            await asyncio.sleep(20)
            number, now = self.chance.randint(1, FLIGHTS), datetime.now(timezone.utc)
            target = (now + timedelta(minutes=self.chance.randint(15, 60))).strftime("%Y-%m-%dT%H:%M:00Z")
            await self.ask("AO", cmd="report", flight=number, milestone=9, time=target)
            await asyncio.sleep(20)


def demo() -> int:  # pylint: disable=too-many-locals
    """Makes and opens all in the folder desk-demo, until Ctrl-C."""
    program, folder = find_program(), Path("desk-demo").resolve()
    folder.mkdir(mode=0o700, exist_ok=True)
    roles = list(ROLES)
    changes, control, *ports = free_ports(2 + 2 * len(roles) + 2)
    lines = dict(zip(roles, ports))
    trial = {f"{role} of the trial": port for role, port in zip(roles, ports[len(roles) :])}
    partners = {"swiss": ports[-2], "tower": ports[-1]}
    for name, about in (("authority", "trial authority"), ("partners", "trial authority of partners")):
        make_authority(folder, name, about)
    make_certificate(folder, "desk", "localhost", "authority", "DNS:localhost,IP:127.0.0.1")
    for name in partners:
        make_certificate(folder, name, name, "partners")
    prints = {name: fingerprint(folder, name) for name in partners}
    file = folder / "desk.toml"
    file.write_text(settings_text(changes, lines, partners, prints), encoding="utf-8")
    (folder / "day.journal").unlink(missing_ok=True)
    settings = read_settings(file)
    ledger = Ledger(settings.data, None)
    accounts, password = Accounts(ledger.base), secrets.token_urlsafe(9)
    for name in settings.people:
        accounts.set_password(name, password)
    token = accounts.add_token("swiss")
    ledger.close()
    addresses = {**lines, **trial, "AO of swiss": partners["swiss"], "ATC of tower": partners["tower"]}
    signal.signal(signal.SIGTERM, signal.default_int_handler)
    with board_of(program, folder, addresses, changes, control):
        print(about_text(folder, password, token), flush=True)
        try:
            asyncio.run(serve(Desk(settings), Player(trial)))
        except KeyboardInterrupt:
            print("the trial ends", flush=True)
        except OSError as error:
            print(f"desk: {error.strerror or error}", file=sys.stderr)
            return 2
    return 0


async def serve(desk: Desk, player: Player) -> None:
    """Runs the desk and the player, until it is interrupted."""
    for _ in range(100):
        try:
            await player.ask("APT", cmd="tick")
            break
        except OSError:
            await asyncio.sleep(0.1)
    playing = asyncio.create_task(player.run())
    try:
        await desk.start()
        await asyncio.Event().wait()
    finally:
        playing.cancel()
        await desk.stop()


def about_text(folder: Path, password: str, token: str) -> str:
    """What is said of a trial."""
    people = ", ".join(f"{name} ({role if role != 'none' else 'looks only'})" for name, (role, _, _) in PEOPLE.items())
    where = folder
    return f"""The desk is at https://localhost:8443/ (an authority of this trial signed it: {where}/authority.pem).
People: {people}; the password of each is {password}
A partner by HTTP:
  curl --cacert {where}/authority.pem -H 'Authorization: Bearer {token}' https://localhost:8444/v1/flights
  curl --cacert {where}/authority.pem --cert {where}/swiss.pem --key {where}/swiss.key https://localhost:8444/v1/alerts
A partner of lines over TLS:
  openssl s_client -quiet -CAfile {where}/authority.pem -cert {where}/tower.pem -key {where}/tower.key -connect localhost:8445
Health: http://127.0.0.1:9180/health and /metrics. Settings: {where}/desk.toml. Ctrl-C ends the trial."""
