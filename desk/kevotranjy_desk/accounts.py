"""Who signs in: passwords kept by argon2, second factors by RFC 6238, sessions of browsers, tokens of partners."""
import asyncio
import base64
import hashlib
import hmac
import re
import secrets
import sqlite3
import struct
import time
from dataclasses import dataclass

from argon2 import PasswordHasher
from argon2.exceptions import InvalidHash, VerificationError

TABLES = """
create table if not exists secret (
    name text primary key, password text not null, factor text, step integer not null default 0
);
create table if not exists browser (
    digest text primary key, name text not null, token text not null, begun real not null, heard real not null
);
create table if not exists token (digest text primary key, partner text not null);
"""
SESSION_SECONDS, IDLE_SECONDS = 12 * 3600, 4 * 3600
STEP_SECONDS, DIGITS = 30, 6
CODE = re.compile(r"\d{6}", re.ASCII)
LEAST_PASSWORD, LONGEST_PASSWORD = 10, 200
# (argon2id with the costs that the library proposes)
HASHER = PasswordHasher()


@dataclass(frozen=True)
class Session:
    """A browser in which somebody has signed in; the token is sent with each request that changes something."""

    digest: str
    name: str
    token: str


def digest_of(text: str) -> str:
    """What is kept of a text that has 256 bits by chance; of what is no text, as a stranger may send it, too."""
    return hashlib.sha256(text.encode("utf-8", "surrogatepass")).hexdigest()


def code_at(secret: str, step: int) -> str:
    """The code of a secret, in base32, at a step of 30 seconds (RFC 6238, with SHA-1 and six digits)."""
    key = base64.b32decode(secret + "=" * (-len(secret) % 8))
    mac = hmac.digest(key, struct.pack(">Q", step), "sha1")
    place = mac[-1] & 15
    number = struct.unpack(">I", mac[place : place + 4])[0] & 0x7FFFFFFF
    return f"{number % 10**DIGITS:0{DIGITS}}"


def step_of(secret: str, code: str, after: int, moment: float) -> int | None:
    """The step, later than one, of which this is the code: that of the moment, or one beside it."""
    if not CODE.fullmatch(code):
        return None
    now = int(moment // STEP_SECONDS)
    for step in (now - 1, now, now + 1):
        if step > after and hmac.compare_digest(code_at(secret, step).encode(), code.encode()):
            return step
    return None


class Accounts:
    """Secrets, sessions and tokens, in a file of SQLite."""

    def __init__(self, base: sqlite3.Connection) -> None:
        self._base = base
        self._turns = asyncio.Semaphore(2)
        # (a name that is not known takes as long as one that is)
        self._nobody = HASHER.hash(secrets.token_urlsafe())
        base.executescript(TABLES)

    def set_password(self, name: str, password: str) -> None:
        """Keeps a password of 10 to 200 characters, and ends the sessions of its name. ValueError for another."""
        if not LEAST_PASSWORD <= len(password) <= LONGEST_PASSWORD:
            raise ValueError(f"a password has {LEAST_PASSWORD} to {LONGEST_PASSWORD} characters")
        self._base.execute(
            "insert into secret (name, password) values (?, ?)"
            " on conflict (name) do update set password = excluded.password",
            (name, HASHER.hash(password)),
        )
        self._base.execute("delete from browser where name = ?", (name,))

    def set_factor(self, name: str) -> str:
        """Makes the secret of a second factor, in base32. KeyError where the name has no password."""
        secret = base64.b32encode(secrets.token_bytes(20)).decode()
        made = self._base.execute("update secret set factor = ?, step = 0 where name = ?", (secret, name))
        if not made.rowcount:
            raise KeyError(name)
        return secret

    def add_token(self, partner: str) -> str:
        """Makes a bearer token of a partner, in place of those that it had."""
        token = secrets.token_urlsafe(32)
        self._base.execute("delete from token where partner = ?", (partner,))
        self._base.execute("insert into token values (?, ?)", (digest_of(token), partner))
        return token

    def partner_of(self, token: str) -> str | None:
        """The partner whose bearer token this is."""
        row = self._base.execute("select partner from token where digest = ?", (digest_of(token),)).fetchone()
        return str(row[0]) if row else None

    async def is_right(self, name: str, password: str, code: str, needs_factor: bool) -> bool:
        """Whether password and second factor are right; each code counts once."""
        row = self._base.execute("select password, factor, step from secret where name = ?", (name,)).fetchone()
        kept, factor, last = row or (self._nobody, None, 0)
        async with self._turns:
            matches = await asyncio.get_running_loop().run_in_executor(None, self._matches, kept, password)
        if not row or not matches or (needs_factor and not factor):
            return False
        if factor:
            step = step_of(factor, code, last, time.time())
            if step is None:
                return False
            done = self._base.execute("update secret set step = ? where name = ? and step < ?", (step, name, step))
            return done.rowcount == 1
        return True

    def _matches(self, kept: str, password: str) -> bool:
        try:
            return bool(HASHER.verify(kept, password[:LONGEST_PASSWORD]))
        except (VerificationError, InvalidHash, UnicodeEncodeError):
            return False

    def begin(self, name: str) -> tuple[str, Session]:
        """Begins a session of a browser: what the browser keeps, and the session."""
        key, token = secrets.token_urlsafe(32), secrets.token_urlsafe(32)
        session = Session(digest_of(key), name, token)
        moment = time.time()
        self._base.execute("insert into browser values (?, ?, ?, ?, ?)", (session.digest, name, token, moment, moment))
        return key, session

    def session_of(self, key: str) -> Session | None:
        """The session of a browser by what it keeps, while it lasts: 12 hours, and 4 without a request."""
        moment = time.time()
        row = self._base.execute(
            "select digest, name, token, heard from browser where digest = ? and begun > ? and heard > ?",
            (digest_of(key), moment - SESSION_SECONDS, moment - IDLE_SECONDS),
        ).fetchone()
        if not row:
            return None
        if row[3] < moment - 60:
            self._base.execute("update browser set heard = ? where digest = ?", (moment, row[0]))
        return Session(*row[:3])

    def end(self, session: Session) -> None:
        self._base.execute("delete from browser where digest = ?", (session.digest,))

    def count(self) -> int:
        """How many sessions last."""
        moment = time.time()
        self._base.execute(
            "delete from browser where begun < ? or heard < ?", (moment - SESSION_SECONDS, moment - IDLE_SECONDS)
        )
        return int(self._base.execute("select count(*) from browser").fetchone()[0])
