"""The words of the command line: run, check, password, second factor, token, log, and a trial of all."""
import argparse
import asyncio
import getpass
import json
import sys
from pathlib import Path
from typing import Any
from urllib.parse import quote

from feed import Arguments

from . import front, openapi
from .accounts import Accounts
from .app import run
from .demo import demo
from .ledger import Ledger, Written
from .settings import BadSettings, Settings, read_settings


def opened(settings: Settings) -> tuple[Ledger, Accounts]:
    """The file of secrets and lines; it may be used while the desk runs."""
    ledger = Ledger(settings.data, None)
    return ledger, Accounts(ledger.base)


def person_in(settings: Settings, name: str) -> str:
    if name not in settings.people:
        raise BadSettings(f"{settings.path}: no person is named {name}")
    return name


def set_password(given: argparse.Namespace, settings: Settings) -> int:
    """Takes a password from the keyboard, or a line of standard input."""
    name = person_in(settings, given.name)
    password = getpass.getpass("password: ") if sys.stdin.isatty() else sys.stdin.readline().rstrip("\n")
    ledger, accounts = opened(settings)
    try:
        accounts.set_password(name, password)
    except ValueError as error:
        raise BadSettings(str(error)) from None
    finally:
        ledger.close()
    print(f"the password of {name} is set")
    return 0


def set_factor(given: argparse.Namespace, settings: Settings) -> int:
    """Makes a second factor, and prints it for the person's app."""
    name = person_in(settings, given.name)
    ledger, accounts = opened(settings)
    try:
        secret = accounts.set_factor(name)
    except KeyError:
        raise BadSettings(f"{name} has no password yet: desk password {name}") from None
    finally:
        ledger.close()
    print(f"otpauth://totp/{quote('A-CDM desk')}:{quote(name)}?secret={secret}&issuer={quote('A-CDM desk')}")
    return 0


def add_token(given: argparse.Namespace, settings: Settings) -> int:
    """Makes a bearer token of a partner, and prints it once."""
    if given.name not in settings.partners:
        raise BadSettings(f"{settings.path}: no partner is named {given.name}")
    ledger, accounts = opened(settings)
    print(accounts.add_token(given.name))
    ledger.close()
    return 0


def log_line(line: Written, as_json: bool) -> str:
    """A line of the log as it is printed."""
    if as_json:
        return json.dumps(line.__dict__)
    entry = f"entry {line.entry}" if line.entry is not None else line.state
    note = f" ({line.state})" if line.entry is not None and line.state != "replied" else ""
    author = f"{line.who} [{line.kind} {line.client or '-'}] {line.address}"
    return f"{line.moment} {author}: {json.dumps(line.command)} -> {entry}, {line.reply or 'no reply'}{note}"


def print_log(given: argparse.Namespace, settings: Settings) -> int:
    """Prints who did what."""
    ledger = Ledger(settings.data, None)
    for line in ledger.lines_of(given.flight, given.who, given.most):
        print(log_line(line, given.json))
    ledger.close()
    return 0


def check(_given: argparse.Namespace, settings: Settings) -> int:
    """Says that the settings are right, and which people have no password."""
    ledger, accounts = opened(settings)
    rows = ledger.base.execute("select name from secret").fetchall()
    del accounts
    known = {name for (name,) in rows}
    for name in settings.people:
        if name not in known:
            print(f"{name} has no password yet: desk password {name}")
    print(f"{settings.path}: {len(settings.people)} people, {len(settings.partners)} partners")
    ledger.close()
    return 0


def run_desk(_given: argparse.Namespace, settings: Settings) -> int:
    return asyncio.run(run(settings))


def words() -> Arguments:
    """The words that are understood."""
    whole = Arguments(prog="desk", description="A desk for people and partners in front of acdm serve --again.")
    whole.add_argument("--demo", action="store_true", help="a trial: makes certificates and a board, and opens all")
    parts = whole.add_subparsers(dest="command", metavar="COMMAND")

    def part(name: str, about: str, work: Any) -> argparse.ArgumentParser:
        found = parts.add_parser(name, help=about, description=about)
        found.add_argument("--settings", type=Path, default=Path("desk.toml"), metavar="FILE", help="desk.toml")
        found.set_defaults(work=work)
        return found

    part("run", "Serves people and partners.", run_desk)
    part("check", "Reads the settings, and says what is missing.", check)
    part("password", "Sets a person's password: one line of standard input.", set_password).add_argument("name")
    part("factor", "Makes a person's second factor (TOTP).", set_factor).add_argument("name")
    part("token", "Makes a partner's bearer token.", add_token).add_argument("name")
    log = part("log", "Prints who did what.", print_log)
    log.add_argument("--flight", type=int, help="of this flight")
    log.add_argument("--who", help="of this person or partner")
    log.add_argument("--most", type=int, default=1000, help="so many lines at most; 1000")
    log.add_argument("--json", action="store_true", help="as JSON")
    return whole


def main(arguments: list[str]) -> int:
    """Runs a command; its status is 2 with one line where something is wrong with words or settings."""
    if len(arguments) in (2, 3) and arguments[0] == "front":
        return front.main(Path(arguments[1]), *arguments[2:])
    if arguments == ["openapi"]:
        print(openapi.text(), end="")
        return 0
    given = words().parse_args(arguments)
    try:
        if given.demo:
            return demo()
        if not given.command:
            words().error("a command is missing: run, check, password, factor, token, log, or --demo")
        return int(given.work(given, read_settings(given.settings)))
    except (BadSettings, OSError) as why:
        told = f"{why.filename or ''}: {why.strerror}" if isinstance(why, OSError) else str(why)
        print(f"desk: {told}", file=sys.stderr)
        return 2
    except KeyboardInterrupt:
        return 130
