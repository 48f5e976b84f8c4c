"""The words of the command line: passwords, second factors, tokens, the log, and what is wrong with words and files."""
import asyncio
import contextlib
import io
import sys
import time
from pathlib import Path
from unittest import mock

import pytest
from test_settings import GOOD, written

from kevotranjy_desk import commands
from kevotranjy_desk.accounts import Accounts, code_at
from kevotranjy_desk.ledger import REPLIED, Author, Ledger

LONG = "a long pass-word "


def desk(folder: Path, *words: str, given: str = "") -> tuple[int, str, str]:
    """What came of a command: its status, and what it printed, with the folder left out."""
    settings = ["--settings", str(folder / "desk.toml")] if words else []
    out, said, status = io.StringIO(), io.StringIO(), 0
    with (
        mock.patch.object(sys, "stdin", io.StringIO(given)),
        contextlib.redirect_stdout(out),
        contextlib.redirect_stderr(said),
    ):
        try:
            status = commands.main([*words, *settings])
        except SystemExit as end:
            status = int(end.code or 0)
    return status, out.getvalue().replace(f"{folder}/", ""), said.getvalue().replace(f"{folder}/", "")


def is_right(folder: Path, password: str, code: str = "", needs: bool = False) -> bool:
    """Whether anna signs in by these."""
    ledger = Ledger(folder / "desk.sqlite", None)
    found = asyncio.run(Accounts(ledger.base).is_right("anna", password, code, needs))
    ledger.close()
    return found


def test_passwords_factors_and_tokens(folder: Path) -> None:
    """What a command sets is what counts, from its first use on."""
    written(folder, GOOD)
    summary = "desk.toml: 1 people, 2 partners\n"
    assert desk(folder, "check") == (0, f"anna has no password yet: desk password anna\n{summary}", "")
    assert desk(folder, "factor", "anna") == (2, "", "desk: anna has no password yet: desk password anna\n")
    for short in ("", "nine char", "x" * 201):
        told = "desk: a password has 10 to 200 characters\n"
        assert desk(folder, "password", "anna", given=short + "\n") == (2, "", told)
    assert desk(folder, "password", "anna", given=f"{LONG}\nmore\n") == (0, "the password of anna is set\n", "")
    assert desk(folder, "check") == (0, summary, "")
    assert is_right(folder, LONG) and not is_right(folder, LONG.strip()) and not is_right(folder, LONG, needs=True)
    status, told, said = desk(folder, "factor", "anna")
    assert (status, said) == (0, "") and told.startswith("otpauth://totp/A-CDM%20desk:anna?secret=")
    secret = told.partition("secret=")[2].partition("&")[0]
    assert told.endswith("&issuer=A-CDM%20desk\n") and not is_right(folder, LONG)
    assert is_right(folder, LONG, code_at(secret, int(time.time()) // 30), needs=True)
    tokens = []
    for _ in range(2):
        status, token, said = desk(folder, "token", "swiss")
        assert (status, said, token.count("\n")) == (0, "", 1)
        tokens.append(token.strip())
    ledger = Ledger(folder / "desk.sqlite", None)
    assert [Accounts(ledger.base).partner_of(it) for it in tokens] == [None, "swiss"], "the new one takes its place"
    ledger.close()
    assert (folder / "desk.sqlite").stat().st_mode & 0o077 == 0


def test_the_log_is_printed(folder: Path) -> None:
    written(folder, GOOD)
    ledger = Ledger(folder / "desk.sqlite", None)
    for flight, who in ((7, "anna"), (8, "otto"), (7, "otto")):
        author = Author(who, "person", "127.0.0.1")
        number = ledger.begin("j", author, "GH", {"cmd": "report", "flight": flight})
        if flight == 7:
            ledger.end(number, REPLIED if who == "anna" else "from the feed", number, f"ok {number}")
    ledger.close()
    status, text, said = desk(folder, "log")
    lines = [line.partition("Z ")[2] for line in text.splitlines()]
    assert (status, said) == (0, "") and lines == [
        'anna [person 127.0.0.1] GH: {"cmd": "report", "flight": 7} -> entry 1, ok 1',
        'otto [person 127.0.0.1] GH: {"cmd": "report", "flight": 8} -> sent, no reply',
        'otto [person 127.0.0.1] GH: {"cmd": "report", "flight": 7} -> entry 3, ok 3 (from the feed)',
    ]
    for words, kept in ((("--flight", "7"), [0, 2]), (("--who", "otto"), [1, 2]), (("--most", "1"), [2])):
        text = desk(folder, "log", *words)[1]
        assert [line.partition("Z ")[2] for line in text.splitlines()] == [lines[place] for place in kept], words


@pytest.mark.parametrize(
    "words, said",
    [
        ((), "a command is missing: run, check, password, factor, token, log, or --demo"),
        (("begin",), "argument COMMAND: invalid choice: 'begin'"),
        (("password",), "the following arguments are required: name"),
        (("password", "nobody"), "desk.toml: no person is named nobody"),
        (("password", "swiss"), "desk.toml: no person is named swiss"),
        (("factor", "nobody"), "desk.toml: no person is named nobody"),
        (("token", "anna"), "desk.toml: no partner is named anna"),
        (("log", "--flight", "x"), "argument --flight: invalid int value: 'x'"),
    ],
)
def test_words_that_are_wrong_are_told_in_one_line(folder: Path, words: tuple[str, ...], said: str) -> None:
    written(folder, GOOD)
    status, out, told = desk(folder, *words, given=f"{LONG}\n")
    assert (status, out, told.count("\n")) == (2, "", 1), told
    assert told.startswith(("desk: ", f"desk {words[0] if words else ''}: ")) and said in told


def test_files_that_can_not_be_used_are_told_in_one_line(folder: Path) -> None:
    """No settings, and a file of secrets that is a folder, as one of another user."""
    told = "desk: desk.toml: No such file or directory\n"
    for words in (("check",), ("run",), ("log",)):
        assert desk(folder, *words) == (2, "", told)
    written(folder, GOOD.replace("desk.sqlite", "secrets"))
    (folder / "secrets").mkdir()
    for words in (("check",), ("run",), ("log",), ("token", "swiss")):
        assert desk(folder, *words) == (2, "", "desk: secrets: Is a directory\n"), words


def test_sessions_last_for_hours(folder: Path, monkeypatch: pytest.MonkeyPatch) -> None:
    """12 hours, and 4 without a request; until one signs out, or has another password."""
    ledger, moment = Ledger(folder / "desk.sqlite", None), [0.0]
    monkeypatch.setattr(time, "time", lambda: moment[0])
    accounts = Accounts(ledger.base)
    for name in ("anna", "otto"):
        accounts.set_password(name, LONG)
    (used, _), (idle, _), (other, session), (third, _) = (
        accounts.begin(name) for name in ("anna", "anna", "otto", "anna")
    )
    for hours, found in ((3.9, True), (7.8, True), (11.7, True), (11.99, True), (12.01, False)):
        moment[0] = 3600 * hours
        assert (accounts.session_of(used) is not None) is found, hours
        assert hours > 4 or accounts.session_of(third)
        if hours == 7.8:
            assert accounts.session_of(idle) is None and accounts.session_of(third) is not None
            assert accounts.count() == 2, "those that still last"
    moment[0] = 1000.0
    key, _ = accounts.begin("anna")
    accounts.set_password("anna", f"{LONG}again")
    assert accounts.session_of(key) is None
    other, session = accounts.begin("otto")
    found_ = accounts.session_of(other)
    assert found_ is not None and found_.token == session.token
    accounts.end(session)
    assert accounts.session_of(other) is None and accounts.session_of("") is None
    ledger.close()
