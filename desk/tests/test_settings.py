"""The file of settings is read strictly: each fault names its line and its key."""
from pathlib import Path

import pytest
from harness import TOP  # noqa: F401  pylint: disable=unused-import

from kevotranjy_desk.scopes import ALL, NONE, Clause, Scope
from kevotranjy_desk.settings import BadSettings, Certificate, read_settings

GOOD = """[desk]
listen = "127.0.0.1:8443"
names = ["desk.example"]
certificate = "desk.pem"
key = "desk.key"
data = "desk.sqlite"
log = "desk.log"

[board]
changes = "127.0.0.1:4100"

[board.lines]
GH = "127.0.0.1:4005"

[partners]
http = "127.0.0.1:8444"
lines = "127.0.0.1:8445"
authorities = "desk.pem"

[[person]]
name = "anna"
role = "GH"
see = "all"
send = [{ airlines = ["DLH"], stands = [7, "10-19"] }, { flights = [12] }]

[[partner]]
name = "swiss"
role = "AO"
http = "127.0.0.1:4021"
see = [{ airlines = ["SWR"] }]
send = "none"

[[partner]]
name = "tower"
role = "ATC"
lines = ["127.0.0.1:4022"]
certificate = { issuer = "CN=a", name = "CN=t" }
see = "all"
send = "all"
"""


def written(folder: Path, text: str) -> Path:
    """A file of settings, with the files that it names."""
    for name in ("desk.pem", "desk.key"):
        (folder / name).write_text("", encoding="ascii")
    file = folder / "desk.toml"
    file.write_text(text, encoding="utf-8")
    return file


def test_a_good_file_is_read_whole(folder: Path) -> None:
    found = read_settings(written(folder, GOOD))
    assert found.listen == ("127.0.0.1", 8443) and found.names == ("desk.example",)
    assert found.lines == {"GH": ("127.0.0.1", 4005)} and found.changes == ("127.0.0.1", 4100)
    anna = found.people["anna"]
    assert (anna.role, anna.see) == ("GH", ALL)
    assert anna.send == Scope((Clause(("DLH",), frozenset(), ((7, 7), (10, 19))), Clause((), frozenset({12}), ())))
    assert found.partners["swiss"].send == NONE
    assert found.partners["tower"].certificate == Certificate(issuer="CN=a", name="CN=t")


@pytest.mark.parametrize(
    "before, after, line, reason",
    [
        ('listen = "127.0.0.1:8443"', 'listen = "127.0.0.1"', 2, "desk.listen is no address"),
        ('listen = "127.0.0.1:8443"', "listen = 8443", 2, "desk.listen is no text"),
        ('names = ["desk.example"]', 'names = ["desk example"]', 3, "desk.names[1] is no name of a host"),
        ('names = ["desk.example"]', "names = []", 3, "desk.names is no list, or an empty one"),
        ('key = "desk.key"', 'key = "other.key"', 5, "desk.key can't be read"),
        ('data = "desk.sqlite"', 'data = "away/desk.sqlite"', 6, "desk.data lies in no folder"),
        ('log = "desk.log"', "", 1, "desk.log is missing"),
        ('log = "desk.log"', 'log = "desk.log"\nport = 1', 8, "desk.port is not known"),
        ('[board]\nchanges = "127.0.0.1:4100"', "[board]", 9, "board.changes is missing"),
        ('GH = "127.0.0.1:4005"', 'GHX = "127.0.0.1:4005"', 13, "board.lines.GHX is not known"),
        ('role = "GH"', 'role = "XX"', 22, "person[1].role is none of"),
        ('role = "GH"', 'role = "APT"', 22, "person[1].role has no address in board.lines: APT"),
        ('name = "anna"', 'name = "Anna"', 21, "person[1].name is no name"),
        ('see = "all"\nsend = [{', 'see = "some"\nsend = [{', 23, 'person[1].see is neither "all" nor "none"'),
        ('stands = [7, "10-19"]', 'stands = [7, "19-10"]', 24, "person[1].send[1].stands[2] has no stand"),
        ("flights = [12]", "flights = [0]", 24, "person[1].send[2].flights[1] is no whole number from 1"),
        ("{ flights = [12] }", "{ flight = [12] }", 24, "person[1].send[2].flight is not known"),
        ("{ flights = [12] }", "{ }", 24, "person[1].send[2] names nothing"),
        ('http = "127.0.0.1:4021"', 'http = "127.0.0.1:4005"', 29, "partner[1].http is used by board.lines.GH already"),
        ('name = "tower"', 'name = "swiss"', 34, "partner[2].name stands twice"),
        ("certificate = { issuer", "certificate = { isuer", 37, "partner[2].certificate.issuer is missing"),
        ('certificate = { issuer = "CN=a", name = "CN=t" }', 'certificate = "sha256:12"', 37, "is no fingerprint"),
        ('lines = "127.0.0.1:8445"', "", 36, "partner[2].lines is of no use: partners.lines is missing"),
        ("[[person]]", "[limits]\nkey_days = 0\n[[person]]", 21, "limits.key_days is no whole number from 1 to 366"),
        ("[[person]]", "[[persons]]", 20, "persons is not known"),
        ('name = "anna"', 'name = "anna', 21, "it is no TOML"),
        ("[board.lines]", "[board.lines", 12, "it is no TOML"),
    ],
)
def test_a_fault_names_line_and_key(folder: Path, before: str, after: str, line: int, reason: str) -> None:
    assert before in GOOD
    with pytest.raises(BadSettings) as told:
        read_settings(written(folder, GOOD.replace(before, after, 1)))
    assert f"desk.toml: line {line}: " in str(told.value) and reason in str(told.value), str(told.value)
    assert "\n" not in str(told.value)


def test_a_file_that_is_away_or_no_text_is_told(folder: Path) -> None:
    with pytest.raises(BadSettings, match="desk.toml: No such file"):
        read_settings(folder / "desk.toml")
    (folder / "desk.toml").write_bytes(b"\xff")
    with pytest.raises(BadSettings, match="it is no UTF-8"):
        read_settings(folder / "desk.toml")
