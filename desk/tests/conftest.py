"""The board, the certificates and the desk of the tests."""
from collections.abc import Iterator
from pathlib import Path

import pytest
from harness import PROGRAM, Board, Certificates, Client, Room, Running

PARTNERS = """
[[partner]]
name = "swiss"
role = "AO"
see = [{{ airlines = ["SWR"] }}]
send = [{{ airlines = ["SWR"] }}]
http = "127.0.0.1:{swiss}"
certificate = "{print}"

[[partner]]
name = "airport"
role = "APT"
see = "all"
send = "all"
http = "127.0.0.1:{airport}"

[[partner]]
name = "tower"
role = "ATC"
see = "all"
send = "all"
lines = ["127.0.0.1:{tower}"]
certificate = {{ issuer = "CN=partners", name = "CN=tower" }}

[[partner]]
name = "handler"
role = "GH"
see = "all"
send = "all"
lines = ["127.0.0.1:{handler1}", "127.0.0.1:{handler2}"]
certificate = "{handler_print}"

[[partner]]
name = "bound"
role = "AO"
see = [{{ airlines = ["DLH"] }}, {{ airlines = ["SWR"] }}]
send = [{{ airlines = ["DLH"] }}]
lines = ["127.0.0.1:{bound}"]
certificate = "{bound_print}"

[[partner]]
name = "bound-airport"
role = "APT"
see = [{{ airlines = ["SWR"], stands = ["40-49"] }}]
send = [{{ airlines = ["SWR"], stands = ["40-49"] }}]
lines = ["127.0.0.1:{bound_airport}"]
certificate = {{ issuer = "CN=partners", name = "CN=bound-airport" }}

[[partner]]
name = "gone"
role = "GH"
see = "all"
send = "all"
lines = ["127.0.0.1:{gone}"]
certificate = "{gone_print}"

[[partner]]
name = "viewer"
role = "none"
see = "all"
send = "none"
"""
MORE = (
    "AO swiss", "APT airport", "ATC tower", "GH handler1", "GH handler2", "GH gone", "AO bound", "APT bound_airport"
)  # fmt: skip


def partners_text(board: Board, certificates: Certificates) -> str:
    """The partners of the tests."""
    ports = {name.split()[1]: board.ports[name] for name in MORE}
    prints = certificates.prints
    return PARTNERS.format(
        **ports,
        print=prints["swiss"],
        handler_print=prints["handler"],
        gone_print=prints["revoked"],
        bound_print=prints["bound"],
    )


@pytest.fixture(scope="session", name="certificates")
def _certificates() -> Iterator[Certificates]:
    with Room() as folder:
        yield Certificates(folder)


@pytest.fixture(name="folder")
def _folder() -> Iterator[Path]:
    with Room() as folder:
        yield folder


@pytest.fixture(scope="module", name="running")
def _running(certificates: Certificates) -> Iterator[Running]:
    """A desk and a board with flights, for all tests of a file."""
    if not PROGRAM.is_file():
        pytest.skip(f"there is no program at {PROGRAM}, name it by ACDM")
    with Room() as folder:
        board = Board(folder, MORE)
        try:
            board.flight(7)
            board.flight(8, "SWR8", 41)
            board.flight(9, "BAW9", 99)
            running = Running(folder, certificates, board, partners_text(board, certificates))
            try:
                yield running
            finally:
                running.stop()
        finally:
            board.kill()


@pytest.fixture(name="anna")
def _anna(running: Running) -> Client:
    return Client(running).sign_in("anna")
