"""The port for partners of lines: TLS with a certificate of each partner in front of the board's own addresses.

It is a process of its own, so that a line waits for nobody at the desk. Bytes pass unchanged both ways: to the board,
or of a partner that is bound to some flights to the desk, which judges its lines (`bound_lines.py`). It reads its
settings as the desk does, tells what happens as lines of JSON on standard output, and ends with its standard input.
"""
import json
import re
import select
import socket
import ssl
import sys
import time
from collections import deque
from pathlib import Path
from typing import Any

from feed import Address

from .certificates import holder_of, partner_with, partners_context
from .settings import Partner, Settings, read_settings

PIECE, MOST_WAITING, MOST_CONNECTIONS = 1 << 16, 1 << 18, 512
HANDSHAKE_SECONDS, CONNECT_SECONDS, STALLED_SECONDS = 5.0, 3.0, 30.0
REPLY = re.compile(rb"(?:ok|no|rec|alerts|migrated) (\d{1,20})[ \n]")
READ, WRITE = select.EPOLLIN | select.EPOLLHUP | select.EPOLLERR, select.EPOLLOUT
# (the board replies within this mostly: to look so long for its reply costs less than to sleep and be woken)
LOOKS_FOR = 0.0001
WANTS = (ssl.SSLWantReadError, ssl.SSLWantWriteError, BlockingIOError)


class End:
    """One end of a pair of connections: what waits to be sent to it, and whether it has sent all."""

    def __init__(self, pair: "Pair", stream: Any, is_client: bool) -> None:
        self.pair, self.stream, self.is_client = pair, stream, is_client
        self.waiting: deque[bytes] = deque()
        self.size = 0
        self.has_ended = self.is_shut = False
        self.events = 0
        # Since when nothing of what waits was taken.
        self.since = 0.0


class Pair:
    """A partner's client, and the connection to the board that is made for it."""

    def __init__(self, client: ssl.SSLSocket, peer: str) -> None:
        self.client, self.peer = End(self, client, True), peer
        self.board: End | None = None
        self.partner: Partner | None = None
        self.address: Address | None = None
        self.stage, self.until = "handshake", time.monotonic() + HANDSHAKE_SECONDS
        self.begun = b""
        self.is_learned = False


class Front:
    """All pairs, and the loop that passes their bytes on."""

    def __init__(self, settings: Settings, context: ssl.SSLContext, listener: socket.socket, bound: str) -> None:
        # (bound is the desk's socket for partners that are bound to some flights)
        self.settings, self.context, self.listener, self.bound = settings, context, listener, bound
        self.events = select.epoll()
        self.ends: dict[int, End] = {}
        self.pairs: set[Pair] = set()
        self.places: dict[Address, Pair] = {}

    def run(self) -> None:
        """Serves until standard input ends."""
        self.listener.setblocking(False)
        listener, standard_input = self.listener.fileno(), sys.stdin.fileno()
        for number in (listener, standard_input):
            self.events.register(number, READ)
        looked = time.monotonic()
        while True:
            for number, mask in self.events.poll(0.5):
                end = self.ends.get(number)
                if end is not None:
                    self.act(end, mask)
                elif number == standard_input:
                    return
                elif number == listener:
                    self.accept()
            if time.monotonic() - looked > 0.5:
                looked = time.monotonic()
                self.let_go_slow(looked)

    def accept(self) -> None:
        try:
            stream, peer = self.listener.accept()
        except OSError:
            return
        stream.setblocking(False)
        stream.setsockopt(socket.IPPROTO_TCP, socket.TCP_NODELAY, 1)
        stream.setsockopt(socket.SOL_SOCKET, socket.SO_KEEPALIVE, 1)
        if len(self.pairs) >= MOST_CONNECTIONS:
            tell("refused", client=peer[0], why="too many connections")
            stream.close()
            return
        client = self.context.wrap_socket(
            stream, server_side=True, do_handshake_on_connect=False, suppress_ragged_eofs=False
        )
        pair = Pair(client, str(peer[0]))
        self.pairs.add(pair)
        self.watch(pair.client, READ)

    def watch(self, end: End, events: int) -> None:
        """Has the system tell of these events of an end."""
        if events == end.events:
            return
        number = end.stream.fileno()
        if not end.events:
            self.ends[number] = end
            self.events.register(number, events)
        elif events:
            self.events.modify(number, events)
        else:
            del self.ends[number]
            self.events.unregister(number)
        end.events = events

    def act(self, end: End, mask: int) -> None:
        """Goes on with a pair where it can."""
        pair = end.pair
        if pair not in self.pairs:
            return
        try:
            if pair.stage == "handshake":
                self.shake(pair)
            elif pair.stage == "connect":
                if end is pair.board:
                    self.connected(pair, end)
            else:
                self.pass_on(pair, end, mask)
                if end.is_client:
                    self.look(pair)
        except WANTS:
            pass
        except (OSError, ValueError) as error:
            self.close(pair, str(getattr(error, "reason", None) or error))

    def shake(self, pair: Pair) -> None:
        """Goes on with the handshake; then the certificate says whose client this is."""
        client: ssl.SSLSocket = pair.client.stream
        try:
            client.do_handshake()
        except ssl.SSLWantWriteError:
            self.watch(pair.client, WRITE)
            return
        except ssl.SSLWantReadError:
            self.watch(pair.client, READ)
            return
        except (ssl.SSLError, OSError) as error:
            why = getattr(error, "verify_message", None) or getattr(error, "reason", None) or str(error)
            tell("refused", client=pair.peer, why=str(why))
            self.close(pair, "")
            return
        holder = holder_of(client)
        partner = partner_with(holder, self.settings) if holder else None
        if partner is None or not partner.lines:
            tell("refused", client=pair.peer, certificate=holder.name if holder else None, why="nobody's certificate")
            self.close(pair, "")
            return
        pair.partner = partner
        self.connect(pair, partner)

    def connect(self, pair: Pair, partner: Partner) -> None:
        """Connects to an address of the partner that is free, else in place of the client that came first."""
        free = [at for at in partner.lines if at not in self.places]
        if free:
            pair.address = free[0]
        else:
            oldest = min(partner.lines, key=lambda at: self.places[at].until)
            self.close(self.places[oldest], "another client of this partner has come")
            pair.address = oldest
        self.places[pair.address] = pair
        stream, where = self.way_for(partner, pair.address)
        pair.board = End(pair, stream, False)
        pair.stage, pair.until = "connect", time.monotonic() + CONNECT_SECONDS
        self.watch(pair.client, 0)
        stream.connect_ex(where)
        self.watch(pair.board, WRITE)

    def way_for(self, partner: Partner, address: Address) -> tuple[socket.socket, Any]:
        """A socket for a client of a partner, and where it connects: to the desk where the partner is bound."""
        if partner.is_bound:
            stream = socket.socket(socket.AF_UNIX, socket.SOCK_STREAM)
        else:
            stream = socket.socket(socket.AF_INET6 if ":" in address[0] else socket.AF_INET, socket.SOCK_STREAM)
            stream.setsockopt(socket.IPPROTO_TCP, socket.TCP_NODELAY, 1)
        stream.setblocking(False)
        return stream, self.bound if partner.is_bound else address

    def connected(self, pair: Pair, board: End) -> None:
        error = board.stream.getsockopt(socket.SOL_SOCKET, socket.SO_ERROR)
        if error:
            self.close(pair, "the board is away")
            return
        # (from here on the time at which it came says which client of a partner is the oldest)
        pair.stage, pair.until = "pass", time.monotonic()
        assert pair.partner
        if pair.partner.is_bound:
            told = {"partner": pair.partner.name, "client": pair.peer, "address": pair.address}
            board.stream.send(json.dumps(told).encode() + b"\n")
        tell("here", partner=pair.partner.name, client=pair.peer, address=pair.address)
        self.watch(board, READ)
        self.watch(pair.client, READ)
        self.pass_on(pair, pair.client, READ)

    def pass_on(self, pair: Pair, end: End, mask: int) -> None:
        """Reads what has come at an end, and sends what waits for it."""
        board = pair.board
        assert board
        other = board if end is pair.client else pair.client
        if mask & WRITE or end.waiting:
            self.send(end)
            # (what TLS has read already is not told of by the system)
            if other.is_client and other.stream.pending():
                self.receive(other, end)
        if mask & READ or (end.is_client and end.stream.pending()):
            self.receive(end, other)
        self.renew(end, other)
        self.renew(other, end)
        if end.has_ended and other.has_ended and not end.waiting and not other.waiting:
            self.close(pair, "")

    def look(self, pair: Pair) -> None:
        """Looks for the board's reply for a moment."""
        board, until = pair.board, time.perf_counter() + LOOKS_FOR
        assert board
        while pair in self.pairs and not board.waiting and not board.has_ended:
            try:
                data = board.stream.recv(PIECE, socket.MSG_PEEK)
            except BlockingIOError:
                if time.perf_counter() > until:
                    return
                continue
            if data:
                self.pass_on(pair, board, READ)
            return

    def receive(self, source: End, target: End) -> None:
        """Takes what has come at an end, while the other one takes it."""
        while not source.has_ended and target.size < MOST_WAITING:
            try:
                data = source.stream.recv(PIECE)
            except WANTS:
                return
            if not data:
                source.has_ended = True
                self.send(target)
                return
            if not source.is_client and not source.pair.is_learned:
                self.learn(source.pair, data)
            if target.waiting:
                target.waiting.append(data)
                target.size += len(data)
                self.send(target)
            else:
                self.send_now(target, data)
            if not source.is_client or not source.stream.pending():
                return

    def send_now(self, end: End, data: bytes) -> None:
        """Sends data, of which what is not taken waits."""
        try:
            sent = end.stream.send(data)
        except WANTS:
            sent = 0
        if sent or not end.waiting:
            end.since = time.monotonic()
        if sent < len(data):
            end.waiting.append(data[sent:])
            end.size += len(data) - sent

    def send(self, end: End) -> None:
        """Sends what waits for an end; where all was sent and the other one has ended, so does this."""
        while end.waiting:
            data = end.waiting.popleft()
            end.size -= len(data)
            before = end.size
            self.send_now(end, data)
            if end.size > before:
                # (what was not taken goes to the front again)
                end.waiting.rotate(1)
                return
        pair = end.pair
        other = pair.board if end is pair.client else pair.client
        if other and other.has_ended and not end.is_shut:
            end.is_shut = True
            if end.is_client:
                self.close(pair, "")
            else:
                end.stream.shutdown(socket.SHUT_WR)

    def renew(self, source: End, target: End) -> None:
        """Asks for what an end can go on with."""
        if source.pair not in self.pairs:
            return
        wanted = WRITE if source.waiting else 0
        if not source.has_ended and target.size < MOST_WAITING:
            wanted |= READ
        self.watch(source, wanted)

    def learn(self, pair: Pair, data: bytes) -> None:
        """Tells the first entry of a client, by which the desk knows the session of its partner."""
        pair.begun = (pair.begun + data)[:200]
        found = REPLY.search(pair.begun)
        if found and pair.partner:
            tell("reply", partner=pair.partner.name, entry=int(found[1]))
        pair.is_learned = bool(found) or len(pair.begun) >= 200

    def let_go_slow(self, moment: float) -> None:
        """Lets go those who do not come to an end with their handshake, or take nothing for 30 seconds."""
        for pair in list(self.pairs):
            ends = [end for end in (pair.client, pair.board) if end and end.waiting]
            if any(moment - end.since > STALLED_SECONDS for end in ends):
                self.close(pair, "nothing was taken for 30 seconds")
                continue
            if pair.stage != "pass" and moment > pair.until:
                why = "no handshake in time" if pair.stage == "handshake" else "the board is away"
                if pair.stage == "handshake":
                    tell("refused", client=pair.peer, why=why)
                self.close(pair, why)

    def close(self, pair: Pair, why: str) -> None:
        """Ends both connections of a pair."""
        if pair not in self.pairs:
            return
        self.pairs.discard(pair)
        if pair.address and self.places.get(pair.address) is pair:
            del self.places[pair.address]
        if pair.partner and pair.stage == "pass":
            tell("gone", partner=pair.partner.name, client=pair.peer, address=pair.address, why=why or None)
        elif pair.partner:
            tell("refused", partner=pair.partner.name, client=pair.peer, why=why)
        for end in (pair.client, pair.board):
            if end is None:
                continue
            self.watch(end, 0)
            if end.is_client and pair.stage == "pass" and not why:
                try:
                    end.stream.unwrap()
                except (OSError, ValueError):
                    pass
            end.stream.close()


def tell(event: str, **facts: Any) -> None:
    """Tells the desk what happens."""
    print(json.dumps({"event": event, **facts}), flush=True)


def main(path: Path, bound: str = "") -> int:
    """Serves the partners of lines that a file of settings names; those that are bound by the desk's socket."""
    settings = read_settings(path)
    assert settings.ports and settings.ports.lines
    context = partners_context(settings.certificate, settings.key, settings.ports, is_required=True)
    host, port = settings.ports.lines
    family = socket.AF_INET6 if ":" in host else socket.AF_INET
    try:
        listener = socket.create_server((host, port), family=family, backlog=128)
    except OSError as error:
        print(f"desk: lines: {host}:{port}: {error.strerror}", file=sys.stderr, flush=True)
        return 2
    with listener:
        tell("listens", port=listener.getsockname()[1])
        Front(settings, context, listener, bound).run()
    return 0
