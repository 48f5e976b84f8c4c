"""Who listens at an address of this machine, as /proc tells it: a wrong address is told so without a connection to it.

Nothing is found where the board runs on another machine, or as a user whose processes may not be looked at.
"""
import ipaddress
import os
import re
import socket
from collections.abc import Iterator
from dataclasses import dataclass
from pathlib import Path

from feed import Address
from words import ROLES

try:
    import tomllib
except ImportError:
    # (before Python 3.11: Debian's python3-tomli is the same library)
    import tomli as tomllib  # type: ignore[no-redef]

LISTENS = "0A"
LOOKS = 3
PURPOSES = {
    "--changes": "the feed of changes (--changes)",
    "--watch": "the journal as text (--watch)",
    "--web": "the page for browsers (--web)",
    "--control": "the control address (--control)",
}


@dataclass
class Listener:
    """A process that listens, and the words that it was started with."""

    process: int
    words: list[str]

    def meant(self) -> list[str]:
        """Its words, with those that a file of settings stands for in the place of `--config FILE`."""
        place = self.words.index("--config") if "--config" in self.words[:-1] else len(self.words)
        named = self.words[place + 1 : place + 2]
        try:
            found = [word for name in named for word in words_of_settings(Path(f"/proc/{self.process}/cwd") / name)]
        except (OSError, ValueError):
            return self.words
        return [*self.words[:place], *found, *self.words[place + 2 :]]

    def is_board(self) -> bool:
        """Whether it was started as `acdm serve` or `acdm follow` is, with a partner at least."""
        serves = any(word in ("serve", "follow") for word in self.words[1:])
        return serves and any(name in ROLES for name, _ in self.ports())

    def ports(self) -> list[tuple[str, str]]:
        """Each option and role with the port that it names; 0 is one that the system chose."""
        words = [part for word in self.meant() for part in (word.split("=", 1) if word.startswith("--") else [word])]
        found = [(option, value) for option, value in zip(words, words[1:]) if option in PURPOSES]
        found += [(role, value) for role, _, value in (word.partition("=") for word in words) if role in ROLES]
        return [(name, value.rpartition(":")[2]) for name, value in found]

    def word(self, port: int) -> str | None:
        """The option or the role that names a port, or that alone may have it."""
        ports = self.ports()
        named = [name for name, value in ports if value == str(port)]
        chosen = {name for name, value in ports if value == "0"}
        return named[0] if named else chosen.pop() if len(chosen) == 1 else None

    def may_be(self, wanted: str, port: int) -> bool:
        """Whether the option or a role may have this port, as far as its words tell."""
        ports = self.ports()
        named = [name for name, value in ports if value == str(port)]
        return wanted in named if named else (wanted, "0") in ports


def words_of_settings(file: Path) -> list[str]:
    """The words that a file of settings stands for (docs/FORMATS.md). ValueError where it is no TOML."""
    found = tomllib.loads(file.read_text(encoding="utf-8"))
    words = [str(word) for word in found.pop("partners", [])]
    for name, value in found.items():
        if value is not False:
            words.append(f"--{name}" if value is True else f"--{name}={value}")
    return words


def purpose(word: str) -> str:
    """What stands at the address that an option or a role names, in words."""
    return PURPOSES.get(word) or f"the address of {word}"


def host_of(digits: str) -> str:
    """The host that a table of /proc/net names: words of 32 bits, each with its last byte first."""
    data = bytes.fromhex(digits)
    turned = b"".join(data[place : place + 4][::-1] for place in range(0, len(data), 4))
    return str(ipaddress.ip_address(turned))


def sockets_at(where: Address) -> Iterator[str]:
    """The numbers of the sockets that listen at an address."""
    hosts = {str(found[4][0]) for found in socket.getaddrinfo(*where, type=socket.SOCK_STREAM)} | {"0.0.0.0", "::"}
    for table in ("/proc/net/tcp", "/proc/net/tcp6"):
        try:
            lines = Path(table).read_text(encoding="ascii").splitlines()[1:]
        except OSError:
            continue
        for line in lines:
            words = line.split()
            host, port = words[1].split(":")
            if words[3] == LISTENS and int(port, 16) == where[1] and host_of(host) in hosts:
                yield words[9]


def listener_at(where: Address) -> Listener | None:
    """Who listens at an address, where that can be seen."""
    try:
        # (a table that changes while it is read may leave a line out)
        wanted = {f"socket:[{number}]" for _ in range(LOOKS) for number in sockets_at(where)}
    except OSError:
        return None
    processes = sorted(int(name) for name in os.listdir("/proc") if re.fullmatch(r"\d+", name)) if wanted else []
    for process in processes:
        folder = f"/proc/{process}/fd"
        try:
            if any(os.readlink(f"{folder}/{name}") in wanted for name in os.listdir(folder)):
                words = Path(f"/proc/{process}/cmdline").read_bytes().decode("utf-8", "replace").split("\0")
                return Listener(process, words[:-1])
        except OSError:
            continue
    return None
