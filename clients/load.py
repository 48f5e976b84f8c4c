#!/usr/bin/env python3
"""Loads a local rule into a running board: compiles it, has it judged, explains a refusal, and sends it.

    clients/load.py RULE --milestone M --kind tobt|alert ADDRESS [--length 160] [--feed ADDRESS]
    clients/load.py RULE [--length 160]

RULE is a source in C whose rule stands in the section `entry` (docs/RULES-IN-C.md), or the bytes of a compiled one,
named *.bin. ADDRESS is one of the airport's (APT) addresses of `acdm serve`; without one the rule is only judged. Under
`serve --again` this takes the place of who is connected there: keep an address for rules. Where the board runs on this
machine, an address of another role is told so, and is not connected to. It needs clang and LLVM's tools. The status is
0 where the board has taken it, or without an ADDRESS would, 1 where it was refused, 2 where it could not be judged or
sent. Outside what is proved.
"""
import argparse
import json
import re
import subprocess
import sys
import tempfile
from pathlib import Path

from feed import Address, Arguments, parse_address
from listeners import listener_at, purpose
from partner import Partner
from partner import Stop as Unsent
from programs import TOP, NoAnswer, lines_of
from words import MENDS

COMPILE = ["clang", "-O2", "-g", "-Wall", "-target", "bpf", "-mcpu=v3", f"-I{TOP / 'examples' / 'rules'}", "-c"]
COPY = ["llvm-objcopy", "-O", "binary", "--only-section=entry"]
SLOT = re.compile(r"\s*(\d+):\t")
FUNCTION = re.compile(r"[0-9a-f]+ .{6}F entry\t[0-9a-f]+ (?:\.hidden )?(\S+)")


class Stop(Exception):
    """Why a rule is not judged or sent."""


def done(words: list[str]) -> str:
    """What a tool printed, which has to end well; its warnings and errors go to standard error."""
    try:
        ran = subprocess.run(words, capture_output=True, text=True, check=False)
    except FileNotFoundError:
        raise Stop(f"{words[0]} is not there: apt-get install clang llvm") from None
    print(ran.stderr, end="", file=sys.stderr)
    if ran.returncode:
        raise Stop(f"{words[0]} ended with status {ran.returncode}")
    return ran.stdout


def compiled(source: Path, folder: Path) -> tuple[Path, Path]:
    """The object file of a source, and the file of its rule's slots."""
    objects, slots = folder / "rule.o", folder / "rule.bin"
    if not source.is_file():
        raise Stop(f"{source} is no file")
    done([*COMPILE, str(source), "-o", str(objects)])
    functions = FUNCTION.findall(done(["llvm-objdump", "--syms", str(objects)]))
    if not functions:
        raise Stop(f'{source}: no function has __attribute__((section("entry")))')
    if len(functions) > 1:
        raise Stop(f"{source}: the section entry has the functions {' and '.join(functions)}, and takes one rule alone")
    done([*COPY, str(objects), str(slots)])
    return objects, slots


def judged(command: str, slots: Path, length: int) -> list[str]:
    """What `acdm verify` or `acdm explain` says of slots, line by line, the verdict last."""
    lines = lines_of(command, "--length", length, slots)
    if not lines:
        raise Stop(f"{slots}: acdm {command} says nothing")
    return lines


def explanation_of(lines: list[str]) -> list[str]:
    """What is told of a refusal, without the listing before it and the verdict behind it."""
    place = next((place for place, line in enumerate(lines) if line.startswith("fault ")), len(lines))
    return lines[place:-1]


def line_of(objects: Path, wanted: int) -> list[str]:
    """The lines of C and the instruction of a slot."""
    before: list[str] = []
    for line in done(["llvm-objdump", "-dSr", "--section=entry", str(objects)]).splitlines():
        slot = SLOT.match(line)
        before = [line] if line.startswith(";") and before and SLOT.match(before[-1]) else [*before, line]
        if slot and int(slot[1]) == wanted:
            return [part for part in before if part.startswith(";") or part == line]
    return []


def mend_of(code: int) -> str:
    """How a fault is mended, as docs/RULES-IN-C.md says."""
    mend = re.sub(r"\[([^]]*)\]\([^)]*\)", r"\1", MENDS[code]).replace(", see below", "").replace("`", "")
    return f"to mend {code}: {mend} (docs/RULES-IN-C.md, The numbers)"


def refused(verdict: str, objects: Path | None, slots: Path, length: int) -> None:
    """Prints why a program is refused, where, and how that is mended."""
    code, slot = (int(word) for word in verdict.split()[1:3])
    lines = (
        explanation_of(judged("explain", slots, length)) + (line_of(objects, slot) if objects else []) + [mend_of(code)]
    )
    print(*lines, sep="\n")


def check_address(where: Address) -> None:
    """Refuses an address of this machine where a board has something else than the airport."""
    listener = listener_at(where)
    if listener and listener.is_board() and not listener.may_be("APT", where[1]):
        word = listener.word(where[1])
        raise Stop(f"{where[0]}:{where[1]} is {purpose(word) if word else 'of a board'}, and no address of APT")


def send(where: Address, feed: Address | None, command: dict[str, object]) -> str:
    """The reply to a load. What answers is told a line that makes no entry first."""
    partner = Partner(where, feed, patience=5)
    try:
        partner.ask("{}")
        return partner.ask(json.dumps(command, separators=(",", ":"))).text
    except Unsent as why:
        raise Stop(f"the rule was {'sent, and has no reply' if partner.is_uncertain else 'not sent'}: {why}") from None
    finally:
        partner.close()


def arguments() -> argparse.Namespace:
    words = Arguments(description="Loads a local rule into a running board.")
    words.add_argument("rule", type=Path, metavar="RULE", help="a source in C, or a compiled rule, named *.bin")
    words.add_argument("address", nargs="?", type=parse_address, metavar="ADDRESS", help="one of the airport's")
    words.add_argument("--milestone", type=int, choices=range(1, 17), metavar="M", help="1 to 16")
    words.add_argument("--kind", choices=["tobt", "alert"])
    words.add_argument(
        "--feed", type=parse_address, metavar="ADDRESS", help="that of serve --changes, as of partner.py"
    )
    words.add_argument("--length", type=int, choices=[128, 160], default=128, help="160 once the board was migrated")
    given = words.parse_intermixed_args()
    if given.address and not (given.milestone and given.kind):
        words.error("a load names --milestone and --kind")
    return given


def run(given: argparse.Namespace, folder: Path) -> int:
    """Judges a rule, and loads it where an address is given."""
    if given.address:
        check_address(given.address)
    objects, slots = (None, given.rule) if given.rule.suffix == ".bin" else compiled(given.rule, folder)
    program = slots.read_bytes()
    verdict = judged("verify", slots, given.length)[-1]
    print(verdict)
    if not verdict.startswith("accepted"):
        refused(verdict, objects, slots, given.length)
        return 1
    if not given.address:
        return 0
    command = {"cmd": "load", "milestone": given.milestone, "kind": given.kind, "program": program.hex()}
    reply = send(given.address, given.feed, {**command, "length": given.length})
    print(reply)
    return 0 if reply.startswith("ok") else 1


def main() -> int:
    given = arguments()
    try:
        with tempfile.TemporaryDirectory() as folder:
            return run(given, Path(folder))
    except (Stop, NoAnswer) as why:
        print(f"load.py: {why}", file=sys.stderr)
    except OSError as error:
        print(f"load.py: {error.filename or ''}: {error.strerror}", file=sys.stderr)
    return 2


if __name__ == "__main__":
    sys.exit(main())
