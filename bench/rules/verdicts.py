#!/usr/bin/env python3
"""Judges the shipped rules in C, and the pairs of a refused and a mended one, by `acdm verify`.

    python3 bench/rules/verdicts.py           the shipped bytes, and the sources where clang is there
    python3 bench/rules/verdicts.py --write   compiles the sources with clang 14, and writes bytes and listings

Each .hex of examples/rules must have the listing and the verdict of its .lst, each of examples/rules/pairs the verdict
of verdicts.txt. A source must compile to the bytes that are shipped; another clang than 14 may make others, and then
its verdict is printed beside. For each verdicts-N.txt the sources are compiled with clang-N too, where it is there, and
must have its verdicts. The table of docs/RULES-IN-C.md must have the numbers of these files. The proved program judges
where there is one, else a build without proofs. Outside what is proved.
"""
import argparse
import pathlib
import re
import shutil
import subprocess
import sys
import tempfile

TOP = pathlib.Path(__file__).resolve().parents[2]
RULES = TOP / "examples" / "rules"
PAIRS = RULES / "pairs"
VERDICTS = PAIRS / "verdicts.txt"
PAGE = TOP / "docs" / "RULES-IN-C.md"
COMPILE = ["-O2", "-target", "bpf", "-mcpu=v3", "-I", str(RULES), "-c"]
MADE_BY = "14"


class Rule:
    """A shipped function: its source, its section, and the name of its files without an ending."""

    def __init__(self, source, section):
        self.source, self.section = source, section
        self.is_of_pair = source.parent == PAIRS
        self.name = f"{source.stem}.{section}" if self.is_of_pair else source.stem
        self.length = 160 if "struct migrated_flight" in source.read_text() else 128

    def file(self, ending):
        return self.source.with_name(f"{self.name}.{ending}")

    def shipped(self):
        return bytes.fromhex(self.file("hex").read_text())

    def compiled(self, room, compiler="clang"):
        """The bytes of the section, as the recipe of docs/RULES-IN-C.md makes them."""
        made, cut = room / "rule.o", room / "rule.bin"
        subprocess.run([compiler, *COMPILE, str(self.source), "-o", str(made)], check=True)
        copied = ["llvm-objcopy", "-O", "binary", f"--only-section={self.section}", str(made), str(cut)]
        subprocess.run(copied, check=True)
        return cut.read_bytes()

    def wanted(self, verdicts):
        """What `acdm verify` must print: all of it, or for one of a pair its last line."""
        return verdicts[self.name] if self.is_of_pair else self.file("lst").read_text().rstrip("\n")

    def is_right(self, found, wanted):
        if not self.is_of_pair:
            return found == wanted
        return last(found) == wanted and wanted.startswith("accepted" if self.section == "mended" else "refused")


def last(text):
    return text.splitlines()[-1] if text else "nothing"


def kind(text):
    """A verdict without its slot or its count of slots, in which builds of one clang may differ."""
    return last(text).rsplit(" ", 1)[0]


def rules():
    pairs = [Rule(source, section) for source in sorted(PAIRS.glob("*.c")) for section in ("refused", "mended")]
    return [Rule(source, "entry") for source in sorted(RULES.glob("*.c"))] + pairs


def judged(codes, acdm, room):
    """What `acdm verify` prints of each of some programs, by their names, beside the records that each is for."""
    found = {}
    for length in (128, 160):
        named = {rule.name for rule in rules() if rule.length == length}
        some = {name: code for name, code in codes.items() if name.removesuffix(".compiled") in named}
        folder = room / str(length)
        folder.mkdir()
        found |= judged_beside(length, some, acdm, folder)
    return found


def judged_beside(length, codes, acdm, room):
    """The same beside records of one length."""
    for name, code in codes.items():
        (room / name).write_bytes(code)
    words = ["verify", "--length", str(length)]
    if acdm or ran([str(TOP / "acdm"), "--version"], {0}).startswith("acdm: the proved program"):
        return {name: ran([acdm or str(TOP / "acdm"), *words, str(room / name)], {0, 1}) for name in codes}
    print("judged by a build without proofs, in some minutes", file=sys.stderr, flush=True)
    said = ran(["rt", "try", "--cases", str(room), "--", *words, "{}"], range(256), TOP / "crates" / "acdm")
    parts = re.split(r"^== (.*)\n", said, flags=re.MULTILINE)[1:]
    found = {name: text.rstrip("\n") for name, text in zip(parts[::2], parts[1::2])}
    if found.keys() != codes.keys():
        sys.exit("verdicts: the build without proofs did not judge each program")
    return found


def ran(words, statuses, folder=TOP):
    done = subprocess.run(words, cwd=folder, stdout=subprocess.PIPE, stderr=subprocess.PIPE, text=True)
    if done.returncode not in statuses:
        sys.exit(f"verdicts: {words[0]} ended with status {done.returncode}: {done.stderr.strip()}")
    return done.stdout.rstrip("\n")


def clang():
    """The number of the clang that is there, as 14."""
    if not shutil.which("clang") or not shutil.which("llvm-objcopy"):
        return None
    found = re.search(r"version (\d+)", ran(["clang", "--version"], {0}))
    return found and found[1]


def verdicts_in(file):
    """The verdicts of a file, by the names of the programs."""
    return dict(line.split(" ", 1) for line in file.read_text().splitlines())


def other_clangs():
    """The other clangs that were tried: the number of each, and the file of its verdicts."""
    return {re.search(r"(\d+)", file.stem)[1]: file for file in sorted(PAIRS.glob("verdicts-*.txt"))}


def judged_by(number, acdm, room):
    """The verdicts of what another clang makes of the sources, or nothing where it is not there."""
    if not shutil.which(f"clang-{number}") or not shutil.which("llvm-objcopy"):
        return None
    codes = {rule.name: rule.compiled(room, f"clang-{number}") for rule in rules()}
    found = judged(codes, acdm, pathlib.Path(tempfile.mkdtemp(dir=room)))
    return {name: kind(text) for name, text in found.items()}


def differences_of_others(acdm, room):
    """What other clangs make of the sources that is judged otherwise than it was."""
    for number, file in other_clangs().items():
        found = judged_by(number, acdm, room)
        if found is None:
            print(f"clang {number} is not here, and what it makes is not judged again")
        for name, wanted in verdicts_in(file).items() if found else ():
            if found.get(name) != wanted:
                yield f"{name}: {found.get(name)} as clang {number} makes it, and {wanted} is told"


def differences_of_page():
    """What the table of the page says of pairs otherwise than the files."""
    told = {MADE_BY: verdicts_in(VERDICTS)} | {number: verdicts_in(file) for number, file in other_clangs().items()}
    rows = re.findall(r"^\| `([\w-]+)\.c` \|(.*)\|$", PAGE.read_text(), re.MULTILINE)
    shown = {name: [cell.strip() for cell in cells.split(" | ")] for name, cells in rows}
    for pair in sorted(source.stem for source in PAIRS.glob("*.c")):
        verdicts = [found.get(f"{pair}.refused", "nothing").split() for found in told.values()]
        numbers = [words[1] if words[0] == "refused" else words[0] for words in verdicts]
        if shown.get(pair, [])[2 : 2 + len(numbers)] != numbers:
            yield f"docs/RULES-IN-C.md: its row of {pair}.c does not say {', '.join(numbers)}"


def write(acdm, room):
    codes = {rule.name: rule.compiled(room) for rule in rules()}
    found = judged(codes, acdm, pathlib.Path(tempfile.mkdtemp(dir=room)))
    for rule in rules():
        rule.file("hex").write_text(codes[rule.name].hex())
        if not rule.is_of_pair:
            rule.file("lst").write_text(found[rule.name] + "\n")
    VERDICTS.write_text("".join(f"{it.name} {last(found[it.name])}\n" for it in rules() if it.is_of_pair))
    for number, file in other_clangs().items():
        found = judged_by(number, acdm, room)
        if found:
            file.write_text("".join(f"{it.name} {found[it.name]}\n" for it in rules()))


def differences(acdm, compiler, room):
    """What is not as it is shipped."""
    verdicts = verdicts_in(VERDICTS)
    codes = {rule.name: rule.shipped() for rule in rules()}
    again = {rule.name: rule.compiled(room) for rule in rules()} if compiler else codes
    others = {f"{name}.compiled": again[name] for name in codes if again[name] != codes[name]}
    found = judged(codes | others, acdm, pathlib.Path(tempfile.mkdtemp(dir=room)))
    for rule in rules():
        wanted, told = rule.wanted(verdicts), found[rule.name]
        if not rule.is_right(told, wanted):
            yield f"{rule.name}: {last(told)}, and {last(wanted)} is shipped"
        other = found.get(f"{rule.name}.compiled")
        if other is not None and compiler == MADE_BY:
            yield f"{rule.name}: its source compiles to other bytes, {last(other)}"
        elif other is not None:
            print(f"{rule.name}: {last(other)} as clang {compiler} makes it, {last(wanted)} is shipped")
    yield from differences_of_others(acdm, room)
    yield from differences_of_page()


def main():
    words = argparse.ArgumentParser(description="Judges the shipped rules in C.")
    words.add_argument("--acdm", help="a program that judges in place of this repository's")
    words.add_argument("--write", action="store_true", help="compile the sources, and write bytes and listings")
    asked, compiler = words.parse_args(), clang()
    with tempfile.TemporaryDirectory() as folder:
        room = pathlib.Path(folder)
        if asked.write and compiler != MADE_BY:
            sys.exit(f"verdicts: what is shipped is made by clang {MADE_BY}")
        if asked.write:
            write(asked.acdm, room)
        wrong = list(differences(asked.acdm, compiler, room))
    beside = f"sources compiled with clang {compiler}" if compiler else "sources not compiled, there is no clang"
    print(*wrong, f"{len(rules())} programs judged, {beside}: {len(wrong)} not as they are shipped", sep="\n")
    sys.exit(bool(wrong))


if __name__ == "__main__":
    main()
