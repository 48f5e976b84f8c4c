#!/usr/bin/env python3
"""Cuts the power of a board that syncs, with a disk that forgets what was not synced, and says what it then goes on from.

    python3 bench/hostile/forgetful_disk.py [--program PATH] [--kills N] [--seed S]

`serve --keep FILE --sync` under 8 partners is killed at N moments by chance (200). After each, FILE is cut to a length by chance: at
least that which the last sync that ended well had before it (forgetful_disk.c, preloaded), at most the one that it has. The board goes
on from there with the same words: every reply that a partner read has its entry, FILE is a legal journal with the rest of a line at
most behind it, and no number that was replied is given twice. Without cc it is left out. The last line is `N cases, M failed`; status
1 where one failed.
"""

import os
import pathlib
import random
import shutil
import subprocess
import sys
import tempfile

from cases import Cases, text, words
from keep import legal, numbers_of, whole_of
from keep_serving import killed_once

HERE = pathlib.Path(__file__).resolve().parent


class ForgetfulDisk:
    """A room with FILE, and what is known of its syncs."""

    def __init__(self, room):
        self.file, self.synced, shim = room / "kept", room / "synced", room / "forgetful_disk.so"
        subprocess.run(["cc", "-O2", "-shared", "-fPIC", "-o", shim, HERE / "forgetful_disk.c"], check=True)
        self.words = os.environ | {"LD_PRELOAD": str(shim), "SYNCED": str(self.synced)}

    def settled(self):
        """How many bytes of FILE stand on the disk, at least."""
        if not self.synced.exists() or not self.file.exists():
            return 0
        inode, length = (int(it) for it in self.synced.read_text().split())
        return length if inode == self.file.stat().st_ino else 0

    def forget(self, chance):
        """Cuts FILE to a length that a power cut may leave. Answers how many bytes were lost."""
        if not self.file.exists():
            return 0
        size, settled = self.file.stat().st_size, self.settled()
        left = chance.choice([settled, size, chance.randint(settled, size)])
        os.truncate(self.file, left)
        return size - left


def main():
    parser = words(__doc__)
    parser.add_argument("--kills", type=int, default=200, help="how often the power is cut")
    parser.add_argument("--seed", type=int, default=53, help="of what is by chance")
    given = parser.parse_args()
    if not shutil.which("cc"):
        print("left out: there is no cc")
        return 0
    cases, chance = Cases(), random.Random(given.seed)
    with tempfile.TemporaryDirectory(prefix="acdm-forgetful-") as folder:
        room = pathlib.Path(folder)
        disk = ForgetfulDisk(room)
        told_ever = lost_ever = 0
        for turn in range(given.kills):
            before = len(whole_of(disk.file)) if disk.file.exists() else 0
            replies = killed_once(given.program, disk.file, chance, ["--sync"], env=disk.words)
            lost_ever += disk.forget(chance)
            told = sorted(it for read in replies for it in numbers_of(text(read)))
            after = len(whole_of(disk.file)) if disk.file.exists() else 0
            told_ever += len(told)
            name = f"cut {turn}, seed {given.seed}"
            cases.expect(name, all(it < after for it in told), (after, told[-1:]))
            cases.expect(name, len({*told}) == len(told) and all(it >= before for it in told), (before, told[:1]))
            cases.expect(name, legal(given.program, disk.file, room), after)
            if after > 60_000:
                disk.file.unlink()
        cases.expect(
            "many replies were read, and much was lost", told_ever > given.kills and lost_ever > given.kills, (told_ever, lost_ever)
        )
    return cases.end()


if __name__ == "__main__":
    sys.exit(main())
