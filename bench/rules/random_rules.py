#!/usr/bin/env python3
"""Rules in C by chance, each with and without an empty asm before the last comparison, and how many are accepted.

    python3 bench/rules/random_rules.py [--rules N] [--seed S] [--keep FOLDER]

Each compares a number in some ways, then compares it with 999, and passes it to helper 2. Compiled by clang as
docs/RULES-IN-C.md says, and judged by the model in Python; the programs are kept in FOLDER. Outside what is proved.
"""
import argparse
import pathlib
import random
import subprocess
import sys
import tempfile

TOP = pathlib.Path(__file__).resolve().parents[2]
sys.path.insert(0, str(TOP / "bench" / "model"))
from programs import Fault, accepted  # noqa: E402

RULES = TOP / "examples" / "rules"
COMPILE = ["clang", "-O2", "-target", "bpf", "-mcpu=v3", "-w", "-I", str(RULES), "-c"]
BOUNDS = (0, 1, 5, 12, 99, 100, 127, 128, 255, 500, 998, 999, 1000, 1001, 2000, 32767, 32768)
NUMBERS = ("flight->stand", "flight->stand % 1000", "flight->stand % 100", "flight->stand / 10", "flight->stand - 5")
NUMBERS += ("flight->stand >> 3", "flight->mttt", "flight->exit * 5")
APART = '    asm volatile("" : "+r"(stand));\n'
RULE = """
__attribute__((section("entry_{name}")))
u64 {name}(const struct flight *flight, u64 length, u64 now, u64 milestone)
{{
    u64 others = (flight->alerts >> 16) & ~LOC(2);
    u64 stand = {number}, turn = 0, taxi;

{before}    if (stand > 999)
        return others;
    taxi = taxi_out(stand);
{behind}    return flight->tobt + taxi + turn > flight->ctot ? others | LOC(2) : others;
}}
"""


class Draws:
    def __init__(self, seed):
        self.chance = random.Random(seed)

    def condition(self):
        pick, bound = self.chance.choice, self.chance.choice(BOUNDS)
        return pick((
            f"stand > {bound}", f"stand < {bound}", f"stand == {bound}", f"stand != {bound}",
            f"(stand & {pick((1, 3, 7, 64, 255, 512))}) == 0", f"stand % {pick((2, 3, 7, 10, 100, 1000))} == 1",
            f"(stand >= {min(bound, 500)} && stand <= {bound + 300})", "flight->aldt == 0", "stand == flight->mttt",
        ))  # fmt: skip

    def statement(self):
        parts = [self.condition()]
        for _ in range(self.chance.randrange(3)):
            parts += [self.chance.choice(("||", "&&")), self.condition()]
        done = self.chance.choice(("return others;", f"others |= LOC({self.chance.randrange(3, 16)});"))
        return f"    if ({self.chance.choice(('', '!'))}({' '.join(parts)})) {done}\n"

    def pair(self, place):
        """One rule in both forms, the one with the asm first."""
        number = self.chance.choice(NUMBERS)
        before = "".join(self.statement() for _ in range(self.chance.randrange(1, 4)))
        before += self.chance.choice(("", "    turn = least_turn_round(*(const u32 *)flight->plan_type);\n"))
        behind = self.chance.choice(("", f"    if ({self.condition()}) others |= LOC(4);\n"))
        for form, apart in (("apart", APART), ("plain", "")):
            name = f"{form}_{place}"
            yield name, RULE.format(name=name, number=number, before=before + apart, behind=behind)


def is_accepted(code):
    try:
        accepted(code)
    except Fault:
        return False
    return True


def main():
    words = argparse.ArgumentParser(description="Rules in C by chance, with and without an empty asm.")
    words.add_argument("--rules", type=int, default=240, metavar="N")
    words.add_argument("--seed", type=int, default=3, metavar="S")
    words.add_argument("--keep", type=pathlib.Path, metavar="FOLDER", help="where the programs are kept")
    asked = words.parse_args()
    draws = Draws(asked.seed)
    texts = dict(it for place in range(asked.rules) for it in draws.pair(place))
    with tempfile.TemporaryDirectory() as folder:
        room = asked.keep or pathlib.Path(folder)
        room.mkdir(parents=True, exist_ok=True)
        source, made = pathlib.Path(folder) / "rules.c", pathlib.Path(folder) / "rules.o"
        source.write_text('#include "helpers.h"\n' + "".join(texts.values()))
        subprocess.run([*COMPILE, str(source), "-o", str(made)], check=True)
        for name in texts:
            cut = ["llvm-objcopy", "-O", "binary", f"--only-section=entry_{name}", str(made), str(room / f"{name}.bin")]
            subprocess.run(cut, check=True)
        judged = {name: is_accepted((room / f"{name}.bin").read_bytes()) for name in texts}
    for form, said in (("apart", "with"), ("plain", "without")):
        count = sum(judged[name] for name in judged if name.startswith(form))
        print(f"{said} the asm: {count} of {asked.rules} accepted")


if __name__ == "__main__":
    main()
