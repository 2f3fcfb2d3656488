#!/usr/bin/env python3
"""The blocks that the model writes, listed by a framer that is not ours: bench/baseline_framer.c.

All blocks of the scripts w1 to w60 of test_replay.py, which compares `replay` with the model byte for byte, are put one behind
the other into a file. The framer has to list each at its place, with the number and the revision that the script's line asks
for and the length that was answered, and nothing else. Where no C compiler builds it, a line says so and no case is counted.
Prints 'N passed, M failed' last; a case is a script, or one of three counts.
"""
import concurrent.futures
import os
import re
import shutil
import subprocess
import sys
import tempfile

import test_replay
from programs import TOP, Cases

import scripts  # test_replay has put its folder into the path

SOURCE = os.path.join(TOP, "bench", "baseline_framer.c")
# With -DLIST the framer prints the number of each block. Our copy of it prints the whole ID there, so that the revision shows.
PRINTED = 'id=%d len=%zu\\n", i + len, u2(b + 4) & 0x1FFF, len);'
WHOLE_ID = 'id=%d len=%zu\\n", i + len, u2(b + 4), len);'
# A compiler with its flags, and what runs the programs that it makes.
COMPILERS = (
    (["cc"], []), (["gcc"], []), (["clang"], []),
    (["x86_64-linux-gnu-gcc", "-static"], [os.path.join(TOP, "tools", "x86run")]),
)
CASES = Cases()


def built(folder):
    """The command that lists a file's blocks; None where no compiler builds the framer."""
    with open(SOURCE, encoding="utf-8") as file:
        text = file.read()
    if text.count(PRINTED) != 1:
        CASES.expect("bench/baseline_framer.c", False, f"it has not exactly one place that ends in {PRINTED}")
        return None
    source, program = os.path.join(folder, "framer.c"), os.path.join(folder, "framer")
    with open(source, "w", encoding="utf-8") as file:
        file.write(text.replace(PRINTED, WHOLE_ID))
    for compiler, runner in COMPILERS:
        if shutil.which(compiler[0]) and all(os.access(path, os.X_OK) for path in runner):
            ran = subprocess.run(compiler + ["-O2", "-DLIST", source, "-o", program], stdout=subprocess.DEVNULL,
                                 stderr=subprocess.DEVNULL, timeout=120)
            if ran.returncode == 0:
                return runner + [program]
    return None


def listed(command, data, folder):
    """[(place, number, revision, length)] as the framer prints them, and its last line."""
    path = os.path.join(folder, "blocks.sbf")
    with open(path, "wb") as file:
        file.write(data)
    out = subprocess.run(command + [path], stdout=subprocess.PIPE, text=True, timeout=60).stdout.splitlines()
    blocks = []
    for end, ident, length in re.findall(r"^block end=(\d+) id=(\d+) len=(\d+)$", "\n".join(out), re.M):
        blocks.append((int(end) - int(length), int(ident) % 8192, int(ident) // 8192, int(length)))
    return blocks, out[-1] if out else ""


def expected(made):
    """For each script what is to be listed of it, [(place, number, revision, length)]."""
    place, out = 0, []
    for blocks in made:
        wanted = []
        for number, revision, block in blocks:
            wanted.append((place, number, revision, len(block)))
            place += len(block)
        out.append(wanted)
    return out


def compare(made, blocks, last):
    """Each script's blocks with those listed between its first place and the next script's, and the framer's own counts."""
    at = 0
    for seed, wanted in enumerate(expected(made), 1):
        got = blocks[at:at + len(wanted)]
        at += len(wanted)
        wrong = [f"{pair[0]} is listed as {pair[1]}" for pair in zip(wanted, got) if pair[0] != pair[1]]
        CASES.expect(f"the blocks of script w{seed}", got == wanted, wrong[0] if wrong else f"{len(got)} of {len(wanted)} are listed")
    count, size = at, sum(len(block) for script in made for _, _, block in script)
    CASES.expect("what is listed is the blocks alone", len(blocks) == count, f"{len(blocks)} blocks, of {count}")
    counts = f" bytes={size} blocks={count} in_blocks={size} tries={count} "
    CASES.expect("nothing is skipped and nothing tried twice", counts in last, last)
    CASES.expect("enough blocks are written", count >= test_replay.LEAST_WRITTEN, f"{count}")
    print(f"{count} blocks, {size} bytes")


def main():
    with tempfile.TemporaryDirectory() as folder:
        command = built(folder)
        if command is None:
            if not CASES.failed:
                print("skipped: no C compiler (cc, gcc, clang, x86_64-linux-gnu-gcc) builds bench/baseline_framer.c")
            return CASES.tally()
        with concurrent.futures.ProcessPoolExecutor(max_workers=2) as pool:
            made = list(pool.map(scripts.write_blocks, range(1, test_replay.WRITES + 1)))
        compare(made, *listed(command, b"".join(block for script in made for _, _, block in script), folder))
    return CASES.tally()


if __name__ == "__main__":
    sys.exit(main())
