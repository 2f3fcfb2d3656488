#!/usr/bin/env python3
"""Pseudoranges of MeasEpoch blocks by a reader that is not ours: `convbin` of Debian's package rtklib.

A few good epochs are built of GPS satellites: L1 C/A as the master signal, with or without one L2 signal nested in it, the
sub-blocks as long as their rows or longer. What Range and Range2 answer is compared with the numbers that the epochs were built
of: by the model, by the program replay where it is built, and where `convbin` is installed by the RINEX file that it makes of
the epochs. RINEX has metres with three decimals and ours are whole millimetres, so one millimetre is left to its rounding.
What is not there is told in a line that begins with 'skipped'. Prints 'N passed, M failed' last.
"""
import datetime
import decimal
import os
import re
import shutil
import struct
import subprocess
import sys
import tempfile

sys.path.insert(0, os.path.join(os.path.dirname(os.path.abspath(__file__)), "model"))
sys.dont_write_bytecode = True

import content  # noqa: E402
import model  # noqa: E402
from programs import Cases, Program, kit  # noqa: E402

CASES = Cases()
WEEK, START = 2100, 345_600_000
L1_CA, L2_P, L2_C = 0, 2, 3  # signal numbers of the 2.9.0 guide, section 2.10
ROUNDING = 1  # millimetre

# Satellites: SVID, the pseudorange in the first epoch and what a second adds to it, in millimetres; the L2 signal and its offset
# in the first epoch and what a second adds to that, or None.
SATELLITES = (
    (3, 20_183_554_321, 412_345, (L2_P, 4_321, 17)), (7, 21_474_836_479, 1, (L2_C, -1, -9_000)),
    (11, 23_999_999_999, -55_001, None), (19, 25_769_803_776, -7, (L2_P, 199_999, 10_000)),
    (24, 22_222_222_222, 333_333, (L2_C, -196_608, 1)), (31, 24_680_135_791, -123_456, (L2_P, 65_535, 1)),
)
# Of each epoch SB1Length and SB2Length: those of the rows, or more. The last epoch is there so that a reader which tells of an
# epoch only when the next one comes tells of all before it; of convbin it is not asked for.
LENGTHS = ((20, 12), (20, 12), (24, 12), (20, 16), (32, 20), (21, 13), (20, 12))


def ranges(epoch):
    """[(SVID, the first pseudorange, signal and second pseudorange or None)] of an epoch."""
    out = []
    for svid, first, rate, second in SATELLITES:
        first += epoch * rate
        nested = (second[0], first + second[1] + epoch * second[2]) if second else None
        out.append((svid, first, nested))
    return out


def first_level(channel, svid, millimetres, count):
    """The 20 bytes of a master signal; all it has but the pseudorange is made up, and none of it Do-Not-Use."""
    msb, lsb = divmod(millimetres, 2 ** 32)
    return struct.pack("<BBBBIiHbBHBB", channel, L1_CA, svid, msb, lsb, 12_345_678, 1_000, 1, 180, 600, 0, count)


def second_level(signal, offset):
    """The 12 bytes of a slave signal."""
    msb, lsb = divmod(offset, 65_536)
    return struct.pack("<BBBBbBHHH", signal, 200, 160, msb % 8, 1, 0, lsb, 2_000, 500)


def block(epoch):
    """The MeasEpoch block of an epoch, of revision 1."""
    size, nested = LENGTHS[epoch]
    data = bytes(4) + struct.pack("<HHIHBBBBBB", 4027 | 1 << 13, 0, START + 1000 * epoch, WEEK, len(SATELLITES), size, nested, 0, 0, 0)
    for channel, (svid, first, second) in enumerate(ranges(epoch), 1):
        data += first_level(channel, svid, first, 1 if second else 0).ljust(size, b"\0")
        if second:
            data += second_level(second[0], second[1] - first).ljust(nested, b"\0")
    return content.seal(data + bytes(-len(data) % 4))


# ---------------------------------------------------------------------------------------------- the model, and the program


def script():
    """Range and Range2 of every sub-block, by the rows shipped; and the answers that are due."""
    lines, due = [b"stage " + model.shipped_table(1).hex().encode(), b"open"], ["staged 1", "opened 1"]
    for epoch in range(len(LENGTHS)):
        data = block(epoch).hex().encode()
        for at, (_, first, second) in enumerate(ranges(epoch)):
            lines += [b"range %d %s" % (at, data), b"range2 %d 0 %s" % (at, data)]
            due += [f"signed {first}", f"signed {second[1]}" if second else "refused 9"]
    return b"\n".join(lines) + b"\n", due


def ours():
    """The model, and the program replay where it is built, on all epochs."""
    lines, due = script()
    said = model.play(lines)[0].decode()
    CASES.expect("the model's pseudoranges", [line.split(" | ")[0] for line in said.splitlines()] == due, said[-300:])
    program = Program("replay", "the model")
    if not os.path.exists(program.path):
        print("skipped: there is no crates/replay/out/replay, so the program's pseudoranges are not compared; `rt run` in crates/replay makes it")
        return
    program.env = kit()
    differs = program.difference(said, program.says(lines))
    CASES.expect("the program's pseudoranges", differs is None, differs)


# ------------------------------------------------------------------------------------------------------------------- RINEX


class Rinex:
    """The observations of a RINEX file, version 2 or 3: `epochs` has [(week, milliseconds of it), {satellite: {type: text}}]."""

    def __init__(self, text):
        self.lines, self.at = text.splitlines(), 0
        self.version, self.types, self.epochs = 0.0, {}, []
        self.header()
        while self.at < len(self.lines):
            if self.version >= 3:
                self.epoch_3()
            else:
                self.epoch_2()

    def next(self):
        self.at += 1
        return self.lines[self.at - 1] if self.at <= len(self.lines) else ""

    def header(self):
        """The version, and the types of each system; those of all systems of version 2 stand under ' '."""
        system = " "
        while self.at < len(self.lines):
            line = self.next()
            label, words = line[60:].strip(), line[:60].split()
            if label == "RINEX VERSION / TYPE":
                self.version = float(words[0])
            elif label == "# / TYPES OF OBSERV":
                self.types.setdefault(" ", []).extend(word for word in words if not word.isdigit())
            elif label == "SYS / # / OBS TYPES":
                if line[0] != " ":
                    system, words = line[0], words[2:]
                self.types.setdefault(system, []).extend(words)
            elif label == "END OF HEADER":
                return

    def keep(self, satellite, types, cells):
        """One satellite's cells of 16 places, of which the first 14 are the number."""
        numbers = [cells[16 * n:16 * n + 14].strip() for n in range(len(types))]
        self.epochs[-1][1][satellite] = {kind: number for kind, number in zip(types, numbers) if number}

    def epoch_3(self):
        line = self.next()
        if not line.startswith(">"):
            return
        words = line[1:].split()
        flag, count = int(words[6]), int(words[7])
        if flag > 1:
            self.at += count  # an event: lines of a header
            return
        self.epochs.append((stamp(words[:6]), {}))
        for _ in range(count):
            line = self.next()
            self.keep(line[:3].replace(" ", "0"), self.types.get(line[:1], []), line[3:])

    def epoch_2(self):
        line = self.next()
        numbers = re.match(r".{26}  (\d)([ \d]{2}\d)", line)
        if not numbers:
            return
        flag, count = map(int, numbers.groups())
        if flag > 1 or not line[:26].strip():
            self.at += count
            return
        self.epochs.append((stamp(line[:26].split()), {}))
        names = line[32:68].ljust(36)
        while len(names) < 3 * count:
            names += self.next()[32:68].ljust(36)
        types = self.types.get(" ", [])
        for n in range(count):
            cells = "".join(self.next().ljust(80)[:80] for _ in range((len(types) + 4) // 5))
            name = names[3 * n:3 * n + 3]
            self.keep((name[0].replace(" ", "G") + name[1:]).replace(" ", "0"), types, cells)


def stamp(words):
    """The week and its milliseconds of a calendar time; two digits of a year are those of 1980 to 2079."""
    year, month, day, hour, minute = map(int, words[:5])
    if year < 100:
        year += 1900 if year >= 80 else 2000
    days = (datetime.date(year, month, day) - datetime.date(1980, 1, 6)).days
    second = round(decimal.Decimal(words[5]) * 1000)
    return days // 7, ((days % 7 * 24 + hour) * 60 + minute) * 60_000 + second


def pseudoranges(cells, band):
    """A satellite's pseudoranges on L1 or L2, in millimetres, whatever the types are called: C1, P1, C1C, C2W and the like. RINEX
    has 0 or nothing where there is none."""
    found = [decimal.Decimal(number) * 1000 for kind, number in sorted(cells.items()) if kind[0] in "CP" and kind[1] == band]
    return [number for number in found if number]


# ------------------------------------------------------------------------------- the reader of RINEX, on texts made by hand


def labelled(text, label):
    return f"{text:60}{label}\n"


def cell(number, rest="  "):
    return f"{number:14.3f}{rest}" if number else " " * 16


RINEX_3 = (
    labelled("     3.02           OBSERVATION DATA    M: Mixed", "RINEX VERSION / TYPE")
    + labelled("G   14 C1C L1C D1C S1C C1W L1W D1W S1W C2W L2W D2W S2W C2L", "SYS / # / OBS TYPES")
    + labelled("       L2L", "SYS / # / OBS TYPES") + labelled("R    1 C1C", "SYS / # / OBS TYPES") + labelled("", "END OF HEADER")
    + "> 2020 04 09 00 00  0.0000000  0  3\n"
    + "G 3" + cell(20183554.321, " 7") + cell(106065057.125, "17") + cell(1234.568) + cell(45) + cell(0) * 4 + cell(20183558.642) + "\n"
    + "G11" + cell(23999999.999, " 7") + "\n" + "R02" + cell(19000000.5) + "\n"
    + "> 2020 04 09 00 00  0.5000000  4  1\n" + labelled("an event", "COMMENT")
    + "> 2020 04 09 00 00  1.0000000  0  1\n" + "G11" + cell(0) * 12 + cell(22222222.222) + "\n")
RINEX_2 = (
    labelled("     2.11           OBSERVATION DATA    G (GPS)", "RINEX VERSION / TYPE")
    + labelled("    10    C1    L1    D1    S1    P1    L2    D2    S2    P2", "# / TYPES OF OBSERV")
    + labelled("          C2", "# / TYPES OF OBSERV") + labelled("", "END OF HEADER")
    + " 20  4  9  0  0  0.0000000  0 13" + "".join(f"G{n:2}" for n in range(1, 13)) + "\n" + " " * 32 + " 13\n"
    + "".join(cell(20000000 + n) + "\n" + cell(0) * 3 + cell(20000000 + n - 0.001) + "\n" for n in range(1, 14))
    + " 20  4  9  0  0  1.0000000  0  1G31\n" + cell(24680135.791) + cell(1) * 4 + "\n" + cell(0) * 4 + cell(24680201.326) + "\n")


def parser():
    """The reader of RINEX, on these two texts."""
    three, two = Rinex(RINEX_3), Rinex(RINEX_2)
    CASES.expect("RINEX 3, the types", len(three.types["G"]) == 14 and three.types["R"] == ["C1C"], three.types)
    CASES.expect("RINEX 3, the epochs", [when for when, _ in three.epochs] == [(2100, 345_600_000), (2100, 345_601_000)], three.epochs)
    seen = [(satellite, pseudoranges(cells, "1"), pseudoranges(cells, "2")) for _, told in three.epochs for satellite, cells in told.items()]
    CASES.expect("RINEX 3, the pseudoranges", seen == [
        ("G03", [20_183_554_321], [20_183_558_642]), ("G11", [23_999_999_999], []), ("R02", [19_000_000_500], []),
        ("G11", [], [22_222_222_222])], seen)
    CASES.expect("RINEX 2, the types", two.types == {" ": "C1 L1 D1 S1 P1 L2 D2 S2 P2 C2".split()}, two.types)
    CASES.expect("RINEX 2, the epochs", [(when, len(told)) for when, told in two.epochs]
                 == [((2100, 345_600_000), 13), ((2100, 345_601_000), 1)], two.epochs)
    seen = {name: (pseudoranges(cells, "1"), pseudoranges(cells, "2")) for name, cells in two.epochs[0][1].items()}
    CASES.expect("RINEX 2, the pseudoranges", seen == {
        f"G{n:02}": ([20_000_000_000 + 1000 * n], [20_000_000_000 + 1000 * n - 1]) for n in range(1, 14)}, seen)
    last = two.epochs[-1][1]["G31"]
    CASES.expect("RINEX 2, the types of the second line", pseudoranges(last, "2") == [24_680_201_326], last)
    CASES.expect("nothing is no RINEX", Rinex("").epochs == [])


# ----------------------------------------------------------------------------------------------------------------- convbin


def converted(convbin, folder):
    """The RINEX text that convbin makes of all epochs, and what it says."""
    source, made = os.path.join(folder, "epochs.sbf"), os.path.join(folder, "epochs.obs")
    with open(source, "wb") as file:
        file.write(b"".join(map(block, range(len(LENGTHS)))))
    ran = subprocess.run([convbin, "-r", "sbf", "-v", "3.02", "-o", made, source], stdin=subprocess.DEVNULL, stdout=subprocess.PIPE,
                         stderr=subprocess.STDOUT, cwd=folder, timeout=120)
    text = ""
    if os.path.exists(made):
        with open(made, encoding="ascii", errors="replace") as file:
            text = file.read()
    return text, ran.stdout.decode(errors="replace")


def close(found, wanted):
    return len(found) >= 1 and all(abs(number - wanted) <= ROUNDING for number in found)


def theirs():
    """convbin, where it is installed: each pseudorange of each epoch but the last."""
    convbin = shutil.which("convbin")
    if convbin is None:
        print("skipped: there is no convbin (Debian's package rtklib), so no other reader's pseudoranges are compared")
        return
    with tempfile.TemporaryDirectory() as folder:
        text, said = converted(convbin, folder)
    try:
        told = dict(Rinex(text).epochs)
    except (ValueError, IndexError, ArithmeticError) as error:
        CASES.expect("convbin's file is read as RINEX", False, f"{error}: {text[:1000]}")
        return
    if not CASES.expect("convbin makes epochs", bool(told), said[-500:]):
        return
    for epoch in range(len(LENGTHS) - 1):
        cells = told.get((WEEK, START + 1000 * epoch), {})
        wrong = []
        for svid, first, second in ranges(epoch):
            seen = cells.get(f"G{svid:02}", {})
            ones, twos = pseudoranges(seen, "1"), pseudoranges(seen, "2")
            if not close(ones, first) or (not close(twos, second[1]) if second else twos):
                wrong.append(f"G{svid:02} has {seen}, not {first} and {second} mm")
        CASES.expect(f"convbin's pseudoranges of epoch {epoch}", not wrong, "; ".join(wrong)[:500])


def main():
    parser()
    ours()
    theirs()
    return CASES.tally()


if __name__ == "__main__":
    sys.exit(main())
