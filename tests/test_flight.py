#!/usr/bin/env python3
"""The replay program on scripts written by hand: the flight line and the false header of samples/, each kind of bad line, size,
put and poke, blocks that are written, ceilings; and on those that tools/script writes of recordings.

What is expected is written down here, with the CRCs of the buffers from binascii.crc_hqx(data, 0).
Needs crates/replay/out/replay, which `rt run` there or `rt ci` makes. The last line is 'N passed, M failed'.
"""
import binascii
import glob
import os
import re
import struct
import subprocess
import sys
import tempfile

import programs
from programs import TOP

PROGRAM = os.path.join(TOP, programs.built("replay"))
BLOCK = "2440a98900000800"  # S2: number 0, revision 0, length 8
LONGEST = 270_000

HOLD, FORCE, WAITING, OUT = b"\xa5" * 65536, b"\x5a" * 8192, b"\x3c" * 8192, b"\xc3" * 65536


def crc(data):
    return f"{binascii.crc_hqx(data, 0):04x}"


def over(front, behind):
    """A buffer whose first bytes are written over."""
    return front + behind[len(front):]


def crcs(hold=HOLD, force=FORCE, waiting=WAITING):
    return f"{crc(hold)} {crc(force)} {crc(waiting)}"


def line(answer, state, buffers="- - -", ceiling=65532):
    """A line of the output; the ceiling is the last number of the state."""
    return f"{answer} | {state} {ceiling} | {buffers}\n"


ZERO = "0 0 0 0 0 0 0 0"
OPEN5 = line("refused 5", ZERO, crcs())  # Open with nothing waiting and nothing in force
NONE = line("withdrawn 0", ZERO, crcs())
EMPTY = line("part 0 0000", ZERO)


def bad(*numbers):
    return "".join(f"bad line {n}\n" for n in numbers)


def text(name):
    """A file of samples/."""
    with open(os.path.join(TOP, "samples", name), encoding="ascii") as f:
        return f.read()


def false_header():
    """samples/false-header.script: the output file, and that its answers are what the script tells: without a ceiling three blocks
    that come at Finish, with one each at its Feed."""
    script, out = text("false-header.script"), text("false-header.out")
    yield "samples/false-header.script", script, out, ""
    blocks = [f"block {8 + 44 * n} 5938 0 44" for n in range(3)]
    late = ["opened 1", "fed 8 more", *["fed 44 more"] * 3, *blocks, "end 140 3 8"]
    soon = ["opened 1", "fed 8 more", *[f"fed 44 {block}" for block in blocks], "end 140 3 8"]
    yield "the answers to samples/false-header.script", None, str(["staged 1", *late, *soon]), str([said.split(" | ")[0] for said in out.splitlines()])
    with open(os.path.join(TOP, "README.md"), encoding="utf-8") as f:
        readme = f.read()
    for name, lines in (("without", out.splitlines()[2:6]), ("with", out.splitlines()[11:15])):
        yield f"README.md shows the answers {name} a ceiling", None, "True", str("".join(f"    {words}\n" for words in lines) in readme)
    fed = [words for words in script.split("\n") if words.startswith("feed ")]
    yield "samples/false-header.script feeds the same bytes twice", None, str(fed[:4]), str(fed[4:])


def flight():
    """samples/flight-line.script: the output file, and that the script's tables are those of the texts. They are from before
    request M-101, and PPPInfo is read by mark 2 there."""
    script = text("flight-line.script")
    yield "samples/flight-line.script", script, text("flight-line.out"), ""
    with open(os.path.join(TOP, "README.md"), encoding="utf-8") as f:
        shown = "".join("    " + words + "\n" for words in text("flight-line.out").splitlines())
        yield "README.md shows the flight line's output", None, "True", str(shown in f.read())
    staged = [words.split(" ")[1] for words in script.split("\n") if words.startswith("stage ")]
    assert len(staged) == 2
    with tempfile.TemporaryDirectory() as folder:
        for version, given in zip((1, 2), staged):
            made = os.path.join(folder, "table")
            subprocess.run([os.path.join(TOP, "tools", "table"), "make",
                            os.path.join(TOP, "samples", f"flight-line-v{version}.table.txt"), made], check=True)
            with open(made, "rb") as f:
                yield f"the script's table {version} is that of its text", None, f.read().hex(), given
            older = bytes.fromhex(given)
            opening = line(f"staged {version}", f"0 0 {len(older)} 0 0 0 0 0", crcs(waiting=over(older, WAITING))) \
                + line(f"opened {version}", f"1 {len(older)} 0 0 0 0 0 0", crcs(force=over(older, FORCE), waiting=over(older, WAITING)))
            for info, read in ((0, "do-not-use"), (0x0FFF, "unsigned 4095")):
                yield f"PPPInfo read by the script's table {version}: {info:#06x}", f"stage {given}\nopen\nbody 21 {cartesian(info).hex()}\n", \
                    opening + line(read, f"1 {len(older)} 0 0 0 0 0 0"), ""


# A line that is no call, with why; each is tried alone and between two good lines.
BAD = [
    ("an unknown word", "opened"), ("a word in capitals", "OPEN"), ("a word too many", "finish now"),
    ("a word too many behind hex", "feed 00 00"), ("a missing word", "feed"), ("a missing number", "body 00"),
    ("a space at the front", " open"), ("a space at the end", "open "), ("a space at the end of hex", "feed 00 "),
    ("two spaces", "feed  00"), ("a tab", "feed\t00"), ("a carriage return", "open\r"), ("a lone carriage return", "\r"),
    ("a carriage return behind hex", "feed 00\r"), ("a space alone", " "), ("an odd count of hex digits", "feed 123"),
    ("no hex digit", "feed 0g"), ("no hex digit, first of two", "feed g0"), ("a slash, one below 0", "feed 0/"),
    ("a colon, one above 9", "feed 0:"), ("an at, one below A", "feed 0@"), ("a G, one above F", "feed 0G"),
    ("a backquote, one below a", "feed 0`"), ("an empty hex word", "feed "), ("a dash and hex", "feed -00"),
    ("two dashes", "feed --"), ("a number over 2^64 - 1", f"body 18446744073709551616 {BLOCK}"),
    ("a number far over 2^64 - 1", f"body 99999999999999999999999999 {BLOCK}"), ("a negative number", f"body -1 {BLOCK}"),
    ("a number with a sign", f"body +1 {BLOCK}"), ("a number in hex", f"body 0x1 {BLOCK}"), ("no number", f"body a {BLOCK}"),
    ("an empty number", f"body  {BLOCK}"), ("a sub call with one number", f"sub 0 {BLOCK}"),
    ("a sub call with three numbers", f"sub 0 0 0 {BLOCK}"), ("a missing hex word", "sub 0 0"),
    ("a phase over 2", "poke phase 3"), ("an unknown number of the state", "poke standing 1"), ("poke without a value", "poke held"),
    ("poke with two values", "poke held 1 2"), ("an empty name", "poke  1"), ("an unknown buffer", "size holds 5"),
    ("size without a number", "size hold"), ("size of the state's name", "size waits 5"), ("put past the hold", "put hold 65536 00"),
    ("put past the store in force", "put force 8191 0000"), ("put past the waiting store", "put waiting 8193 -"),
    ("put far past the hold", "put hold 18446744073709551615 00"), ("put without an offset", "put hold 00"),
    ("put without bytes", "put hold 0"), ("put into an unknown buffer", "put outs 0 00"),
    ("put into the buffer that write writes", "put out 0 00"), ("size of that buffer without a number", "size out"), ("a comment behind a call", "open # now"),
    ("bytes with a word", "bytes -"), ("withdraw with a word", "withdraw 1"), ("a zero byte", "open\0"),
]


# The same of lines that begin with `write`.
BAD_WRITES = [
    ("write alone", ""), ("write and a space", " "), ("a number", " 5943"), ("two numbers", " 5943 0"), ("three numbers", " 5943 0 1000"),
    ("three numbers and a space", " 5943 0 1000 "), ("no number for NUMBER", " - 0 1000 2100"), ("no number for REVISION", " 5943 - 1000 2100"),
    ("a value for NUMBER", " u5943 0 1000 2100"), ("a value for TOW", " 5943 0 u1000 2100"), ("a value for WNC", " 5943 0 1000 u2100"),
    ("a slash for WNC", " 5943 0 1000 /"), ("two dashes for TOW", " 5943 0 -- 2100"), ("a negative TOW", " 5943 0 -1 2100"),
    ("NUMBER over 2^64 - 1", " 18446744073709551616 0 1000 2100"), ("REVISION over 2^64 - 1", " 5943 18446744073709551616 1000 2100"),
    ("TOW over 2^64 - 1", " 5943 0 18446744073709551616 2100"), ("WNC over 2^64 - 1", " 5943 0 1000 99999999999999999999999999"),
    ("two spaces before NUMBER", "  5943 0 1000 2100"), ("two spaces in the head", " 5943 0  1000 2100"), ("a tab", " 5943 0 1000\t2100"),
]
BAD_VALUES = [
    ("a space at the end", ""), ("two spaces", " u1"), ("a number without its kind", "7"), ("u without a number", "u"), ("i without one", "i"),
    ("i and a minus", "i-"), ("f without one", "f"), ("d without one", "d"), ("a kind in capitals", "U7"), ("an unknown kind", "s7"),
    ("a kind behind its number", "7u"), ("a negative unsigned number", "u-1"), ("a plus", "u+1"), ("a plus before a signed number", "i+1"),
    ("two minuses", "i--1"), ("a negative float by its bits", "f-1"), ("a float by its value", "f1.5"), ("a number in hex", "u0x1"),
    ("two dashes", "--"), ("two slashes", "//"), ("a value behind a slash without a space", "/u1"), ("a slash behind a value without one", "u1/"),
    ("a space at the end behind a slash", "/ "), ("a comment", "# so"), ("a carriage return", "u1\r"), ("a zero byte", "u1\0"),
    ("u over 2^64 - 1", "u18446744073709551616"), ("f over 2^64 - 1", "f18446744073709551616"), ("d over 2^64 - 1", "d18446744073709551616"),
    ("i over 2^63 - 1", "i9223372036854775808"), ("i far over", "i99999999999999999999999999"), ("i below -2^63", "i-9223372036854775809"),
    ("i far below", "i-99999999999999999999999999"), ("a bad value between good ones", "u1 / x - /"),
]
# The same of lines about ceilings.
BAD_CEILINGS = [
    ("open and a word", "open now"), ("two numbers for open", "open 16 16"), ("a dash for open", "open -"), ("open in hex", "open 0x10"),
    ("a negative number for open", "open -16"), ("a sign for open", "open +16"), ("a fraction for open", "open 16.0"),
    ("two spaces for open", "open  16"), ("a space behind open's number", "open 16 "), ("a carriage return behind open's number", "open 16\r"),
    ("open over 2^64 - 1", "open 18446744073709551616"), ("open far over 2^64 - 1", "open 99999999999999999999999999"),
    ("a number for finish", "finish 16"), ("poke without a ceiling", "poke ceiling"), ("poke of no number", "poke ceiling -"),
    ("poke of two", "poke ceiling 16 16"), ("poke over 2^64 - 1", "poke ceiling 18446744073709551616"), ("put into the ceiling", "put ceiling 0 00"),
    ("size of the ceiling", "size ceiling 16"),
]
BAD += BAD_CEILINGS
BAD += [(f"write: {why}", f"write{words}") for why, words in BAD_WRITES]
BAD += [(f"write: {why}", f"write 5943 0 1000 2100 {words}") for why, words in BAD_VALUES]


def bad_lines():
    for why, words in BAD:
        yield f"bad line: {why}", f"{words}\n", "", bad(1)
        yield f"bad line between two good ones: {why}", f"open\n{words}\nwithdraw\n", OPEN5 + NONE, bad(2)


def numbers():
    """Bounds of numbers and of hex, on the good side."""
    held = "0 0 0 18446744073709551615 0 0 0 0"
    yield "the largest number", "poke held 18446744073709551615\nbytes\n", line("refused 1", held), ""
    yield "leading zeros", "poke taken 000000000000000000000000000000007\nbytes\n", line("part 0 0000", "0 0 0 0 0 7 0 0"), ""
    yield "hex in capitals", f"poke phase 1\nfeed {BLOCK.upper()}\n", \
        line("fed 8 block 0 0 0 8", "1 0 0 8 8 8 1 0", crcs(over(bytes.fromhex(BLOCK), HOLD))), ""
    yield "a large field number", f"body 18446744073709551615 {BLOCK}\n", line("refused 5", ZERO), ""


def passed_over():
    yield "no input", "", "", ""
    yield "an empty line", "\n", "", ""
    yield "empty lines and comments count", "\n# a comment\n#open\n#\r\nfoo\n\nbar\n", "", bad(5, 7)
    yield "a last line without a line feed", "withdraw\nbytes", NONE + EMPTY, ""
    yield "a last bad line without a line feed", "withdraw\nbyte", NONE, bad(2)
    yield "a last comment without a line feed", "withdraw\n# so", NONE, ""


def size_put_poke():
    yield "size lends less", "size hold 65535\npoke phase 1\nfeed -\n", line("refused 1", "1 0 0 0 0 0 0 0", crcs()), ""
    yield "size for one call alone", "size hold 0\nbytes\nbytes\n", line("refused 1", ZERO) + EMPTY, ""
    yield "a call that is not lent the buffer ends a size too", "size hold 0\nwithdraw\nbytes\n", NONE + EMPTY, ""
    yield "a refused call ends a size too", "size hold 0\nopen\nbytes\n", OPEN5 + EMPTY, ""
    yield "a bad line ends no size", "size hold 0\nfoo\nbytes\n", line("refused 1", ZERO), bad(2)
    yield "poke and put end no size", "size hold 0\npoke blocks 0\nput force 0 5a\n\n# so\nbytes\n", line("refused 1", ZERO), ""
    yield "the last size counts", "size hold 0\nsize hold 65536\nbytes\n", EMPTY, ""
    yield "size over the buffer lends it whole", "size hold 18446744073709551615\nbytes\n", EMPTY, ""
    yield "several sizes apply", "size waiting 8191\nsize hold 0\nsize force 8192\nopen\n", line("refused 1", ZERO, crcs()), ""
    yield "size of the store in force", "size force 8191\nopen\n", line("refused 1", ZERO, crcs()), ""
    yield "the CRCs are of the whole buffers", "size waiting 5\nstage 00\n", line("refused 1", ZERO, crcs()), ""
    yield "put at the ends", "put hold 65535 01\nput force 0 02\nput waiting 8190 0304\nwithdraw\n", \
        line("withdrawn 0", ZERO, crcs(HOLD[:-1] + b"\1", over(b"\2", FORCE), WAITING[:-2] + b"\3\4")), ""
    yield "put of no bytes at the end", "put hold 65536 -\nput force 8192 -\nwithdraw\n", NONE, ""
    yield "put of a whole store", f"put force 0 {'77' * 8192}\nwithdraw\n", line("withdrawn 0", ZERO, crcs(force=b"\x77" * 8192)), ""
    yield "a put past the buffer writes nothing", "put waiting 8191 0000\nwithdraw\n", NONE, bad(1)
    yield "put and bytes", "poke held 4\npoke taken 4\npoke stands 3\nput hold 0 010203\nbytes\n", \
        line(f"part 3 {crc(bytes((1, 2, 3)))}", "0 0 0 4 3 4 0 0"), ""
    names = ["phase", "force", "waits", "held", "stands", "taken", "blocks", "skipped", "ceiling"]
    pokes = "".join(f"poke {name} {n + 1 if n else 2}\n" for n, name in enumerate(names))
    yield "poke of every number", pokes + "bytes\n", line("refused 1", "2 2 3 4 5 6 7 8", ceiling=9), ""
    yield "poke changes one number", "poke taken 9\npoke skipped 3\nbytes\n", line("part 0 0000", "0 0 0 0 0 9 0 3"), ""
    yield "a poked waiting table", "poke waits 20\nwithdraw\nwithdraw\n", line("withdrawn 1", ZERO, crcs()) + NONE, ""
    yield "phase 2", "poke phase 2\nfeed -\nfinish\n", \
        line("refused 2", "2 0 0 0 0 0 0 0", crcs()) + line("end 0 0 0", ZERO, crcs()), ""


def block(number, revision, tow, wnc, *fields):
    """A block of these fields, packed one after the other from byte 14 on, with zeros at its end."""
    packed = struct.pack("<IH", tow, wnc) + b"".join(struct.pack("<" + kind, value) for kind, value in fields)
    packed += bytes(-len(packed) % 4)
    sealed = struct.pack("<HH", number + 8192 * revision, 8 + len(packed)) + packed
    return b"\x24\x40" + struct.pack("<H", binascii.crc_hqx(sealed, 0)) + sealed


def file_of(head):
    """A table's file: its CRC, and the closing bytes."""
    return head + struct.pack("<H", binascii.crc_hqx(head, 0)) + b"BT"


def bits(kind, value):
    """A float of a `write`: its letter and its bits in decimal."""
    return kind + str(int.from_bytes(struct.pack("<" + kind, value), "little"))


NONE4, NONE8 = struct.unpack("<f", bytes.fromhex("f90295d0"))[0], struct.unpack("<d", bytes.fromhex("000000205fa012c2"))[0]  # -2e10
UNSET4, UNSET8 = ("f", NONE4), ("d", NONE8)
END = block(5943, 0, 1000, 2100)  # EndOfAtt: 16 bytes
with open(os.path.join(TOP, "samples", "shipped-v1.table"), "rb") as rows:
    TABLE = rows.read()
OPENED = f"stage {TABLE.hex()}\nopen\n"
IN_RUN = f"1 {len(TABLE)} 0 0 0 0 0 0"
STORED = crcs(force=over(TABLE, FORCE), waiting=over(TABLE, WAITING))
OPENING = line("staged 1", f"0 0 {len(TABLE)} 0 0 0 0 0", crcs(waiting=over(TABLE, WAITING))) + line("opened 1", IN_RUN, STORED)


def wrote(*blocks, out=OUT):
    """The answers to writes, one after the other, over what the buffer has."""
    lines = ""
    for made in blocks:
        out = over(made, out)
        lines += line(f"written {len(made)} {crc(out)}", IN_RUN)
    return lines


def refused(number):
    return line(f"refused {number}", IN_RUN)


def cartesian(info):
    """PVTCartesian of revision 1: Mode 4, Error 0, PPPInfo, and all between them as unset."""
    return block(4006, 1, 5, 6, ("B", 4), ("B", 0), *[UNSET8] * 3, *[UNSET4] * 5, UNSET8, UNSET4, *[("B", 255)] * 3, ("B", 0), *[("H", 65535)] * 2,
                 ("I", 0), *[("B", 0)] * 2, ("H", info))


CARTESIAN = "4006 1 5 6 u4 u0" + " -" * 19  # and PPPInfo, field 21

# Blocks that the rows shipped allow, with their bytes.
WRITTEN = [
    ("a block without fields", "5943 0 1000 2100", END), ("the largest TOW and WNc", "5943 0 4294967294 65534", block(5943, 0, 4294967294, 65534)),
    ("TOW and WNc unset", "5943 0 - -", block(5943, 0, 4294967295, 65535)), ("zeros in front", "05943 00 00001000 02100", END),
    ("revision 7", "5943 7 1000 2100", block(5943, 7, 1000, 2100)), ("unset values past the last row", "5943 0 1000 2100 - - -", END),
    ("ExtEvent, revision 0", f"5924 0 5 6 u1 u2 {bits('f', 0.25)} {bits('d', -0.5)}", block(5924, 0, 5, 6, ("B", 1), ("B", 2), ("f", 0.25), ("d", -0.5))),
    ("ExtEvent, revision 0, with the field of revision 1 unset", "5924 0 5 6 u1 u2 f0 - -", block(5924, 0, 5, 6, ("B", 1), ("B", 2), ("f", 0), UNSET8)),
    ("ExtEvent, revision 1", "5924 1 5 6 u1 u2 f0 - u65535", block(5924, 1, 5, 6, ("B", 1), ("B", 2), ("f", 0), UNSET8, ("H", 65535))),
    ("a NaN, bit for bit", "5924 0 5 6 u1 u2 f2143289345 d9221120237041090561",
     block(5924, 0, 5, 6, ("B", 1), ("B", 2), ("I", 0x7fc00001), ("Q", 0x7ff8000000000001))),
    ("PPPInfo unset", CARTESIAN + " -", cartesian(0)), ("PPPInfo left out", CARTESIAN, cartesian(0)),
    ("PPPInfo, the lowest with a seed", CARTESIAN + " u8192", cartesian(0x2000)), ("PPPInfo, the largest", CARTESIAN + " u65535", cartesian(0xffff)),
    ("AttEuler, a list that is shorter than the rows", f"5938 0 5 6 - u0 u2 u0 {bits('f', 182.5)}",
     block(5938, 0, 5, 6, ("B", 255), ("B", 0), ("H", 2), ("H", 0), ("f", 182.5), *[UNSET4] * 5)),
    ("BaseVectorCart without sub-blocks", "4043 0 5 6", block(4043, 0, 5, 6, ("B", 0), ("B", 0))),
    ("BaseVectorCart without sub-blocks, a body of unset values", "4043 0 5 6 - - -", block(4043, 0, 5, 6, ("B", 0), ("B", 0))),
    ("BaseVectorCart with two sub-blocks", f"4043 0 5 6 / u1 u2 u3 u4 {bits('d', 1.5)} - - - - - u7 i-32767 u8 u9 u10 / u1 u2 u3 u4 - - - - - - - i-0 u5",
     block(4043, 0, 5, 6, ("B", 2), ("B", 52), *[("B", n) for n in (1, 2, 3, 4)], ("d", 1.5), *[UNSET8] * 2, *[UNSET4] * 3, ("H", 7), ("h", -32767),
           ("H", 8), ("H", 9), ("I", 10), *[("B", n) for n in (1, 2, 3, 4)], *[UNSET8] * 3, *[UNSET4] * 3, ("H", 65535), ("h", 0), ("H", 5),
           ("H", 65535), ("I", 0))),
]

# What Write refuses, with its number.
REFUSED = [
    ("a number without a row", 6, "1 0 5 6"), ("number 8192 and more", 6, "14135 0 5 6"), ("the largest NUMBER", 6, "18446744073709551615 0 5 6"),
    ("revision 8", 11, "5943 8 5 6"), ("the largest REVISION", 11, "5943 18446744073709551615 5 6"), ("TOW's mark", 11, "5943 0 4294967295 6"),
    ("TOW over its range", 11, "5943 0 4294967296 6"), ("the largest TOW", 11, "5943 0 18446744073709551615 6"), ("WNc's mark", 11, "5943 0 5 65535"),
    ("WNc over its range", 11, "5943 0 5 65536"), ("a value past the last row", 11, "5943 0 5 6 u0"), ("the same behind unset ones", 11, "5943 0 5 6 - u0"),
    ("a sub-block where the row has none", 11, "5943 0 5 6 /"), ("the largest u", 11, "5924 0 5 6 u18446744073709551615 u2 f0 -"),
    ("a u over its range", 11, "5924 0 5 6 u256 u2 f0 -"), ("an unset value where there is no mark", 11, "5924 0 5 6 - u2 f0 -"),
    ("a list that ends where there is no mark", 11, "5924 0 5 6 u1"), ("a value that is not carried", 11, "5924 0 5 6 u1 u2 f0 - u3"),
    ("an i for a u", 11, "5924 0 5 6 i1 u2 f0 -"), ("a u for an f", 11, "5924 0 5 6 u1 u2 u0 -"), ("a d for an f", 11, "5924 0 5 6 u1 u2 d0 -"),
    ("an f for a d", 11, "5924 0 5 6 u1 u2 f0 f0"), ("an f over 32 bits", 11, "5924 0 5 6 u1 u2 f4294967296 -"),
    ("the largest f", 11, "5924 0 5 6 u1 u2 f18446744073709551615 -"), ("the mark of a d", 11, f"5924 0 5 6 u1 u2 f0 d{0xC212A05F20000000}"),
    ("PPPInfo, 0", 11, CARTESIAN + " u0"), ("PPPInfo, an age without a seed", 11, CARTESIAN + " u4095"),
    ("PPPInfo, the largest without a seed", 11, CARTESIAN + " u8191"), ("PPPInfo over its range", 11, CARTESIAN + " u65536"),
    ("a value in the body of a row with sub-fields", 11, "4043 0 5 6 u1"), ("the largest i", 11, "5924 0 5 6 i9223372036854775807"),
    ("the lowest i", 11, "5924 0 5 6 i-9223372036854775808"), ("256 sub-blocks", 11, "4043 0 5 6" + " /" * 256),
]


def writes():
    for why, words, made in WRITTEN:
        yield f"write: {why}", f"{OPENED}write {words}\n", OPENING + wrote(made), ""
    for why, number, words in REFUSED:
        yield f"write, refused: {why}", f"{OPENED}write {words}\n", OPENING + refused(number), ""
    for info, read in ((0, None), (1, None), (0x0FFF, None), (0x1FFF, None), (0x2000, 8192), (0x2FFF, 12287), (0xFFFF, 65535)):
        yield f"PPPInfo read: {info:#06x}", f"{OPENED}body 21 {cartesian(info).hex()}\n", OPENING + line(f"unsigned {read}" if read else "do-not-use", IN_RUN), ""
    for kind, answer in ((2, "staged 9"), (1, None), (3, None), (6, None)):
        table = file_of(bytes((14, kind, 0, 5)) + struct.pack("<HBBHBB", 7, 0, 1, 0, 0, 0) + struct.pack("<HHHH", 9, 1, 20, 24))
        stored = crcs(waiting=over(table, WAITING)) if answer else crcs()
        yield f"a table with mark 5 on type {kind}", f"stage {table.hex()}\n", line(answer or "refused 4", f"0 0 {24 if answer else 0} 0 0 0 0 0", stored), ""
    assert len(END) == 16
    long = [made for why, words, made in WRITTEN if why == "BaseVectorCart with two sub-blocks"][0]
    words = [words for why, words, made in WRITTEN if made is long][0]
    yield "the buffer is kept from write to write", f"{OPENED}write {words}\nwrite 5943 0 1000 2100\n", OPENING + wrote(long, END), ""
    yield "a refused write writes nothing", f"{OPENED}write 5943 0 1000 2100\nwrite 5943 8 5 6\nwrite 5943 0 1000 2100\n", \
        OPENING + wrote(END) + refused(11) + wrote(END, out=over(END, OUT)), ""
    yield "255 sub-blocks", f"{OPENED}write 4043 0 5 6{' / u1 u2 u3 u4 - - - - - - - - u5' * 255}\n", \
        OPENING + wrote(block(4043, 0, 5, 6, ("B", 255), ("B", 52), *[*[("B", n) for n in (1, 2, 3, 4)], *[UNSET8] * 3, *[UNSET4] * 3, ("H", 65535),
                                                                       ("h", -32768), ("H", 5), ("H", 65535), ("I", 0)] * 255)), ""
    yield "no table", "write 5943 0 1000 2100\n", line("refused 5", ZERO), ""
    yield "a table in force and no run open", f"{OPENED}finish\nwrite 5943 0 1000 2100\n", \
        OPENING + line("end 0 0 0", f"0 {len(TABLE)} 0 0 0 0 0 0", STORED) + line(f"written 16 {crc(over(END, OUT))}", f"0 {len(TABLE)} 0 0 0 0 0 0"), ""
    yield "size of the buffer, one byte too few", f"{OPENED}size out 15\nwrite 5943 0 1000 2100\nwrite 5943 0 1000 2100\n", \
        OPENING + refused(12) + wrote(END), ""
    yield "size of the buffer, just enough; the CRC is of the whole", f"{OPENED}size out 16\nwrite 5943 0 1000 2100\n", OPENING + wrote(END), ""
    yield "size of the buffer, none", f"{OPENED}size out 0\nwrite 5943 0 1000 2100\n", OPENING + refused(12), ""
    yield "size of the buffer, over its length", f"{OPENED}size out 18446744073709551615\nwrite 5943 0 1000 2100\n", OPENING + wrote(END), ""
    yield "another call ends a size of the buffer", f"{OPENED}size out 15\nbytes\nwrite 5943 0 1000 2100\n", \
        OPENING + line("part 0 0000", IN_RUN) + wrote(END), ""
    yield "write ends a size of another buffer", f"{OPENED}size hold 0\nwrite 5943 0 1000 2100\nbytes\n", OPENING + wrote(END) + line("part 0 0000", IN_RUN), ""
    yield "a bad write ends no size", f"{OPENED}size out 15\nwrite 5943 0 1000 2100 x\nwrite 5943 0 1000 2100\n", OPENING + refused(12), bad(4)
    yield "a short store in force", f"{OPENED}size force 8191\nwrite 5943 0 1000 2100\n", OPENING + refused(1), ""
    yield "a state that is not sound", f"{OPENED}poke stands 1\nwrite 5943 0 1000 2100\n", OPENING + line("refused 1", f"1 {len(TABLE)} 0 0 1 0 0 0"), ""
    yield "a table that breaks a rule", f"{OPENED}put force 0 ff\nwrite 5943 0 1000 2100\n", OPENING + refused(4), ""
    head = "write 5943 0 1000 2100"
    fits = head + " -" * ((LONGEST - len(head)) // 2)
    yield "as many values as a line holds", f"{OPENED}{fits}\n", OPENING + wrote(END), ""
    yield "a value more", f"{OPENED}{fits} -\nbytes\n", OPENING + line("part 0 0000", IN_RUN), bad(3)
    yield "as many sub-blocks as a line holds", f"{OPENED}{fits.replace(' -', ' /')}\n", OPENING + refused(11), ""


NO_CEILINGS = (0, 1, 4, 8, 12, 14, 15, 17, 18, 19, 4095, 65529, 65530, 65531, 65533, 65534, 65535, 65536, 65540, 65552, 2**32, 2**32 + 16, 2**32 + 65532,
               2**63, 2**64 - 65536 + 16, 2**64 - 4, 2**64 - 1)
FALSE = "24400000000060ea"  # S14: a header with the length 60,000
STAGED = f"0 0 {len(TABLE)} 0 0 0 0 0"
CLOSED = f"0 {len(TABLE)} 0 0 0 0 0 0"


def begun(ceiling):
    """The answers to a stage and to an open with a ceiling."""
    return OPENING.replace(f"{IN_RUN} 65532", f"{IN_RUN} {ceiling}")


def ceilings():
    stage = f"stage {TABLE.hex()}\n"
    staged = crcs(waiting=over(TABLE, WAITING))
    for number in NO_CEILINGS:
        yield f"no ceiling: {number}", f"{stage}open {number}\n", OPENING.splitlines(True)[0] + line("refused 13", STAGED, staged), ""
        yield f"no ceiling in the state: {number}", f"poke ceiling {number}\nbytes\ntow {END.hex()}\nwithdraw\nopen 16\n", \
            line("refused 1", ZERO, ceiling=number) * 2 + line("refused 1", ZERO, crcs(), ceiling=number) * 2, ""
    for words, number in (("16", 16), ("20", 20), ("4096", 4096), ("65528", 65528), ("65532", 65532), ("00000000000000000000000016", 16)):
        yield f"open {words}", f"{stage}open {words}\n", begun(number), ""
    held = over(bytes.fromhex(FALSE + BLOCK), HOLD)
    found = over(bytes.fromhex(BLOCK), HOLD)
    in_run, stored = IN_RUN[:-len(" 0 0 0 0 0")], STORED[4:]
    yield "S14 without a ceiling", f"{OPENED}feed {FALSE}{BLOCK}\n", OPENING + line("fed 16 more", f"{in_run} 16 0 16 0 0", crc(held) + stored), ""
    yield "S14 with 4096", f"{stage}open 4096\nfeed {FALSE}{BLOCK}\n", \
        begun(4096) + line("fed 16 block 8 0 0 8", f"{in_run} 8 8 16 1 8", crc(found) + stored, ceiling=4096), ""
    yield "a header above the ceiling, byte by byte", f"{stage}open 16\nfeed 24400000000014\nfeed 00\n", \
        begun(16) + line("fed 7 more", f"{in_run} 7 0 7 0 0", crc(over(bytes.fromhex("24400000000014"), HOLD)) + stored, ceiling=16) \
        + line("fed 1 more", f"{in_run} 0 0 8 0 8", crc(over(bytes.fromhex("24400000000014"), HOLD)) + stored, ceiling=16), ""
    yield "a block as long as the ceiling", f"{stage}open 16\nfeed {END.hex()}\n", \
        begun(16) + line("fed 16 block 0 5943 0 16", f"{in_run} 16 16 16 1 0", crc(over(END, HOLD)) + stored, ceiling=16), ""
    yield "no table and no ceiling", "open 15\nopen 16\n", line("refused 13", ZERO, crcs()) + OPEN5, ""
    yield "a bad table and no ceiling", "poke waits 19\nopen 15\nopen 16\n", "".join(line(f"refused {n}", "0 0 19 0 0 0 0 0", crcs()) for n in (13, 4)), ""
    yield "a run open and no ceiling", f"{stage}open 16\nopen 15\nopen 20\n", begun(16) + line("refused 2", IN_RUN, STORED, ceiling=16) * 2, ""
    yield "a ceiling from one open to the next", f"{stage}open 16\nfinish\nopen 15\nopen\n", \
        begun(16) + line("end 0 0 0", CLOSED, STORED, ceiling=16) + line("refused 13", CLOSED, STORED, ceiling=16) + line("opened 1", IN_RUN, STORED), ""
    long = cartesian(0x2000)
    yield "a record of a block above the ceiling", f"{stage}open 16\ntow {long.hex()}\nbody 21 {long.hex()}\n", \
        begun(16) + line("unsigned 5", IN_RUN, ceiling=16) + line("unsigned 8192", IN_RUN, ceiling=16), ""
    assert len(long) == 88
    yield "write: blocks about the ceiling", f"{stage}open 84\nwrite {CARTESIAN} u8192\nfinish\nwrite {CARTESIAN} u8192\nopen 88\nwrite {CARTESIAN} u8192\n", \
        begun(84) + line("refused 12", IN_RUN, ceiling=84) + line("end 0 0 0", CLOSED, STORED, ceiling=84) + line("refused 12", CLOSED, ceiling=84) \
        + line("opened 1", IN_RUN, STORED, ceiling=88) + line(f"written 88 {crc(over(long, OUT))}", IN_RUN, ceiling=88), ""


def longest():
    """270,000 bytes without the line feed are fine, one more is a bad line, on every side of a read."""
    fits = "stage " + "00" * ((LONGEST - len("stage ")) // 2)
    assert len(fits) == LONGEST
    four = line("refused 4", ZERO, crcs())
    yield "a line of 270,000 bytes", fits + "\nbytes\n", four + EMPTY, ""
    yield "a line of 270,000 bytes, the last, without a line feed", "bytes\n" + fits, EMPTY + four, ""
    yield "a line of 270,001 bytes", fits + "0\nbytes\n", EMPTY, bad(1)
    yield "a line of 270,002 bytes", "bytes\n" + fits + "00\nbytes\nfoo\n", EMPTY * 2, bad(2, 4)
    yield "a line of 270,002 bytes, the last, without a line feed", "bytes\n" + fits + "00", EMPTY, bad(2)
    yield "a line of a million bytes", "bytes\n" + "open " * 200_000 + "\nbytes\n", EMPTY * 2, bad(2)
    yield "a comment of 270,000 bytes", "#" * LONGEST + "\nbytes\n", EMPTY, ""
    yield "a comment of 270,001 bytes", "#" * (LONGEST + 1) + "\nbytes\n", EMPTY, bad(1)
    piece = bytes(65536)
    yield "a feed of 65,536 bytes", f"poke phase 1\nfeed {piece.hex()}\n", \
        line("fed 65536 more", "1 0 0 0 0 65536 0 65536", crcs()), ""


def many():
    """More output than one buffer of 8,192 bytes, with bad lines between."""
    yield "2,000 calls and 1,000 bad lines", "bytes\nfoo\nwithdraw\n" * 1000, (EMPTY + NONE) * 1000, \
        bad(*range(2, 3000, 3))


def failures(env):
    """(name, what is told on standard error): standard input that cannot be read, standard output that cannot be written."""
    def told(stdin, stdout):
        return programs.told("replay", stdin, stdout, env)[1]
    folder = os.open(TOP, os.O_RDONLY)
    yield "a folder as standard input", "replay: cannot read standard input\n", told(folder, subprocess.DEVNULL)
    with open(os.path.join(TOP, "samples", "flight-line.script"), "rb") as script, open("/dev/full", "wb") as full:
        yield "a full device as standard output", "replay: cannot write to standard output\n", told(script, full)


def script_of(env, *words, data=b""):
    """What tools/script writes, on either stream."""
    return subprocess.run([os.path.join(TOP, "tools", "script"), *words], input=data, env=env, stdout=subprocess.PIPE,
                          stderr=subprocess.STDOUT, timeout=60).stdout.decode("ascii")


def recordings(env):
    """(name, the lister's lines, what replay reports of the script of tools/script): streams with their lists beside them, and a
    false header whose last byte stands within a block, with blocks on either side; the same with ceilings about its length."""
    table = os.path.join(TOP, "samples", "shipped-v1.table")

    def told(*words, data=b"", ceiling=()):
        """Blocks and end in the answers, and every answer that is neither such nor usual."""
        said, wrong = played(script_of(env, *ceiling, table, *words, data=data), env)
        answers = re.sub(r"(?m)^(fed \d+ (?=block)|(staged|opened) 1$|fed \d+ more$)\n?", "", re.sub(r"(?m) \|.*$", "", said))
        return answers + wrong
    for path in sorted(glob.glob(os.path.join(TOP, "tests", "streams", "*.sbf"))) + [os.path.join(TOP, "samples", "flight.sbf")]:
        with open(path[:-4] + ".list", encoding="ascii") as f:
            yield f"the script of {os.path.relpath(path, TOP)}", f.read(), told(path)
    held_back = bytes.fromhex("2440000037173c00" + BLOCK * 20)  # 60 bytes by its header: up to the middle of the seventh block
    want = "".join(f"block {8 + 8 * n} 0 0 8\n" for n in range(20)) + "end 168 20 8\n"
    yield "the script of blocks in a false header and behind it", want, told(data=held_back)
    yield "the script of nothing", "end 0 0 0\n", told("-")
    for number in ("56", "60"):
        yield f"the script of a false header of 60 with the ceiling {number}", want, told(data=held_back, ceiling=("--ceiling", number))
    yield "the script of a number that is no ceiling", "tools/script: --ceiling 15: is no ceiling; give a number that 4 divides, from 16 to 65532\n", \
        script_of(env, "--ceiling", "15", table, data=held_back)
    with open(os.path.join(TOP, "samples", "flight.sbf"), "rb") as sbf, open(table, "rb") as rows:
        pieces = [f"feed {piece.hex()}\n" for piece in iter(lambda: sbf.read(512), b"")]
        said, _ = played(f"stage {rows.read().hex()}\nopen\n{''.join(pieces)}finish\n", env)
    with open(os.path.join(TOP, "docs", "REPLAY.md"), encoding="utf-8") as page:
        yield "what docs/REPLAY.md says of pieces of one length", said.splitlines()[-1].split(" |")[0], \
            "".join(re.findall("pieces of 512 bytes ends with `(.*?)`", page.read()))


def cases():
    for group in (flight, false_header, bad_lines, numbers, passed_over, size_put_poke, writes, ceilings, longest, many):
        yield from group()


def played(script, env):
    ran = subprocess.run([os.path.join(TOP, "tools", "x86run"), PROGRAM], input=script.encode("ascii"), env=env,
                         stdout=subprocess.PIPE, stderr=subprocess.PIPE, timeout=60)
    if ran.returncode != 0:
        return f"status {ran.returncode}", ran.stderr.decode(errors="replace")
    return ran.stdout.decode(errors="replace"), ran.stderr.decode(errors="replace")


def main():
    if not os.path.exists(PROGRAM):
        print("test_flight: there is no crates/replay/out/replay; `rt run` in crates/replay makes it\n0 passed, 1 failed")
        return 1
    env = programs.kit()
    counted = programs.Cases()
    for name, script, want, told in cases():
        said, wanted = (told, want) if script is None else (played(script, env), (want, told))
        counted.expect(name, said == wanted, f"{str(said)[:500]}, not {str(wanted)[:500]}")
    for name, want, told in (*failures(env), *recordings(env)):
        counted.expect(name, told == want, f"{told[:300]!r}, not {want[:300]!r}")
    return counted.tally()


if __name__ == "__main__":
    sys.exit(main())
