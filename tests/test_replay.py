#!/usr/bin/env python3
"""Compares the programs `replay` and `lister` with the independent model (model/model.py).

    test_replay.py            the gate's amount: 220 scripts of about 100
                              calls, 110 of about 200 record calls, 40 of
                              about 150 on blocks of two levels, 30 of about
                              120 on ceilings, 60 of about 100 blocks to be
                              written, 20 runs
    test_replay.py N          N times as many seeds
    test_replay.py --model    the model's own samples alone; no program is run
    test_replay.py --seed S   writes the script S to standard output: 17 a
                              script, r17 a script of record calls, m17 one
                              of blocks of two levels, c17 one of ceilings,
                              w17 one of blocks to be written, l17 the bytes
                              of a run for the lister

Standard output and standard error are compared byte for byte.  At the first
difference it says where and stops.  The last line is `N passed, M failed`; N
counts the samples of the model's own test, the scripts and runs compared, and
the answer kinds and the cases of mark 5, of two levels and of ceilings that
had to be met.
"""

import collections
import concurrent.futures
import functools
import glob
import itertools
import os
import random
import struct
import subprocess
import sys
import time
import traceback

sys.path.insert(0, os.path.join(os.path.dirname(os.path.abspath(__file__)), "model"))
sys.dont_write_bytecode = True

import content  # noqa: E402
import model  # noqa: E402
import programs  # noqa: E402
import scripts  # noqa: E402

TOP = programs.TOP
RUNNER = os.path.join(TOP, "tools", "x86run")
REPLAY = os.path.join(TOP, programs.built("replay"))
LISTER = os.path.join(TOP, programs.built("lister"))
SCRIPTS, RECORDS, LEVELS, CEILINGS, WRITES, RUNS = 220, 110, 40, 30, 60, 20
LEAST_RECORD_ANSWERS = 20000
LEAST_WRITTEN = 2500    # blocks
RECORD_WORDS = ("body", "sub", "subbytes", "tow", "wnc", "sub2", "range",
                "range2")
SECONDS = 300

# -------------------------------------------------- the model's own samples

SAMPLE_S2 = bytes.fromhex("2440A98900000800")


def run_by_calls(data, cuts, ceiling=model.CEILING_MOST):
    """A run through the model's calls, cut at random; the unread rest is
    offered again first.  ([blocks], end answer, [bytes of each block])"""
    table = model.shipped_table(1)
    player = model.Player()
    player.line(b"stage " + scripts.hexed(table))
    player.line(b"open %d" % ceiling)
    blocks, parts, rest = [], [], data
    while True:
        size = min(len(rest), cuts())
        answer = player.call(b"feed", [rest[:size]])
        rest = rest[answer[1]:]
        if answer[2] == "block":
            blocks.append(answer[3:])
            parts.append(player.call(b"bytes", [])[1])
            continue
        # F17
        assert player.state.held < ceiling, "fewer are held than the ceiling"
        if not rest:
            break
    answer = player.call(b"finish", [])
    while answer[0] == "block":
        blocks.append(answer[1:])
        parts.append(player.call(b"bytes", [])[1])
        answer = player.call(b"finish", [])
    return blocks, answer, parts


def whole(data, ceiling=model.CEILING_MOST):
    """The run's blocks and its end, without calls."""
    blocks, skipped = model.read_run(data, ceiling)
    return blocks, ("end", len(data), len(blocks), skipped)


def sample_run(data, blocks, end):
    """A sample by both ways of reading a run."""
    by_calls = run_by_calls(data, lambda: 3)
    return whole(data) == (blocks, end) and by_calls[:2] == (blocks, end)


def sample_s4():
    cases = (("3717", 5943, 0), ("3737", 5943, 1), ("FFFF", 8191, 7))
    for ident, number, revision in cases:
        data = content.seal(bytes(4) + bytes.fromhex(ident) + bytes(2))
        if model.block_of(data, 0) != (number, revision, 8):
            return False
    return True


def sample_s5():
    for length in (4, 9):
        body = bytes(2) + length.to_bytes(2, "little") + bytes(8)
        check = model.crc(body[:length - 4])
        data = b"\x24\x40" + check.to_bytes(2, "little") + body
        if model.read_run(data)[0]:
            return False
    return True


def sample_s7():
    """S7: the block shows at Finish."""
    data = bytes.fromhex("2440000000001400") + SAMPLE_S2
    player = model.Player()
    player.line(b"stage " + scripts.hexed(model.shipped_table(1)))
    player.line(b"open")
    return (player.call(b"feed", [data]) == ("fed", 16, "more")
            and player.call(b"finish", []) == ("block", 8, 0, 0, 8)
            and player.state.skipped == 8
            and player.call(b"finish", []) == ("end", 16, 1, 8))


def sample_s10():
    """S10: a record call on a block of 8 bytes."""
    data = content.seal(bytes(4) + (5943).to_bytes(2, "little") + bytes(2))
    table = bytearray(model.shipped_table(1))
    state = model.NEW_READER._replace(force=len(table))
    table += bytes(8192 - len(table))
    return (model.call_body(state, table, 0, data)[0] == ("refused", 7)
            and model.call_tow(state, data)[0] == ("refused", 7))


def crcs_agree():
    rng = random.Random(1)
    samples = [b"", b"\x00", b"123456789", bytes(range(256))]
    samples += [content.noise(rng, n) for n in range(1, 60)]
    return (model.crc(b"123456789") == 0x31C3
            and all(model.crc(s) == model.crc_plain(s) for s in samples))


def some_run(rng, count):
    """The bytes of a run and a ceiling: of two runs, one with the ceiling
    that leaves out no length."""
    if rng.random() < 0.5:
        return (content.stream(rng, model.shipped_rows(), count),
                model.CEILING_MOST)
    ceiling = content.good_ceiling(rng)
    return content.ceiling_stream(rng, model.shipped_rows(), ceiling,
                                  count), ceiling


def feeds_agree():
    """feed_fast is feed_plain."""
    rng = random.Random(2)
    for _ in range(400):
        data, ceiling = some_run(rng, rng.randrange(6))
        cut = rng.randrange(len(data) + 1)
        given = data[:cut][-500:], data[cut:][:500], ceiling
        if model.feed_fast(*given) != model.feed_plain(*given):
            return False
    return True


def cuts_agree():
    """However a run is cut, it gives the blocks of its whole bytes, with the
    ceiling that it was opened with."""
    rng = random.Random(3)
    for _ in range(90):
        data, ceiling = some_run(rng, rng.randrange(12))
        blocks, end, parts = run_by_calls(
            data, lambda: rng.choice((0, 1, 2, 9, 50, 700)), ceiling)
        if (blocks, end) != whole(data, ceiling):
            return False
        for block, part in zip(blocks, parts):
            if data[block[0]:block[0] + block[3]] != part:
                return False
    return True


def moved_agree():
    """D3: the same answers, state and bytes where the table calls of a run
    are made right after it."""
    rng = random.Random(5)
    for _ in range(25):
        data = content.stream(rng, model.shipped_rows(), rng.randrange(1, 9))
        block = content.row_block(rng, rng.choice(model.shipped_rows()))
        start = [b"stage " + scripts.hexed(model.shipped_table(1)),
                 b"open %d" % content.good_ceiling(rng)]
        run, table = [], []
        for at in range(0, len(data), 40):
            run.append(b"feed " + scripts.hexed(data[at:at + 40]))
            run.append(b"body 4 " + scripts.hexed(block))
        run += [b"finish"] * 20
        for _ in range(4):
            make = rng.choice((content.valid_table, content.broken_table))
            table.append(rng.choice((b"withdraw", b"stage "
                                     + scripts.hexed(make(rng)))))
        mixed = run + table
        spots = sorted(rng.sample(range(len(run) + 1), len(table)))
        for spot, line in reversed(list(zip(spots, table))):
            run = run[:spot] + [line] + run[spot:]
        if not same_outcome(start + run, start + mixed):
            return False
    return True


def same_outcome(here, there):
    """The same answers by call (the runs' calls and the table calls each in
    their order), the same final state and bytes."""
    ends = []
    for lines in (here, there):
        player = model.Player()
        told = [(line, player.line(line).split(" | ")[0]) for line in lines]
        late = [pair for pair in told
                if pair[0].startswith((b"stage", b"withdraw"))]
        rest = [pair for pair in told if pair not in late]
        ends.append((late, rest, player.state, player.buffers))
    return ends[0] == ends[1]


def tables_agree():
    """Valid tables are read back, broken ones are not."""
    rng = random.Random(4)
    shipped = model.read_table(model.shipped_table(7))
    return (shipped == model.Table(7, model.shipped_rows())
            and all(model.read_table(content.valid_table(rng))
                    for _ in range(100))
            and not any(model.read_table(content.broken_table(rng))
                        for _ in range(300))
            and not any(model.read_table(model.make_table(1, (row,)))
                        for _, row in content.bad_rows(rng, 9)
                        + content.bad_levels(rng, 9))
            and all(model.read_table(model.make_table(1, content.level_rows(
                rng))) for _ in range(100)))


def shipped_agree():
    """T30 to T37: the model's rows, made without samples/, are those there."""
    with open(os.path.join(TOP, "samples", "shipped-v1.table"), "rb") as file:
        return model.shipped_table(1) == file.read()


# ------------------------------------------- samples of blocks that are written
# Blocks of the rows shipped, byte by byte by hand; the CRC by model.crc_plain.

END_OF_ATT = "2440 7540 3717 1000 E8030000 3408 0000"
ATT_EULER = ("2440 C1E3 3217 2C00 00709914 9808 0C 00 0400 0000"
             "0000B442 0000C0BF 00000040 F90295D0 F90295D0 F90295D0")
NO_VECTOR = "2440 9DCD CB0F 1000 FFFFFFFF FFFF 00 00"
VECTOR = ("07 00 04 00 000000000000F03F 000000205FA012C2 0000000000000080"
          "F90295D0 F90295D0 F90295D0 FFFF 9CFF 0100 FFFF 00000000")
OTHER_VECTOR = ("01 02 03 FF 000000205FA012C2 000000205FA012C2"
                "000000205FA012C2 F90295D0 F90295D0 FFFFFFFF"
                "FEFF 0080 FFFF 0000 FFFFFFFF")
ONE_VECTOR = "2440 0182 CB0F 4400 E8030000 3408 01 34" + VECTOR
TWO_VECTORS = "2440 7C1D CB0F 7800 E8030000 3408 02 34" + VECTOR + OTHER_VECTOR
WORDS = b" / u7 u0 u4 u0 d4607182418800017408 - d9223372036854775808"
WORDS_ONE = WORDS + b" - - - - i-100 u1"
WORDS_TWO = (WORDS_ONE + b" / u1 u2 u3 u255 - - - - - f4294967295 u65534"
             b" - u65535 u0 u4294967295")

# PVTCartesian (request M-101): the CRC is left open, and PPPInfo, which ends
# the block in revision 1; in revision 0 its two bytes are padding.
CARTESIAN = ("E8030000 3408 0A 00 0000000000005041 000000205FA012C2"
             "000000000000F0BF 00003A42 00000000 0000C0BF F90295D0 F90295D0"
             "000000000000E03F F90295D0 00 1E 0C 00 FFFF 0A00 01000000 01 00")
CARTESIAN_0 = "2440 %s A60F 5800" + CARTESIAN + "%s"
CARTESIAN_1 = "2440 %s A62F 5800" + CARTESIAN + "%s"
CARTESIAN_2 = "2440 %s A64F 6000" + CARTESIAN + "%s FFFF 7B00 FEFF 81 00"
WORDS_1 = (b" 1000 2100 u10 u0 d4706261610602168320 - d13830554455654793216"
           b" f1111097344 f0 f3217031168 - - d4602678819172646912 - u0 u30"
           b" u12 - - u10 u1 u1 -")
WORDS_2 = b" - u123 u65534 u129"
PPP_INFO = 21    # its number among the fields

# (line, the block's bytes in hex, or the answer)
WRITE_LINES = (
    (b"write 4006 1" + WORDS_1, CARTESIAN_1 % ("2713", "0000")),
    (b"write 4006 1" + WORDS_1 + b" -", CARTESIAN_1 % ("2713", "0000")),
    (b"write 4006 1" + WORDS_1 + b" u0", "refused 11"),
    (b"write 4006 1" + WORDS_1 + b" u1", "refused 11"),
    (b"write 4006 1" + WORDS_1 + b" u4095", "refused 11"),
    (b"write 4006 1" + WORDS_1 + b" u8191", "refused 11"),
    (b"write 4006 1" + WORDS_1 + b" u8192", CARTESIAN_1 % ("4537", "0020")),
    (b"write 4006 1" + WORDS_1 + b" u65535", CARTESIAN_1 % ("280E", "FFFF")),
    (b"write 4006 1" + WORDS_1 + b" u65536", "refused 11"),
    (b"write 4006 1" + WORDS_1 + b" i8192", "refused 11"),
    (b"write 4006 0" + WORDS_1 + b" u8192", "refused 11"),
    (b"write 4006 2" + WORDS_1 + b" -" + WORDS_2,
     CARTESIAN_2 % ("16B2", "0000")),
    (b"write 4006 2" + WORDS_1 + b" u0" + WORDS_2, "refused 11"),
    (b"write 4006 2" + WORDS_1 + b" u12264" + WORDS_2,
     CARTESIAN_2 % ("D668", "E82F")),
    (b"write 5943 0 1000 2100", END_OF_ATT),
    (b"write 5943 0 01000 2100 - - -", END_OF_ATT),
    (b"write 5938 0 345600000 2200 u12 u0 u4 u0 f1119092736 f3217031168"
     b" f1073741824", ATT_EULER),
    (b"write 5938 0 345600000 2200 u12 u0 u4 u0 f1119092736 f3217031168"
     b" f1073741824 - - - - -", ATT_EULER),
    (b"write 4043 0 - -", NO_VECTOR),
    (b"write 4043 0 - - - - -", NO_VECTOR),
    (b"write 4043 0 1000 2100" + WORDS_ONE, ONE_VECTOR),
    (b"write 4043 0 1000 2100 - -" + WORDS_TWO, TWO_VECTORS),
    (b"write 5944 0 1000 2100", "refused 6"),
    (b"write 8192 8 1000 2100", "refused 6"),
    (b"write 14135 0 1000 2100", "refused 6"),
    (b"write 5943 8 1000 2100", "refused 11"),
    (b"write 5943 0 4294967295 2100", "refused 11"),
    (b"write 5943 0 1000 65535", "refused 11"),
    (b"write 5943 0 1000 2100 u0", "refused 11"),
    (b"write 5943 0 1000 2100 /", "refused 11"),
    (b"write 5938 0 - - - u0 u4 u0 f3499426553", "refused 11"),
    (b"write 5938 0 - - u255 u0 u4 u0", "refused 11"),
    (b"write 5938 0 - - i12 u0 u4 u0", "refused 11"),
    (b"write 5938 0 - - u12 u256 u4 u0", "refused 11"),
    (b"write 5938 0 - - - - u4 u0", "refused 11"),
    (b"write 5938 0 - - - u0 u4", "refused 11"),
    (b"write 5938 0 - - - u0 u4 u0 d0", "refused 11"),
    (b"write 5938 0 - - - u0 u4 u0 f4294967296", "refused 11"),
    (b"write 5924 0 - - u0 u0 f0 - u0", "refused 11"),
    (b"write 5924 1 - - u0 u0 f0 -", "refused 11"),
    (b"write 4043 0 - - u0", "refused 11"),
    (b"write 4043 0 - - - u0", "refused 11"),
    (b"write 4043 0 - - /", "refused 11"),
    (b"write 4043 0 - - / u0 u0 u0 u0 - - - - - - - i-32768 u0",
     "refused 11"))


# (block, what PPPInfo answers), by the rows shipped
READ_BLOCKS = (
    (CARTESIAN_1 % ("06F3", "FF1F"), "do-not-use"),
    (CARTESIAN_1 % ("37E1", "FF0F"), "do-not-use"),
    (CARTESIAN_1 % ("2713", "0000"), "do-not-use"),
    (CARTESIAN_1 % ("4537", "0020"), "unsigned 8192"),
    (CARTESIAN_1 % ("280E", "FFFF"), "unsigned 65535"),
    (CARTESIAN_2 % ("B814", "FF1F"), "do-not-use"),
    (CARTESIAN_2 % ("4647", "FF0F"), "do-not-use"),
    (CARTESIAN_2 % ("EA15", "0020"), "unsigned 8192"),
    (CARTESIAN_0 % ("1412", "FFFF"), "not-in-this-revision"))


def sample_s13():
    """S13, of a u2 alone: the border, and every number."""
    def read(number):
        return model.value(number.to_bytes(2, "little"), 0, 2, 5)
    return (read(0x1FFF) == read(0x0FFF) == read(0) == ("do-not-use",)
            and read(0x2000) == ("unsigned", 8192)
            and [n for n in range(65536) if read(n) == ("do-not-use",)]
            == list(range(8192))
            and model.mark_bits(model.Field(14, 2, 0, 5)) == 0)


def sample_s13_blocks(player):
    """S13, of blocks: those above."""
    player.line(b"stage " + scripts.hexed(model.shipped_table(1)))
    player.line(b"open")
    for block, want in READ_BLOCKS:
        line = b"body %d %s" % (PPP_INFO, block.replace(" ", "").encode())
        told = player.line(line).split(" | ")[0]
        if told != want:
            print("  %s: %s" % (shown(line), told))
            return False
    return True


def sample_before():
    """The table tells, not the block's number: by the rows of before the
    request PPPInfo reads as mark 2 has it."""
    player = model.Player()
    table = model.make_table(1, content.UNSEEDED)
    player.line(b"stage " + scripts.hexed(table))
    player.line(b"open")
    told = [player.call(b"body", [PPP_INFO, bytes.fromhex(block)])
            for block, _ in READ_BLOCKS[:4]]
    return told == [("unsigned", 0x1FFF), ("unsigned", 0x0FFF),
                    ("do-not-use",), ("unsigned", 0x2000)]


def sample_s13_tables(player):
    """S13, of tables: mark 5 stands on u2 and on no other type; a mark 6 on
    none."""
    for kind, mark, body in [(k, m, b) for k in range(1, 11) for m in (5, 6)
                             for b in (True, False)]:
        field = model.Field(14 if body else 0, kind, 0, mark)
        row = (model.Row(9, 0, (field,), ()) if body
               else model.Row(9, 0, content.PAIR, (field,)))
        line = b"stage " + scripts.hexed(model.make_table(3, (row,)))
        want = "staged 3" if (kind, mark) == (2, 5) else "refused 4"
        if player.line(line).split(" | ")[0] != want:
            return False
    return True


def met_of(player, *words):
    """What a Watcher has counted under these words."""
    return {(word, kind): count for (word, kind), count in player.met.items()
            if word in words}


def sample_watched():
    """What a Watcher counts of the samples of mark 5."""
    player = Watcher()
    held = sample_s13_blocks(player) and sample_s13_tables(player)
    for line, _ in WRITE_LINES:
        player.line(line)
    want = {("mark 5", "stage refused, type %d" % kind): 2
            for kind in model.SIZES if kind != 2}
    for answer, count in (("unsigned", 3), ("do-not-use", 1),
                          ("do-not-use, bits not 0", 4),
                          ("not-in-this-revision", 1)):
        want["mark 5", "body " + answer] = count
        want["PPPInfo", answer] = count
    for kind, count in (("unset", 3), ("8192", 1), ("more", 2),
                        ("refused, 0", 2), ("refused, 8191", 1),
                        ("refused, other", 2)):
        want["mark 5", "write body " + kind] = count
    return held and met_of(player, "mark 5", "PPPInfo") == want


def sample_lines():
    """The lines above, each with the bytes of the out buffer behind the
    block, and after a refusal all of them."""
    player = model.Player()
    player.line(b"stage " + scripts.hexed(model.shipped_table(1)))
    player.line(b"open")
    for line, want in WRITE_LINES:
        before = bytes(player.buffers["out"])
        told = player.line(line).split(" | ")
        after = bytes(player.buffers["out"])
        answer = want
        if not want.startswith("refused"):
            block = bytes.fromhex(want)
            before = block + before[len(block):]
            answer = "written %d %04x" % (len(block), model.crc(after))
        if after != before or told[0] != answer or told[2] != "- - -":
            print("  %s: %s" % (shown(line), told[0]))
            return False
    return True


def sample_sizes():
    """What is lent of the out buffer: 12 where the block is longer, and 11
    all the same where both hold; the next call is lent it whole."""
    player = model.Player()
    player.line(b"stage " + scripts.hexed(model.shipped_table(1)))
    player.line(b"open")
    fit, wrong = b"write 4043 0 1000 2100" + WORDS_ONE, b"write 4043 8 1 1"
    for size, line, want in ((68, fit, "written"), (67, fit, "refused 12"),
                             (0, fit, "refused 12"), (0, wrong, "refused 11"),
                             (65537, fit, "written")):
        player.line(b"size out %d" % size)
        if not player.line(line).startswith(want):
            return False
        if not player.line(fit).startswith("written 68 "):
            return False
    return True


def sample_no_calls():
    """Lines that are none."""
    player = model.Player()
    good = b"write 5943 0 1000 2100"
    for end in (b" ", b" u", b" u-1", b" i", b" i-", b" i+1", b" f-1",
                b" u18446744073709551616", b" d18446744073709551616",
                b" f18446744073709551616", b" i9223372036854775808",
                b" i-9223372036854775809", b" x1", b" 1", b" //", b" U1",
                b" /u1", b" --", b"  u1", b" u1 ", b"\r"):
        if not is_bad(player, good + end):
            return False
    for end in (b" u18446744073709551615", b" d18446744073709551615 /",
                b" f18446744073709551615", b" i9223372036854775807 / / -",
                b" i-9223372036854775808", b" i-0", b" -", b" u007"):
        if is_bad(player, good + end):
            return False
    heads = (b"write", b"write 1", b"write 1 1", b"write 1 1 1",
             b"write - 1 1 1", b"write 1 - 1 1", b"write 1 1 / 1",
             b"write 1 1 u1 1", b"write 1 1 1 18446744073709551616",
             b"put out 0 00", b"poke out 0", b"size out", b"size out -")
    return (all(is_bad(player, line) for line in heads)
            and not is_bad(player, b"write 18446744073709551615 255 - -")
            and not is_bad(player, b"size out 18446744073709551615"))


def is_bad(player, line):
    try:
        player.line(line)
    except model.BadLine:
        return True
    return False


def in_force(rows):
    """The state and the store of a reader with these rows in force."""
    table = model.make_table(1, rows)
    state = model.NEW_READER._replace(force=len(table))
    return state, table + b"\x5A" * (8192 - len(table))


def ask(reader, wanted, out):
    """Write, by the model's own call; TOW and WNc are numbers or None."""
    stamps = [None if number is None else ("unsigned", number)
              for number in (wanted.tow, wanted.wnc)]
    return model.call_write(*reader, out, wanted.number, wanted.revision,
                            *stamps, wanted.body, wanted.subs)[0]


@functools.lru_cache(maxsize=1)
def made():
    """[(reader, wanted, block)]: blocks of random rows, revisions and values,
    written into a buffer of noise.  None at all where one is refused that
    should not be, or where a byte behind the block changes."""
    rng, out = random.Random(6), []
    while len(out) < 400:
        reader = in_force(content.write_rows(rng))
        rows = model.read_table(reader[1][:reader[0].force]).rows
        for row in [row for row in rows if not row.c]:
            wanted = content.allowed(rng, row, rng.randrange(6))
            buffer = bytearray(content.noise(rng, 4000))
            before = bytes(buffer)
            answer, length = ask(reader, wanted, buffer)
            if too_wide(wanted):
                if (answer, length) != ("refused", 12) or buffer != before:
                    return []
                continue
            if answer != "written" or buffer[length:] != before[length:]:
                return []
            out.append((reader, wanted, bytes(buffer[:length])))
    return out


def too_wide(wanted):
    """Is SBLength over 255?"""
    return bool(wanted.subs) and content.fields_end(
        wanted.row.subs, wanted.revision) > 255


def expected(fields, revision, values):
    """What the fields of a block answer that was written with these."""
    out = []
    for index, field in enumerate(fields):
        given = values[index] if index < len(values) else None
        absent = "do-not-use" if field.first <= revision else (
            "not-in-this-revision")
        out.append((absent,) if given is None else given)
    return out


def read_all(reader, row, block, count):
    """TOW and WNc, the body's fields and those of each sub-block."""
    stamps = [call(reader[0], block)[0]
              for call in (model.call_tow, model.call_wnc)]
    body = [model.call_body(*reader, index, block)[0]
            for index in range(len(row.body))]
    subs = [[model.call_sub(*reader, number, index, block)[0]
             for index in range(len(row.subs))] for number in range(count)]
    return stamps, body, subs


def reads_back():
    """W20, and refusal 9 past the last field and sub-block."""
    for reader, wanted, block in made():
        row, count = wanted.row, len(wanted.subs)
        stamps, body, subs = read_all(reader, row, block, count)
        size = content.fields_end(row.subs, wanted.revision) if count else 0
        pair = [("unsigned", count), ("unsigned", size)]
        want = pair if row.subs else expected(row.body, wanted.revision,
                                              wanted.body)
        times = [("do-not-use",) if number is None else ("unsigned", number)
                 for number in (wanted.tow, wanted.wnc)]
        past = (model.call_body(*reader, len(row.body), block),
                model.call_subbytes(*reader, count, block))
        if stamps != times or body != want or subs != [
                expected(row.subs, wanted.revision, values)
                for values in wanted.subs]:
            return False
        if any(answer != ("refused", 9) for answer, _ in past):
            return False
    return True


def writes_back():
    """W21: what is read is given, into a buffer that just has the room."""
    for reader, wanted, block in made():
        row = wanted.row
        stamps, body, subs = read_all(reader, row, block, len(wanted.subs))
        again = content.Wanted(row, model.block_of(block, 0)[1])
        again.tow, again.wnc = [
            answer[1] if len(answer) > 1 else None for answer in stamps]
        again.body = [] if row.subs else as_given(body)
        again.subs = [as_given(answers) for answers in subs]
        buffer = bytearray(b"\x99" * len(block))
        if ask(reader, again, buffer) != ("written", len(block)):
            return False
        if buffer != block:
            return False
    return True


def as_given(answers):
    return [answer if len(answer) > 1 else None for answer in answers]


def one_frame():
    """W22: with the longest ceiling, with one that is the block's length, and
    not with one below."""
    for _, wanted, block in made():
        one = (0, wanted.number, wanted.revision, len(block))
        for ceiling in (model.CEILING_MOST, len(block)):
            if model.read_run(block, ceiling) != ([one], 0):
                return False
        if one in model.read_run(block, len(block) - 4)[0]:
            return False
    return True


def least_length():
    """W23: with four bytes less, the frame made right again, the fields or
    the sub-blocks do not fit.  And the room it takes is what it needs."""
    for reader, wanted, block in made():
        short = content.seal(block[:-4])
        answer = model.call_body(*reader, 0, short)[0]
        if answer not in (("refused", 7), ("refused", 8)):
            return False
        tight = bytearray(len(block) - 1)
        if ask(reader, wanted, tight) != ("refused", 12) or any(tight):
            return False
    return True


def zero_elsewhere():
    """W8: where no field stands the bytes are 0."""
    for _, wanted, block in made():
        row, rest = wanted.row, bytearray(block)
        rest[:14] = bytes(14)
        size = content.fields_end(row.subs, wanted.revision)
        spots = [(0, f) for f in row.body]
        spots += [(16 + number * size, f) for number in range(len(wanted.subs))
                  for f in row.subs]
        for base, field in spots:
            if wanted.carries(field):
                at = base + field.offset
                many = model.SIZES[field.type]
                rest[at:at + many] = bytes(many)
        if any(rest):
            return False
    return True


def faults_refused():
    """Each fault that content.py makes is refused with 11, whatever the room,
    and without it the block is written."""
    rng = random.Random(7)
    for fault in content.FAULTS:
        tried = 0
        while tried < 25 and fault is not content.fault_number:
            rows = content.write_rows(rng)
            wanted = content.allowed(rng, rng.choice(rows), rng.randrange(4))
            if wanted.row.c or not fault(rng, wanted):
                continue
            tried += 1
            buffer = bytearray(rng.choice((0, 8, 66000)))
            if ask(in_force(rows), wanted, buffer) != ("refused", 11):
                return False
            if any(buffer):
                return False
    return True


def values_allowed():
    """W5 in other words: a value may be given exactly where some bits of the
    field read as it, and none at all (unset) exactly where some bits read as
    Do-Not-Use.  With mark 5 every number of its type is tried."""
    powers = (7, 8, 12, 13, 15, 16, 31, 32, 63, 64)
    near = {sign * 2 ** power + off for power in powers
            for off in (-1, 0, 1) for sign in (1, -1)}
    near |= {0, 1, -1, 0xD09502F9, 0xD09502F8, 0xC212A05F20000000}
    words = [(word, number) for number in sorted(near)
             for word in ("unsigned", "signed", "single", "double")
             if word == "signed" or number >= 0]
    every = [("unsigned", number) for number in range(65536)]
    for mark, kind in [(m, k) for m in model.MARKED for k in model.MARKED[m]]:
        field = model.Field(0, kind, 0, mark)
        if not agreed(field, words + every if mark == 5 else words):
            return False
        bits = model.bits_given(field, None)
        if (bits is None) != (mark == 0):
            return False
        if mark and not model.marked(bits, kind, mark):
            return False
    return True


def agreed(field, words):
    """Of each of these values: is it allowed, with the bits that read as it,
    or are there none?  A value has only one pattern of bits that could."""
    size = model.SIZES[field.type]
    for given in words:
        raw = (given[1] % 2 ** (8 * size)).to_bytes(size, "little")
        reads = model.value(raw, 0, field.type, field.mark) == given
        bits = model.bits_given(field, given)
        if bits != (int.from_bytes(raw, "little") if reads else None):
            return False
    return True


def widest():
    """R12 and W24: the longest block has 65,044 bytes; with a sub-field that
    ends past 255 none is written but the one without sub-blocks."""
    rng = random.Random(8)
    row = content.full_row(rng, 1)
    reader = in_force((row,))
    wanted = content.allowed(rng, row, 255)
    out = bytearray(65536)
    if ask(reader, wanted, out) != ("written", 65044):
        return False
    wanted.subs.append(wanted.subs[0])
    if ask(reader, wanted, out) != ("refused", 11):
        return False
    wide = model.Row(1, 0, content.PAIR, (model.Field(255, 4, 0, 1),))
    reader = in_force((wide,))
    return (ask(reader, content.allowed(rng, wide, 0), out) == ("written", 16)
            and ask(reader, content.allowed(rng, wide, 1), out)
            == ("refused", 12)
            and ask(reader, content.allowed(rng, wide, 255), out)
            == ("refused", 12))


# --------------------------------------------- samples of blocks of two levels
# Request M-102.  A MeasEpoch block by hand: two satellites, sub-blocks two and
# one byte longer than their rows.  The first has two slave signals, one 4.321
# m above it and one 1 mm below it; the second has one that is not measured.

EPOCH_HEAD = "2440 %s BB2F 6800 E8030000 3408 02 16 0D 04 07 00"
EPOCH_ONE = ("01 00 05 F5 39300000 E8030000 0100 FF B4 FFFF 00 02 AAAA"
             "02 0A 5A F8 00 00 E110 0000 0000 AA 03 FF 60 07 80 00"
             "FFFF 0000 0000 AA")
EPOCH_TWO = ("02 60 07 F0 00000000 00000080 0000 80 FF 0500 00 01 AAAA"
             "03 05 50 04 01 00 0000 0000 0000 AA AA")
EPOCH = EPOCH_HEAD + EPOCH_ONE + EPOCH_TWO
EPOCH_RANGE = 5 * 2 ** 32 + 12345
# (line without the block, the answer)
EPOCH_LINES = (
    ("tow", "unsigned 1000"), ("wnc", "unsigned 2100"),
    ("body 0", "unsigned 2"), ("body 1", "unsigned 22"),
    ("body 2", "unsigned 13"),
    ("body 4", "unsigned 7"), ("body 5", "refused 9"),
    ("sub 0 0", "unsigned 1"), ("sub 0 4", "unsigned 12345"),
    ("sub 0 5", "signed 1000"), ("sub 0 7", "signed -1"),
    ("sub 0 9", "do-not-use"), ("sub 0 11", "unsigned 2"),
    ("sub 0 12", "refused 9"), ("sub 1 0", "unsigned 2"),
    ("sub 1 5", "do-not-use"), ("sub 1 8", "do-not-use"),
    ("sub 1 11", "unsigned 1"), ("sub 2 0", "refused 9"),
    ("sub2 0 0 0", "unsigned 2"), ("sub2 0 0 6", "unsigned 4321"),
    ("sub2 0 1 0", "unsigned 3"), ("sub2 0 1 1", "do-not-use"),
    ("sub2 0 1 4", "signed -128"), ("sub2 0 1 8", "unsigned 0"),
    ("sub2 0 1 9", "refused 9"), ("sub2 0 2 0", "refused 9"),
    ("sub2 1 0 0", "unsigned 3"), ("sub2 1 0 4", "signed 1"),
    ("sub2 1 1 0", "refused 9"), ("sub2 2 0 0", "refused 9"),
    ("range 0", "signed %d" % EPOCH_RANGE), ("range 1", "do-not-use"),
    ("range 2", "refused 9"),
    ("range2 0 0", "signed %d" % (EPOCH_RANGE + 4321)),
    ("range2 0 1", "signed %d" % (EPOCH_RANGE - 1)),
    ("range2 0 2", "refused 9"), ("range2 1 0", "do-not-use"),
    ("range2 1 1", "refused 9"), ("range2 2 0", "refused 9"))


def hand_block(text):
    """A block of these hex digits; its CRC is put in."""
    return content.seal(bytes.fromhex(text.replace("%s", "0000")))


def sample_epoch():
    """The lines above, and Write's answer for the row."""
    player = model.Player()
    player.line(b"stage " + scripts.hexed(model.shipped_table(1)))
    player.line(b"open")
    data = hand_block(EPOCH)
    for line, want in EPOCH_LINES:
        told = player.line(line.encode() + b" " + scripts.hexed(data))
        if told.split(" | ")[0] != want:
            print("  %s: %s" % (line, told))
            return False
    parts = [player.call(b"subbytes", [at, data])[1] for at in (0, 1)]
    return (parts == [data[20:42], data[68:90]]
            and player.call(b"write", [4027, 1, None, None, [], []])
            == ("refused", 6))


def sample_eights():
    """The same block with one byte changed, and what Body answers: where the
    walk ends, which lengths are too short, and which say nothing.  At 14 to
    16 the counts and lengths, at 39 and 87 the two N2."""
    reader = in_force(model.shipped_rows())
    plain = hand_block(EPOCH)
    fine, eight = ("unsigned", 4), ("refused", 8)
    for changes, want in (
            ({}, fine), ({39: 3}, fine), ({39: 4}, eight), ({87: 0}, fine),
            ({87: 2}, eight), ({14: 1}, fine), ({14: 3}, eight),
            ({14: 0, 15: 0, 16: 255}, fine), ({15: 19}, eight),
            ({16: 11}, eight), ({14: 1, 39: 0, 16: 0}, fine),
            ({14: 1, 39: 0, 15: 84}, fine), ({14: 1, 39: 0, 15: 85}, eight),
            ({14: 1, 16: 31}, fine), ({14: 1, 16: 32}, eight)):
        data = bytearray(plain)
        for at, byte in changes.items():
            data[at] = byte
        told = model.call_body(*reader, 3, content.seal(data))[0]
        if told != want:
            print("  %s: %s" % (changes, told))
            return False
    return True


def taken_apart(row, data):
    """The sub-blocks of a block of two levels, cut off its bytes one by one:
    [(first-level bytes, [second-level bytes])], and what is left over."""
    out, rest = [], data[20:]
    for _ in range(data[14]):
        one, rest = rest[:data[15]], rest[data[15]:]
        n2 = one[row.subs[row.c - 1].offset]
        ends = [at * data[16] for at in range(n2 + 1)]
        out.append((one, [rest[a:b] for a, b in zip(ends, ends[1:])]))
        rest = rest[ends[-1]:]
    return out, rest


def levels_agree():
    """Every answer of blocks of two levels is that of its own sub-block's
    bytes; one number further is 9."""
    rng, good = random.Random(9), 0
    while good < 150:
        rows = content.level_rows(rng)
        row = next((row for row in rows if row.c), None)
        data = content.row_block(rng, row) if row else b""
        if not row or len(data) > 800 or model.layout_fault(row, data):
            continue
        good += 1
        parts, _ = taken_apart(row, data)
        reader = in_force(rows)
        if not all(one_agrees(reader, row, data, block, *part)
                   for block, part in enumerate(parts)):
            return False
        if model.call_subbytes(*reader, len(parts), data)[0][0] != "refused":
            return False
    return True


def one_agrees(reader, row, data, block, one, nested):
    """Of one first-level sub-block, and of those nested in it."""
    def read(fields, part):
        revision = model.block_of(data, 0)[1]
        return [model.value(part, f.offset, f.type, f.mark) if f.first
                <= revision else ("not-in-this-revision",)
                for f in fields] + [("refused", 9)]
    first, second = row.subs[:row.c], row.subs[row.c:]
    told = [model.call_sub(*reader, block, at, data)[0]
            for at in range(len(first) + 1)]
    if told != read(first, one):
        return False
    if model.call_subbytes(*reader, block, data)[0] != ("part", one):
        return False
    for number, part in enumerate(nested):
        told = [model.call_sub2(*reader, block, number, at, data)[0]
                for at in range(len(second) + 1)]
        if told != read(second, part):
            return False
    return model.call_sub2(*reader, block, len(nested), 0, data)[0] == (
        "refused", 9)


def sample_ranges():
    """V11 and V12 over the limits of their fields, by struct."""
    reader = in_force(model.shipped_rows())
    head = bytes(4) + struct.pack("<HHIHBBBBH", 4027, 52, 0, 0, 1, 20, 12, 0,
                                  0)
    for misc, low, offsets, more, want, want2 in (
            (0, 0, 0, 0, None, None), (0xF0, 0, 0, 5, None, None),
            (0, 1, 4, 0, 1, None), (0, 1, 0xFC, 0, 1, None),
            (0, 1, 4, 1, 1, 2 - 262144), (0, 1, 5, 0, 1, 1 - 196608),
            (1, 0, 7, 65535, 2 ** 32, 2 ** 32 - 1),
            (0xFF, 2 ** 32 - 1, 3, 65535, 2 ** 36 - 1, 2 ** 36 + 262142),
            (0, 262144, 4, 0, 262144, None), (0, 262143, 4, 1, 262143, 0)):
        data = content.seal(
            head + struct.pack("<BBBBIiHbBHBB", 0, 0, 1, misc, low, 0, 0, 0,
                               0, 0, 0, 1)
            + struct.pack("<BBBBbBHHH", 0, 0, 0, offsets, 0, 0, more, 0, 0))
        told = (model.call_range(*reader, 0, data)[0],
                model.call_range2(*reader, 0, 0, data)[0])
        if told != tuple(("do-not-use",) if n is None else ("signed", n)
                         for n in (want, want2)):
            print("  %s: %s" % ((misc, low, offsets, more), told))
            return False
    return True


# ------------------------------------------------------- samples of ceilings
# Request M-103.

FALSE_60000 = bytes.fromhex("24400000000060EA")
FALSE_20 = "2440000037171400"
EULER_LINE = (b"write 5938 0 345600000 2200 u12 u0 u4 u0 f1119092736"
              b" f3217031168 f1073741824")
# (line, the first words of its answer or None, the ceiling that stands then)
CEILING_LINES = (
    (b"open 15", "refused 13", 65532), (b"open 12", "refused 13", 65532),
    (b"open 65536", "refused 13", 65532), (b"open 0016", "opened 1", 16),
    (b"feed " + END_OF_ATT.replace(" ", "").encode(),
     "fed 16 block 0 5943 0 16", 16),
    (b"feed " + FALSE_20[:14].encode(), "fed 7 more", 16),
    (b"feed " + FALSE_20[14:].encode(), "fed 1 more", 16),
    (b"write 5943 0 1000 2100", "written 16", 16),
    (EULER_LINE, "refused 12", 16), (EULER_LINE + b" u0", "refused 11", 16),
    (b"open 20", "refused 2", 16), (b"finish", "end 24 1 8", 16),
    (EULER_LINE, "refused 12", 16), (b"open 20 20", None, 16),
    (b"open 18446744073709551616", None, 16), (b"open x", None, 16),
    (b"open 18446744073709551615", "refused 13", 16),
    (b"tow " + ATT_EULER.replace(" ", "").encode(), "unsigned", 16),
    (b"body 0 " + ATT_EULER.replace(" ", "").encode(), "unsigned 12", 16),
    (b"open", "opened 1", 65532), (EULER_LINE, "written 44", 65532),
    (b"poke ceiling 40", None, 40), (EULER_LINE, "refused 12", 40),
    (b"poke ceiling 44", None, 44), (EULER_LINE, "written 44", 44),
    (b"poke ceiling 42", None, 42), (EULER_LINE, "refused 1", 42),
    (b"withdraw", "refused 1", 42), (b"open", "refused 1", 42))


def opened(*words):
    """A player with a run open, by the rows shipped."""
    player = model.Player()
    player.line(b"stage " + scripts.hexed(model.shipped_table(1)))
    player.line(b" ".join((b"open",) + words))
    return player


def sample_s14():
    """S14: the block shows at Finish, or at once."""
    data = FALSE_60000 + SAMPLE_S2
    slow, fast = opened(), opened(b"4096")
    return (slow.call(b"feed", [data]) == ("fed", 16, "more")
            and slow.state.held == 16
            and slow.call(b"finish", []) == ("block", 8, 0, 0, 8)
            and fast.call(b"feed", [data]) == ("fed", 16, "block", 8, 0, 0, 8)
            and fast.state.skipped == 8)


def sample_ceilings():
    """F16, of every number up to 70,000 and of those above that the scripts
    have; the scripts' own good and bad ones."""
    rng = random.Random(10)
    right = [n for n in range(70000) if model.ceiling_right(n)]
    return (right == list(range(16, 65533, 4))
            and all(model.ceiling_right(content.good_ceiling(rng))
                    for _ in range(300))
            and not any(model.ceiling_right(n) for n in content.BAD_CEILINGS)
            and not any(model.ceiling_right(content.bad_ceiling(rng))
                        for _ in range(300)))


def sample_ceiling_lines():
    """The lines above."""
    player = model.Player()
    player.line(b"stage " + scripts.hexed(model.shipped_table(1)))
    for line, want, ceiling in CEILING_LINES:
        try:
            told = player.line(line)
        except model.BadLine:
            told = None
        right = told.startswith(want + " ") if told and want else told == want
        if not right or player.state.ceiling != ceiling:
            print("  %s: %s" % (shown(line), told))
            return False
        if told and told.split(" | ")[1].split(" ")[8] != str(ceiling):
            return False
    return True


def sample_open_orders():
    """R20, of Open: with any of its refusals' conditions together the first
    in the order is given, and the state stays."""
    order = (1, 2, 13, 5, 4)
    for holds in itertools.product((False, True), repeat=5):
        one, two, thirteen, five, four = holds
        if five and four:    # these two exclude each other
            continue
        player = model.Player()
        player.line(b"stage " + scripts.hexed(model.shipped_table(1)))
        player.state = player.state._replace(
            ceiling=15 if one else 20, phase=2 if two else 0,
            waits=0 if five else 19 if four else player.state.waits)
        before = player.state
        answer = player.call(b"open", [14 if thirteen else 44])
        want = [("refused", n) for n, now in zip(order, holds) if now]
        if answer != (want + [("opened", 1)])[0]:
            return False
        after = before if want else opened(b"44").state
        if player.state != after:
            return False
    return True


def decided_soon():
    """F17: a place is decided by as many bytes as the ceiling says, whatever
    they are."""
    rng = random.Random(11)
    for _ in range(500):
        ceiling = content.good_ceiling(rng)
        data = content.header_near(rng, ceiling)
        data = data[rng.choice((0, 0, 0, 1)):][:ceiling]
        data += content.noise(rng, ceiling - len(data) + 1)[1:]
        if model.decided(data, 0, ceiling) is None:
            return False
        soon = model.decided(data[:8], 0, ceiling)
        length = model.length_field(data, 0)
        if data[:2] == b"\x24\x40" and (soon is None) != (
                8 < length <= ceiling):
            return False
    return True


def scripts_kept():
    """The scripts of samples/ and the output that is kept of each."""
    paths = sorted(glob.glob(os.path.join(TOP, "samples", "*.script")))
    for path in paths:
        with open(path, "rb") as file, open(path[:-6] + "out", "rb") as out:
            if model.play(file.read()) != (out.read(), b""):
                print("  %s" % os.path.relpath(path, TOP))
                return False
    return len(paths) > 1


def ceiling_samples():
    return [("S14", sample_s14()), ("F16", sample_ceilings()),
            ("F17", decided_soon()), ("ceilings", sample_ceiling_lines()),
            ("ceilings, R20", sample_open_orders()),
            ("ceilings, counted", sample_ceilings_watched()),
            ("samples/*.script", scripts_kept())]


def level_samples():
    return [("two levels, by hand", sample_epoch()),
            ("two levels, R8", sample_eights()),
            ("two levels, T21", levels_agree()),
            ("two levels, V11 and V12", sample_ranges())]


def write_samples():
    return [
        ("write lines", sample_lines()), ("write sizes", sample_sizes()),
        ("no write lines", sample_no_calls()),
        ("W1", bool(made())), ("W20", reads_back()), ("W21", writes_back()), ("W22", one_frame()),
        ("W23", least_length()), ("W8", zero_elsewhere()),
        ("R11", faults_refused()), ("W5", values_allowed()),
        ("R12", widest())]


def samples():
    """[(name, whether it holds)]"""
    lister = bytes.fromhex("002440A9890000080024")
    wrong = SAMPLE_S2.replace(b"\x89", b"\x88")
    dnu, kept = 0xD09502F9, 0xD09502F8
    value = model.value
    return [
        ("S1", sample_run(b"", [], ("end", 0, 0, 0))),
        ("S2", sample_run(SAMPLE_S2, [(0, 0, 0, 8)], ("end", 8, 1, 0))),
        ("S3", sample_run(wrong, [], ("end", 8, 0, 8))),
        ("S4", sample_s4()), ("S5", sample_s5()),
        ("S6", sample_run(b"\x24" + SAMPLE_S2, [(1, 0, 0, 8)],
                          ("end", 9, 1, 1))),
        ("S7", sample_s7()),
        ("S8", value(dnu.to_bytes(4, "little"), 0, 9, 3) == ("do-not-use",)
         and value(kept.to_bytes(4, "little"), 0, 9, 3) == ("single", kept)),
        ("S9", value(b"\xff\xff", 0, 2, 1) == ("do-not-use",)
         and value(b"\xfe\xff", 0, 2, 1) == ("unsigned", 65534)),
        ("S10", sample_s10()), ("S13", sample_s13()),
        ("S13, blocks", sample_s13_blocks(model.Player())),
        ("S13, before", sample_before()),
        ("S13, tables", sample_s13_tables(model.Player())),
        ("S13, counted", sample_watched()),
        ("lister", model.list_run(lister) == b"block 1 0 0 8\nend 10 1 2\n"),
        ("crc", crcs_agree()), ("feed", feeds_agree()),
        ("cuts", cuts_agree()), ("moved", moved_agree()),
        ("tables", tables_agree()), ("shipped", shipped_agree())
    ] + write_samples() + level_samples() + ceiling_samples()


# ------------------------------------------------------- one script compared


def material(name):
    """The script, or the run, of a seed's name: 17, r17, m17, c17, w17 or
    l17."""
    if name.startswith("r"):
        return scripts.record_script(int(name[1:]))
    if name.startswith("m"):
        return scripts.level_script(int(name[1:]))
    if name.startswith("c"):
        return scripts.ceiling_script(int(name[1:]))
    if name.startswith("w"):
        return scripts.write_script(int(name[1:]))
    if name.startswith("l"):
        return scripts.whole_stream(int(name[1:]))
    return scripts.script(int(name))


@functools.lru_cache(maxsize=1)
def kit():
    """The environment that the programs run in."""
    return programs.kit()


def run_program(program, data):
    """(stdout, stderr, exit status) of a program fed these bytes."""
    try:
        done = subprocess.run([RUNNER, program], input=data, timeout=SECONDS,
                              stdout=subprocess.PIPE, stderr=subprocess.PIPE,
                              env=kit())
    except subprocess.TimeoutExpired:
        return b"", b"(no end within %d s)\n" % SECONDS, "none"
    except OSError as error:
        return b"", str(error).encode(), "none"
    return done.stdout, done.stderr, done.returncode


def kind_of(text):
    """The kind of an answer: its word, with the number of a refusal."""
    words = text.split(" | ")[0].split(" ")
    if words[0] in ("refused", "withdrawn"):
        return " ".join(words[:2])
    return "fed " + words[2] if words[0] == "fed" else words[0]


def shown(text, most=300):
    """A text for the report, not too long."""
    if text is None:
        return "(no line)"
    text = text.decode("latin-1") if isinstance(text, bytes) else text
    if len(text) > most:
        return "%s... (%d bytes)" % (text[:most], len(text))
    return text


def first_difference(want, got):
    """(index, line wanted, line got) of two outputs."""
    want, got = want.split(b"\n"), got.split(b"\n")
    for index in range(max(len(want), len(got))):
        a = want[index] if index < len(want) else None
        b = got[index] if index < len(got) else None
        if a != b:
            return index, a, b
    return None


def report(name, stream, number, call, want, got, status):
    """What is printed at a difference."""
    me = os.path.relpath(os.path.abspath(__file__), TOP)
    here = os.path.dirname(me)
    program = "lister" if name.startswith("l") else "replay"
    lines = ["DIFFERENCE in %s, seed %s (exit status %s)" % (
        stream, name, status)]
    if call is not None:
        lines.append("  script line %s: %s" % (number, shown(call)))
    lines += ["  model:   %s" % shown(want), "  program: %s" % shown(got),
              "  reproduce, in the top folder:",
              "    %s --seed %s > target/input" % (me, name),
              "    tools/x86run crates/%s/out/%s < target/input" % (program, program)]
    if program == "replay":
        lines.append("    python3 %s < target/input" % os.path.join(
            here, "model", "model.py"))
    return "\n".join(lines)


def compare_script(name):
    """One script through both; (name, counts, bad lines, report or None)."""
    data, player = material(name), Watcher()
    printed, bad = model.play_lines(data, player)
    assert len(printed) >= 100, "a script has 100 calls and more"
    want_out, want_err = model.join_play(printed, bad)
    out, err, status = run_program(REPLAY, data)
    lines = model.split_lines(data)
    counts = collections.Counter(player.met)
    for number, text in printed:
        word = lines[number - 1].split(b" ")[0].decode()
        counts[word, kind_of(text)] += 1
    told = None
    if out != want_out:
        index, want, got = first_difference(want_out, out)
        number = printed[index][0] if index < len(printed) else None
        call = lines[number - 1] if number else b"(past the last call)"
        told = report(name, "standard output", number, call, want, got,
                      status)
        if err and not bad:
            told += "\n  its standard error: " + shown(err)
    elif err != want_err:
        index, want, got = first_difference(want_err, err)
        number = bad[index] if index < len(bad) else None
        call = lines[number - 1] if number else b"(past the last bad line)"
        told = report(name, "standard error", number, call, want, got, status)
    return name, counts, len(bad), told


def compare_run(name):
    """One run through the lister and the model."""
    data = material(name)
    assert len(data) >= 100_000, "a run has 100 kB and more"
    want = model.list_run(data)
    out, err, status = run_program(LISTER, data)
    told = None
    if out != want:
        told = report(name, "the lister's output", None, None,
                      *first_difference(want, out)[1:], status)
    elif err:
        told = report(name, "the lister's standard error", None, None, b"",
                      err, status)
    counts = collections.Counter({("lister", "line"): want.count(b"\n")})
    return name, counts, 0, told


def compare(name):
    """A fault of the test itself is told like a difference."""
    try:
        if name.startswith("l"):
            return compare_run(name)
        return compare_script(name)
    except Exception:
        return name, collections.Counter(), 0, (
            "FAULT of the test, seed %s\n%s" % (name,
                                                traceback.format_exc()))


# --------------------------------------------------- what mark 5 came to
# Request M-101.  No line of output tells by which mark a field was read, or
# which of its reasons a refusal has; so the model's player looks at the calls
# themselves, with the rows in force and the bytes of the script.


class Watcher(model.Player):
    """A player that counts what comes up of mark 5, as MARK_5 has it, of two
    levels, as TWO_LEVELS has it, and of ceilings, as CEILINGS_MET has it."""

    def __init__(self):
        super().__init__()
        self.met = collections.Counter()
        self.begun = self.state.ceiling    # by the last Open

    def poke(self, name, number):
        super().poke(name, number)
        if name == "ceiling":
            self.met["ceiling", "poke in phase %d, %s" % (
                self.state.phase, "a ceiling" if model.ceiling_right(number)
                else "none")] += 1

    def call(self, word, arguments):
        state, force = self.state, self.lent("force")
        seen = Seen(self, word, arguments)
        answer = super().call(word, arguments)
        self.met.update(("ceiling", kind) for kind in ceilings_met(
            seen, word.decode(), arguments, answer, self.state))
        if answer[0] == "opened":
            self.begun = self.state.ceiling
        self.met.update(levels_met(state, force, word.decode(), arguments,
                                   answer))
        if word in (b"body", b"sub", b"sub2") and answer[0] != "refused":
            row = row_in(state, force, model.block_of(arguments[-1], 0)[0])
            self.met.update(fields_met(row, arguments, answer))
        elif word == b"write" and answer[0] == "written":
            row = row_in(state, force, arguments[0])
            self.met.update(written_met(row, arguments))
        elif word == b"write" and answer == ("refused", 11):
            self.met.update(refused_met(state, force, arguments))
        elif word == b"stage" and answer == ("refused", 4):
            self.met.update(tables_met(*arguments))
        return answer


def row_in(state, force, number):
    """The row of this number in the table in force."""
    table = model.read_table(bytes(force[:state.force]))
    return model.row_numbered(table, number)


def fields_met(row, arguments, answer):
    """Of a body, sub or sub2 call that answered: its arguments are two, three
    or four."""
    data, index = arguments[-1], arguments[-2]
    word = {2: "body", 3: "sub", 4: "sub2"}[len(arguments)]
    first, second = model.levels(row)
    field = {"body": row.body, "sub": first, "sub2": second}[word][index]
    if field.mark != 5:
        return
    at = field.offset
    if word == "sub":
        at += model.sub_start(row, arguments[0], data)
    elif word == "sub2":
        at += model.nested_start(row, *arguments[:2], data)
    kind = answer[0]
    if kind == "do-not-use" and any(data[at:at + 2]):
        kind += ", bits not 0"
    yield "mark 5", "%s %s" % (word, kind)
    if row == content.SHIPPED[0] and index == PPP_INFO:
        yield "PPPInfo", kind


def seeds_given(row, revision, body, subs):
    """[(body or sub, list, index, value)] of the carried fields with mark
    5."""
    return [(word, values, at, values[at] if at < len(values) else None)
            for word, fields, values in [("body", row.body, body)]
            + [("sub", row.subs, values) for values in subs]
            for at, field in enumerate(fields)
            if field.mark == 5 and model.carried(field, revision)]


def written_met(row, arguments):
    """Of a block that was written."""
    kinds = {None: "unset", ("unsigned", 8192): "8192"}
    given = seeds_given(row, arguments[1], *arguments[-2:])
    return {("mark 5", "write %s %s" % (word, kinds.get(value, "more")))
            for word, _, _, value in given}


def refused_met(state, force, arguments):
    """Of a Write refused with 11: the numbers below 8,192, if it is not
    refused so once these are left unset.  The buffer has no room, so nothing
    is written then."""
    body, subs = list(arguments[-2]), [list(v) for v in arguments[-1]]
    row = row_in(state, force, arguments[0])
    low = []
    for word, values, at, given in seeds_given(row, arguments[1], body, subs):
        if given and given[0] == "unsigned" and given[1] < 8192:
            low.append((word, given[1]))
            values[at] = None
    again = model.call_write(state, force, bytearray(), *arguments[:-2],
                             body, subs)
    if again[0] == ("refused", 11):
        return set()
    return {("mark 5", "write %s refused, %s" % (
        word, number if number in (0, 8191) else "other"))
        for word, number in low}


def tables_met(table):
    """Of a table refused with 4: the types other than u2 that had mark 5, if
    it is right once they have a mark of their own, and its CRC was.  Mark 0
    would not do: it could mend N or SBLength too."""
    if len(table) < 20 or content.recrc(table) != table:
        return set()
    mended = bytearray(table)
    rows = range(0, max(0, len(table) - content.u2(table, -8)), 4)
    wrong = [at for at in rows if table[at + 1] != 2 and table[at + 3] == 5]
    for at in wrong:
        mended[at + 3] = max((mark for mark in model.MARKED if table[at + 1]
                              in model.MARKED[mark]), default=0)
    if not model.read_table(content.recrc(mended)):
        return set()
    return {("mark 5", "stage refused, type %d" % table[at + 1])
            for at in wrong}


# ------------------------------------------------ what two levels came to
# Request M-102.  Here too the output does not tell why a call was refused.  A
# cause counts where it is the only one.


def levels_met(state, force, word, arguments, answer):
    """What a call came to, as TWO_LEVELS and MEAS_EPOCH have it."""
    if word == "stage":
        return stages_met(arguments[0], answer)
    if word not in RECORD_WORDS + ("write",) or answer in [
            ("refused", n) for n in (1, 4, 5, 7, 10, 11, 12)]:
        return set()
    if word in ("tow", "wnc"):
        # these two are lent no table: it may be none, or a bad one
        table = model.read_table(bytes(force[:state.force]))
        row = table and model.row_numbered(
            table, model.block_of(arguments[0], 0)[0])
        eight = row and row.c and len(arguments[0]) >= 20 and causes_of_8(
            row, arguments[0])
        return {("two levels", word + " answered, 8 elsewhere")} if eight \
            else set()
    number = (arguments[0] if word == "write"
              else model.block_of(arguments[-1], 0)[0])
    row = row_in(state, force, number)
    if word == "write" or row is None:
        return {("two levels", "write refused 6")} if row and row.c else set()
    if answer == ("refused", 8):
        why = causes_of_8(row, arguments[-1]) if row.c else []
    elif answer == ("refused", 9):
        why = causes_of_9(row, word, arguments)
    else:
        return answered_met(row, word, arguments, answer)
    if len(why) != 1:
        return set()
    return {("two levels", "%s refused %d, %s" % (word, answer[1], why[0]))}


def causes_of_8(row, data):
    """Every cause of 8 in a block of two levels."""
    places, end = model.walk(row, data)
    revision, causes = model.block_of(data, 0)[1], []
    first, second = [content.fields_end(fields, revision)
                     for fields in model.levels(row)]
    if end > len(data):
        causes.append("the walk's end")
    if places and first > data[15]:
        causes.append("the first level")
    if any(n2 for _, n2 in places) and second > data[16]:
        causes.append("the second level")
    return causes


def causes_of_9(row, word, arguments):
    """Every cause of 9, as far as one does not hide the next."""
    data, first = arguments[-1], model.levels(row)[0]
    if word == "sub":
        there = row.c and arguments[0] < data[14]
        later = there and len(first) <= arguments[1] < len(row.subs)
        return ["a second-level field"] if later else []
    if word not in ("sub2", "range", "range2"):
        return []
    if word != "sub2" and row.number != model.MEAS_EPOCH:
        return ["another number"] if row.c else []
    if not row.c:
        return ["one level"]
    places, _ = model.walk(row, data)
    if arguments[0] >= len(places):
        return ["no first-level one"]
    start, n2 = places[arguments[0]]
    missing = word != "range" and arguments[1] >= n2
    if word == "sub2":
        return ["no second-level one"] if missing else ["no field"]
    causes = pair_causes(row, 0, data, start)
    if missing:
        unset = not causes and model.first_range(row, arguments[0], data)[1]
        causes.append("no second-level one, " + (
            "no Do-Not-Use" if unset else "first level Do-Not-Use"))
    elif word == "range2":
        causes += pair_causes(row, 1, data, start + data[15]
                              + arguments[1] * data[16])
    return causes


def pair_causes(row, level, data, start):
    """What is wrong with the two fields of a level that a pseudorange is read
    from."""
    causes, fields = [], model.levels(row)[level]
    for index, kind in ((model.MISC, model.CODE_LSB),
                        (model.OFFSETS_MSB, model.CODE_OFFSET_LSB))[level]:
        if index >= len(fields):
            causes.append("no field")
        elif fields[index].type != kind:
            causes.append("another type")
        else:
            kind = model.answer_field(fields, index, data, start)[0]
            causes += [kind] * (kind != "unsigned")
    return sorted(set(causes))


def answered_met(row, word, arguments, answer):
    """Of a call that was not refused."""
    if not row.c:
        return set()
    data, out = arguments[-1], set()
    places, end = model.walk(row, data)
    nested = [n2 for _, n2 in places]
    lengths = [content.fields_end(fields, model.block_of(data, 0)[1])
               for fields in model.levels(row)]
    for name, met in (
            ("first level empty", not nested and lengths[0] > data[15]),
            ("second level empty", nested and not any(nested)
             and lengths[1] > data[16]),
            ("ends at L", nested and end == len(data)),
            ("first level longer", nested and lengths[0] < data[15]),
            ("second level longer", any(nested) and lengths[1] < data[16]),
            ("SB2Length 0", any(nested) and data[16] == 0),
            ("N1 255", len(nested) == 255), ("N2 255", 255 in nested),
            ("N2 differ", word != "body" and arguments[0] * nested[0]
             != sum(nested[:arguments[0]]))):
        if met:
            out.add(("two levels", "%s answered, %s" % (word, name)))
    if word in ("range", "range2"):
        kinds = ranges_met(row, places, arguments, answer)
        out |= {("two levels", "%s %s" % (word, kind)) for kind in kinds}
    if row == EPOCH_ROW:
        out.add(("MeasEpoch", "%s %s" % (word, answer[0])))
    return out


def ranges_met(row, places, arguments, answer):
    """Of a pseudorange, or of its Do-Not-Use."""
    data, kind = arguments[-1], answer[0]
    start = places[arguments[0]][0]
    first, second = model.levels(row)
    misc = data[start + first[3].offset]
    low = data[start + first[4].offset:][:4]
    if len(arguments) == 2:
        yield kind + (", high bits of Misc" if misc > 15 else "")
        if kind == "signed" and (misc % 16 == 0 or not any(low)):
            yield "signed, %s 0" % ("CodeLSB" if misc % 16 else "CodeMSB")
        return
    start += data[15] + arguments[1] * data[16]
    offsets = data[start + second[3].offset]
    more = data[start + second[6].offset:][:2]
    if kind == "do-not-use":
        yield "do-not-use, " + ("first level" if misc % 16 == 0
                                and not any(low) else "-4 and 0")
        return
    yield "signed, offset %s" % ("below 0" if offsets % 8 > 3 else "not below")
    if answer[1] < 0:
        yield "signed, below 0"
    if offsets % 8 == 4 and any(more):
        yield "signed, -4 and not 0"
    if offsets > 7:
        yield "signed, high bits of OffsetsMSB"


def loose_rows(table):
    """The rows of a table as its counts have them, whatever rules they keep.
    None where the file itself is not right."""
    if len(table) < 20 or content.recrc(table) != table:
        return None
    start = len(table) - content.u2(table, -8)
    fields = [model.Field(*table[at:at + 4]) for at in range(0, start, 4)]
    rows, used = [], 0
    for at in range(start, len(table) - 12, 8):
        bodies, subs, c = table[at + 3], table[at + 6], table[at + 7]
        middle = used + bodies
        rows.append(model.Row(content.u2(table, at), table[at + 2], tuple(
            fields[used:middle]), tuple(fields[middle:middle + subs]), c))
        used = middle + subs
    same = start >= 0 and model.make_table(content.u2(table, -12), rows)
    return rows if same == table else None


def stages_met(table, answer):
    """Of a table that was staged, the shapes of its rows of two levels; of
    one that was refused with 4, the rule, where one row alone breaks one
    alone."""
    rows = loose_rows(table) if answer != ("refused", 1) else None
    if rows is None:
        return set()
    if answer[0] == "staged":
        return {("two levels", "staged, " + shape) for row in rows if row.c
                for shape in shapes(row)}
    bad = [row for row in rows if not model.row_right(row)]
    if len(bad) != 1 or not bad[0].c:
        return set()
    faults = sorted(level_faults(bad[0]))
    return {("two levels", "stage refused, " + faults[0])} if len(
        faults) == 1 else set()


def shapes(row):
    """What is told of a valid row of two levels."""
    second = row.subs[row.c:]
    ends = [f.offset + model.SIZES[f.type] for f in row.body]
    return [name for name, holds in (
        ("c 1", row.c == 1), ("c all", not second),
        ("three in the body", len(ends) == 3),
        ("a body to 20", ends[-1] == 20),
        ("rising revisions", len({f.first for f in second}) > 1),
        ("4027 otherwise", row.number == model.MEAS_EPOCH
         and row != EPOCH_ROW)) if holds]


def level_faults(row):
    """The names of the rules that a row of two levels breaks."""
    out = set()
    head = (row.body + (model.Field(0, 0, 0, 0),) * 3)[:3]
    for name, cells, right in (
            ("triple's places", [f.offset for f in head], [14, 15, 16]),
            ("triple's types", [f.type for f in head], [1] * 3),
            ("triple's revisions", [f.first for f in head], [0] * 3),
            ("triple's marks", [f.mark for f in head], [0] * 3)):
        if cells != right:
            out.add(name)
    if len(row.body) < 3:
        out = {"triple's count"}
    if row.c > len(row.subs):
        out.add("c above the count")
    elif row.subs[row.c - 1].type != 1:
        out.add("N2's type")
    elif row.subs[row.c - 1].mark != 0:
        out.add("N2's mark")
    elif row.subs[row.c - 1].first != 0:
        out.add("N2's revision")
    if any(f.offset + model.SIZES.get(f.type, 0) > 20 for f in row.body):
        out.add("body past 20")
    for name, fields in (("body", row.body), ("first level", row.subs[:row.c]),
                         ("second level", row.subs[row.c:])):
        out |= {"%s, %s" % (name, fault)
                for fault in list_faults(fields, row.highest)}
    return out


def list_faults(fields, highest):
    """T13 to T15, of the rows of a body or of a level."""
    sizes = [model.SIZES.get(f.type, 0) for f in fields]
    pairs = list(zip(fields, fields[1:]))
    return [name for name, holds in (
        ("places", any(b.offset < a.offset + size for (a, b), size
                       in zip(pairs, sizes))),
        ("falling revisions", any(b.first < a.first for a, b in pairs)),
        ("revision above the highest", any(f.first > highest
                                           for f in fields)),
        ("types and marks", any(f.type not in model.MARKED.get(f.mark, ())
                                for f in fields))) if holds]


# -------------------------------------------------- what ceilings came to
# Request M-103.  A line of output tells the ceiling but not what it did.  So
# a call is made twice, the second time on copies and with the ceiling 65,532
# in the state: what is otherwise there is the ceiling's doing.


class Seen:
    """What there is before a call: the state, the bytes that Feed and Finish
    read first, the buffers as they are lent, and old, the answer and the next
    state by 65,532 (None where they are not asked for)."""

    def __init__(self, player, word, arguments):
        self.state, self.begun = player.state, player.begun
        self.lent = {name: player.lent(name) for name in player.buffers}
        self.held = self.old = None
        if word in (b"feed", b"finish"):
            self.held = bytes(self.lent["hold"][
                self.state.stands:self.state.held])
        right = model.ceiling_right(self.state.ceiling)
        if self.state.ceiling != model.CEILING_MOST and (
                not right or word in (b"feed", b"finish")):
            twin = model.Player()
            twin.state = self.state._replace(ceiling=model.CEILING_MOST)
            twin.buffers = {name: bytearray(data)
                            for name, data in player.buffers.items()}
            twin.sizes = player.sizes
            self.old = twin.call(word, arguments), twin.state


def ceilings_met(seen, word, arguments, answer, after):
    """The kinds that a call came to, as CEILINGS_MET has them."""
    ceiling = seen.state.ceiling
    if not model.ceiling_right(ceiling):
        yield "refused 1, " + ceiling_flaw(ceiling)
        if seen.old[0][0] != "refused":
            yield word + " refused 1, the ceiling alone"
    if word == "open":
        yield from opens_met(seen, arguments, answer)
    elif word == "write":
        yield from room_met(seen, arguments, answer)
    elif answer[0] == "refused":
        return
    elif word in ("feed", "finish"):
        yield from runs_met(seen, word, arguments, answer, after)
    elif word in RECORD_WORDS and len(arguments[-1]) > ceiling:
        yield word + " answered, a block above"
    elif word == "bytes" and seen.state.stands > ceiling:
        yield "bytes answered, a longer block stands"


def ceiling_flaw(number):
    """What is wrong with a number that is no ceiling."""
    if number in (0, 4, 8, 12, 65536):
        return str(number)
    for bits in (32, 16):
        if number >> bits and model.ceiling_right(number % 2 ** bits):
            return "low %d bits right" % bits
    if number > model.CEILING_MOST:
        return "above" if number % 4 == 0 else "above and by 4"
    return "by 4" if number > model.CEILING_LEAST else "below and by 4"


def opens_met(seen, arguments, answer):
    """Of an Open: which of its conditions hold, and what becomes of the
    ceiling that there was."""
    state = seen.state
    force, waiting = seen.lent["force"], seen.lent["waiting"]
    given = (arguments + [model.CEILING_MOST])[0]
    changes = state.ceiling != given
    if answer[0] == "opened":
        word = "with one" if arguments else "without one"
        yield "opened %s, %s" % (word, "another before" if changes
                                 else "the same before")
        if arguments and given in CEILING_ENDS:
            yield "opened with %d" % given
        return
    if changes and leaves_out(state.ceiling):
        yield "open refused %d, the ceiling kept" % answer[1]
    if answer == ("refused", 13):
        yield "open refused 13, " + ceiling_flaw(given)
    table = waiting[:state.waits] if state.waits else force[:state.force]
    none = state.waits == 0 and state.force == 0
    holds = [number for number, now in (
        (1, model.fault_one(state, force=force, waiting=waiting)),
        (2, state.phase != model.CLOSED),
        (13, not model.ceiling_right(given)), (5, none),
        (4, not none and not model.read_table(bytes(table)))) if now]
    if len(holds) == 2:
        yield "open refused %d, %d too" % tuple(holds)
    elif holds == [13]:
        yield "open refused 13, alone"


def leaves_out(ceiling):
    """Is it a ceiling that leaves lengths out?"""
    return model.ceiling_right(ceiling) and ceiling != model.CEILING_MOST


def runs_met(seen, word, arguments, answer, after):
    """Of a Feed or a Finish that was not refused."""
    state, ceiling = seen.state, seen.state.ceiling
    kind = answer[2] if word == "feed" else answer[0]
    if ceiling == model.CEILING_MOST:
        # Finish has none so long, unless the hold was written to
        if word == "feed" and kind == "block" and answer[-1] == ceiling:
            yield "feed block, 65532 by 65532"
        return
    data = seen.held
    if word == "feed":
        data += bytes(arguments[0][:answer[1]])
    yield from skips_met(word, data, after.skipped - state.skipped, ceiling)
    if kind == "block" and answer[-1] == ceiling:
        yield word + " block, as long as the ceiling"
    if kind == "more" and after.held >= 8 and model.length_field(
            data, len(data) - after.held) == ceiling:
        yield "feed waits, as long as the ceiling"
    if kind == "end":
        yield "end, the ceiling stays"
    yield from otherwise_met(word, kind, answer, after, *seen.old)
    if seen.begun != ceiling:
        yield "%s %s, poked in the run" % (word, kind)
    if state.stands > ceiling:
        yield word + " answered, a longer block stands"
    elif state.held > ceiling:
        yield word + " answered, more held"


def skips_met(word, data, skipped, ceiling):
    """Of the places that a call skipped: those with a header that the ceiling
    alone does not allow, and those with one that it just allows."""
    place = data.find(b"\x24\x40")
    while 0 <= place < skipped:
        length = 0
        if place + 8 <= len(data):
            length = model.length_field(data, place)
        if length == ceiling:
            yield word + " skips, as long as the ceiling"
        if length % 4 == 0 and length > ceiling:
            yield "%s skips, %s" % (word, "4 above" if length == ceiling + 4
                                    else "further above")
            if model.frame_at(data, place, model.CEILING_MOST):
                yield word + " skips, a whole block above"
            elif place + length > len(data):
                yield word + " skips, above and not all there"
            if word == "feed" and place + 8 == len(data):
                yield "feed skips, above with the eighth byte"
        place = data.find(b"\x24\x40", place + 1)


def otherwise_met(word, kind, answer, after, old, old_after):
    """Of a Feed or a Finish that would not have answered, or left, the same
    by 65,532."""
    other = old[2] if word == "feed" else old[0]
    if kind != other:
        yield "%s %s, %s by 65532" % (word, kind, other)
    elif kind == "block" and answer != old:
        yield word + " block, another by 65532"
    elif kind == "more" and after.held < old_after.held:
        yield "feed more, more held by 65532"


def room_met(seen, arguments, answer):
    """Of a Write, where the ceiling leaves lengths out."""
    state, ceiling = seen.state, seen.state.ceiling
    if not leaves_out(ceiling) or answer in [
            ("refused", n) for n in (1, 4, 5, 6)]:
        return
    number, revision, subs = arguments[0], arguments[1], arguments[-1]
    row = row_in(state, seen.lent["force"], number)
    length = model.block_length(row, min(revision, 7), len(subs))
    if answer[0] == "written":
        if length == ceiling:
            yield "written, as long as the ceiling"
        return
    if answer == ("refused", 11):
        if length > ceiling:
            yield "write refused 11, above too"
        return
    causes = [name for name, now in (
        ("the ceiling", length > ceiling),
        ("the buffer", length > len(seen.lent["out"])),
        ("SBLength", model.sub_length(row, revision, len(subs)) > 255)) if now]
    yield "write refused 12, " + " and ".join(causes)
    if causes == ["the ceiling"] and length == ceiling + 4:
        yield "write refused 12, 4 above"
    if causes == ["the ceiling"] and state.phase == model.CLOSED and (
            seen.begun == ceiling):
        yield "write refused 12, the ceiling of a run that ended"


def sample_ceilings_watched():
    """What a Watcher counts of a few lines by hand."""
    player = Watcher()
    for line in (b"stage " + scripts.hexed(model.shipped_table(1)), b"open 14",
                 b"open 16", b"feed " + scripts.hexed(FALSE_60000),
                 b"feed " + scripts.hexed(SAMPLE_S2), b"write 5924 0 1 1",
                 EULER_LINE, b"open 20", b"poke ceiling 12", b"bytes",
                 b"feed -", b"poke ceiling 20", b"feed -", b"finish",
                 b"finish", b"open"):
        player.line(line)
    kinds = [
        "open refused 13, alone", "open refused 13, below and by 4",
        "opened with one, another before", "opened with 16",
        "feed skips, further above", "feed skips, above and not all there",
        "feed skips, above with the eighth byte",
        "feed more, more held by 65532",
        "write refused 11, above too", "write refused 12, the ceiling",
        "open refused 2, the ceiling kept", "poke in phase 1, none",
        "bytes refused 1, the ceiling alone",
        "feed refused 1, the ceiling alone", "refused 1, 12",
        "refused 1, 12", "poke in phase 1, a ceiling",
        "feed more, poked in the run", "finish end, poked in the run",
        "end, the ceiling stays", "opened without one, another before"]
    return met_of(player, "ceiling") == collections.Counter(
        ("ceiling", kind) for kind in kinds)


# --------------------------------------------------------- what must be met

REFUSALS = {"open": (1, 2, 4, 5, 13), "feed": (1, 2, 3), "finish": (1, 2),
            "bytes": (1,), "stage": (1, 4), "withdraw": (1,),
            "body": (1, 4, 5, 6, 7, 8, 9, 10),
            "sub": (1, 4, 5, 6, 7, 8, 9, 10),
            "subbytes": (1, 4, 5, 6, 7, 8, 9, 10),
            "sub2": (1, 4, 5, 6, 7, 8, 9, 10),
            "range": (1, 4, 5, 6, 7, 8, 9, 10),
            "range2": (1, 4, 5, 6, 7, 8, 9, 10),
            "tow": (1, 7, 10), "wnc": (1, 7, 10),
            "write": (1, 4, 5, 6, 11, 12)}
VALUES = ("unsigned", "signed", "single", "double", "do-not-use",
          "not-in-this-revision")
ANSWERS = {"open": ("opened",), "feed": ("fed block", "fed more"),
           "finish": ("block", "end"), "bytes": ("part",),
           "stage": ("staged",), "withdraw": ("withdrawn 0", "withdrawn 1"),
           "body": VALUES, "sub": VALUES, "subbytes": ("part",),
           "sub2": VALUES, "range": ("signed", "do-not-use"),
           "range2": ("signed", "do-not-use"),
           "tow": ("unsigned", "do-not-use"),
           "wnc": ("unsigned", "do-not-use"), "write": ("written",)}
# What a Watcher counts: each answer of a field with mark 5 (do-not-use alone
# has all bits 0), PPPInfo of the rows shipped once more by itself, and what
# Write and Stage do with the mark.
SEED_KINDS = ("unsigned", "do-not-use", "do-not-use, bits not 0",
              "not-in-this-revision")
MARK_5 = {
    "mark 5": tuple("body " + kind for kind in SEED_KINDS)
    + tuple("sub " + kind for kind in SEED_KINDS)
    + tuple("sub2 " + kind for kind in SEED_KINDS)
    + tuple("write %s %s" % (word, kind) for word in ("body", "sub")
            for kind in ("unset", "8192", "more", "refused, 0",
                         "refused, 8191", "refused, other"))
    + tuple("stage refused, type %d" % kind for kind in range(1, 11)
            if kind != 2),
    "PPPInfo": SEED_KINDS}


EPOCH_ROW = model.meas_epoch()
LEVEL_WORDS = ("body", "sub", "subbytes", "sub2", "range", "range2")
READS = {"subbytes": ("part",), "range": ("signed", "do-not-use"),
         "range2": ("signed", "do-not-use")}
# What can be met by each call on a block of two levels, or by Stage: each
# cause of 8 and of 9 alone, and what must not be refused.
TWO_LEVELS = {
    "refused 8": [word + " refused 8, " + why for word in LEVEL_WORDS
                  for why in ("the walk's end", "the first level",
                              "the second level")],
    "refused 9": ["sub refused 9, a second-level field"] + [
        "sub2 refused 9, " + why for why in (
            "one level", "no first-level one", "no second-level one",
            "no field")] + [
        word + " refused 9, " + why for word in ("range", "range2")
        for why in ("another number", "one level", "no first-level one",
                    "no field", "another type", "do-not-use")] + [
        "range2 refused 9, " + why for why in (
            "not-in-this-revision", "no second-level one, no Do-Not-Use",
            "no second-level one, first level Do-Not-Use")],
    "answered": ["body answered, first level empty"] + [
        word + " answered, second level empty"
        for word in ("body", "sub", "subbytes", "range")] + [
        word + " answered, " + what for word in LEVEL_WORDS
        for what in ("ends at L", "first level longer",
                     "second level longer")] + [
        word + " answered, " + what for word in LEVEL_WORDS[:3]
        for what in ("SB2Length 0", "N1 255", "N2 255")] + [
        "sub2 answered, N2 255", "range2 answered, N2 255"] + [
        word + " answered, N2 differ" for word in LEVEL_WORDS[1:]] + [
        word + " answered, 8 elsewhere" for word in ("tow", "wnc")],
    "ranges": ["range signed", "range signed, high bits of Misc",
               "range do-not-use", "range do-not-use, high bits of Misc",
               "range signed, CodeMSB 0", "range signed, CodeLSB 0"] + [
        "range2 " + kind for kind in (
            "do-not-use, first level", "do-not-use, -4 and 0",
            "signed, offset below 0", "signed, offset not below",
            "signed, below 0", "signed, -4 and not 0",
            "signed, high bits of OffsetsMSB")],
    "tables": ["write refused 6"] + ["staged, " + shape for shape in (
        "c 1", "c all", "three in the body", "a body to 20",
        "rising revisions", "4027 otherwise")] + [
        "stage refused, " + rule for rule in (
            "c above the count", "N2's type", "N2's mark", "N2's revision",
            "triple's count", "triple's places", "triple's types",
            "triple's revisions", "triple's marks", "body past 20",
            "body, places", "body, falling revisions",
            "body, revision above the highest", "body, types and marks",
            "first level, places", "first level, falling revisions",
            "first level, types and marks", "second level, places",
            "second level, falling revisions",
            "second level, revision above the highest",
            "second level, types and marks")]}
# MeasEpoch by the row shipped, whose sub-blocks have no floats and no field
# of a later revision.
SHIPPED_EPOCH = {
    "body": ("unsigned", "not-in-this-revision"),
    "sub": ("unsigned", "signed", "do-not-use"),
    "sub2": ("unsigned", "signed", "do-not-use"), **READS}
LEVEL_KINDS = {
    "two levels": tuple(kind for group in TWO_LEVELS.values()
                        for kind in group),
    "MeasEpoch": tuple("%s %s" % (word, kind) for word, kinds
                       in SHIPPED_EPOCH.items() for kind in kinds)}


# What a Watcher counts of ceilings below 65,532, or that are none.
CEILING_ENDS = (16, 20, 65528, 65532)
CEILING_FLAWS = ("0", "4", "8", "12", "65536", "low 16 bits right",
                 "low 32 bits right", "above", "above and by 4", "by 4",
                 "below and by 4")
CEILINGS_MET = {
    "open": ["opened with %d" % n for n in CEILING_ENDS] + [
        "opened %s, %s before" % (word, what)
        for word in ("with one", "without one")
        for what in ("another", "the same")] + [
        "open refused %d, the ceiling kept" % n for n in REFUSALS["open"]] + [
        "open refused 13, " + what for what in ("alone",) + CEILING_FLAWS] + [
        "open refused %d, %d too" % pair for pair in itertools.combinations(
            (1, 2, 13, 5, 4), 2) if pair != (5, 4)],
    "state": [word + " refused 1, the ceiling alone" for word in ANSWERS] + [
        "refused 1, " + what for what in CEILING_FLAWS] + [
        "poke in phase %d, %s" % (phase, what) for phase in (0, 1, 2)
        for what in ("a ceiling", "none")],
    "run": [word + " skips, " + what for word in ("feed", "finish")
            for what in ("4 above", "further above", "a whole block above",
                         "above and not all there",
                         "as long as the ceiling")] + [
        word + " block, " + what for word in ("feed", "finish")
        for what in ("as long as the ceiling", "another by 65532")] + [
        "feed block, 65532 by 65532", "feed skips, above with the eighth byte",
        "feed waits, as long as the ceiling", "feed block, more by 65532",
        "feed more, block by 65532", "feed more, more held by 65532",
        "finish end, block by 65532", "end, the ceiling stays"],
    "poked": [kind + ", poked in the run" for kind in (
        "feed block", "feed more", "finish block", "finish end")] + [
        word + " answered, more held" for word in ("feed", "finish")] + [
        word + " answered, a longer block stands"
        for word in ("bytes", "feed", "finish")],
    "record": [word + " answered, a block above" for word in RECORD_WORDS],
    "write": ["written, as long as the ceiling",
              "write refused 11, above too"] + [
        "write refused 12, " + why for why in (
            "the ceiling", "the buffer", "SBLength",
            "the ceiling and the buffer", "the ceiling and SBLength",
            "4 above", "the ceiling of a run that ended")]}
CEILING_KINDS = {"ceiling": tuple(kind for group in CEILINGS_MET.values()
                                  for kind in group)}


def must_be_met():
    out = []
    for word in ANSWERS:
        out += [(word, kind) for kind in ANSWERS[word]]
        out += [(word, "refused %d" % n) for n in REFUSALS[word]]
    for kinds in (MARK_5, LEVEL_KINDS, CEILING_KINDS):
        for word in kinds:
            out += [(word, kind) for kind in kinds[word]]
    return out


# What may come up besides: nothing is held to it.
MAY_BE_MET = {("two levels", "%s answered, %s" % (word, what))
              for word in LEVEL_WORDS for what in (
                  "SB2Length 0", "N1 255", "N2 255")}
MAY_BE_MET |= {("ceiling", "write refused 12, " + why) for why in (
    "the buffer and SBLength", "the ceiling and the buffer and SBLength")}


def print_counts(counts):
    """The table of what was met."""
    for word in [*ANSWERS, *MARK_5, *LEVEL_KINDS, *CEILING_KINDS]:
        kinds = sorted(k for w, k in counts if w == word)
        print("  %-10s %s" % (word, ", ".join(
            "%s: %d" % (kind, counts[word, kind]) for kind in kinds)))


def check_counts(tally, times):
    """Coverage and amounts: (passed, failed)."""
    counts, passed, failed = tally.counts, 0, 0
    for word, kind in must_be_met():
        if counts[word, kind]:
            passed += 1
        else:
            failed += 1
            print("NOT MET: %s of %s" % (kind, word))
    strange = sorted(set(counts) - set(must_be_met()) - MAY_BE_MET
                     - {("lister", "line")})
    for word, kind in strange:
        failed += 1
        print("NOT EXPECTED: %s of %s" % (kind, word))
    calls = sum(n for (word, _), n in counts.items() if word in ANSWERS)
    records = sum(n for (word, _), n in counts.items()
                  if word in RECORD_WORDS)
    written = counts["write", "written"]
    print("compared: %d scripts, %d calls, %d record answers, %d blocks "
          "written, %d bad lines, %d runs with %d lines" % (
              tally.scripts, calls, records, written, tally.bad, tally.runs,
              counts["lister", "line"]))
    print_counts(counts)
    for name, have, least in (("scripts", tally.scripts,
                               SCRIPTS + RECORDS + LEVELS + CEILINGS
                               + WRITES),
                              ("record answers", records,
                               LEAST_RECORD_ANSWERS),
                              ("blocks written", written, LEAST_WRITTEN),
                              ("bad lines", tally.bad, 1),
                              ("runs", tally.runs, RUNS)):
        if have < least * (times if name != "bad lines" else 1):
            failed += 1
            print("TOO FEW: %s %d" % (name, have))
        else:
            passed += 1
    return passed, failed


# ------------------------------------------------------------- the whole test


class Tally:
    def __init__(self):
        self.counts = collections.Counter()
        self.scripts = self.runs = self.bad = 0

    def add(self, name, counts, bad):
        self.counts += counts
        self.bad += bad
        if name.startswith("l"):
            self.runs += 1
        else:
            self.scripts += 1


def names_of(times):
    """The seeds' names, those of one kind rising."""
    return (["%d" % n for n in range(1, SCRIPTS * times + 1)]
            + ["r%d" % n for n in range(1, RECORDS * times + 1)]
            + ["m%d" % n for n in range(1, LEVELS * times + 1)]
            + ["c%d" % n for n in range(1, CEILINGS * times + 1)]
            + ["w%d" % n for n in range(1, WRITES * times + 1)]
            + ["l%d" % n for n in range(1, RUNS * times + 1)])


def compare_all(times, tally):
    """All seeds, two at a time; the first difference's report or None."""
    pool = concurrent.futures.ProcessPoolExecutor(max_workers=2)
    try:
        for result in pool.map(compare, names_of(times)):
            if result[3]:
                return result[3]
            tally.add(*result[:3])
    finally:
        pool.shutdown(wait=True, cancel_futures=True)
    return None


def missing():
    return [path for path in (RUNNER, REPLAY, LISTER)
            if not os.access(path, os.X_OK)]


def test_model():
    """The model's own samples; (passed, failed)."""
    passed = failed = 0
    for name, holds in samples():
        passed, failed = passed + holds, failed + (not holds)
        if not holds:
            print("the model's own sample %s fails" % name)
    return passed, failed


def test(times):
    """Prints what was found; (passed, failed)."""
    start = time.time()
    passed, failed = test_model()
    for path in missing():
        print("missing, or no program: %s (`rt run` in its crate's folder builds it)" % path)
        failed += 1
    if failed:
        return passed, failed
    tally = Tally()
    told = compare_all(times, tally)
    passed += tally.scripts + tally.runs
    if told:
        print(told)
        return passed, 1
    met, unmet = check_counts(tally, times)
    print("%.1f s; passed are samples, scripts, runs and kinds met" % (
        time.time() - start))
    return passed + met, unmet


def main(words):
    if words[:1] == ["--seed"] and len(words) == 2:
        sys.stdout.buffer.write(material(words[1]))
        return 0
    if words == ["--model"]:
        passed, failed = test_model()
    elif len(words) > 1 or (words and not words[0].isdigit()):
        sys.stderr.write(__doc__)
        return 2
    else:
        passed, failed = test(max(1, int(words[0])) if words else 1)
    print("%d passed, %d failed" % (passed, failed))
    return 1 if failed else 0


if __name__ == "__main__":
    sys.exit(main(sys.argv[1:]))
