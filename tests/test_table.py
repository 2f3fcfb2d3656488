#!/usr/bin/env python3
"""tools/table: text, file, constant and C header of the rows shipped agree, each rule is refused with its place and its name,
and make and show are inverse. Prints 'N passed, M failed' last; exit status 1 where one failed. The C that it writes is
compiled by the kit's clang."""
import os
import re
import shutil
import subprocess
import sys
import tempfile

from programs import TOP as ROOT, Cases, kit

TOOL = os.path.join(ROOT, "tools", "table")
TEXT = os.path.join(ROOT, "samples", "shipped-v1.table.txt")
FILE = os.path.join(ROOT, "samples", "shipped-v1.table")
HEADER = os.path.join(ROOT, "samples", "shipped-v1.table.h")
CRATE = os.path.join(ROOT, "crates", "shipped")

EDITS = ["wrong/a_number_twice.edit", "wrong/another_first_index.edit"]  # those that name bytes of the constant

CASES = Cases()
expect = CASES.expect


def read(path, mode="r"):
    with open(path, mode, **({} if "b" in mode else {"encoding": "utf-8"})) as f:
        return f.read()


def tool(*args):
    run = subprocess.run([sys.executable, TOOL, *args], capture_output=True, text=True, cwd=ROOT)
    return run.returncode, run.stdout, run.stderr


def make(text, folder):
    """What the tool says of a text, and the file that it writes."""
    given, made = os.path.join(folder, "given.txt"), os.path.join(folder, "made.table")
    if os.path.exists(made):
        os.remove(made)
    with open(given, "w", encoding="utf-8") as f:
        f.write(text)
    status, _, err = tool("make", given, made)
    return status, err, read(made, "rb") if os.path.exists(made) else None


def show(data, folder):
    path = os.path.join(folder, "given.table")
    with open(path, "wb") as f:
        f.write(data)
    return tool("show", path)


# A CRC of its own, by long division of the message as one number.
def crc(data):
    rest = int.from_bytes(data, "big") << 16
    for bit in range(rest.bit_length() - 1, 15, -1):
        if rest >> bit & 1:
            rest ^= 0x11021 << (bit - 16)
    return rest


def closed(head):
    return head + crc(head).to_bytes(2, "little") + b"BT"


def agreement():
    data = read(FILE, "rb")
    with tempfile.TemporaryDirectory() as folder:
        made = os.path.join(folder, "made.table")
        expect("make takes the text", tool("make", TEXT, made)[0] == 0)
        expect("text and file agree", read(made, "rb") == data)
        crate = os.path.join(folder, "shipped")
        os.makedirs(os.path.join(crate, "src"))
        os.makedirs(os.path.join(crate, "specs"))
        os.makedirs(os.path.join(crate, "wrong"))
        shutil.copy(os.path.join(CRATE, "src", "lib.rt"), os.path.join(crate, "src"))
        for name in EDITS:
            open(os.path.join(crate, name), "w").close()
        expect("rattle takes the text", tool("rattle", os.path.relpath(TEXT, ROOT), crate)[0] == 0)
        for name in ["src/bytes.rt", "src/lib.rt", "specs/Rows.antt"] + EDITS:
            expect("%s is what the text gives" % name, read(os.path.join(crate, name)) == read(os.path.join(CRATE, name)))
    source = read(os.path.join(CRATE, "src", "bytes.rt"))
    constant = re.search(r"const TABLE: \[u8; (\d+)\] = \[(.*?)\];", source, re.S)
    numbers = [int(n, 0) for n in re.findall(r"0x[0-9a-f]+|\d+", re.sub("//.*", "", constant.group(2)))]
    expect("file and constant agree", bytes(numbers) == data)
    expect("the constant's length", int(constant.group(1)) == len(data) == len(numbers))
    expect("the CRC by long division", data == closed(data[:-4]))
    field = re.compile(r'field "(\S+)" (\S+) (\d+) (\d+) (\S+?)\)?$', re.M)
    listed = [(m[0], m[1], m[2], m[3]) for m in field.findall(read(os.path.join(CRATE, "specs", "Rows.antt")))]
    lines = [l.split() for l in read(TEXT).split("\n") if l.split()[:1] in (["body"], ["sub"], ["sub2"])]
    expect("the readable list has the text's fields", listed == [(w[1], w[2], w[3], w[5]) for w in lines])
    blocks = read(TEXT).count("\nblock ")
    for page, words in [("README.md", "its file of %d bytes" % len(data)),
                        ("docs/DECISIONS.md", "has %d field rows and %d block rows, %d bytes" % (len(lines), blocks, len(data)))]:
        expect("%s has the counts of now" % page, words in read(os.path.join(ROOT, page)), "it has to say: " + words)


def round_trips():
    with tempfile.TemporaryDirectory() as folder:
        data = read(FILE, "rb")
        status, text, _ = show(data, folder)
        expect("show takes the file", status == 0)
        expect("make of show gives the file back", make(text, folder)[2] == data)
        nameless = re.sub(r"(block \d+|\bbody|\bsub2?) \S+", r"\1 -", re.sub(r"#.*\n", "", read(TEXT)))
        expect("show gives the text back, but for names", text.split() == nameless.split())
        for name, body in {
            "the smallest table": "version 0\nblock 0 A highest 0\n",
            "numbers at their limits": "version 65535\nblock 8191 A highest 7\n  body B u8 255 rev 7 mark ones\n",
            "the mark of seeds": "version 1\nblock 1 A highest 0\n  body B u2 14 rev 0 mark seed\n",
            "a second level": NEST,
            "a second level without fields": NEST.replace("sub2 D u2 0 rev 0 mark none\n", ""),
            "two levels at their limits": NEST.replace("sub C", "body B u1 17 rev 0 mark none\nbody B u2 18 rev 3 mark none\nsub C") + "sub2 E f8 255 rev 3 mark none\n",
            "N2 alone": NEST.replace("sub C u4 0 rev 0 mark none\n", "").replace("N2 u1 4", "N2 u1 255"),
            "two levels between blocks of one": NEST.replace("block 1", "block 0 Z highest 0\nbody B u1 14 rev 0 mark none\nblock 1")
            + PAIR.replace("version 1\nblock 1", "block 2"),
            "a byte order mark": "\ufeffversion 3\nblock 1 A highest 0\n",
            "a comment, a blank line": "# c\n\nversion 3 # d\nblock 1 A highest 0\n",
            "the largest table": "version 1\n" + "".join("block %d A highest 0\n" % n for n in range(1022)),
        }.items():
            status, err, made = make(body, folder)
            expect("%s is made" % name, status == 0, err)
            expect("%s is shown and made again" % name, made and make(show(made, folder)[1], folder)[2] == made)
        made = make(NEST, folder)[2]
        expect("the last byte of its row is the count of first-level rows", made[4 * 6 + 6] == 3 and made[4 * 6 + 7] == 2, made)
        expect("the first level's rows stand before the second's", made[4 * 3 : 4 * 6] == bytes([0, 3, 0, 0, 4, 1, 0, 0, 0, 2, 0, 0]), made)
        expect("two levels are shown", show(made, folder)[1].split() == re.sub(r"(block 1|\bbody|\bsub2?) \S+", r"\1 -", NEST).split())
        expect("one level is shown as before", "levels" not in show(make(PAIR, folder)[2], folder)[1])
        status, err, made = make("version 1\n\ufeffblock 1 A highest 0\n", folder)
        expect("a mark in the middle is none", status == 1 and made is None and "line 2: " in err, err)


def own_text():
    """What is made is not written over its own text."""
    with tempfile.TemporaryDirectory() as folder:
        given, link = os.path.join(folder, "given.txt"), os.path.join(folder, "link.txt")
        shutil.copy(TEXT, given)
        os.symlink(given, link)
        for act in ("make", "c"):
            for file in (given, link):
                status, out, err = tool(act, given, file)
                good = (status, out, err) == (1, "", "tools/table: %s: is the text itself; name another file\n" % file)
                expect("%s: over its own text" % act, good and read(given) == read(TEXT), err)
        with open(given, "rb") as text:
            run = subprocess.run([sys.executable, TOOL, "make", "-", given], stdin=text, capture_output=True, text=True)
        expect("make: over standard input", run.returncode == 1 and "is the text itself" in run.stderr and read(given) == read(TEXT), run.stderr)
        os.remove(link)
        shutil.copy(FILE, link)
        expect("make: over another file", tool("make", given, link)[0] == 0 and read(link, "rb") == read(FILE, "rb"))


BLOCK = "version 1\nblock 1 A highest 3\n"
PAIR = BLOCK + "body N u1 14 rev 0 mark none\nbody SBLength u1 15 rev 0 mark none\nsub C u1 0 rev 0 mark none\n"
NEST = ("version 1\nblock 1 A highest 3 levels 2\n" + "".join("body %s u1 %d rev 0 mark none\n" % row for row in (("N1", 14), ("SB1Length", 15), ("SB2Length", 16)))
        + "sub C u4 0 rev 0 mark none\nsub N2 u1 4 rev 0 mark none\nsub2 D u2 0 rev 0 mark none\n")
NEST_RULE = "T20: of two levels, the first level's last row is N2: u1, first revision 0, mark none"
TRIPLE_RULE = "T20: of two levels, a body begins with N1, SB1Length and SB2Length: u1 14, 15 and 16, first revision 0, mark none"
EARLY_RULE = "T20: of two levels, no body field ends past 20, where the sub-blocks start: this ends at %d"
PAIR_RULE = "T16: next to sub-fields a body is N and SBLength alone: u1 14 and u1 15, first revision 0, mark none"

# A text that breaks one rule, the line that the tool names, and words of the rule.
TEXTS = [
    ("", 1, "the first line is: version NUMBER"),
    ("block 1 A highest 0\n", 1, "the first line is: version NUMBER"),
    ("version 65536\n", 1, "T2: the version is 0 to 65535"),
    ("version 1\n", 1, "T3: a table has 1 block row or more"),
    ("version 1\nversion 1\n", 2, "a line starts with version (once, first)"),
    ("version 1\nbody A u1 14 rev 0 mark none\n", 2, "body, sub or sub2 (after a block)"),
    ("version 1\nsub2 A u1 14 rev 0 mark none\n", 2, "body, sub or sub2 (after a block)"),
    ("version 1\nblock 1 A\n", 2, "a block's line is:"),
    (NEST.replace("levels 2", "levels 1"), 2, "a block's line is: block NUMBER NAME highest REVISION, and with sub-blocks of two levels it ends in: levels 2"),
    (NEST.replace("levels 2", "levels"), 2, "a block's line is:"),
    (NEST.replace("levels 2", "levels 2 3"), 2, "a block's line is:"),
    (NEST.replace("highest 3 levels 2", "levels 2"), 2, "a block's line is:"),
    ("version 1\nblock x A highest 0\n", 2, "a block number is a number"),
    ("version 1\nblock 8192 A highest 0\n", 2, "T8: a block number is 0 to 8191"),
    ("version 1\nblock 1 A highest 0\nblock 1 B highest 0\n", 3, "T8: block numbers rise from row to row: 1 after 1"),
    ("version 1\nblock 2 A highest 0\n\nblock 1 B highest 0\n", 4, "T8: block numbers rise from row to row: 1 after 2"),
    ("version 1\nblock 1 A highest 8\n", 2, "T9: a highest revision is 0 to 7"),
    (BLOCK + "".join("body F u1 14 rev 0 mark none\n" for _ in range(256)), 2, "T7: a count of body rows is 0 to 255"),
    (PAIR + "sub F u1 0 rev 0 mark none\n" * 255, 2, "T7: a count of sub-field rows is 0 to 255"),
    (NEST + "sub2 F u1 0 rev 0 mark none\n" * 253, 2, "T7: a count of sub-field rows is 0 to 255"),
    (BLOCK + "body B u1 14 rev 0\n", 3, "a field's line is:"),
    (NEST + "sub2 B u1 14 rev 0\n", 9, "a field's line is: body|sub|sub2 NAME"),
    (BLOCK + "body B u1 256 rev 0 mark none\n", 3, "T11: an offset is 0 to 255"),
    (BLOCK + "body B u1 13 rev 0 mark none\n", 3, "T12: no body offset is below 14"),
    (BLOCK + "body B u2 14 rev 0 mark none\nbody C u1 15 rev 0 mark none\n", 4, "T13: each field starts where the one before it ends or later"),
    (PAIR + "sub D u1 0 rev 0 mark none\n", 6, "T13: each field starts where the one before it ends or later"),
    (NEST.replace("N2 u1 4", "N2 u1 3"), 7, "T13: each field starts where the one before it ends or later: this starts at 3, that ends at 4"),
    (NEST + "sub2 E u1 1 rev 0 mark none\n", 9, "T13: each field starts where the one before it ends or later: this starts at 1, that ends at 2"),
    (BLOCK + "body B u1 14 rev 1 mark none\nbody C u1 15 rev 0 mark none\n", 4, "T14: first revisions do not go down"),
    (BLOCK + "body B u1 14 rev 4 mark none\n", 3, "T14: no first revision is above the block's highest"),
    (NEST.replace("D u2 0 rev 0", "D u2 0 rev 1") + "sub2 E u1 2 rev 0 mark none\n", 9, "T14: first revisions do not go down: 0 after 1"),
    (NEST.replace("D u2 0 rev 0", "D u2 0 rev 4"), 8, "T14: no first revision is above the block's highest: 4 is above 3"),
    (NEST.replace("C u4 0 rev 0", "C u4 0 rev 1"), 7, "T14: first revisions do not go down: 0 after 1"),
    (NEST.replace("D u2 0 rev 0 mark none", "D u2 0 rev 0 mark least"), 8, "T15: the type does not allow the mark: least on u2"),
    (NEST.replace(" levels 2", ""), 8, "T17: a sub2 line is of the second level, and this block has one level; with two its line ends in: levels 2"),
    (NEST + "sub E u1 5 rev 0 mark none\n", 9, "T17: a block's first-level rows come before its second-level rows"),
    (NEST + "body E u1 17 rev 0 mark none\n", 9, "T10: a block's body rows come before its sub-field rows"),
    (BLOCK.replace("highest 3", "highest 3 levels 2") + "sub2 E u1 0 rev 0 mark none\nbody F u1 14 rev 0 mark none\n", 4, "T10: a block's body rows come before"),
    (BLOCK.replace("highest 3", "highest 3 levels 2"), 2, NEST_RULE),
    (re.sub("sub [CN].*\n", "", NEST), 2, NEST_RULE),
    (NEST.replace("N2 u1", "N2 u2"), 7, NEST_RULE),
    (NEST.replace("N2 u1", "N2 i1"), 7, NEST_RULE),
    (NEST.replace("N2 u1 4 rev 0 mark none", "N2 u1 4 rev 0 mark ones"), 7, NEST_RULE),
    (NEST.replace("N2 u1 4 rev 0", "N2 u1 4 rev 1"), 7, NEST_RULE),
    (NEST.replace("sub N2 u1 4 rev 0 mark none\n", ""), 6, NEST_RULE),
    (re.sub("body .*\n", "", NEST), 2, TRIPLE_RULE),
    (NEST.replace("body SB2Length u1 16 rev 0 mark none\n", ""), 2, TRIPLE_RULE),
    (NEST.replace("SB2Length u1 16", "SB2Length u1 17"), 5, TRIPLE_RULE),
    (NEST.replace("SB1Length u1", "SB1Length i1"), 4, TRIPLE_RULE),
    (NEST.replace("N1 u1 14 rev 0 mark none", "N1 u1 14 rev 0 mark ones"), 3, TRIPLE_RULE),
    (NEST.replace("SB2Length u1 16 rev 0", "SB2Length u1 16 rev 1"), 5, TRIPLE_RULE),
    (NEST.replace("sub C", "body B u4 17 rev 0 mark none\nsub C"), 6, EARLY_RULE % 21),
    (NEST.replace("sub C", "body B u1 17 rev 0 mark none\nbody E u1 20 rev 0 mark none\nsub C"), 7, EARLY_RULE % 21),
    (BLOCK + "sub C u1 0 rev 0 mark none\n", 2, PAIR_RULE),
    (BLOCK + "body N u2 14 rev 0 mark none\nbody B u1 16 rev 0 mark none\nsub C u1 0 rev 0 mark none\n", 3, PAIR_RULE),
    (PAIR.replace("SBLength u1", "SBLength i1"), 4, PAIR_RULE),
    (PAIR.replace("SBLength u1 15 rev 0", "SBLength u1 15 rev 1"), 4, PAIR_RULE),
    (PAIR.replace("sub C", "body B u1 16 rev 0 mark none\nsub C"), 5, PAIR_RULE),
    (PAIR + "body B u1 16 rev 0 mark none\n", 6, "T10: a block's body rows come before its sub-field rows"),
    (BLOCK + "body B u3 14 rev 0 mark none\n", 3, "T15: there is no type 'u3'; there are u1 u2 u4 u8 i1 i2 i4 i8 f4 f8"),
    (BLOCK + "body B u1 14 rev 0 mark no\n", 3, "T15: there is no mark 'no'; there are none ones zero minus2e10 least seed"),
    (BLOCK + "body B i1 14 rev 0 mark ones\n", 3, "T15: the type does not allow the mark: ones on i1"),
    (BLOCK + "body B f4 14 rev 0 mark zero\n", 3, "T15: the type does not allow the mark: zero on f4"),
    (BLOCK + "body B u4 14 rev 0 mark minus2e10\n", 3, "T15: the type does not allow the mark: minus2e10 on u4"),
    (BLOCK + "body B u1 14 rev 0 mark least\n", 3, "T15: the type does not allow the mark: least on u1; it stands on i1 i2 i4 i8"),
    ("version 1\n" + "".join("block %d A highest 0\n" % n for n in range(1023)), 1024, "T1: a file has 20 to 8192 bytes"),
] + [(BLOCK + "body B %s 14 rev 0 mark seed\n" % kind, 3, "T15: the type does not allow the mark: seed on %s; it stands on u2" % kind)
     for kind in ("u1", "u4", "u8", "i1", "i2", "i4", "i8", "f4", "f8")]


def refused_texts():
    with tempfile.TemporaryDirectory() as folder:
        for text, line, rule in TEXTS:
            status, err, made = make(text, folder)
            expect("refused: %s" % rule, status == 1 and made is None and (": line %d: " % line) in err and rule in err, err)


def refused_files():
    # one field row at 0, block rows at 4 and 12, the trailer at 20
    text = "version 1\nblock 1 A highest 0\nbody B u1 14 rev 0 mark none\nblock 2 C highest 0\n"
    with tempfile.TemporaryDirectory() as folder:
        good = make(text, folder)[2]

        # body rows at 0, first-level rows at 12 and 16, a second-level row at 20, the block row at 24
        levels = make(NEST.replace("D u2 0", "D u2 5"), folder)[2]

        def other(place, byte, data=good):
            head = bytearray(data[:-4])
            head[place] = byte
            return closed(bytes(head))

        def nested(place, byte):
            return other(place, byte, levels)

        for data, place, rule in [
            (good[:19], "the file", "T1: a file has 20 to 8192 bytes"),
            (bytes(8193), "the file", "T1: a file has 20 to 8192 bytes"),
            (other(22, 0), "byte 22", "T3: a table has 1 block row or more"),
            (other(24, 29), "byte 24", "T4: from the file's end to the first block row it is 12 + 8R"),
            (other(26, 33), "byte 26", "T4: from the file's end to the first field row it is the file's size"),
            (good[:28] + b"\0\0BT", "byte 28", "T5: the CRC of all bytes before it is"),
            (good[:-1] + b"2", "byte 30", "this is no table file (T6: the closing bytes are 42 54, and here 42 32)"),
            (text.encode(), "byte %d" % (len(text) - 2), "this is no table file (T6: the closing bytes are 42 54, and here 30 0A)"),
            (read(os.path.join(ROOT, "samples", "flight.sbf"), "rb"), "byte 3517", "this is no table file (T6"),
            (8193 * b"B", "the file", "this is no table file (T1"),
            (closed(good[:4] + b"\0" + good[4:26] + b"\x21\0"), "byte 0", "T1: field rows (4 bytes each), block rows (8 each) and the trailer (12) make up the file"),
            (other(11, 1), "byte 11", "T19: the count of first-level rows is not above the count of sub-field rows: 1 is above 0"),
            (nested(31, 4), "byte 31", "T19: the count of first-level rows is not above the count of sub-field rows: 4 is above 3"),
            (nested(31, 3), "byte 20", NEST_RULE),
            (nested(31, 1), "byte 12", NEST_RULE),
            (nested(31, 0), "byte 8", PAIR_RULE),
            (nested(12, 2), "byte 16", "T13: each field starts where the one before it ends or later: this starts at 4, that ends at 6"),
            (nested(17, 2), "byte 16", NEST_RULE),
            (nested(8, 17), "byte 8", TRIPLE_RULE),
            (other(16, 0), "byte 16", "T10: the index is the number of field rows claimed by earlier block rows"),
            (other(15, 1), "byte 12", "T10: the block rows claim more field rows than there are, 2 of 1"),
            (closed(good[:7] + b"\0" + good[8:16] + b"\0" + good[17:28]), "byte 4", "T10: the block rows claim fewer field rows than there are, 0 of 1"),
            (other(13, 32), "byte 12", "T8: a block number is 0 to 8191"),
            (other(12, 1), "byte 12", "T8: block numbers rise from row to row"),
            (other(6, 8), "byte 4", "T9: a highest revision is 0 to 7"),
            (other(0, 13), "byte 0", "T12: no body offset is below 14"),
            (other(1, 0), "byte 0", "T15: there is no type 0"),
            (other(1, 11), "byte 0", "T15: there is no type 11"),
            (other(2, 1), "byte 0", "T14: no first revision is above the block's highest"),
            (other(3, 6), "byte 0", "T15: there is no mark 6"),
            (other(3, 5), "byte 0", "T15: the type does not allow the mark: seed on u1; it stands on u2"),
            (other(3, 4), "byte 0", "T15: the type does not allow the mark: least on u1"),
        ]:
            status, out, err = show(data, folder)
            expect("refused file: %s" % rule, status == 1 and out == "" and (": %s: " % place) in err and rule in err, err)


# ---- C headers

def named(text):
    """Each number of a text by its name in C, worked out from the lines alone."""
    numbers, block, bodies, subs, subs2 = {}, "", 0, 0, 0
    for words in (line.split("#")[0].split() for line in text.split("\n")):
        if words[:1] == ["version"]:
            numbers["ALDERFLUTE_NAMES_VERSION"] = int(words[1])
        elif words[:1] == ["block"]:
            block, bodies, subs, subs2 = "ALDERFLUTE_" + words[2].upper(), 0, 0, 0
            numbers[block] = int(words[1])
        elif words[:1] == ["body"]:
            numbers[block + "_" + words[1].upper()], bodies = bodies, bodies + 1
        elif words[:1] == ["sub"]:
            numbers[block + "_SUB_" + words[1].upper()], subs = subs, subs + 1
        elif words[:1] == ["sub2"]:
            numbers[block + "_SUB2_" + words[1].upper()], subs2 = subs2, subs2 + 1
    return numbers


def c_of(text, folder):
    given = os.path.join(folder, "given.txt")
    with open(given, "w", encoding="utf-8") as f:
        f.write(text)
    return tool("c", given)


def compiles(header, numbers, size, folder):
    """What clang says of a header and of assertions on each of its numbers, in C and in C++, twice included."""
    with open(os.path.join(folder, "given.h"), "w", encoding="utf-8") as f:
        f.write(header)
    with open(os.path.join(folder, "given.c"), "w", encoding="utf-8") as f:
        f.write("#ifdef __cplusplus\n#define _Static_assert static_assert\n#endif\n")
        f.write('#include "given.h"\n#include "alderflute.h"\n#include "given.h"\n')
        f.writelines('_Static_assert(%s == %d, "%s");\n' % (name, n, name) for name, n in numbers.items())
        f.write('_Static_assert(sizeof alderflute_table == %d, "the size");\n' % size)
        f.write("int last(void);\nint last(void) { return alderflute_table[%d]; }\n" % (size - 1))
    clang = os.path.join(kit()["RATTLE_HOME"], "toolchain", "bin", "clang")
    said = ""
    for language, standard in (("c", "c11"), ("c++", "c++11")):
        run = subprocess.run([clang, "--target=x86_64-unknown-linux-gnu", "-x", language, "-std=" + standard, "-fsyntax-only", "-Wall",
                              "-Wextra", "-Werror", "-pedantic", "-nostdinc", "-isystem", os.path.join(ROOT, "tests", "capi", "include"),
                              "-I" + os.path.join(ROOT, "include"), os.path.join(folder, "given.c")], capture_output=True, text=True)
        said += run.stderr if run.returncode == 0 else run.stderr + "status %d" % run.returncode
    return said


def headers():
    status, out, err = tool("c", os.path.relpath(TEXT, ROOT))
    expect("c takes the text", status == 0, err)
    expect("the sample is what c writes", out == read(HEADER))
    run = subprocess.run([sys.executable, TOOL, "c", "../" + os.path.relpath(TEXT, ROOT)], capture_output=True, text=True, cwd=os.path.join(ROOT, "tools"))
    expect("from another folder too", run.stdout == out, run.stderr)
    with tempfile.TemporaryDirectory() as folder:
        made, bad = os.path.join(folder, "my.table.h"), os.path.join(folder, "bad.txt")
        with open(bad, "w", encoding="utf-8") as f:
            f.write("version 1\n")
        expect("a refused text leaves no header", tool("c", bad, made)[0] == 1 and not os.path.exists(made))
        expect("c writes a file", tool("c", TEXT, made) == (0, "", "") and read(made) == out)
        expect("a refused text leaves the header as it was", tool("c", bad, made)[0] == 1 and read(made) == out)
        expect("c to standard output", tool("c", TEXT, "-") == (0, out, ""))
        for name, text in {
            "the rows shipped": read(TEXT),
            "names with digits and _": BLOCK.replace(" A ", " 3D_a1 ") + "body _ u1 14 rev 0 mark none\nbody 4 i8 15 rev 3 mark least\n",
            "a sub-field that is called as a body field": PAIR.replace("sub C", "sub N"),
            "fields of three kinds that are called alike": NEST.replace("sub C", "sub N1").replace("sub2 D", "sub2 N1"),
            "a second level without fields": NEST.replace("sub2 D u2 0 rev 0 mark none\n", ""),
            "a name that stands in the example only": BLOCK.replace(" A ", " AttEuler "),
            "the largest table": "version 65535\n" + "".join("block %d B%d highest 0\n" % (n, n) for n in range(1022)),
        }.items():
            data = make(text, folder)[2]
            status, out, err = c_of(text, folder)
            expect("c takes %s" % name, status == 0, err)
            listed = re.search(r"alderflute_table\[\d+\] = \{(.*?)\};", out, re.S)
            expect("the bytes of %s" % name, listed and bytes(int(n, 16) for n in re.findall(r"0x(..),", listed[1])) == data)
            expect("the names of %s" % name, set(re.findall(r"#define (\w+) \d", out)) == set(named(text)))
            said = compiles(out, named(text), len(data), folder)
            expect("the header of %s compiles, with its numbers" % name, said == "", said[-600:])
        first, second = (tool("c", "samples/flight-line-v%d.table.txt" % n)[1] for n in (1, 2))
        expect("headers of two versions do not go into one file", "redefin" in compiles(first + second, {}, 20, folder))
        third = c_of(re.sub(r"(?m)^version \d+$", "version 1", read(TEXT)), folder)[1]
        expect("nor of two tables of one version", "#define ALDERFLUTE_NAMES_VERSION 1\n" in first and "#define ALDERFLUTE_NAMES_VERSION 1\n" in third
               and "redefinition of 'alderflute_table'" in compiles(first + third, {}, 20, folder))
        expect("a header says that nothing checks a version", "nothing checks" in first)


# A text that has no header, the line that the tool names, and words of why.
NAMELESS = [
    (BLOCK.replace(" A ", " - "), 2, "letters, digits and _ only, and '-' has not"),
    (BLOCK.replace(" A ", " A-B "), 2, "letters, digits and _ only, and 'A-B' has not"),
    (BLOCK.replace(" A ", " Höhe "), 2, "letters, digits and _ only, and 'Höhe' has not"),
    (BLOCK + "body B.1 u1 14 rev 0 mark none\n", 3, "letters, digits and _ only, and 'B.1' has not"),
    (PAIR.replace("sub C", "sub C*/"), 5, "letters, digits and _ only, and 'C*/' has not"),
    (BLOCK + "body B u1 14 rev 0 mark none\nbody b u1 15 rev 0 mark none\n", 4, "ALDERFLUTE_A_B, which stands at line 3 already"),
    (NEST.replace("sub2 D", "sub2 D-"), 8, "letters, digits and _ only, and 'D-' has not"),
    (NEST + "sub2 d u2 2 rev 0 mark none\n", 9, "ALDERFLUTE_A_SUB2_D, which stands at line 8 already"),
    (NEST.replace("sub C", "body sub2_D u1 17 rev 0 mark none\nsub C"), 9, "ALDERFLUTE_A_SUB2_D, which stands at line 6 already"),
    (BLOCK + "block 2 a highest 0\n", 3, "ALDERFLUTE_A, which stands at line 2 already"),
    (BLOCK + "body B u1 14 rev 0 mark none\nblock 2 A_B highest 0\n", 4, "ALDERFLUTE_A_B, which stands at line 3 already"),
    (BLOCK.replace(" A ", " Hold "), 2, "ALDERFLUTE_HOLD, which stands in alderflute.h already"),
    (BLOCK.replace(" A ", " Refusal ") + "body Run_full u1 14 rev 0 mark none\n", 3, "ALDERFLUTE_REFUSAL_RUN_FULL, which stands in alderflute.h"),
    (BLOCK.replace(" A ", " Names ") + "body Version u1 14 rev 0 mark none\n", 3, "ALDERFLUTE_NAMES_VERSION, which stands in each header"),
    ("version 1\nblock 8192 A highest 0\n", 2, "a block number is 0 to 8191"),
]


def refused_names():
    with tempfile.TemporaryDirectory() as folder:
        for text, line, rule in NAMELESS:
            status, out, err = c_of(text, folder)
            expect("no header: %s" % rule, status == 1 and out == "" and (": line %d: " % line) in err and rule in err, err)


# A block's name or a field's name, and words of why it cannot stand in the readable list.
NAMES = [
    ("block 1 4X highest 0", "a block's name in the readable list is letters and digits"),
    ("block 1 A_B highest 0", "a block's name in the readable list is letters and digits"),
    ("block 1 - highest 0", "a block's name in the readable list is letters and digits"),
    ("block 1 Gr\u00f6\u00dfe highest 0", "a block's name in the readable list is letters and digits"),
    ("block 1 Let highest 0", "is a word of the readable list itself"),
    ("block 1 Block highest 0", "is a word of the readable list itself"),
    ("block 1 Mathlib highest 0", "is a word of the readable list itself"),
    ("block 1 Shipped highest 0", "is a word of the readable list itself"),
    ("block 1 U1 highest 0", "is a word of the readable list itself"),
    ("block 1 ABc highest 0\nblock 2 AbC highest 0", "'ABc' and 'AbC' do not"),
    ('block 1 A highest 0\nbody B"C u1 14 rev 0 mark none', "a field's name in the readable list is letters, digits and '_'"),
    ("block 1 A highest 0\nbody B\\ u1 14 rev 0 mark none", "a field's name in the readable list is letters, digits and '_'"),
    (NEST[10:-1].replace("sub2 D", "sub2 D-"), "a field's name in the readable list is letters, digits and '_'"),
    ("block 1 A highest 0\nbody - u1 14 rev 0 mark none", "a field's name in the readable list is letters, digits and '_'"),
]


def all_of(folder):
    """Each file below a folder with its bytes."""
    return {os.path.join(at, name): read(os.path.join(at, name), "rb") for at, _, names in os.walk(folder) for name in names}


def edited(crate, edit):
    """The files that a wrong program changes, as it leaves them."""
    files, name, old = {}, "", ""
    for word, _, line in (line.partition(": ") for line in read(os.path.join(crate, edit)).splitlines()):
        if word == "file":
            name = line
            files[name] = read(os.path.join(crate, name))
        elif word == "old":
            old = line
        else:
            expect("%s: '%s' stands once" % (edit, old), files[name].count(old) == 1)
            files[name] = files[name].replace(old, line)
    return files


def changed_rows():
    """What `rattle` writes of a changed row, what it says, and the names that it refuses."""
    with tempfile.TemporaryDirectory() as folder:
        crate, given = os.path.join(folder, "shipped"), os.path.join(folder, "new.table.txt")
        shutil.copytree(CRATE, crate)
        before = all_of(crate)
        for lines, words in NAMES:
            with open(given, "w", encoding="utf-8") as f:
                f.write("version 1\n" + lines + "\n")
            status, out, err = tool("rattle", given, crate)
            place = "%s: line %d: " % (given, 2 + lines.count("\n"))
            expect("refused name: %r" % lines, status == 1 and out == "" and place in err and words in err and all_of(crate) == before, err)
        size, version = len(read(FILE, "rb")), int(re.search(r"(?m)^version (\d+)$", read(TEXT))[1])
        rows = "  body Spare u1 14 rev 0 mark ones\n" + NEST[10:].replace("block 1 A", "block 6000 MyBlock")
        with open(given, "w", encoding="utf-8") as f:
            f.write(read(TEXT) + rows)
        status, out, err = tool("rattle", given, crate)
        expect("a version that stays is told", (status, err) == (0, "") and "the version, %d, has not: raise it in %s" % (version, given) in out, out)
        text = re.sub(r"(?m)^version \d+$", "version %d" % (version + 6), read(TEXT)) + rows
        with open(given, "w", encoding="utf-8") as f:
            f.write(text)
        with open(given[:-4] + ".h", "w", encoding="utf-8") as f:
            f.write("old\n")
        status, out, err = tool("rattle", given, crate)
        data = make(text, folder)[2]
        expect("rattle takes a changed row", (status, err) == (0, "") and len(data) == size + 4 + 8 + 4 * 6 and "raise it" not in out, (status, err, out))
        expect("the C header beside the text", read(given[:-4] + ".h") == tool("c", given)[1])
        expect("the table file beside the text", read(given[:-4], "rb") == data)
        lib, constant, rows = (read(os.path.join(crate, name)) for name in ("src/lib.rt", "src/bytes.rt", "specs/Rows.antt"))
        expect("the length of the array that is handed out", "pub fn table() -> [u8; %d]\n" % len(data) in lib and str(size) not in lib)
        expect("the version in the first line", lib.startswith("// The rows shipped, version %d " % (version + 6)), lib[:80])
        expect("the constant", "[u8; %d]" % len(data) in constant and bytes(int(n, 16) for n in re.findall(r"\b0x(..),", constant)) == data)
        expect("the readable list", 'field "Spare" u1 14 0 ones' in rows and "endofatt ∷ myblock ∷ []" in rows and "table_of %d (" % (version + 6) in rows)
        nest = [[line.split()[1] for line in NEST.split("\n") if line.startswith(word + " ")] for word in ("body", "sub", "sub2")]
        lists = rows.partition('    two_levels "MyBlock" 6000 3\n')[2].partition("\n\n")[0].split("[])\n")
        expect("two levels in the readable list", [re.findall(r'field "(\w+)"', part) for part in lists] == nest, lists)
        expect("their count of first-level rows in the constant",
               all(" 0x%02x, // %s: first-level rows\n" % row in constant for row in ((2, "MyBlock"), (12, "MeasEpoch"), (0, "EndOfAtt"))))
        expect("all edits apply", "has to once" not in out, out)
        wrong = edited(crate, "wrong/a_number_twice.edit")
        with_twice = bytes(int(n, 16) for n in re.findall(r"\b0x(..),", wrong["src/bytes.rt"]))
        numbers = re.findall(r'(?:block|two_levels) "\w+" (\d+) ', wrong["specs/Rows.antt"])
        expect("a number twice, with the right CRC", with_twice == closed(with_twice[:-4]) != data and len(set(numbers)) == len(numbers) - 1, numbers)
        twice = show(with_twice, folder)
        expect("a number twice, in the constant too", "T8: block numbers rise" in twice[2], twice)
        with_index = bytes(int(n, 16) for n in re.findall(r"\b0x(..),", edited(crate, "wrong/another_first_index.edit")["src/bytes.rt"]))
        expect("another first index", "T10: the index" in show(closed(with_index[:-4]), folder)[2])
        hand = ("docs/RULES.md", "docs/PROMISES.md", "docs/DECISIONS.md, 9", "README.md", "CHANGELOG.md", "tests/model/model.py",
                "crates/samples/specs/PppInfo.antt", "bench/baseline_writer.c", "crates/shipped, crates/lister and crates/samples")
        expect("what is left is told", all(name in out for name in hand), out)
        expect("nothing is left the second time", tool("rattle", given, crate)[1].endswith("nothing has changed\n"))
        with open(given, "w", encoding="utf-8") as f:
            f.write(re.sub(r"PPPInfo u2 (\d+)", r"PPP u2 \1", text))
        status, out, err = tool("rattle", given, crate)
        expect("an edit that no longer applies is told", "pppinfo_still_marked_zero.edit: its line" in out and "stands in specs/Rows.antt 0 times" in out, out)
        expect("another name asks for no other version", status == 0 and "raise it" not in out, out)


agreement()
round_trips()
own_text()
changed_rows()
refused_texts()
refused_files()
headers()
refused_names()
sys.exit(CASES.tally())
