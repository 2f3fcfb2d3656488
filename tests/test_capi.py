#!/usr/bin/env python3
"""The C interface: the header as C and as C++, what is in the archive, the examples, also from an installed copy, odd states,
ceilings, the depth of the stack, and scripts played by tests/capi/play.c and by the program replay, whose output is to be the same byte for
byte. All C is built with the kit's own clang and ld.lld.

test_capi.py         run all cases
test_capi.py SEED    write the script of one seed to standard output
"""
import binascii
import glob
import os
import random
import re
import shutil
import struct
import subprocess
import sys
import tempfile
from concurrent.futures import ThreadPoolExecutor

import programs
from programs import TOP

BUILT = os.path.join(TOP, "target", "capi")
ARCHIVE = os.path.join(TOP, "target", "staticlib", "libalderflute.a")
REPLAY = os.path.join(TOP, programs.built("replay"))
HEADER = os.path.join(TOP, "include", "alderflute.h")
EXAMPLE = os.path.join(TOP, "samples", "example.c")
WRITE = os.path.join(TOP, "samples", "write.c")
RANGES = os.path.join(TOP, "samples", "ranges.c")
TABLE = os.path.join(TOP, "samples", "shipped-v1.table")
# relative to TOP, where every command is run: the flags pass through a shell variable, and a path may have spaces
CFLAGS = ["-Wall", "-Wextra", "-Werror", "-pedantic", "-nostdinc", "-isystem", os.path.join("tests", "capi", "include"),
          "-Iinclude"]
SEEDS = range(48)

CASES = programs.Cases()
expect = CASES.expect


def read(path, mode="r"):
    with open(path, mode, **({} if "b" in mode else {"encoding": "utf-8"})) as f:
        return f.read()


def ran(words, env, data=b"", limit=600):
    """Status, standard output and standard error of a command."""
    try:
        run = subprocess.run(words, input=data, env=env, cwd=TOP, stdout=subprocess.PIPE, stderr=subprocess.PIPE, timeout=limit)
    except (OSError, subprocess.TimeoutExpired) as error:
        return 127, b"", str(error).encode()
    return run.returncode, run.stdout, run.stderr


# ---- scripts

def crc(data):
    return binascii.crc_hqx(data, 0)


def block(rng, number, revision, payload):
    """A whole block with the right CRC; the payload is filled up to a multiple of 4."""
    tail = struct.pack("<HH", number + 8192 * revision, 8 + len(payload) + -len(payload) % 4) + payload + bytes(-len(payload) % 4)
    return b"\x24\x40" + struct.pack("<H", crc(tail)) + tail


SIZES = [0, 1, 2, 4, 8, 1, 2, 4, 8, 4, 8]  # by type


def table(rng, spoiled=0.2):
    """A small table: fields of any of the ten types, some blocks with sub-blocks; now and then a bit of it is wrong."""
    fields, rows, start = b"", b"", 0
    marks = {1: [0, 1, 2], 2: [0, 1, 2, 5, 5], 3: [0, 1, 2], 4: [0, 1, 2], 9: [0, 3], 10: [0, 3]}
    for number in sorted(rng.sample(range(8), rng.randrange(4, 9))):
        highest, bodies, subs = rng.randrange(3), 0, 0
        if rng.random() < 0.4:
            fields += bytes([14, 1, 0, 0, 15, 1, 0, 0])
            bodies, subs, at = 2, rng.randrange(1, 4), 0
        else:
            bodies, at = rng.randrange(6), 14
        first = 0
        for _ in range(subs or bodies):
            kind = rng.randrange(1, 11)
            first = min(highest, first + rng.choice([0, 0, 0, 1]))
            fields += bytes([at, kind, first, rng.choice(marks.get(kind, [0, 4]))])
            at += SIZES[kind] + rng.choice([0, 0, 1])
        rows += struct.pack("<HBBHBB", number, highest, bodies, start, subs, 0)
        start += bodies + subs
    count = len(rows) // 8
    out = fields + rows + struct.pack("<HHHH", rng.randrange(65536), count, 12 + 8 * count, len(fields) + len(rows) + 12)
    out += struct.pack("<H", crc(out)) + b"BT"
    if rng.random() < spoiled:
        out = bytearray(out)
        out[rng.randrange(len(out))] ^= 1 << rng.randrange(8)
    return bytes(out)


def rows_of(data):
    """The rows of a table that keeps the rules: by number, those of the body and those of the sub-fields."""
    count, = struct.unpack_from("<H", data, len(data) - 10)
    out = {}
    for at in range(len(data) - 12 - 8 * count, len(data) - 12, 8):
        number, _, bodies, start, subs, _ = struct.unpack_from("<HBBHBB", data, at)
        fields = [data[4 * k:4 * k + 4] for k in range(start, start + bodies + subs)]
        out[number] = fields[:bodies], fields[bodies:]
    return out


EDGES = [b"\xff" * 8, bytes(8), bytes.fromhex("f90295d0"), bytes.fromhex("000000205fa012c2"), bytes.fromhex("0000c07f0100807f"),
         bytes.fromhex("010000000000f0ff"), bytes.fromhex("0000000000000080"), b"\x80" * 8, b"\xff\x1f" * 4, b"\x00\x20" * 4]


def payload(rng):
    """Bytes of fields: random ones, marks, NaNs; in half of them N and SBLength, mostly of sub-blocks that fit."""
    out = bytearray(b"".join(rng.choice([rng.randbytes(8), rng.choice(EDGES)]) for _ in range(rng.choice([0, 1, 2, 6, 14, 24, 24, 24]))))
    if len(out) > 8 and rng.random() < 0.5:
        out[6], out[7] = rng.choice([0, 1, 2, 2, 2, 3, 9]), rng.choice([0, 4, 13, 24, 32, 52, 52, 52])
    return bytes(out)


def some_block(rng, numbers):
    number, inside = rng.choice(numbers), payload(rng)
    if number == 4043 and rng.random() < 0.8:
        inside = rng.randbytes(6) + b"\x02\x34" + b"".join(rng.choice([rng.randbytes(4), rng.choice(EDGES)[:4]]) for _ in range(26))
    out = block(rng, number, rng.choice([0, 0, 1, 2, 7]), inside)
    if rng.random() < 0.04:
        out = bytearray(out)
        out[rng.randrange(len(out))] ^= 1 << rng.randrange(8)
    return bytes(out)


ODD_VALUES = ["-", "u0", "u255", "u8191", "u8192", "u65535", "u4294967295", "u18446744073709551615", "i0", "i-0", "i-128", "i-32768", "i-2147483648",
              "i-9223372036854775808", "i9223372036854775807", "f0", "f3499426553", "f4294967295", "f4294967296", "d0",
              "d13984416123358019584", "d18446744073709551615"]


def value(rng, field, revision, odd):
    """What a script gives a field: something that may stand there, or, at the rate `odd`, anything."""
    _, kind, first, mark = field
    if rng.random() < odd:
        return rng.choice(ODD_VALUES)
    if first > revision or (mark and rng.random() < 0.3):
        return "-"
    if mark == 5:
        return "u%d" % rng.choice([rng.randrange(8192, 65536), 8192, 65535])
    half = 2 ** (8 * SIZES[kind] - 1)
    n = rng.choice([rng.randrange(2 * half), rng.randrange(2 * half), 1, half - 1, half + 1])
    return "uuuuiiiifd"[kind - 1] + str(n - half if 5 <= kind <= 8 else n)


def values(rng, fields, revision, odd):
    """What a script gives the fields of a body or of a sub-block; what is unset at the end may be left out."""
    words = [value(rng, field, revision, odd) for field in fields]
    while words and words[-1] == "-" and rng.random() < 0.7:
        words.pop()
    return words + ["-"] * rng.choice([0, 0, 0, 2])


def spoil(rng, words):
    """The words of a write with one of them changed, or one more: mostly it is refused then."""
    at = rng.randrange(len(words) + 1)
    if at < 4:
        words[at] = rng.choice([["8191", "8192", "65536", "18446744073709551615"], ["7", "8", "256", "4294967296"],
                                ["4294967294", "4294967295", "4294967296"], ["65534", "65535", "65536", "65537"]][at])
    elif rng.random() < 0.5:
        words[at:at] = [rng.choice(ODD_VALUES + ["/"] * 9)]
    else:
        words[at:at + 1] = [rng.choice(ODD_VALUES)]
    return words


NAMES = ["phase", "force", "waits", "held", "stands", "taken", "blocks", "skipped", "ceiling"]
CEILINGS = [16, 20, 44, 68, 96, 120, 200, 204, 256, 4096, 65528, 65532]
NO_CEILINGS = [0, 4, 12, 15, 17, 18, 65531, 65533, 65536, 2 ** 32 + 16, 2 ** 64 - 4, 2 ** 64 - 1]
NUMBERS = [0, 1, 2, 7, 8, 9, 380, 8191, 8192, 8193, 65531, 65532, 65533, 4294967294, 4294967295, 4294967296, 2 ** 63, 2 ** 64 - 1]
BAD = ["opens", "open ", " open", "open x", "open -", "open 16 ", "open 16 16", "open 18446744073709551616",
       "feed", "feed 0", "feed 0g", "feed 24 40", "body 0", "body x 24", "poke phase 3", "poke held -1",
       "poke held 18446744073709551616", "poke nothing 1", "put hold 65535 0000", "put hold 65537 -", "put nowhere 0 00", "size hold",
       "size nowhere 1", "sub 0 24", "subbytes 24", "open\r", "bytes 1", "withdraw -", "tow", "wnc 2", "feed  24",
       "sub2 0 0 24", "sub2 0 0 0 0 24", "range 24", "range 0 0 24", "range2 0 24",
       "write", "write 5943 0 1", "write 5943 0 1 2 ", "write 5943 0 1 2  -", "write -1 0 1 2", "write 5943 - 1 2",
       "write 5943 0 u1 2", "write 5943 0 1 2 u", "write 5943 0 1 2 u-1", "write 5943 0 1 2 u18446744073709551616", "write 5943 0 1 2 i",
       "write 5943 0 1 2 i-", "write 5943 0 1 2 i9223372036854775808", "write 5943 0 1 2 i-9223372036854775809", "write 5943 0 1 2 f1.5",
       "write 5943 0 1 2 d-", "write 5943 0 1 2 7", "write 5943 0 1 2 U1", "write 5943 0 1 2 //", "write 5943 0 1 2 -/", "writes 1 0 1 2",
       "put out 0 00", "size out"]


def script(seed):
    """Some hundred lines: calls in and out of turn, spoiled states and buffers, short buffers, and lines that are no calls."""
    rng = random.Random(seed)
    shipped = read(TABLE, "rb")
    numbers = [4006, 4006, 4043, 4043, 4043, 4043, 5906, 5924, 5938, 5939, 5943, 77] if seed % 2 else list(range(8))
    new = shipped if seed % 2 else table(rng, 0)
    rows = rows_of(new)
    lines = ["# seed %d" % seed, "", "stage " + new.hex(), "open"]
    last = some_block(rng, numbers)

    def hexed(data):
        return data.hex() if data else "-"

    def feeding():
        held_back = b"\x24\x40\0\0\0\0" + struct.pack("<H", 4 * rng.randrange(2, 99))
        data = b"".join(rng.choice([some_block(rng, numbers), last, last, rng.randbytes(rng.randrange(9)), b"\x24\x40", held_back, b""])
                        for _ in range(rng.randrange(4)))
        cut = rng.randrange(len(data) + 1) if rng.random() < 0.3 else len(data)
        return ["feed " + hexed(data[:cut]), "bytes"] + (["feed " + hexed(data[cut:])] if cut < len(data) else [])

    def record():
        data = rng.choice([last] * 20 + [some_block(rng, numbers), last[:-1], last + b"\0", b""] + [some_epoch(rng)] * 9)
        out = []
        for _ in range(3):
            far = rng.choice([30, 255, 256, 2 ** 32, 2 ** 64 - 1])
            i, j = rng.choice([0, 0, 0, 1, 1, 2, far]), rng.choice([0, 0, 1, 1, 2, 2, 3, 4, rng.choice([5, 9, 20, 22]), far])
            out += rng.choice([[f"body {j} {hexed(data)}"], [f"body {j} {hexed(data)}"], [f"sub {i} {j} {hexed(data)}"],
                               [f"sub {i} {j} {hexed(data)}"], [f"subbytes {i} {hexed(data)}"], ["tow " + hexed(data)], ["wnc " + hexed(data)]])
            out += [rng.choice([f"sub2 {i} {rng.choice([0, 1, far])} {j} ", f"range {i} ", f"range2 {i} {rng.choice([0, 1, far])} "]) + hexed(data)]
        return out

    def write(number, revision, count, odd):
        body, subs = rows.get(number, ([], []))
        stamps = [rng.choice(["-", "0", str(rng.randrange(2 ** wide - 1)), str(rng.randrange(2 ** wide - 1))]) for wide in (32, 16)]
        words = [str(number), str(revision)] + stamps + (["-"] * rng.randrange(3) if subs else values(rng, body, revision, odd))
        for _ in range(count if subs else 0):
            words += ["/"] + values(rng, subs, revision, odd)
        return words

    def writing():
        room = [f"size out {rng.choice([0, 15, 16, 43, 44, 67, 68, 119, 120, 65536])}"] if rng.random() < 0.1 else []
        words = write(rng.choice(numbers), rng.choice([0, 0, 1, 2, 7]), rng.choice([0, 1, 1, 2, 3]), 0.02)
        return room + ["write " + " ".join(spoil(rng, words) if rng.random() < 0.2 else words)]

    def opening():
        return rng.choice(["open"] * 2 + [f"open {rng.choice(CEILINGS if rng.random() < 0.9 else NO_CEILINGS)}"])

    def afresh():
        zeros = [f"poke {name} 0" for name in NAMES if name != "ceiling"]
        return zeros + ["poke ceiling 65532", "stage " + rng.choice([new] * 9 + [table(rng)]).hex(), opening()]

    def spoiled():
        name = rng.choice(NAMES)
        n = rng.choice(CEILINGS + NO_CEILINGS if name == "ceiling" else NUMBERS + [rng.randrange(70000)])
        calls = rng.choice([feeding, record, writing, lambda: ["finish"], lambda: [opening()], lambda: ["withdraw"], lambda: ["bytes"]])()
        return [f"poke {name} {n % 3 if name == 'phase' else n}"] + calls + ["stage " + new.hex()] + afresh()

    def written():
        name, length = rng.choice([("hold", 65536), ("force", 8192), ("waiting", 8192)])
        data = rng.choice([rng.randbytes(rng.randrange(20)), last, new])
        return [f"put {name} {rng.choice([0, 0, 5, 370, length - len(data)])} {hexed(data)}"]

    def short():
        return [f"size {name} {rng.choice([0, 1, 379, 8191, 8192, 65535, 65536, 2 ** 64 - 1])}"
                for name in rng.sample(["hold", "force", "waiting", "out"], rng.randrange(1, 3))]

    kinds = [feeding] * 6 + [record] * 6 + [writing] * 6 + [afresh, spoiled, written, short, lambda: ["finish", "finish", "bytes"] + afresh(),
                                            lambda: ["finish", "bytes", "finish", "finish", opening()], lambda: [opening()],
                                            lambda: ["bytes"], lambda: ["withdraw"], lambda: [rng.choice(BAD)],
                                            lambda: ["stage " + hexed(rng.choice([new, new, new, shipped, table(rng), b"", new[:-1]]))]]
    while len(lines) < 300:
        if rng.random() < 0.4:
            last = some_block(rng, numbers)
        lines += rng.choice(kinds)()
    if seed % 8 == 3:
        for word in ("open", "open 65528"):
            lines += afresh()[:-2] + ["stage " + new.hex(), word, "feed " + block(rng, 5, 0, bytes(65524)).hex(), "bytes", "feed -", "finish"]
    if seed % 8 == 7:
        lines += afresh()[:-2] + ["stage " + new.hex(), "open"] + ["write " + " ".join(write(4043, 0, n, 0)) for n in (254, 255, 256)]
    if seed % 8 == 5:
        lines += ["poke phase 1"] + [f"poke {name} 4294967290" for name in ("taken", "skipped")] + ["feed " + last.hex(), "feed 00", "finish"]
    return ("\n".join(lines) + ("\n" if seed % 4 else "")).encode()


# ---- the parts of the test

def build(env):
    """The archive, and the programs."""
    status, _, error = ran([os.path.join(TOP, "tools", "capi")], env, limit=7200)  # where nothing is proved yet
    if not expect("tools/capi builds the archive", status == 0 and os.path.exists(ARCHIVE), error.decode(errors="replace")[-2000:]):
        return False
    os.makedirs(BUILT, exist_ok=True)
    for source in [EXAMPLE, WRITE, RANGES] + [os.path.join(TOP, "tests", "capi", name + ".c") for name in ("play", "odd", "ceiling", "stack", "full")]:
        if not compiled(env, source, os.path.join(BUILT, os.path.basename(source)[:-2]), CFLAGS, [ARCHIVE]):
            return False
    return True


def compiled(env, source, program, flags, libraries):
    """Whether a C file compiles and links."""
    kit = dict(env, KIT="1", CFLAGS=" ".join(["-O2", "-std=c99"] + flags))
    status, _, error = ran([os.path.join(TOP, "tools", "x86cc"), "-o", program, source] + libraries, kit)
    return expect(f"{os.path.basename(source)} compiles and links", status == 0, error.decode(errors="replace"))


def syntax(env, name, language, standard):
    """What clang says of a C file."""
    clang = os.path.join(env["RATTLE_HOME"], "toolchain", "bin", "clang")
    words = [clang, "--target=x86_64-unknown-linux-gnu", "-x", language, "-std=" + standard, "-fsyntax-only"] + CFLAGS
    status, _, error = ran(words + [name], env)
    return "" if status == 0 else error.decode(errors="replace")


def header(env):
    """It is C and C++, its examples are those of samples/, and it names every refusal."""
    one = os.path.join(BUILT, "header.c")
    with open(one, "w", encoding="ascii") as f:
        f.write('#include "alderflute.h"\n')
    for language, standard in [("c", "c99"), ("c", "c11"), ("c++", "c++11"), ("c++", "c++17")]:
        said = syntax(env, one, language, standard)
        expect(f"alderflute.h is {standard}", said == "", said)
    for language, standard in [("c", "c11"), ("c++", "c++11")]:
        said = syntax(env, os.path.join(TOP, "tests", "capi", "sizes.c"), language, standard)
        expect(f"the structs' sizes in {standard}", said == "", said)
        for source in (EXAMPLE, WRITE, RANGES):
            said = syntax(env, source, language, standard)
            expect(f"{os.path.basename(source)} is {standard}", said == "", said)
    text = read(HEADER)
    shown = {name: re.sub(r"^ \*(     )?", "", lines, flags=re.M)
             for name, lines in re.findall(r"^ \* EXAMPLE.* \((.*)\)\n \*\n((?: \*     .*\n| \*\n(?! \* \w))+)", text, re.M)}
    expect("the header's examples are those of samples/", shown == {f"samples/{name}": read(os.path.join(TOP, "samples", name))
                                                                    for name in ("example.c", "write.c")}, sorted(shown))
    shipped, other = ([line.strip() for line in read(os.path.join(TOP, "samples", name + "-v1.table.txt")).splitlines()
                       if line.split() and line[0] != "#"] for name in ("shipped", "flight-line"))
    expect("two samples say version 1, with other rows", shipped[0] == other[0] == "version 1" and shipped != other, (shipped[0], other[0]))
    listed = re.findall(r"^ \* +(\d+)  \S", text, re.M)
    expect("the header has a sentence for each refusal", listed == [str(n) for n in range(1, 14)], listed)
    names = re.findall(r"^    ALDERFLUTE_REFUSAL_(\w+) = (\d+),?$", text, re.M)
    numbers = re.findall(r"Refusal::(\w+) => (\d+),", read(os.path.join(TOP, "crates", "refusal", "src", "lib.rt")))
    wanted = [(re.sub(r"(?<!^)([A-Z])", r"_\1", name).upper(), n) for name, n in numbers]
    expect("the header's refusals are those of the crate refusal", names == wanted and len(names) == 13, names)
    told = re.findall(r"^ \* +(\d+)  ([A-Z_]+)\. ", text, re.M)
    expect("the header's sentences name them", [(name, n) for n, name in told] == wanted, told)
    exported = exports()
    declared = set(re.findall(r"^\w+ (alderflute_\w+)\(", text, re.M))
    expect("the header declares what the crate exports", exported == declared and len(exported) == 18, exported ^ declared)


def exports():
    """The names of the functions that the crate gives to C."""
    return {name for path in glob.glob(os.path.join(TOP, "crates", "capi_c", "src", "*.rt"))
            for name in re.findall(r'extern "C" fn (\w+)', read(path))}


def members(archive):
    """The object files of an archive."""
    at = 8
    while at < len(archive):
        name, size = archive[at:at + 16].rstrip(), int(archive[at + 48:at + 58])
        if name not in (b"/", b"//"):
            yield archive[at + 60:at + 60 + size]
        at += 60 + size + size % 2


def symbols(elf):
    """The sections of a 64-bit object file, as (type, flags, bytes, link), and its symbols, as (name, binding, section)."""
    start, = struct.unpack_from("<Q", elf, 40)
    size, count = struct.unpack_from("<HH", elf, 58)
    sections = []
    for n in range(count):
        _, kind, flags, _, at, long, link = struct.unpack_from("<IIQQQQI", elf, start + size * n)
        sections.append((kind, flags, elf[at:at + long] if kind != 8 else bytes(long), link))
    found = []
    for _, _, data, link in (s for s in sections if s[0] == 2):
        for at in range(24, len(data), 24):
            name, info, _, section = struct.unpack_from("<IBBH", data, at)
            text = sections[link][2]
            found.append((text[name:text.index(b"\0", name)].decode(), info >> 4, section))
    return sections, found


def archive(env):
    """What is in it: the calls, no variables, and memmove and memset asked for."""
    data = read(ARCHIVE, "rb")
    expect("the archive is one", data.startswith(b"!<arch>\n"))
    objects = [symbols(elf) for elf in members(data)]
    found = [s for _, names in objects for s in names]
    given = {name for name, binding, section in found if binding != 0 and section != 0}
    expect("the archive gives the calls and nothing else", given == exports(), given ^ exports())
    asked = {name for name, _, section in found if section == 0 and name} - given
    expect("the archive asks for memmove and memset and nothing else", asked == {"memmove", "memset"}, asked)
    written = [s for sections, _ in objects for s in sections if s[1] & 3 == 3 and s[2]]
    expect("the archive has no variables", objects and not written, len(written))


def installed(env):
    """`make install` into a folder; the example there, with the flags of alderflute.pc and no others; `make uninstall`."""
    if shutil.which("make") is None:
        print("test_capi: there is no make here; make install is left out")
        return
    status, _, error = ran(["make"], env)
    expect("make", status == 0, error.decode())
    with tempfile.TemporaryDirectory() as folder:
        status, _, error = ran(["make", "install", "PREFIX=/usr/af", "DESTDIR=" + folder], env)
        expect("make install with DESTDIR", status == 0 and os.path.exists(folder + "/usr/af/lib/libalderflute.a"), error.decode())
        expect("DESTDIR is in no path", "prefix=/usr/af\n" in read(folder + "/usr/af/lib/pkgconfig/alderflute.pc"))
        status, _, error = ran(["make", "install", "PREFIX=" + folder], env)
        expect("make install with PREFIX", status == 0, error.decode())
        cflags, libs = flags_of(env, os.path.join(folder, "lib", "pkgconfig"))
        program, source = os.path.join(folder, "example"), os.path.join(folder, "share", "alderflute", "example.c")
        if compiled(env, source, program, CFLAGS[:-1] + cflags, libs):
            status, out, error = ran([os.path.join(TOP, "tools", "x86run"), program], env, flight())
            expect("the installed copy lists the flight line", (status, out, error) == (0, listed(), b""), out[-300:])
        other = os.path.join(folder, "share", "alderflute", "write.c")
        if compiled(env, other, program, CFLAGS[:-1] + cflags, libs):
            said = ran([os.path.join(TOP, "tools", "x86run"), program], env)
            expect("the installed copy writes a block", said == (0, WRITTEN, b""), said)
        # a header of another interface
        name = os.path.join(folder, "include", "alderflute.h")
        text = re.sub(r"#define ALDERFLUTE_ABI (\d+)", lambda m: m[0] + "1", read(name))
        with open(name, "w", encoding="utf-8") as f:
            f.write(text)
        if compiled(env, source, program, CFLAGS[:-1] + cflags, libs):
            status, out, error = ran([os.path.join(TOP, "tools", "x86run"), program], env, flight())
            expect("the example finds that header and archive differ", (status, out) == (2, b"") and b"belong" in error, error)
        os.remove(program)
        ran(["make", "uninstall", "PREFIX=/usr/af", "DESTDIR=" + folder], env)
        status, _, error = ran(["make", "uninstall", "PREFIX=" + folder], env)
        expect("make uninstall leaves no file", (status, files_in(folder)) == (0, []), (error, files_in(folder)))


def files_in(folder):
    return [os.path.join(at, name) for at, _, names in os.walk(folder) for name in names]


def not_installed(env):
    """What `make install` refuses, with nothing written: an archive that is not there or older than its sources, and paths that
    cannot stand in alderflute.pc. And a relative PREFIX."""
    if shutil.which("make") is None:
        return
    with tempfile.TemporaryDirectory() as folder:
        old, there = os.path.join(folder, "old.a"), os.path.join(folder, "there")
        shutil.copyfile(ARCHIVE, old)
        os.utime(old, (0, 0))
        for name, words, why in [("with an archive older than a source", ["PREFIX=" + there, "ARCHIVE=" + old], b"is older than "),
                                 ("with no archive", ["PREFIX=" + there, "ARCHIVE=" + old + "s"], b"run make first"),
                                 ("with a space in PREFIX", [f"PREFIX={there}/a b"], b"name another PREFIX"),
                                 ("into the repository itself", ["PREFIX=."], b"name another PREFIX"),
                                 ("with a space in LIBDIR", ["PREFIX=" + there, f"LIBDIR={there}/a b"], b"name another PREFIX")]:
            status, _, error = ran(["make", "install"] + words, env)
            expect("make install " + name, status == 2 and why in error and not os.path.exists(there), (status, error))
        expect("make clean", ran(["make", "clean", "ARCHIVE=" + old], env)[0] == 0 and files_in(folder) == [], files_in(folder))
        if not re.search(r"\s", TOP):
            status, _, error = ran(["make", "install", "PREFIX=" + os.path.relpath(there, TOP)], env)
            prefix = re.match("prefix=(.*)\n", read(os.path.join(there, "lib", "pkgconfig", "alderflute.pc")))[1] if status == 0 else ""
            expect("a relative PREFIX is made absolute", prefix[:1] == "/" and os.path.samefile(prefix, there), (prefix, error))


def called(env):
    """Help of the measurements of the interface, and words that tests/run does not take."""
    for name in ("bench/record", "bench/worst"):
        status, out, _ = ran([os.path.join(TOP, name), "--help"], env)
        expect(name + " --help", status == 0 and out.startswith(b"Counts the x86-64 instructions of single calls"), (status, out[-300:]))
    said = ran([os.path.join(TOP, "tests", "run"), "x"], env)
    expect("tests/run, called wrongly", said == (2, b"", b"usage: tests/run\n"), said)


def flags_of(env, folder):
    """The compiler's and the linker's flags of alderflute.pc; where there is pkg-config, it is to say the same."""
    text = read(os.path.join(folder, "alderflute.pc"))
    values = dict(re.findall(r"^(\w+)=(.*)$", text, re.M))
    while "${" in text:
        text = re.sub(r"\$\{(\w+)\}", lambda m: values[m[1]], text)
    flags = [re.search(rf"^{key}: (.*)$", text, re.M)[1].split() for key in ("Cflags", "Libs")]
    if shutil.which("pkg-config"):
        said = [ran(["pkg-config", word, "alderflute"], dict(env, PKG_CONFIG_PATH=folder))[1].decode().split() for word in ("--cflags", "--libs")]
        expect("pkg-config reads alderflute.pc", said == flags, said)
    return flags


def stack(env):
    """No call uses more of the stack than the header says."""
    said = re.search(r"deepest measured is (\w+)'s, ([\d,]+) bytes", read(HEADER))
    if not expect("the header says how deep the stack is", said):
        return
    status, out, error = ran([os.path.join(TOP, "tools", "x86run"), os.path.join(BUILT, "stack")], env)
    deep = [(int(n), name) for name, n in re.findall(r"^(\w+) (\d+)$", out.decode(errors="replace"), re.M)]
    expect("the depth of every call is measured", status == 0 and {"alderflute_" + name for _, name in deep} | {"alderflute_abi"} == exports(), out)
    expect("no call is deeper than the header says", deep and max(deep)[0] <= int(said[2].replace(",", "")), deep)
    expect("the header names the deepest call", deep and max(deep)[1] == said[1], deep)


def flight():
    return read(os.path.join(TOP, "samples", "flight.sbf"), "rb")


def listed():
    """What the example prints of the flight line: the lister's lines, each with what the block's bytes have."""
    data, want = flight(), []
    for line in read(os.path.join(TOP, "samples", "flight.list")).splitlines():
        words = line.split(" ")
        if words[0] == "block":
            place, number = int(words[1]), int(words[2])
            tow = struct.unpack_from("<I", data, place + 8)[0]
            line += f" tow {tow}" if tow != 2 ** 32 - 1 else ""
            if number == 5938 and data[place + 20:place + 24] != bytes.fromhex("f90295d0"):
                line += " heading %.3f" % struct.unpack_from("<f", data, place + 20)
        want.append(line)
    return ("\n".join(want) + "\n").encode()


def att_euler():
    """The block that samples/write.c writes, by rule T31: number of satellites, pitch and the rates are unset."""
    unset = struct.unpack("<f", bytes.fromhex("f90295d0"))[0]
    fields = struct.pack("<IHBBHH6f", 345600000, 2100, 255, 0, 2, 0, 87.5, unset, -2.25, unset, unset, unset)
    return block(None, 5938, 0, fields)


WRITTEN = att_euler().hex().encode() + b" roll -2.250\n"


def some_epoch(rng):
    """A MeasEpoch of a few satellites, some of it at the edges of V11 and V12, now and then cut."""
    nests = [(k, rng.choice([0, 0xF0, rng.randrange(256)]), rng.choice([0, 1, rng.randrange(2 ** 32)]),
              [(rng.choice([4, rng.randrange(256)]), rng.choice([0, rng.randrange(65536)])) for _ in range(rng.choice([0, 1, 2]))])
             for k in range(rng.choice([0, 1, 1, 2, 3]))]
    return epoch(nests, rng.choice([0] * 9 + [4, 8]) if nests else 0)


def epoch(nests, cut=0):
    """A MeasEpoch of these first-level sub-blocks: SVID, Misc, CodeLSB, and OffsetsMSB and CodeOffsetLSB of each nested one. Sub-blocks
    are longer than their rows; `cut` bytes are missing at the end."""
    body = struct.pack("<IH6B", 1000, 2100, len(nests), 24, 16, 0, 0, 0)
    for svid, misc, lsb, nested in nests:
        body += bytes([0, 0, svid, misc]) + struct.pack("<I", lsb) + bytes(11) + bytes([len(nested)]) + b"\xff" * 4
        body += b"".join(bytes([0, 0, 0, high, 0, 0]) + struct.pack("<H", low) + bytes(8) for high, low in nested)
    body = body[:len(body) - cut]
    rest = struct.pack("<HH", 4027, 8 + len(body)) + body
    return b"$@" + struct.pack("<H", binascii.crc_hqx(rest, 0)) + rest


def ranges(env):
    """samples/ranges.c: pseudoranges of both levels, one below zero, what is Do-Not-Use, and a block that is refused."""
    stream = epoch([(7, 0xF0, 20000000, [(0, 5), (0xFF, 65535), (4, 0)]), (9, 0x31, 1, [])]) + epoch([(7, 0, 3, [(4, 1)])])
    wanted = b"1000 7 20000000 + 20000005 + 19999999 + unknown\n1000 9 4294967297\n1000 7 3 + -262140\n"
    status, out, error = ran([os.path.join(TOP, "tools", "x86run"), os.path.join(BUILT, "ranges")], env, stream)
    expect("ranges.c prints the pseudoranges of two epochs", (status, out, error) == (0, wanted, b""), (status, out, error))
    stream = epoch([(7, 0xF0, 0, [(0, 5)])]) + epoch([(7, 0, 3, [(0, 1)])], 4)
    status, out, error = ran([os.path.join(TOP, "tools", "x86run"), os.path.join(BUILT, "ranges")], env, stream)
    expect("ranges.c tells of a cut epoch", (status, out) == (0, b"1000 7 unknown + unknown\n") and b"block at 60: the sub-blocks" in error, (status, out, error))


def example(env):
    status, out, error = ran([os.path.join(TOP, "tools", "x86run"), os.path.join(BUILT, "example")], env, flight())
    expect("the example lists the flight line", (status, out, error) == (0, listed(), b""), out[-300:])
    status, out, error = ran([os.path.join(TOP, "tools", "x86run"), os.path.join(BUILT, "example")], env, b"")
    expect("the example lists an empty run", (status, out, error) == (0, b"end 0 0 0\n", b""), out[-300:])
    # S7's bytes fill the run; the block behind the false header is reported by finish only
    held_back = bytes.fromhex("2440000000001400" "2440a98900000800") + bytes(4)
    status, out, error = ran([os.path.join(TOP, "tools", "x86run"), os.path.join(BUILT, "full")], env, held_back)
    want = b"block 4294967287 0 0 8\nend 4294967295 1 8\n"
    expect("the example finishes a full run, and tells", (status, out) == (1, want) and b"the run is full" in error, out + error)
    with open("/dev/full", "wb") as nowhere:
        run = subprocess.run([os.path.join(TOP, "tools", "x86run"), os.path.join(BUILT, "example")], input=flight(), env=env,
                             stdout=nowhere, stderr=subprocess.PIPE, timeout=600)
    expect("the example tells that it cannot write", run.returncode == 2 and b"cannot write" in run.stderr, run.stderr)


def write_example(env):
    said = ran([os.path.join(TOP, "tools", "x86run"), os.path.join(BUILT, "write")], env)
    expect("the example of writing", said == (0, WRITTEN, b""), said)
    status, out, error = ran([os.path.join(TOP, "tools", "x86run"), os.path.join(BUILT, "example")], env, att_euler())
    want = b"block 0 5938 0 44 tow 345600000 heading 87.500\nend 44 1 0\n"
    expect("the example lists the block that was written", (status, out, error) == (0, want, b""), out)


def odd(env):
    for program, what in [("odd", "odd states and empty buffers"), ("ceiling", "ceilings")]:
        status, out, _ = ran([os.path.join(TOP, "tools", "x86run"), os.path.join(BUILT, program)], env)
        expect(what, status == 0 and re.fullmatch(rb"\d\d+ passed, 0 failed\n", out), out.decode(errors="replace"))


def difference(a, b):
    """The first line in which two outputs differ."""
    a, b = a.split(b"\n"), b.split(b"\n")
    for n in range(max(len(a), len(b))):
        x, y = (v[n] if n < len(v) else b"nothing more" for v in (a, b))
        if x != y:
            return f"line {n + 1}: play says {x!r}, replay {y!r}"
    return ""


def scripts(env):
    """The same script through the C interface and through replay."""
    if not expect("crates/replay/out/replay is there (`rt run` in crates/replay makes it)", os.path.exists(REPLAY)):
        return
    given = [(os.path.basename(path), read(path, "rb")) for path in sorted(glob.glob(os.path.join(TOP, "samples", "*.script")))]
    given += [(f"seed {seed}", script(seed)) for seed in SEEDS]

    def compare(case):
        name, data = case
        x86run = os.path.join(TOP, "tools", "x86run")
        play, replay = (ran([x86run, program], env, data) for program in (os.path.join(BUILT, "play"), REPLAY))
        if play[0] != 0 or replay[0] != 0 or not play[1]:
            return name, f"play ended with {play[0]}, replay with {replay[0]}"
        return name, difference(play[1], replay[1]) or difference(play[2], replay[2])

    with ThreadPoolExecutor(2) as pool:
        for name, differs in pool.map(compare, given):
            expect(f"play and replay on {name}", not differs, differs)


def main():
    env = programs.kit()
    if build(env):
        header(env)
        archive(env)
        example(env)
        write_example(env)
        ranges(env)
        installed(env)
        not_installed(env)
        called(env)
        odd(env)
        stack(env)
        scripts(env)
    return CASES.tally()


if __name__ == "__main__":
    if len(sys.argv) == 2 and sys.argv[1].isdigit():
        sys.stdout.buffer.write(script(int(sys.argv[1])))
    elif len(sys.argv) > 1:
        sys.exit(__doc__)
    else:
        sys.exit(main())
