#!/usr/bin/env python3
"""The program lister against a reader of the framing rules (F1 to F14), written here from the papers that docs/RULES.md restates.

test_lister.py         run all streams; stop at the first difference
test_lister.py SEED    write the stream of one seed to standard output
"""
import binascii
import os
import random
import select
import struct
import subprocess
import sys
import tempfile
import time

import programs
from programs import TOP, Program

SAMPLE = bytes.fromhex("002440A9890000080024")  # S11
SAMPLE_LIST = "block 1 0 0 8\nend 10 1 2\n"
SYNC = b"\x24\x40"


# ---- the reading rule

def frame_at(run, p):
    """The length of the frame that stands at place p of the run, 0 for none."""
    if run[p:p + 2] != SYNC or p + 8 > len(run):
        return 0
    crc, _, length = struct.unpack_from("<HHH", run, p + 2)
    if length % 4 or length < 8 or p + length > len(run):
        return 0
    return length if binascii.crc_hqx(run[p + 4:p + length], 0) == crc else 0


def listed(run):
    """What the lister has to print of a run."""
    lines, p, skipped = [], 0, 0
    while p < len(run):
        length = frame_at(run, p)
        if length:
            ident = int.from_bytes(run[p + 4:p + 6], "little")
            lines.append(f"block {p} {ident % 8192} {ident // 8192} {length}")
            p += length
        else:
            p += 1
            skipped += 1
    lines.append(f"end {len(run)} {len(lines)} {skipped}")
    return "\n".join(lines) + "\n"


# ---- streams

def block(rng, payload=None, number=None, revision=None):
    """A whole block with the right CRC; the payload's length is a multiple of 4."""
    if payload is None:
        payload = rng.randbytes(4 * rng.choice([0, 1, 2, 10, 20, rng.randrange(60), rng.randrange(1200)]))
    ident = (rng.randrange(8192) if number is None else number) + 8192 * (rng.randrange(8) if revision is None else revision)
    tail = struct.pack("<HH", ident, 8 + len(payload)) + payload
    return SYNC + struct.pack("<H", binascii.crc_hqx(tail, 0)) + tail


def blocks(rng):
    return block(rng)


def noise(rng):
    return rng.randbytes(rng.randrange(1, 400)) + block(rng)


def flipped(rng):
    out = bytearray(block(rng) + block(rng))
    out[rng.randrange(len(out))] ^= 1 << rng.randrange(8)
    return bytes(out)


def false_header(rng):
    """A header that holds good blocks back until its length is there, and then turns out to be none."""
    length = rng.choice([8, 12, 400, 4 * rng.randrange(2, 16384), 65528, 65532])
    return SYNC + struct.pack("<HHH", rng.randrange(65536), rng.randrange(65536), length) + block(rng)


def inner_sync(rng):
    """Blocks whose payload holds sync pairs, and some a whole block."""
    inside = b"".join(rng.choice([SYNC, SYNC + rng.randbytes(6), block(rng), rng.randbytes(3)]) for _ in range(4))
    return block(rng, inside + bytes(-len(inside) % 4))


def bad_length(rng):
    length = rng.choice([4, 9, 6, 0, 1, 7, 10, 65533, 65534, 65535])
    body = struct.pack("<HH", rng.randrange(65536), length) + rng.randbytes(max(0, length % 64 - 8))
    return SYNC + struct.pack("<H", binascii.crc_hqx(body, 0)) + body + block(rng)


def dollars(rng):
    return b"\x24" * rng.randrange(1, 300) + rng.choice([b"", b"\x40", SYNC]) + block(rng)


def long_block(rng):
    return block(rng, rng.randbytes(rng.choice([65524, 65520, 4 * rng.randrange(8000, 16381)])))


def cut(rng):
    """A block without its end."""
    whole = block(rng, rng.randbytes(4 * rng.randrange(1, 16381)))
    return whole[:rng.randrange(1, len(whole))]


KINDS = [[blocks], [noise], [flipped], [false_header], [inner_sync], [bad_length], [dollars], [long_block]]
MIXED = [blocks, blocks, noise, flipped, false_header, inner_sync, bad_length, dollars]


def stream(seed):
    """The seed's low digits choose the kind of the parts and of the end; 100 kB and more, but for the first seed's empty run."""
    rng = random.Random(seed)
    if seed == 0:
        return b""
    parts = KINDS[seed % 16] if seed % 16 < len(KINDS) else MIXED
    out = bytearray()
    while len(out) < 100_000:
        out += rng.choice(parts)(rng)
    if seed % 3:
        out += cut(rng)
    if seed % 4 == 3:
        out += block(rng)
    return bytes(out)


SEEDS = range(49)


def kept():
    """(name, stream, list) of the files that have their list beside them; see tests/streams/README.md."""
    folder = os.path.join(TOP, "tests", "streams")
    streams = sorted(os.path.join(folder, name) for name in os.listdir(folder) if name.endswith(".sbf"))
    for path in [os.path.join(TOP, "samples", "flight.sbf")] + streams:
        with open(path, "rb") as f, open(path[:-4] + ".list", encoding="ascii") as g:
            yield os.path.relpath(path, TOP), f.read(), g.read()


def cases():
    """(name, input, expected output); what is kept as expected is held to the rule too."""
    for name, data, kept_list in [("the sample of S11", SAMPLE, SAMPLE_LIST)] + list(kept()):
        yield f"test_lister: {name}, as kept", data, kept_list
        yield f"test_lister: {name}", data, listed(data)
    for seed in SEEDS:
        data = stream(seed)
        yield f"test_lister: seed {seed}, {len(data)} bytes", data, listed(data)


# ---- input and output that fail

def unread(env):
    """A folder as standard input: no `end` line, and the error is told."""
    folder = os.open(TOP, os.O_RDONLY)
    try:
        said = programs.told("lister", folder, subprocess.PIPE, env)
    finally:
        os.close(folder)
    return "" if said == ("", "lister: cannot read standard input\n") else repr(said)


def unwritten(data):
    """A full device as standard output: told once, whether the lines fill the buffer or wait to the end."""
    def wrong(env):
        with tempfile.TemporaryFile() as given, open("/dev/full", "wb") as full:
            given.write(data)
            given.seek(0)
            said = programs.told("lister", given, full, env)
        return "" if said == ("", "lister: cannot write to standard output\n") else repr(said)
    return wrong


# ---- input that pauses

LONGEST = 30  # seconds that lines may take to come


def come(pipe, count):
    """The next `count` bytes of a pipe, or as many as come in time."""
    got, last = b"", time.monotonic() + LONGEST
    while len(got) < count and select.select([pipe], [], [], max(0, last - time.monotonic()))[0]:
        part = os.read(pipe.fileno(), count - len(got))
        if not part:
            break
        got += part
    return got.decode(errors="replace")


def paused(*pieces):
    """A pipe that stays open: the lines of each piece come before the next piece is written, and the last after the end."""
    def wrong(env):
        run, said = b"", ""
        with subprocess.Popen([os.path.join(TOP, "tools", "x86run"), os.path.join(TOP, programs.built("lister"))], bufsize=0,
                              stdin=subprocess.PIPE, stdout=subprocess.PIPE, env=env) as lister:
            for piece in pieces:
                lister.stdin.write(piece)
                run += piece
                due = listed(run).rpartition("end ")[0]
                said += come(lister.stdout, len(due) - len(said))
                if said != due:
                    lister.kill()
                    return f"after {len(run)} bytes and {LONGEST} seconds {len(said)} bytes came, {len(due)} are due"
            lister.stdin.close()
            said += lister.stdout.read().decode(errors="replace")
        return "" if said == listed(run) else repr(said[-200:])
    return wrong


def pauses():
    rng = random.Random(1)
    one, two = block(rng, bytes(20)), block(rng, bytes(36))
    yield "test_lister: a block, and the pipe stays open", paused(one)
    yield "test_lister: a pause inside a block", paused(one[:5], one[5:], two[:30], two[30:] + one)
    yield "test_lister: a pause after 65,536 bytes", paused(block(rng, bytes(56)) * 1024, one)


def failures():
    yield "test_lister: a folder as standard input", unread
    yield "test_lister: a full device, few lines", unwritten(SAMPLE)
    yield "test_lister: a full device, many lines", unwritten(block(random.Random(1), b"") * 2000)


if __name__ == "__main__":
    if len(sys.argv) == 2 and sys.argv[1].isdigit():
        sys.stdout.buffer.write(stream(int(sys.argv[1])))
    elif len(sys.argv) == 1:
        sys.exit(Program("lister", "expected is").compare(cases(), [*failures(), *pauses()]))
    else:
        sys.exit(__doc__)
