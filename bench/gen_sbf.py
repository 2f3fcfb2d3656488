#!/usr/bin/env python3
"""Write SBF test streams: gen_sbf.py KIND BYTES OUT [SEED]

KIND   clean     whole blocks back to back (the realistic mix below)
       between   clean, plus 1 % random bytes in bursts of 1..200 between blocks
       flip      clean, then 1 byte in 10 000 replaced by a random byte
       flip1     clean, then 1 byte in 100 replaced (torture: most long blocks die)
       false     clean, plus "$@" + junk CRC + ID + length 60000 before every 50th block
       false16   the same with length 16000 (below RTKLIB's 16384 limit)
       trunc     clean, with every 50th block cut short at a random place
       pairs     clean, with "$@" pairs written over a tenth of each payload (CRC good)
       noise     random bytes
       sync      nothing but 0x24, the first sync byte
       dollar    nothing but "$@$@..." (every second byte is a false header, L = 16420)
       worst     "$@" + junk CRC + ID + length 65532 in every 8 bytes: each place reads 64 KiB

One second of the mix: MeasEpoch (24 satellites, about 1 KiB), PVTCartesian 96,
BaseVectorCart 68, AttEuler 44, ReceiverTime 24, EndOfPVT 16, DOP 32, every third
second ExtEvent 32, every 30th GPSNav 140.
"""
import binascii
import random
import struct
import sys


def block(number, body, revision=0, pad=True):
    """The whole block: header, body, padding to a multiple of 4."""
    if pad:
        body += bytes(-(len(body) + 8) % 4)
    rest = struct.pack("<HH", revision << 13 | number, len(body) + 8) + body
    return b"$@" + struct.pack("<H", binascii.crc_hqx(rest, 0)) + rest


def meas_epoch(rng, tow, wnc, sats=24, sb1=20, sb2=12, revision=1):
    svids = rng.sample(range(1, 33), 10) + rng.sample(range(38, 62), 6) + rng.sample(range(71, 103), 8)
    parts = [struct.pack("<IHBBBBBB", tow, wnc, sats, sb1, sb2, 0, 0, 0)]
    for svid in svids[:sats]:
        first, others = (0, (2, 3)) if svid < 38 else (8, (11,)) if svid < 62 else (17, (20, 21))
        n2 = len(others)
        code = rng.randrange(20_000_000_000, 26_000_000_000)
        one = struct.pack("<BBBBIiHbBHBB", rng.randrange(72), first, svid, code >> 32, code & 0xFFFFFFFF,
                          rng.randrange(-40_000_000, 40_000_000), rng.randrange(65536),
                          rng.randrange(-20, 20), rng.randrange(120, 200), rng.randrange(1000),
                          8 << 3, n2)
        parts.append(one + bytes(sb1 - 20))
        for kind in others:
            two = struct.pack("<BBBBbBHHH", kind, rng.randrange(254), rng.randrange(120, 200), 0,
                              rng.randrange(-20, 20), 0, rng.randrange(65536), rng.randrange(65536),
                              rng.randrange(65536))
            parts.append(two + bytes(sb2 - 12))
    return block(4027, b"".join(parts), revision)


def pvt_cartesian(rng, tow, wnc, revision=2):
    body = struct.pack("<IHBB", tow, wnc, 4, 0)
    body += struct.pack("<ddd", 4027881.0 + rng.random(), 306998.0 + rng.random(), 4919499.0 + rng.random())
    body += struct.pack("<fffff", -0.4, *(rng.gauss(0, 0.1) for _ in range(3)), 90.0)
    body += struct.pack("<df", rng.gauss(0, 0.1), rng.gauss(0, 1e-3))
    body += struct.pack("<BBBBHHIB", 0, 0, 24, 0, 1, 100, 0x30C, 0)
    body += struct.pack("<BHHHB", 1, 10, rng.randrange(200), rng.randrange(200), 1)
    return block(4006, body, revision)


def base_vector_cart(rng, tow, wnc, sub=52):
    vec = struct.pack("<BBBBddd", 20, 0, 4, 0, *(rng.gauss(0, 1000) for _ in range(3)))
    vec += struct.pack("<fff", *(rng.gauss(0, 1) for _ in range(3)))
    vec += struct.pack("<HhHHI", rng.randrange(36000), rng.randrange(-9000, 9000), 1, 10, 0x30C)
    return block(4043, struct.pack("<IHBB", tow, wnc, 1, sub) + vec + bytes(sub - 52))


def att_euler(rng, tow, wnc):
    body = struct.pack("<IHBBHH", tow, wnc, 18, 0, 4, 0)
    return block(5938, body + struct.pack("<6f", *(rng.uniform(-180, 180) for _ in range(6))))


def ext_event(rng, tow, wnc):
    return block(5924, struct.pack("<IHBBfdH", tow, wnc, 1, 0, rng.random() * 1e-3, rng.gauss(0, 0.1), 10))


def gps_nav(rng, tow, wnc):
    return block(5891, struct.pack("<IH", tow, wnc) + bytes([rng.randrange(1, 33)]) + rng.randbytes(125))


def stream(rng, size):
    """Blocks of the mix until SIZE bytes are reached."""
    tow, total, i = 86_400_000, 0, 0
    while total < size:
        wnc = 2300
        out = [meas_epoch(rng, tow, wnc), pvt_cartesian(rng, tow, wnc), base_vector_cart(rng, tow, wnc),
               att_euler(rng, tow, wnc), block(5914, struct.pack("<IHbbbbbbbB", tow, wnc, 24, 2, 5, 0, 0, 0, 18, 7)),
               block(4001, struct.pack("<IHBBHHHHff", tow, wnc, 18, 0, 120, 80, 70, 110, 3.0, 4.0)),
               block(5921, struct.pack("<IH", tow, wnc))]
        if i % 3 == 0:
            out.append(ext_event(rng, tow, wnc))
        if i % 30 == 0:
            out.append(gps_nav(rng, tow, wnc))
        for b in out:
            total += len(b)
            yield b
        tow, i = (tow + 1000) % 604_800_000, i + 1


def false_header(rng, length):
    return b"$@" + rng.randbytes(2) + struct.pack("<HH", 4027, length)


def make(kind, size, rng):
    out = bytearray()
    if kind == "noise":
        return rng.randbytes(size)
    if kind == "sync":
        return b"$" * size
    if kind == "dollar":
        return b"$@" * (size // 2)
    if kind == "worst":
        return false_header(rng, 65532) * (size // 8)
    budget = 0.0
    for i, b in enumerate(stream(rng, size)):
        if kind == "between":
            budget += len(b) * 0.01
            if budget >= 100 and rng.random() < 0.2:
                n = min(rng.randint(1, 200), int(budget))
                out += rng.randbytes(n)
                budget -= n
        elif kind in ("false", "false16") and i % 50 == 0:
            out += false_header(rng, 60000 if kind == "false" else 16000)
        elif kind == "trunc" and i % 50 == 0:
            b = b[:rng.randrange(2, len(b))]
        elif kind == "pairs":
            body = bytearray(b[8:])
            for _ in range(max(1, len(body) // 20)):
                k = rng.randrange(0, len(body) - 1)
                body[k:k + 2] = b"$@"
            b = block(struct.unpack_from("<H", b, 4)[0] & 0x1FFF, bytes(body), struct.unpack_from("<H", b, 4)[0] >> 13)
        out += b
    if kind in ("flip", "flip1"):
        rate = 1e-4 if kind == "flip" else 1e-2
        at = 0
        while True:
            at += int(rng.expovariate(rate)) + 1
            if at >= len(out):
                break
            out[at] = rng.randrange(256)
    return bytes(out)


if __name__ == "__main__":
    if len(sys.argv) < 4:
        sys.exit(__doc__)
    data = make(sys.argv[1], int(sys.argv[2]), random.Random(int(sys.argv[4]) if len(sys.argv) > 4 else 1))
    with open(sys.argv[3], "wb") as f:
        f.write(data)
