"""Seeded content for the replay scripts: field values, blocks, streams and
block tables, good ones and ones with exactly one rule broken, of one level
and of two; ceilings, and streams about their length; and blocks to be
written, allowed ones and ones with a fault.

Every function draws only from the random.Random it is given.
"""

import binascii
import re
import struct

from model import (CODE_LSB, CODE_OFFSET_LSB, Field, MARKED, MEAS_EPOCH, MISC,
                   OFFSETS_MSB, Row, SIGNED, SIZES, UNSIGNED, crc, kind_read,
                   levels, make_table, range_of, shipped_rows, value, walk)

SHIPPED = shipped_rows()
OLDER = shipped_rows(reserved=False)
# The rows of before request M-101: PPPInfo has mark 2.
UNSEEDED = tuple(
    row._replace(body=tuple(f._replace(mark=2) if f.mark == 5 else f
                            for f in row.body)) for row in SHIPPED)
HUGE = (255, 256, 257, 65535, 65536, 2 ** 31, 2 ** 32 - 1, 2 ** 32,
        2 ** 32 + 1, 2 ** 63, 2 ** 64 - 1)

# ------------------------------------------------------------- field values

SINGLE = (0x7FC00000, 0xFFC00000, 0x7F800001, 0x7FA55A5A, 0xFF800001,
          0x7FFFFFFF, 0x7F800000, 0xFF800000, 0x80000000, 1, 0x3F800000,
          0xD09502F8, 0xD09502FA, 0x509502F9, 0xD09502F9)
DOUBLE = (0x7FF8000000000000, 0x7FF0000000000001, 0xFFF0000000000001,
          0x7FF4A5A5A5A5A5A5, 0x7FFFFFFFFFFFFFFF, 0xFFFFFFFFFFFFFFFF,
          0x7FF0000000000000, 0xFFF0000000000000, 1 << 63, 1,
          0xC212A05F1FFFFFFF, 0xC212A05F20000001, 0x4212A05F20000000,
          0xD09502F9, 0xC212A05F20000000)
# For a u2 with mark 5: bits that are Do-Not-Use, and bits that are not.
NO_SEED = (0, 1, 0x0FFF, 0x1000, 0x1FFF)
SEEDS = (0x2000, 0x2FFF, 0x4000, 0x8000, 0xE000, 0xFFFF)


def no_seed_bits(rng):
    """Bits, or a number, that mark 5 makes Do-Not-Use."""
    return rng.choice(NO_SEED + (0, rng.getrandbits(13)))


def seed_bits(rng):
    """Bits for a u2 with mark 5, of either side of its border."""
    draw = rng.random()
    if draw < 0.4:
        return no_seed_bits(rng)
    return rng.choice(SEEDS) if draw < 0.8 else rng.getrandbits(16)


def field_bits(rng, kind, mark):
    """Bits for a field: limits, Do-Not-Use patterns and neighbours, NaNs.
    Those that matter by mark 5 come up in other u2 fields too."""
    if mark == 5 or kind == 2 and rng.random() < 0.25:
        return seed_bits(rng)
    width = 8 * SIZES[kind]
    full, half = (1 << width) - 1, 1 << (width - 1)
    dnu = {0: 0, 1: full, 2: 0, 4: half,
           3: 0xD09502F9 if width == 32 else 0xC212A05F20000000}[mark]
    draw = rng.random()
    if mark and draw < 0.3:
        return dnu
    if mark and draw < 0.4:
        return (dnu + rng.choice((1, -1))) & full
    if kind > 8 and draw < 0.75:
        return rng.choice(SINGLE if kind == 9 else DOUBLE)
    if draw < 0.7:
        return rng.choice((0, 1, full, full - 1, half, half - 1, half + 1))
    return rng.getrandbits(width)


def seed_like(field):
    """Has the field mark 5, or the mark that PPPInfo had before it?  The
    table in force tells which."""
    return field.type == 2 and field.mark in (2, 5)


def set_fields(rng, data, base, fields):
    """Writes values for the fields into the bytearray, as far as they fit."""
    for field in fields:
        size, at = SIZES[field.type], base + field.offset
        if at + size <= len(data):
            bits = field_bits(rng, field.type, field.mark)
            data[at:at + size] = bits.to_bytes(size, "little")


# ------------------------------------------------------------------- blocks


def noise(rng, count):
    return rng.getrandbits(8 * count).to_bytes(count, "little")


def seal(data):
    """Puts sync, Length and a right CRC into a block's bytes."""
    data = bytearray(data)
    data[0:2] = b"\x24\x40"
    data[6:8] = struct.pack("<H", len(data))
    data[2:4] = struct.pack("<H", crc(bytes(data[4:])))
    return bytes(data)


def blank(rng, number, revision, length):
    """A block's bytes, unsealed: noise with the ID and a time stamp."""
    data = bytearray(noise(rng, length))
    data[4:6] = struct.pack("<H", number | revision << 13)
    if rng.random() < 0.3 and length >= 14:
        stamp = rng.choice((b"\xff" * 6, b"\xff" * 4 + b"\xfe\xff",
                            b"\xfe\xff\xff\xff\xff\xff", bytes(6)))
        data[8:14] = stamp
    return data


def up4(number):
    return (number + 3) // 4 * 4


def fields_end(fields, revision):
    """Where the last field that the revision carries ends, 0 for none."""
    return max([f.offset + SIZES[f.type] for f in fields
                if f.first <= revision], default=0)


def pick_revision(rng, row):
    """0, the highest, newer than the table, or any."""
    return rng.choice((0, row.highest, min(7, row.highest + 1), 7,
                       rng.randrange(8)))


def body_block(rng, row, revision, slack):
    """A sealed block of a row without sub-fields; slack (a multiple of 4) is
    added to the least length."""
    least = max(16, up4(fields_end(row.body, revision)))
    length = max(8, least + slack)
    data = blank(rng, row.number, revision, length)
    set_fields(rng, data, 0, row.body)
    return seal(data)


def sub_counts(rng, row, revision):
    """N and SBLength for a row with sub-fields: mostly fitting."""
    end = fields_end(row.subs, revision)
    size = end + rng.choice((0, 0, 0, 1, 3, 4, 8, rng.randrange(60)))
    if rng.random() < 0.15:
        size = end + rng.choice((-1, 0, 1))
    count = rng.choice((0, 1, 1, 2, 2, 3, 5, rng.randrange(12)))
    if rng.random() < 0.02:
        count = rng.choice((100, 254, 255))
    if count == 0 and rng.random() < 0.7:
        size = rng.randrange(256)
    return count, min(255, max(0, size))


def sub_block(rng, row, revision, slack):
    """A sealed block of a row with sub-fields."""
    count, size = sub_counts(rng, row, revision)
    length = max(8, up4(16 + count * size) + slack)
    data = blank(rng, row.number, revision, length)
    if length > 15:
        data[14:16] = bytes((count, size))
    for index in range(count):
        part = bytearray(noise(rng, size))
        set_fields(rng, part, 0, row.subs)
        at = 16 + index * size
        data[at:at + size] = part[:max(0, length - at)]
    return seal(data[:length])


def row_block(rng, row, revision=None, slack=None):
    """A sealed block for a row; sometimes with padding, sometimes short."""
    if revision is None:
        revision = pick_revision(rng, row)
    if slack is None:
        slack = rng.choice((0, 0, 0, 0, 4, 8, 40))
    make = sub_block if row.subs else body_block
    return (level_block if row.c else make)(rng, row, revision, slack)


def short_block(rng, row):
    """A sealed block whose length is near the end of one of its fields."""
    revision = pick_revision(rng, row)
    ends = [f.offset + SIZES[f.type] for f in row.body] or [14]
    near = up4(rng.choice(ends)) + rng.choice((-8, -4, 0, 4))
    data = blank(rng, row.number, revision, max(8, near))
    set_fields(rng, data, 0, row.body)
    if row.subs and len(data) >= 16:
        data[14:16] = bytes((rng.choice((0, 1, 255)), rng.randrange(256)))
    if row.c and len(data) >= 20:
        data[16] = rng.choice((0, 1, 255))
    return seal(data)


def misfit_block(rng, row):
    """A sealed block with sub-blocks that end one or more past its length, or
    N changed by one."""
    data = bytearray(row_block(rng, row, slack=0))
    if len(data) >= 16:
        at = rng.choice((14, 15, 16) if row.c else (14, 15))
        data[at] = (data[at] + rng.choice((1, 255, 2, 4))) % 256
    return seal(data)


# ------------------------------------------------ blocks of two levels (T21)


def code_bits(rng):
    """Misc and CodeLSB: both 0 but for Misc's high bits, one of them 0, so
    small that an offset makes it negative, the largest, or any."""
    high = rng.choice((0, 0, 0x10, 0xF0, rng.randrange(16) << 4))
    msb, lsb = rng.choice((
        (0, 0), (0, 0), (0, 1), (0, rng.randrange(1, 262144)),
        (rng.randrange(1, 16), 0), (15, 2 ** 32 - 1), (0, 2 ** 32 - 1),
        (5, rng.getrandbits(32)), (rng.randrange(16), rng.getrandbits(32))))
    return high | msb, lsb


def offset_bits(rng):
    """OffsetsMSB and CodeOffsetLSB: -4 and 0, one of them so, the limits, or
    any; the bits above the three lowest are any."""
    high = rng.choice((0, 0, 0xF8, rng.randrange(32) << 3))
    msb, lsb = rng.choice((
        (4, 0), (4, 0), (4, 1), (4, 65535), (0, 0), (7, 0), (7, 65535),
        (3, 65535),
        (rng.randrange(8), 0), (rng.randrange(8), rng.getrandbits(16)),
        (rng.randrange(4, 8), rng.getrandbits(16))))
    return high | msb, lsb


def set_pair(data, fields, wanted, numbers):
    """Puts two numbers into the fields that a pseudorange is read from, where
    both are there with their types and within the bytes."""
    if any(index >= len(fields) or fields[index].type != kind
           for index, kind in wanted):
        return
    for (index, kind), number in zip(wanted, numbers):
        at, size = fields[index].offset, SIZES[kind]
        if at + size <= len(data):
            data[at:at + size] = number.to_bytes(size, "little")


def level_parts(rng, count, fields, size, pair, draw):
    """The bytes of so many sub-blocks of a level, where they are many 20 over
    and over; a pseudorange now and then stays as its fields drew it."""
    parts = []
    for _ in range(min(count, 20)):
        part = bytearray(noise(rng, size))
        set_fields(rng, part, 0, fields)
        if rng.random() < 0.85:
            set_pair(part, fields, pair, draw(rng))
        parts.append(part)
    return [bytearray(parts[index % 20]) for index in range(count)]


def level_counts(rng):
    """N1, and N2 of each: mostly a few that differ, seldom 255 and near it,
    often none at all at the one level or the other."""
    count = rng.choice((0, 1, 1, 2, 2, 3, 3, 4, rng.randrange(8)))
    draw = rng.random()
    if draw < 0.2:
        return [0] * count
    if draw < 0.21:
        return [0] * rng.choice((100, 254, 255))
    if draw < 0.22:
        return [rng.choice((0, 1)) for _ in range(rng.choice((50, 255)))]
    nested = [rng.choice((0, 0, 1, 1, 2, 3, rng.randrange(6)))
              for _ in range(count)]
    if nested and draw < 0.25:
        nested[rng.randrange(count)] = rng.choice((60, 254, 255))
    return nested


def level_length(rng, fields, revision, used):
    """A length that the block gives the sub-blocks of a level: that of its
    carried rows, or longer; where none is there also anything else."""
    end = fields_end(fields, revision)
    if not used and rng.random() < 0.8:
        return rng.choice((0, max(0, end - 1), 1, 255, rng.randrange(256)))
    size = end + rng.choice((0, 0, 0, 0, 1, 2, 4, 8, rng.randrange(40)))
    if rng.random() < 0.02:
        size = 255
    return min(255, size)


def level_spoiled(rng, row, revision, nested, sizes):
    """One of the lengths made too short for the rows of its level, where the
    level has a sub-block and its rows have a length."""
    for which in rng.sample((0, 1), 2):
        end = fields_end(levels(row)[which], revision)
        if end and (any(nested) if which else nested):
            sizes[which] = rng.choice((end - 1, end - 1, 0,
                                       rng.randrange(end))) % 256
            return


def level_bytes(rng, row, revision, nested, sizes):
    """The unsealed bytes of a block of two levels, up to where the walk ends:
    `nested` has the N2 of each first-level sub-block."""
    first, second = levels(row)
    data = bytearray(blank(rng, row.number, revision, 20))
    set_fields(rng, data, 0, row.body)
    data[14:17] = bytes((len(nested), *sizes))
    outer = level_parts(rng, len(nested), first, sizes[0], (MISC, CODE_LSB),
                        code_bits)
    for n2, part in zip(nested, outer):
        if first[-1].offset < len(part):
            part[first[-1].offset] = n2
        data += part
        data += b"".join(level_parts(
            rng, n2, second, sizes[1], (OFFSETS_MSB, CODE_OFFSET_LSB),
            offset_bits))
    return data


def level_block(rng, row, revision, slack):
    """A sealed block of a row of two levels: mostly one whose walk ends in
    it, often exactly at its end; else cut, or a length too short."""
    nested = level_counts(rng)
    first, second = levels(row)
    sizes = [level_length(rng, first, revision, bool(nested)),
             level_length(rng, second, revision, any(nested))]
    draw = rng.random()
    if draw < 0.08:
        level_spoiled(rng, row, revision, nested, sizes)
    if len(nested) * sizes[0] + sum(nested) * sizes[1] > 12000:
        nested = nested[:2]
    if len(nested) * sizes[0] + sum(nested) * sizes[1] > 65400:
        nested = nested[:1]    # no block has room for both
    if draw > 0.7 and len(nested) == 1 and sizes[0] < 250:
        sizes[0] += -(sizes[0] + nested[0] * sizes[1]) % 4    # ends at L
    data = level_bytes(rng, row, revision, nested, sizes)
    length = up4(len(data)) + max(0, slack)
    if 0.08 < draw < 0.18:
        length = level_cut(rng, length)
    data += noise(rng, max(0, length - len(data)))
    return seal(data[:length])


def level_cut(rng, length):
    """A length that the walk does not end in, 20 or more where there is
    one."""
    return max(20, length - rng.choice((4, 4, 4, 8, 20,
                                        4 * rng.randrange(1, 30))))


def level_far(rng, row):
    """A block of two levels that is full of 255s: the walk goes far past its
    end, or nowhere near it."""
    length = rng.choice((20, 24, 4 * rng.randrange(5, 200)))
    data = blank(rng, row.number, pick_revision(rng, row), length)
    data[20:] = rng.choice((b"\xff", b"\x00", b"\x01")) * (length - 20)
    for at in (14, 15, 16):
        data[at] = rng.choice((255, 255, 254, 0, 1, data[at]))
    return seal(data)


def level_full(rng, row):
    """A block of two levels as long as they get: 255 first-level sub-blocks,
    or 255 nested ones, of 255 bytes each."""
    wide = rng.random() < 0.5
    sizes = [255 if wide else fields_end(levels(row)[0], 7), 255]
    data = level_bytes(rng, row, 7, [0] * 255 if wide else [255], sizes)
    return seal(data + bytes(-len(data) % 4))


def shape_of(row, data):
    """The N2s of a block of two levels, as far as its bytes tell."""
    return [n2 for _, n2 in walk(row, data)[0]] if len(data) > 16 else []


def unknown_block(rng, rows):
    """A sealed block of any number, often a neighbour of one in the table."""
    number = rng.choice((0, 8191, rng.randrange(8192),
                         rng.choice(rows).number ^ 1))
    length = rng.choice((8, 12, 16, 4 * rng.randrange(2, 30)))
    return seal(blank(rng, number, rng.randrange(8), length))


# ------------------------------------------------------------------ streams


def bad_length(rng):
    return rng.choice((0, 1, 2, 3, 4, 5, 6, 7, 9, 10, 11, 13, 65533, 65534,
                       65535, 4 * rng.randrange(2, 100) + rng.randrange(1, 4)))


def bad_length_block(rng):
    """A header whose length is not allowed, half of them with a CRC that is
    right for that length."""
    length = bad_length(rng)
    tail = content_id(rng) + struct.pack("<H", length)
    tail += noise(rng, min(max(0, length - 8), rng.choice((0, 20, 400))))
    check = crc(tail[:max(0, length - 4)])
    if rng.random() < 0.5:
        check = rng.randrange(65536)
    return b"\x24\x40" + struct.pack("<H", check) + tail


def content_id(rng):
    return struct.pack("<H", rng.choice(SHIPPED).number
                       | rng.randrange(8) << 13)


def false_header(rng, reach):
    """A header with sync and an allowed length but (nearly surely) no right
    CRC.  reach is the greatest length."""
    length = rng.choice((8, 12, 20, 4 * rng.randrange(2, 64), reach))
    return b"\x24\x40" + noise(rng, 4) + struct.pack("<H", length)


def nested_block(rng, rows):
    """A good block with a whole good block, or sync pairs, in its body."""
    inner = rng.choice((b"\x24\x40", b"\x24\x24\x40", b"\x24",
                        row_block(rng, rng.choice(rows)),
                        false_header(rng, 400)))
    data = bytearray(blank(rng, rng.choice(rows).number, 0, 16)) + inner
    return seal(data + bytes(-len(data) % 4))


def swallowing_header(rng, rows):
    """A noise header whose length covers the good blocks behind it, ending
    at, before or after their end."""
    tail = b"".join(row_block(rng, rng.choice(rows))
                    for _ in range(rng.randrange(1, 4)))
    length = up4(8 + len(tail)) + rng.choice((0, 0, -4, 4, 8, -8))
    length = min(65532, max(8, length))
    return b"\x24\x40" + noise(rng, 4) + struct.pack("<H", length) + tail


def wrong_crc_block(rng, rows):
    """CRC started at 0xFFFF, or over the sync bytes, or off by a bit."""
    data = bytearray(row_block(rng, rng.choice(rows)))
    kind = rng.randrange(3)
    if kind == 0:
        check = binascii.crc_hqx(bytes(data[4:]), 0xFFFF)
    elif kind == 1:
        check = crc(bytes(data[:2] + data[4:]))
    else:
        check = (data[2] | data[3] << 8) ^ 1 << rng.randrange(16)
    data[2:4] = struct.pack("<H", check)
    return bytes(data)


def flipped_block(rng, rows):
    data = bytearray(row_block(rng, rng.choice(rows)))
    data[rng.randrange(len(data))] ^= 1 << rng.randrange(8)
    return bytes(data)


def cut_block(rng, rows):
    data = row_block(rng, rng.choice(rows))
    cut = rng.choice((1, 2, 6, 7, 8, len(data) - 1, rng.randrange(len(data))))
    return data[:cut] if rng.random() < 0.7 else data[cut:]


def odd_bytes(rng):
    """Short runs that nearly look like a start."""
    return rng.choice((b"\x24", b"\x24\x24", b"\x24\x40", b"\x40\x24",
                       b"\x24\x24\x40", b"\x24\x40\x24\x40", b"\x40",
                       b"\x24\x41", b"\x24\x40" * rng.randrange(1, 9),
                       b"\x24" * rng.randrange(1, 20)))


CHUNKS = ("clean", "clean", "clean", "clean", "unknown", "noise", "cut",
          "flip", "false", "bad", "nested", "swallow", "crc", "odd", "reach")


def chunk(rng, rows, kinds=CHUNKS):
    """One piece of content of a stream."""
    kind = rng.choice(kinds)
    if kind == "clean":
        return row_block(rng, rng.choice(rows))
    if kind == "noise":
        return noise(rng, rng.randrange(1, 60))
    if kind == "false":
        return false_header(rng, 4 * rng.randrange(2, 200))
    if kind == "reach":
        big = rng.random() < 0.3
        return false_header(rng, 65532 if big else 4 * rng.randrange(2, 900))
    if kind == "bad":
        return bad_length_block(rng)
    if kind == "odd":
        return odd_bytes(rng)
    return {"unknown": unknown_block, "cut": cut_block, "flip": flipped_block,
            "nested": nested_block, "swallow": swallowing_header,
            "crc": wrong_crc_block}[kind](rng, rows)


def stream(rng, rows, count, kinds=CHUNKS):
    return b"".join(chunk(rng, rows, kinds) for _ in range(count))


def big_block(rng):
    """A sealed block of a great length, up to 65,532."""
    length = rng.choice((65532, 65528, 4 * rng.randrange(4000, 16384)))
    return seal(blank(rng, rng.randrange(8192), rng.randrange(8), length))


# ----------------------------------------------------------- ceilings (F16)

# The bounds, lengths that blocks often have, and those of before ceilings.
GOOD_CEILINGS = (16, 16, 20, 24, 44, 96, 4096, 4096, 65528, 65532)
# Each bound's other side, lengths that are allowed in a block (8 and 12), and
# numbers whose low 16 or 32 bits would be a ceiling.
BAD_CEILINGS = (
    0, 1, 4, 8, 8, 12, 12, 13, 14, 15, 17, 18, 19, 4095, 4097, 4098, 65529,
    65530, 65531, 65533, 65534, 65535, 65536, 65536, 65540, 65536 + 16,
    65536 + 4096, 2 ** 31, 2 ** 32, 2 ** 32 + 16, 2 ** 32 + 4096,
    2 ** 32 + 65532, 2 ** 63, 2 ** 63 + 16, 2 ** 64 - 65536, 2 ** 64 - 16,
    2 ** 64 - 4, 2 ** 64 - 1)


def good_ceiling(rng):
    """A ceiling: mostly so low that blocks of the rows shipped are above."""
    return rng.choice(GOOD_CEILINGS + (
        4 * rng.randrange(4, 60), 4 * rng.randrange(4, 60),
        4 * rng.randrange(4, 300), 4 * rng.randrange(4, 16384)))


def bad_ceiling(rng):
    """A number that is no ceiling."""
    between = 4 * rng.randrange(4, 16383) + rng.randrange(1, 4)
    return rng.choice(BAD_CEILINGS + (
        between, between, 4 * rng.randrange(16384, 2 ** 30),
        4 * rng.randrange(16384, 2 ** 62)))


def length_near(rng, ceiling):
    """A length that 4 divides: the ceiling itself, one beside it, or one far
    above or below."""
    length = rng.choice((
        ceiling, ceiling, ceiling, ceiling + 4, ceiling + 4, ceiling + 4,
        ceiling - 4, ceiling + 8, 2 * ceiling, 60000, 65532, 8, 12, 16,
        ceiling + 4 * rng.randrange(1, 50), 4 * rng.randrange(2, 16384)))
    return min(65532, max(8, length))


def small_blocks(rng, ceiling, room):
    """A few sealed blocks one behind the other, in so many bytes; a ceiling
    lets most of them through."""
    parts = b""
    for _ in range(rng.choice((1, 1, 2, 3))):
        length = rng.choice((8, 12, 16, min(ceiling, 64),
                             4 * rng.randrange(2, 12)))
        if len(parts) + length <= room:
            parts += seal(blank(rng, rng.randrange(8192), rng.randrange(8),
                                length))
    return parts


def sized_block(rng, length, ceiling):
    """A sealed block of this length.  Mostly there are blocks in it, which
    are read where its own length is not allowed."""
    data = blank(rng, rng.randrange(8192), rng.randrange(8), length)
    if length >= 24 and rng.random() < 0.7:
        at = rng.choice((8, 14, 16, 4 * rng.randrange(2, length // 4 - 1)))
        inner = small_blocks(rng, ceiling, length - at)
        data[at:at + len(inner)] = inner
    return seal(data)


def header_near(rng, ceiling):
    """A header whose length is about the ceiling and whose CRC is wrong
    (nearly surely), with blocks behind it that it may hold back."""
    head = b"\x24\x40" + noise(rng, 4) + struct.pack(
        "<H", length_near(rng, ceiling))
    return head + small_blocks(rng, ceiling, 400)


def ceiling_chunk(rng, rows, ceiling):
    """One piece of a stream that is read with this ceiling."""
    kind = rng.choice(("block", "block", "block", "header", "header", "spoilt",
                       "cut", "usual", "usual"))
    if kind == "usual":
        return chunk(rng, rows)
    length = length_near(rng, ceiling)
    if kind == "header" or length > 1500:
        return header_near(rng, ceiling)
    data = bytearray(sized_block(rng, length, ceiling))
    if kind == "spoilt":
        data[rng.choice((2, 3, len(data) - 1))] ^= 1 << rng.randrange(8)
    cut = rng.randrange(len(data)) if kind == "cut" else len(data)
    return bytes(data[:cut])


def ceiling_stream(rng, rows, ceiling, count):
    return b"".join(ceiling_chunk(rng, rows, ceiling) for _ in range(count))


def small_epoch(rng):
    """A MeasEpoch block by the row shipped that every record call answers."""
    row = next(row for row in SHIPPED if row.number == MEAS_EPOCH)
    return seal(level_bytes(rng, row, rng.randrange(2), [1, 2], [20, 12]))


# ------------------------------------------------------------- valid tables


def random_mark(rng, kind):
    """A mark that may stand on the type: mark 5, which has but one type to
    stand on, twice as often as another."""
    marks = [mark for mark in MARKED if kind in MARKED[mark]]
    return rng.choice(marks + [5] * (5 in marks))


def random_fields(rng, start, count, highest):
    """Valid field rows from `start` on; as many as fit below 256.  u2 is
    twice as often as another type, again for mark 5."""
    rows, at, first = [], start, 0
    for _ in range(count):
        kind = rng.choice(tuple(SIZES) + (2,))
        at += rng.choice((0, 0, 0, 1, 2, 5))
        if at > 255:
            break
        if rng.random() < 0.3:
            first = rng.randrange(first, highest + 1)
        rows.append(Field(at, kind, first, random_mark(rng, kind)))
        at += SIZES[kind]
    return tuple(rows)


PAIR = (Field(14, 1, 0, 0), Field(15, 1, 0, 0))


TRIPLE = PAIR + (Field(16, 1, 0, 0),)


def some_fields(rng, start, count, highest, last=256):
    """As random_fields; those alone that end by `last`."""
    return tuple(f for f in random_fields(rng, start, count, highest)
                 if f.offset + SIZES[f.type] <= last)


def level_body(rng, highest):
    """N1, SB1Length, SB2Length, and mostly more up to 20."""
    more = rng.choice((
        (), (Field(17, 1, 0, 0), Field(18, 1, highest, 0)),
        (Field(17, 1, 0, 0), Field(18, 2, 0, 5)), (Field(19, 5, highest, 4),),
        some_fields(rng, 17, 3, highest, 20),
        some_fields(rng, 17, 3, highest, 20)))
    return TRIPLE + more


def first_level(rng, count):
    """First-level rows without N2, of first revision 0, and N2 behind them;
    seldom as far out as a u1 can be."""
    rows = some_fields(rng, rng.choice((0, 0, 0, 3)), count, 0, 200)
    at = rows[-1].offset + SIZES[rows[-1].type] if rows else 0
    at += rng.choice((0, 0, 0, 1, 4))
    if rng.random() < 0.03:
        at = rng.choice((254, 255))
    return rows + (Field(at, 1, 0, 0),)


def random_levels(rng, number):
    """A valid row of two levels: of any shape, or near MeasEpoch's."""
    if rng.random() < 0.4 or number == MEAS_EPOCH and rng.random() < 0.6:
        return like_epoch(rng, number)
    highest = rng.choice((0, 1, 1, 2, 7, rng.randrange(8)))
    first = first_level(rng, rng.choice((0, 0, 1, 2, 4, 7, rng.randrange(12))))
    second = tuple(
        f._replace(type=2, mark=5)
        if SIZES[f.type] == 2 and rng.random() < 0.7 else f
        for f in some_fields(rng, rng.choice((0, 0, 0, 2)), rng.choice(
            (0, 0, 1, 2, 4, 8, rng.randrange(12))), highest))
    return Row(number, highest, level_body(rng, highest), first + second,
               len(first))


def like_epoch(rng, number):
    """A row like MeasEpoch's, in one thing or a few unlike it: what its
    pseudoranges are read from has another type, a mark, a later revision, or
    is not there; or it stands elsewhere."""
    row = next(r for r in SHIPPED if r.number == MEAS_EPOCH)
    first, second = map(list, levels(row))
    highest = rng.choice((1, 1, 3, 7))
    for _ in range(rng.choice((0, 1, 1, 1, 2))):
        kind = rng.choice((0, 1, 2, 2, 3, 3, 3, 4, 5, 6, 7))
        fields, spots = ((first, (3, 4)), (second, (3, 6)))[rng.randrange(2)]
        at = rng.choice(spots)
        if kind < 4 and at >= len(fields) - 1:
            continue    # not there, or it is N2
        if kind < 2:
            retype(rng, fields, at)
        elif kind < 4:
            if fields[at].type in UNSIGNED:
                fields[at] = fields[at]._replace(mark=rng.choice((1, 2)))
        elif kind == 4:
            late = rng.randrange(len(second) + 1)
            second[late:] = [f._replace(first=highest) for f in second[late:]]
        elif kind == 5:
            gap = rng.randrange(1, 5)
            fields[at:] = [f._replace(offset=f.offset + gap)
                           for f in fields[at:]]
        elif kind == 6:
            del second[rng.randrange(len(second) + 1):]
        else:
            del first[rng.randrange(len(first)):-1]
    return Row(number, highest, row.body[:rng.randrange(3, 6)],
               tuple(first + second), len(first))


def retype(rng, fields, at):
    """A field's type changed, and those behind it moved so that none
    overlaps."""
    kind = rng.choice([k for k in SIZES if k != fields[at].type])
    wider = max(0, SIZES[kind] - SIZES[fields[at].type])
    fields[at] = fields[at]._replace(type=kind, mark=0)
    fields[at + 1:] = [f._replace(offset=f.offset + wider)
                       for f in fields[at + 1:]]


def level_corners(rng):
    """[(row, block)] of what comes up seldom: 255 sub-blocks of either level,
    SB2Length 0, lengths that are too short by one, walks that end far out, and
    pseudoranges by fields that are not carried or that a mark makes
    Do-Not-Use."""
    epoch = next(row for row in SHIPPED if row.number == MEAS_EPOCH)
    first, second = levels(epoch)
    late = epoch._replace(subs=first + tuple(
        f._replace(first=1) for f in second))
    marked = epoch._replace(subs=tuple(
        f._replace(mark=2) if f.type == 3 or at == epoch.c + 6 else f
        for at, f in enumerate(epoch.subs)))
    cases = [(epoch, 1, [0] * 255, [20, 0]), (epoch, 0, [255], [20, 12]),
             (late, 0, [2, 1], [21, 0]), (late, 0, [0, 255], [20, 0]),
             (epoch, 1, [1, 2], [19, 12]), (epoch, 1, [0, 2, 1], [20, 11]),
             (epoch, 1, [0, 0, 0], [20, 11])]
    out = []
    for row, revision, nested, sizes in cases:
        data = level_bytes(rng, row, revision, nested, sizes)
        out.append((row, seal(data + bytes(-len(data) % 4))))
    # CodeLSB 0, and then CodeOffsetLSB 0 alone
    plain = bytearray(seal(level_bytes(rng, marked, 1, [1], [20, 12])))
    for misc, low, more in ((5, 0, 7), (5, 9, 0)):
        struct.pack_into("<BI", plain, 23, misc, low)
        struct.pack_into("<H", plain, 46, more)
        out.append((marked, seal(plain)))
    # the walk ends past 65,536, at 65,555 and at 65,810: few bytes past it
    for count in (2, 3):
        far = level_bytes(rng, epoch, 1, [0], [255, 255]) + bytes(1)
        far[14], far[39] = count, 255
        out.append((epoch, seal(far)))
    return out


def level_rows(rng):
    """Valid rows, those of two levels in the greater part; MeasEpoch as it is
    shipped, or with another row under its number, or with one of one
    level."""
    numbers = sorted({MEAS_EPOCH, *(rng.randrange(8192) for _ in range(
        rng.randrange(1, 4)))})
    epoch = next(row for row in SHIPPED if row.number == MEAS_EPOCH)
    rows = []
    for number in numbers:
        draw = rng.random()
        if number == MEAS_EPOCH and draw < 0.45:
            rows.append(epoch)
        elif draw < 0.86:
            rows.append(random_levels(rng, number))
        else:
            rows.append(single_row(rng, number))
    return tuple(rows)


def random_row(rng, number):
    """A valid row, now and then of two levels."""
    if rng.random() < 0.12:
        return random_levels(rng, number)
    return single_row(rng, number)


def single_row(rng, number):
    """A valid row of one level, or without sub-fields."""
    highest = rng.choice((0, 0, 1, 2, 7, rng.randrange(8)))
    count = rng.choice((0, 1, 2, 5, rng.randrange(12)))
    if rng.random() < 0.35 and count:
        return Row(number, highest, PAIR,
                   random_fields(rng, 0, count, highest))
    return Row(number, highest, random_fields(rng, 14, count, highest), ())


def random_rows(rng, count=None):
    """Valid rows; the numbers of the shipped blocks are frequent."""
    count = count or rng.randrange(1, 7)
    pool = [row.number for row in SHIPPED] + [0, 8191, 1, 8190]
    pool += [rng.randrange(8192) for _ in range(4 + count)]
    numbers = sorted(set(rng.sample(pool, min(count, len(pool)))))
    return tuple(random_row(rng, number) for number in numbers)


def great_rows(rng, total):
    """Valid rows whose table has exactly `total` bytes (a multiple of 4)."""
    left, rows, number = (total - 12) // 4, [], 0
    while left > 0:
        count = rng.choice((0, 20, 60, 242)) if left > 400 else left - 2
        count = max(0, min(count, 242, left - 2))
        if left - 2 - count == 1:
            count -= 1
        body = tuple(Field(14 + i, 1, 0, i % 3) for i in range(count))
        rows.append(Row(number, 0, body, ()))
        left -= 2 + count
        number += rng.randrange(1, 30)
    return tuple(rows)


def valid_table(rng):
    """The bytes of a valid table."""
    version = rng.choice((0, 1, 2, 65535, rng.randrange(65536)))
    draw = rng.random()
    if draw < 0.45:
        rows = SHIPPED
    elif draw < 0.65:
        rows = rng.choice((OLDER, UNSEEDED))
    elif draw < 0.97:
        rows = rng.choice((random_rows, random_rows, write_rows,
                           level_rows))(rng)
    else:
        rows = great_rows(rng, rng.choice((8192, 8188, 20, 4096)))
    return make_table(version, rows)


# ------------------------------------------------ tables with one rule broken


def recrc(data):
    """The same table with its CRC made right again."""
    head = bytes(data[:-4])
    return head + struct.pack("<H", crc(head)) + bytes(data[-2:])


def patched(data, at, new):
    """The table with bytes at `at` (from the end if negative) replaced."""
    data, at = bytearray(data), at % len(data)
    data[at:at + len(new)] = new
    return recrc(data)


def u2(data, at):
    at %= len(data)
    return data[at] | data[at + 1] << 8


def bad_fields(rng):
    """[(name, fields)] with one rule broken, given from offset 0 on: among
    sub-fields as they are, in a body 14 higher; highest revision is 3."""
    def both(name, *cells):
        return [(name, tuple(Field(*c) for c in cells))]
    kind = rng.randrange(1, 11)
    size = SIZES[kind]
    out = []
    for bad in (0, 11, 12, 255):
        out += both("type %d" % bad, (0, bad, 0, 0))
    for bad in (6, 7, 255):
        out += both("mark %d" % bad, (0, kind, 0, bad))
    out += both("mark 6 on u2", (0, 2, 0, 6))
    for mark in (1, 2, 3, 4):
        wrong = rng.choice([k for k in SIZES if k not in MARKED[mark]])
        out += both("mark %d on type %d" % (mark, wrong), (0, wrong, 0, mark))
    for wrong in [k for k in SIZES if k not in MARKED[5]]:
        out += both("mark 5 on type %d" % wrong, (0, wrong, 0, 5))
    out += both("overlap", (0, kind, 0, 0), (size - 1, 1, 0, 0))
    out += both("same place", (0, kind, 0, 0), (0, kind, 0, 0))
    out += both("falling place", (20, 1, 0, 0), (2, 1, 0, 0))
    out += both("falling revision", (0, 1, 2, 0), (1, 1, 1, 0))
    out += both("revision over highest", (0, 1, 0, 0), (1, 1, 4, 0))
    out += both("revision 255", (0, 1, 0, 0), (1, 1, 255, 0))
    return out


def bad_rows(rng, number):
    """(name, row) with exactly one rule broken in the row."""
    out = []
    for name, fields in bad_fields(rng):
        shifted = tuple(f._replace(offset=f.offset + 14) for f in fields)
        out.append(("body: " + name, Row(number, 3, shifted, ())))
        out.append(("subs: " + name, Row(number, 3, PAIR, fields)))
    for at in (13, 0):
        out.append(("body at %d" % at,
                    Row(number, 0, (Field(at, 1, 0, 0),), ())))
    for highest in (8, 255):
        out.append(("highest %d" % highest, Row(number, highest, (), ())))
    sub = (Field(0, 1, 0, 0),)
    a, b = PAIR
    for name, body in (
            ("none", ()), ("N alone", (a,)), ("SBLength alone", (b,)),
            ("three", PAIR + (Field(16, 1, 0, 0),)),
            ("one u2", (Field(14, 2, 0, 0),)),
            ("i1 N", (a._replace(type=5), b)),
            ("i1 S", (a, b._replace(type=5))),
            ("u2 S", (a, b._replace(type=2))),
            ("S at 16", (a, b._replace(offset=16))),
            ("N at 15", (a._replace(offset=15), b._replace(offset=16))),
            ("S revision", (a, b._replace(first=1))),
            ("both revisions", (a._replace(first=1), b._replace(first=1))),
            ("N mark", (a._replace(mark=1), b)),
            ("S mark", (a, b._replace(mark=2)))):
        out.append(("sub body: " + name, Row(number, 3, body, sub)))
    return out


def bad_levels(rng, number):
    """(name, row of two levels) with exactly one rule broken in the row."""
    n2, sub = Field(7, 1, 0, 0), Field(0, 2, 0, 0)
    out = []

    def add(name, body=TRIPLE, first=(sub, n2), second=(sub,), c=None):
        out.append((name, Row(number, 3, body, first + second,
                              len(first) if c is None else c)))
    for over in (1, 2, 255 - 3):
        add("c above the count", second=(Field(8, 2, 0, 0),), c=3 + over)
    add("c above the count", TRIPLE, (), (), 1)
    for kind in (2, 5, 3, 9):
        add("N2 of another type", first=(sub, n2._replace(type=kind)))
    for mark in (1, 2):
        add("N2 marked", first=(sub, n2._replace(mark=mark)))
    for late in (1, 3):
        add("N2 of a later revision", first=(sub, n2._replace(first=late)))
    late = tuple(f._replace(first=2) for f in (sub, n2))
    add("N2 of a later revision", first=late)
    add("first level: falling revision", first=(late[0], n2))
    bad_triples(add)
    bad_ends(rng, add)
    for name, fields in bad_fields(rng):
        add("second level: " + name, second=fields)
        if name == "overlap" or name.startswith(("mark", "type", "same")):
            behind = n2._replace(offset=200)
            add("first level: " + name, first=fields + (behind,))
    add("first level: overlap", first=(sub, n2._replace(offset=1)))
    add("first level: falling place", first=(n2, sub._replace(type=1)))
    return out


def bad_triples(add):
    """N1, SB1Length and SB2Length: each missing, elsewhere, of another type,
    revision or mark."""
    add("triple missing", ())
    add("triple missing", PAIR)
    add("triple missing", TRIPLE[1:])
    add("triple missing", TRIPLE[:1] + TRIPLE[2:])
    add("triple elsewhere", PAIR + (Field(17, 1, 0, 0),))
    add("triple elsewhere", tuple(f._replace(offset=f.offset + 1)
                                  for f in TRIPLE))
    for at in range(3):
        head, one, tail = TRIPLE[:at], TRIPLE[at], TRIPLE[at + 1:]
        add("triple of another type", head + (one._replace(type=5),) + tail)
        for mark in (1, 2):
            add("triple marked", head + (one._replace(mark=mark),) + tail)
        add("triple of a later revision", head + tuple(
            f._replace(first=1) for f in (one,) + tail))
    add("triple of another type", PAIR + (Field(16, 2, 0, 0),))


def bad_ends(rng, add):
    """Body fields that end past 20, by one or more, of a later revision too;
    and others that break the rules of any body."""
    for at, kind in ((17, 3), (17, 9), (19, 2), (20, 1), (20, 5), (16 + 1, 4),
                     (255, 1), (rng.randrange(20, 256), 1)):
        add("body past 20", TRIPLE + (Field(at, kind, rng.choice((0, 3)), 0),))
    add("body past 20", TRIPLE + (Field(17, 1, 0, 0), Field(18, 2, 0, 0),
                                  Field(20, 1, 3, 0)))
    for name, cells in (
            ("overlap", ((17, 2, 0, 0), (18, 1, 0, 0))),
            ("overlap", ((16, 1, 0, 0),)), ("type", ((17, 11, 0, 0),)),
            ("mark", ((17, 1, 0, 3),)),
            ("above the highest", ((18, 1, 4, 0),)),
            ("falling revision", ((17, 1, 2, 0), (18, 1, 1, 0)))):
        add("body: " + name, TRIPLE + tuple(Field(*cell) for cell in cells))


def broken_by_levels(rng):
    """A table valid but for one row of two levels.  Each kind of fault is as
    frequent as another, of however many rows it has."""
    by_name = {}
    for name, row in bad_levels(rng, rng.choice((4000, 4001, 4002))):
        by_name.setdefault(re.sub(r" \d.*", "", name), []).append(row)
    bad = rng.choice(by_name[rng.choice(sorted(by_name))])
    return amid(rng, bad)


def broken_by_row(rng):
    """A table valid but for one row."""
    return amid(rng, rng.choice(bad_rows(rng, 4000 + rng.randrange(3)))[1])


def amid(rng, bad):
    """The table of a bad row, numbered 4000 to 4002, among good ones."""
    rows = [row for row in rng.choice((SHIPPED, random_rows(rng)))
            if row.number not in (4000, 4001, 4002)]
    low = [row for row in rows if row.number < 4000]
    high = [row for row in rows if row.number > 4002]
    return make_table(1, low + [bad] + high)


def counters(row):
    """How many body rows, and which sub-field row, count sub-blocks and
    measure them: their mark is 0."""
    return (3 if row.c else 2 if row.subs else 0), row.c - 1


def broken_by_seed(rng):
    """A table valid but for a mark 5 on another type than u2.  N and
    SBLength, and their like in two levels, keep their mark 0, or another rule
    would be broken as well."""
    rows = rng.choice((SHIPPED, OLDER, random_rows(rng)))
    fields, spots = [], []
    for row in rows:
        head, n2 = counters(row)
        kept = set(range(head)) | ({len(row.body) + n2} if row.c else set())
        spots += [len(fields) + at for at, field in enumerate(
            row.body + row.subs)
            if field.type not in MARKED[5] and at not in kept]
        fields += row.body + row.subs
    if not spots:
        return broken_by_row(rng)
    kind = rng.choice(sorted({fields[at].type for at in spots}))
    at = rng.choice([at for at in spots if fields[at].type == kind])
    return patched(make_table(1, rows), 4 * at + 3, b"\x05")


def broken_numbers(rng):
    """Numbers over 8,191 or not strictly rising."""
    kind = rng.randrange(4)
    if kind == 0:
        return make_table(1, (Row(rng.choice((8192, 65535)), 0, (), ()),))
    rows = list(random_rows(rng, 4))
    if kind == 1:
        rows.append(Row(rng.choice((8192, 9000, 65535)), 0, (), ()))
    elif kind == 2:
        rows.insert(1, rows[0])
    else:
        at = rng.randrange(len(rows))
        rows.insert(at + 1, Row(max(0, rows[at].number - 1), 0, (), ()))
    return make_table(1, rows)


def broken_block_row(rng):
    """First index, c or counts off."""
    rows = rng.choice((SHIPPED, random_rows(rng)))
    data = make_table(rng.randrange(9), rows)
    at = len(data) - u2(data, -8) + 8 * rng.randrange(len(rows))
    kind = rng.randrange(5)
    if kind == 0:
        index = (u2(data, at + 4) + rng.choice((1, -1, 256))) % 65536
        return patched(data, at + 4, struct.pack("<H", index))
    if kind == 1:
        # above the count, or two levels where the body is that of one
        over = data[at + 6] if data[at + 7] else 0
        c = rng.choice((over + 1, 255, max(128, over + 1)))
        return patched(data, at + 7, bytes((c,)))
    where = at + rng.choice((3, 6))
    off = 1 if kind < 4 else -1
    return patched(data, where, bytes(((data[where] + off) % 256,)))


def broken_trailer(rng):
    """One number of the trailer off, the CRC right unless it is the one."""
    data = make_table(rng.randrange(9), rng.choice((SHIPPED, OLDER)))
    kind = rng.randrange(7)
    off = rng.choice((1, -1, 4, -4, 8, -8, 256))
    if kind == 0:
        return patched(data, -10, struct.pack("<H", 0))
    if kind < 4:
        at = (-10, -8, -6)[kind - 1]
        return patched(data, at, struct.pack("<H", (u2(data, at) + off)
                                             % 65536))
    if kind == 4:
        return data[:-4] + struct.pack("<H", u2(data, -4)
                                       ^ 1 << rng.randrange(16)) + data[-2:]
    if kind == 5:
        return data[:-2] + rng.choice((b"\x54\x42", b"\x42\x55", b"\x43\x54",
                                       b"\x00\x00"))
    flip = bytearray(data)
    flip[rng.randrange(len(data))] ^= 1 << rng.randrange(8)
    return bytes(flip)


def broken_size(rng):
    """Too short, too long, rows unused, field rows not whole."""
    data = make_table(1, random_rows(rng))
    kind = rng.randrange(6)
    if kind == 0:
        return data[-rng.choice((1, 4, 8, 11, 12, 16, 19)):]
    if kind == 1:
        return b""
    if kind == 2:
        return make_table(1, great_rows(rng, rng.choice((8196, 8200, 9000))))
    data = rng.choice((data, make_table(1, SHIPPED)))
    at = len(data) - u2(data, -8)
    extra = b"\x0e\x01\x00\x00" * (kind - 3) if kind > 3 else (
        bytes(rng.randrange(1, 4)))
    return recrc_total(data[:at] + extra + data[at:])


def recrc_total(data):
    """Distance back to the first field row set to T, and the CRC right."""
    return patched(data, -6, struct.pack("<H", len(data)))


def broken_table(rng):
    make = rng.choice((broken_by_row, broken_by_row, broken_by_row,
                       broken_by_seed, broken_numbers, broken_block_row,
                       broken_trailer, broken_size, broken_by_levels))
    return make(rng)


# ----------------------------------------------------- tables to write through


def typed_cells(rng, highest):
    """Every type with every mark that it may have, in any order, with first
    revisions that do not go down: (type, first revision, mark)."""
    pairs = [(kind, mark) for mark in MARKED for kind in MARKED[mark]]
    rng.shuffle(pairs)
    firsts = sorted(rng.choice((0, 0, rng.randrange(highest + 1)))
                    for _ in pairs)
    return [(kind, first, mark) for (kind, mark), first in zip(pairs, firsts)]


def spread(rng, start, cells, last=255):
    """Field rows of these cells from `start` on, with gaps here and there;
    as many as start by `last`."""
    rows, at = [], start
    for kind, first, mark in cells:
        at += rng.choice((0, 0, 0, 1, 3))
        if at > last:
            break
        rows.append(Field(at, kind, first, mark))
        at += SIZES[kind]
    return tuple(rows)


def typed_row(rng, number):
    """A row of all types and marks, in its body or as sub-fields."""
    highest = rng.choice((0, 1, 3, 7))
    cells = typed_cells(rng, highest)
    if rng.random() < 0.5:
        return Row(number, highest, spread(rng, 14, cells), ())
    return Row(number, highest, PAIR, spread(rng, 0, cells))


def far_row(rng, number):
    """A row whose last field starts near 255, where offsets end: sub-fields
    that end at either side of 255."""
    highest = rng.choice((0, 0, 1, 7))
    near = spread(rng, 14, typed_cells(rng, 0)[:rng.randrange(5)])
    kind = rng.choice((3, 4, 4, 8, 10, rng.randrange(1, 11)))
    at = rng.choice((255, 254, 255 - SIZES[kind], 256 - SIZES[kind],
                     rng.randrange(240, 256)))
    far = Field(at, kind, rng.randrange(highest + 1), random_mark(rng, kind))
    if rng.random() < 0.3:
        return Row(number, highest, near + (far,), ())
    return Row(number, highest, PAIR, near + (far,))


def late_row(rng, number):
    """A row whose sub-fields come with later revisions: before, SBLength is
    0 with sub-blocks too."""
    cells = [(kind, 2 + first, mark) for kind, first, mark
             in typed_cells(rng, 2)[:rng.randrange(1, 6)]]
    return Row(number, 5, PAIR, spread(rng, 0, cells))


def full_row(rng, number):
    """255 sub-fields of one byte: the longest block that can be written."""
    kinds = rng.choice(((1, 0), (1, 1), (5, 4), (1, 2)))
    fields = tuple(Field(at, kinds[0], 0, kinds[1]) for at in range(255))
    return Row(number, 0, PAIR, fields)


def write_rows(rng):
    """Rows to write through."""
    draw = rng.random()
    if draw < 0.3:
        return SHIPPED
    if draw < 0.5:
        return random_rows(rng)
    makers = (typed_row, typed_row, far_row, far_row, late_row, random_row)
    numbers = sorted(rng.sample(range(8192), rng.randrange(2, 7)))
    if rng.random() < 0.3:
        numbers[-1] = 8191
    return tuple(rng.choice(makers)(rng, number) for number in numbers)


# ---------------------------------------------------------- blocks to write


class Wanted:
    """What a `write` line asks for.  Values are those of the model: None for
    unset, else the kind's word and the number."""

    def __init__(self, row, revision):
        self.row = row
        self.number = row.number
        self.revision = revision
        self.tow = self.wnc = None
        self.body = []
        self.subs = []

    def words(self):
        """The words of its line."""
        out = ["write", str(self.number), str(self.revision)]
        out += ["-" if n is None else str(n) for n in (self.tow, self.wnc)]
        out += [value_word(given) for given in self.body]
        for values in self.subs:
            out += ["/"] + [value_word(given) for given in values]
        return [word.encode() for word in out]

    def lists(self):
        """[(list of values, its field rows)]; N and SBLength are not given."""
        if self.row.subs:
            return [(values, self.row.subs) for values in self.subs]
        return [(self.body, self.row.body)]

    def places(self, test):
        """[(list, index, field)] of the fields that pass the test."""
        return [(values, index, field) for values, fields in self.lists()
                for index, field in enumerate(fields) if test(field)]

    def carries(self, field):
        return field.first <= self.revision


def value_word(given):
    if given is None:
        return "-"
    letter = {"unsigned": "u", "signed": "i", "single": "f", "double": "d"}
    return letter[given[0]] + str(given[1])


def given_for(rng, field):
    """A value that the field may have, or None where the bits drawn are
    Do-Not-Use by its mark."""
    bits = field_bits(rng, field.type, field.mark)
    raw = bits.to_bytes(SIZES[field.type], "little")
    answer = value(raw, 0, field.type, field.mark)
    return None if answer == ("do-not-use",) else answer


def list_for(rng, fields, revision):
    """An allowed list: sometimes without its last unset values, sometimes
    with unset ones past the last row."""
    values = [given_for(rng, field) if field.first <= revision else None
              for field in fields]
    draw = rng.random()
    if draw < 0.5:
        while values and values[-1] is None and rng.random() < 0.9:
            values.pop()
    elif draw < 0.6:
        values += [None] * rng.randrange(1, 5)
    return values


def sub_count(rng, row):
    """A few sub-blocks, seldom as many as there may be: the lines are long
    then, so less often where there are many sub-fields."""
    if rng.random() < min(0.03, 0.15 / len(row.subs)):
        return rng.choice((254, 255, 255))
    return rng.choice((0, 0, 1, 1, 2, 2, 3, 5, rng.randrange(12)))


def stamp_for(rng, most):
    """TOW or WNc, up to the last number before its mark."""
    return rng.choice((None, 0, 1, most - 1, most - 1, rng.randrange(most),
                       rng.randrange(most)))


def write_revision(rng, row):
    """As in blocks that are read, and often one below that of some field."""
    before = [f.first - 1 for f in row.body + row.subs if f.first]
    if before and rng.random() < 0.4:
        return rng.choice(before)
    return pick_revision(rng, row)


def allowed(rng, row, count=None):
    """A block that can be written if there is room for it.  Where sub-blocks
    are many they are 20 over and over."""
    wanted = Wanted(row, write_revision(rng, row))
    wanted.tow = stamp_for(rng, 2 ** 32 - 1)
    wanted.wnc = stamp_for(rng, 2 ** 16 - 1)
    if not row.subs:
        wanted.body = list_for(rng, row.body, wanted.revision)
        return wanted
    if rng.random() < 0.3:
        wanted.body = [None] * rng.choice((1, 2, 2, 3, 20))
    count = sub_count(rng, row) if count is None else count
    subs = [list_for(rng, row.subs, wanted.revision)
            for _ in range(min(count, 20))]
    wanted.subs = [list(subs[index % 20]) for index in range(count)]
    return wanted


# Faults: each is given a block that can be written and spoils it, or gives
# False where it has no place for its fault.


def put_value(values, index, given):
    values += [None] * (index + 1 - len(values))
    values[index] = given


def pick_place(rng, wanted, test):
    places = wanted.places(test)
    return rng.choice(places) if places else None


def any_value(rng):
    """Some value of any kind."""
    return rng.choice((
        ("unsigned", rng.choice((0, 1, 255, 65535, 2 ** 64 - 1))),
        ("signed", rng.choice((0, -1, 127, -128, -2 ** 63, 2 ** 63 - 1))),
        ("single", rng.choice(SINGLE)), ("double", rng.choice(DOUBLE))))


def fault_kind(rng, wanted):
    """A value of another kind, its number mostly within the field's range."""
    place = pick_place(rng, wanted, wanted.carries)
    if not place:
        return False
    values, index, field = place
    words = ["unsigned", "signed", "single", "double"]
    words.remove(kind_read(field.type))
    word = rng.choice(words)
    number = rng.choice((0, 1, 5, 127, rng.getrandbits(63)))
    put_value(values, index, (word, number))
    return True


def past_range(rng, kind):
    """A number that is too large or too small for the type, but not for a
    line.  None: there is none."""
    least, most = range_of(kind)
    top = 2 ** 63 - 1 if kind in SIGNED else 2 ** 64 - 1
    bottom = -2 ** 63 if kind in SIGNED else 0
    numbers = [most + 1, least - 1, most + 1, least - 1, top, bottom,
               2 * most + 1, 2 * most + 2, most + 1 + rng.randrange(most + 1)]
    fit = [n for n in numbers if bottom <= n <= top
           and not least <= n <= most]
    return rng.choice(fit) if fit else None


def fault_range(rng, wanted):
    place = pick_place(rng, wanted, lambda field: wanted.carries(field)
                       and SIZES[field.type] < 8 and field.type in SIGNED)
    if not place or rng.random() < 0.6:
        place = pick_place(rng, wanted, lambda field: wanted.carries(field)
                           and SIZES[field.type] < 8)
    if not place:
        return False
    values, index, field = place
    word = kind_read(field.type)
    put_value(values, index, (word, past_range(rng, field.type)))
    return True


def fault_mark(rng, wanted):
    """A number that reads as Do-Not-Use by the field's mark."""
    place = pick_place(rng, wanted, lambda field: wanted.carries(field)
                       and field.mark)
    if not place:
        return False
    values, index, field = place
    least, most = range_of(field.type)
    float_bits = 0xD09502F9 if field.type == 9 else 0xC212A05F20000000
    number = {1: most, 2: 0, 3: float_bits, 4: least,
              5: no_seed_bits(rng)}[field.mark]
    put_value(values, index, (kind_read(field.type), number))
    return True


def fault_seed(rng, wanted):
    """A number below 8,192 in a field with mark 5."""
    place = pick_place(rng, wanted, lambda field: wanted.carries(field)
                       and field.mark == 5)
    if not place:
        return False
    values, index, _ = place
    put_value(values, index, ("unsigned", no_seed_bits(rng)))
    return True


def fault_unset(rng, wanted):
    """A field without a mark is not given."""
    place = pick_place(rng, wanted, lambda field: wanted.carries(field)
                       and field.mark == 0)
    if not place:
        return False
    values, index, _ = place
    if rng.random() < 0.4:
        del values[index:]
    else:
        put_value(values, index, None)
    return True


def fault_carried(rng, wanted):
    """A value, right but for that, of a field that is not carried."""
    place = pick_place(rng, wanted, lambda field: not wanted.carries(field))
    if not place:
        return False
    values, index, field = place
    put_value(values, index, given_for(rng, field) or any_value(rng))
    return True


def fault_past(rng, wanted):
    """A value past the last row."""
    lists = wanted.lists()
    if not lists:
        return False
    values, fields = rng.choice(lists)
    put_value(values, len(fields) + rng.choice((0, 0, 1, 7)), any_value(rng))
    return True


def fault_subs(rng, wanted):
    """Sub-blocks where the row has no sub-fields."""
    if wanted.row.subs:
        return False
    made = rng.choice(([], [], [None], [("unsigned", 1)]))
    wanted.subs = [list(made) for _ in range(rng.choice((1, 1, 2, 300)))]
    return True


def fault_pair(rng, wanted):
    """A value in the body's list of a row with sub-fields: N and SBLength,
    right or not, or behind them."""
    if not wanted.row.subs:
        return False
    right = (("unsigned", len(wanted.subs)),
             ("unsigned", min(255, fields_end(wanted.row.subs,
                                              wanted.revision))))
    at = rng.choice((0, 1, 1, 2, 9))
    put_value(wanted.body, at, right[min(at, 1)] if rng.random() < 0.7
              else any_value(rng))
    return True


def fault_count(rng, wanted):
    """More than 255 sub-blocks, each allowed."""
    if not wanted.row.subs or rng.random() > 3 / len(wanted.row.subs):
        return False
    one = list_for(rng, wanted.row.subs, wanted.revision)
    count = rng.choice((256, 256, 257))
    wanted.subs = [list(one) for _ in range(count)]
    return True


def fault_revision(rng, wanted):
    """Over 7; some are right in their low bits."""
    wanted.revision = rng.choice((
        8, 8, 9, 15, 16, 255, 256, 256 + wanted.revision, 65536, 2 ** 32,
        2 ** 32 + wanted.revision, 2 ** 63, 2 ** 64 - 1))
    return True


def fault_stamp(rng, wanted):
    """TOW or WNc: all ones, or too large; some right in their low bits."""
    if rng.random() < 0.5:
        wanted.tow = rng.choice((2 ** 32 - 1, 2 ** 32 - 1, 2 ** 32,
                                 2 ** 32 + 1000, 2 ** 33 - 1, 2 ** 64 - 1))
    else:
        wanted.wnc = rng.choice((65535, 65535, 65536, 65536 + 2100, 131071,
                                 2 ** 32, 2 ** 32 - 1, 2 ** 64 - 1))
    return True


def fault_number(rng, wanted):
    """A number without a row; some are right in their low bits."""
    low = wanted.number
    wanted.number = rng.choice((
        low ^ 1, rng.randrange(8192), 8192, 8192 + low, 16384 + low,
        65535, 65536 + low, 2 ** 32 + low, 2 ** 63 + low, 2 ** 64 - 1))
    return True


FAULTS = (fault_kind, fault_kind, fault_range, fault_range, fault_mark,
          fault_mark, fault_seed, fault_seed, fault_unset, fault_unset,
          fault_carried, fault_carried, fault_past, fault_subs, fault_pair,
          fault_count, fault_revision, fault_stamp, fault_stamp, fault_number,
          fault_number)


def spoil(rng, wanted):
    """One fault that the block has a place for."""
    while True:
        if rng.choice(FAULTS)(rng, wanted):
            return


# ------------------------------------------------- `write` lines that are none


# Words that are no VALUE.
NO_VALUES = (
    b"u", b"i", b"f", b"d", b"u-1", b"u-0", b"u+1", b"i+1", b"i-",
    b"i--1", b"f-1", b"d-1", b"U1", b"I1", b"F0", b"D0", b"u1.0",
    b"f1.5", b"dnan", b"u0x1", b"u1u", b"u1/", b"/u1", b"//", b"--",
    b"-1", b"-u1", b"1", b"0", b"x1", b"u1,", b"s1", b"u1\r", b"u\t1",
    b"\x00", b"u1\x00", b"\xff", b"", b"i1-", b"i1-2", b"\\", b"/-",
    b"u18446744073709551616", b"u99999999999999999999",
    b"u100000000000000000000000", b"d18446744073709551616",
    b"f18446744073709551616", b"i9223372036854775808",
    b"i-9223372036854775809", b"i18446744073709551615",
    b"i18446744073709551616", b"i-18446744073709551616",
    b"i-99999999999999999999", b"u" + b"1" * 5000)
# Words that just are one.
VALUES = (
    b"u18446744073709551615", b"d18446744073709551615",
    b"f18446744073709551615", b"f4294967296", b"i9223372036854775807",
    b"i-9223372036854775808", b"i-0", b"i-00", b"u007", b"i-007",
    b"u" + b"0" * 5000 + b"1", b"i-" + b"0" * 30 + b"5")


def bad_head_word(rng, at):
    """A word that is no NUMBER or REVISION (at 1 and 2), no TOW or WNC (3
    and 4)."""
    words = [b"x", b"-1", b"+1", b"u1", b"/", b"--", b"", b"0x1", b"1.0",
             b"18446744073709551616", b"99999999999999999999",
             b"100000000000000000000000000000"]
    return rng.choice(words + [b"-", b"-"] * (at < 3))


def respell(rng, words):
    """The same line with other digits for its numbers: zeros in front, and a
    minus sign for 0 where it may have one."""
    out = words[:1]
    for word in words[1:]:
        head = word[:1] if word[:1] in (b"u", b"i", b"f", b"d") else b""
        digits = word[len(head):]
        if word in (b"-", b"/") or rng.random() < 0.3:
            out.append(word)
        elif digits == b"0" and head == b"i":
            out.append(b"i-" + b"0" * rng.randrange(1, 4))
        else:
            sign = b"-" if digits.startswith(b"-") else b""
            zeros = b"0" * rng.choice((1, 1, 2, 20, 40))
            out.append(head + sign + zeros + digits[len(sign):])
    return out


def spoil_words(rng, words):
    """The words of a `write` line with one thing wrong in the text."""
    words = list(words)
    kind = rng.randrange(8)
    if kind < 3:
        at = rng.randrange(5, len(words) + 1)
        words.insert(at, rng.choice(NO_VALUES + VALUES))
    elif kind == 3:
        at = rng.randrange(1, 5)
        words[at] = bad_head_word(rng, at)
    elif kind == 4:
        del words[rng.randrange(1, 5):]
    elif kind == 5:
        words.insert(rng.randrange(len(words) + 1), b"")
    elif kind == 6:
        words[-1] += rng.choice((b"\r", b"\t", b"\x00", b" "))
    else:
        words[0] = rng.choice((b"WRITE", b"Write", b"writes", b"writ", b"w",
                               b"write\t"))
    return words


BAD_WRITES = (
    b"write", b"write ", b"write 5943", b"write 5943 0", b"write 5943 0 1",
    b"write 5943 0 1 ", b"write 5943 0 1 2 ", b"write  5943 0 1 2",
    b" write 5943 0 1 2", b"write 5943 0 1 2\r", b"write - 0 1 2",
    b"write 5943 - 1 2", b"write 5943 0 / 2", b"write 5943 0 1 /",
    b"write 5943 0 u1 2", b"write 5943 0 1 2 /-", b"write 5943 0 1 2 / /  /",
    b"put out 0 00", b"put out 0 -", b"put out 65536 00", b"poke out 1",
    b"size out", b"size out -", b"size out x", b"size out 1 2",
    b"size out 18446744073709551616", b"size Out 1", b"size outs 1",
    b"out", b"out 0")
