"""An independent model of the SBF reader of docs/RULES.md, and of its writer.

Written by someone who had seen neither the code nor its definitions, from the
papers alone that docs/RULES.md restates, and before it did: the rule that each
part names was put in later, the code is as it was.  Write came with request
M-100, again without a look at the code: from the request, from section W of
docs/RULES.md and from docs/REPLAY.md, whose text language is at the end of
this file.  Mark 5 came with request M-101, in the same way, and so did the
sub-blocks of two levels with request M-102 and the ceiling for lengths with
request M-103.  Choices between readings are in CHOICES.md.

Run as a program it behaves like `replay`: python3 model.py < script
"""

import binascii
import functools
import re
import struct
import sys
from collections import namedtuple

# ------------------------------------------------------------------ the CRC
# F7.  binascii.crc_hqx is that CRC; crc_plain is the rule itself, bit by bit.


def crc(data):
    return binascii.crc_hqx(data, 0)


def crc_plain(data):
    register = 0
    for byte in data:
        register ^= byte << 8
        for _ in range(8):
            top = register & 0x8000
            register = (register << 1) & 0xFFFF
            if top:
                register ^= 0x1021
    return register


# ----------------------------------------------------------------- a frame

# F16: the bounds of a ceiling.  The greatest is a new reader's, the lister's
# and a record call's: with it no length is ruled out that was not before.
CEILING_LEAST, CEILING_MOST = 16, 65532


def ceiling_right(ceiling):
    """F16: is this number a ceiling?"""
    return ceiling % 4 == 0 and CEILING_LEAST <= ceiling <= CEILING_MOST


def length_allowed(length, ceiling):
    """F4: is this length allowed?"""
    return length % 4 == 0 and 8 <= length <= ceiling


def length_field(data, place):
    """F3 and F1: L, 16 bits, little-endian."""
    return data[place + 6] | data[place + 7] << 8


def crc_right(data, place, length):
    """F6: does the CRC field hold the CRC?"""
    field = data[place + 2] | data[place + 3] << 8
    return field == crc(data[place + 4:place + length])


def frame_at(data, place, ceiling):
    """The length of the frame that stands at `place` of the run `data`, the
    run's end being the end of data; 0 if none stands there (F8, F16)."""
    if place + 8 > len(data):
        return 0
    if data[place] != 0x24 or data[place + 1] != 0x40:
        return 0
    length = length_field(data, place)
    if not length_allowed(length, ceiling) or place + length > len(data):
        return 0
    return length if crc_right(data, place, length) else 0


def block_of(data, place):
    """F9: number, revision and length of the frame at `place`."""
    ident = data[place + 4] | data[place + 5] << 8
    return ident % 8192, ident // 8192, length_field(data, place)


# ---------------------------------------------------------- reading a run
# F11: what is a block, and what is skipped.


def read_run(data, ceiling=CEILING_MOST):
    """The whole run at once: (list of (place, number, revision, length),
    bytes skipped)."""
    place, skipped, blocks = 0, 0, []
    while place < len(data):
        length = frame_at(data, place, ceiling)
        if length:
            blocks.append((place,) + block_of(data, place))
            place += length
        else:
            skipped += 1
            place += 1
    return blocks, skipped


def decided(data, place, ceiling):
    """F12.  None: not decided by these bytes; 0: skipped; L: a block."""
    have = len(data) - place
    if have < 1:
        return None
    if data[place] != 0x24:
        return 0
    if have < 2:
        return None
    if data[place + 1] != 0x40:
        return 0
    if have < 8:
        return None
    length = length_field(data, place)
    if not length_allowed(length, ceiling):
        return 0
    if have < length:
        return None
    return length if crc_right(data, place, length) else 0


def feed_plain(held, piece, ceiling):
    """C6, after the drop: byte by byte, to a block or to the end of the piece
    (the caller has cut the piece at the run's limit).  Answers (bytes
    skipped, bytes taken, length of the block or 0).  Literal; feed_fast is
    compared with it in the self-test."""
    data, place, took = bytearray(held), 0, 0
    while True:
        length = decided(data, place, ceiling)
        if length is None:
            if took == len(piece):
                return place, took, 0
            data.append(piece[took])
            took += 1
        elif length == 0:
            place += 1
        else:
            return place, took, length


def bytes_to_decide(data, place, ceiling):
    """How many bytes of data, counted from its start, must be there before
    `place` (which holds 0x24) is decided, and the block's length or 0.  More
    than len(data) bytes: not decided within data."""
    end = len(data)
    if place + 2 > end:
        return place + 2, 0
    if data[place + 1] != 0x40:
        return place + 2, 0
    if place + 8 > end:
        return place + 8, 0
    length = length_field(data, place)
    if not length_allowed(length, ceiling):
        return place + 8, 0
    if place + length > end or not crc_right(data, place, length):
        return place + length, 0
    return place + length, length


def feed_fast(held, piece, ceiling):
    """The same answer as feed_plain.  Places are decided in order, so when
    place p is decided the bytes taken are the most that any place up to p
    has needed, and never fewer than those held."""
    data = bytes(held) + bytes(piece)
    place, seen, end = 0, len(held), len(data)
    while place < end:
        if data[place] != 0x24:
            stop = data.find(b"\x24", place)
            place = end if stop < 0 else stop
            seen = max(seen, place)
            continue
        need, length = bytes_to_decide(data, place, ceiling)
        if need > end:
            break
        seen = max(seen, need)
        if length:
            return place, seen - len(held), length
        place += 1
    return place, len(piece), 0


def finish_scan(data, ceiling):
    """F13: no place waits for bytes past the end.  (skipped, length or 0)"""
    place = 0
    while place < len(data):
        if data[place] != 0x24:
            stop = data.find(b"\x24", place)
            place = len(data) if stop < 0 else stop
            continue
        length = frame_at(data, place, ceiling)
        if length:
            return place, length
        place += 1
    return place, 0


# ---------------------------------------------------------------- the state
# C1: by value.  force and waits are the lengths of the tables, 0 for none;
# stands the length of the standing block, 0 for none; ceiling is what Open
# was given last (C17).

CLOSED, FEEDING, FINISHING = 0, 1, 2
RUN_LIMIT = 4294967295
HOLD_LEAST, STORE_LEAST, HELD_MOST, TABLE_MOST = 65536, 8192, 65532, 8192

State = namedtuple(
    "State", "phase force waits held stands taken blocks skipped ceiling")
NEW_READER = State(CLOSED, 0, 0, 0, 0, 0, 0, 0, CEILING_MOST)


def refused(number, state):
    """R21: the number, and the state as it was."""
    return ("refused", number), state


def spoiled(state):
    """R1, the part about the state."""
    return (state.held > HELD_MOST
            or state.held > state.taken
            or state.stands > state.held
            or state.force > TABLE_MOST or state.waits > TABLE_MOST
            or state.taken > RUN_LIMIT
            or state.blocks > state.taken or state.skipped > state.taken
            or not ceiling_right(state.ceiling))


def fault_one(state, hold=None, force=None, waiting=None):
    """R1, of the buffers that the call is lent (None: it is not lent that
    one), and of the state."""
    if hold is not None and len(hold) < HOLD_LEAST:
        return True
    if force is not None and len(force) < STORE_LEAST:
        return True
    if waiting is not None and len(waiting) < STORE_LEAST:
        return True
    return spoiled(state)


# ------------------------------------------------------------ the block table
# T1 to T20: the file, its trailer and its rows.

Field = namedtuple("Field", "offset type first mark")
# c is T7's: of two levels where it is not 0.  subs are the rows of both.
Row = namedtuple("Row", "number highest body subs c", defaults=(0,))
Table = namedtuple("Table", "version rows")

# V1: the size of each type.
SIZES = {1: 1, 2: 2, 3: 4, 4: 8, 5: 1, 6: 2, 7: 4, 8: 8, 9: 4, 10: 8}
UNSIGNED, SIGNED, FLOAT = (1, 2, 3, 4), (5, 6, 7, 8), (9, 10)
# T20, T21: where the sub-blocks of two levels begin.
NESTED_FROM = 20
# V3: the types that each mark may stand on.
MARKED = {0: UNSIGNED + SIGNED + FLOAT, 1: UNSIGNED, 2: UNSIGNED, 3: FLOAT,
          4: SIGNED, 5: (2,)}


def fields_right(fields, least, highest):
    """T12 to T15, for the rows of a body (least 14) or of sub-fields (0)."""
    end, revision = least, 0
    for field in fields:
        if field.type not in SIZES or field.mark not in MARKED:
            return False
        if field.type not in MARKED[field.mark]:
            return False
        if field.offset < end or field.first < revision:
            return False
        if field.first > highest:
            return False
        end = field.offset + SIZES[field.type]
        revision = field.first
    return True


def levels(row):
    """T17: the rows of the first level and those of the second.  Of a row of
    one level all are the first's."""
    many = row.c or len(row.subs)
    return row.subs[:many], row.subs[many:]


def counts_right(row):
    """T16, T19 and T20: the rows that count sub-blocks and measure them."""
    three = (Field(14, 1, 0, 0), Field(15, 1, 0, 0), Field(16, 1, 0, 0))
    if row.c == 0:
        # N and SBLength
        return not row.subs or row.body == three[:2]
    if row.c > len(row.subs) or row.body[:3] != three:
        return False
    if any(f.offset + SIZES[f.type] > NESTED_FROM for f in row.body):
        return False
    last = row.subs[row.c - 1]
    return (last.type, last.first, last.mark) == (1, 0, 0)


def row_right(row):
    """The rules of one block's rows: T8 of one number, T9, T12 to T16, T19
    and T20."""
    if row.number > 8191 or row.highest > 7:
        return False
    if not fields_right(row.body, 14, row.highest):
        return False
    if not all(fields_right(fields, 0, row.highest)
               for fields in levels(row)):
        return False
    return counts_right(row)


def block_rows(raw, fields):
    """T7 to T10 and T17.  None if a rule is broken."""
    rows, before, used = [], -1, 0
    for at in range(0, len(raw), 8):
        number, highest, bodies, first, subs, c = struct.unpack_from(
            "<HBBHBB", raw, at)
        # T8, and T10: the index
        if number <= before or first != used:
            return None
        if used + bodies + subs > len(fields):
            return None
        # T10: body rows before sub-field rows
        middle = used + bodies
        row = Row(number, highest, tuple(fields[used:middle]),
                  tuple(fields[middle:middle + subs]), c)
        if not row_right(row):
            return None
        rows.append(row)
        before, used = number, middle + subs
    # T10: no field row is left over
    return tuple(rows) if used == len(fields) else None


@functools.lru_cache(maxsize=64)
def read_table(data):
    """The table in these bytes, or None if it breaks one of T1 to
    T20."""
    total = len(data)
    if not 20 <= total <= 8192:
        return None
    # T2 to T6: the trailer
    version, count, to_blocks, to_fields, check = struct.unpack_from(
        "<5H", data, total - 12)
    if count < 1 or to_blocks != 12 + 8 * count or to_fields != total:
        return None
    if check != crc(data[:total - 4]) or data[total - 2:] != b"\x42\x54":
        return None
    first_block = total - to_blocks
    if first_block < 0 or first_block % 4 != 0:
        return None
    fields = [Field(*data[at:at + 4]) for at in range(0, first_block, 4)]
    rows = block_rows(data[first_block:total - 12], fields)
    return None if rows is None else Table(version, rows)


# ------------------------------------------------------------------ the calls
# Each takes the state and the lent buffers and answers (answer, new state).
# A buffer is a bytearray or a writable memoryview of one.


def call_open(state, force, waiting, ceiling=CEILING_MOST):
    """Open (C5, C17); order of refusals 1, 2, 13, 5, 4 (R20)."""
    if fault_one(state, force=force, waiting=waiting):
        return refused(1, state)
    if state.phase != CLOSED:
        return refused(2, state)
    # R13
    if not ceiling_right(ceiling):
        return refused(13, state)
    if state.waits == 0 and state.force == 0:
        return refused(5, state)
    length = state.waits or state.force
    source = waiting if state.waits else force
    raw = bytes(source[:length])
    table = read_table(raw)
    if table is None:
        return refused(4, state)
    # C5: the copy, the answer and the state of a fresh run
    force[:length] = raw
    return ("opened", table.version), State(
        FEEDING, length, 0, 0, 0, 0, 0, 0, ceiling)


def report(state, hold, held, phase, skipped, length):
    """A block at the start of `held` is reported (C4, C7); place is the count
    of bytes of the run before it."""
    hold[:len(held)] = held
    after = state._replace(
        phase=phase, held=len(held), stands=length,
        blocks=state.blocks + 1, skipped=state.skipped + skipped)
    place = after.taken - after.held
    return ("block", place) + block_of(held, 0), after


def call_feed(state, hold, piece):
    """Feed (C6); order of refusals 1, 2, 3 (R20)."""
    if fault_one(state, hold=hold):
        return refused(1, state)
    if state.phase != FEEDING:
        return refused(2, state)
    # C6: the drop
    held = bytes(hold[state.stands:state.held])
    # C6: what the run may still take
    room = RUN_LIMIT - state.taken
    skipped, took, length = feed_fast(held, piece[:room], state.ceiling)
    # R3: the run is full
    if room == 0 and length == 0 and len(piece) > 0:
        return refused(3, state)
    taken = state._replace(taken=state.taken + took)
    left = (held + bytes(piece[:took]))[skipped:]
    if length:
        answer, after = report(taken, hold, left, FEEDING, skipped, length)
        return ("fed", took) + answer, after
    # C14: all that can be decided is
    hold[:len(left)] = left
    return ("fed", took, "more"), taken._replace(
        held=len(left), stands=0, skipped=state.skipped + skipped)


def call_finish(state, hold):
    """Finish (C8); order of refusals 1, 2 (R20)."""
    if fault_one(state, hold=hold):
        return refused(1, state)
    if state.phase == CLOSED:
        return refused(2, state)
    # C8: the drop, then a block or the run's end
    held = bytes(hold[state.stands:state.held])
    skipped, length = finish_scan(held, state.ceiling)
    if length:
        return report(state, hold, held[skipped:], FINISHING, skipped, length)
    after = state._replace(phase=CLOSED, held=0, stands=0,
                           skipped=state.skipped + skipped)
    return ("end", after.taken, after.blocks, after.skipped), after


def call_bytes(state, hold):
    """Bytes (C9).  Refusal 1 only (R20)."""
    if fault_one(state, hold=hold):
        return refused(1, state)
    return ("part", bytes(hold[:state.stands])), state


def call_stage(state, waiting, table):
    """Stage (C10); order of refusals 1, 4 (R20)."""
    if fault_one(state, waiting=waiting):
        return refused(1, state)
    read = read_table(bytes(table))
    if read is None:
        return refused(4, state)
    waiting[:len(table)] = table
    return ("staged", read.version), state._replace(waits=len(table))


def call_withdraw(state):
    """Withdraw (C11).  It is lent nothing, so refusal 1 looks at the state
    alone."""
    if fault_one(state):
        return refused(1, state)
    return ("withdrawn", 1 if state.waits else 0), state._replace(waits=0)


# ---------------------------------------------------------- the record calls
# C13; order of refusals 1, 5, 4, 10, 6, 7, 8, 9 (R20).


def carried(field, revision):
    """V5: does this revision carry the field?"""
    return field.first <= revision


def ends_past(fields, revision, limit):
    """Does a field that the revision carries end past the limit?"""
    return any(carried(f, revision) and f.offset + SIZES[f.type] > limit
               for f in fields)


def walk(row, data):
    """T21: ([(first byte, N2) of each first-level sub-block], where the last
    one and what is nested in it end)."""
    count, size, nested = data[14:17]
    to_n2 = levels(row)[0][-1].offset
    at, places = NESTED_FROM, []
    for _ in range(count):
        n2 = data[at + to_n2] if at + to_n2 < len(data) else 0
        places.append((at, n2))
        at += size + n2 * nested
    return places, at


def two_levels_fault(row, data):
    """R8, of a row of two levels: does it hold?"""
    _, revision, length = block_of(data, 0)
    first, second = levels(row)
    places, end = walk(row, data)
    if end > length:
        return True
    if places and ends_past(first, revision, data[15]):
        return True
    return (any(n2 for _, n2 in places)
            and ends_past(second, revision, data[16]))


def layout_fault(row, data):
    """Refusals 7 and 8, in this order, or 0."""
    _, revision, length = block_of(data, 0)
    # R7: the block is too short for its fields
    if length < 14 or ends_past(row.body, revision, length):
        return 7
    # R8: with N = count and SBLength = size
    if row.c:
        return 8 if two_levels_fault(row, data) else 0
    if row.subs:
        count, size = data[14], data[15]
        if count > 0 and ends_past(row.subs, revision, size):
            return 8
        if 16 + count * size > length:
            return 8
    return 0


def table_for(state, force):
    """(refusal 1, 5 or 4, in this order, or 0; the table in force)."""
    if fault_one(state, force=force):
        return 1, None
    if state.force == 0:
        return 5, None
    table = read_table(bytes(force[:state.force]))
    return (4, None) if table is None else (0, table)


def row_numbered(table, number):
    """The row of a block number, None where there is none (R6)."""
    for row in table.rows:
        if row.number == number:
            return row
    return None


def one_frame(data):
    """R10: one whole frame, and nothing more; the state's ceiling does not
    matter (C17)."""
    return len(data) > 0 and frame_at(data, 0, CEILING_MOST) == len(data)


def row_for(state, force, data):
    """(refusal 1 to 8 and 10, or 0; the block's row)."""
    fault, table = table_for(state, force)
    if fault:
        return fault, None
    if not one_frame(data):
        return 10, None
    row = row_numbered(table, block_of(data, 0)[0])
    if row is None:
        return 6, None
    return layout_fault(row, data), row


def marked(bits, kind, mark):
    """Are these bits Do-Not-Use by the field's mark (V3, V4, V10)?"""
    width = 8 * SIZES[kind]
    if mark == 1:
        return bits == (1 << width) - 1
    if mark == 2:
        return bits == 0
    if mark == 3:
        return bits == (0xD09502F9 if width == 32 else 0xC212A05F20000000)
    if mark == 4:
        return bits == 1 << (width - 1)
    if mark == 5:
        return bits >> 13 == 0
    return False


def value(data, at, kind, mark):
    """V7: the value of the field at `at`, or Do-Not-Use; floats are given by
    their bits (V2)."""
    size = SIZES[kind]
    bits = int.from_bytes(data[at:at + size], "little")
    if marked(bits, kind, mark):
        return ("do-not-use",)
    if kind in UNSIGNED:
        return ("unsigned", bits)
    if kind in SIGNED:
        return ("signed", bits - (bits >> (8 * size - 1) << (8 * size)))
    return ("single" if kind == 9 else "double", bits)


def answer_field(fields, index, data, base):
    """A field by number: refusal 9, that it is not carried, or its value."""
    if index >= len(fields):
        return ("refused", 9)
    field = fields[index]
    if not carried(field, block_of(data, 0)[1]):
        return ("not-in-this-revision",)
    return value(data, base + field.offset, field.type, field.mark)


def call_body(state, force, index, data):
    fault, row = row_for(state, force, data)
    if fault:
        return refused(fault, state)
    return answer_field(row.body, index, data, 0), state


def sub_start(row, block, data):
    """T18, T21: the first byte of a sub-block, of a first-level one where
    there are two levels; None where there is no such."""
    if not row.subs or block >= data[14]:
        return None
    return walk(row, data)[0][block][0] if row.c else 16 + block * data[15]


def nested_start(row, block, nested, data):
    """T21: the first byte of a second-level sub-block, None where there is no
    such."""
    if not row.c or block >= data[14]:
        return None
    start, n2 = walk(row, data)[0][block]
    return start + data[15] + nested * data[16] if nested < n2 else None


def call_sub(state, force, block, index, data):
    fault, row = row_for(state, force, data)
    if fault:
        return refused(fault, state)
    start = sub_start(row, block, data)
    if start is None:
        return refused(9, state)
    return answer_field(levels(row)[0], index, data, start), state


def call_subbytes(state, force, block, data):
    """C13, T18: a sub-block's bytes; T21: without those nested in it."""
    fault, row = row_for(state, force, data)
    if fault:
        return refused(fault, state)
    start = sub_start(row, block, data)
    if start is None:
        return refused(9, state)
    return ("part", bytes(data[start:start + data[15]])), state


def call_sub2(state, force, block, nested, index, data):
    """C16: a field of a second-level sub-block."""
    fault, row = row_for(state, force, data)
    if fault:
        return refused(fault, state)
    start = nested_start(row, block, nested, data)
    if start is None:
        return refused(9, state)
    return answer_field(levels(row)[1], index, data, start), state


# V11 and V12: a MeasEpoch block's fields by their numbers, with their types.
MEAS_EPOCH = 4027
MISC, CODE_LSB = (3, 1), (4, 3)
OFFSETS_MSB, CODE_OFFSET_LSB = (3, 1), (6, 2)


def unsigned_field(fields, wanted, data, start):
    """R9: the number that the field answers, None where there is no such
    field, where it has another type, or where it answers no unsigned
    number."""
    index, kind = wanted
    if index >= len(fields) or fields[index].type != kind:
        return None
    answer = answer_field(fields, index, data, start)
    return answer[1] if answer[0] == "unsigned" else None


def first_range(row, block, data):
    """V11: (is it refused with 9?, the pseudorange or None for
    Do-Not-Use)."""
    if row.number != MEAS_EPOCH or not row.c:
        return True, None
    start = sub_start(row, block, data)
    if start is None:
        return True, None
    misc, low = [unsigned_field(levels(row)[0], wanted, data, start)
                 for wanted in (MISC, CODE_LSB)]
    if misc is None or low is None:
        return True, None
    # CodeMSB: bits 0 to 3
    return False, misc % 16 * 4294967296 + low or None


def second_range(row, block, nested, data):
    """V12, in the same form; what is not there comes before Do-Not-Use."""
    missing, first = first_range(row, block, data)
    start = None if missing else nested_start(row, block, nested, data)
    if start is None:
        return True, None
    offsets, low = [unsigned_field(levels(row)[1], wanted, data, start)
                    for wanted in (OFFSETS_MSB, CODE_OFFSET_LSB)]
    if offsets is None or low is None:
        return True, None
    # CodeOffsetMSB: bits 0 to 2, in two's complement
    high = offsets % 8
    high -= 8 if high > 3 else 0
    if first is None or (high, low) == (-4, 0):
        return False, None
    return False, first + high * 65536 + low


def call_some_range(state, force, data, work_out):
    """What Range and Range2 share (C16)."""
    fault, row = row_for(state, force, data)
    if fault:
        return refused(fault, state)
    missing, found = work_out(row)
    if missing:
        return refused(9, state)
    return ("do-not-use",) if found is None else ("signed", found), state


def call_range(state, force, block, data):
    return call_some_range(state, force, data,
                           lambda row: first_range(row, block, data))


def call_range2(state, force, block, nested, data):
    return call_some_range(state, force, data,
                           lambda row: second_range(row, block, nested, data))


def call_time(state, data, at, kind):
    """TOW and WNc (V8); order of refusals 1, 10, 7 (R20)."""
    if fault_one(state):
        return refused(1, state)
    if not one_frame(data):
        return refused(10, state)
    if len(data) < 14:
        return refused(7, state)
    return value(data, at, kind, 1), state


def call_tow(state, data):
    return call_time(state, data, 8, 3)


def call_wnc(state, data):
    return call_time(state, data, 12, 2)


# ------------------------------------------------------------ writing a block
# W1 to W9.  A value is None where it is unset, else what a record call would
# answer of it: ("unsigned", N), ("signed", N), ("single", bits) or ("double",
# bits).  So what is read can be given, and what is given compared with it.

SUBS_MOST, SUB_MOST, REVISION_MOST = 255, 255, 7
# V8: what every block has, and every revision carries.
TOW, WNC = Field(8, 3, 0, 1), Field(12, 2, 0, 1)
# V10: the least number that mark 5 lets stand.
SEED_LEAST = 8192


def kind_read(kind):
    """The word that a field of this type answers with (V1, V7)."""
    if kind in UNSIGNED:
        return "unsigned"
    if kind in SIGNED:
        return "signed"
    return "single" if kind == 9 else "double"


def range_of(kind):
    """The least and the greatest number of a type; of a float, of its
    bits."""
    width = 8 * SIZES[kind]
    if kind in SIGNED:
        return -(1 << width - 1), (1 << width - 1) - 1
    return 0, (1 << width) - 1


def mark_bits(field):
    """W6: the bits of an unset field.  None: it has no mark."""
    width = 8 * SIZES[field.type]
    if field.mark == 1:
        return 2 ** width - 1
    if field.mark in (2, 5):
        return 0
    if field.mark == 3:
        # -2e10, packed from the number, where `marked` has its bits
        form, whole = ("<f", "<I") if field.type == 9 else ("<d", "<Q")
        return struct.unpack(whole, struct.pack(form, -2e10))[0]
    if field.mark == 4:
        return 2 ** (width - 1)
    return None


def reads_unset(field, bits):
    """W5: would the field read as Do-Not-Use?  By mark 5 many bits do, told
    by number here where `marked` looks at the three bits; by each other mark
    only those that an unset field is written with."""
    if field.mark == 5:
        return bits < SEED_LEAST
    return bits == mark_bits(field)


def bits_given(field, given):
    """W5 and W6, of a field that is carried: its bits, or None where the
    value is not allowed."""
    if given is None:
        return mark_bits(field)
    word, number = given
    least, most = range_of(field.type)
    if word != kind_read(field.type) or not least <= number <= most:
        return None
    bits = number % (1 << 8 * SIZES[field.type])
    return None if reads_unset(field, bits) else bits


def cells_given(fields, revision, values):
    """W4 and W5: [(offset, bytes)] of the fields that are carried, or None
    where some value is not allowed."""
    # past the last row
    if any(given is not None for given in values[len(fields):]):
        return None
    cells = []
    for index, field in enumerate(fields):
        given = values[index] if index < len(values) else None
        if not carried(field, revision):
            if given is not None:
                return None
            continue
        bits = bits_given(field, given)
        if bits is None:
            return None
        cells.append((field.offset,
                      bits.to_bytes(SIZES[field.type], "little")))
    return cells


def lists_given(row, revision, stamps, body, subs):
    """R11: None where something given cannot stand in a block of the row;
    else the cells of the block's body, TOW and WNc among them, and those of
    each sub-block."""
    if revision > REVISION_MOST or len(subs) > SUBS_MOST:
        return None
    if subs and not row.subs:
        return None
    # W4: N and SBLength are not given, so no row is there for a value
    own = () if row.subs else row.body
    lists = [cells_given((TOW, WNC), revision, stamps),
             cells_given(own, revision, body)]
    lists += [cells_given(row.subs, revision, values) for values in subs]
    if None in lists:
        return None
    return lists[0] + lists[1], lists[2:]


def end_carried(fields, revision, least):
    """Where the last carried field ends; `least` where none ends later."""
    return max([least] + [f.offset + SIZES[f.type] for f in fields
                          if carried(f, revision)])


def sub_length(row, revision, count):
    """W7: SBLength."""
    return end_carried(row.subs, revision, 0) if count else 0


def block_length(row, revision, count):
    """W9: L.  TOW and WNc end at 14, N and SBLength at 16 (T16)."""
    end = end_carried(row.body, revision, 14)
    end += count * sub_length(row, revision, count)
    return (end + 3) // 4 * 4


def block_bytes(row, revision, cells, subs):
    """W8: the block, of cells that are allowed and with room for it."""
    size = sub_length(row, revision, len(subs))
    data = bytearray(block_length(row, revision, len(subs)))
    for offset, raw in cells:
        data[offset:offset + len(raw)] = raw
    if row.subs:
        data[14], data[15] = len(subs), size
    for index, cells_there in enumerate(subs):
        for offset, raw in cells_there:
            at = 16 + index * size + offset
            data[at:at + len(raw)] = raw
    struct.pack_into("<HH", data, 4, revision * 8192 + row.number, len(data))
    # F6: the CRC comes last, over all that stands behind it
    struct.pack_into("<2sH", data, 0, b"\x24\x40", crc(bytes(data[4:])))
    return bytes(data)


def call_write(state, force, out, number, revision, tow, wnc, body, subs):
    """Write (W1); order of refusals 1, 5, 4, 6, 11, 12 (R20).  body is a list
    of values, subs one list a sub-block."""
    fault, table = table_for(state, force)
    if fault:
        return refused(fault, state)
    row = row_numbered(table, number)
    # R6: a row of two levels is not written through
    if row is None or row.c:
        return refused(6, state)
    lists = lists_given(row, revision, (tow, wnc), body, subs)
    if lists is None:
        return refused(11, state)
    # R12: room in the buffer, under the ceiling, and for SBLength
    length = block_length(row, revision, len(subs))
    if length > len(out) or length > state.ceiling:
        return refused(12, state)
    if sub_length(row, revision, len(subs)) > SUB_MOST:
        return refused(12, state)
    out[:length] = block_bytes(row, revision, *lists)
    return ("written", length), state


# -------------------------------------------------------------- making tables


def make_table(version, rows):
    """The file of a table with these rows, valid if the rows are."""
    fields, blocks, used = b"", b"", 0
    for row in rows:
        both = list(row.body) + list(row.subs)
        fields += b"".join(bytes(field) for field in both)
        blocks += struct.pack("<HBBHBB", row.number, row.highest,
                              len(row.body), used, len(row.subs), row.c)
        used += len(both)
    total = len(fields) + len(blocks) + 12
    head = fields + blocks + struct.pack(
        "<4H", version, len(rows), 12 + len(blocks), total % 65536)
    return head + struct.pack("<H", crc(head)) + b"\x42\x54"


# --------------------------------------------------------------- rows shipped
# T30 to T36, with the newer guide for PVTCartesian and BaseVectorCart; T37,
# with the 2.9.0 guide for MeasEpoch.

U1, U2, U4, I1, I2, I4, F4, F8 = 1, 2, 3, 5, 6, 7, 9, 10


def packed(start, cells):
    """Rows (type, mark, first revision) without gaps from `start`."""
    rows, at = [], start
    for kind, mark, first in cells:
        rows.append(Field(at, kind, first, mark))
        at += SIZES[kind]
    return tuple(rows)


def pvt_cartesian():
    return packed(14, [
        (U1, 0, 0), (U1, 0, 0),                          # Mode, Error
        (F8, 3, 0), (F8, 3, 0), (F8, 3, 0),              # X, Y, Z
        (F4, 3, 0),                                      # Undulation
        (F4, 3, 0), (F4, 3, 0), (F4, 3, 0),              # Vx, Vy, Vz
        (F4, 3, 0), (F8, 3, 0), (F4, 3, 0),              # COG, Bias, Drift
        (U1, 1, 0), (U1, 1, 0), (U1, 1, 0),              # TimeSystem..NrSV
        (U1, 2, 0), (U2, 1, 0), (U2, 1, 0),              # WACorr, RefID, Age
        (U4, 2, 0), (U1, 2, 0),                          # SignalInfo, Alert
        (U1, 2, 1), (U2, 5, 1),                          # NrBases, PPPInfo
        (U2, 1, 2), (U2, 1, 2), (U2, 1, 2), (U1, 0, 2)])  # Latency..Misc


def base_vector_sub():
    return packed(0, [
        (U1, 0, 0), (U1, 0, 0), (U1, 0, 0), (U1, 0, 0),  # nrSV..Misc
        (F8, 3, 0), (F8, 3, 0), (F8, 3, 0),              # DeltaX, Y, Z
        (F4, 3, 0), (F4, 3, 0), (F4, 3, 0),              # DeltaVx, Vy, Vz
        (U2, 1, 0), (I2, 4, 0), (U2, 0, 0), (U2, 1, 0),  # Azimuth..CorrAge
        (U4, 2, 0)])                                     # SignalInfo


def meas_epoch():
    body = packed(14, [
        (U1, 0, 0), (U1, 0, 0), (U1, 0, 0),              # N1, two lengths
        (U1, 0, 0), (U1, 0, 1)])                         # flags, CumClkJumps
    first = packed(0, [
        (U1, 0, 0), (U1, 0, 0), (U1, 0, 0), (U1, 0, 0),  # RxChannel..Misc
        (U4, 0, 0), (I4, 4, 0),                          # CodeLSB, Doppler
        (U2, 0, 0), (I1, 0, 0), (U1, 1, 0),              # CarrierLSB, MSB, CN0
        (U2, 1, 0), (U1, 0, 0), (U1, 0, 0)])             # LockTime..N2
    second = packed(0, [
        (U1, 0, 0), (U1, 1, 0), (U1, 1, 0),              # Type, LockTime, CN0
        (U1, 0, 0), (I1, 0, 0), (U1, 0, 0),              # OffsetsMSB..ObsInfo
        (U2, 0, 0), (U2, 0, 0), (U2, 0, 0)])             # CodeOffset..Doppler
    return Row(MEAS_EPOCH, 1, body, first + second, len(first))


def shipped_rows(reserved=True):
    """All rows shipped, rising; reserved False leaves AttEuler's Reserved row
    out (the table of before the release that RULES.md, D, tells of)."""
    floats = [(F4, 3, 0)]
    attitude = [Field(14, U1, 0, 1), Field(15, U1, 0, 0), Field(16, U2, 0, 0)]
    if reserved:
        attitude.append(Field(18, U2, 0, 0))
    attitude += packed(20, floats * 6)
    pair = [(U1, 0, 0), (U1, 0, 0)]
    event = packed(14, pair + [(F4, 0, 0), (F8, 3, 0), (U2, 0, 1)])
    return (
        Row(4006, 2, pvt_cartesian(), ()),
        meas_epoch(),
        Row(4043, 0, packed(14, pair), base_vector_sub()),
        Row(5906, 0, packed(14, pair + floats * 10), ()),
        Row(5924, 1, event, ()),
        Row(5938, 0, tuple(attitude), ()),
        Row(5939, 0, packed(14, pair + floats * 6), ()),
        Row(5943, 0, (), ()))


def shipped_table(version):
    return make_table(version, shipped_rows())


# ----------------------------------------------------------------- the lister


def list_run(data):
    """What the lister prints for the run `data` (S11)."""
    blocks, skipped = read_run(bytes(data))
    lines = ["block %d %d %d %d" % block for block in blocks]
    lines.append("end %d %d %d" % (len(data), len(blocks), skipped))
    return "".join(line + "\n" for line in lines).encode()


# --------------------------------------------------------- the replay language

LINE_MOST = 270000
NUMBER = re.compile(rb"[0-9]+\Z")
HEX = re.compile(rb"(?:[0-9a-fA-F]{2})+\Z")
# The buffers that `put` writes, and those that `size` shortens.
BUFFERS = {b"hold": "hold", b"force": "force", b"waiting": "waiting"}
LENT = {**BUFFERS, b"out": "out"}
NAMES = {name.encode(): name for name in State._fields}
# The kinds of the words after each call's own word; `write` has values after
# those here, and `open` may have the word of MORE.
CALLS = {
    b"open": "", b"feed": "x", b"finish": "", b"bytes": "", b"stage": "x",
    b"withdraw": "", b"body": "nx", b"sub": "nnx", b"subbytes": "nx",
    b"sub2": "nnnx", b"range": "nx", b"range2": "nnx",
    b"tow": "x", b"wnc": "x", b"poke": "sn", b"put": "bnx", b"size": "ln",
    b"write": "nntt"}
MORE = {b"open": "n"}
# The letter of a value in a `write` line.
LETTERS = {b"u": "unsigned", b"i": "signed", b"f": "single", b"d": "double"}
WRITERS = (b"open", b"feed", b"finish", b"stage", b"withdraw")


class BadLine(Exception):
    """A line that is no call."""


def read_number(word):
    """Decimal, to 2^64 - 1."""
    if not NUMBER.match(word):
        raise BadLine
    digits = word.lstrip(b"0") or b"0"
    if len(digits) > 20 or int(digits) > 2 ** 64 - 1:
        raise BadLine
    return int(digits)


def read_signed(word):
    """Decimal, from -2^63 to 2^63 - 1."""
    negative = word.startswith(b"-")
    size = read_number(word[1:] if negative else word)
    if size > (2 ** 63 if negative else 2 ** 63 - 1):
        raise BadLine
    return -size if negative else size


def read_stamp(word):
    """TOW or WNC of a `write` line: a number, or `-` for unset."""
    return None if word == b"-" else ("unsigned", read_number(word))


def read_value(word):
    """A VALUE of a `write` line."""
    if word == b"-":
        return None
    kind = LETTERS.get(word[:1])
    if kind is None:
        raise BadLine
    read = read_signed if kind == "signed" else read_number
    return kind, read(word[1:])


def read_lists(words):
    """The values of a `write` line: the body's list, and one list for each
    `/`."""
    lists = [[]]
    for word in words:
        if word == b"/":
            lists.append([])
        else:
            lists[-1].append(read_value(word))
    return lists[0], lists[1:]


def read_hex(word):
    """ "bytes in hex, `-` for none" """
    if word == b"-":
        return b""
    if not HEX.match(word):
        raise BadLine
    return binascii.unhexlify(word)


def read_name(names):
    def read(word):
        if word not in names:
            raise BadLine
        return names[word]
    return read


READERS = {"n": read_number, "x": read_hex, "s": read_name(NAMES),
           "b": read_name(BUFFERS), "l": read_name(LENT), "t": read_stamp}


def read_line(line):
    """(word, arguments) of a line; BadLine if it is no call."""
    words = line.split(b" ")
    kinds = CALLS.get(words[0])
    if kinds is None or len(words) < 1 + len(kinds):
        raise BadLine
    if len(words) > 1 + len(kinds):
        kinds += MORE.get(words[0], "")
    arguments = [READERS[k](w) for k, w in zip(kinds, words[1:])]
    rest = words[1 + len(kinds):]
    if words[0] == b"write":
        return words[0], arguments + list(read_lists(rest))
    if rest:
        raise BadLine
    return words[0], arguments


class Player:
    """The bench tool: four buffers, the state, and one line at a time."""

    def __init__(self):
        self.state = NEW_READER
        self.buffers = {"hold": bytearray(b"\xA5" * 65536),
                        "force": bytearray(b"\x5A" * 8192),
                        "waiting": bytearray(b"\x3C" * 8192),
                        "out": bytearray(b"\xC3" * 65536)}
        self.sizes = {}
        self.seen = {}

    def sum(self, name):
        """The CRC of a whole buffer; computed anew only if it has changed."""
        copy, value_then = self.seen.get(name, (None, 0))
        if copy != self.buffers[name]:
            copy = bytes(self.buffers[name])
            value_then = crc(copy)
            self.seen[name] = copy, value_then
        return value_then

    def lent(self, name):
        """ "the next call alone is lent only the first N bytes" """
        whole = memoryview(self.buffers[name])
        return whole[:self.sizes.get(name, len(whole))]

    def line(self, line):
        """Plays one line (without its line feed).  The line printed, or None;
        BadLine if it is no call."""
        if len(line) > LINE_MOST:
            raise BadLine
        if line == b"" or line.startswith(b"#"):
            return None
        word, arguments = read_line(line)
        if word in (b"poke", b"put", b"size"):
            getattr(self, word.decode())(*arguments)
            return None
        answer = self.call(word, arguments)
        self.sizes = {}
        return self.show(word, answer)

    def poke(self, name, number):
        if name == "phase" and number > 2:
            raise BadLine
        self.state = self.state._replace(**{name: number})

    def put(self, name, offset, data):
        buffer = self.buffers[name]
        if offset + len(data) > len(buffer):
            raise BadLine
        buffer[offset:offset + len(data)] = data

    def size(self, name, number):
        self.sizes[name] = min(number, len(self.buffers[name]))

    def call(self, word, arguments):
        """Makes the call with the buffers it is lent; keeps the new state."""
        lends = {b"open": ("force", "waiting"), b"feed": ("hold",),
                 b"finish": ("hold",), b"bytes": ("hold",),
                 b"stage": ("waiting",), b"body": ("force",),
                 b"sub": ("force",), b"subbytes": ("force",),
                 b"sub2": ("force",), b"range": ("force",),
                 b"range2": ("force",),
                 b"write": ("force", "out")}
        function = globals()["call_" + word.decode()]
        lent = [self.lent(name) for name in lends.get(word, ())]
        answer, self.state = function(self.state, *lent, *arguments)
        return answer

    def show(self, word, answer):
        """ANSWER | state | H F W"""
        if answer[0] == "part":
            answer = ("part", len(answer[1]), "%04x" % crc(answer[1]))
        # the sum of the whole buffer, also where a `size` line lent less
        if answer[0] == "written":
            answer += ("%04x" % self.sum("out"),)
        if word in WRITERS:
            sums = ["%04x" % self.sum(name)
                    for name in ("hold", "force", "waiting")]
        else:
            sums = ["-", "-", "-"]
        return "%s | %s | %s" % (" ".join(map(str, answer)),
                                 " ".join(map(str, self.state)),
                                 " ".join(sums))


def split_lines(script):
    """ "A last line without a line feed counts." """
    lines = script.split(b"\n")
    if lines[-1] == b"":
        lines.pop()
    return lines


def play_lines(script, player=None):
    """([(line number, line printed)], [number of each bad line]); by a new
    player where none is given."""
    player, printed, bad = player or Player(), [], []
    for number, line in enumerate(split_lines(script), 1):
        try:
            text = player.line(line)
        except BadLine:
            bad.append(number)
            continue
        if text is not None:
            printed.append((number, text))
    return printed, bad


def join_play(printed, bad):
    out = "".join(text + "\n" for _, text in printed)
    err = "".join("bad line %d\n" % number for number in bad)
    return out.encode(), err.encode()


def play(script):
    """What replay prints for this script: (stdout bytes, stderr bytes)."""
    return join_play(*play_lines(script))


def main():
    out, err = play(sys.stdin.buffer.read())
    sys.stdout.buffer.write(out)
    sys.stdout.buffer.flush()
    sys.stderr.buffer.write(err)
    return 0


if __name__ == "__main__":
    sys.exit(main())
