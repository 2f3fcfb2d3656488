"""Seeded replay scripts.  They are made against a model instance that plays
every line as it is written, so that a script can offer an unread rest again,
poke a number back, or read the block that stands.

script(seed)         about 100 calls of all kinds
record_script(seed)  a table opened, then about 200 record calls
level_script(seed)   tables with rows of two levels, good and bad, and about
                     150 record calls on blocks of theirs
ceiling_script(seed) runs with ceilings, and about 120 calls on blocks whose
                     lengths are about them
write_script(seed)   tables opened, and about 100 blocks to be written;
                     write_blocks(seed) gives those that were
whole_stream(seed)   a run of 100 kB and more for the lister
"""

import random

import content
import model
from content import HUGE, SHIPPED

NAMES = model.State._fields
NO_ROW = model.Row(0, 0, (), ())
# BaseVectorCart, the one row of one level that is shipped with sub-fields.
VECTOR = next(row for row in SHIPPED if row.subs and not row.c)


def hexed(data):
    return data.hex().encode() if data else b"-"


class Maker:
    """One script in the making."""

    def __init__(self, seed, calls):
        self.rng = random.Random(seed)
        self.player = model.Player()
        self.player.sum = lambda name: 0    # nothing here looks at the sums
        self.lines = []
        self.calls = 0
        self.goal = calls
        self.rest = b""
        self.block = b""
        self.writes = 0
        self.written = []    # (number, revision, bytes) of each block made
        self.sane = model.NEW_READER
        self.weights = {
            name: weight * self.rng.choice((0.3, 1, 1, 1, 3))
            for name, weight in ACTIONS.items()}
        self.settle(self.rng.choice(MODES))

    def settle(self, mode):
        """A flight is without spoiled states and bytes, a storm is full of
        them."""
        for name in ("spoil", "limit", "spoil_bytes", "plant", "turn",
                     "pair", "edge"):
            self.weights[name] *= {"flight": 0, "mixed": 1, "storm": 3}[mode]

    # ------------------------------------------------- writing lines

    @property
    def state(self):
        return self.player.state

    def say(self, line):
        """Writes a line and plays it; the words of its answer."""
        self.lines.append(line)
        try:
            text = self.player.line(line)
        except model.BadLine:
            return []
        if text is None:
            return []
        self.calls += 1
        if not model.spoiled(self.state):
            self.sane = self.state
        answer = text.split(" | ")[0].split(" ")
        if line.startswith(b"write "):
            self.writes += 1
            self.keep_written(line, answer)
        return answer

    def call(self, *words):
        made = [w if isinstance(w, bytes) else str(w).encode() for w in words]
        return self.say(b" ".join(made))

    def poke(self, name, number):
        self.call("poke", name, number)

    def put(self, name, offset, data):
        self.call("put", name, offset, hexed(data))

    def rows(self):
        """The rows in force, or those shipped if none can be read."""
        raw = bytes(self.player.buffers["force"][:min(self.state.force, 8192)])
        table = model.read_table(raw)
        return table.rows if table else SHIPPED

    # ------------------------------------------------- ordinary calls

    def refill(self):
        rng, rows = self.rng, self.rows()
        if self.state.ceiling < model.CEILING_MOST and rng.random() < 0.5:
            self.ceiling_refill()
            return
        draw = rng.random()
        if draw < 0.02:
            self.rest += content.big_block(rng)
        elif draw < 0.04:
            self.rest += content.false_header(rng, 65532)
            self.rest += content.stream(rng, rows, rng.randrange(200))
        elif draw < 0.07:
            self.rest += content.stream(rng, rows, 40)
        elif draw < 0.3:
            self.rest += content.stream(rng, rows, rng.randrange(1, 8),
                                        ("clean", "unknown", "nested"))
        else:
            self.rest += content.stream(rng, rows, rng.randrange(1, 9))

    def cut(self):
        """How many bytes of the rest the next piece has."""
        rng, have = self.rng, len(self.rest)
        draw = rng.random()
        if draw < 0.04:
            return 0
        if draw < 0.2:
            return min(have, rng.choice((1, 2, 3, 7, 8, 9)))
        if draw < 0.6:
            return min(have, rng.randrange(1, 150))
        if have > 4000 and draw < 0.9:
            return rng.randrange(4000)
        if draw < 0.75:
            return rng.randrange(have + 1)
        return have

    def feed(self):
        """A piece of the stream; its unread rest is mostly offered again."""
        if not self.rest or self.rng.random() < 0.1:
            self.refill()
        piece = self.rest[:min(self.cut(), 100000)]
        answer = self.call("feed", hexed(piece))
        if answer[0] == "fed":
            taken = int(answer[1])
            if self.rng.random() < 0.06:
                taken = len(piece)
            self.rest = self.rest[taken:]
        self.keep_block(answer)

    def finish(self):
        self.keep_block(self.call("finish"))

    def keep_block(self, answer):
        if "block" in answer:
            self.block = bytes(
                self.player.buffers["hold"][:self.state.stands])

    def open(self, good=0.35, bad=0.05):
        """Open: with a ceiling, with a number that is none, or without."""
        draw = self.rng.random()
        if draw < good:
            return self.call("open", content.good_ceiling(self.rng))
        if draw < good + bad:
            return self.call("open", content.bad_ceiling(self.rng))
        return self.call("open")

    def start(self):
        """In a closed reader: mostly a table, then Open."""
        if self.rng.random() < 0.03:
            return self.open()
        if self.state.waits == 0 and (self.state.force == 0
                                      or self.rng.random() < 0.5):
            self.call("stage", hexed(content.valid_table(self.rng)))
        if self.rng.random() < 0.5:
            self.rest = b""
        return self.open()

    def run(self):
        """Whatever carries the run on."""
        phase = self.state.phase
        if phase == model.CLOSED:
            self.start()
        elif phase == model.FINISHING:
            self.finish()
        elif self.rng.random() < 0.08:
            self.finish()
        else:
            self.feed()

    def bytes(self):
        self.call("bytes")

    def table(self):
        """Table calls, at any time."""
        draw = self.rng.random()
        if draw < 0.45:
            self.call("stage", hexed(content.valid_table(self.rng)))
        elif draw < 0.85:
            self.call("stage", hexed(content.broken_table(self.rng)))
        else:
            self.call("withdraw")

    def turn(self):
        """Calls without looking whose turn it is."""
        word = self.rng.choice(("open", "feed", "finish", "finish", "open"))
        if word == "feed":
            self.call(word, hexed(content.chunk(self.rng, self.rows())))
        elif word == "open":
            self.open(bad=0.3)
        else:
            self.finish()

    # ------------------------------------------------- record calls

    def record_row(self):
        """A row in force: seldom one without fields, and more often than by
        chance one that has mark 5, or could be taken to have it."""
        rng, rows = self.rng, self.rows()
        seeded = [row for row in rows
                  if any(map(content.seed_like, row.body + row.subs))]
        if seeded and rng.random() < 0.2:
            return rng.choice(seeded)
        row = rng.choice(rows)
        if not row.body and rng.random() < 0.7:
            row = rng.choice(rows)
        return row

    def record_bytes(self):
        """Bytes for a record call: good, misfitting, or no frame."""
        rng, rows = self.rng, self.rows()
        draw = rng.random()
        row = self.record_row()
        if draw < 0.2 and 0 < len(self.block) < 3000:
            return self.block
        if draw < 0.58:
            return content.row_block(rng, row)
        if draw < 0.72:
            return content.short_block(rng, row)
        if draw < 0.8:
            parts = [r for r in rows if r.subs] or [VECTOR]
            return content.misfit_block(rng, rng.choice(parts))
        if draw < 0.88:
            return content.unknown_block(rng, rows)
        return self.no_frame(content.row_block(rng, row))

    def no_frame(self, data):
        """Bytes that are not one whole frame, near one that are."""
        rng = self.rng
        other = content.row_block(rng, rng.choice(SHIPPED))
        flipped = bytearray(data)
        flipped[rng.randrange(len(data))] ^= 1 << rng.randrange(8)
        return rng.choice((
            b"", data[:-1], data[:-4], data + b"\x00", data + bytes(4),
            data + other, data[1:], b"\x24" + data, bytes(flipped),
            data[:rng.randrange(len(data))], data[:8], data[:2], data[:7],
            b"\x24\x40\x00\x00\x00\x00\x04\x00", bytes(8),
            content.bad_length_block(rng), content.bad_length_block(rng)))

    def field_number(self, count, fields=()):
        """A number in range, one past, or far out.  Where some of the fields
        have mark 5, or could be taken to have it, now and then one of
        theirs."""
        rng = self.rng
        seeds = [at for at, field in enumerate(fields)
                 if content.seed_like(field)]
        if seeds and rng.random() < 0.25:
            return rng.choice(seeds)
        draw = rng.random()
        if draw < 0.78 and count:
            return rng.randrange(count)
        if draw < 0.9:
            return count + rng.choice((0, 0, 1))
        return rng.choice(HUGE)

    def record(self, data=None):
        rng = self.rng
        data = self.record_bytes() if data is None else data
        bodies, subs, count = self.shape(data)
        row = self.row_of(data) or NO_ROW
        if rng.random() < (0.6 if row.c else 0.06):
            return self.level_record(data)
        word = rng.choice(("body", "body", "body", "sub", "sub", "subbytes",
                           "tow", "wnc"))
        if subs and rng.random() < 0.6:
            word = rng.choice(("sub", "sub", "sub", "subbytes"))
        if not subs and word in ("sub", "subbytes") and rng.random() < 0.7:
            word = "body"
        if word in ("tow", "wnc"):
            return self.call(word, hexed(data))
        if word == "body":
            return self.call(word, self.field_number(bodies, row.body),
                             hexed(data))
        if word == "subbytes":
            return self.call(word, self.field_number(count), hexed(data))
        return self.call(word, self.field_number(count),
                         self.field_number(subs, row.subs), hexed(data))

    def row_of(self, data):
        """The row of a block's number, None where there is none."""
        if len(data) < 6:
            return None
        number = (data[4] | data[5] << 8) % 8192
        return model.row_numbered(model.Table(0, self.rows()), number)

    def shape(self, data):
        """Count of body fields, of sub-fields and of sub-blocks, as far as
        the bytes tell."""
        row = self.row_of(data)
        if row is None:
            return 1 if len(data) < 6 else 3, 0, 0
        count = data[14] if row.subs and len(data) > 14 else 0
        return len(row.body), len(model.levels(row)[0]), count

    # ------------------------------------------------- two levels

    def level_record(self, data):
        """Sub2, Range or Range2, on any bytes: most numbers are those of
        sub-blocks and fields that are there."""
        rng, row = self.rng, self.row_of(data) or NO_ROW
        shape = content.shape_of(row, data) if row.c else []
        full = [at for at, n2 in enumerate(shape) if n2]
        block = self.field_number(len(shape))
        if full and rng.random() < 0.7:
            block = rng.choice(full)
        word = rng.choice(("sub2", "sub2", "range", "range2"))
        if word == "range":
            return self.call(word, block, hexed(data))
        n2 = shape[block] if block < len(shape) else 0
        nested = self.field_number(n2)
        if n2 and rng.random() < 0.5:
            nested = rng.randrange(n2)
        if word == "range2":
            return self.call(word, block, nested, hexed(data))
        second = model.levels(row)[1]
        return self.call(word, block, nested,
                         self.field_number(len(second), second), hexed(data))

    def level_row(self):
        """A row of two levels in force, or the one shipped; MeasEpoch's by
        whatever row in half of all cases."""
        rows = [row for row in self.rows() if row.c]
        epoch = [row for row in self.rows()
                 if row.number == model.MEAS_EPOCH]
        if epoch and self.rng.random() < 0.5:
            return epoch[0]
        return self.rng.choice(rows or [row for row in SHIPPED if row.c])

    def level_bytes(self):
        """A block of two levels, or what may stand in its place."""
        rng, row = self.rng, self.level_row()
        draw = rng.random()
        if draw < 0.82:
            return content.row_block(rng, row)
        if draw < 0.86:
            return content.level_far(rng, row)
        if draw < 0.9:
            return content.short_block(rng, row)
        if draw < 0.94:
            return content.misfit_block(rng, row)
        return self.record_bytes()

    def level_calls(self):
        """A few calls on one block; of the fields past the first level's
        too."""
        rng, data = self.rng, self.level_bytes()
        row = self.row_of(data) or NO_ROW
        for _ in range(rng.choice((1, 2, 3, 4))):
            draw = rng.random()
            if draw < 0.55:
                self.level_record(data)
            elif draw < 0.6 and row.c:
                _, many, count = self.shape(data)
                self.call("sub", rng.randrange(count or 1), rng.randrange(
                    many, len(row.subs) + 1), hexed(data))
            else:
                self.record(data)

    def level_sweep(self):
        """All there is in a small block of two levels, and one past it."""
        rng, row = self.rng, self.level_row()
        data = content.row_block(rng, row)
        shape = content.shape_of(row, data) if row.c else []
        if len(shape) > 4 or sum(shape) > 8:
            return
        text, seconds = hexed(data), len(model.levels(row)[1])
        for block in range(len(shape) + 1):
            self.call("subbytes", block, text)
            self.call("range", block, text)
            n2 = shape[block] if block < len(shape) else 0
            for nested in range(n2 + 1):
                self.call("range2", block, nested, text)
                self.call("sub2", block, nested,
                          rng.randrange(seconds + 1), text)

    def level_full(self):
        """A line on a block as long as one of two levels gets."""
        row = self.level_row()
        if not row.c or content.fields_end(row.subs, 7) > 255:
            return
        data = content.level_full(self.rng, row)
        block = self.rng.choice((254, 0))
        self.call("sub2", 0, block, 0, hexed(data))
        self.call("subbytes", block, hexed(data))

    def level_corners(self):
        """Every call on each of those blocks, its row in force."""
        rng = self.rng
        for row, data in content.level_corners(rng):
            self.reopen(model.make_table(rng.randrange(65536), (row,)))
            last, text = data[14] - 1, hexed(data)
            self.call("body", rng.randrange(5), text)
            self.call("sub", last, rng.randrange(row.c), text)
            self.call("subbytes", last, text)
            self.call("sub2", 0, rng.choice((0, 254)), rng.randrange(9), text)
            for block in sorted({0, last}):
                self.call("range", block, text)
                self.call("range2", block, 0, text)

    def level_write(self):
        """Write of a row of two levels, with a fault too now and then: 6
        comes first."""
        wanted = content.allowed(self.rng, self.level_row(), self.rng.choice(
            (0, 1, 2, 3)))
        if self.rng.random() < 0.4:
            content.spoil(self.rng, wanted)
        if self.rng.random() < 0.2:
            self.call("size", "out", self.rng.choice((0, 15, 40)))
        self.ask(wanted)

    def level_table(self):
        """A table with one rule of two levels broken."""
        self.call("stage", hexed(content.broken_by_levels(self.rng)))

    def sweep(self):
        """All fields of one block, one past the last too."""
        data = content.row_block(self.rng, self.rng.choice(self.rows()))
        bodies, subs, count = self.shape(data)
        for index in range(min(bodies + 1, 12)):
            self.call("body", index, hexed(data))
        if subs and count:
            block = self.rng.randrange(count)
            for index in range(min(subs + 1, 16)):
                self.call("sub", block, index, hexed(data))

    # ------------------------------------------------- spoiling

    def any_call(self):
        """Some call with arguments that mostly make sense."""
        rng = self.rng
        draw = rng.random()
        if draw < 0.22:
            self.call("feed", hexed(content.chunk(rng, self.rows())
                                    if rng.random() < 0.85 else b""))
        elif draw < 0.34:
            self.finish()
        elif draw < 0.42:
            self.call("bytes")
        elif draw < 0.52:
            self.open(bad=0.2)
        elif draw < 0.6:
            self.table()
        elif draw < 0.65:
            self.call("withdraw")
        elif draw < 0.72:
            self.write()
        else:
            self.record()

    def short(self):
        """`size` lines, then a call that may or may not be lent them."""
        rng = self.rng
        for _ in range(rng.choice((1, 1, 1, 2, 3))):
            name = rng.choice(("hold", "force", "waiting", "out"))
            full = 65536 if name in ("hold", "out") else 8192
            self.call("size", name, rng.choice(
                (full - 1, full - 1, full, full + 1, 0, 1, 8192, 2 ** 64 - 1,
                 rng.randrange(full))))
        if rng.random() < 0.15:
            self.poke("phase", self.state.phase)
        if rng.random() < 0.1:
            self.say(b"size hold")
        self.any_call()
        if rng.random() < 0.3:
            self.any_call()

    def spoil_values(self, name):
        """Values of a number at both sides of the limits of refusal 1."""
        s = self.state
        far = (2 ** 64 - 1, 2 ** 63, 2 ** 32, 2 ** 32 - 1)
        near = {
            "phase": (0, 1, 2),
            "held": (65532, 65533, s.taken, s.taken + 1, s.stands,
                     s.stands - 1, 0, 8),
            "stands": (s.held, s.held + 1, s.held - 1, 0, 1, 8),
            "taken": (4294967295, 4294967296, s.held, s.held - 1, s.blocks,
                      s.blocks - 1, s.skipped, s.skipped - 1, 4294967294),
            "blocks": (s.taken, s.taken + 1, s.taken - 1, 0),
            "skipped": (s.taken, s.taken + 1, s.taken - 1, 0),
            "ceiling": (12, 16, 18, 65530, 65532, 65536, s.stands,
                        s.stands - 4, content.good_ceiling(self.rng),
                        content.bad_ceiling(self.rng))}
        table = (8192, 8193, 0, 1, 19, 20, s.force, s.force + 1, s.force - 1,
                 s.waits)
        values = [v for v in near.get(name, table) if v >= 0]
        return values * 2 + ([] if name == "phase" else list(far))

    def spoil(self):
        """Pokes, a few calls, and mostly the old numbers again."""
        rng, before = self.rng, self.state
        for _ in range(rng.choice((1, 1, 1, 2, 3))):
            name = rng.choice(NAMES + ("held", "force", "waits"))
            if name == "held" and rng.random() < 0.5:
                self.poke("taken", rng.choice((65532, 65533, 70000)))
            self.poke(name, rng.choice(self.spoil_values(name)))
        for _ in range(rng.choice((1, 1, 2, 3))):
            self.any_call()
        if rng.random() < 0.85:
            self.poke_to(before)
        self.mend()

    def poke_to(self, wanted):
        for name in NAMES:
            if getattr(self.state, name) != getattr(wanted, name):
                self.poke(name, getattr(wanted, name))

    def mend(self):
        """A state that all calls refuse is mostly not left so, nor a store
        in force that no record can be read by."""
        if model.spoiled(self.state) and self.rng.random() < 0.9:
            self.poke_to(self.sane)
        length = min(self.state.force, 8192)
        raw = bytes(self.player.buffers["force"][:length])
        if length and not model.read_table(raw) and self.rng.random() < 0.7:
            table = content.valid_table(self.rng)
            self.put("force", 0, table)
            self.poke("force", len(table))

    def twist(self, kind):
        """One condition of a refusal."""
        s = self.state
        if kind == "size":
            name = self.rng.choice(("hold", "force", "waiting"))
            self.call("size", name, 65535 if name == "hold" else 8191)
        elif kind == "one":
            name = self.rng.choice(("blocks", "skipped", "ceiling"))
            self.poke(name, content.bad_ceiling(self.rng)
                      if name == "ceiling" else s.taken + 1)
        elif kind == "turn":
            self.poke("phase", (s.phase + self.rng.choice((1, 2))) % 3)
        elif kind == "none":
            self.poke("force", 0)
            self.poke("waits", 0)
        elif kind == "table":
            self.poke(self.rng.choice(("force", "waits")), 19)
        elif kind == "limit":
            self.poke("taken", model.RUN_LIMIT)
        elif kind == "count":
            self.poke(self.rng.choice(("blocks", "skipped")), s.taken)

    def pair(self):
        """Two or three refusals' conditions at once: the order counts."""
        rng, before = self.rng, self.state
        kinds = ("size", "one", "turn", "none", "table", "limit", "count")
        for kind in rng.sample(kinds, rng.choice((2, 2, 3))):
            self.twist(kind)
        word = rng.choice(("open", "feed", "finish", "stage", "record",
                           "write"))
        if word == "record":
            self.record()
        elif word == "write":
            self.write()
        elif word == "stage":
            self.call(word, hexed(content.broken_table(rng)))
        elif word == "feed":
            self.call(word, hexed(content.chunk(rng, self.rows())))
        elif word == "open":
            self.open(good=0.2, bad=0.5)
        else:
            self.finish()
        self.poke_to(before)

    def edge(self):
        """Counts as high as the bytes taken when one more is counted."""
        rng, before = self.rng, self.state
        data = content.stream(rng, self.rows(), rng.choice((1, 2)),
                              ("clean", "clean", "odd", "unknown"))[:9000]
        size = len(data)
        self.put("hold", 0, data)
        for name, values in (("taken", (size,)), ("held", (size,)),
                             ("stands", (0,)), ("phase", (1, 2)),
                             ("blocks", (size, size, size - 1, 0)),
                             ("skipped", (size, size - 1, 0, 0))):
            self.poke(name, rng.choice(values))
        if self.state.phase == model.FEEDING and rng.random() < 0.6:
            self.call("feed", rng.choice((b"-", b"00", b"2440")))
        else:
            self.call("finish")
        self.any_call()
        self.poke_to(before)
        self.mend()

    def limit(self):
        """The run near its 4,294,967,295 bytes."""
        rng, before = self.rng, self.state
        if before.phase != model.FEEDING and rng.random() < 0.7:
            return
        room = rng.choice((0, 0, 1, 2, 7, 8, 9, 20, 60, 200))
        self.poke("taken", model.RUN_LIMIT - room)
        for _ in range(rng.choice((2, 3, 4))):
            if rng.random() < 0.15:
                self.call("feed", b"-")
            else:
                self.feed()
        if rng.random() < 0.4:
            self.finish()
            if rng.random() < 0.6:
                self.finish()
        elif rng.random() < 0.8:
            self.poke("taken", max(before.taken, self.state.held,
                                   self.state.blocks, self.state.skipped))
        self.mend()

    def spoil_bytes(self):
        """Bytes of a buffer overwritten, calls, and mostly the old ones."""
        rng = self.rng
        name = rng.choice(("hold", "force", "force", "waiting"))
        used = {"hold": self.state.held, "force": self.state.force,
                "waiting": self.state.waits}[name]
        full = len(self.player.buffers[name])
        used = min(used, full - 1)
        near = rng.randrange(max(1, used)) if rng.random() < 0.85 else (
            rng.choice((0, used, full - 1)))
        size = min(full - near, rng.choice((1, 1, 2, 4, 20)))
        old = bytes(self.player.buffers[name][near:near + size])
        new = content.noise(rng, size)
        if rng.random() < 0.4:
            new = bytes((old[0] ^ 1 << rng.randrange(8),)) + old[1:]
        self.put(name, near, new)
        for _ in range(rng.choice((1, 2, 3))):
            self.any_call()
        if rng.random() < 0.8:
            self.put(name, near, old)
        self.mend()

    def plant(self):
        """Whole things planted: a table in a store, blocks in the hold."""
        rng = self.rng
        if rng.random() < 0.5:
            name = rng.choice(("force", "waiting"))
            table = (content.valid_table(rng) if rng.random() < 0.6
                     else content.broken_table(rng))[:8192]
            self.put(name, 0, table)
            self.poke("force" if name == "force" else "waits", len(table))
        else:
            data = content.stream(rng, self.rows(), rng.randrange(1, 6))
            data = data[:20000]
            self.put("hold", 0, data)
            room = self.state.taken if rng.random() < 0.5 else len(data)
            self.poke("taken", max(room, len(data)))
            self.poke("held", len(data))
            self.poke("stands", rng.choice((0, 0, 8, len(data))
                                           if len(data) >= 8 else (0,)))
            if rng.random() < 0.3:
                self.twist("count")
        for _ in range(rng.choice((1, 2, 3))):
            self.any_call()
        self.mend()

    def spoil_record(self):
        """Record calls with nothing in force, a spoiled store or state."""
        rng = self.rng
        name = rng.choice(("force", "force", "held", "blocks", "waits",
                           "ceiling"))
        old = getattr(self.state, name)
        self.poke(name, rng.choice(self.spoil_values(name)))
        for _ in range(3):
            self.record()
        self.poke(name, old)

    def short_record(self):
        """A record call lent a short store, or short ones it is not lent."""
        self.call("size", self.rng.choice(("force", "hold", "waiting")), 8191)
        self.record()

    # ------------------------------------------------- blocks to be written

    def keep_written(self, line, answer):
        """The block that a `write` line made, with what the line asked
        for."""
        if answer[0] != "written":
            return
        number, revision = line.split(b" ", 3)[1:3]
        block = bytes(self.player.buffers["out"][:int(answer[1])])
        self.written.append((int(number), int(revision), block))

    def wanted(self):
        """A block that the table in force has a row for."""
        return content.allowed(self.rng, self.rng.choice(self.rows()))

    def ask(self, wanted):
        """Its line; the block, or none where it was refused."""
        words = wanted.words()
        if self.rng.random() < 0.03:
            words = content.respell(self.rng, words)
        answer = self.say(b" ".join(words))
        return self.written[-1][2] if answer[:1] == ["written"] else b""

    def write(self):
        """Allowed in the greater part, else with a fault or two."""
        rng, wanted = self.rng, self.wanted()
        draw = rng.random()
        if draw > 0.6:
            content.spoil(rng, wanted)
        if draw > 0.97:
            content.fault_number(rng, wanted)
        elif draw > 0.94:
            content.spoil(rng, wanted)
        block = self.ask(wanted)
        if block and rng.random() < 0.5:
            self.block = block
            if len(block) < 3000 and rng.random() < 0.5:
                self.rest += block

    def sizes(self, wanted):
        """`size out` lines about the length that the block has."""
        rng, length = self.rng, self.length_of(wanted)
        for _ in range(rng.choice((1, 1, 1, 2))):
            self.call("size", "out", rng.choice((
                length, length, length - 1, length - 1, length - 4,
                length + 1, length + 4, 0, 1, 8, 14, 15, 16, 65535, 65536,
                65537, 2 ** 64 - 1, rng.randrange(length))))

    def write_room(self):
        """A short out buffer; a fault too now and then, which comes first."""
        rng, wanted = self.rng, self.wanted()
        if rng.random() < 0.15:
            content.spoil(rng, wanted)
        self.sizes(wanted)
        draw = rng.random()
        if draw < 0.1:
            self.say(rng.choice(content.BAD_WRITES))    # ends no `size`
        elif draw < 0.2:
            self.call(rng.choice(("bytes", "tow -", "withdraw")))    # ends it
        self.ask(wanted)
        if rng.random() < 0.3:
            self.ask(wanted)

    def write_spoiled(self):
        """A state, a table or a store that is not right, and back."""
        rng, before = self.rng, self.state
        wanted = self.wanted()
        if rng.random() < 0.25:
            content.spoil(rng, wanted)
        kind = rng.randrange(5)
        at = rng.randrange(min(before.force + 8, 8192))
        old = bytes(self.player.buffers["force"][at:at + 1])
        if kind == 0:
            name = rng.choice(("force", "force", "hold", "waiting"))
            self.call("size", name, rng.choice((8191, 8191, 0, 8192)))
        elif kind == 1:
            self.put("force", at, bytes((old[0] ^ 1 << rng.randrange(8),)))
        elif kind == 2:
            self.poke("force", rng.choice((0, 0, 19, before.force + 4, 8192)))
        else:
            name = rng.choice(NAMES)
            self.poke(name, rng.choice(self.spoil_values(name)))
        self.ask(wanted)
        if kind == 1:
            self.put("force", at, old)
        self.poke_to(before)

    def write_pair(self):
        """The conditions of two or three refusals at once."""
        rng, before = self.rng, self.state
        wanted = self.wanted()
        kinds = ("size", "one", "none", "table", "number", "fault", "room")
        for kind in rng.sample(kinds, rng.choice((2, 2, 3))):
            if kind == "number":
                content.fault_number(rng, wanted)
            elif kind == "fault":
                content.spoil(rng, wanted)
            elif kind == "room":
                self.call("size", "out", rng.choice((0, 8, 12, 15)))
            else:
                self.twist(kind)
        self.ask(wanted)
        self.poke_to(before)

    def write_bad(self):
        """Lines that are no call, and some that nearly are none."""
        rng = self.rng
        if rng.random() < 0.25:
            self.say(rng.choice(content.BAD_WRITES))
        else:
            words = content.spoil_words(rng, self.wanted().words())
            self.say(b" ".join(words))

    def write_words(self):
        """Every line of those, and each word that is no value or just is
        one: past the last row, so that no call writes it."""
        for line in content.BAD_WRITES:
            self.say(line)
        for word in content.NO_VALUES + content.VALUES:
            wanted = self.wanted()
            values, fields = (wanted.lists() or [([], ())])[-1]
            values += [None] * (len(fields) - len(values))
            self.say(b" ".join(wanted.words() + [word]))

    def write_many(self):
        """255 sub-blocks and more."""
        rng = self.rng
        rows = [row for row in self.rows() if 0 < len(row.subs) < 16]
        if rows:
            self.ask(content.allowed(rng, rng.choice(rows),
                                     rng.choice((254, 255, 255, 256))))

    def write_long(self, kind):
        """Lines of about as many bytes as a line may have: six kinds."""
        words = self.wanted().words()
        if kind == 0:
            self.write_longest()
        elif kind == 1:
            self.say(stretched(b" ".join(words), b" -"))
        elif kind == 2:
            line = stretched(b" ".join(words), b" -")
            self.say(line.replace(b"write ", b"write 0", 1))    # too long
        elif kind == 3:
            self.say(stretched(b" ".join(words[:5]), b" /"))
        elif kind == 4:
            self.say(stretched(b" ".join(words) + b" u", b"00"))
        else:
            self.say(stretched(b" ".join(words[:5]), b" -"))

    def write_longest(self):
        """255 sub-blocks of 255 values, through a table put into force for
        this one line."""
        rng, before = self.rng, self.state
        row = content.full_row(rng, rng.randrange(8192))
        table = model.make_table(rng.randrange(65536), (row,))
        old = bytes(self.player.buffers["force"][:len(table)])
        self.put("force", 0, table)
        self.poke("force", len(table))
        wanted = content.allowed(rng, row, 255)
        if rng.random() < 0.3:
            self.call("size", "out", rng.choice((65043, 65044)))
        self.ask(wanted)
        self.poke_to(before)
        self.put("force", 0, old)

    def read_back(self):
        """A block is written, then read and fed."""
        rng, wanted = self.rng, self.wanted()
        block = self.ask(wanted)
        if not block:
            return
        for _ in range(rng.choice((2, 3, 5))):
            self.record(block)
        if self.state.phase == model.FEEDING and len(block) < 9000:
            cut = rng.choice((0, 8, len(block) - 1, rng.randrange(len(block))))
            for piece in (block[:cut], block[cut:]):
                self.call("feed", hexed(piece))
            self.call("bytes")

    def write_again(self):
        """All that a block answers is read, and written again: W21."""
        wanted = self.wanted()
        if len(wanted.lists()) * len(wanted.row.subs) > 40:
            return
        block = self.ask(wanted)
        if not block:
            return
        row, data = wanted.row, hexed(block)
        again = content.Wanted(row, wanted.revision)
        for name in ("tow", "wnc"):
            given = self.given(self.call(name, data))
            setattr(again, name, given and given[1])
        body = [self.given(self.call("body", index, data))
                for index in range(len(row.body))]
        again.body = [] if row.subs else body
        again.subs = [[self.given(self.call("sub", number, index, data))
                       for index in range(len(row.subs))]
                      for number in range(len(wanted.subs))]
        self.sizes(again)
        self.ask(again)

    @staticmethod
    def given(answer):
        """The value that an answer is given back as."""
        if len(answer) == 1 or answer[0] == "refused":
            return None
        return answer[0], int(answer[1])

    def reopen(self, table, good=0.3):
        """Another table in force, in a state that is not spoiled; with a
        ceiling now and then."""
        self.call("stage", hexed(table))
        while self.state.phase != model.CLOSED:
            self.call("finish")
        self.open(good, bad=0)

    # ------------------------------------------------- ceilings

    def ceiling_refill(self):
        """More to be fed, of lengths about the ceiling."""
        rng, ceiling = self.rng, self.state.ceiling
        if not model.ceiling_right(ceiling):
            ceiling = content.good_ceiling(rng)
        self.rest += content.ceiling_stream(rng, self.rows(), ceiling,
                                            rng.randrange(1, 5))

    def ceiling_start(self):
        """In a closed reader: a table, mostly the one shipped, and Open."""
        rng = self.rng
        if not (self.state.waits or self.state.force) or rng.random() < 0.1:
            table = (model.shipped_table(1) if rng.random() < 0.7
                     else content.valid_table(rng))
            self.call("stage", hexed(table))
        if rng.random() < 0.5:
            self.rest = b""
        self.open(good=0.7, bad=0.1)

    def ceiling_feed(self):
        """A piece that often ends with a header, or one byte before that."""
        rng = self.rng
        if len(self.rest) < 8:
            self.ceiling_refill()
        at = self.rest.find(b"\x24\x40", rng.choice((0, 0, 1)))
        size = rng.choice((1, 2, 7, 8, 9, rng.randrange(150), at + 7, at + 8,
                           at + 8, len(self.rest), len(self.rest)))
        piece = self.rest[:size]
        answer = self.call("feed", hexed(piece))
        if answer[0] == "fed":
            self.rest = self.rest[int(answer[1]):]
        self.keep_block(answer)

    def ceiling_run(self):
        """Whatever carries the run on."""
        phase = self.state.phase
        if phase == model.CLOSED:
            self.ceiling_start()
        elif phase == model.FINISHING or self.rng.random() < 0.1:
            self.finish()
        else:
            self.ceiling_feed()

    def ceiling_call(self):
        """Mostly a call that goes by the ceiling."""
        draw = self.rng.random()
        if draw < 0.45:
            self.ceiling_run()
        elif draw < 0.6:
            self.keep_block(self.call("feed", b"-"))
        else:
            self.any_call()

    def waited_for(self):
        """The length of the block that reading waits for, 0 for none."""
        s, hold = self.state, self.player.buffers["hold"]
        if s.held - s.stands < 8 or hold[s.stands:s.stands + 2] != b"\x24\x40":
            return 0
        return model.length_field(hold, s.stands)

    def ceiling_poke(self):
        """Another ceiling in whatever phase, about what stands or is waited
        for; calls go by it, and mostly the old one is back then."""
        rng, before = self.rng, self.state.ceiling
        near = rng.choice((self.state.stands, self.waited_for(),
                           self.state.held))
        self.poke("ceiling", rng.choice((
            near, near, max(near, 4) - 4, near + 4, 16, 20,
            model.CEILING_MOST, content.good_ceiling(rng),
            content.good_ceiling(rng))))
        for _ in range(rng.choice((1, 2, 3))):
            self.ceiling_call()
        if rng.random() < 0.6 or model.spoiled(self.state):
            self.poke("ceiling", before)
        self.mend()

    def sound_call(self, word):
        """A call with nothing to refuse it for, where the rows shipped are in
        force, but what the state was spoiled with."""
        rng = self.rng
        phase = {"open": 0, "feed": 1, "finish": rng.choice((1, 2))}.get(word)
        if phase is not None and phase != self.state.phase:
            self.poke("phase", phase)
        numbers = {"body": 1, "sub": 2, "subbytes": 1, "sub2": 3, "range": 1,
                   "range2": 2, "tow": 0, "wnc": 0}
        if word == "open":
            self.open(good=0.5, bad=0)
        elif word == "feed":
            self.call(word, hexed(content.small_blocks(rng, 16, 100)))
        elif word == "stage":
            self.call(word, hexed(content.valid_table(rng)))
        elif word == "write":
            self.ask(self.wanted())
        elif word in numbers:
            self.call(word, *[0] * numbers[word],
                      hexed(content.small_epoch(rng)))
        else:
            self.call(word)

    def ceiling_spoil(self):
        """A number in the state that is no ceiling: every call is refused."""
        rng, before = self.rng, self.state
        self.poke("ceiling", content.bad_ceiling(rng))
        for word in rng.sample(WORDS, rng.choice((2, 3, 4))):
            self.sound_call(word)
        self.poke_to(before)

    def ceiling_orders(self):
        """Open, with the conditions of some of its refusals at once."""
        rng, before = self.rng, self.state
        kinds = rng.sample((1, 2, 13, 5, 4), rng.choice((1, 2, 2, 2, 3)))
        self.poke("phase", rng.choice((1, 2)) if 2 in kinds else 0)
        if 1 in kinds:
            self.twist(rng.choice(("one", "one", "size")))
        if 5 in kinds:
            self.twist("none")
        if 4 in kinds:
            self.poke("waits", rng.choice((19, 1, 8192)))
        if 13 in kinds:
            self.call("open", content.bad_ceiling(rng))
        else:
            self.open(good=0.7, bad=0)
        self.poke_to(before)
        self.mend()

    def length_of(self, wanted):
        """The length that a block has once it is written."""
        return model.block_length(wanted.row, min(wanted.revision, 7),
                                  len(wanted.subs))

    def ceiling_write(self):
        """A block as long as the ceiling, longer or shorter; the buffer is
        too short as well now and then, or a value is wrong."""
        rng, before, wanted = self.rng, self.state.ceiling, self.wanted()
        length = self.length_of(wanted)
        self.poke("ceiling", rng.choice((
            length, length, length - 4, length - 4, length + 4, 16,
            model.CEILING_MOST, content.good_ceiling(rng), length + 1, 12)))
        if rng.random() < 0.15:
            content.spoil(rng, wanted)
        if rng.random() < 0.35:
            self.call("size", "out", rng.choice((length, length - 1, length,
                                                 length - 1, 15, 0)))
        self.ask(wanted)
        self.poke("ceiling", before)

    def close(self):
        """To the run's End; a spoiled state, which has none, is set to a
        closed one."""
        while self.state.phase != model.CLOSED:
            if model.spoiled(self.state):
                self.poke_to(self.sane._replace(
                    phase=model.CLOSED, held=0, stands=0, blocks=0,
                    skipped=0))
            else:
                self.finish()

    def ceiling_life(self):
        """A ceiling from one Open to the next: it is there after End, and
        past refused Opens, and the next that is not refused replaces it.
        Blocks that are written show it."""
        rng, wanted = self.rng, self.wanted()
        length = self.length_of(wanted)
        self.close()
        self.call("open", rng.choice((max(16, length - 4), length, 16)))
        self.call("feed", hexed(content.small_blocks(rng, 16, 100)))
        self.close()
        self.ask(wanted)
        if rng.random() < 0.5:
            self.call("open", content.bad_ceiling(rng))
            self.ask(wanted)
        self.open(good=0.3, bad=0)
        self.ask(wanted)

    def ceiling_hold(self):
        """More bytes held, or a longer block standing, than the ceiling has:
        no call minds."""
        rng, before = self.rng, self.state
        low = rng.choice((16, 20, 24, 44))
        block = content.sized_block(rng, low + 4 * rng.randrange(1, 9), low)
        data = block + content.ceiling_stream(rng, self.rows(), low, 2)[:2000]
        self.put("hold", 0, data)
        for name, values in (("taken", (len(data),)), ("held", (len(data),)),
                             ("stands", (0, len(block))), ("blocks", (0, 1)),
                             ("phase", (1, 1, 2)), ("skipped", (0,)),
                             ("ceiling", (low,))):
            self.poke(name, rng.choice(values))
        if rng.random() < 0.6:
            self.call("bytes")
        if self.state.phase == model.FEEDING and rng.random() < 0.6:
            self.call("feed", rng.choice((b"-", b"00", b"2440")))
        else:
            self.call("finish")
        self.poke_to(before)
        self.mend()

    def ceiling_record(self):
        """Record calls on a block that a low ceiling would not let through."""
        rng, before = self.rng, self.state.ceiling
        self.poke("ceiling", rng.choice((16, 20, before, 40)))
        data = content.small_epoch(rng) if rng.random() < 0.5 else None
        for _ in range(rng.choice((1, 2, 3))):
            self.record(data)
        self.poke("ceiling", before)

    def ceiling_far(self):
        """The longest blocks there are, about a ceiling as great."""
        rng = self.rng
        ceiling, length = rng.choice(((65528, 65532), (65528, 65528),
                                      (65532, 65532), (32768, 32772)))
        self.close()
        self.call("open", ceiling)
        data = content.sized_block(rng, length, 100)
        while data:
            piece = data[:rng.choice((8, 40000, length))]
            answer = self.call("feed", hexed(piece))
            data = data[int(answer[1]):] if answer[0] == "fed" else b""

    def ceiling_bad(self):
        """Lines about ceilings that are no call, and some that just are."""
        self.say(self.rng.choice((
            b"open 16 16", b"open  16", b"open 16 ", b"open x", b"open -",
            b"open +16", b"open -16", b"open 0x10", b"open 16.0", b"open 16\r",
            b"open ceiling", b"open 16 -", b"OPEN 16", b"open16",
            b"open 18446744073709551616", b"open 99999999999999999999999",
            b"open 18446744073709551615", b"open 0016",
            b"open 00000000000000000000000000004096", b"open 0", b"open 65536",
            b"open 04096 4096", b"finish 16", b"poke ceiling",
            b"poke ceiling x", b"poke ceiling -", b"poke ceiling 16 16",
            b"poke ceiling 18446744073709551616", b"poke Ceiling 16",
            b"poke ceilings 16", b"size ceiling 16", b"put ceiling 0 00")))

    # ------------------------------------------------- lines that are no call

    def bad(self):
        for _ in range(self.rng.choice((1, 1, 2))):
            self.say(self.bad_line())
        if self.rng.random() < 0.2:
            self.write_bad()
        if self.rng.random() < 0.1:
            self.ceiling_bad()
        if self.rng.random() < 0.05:
            self.long_lines()

    def bad_level(self):
        """The calls on two levels, told wrongly or just rightly."""
        line = self.rng.choice((
            b"sub2 0 0 %s", b"sub2 0 0 0 0 %s", b"sub2 0 0 0", b"sub2",
            b"sub2 0 -1 0 %s", b"sub2 0 0 18446744073709551616 -",
            b"sub2 18446744073709551615 0 0 -", b"SUB2 0 0 0 -", b"sub3 0 -",
            b"sub2 0 0 - %s", b"sub2 00 000 0 %s", b"range %s", b"range 0",
            b"range 0 0 %s", b"range x %s", b"range - %s", b"range 0 -\r",
            b"Range 0 -", b"range 0  -", b"range", b"range2", b"range2 0 -",
            b"range2 0 0", b"range2 0 0 0 %s", b"range2 0 x -",
            b"range2 0 0 0", b"range2 0 0 - ", b"ranges 0 -", b"range1 0 -",
            b"range 18446744073709551616 %s", b"range 0001 %s",
            b"range2 018446744073709551615 00 %s", b"range3 0 0 %s"))
        block = hexed(content.row_block(self.rng, self.level_row()))
        self.say(line.replace(b"%s", block))

    def bad_line(self):
        rng = self.rng
        block = hexed(content.row_block(rng, rng.choice(SHIPPED)))
        return rng.choice((
            b"", b"", b"# a comment", b"#", b"#open\r", b"# \xff\x00 bytes",
            b"\r", b"open\r", b"bytes\r", b"feed 24\r", b"open ", b" open",
            b"feed  24", b"feed 24 ", b" ", b"  ", b"feed", b"feed ",
            b"feed 24 40", b"open -", b"finish 1", b"feed 2", b"feed 244",
            b"feed 2g", b"feed 0x24", b"feed --", b"feed -2", b"OPEN",
            b"Open", b"opens", b"ope", b"feed\t24", b"body 0",
            b"body " + block, b"body 0 0 " + block, b"sub 0 " + block, b"sub 0 0 0 " + block,
            b"subbytes " + block, b"tow 0 " + block, b"tow", b"wnc 1 -",
            b"body -1 " + block, b"body +1 " + block, b"body x " + block,
            b"body 0x1 " + block, b"body 1.0 " + block, b"body - " + block,
            b"body 18446744073709551616 " + block,
            b"body 99999999999999999999 " + block,
            b"body 100000000000000000000000000000 " + block,
            b"body 18446744073709551615 " + block,
            b"body 00 " + block, b"body 0001 " + block,
            b"sub 000000000000000000000000000000 0 " + block,
            b"body 000000000000000000000000000001 " + block,
            b"poke", b"poke held", b"poke held x", b"poke head 1",
            b"poke Held 1", b"poke phase 3",
            b"poke phase 18446744073709551615",
            b"poke taken 18446744073709551616", b"poke taken -1",
            b"poke stands 0 0", b"poke version 1",
            b"put", b"put hold", b"put hold 0", b"put store 0 00",
            b"put hold 65536 00", b"put hold 65535 0000", b"put hold 65536 -",
            b"put hold 65537 -", b"put force 8192 00", b"put force 8191 0000",
            b"put waiting 8192 ff", b"put waiting 18446744073709551615 ff",
            b"put waiting 18446744073709551615 -", b"put hold 0 0",
            b"put hold 0 - -", b"put force 18446744073709551616 00",
            b"size", b"size hold", b"size held 1", b"size hold x",
            b"size hold -1", b"size waiting 18446744073709551616",
            b"size force 1 2", b"stage", b"stage x", b"withdraw now",
            b"bytes 0", b"finish\x00", b"\x00", b"feed " + block.upper(),
            b"tow " + block.upper(), b"feed -", b"stage -"))

    def long_lines(self):
        """Lines of exactly 270,000 bytes, and longer ones."""
        rng = self.rng
        kind = rng.randrange(6)
        fill = rng.choice((b"24", b"a5", b"FF"))
        if kind == 0:
            self.say(b"tow " + fill * 134998)
        elif kind == 1:
            self.say(b"tow " + fill * 134999)
        elif kind == 2:
            self.say(b"feed " + fill * 134998)
        elif kind == 3:
            self.say(b"stage " + fill * 134997)
        elif kind == 4:
            self.say(b"#" + b"x" * 269999)
        else:
            self.say(b"open" + b"x" * rng.choice((269996, 269997, 300000)))

    # ------------------------------------------------- the whole script

    def act(self, weights=None):
        """One of the actions, by their weights."""
        weights = weights or self.weights
        name = self.rng.choices(list(weights), list(weights.values()))[0]
        getattr(self, name)()

    def text(self):
        """The script; sometimes its last line has no line feed."""
        joined = b"\n".join(self.lines)
        return joined if self.rng.random() < 0.2 else joined + b"\n"


# Every call.
WORDS = ("open", "feed", "finish", "bytes", "stage", "withdraw", "body",
         "sub", "subbytes", "sub2", "range", "range2", "tow", "wnc", "write")


def stretched(line, fill):
    """A `write` line of exactly as many bytes as a line may have, by two
    bytes over and over."""
    if (model.LINE_MOST - len(line)) % 2:
        line = line.replace(b"write ", b"write 0", 1)
    return line + fill * ((model.LINE_MOST - len(line)) // 2)


ACTIONS = {"run": 34, "bytes": 4, "table": 8, "turn": 3, "record": 12,
           "sweep": 0.7, "short": 4, "spoil": 6, "limit": 1.5, "pair": 3,
           "edge": 1, "write": 5,
           "spoil_bytes": 4, "plant": 2, "bad": 5}
MODES = ("flight", "mixed", "mixed", "mixed", "storm")


def script(seed, calls=100):
    """A replay script of about `calls` calls."""
    maker = Maker("script %s" % seed, calls)
    if maker.rng.random() < 0.1:
        maker.call(maker.rng.choice(("open", "withdraw", "bytes")))
        maker.record()
    if maker.rng.random() < 0.75:
        maker.start()
    while maker.calls < maker.goal:
        maker.act()
    return maker.text()


# ------------------------------------------------------------ record scripts


def record_script(seed, answers=200):
    """A table staged and opened, then record calls over all its rows; a few
    tables one after the other."""
    maker = Maker("record %s" % seed, answers)
    while maker.calls < maker.goal:
        stop = maker.calls + maker.rng.choice((40, 80, 120))
        maker.call("stage", hexed(content.valid_table(maker.rng)))
        if maker.state.phase != model.CLOSED:
            maker.call("finish")
        maker.open(bad=0)
        while maker.calls < min(stop, maker.goal + 4):
            draw = maker.rng.random()
            if draw < 0.93:
                maker.record()
            elif draw < 0.985:
                maker.sweep()
            elif draw < 0.993:
                maker.spoil_record()
            else:
                maker.short_record()
    return maker.text()


# ---------------------------------------------------- scripts of two levels

LEVEL_ACTIONS = {"level_calls": 40, "level_sweep": 1.2, "level_table": 6,
                 "level_write": 2, "spoil_record": 0.5, "short_record": 0.5,
                 "bad_level": 2}


def level_script(seed, answers=150):
    """Tables with rows of two levels one after the other, and calls on blocks
    of theirs, broken tables between them.  Every tenth has a block as long as
    they get, every eighth what else is seldom."""
    maker = Maker("level %s" % seed, answers)
    rng = maker.rng
    if rng.random() < 0.2:
        maker.level_calls()    # no table is in force yet
    if seed % 8 == 2:
        maker.level_corners()
    while maker.calls < maker.goal:
        stop = maker.calls + rng.choice((30, 50, 70))
        maker.reopen(model.make_table(rng.randrange(65536),
                                      content.level_rows(rng)))
        if seed % 10 == 1 and stop > maker.goal:
            maker.level_full()
        while maker.calls < min(stop, maker.goal):
            maker.act(LEVEL_ACTIONS)
    return maker.text()


# ------------------------------------------------------ scripts of ceilings

CEILING_ACTIONS = {"ceiling_run": 60, "ceiling_poke": 7, "ceiling_spoil": 4,
                   "ceiling_orders": 6, "ceiling_write": 6,
                   "ceiling_life": 1.5, "ceiling_hold": 3,
                   "ceiling_record": 3, "ceiling_bad": 2, "bytes": 3,
                   "table": 1, "turn": 1}


def ceiling_script(seed, calls=120):
    """Runs with ceilings, one after the other.  Every sixth has a block as
    long as they get."""
    maker = Maker("ceiling %s" % seed, calls)
    if maker.rng.random() < 0.2:
        maker.open(good=0.5, bad=0.5)    # no table yet
    maker.ceiling_start()
    if seed % 6 == 1:
        maker.ceiling_far()
    while maker.calls < maker.goal:
        maker.act(CEILING_ACTIONS)
    return maker.text()


# ------------------------------------------------------------- write scripts

WRITE_ACTIONS = {"write": 62, "write_room": 9, "write_spoiled": 6,
                 "write_pair": 4, "write_bad": 8, "write_many": 0.7,
                 "read_back": 5, "write_again": 1.5, "ceiling_write": 3}


def write_maker(seed, writes):
    """The maker of a script of about so many `write` calls: a few tables one
    after the other, and blocks of all their rows.  Every fifth has a line as
    long as a line may be, every twentieth all the lines that are no call."""
    maker = Maker("write %s" % seed, writes)
    rng = maker.rng
    if rng.random() < 0.3:
        maker.write()    # no table is in force yet
    long = seed // 5 % 6 if seed % 5 == 0 else None
    while maker.writes < maker.goal:
        stop = maker.writes + rng.choice((15, 25, 40))
        maker.reopen(model.make_table(rng.randrange(65536),
                                      content.write_rows(rng)), good=0.1)
        if long is not None:
            maker.write_long(long)
            long = None
        while maker.writes < min(stop, maker.goal):
            maker.act(WRITE_ACTIONS)
    if seed % 20 == 1:
        maker.write_words()
    return maker


def write_script(seed, writes=100):
    return write_maker(seed, writes).text()


def write_blocks(seed, writes=100):
    """[(number, revision, bytes)] of the blocks that the script makes, the
    first two as its lines ask for them."""
    return write_maker(seed, writes).written


# -------------------------------------------------------- runs for the lister


def whole_stream(seed):
    """A run of 100 kB and more, of all kinds of content."""
    rng = random.Random("stream %s" % seed)
    parts, size, goal = [], 0, 100000 + rng.randrange(100000)
    clean = rng.random() < 0.25
    kinds = ("clean", "unknown", "nested", "noise") if clean else (
        content.CHUNKS)
    while size < goal:
        draw = rng.random()
        if draw < 0.0005:
            part = content.big_block(rng)
        elif draw < 0.001:
            part = content.false_header(rng, 65532)
        else:
            part = content.chunk(rng, SHIPPED, kinds)
        parts.append(part)
        size += len(part)
    return b"".join(parts)
