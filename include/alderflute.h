/*
 * Alderflute for C and C++: reads Septentrio's SBF stream, and writes blocks of it. It finds the blocks in a run of bytes and
 * reads their fields by number through a block table; through the same table it makes a block from values. Every call is
 * proved against its definition; crates/capi of the repository has both.
 *
 * RULES. What stands here in short stands in docs/RULES.md of the repository in full, by number: how a run is read F11 to F17,
 * calls and buffers C1 to C17, refusal n as Rn, tables T1 to T21, values V1 to V12, writing W1 to W9. The numbers are named
 * below.
 *
 * WORDS. A run is the bytes from an open to END; a piece is what one feed is given of it, cut anywhere. A block has a number,
 * which says what it is, and a revision, which grows as fields are added to it. A table has a row for each block number: where
 * its fields stand, their types, from which revision on, and which values mean that there is none. A block of a later revision
 * than its row knows is read by the fields that the row has, and not refused. Body fields stand once in a block; a sub-block
 * repeats its fields. In a block of two levels, as MeasEpoch is one, each first-level sub-block is followed by second-level
 * ones nested in it, as many as its last field, N2, says; the walk over them goes by that and by the two lengths in the block.
 * A table's version is only what the table says of itself. Nothing checks that two tables of one version are the same: those
 * of samples/shipped-v1 and samples/flight-line-v1 both say 1, with other field numbers.
 *
 * CALLS IN ORDER. alderflute_new once; stage a table; open a run; feed it, and after each BLOCK ask for its bytes and fields;
 * finish until END. Then open the next run. Stage and withdraw may come at any time: a staged table waits for the next open.
 * Write may come as soon as a table is in force, that is from the first open on, also while no run is open.
 *
 * LINKING. tools/capi, or make, builds target/staticlib/libalderflute.a; `make install PREFIX=..` puts header, archive and
 * alderflute.pc in place, and then `cc .. $(pkg-config --cflags --libs alderflute)` links; PREFIX/share/alderflute has the
 * examples, and ranges.c for MeasEpoch, with the table that they include as a C header. The archive is position-independent
 * code for x86-64 Linux and the System V ABI, about 24 kB with its constants. Of a C library it wants memmove and memset and
 * nothing else, so it links into a freestanding program that has both. It allocates nothing, keeps no variables, calls nothing
 * back and starts no threads. This header includes stddef.h and stdint.h only. At the start compare alderflute_abi() with
 * ALDERFLUTE_ABI, as the example does: where they differ, header and archive do not belong together.
 *
 * BARE METAL. The archive uses the SSE registers: switch SSE on before the first call, and let interrupt handlers that use it
 * save and restore these registers. It uses the red zone, 128 bytes below the stack pointer: an interrupt must not push onto
 * the stack of the call that it interrupts. Give interrupts another stack, by the processor's interrupt stack table.
 *
 * THREADS (C1). Calls of one reader come one after the other, also where they are lent different buffers. Feed and stage, say,
 * both return the next state: of two that begin with the same state, what the one did is lost. Where threads share a reader,
 * one lock goes around each call and the keeping of its state. From BLOCK on it is held until the last use of that block's
 * bytes, or until they are copied: they stand in the hold, where another thread's feed writes. An interrupt handler counts as
 * a thread, and cannot wait for a lock: keep its interrupt off meanwhile, or let it queue bytes and make no calls. Calls of
 * different readers may run at the same time.
 *
 * STATE (C1, C15, R1, R23). A reader is an alderflute_state and its three buffers. alderflute_new() is the only start. Never
 * start with a struct of zeros: every call refuses it with 1, since 0 is no ceiling. The state goes into every call by value.
 * A call that returns an alderflute_reply returns the next state in it: go on with that one, and with no older one. The others
 * (bytes, body, sub, subbytes, sub2, range, range2, tow, wnc, write) do not change it. The struct has no pointers: keep it
 * where you like, move or save it with the buffers, but write nothing into it; and go on with a saved one only under the same
 * ALDERFLUTE_ABI: another reads it wrongly, and refusal 1 need not find that. Of made-up states refusal 1 finds those that
 * its line below names, and no others. Any other is taken at its word: five held bytes are a standing block where the state
 * says so, places and the counts of END come from the state, and a count that was close to its bound may pass it, which the
 * next call refuses. But no call reads or writes past the buffers given.
 *
 * BUFFERS (C2 to C4). You own every buffer; a call borrows it until it returns, and no pointer is kept after that. Three
 * buffers belong to one reader from alderflute_new on, and between calls nobody else may write to them:
 *   the hold      ALDERFLUTE_HOLD bytes or more. The bytes that are not decided yet, a reported block first.
 *                 Lent to feed, finish (they write it) and bytes.
 *   in force      ALDERFLUTE_STORE bytes or more. The table that blocks are read by.
 *                 Lent to open (writes it), body, sub, subbytes, sub2, range, range2 and write.
 *   waiting       ALDERFLUTE_STORE bytes or more. A table that waits for the next open.
 *                 Lent to stage (writes it) and open.
 * Their contents before the first call do not matter. Pieces, tables, blocks and the lists of write are given for one call
 * only, and only read. Write writes to a fourth buffer, none of these three: see WRITING.
 *   - No buffer that a call writes may overlap another argument of that call: not the hold and the piece, not the in-force
 *     and the waiting store, not the waiting store and the table to be staged, not the buffer that write writes and its lists
 *     or the in-force store. Nothing checks this.
 *   - A buffer is a pointer and a length in bytes; all of these bytes must be there. With length 0 any pointer will do, NULL
 *     too. No alignment is asked for. The bits of write are the one exception: an array of uint64_t, aligned as C has it, and
 *     its length counts elements.
 *   - A part that is handed back is an offset and a length in the buffer that you gave. It is no copy: a part of the hold is
 *     good until the next feed or finish with that hold, a part of a block as long as the block's bytes.
 *
 * ANSWERS (R21, R22). refusal is 0 where the call was done, else the number of the refusal; kind says which values are set.
 * All other values are 0. A refused call returns the state that it was given and has written nothing: go on as if it had not
 * been made. A block that stood before a refused feed stands after it. The same arguments and bytes give the same answer,
 * member by member: alderflute_answer, alderflute_block, alderflute_part and alderflute_written have padding, of which nothing
 * is promised, so compare members and not memory.
 *
 * CEILING (F16, F17, C17). Open is given settings, by value: an alderflute_settings, whose one member is the ceiling, the
 * greatest length that a block of this run may have. alderflute_default_settings() has the greatest one, 65,532: no block is
 * longer, and every one is reported. To take another, set the member: any number that 4 divides, from 16 to 65,532. Any other
 * is refused with 13; none is rounded.
 *   - What it is for. Noise, or a header with a flipped bit, can look like the header of a long block. Nothing behind it is
 *     reported before as many bytes came as it says: at 115,200 baud 65,532 bytes take 5.7 s. With a ceiling, a header that
 *     says more is noise as soon as its eight bytes are there; and after each MORE fewer bytes are held than the ceiling says.
 *   - What it costs. A block that is longer than the ceiling is not reported: its bytes are skipped one by one, and what looks
 *     like a block among them is reported as one. So take at least the length of the longest block that your receiver sends,
 *     and where you do not know it, the default. And take no more than you need: a header that says no more than the ceiling
 *     still waits, at 115,200 baud 0.36 s for 4,096 bytes.
 *         alderflute_settings settings = alderflute_default_settings();
 *         settings.ceiling = 4096;
 *   - How long it holds. The run goes by it, all of it, and after END it stays in the state until the next open that is not
 *     refused. No other call changes it. Write goes by it too, and refuses a longer block with 12. The calls that read a block
 *     do not: they take any, a longer one too.
 * The hold has its ALDERFLUTE_HOLD bytes with every ceiling.
 *
 * REFUSALS (R1 to R13, their order R20). The numbers have names, ALDERFLUTE_REFUSAL_.., and alderflute_refusal_text gives a
 * line for a log.
 *    1  BAD_BUFFER. A buffer of the reader is shorter than above, or a number in the state is out of bounds: phase is above
 *       2; held above 65,532, above taken or below standing; in_force or waiting above 8,192; taken above 4,294,967,295;
 *       blocks or skipped above taken. Or the ceiling in the state is none, as 13 has it.
 *    2  OUT_OF_TURN. open while a run is open; feed or finish while none is; feed once finish was called.
 *    3  RUN_FULL. feed: the run has had its 4,294,967,295 bytes, and no block is left among those held. Only an empty piece
 *       is taken then.
 *    4  BAD_TABLE. The table breaks a rule: the one to be staged, the one to be opened or the one in force.
 *    5  NO_TABLE. open with none waiting and none in force; body, sub, subbytes, sub2, range, range2 and write with none in
 *       force.
 *    6  NO_ROW. The table has no row for the block's number; of write, for the number that was given, or one of two levels,
 *       which write does not write.
 *    7  TOO_SHORT. The block ends before the body that its revision has by the row, or has fewer than 14 bytes.
 *    8  BAD_SUB_BLOCKS. The block's sub-blocks are shorter than the fields that its revision has by the row, or end past
 *       the block's end. Of two levels: the walk over its sub-blocks ends past the block's end, or the sub-blocks of a level
 *       that has any are too short for its fields.
 *    9  NO_SUCH_FIELD. The row has no field of that number in that level, or the block no such sub-block. sub2: the row is of
 *       one level. range, range2: no MeasEpoch of two levels, or a field that they read is of another type, or no number.
 *   10  NOT_ONE_FRAME. What was given as a block is not exactly one: sync bytes, length and CRC do not all fit it.
 *   11  BAD_VALUES. write: the revision is above 7; there are more than 255 sub-blocks, or any where the row has no
 *       sub-fields; or TOW, WNc or some value is not allowed, as WRITING has it.
 *   12  NO_ROOM. write: the block is longer than the buffer, or than the ceiling in the state, or its sub-blocks than 255 bytes
 *       each.
 *   13  BAD_CEILING. open: the ceiling that it was given is none: 4 does not divide it, or it is below 16 or above 65,532.
 * Where several hold, open gives the first of 1, 2, 13, 5, 4; feed of 1, 2, 3; finish of 1, 2; bytes and withdraw 1; stage of
 * 1, 4; body, sub, subbytes, sub2, range and range2 of 1, 5, 4, 10, 6, 7, 8, 9; tow and wnc of 1, 10, 7; write of 1, 5, 4, 6,
 * 11, 12, where 1 does not look at the buffer that is written.
 *
 * WRITING (W1 to W9). alderflute_write makes one block from values, through the table in force. It is given the block's number
 * and revision, TOW and WNc, and two lists: kinds, a byte a value, and beside it bits, 64 a value. Value i of the body is for
 * row i of the body, the number that alderflute_body reads it by; the values of each sub-block follow, in the same way.
 *   - A value is unset, or an unsigned number, a signed one (an int64_t cast to uint64_t), a single float (32 bits, the upper
 *     ones 0) or a double float. Its kind is one of ALDERFLUTE_GIVE_UNSET and so on, which are not the kinds of an
 *     alderflute_field, though 1 to 4 mean the same: what was read as DO_NOT_USE or NOT_IN_REVISION is given as unset.
 *   - The kind ALDERFLUTE_GIVE_SUB_BLOCK is no value: it says that a sub-block begins, and stands there once for each. N and
 *     SBLength are not given: what stands before the first sub-block is all unset, or left out.
 *   - Values that are left out at the end of the body, or of a sub-block, are unset. The bits of what is unset, and of the
 *     beginning of a sub-block, are not looked at. Where the lists differ in length the kinds count: bits that are missing are
 *     0, and those too many are not looked at.
 *   - Which values are allowed. For a field that the revision carries: unset, where the row has a Do-Not-Use value for it,
 *     which is written then; or a value of the kind that the field reads as, in the range of its type, and none that reads as
 *     Do-Not-Use: of PPPInfo by the table shipped, whose three highest bits are the type of the seed, no number below 8192,
 *     and 0 is written where it is unset (V10, W6). A field without a Do-Not-Use value has to be given, a reserved one too.
 *     For a field that the revision does not carry, and past the last row: unset. TOW is a u4 and WNc a u2, of any revision,
 *     with all ones for Do-Not-Use.
 *   - The buffer is yours, of any length, and none of the reader's three. The block stands at its start, and what follows the
 *     block is as it was; a refused write leaves every byte. Gaps and padding in the block are 0. Nothing is kept of a write:
 *     the next one needs no other state, and the block may be fed or read at once, like any other.
 * What is written reads back: by the same table body, sub, tow and wnc answer what was given, DO_NOT_USE where it was unset.
 *
 * TIME. No call waits, and every call ends. How long it takes is measured and not promised: x86-64 instructions, counted by
 * bench/worst and bench/record of the repository with rattle-kit-5b, the kit before the one that its README names; by the table
 * shipped as it was before it had MeasEpoch, 380 bytes long.
 *   feed            1,300 for a block of 44 bytes in one piece, 525,000 for the last byte of a block of 65,532.
 *                   A header in noise holds back as many bytes as its length says, up to the ceiling, and the feed that ends
 *                   it decides all of them. Of 65,532: 600,000 where they are zeros, but 4,570,000,000 where they are full
 *                   of such headers, the dearest that we could make: 1.4 s on one core of an Intel Xeon. Smaller pieces do
 *                   not help there; with a lower ceiling fewer bytes are held back. Each byte more in its piece can add
 *                   131,000. With finish it is the same.
 *   body, sub, subbytes   7,200 to 9,300 by the table shipped and blocks of 44 and 272 bytes, 669,000 by a table of 8,192
 *                   bytes and a block of 65,532: each checks the table in force, and the block's CRC. By a row of two levels
 *                   they pass once over its first-level sub-blocks, 255 at the most. So do sub2, range and range2, which are
 *                   not counted yet.
 *   tow, wnc        820 for a block of 44 bytes, 525,000 for one of 65,532.
 *   write           8,300 for an AttEuler of 44 bytes and 17,000 for a BaseVectorCart of 224 by the table shipped, of which
 *                   the check of the table in force takes 6,300 (bench/writer).
 *   stage, open     6,600 for the table shipped, 142,000 for one of 8,192 bytes.
 * The others look at no bytes.
 *
 * MEMORY. A reader has 81,920 bytes of buffers, and 72 of state. Nothing is called back and nothing recurs, so a call's stack
 * does not grow with its input. The deepest measured is stage's, 1,240 bytes, with what its caller has there for arguments and
 * reply: tests/capi/stack.c paints the stack and looks how far down the paint is gone.
 *
 * EXAMPLE (samples/example.c)
 *
 *     // Lists the blocks of the SBF on standard input, with time of week and, of AttEuler, the heading: example <FILE
 *     #include <stdio.h>
 *     #include <string.h>
 *     #include "alderflute.h"
 *     #include "shipped-v1.table.h" // a table and its names, as `tools/table c` writes them
 *
 *     static uint8_t hold[ALDERFLUTE_HOLD], in_force[ALDERFLUTE_STORE], waiting[ALDERFLUTE_STORE];
 *
 *     // A float comes as bits.
 *     static double degrees(uint64_t bits)
 *     {
 *         uint32_t low = (uint32_t)bits;
 *         float f;
 *         memcpy(&f, &low, sizeof f);
 *         return (double)f;
 *     }
 *
 *     // A block that was just reported: its bytes stand in the hold until the next feed or finish.
 *     static void show(alderflute_state state, alderflute_block b)
 *     {
 *         alderflute_part part = alderflute_bytes(state, hold, sizeof hold);
 *         const uint8_t *block = hold + part.offset;
 *         alderflute_field tow = alderflute_tow(state, block, part.length);
 *         printf("block %llu %u %u %llu", (unsigned long long)b.place, b.number, b.revision, (unsigned long long)b.length);
 *         if (tow.kind == ALDERFLUTE_UNSIGNED) printf(" tow %llu", (unsigned long long)tow.number);
 *         if (b.number == ALDERFLUTE_ATTEULER) {
 *             alderflute_field heading =
 *                 alderflute_body(state, in_force, sizeof in_force, block, part.length, ALDERFLUTE_ATTEULER_HEADING);
 *             if (heading.kind == ALDERFLUTE_SINGLE) printf(" heading %.3f", degrees(heading.bits));
 *         }
 *         printf("\n");
 *     }
 *
 *     // Feeds a piece until all of it is taken and no block is left in it. MORE with a rest: the run is full, and the next
 *     // feed is refused.
 *     static alderflute_reply feed_all(alderflute_reply r, const uint8_t *piece, size_t n)
 *     {
 *         size_t at = 0;
 *         do {
 *             r = alderflute_feed(r.state, hold, sizeof hold, piece + at, n - at);
 *             at += r.answer.taken;
 *             if (r.answer.kind == ALDERFLUTE_BLOCK) show(r.state, r.answer.block);
 *         } while (r.answer.kind == ALDERFLUTE_BLOCK || (r.answer.refusal == 0 && at < n));
 *         return r;
 *     }
 *
 *     // No more bytes come: the blocks that are still held, then END.
 *     static alderflute_reply finish_all(alderflute_reply r)
 *     {
 *         do {
 *             r = alderflute_finish(r.state, hold, sizeof hold);
 *             if (r.answer.kind == ALDERFLUTE_BLOCK) show(r.state, r.answer.block);
 *         } while (r.answer.kind == ALDERFLUTE_BLOCK);
 *         return r;
 *     }
 *
 *     int main(void)
 *     {
 *         uint8_t piece[4096];
 *         size_t n;
 *         if (alderflute_abi() != ALDERFLUTE_ABI) {
 *             fprintf(stderr, "example: alderflute.h and libalderflute.a do not belong together\n");
 *             return 2;
 *         }
 *         alderflute_state new_one = alderflute_new();
 *         alderflute_settings settings = alderflute_default_settings(); // blocks of any length; a ceiling: see CEILING
 *         alderflute_reply r = alderflute_stage(new_one, waiting, sizeof waiting, alderflute_table, sizeof alderflute_table);
 *         if (r.answer.refusal == 0)
 *             r = alderflute_open(r.state, settings, in_force, sizeof in_force, waiting, sizeof waiting);
 *         while (r.answer.refusal == 0 && (n = fread(piece, 1, sizeof piece, stdin)) > 0) r = feed_all(r, piece, n);
 *         if (ferror(stdin)) {
 *             fprintf(stderr, "example: cannot read standard input\n");
 *             return 2;
 *         }
 *         uint32_t refusal = r.answer.refusal;
 *         if (refusal == 0 || refusal == ALDERFLUTE_REFUSAL_RUN_FULL) r = finish_all(r); // a full run may hold blocks too
 *         if (r.answer.kind == ALDERFLUTE_END)
 *             printf("end %llu %llu %llu\n", (unsigned long long)r.answer.end.bytes, (unsigned long long)r.answer.end.blocks,
 *                    (unsigned long long)r.answer.end.skipped);
 *         else if (refusal == 0)
 *             refusal = r.answer.refusal;
 *         if (fflush(stdout) != 0 || ferror(stdout)) {
 *             fprintf(stderr, "example: cannot write standard output\n");
 *             return 2;
 *         }
 *         if (refusal != 0) {
 *             fprintf(stderr, "example: refused: %s\n", alderflute_refusal_text(refusal));
 *             return 1;
 *         }
 *         return 0;
 *     }
 *
 * EXAMPLE OF WRITING (samples/write.c)
 *
 *     // Writes an AttEuler block, prints its bytes in hex, and reads the roll back from them: write
 *     #include <stdio.h>
 *     #include <string.h>
 *     #include "alderflute.h"
 *     #include "shipped-v1.table.h" // a table and its names, as `tools/table c` writes them
 *
 *     static uint8_t in_force[ALDERFLUTE_STORE], waiting[ALDERFLUTE_STORE], out[64];
 *
 *     // Values of the body, by the fields' numbers, all unset at first. What stays unset, or lies past the end of the lists,
 *     // is written as the field's Do-Not-Use value.
 *     static uint8_t kinds[ALDERFLUTE_ATTEULER_ROLL + 1];
 *     static uint64_t bits[ALDERFLUTE_ATTEULER_ROLL + 1];
 *
 *     static void give_number(size_t field, uint64_t n)
 *     {
 *         kinds[field] = ALDERFLUTE_GIVE_UNSIGNED;
 *         bits[field] = n;
 *     }
 *
 *     // A float is given as its bits.
 *     static void give_single(size_t field, float f)
 *     {
 *         uint32_t low;
 *         memcpy(&low, &f, sizeof low);
 *         kinds[field] = ALDERFLUTE_GIVE_SINGLE;
 *         bits[field] = low;
 *     }
 *
 *     static int refused(uint32_t refusal)
 *     {
 *         fprintf(stderr, "write: refused: %s\n", alderflute_refusal_text(refusal));
 *         return 1;
 *     }
 *
 *     int main(void)
 *     {
 *         if (alderflute_abi() != ALDERFLUTE_ABI) {
 *             fprintf(stderr, "write: alderflute.h and libalderflute.a do not belong together\n");
 *             return 2;
 *         }
 *         alderflute_state new_one = alderflute_new();
 *         alderflute_settings settings = alderflute_default_settings(); // blocks of any length
 *         alderflute_reply r = alderflute_stage(new_one, waiting, sizeof waiting, alderflute_table, sizeof alderflute_table);
 *         if (r.answer.refusal == 0)
 *             r = alderflute_open(r.state, settings, in_force, sizeof in_force, waiting, sizeof waiting);
 *         if (r.answer.refusal != 0) return refused(r.answer.refusal);
 *         give_number(ALDERFLUTE_ATTEULER_ERROR, 0); // three without a Do-Not-Use value: they have to be given
 *         give_number(ALDERFLUTE_ATTEULER_MODE, 2);
 *         give_number(ALDERFLUTE_ATTEULER_RESERVED, 0);
 *         give_single(ALDERFLUTE_ATTEULER_HEADING, 87.5f);
 *         give_single(ALDERFLUTE_ATTEULER_ROLL, -2.25f);
 *         alderflute_value tow = {ALDERFLUTE_GIVE_UNSIGNED, 345600000}, wnc = {ALDERFLUTE_GIVE_UNSIGNED, 2100};
 *         alderflute_written w = alderflute_write(r.state, in_force, sizeof in_force, ALDERFLUTE_ATTEULER, 0, tow, wnc, kinds,
 *                                                 sizeof kinds, bits, sizeof bits / sizeof *bits, out, sizeof out);
 *         if (w.refusal != 0) return refused(w.refusal);
 *         alderflute_field f = alderflute_body(r.state, in_force, sizeof in_force, out, w.length, ALDERFLUTE_ATTEULER_ROLL);
 *         if (f.refusal != 0) return refused(f.refusal);
 *         uint32_t low = (uint32_t)f.bits;
 *         float roll;
 *         memcpy(&roll, &low, sizeof roll);
 *         for (size_t i = 0; i < w.length; i++) printf("%02x", out[i]);
 *         printf(" roll %.3f\n", (double)roll);
 *         return 0;
 *     }
 */
#ifndef ALDERFLUTE_H
#define ALDERFLUTE_H

#include <stddef.h>
#include <stdint.h>

#ifdef __cplusplus
extern "C" {
#endif

/* The number of this interface. It rises where a program that was compiled with an older header would go wrong. */
#define ALDERFLUTE_ABI 2

/* The least lengths of the lent buffers. */
#define ALDERFLUTE_HOLD 65536
#define ALDERFLUTE_STORE 8192

/* A ceiling is a number that 4 divides, from the least to the greatest. */
#define ALDERFLUTE_CEILING_LEAST 16
#define ALDERFLUTE_CEILING_GREATEST 65532

/* Phases of a run. */
#define ALDERFLUTE_CLOSED 0
#define ALDERFLUTE_FEEDING 1
#define ALDERFLUTE_FINISHING 2

/* Kinds of an alderflute_answer. */
#define ALDERFLUTE_REFUSED 0       /* refusal: the number; also the kind of a refused alderflute_field */
#define ALDERFLUTE_TABLE_VERSION 1 /* version: of the table in force after open, or that stage took */
#define ALDERFLUTE_BLOCK 2         /* block; from feed also taken */
#define ALDERFLUTE_MORE 3          /* taken: no block is decided yet */
#define ALDERFLUTE_END 4           /* end: the run is closed */
#define ALDERFLUTE_WITHDRAWN 5     /* waited */

/* Kinds of an alderflute_field. */
#define ALDERFLUTE_UNSIGNED 1   /* number */
#define ALDERFLUTE_SIGNED 2     /* signed_number */
#define ALDERFLUTE_SINGLE 3     /* bits: 32 of them, of a float */
#define ALDERFLUTE_DOUBLE 4     /* bits: 64 of them, of a double */
#define ALDERFLUTE_DO_NOT_USE 5 /* the block says that the field has no value */
#define ALDERFLUTE_NOT_IN_REVISION 6 /* the block's revision does not carry the field */

/* Kinds of what write is given. They are not those of an alderflute_field: 0 means something else there, and 5 and 6, which
   stand there for Do-Not-Use and not in this revision, are refused here with 11: give such a field as unset. */
#define ALDERFLUTE_GIVE_UNSET 0     /* written as the field's Do-Not-Use value */
#define ALDERFLUTE_GIVE_UNSIGNED 1  /* bits: the number */
#define ALDERFLUTE_GIVE_SIGNED 2    /* bits: the int64_t, cast to uint64_t */
#define ALDERFLUTE_GIVE_SINGLE 3    /* bits: 32 of them, of a float */
#define ALDERFLUTE_GIVE_DOUBLE 4    /* bits: 64 of them, of a double */
#define ALDERFLUTE_GIVE_SUB_BLOCK 255 /* no value: a sub-block begins */

/* Refusals. Later versions may have more. */
enum alderflute_refusal {
    ALDERFLUTE_REFUSAL_BAD_BUFFER = 1,
    ALDERFLUTE_REFUSAL_OUT_OF_TURN = 2,
    ALDERFLUTE_REFUSAL_RUN_FULL = 3,
    ALDERFLUTE_REFUSAL_BAD_TABLE = 4,
    ALDERFLUTE_REFUSAL_NO_TABLE = 5,
    ALDERFLUTE_REFUSAL_NO_ROW = 6,
    ALDERFLUTE_REFUSAL_TOO_SHORT = 7,
    ALDERFLUTE_REFUSAL_BAD_SUB_BLOCKS = 8,
    ALDERFLUTE_REFUSAL_NO_SUCH_FIELD = 9,
    ALDERFLUTE_REFUSAL_NOT_ONE_FRAME = 10,
    ALDERFLUTE_REFUSAL_BAD_VALUES = 11,
    ALDERFLUTE_REFUSAL_NO_ROOM = 12,
    ALDERFLUTE_REFUSAL_BAD_CEILING = 13
};

/* What open is given, and a run goes by: CEILING has more. Later versions may have more members: begin with those of
   alderflute_default_settings, and change what you want otherwise. */
typedef struct alderflute_settings {
    uint64_t ceiling; /* the greatest length of a block */
} alderflute_settings;

/* A reader's state, 72 bytes. Its table lengths are 0 where no table is in force, or none waits. */
typedef struct alderflute_state {
    uint64_t phase;
    uint64_t held;     /* bytes of the hold that count, a standing block first */
    uint64_t standing; /* length of the block last reported, 0 for none */
    uint64_t taken;    /* bytes of the run so far */
    uint64_t blocks;
    uint64_t skipped;
    alderflute_settings settings; /* of the last open that was not refused; at first the default ones */
    uint64_t in_force; /* length of the table in force */
    uint64_t waiting;  /* length of the table that waits */
} alderflute_state;

/* A block: where it begins in the run, its length in bytes, its number and revision. */
typedef struct alderflute_block {
    uint64_t place;
    uint64_t length;
    uint16_t number;
    uint16_t revision;
} alderflute_block;

/* The counts of a finished run: its bytes, its blocks, and the bytes in no block. */
typedef struct alderflute_end {
    uint64_t bytes;
    uint64_t blocks;
    uint64_t skipped;
} alderflute_end;

typedef struct alderflute_answer {
    uint32_t refusal;
    uint32_t kind;
    uint16_t version; /* of the table now in force, or of the one staged */
    uint16_t waited;  /* 1 where a table waited, else 0 */
    uint64_t taken;   /* bytes of the piece that were taken; offer the rest again */
    alderflute_block block;
    alderflute_end end;
} alderflute_answer;

/* What a call leaves and answers, 144 bytes. */
typedef struct alderflute_reply {
    alderflute_state state;
    alderflute_answer answer;
} alderflute_reply;

/* A field's answer. A float comes as its bits, so that a NaN keeps its own: copy them into a float or a double with memcpy,
   as the example does. */
typedef struct alderflute_field {
    uint32_t refusal;
    uint32_t kind;
    uint64_t number;
    int64_t signed_number;
    uint64_t bits;
} alderflute_field;

/* A part of a buffer that was given: empty where the call is refused. */
typedef struct alderflute_part {
    uint32_t refusal;
    uint64_t offset;
    uint64_t length;
} alderflute_part;

/* A value that is given to write: TOW or WNc. */
typedef struct alderflute_value {
    uint8_t kind;
    uint64_t bits;
} alderflute_value;

/* What write answers: the length of the block, 0 where the call is refused. */
typedef struct alderflute_written {
    uint32_t refusal;
    uint64_t length;
} alderflute_written;

/* ALDERFLUTE_ABI of the header that the archive was made for. */
uint32_t alderflute_abi(void);

/* C15. A new reader: no run, no table. Not refused. */
alderflute_state alderflute_new(void);

/* C15, C17. The settings of a new reader: a ceiling of 65,532, with which every block is reported. Not refused. */
alderflute_settings alderflute_default_settings(void);

/* C5, C17. Opens a run, which goes by the settings. A table that waits is copied to the in-force store first, and waits no
   more. The counts begin at 0, and the hold counts as empty. TABLE_VERSION: of the table in force from now on. Field numbers
   belong to a version: where it is not the one that yours were taken from (ALDERFLUTE_NAMES_VERSION of a header by
   `tools/table c`), ask for no fields by them. That tells tables apart only where you number them all yourself, and give each
   one that you release a number of its own. */
alderflute_reply alderflute_open(alderflute_state state, alderflute_settings settings, uint8_t *in_force,
                                 size_t in_force_length, const uint8_t *waiting, size_t waiting_length);

/* C6, C7. Drops the block last reported and takes bytes of the piece, up to a block that they end, up to the end of the piece,
   or up to 4,294,967,295 bytes in the run. BLOCK or MORE, each with taken. BLOCK with taken 0 is usual: that block was held
   already. After BLOCK call again with the rest of the piece, which may be empty, until MORE or a refusal. MORE with less than
   the piece taken: the run is full, and the next feed that is not empty is refused with 3. Finish it then: it may hold blocks.
   */
alderflute_reply alderflute_feed(alderflute_state state, uint8_t *hold, size_t hold_length, const uint8_t *piece,
                                 size_t piece_length);

/* C8. No more bytes come. Drops the block last reported. BLOCK, or END, which closes the run. Call it until END or a refusal.
   */
alderflute_reply alderflute_finish(alderflute_state state, uint8_t *hold, size_t hold_length);

/* C9. The block last reported, as a part of the hold; a part of length 0 where none stands. */
alderflute_part alderflute_bytes(alderflute_state state, const uint8_t *hold, size_t hold_length);

/* C10. Checks a table and copies it to the waiting store, in place of any that waits. TABLE_VERSION: of that table. At any
   time: an open run goes on with its own table. `tools/table make` writes a table's file, `tools/table c` a C header with its
   bytes and with names for its numbers. */
alderflute_reply alderflute_stage(alderflute_state state, uint8_t *waiting, size_t waiting_length, const uint8_t *table,
                                  size_t table_length);

/* C11. No table waits any more. WITHDRAWN, with whether one did. At any time. */
alderflute_reply alderflute_withdraw(alderflute_state state);

/* C13, V7. A body field of a block, by its number in the row: 0 is the first. The block is what alderflute_bytes handed back,
   or a copy of it. */
alderflute_field alderflute_body(alderflute_state state, const uint8_t *in_force, size_t in_force_length, const uint8_t *block,
                                 size_t block_length, size_t field);

/* C13, V7. A field of a sub-block, by two numbers from 0. Body fields 0 and 1 of such a block are N and SBLength: how many
   sub-blocks it has, and how many bytes each. In a block of two levels, as MeasEpoch is one, it is a field of a first-level
   sub-block, and body fields 0 to 2 are N1, SB1Length and SB2Length. */
alderflute_field alderflute_sub(alderflute_state state, const uint8_t *in_force, size_t in_force_length, const uint8_t *block,
                                size_t block_length, size_t sub_block, size_t field);

/* C13, T18, T21. The bytes of a sub-block, as a part of the block; of two levels, of a first-level one without those nested in
   it. */
alderflute_part alderflute_subbytes(alderflute_state state, const uint8_t *in_force, size_t in_force_length,
                                    const uint8_t *block, size_t block_length, size_t sub_block);

/* C16, V7. A field of a second-level sub-block, by three numbers from 0: of the first-level sub-block, of the one nested in it,
   and of the field. The first level's last field, N2, is how many are nested in it. */
alderflute_field alderflute_sub2(alderflute_state state, const uint8_t *in_force, size_t in_force_length, const uint8_t *block,
                                 size_t block_length, size_t sub_block, size_t nested, size_t field);

/* C16, V11. The pseudorange of a first-level sub-block of a MeasEpoch (4027), SIGNED, in whole millimetres, or DO_NOT_USE. The
   fields are found by the numbers that the table shipped gives them. */
alderflute_field alderflute_range(alderflute_state state, const uint8_t *in_force, size_t in_force_length, const uint8_t *block,
                                  size_t block_length, size_t sub_block);

/* C16, V12. The same of a second-level one, which adds its offset to the first level's: DO_NOT_USE where that is, or where the
   offset is; a value may be 0 or negative. */
alderflute_field alderflute_range2(alderflute_state state, const uint8_t *in_force, size_t in_force_length,
                                   const uint8_t *block, size_t block_length, size_t sub_block, size_t nested);

/* V8. The time of week of a block (TOW), UNSIGNED or DO_NOT_USE; by no table. */
alderflute_field alderflute_tow(alderflute_state state, const uint8_t *block, size_t block_length);

/* V8. The week number of a block (WNc), UNSIGNED or DO_NOT_USE; by no table. */
alderflute_field alderflute_wnc(alderflute_state state, const uint8_t *block, size_t block_length);

/* W1. Makes a block from values, at the start of the buffer `out`. WRITING has what the lists say, kinds and bits; each length
   counts what is in its list, the beginnings of sub-blocks too. */
alderflute_written alderflute_write(alderflute_state state, const uint8_t *in_force, size_t in_force_length, uint64_t number,
                                    uint64_t revision, alderflute_value tow, alderflute_value wnc, const uint8_t *kinds,
                                    size_t kinds_length, const uint64_t *bits, size_t bits_length, uint8_t *out,
                                    size_t out_length);

/* What to do about a refusal, in a line for people; a text is there for every number. */
static inline const char *alderflute_refusal_text(uint32_t refusal)
{
    switch (refusal) {
    case 0: return "not refused";
    case ALDERFLUTE_REFUSAL_BAD_BUFFER: return "a buffer is too short, or the state is no reply's: start with alderflute_new";
    case ALDERFLUTE_REFUSAL_OUT_OF_TURN: return "out of turn: open a run, feed it, finish it until END, then open the next";
    case ALDERFLUTE_REFUSAL_RUN_FULL: return "the run is full: finish it and open the next";
    case ALDERFLUTE_REFUSAL_BAD_TABLE: return "the table breaks a rule: `tools/table show FILE` says which";
    case ALDERFLUTE_REFUSAL_NO_TABLE: return "there is no table: stage one, then open a run";
    case ALDERFLUTE_REFUSAL_NO_ROW: return "no row to read or write this block by: pass it by, or stage a table that has";
    case ALDERFLUTE_REFUSAL_TOO_SHORT: return "the block is too short for its row: pass it by";
    case ALDERFLUTE_REFUSAL_BAD_SUB_BLOCKS: return "the sub-blocks do not fit their row or their block: pass it by";
    case ALDERFLUTE_REFUSAL_NO_SUCH_FIELD: return "no such field or sub-block: see the table, and N, N1 or N2";
    case ALDERFLUTE_REFUSAL_NOT_ONE_FRAME: return "no whole block: give the part that alderflute_bytes hands back";
    case ALDERFLUTE_REFUSAL_BAD_VALUES: return "what was given does not fit the row: see its types, marks and revisions";
    case ALDERFLUTE_REFUSAL_NO_ROOM: return "the block does not fit: lend a longer buffer, or open with a greater ceiling";
    case ALDERFLUTE_REFUSAL_BAD_CEILING: return "no ceiling: give a number that 4 divides, from 16 to 65,532";
    default: return "a refusal that this header does not know: the archive is newer";
    }
}

#ifdef __cplusplus
}
#endif

#endif
