/* Where each member of the structs stands, and how big they are: what the archive was compiled with. Compiling it is the test. */
#include "alderflute.h"

#ifdef __cplusplus
#define ASSERT(holds) static_assert(holds, #holds)
#else
#define ASSERT(holds) _Static_assert(holds, #holds)
#endif
#define AT(type, member, offset) ASSERT(offsetof(alderflute_##type, member) == offset)
#define SIZE(type, size) ASSERT(sizeof(alderflute_##type) == size)

SIZE(settings, 8);
AT(settings, ceiling, 0);

SIZE(state, 72);
AT(state, phase, 0);
AT(state, held, 8);
AT(state, standing, 16);
AT(state, taken, 24);
AT(state, blocks, 32);
AT(state, skipped, 40);
AT(state, settings, 48);
AT(state, in_force, 56);
AT(state, waiting, 64);

SIZE(block, 24);
AT(block, place, 0);
AT(block, length, 8);
AT(block, number, 16);
AT(block, revision, 18);

SIZE(end, 24);
AT(end, bytes, 0);
AT(end, blocks, 8);
AT(end, skipped, 16);

SIZE(answer, 72);
AT(answer, refusal, 0);
AT(answer, kind, 4);
AT(answer, version, 8);
AT(answer, waited, 10);
AT(answer, taken, 16);
AT(answer, block, 24);
AT(answer, end, 48);

SIZE(reply, 144);
AT(reply, state, 0);
AT(reply, answer, 72);

SIZE(field, 32);
AT(field, refusal, 0);
AT(field, kind, 4);
AT(field, number, 8);
AT(field, signed_number, 16);
AT(field, bits, 24);

SIZE(part, 24);
AT(part, refusal, 0);
AT(part, offset, 8);
AT(part, length, 16);

SIZE(value, 16);
AT(value, kind, 0);
AT(value, bits, 8);

SIZE(written, 16);
AT(written, refusal, 0);
AT(written, length, 8);
