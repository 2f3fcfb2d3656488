/* samples/example.c with a run that has room for 16 bytes and no more: what a full run holds is listed all the same. */
#include "alderflute.h"

static alderflute_reply nearly_full(alderflute_state state, alderflute_settings settings, uint8_t *in_force,
                                    size_t in_force_length, const uint8_t *waiting, size_t waiting_length)
{
    alderflute_reply r = alderflute_open(state, settings, in_force, in_force_length, waiting, waiting_length);
    r.state.taken = 4294967295u - 16;
    return r;
}

#define alderflute_open nearly_full
#include "../../samples/example.c"
