/* A harness for libFuzzer: the bytes say which functions of the library are called, with which numbers. What must hold
   of the answers is tested; the sanitizers test the rest. The same bytes are given to pif_run, pif_replay, pif_check and
   pif_judge as a text.

       make -C c fuzz */
#include <stdint.h>
#include <stdlib.h>
#include <string.h>

#include "pif.h"

enum { ROOM = 4096, STATES = 64 };

/* The bytes that are left. */
typedef struct {
    const uint8_t *at;
    size_t left;
} bytes;

/* The next byte, and 0 behind the last. */
static uint32_t next(bytes *from)
{
    if (from->left == 0)
        return 0;
    from->left--;
    return *from->at++;
}

/* Whether the handle holds a core, as the harness knows. */
static bool filled;

static void holds(bool is)
{
    if (!is)
        abort();
}

/* An event is answered by one of the numbers that the header has, and nothing waits that has no core. */
static void seen_is_known(pif_seen seen)
{
    holds(seen.what <= PIF_UNNAMED);
    holds((seen.what == PIF_NOTHING) == !filled);
    holds(seen.what != PIF_REFUSED || (seen.detail >= PIF_NO_SUCH && seen.detail <= PIF_PAST));
    holds(seen.what == PIF_REFUSED || seen.what == PIF_ANSWERED || seen.detail == 0);
}

static void number_is_known(pif_number number)
{
    holds(number.result <= PIF_NO_MEMORY);
    holds((number.result == PIF_NO_CORE) == !filled);
    holds(number.result == PIF_OK || number.number == 0);
}

static pif_request request_from(bytes *from)
{
    pif_request request;

    request.call = next(from) % 12;
    request.mutex = next(from) % 6;
    request.cond = next(from) % 4;
    request.thread = next(from) % 6;
    request.prio = next(from);
    request.deadline = next(from);
    return request;
}

static void look(pif_core *core, bytes *from)
{
    uint32_t of = next(from) % 6;
    pif_owned owner = pif_owner(core, of);
    pif_doing doing = pif_status(core, of);

    number_is_known(pif_effective(core, of));
    number_is_known(pif_waiting(core, of));
    number_is_known(pif_word(core, of));
    number_is_known(pif_health(core, of));
    number_is_known(pif_cond_word(core, of));
    number_is_known(pif_pick(core));
    holds(doing.result != PIF_OK || doing.state <= PIF_GONE);
    holds(owner.result != PIF_OK || (owner.count >= 1 && owner.count <= 255));
    holds(owner.result != PIF_OK || (pif_word(core, of).number & ~(PIF_WAITERS | PIF_OWNER_DIED)) == owner.thread);
}

/* Now and then a core is made, within its limits or outside them, or given up. */
static void fill(pif_core *core, uint32_t limit)
{
    uint32_t made = pif_core_new(core, limit, limit, limit, limit);

    holds((made == PIF_FULL) == filled);
    holds(filled || (made == PIF_OK) == (limit > 0));
    filled = filled || made == PIF_OK;
}

static void empty(pif_core *core, uint32_t chance)
{
    if (chance == 0) {
        pif_core_free(core);
        filled = false;
    }
}

static void act(pif_core *core, bytes *from)
{
    uint32_t what = next(from) % 16, of = next(from) % 6;

    switch (what) {
    case 0: fill(core, of); break;
    case 1: empty(core, of); break;
    case 2: number_is_known(pif_add_thread(core, next(from))); break;
    case 3: number_is_known(pif_add_mutex(core, next(from) % 4, of % 2 == 0)); break;
    case 4: number_is_known(pif_add_cond(core, of)); break;
    case 5: seen_is_known(pif_end(core, of)); break;
    case 6: seen_is_known(pif_tick(core, next(from))); break;
    case 7: look(core, from); break;
    case 8: case 9: seen_is_known(pif_begin(core, of, request_from(from))); break;
    case 10: case 11: seen_is_known(pif_go(core, of)); break;
    case 12: seen_is_known(pif_finish(core, of)); break;
    default: seen_is_known(pif_call(core, of, request_from(from))); break;
    }
}

static void texts(const uint8_t *data, size_t length)
{
    static uint8_t room[ROOM];
    pif_text ran = pif_run(data, length, room, ROOM), replayed = pif_replay(data, length, room, ROOM);
    pif_text checked = pif_check((const uint8_t *)"-", 1, data, length, room, ROOM);
    pif_text judged = pif_judge(data, length, STATES, true, room, ROOM);

    holds(ran.ended == PIF_WHOLE || ran.ended == PIF_FAULT);
    holds(replayed.ended <= PIF_DIFFERS && checked.ended <= PIF_DIFFERS);
    holds(judged.ended <= PIF_DIFFERS || judged.ended == PIF_UNDECIDED || judged.ended == PIF_MISTAKE);
}

int LLVMFuzzerTestOneInput(const uint8_t *data, size_t length)
{
    pif_core core = {0};
    bytes from = {data, length};

    filled = pif_core_new(&core, 4, 4, 2, 3) == PIF_OK;
    while (from.left > 0)
        act(&core, &from);
    pif_core_free(&core);
    if (length > 0)
        texts(data, length);
    return 0;
}
