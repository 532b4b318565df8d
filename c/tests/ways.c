/* What host/schedule knows of the ways of a call without asking for their number, held to the numbers of the machine on
   random walks. */
#include "expect.h"

enum { THREADS = 4, MUTEXES = 4, CONDS = 2, WALKS = 2000, STEPS = 400 };

/* A thread's open call, if it has one: how many moves it has made, and whether it has had none since it was blocked. */
static struct {
    pif_request asked;
    bool is_open, is_blocked;
    uint32_t moves;
} calls[THREADS + 1];

static pif_machine *machine;
static uint32_t now;
static uint64_t state;

/* A number from 0 on, below this one. */
static uint32_t draw(uint32_t bound)
{
    state = state * UINT64_C(6364136223846793005) + UINT64_C(1442695040888963407);
    return (uint32_t)(state >> 33) % bound;
}

static void begin_walk(uint64_t seed)
{
    uint32_t result;

    state = seed;
    now = 0;
    machine = pif_machine_open(THREADS, MUTEXES, CONDS, 1000,
                               "spurious barge any_waiter cycle_waits ends_apart timeout_consumes", &result);
    TRUE(result == PIF_OK);
    for (uint32_t thread = 1; thread <= THREADS; thread++) {
        pif_machine_add_thread(machine, 1 + draw(3));
        calls[thread].is_open = false;
    }
    for (uint32_t mutex = 1; mutex <= MUTEXES; mutex++)
        pif_machine_add_mutex(machine, draw(3), draw(2) == 1, draw(2) == 1);
    for (uint32_t cond = 1; cond <= CONDS; cond++)
        pif_machine_add_cond(machine, 1 + draw(MUTEXES));
}

static pif_request drawn_request(void)
{
    uint32_t mutex = 1 + draw(MUTEXES), cond = 1 + draw(CONDS);

    switch (draw(10)) {
    case 0:
        return pif_trylock(mutex);
    case 1:
        return pif_timedlock(mutex, now + draw(3));
    case 2:
        return pif_wait(cond, mutex);
    case 3:
        return pif_timedwait(cond, mutex, now + draw(3));
    case 4:
        return pif_signal(cond);
    case 5:
        return pif_broadcast(cond);
    case 6:
        return pif_consistent(mutex);
    case 7:
    case 8:
        return pif_unlock(mutex);
    default:
        return pif_lock(mutex);
    }
}

/* A call that POSIX leaves undefined ends the walk. */
static bool begins(uint32_t thread)
{
    pif_request asked = drawn_request();

    if (pif_machine_begin(machine, thread, asked) != PIF_OK)
        return true; /* the thread has ended */
    calls[thread].asked = asked;
    calls[thread].is_open = true;
    calls[thread].is_blocked = false;
    calls[thread].moves = 0;
    return pif_machine_undefined(machine, thread).number == 0;
}

static bool is_due(const pif_request *asked)
{
    return (asked->call == PIF_TIMEDLOCK || asked->call == PIF_TIMEDWAIT) && asked->deadline <= now;
}

/* An unlock has one way, and by `barge` another if it leaves the mutex free. Who waits for a mutex has none until it is free.
   Who is ready has one, or several if it is about to wake others. A first move gives up no mutex but that of an unlock. */
static void look_at_ways(uint32_t thread, uint32_t itself, uint32_t barge)
{
    const pif_request *asked = &calls[thread].asked;
    pif_doing doing = pif_machine_status(machine, thread);
    pif_owned owner = pif_machine_owner(machine, asked->mutex);
    bool wakes = asked->call == PIF_SIGNAL || asked->call == PIF_BROADCAST;

    if (asked->call == PIF_UNLOCK) {
        TRUE(itself == 1);
        TRUE(barge == (owner.thread == thread && owner.count == 1
                       && pif_machine_health(machine, asked->mutex).number != PIF_INCONSISTENT));
    } else if (calls[thread].moves == 0)
        TRUE(barge == 0);
    TRUE(wakes || itself <= 1);
    TRUE(doing.state != PIF_READY || itself > 0);
    if (doing.state == PIF_QUEUED && !is_due(asked)) {
        TRUE(doing.waits_for == asked->mutex);
        TRUE(itself == 0 && barge == (owner.result != PIF_OK));
    }
    calls[thread].is_blocked = doing.state == PIF_PARKED && (calls[thread].is_blocked || itself + barge == 0);
    if (calls[thread].is_blocked && !is_due(asked))
        TRUE(itself == 0 && barge == 0);
}

static void go_on(uint32_t thread)
{
    if (pif_machine_answer(machine, thread).result == PIF_OK) {
        calls[thread].is_open = false;
        return;
    }
    uint32_t itself = pif_machine_moves(machine, thread, PIF_ITSELF).number;
    uint32_t all = pif_machine_moves(machine, thread, PIF_BARGE).number;
    look_at_ways(thread, itself, all - itself);
    if (all > 0) {
        TRUE(pif_machine_move(machine, thread, PIF_BARGE, draw(all)) == PIF_OK);
        calls[thread].moves++;
    }
}

/* Now and then the time moves, or a thread ends. False: the walk is over. */
static bool step(void)
{
    uint32_t thread = 1 + draw(THREADS);

    if (draw(20) == 0)
        TRUE(pif_machine_tick(machine, ++now) == PIF_OK);
    if (draw(200) == 0 && pif_machine_end(machine, thread, 0) == PIF_OK)
        calls[thread].is_open = false;
    if (calls[thread].is_open)
        go_on(thread);
    else
        return begins(thread);
    return true;
}

int main(void)
{
    for (uint64_t seed = 1; seed <= WALKS && failures == 0; seed++) {
        begin_walk(seed);
        for (uint32_t i = 0; i < STEPS && step(); i++)
            ;
        pif_machine_close(machine);
    }
    return outcome();
}
