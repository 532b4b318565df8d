/* The POSIX machine with rules: each call on its happy path, and each of its refusals. */
#include "expect.h"

/* A thread moves by this, to the state at this place, of so many. */
#define MOVES(thread, by, count) NUMBER(pif_machine_moves(machine, thread, by), PIF_OK, count)
#define MOVE(thread, by, place) TRUE(pif_machine_move(machine, thread, by, place) == PIF_OK)
#define BEGIN(thread, request) TRUE(pif_machine_begin(machine, thread, request) == PIF_OK)
#define OWNER(mutex, result, thread, count) expect_owner(__LINE__, machine, mutex, result, thread, count)
#define DOES(thread, result, state, waits_for) expect_doing(__LINE__, machine, thread, result, state, waits_for)

static void expect_owner(int line, pif_machine *machine, uint32_t mutex, uint32_t result, uint32_t thread, uint32_t count)
{
    pif_owned is = pif_machine_owner(machine, mutex);

    expect_true(line, "the owner", is.result == result && is.thread == thread && is.count == count);
}

static void expect_doing(int line, pif_machine *machine, uint32_t thread, uint32_t result, uint32_t state,
                         uint32_t waits_for)
{
    pif_doing is = pif_machine_status(machine, thread);

    expect_true(line, "what it does", is.result == result && is.state == state && is.waits_for == waits_for);
}

/* Threads 1 to 3 of the priorities 10, 20 and 30, a mutex that inherits, one that doesn't, and a robust one; a variable
   of the first. */
static pif_machine *opened(const char *rules)
{
    uint32_t result = PIF_FULL;
    pif_machine *machine = pif_machine_open(3, 3, 1, 2, rules, &result);

    TRUE(result == PIF_OK);
    for (uint32_t thread = 1; thread <= 3; thread++)
        NUMBER(pif_machine_add_thread(machine, 10 * thread), PIF_OK, thread);
    NUMBER(pif_machine_add_mutex(machine, PIF_NORMAL, false, true), PIF_OK, 1);
    NUMBER(pif_machine_add_mutex(machine, PIF_NORMAL, false, false), PIF_OK, 2);
    NUMBER(pif_machine_add_mutex(machine, PIF_NORMAL, true, true), PIF_OK, 3);
    NUMBER(pif_machine_add_cond(machine, 1), PIF_OK, 1);
    return machine;
}

/* A call that has one way to go, up to its answer. */
static void do_call(int line, pif_machine *machine, uint32_t thread, pif_request request, uint32_t answer)
{
    expect_true(line, "begins", pif_machine_begin(machine, thread, request) == PIF_OK);
    while (pif_machine_result(machine, thread).result == PIF_NONE
           && pif_machine_move(machine, thread, PIF_ITSELF, 0) == PIF_OK)
        ;
    expect_number(line, "is answered", pif_machine_answer(machine, thread), PIF_OK, answer);
}

#define CALL(thread, request, answer) do_call(__LINE__, machine, thread, request, answer)

/* A call that goes on until it waits. */
static void wait_in(int line, pif_machine *machine, uint32_t thread, pif_request request)
{
    expect_true(line, "begins", pif_machine_begin(machine, thread, request) == PIF_OK);
    while (pif_machine_move(machine, thread, PIF_ITSELF, 0) == PIF_OK)
        ;
    expect_number(line, "has no result", pif_machine_result(machine, thread), PIF_NONE, 0);
}

#define WAIT(thread, request) wait_in(__LINE__, machine, thread, request)

/* By `barge` an unlock may leave the mutex free: another one takes it before the one that waits. */
static void barges(void)
{
    pif_machine *machine = opened("barge");

    CALL(1, pif_lock(1), PIF_DONE);
    OWNER(1, PIF_OK, 1, 1);
    WAIT(2, pif_lock(1));
    DOES(2, PIF_OK, PIF_QUEUED, 1);
    NUMBER(pif_machine_effective(machine, 1), PIF_OK, 20);
    BEGIN(1, pif_unlock(1));
    MOVES(1, PIF_ITSELF, 1);
    MOVES(1, PIF_BARGE, 2);
    MOVES(1, PIF_SPURIOUS, 1);
    MOVES(1, PIF_ANY, 2);
    MOVE(1, PIF_BARGE, 1);
    OWNER(1, PIF_NONE, 0, 0);
    NUMBER(pif_machine_result(machine, 1), PIF_OK, PIF_DONE);
    MOVES(2, PIF_ITSELF, 0);
    MOVES(2, PIF_BARGE, 1);
    CALL(3, pif_lock(1), PIF_DONE);
    OWNER(1, PIF_OK, 3, 1);
    MOVES(2, PIF_BARGE, 0);
    NUMBER(pif_machine_answer(machine, 1), PIF_OK, PIF_DONE);
    CALL(3, pif_unlock(1), PIF_DONE);
    NUMBER(pif_machine_answer(machine, 2), PIF_OK, PIF_DONE);
    pif_machine_close(machine);
}

/* A thread that is blocked on a variable wakes by itself, and locks its mutex again. */
static void wakes_by_itself(void)
{
    pif_machine *machine = opened("spurious any_waiter");

    CALL(1, pif_lock(1), PIF_DONE);
    WAIT(1, pif_wait(1, 1));
    DOES(1, PIF_OK, PIF_PARKED, 1);
    OWNER(1, PIF_NONE, 0, 0);
    MOVES(1, PIF_ITSELF, 0);
    MOVES(1, PIF_SPURIOUS, 1);
    MOVE(1, PIF_SPURIOUS, 0);
    DOES(1, PIF_OK, PIF_READY, 0);
    MOVES(1, PIF_ITSELF, 1);
    MOVE(1, PIF_ITSELF, 0);
    NUMBER(pif_machine_answer(machine, 1), PIF_OK, PIF_DONE);
    OWNER(1, PIF_OK, 1, 1);
    pif_machine_close(machine);
}

/* A signal wakes the one of the greatest priority, and by `any_waiter` any, the one of the greatest number first. */
static void wakes_any(void)
{
    pif_machine *machine = opened("any_waiter");

    for (uint32_t thread = 1; thread <= 2; thread++) {
        CALL(thread, pif_lock(1), PIF_DONE);
        WAIT(thread, pif_wait(1, 1));
    }
    BEGIN(3, pif_signal(1));
    MOVES(3, PIF_ANY_WAITER, 1);
    MOVE(3, PIF_ITSELF, 0);
    MOVES(3, PIF_ITSELF, 1);
    MOVES(3, PIF_ANY_WAITER, 3);
    MOVE(3, PIF_ANY_WAITER, 2);
    NUMBER(pif_machine_answer(machine, 3), PIF_OK, PIF_DONE);
    DOES(1, PIF_OK, PIF_READY, 0);
    DOES(2, PIF_OK, PIF_PARKED, 1);
    pif_machine_close(machine);
}

/* By `wait_gives_all` a wait gives up both holds of a recursive mutex, and takes both again before it is answered. */
static void gives_all(void)
{
    pif_machine *machine = pif_machine_open(2, 1, 1, 1, "wait_gives_all", NULL);

    NUMBER(pif_machine_add_thread(machine, 10), PIF_OK, 1);
    NUMBER(pif_machine_add_thread(machine, 20), PIF_OK, 2);
    NUMBER(pif_machine_add_mutex(machine, PIF_RECURSIVE, false, true), PIF_OK, 1);
    NUMBER(pif_machine_add_cond(machine, 1), PIF_OK, 1);
    CALL(1, pif_lock(1), PIF_DONE);
    CALL(1, pif_lock(1), PIF_DONE);
    OWNER(1, PIF_OK, 1, 2);
    BEGIN(1, pif_wait(1, 1));
    MOVES(1, PIF_ITSELF, 1);
    MOVES(1, PIF_WAIT_GIVES_ALL, 2);
    MOVE(1, PIF_WAIT_GIVES_ALL, 1);
    OWNER(1, PIF_OK, 1, 1);
    while (pif_machine_move(machine, 1, PIF_ITSELF, 0) == PIF_OK)
        ;
    OWNER(1, PIF_NONE, 0, 0);
    CALL(2, pif_signal(1), PIF_DONE);
    MOVE(1, PIF_ITSELF, 0);
    NUMBER(pif_machine_result(machine, 1), PIF_OK, PIF_DONE);
    OWNER(1, PIF_OK, 1, 1);
    NUMBER(pif_machine_answer(machine, 1), PIF_NONE, 0);
    MOVES(1, PIF_ITSELF, 0);
    MOVES(1, PIF_WAIT_GIVES_ALL, 1);
    MOVE(1, PIF_WAIT_GIVES_ALL, 0);
    OWNER(1, PIF_OK, 1, 2);
    NUMBER(pif_machine_answer(machine, 1), PIF_OK, PIF_DONE);
    pif_machine_close(machine);
}

/* Who waits for a mutex of PTHREAD_PRIO_NONE lends nothing, and a cycle through one is no answer. */
static void lends_nothing(void)
{
    pif_machine *machine = opened("");

    CALL(1, pif_lock(2), PIF_DONE);
    CALL(2, pif_lock(1), PIF_DONE);
    WAIT(2, pif_lock(2));
    NUMBER(pif_machine_effective(machine, 1), PIF_OK, 10);
    WAIT(1, pif_lock(1));
    DOES(1, PIF_OK, PIF_QUEUED, 1);
    DOES(2, PIF_OK, PIF_QUEUED, 2);
    pif_machine_close(machine);
}

/* A thread ends, and its robust mutex passes on: at one moment, or in steps. */
static void ends(void)
{
    pif_machine *machine = opened("ends_apart barge");

    CALL(1, pif_lock(3), PIF_DONE);
    WAIT(2, pif_lock(3));
    NUMBER(pif_machine_ends(machine, 1), PIF_OK, 2);
    NUMBER(pif_machine_ends_apart(machine, 1), PIF_OK, 1);
    TRUE(pif_machine_end_apart(machine, 1, 0) == PIF_OK);
    DOES(1, PIF_OK, PIF_GONE, 0);
    NUMBER(pif_machine_effective(machine, 1), PIF_NONE, 0);
    OWNER(3, PIF_OK, 1, 1);
    NUMBER(pif_machine_ends(machine, 1), PIF_OK, 0);
    NUMBER(pif_machine_ends_apart(machine, 1), PIF_OK, 2);
    TRUE(pif_machine_end_apart(machine, 1, 0) == PIF_OK);
    NUMBER(pif_machine_ends_apart(machine, 1), PIF_OK, 0);
    OWNER(3, PIF_OK, 2, 1);
    NUMBER(pif_machine_health(machine, 3), PIF_OK, PIF_INCONSISTENT);
    NUMBER(pif_machine_answer(machine, 2), PIF_OK, PIF_EOWNERDEAD);
    TRUE(pif_machine_end(machine, 2, 1) == PIF_OK);
    OWNER(3, PIF_NONE, 0, 0);
    TRUE(pif_machine_end(machine, 2, 0) == PIF_NONE);
    TRUE(pif_machine_end_apart(machine, 2, 0) == PIF_NONE);
    pif_machine_close(machine);
}

/* A deadline is reached once the time is. */
static void times(void)
{
    pif_machine *machine = opened("timeout_consumes");

    CALL(1, pif_lock(1), PIF_DONE);
    WAIT(2, pif_timedlock(1, 5));
    MOVES(2, PIF_ITSELF, 0);
    TRUE(pif_machine_tick(machine, 5) == PIF_OK);
    TRUE(pif_machine_tick(machine, 4) == PIF_NONE);
    MOVES(2, PIF_ITSELF, 1);
    MOVE(2, PIF_ITSELF, 0);
    NUMBER(pif_machine_answer(machine, 2), PIF_OK, PIF_ETIMEDOUT);
    pif_machine_close(machine);
}

/* An unlock of a normal mutex by a thread that doesn't own it. */
static void is_undefined(void)
{
    pif_machine *machine = opened("");

    NUMBER(pif_machine_undefined(machine, 1), PIF_OK, 0);
    BEGIN(1, pif_unlock(1));
    NUMBER(pif_machine_undefined(machine, 1), PIF_OK, 1);
    BEGIN(2, pif_unlock(3));
    NUMBER(pif_machine_undefined(machine, 2), PIF_OK, 0);
    MOVE(2, PIF_ITSELF, 0);
    NUMBER(pif_machine_answer(machine, 2), PIF_OK, PIF_EPERM);
    pif_machine_close(machine);
}

/* What is refused, and changes nothing. */
static void refuses(void)
{
    pif_machine *machine = opened("posix");
    pif_request none = {0};

    NUMBER(pif_machine_add_thread(machine, 0), PIF_BAD_PRIO, 0);
    NUMBER(pif_machine_add_thread(machine, 100), PIF_BAD_PRIO, 0);
    NUMBER(pif_machine_add_thread(machine, 1), PIF_TOO_MANY, 0);
    NUMBER(pif_machine_add_mutex(machine, 3, false, true), PIF_INVALID, 0);
    NUMBER(pif_machine_add_mutex(machine, PIF_NORMAL, false, true), PIF_TOO_MANY, 0);
    NUMBER(pif_machine_add_mutex(machine, PIF_NORMAL, false, false), PIF_TOO_MANY, 0);
    NUMBER(pif_machine_add_cond(machine, 0), PIF_NO_MUTEX, 0);
    NUMBER(pif_machine_add_cond(machine, 4), PIF_NO_MUTEX, 0);
    NUMBER(pif_machine_add_cond(machine, 1), PIF_TOO_MANY, 0);
    TRUE(pif_machine_new(machine, 1, 1, 1, 1) == PIF_FULL);
    TRUE(pif_machine_allow(machine, (const uint8_t *)"posit", 5) == PIF_INVALID);
    TRUE(pif_machine_allow(machine, NULL, 0) == PIF_INVALID);
    TRUE(pif_machine_begin(machine, 0, pif_lock(1)) == PIF_INVALID);
    TRUE(pif_machine_begin(machine, 1, none) == PIF_INVALID);
    TRUE(pif_machine_begin(machine, 4, pif_lock(1)) == PIF_NONE);
    TRUE(pif_machine_begin(machine, 1, pif_lock(4)) == PIF_NONE);
    NUMBER(pif_machine_moves(machine, 0, PIF_ITSELF), PIF_INVALID, 0);
    NUMBER(pif_machine_moves(machine, 1, PIF_WAIT_GIVES_ALL + 1), PIF_INVALID, 0);
    NUMBER(pif_machine_moves(machine, 4, PIF_ANY), PIF_OK, 0);
    TRUE(pif_machine_move(machine, 0, PIF_ITSELF, 0) == PIF_INVALID);
    TRUE(pif_machine_move(machine, 1, PIF_ITSELF, 0) == PIF_NONE);
    NUMBER(pif_machine_ends(machine, 0), PIF_INVALID, 0);
    NUMBER(pif_machine_ends(machine, 4), PIF_OK, 0);
    TRUE(pif_machine_end(machine, 0, 0) == PIF_INVALID);
    NUMBER(pif_machine_ends_apart(machine, 0), PIF_INVALID, 0);
    TRUE(pif_machine_end_apart(machine, 0, 0) == PIF_INVALID);
    NUMBER(pif_machine_result(machine, 0), PIF_NONE, 0);
    NUMBER(pif_machine_result(machine, 4), PIF_NONE, 0);
    NUMBER(pif_machine_answer(machine, 0), PIF_NONE, 0);
    NUMBER(pif_machine_answer(machine, 1), PIF_NONE, 0);
    NUMBER(pif_machine_health(machine, 4), PIF_NONE, 0);
    NUMBER(pif_machine_effective(machine, 4), PIF_NONE, 0);
    NUMBER(pif_machine_undefined(machine, 4), PIF_OK, 0);
    OWNER(0, PIF_NONE, 0, 0);
    OWNER(4, PIF_NONE, 0, 0);
    DOES(0, PIF_NONE, 0, 0);
    DOES(4, PIF_NONE, 0, 0);
    pif_machine_close(machine);
}

/* A handle that holds no machine. */
static void holds_none(void)
{
    pif_machine empty = {0}, *machine = &empty;

    NUMBER(pif_machine_add_thread(machine, 10), PIF_NO_CORE, 0);
    NUMBER(pif_machine_add_mutex(machine, PIF_NORMAL, false, true), PIF_NO_CORE, 0);
    NUMBER(pif_machine_add_cond(machine, 1), PIF_NO_CORE, 0);
    TRUE(pif_machine_allow(machine, (const uint8_t *)"posix", 5) == PIF_NO_CORE);
    TRUE(pif_machine_begin(machine, 1, pif_lock(1)) == PIF_NO_CORE);
    NUMBER(pif_machine_moves(machine, 1, PIF_ITSELF), PIF_NO_CORE, 0);
    TRUE(pif_machine_move(machine, 1, PIF_ITSELF, 0) == PIF_NO_CORE);
    NUMBER(pif_machine_result(machine, 1), PIF_NO_CORE, 0);
    NUMBER(pif_machine_answer(machine, 1), PIF_NO_CORE, 0);
    NUMBER(pif_machine_ends(machine, 1), PIF_NO_CORE, 0);
    TRUE(pif_machine_end(machine, 1, 0) == PIF_NO_CORE);
    NUMBER(pif_machine_ends_apart(machine, 1), PIF_NO_CORE, 0);
    TRUE(pif_machine_end_apart(machine, 1, 0) == PIF_NO_CORE);
    TRUE(pif_machine_tick(machine, 1) == PIF_NO_CORE);
    NUMBER(pif_machine_health(machine, 1), PIF_NO_CORE, 0);
    NUMBER(pif_machine_effective(machine, 1), PIF_NO_CORE, 0);
    NUMBER(pif_machine_undefined(machine, 1), PIF_NO_CORE, 0);
    OWNER(1, PIF_NO_CORE, 0, 0);
    DOES(1, PIF_NO_CORE, 0, 0);
    pif_machine_free(machine);
    TRUE(pif_machine_new(machine, 0, 0, 0, 0) == PIF_OK);
    NUMBER(pif_machine_add_thread(machine, 10), PIF_TOO_MANY, 0);
    pif_machine_free(machine);
    pif_machine_close(NULL);
}

/* Words that name no rule. */
static void opens_none(void)
{
    uint32_t result = PIF_OK;

    TRUE(pif_machine_open(1, 1, 1, 1, "posix bargain", &result) == NULL);
    TRUE(result == PIF_INVALID);
    TRUE(pif_machine_open(1, 1, 1, 1, "recursion=0..1", NULL) == NULL);
    pif_machine_close(pif_machine_open(1, 1, 1, 1, "  recursion=1..300  steal ", NULL));
}

int main(void)
{
    barges();
    wakes_by_itself();
    wakes_any();
    gives_all();
    lends_nothing();
    ends();
    times();
    is_undefined();
    refuses();
    holds_none();
    opens_none();
    return outcome();
}
