/* Who goes next, which schedule is visited next, and whether all stand still. */
#include "expect.h"

static void who_goes(void)
{
    const pif_candidate can[] = {{1, 5}, {3, 9}, {5, 9}};

    NUMBER(pif_choose_staying(3, can, 3), PIF_OK, 3);
    NUMBER(pif_choose_staying(2, can, 3), PIF_OK, 3);
    NUMBER(pif_choose_staying(6, can, 3), PIF_OK, 1);
    NUMBER(pif_choose_drawn(2, can, 3), PIF_OK, 5);
    NUMBER(pif_choose_drawn(4, can, 3), PIF_OK, 3);
    NUMBER(pif_choose_ranked(can, 3), PIF_OK, 3);
    NUMBER(pif_choose_ranked(can, 1), PIF_OK, 1);
    NUMBER(pif_choose_staying(1, NULL, 0), PIF_NONE, 0);
    NUMBER(pif_choose_drawn(1, NULL, 0), PIF_NONE, 0);
    NUMBER(pif_choose_ranked(NULL, 0), PIF_NONE, 0);
}

static void expect_change(int line, pif_change is, uint32_t result, size_t kept, size_t option)
{
    expect_true(line, "the result", is.result == result);
    expect_true(line, "what is kept", is.kept == kept);
    expect_true(line, "the option", is.option == option);
}

#define CHANGE(call, result, kept, option) expect_change(__LINE__, call, result, kept, option)

/* Two points, each with an option that counts nothing and a preemption: with one preemption the schedules 00, 01, 10. */
static void of_preemptions(void)
{
    const pif_counts none = {0, 0, 0}, one = {1, 0, 0}, options[] = {{0, 0, 0}, {1, 0, 0}, {0, 0, 0}, {1, 0, 0}};
    const pif_point first[] = {{2, 0}, {2, 0}}, second[] = {{2, 0}, {2, 1}}, third[] = {{2, 1}, {2, 0}};

    CHANGE(pif_choose_next(&one, first, 2, options, 4), PIF_OK, 1, 1);
    CHANGE(pif_choose_next(&one, second, 2, options, 4), PIF_OK, 0, 1);
    CHANGE(pif_choose_next(&one, third, 2, options, 4), PIF_NONE, 0, 0);
    CHANGE(pif_choose_next(&none, first, 2, options, 4), PIF_NONE, 0, 0);
    CHANGE(pif_choose_next(&one, NULL, 0, NULL, 0), PIF_NONE, 0, 0);
}

/* Each count has a bound of its own: the second option ends a thread, and the third wakes one. */
static void of_ends(void)
{
    const pif_counts ends = {0, 1, 1}, wakes = {1, 0, 1}, options[] = {{0, 0, 0}, {0, 1, 0}, {1, 0, 1}};
    const pif_point first = {3, 0}, second = {3, 1};

    CHANGE(pif_choose_next(&ends, &first, 1, options, 3), PIF_OK, 0, 1);
    CHANGE(pif_choose_next(&ends, &second, 1, options, 3), PIF_NONE, 0, 0);
    CHANGE(pif_choose_next(&wakes, &first, 1, options, 3), PIF_OK, 0, 2);
}

/* t1 waits for m1 of t2, which waits for m2 of t3, which waits for m1; t4 waits for nobody. */
static void who_waits(void)
{
    pif_standing all[] = {{.thread = 1, .mutex = 1, .owner = 2, .wants_lock = true},
                          {.thread = 2, .mutex = 2, .owner = 3, .wants_lock = true},
                          {.thread = 3, .mutex = 1, .owner = 2, .wants_lock = true},
                          {.thread = 4}};
    pif_link room[3] = {{0}};

    TRUE(pif_choose_is_deadlock(all, 4) == 1);
    TRUE(pif_choose_is_deadlock(all + 3, 1) == 0);
    TRUE(pif_choose_is_deadlock(NULL, 0) == 0);
    TRUE(pif_choose_chain(all, 4, 2, room, 3) == 2);
    TRUE(room[0].thread == 2 && room[0].mutex == 2 && room[0].owner == 3);
    TRUE(room[1].thread == 3 && room[1].mutex == 1 && room[1].owner == 2);
    TRUE(pif_choose_chain(all, 4, 1, room, 3) == 3);
    TRUE(room[0].owner == 2 && room[2].thread == 3 && room[2].owner == 2);
    TRUE(pif_choose_chain(all, 4, 4, room, 3) == 0);
    TRUE(pif_choose_chain(all, 4, 1, NULL, 0) == 0);
    all[3].goes = true;
    TRUE(pif_choose_is_deadlock(all, 4) == 0);
    all[3].goes = false;
    all[1].is_timed = true;
    TRUE(pif_choose_is_deadlock(all, 4) == 0);
    all[1].is_timed = false;
    all[2].is_outside = true;
    TRUE(pif_choose_is_deadlock(all, 4) == 0);
}

int main(void)
{
    who_waits();
    who_goes();
    of_preemptions();
    of_ends();
    return outcome();
}
