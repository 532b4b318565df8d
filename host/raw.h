/* The steps of the way `raw`. */
#ifndef PIF_RAW_H
#define PIF_RAW_H

#include "host.h"

enum { FINE, INCONSISTENT, UNUSABLE };

typedef enum {
    LOCK_LOAD, LOCK_PENDING, LOCK_EXCHANGE, LOCK_ASK, LOCK_STOP, LOCK_CLEAR,
    TAKE_LOAD, TAKE_HEALTH, TAKE_SPOIL, TAKE_CLEAN, TAKE_NEXT, TAKE_HEAD, TAKE_CLEAR,
    LEAVE_EXCHANGE, LEAVE_ASK, LEAVE_CLEAR,
    TRY_LOAD, TRY_PENDING, TRY_EXCHANGE, TRY_ASK,
    UNLOCK_LOAD, UNLOCK_PENDING, UNLOCK_HEALTH, UNLOCK_SPOIL, UNLOCK_UNLINK, UNLOCK_EXCHANGE, UNLOCK_ASK, UNLOCK_CLEAR,
    REPAIR_LOAD, REPAIR_HEALTH, REPAIR_STORE,
    WAIT_LOAD, WAIT_READ, WAIT_PARK,
    USE_LOAD, USE_EXCHANGE, USE_REQUEUE, USE_LOAD_AGAIN,
    SET_PRIORITY
} Place;

int next(Worker *worker, Place place);
int told_answer(const Worker *worker, int answer);
uint32_t load_word(const uint32_t *word);
bool exchange_word(uint32_t *word, uint32_t *expected, uint32_t value);
int lock_given(Worker *worker, bool waited);

int lock_load(Worker *worker);
int lock_pending(Worker *worker);
int lock_exchange(Worker *worker);
int lock_ask(Worker *worker);
int lock_stop(Worker *worker);
int lock_clear(Worker *worker);
int take_load(Worker *worker);
int take_health(Worker *worker);
int take_spoil(Worker *worker);
int take_clean(Worker *worker);
int take_next(Worker *worker);
int take_head(Worker *worker);
int take_clear(Worker *worker);
int leave_exchange(Worker *worker);
int leave_ask(Worker *worker);
int leave_clear(Worker *worker);
int try_load(Worker *worker);
int try_pending(Worker *worker);
int try_exchange(Worker *worker);
int try_ask(Worker *worker);
int unlock_load(Worker *worker);
int unlock_pending(Worker *worker);
int unlock_health(Worker *worker);
int unlock_spoil(Worker *worker);
int unlock_unlink(Worker *worker);
int unlock_exchange(Worker *worker);
int unlock_ask(Worker *worker);
int unlock_clear(Worker *worker);
int repair_load(Worker *worker);
int repair_health(Worker *worker);
int repair_store(Worker *worker);
int wait_load(Worker *worker);

#endif
