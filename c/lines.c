#include <stdio.h>
#include <string.h>

#include "lines.h"

void put(struct teller *teller, const char *word)
{
    size_t length = strlen(word), room = sizeof teller->text - teller->length;

    length = length < room ? length : room;
    memcpy(teller->text + teller->length, word, length);
    teller->length += length;
}

void put_number(struct teller *teller, const char *word, uint32_t number)
{
    char digits[16];

    put(teller, word);
    snprintf(digits, sizeof digits, "%lu", (unsigned long)number);
    put(teller, digits);
}

void put_mutex(struct teller *teller, uint32_t kind, bool robust)
{
    static const char *const kinds[] = {"normal", "recursive", "errorcheck"};

    put(teller, "mutex ");
    put(teller, kinds[kind]);
    put(teller, robust ? " robust" : "");
}

void put_call(struct teller *teller, const pif_request *request)
{
    static const char *const words[] = {" lock", " trylock", " unlock", " consistent", " timedlock", " wait",
                                        " timedwait", " signal", " broadcast", " setprio"};
    uint32_t call = request->call;
    bool is_use = call == PIF_SIGNAL || call == PIF_BROADCAST;

    put(teller, words[call - 1]);
    if (is_use || call == PIF_WAIT || call == PIF_TIMEDWAIT)
        put_number(teller, " c", request->cond);
    if (!is_use && call != PIF_SETPRIO)
        put_number(teller, " m", request->mutex);
    if (call == PIF_TIMEDLOCK || call == PIF_TIMEDWAIT)
        put_number(teller, " ", request->deadline);
    if (call == PIF_SETPRIO) {
        put_number(teller, " t", request->thread);
        put_number(teller, " ", request->prio);
    }
}

static const char *refusal(uint32_t detail)
{
    switch (detail) {
    case PIF_NO_SUCH: return "refused nosuch";
    case PIF_DEAD: return "refused dead";
    case PIF_BUSY: return "refused busy";
    case PIF_IDLE: return "refused idle";
    case PIF_PAST: return "refused past";
    default: return "refused";
    }
}

void put_seen(struct teller *teller, pif_seen seen)
{
    switch (seen.what) {
    case PIF_BEGUN: put(teller, "begun"); break;
    case PIF_WENT: put(teller, "went"); break;
    case PIF_WAITS: put(teller, "waits"); break;
    case PIF_ANSWERED: put_number(teller, "answer ", seen.detail); break;
    case PIF_ENDED: put(teller, "ended"); break;
    case PIF_TICKED: put(teller, "ticked"); break;
    case PIF_REFUSED: put(teller, refusal(seen.detail)); break;
    default: put_number(teller, "what ", seen.what);
    }
}

void end_line(struct teller *teller)
{
    put(teller, "\n");
    teller->sink(teller->to, teller->text, teller->length);
    teller->length = 0;
}
