/* How a settlement moves requests to the end of the committed list. */
#ifndef SETTLE_H
#define SETTLE_H

#include "state.h"

/* What a settlement led to. */
typedef struct {
    uint8_t refusal, mark;
    uint32_t response;
    mizzencord_number missing;
} settlement;

static inline settlement refused(uint8_t refusal) { return (settlement){.refusal = refusal}; }

/* The lowest number of the context that is not known. */
static __attribute__((noinline, cold)) settlement waiting(const state *s, const number_set context) {
    uint32_t p = 0;
    while ((context[p] & ~s->known[p]) == 0) p++;
    uint32_t bit = (uint32_t)__builtin_ctzll(context[p] & ~s->known[p]);
    return (settlement){.refusal = MIZZENCORD_WAITS, .missing = number_of(slot_of(p, bit))};
}

/* The tentative place of a slot that has one. */
static inline uint32_t find(const state *s, uint32_t slot) {
    uint32_t first = s->committed, count = s->ordered - first;
    uint64_t rank = rank_of(s, slot);
    while (count > 1) {
        uint32_t half = count / 2;
        first += rank_of(s, s->order[first + half]) <= rank ? half : 0;
        count -= half;
    }
    return first;
}

/* Moves a slot alone, and says the first place that changed. */
static inline uint32_t move_alone(state *s, uint32_t slot) {
    uint32_t place = find(s, slot), end = s->committed++;
    uint16_t *to = s->order + end;
    if (place == end) return REQUESTS;
    memmove(to + 1, to, (place - end) * sizeof *to);
    *to = (uint16_t)slot;
    return end;
}

/* Moves the slots of a set in their order and then another one that is not in it, and says the first place that changed. Each place goes
 * to both lists, and only one of them is longer by it: which one it is cannot be foretold. */
static inline uint32_t move_together(state *s, number_set moving, uint32_t left, uint32_t slot) {
    uint16_t staying[REQUESTS];
    uint32_t stay = 0, end = s->committed, changed = REQUESTS;
    put(moving, slot);
    for (uint32_t k = end; left != 0; k++) {
        uint32_t here = s->order[k];
        bool moves = has(moving, here), last = here == slot;
        left -= moves;
        if ((!moves || (last && left != 0)) && changed == REQUESTS) changed = end;
        s->order[end] = (uint16_t)here;
        staying[stay] = (uint16_t)here;
        end += moves & !last;
        stay += !moves;
    }
    s->order[end++] = (uint16_t)slot;
    memcpy(s->order + end, staying, stay * sizeof *staying);
    s->committed = end;
    return changed;
}

/* The stable reply to a request just settled, where it awaits one and is executed. */
static inline settlement stable_reply(state *s, uint32_t slot) {
    uint32_t event = event_bit(slot);
    if (panel_of(slot) != s->own || !(s->awaiting >> event & 1) || s->committed > s->executed) return refused(MIZZENCORD_ACCEPTED);
    s->awaiting &= ~(UINT64_C(1) << event);
    return (settlement){.mark = MIZZENCORD_REPLY_STABLE, .response = s->responses[slot]};
}

/* The whole context is known: moves what of it is tentative, and the request behind it. */
static inline void commit_known(state *s, uint32_t slot, const number_set context) {
    number_set moving;
    uint32_t count = 0, changed;
    for (uint32_t p = 0; p < PANELS; p++) {
        moving[p] = context[p] & ~s->settled[p];
        s->settled[p] |= context[p];
    }
    put(s->settled, slot);
    put(s->known, slot);
    s->commits++;
    if (is_empty(moving)) {
        changed = move_alone(s, slot);
    } else {
        for (uint32_t p = 0; p < PANELS; p++) count += (uint32_t)__builtin_popcountll(moving[p]);
        changed = move_together(s, moving, count + 1, slot);
    }
    if (s->executed > changed) s->executed = changed;
}

/* The strong request of a number is settled, or refused. */
static inline settlement settle(state *s, mizzencord_number number) {
    uint32_t event = number.event - 1u, slot = slot_of(number.panel, event);
    if (seldom(number.panel >= s->panels || event >= EVENTS)) return refused(MIZZENCORD_BAD_NUMBER);
    if (seldom(!has(s->held, slot))) return refused(MIZZENCORD_NOT_HERE);
    if (seldom(!s->asked[slot].strong)) return refused(MIZZENCORD_WEAK);
    if (seldom(has(s->settled, slot))) return refused(MIZZENCORD_SETTLED_ALREADY);
    const uint64_t *context = s->contexts[slot];
    uint64_t unknown = 0;
    for (uint32_t p = 0; p < PANELS; p++) unknown |= context[p] & ~s->known[p];
    if (seldom(unknown != 0)) return waiting(s, context);
    commit_known(s, slot, context);
    return stable_reply(s, slot);
}

#endif
