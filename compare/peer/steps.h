/* The due steps: one undo, one execution, or all until the panel is idle. */
#ifndef STEPS_H
#define STEPS_H

#include "operation.h"

/* The mark of a reply to the own request that was executed at a place, and whether it waits on. */
static inline uint8_t mark_own(state *s, uint32_t slot, uint32_t place) {
    uint64_t bit = UINT64_C(1) << event_bit(slot);
    if (!(s->awaiting & bit)) return MIZZENCORD_REPLY_TO_NOBODY;
    if (s->asked[slot].strong && place >= s->committed) return MIZZENCORD_REPLY_TENTATIVE;
    s->awaiting &= ~bit;
    return s->asked[slot].strong ? MIZZENCORD_REPLY_STABLE : MIZZENCORD_REPLY_WEAK;
}

/* Undoes the top of the stack, where there is something to undo, and says which request that was. */
static inline uint32_t undo_top(state *s) {
    uint32_t top = --s->stacked, slot = s->stack[top];
    undo_one(s->registers, s->asked[slot], s->saved[top]);
    s->undos++;
    return slot;
}

/* Executes the first request to do, where there is one and nothing to undo. */
static inline mizzencord_reply execute_next(state *s) {
    uint32_t place = s->executed++, slot = s->order[place];
    s->stack[place] = (uint16_t)slot;
    s->stacked = s->executed;
    s->executions++;
    uint32_t response = execute_one(s->registers, s->asked[slot], &s->saved[place]);
    s->responses[slot] = response;
    uint8_t mark = panel_of(slot) == s->own ? mark_own(s, slot, place) : MIZZENCORD_REPLY_TO_NOBODY;
    return (mizzencord_reply){.response = response, .number = number_of(slot), .mark = mark};
}

static inline void undo_all(state *s) {
    for (uint32_t top = s->stacked; top > s->executed; top--)
        undo_one(s->registers, s->asked[s->stack[top - 1]], s->saved[top - 1]);
    s->undos += s->stacked - s->executed;
}

/* Executes all that is to do; the replies that somebody awaits go into lent ones, and their count is said. */
static inline uint64_t execute_all(state *s, mizzencord_reply *replies) {
    uint64_t count = 0;
    uint32_t own = s->own, ordered = s->ordered;
    for (uint32_t place = s->executed; place < ordered; place++) {
        uint32_t slot = s->order[place], response = execute_one(s->registers, s->asked[slot], &s->saved[place]);
        s->stack[place] = (uint16_t)slot;
        s->responses[slot] = response;
        if (!seldom(panel_of(slot) == own)) continue;
        uint8_t mark = mark_own(s, slot, place);
        if (mark != MIZZENCORD_REPLY_TO_NOBODY)
            replies[count++] = (mizzencord_reply){.response = response, .number = number_of(slot), .mark = mark};
    }
    s->executions += ordered - s->executed;
    s->executed = s->stacked = ordered;
    return count;
}

#endif
