/* How a request enters the standing order, made or heard. */
#ifndef ENTER_H
#define ENTER_H

#include "operation.h"

/* The first tentative place whose request comes after a rank; most requests come last. */
static inline uint32_t place_of(const state *s, uint64_t rank) {
    uint32_t first = s->committed, count = s->ordered - first;
    if (count == 0 || !seldom(rank_of(s, s->order[s->ordered - 1]) > rank)) return s->ordered;
    while (count > 1) {
        uint32_t half = count / 2;
        first += rank_of(s, s->order[first + half - 1]) < rank ? half : 0;
        count -= half;
    }
    return first + (rank_of(s, s->order[first]) < rank);
}

/* Puts a slot at a place of the order; what is executed from there on is to be undone. */
static inline void insert(state *s, uint32_t slot, uint32_t place) {
    uint16_t *there = s->order + place;
    if (place != s->ordered) memmove(there + 1, there, (s->ordered - place) * sizeof *there);
    *there = (uint16_t)slot;
    s->ordered++;
    if (s->executed > place) s->executed = place;
}

/* Keeps a request's fields but its context. */
static inline void keep(state *s, uint32_t slot, mizzencord_asked asked, uint32_t clock) {
    put(s->held, slot);
    if (!asked.strong) put(s->known, slot);
    s->asked[slot] = asked;
    s->clocks[slot] = clock;
}

/* The known set without the tentative requests from a place on. */
static inline void known_before(const state *s, uint32_t place, number_set context) {
    memcpy(context, s->known, sizeof(number_set));
    for (uint32_t k = place; k < s->ordered; k++)
        context[panel_of(s->order[k])] &= ~(UINT64_C(1) << event_bit(s->order[k]));
}

/* A request is made: refused by a number, or the request to be spread. */
static inline uint8_t make(state *s, mizzencord_invocation invocation, mizzencord_request *spread) {
    if (seldom(is_bad(invocation.asked))) return MIZZENCORD_BAD_OPERATION;
    if (seldom(s->events == EVENTS)) return MIZZENCORD_SHIFT_FULL;
    if (invocation.clock > s->clock) s->clock = invocation.clock;
    uint32_t slot = slot_of(s->own, s->events++);
    s->awaiting |= UINT64_C(1) << event_bit(slot);
    keep(s, slot, invocation.asked, s->clock);
    uint32_t place = place_of(s, rank_of(s, slot));
    if (invocation.asked.strong) {
        known_before(s, place, spread->context);
        memcpy(s->contexts[slot], spread->context, sizeof(number_set));
    }
    insert(s, slot, place);
    spread->asked = invocation.asked;
    spread->clock = s->clock;
    spread->number = number_of(slot);
    return MIZZENCORD_ACCEPTED;
}

/* Weak with a context, or one that names itself or a panel not in the shop. */
static inline bool is_bad_context(const state *s, const mizzencord_request *request, uint32_t slot) {
    if (!request->asked.strong) return !is_empty(request->context);
    uint64_t outside = 0;
    for (uint32_t p = s->panels; p < PANELS; p++) outside |= request->context[p];
    return outside != 0 || has(request->context, slot);
}

/* The number is held: with the same content or with another. */
static __attribute__((noinline, cold)) uint8_t held_refusal(const state *s, const mizzencord_request *request, uint32_t slot) {
    bool same = s->clocks[slot] == request->clock && memcmp(&s->asked[slot], &request->asked, sizeof request->asked) == 0;
    if (same && request->asked.strong) same = memcmp(s->contexts[slot], request->context, sizeof(number_set)) == 0;
    return same ? MIZZENCORD_HELD_ALREADY : MIZZENCORD_NUMBER_CLASH;
}

/* A request is heard, or refused by a number. */
static inline uint8_t hear(state *s, const mizzencord_request *request) {
    uint32_t panel = request->number.panel, event = request->number.event - 1u, slot = slot_of(panel, event);
    if (seldom(panel >= s->panels || event >= EVENTS)) return MIZZENCORD_BAD_NUMBER;
    if (seldom(panel == s->own)) return MIZZENCORD_OWN_ECHO;
    if (seldom(is_bad(request->asked))) return MIZZENCORD_BAD_OPERATION;
    if (seldom(is_bad_context(s, request, slot))) return MIZZENCORD_BAD_CONTEXT;
    if (seldom(has(s->held, slot))) return held_refusal(s, request, slot);
    keep(s, slot, request->asked, request->clock);
    if (request->asked.strong) memcpy(s->contexts[slot], request->context, sizeof(number_set));
    insert(s, slot, place_of(s, rank_of(s, slot)));
    return MIZZENCORD_ACCEPTED;
}

#endif
