/* What a panel keeps, and the small questions that all calls ask of it. Little-endian, as x86-64 is: structs of eight bytes are words. */
#ifndef STATE_H
#define STATE_H

#include <string.h>

#include "prefix.h"

enum {
    PANELS = MIZZENCORD_MOST_PANELS,
    EVENTS = MIZZENCORD_MOST_EVENTS,
    REQUESTS = PANELS * EVENTS
};

/* A set of numbers: a word for each panel, as a context. */
typedef uint64_t number_set[PANELS];

/* A slot is panel * 64 + event - 1. The standing order is the committed list and then the tentative one. The requests on the board are
 * a stack: its first `executed` are the executed list, a start of the standing order, and the rest, from its top, the rollback list. */
typedef struct {
    uint8_t panels, own;
    uint8_t events; /* own requests made */
    uint32_t clock; /* of the last own request */
    uint32_t committed, ordered, executed, stacked;
    uint32_t commits, undos, executions;
    uint64_t awaiting; /* own requests that await a reply, by event */
    number_set held, known, settled;
    uint32_t registers[MIZZENCORD_REGISTERS];
    /* What follows is only looked at where a request is held, executed or stacked. */
    uint16_t order[REQUESTS], stack[REQUESTS];
    uint64_t saved[REQUESTS]; /* what undoing takes, by place of the stack */
    uint32_t responses[REQUESTS]; /* of the last execution, by slot */
    uint32_t clocks[REQUESTS];
    mizzencord_asked asked[REQUESTS];
    number_set contexts[REQUESTS]; /* of strong requests */
} state;

/* A panel's memory, at the front of which the state lies. */
typedef union {
    mizzencord_panel panel;
    state state;
} memory;

_Static_assert(sizeof(memory) == MIZZENCORD_PANEL_SIZE, "a state is no longer than a panel");

static inline state *state_of(mizzencord_panel *panel) { return &((memory *)panel)->state; }

static inline const state *shown(const mizzencord_panel *panel) { return &((const memory *)panel)->state; }

/* What the compiler is told to expect. */
static inline bool seldom(bool test) { return __builtin_expect(test, false); }

static inline uint32_t slot_of(uint32_t panel, uint32_t bit) { return panel * EVENTS + bit; }

static inline uint32_t panel_of(uint32_t slot) { return slot / EVENTS; }

static inline uint32_t event_bit(uint32_t slot) { return slot % EVENTS; }

static inline mizzencord_number number_of(uint32_t slot) {
    return (mizzencord_number){(uint8_t)panel_of(slot), (uint8_t)(event_bit(slot) + 1)};
}

static inline bool has(const number_set set, uint32_t slot) { return set[panel_of(slot)] >> event_bit(slot) & 1; }

static inline void put(number_set set, uint32_t slot) { set[panel_of(slot)] |= UINT64_C(1) << event_bit(slot); }

static inline bool is_empty(const number_set set) {
    return (set[0] | set[1] | set[2] | set[3] | set[4] | set[5] | set[6] | set[7]) == 0;
}

/* A number that no place of clock order shares: clock, then panel, then event. */
static inline uint64_t rank_of(const state *s, uint32_t slot) { return (uint64_t)s->clocks[slot] * REQUESTS + slot; }

#endif
