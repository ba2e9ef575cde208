/* The showing calls, which change nothing, and the library's revision. */
#include "state.h"

mizzencord_value mizzencord_register(const mizzencord_panel *panel, uint8_t k) {
    if (k >= MIZZENCORD_REGISTERS) return (mizzencord_value){.refusal = MIZZENCORD_BAD_OPERATION};
    return (mizzencord_value){.value = shown(panel)->registers[k]};
}

size_t mizzencord_requests(const mizzencord_panel *panel) { return shown(panel)->ordered; }

size_t mizzencord_committed(const mizzencord_panel *panel) { return shown(panel)->committed; }

uint32_t mizzencord_commits(const mizzencord_panel *panel) { return shown(panel)->commits; }

uint32_t mizzencord_undos(const mizzencord_panel *panel) { return shown(panel)->undos; }

uint32_t mizzencord_executions(const mizzencord_panel *panel) { return shown(panel)->executions; }

size_t mizzencord_owed(const mizzencord_panel *panel) {
    const state *s = shown(panel);
    return (size_t)(s->stacked - s->executed) + (s->ordered - s->executed);
}

mizzencord_placed mizzencord_at_place(const mizzencord_panel *panel, size_t place) {
    const state *s = shown(panel);
    mizzencord_placed placed = {0};
    if (place == 0 || place > s->ordered) {
        placed.refusal = MIZZENCORD_NOT_HERE;
        return placed;
    }
    uint32_t slot = s->order[place - 1];
    placed.request.asked = s->asked[slot];
    placed.request.clock = s->clocks[slot];
    placed.request.number = number_of(slot);
    if (placed.request.asked.strong) memcpy(placed.request.context, s->contexts[slot], sizeof(number_set));
    return placed;
}

uint8_t mizzencord_panels(const mizzencord_panel *panel) { return shown(panel)->panels; }

uint8_t mizzencord_own(const mizzencord_panel *panel) { return shown(panel)->own; }

uint8_t mizzencord_made(const mizzencord_panel *panel) { return shown(panel)->events; }

/* The place of a slot that is held, counted from 0. */
static uint32_t standing_at(const state *s, uint32_t slot) {
    uint32_t place = 0;
    while (s->order[place] != slot) place++;
    return place;
}

mizzencord_status mizzencord_request_status(const mizzencord_panel *panel, mizzencord_number number) {
    const state *s = shown(panel);
    mizzencord_status status = {0};
    uint32_t event = number.event - 1u, slot = slot_of(number.panel, event);
    if (number.panel >= s->panels || event >= EVENTS) {
        status.refusal = MIZZENCORD_BAD_NUMBER;
    } else if (!has(s->held, slot)) {
        status.refusal = MIZZENCORD_NOT_HERE;
    } else {
        uint32_t place = standing_at(s, slot);
        status.place = place + 1;
        status.settled = has(s->settled, slot);
        status.awaited = number.panel == s->own && (s->awaiting >> event & 1);
        status.executed = place < s->executed;
        status.response = status.executed ? s->responses[slot] : 0;
    }
    return status;
}

uint32_t mizzencord_version(void) { return MIZZENCORD_VERSION; }
