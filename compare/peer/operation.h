/* Operations on the registers: what makes one bad, executing one and undoing it. */
#ifndef OPERATION_H
#define OPERATION_H

#include "state.h"

enum { MOST_TOGETHER = 4 };

static inline bool is_bad(mizzencord_asked asked) {
    if (seldom((asked.r | asked.q) >= MIZZENCORD_REGISTERS)) return true;
    switch (asked.code) {
    case MIZZENCORD_READ: return asked.q != 0 || asked.amount != 0;
    case MIZZENCORD_SET:
    case MIZZENCORD_ADD: return asked.q != 0;
    case MIZZENCORD_CLAIM: return asked.q != 0 || asked.amount == 0;
    case MIZZENCORD_MOVE: return asked.r == asked.q;
    case MIZZENCORD_CLAIM_ALL: return (uint8_t)(asked.q - asked.r) >= MOST_TOGETHER || asked.amount == 0;
    default: return true;
    }
}

/* Claims registers together; what is saved is whether it took them. */
static __attribute__((noinline)) uint32_t claim_all(uint32_t *registers, mizzencord_asked asked, uint64_t *saved) {
    *saved = 0;
    for (uint32_t k = asked.r; k <= asked.q; k++)
        if (registers[k] != 0) return registers[k];
    for (uint32_t k = asked.r; k <= asked.q; k++) registers[k] = asked.amount;
    *saved = 1;
    return asked.amount;
}

static __attribute__((noinline)) void free_all(uint32_t *registers, mizzencord_asked asked, uint64_t saved) {
    if (saved == 0) return;
    for (uint32_t k = asked.r; k <= asked.q; k++) registers[k] = 0;
}

/* Moves the least of the amount, what r holds and the room left in q; what is saved is r's value below and q's above. */
static inline uint32_t move_least(uint32_t *registers, mizzencord_asked asked, uint64_t *saved) {
    uint32_t held = registers[asked.r], filled = registers[asked.q], moved = UINT32_MAX - filled;
    *saved = held | (uint64_t)filled << 32;
    if (held < moved) moved = held;
    if (asked.amount < moved) moved = asked.amount;
    registers[asked.q] = filled + moved;
    registers[asked.r] = held - moved;
    return moved;
}

/* An operation on r alone, by selection: which one it is cannot be foretold. */
static inline uint32_t change_one(uint32_t *registers, mizzencord_asked asked, uint64_t *saved) {
    uint32_t before = registers[asked.r], after = before;
    if (asked.code == MIZZENCORD_SET) after = asked.amount;
    if (asked.code == MIZZENCORD_ADD) after = before + asked.amount;
    if ((asked.code == MIZZENCORD_CLAIM) & (before == 0)) after = asked.amount;
    *saved = before;
    registers[asked.r] = after;
    return asked.code == MIZZENCORD_SET ? before : after;
}

/* Executes a good operation and says its response. */
static inline uint32_t execute_one(uint32_t *registers, mizzencord_asked asked, uint64_t *saved) {
    if (asked.code < MIZZENCORD_MOVE) return change_one(registers, asked, saved);
    if (seldom(asked.code == MIZZENCORD_CLAIM_ALL)) return claim_all(registers, asked, saved);
    return move_least(registers, asked, saved);
}

/* Undoes the operation that was executed last. */
static inline void undo_one(uint32_t *registers, mizzencord_asked asked, uint64_t saved) {
    if (seldom(asked.code == MIZZENCORD_CLAIM_ALL)) {
        free_all(registers, asked, saved);
        return;
    }
    if (asked.code == MIZZENCORD_MOVE) registers[asked.q] = (uint32_t)(saved >> 32);
    registers[asked.r] = (uint32_t)saved;
}

#endif
