/* Bus messages: what stands at a place of a run of bytes, and its fields. */
#ifndef WIRE_H
#define WIRE_H

#include "state.h"

enum { WEAK = 1, STRONG = 2, SETTLEMENT = 3 };

/* Where the fields of a message stand. */
enum { KIND_AT = 2, NUMBER_AT = 4, CLOCK_AT = 6, CODE_AT = 10, SPARE_AT = 13, CONTEXT_AT = 18, HEAD = 4 };

static inline uint16_t length_of(uint32_t kind) {
    return kind == WEAK ? CONTEXT_AT : kind == STRONG ? CONTEXT_AT + sizeof(number_set) : CLOCK_AT;
}

static inline uint32_t word_at(const uint8_t *bytes) {
    uint32_t word;
    memcpy(&word, bytes, sizeof word);
    return word;
}

static inline uint64_t long_at(const uint8_t *bytes) {
    uint64_t word;
    memcpy(&word, bytes, sizeof word);
    return word;
}

/* A message's kind and length, or how it is refused. */
typedef struct {
    uint32_t kind, length;
    uint8_t refusal;
} head;

/* Judges the layout of the bytes left, of which there is at least one. */
static inline head judge(const uint8_t *bytes, size_t left) {
    if (seldom(left < HEAD)) return (head){.refusal = MIZZENCORD_CUT_SHORT};
    uint32_t both = word_at(bytes), kind = both >> 16, length = both & UINT16_MAX;
    if (seldom(kind - WEAK > SETTLEMENT - WEAK)) return (head){.refusal = MIZZENCORD_UNKNOWN_KIND};
    if (seldom(length != length_of(kind))) return (head){.refusal = MIZZENCORD_BAD_LENGTH};
    if (seldom(left < length)) return (head){.refusal = MIZZENCORD_CUT_SHORT};
    if (kind != SETTLEMENT && seldom(bytes[SPARE_AT] != 0)) return (head){.refusal = MIZZENCORD_SPARE_SET};
    return (head){.kind = kind, .length = length};
}

static inline mizzencord_number number_at(const uint8_t *message) {
    return (mizzencord_number){message[NUMBER_AT], message[NUMBER_AT + 1]};
}

/* A message has code, r, q, a spare 0 and the amount as the struct has them, where the flag stands in the spare's place. */
static inline mizzencord_asked asked_at(const uint8_t *message, bool strong) {
    uint64_t word = long_at(message + CODE_AT);
    word |= (uint64_t)strong << 24;
    mizzencord_asked asked;
    memcpy(&asked, &word, sizeof asked);
    return asked;
}

/* Puts a request's fields where they are asked for. */
static inline void request_at(const uint8_t *message, uint32_t kind, mizzencord_request *request) {
    if (kind == STRONG)
        memcpy(request->context, message + CONTEXT_AT, sizeof(number_set));
    else
        memset(request->context, 0, sizeof(number_set));
    request->asked = asked_at(message, kind == STRONG);
    request->clock = word_at(message + CLOCK_AT);
    request->number = number_at(message);
}

/* Puts the bytes of a message where there is room for them, and says how many. */
static inline uint32_t put_message(const mizzencord_message *message, uint32_t kind, uint8_t *out) {
    const mizzencord_request *request = &message->request;
    uint32_t length = length_of(kind), both = length | kind << 16;
    memcpy(out, &both, sizeof both);
    out[NUMBER_AT] = request->number.panel;
    out[NUMBER_AT + 1] = request->number.event;
    if (kind == SETTLEMENT) return length;
    uint64_t asked;
    memcpy(&asked, &request->asked, sizeof asked);
    asked &= ~(UINT64_C(0xff) << 24);
    memcpy(out + CLOCK_AT, &request->clock, sizeof request->clock);
    memcpy(out + CODE_AT, &asked, sizeof asked);
    if (kind == STRONG) memcpy(out + CONTEXT_AT, request->context, sizeof(number_set));
    return length;
}

#endif
