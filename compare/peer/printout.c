/* The printout of a shift. */
#include "enter.h"
#include "settle.h"
#include "steps.h"
#include "wire.h"

enum { MOST_INPUT = 65536, SHOP = 2, MOST_DIGITS = 10 };

/* Text as it grows in lent bytes. */
typedef struct {
    uint8_t *end;
} text;

static inline void put_byte(text *t, char byte) { *t->end++ = (uint8_t)byte; }

static inline void put_words(text *t, const char *words) {
    size_t length = strlen(words);
    memcpy(t->end, words, length);
    t->end += length;
}

/* Puts a number in decimal, and a byte behind it. */
static inline void put_number(text *t, uint32_t number, char behind) {
    uint8_t digits[MOST_DIGITS];
    uint32_t first = MOST_DIGITS;
    do {
        digits[--first] = (uint8_t)('0' + number % 10);
        number /= 10;
    } while (number != 0);
    memcpy(t->end, digits + first, MOST_DIGITS - first);
    t->end += MOST_DIGITS - first;
    put_byte(t, behind);
}

/* Hears or settles a message. */
static uint8_t take(state *s, const uint8_t *message, uint32_t kind) {
    if (kind == SETTLEMENT) return settle(s, number_at(message)).refusal;
    mizzencord_request request;
    request_at(message, kind, &request);
    return hear(s, &request);
}

static void put_line(text *t, uint32_t kind, const uint8_t *message, uint8_t refusal, uint32_t undos) {
    put_number(t, kind, ' ');
    put_number(t, message[NUMBER_AT], ' ');
    put_number(t, message[NUMBER_AT + 1], ' ');
    put_number(t, refusal, ' ');
    put_number(t, undos, '\n');
}

/* Takes one message after the other, with a line for each. */
static void take_all(text *t, state *s, const uint8_t *input, size_t length) {
    mizzencord_reply replies[MIZZENCORD_MOST_REPLIES];
    uint32_t place = 1;
    for (size_t at = SHOP; at < length; place++) {
        head found = judge(input + at, length - at);
        put_number(t, place, ' ');
        if (found.refusal != MIZZENCORD_ACCEPTED) {
            put_words(t, "- - - ");
            put_number(t, found.refusal, ' ');
            put_words(t, "0\n");
            return;
        }
        uint8_t refusal = take(s, input + at, found.kind);
        uint32_t undos = s->stacked - s->executed;
        undo_all(s);
        execute_all(s, replies);
        put_line(t, found.kind, input + at, refusal, undos);
        at += found.length;
    }
}

static void put_totals(text *t, const state *s) {
    put_words(t, "settled ");
    put_number(t, s->committed, ' ');
    put_words(t, "unsettled ");
    put_number(t, s->ordered - s->committed, ' ');
    put_words(t, "undone ");
    put_number(t, s->undos, ' ');
    put_words(t, "carried ");
    put_number(t, s->executions, '\n');
}

static void put_registers(text *t, const state *s) {
    for (uint32_t k = 0; k < MIZZENCORD_REGISTERS; k++) {
        if (s->registers[k] == 0) continue;
        put_words(t, "register ");
        put_number(t, k, ' ');
        put_number(t, s->registers[k], '\n');
    }
}

static void print_shift(text *t, const uint8_t *input, size_t length) {
    memory there;
    if (mizzencord_fresh(&there.panel, input[0], input[1]) != MIZZENCORD_ACCEPTED) {
        put_words(t, "board refused 1\n");
        return;
    }
    put_words(t, "board ");
    put_number(t, input[0], ' ');
    put_number(t, input[1], '\n');
    take_all(t, &there.state, input, length);
    put_totals(t, &there.state);
    put_registers(t, &there.state);
}

size_t mizzencord_print(const uint8_t *input, size_t input_length, uint8_t *out, size_t out_length) {
    if (out_length < MIZZENCORD_MOST_PRINTED) return 0;
    text t = {out};
    if (input_length < SHOP)
        put_words(&t, "board refused 16\n");
    else
        print_shift(&t, input, input_length < MOST_INPUT ? input_length : MOST_INPUT);
    return (size_t)(t.end - out);
}
