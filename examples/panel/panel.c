/* Two panels of one bake shop in one program. Both make requests and spread them over a bus of bytes; each settles the strong one
 * that it made, and in the end both hold the same board. In a real shop all panels settle in one order that the shop agrees on. */
#include <inttypes.h>
#include <stdio.h>

#include "mizzencord.h"

enum { PANELS = 2, BUS_BYTES = 1024, TRAYS = 4, OUT = 5, DECK = 0 };

typedef struct {
    mizzencord_panel board;
    size_t heard; /* the bytes of the bus that it took */
} station;

static station stations[PANELS];
static uint8_t bus[BUS_BYTES];
static size_t bus_length;

static const char *const marks[] = {"unawaited", "weak", "tentative", "stable"};

/* Puts a message at the end of the bus. */
static void spread(bool settles, mizzencord_request request) {
    mizzencord_message message = {.request = request, .settles = settles};
    mizzencord_written written = mizzencord_write(message, bus + bus_length, sizeof bus - bus_length);
    if (written.refusal != MIZZENCORD_ACCEPTED) printf("the bus: %s\n", mizzencord_refusal_word(written.refusal));
    bus_length += written.bytes;
}

static void print_reply(int panel, mizzencord_number number, uint32_t response, uint8_t mark) {
    printf("panel %d: %s reply to %d/%d: %" PRIu32 "\n", panel, marks[mark], number.panel, number.event, response);
}

static void make(int panel, mizzencord_asked asked, uint32_t clock) {
    mizzencord_invocation invocation = {asked, clock};
    mizzencord_answer answer = mizzencord_invoke(&stations[panel].board, invocation);
    if (answer.refusal != MIZZENCORD_ACCEPTED) {
        printf("panel %d cannot make it: %s\n", panel, mizzencord_refusal_word(answer.refusal));
        return;
    }
    mizzencord_number number = answer.request.number;
    printf("panel %d makes %d/%d, %s\n", panel, number.panel, number.event, asked.strong ? "strong" : "weak");
    spread(false, answer.request);
}

static void settle(int panel, mizzencord_number number) {
    mizzencord_answer answer = mizzencord_commit(&stations[panel].board, number);
    printf("panel %d settles %d/%d: %s\n", panel, number.panel, number.event, mizzencord_refusal_word(answer.refusal));
    if (answer.refusal != MIZZENCORD_ACCEPTED) return;
    if (answer.mark != MIZZENCORD_REPLY_TO_NOBODY) print_reply(panel, number, answer.response, answer.mark);
    spread(true, (mizzencord_request){.number = number});
}

/* Takes what is new on the bus; what a panel put there itself comes back to it and is refused. Nothing is lost on this bus, so no
 * settlement comes too early (9, 12); docs/EMBED.md has one on which it does. */
static void listen(int panel) {
    station *here = &stations[panel];
    for (;;) {
        mizzencord_receipt got = mizzencord_receive(&here->board, bus, bus_length, here->heard);
        if (got.taken == 0) return; /* the end, or bytes that are no message */
        here->heard += got.taken;
        printf("panel %d receives %" PRIu32 " bytes about %d/%d: %s\n", panel, got.taken, got.number.panel, got.number.event,
               mizzencord_refusal_word(got.reply.refusal));
        if (got.reply.mark != MIZZENCORD_REPLY_TO_NOBODY) print_reply(panel, got.number, got.reply.response, got.reply.mark);
    }
}

static void work(int panel) {
    mizzencord_due due = mizzencord_run_due(&stations[panel].board);
    printf("panel %d: %" PRIu32 " undone, %" PRIu32 " executed\n", panel, due.undos, due.executions);
    for (size_t i = 0; i < due.count; i++) print_reply(panel, due.replies[i].number, due.replies[i].response, due.replies[i].mark);
}

static void print_order(int panel) {
    const mizzencord_panel *board = &stations[panel].board;
    printf("panel %d, %zu of %zu settled:", panel, mizzencord_committed(board), mizzencord_requests(board));
    for (size_t place = 1; place <= mizzencord_requests(board); place++) {
        mizzencord_number number = mizzencord_at_place(board, place).request.number;
        printf(" %d/%d", number.panel, number.event);
    }
    printf("\n");
}

/* Prints the registers that are not 0 on both panels, and says whether all are equal. */
static bool print_registers(void) {
    bool equal = true;
    for (uint8_t k = 0; k < MIZZENCORD_REGISTERS; k++) {
        uint32_t one = mizzencord_register(&stations[0].board, k).value, other = mizzencord_register(&stations[1].board, k).value;
        if (one != 0 || other != 0) printf("register %d: %" PRIu32 " and %" PRIu32 "\n", k, one, other);
        equal = equal && one == other;
    }
    printf("the registers are %s\n", equal ? "equal" : "different");
    return equal;
}

static void both(void (*act)(int panel)) {
    for (int panel = 0; panel < PANELS; panel++) act(panel);
}

int main(void) {
    for (int panel = 0; panel < PANELS; panel++) {
        if (mizzencord_fresh(&stations[panel].board, PANELS, (uint8_t)panel) != MIZZENCORD_ACCEPTED) return 2;
    }
    make(0, (mizzencord_asked){.code = MIZZENCORD_ADD, .r = TRAYS, .amount = 6}, 10);
    make(1, (mizzencord_asked){.code = MIZZENCORD_CLAIM, .r = DECK, .amount = 2, .strong = true}, 12);
    make(0, (mizzencord_asked){.code = MIZZENCORD_CLAIM, .r = DECK, .amount = 1, .strong = true}, 11);
    both(work);
    both(listen);
    both(work);
    settle(1, (mizzencord_number){1, 1});
    make(1, (mizzencord_asked){.code = MIZZENCORD_MOVE, .r = TRAYS, .q = OUT, .amount = 2}, 13);
    both(listen);
    both(work);
    settle(0, (mizzencord_number){0, 2});
    both(listen);
    both(work);
    settle(1, (mizzencord_number){1, 1});
    make(0, (mizzencord_asked){.code = MIZZENCORD_CLAIM, .r = DECK, .strong = true}, 14);
    both(print_order);
    return print_registers() ? 0 : 1;
}
