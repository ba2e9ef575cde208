/* Drives the journal and the leader of docs/EMBED.md, which compare/test puts into embed_parts.h: shops whose bus loses messages and whose
 * panels are replayed from their journals; what that page says of them is checked. */
#include <stdio.h>
#include <stdlib.h>
#include <string.h>

#include "mizzencord.h"

enum { PANELS = 3, SHOPS = 300, TURNS = 400, LOST = 30, JOURNAL_BYTES = 65536, PLACES = 514 };

/* The last reply shown of an own request, by event. */
typedef struct {
    uint32_t response;
    uint8_t mark;
} shown;

typedef struct {
    mizzencord_panel board;
    uint8_t journal[JOURNAL_BYTES];
    size_t length;
    mizzencord_number announced[PLACES];
    shown replies[MIZZENCORD_MOST_EVENTS + 1];
} station;

static station shop[PANELS];
static uint64_t seed;

static uint32_t drawn(uint32_t below) {
    seed ^= seed << 13, seed ^= seed >> 7, seed ^= seed << 17;
    return (uint32_t)((seed >> 20) % below);
}

static void expect(bool holds, const char *what) {
    if (holds) return;
    printf("parts of docs/EMBED.md: not so: %s\n", what);
    exit(1);
}

static station *station_of(const mizzencord_panel *board) { return &shop[mizzencord_own(board)]; }

static void enter(station *s, const void *bytes, size_t length) {
    expect(length <= sizeof s->journal - s->length, "a journal has room");
    memcpy(s->journal + s->length, bytes, length);
    s->length += length;
}

static size_t message_of(bool settles, mizzencord_request request, uint8_t *out) {
    return mizzencord_write((mizzencord_message){request, settles}, out, MIZZENCORD_LONGEST_MESSAGE).bytes;
}

static void note(const mizzencord_panel *board, mizzencord_number number) {
    uint8_t bytes[MIZZENCORD_LONGEST_MESSAGE];
    enter(station_of(board), bytes, message_of(true, (mizzencord_request){.number = number}, bytes));
}

/* Every panel but the leader may miss it. */
static void announce(mizzencord_number number, uint32_t place) {
    shop[0].announced[place] = number;
    for (int p = 1; p < PANELS; p++)
        if (drawn(100) >= LOST) shop[p].announced[place] = number;
}

static void show(const mizzencord_panel *board, mizzencord_number number, uint32_t response, uint8_t mark) {
    shown *reply = &station_of(board)->replies[number.event];
    expect(number.panel == mizzencord_own(board), "a reply is to an own request");
    expect(reply->mark == 0 || reply->mark == MIZZENCORD_REPLY_TENTATIVE, "no reply follows the last one");
    *reply = (shown){response, mark};
}

#include "embed_parts.h"

static void hear(station *to, mizzencord_request request) {
    uint8_t bytes[MIZZENCORD_LONGEST_MESSAGE];
    size_t length = message_of(false, request, bytes);
    mizzencord_receipt got = mizzencord_receive(&to->board, bytes, length, 0);
    expect(got.taken == length && got.kind == (request.asked.strong ? MIZZENCORD_STRONG_REQUEST : MIZZENCORD_WEAK_REQUEST), "a receipt");
    if (got.reply.refusal == MIZZENCORD_ACCEPTED) enter(to, bytes, length);
}

static mizzencord_invocation drawn_invocation(void) {
    mizzencord_invocation v = {.clock = drawn(300)};
    v.asked.strong = drawn(3) == 0;
    v.asked.code = (uint8_t)(MIZZENCORD_READ + drawn(6));
    v.asked.r = (uint8_t)drawn(6);
    if (v.asked.code != MIZZENCORD_READ) v.asked.amount = 1 + drawn(9);
    if (v.asked.code == MIZZENCORD_MOVE) v.asked.q = (uint8_t)((v.asked.r + 1) % 6);
    if (v.asked.code == MIZZENCORD_CLAIM_ALL) v.asked.q = (uint8_t)(v.asked.r + drawn(4));
    return v;
}

static void press(station *s) {
    mizzencord_invocation v = drawn_invocation();
    mizzencord_answer a = mizzencord_invoke(&s->board, v);
    if (a.refusal != MIZZENCORD_ACCEPTED) return;
    uint8_t entry[1 + sizeof v] = {JOURNAL_INVOKED};
    memcpy(entry + 1, &v, sizeof v);
    enter(s, entry, sizeof entry);
    for (int p = 0; p < PANELS; p++)
        if (&shop[p] != s && drawn(100) >= LOST) hear(&shop[p], a.request);
}

static void work(station *s) {
    uint8_t entry = JOURNAL_STEPS;
    if (mizzencord_owed(&s->board) == 0) return;
    mizzencord_due due = mizzencord_run_due(&s->board);
    enter(s, &entry, sizeof entry);
    for (size_t i = 0; i < due.count; i++) show(&s->board, due.replies[i].number, due.replies[i].response, due.replies[i].mark);
}

/* The panel is switched off and on: what its journal tells of is the same panel. */
static void restart(station *s, uint8_t own) {
    static mizzencord_panel again;
    memset(&again, (int)drawn(256), sizeof again);
    expect(replay(&again, PANELS, own, s->journal, s->length), "a journal can be replayed");
    expect(memcmp(&again, &s->board, sizeof again) == 0, "a replay is the panel byte for byte");
    expect(mizzencord_panels(&again) == PANELS && mizzencord_own(&again) == own, "the panel is of its shop");
    s->board = again;
}

static void send_all(const station *from, station *to) {
    for (size_t place = 1; place <= mizzencord_requests(&from->board); place++) hear(to, mizzencord_at_place(&from->board, place).request);
    if (from == &shop[0]) memcpy(to->announced, from->announced, sizeof to->announced);
}

static void settle_all(void) {
    lead(&shop[0].board);
    for (int p = 1; p < PANELS; p++) follow(&shop[p].board, shop[p].announced);
}

static void take_turns(void) {
    for (int turn = 0; turn < TURNS; turn++) {
        uint8_t who = (uint8_t)drawn(PANELS), from = (uint8_t)drawn(PANELS);
        if (drawn(3) == 0) press(&shop[who]);
        if (drawn(3) == 0) settle_all();
        if (drawn(3) == 0) work(&shop[who]);
        if (drawn(20) == 0) restart(&shop[who], who);
        if (drawn(10) == 0 && from != who) send_all(&shop[from], &shop[who]);
    }
}

/* What the replies of an own request were, by its status. */
static void check_status(const station *s, uint8_t own, uint8_t event) {
    mizzencord_status status = mizzencord_request_status(&s->board, (mizzencord_number){own, event});
    shown reply = s->replies[event];
    expect(status.refusal == MIZZENCORD_ACCEPTED && status.executed, "an idle panel has executed its requests");
    bool last = reply.mark == MIZZENCORD_REPLY_WEAK || reply.mark == MIZZENCORD_REPLY_STABLE;
    expect(status.awaited != last, "awaited until the last reply");
    if (reply.mark == MIZZENCORD_REPLY_STABLE) expect(status.settled && status.response == reply.response, "a status has the stable reply");
}

static void check_end(void) {
    for (int p = 1; p < PANELS; p++) {
        expect(mizzencord_commits(&shop[p].board) == mizzencord_commits(&shop[0].board), "all settle the same");
        for (uint8_t k = 0; k < MIZZENCORD_REGISTERS; k++)
            expect(mizzencord_register(&shop[p].board, k).value == mizzencord_register(&shop[0].board, k).value, "registers are equal");
    }
    for (uint8_t p = 0; p < PANELS; p++)
        for (uint8_t event = 1; event <= mizzencord_made(&shop[p].board); event++) check_status(&shop[p], p, event);
}

static void run_shop(uint64_t number) {
    seed = number * UINT64_C(0x9e3779b97f4a7c15);
    memset(shop, 0, sizeof shop);
    for (uint8_t p = 0; p < PANELS; p++) expect(mizzencord_fresh(&shop[p].board, PANELS, p) == MIZZENCORD_ACCEPTED, "fresh");
    take_turns();
    for (int round = 0; round < 2; round++) {
        for (int from = 0; from < PANELS; from++)
            for (int to = 0; to < PANELS; to++)
                if (from != to) send_all(&shop[from], &shop[to]);
        settle_all();
    }
    for (int p = 0; p < PANELS; p++) work(&shop[p]);
    check_end();
}

int main(void) {
    size_t longest = 0;
    expect(mizzencord_version() == MIZZENCORD_VERSION, "header and library are of one revision");
    for (uint64_t number = 1; number <= SHOPS; number++) {
        run_shop(number);
        for (int p = 0; p < PANELS; p++) longest = shop[p].length > longest ? shop[p].length : longest;
    }
    printf("parts of docs/EMBED.md: %d shops of %d panels end equal; the longest journal has %zu bytes\n", SHOPS, PANELS, longest);
    return 0;
}
