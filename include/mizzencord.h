/* The panel of a bake board as a component: link libmizzencord.a, which `rt lib` in crates/mizzencord writes for x86-64. Only the two
 * functions over whole shifts, mizzencord_print and mizzencord_run, are in libmizzencord_tools.a, which `rt lib` in
 * crates/mizzencord_tools writes. Both may be linked into one program.
 *
 * A panel is memory that the caller owns: make it with mizzencord_fresh, then hand it to the calls. A call changes that memory and
 * nothing else, keeps no pointer, asks for no heap and ends. Two calls on one panel must not run at the same time; panels are
 * independent. Every call answers every argument: a call that cannot be done is refused by a number and changes nothing, but for
 * mizzencord_fresh, which makes a panel of the memory whatever it held. A panel's bytes may be moved and copied, but not written by
 * anybody else. A stored panel belongs to one revision of the library: store MIZZENCORD_VERSION beside it.
 *
 * A run of bytes is a pointer and a length; the pointer is not null, even where the length is 0. It must not overlap the panel of the same
 * call, and the runs that one call is lent must not overlap where one of them is written. Document 01's words: make is invoke, hear
 * deliver, settle commit, carry out execute.
 */
#ifndef MIZZENCORD_H
#define MIZZENCORD_H

#include <stdbool.h>
#include <stddef.h>
#include <stdint.h>

#ifdef __cplusplus
extern "C" {
#endif

/* The revision of this header; it changes with every layout of a struct or of a panel, and mizzencord_version tells the library's. */
#define MIZZENCORD_VERSION 1

/* Limits of a shop. */
enum {
    MIZZENCORD_MOST_PANELS = 8,
    MIZZENCORD_MOST_EVENTS = 64, /* requests of one panel in a shift */
    MIZZENCORD_REGISTERS = 64,
    MIZZENCORD_MOST_REPLIES = 64, /* replies of one mizzencord_run_due */
    MIZZENCORD_LONGEST_MESSAGE = 82,
    MIZZENCORD_CALL = 83,          /* bytes of a call in a list */
    MIZZENCORD_ANSWER = 90,        /* bytes of an answer to it */
    MIZZENCORD_MOST_PRINTED = 438473
};

/* Refusals. */
enum {
    MIZZENCORD_ACCEPTED = 0,
    MIZZENCORD_BAD_SHOP = 1,         /* panels not 1 to 8, or the own panel not below them */
    MIZZENCORD_BAD_NUMBER = 2,       /* panel not in the shop, or event not 1 to 64 */
    MIZZENCORD_BAD_OPERATION = 3,    /* or a register over 63 */
    MIZZENCORD_OWN_ECHO = 4,         /* a delivered request has the own panel */
    MIZZENCORD_SHIFT_FULL = 6,       /* 64 own requests made */
    MIZZENCORD_HELD_ALREADY = 7,     /* the same request is held */
    MIZZENCORD_NUMBER_CLASH = 8,     /* the number is held with another content */
    MIZZENCORD_NOT_HERE = 9,         /* no such request, or no such place */
    MIZZENCORD_WEAK = 10,            /* settlement of a weak request */
    MIZZENCORD_SETTLED_ALREADY = 11,
    MIZZENCORD_WAITS = 12,           /* a number of the context is not known; the answer names it */
    MIZZENCORD_NOTHING_TO_UNDO = 13,
    MIZZENCORD_UNDO_FIRST = 14,
    MIZZENCORD_NOTHING_TO_DO = 15,
    MIZZENCORD_CUT_SHORT = 16,       /* the bytes end inside a message */
    MIZZENCORD_BAD_LENGTH = 17,      /* the length is not the kind's */
    MIZZENCORD_UNKNOWN_KIND = 18,
    MIZZENCORD_SPARE_SET = 19,       /* the spare byte is not 0 */
    MIZZENCORD_NO_ROOM = 20,         /* too few bytes lent */
    MIZZENCORD_BAD_CONTEXT = 21      /* weak with a context, or one that names itself or a panel not in the shop */
};

/* Marks of a reply. */
enum {
    MIZZENCORD_REPLY_TO_NOBODY = 0, /* nobody waits for it at this panel */
    MIZZENCORD_REPLY_WEAK = 1,
    MIZZENCORD_REPLY_TENTATIVE = 2,
    MIZZENCORD_REPLY_STABLE = 3
};

/* Kinds of bus messages. */
enum {
    MIZZENCORD_WEAK_REQUEST = 1,
    MIZZENCORD_STRONG_REQUEST = 2,
    MIZZENCORD_SETTLEMENT = 3
};

/* Codes of operations. */
enum {
    MIZZENCORD_READ = 1,
    MIZZENCORD_SET = 2,
    MIZZENCORD_ADD = 3,
    MIZZENCORD_CLAIM = 4,
    MIZZENCORD_MOVE = 5,
    MIZZENCORD_CLAIM_ALL = 6 /* registers r to q together, at most four */
};

/* A request's number: a panel, counted from 0, and its event, counted from 1. */
typedef struct {
    uint8_t panel;
    uint8_t event;
} mizzencord_number;

/* What a request asks for: an operation on register r, under a move from r to q, under a claim of registers together on r to q, else q is
 * 0; one that is not strong is weak. */
typedef struct {
    uint8_t code;
    uint8_t r;
    uint8_t q;
    bool strong;
    uint32_t amount;
} mizzencord_asked;

/* What is handed over when a request is made: what it asks for, and the clock reading. */
typedef struct {
    mizzencord_asked asked;
    uint32_t clock;
} mizzencord_invocation;

/* A request; word p of its context is panel p's, and bit e - 1 of it is event e's. The two bytes behind the number hold nothing. */
typedef struct {
    uint64_t context[MIZZENCORD_MOST_PANELS];
    mizzencord_asked asked;
    uint32_t clock;
    mizzencord_number number;
} mizzencord_request;

/* What a call answers: every field is set, with zeros where there is nothing to say. */
typedef struct {
    mizzencord_request request; /* the request to be spread, after mizzencord_invoke */
    uint32_t response;
    mizzencord_number number; /* the request that was undone or executed; under MIZZENCORD_WAITS the missing one */
    uint8_t refusal;
    uint8_t mark;
} mizzencord_answer;

/* A message: the request, or the settlement of its number, for which the other fields stand for nothing. */
typedef struct {
    mizzencord_request request;
    bool settles;
} mizzencord_message;

/* What stands at a place of a run of bytes: the message, the bytes taken and the refusal; at the end all is 0. */
typedef struct {
    mizzencord_message message;
    uint64_t taken;
    uint8_t refusal;
} mizzencord_reading;

/* What was written: the bytes of the message, or the refusal. */
typedef struct {
    uint64_t bytes;
    uint8_t refusal;
} mizzencord_written;

/* A reply: what an answer says beside its request. One that fell due among all due steps has refusal 0. */
typedef struct {
    uint32_t response;
    mizzencord_number number;
    uint8_t mark;
    uint8_t refusal;
} mizzencord_reply;

/* What the message at a place led to: the answer, which has no request; which message it was, by the number and the kind on the bus; and
 * its bytes. Number, kind and bytes are 0 where none could be read; the reply then has the reader's refusal, or 0 at the end. */
typedef struct {
    mizzencord_reply reply;
    mizzencord_number number;
    uint16_t kind; /* MIZZENCORD_WEAK_REQUEST, _STRONG_REQUEST or _SETTLEMENT */
    uint32_t taken;
} mizzencord_receipt;

/* What all due steps were: how many undos and executions, and the replies, of which there are `count`, zeros behind them. */
typedef struct {
    uint32_t undos;
    uint32_t executions;
    uint64_t count;
    mizzencord_reply replies[MIZZENCORD_MOST_REPLIES];
} mizzencord_due;

/* A register's value, 0 where it is refused. */
typedef struct {
    uint32_t value;
    uint8_t refusal;
} mizzencord_value;

/* The request at a place, zeros where it is refused. */
typedef struct {
    mizzencord_request request;
    uint8_t refusal;
} mizzencord_placed;

/* What a panel has of a request: its place in the standing order, counted from 1; whether it is in the settled list, as a weak one is that
 * was settled with a strong one; whether it awaits a reply, which only an own request does; whether it is executed now, and with which
 * response, 0 where it is not: that of its last execution, which for a weak request may be another than in the reply that it was given.
 * Zeros where it is refused. */
typedef struct {
    uint32_t response;
    uint32_t place;
    bool settled;
    bool awaited;
    bool executed;
    uint8_t refusal;
} mizzencord_status;

/* What a list of calls led to: how many calls were run; and no room, or fresh's refusal. */
typedef struct {
    uint64_t ran;
    uint8_t refusal;
} mizzencord_ran;

/* A panel: 47,672 bytes, aligned as a uint64_t. Every byte of it is set by mizzencord_fresh. Panels that had the same calls from there
 * have the same bytes: this is tested, not proved. */
#define MIZZENCORD_PANEL_SIZE 47672
typedef struct {
    uint64_t memory[MIZZENCORD_PANEL_SIZE / 8];
} mizzencord_panel;

/* The sizes that the library was built with, checked where the language can: C11, C++11 and later. */
#if defined(__cplusplus) && __cplusplus >= 201103L
#define MIZZENCORD_SIZE(type, bytes) static_assert(sizeof(type) == (bytes), #type " has another size than in the library");
#elif defined(__STDC_VERSION__) && __STDC_VERSION__ >= 201112L
#define MIZZENCORD_SIZE(type, bytes) _Static_assert(sizeof(type) == (bytes), #type " has another size than in the library");
#else
#define MIZZENCORD_SIZE(type, bytes)
#endif
MIZZENCORD_SIZE(mizzencord_number, 2)
MIZZENCORD_SIZE(mizzencord_asked, 8)
MIZZENCORD_SIZE(mizzencord_invocation, 12)
MIZZENCORD_SIZE(mizzencord_request, 80)
MIZZENCORD_SIZE(mizzencord_answer, 88)
MIZZENCORD_SIZE(mizzencord_message, 88)
MIZZENCORD_SIZE(mizzencord_reading, 104)
MIZZENCORD_SIZE(mizzencord_written, 16)
MIZZENCORD_SIZE(mizzencord_reply, 8)
MIZZENCORD_SIZE(mizzencord_receipt, 16)
MIZZENCORD_SIZE(mizzencord_due, 528)
MIZZENCORD_SIZE(mizzencord_value, 8)
MIZZENCORD_SIZE(mizzencord_placed, 88)
MIZZENCORD_SIZE(mizzencord_status, 12)
MIZZENCORD_SIZE(mizzencord_ran, 16)
MIZZENCORD_SIZE(mizzencord_panel, MIZZENCORD_PANEL_SIZE)

/* ---- the calls; each asks for a panel that mizzencord_fresh made */

/* Makes the memory, whatever it holds, a panel of a shop at a shift's first moment; a refused one is a one-panel shop, panel 0. */
uint8_t mizzencord_fresh(mizzencord_panel *panel, uint8_t panels, uint8_t own);

/* A request is made at this panel; the answer has the request to be spread. A clock below the last own request's is raised to it. */
mizzencord_answer mizzencord_invoke(mizzencord_panel *panel, mizzencord_invocation invocation);

/* A request of another panel is heard. */
mizzencord_answer mizzencord_deliver(mizzencord_panel *panel, mizzencord_request request);

/* The strong request of that number is settled; the answer has the response and mark of its stable reply where it falls due at once. */
mizzencord_answer mizzencord_commit(mizzencord_panel *panel, mizzencord_number number);

/* The message at that place of the bytes is read, and heard or settled; at the end of the bytes nothing is taken and nothing refused. A
 * settlement refused as not here or as waiting is to be handed over again before any later one: docs/EMBED.md. */
mizzencord_receipt mizzencord_receive(mizzencord_panel *panel, const uint8_t *bytes, size_t length, size_t at);

/* The first request of the rollback list is undone; the answer names it. */
mizzencord_answer mizzencord_undo(mizzencord_panel *panel);

/* The first request that is to do is executed; the answer is its reply. */
mizzencord_answer mizzencord_execute(mizzencord_panel *panel);

/* Every due step is done until the panel is idle. */
mizzencord_due mizzencord_run_due(mizzencord_panel *panel);

/* ---- the showing calls, which change nothing */

/* The value of register k. */
mizzencord_value mizzencord_register(const mizzencord_panel *panel, uint8_t k);

/* The count of accepted requests, which is the length of the standing order. */
size_t mizzencord_requests(const mizzencord_panel *panel);

/* The length of the settled list. */
size_t mizzencord_committed(const mizzencord_panel *panel);

/* The count of accepted settlements. */
uint32_t mizzencord_commits(const mizzencord_panel *panel);

/* The undos done since fresh. */
uint32_t mizzencord_undos(const mizzencord_panel *panel);

/* The executions done since fresh. */
uint32_t mizzencord_executions(const mizzencord_panel *panel);

/* The steps owed; the panel is idle where there are none. */
size_t mizzencord_owed(const mizzencord_panel *panel);

/* The request at a place of the standing order, places counted from 1. */
mizzencord_placed mizzencord_at_place(const mizzencord_panel *panel, size_t place);

/* The number of panels of the shop, the own panel, and the own requests made, which is the event of the last one: what firmware compares
 * with its configuration when it puts a stored panel back. */
uint8_t mizzencord_panels(const mizzencord_panel *panel);
uint8_t mizzencord_own(const mizzencord_panel *panel);
uint8_t mizzencord_made(const mizzencord_panel *panel);

/* What the panel has of the request of that number; refused as a bad number, and then as not here where it is not held. */
mizzencord_status mizzencord_request_status(const mizzencord_panel *panel, mizzencord_number number);

/* ---- the library */

/* The MIZZENCORD_VERSION that the library was built for: where it is another than the header's, take both from one revision. */
uint32_t mizzencord_version(void);

/* ---- bus messages, without a panel */

/* Reads the message at a place of the bytes; it judges the layout only. */
mizzencord_reading mizzencord_read(const uint8_t *bytes, size_t length, size_t at);

/* Writes a message at the front of `out`: exactly its bytes, at most MIZZENCORD_LONGEST_MESSAGE, or nothing where it is refused. */
mizzencord_written mizzencord_write(mizzencord_message message, uint8_t *out, size_t length);

/* ---- whole shifts, in libmizzencord_tools.a; docs/CALLS.md has the bytes of a list of calls */

/* Puts the printout of the input at the front of `out`: its bytes, or 0 where under MIZZENCORD_MOST_PRINTED bytes are lent. In
 * libmizzencord_tools.a. */
size_t mizzencord_print(const uint8_t *input, size_t input_length, uint8_t *out, size_t out_length);

/* Runs a list of calls on a panel made for it, MIZZENCORD_ANSWER bytes for each into `out`; without room for all none is run. In
 * libmizzencord_tools.a. */
mizzencord_ran mizzencord_run(const uint8_t *calls, size_t calls_length, uint8_t *out, size_t out_length);

#ifdef __cplusplus
}
#endif

/* The word of a refusal, as document 01 has it; "accepted" for 0, and "no refusal" for what no call answers. A table of this header, so
 * that a program that does not use it has none of it. */
static inline const char *mizzencord_refusal_word(uint8_t refusal) {
    switch (refusal) {
    case MIZZENCORD_ACCEPTED: return "accepted";
    case MIZZENCORD_BAD_SHOP: return "bad shop";
    case MIZZENCORD_BAD_NUMBER: return "bad number";
    case MIZZENCORD_BAD_OPERATION: return "bad operation";
    case MIZZENCORD_OWN_ECHO: return "own echo";
    case MIZZENCORD_SHIFT_FULL: return "shift full";
    case MIZZENCORD_HELD_ALREADY: return "held already";
    case MIZZENCORD_NUMBER_CLASH: return "number clash";
    case MIZZENCORD_NOT_HERE: return "not here";
    case MIZZENCORD_WEAK: return "weak";
    case MIZZENCORD_SETTLED_ALREADY: return "settled already";
    case MIZZENCORD_WAITS: return "waits";
    case MIZZENCORD_NOTHING_TO_UNDO: return "nothing to undo";
    case MIZZENCORD_UNDO_FIRST: return "undo first";
    case MIZZENCORD_NOTHING_TO_DO: return "nothing to do";
    case MIZZENCORD_CUT_SHORT: return "cut short";
    case MIZZENCORD_BAD_LENGTH: return "bad length";
    case MIZZENCORD_UNKNOWN_KIND: return "unknown kind";
    case MIZZENCORD_SPARE_SET: return "spare set";
    case MIZZENCORD_NO_ROOM: return "no room";
    case MIZZENCORD_BAD_CONTEXT: return "bad context";
    default: return "no refusal";
    }
}

#endif
