/* Lists of calls as bytes, run on a panel made for them. */
#include "wire.h"

enum { MAKE = 1, UNDO = 2, CARRY_OUT = 3, ALL_DUE = 4, SHOP = 2, SPREAD_AT = 8 };

/* A call with a message: made, heard or settled; bytes that are no message stand for zeros. */
static mizzencord_answer run_message(mizzencord_panel *panel, uint8_t tag, const uint8_t *bytes) {
    mizzencord_message message = mizzencord_read(bytes, MIZZENCORD_LONGEST_MESSAGE, 0).message;
    if (tag == MAKE) return mizzencord_invoke(panel, (mizzencord_invocation){message.request.asked, message.request.clock});
    if (message.settles) return mizzencord_commit(panel, message.request.number);
    return mizzencord_deliver(panel, message.request);
}

static mizzencord_answer run_call(mizzencord_panel *panel, const uint8_t *call) {
    switch (call[0]) {
    case UNDO: return mizzencord_undo(panel);
    case CARRY_OUT: return mizzencord_execute(panel);
    case ALL_DUE: {
        mizzencord_due due = mizzencord_run_due(panel);
        return (mizzencord_answer){.response = due.undos + due.executions};
    }
    default: return run_message(panel, call[0], call + 1);
    }
}

static void put_answer(const mizzencord_answer *answer, uint8_t *out) {
    mizzencord_message spread = {.request = answer->request};
    memset(out, 0, MIZZENCORD_ANSWER);
    out[0] = answer->refusal;
    out[1] = answer->mark;
    out[2] = answer->number.panel;
    out[3] = answer->number.event;
    memcpy(out + 4, &answer->response, sizeof answer->response);
    put_message(&spread, answer->request.asked.strong ? STRONG : WEAK, out + SPREAD_AT);
}

mizzencord_ran mizzencord_run(const uint8_t *calls, size_t calls_length, uint8_t *out, size_t out_length) {
    size_t count = calls_length < SHOP ? 0 : (calls_length - SHOP) / MIZZENCORD_CALL;
    if (out_length / MIZZENCORD_ANSWER < count) return (mizzencord_ran){.refusal = MIZZENCORD_NO_ROOM};
    memory there;
    uint8_t panels = calls_length > 0 ? calls[0] : 0, own = calls_length > 1 ? calls[1] : 0;
    uint8_t refusal = mizzencord_fresh(&there.panel, panels, own);
    for (size_t i = 0; i < count; i++) {
        mizzencord_answer answer = run_call(&there.panel, calls + SHOP + i * MIZZENCORD_CALL);
        put_answer(&answer, out + i * MIZZENCORD_ANSWER);
    }
    return (mizzencord_ran){.ran = count, .refusal = refusal};
}
