/* The calls on a panel, by structs. */
#include "enter.h"
#include "settle.h"
#include "steps.h"

uint8_t mizzencord_fresh(mizzencord_panel *panel, uint8_t panels, uint8_t own) {
    state *s = state_of(panel);
    bool bad = panels < 1 || panels > PANELS || own >= panels;
    memset(panel, 0, sizeof *panel);
    s->panels = bad ? 1 : panels;
    s->own = bad ? 0 : own;
    return bad ? MIZZENCORD_BAD_SHOP : MIZZENCORD_ACCEPTED;
}

mizzencord_answer mizzencord_invoke(mizzencord_panel *panel, mizzencord_invocation invocation) {
    mizzencord_answer answer = {0};
    answer.refusal = make(state_of(panel), invocation, &answer.request);
    return answer;
}

mizzencord_answer mizzencord_deliver(mizzencord_panel *panel, mizzencord_request request) {
    mizzencord_answer answer = {0};
    answer.refusal = hear(state_of(panel), &request);
    return answer;
}

mizzencord_answer mizzencord_commit(mizzencord_panel *panel, mizzencord_number number) {
    mizzencord_answer answer = {0};
    settlement settled = settle(state_of(panel), number);
    answer.response = settled.response;
    answer.number = settled.missing;
    answer.refusal = settled.refusal;
    answer.mark = settled.mark;
    return answer;
}

mizzencord_answer mizzencord_undo(mizzencord_panel *panel) {
    state *s = state_of(panel);
    mizzencord_answer answer = {0};
    if (seldom(s->stacked == s->executed))
        answer.refusal = MIZZENCORD_NOTHING_TO_UNDO;
    else
        answer.number = number_of(undo_top(s));
    return answer;
}

mizzencord_answer mizzencord_execute(mizzencord_panel *panel) {
    state *s = state_of(panel);
    mizzencord_answer answer = {0};
    if (seldom(s->stacked != s->executed)) {
        answer.refusal = MIZZENCORD_UNDO_FIRST;
    } else if (seldom(s->executed == s->ordered)) {
        answer.refusal = MIZZENCORD_NOTHING_TO_DO;
    } else {
        mizzencord_reply reply = execute_next(s);
        answer.response = reply.response;
        answer.number = reply.number;
        answer.mark = reply.mark;
    }
    return answer;
}

mizzencord_due mizzencord_run_due(mizzencord_panel *panel) {
    state *s = state_of(panel);
    mizzencord_due due = {0};
    due.undos = s->stacked - s->executed;
    due.executions = s->ordered - s->executed;
    undo_all(s);
    due.count = execute_all(s, due.replies);
    return due;
}
