/* Bus messages read and written, and received by a panel. */
#include "enter.h"
#include "settle.h"
#include "wire.h"

/* What stands at a place: a message's head, or how it is refused; a length of 0 without a refusal is the end. */
static inline head head_at(const uint8_t *bytes, size_t length, size_t at) {
    return seldom(at >= length) ? (head){0} : judge(bytes + at, length - at);
}

mizzencord_reading mizzencord_read(const uint8_t *bytes, size_t length, size_t at) {
    mizzencord_reading reading;
    head found = head_at(bytes, length, at);
    if (found.kind == WEAK || found.kind == STRONG) {
        request_at(bytes + at, found.kind, &reading.message.request);
    } else {
        reading.message.request = (mizzencord_request){0};
        if (found.kind == SETTLEMENT) reading.message.request.number = number_at(bytes + at);
    }
    reading.message.settles = found.kind == SETTLEMENT;
    reading.taken = found.length;
    reading.refusal = found.refusal;
    return reading;
}

mizzencord_written mizzencord_write(mizzencord_message message, uint8_t *out, size_t length) {
    uint32_t kind = message.settles ? SETTLEMENT : message.request.asked.strong ? STRONG : WEAK;
    if (kind == WEAK && seldom(!is_empty(message.request.context))) return (mizzencord_written){.refusal = MIZZENCORD_BAD_CONTEXT};
    if (seldom(length < length_of(kind))) return (mizzencord_written){.refusal = MIZZENCORD_NO_ROOM};
    return (mizzencord_written){.bytes = put_message(&message, kind, out)};
}

mizzencord_receipt mizzencord_receive(mizzencord_panel *panel, const uint8_t *bytes, size_t length, size_t at) {
    mizzencord_receipt receipt = {0};
    head found = head_at(bytes, length, at);
    if (seldom(found.kind == 0)) {
        receipt.reply.refusal = found.refusal;
        return receipt;
    }
    receipt.number = number_at(bytes + at);
    receipt.kind = (uint16_t)found.kind;
    receipt.taken = found.length;
    if (found.kind == SETTLEMENT) {
        settlement settled = settle(state_of(panel), receipt.number);
        receipt.reply.response = settled.response;
        receipt.reply.number = settled.missing;
        receipt.reply.refusal = settled.refusal;
        receipt.reply.mark = settled.mark;
    } else {
        mizzencord_request request;
        request_at(bytes + at, found.kind, &request);
        receipt.reply.refusal = hear(state_of(panel), &request);
    }
    return receipt;
}
