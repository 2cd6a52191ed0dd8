/* libosmocore's isdnhdlc, once of the Linux kernel. Lowest bit first. */

#include "foreign.h"

#include <osmocom/core/isdnhdlc.h>

enum { LONGEST = 490 }; /* of what is read, with the check */

/* A frame that goes on behind these octets stays in the receiver and in its buffer. */
static size_t fed(struct osmo_isdnhdlc_vars *receiver, uint8_t *buffer, const uint8_t *octets, size_t length,
    foreign_hand *hand, void *whose)
{
    size_t complaints = 0;
    while (length > 0) {
        int used = 0, result = osmo_isdnhdlc_decode(receiver, octets, (int)length, &used, buffer, LONGEST);
        if (result > 0)
            hand(whose, buffer, (size_t)result);
        complaints += result < 0;
        octets += used;
        length -= (size_t)used;
    }
    return complaints;
}

/* The receiver looks at an octet when it is handed the next, so one more of idle ones comes last. */
size_t isdnhdlc_read(const uint8_t *line, size_t length, foreign_hand *hand, void *whose)
{
    static const uint8_t idle = 0xFF;
    struct osmo_isdnhdlc_vars receiver;
    uint8_t buffer[LONGEST];
    osmo_isdnhdlc_rcv_init(&receiver, 0);
    size_t complaints = fed(&receiver, buffer, line, length, hand, whose);
    return complaints + fed(&receiver, buffer, &idle, 1, hand, whose);
}

/* It begins with a flag, and ends each frame with one that opens the next. */
size_t isdnhdlc_write(const uint8_t *frames, const size_t *lengths, size_t count, size_t flags,
    uint8_t *line, size_t room)
{
    struct osmo_isdnhdlc_vars sender;
    size_t taken = 0;
    int used = 0;
    osmo_isdnhdlc_out_init(&sender, 0);
    for (; taken < count; taken++) {
        int written = osmo_isdnhdlc_encode(&sender, frames, (uint16_t)lengths[taken], &used, line, (int)room);
        frames += lengths[taken];
        line += written;
        room -= (size_t)written;
        if (flags > 1 && room >= flags - 1) {
            written = osmo_isdnhdlc_encode(&sender, frames, 0, &used, line, (int)flags - 1);
            line += written;
            room -= (size_t)written;
        }
        if (room == 0)
            break;
    }
    osmo_isdnhdlc_encode(&sender, frames, 0, &used, line, (int)room);
    return taken;
}
