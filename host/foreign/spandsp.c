/* spandsp's hdlc. Highest bit first. It reads frames of at most 404 octets with their check and writes such
 * of at most 402. */

#include "foreign.h"

#include <spandsp.h>

typedef struct {
    foreign_hand *hand;
    void *whose;
} reader;

/* A length below 0 is a change of status. */
static void take(void *user_data, const uint8_t *frame, int length, int ok)
{
    const reader *reading = user_data;
    if (ok && length >= 0)
        reading->hand(reading->whose, frame, (size_t)length);
}

size_t spandsp_read(const uint8_t *line, size_t length, foreign_hand *hand, void *whose)
{
    static hdlc_rx_state_t *receiver;
    reader reading = {hand, whose};
    hdlc_rx_stats_t counts;
    receiver = hdlc_rx_init(receiver, 0, 0, 1, take, &reading);
    hdlc_rx_put(receiver, line, (int)length);
    hdlc_rx_get_stats(receiver, &counts);
    return counts.crc_errors + counts.length_errors + counts.aborts;
}

typedef struct {
    hdlc_tx_state_t *sender;
    const uint8_t *frames;
    const size_t *lengths;
    size_t count, taken;
} writer;

/* The sender asks for the next frame as it puts the closing flag of the last. */
static void give(void *user_data)
{
    writer *writing = user_data;
    if (writing->taken < writing->count
        && hdlc_tx_frame(writing->sender, writing->frames, *writing->lengths) == 0) {
        writing->frames += *writing->lengths++;
        writing->taken++;
    }
}

/* Left to itself it writes no opening flag, so it is asked for one. */
size_t spandsp_write(const uint8_t *frames, const size_t *lengths, size_t count, size_t flags,
    uint8_t *line, size_t room)
{
    static hdlc_tx_state_t *sender;
    writer writing = {NULL, frames, lengths, count, 0};
    sender = hdlc_tx_init(sender, 0, (int)flags, 0, give, &writing);
    writing.sender = sender;
    hdlc_tx_flags(sender, 1);
    give(&writing);
    hdlc_tx_get(sender, line, room);
    return writing.taken;
}
