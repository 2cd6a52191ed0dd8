/* The calls of the card, for a host in C. Document 01 is the law of what they do, as requests A2, A5, A9
 * and A10 of document 02 amend it; for the two calls of the signalling watch it is request A1, for the two of a line
 * of bits request A4, for the four of a waiting room requests A6 and A7, for a tray request A8.
 *
 * Every call takes any octets and any numbers, comes to an end and gives a refusal number of
 * those documents, 0 when done. Where several apply, the one that stands first in the call's order,
 * given with each call, is the answer.
 *
 * A slice is a pointer and its length in elements; the pointer must be good for that length.
 * What is written must not overlap with anything else lent to the same call. Nothing is kept
 * after the call, and nothing outside the slices is written.
 *
 * Answers. 16 comes before all else where an answer slice is too short: nothing at all is touched
 * then. Otherwise the answer is always written, zeros where the call is refused, but for one thing: a
 * reading of a line refused with 1, 22 or 23 still answers the place to go on from. An answer slice
 * may be longer than is needed; the rest of it is left alone. In the orders below this first 16 is
 * written "16 (answer)".
 *
 * A refused call leaves SSEQ, the record, the watch, the line, the store, the queue, the list and the buffer
 * for what is sent as they came, but for one thing: an arrival refused with 17 or 20 still stores the
 * frame's more bit and noise in the record, and with 17 it counts as late there. A frame written leaves the
 * rest of its buffer as it was, on a line to the bit.
 *
 * A frame is the octets between two flags, zero bits taken out: 10 to 490 octets. None that the origin or
 * a node writes is longer than PELGRANT_FRAME_MAX; a line may carry others, up to PELGRANT_LINE_FRAME_MAX.
 * Flags and zero bits are the work of the two calls of a line alone; to all the others a frame comes
 * without them. A wait is lent as two readings of a 32-bit millisecond clock, from and to, which may roll
 * over in between.
 *
 * C/R (bit 2 of octet 1) and the poll bit (bit 5 of octet 3) are 0 in every frame that the origin or a
 * node writes. A frame that comes with either set is refused with 24, after 3 and before its check is looked
 * at; only the calls of a line, which look into no frame, carry it as any other. Reserved bits, and of a
 * signalling frame the more bit and the sequence, are ignored, and a node sends them on as they came.
 *
 * What is heard of a voice frame is 128 words of the width that is left: the sample bits S of its coding
 * less the blocks dropped on its way. Each is the sample that the origin was given divided by 2 to the power
 * of the blocks dropped, whole division, as a decoder of that width takes it; multiplied by that power it is
 * the sample with its dropped bits zero. The width may change from frame to frame, so the host keeps it with
 * the words.
 *
 * A line is lent octets and a count of bits, lowest bit of each octet first: bit i of the line is bit
 * i % 8 of octet i / 8. A flag is a zero, six ones and a zero.
 *
 * A waiting room is a store, lent octets, and a queue, the record of what waits there: 70 numbers of 32
 * bits. Frame k that waits, from 0, has slot (FIRST + k) % 32, where its length and its clock reading at
 * arrival stand. The first frame begins at place HEAD of the store and each other where the one before it
 * ends; a frame that reaches the store's end goes on at its beginning, and a HEAD at the very end is the
 * same place as 0. What the slots hold that no waiting frame has is of no account, as long as each length
 * fits an octet. The three totals say what levels 1, 2 and 3 would give back: of each voice frame that
 * waits, 16 octets times the lesser of its C and the level, and of signalling nothing. They are so as long
 * as the host writes over neither queue nor store.
 *
 * A tray is records, one behind the other and nothing else: a length, counting what follows it, and a kind,
 * PELGRANT_TRAY_FRAME, both two octets with the low one first, and then the frame, PELGRANT_TRAY_HEAD octets
 * from its record's beginning. So the length is the frame's and 2.
 */
#ifndef PELGRANT_H
#define PELGRANT_H

#include <stddef.h>
#include <stdint.h>

#ifdef __cplusplus
extern "C" {
#endif

enum {
    PELGRANT_SAMPLES = 128,        /* in a packet, one to an octet */
    PELGRANT_FRAME_MAX = 138,      /* octets of the longest frame that the origin or a node writes */
    PELGRANT_LINE_FRAME_MAX = 490, /* octets of the longest frame that a line carries */
    PELGRANT_RECORD = 9,           /* numbers in an endpoint's record */
    PELGRANT_WATCH = 9,            /* numbers in a circuit's signalling watch */
    PELGRANT_QUEUE = 70,           /* numbers in a queue */
    PELGRANT_QUEUE_FRAMES = 32,    /* that may wait in one */
    PELGRANT_STORE_MAX = 16384,    /* octets of the longest store */
    PELGRANT_TOTAL_MAX = 1536,     /* octets that a level gives back of 32 frames at the most */
    PELGRANT_TRAY_HEAD = 4,        /* octets of a record before its frame */
    PELGRANT_TRAY_FRAME = 1        /* the kind of a record */
};

/* The steps of a burst. */
enum { PELGRANT_START = 0, PELGRANT_DATA = 1, PELGRANT_STOP = 2 };

/* The fields of an endpoint's record. The last three are counts, from the fresh record on: the frames
 * scheduled, the frames refused with 17, and the packets missing. Missing grows by the least number of
 * unscheduled packets that RSEQ r and the sequence s of a frame that is scheduled allow: s where r is 0, else
 * 1 where s is 0, else the lesser of (s - r) modulo 15 and s + 1. Each count stops at 2^32 - 1; the host may
 * set it to any number up to there, and so back to 0, whenever it likes. */
enum {
    PELGRANT_BUILD_OUT = 0,
    PELGRANT_RSEQ = 1,
    PELGRANT_LAST_CLOCK = 2,
    PELGRANT_END = 3,
    PELGRANT_M_LAST = 4,
    PELGRANT_LAST_NOISE = 5,
    PELGRANT_SCHEDULED = 6,
    PELGRANT_LATE = 7,
    PELGRANT_MISSING = 8
};

/* The fields of a watch: what the circuit is provisioned with, the state of both ends, the bits last
 * read without a facility alarm, and the clocks of the last frame sent, of the last signalling frame
 * taken and of the last event, each that of the start where there was none. */
enum {
    PELGRANT_WATCH_STATES = 0,
    PELGRANT_WATCH_REFRESH = 1,
    PELGRANT_WATCH_KEEPALIVE = 2,
    PELGRANT_WATCH_ORIGINATING = 3,
    PELGRANT_WATCH_TERMINATING = 4,
    PELGRANT_WATCH_BITS = 5,
    PELGRANT_WATCH_LAST_SENT = 6,
    PELGRANT_WATCH_LAST_TAKEN = 7,
    PELGRANT_WATCH_LAST_CLOCK = 8
};

/* The states of the originating end (the first two) and of the terminating end (all but ALARM). */
enum { PELGRANT_NORM = 0, PELGRANT_ALARM = 1, PELGRANT_L_ALARM = 1, PELGRANT_R_ALARM = 2 };

/* The fields of a queue: the place in the store where the first frame begins, its slot, how many frames
 * wait, of each of the 32 slots the frame's length and its clock reading at arrival, and the totals of
 * levels 1, 2 and 3. */
enum {
    PELGRANT_QUEUE_HEAD = 0,
    PELGRANT_QUEUE_FIRST = 1,
    PELGRANT_QUEUE_COUNT = 2,
    PELGRANT_QUEUE_LENGTHS = 3,
    PELGRANT_QUEUE_CLOCKS = 35,
    PELGRANT_QUEUE_TOTALS = 67
};

/* What a watch is told of: time passing, a reading of the four bits, a signalling frame taken. */
enum { PELGRANT_PASSING = 0, PELGRANT_READING = 1, PELGRANT_FRAME_TAKEN = 2 };

/* What is to be sent. */
enum { PELGRANT_NOTHING = 0, PELGRANT_TRANSITION = 1, PELGRANT_REFRESH = 2 };

/* What becomes of trunk conditioning. */
enum { PELGRANT_UNCHANGED = 0, PELGRANT_BEGINS = 1, PELGRANT_ENDS = 2 };

/* The origin makes a voice frame.
 * Lent: sseq, the origin's number, 0 before the first burst; 128 samples, each below 2^S of the
 *   coding; level, the blocks to drop, 0 to 3; the wait; the outgoing address; out, for the frame.
 * Back: answer[0] the frame's length; the frame in out; sseq moved on.
 * Refusals: 16 (answer), 13 for a step above 2, 14, 13, 6, 12, 11, 10, 15, 16.
 * Untouched: samples; the rest of out; where refused, sseq and all of out. */
uint8_t pelgrant_send(uint8_t *sseq, uint8_t step, uint8_t coding, uint8_t noise,
    const uint8_t *samples, size_t samples_len, uint8_t level, uint32_t from, uint32_t to, uint16_t address,
    uint8_t *out, size_t out_len, uint64_t *answer, size_t answer_len);

/* Makes a signalling frame.
 * Lent: bits, A, B, C, D as 8, 4, 2, 1; na, 0 or 1; the wait; the outgoing address; out, for the frame.
 * Back: answer[0] the frame's length, 10; the frame in out.
 * Refusals: 16 (answer), 12, 15, 16.
 * Untouched: the rest of out; where refused, all of it. */
uint8_t pelgrant_signal_write(uint8_t bits, uint8_t na, uint32_t from, uint32_t to, uint16_t address,
    uint8_t *out, size_t out_len, uint64_t *answer, size_t answer_len);

/* A node sends a frame of either kind on: blocks dropped, stamp and address written, check made afresh.
 * Lent: the frame; level, 0 to 3; the wait; the outgoing address; out, for the frame sent on.
 * Back: answer[0] the length of the frame sent on; that frame in out.
 * Refusals: 16 (answer), 10, 15, 1, 2, 3, 24, 4, 5, 6 (voice only), 7, 8, 9, 16.
 * Untouched: frame; the rest of out; where refused, all of it. */
uint8_t pelgrant_forward(const uint8_t *frame, size_t frame_len, uint8_t level, uint32_t from, uint32_t to,
    uint16_t address, uint8_t *out, size_t out_len, uint64_t *answer, size_t answer_len);

/* A node sends a tray of frames on: pelgrant_forward on each, in their order, with the room that is then left
 * of out after the four octets of its record; where fewer than four are left, with no room. A frame that is
 * refused writes nothing and keeps no room; those behind it are tried all the same, and the tray is done (0)
 * whatever becomes of its frames.
 * Lent: the tray; level, wait and outgoing address, the same for each frame; out, for the outgoing tray;
 *   list, a number for each record.
 * Back: answer[0] the records of the tray, answer[1] the octets written to out; in list the refusal of each
 *   record's frame, 0 where it is sent on; in out the records of the frames sent on. A buffer as long as the
 *   tray has room for all of them.
 * Refusals of the tray: 16 (answer below 2), 27 where a record is cut short, of another kind or of a length
 *   under 2, or list is shorter than the records are many. An empty tray is none of these. Of a frame, in
 *   list: 10, 15, 1, 2, 3, 24, 4, 5, 6 (voice only), 7, 8, 9, 16.
 * Untouched: tray; out past the octets written, list past the last record; where the tray is refused, all of
 *   both. */
uint8_t pelgrant_forward_tray(const uint8_t *tray, size_t tray_len, uint8_t level, uint32_t from, uint32_t to,
    uint16_t address, uint8_t *out, size_t out_len, uint8_t *list, size_t list_len,
    uint64_t *answer, size_t answer_len);

/* Reads a voice frame without a record or a clock.
 * Lent: the frame.
 * Back: answer[0] the sample bits S, answer[1] the blocks dropped, answer[2] the width that is left; the
 *   first 128 of samples, words of that width.
 * Refusals: 16 (answer below 3 or samples below 128), 1, 2, 3, 24, 4, 5, 19, 6, 7, 8, 9.
 * Untouched: frame; samples past the first 128. */
uint8_t pelgrant_read(const uint8_t *frame, size_t frame_len, uint64_t *answer, size_t answer_len,
    uint8_t *samples, size_t samples_len);

/* Makes an endpoint's record: the build-out as it is given, all else 0. A build-out above 199 is
 * refused by the calls that use it, not here.
 * Lent: record, exactly 9 numbers.
 * Back: the record.
 * Refusals: 14 where record_len is not 9.
 * Untouched: where refused, the record. */
uint8_t pelgrant_fresh(uint8_t buildout, uint64_t *record, size_t record_len);

/* A voice frame arrives at the endpoint: when it is to be played, and what.
 * Lent: the record, exactly 9 numbers; the frame; clock, the play clock in ms, up to 2^62.
 * Back: answer[0] the time it is due, answer[1] 1 if the decoder is to be reset, else 0, answer[2] the
 *   sample bits S, answer[3] the blocks dropped, answer[4] the width that is left; the first 128 of samples,
 *   words of that width; the record moved on.
 * Refusals: 16 (answer below 5 or samples below 128), 14 where record_len is not 9 or a count of the record
 *   fits no field (above 2^32 - 1), 14, 18, 1, 2, 3, 24, 4, 5, 19, 6, 7, 8, 9, 17, 20.
 * Untouched: frame; samples past the first 128; where refused, the record, save that 17 and 20 (late, due
 *   too far ahead) store the frame's more bit in M_LAST and its noise in the last noise, so that a late stop
 *   packet counts as a stop, and that 17 adds 1 to the late count. */
uint8_t pelgrant_arrive(uint64_t *record, size_t record_len, const uint8_t *frame, size_t frame_len, uint64_t clock,
    uint64_t *answer, size_t answer_len, uint8_t *samples, size_t samples_len);

/* The same on a record by value.
 * Lent and back as for pelgrant_arrive, but the record is only read, and the first 9 of after are the
 *   record after the call: where refused, the record as it came, whatever its numbers are, save for what 17
 *   and 20 store and 17 counts.
 * Refusals: as for pelgrant_arrive, the first 16 also where after is below 9.
 * Untouched: record and frame; samples past the first 128; after where record_len is not 9. */
uint8_t pelgrant_arrive_value(const uint64_t *record, size_t record_len, const uint8_t *frame, size_t frame_len,
    uint64_t clock, uint64_t *after, size_t after_len, uint64_t *answer, size_t answer_len,
    uint8_t *samples, size_t samples_len);

/* Reads a signalling frame.
 * Lent: the build-out, 0 to 199; the frame.
 * Back: answer[0] the bits, A, B, C, D as 8, 4, 2, 1, answer[1] N/A, answer[2] the ms to hold them.
 * Refusals: 16 (answer below 3), 14, 1, 2, 3, 24, 4, 5, 19, 7, 8, 9, 17.
 * Untouched: frame. */
uint8_t pelgrant_signal_read(uint8_t buildout, const uint8_t *frame, size_t frame_len,
    uint64_t *answer, size_t answer_len);

/* What to play where no packet came.
 * Lent: last, the words last played, and noise, the host's, both at least 128; m_last of the record,
 *   the more bit of the last frame that was scheduled or refused with 17 or 20.
 * Back: the first 128 of out, copied from last if m_last is 1, else from noise, and answer[0] 128; or
 *   answer[0] 0 where last or noise is shorter than 128. The words are handed on as they are: their width is
 *   the one that the host has kept with last, or with noise.
 * Refusals: 16 (answer below 1 or out below 128).
 * Untouched: last and noise; out where answer[0] is 0. */
uint8_t pelgrant_fill(const uint8_t *last, size_t last_len, const uint8_t *noise, size_t noise_len, uint8_t m_last,
    uint8_t *out, size_t out_len, uint64_t *answer, size_t answer_len);

/* The noise level that a code stands for.
 * Lent: the code, 0 to 15.
 * Back: answer[0] 1 if the code says idle, else 0; level[0] in dBmc0, 0.0 where idle.
 * Refusals: 16 (answer or level below 1), 12. */
uint8_t pelgrant_noise_level(uint8_t code, uint64_t *answer, size_t answer_len, double *level, size_t level_len);

/* Whose a frame is, judged by its link layer alone.
 * Lent: the frame.
 * Back: answer[0] 1 for voice, 0 for signalling; answer[1] the address.
 * Refusals: 16 (answer below 2), 1, 2, 3, 24, 4, 5.
 * Untouched: frame. */
uint8_t pelgrant_link(const uint8_t *frame, size_t frame_len, uint64_t *answer, size_t answer_len);

/* What a node finds in a frame before it sends it on.
 * Lent: the frame.
 * Back: answer[0] 1 for voice, 0 for signalling; answer[1] its length; answer[2] C, the blocks that may
 *   still be dropped.
 * Refusals: 16 (answer below 3), 1, 2, 3, 24, 4, 5, 6 (voice only), 7, 8, 9.
 * Untouched: frame. */
uint8_t pelgrant_taken(const uint8_t *frame, size_t frame_len, uint64_t *answer, size_t answer_len);

/* Starts a circuit's signalling watch: both ends in NORM, the bits 0, each of the three clocks this one.
 * Lent: states, 0 for no signalling, 1 for refresh only, or 2, 4 or 16; refresh, TSIG_REF in ms: 1000,
 *   5000, 10000 or 20000; keepalive, TSIG_KA in ms: 1.5, 2.5, 3.5 or 4.5 times refresh; clock in ms, up
 *   to 2^62; watch, exactly 9 numbers.
 * Back: the watch.
 * Refusals: 14 where watch_len is not 9, 21, 18.
 * Untouched: where refused, the watch. */
uint8_t pelgrant_watch_start(uint8_t states, uint32_t refresh, uint32_t keepalive, uint64_t clock,
    uint64_t *watch, size_t watch_len);

/* Tells a watch of an event: what is to be sent, and what becomes of trunk conditioning.
 * Lent: the watch, exactly 9 numbers; clock in ms, up to 2^62; the event; with a reading bits, A, B, C, D
 *   as 8, 4, 2, 1, and flag, 0 without and any other number with a facility alarm; with a frame taken
 *   flag, its N/A, 0 or 1. Nothing else of bits and flag is looked at.
 * Back: answer[0] what is to be sent, answer[1] its bits, answer[2] its N/A, both 0 where that is
 *   nothing; answer[3] conditioning, before the event against after it; the watch moved on.
 * Refusals: 16 (answer below 4), 21 for an event above 2, 14 where watch_len is not 9 or a number of the
 *   watch fits no field (states or bits above 255, refresh or keepalive above 2^32 - 1, a state that is
 *   none), 21, 14, 18, 12.
 * Untouched: where refused, the watch. */
uint8_t pelgrant_watch_tell(uint64_t *watch, size_t watch_len, uint64_t clock, uint8_t event, uint8_t bits,
    uint8_t flag, uint64_t *answer, size_t answer_len);

/* Puts a frame on a line: its bits, lowest of each octet first, with a zero behind each five ones, and a
 * closing flag, which opens the next frame too. Only an empty line gets an opening flag first.
 * Lent: line; count, the bits that it has so far, 0 where it is empty; the frame, any 10 to 490 octets.
 * Back: answer[0] the count of bits after; the bits in line. A frame of n octets takes at most
 *   8 * n + 8 * n / 5 + 16 of them.
 * Refusals: 16 (answer), 14 for a count past the end of line, 1, 16 where line has no room for all of the
 *   bits, the closing flag included.
 * Untouched: frame; every bit of line that is not one of those put, those beside them in the first and
 *   the last octet too; where refused, all of line. */
uint8_t pelgrant_line_add(uint8_t *line, size_t line_len, size_t count, const uint8_t *frame, size_t frame_len,
    uint64_t *answer, size_t answer_len);

/* Takes the next frame off a line: what stands between the first flag from a place on that opens and the
 * first flag or seven ones behind it, without the bit behind each five ones. A flag opens unless another
 * begins on its last zero or directly behind it; a place inside a flag does not see it.
 * Lent: line; count, the bits that it has; place, the bit to look from (0 at first; then the place answered
 *   with a frame or with 1, 22 or 23; after no frame or 16 the same place again); out, for the frame:
 *   PELGRANT_LINE_FRAME_MAX octets hold any.
 * Back: answer[0] 1, answer[1] the frame's length, answer[2] the place where its closing flag begins, and
 *   the frame in out; or zeros and no refusal where nothing that is opened is ended before the count.
 * Refusals: 16 (answer below 3), 14 for a count past the end of line or a place past the count, 22 where the
 *   bits do not make whole octets, 23 where seven ones end them, an abort, 1, 16. After 22, 23 and 1
 *   answer[2] is the place where the closing flag or the seven ones begin.
 * Untouched: line; the rest of out; where refused or without a frame, all of it. */
uint8_t pelgrant_line_next(const uint8_t *line, size_t line_len, size_t count, size_t place,
    uint8_t *out, size_t out_len, uint64_t *answer, size_t answer_len);

/* Makes an empty queue: every number 0.
 * Lent: queue, exactly 70 numbers.
 * Back: the queue.
 * Refusals: 14 where queue_len is not 70.
 * Untouched: where refused, the queue. */
uint8_t pelgrant_queue_fresh(uint32_t *queue, size_t queue_len);

/* A frame enters the waiting room, behind those that wait.
 * Lent: the store; the queue, exactly 70 numbers; the frame; clock, a reading of the 32-bit millisecond
 *   clock at its arrival.
 * Back: the frame in the store, behind the last one, or at HEAD where nothing waits; the queue with COUNT
 *   one more, in slot (FIRST + COUNT) % 32 of the COUNT before the frame's length and the reading, and each
 *   total greater by what its level would give back of the frame.
 * Refusals: 14 where the store is longer than 16,384 octets, queue_len is not 70, a length in any slot is
 *   above 255, COUNT is above 32, FIRST above 31, HEAD above the store's length (also where nothing
 *   waits), a total above 1,536, or the lengths of those that wait are together more than the store's;
 *   then 1, 2, 3, 24, 4, 5, 6 (voice only), 7, 8, 9; 25 where 32 are waiting, or where their lengths and
 *   the frame's own are together more than the store's.
 * Untouched: frame; every octet of the store and every number of the queue not named above; where
 *   refused, all of both. */
uint8_t pelgrant_queue_enter(uint8_t *store, size_t store_len, uint32_t *queue, size_t queue_len,
    const uint8_t *frame, size_t frame_len, uint32_t clock);

/* The first frame that waits is sent on as pelgrant_forward does it, its wait running from its reading at
 * arrival to the present one, which may have rolled over, and leaves the waiting room.
 * Lent: the store; the queue, exactly 70 numbers; to, the present reading; level, 0 to 3; the outgoing
 *   address; out, for the frame sent on.
 * Back: answer[0] the length of the frame sent on; that frame in out; the queue with COUNT one less, FIRST
 *   the next slot (0 after 31), HEAD further by the frame's length as it waited, less the store's length
 *   where the sum is not below it, and each total less by what its level would have given back of the
 *   frame as the store has it, whatever level it is sent on with; a total that is less than that becomes 0.
 * Refusals: 16 (answer), 14 as for pelgrant_queue_enter, 26 where nothing waits, then those of
 *   pelgrant_forward: 10, 15, 1, 2, 3, 24, 4, 5, 6 (voice only), 7, 8, 9, 16. The frame then waits on.
 * Untouched: store; every number of the queue not named above; the rest of out; where refused, all of the
 *   queue and of out. */
uint8_t pelgrant_queue_take(const uint8_t *store, size_t store_len, uint32_t *queue, size_t queue_len,
    uint32_t to, uint8_t level, uint16_t address, uint8_t *out, size_t out_len, uint64_t *answer, size_t answer_len);

/* How many octets a level would give back of all that waits: the total kept for it, whatever waits.
 * Lent: the queue, exactly 70 numbers; level, 0 to 3.
 * Back: answer[0] the octets; of level 0 none.
 * Refusals: 16 (answer), 14 where queue_len is not 70, a length in any slot is above 255, COUNT is above 32,
 *   FIRST above 31, HEAD above 16,384 (no store is lent: the longest stands for it) or a total above 1,536,
 *   10.
 * Untouched: queue. */
uint8_t pelgrant_queue_freed(const uint32_t *queue, size_t queue_len, uint8_t level,
    uint64_t *answer, size_t answer_len);

#ifdef __cplusplus
}
#endif

#endif
