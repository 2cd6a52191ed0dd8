/* Three bursts of speech from an origin through two nodes to an endpoint, as an operator would want to
 * see them: what each frame weighs on the way, when it is played, and the words that are heard, of the
 * width that the nodes have left. The stop packet of the second comes late, and a packet of the third is lost;
 * the service desk sees both in the counts of the record. The signalling of a trunk that dies and comes back,
 * and a frame of a foreign unit that sets the poll bit. Three frames on a line of bare bits, one of them damaged
 * there. Three that wait at a node until its line is ready. What each level would give back of three others. And
 * a tray of three, one of them damaged, that goes through two nodes. */

#include <stdio.h>
#include <string.h>

#include "pelgrant.h"

/* Coding type 21 has samples of 5 bits, of which 3 may be dropped. The stop packet has a noise of its own, so that
 * it is seen to count. */
enum { CODING = 21, SAMPLE_BITS = 5, NOISE = 3, NOISE_AT_STOP = 5, BUILD_OUT = 100 };
enum { PACKETS = 6, FRAMES = 3, LEVELS = 3 };

/* Refusals after which it goes on: a packet that is late, what of a line is damaged, a waiting room that is
 * full or empty. */
enum { LATE = 17, FRAME_SIZE = 1, PART_OCTET = 22, ABORT = 23, NO_ROOM = 25, NOTHING_WAITS = 26 };

typedef struct {
    uint8_t octets[PELGRANT_FRAME_MAX];
    size_t length;
} frame;

/* What a decoder is given: 128 words and the width to take them at, which may be another for each packet. */
typedef struct {
    uint8_t words[PELGRANT_SAMPLES];
    unsigned width;
} sound;

/* What the two ends of a circuit keep: the origin its number, the endpoint its record, the time on the
 * play clock, what was last played and the frame that came last. */
typedef struct {
    uint8_t sseq;
    uint64_t record[PELGRANT_RECORD], clock;
    sound played;
    frame came;
} circuit;

/* A slow rise and fall, a little further on with each packet. */
static void speak(int packet, uint8_t samples[PELGRANT_SAMPLES])
{
    for (int n = 0; n < PELGRANT_SAMPLES; n++) {
        int phase = (n + 5 * packet) % 64;
        samples[n] = (uint8_t)(phase < 32 ? phase : 63 - phase);
    }
}

static uint8_t node(frame *passing, uint8_t level, uint32_t from, uint32_t to, uint16_t address)
{
    frame out = {{0}, 0};
    uint64_t length = 0;
    uint8_t number = pelgrant_forward(passing->octets, passing->length, level, from, to, address,
        out.octets, sizeof out.octets, &length, 1);
    if (number == 0) {
        out.length = (size_t)length;
        *passing = out;
    }
    return number;
}

/* A packet of a burst as it comes from an origin that has dropped so many blocks of it. */
static uint8_t origin(frame *made, uint8_t *sseq, int place, uint8_t coding, uint8_t dropped)
{
    uint8_t samples[PELGRANT_SAMPLES];
    uint64_t length = 0;
    speak(place, samples);
    uint8_t number = pelgrant_send(sseq, place == 0 ? PELGRANT_START : PELGRANT_DATA, coding, NOISE, samples,
        sizeof samples, dropped, 0, 2, 128, made->octets, sizeof made->octets, &length, 1);
    made->length = (size_t)length;
    return number;
}

static uint8_t signalling(frame *made)
{
    uint64_t length = 0;
    uint8_t number = pelgrant_signal_write(8, 0, 0, 0, 4711, made->octets, sizeof made->octets, &length, 1);
    made->length = (size_t)length;
    return number;
}

static int refused(const char *where, uint8_t number)
{
    printf("refused at %s: %u\n", where, number);
    return 1;
}

/* The watch of a trunk with four states and the default times, which hears nothing until 31 s. */
static int trunk(void)
{
    static const struct { uint64_t clock; uint8_t event, bits; } told[] = {
        {5000, PELGRANT_READING, 8}, {15000, PELGRANT_PASSING, 0}, {24999, PELGRANT_PASSING, 0},
        {25000, PELGRANT_PASSING, 0}, {31000, PELGRANT_FRAME_TAKEN, 0}, {35000, PELGRANT_PASSING, 0},
    };
    static const char *const events[] = {"passing", "reading", "frame"};
    static const char *const states[] = {"NORM", "L_ALARM", "R_ALARM"};
    static const char *const sent[] = {"nothing", "transition", "refresh"};
    static const char *const conditioning[] = {"as before", "begins", "ends"};

    uint64_t watch[PELGRANT_WATCH], answer[4];
    uint8_t number = pelgrant_watch_start(4, 10000, 25000, 0, watch, PELGRANT_WATCH);
    if (number != 0)
        return refused("the start of the watch", number);
    printf("\nA trunk that dies and comes back\n\nclock  event    terminating  sent        bits  N/A  conditioning\n");
    for (size_t n = 0; n < sizeof told / sizeof told[0]; n++) {
        number = pelgrant_watch_tell(watch, PELGRANT_WATCH, told[n].clock, told[n].event, told[n].bits, 0, answer, 4);
        if (number != 0)
            return refused("the watch", number);
        printf("%5llu  %-7s  %-11s  %-10s  %4llu  %3llu  %s\n", (unsigned long long)told[n].clock,
            events[told[n].event], states[watch[PELGRANT_WATCH_TERMINATING]], sent[answer[0]],
            (unsigned long long)answer[1], (unsigned long long)answer[2], conditioning[answer[3]]);
    }
    return 0;
}

/* A signalling frame as a foreign unit sends it, with the poll bit set, and as it should be; the checks of both
 * are right. The unit waits for a reply that nobody here sends, so neither node nor reader takes its frame. */
static void foreign_unit(void)
{
    static const frame frames[] = {
        {{4, 3, 19, 68, 0, 24, 0, 10, 49, 115}, 10},
        {{4, 3, 3, 68, 0, 24, 0, 10, 129, 49}, 10},
    };
    printf("\nA signalling frame of a foreign unit\n\npoll bit  at a node  at the reader  bits  N/A  hold\n");
    for (size_t n = 0; n < sizeof frames / sizeof frames[0]; n++) {
        frame passing = frames[n];
        uint64_t answer[3];
        uint8_t read = pelgrant_signal_read(BUILD_OUT, passing.octets, passing.length, answer, 3);
        uint8_t sent_on = node(&passing, 0, 0, 0, 300);
        printf("%8d  %9u  %13u  %4llu  %3llu  %4llu\n", (frames[n].octets[2] >> 4) & 1, sent_on, read,
            (unsigned long long)answer[0], (unsigned long long)answer[1], (unsigned long long)answer[2]);
    }
}

/* A signalling frame, the voice frame and the first again are put on a line behind one another. The voice
 * frame is damaged there; the other two are taken off as they were. */
static int bare_bits(const frame *voice)
{
    uint8_t line[256], out[PELGRANT_LINE_FRAME_MAX];
    uint64_t answer[3];
    size_t count = 0, place = 0;
    frame four_bits;
    uint8_t number = signalling(&four_bits);
    if (number != 0)
        return refused("the signalling writer", number);
    const frame *const put[FRAMES] = {&four_bits, voice, &four_bits};

    printf("\nThree frames on a line of bits\n\n");
    for (int n = 0; n < FRAMES; n++) {
        number = pelgrant_line_add(line, sizeof line, count, put[n]->octets, put[n]->length, answer, 1);
        if (number != 0)
            return refused("the line's writer", number); /* the answer is 0 then, and the count as it was */
        count = (size_t)answer[0];
        printf("put on: %2zu octets, %zu bits on the line\n", put[n]->length, count);
    }
    line[50] = 0xFF; /* the damage */
    for (int n = 0;; n++) {
        number = pelgrant_line_next(line, sizeof line, count, place, out, sizeof out, answer, 3);
        int damaged = number == FRAME_SIZE || number == PART_OCTET || number == ABORT;
        if (number != 0 && !damaged)
            return refused("the line's reader", number);
        if (number == 0 && answer[0] == 0)
            break; /* the place stays, for when there are more bits */
        place = (size_t)answer[2]; /* where the closing flag, which opens the next frame, or the abort begins */
        if (damaged) {
            printf("refused: %u; on from bit %zu\n", number, place);
            continue;
        }
        int same = n < FRAMES && answer[1] == put[n]->length && memcmp(out, put[n]->octets, put[n]->length) == 0;
        printf("taken off: %2llu octets, %s; closing flag at bit %zu\n", (unsigned long long)answer[1],
            same ? "the same" : "others", place);
    }
    printf("no frame from there on\n");
    return 0;
}

/* Three voice frames come to a node whose store has room for two: the third is refused until the first has left,
 * and then lies round the store's end. Level and address are those of the moment when a frame leaves, and its
 * wait, by a clock that rolls over, is in the delay. */
static int waiting_room(void)
{
    enum { LEAVES = -1, TYPE_24 = 24 };
    static const struct { uint32_t clock; int enters; uint8_t level; uint16_t address; } calls[] = {
        {4294967286u, 0, 0, 0}, {4294967295u, 1, 0, 0}, {2, 2, 0, 0}, {10, LEAVES, 0, 300}, {10, 2, 0, 0},
        {30, LEAVES, 1, 4711}, {43, LEAVES, 2, 4711}, {43, LEAVES, 0, 4711},
    };
    uint8_t store[300], sseq = 0;
    uint32_t queue[PELGRANT_QUEUE];
    uint64_t answer = 0;
    frame came[FRAMES];
    for (int n = 0; n < FRAMES; n++) {
        uint8_t number = origin(&came[n], &sseq, n, TYPE_24, 0);
        if (number != 0)
            return refused("the origin", number);
    }

    uint8_t number = pelgrant_queue_fresh(queue, PELGRANT_QUEUE);
    if (number != 0)
        return refused("the fresh queue", number);
    printf("\nThree frames that wait at a node, in a store of %zu octets\n\n"
           "     clock          number  waiting  head  sequence  octets  delay  level  address\n", sizeof store);
    for (size_t n = 0; n < sizeof calls / sizeof calls[0]; n++) {
        frame passing = {{0}, 0};
        if (calls[n].enters == LEAVES) {
            number = pelgrant_queue_take(store, sizeof store, queue, PELGRANT_QUEUE, calls[n].clock, calls[n].level,
                calls[n].address, passing.octets, sizeof passing.octets, &answer, 1);
            passing.length = (size_t)answer;
        } else {
            passing = came[calls[n].enters];
            number = pelgrant_queue_enter(store, sizeof store, queue, PELGRANT_QUEUE, passing.octets, passing.length,
                calls[n].clock);
        }
        if (number != 0 && number != NO_ROOM && number != NOTHING_WAITS)
            return refused("the waiting room", number);
        printf("%10lu  %-6s  %6u  %7lu  %4lu", (unsigned long)calls[n].clock,
            calls[n].enters == LEAVES ? "leaves" : "enters", number, (unsigned long)queue[PELGRANT_QUEUE_COUNT],
            (unsigned long)queue[PELGRANT_QUEUE_HEAD]);
        if (passing.length != 0)
            printf("  %8d  %6zu  %5d", passing.octets[7] >> 4, passing.length, passing.octets[5]);
        if (passing.length != 0 && calls[n].enters == LEAVES)
            printf("  %5d  %7d", calls[n].level, (passing.octets[0] >> 2 << 7) | (passing.octets[1] >> 1));
        printf("\n");
    }
    return 0;
}

/* What each level would give back of those that wait after a frame of so many octets came or went. */
static int ask(const char *event, size_t octets, const uint32_t queue[PELGRANT_QUEUE], uint64_t freed[LEVELS])
{
    printf("%s  %6zu  %7lu", event, octets, (unsigned long)queue[PELGRANT_QUEUE_COUNT]);
    for (uint8_t level = 1; level <= LEVELS; level++) {
        uint8_t number = pelgrant_queue_freed(queue, PELGRANT_QUEUE, level, &freed[level - 1], 1);
        if (number != 0)
            return refused("the question", number);
        printf("  %7llu", (unsigned long long)freed[level - 1]);
    }
    printf("\n");
    return 0;
}

/* A signalling frame and two of voice wait, the second of which has lost two blocks already. All leave at one level,
 * and together they are as many octets shorter as were answered for it. */
static int congested_node(void)
{
    enum { LEVEL = 2 };
    uint8_t store[300], sseq = 0;
    uint32_t queue[PELGRANT_QUEUE];
    uint64_t freed[LEVELS], length = 0;
    size_t came = 0, left = 0;
    frame waiting[FRAMES];
    uint8_t number = signalling(&waiting[0]);
    if (number != 0)
        return refused("the signalling writer", number);
    for (int n = 0; n < 2; n++) {
        number = origin(&waiting[n + 1], &sseq, n, CODING, n == 0 ? 0 : 2);
        if (number != 0)
            return refused("the origin", number);
    }

    number = pelgrant_queue_fresh(queue, PELGRANT_QUEUE);
    if (number != 0)
        return refused("the fresh queue", number);
    printf("\nWhat each level would give back of those that wait\n\n"
           "        octets  waiting  level 1  level 2  level 3\n");
    for (int n = 0; n < FRAMES; n++) {
        number = pelgrant_queue_enter(store, sizeof store, queue, PELGRANT_QUEUE, waiting[n].octets,
            waiting[n].length, 0);
        if (number != 0)
            return refused("the waiting room", number);
        if (ask("enters", waiting[n].length, queue, freed) != 0)
            return 1;
        came += waiting[n].length;
    }
    uint64_t answered = freed[LEVEL - 1];
    for (int n = 0; n < FRAMES; n++) {
        number = pelgrant_queue_take(store, sizeof store, queue, PELGRANT_QUEUE, 5, LEVEL, 300, waiting[n].octets,
            sizeof waiting[n].octets, &length, 1);
        if (number != 0)
            return refused("the waiting room", number);
        if (ask("leaves", (size_t)length, queue, freed) != 0)
            return 1;
        left += (size_t)length;
    }
    printf("all left at level %d, %zu octets shorter; %llu were answered\n", LEVEL, came - left,
        (unsigned long long)answered);
    return 0;
}

/* Lays a frame in a tray behind what is there already, and gives the octets that the tray then has. */
static size_t lay(uint8_t *tray, size_t octets, const frame *laid)
{
    size_t length = laid->length + 2; /* the kind is counted */
    const uint8_t head[PELGRANT_TRAY_HEAD] = {(uint8_t)(length & 255), (uint8_t)(length >> 8), PELGRANT_TRAY_FRAME, 0};
    memcpy(tray + octets, head, sizeof head);
    memcpy(tray + octets + sizeof head, laid->octets, laid->length);
    return octets + sizeof head + laid->length;
}

static void show_records(const uint8_t *tray, size_t octets)
{
    for (size_t at = 0; at < octets;) {
        const uint8_t *head = tray + at, *voice = head + PELGRANT_TRAY_HEAD;
        size_t length = (size_t)(head[0] | head[1] << 8);
        printf("  %3d %d %d %d  %8d  %6zu  %5d  %7d\n", head[0], head[1], head[2], head[3], voice[7] >> 4, length - 2,
            voice[5], (voice[0] >> 2 << 7) | (voice[1] >> 1));
        at += 2 + length;
    }
}

/* Two voice frames and a damaged one between them lie in a tray. One call sends the two on and says what became of
 * each of the three. What it writes is a tray again, and goes to the next node as it is. */
static int tray_of_frames(void)
{
    enum { NODES = 2, TYPE_24 = 24, TRAY = FRAMES * (PELGRANT_TRAY_HEAD + PELGRANT_FRAME_MAX) };
    static const struct { uint8_t level; uint32_t wait; uint16_t address; } nodes[NODES] = {{1, 5, 300}, {1, 7, 4711}};
    uint8_t tray[TRAY], out[TRAY], list[FRAMES], sseq = 0;
    uint64_t answer[2];
    size_t octets = 0;
    for (int n = 0; n < FRAMES; n++) {
        frame made;
        uint8_t number = origin(&made, &sseq, n, TYPE_24, 0);
        if (number != 0)
            return refused("the origin", number);
        if (n == 1)
            made.octets[5] ^= 64; /* the damage */
        octets = lay(tray, octets, &made);
    }

    printf("\nA tray of three frames, one of them damaged\n");
    for (int n = 0; n < NODES; n++) {
        uint8_t number = pelgrant_forward_tray(tray, octets, nodes[n].level, 0, nodes[n].wait, nodes[n].address,
            out, sizeof out, list, sizeof list, answer, 2);
        if (number != 0)
            return refused("the tray", number);
        printf("\nnode %d: %zu octets came, %llu are written; numbers", n + 1, octets, (unsigned long long)answer[1]);
        for (uint64_t record = 0; record < answer[0]; record++)
            printf(" %u", list[record]);
        printf("\n  head       sequence  octets  delay  address\n");
        octets = (size_t)answer[1];
        memcpy(tray, out, octets);
        show_records(tray, octets);
    }
    return 0;
}

static void heading(const char *title)
{
    printf("%s\n\nstep   sequence  octets sent  after node 1  after node 2  delay  arrives   due  reset  dropped  width"
           "  first samples spoken     first words heard\n", title);
}

static void show_first(const uint8_t words[PELGRANT_SAMPLES])
{
    printf(" ");
    for (int n = 0; n < 8; n++)
        printf(" %2d", words[n]);
}

/* In the place of a wait: the packet is lost between the nodes. */
static const uint32_t LOST = UINT32_MAX;

/* A packet of a burst that begins at this time of the play clock; wait is its wait at the second node, or LOST. */
static int packet(circuit *line, uint64_t begins, int place, uint32_t wait)
{
    /* The first node drops a block of all but the first packet. The second is busy in the middle of the burst and
     * drops what it may. */
    static const uint8_t levels[PACKETS] = {0, 1, 1, 1, 1, 1}, busy[PACKETS] = {0, 0, 2, 2, 1, 0};
    static const char *const names[] = {"START", "DATA", "STOP"};
    uint8_t step = place == 0 ? PELGRANT_START : place < PACKETS - 1 ? PELGRANT_DATA : PELGRANT_STOP;
    uint8_t samples[PELGRANT_SAMPLES];
    uint64_t answer[5];
    frame passing = {{0}, 0};
    sound heard;
    uint32_t made = (uint32_t)(4294966280u + begins + 16 * (uint64_t)place); /* rolls over in the first burst */

    speak(place, samples);
    uint8_t number = pelgrant_send(&line->sseq, step, CODING, step == PELGRANT_STOP ? NOISE_AT_STOP : NOISE, samples,
        sizeof samples, 0, made, made + 2, 128, passing.octets, sizeof passing.octets, answer, 1);
    if (number != 0)
        return refused("the origin", number);
    passing.length = (size_t)answer[0];
    printf("%-5s  %8d  %11zu", names[step], passing.octets[7] >> 4, passing.length);

    number = node(&passing, levels[place], made + 2, made + 9, 300);
    if (number != 0)
        return refused("node 1", number);
    printf("  %12zu", passing.length);
    if (wait == LOST) {
        printf("  lost\n");
        return 0;
    }

    number = node(&passing, busy[place], made + 9, made + 9 + wait, 4711);
    if (number != 0)
        return refused("node 2", number);
    line->came = passing;
    line->clock = begins + 16 * (uint64_t)place + 9 + wait;
    printf("  %12zu  %5d  %7llu", passing.length, passing.octets[5], (unsigned long long)line->clock);

    number = pelgrant_arrive(line->record, PELGRANT_RECORD, passing.octets, passing.length, line->clock, answer, 5,
        heard.words, sizeof heard.words);
    if (number == LATE) { /* zeros are answered, a width of 0 among them: what was last played stays */
        printf("  late\n");
        return 0;
    }
    if (number != 0)
        return refused("the endpoint", number);
    heard.width = (unsigned)answer[4]; /* the sample bits, answer[2], less the blocks dropped, answer[3] */
    line->played = heard;
    printf("  %4llu  %5s  %7llu  %5u", (unsigned long long)answer[0], answer[1] ? "yes" : "no",
        (unsigned long long)answer[3], heard.width);
    show_first(samples);
    show_first(heard.words);
    printf("\n");
    return 0;
}

/* What is played while no packet comes: M_LAST chooses, and the last noise gives the level. Fill hands the words on
 * as they are, so that their width is the one kept with them. */
static int play_without_packet(const circuit *line)
{
    sound noise, fill;
    uint64_t end = line->record[PELGRANT_END], filled = 0, idle = 0;
    uint8_t m_last = (uint8_t)line->record[PELGRANT_M_LAST];
    double level = 0;
    memset(noise.words, 16, sizeof noise.words);
    noise.width = SAMPLE_BITS;
    uint8_t number = pelgrant_fill(line->played.words, sizeof line->played.words, noise.words, sizeof noise.words,
        m_last, fill.words, sizeof fill.words, &filled, 1);
    if (number != 0)
        return refused("the fill", number);
    fill.width = m_last == 1 ? line->played.width : noise.width;
    number = pelgrant_noise_level((uint8_t)line->record[PELGRANT_LAST_NOISE], &idle, 1, &level, 1);
    if (number != 0)
        return refused("the noise level", number);
    printf("no packet, from %llu ms: ", (unsigned long long)(line->clock > end ? line->clock : end));
    if (memcmp(fill.words, noise.words, sizeof fill.words) == 0)
        printf("%llu words of noise, width %u, at %.1f dBmc0%s\n", (unsigned long long)filled, fill.width, level,
            idle ? " (idle)" : "");
    else
        printf("the last %llu words again, width %u\n", (unsigned long long)filled, fill.width);
    return 0;
}

/* What the service desk is shown of a circuit, whenever it likes. A packet that did not come is missing as soon as
 * one behind it is scheduled, and so is one that was late. */
static void desk(const circuit *line)
{
    printf("the desk reads: scheduled %llu, late %llu, missing %llu\n",
        (unsigned long long)line->record[PELGRANT_SCHEDULED], (unsigned long long)line->record[PELGRANT_LATE],
        (unsigned long long)line->record[PELGRANT_MISSING]);
}

int main(void)
{
    static const uint32_t waits[PACKETS] = {12, 20, 64, 58, 47, 31};
    circuit line = {0, {0}, 0, {{0}, 0}, {{0}, 0}};
    uint8_t number = pelgrant_fresh(BUILD_OUT, line.record, PELGRANT_RECORD);
    if (number != 0)
        return refused("the endpoint", number);

    printf("Coding type %d, two nodes, build-out %d ms\n\n", CODING, BUILD_OUT);
    heading("One burst");
    for (int place = 0; place < PACKETS; place++)
        if (packet(&line, 1000, place, waits[place]) != 0)
            return 1;
    if (play_without_packet(&line) != 0)
        return 1;
    desk(&line);

    printf("\n");
    heading("The next, whose stop packet comes late");
    for (int place = 0; place < PACKETS - 1; place++)
        if (packet(&line, 2000, place, waits[place]) != 0)
            return 1;
    if (play_without_packet(&line) != 0 || packet(&line, 2000, PACKETS - 1, 140) != 0
        || play_without_packet(&line) != 0)
        return 1;
    desk(&line);

    printf("\n");
    heading("A third, of which a packet is lost: it is missing, and the late stop too");
    for (int place = 0; place < PACKETS; place++)
        if (packet(&line, 3000, place, place == 2 ? LOST : waits[place]) != 0)
            return 1;
    desk(&line);
    if (trunk() != 0)
        return 1;
    foreign_unit();
    return bare_bits(&line.came) != 0 || waiting_room() != 0 || congested_node() != 0 || tray_of_frames() != 0;
}
