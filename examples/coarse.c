/* A floor box on a board whose timer ends with each millisecond, 62,500 quanta: first the example of crustnewt.h, word for word, then a board
 * that it runs on. Prints the board's clock and what happens; examples/coarse.txt has it, worked out by hand: the laser is switched at its
 * quantum, a REPORT that is due while the board sleeps has the stamp of its own tick, and one that a grant's force bit asks for says how much
 * waits. Once it is registered the head falls silent for a second: the box leaves, asks to register again, and must be registered at the
 * end. */
#include "crustnewt.h"

// The board's: it sleeps so many quanta, or less if a frame comes, one has gone or its millisecond is over, and says how many have
// passed. It takes the frame that came and knows the first that waits to be sent, of 0 octets where there is none or one is going, and
// how many quanta of data wait behind.
uint64_t sleep_for(uint64_t quanta);
size_t take_frame(uint8_t *octets);
void queue_frame(const uint8_t *octets);
void empty_queue(void);
const uint8_t *first_in_queue(size_t *octets);
void send_first(void);
uint16_t data_waiting(void);
void laser(int on);
uint32_t random_number(void);

static uint64_t box[CRUSTNEWT_BOX_WORDS], reply[CRUSTNEWT_BOX_REPLY_WORDS];
static uint8_t frames[CRUSTNEWT_BOX_FRAMES_OCTETS];
#define LENT box, CRUSTNEWT_BOX_WORDS, frames, sizeof frames, reply, CRUSTNEWT_BOX_REPLY_WORDS

static void told(void)
{
    uint64_t light = box[CRUSTNEWT_BOX_LIGHT];

    for (uint64_t i = 0; i < reply[CRUSTNEWT_BOX_REPLY_FRAMES]; i++)
        queue_frame(frames + i * CRUSTNEWT_FRAME_OCTETS);
    laser(light == CRUSTNEWT_BOX_LIGHT_WARMING || light == CRUSTNEWT_BOX_LIGHT_ASKING || light == CRUSTNEWT_BOX_LIGHT_LIT ||
          light == CRUSTNEWT_BOX_LIGHT_OPEN);
}

// All the quanta that have passed are made, and what is handed out on the way is looked at when it is.
static uint8_t pass(uint64_t quanta)
{
    uint8_t number = CRUSTNEWT_DONE;

    for (uint64_t made = 0; quanta > 0 && number == CRUSTNEWT_DONE; quanta -= made) {
        number = crustnewt_box_advance(quanta < CRUSTNEWT_MOST_TICKS ? quanta : CRUSTNEWT_MOST_TICKS, LENT, &made, 1);
        told();
    }
    return number;
}

// While the transmitter is at rest the millisecond will do: what is handed out waits for a window anyway.
static uint64_t leisure(void)
{
    if (box[CRUSTNEWT_BOX_LIGHT] == CRUSTNEWT_BOX_LIGHT_REST)
        return CRUSTNEWT_MOST_TICKS;
    return crustnewt_box_ticks_until(box, CRUSTNEWT_BOX_WORDS) + 1;
}

// At first, and whenever the box has left: in WAIT the call is always done. To a newcomer nothing that waits is of use.
static void join(void)
{
    if (box[CRUSTNEWT_BOX_STATE] == CRUSTNEWT_BOX_STATE_WAIT)
        crustnewt_box_register(LENT);
    if (box[CRUSTNEWT_BOX_STATE] == CRUSTNEWT_BOX_STATE_REGISTERING)
        empty_queue();
}

// Whether one of the grants that were told of has its force bit set.
static int is_forced(void)
{
    int forced = 0;

    for (uint64_t i = 0; i < reply[CRUSTNEWT_BOX_REPLY_NOTICES]; i++) {
        const uint64_t *notice = reply + CRUSTNEWT_BOX_REPLY_NOTICE + i * CRUSTNEWT_BOX_NOTICE_WORDS;

        forced |= notice[0] == CRUSTNEWT_BOX_NOTICE_GRANT && notice[3] == 1;
    }
    return forced;
}

// The head wants to know how much waits: one queue set, of queue 0 alone.
static void report(void)
{
    uint16_t length = data_waiting();
    const uint8_t set[] = {1, length >> 8, length & 0xFF};

    if (crustnewt_box_report(1, set, sizeof set, LENT) == CRUSTNEWT_DONE)
        told();
}

static void hear(const uint8_t *octets, size_t heard)
{
    if (crustnewt_box_hear(octets, heard, random_number(), LENT) != CRUSTNEWT_DONE)
        return;
    told();
    if (is_forced())
        report();
}

uint8_t run(uint64_t address)
{
    uint8_t octets[2048], number = crustnewt_box_fresh(address, LENT);

    while (number == CRUSTNEWT_DONE) {
        const uint8_t *control;
        size_t heard, waiting;

        join();
        number = pass(sleep_for(leisure()));
        heard = take_frame(octets);
        if (heard > 0)
            hear(octets, heard);
        control = first_in_queue(&waiting);
        if (crustnewt_box_next_to_send(box, CRUSTNEWT_BOX_WORDS, control, waiting, control, 0) == 1)
            send_first();
    }
    return number;
}

/* The board, with the head at the other end of a fibre of 50 quanta. */
#include <inttypes.h>
#include <stdio.h>
#include <stdlib.h>
#include <string.h>

#define MILLISECOND 62500
#define MILLISECONDS 1004
#define FRAME_QUANTA 42 /* that a frame takes to send */
#define QUEUE 4
#define ARRIVALS 6
#define EVERYONE 0x0180C2000001
#define HEAD 0x020000000001
#define BOX 0x020000000031
#define GRANT(start, length) ((uint64_t)(start) << 32 | (length))

/* The frames that come: when, and the words of their messages. The head registers the box, asks how much waits, is silent, and registers
 * it again. */
static const struct {
    uint64_t at, words[CRUSTNEWT_MESSAGE_WORDS];
} arrivals[ARRIVALS] = {
    {100000, {EVERYONE, HEAD, 99950, CRUSTNEWT_MESSAGE_DISCOVERY, 0, 0, GRANT(100050, 174)}},
    {100400, {BOX, HEAD, 100350, CRUSTNEWT_MESSAGE_REGISTER, 3, 1, 10, 16}},
    {100450, {BOX, HEAD, 100400, CRUSTNEWT_MESSAGE_GATE, 1, 1, GRANT(100600, 200)}},
    {62700000, {EVERYONE, HEAD, 62699950, CRUSTNEWT_MESSAGE_DISCOVERY, 0, 0, GRANT(62700050, 174)}},
    {62700400, {BOX, HEAD, 62700350, CRUSTNEWT_MESSAGE_REGISTER, 3, 1, 10, 16}},
    {62700450, {BOX, HEAD, 62700400, CRUSTNEWT_MESSAGE_GATE, 1, 0, GRANT(62700600, 200)}},
};

static uint64_t now, sending_until;
static uint8_t queue[QUEUE][CRUSTNEWT_FRAME_OCTETS];
static size_t queued, arrived;
static unsigned wakes;

static void must(int holds, const char *what)
{
    if (holds)
        return;
    printf("%8" PRIu64 "  %s\n", now, what);
    exit(1);
}

/* Says what becomes of a frame, and of one that is handed out its stamp and the queue that it tells of. */
static void say(const char *what, const uint8_t *frame, int stamp)
{
    static const char *const kinds[] = {"GATE", "discovery GATE", "REPORT", "REGISTER_REQ", "REGISTER", "REGISTER_ACK"};
    uint64_t message[CRUSTNEWT_MESSAGE_WORDS];

    must(crustnewt_read(frame, CRUSTNEWT_FRAME_OCTETS, message, CRUSTNEWT_MESSAGE_WORDS) == CRUSTNEWT_DONE, "not a frame");
    printf("%8" PRIu64 "  %s %s", now, what, kinds[message[CRUSTNEWT_MESSAGE_KIND]]);
    if (stamp)
        printf(", stamp %" PRIu64, message[CRUSTNEWT_MESSAGE_TIMESTAMP]);
    if (stamp && message[CRUSTNEWT_MESSAGE_KIND] == CRUSTNEWT_MESSAGE_REPORT && message[CRUSTNEWT_MESSAGE_BODY] != 0)
        printf(", %" PRIu64 " of data", message[CRUSTNEWT_MESSAGE_BODY] >> 32 & 0xFFFF);
    printf("\n");
}

static uint64_t sooner(uint64_t a, uint64_t b)
{
    return a < b ? a : b;
}

/* Ends the program when its time is over. */
uint64_t sleep_for(uint64_t quanta)
{
    uint64_t before = now, until = sooner(now + quanta, (now / MILLISECOND + 1) * MILLISECOND);

    if (now == (uint64_t)MILLISECONDS * MILLISECOND) {
        must(box[CRUSTNEWT_BOX_STATE] == CRUSTNEWT_BOX_STATE_REGISTERED, "not registered");
        printf("%8" PRIu64 "  registered, after %u wakes\n", now, wakes);
        exit(0);
    }
    if (arrived < ARRIVALS)
        until = sooner(until, arrivals[arrived].at);
    if (now < sending_until)
        until = sooner(until, sending_until);
    now = until;
    wakes++;
    return now - before;
}

size_t take_frame(uint8_t *octets)
{
    if (arrived == ARRIVALS || arrivals[arrived].at != now)
        return 0;
    must(crustnewt_write(arrivals[arrived].words, CRUSTNEWT_MESSAGE_WORDS, octets, CRUSTNEWT_FRAME_OCTETS) == CRUSTNEWT_DONE,
         "not a message");
    arrived++;
    say("hears", octets, 0);
    return CRUSTNEWT_FRAME_OCTETS;
}

static void take_first_out(void)
{
    memmove(queue[0], queue[1], --queued * CRUSTNEWT_FRAME_OCTETS);
}

/* The oldest frame makes room: a box without grants goes on to hand out REPORTs. */
void queue_frame(const uint8_t *octets)
{
    say("hands out", octets, 1);
    if (queued == QUEUE)
        take_first_out();
    memcpy(queue[queued++], octets, CRUSTNEWT_FRAME_OCTETS);
}

void empty_queue(void)
{
    if (queued > 0)
        printf("%8" PRIu64 "  throws away %zu frames\n", now, queued);
    queued = 0;
}

const uint8_t *first_in_queue(size_t *octets)
{
    *octets = queued == 0 || now < sending_until ? 0 : CRUSTNEWT_FRAME_OCTETS;
    return queue[0];
}

void send_first(void)
{
    say("sends", queue[0], 0);
    take_first_out();
    sending_until = now + FRAME_QUANTA;
}

uint16_t data_waiting(void)
{
    return 772;
}

void laser(int on)
{
    static int was_on;

    if (on != was_on)
        printf("%8" PRIu64 "  laser %s\n", now, on ? "on" : "off");
    was_on = on;
}

uint32_t random_number(void)
{
    return 250;
}

int main(void)
{
    printf("refused with %u\n", run(BOX));
    return 1;
}
