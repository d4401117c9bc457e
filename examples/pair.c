/* A head and a floor box in one program, with a fibre of 50 quanta between them: the box registers, sends in the grant that it is given, and
 * both clients hear of it; the grant's force bit asks how much waits at the box, and its client answers. Then the head drops it, and it
 * registers again. Prints what happens in which quantum; examples/pair.txt has it,
 * worked out by hand. */
#include <inttypes.h>
#include <stdarg.h>
#include <stdio.h>
#include <stdlib.h>
#include <string.h>

#include "crustnewt.h"

#define LINKS 4
#define DELAY 50        /* quanta from end to end of the fibre */
#define FRAME_QUANTA 42 /* that a frame takes to send */
#define QUEUE 8
#define DROP 800        /* the quantum in which the head drops the box */
#define WINDOWS 1000    /* quanta from one discovery window to the next */
#define QUANTA 1800
#define DATA 772        /* quanta of data that wait at the box, in its queue 0 */

static const uint64_t head_address = 0x020000000001, box_address = 0x020000000031;

static uint64_t head[CRUSTNEWT_HEAD_WORDS], links[LINKS * CRUSTNEWT_LINK_WORDS], head_reply[CRUSTNEWT_HEAD_REPLY_WORDS];
static uint8_t output[LINKS * CRUSTNEWT_FRAME_OCTETS];
static uint64_t box[CRUSTNEWT_BOX_WORDS], box_reply[CRUSTNEWT_BOX_REPLY_WORDS];
static uint8_t frames[CRUSTNEWT_BOX_FRAMES_OCTETS];

#define HEAD head, CRUSTNEWT_HEAD_WORDS, links, LINKS *CRUSTNEWT_LINK_WORDS
#define HEAD_ALL HEAD, output, sizeof output, head_reply, CRUSTNEWT_HEAD_REPLY_WORDS
#define BOX_ALL box, CRUSTNEWT_BOX_WORDS, frames, sizeof frames, box_reply, CRUSTNEWT_BOX_REPLY_WORDS

static unsigned quantum;

/* Frames in order, each with the quantum at which it arrives. */
struct queue {
    uint8_t frames[QUEUE][CRUSTNEWT_FRAME_OCTETS];
    unsigned arrives[QUEUE];
    unsigned length;
};

static struct queue down, up, waiting;

static void say(const char *who, const char *what, ...)
{
    va_list rest;

    printf("%5u  %-4s  ", quantum, who);
    va_start(rest, what);
    vprintf(what, rest);
    va_end(rest);
    printf("\n");
}

static void done(uint8_t number)
{
    if (number != CRUSTNEWT_DONE) {
        say("both", "refused with %u", number);
        exit(1);
    }
}

static void put(struct queue *queue, const uint8_t *frame, unsigned arrives)
{
    if (queue->length == QUEUE) {
        say("both", "more frames than there is room for");
        exit(1);
    }
    memcpy(queue->frames[queue->length], frame, CRUSTNEWT_FRAME_OCTETS);
    queue->arrives[queue->length++] = arrives;
}

/* Takes the first frame, if it has arrived. */
static int take(struct queue *queue, uint8_t *frame)
{
    if (queue->length == 0 || queue->arrives[0] > quantum)
        return 0;
    memcpy(frame, queue->frames[0], CRUSTNEWT_FRAME_OCTETS);
    queue->length--;
    memmove(queue->frames[0], queue->frames[1], queue->length * CRUSTNEWT_FRAME_OCTETS);
    memmove(queue->arrives, queue->arrives + 1, queue->length * sizeof *queue->arrives);
    return 1;
}

/* What the reader makes of a frame. */
static const char *kind(const uint8_t *frame)
{
    static const char *const kinds[] = {"GATE", "discovery GATE", "REPORT", "REGISTER_REQ", "REGISTER", "REGISTER_ACK"};
    uint64_t message[CRUSTNEWT_MESSAGE_WORDS];

    done(crustnewt_read(frame, CRUSTNEWT_FRAME_OCTETS, message, CRUSTNEWT_MESSAGE_WORDS));
    return kinds[message[CRUSTNEWT_MESSAGE_KIND]];
}

/* What a call of the head told: its notice, if there is one. Its frames go onto the fibre at once. */
static uint64_t head_told(uint8_t number)
{
    static const char *const notices[] = {"none", "request", "registered", "dropped", "report"};
    uint64_t notice = 0;

    done(number);
    if (head_reply[CRUSTNEWT_HEAD_REPLY_NOTICES] > 0) {
        notice = head_reply[CRUSTNEWT_HEAD_REPLY_NOTICE];
        say("head", "notice: %s, link %" PRIu64 ", round trip %" PRIu64, notices[notice], head_reply[CRUSTNEWT_HEAD_REPLY_LINK],
            head_reply[CRUSTNEWT_HEAD_REPLY_TRIP]);
        if (head_reply[CRUSTNEWT_HEAD_REPLY_SETS] != 0)
            say("head", "queue 0 there has %" PRIu64, head_reply[CRUSTNEWT_HEAD_REPLY_SETS] >> 32 & 0xFFFF);
    }
    for (uint64_t i = 0; i < head_reply[CRUSTNEWT_HEAD_REPLY_FRAMES]; i++) {
        say("head", "sends %s", kind(output + i * CRUSTNEWT_FRAME_OCTETS));
        put(&down, output + i * CRUSTNEWT_FRAME_OCTETS, quantum + DELAY);
    }
    return notice;
}

/* What a call of the box told: whether a REPORT is forced. Its frames wait until they may be sent. */
static int box_told(uint8_t number)
{
    static const char *const notices[] = {"none",  "window", "registered", "refused", "retry", "deregistered",
                                          "grant", "open",   "close"};
    int forced = 0;

    done(number);
    for (uint64_t i = 0; i < box_reply[CRUSTNEWT_BOX_REPLY_NOTICES]; i++) {
        const uint64_t *notice = box_reply + CRUSTNEWT_BOX_REPLY_NOTICE + i * CRUSTNEWT_BOX_NOTICE_WORDS;

        if (notice[0] == CRUSTNEWT_BOX_NOTICE_GRANT)
            say("box", "notice: grant, start %" PRIu64 ", length %" PRIu64 ", force bit %" PRIu64, notice[1], notice[2], notice[3]);
        else
            say("box", "notice: %s", notices[notice[0]]);
        forced |= notice[3] == 1;
    }
    for (uint64_t i = 0; i < box_reply[CRUSTNEWT_BOX_REPLY_FRAMES]; i++) {
        say("box", "hands out %s", kind(frames + i * CRUSTNEWT_FRAME_OCTETS));
        put(&waiting, frames + i * CRUSTNEWT_FRAME_OCTETS, quantum);
    }
    return forced;
}

/* The place of the link that a box holds, from 1; 0 where it holds none. */
static size_t link_of(uint64_t address)
{
    for (size_t place = 0; place < LINKS; place++)
        if (links[place * CRUSTNEWT_LINK_WORDS + CRUSTNEWT_LINK_ADDRESS] == address)
            return place + 1;
    return 0;
}

/* Under which link the head hears a message: a box that asks to register comes on none. On a real fibre the preamble's tag tells it. */
static size_t link_under(const uint64_t *message)
{
    if (message[CRUSTNEWT_MESSAGE_KIND] == CRUSTNEWT_MESSAGE_REGISTER_REQ && message[CRUSTNEWT_MESSAGE_BODY] == 1)
        return 0;
    return link_of(message[CRUSTNEWT_MESSAGE_SOURCE]);
}

/* The head's client admits whoever asks, and grants it 200 quanta, 220 from now, with the force bit. */
static void admit(const uint64_t *request)
{
    uint64_t address = request[CRUSTNEWT_MESSAGE_SOURCE], grant = (head[CRUSTNEWT_HEAD_COUNT] + 220) << 32 | 200;

    head_told(crustnewt_head_admit(address, (uint8_t)request[CRUSTNEWT_MESSAGE_BODY + 1], 10, HEAD_ALL));
    head_told(crustnewt_head_gate(link_of(address), &grant, 1, 1, HEAD_ALL));
}

/* What it does by itself. */
static void lead(void)
{
    if (quantum % WINDOWS == 0)
        head_told(crustnewt_head_open((uint32_t)head[CRUSTNEWT_HEAD_COUNT] + 100, 174, 0, 400, HEAD_ALL));
    if (quantum == DROP)
        head_told(crustnewt_head_deregister(link_of(box_address), HEAD_ALL));
}

/* The box's client asks to register at first, and whenever the box has left. Nothing that waits is of use to a newcomer. */
static void join(void)
{
    if (box[CRUSTNEWT_BOX_STATE] == CRUSTNEWT_BOX_STATE_WAIT) {
        say("box", "its client asks to register");
        done(crustnewt_box_register(BOX_ALL));
    }
    if (box[CRUSTNEWT_BOX_STATE] == CRUSTNEWT_BOX_STATE_REGISTERING)
        waiting.length = 0;
}

/* It tells how much waits when it is asked: one queue set, of queue 0 alone. */
static void report(void)
{
    static const uint8_t set[] = {1, DATA >> 8, DATA & 0xFF};

    say("box", "its client asks for a REPORT");
    box_told(crustnewt_box_report(1, set, sizeof set, BOX_ALL));
}

/* Hands over what has arrived. */
static void deliver(void)
{
    uint8_t frame[CRUSTNEWT_FRAME_OCTETS];
    uint64_t message[CRUSTNEWT_MESSAGE_WORDS];

    while (take(&down, frame)) {
        uint8_t number = crustnewt_box_hear(frame, sizeof frame, 250, BOX_ALL);

        say("box", "hears %s, drift %" PRId64, kind(frame), (int64_t)box_reply[CRUSTNEWT_BOX_REPLY_DRIFT]);
        if (box_told(number))
            report();
    }
    while (take(&up, frame)) {
        say("head", "hears %s", kind(frame));
        done(crustnewt_read(frame, sizeof frame, message, CRUSTNEWT_MESSAGE_WORDS));
        if (head_told(crustnewt_head_hear(link_under(message), frame, sizeof frame, HEAD_ALL)) == CRUSTNEWT_HEAD_NOTICE_REQUEST)
            admit(message);
    }
}

/* Sends the frame that waits, if the box may and isn't still sending another. */
static void send(void)
{
    static unsigned busy_until;
    static const uint8_t no_data[1];
    uint8_t frame[CRUSTNEWT_FRAME_OCTETS];

    if (waiting.length == 0 || quantum < busy_until ||
        crustnewt_box_next_to_send(box, CRUSTNEWT_BOX_WORDS, waiting.frames[0], CRUSTNEWT_FRAME_OCTETS, no_data, 0) != 1)
        return;
    take(&waiting, frame);
    say("box", "sends %s", kind(frame));
    put(&up, frame, quantum + DELAY);
    busy_until = quantum + FRAME_QUANTA;
}

int main(void)
{
    int registered;

    done(crustnewt_head_fresh(head_address, HEAD, head_reply, CRUSTNEWT_HEAD_REPLY_WORDS));
    done(crustnewt_box_fresh(box_address, BOX_ALL));
    while (quantum < QUANTA) {
        join();
        lead();
        quantum++;
        head_told(crustnewt_head_tick(HEAD_ALL));
        box_told(crustnewt_box_tick(BOX_ALL));
        deliver();
        send();
    }
    registered = box[CRUSTNEWT_BOX_STATE] == CRUSTNEWT_BOX_STATE_REGISTERED &&
                 links[CRUSTNEWT_LINK_STATE] == CRUSTNEWT_LINK_STATE_REGISTERED && links[CRUSTNEWT_LINK_ADDRESS] == box_address;
    printf("%s, port %" PRIu64 "\n", registered ? "registered at both ends" : "not registered", box[CRUSTNEWT_BOX_PORT]);
    return registered ? 0 : 1;
}
