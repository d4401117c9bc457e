/* How much stack a call takes. Each is made on a painted stack of its own, in states and with messages that lead it to its depths, and the
 * most that it took is printed, arguments included. Fails if that is more than crustnewt.h says, or if a call was never done. */
#define _XOPEN_SOURCE 700
#include <stdio.h>
#include <string.h>
#include <ucontext.h>

#include "crustnewt.h"

#define EVERYONE 0x0180C2000001
#define HEAD 0x020000000001
#define BOX 0x020000000031
#define COUNT 1000
#define GRANT(start, length) ((uint64_t)(start) << 32 | (length))
#define NUMBER_OF(array) (sizeof(array) / sizeof *(array))

/* A newcomer's words; and a member's, with what is left of its watchdog and until its REPORT. */
#define NEWCOMER [CRUSTNEWT_BOX_ADDRESS] = BOX, [CRUSTNEWT_BOX_STATE] = CRUSTNEWT_BOX_STATE_REGISTERING
#define MEMBER(watchdog, report) \
    [CRUSTNEWT_BOX_ADDRESS] = BOX, [CRUSTNEWT_BOX_COUNT] = COUNT, [CRUSTNEWT_BOX_STATE] = CRUSTNEWT_BOX_STATE_REGISTERED, \
    [CRUSTNEWT_BOX_WATCHDOG] = watchdog, [CRUSTNEWT_BOX_REPORT] = report

static const uint64_t boxes[][CRUSTNEWT_BOX_WORDS] = {
    {[CRUSTNEWT_BOX_ADDRESS] = BOX},
    {NEWCOMER},
    {NEWCOMER, [CRUSTNEWT_BOX_LIGHT] = CRUSTNEWT_BOX_LIGHT_WARMING, [CRUSTNEWT_BOX_LIGHT_LEFT] = 1},
    {[CRUSTNEWT_BOX_ADDRESS] = BOX, [CRUSTNEWT_BOX_STATE] = CRUSTNEWT_BOX_STATE_REGISTER_REQ, [CRUSTNEWT_BOX_WAIT] = 1},
    {MEMBER(1, 1)},
    /* Its REPORT is due, and its window closes. */
    {MEMBER(2, 1), [CRUSTNEWT_BOX_LIGHT] = CRUSTNEWT_BOX_LIGHT_OPEN, [CRUSTNEWT_BOX_LIGHT_LEFT] = 1},
    /* Its REPORT is due, its light is out, and of its grants one is past, two are too short and one begins. */
    {MEMBER(2, 1), [CRUSTNEWT_BOX_LIGHT] = CRUSTNEWT_BOX_LIGHT_FADING, [CRUSTNEWT_BOX_LIGHT_LEFT] = 1, [CRUSTNEWT_BOX_GRANTS] = 4,
     [CRUSTNEWT_BOX_LIST] = GRANT(COUNT, 200), GRANT(COUNT + 1, 105), GRANT(COUNT + 1, 9), GRANT(COUNT + 1, 106)},
    /* Its REPORT is due, and the grant that it waits for begins, the second of its list. */
    {MEMBER(2, 1), [CRUSTNEWT_BOX_LIGHT] = CRUSTNEWT_BOX_LIGHT_DUE, [CRUSTNEWT_BOX_LIGHT_LEFT] = 1,
     [CRUSTNEWT_BOX_LIGHT_GRANT] = GRANT(COUNT + 1, 106), [CRUSTNEWT_BOX_GRANTS] = 2,
     [CRUSTNEWT_BOX_LIST] = GRANT(COUNT + 900, 200), GRANT(COUNT + 1, 106)},
};

/* Link 1 of a table; the others are like it. */
static const uint64_t tables[][CRUSTNEWT_LINK_WORDS] = {
    {0, CRUSTNEWT_LINK_STATE_IDLE, 0, 0, 0},
    {BOX, CRUSTNEWT_LINK_STATE_WAITING, 1, 0, 0},
    {BOX, CRUSTNEWT_LINK_STATE_REGISTERED, 0, 1, 1},
    {BOX, CRUSTNEWT_LINK_STATE_REGISTERED, 0, 2, 1},
};

static const uint64_t messages[][CRUSTNEWT_MESSAGE_WORDS] = {
    {EVERYONE, HEAD, COUNT, CRUSTNEWT_MESSAGE_DISCOVERY, 0, 0, GRANT(COUNT, 106)},
    {BOX, HEAD, COUNT, CRUSTNEWT_MESSAGE_GATE, 4, 15, GRANT(COUNT, 9), GRANT(COUNT, 200), GRANT(COUNT, 106), GRANT(COUNT, 105)},
    {BOX, HEAD, COUNT, CRUSTNEWT_MESSAGE_REGISTER, 1, 1, 10, 0},
    {BOX, HEAD, COUNT, CRUSTNEWT_MESSAGE_REGISTER, 2, 1, 0, 0},
    {BOX, HEAD, COUNT, CRUSTNEWT_MESSAGE_REGISTER, 3, 1, 10, 16},
    {BOX, HEAD, COUNT, CRUSTNEWT_MESSAGE_REGISTER, 4, 0, 0, 16},
    {EVERYONE, BOX, COUNT, CRUSTNEWT_MESSAGE_REPORT},
    {EVERYONE, BOX, COUNT, CRUSTNEWT_MESSAGE_REPORT, 0x03FFull << 48, 0, 0xFFull << 40, 0, 3ull << 32},
    {EVERYONE, BOX, COUNT, CRUSTNEWT_MESSAGE_REGISTER_REQ, 1, 16},
    {EVERYONE, BOX, COUNT, CRUSTNEWT_MESSAGE_REGISTER_REQ, 3, 0},
    {EVERYONE, BOX, COUNT, CRUSTNEWT_MESSAGE_REGISTER_ACK, 0, 1, 10},
    {EVERYONE, BOX, COUNT, CRUSTNEWT_MESSAGE_REGISTER_ACK, 1, 1, 10},
};

/* Two queue sets of eight queues and one of two, as in the last REPORT: there is room for no more. */
static const uint8_t sets[CRUSTNEWT_MOST_SETS_OCTETS] = {[0] = 0xFF, [17] = 0xFF, [34] = 3};

/* What calls change, and what they are asked for with. */
static struct {
    uint64_t box[CRUSTNEWT_BOX_WORDS], head[CRUSTNEWT_HEAD_WORDS], table[CRUSTNEWT_MOST_LINKS * CRUSTNEWT_LINK_WORDS];
    uint64_t message[CRUSTNEWT_MESSAGE_WORDS];
    uint8_t frame[CRUSTNEWT_FRAME_OCTETS];
    size_t links, link;
} now, before;

static uint8_t frames[CRUSTNEWT_BOX_FRAMES_OCTETS], output[CRUSTNEWT_MOST_LINKS * CRUSTNEWT_FRAME_OCTETS];
static uint64_t box_reply[CRUSTNEWT_BOX_REPLY_WORDS], head_reply[CRUSTNEWT_HEAD_REPLY_WORDS], made, answer;

#define BLOCK now.box, CRUSTNEWT_BOX_WORDS
#define BOX_ALL BLOCK, frames, sizeof frames, box_reply, CRUSTNEWT_BOX_REPLY_WORDS
#define TABLE now.head, CRUSTNEWT_HEAD_WORDS, now.table, now.links *CRUSTNEWT_LINK_WORDS
#define HEAD_REPLY head_reply, CRUSTNEWT_HEAD_REPLY_WORDS
#define HEAD_ALL TABLE, output, sizeof output, HEAD_REPLY
#define FRAME now.frame, sizeof now.frame
#define MESSAGE now.message, CRUSTNEWT_MESSAGE_WORDS

/* Every call: whose it is, its name, what it is made with. */
#define CALLS(CALL) \
    CALL(BOX, box_fresh, (BOX, BOX_ALL)) \
    CALL(BOX, box_register, (BOX_ALL)) \
    CALL(BOX, box_deregister, (BOX_ALL)) \
    CALL(BOX, box_report, (3, sets, sizeof sets, BOX_ALL)) \
    CALL(BOX, box_hear, (FRAME, 250, BOX_ALL)) \
    CALL(BOX, box_tick, (BOX_ALL)) \
    CALL(BOX, box_advance, (CRUSTNEWT_MOST_TICKS, BOX_ALL, &made, 1)) \
    CALL(BOX, box_ticks_until, (BLOCK)) \
    CALL(BOX, box_next_to_send, (BLOCK, FRAME, FRAME)) \
    CALL(HEAD, head_fresh, (HEAD, TABLE, HEAD_REPLY)) \
    CALL(HEAD, head_open, (COUNT, 174, 0, 400, HEAD_ALL)) \
    CALL(HEAD, head_admit, (BOX, 16, 10, HEAD_ALL)) \
    CALL(HEAD, head_reject, (BOX, 16, 10, HEAD_ALL)) \
    CALL(HEAD, head_reregister, (now.link, 10, HEAD_ALL)) \
    CALL(HEAD, head_deregister, (now.link, HEAD_ALL)) \
    CALL(HEAD, head_gate, (now.link, messages[1] + 6, 4, 15, HEAD_ALL)) \
    CALL(HEAD, head_hear, (now.link, FRAME, HEAD_ALL)) \
    CALL(HEAD, head_tick, (HEAD_ALL)) \
    CALL(HEAD, head_advance, (CRUSTNEWT_MOST_TICKS, HEAD_ALL, &made, 1)) \
    CALL(HEAD, head_ticks_until, (TABLE)) \
    CALL(BOX, read, (FRAME, MESSAGE)) \
    CALL(BOX, write, (MESSAGE, FRAME))

#define FUNCTION(whose, name, with) \
    static void make_##name(void) { answer = crustnewt_##name with; }
CALLS(FUNCTION)

#define ROW(whose, name, with) {"crustnewt_" #name, make_##name, CRUSTNEWT_##whose##_STACK_OCTETS, 0, 0},
static struct {
    const char *name;
    void (*make)(void);
    size_t allowed, taken;
    int done;
} calls[] = {CALLS(ROW)};

#define PAINT 0xA5
static uint8_t stack[1 << 14];
static ucontext_t here, there;

static void nothing(void) {}

/* Octets of the stack that are written to when a call is made on it. */
static size_t written_by(void (*make)(void))
{
    size_t spared = 0;

    memset(stack, PAINT, sizeof stack);
    getcontext(&there);
    there.uc_stack.ss_sp = stack;
    there.uc_stack.ss_size = sizeof stack;
    there.uc_link = &here;
    makecontext(&there, make, 0);
    swapcontext(&here, &there);
    while (stack[spared] == PAINT)
        spared++;
    return sizeof stack - spared;
}

/* Makes every call in the state that is set. */
static void make_all(void)
{
    size_t without = written_by(nothing);

    before = now;
    for (size_t i = 0; i < NUMBER_OF(calls); i++) {
        size_t taken;

        now = before;
        taken = written_by(calls[i].make) - without;
        if (calls[i].taken < taken)
            calls[i].taken = taken;
        calls[i].done |= answer == CRUSTNEWT_DONE;
    }
    now = before;
}

static void set_head(size_t links, const uint64_t *first, uint64_t window)
{
    const uint64_t head[CRUSTNEWT_HEAD_WORDS] = {HEAD, COUNT, window, window != CRUSTNEWT_HEAD_WINDOW_IDLE, 0};

    memcpy(now.head, head, sizeof head);
    now.links = links;
    for (size_t place = 0; place < links; place++) {
        uint64_t *link = now.table + place * CRUSTNEWT_LINK_WORDS;

        memcpy(link, first, CRUSTNEWT_LINK_WORDS * sizeof *link);
        if (first[CRUSTNEWT_LINK_STATE] != CRUSTNEWT_LINK_STATE_IDLE)
            link[CRUSTNEWT_LINK_ADDRESS] += place;
    }
}

/* A table of 8 links and one of 64, with a window and without, asked about link 1 and about none. */
static void make_at_heads(void)
{
    for (size_t i = 0; i < NUMBER_OF(tables); i++)
        for (size_t links = 8; links <= CRUSTNEWT_MOST_LINKS; links *= 8)
            for (now.link = 0; now.link < 2; now.link++) {
                set_head(links, tables[i], CRUSTNEWT_HEAD_WINDOW_IDLE);
                make_all();
                set_head(links, tables[i], CRUSTNEWT_HEAD_WINDOW_INSIDE);
                make_all();
            }
}

int main(void)
{
    int status = 0;

    for (size_t i = 0; i < NUMBER_OF(messages); i++) {
        memcpy(now.message, messages[i], sizeof now.message);
        if (crustnewt_write(MESSAGE, FRAME) != CRUSTNEWT_DONE)
            return 1;
        for (size_t j = 0; j < NUMBER_OF(boxes); j++) {
            memcpy(now.box, boxes[j], sizeof now.box);
            make_all();
        }
        make_at_heads();
    }
    for (size_t i = 0; i < NUMBER_OF(calls); i++) {
        int holds = calls[i].done && calls[i].taken <= calls[i].allowed;

        printf("%-27s %5zu%s\n", calls[i].name, calls[i].taken, holds ? "" : calls[i].done ? ", more than the header says" : ", never done");
        status |= !holds;
    }
    return status;
}
