/* crustnewt: registration in an Ethernet passive optical network, the head (OLT) and the floor box (ONU), and their control frames.
 *
 * Proved code behind a plain C face. This header says how to call it and, under DUTIES, what is left to you; docs/RULES.md of the project
 * says what each call does. A worked example stands at the end.
 *
 * MEMORY. The library allocates nothing, keeps nothing between calls and calls nothing but memcpy and memset. All memory is the caller's,
 * borrowed while a call runs. A box is a block of CRUSTNEWT_BOX_WORDS words; a head is a block of CRUSTNEWT_HEAD_WORDS words and its table,
 * CRUSTNEWT_LINK_WORDS words for each of 1 to 64 links. Copy the words and you have copied the box or the head. Calls on different blocks
 * may run at the same time, in threads or in interrupts; two calls on one block may not. No pointer may be null, not even with a length of
 * 0, and no two arguments of a call may overlap, unless both are only read (const). Words are aligned as uint64_t. A call takes at most
 * CRUSTNEWT_BOX_STACK_OCTETS or CRUSTNEWT_HEAD_STACK_OCTETS of stack. For x86-64 only, for now: System V calls, SSE2, red zone.
 *
 * LENGTHS. Every pointer is followed by the number of its elements: octets of a uint8_t *, words of a uint64_t *. Each is judged: too short
 * is CRUSTNEWT_SHORT, but for the head's output (CRUSTNEWT_OUTPUT) and a table of not 1 to 64 links (CRUSTNEWT_UNSOUND); longer is fine.
 * What a call has no use for stays: words behind a block, a table's last whole link or a reply's last notice, and octets that no frame
 * takes.
 *
 * NUMBERS. A call answers a number of the service card. Any but CRUSTNEWT_DONE is a refusal: block, table, frames and output stay as they
 * were, and the reply tells 0 frames, 0 notices, a drift of 0, and `made` 0 ticks. There are three exceptions. CRUSTNEWT_SHORT tells nothing
 * either: all that was lent stays. A crustnewt_box_fresh or crustnewt_head_fresh that answers CRUSTNEWT_RANGE leaves a block of zeros, which
 * isn't sound; the table stays. A refused crustnewt_read leaves an empty REPORT with every field 0, a refused crustnewt_write sixty zeros.
 * Beside each call stand the numbers that it can answer, but for those of lengths and of soundness.
 *
 * STATES. Read the words of a block and a table as you like; write none but to hand in a state that was stored, by this library or an
 * earlier one. An address has 48 bits, the first octet on the wire highest; a count is the 32-bit counter, in quanta; a timer is the ticks
 * left, 0 when it is stopped; a grant is its start in the upper 32 bits and its length below. Each state has one block of words: what the
 * state or the phase at hand doesn't hold is 0, and so is what stands behind the last grant of a box's list. Words that are no state's (one
 * of these isn't 0, a state or a phase is unknown, a port has more than 16 bits, a count, a time or a length more than 32) are answered
 * CRUSTNEWT_UNSOUND, and so are those of a state that isn't sound: also a box's that a version before 0.5.0 left with its transmitter
 * not at rest, if a grant has no room there for the laser to go dark. Stored as octets, words are in the machine's order, and only for
 * machines of that order.
 *
 * TIME. A quantum is 16 bit times, 16 ns at 1 Gbit/s. No core makes a call in each of them: a tick with nothing to do takes some 14 ns at a
 * box and 330 at a head with 64 links, other calls take more. None has to. Head and box have no clock: tell them how many quanta have
 * passed, whenever you come to it, by crustnewt_head_advance and crustnewt_box_advance. An advance is so many single ticks in one call, but
 * stops after the first that hands out a frame or a notice: see to it, and go on with the rest. Where nothing happens, a timer of 1 ms
 * (62,500 quanta) costs a call each. Other calls are made at the count that the block stands at: advance to the moment when a frame came or
 * a client asked, then make the call. To wake up in time, ask crustnewt_head_ticks_until and crustnewt_box_ticks_until: during so many ticks
 * nothing is handed out, nothing is refused and a box's laser stays as it is; what comes next comes with the tick after them or later. A
 * head's frame sets the counts of its boxes to that of its own tick, so a head wakes up for its frames. A box's may wait; its sender may put
 * the count of that moment into octets 16 to 19.
 *
 * DUTIES. What no call does for you:
 *   - Register again. After deregistered and refused a box is in WAIT until crustnewt_box_register; after retry it is REGISTERING by itself.
 *   - Empty the queue. What a box hands out waits until crustnewt_box_next_to_send lets it go. At each of these three notices throw away all
 *     control frames that wait, with those of that very call: the box is dark, and its next window has room for a new REGISTER_REQ alone. An
 *     old one that was sent there instead gave the head a round trip of 3,750,549 for 123.
 *   - Send in time. That window is as long as that frame: ask crustnewt_box_next_to_send in the quantum in which it is handed out. What has
 *     waited for 3,125,000 quanta is of no use to the head: throw it away. A box without grants hands out a REPORT as often all the same.
 *   - Tell of queues. What a box hands out by itself has no queue sets, and a grant's force bit sends nothing: you find it in the notice of
 *     the grant, and answer it by crustnewt_box_report.
 *   - Name the link on which the head hears a frame: crustnewt_head_hear says which that is.
 *   - Tell head and box of every quantum. That no half-open pair lasts rests on timers that run at one rate.
 */
#ifndef CRUSTNEWT_H
#define CRUSTNEWT_H

#include <stddef.h>
#include <stdint.h>

#ifdef __cplusplus
extern "C" {
#endif

/* The version of the library, as `crustnewt --version` and pkg-config tell it. */
#define CRUSTNEWT_VERSION "0.6.2"
#define CRUSTNEWT_VERSION_MAJOR 0
#define CRUSTNEWT_VERSION_MINOR 6
#define CRUSTNEWT_VERSION_PATCH 2

/* How many elements to lend. */
#define CRUSTNEWT_FRAME_OCTETS 60
#define CRUSTNEWT_MESSAGE_WORDS 10
#define CRUSTNEWT_BOX_WORDS 29
#define CRUSTNEWT_BOX_FRAMES_OCTETS 120 /* two frames */
#define CRUSTNEWT_BOX_REPLY_WORDS 19
#define CRUSTNEWT_BOX_NOTICE_WORDS 4 /* for each notice of the reply */
#define CRUSTNEWT_HEAD_WORDS 5
#define CRUSTNEWT_LINK_WORDS 5     /* for each link of the table */
#define CRUSTNEWT_MOST_LINKS 64
#define CRUSTNEWT_HEAD_REPLY_WORDS 10
#define CRUSTNEWT_MADE_WORDS 1 /* for the number of ticks that an advance made */

#define CRUSTNEWT_MOST_TICKS 65536       /* of one advance */
#define CRUSTNEWT_MOST_SETS_OCTETS 39    /* of a REPORT's queue sets */
#define CRUSTNEWT_BOX_STACK_OCTETS 6656  /* that a call takes, with its arguments: measured (examples/stack.c) and rounded up */
#define CRUSTNEWT_HEAD_STACK_OCTETS 5120

/* The service card. A call answers the first test that isn't passed: reading 1, 2, 3, 4 and writing 4 alone; box and head 13 and 12, then
 * 5, 6, 7, 8, 4, 9, 10, 11, and 14 at the end, each where it applies. To hear a frame is to read it first. */
enum crustnewt_number {
    CRUSTNEWT_DONE = 0,       /* done */
    CRUSTNEWT_SIZE = 1,       /* the frame isn't 60 octets */
    CRUSTNEWT_KIND = 2,       /* the type isn't 0x8808 */
    CRUSTNEWT_OPCODE = 3,     /* the opcode isn't 2 to 6 */
    CRUSTNEWT_RANGE = 4,      /* a field or an address is outside its range */
    CRUSTNEWT_DIRECTION = 5,  /* the message goes the other way */
    CRUSTNEWT_LINK = 6,       /* the call can't be about this link: not here, not in the table, or idle */
    CRUSTNEWT_STATE = 7,      /* not in this state */
    CRUSTNEWT_PARTY = 8,      /* not this party's address */
    CRUSTNEWT_GRANT = 9,      /* a window or a GATE that can't be asked for, or not 1 to 65,536 ticks */
    CRUSTNEWT_HELD = 10,      /* the address already holds a link */
    CRUSTNEWT_FULL = 11,      /* every link is held */
    CRUSTNEWT_OUTPUT = 12,    /* output shorter than 60 octets a link */
    CRUSTNEWT_UNSOUND = 13,   /* unsound state or table, or not 1 to 64 links */
    CRUSTNEWT_WINDOW = 14,    /* a discovery window opens on a box that isn't REGISTERING */
    CRUSTNEWT_SHORT = 100     /* not of the card: too little memory was lent */
};

/* The words of a box's block. */
enum crustnewt_box_word {
    CRUSTNEWT_BOX_ADDRESS = 0,
    CRUSTNEWT_BOX_COUNT = 1,
    CRUSTNEWT_BOX_STATE = 2,       /* enum crustnewt_box_state */
    CRUSTNEWT_BOX_WAIT = 3,        /* timer: wait for REGISTER */
    CRUSTNEWT_BOX_WATCHDOG = 4,    /* timer: omp_timer */
    CRUSTNEWT_BOX_REPORT = 5,      /* timer: periodic REPORT */
    CRUSTNEWT_BOX_PORT = 6,        /* the port that a REGISTER gave, 16 bits */
    CRUSTNEWT_BOX_SYNC = 7,        /* the sync time that a REGISTER gave, 16 bits */
    CRUSTNEWT_BOX_LIGHT = 8,       /* the transmitter: enum crustnewt_box_light */
    CRUSTNEWT_BOX_LIGHT_LEFT = 9,  /* its timer */
    CRUSTNEWT_BOX_LIGHT_GRANT = 10, /* BEFORE: the random wait to come; DUE: the grant; LIT: its length */
    CRUSTNEWT_BOX_LIGHT_SYNC = 11, /* BEFORE, RANDOM, DUE, LIT: the sync held */
    CRUSTNEWT_BOX_GRANTS = 12,     /* how many grants the list holds, 0 to 16 */
    CRUSTNEWT_BOX_LIST = 13        /* the first of sixteen places for grants, in order of arrival */
};

enum crustnewt_box_state {
    CRUSTNEWT_BOX_STATE_WAIT = 0,
    CRUSTNEWT_BOX_STATE_REGISTERING = 1,
    CRUSTNEWT_BOX_STATE_REGISTER_REQ = 2,
    CRUSTNEWT_BOX_STATE_REGISTERED = 3
};

enum crustnewt_box_light {
    CRUSTNEWT_BOX_LIGHT_REST = 0,
    CRUSTNEWT_BOX_LIGHT_BEFORE = 1,  /* waits for a discovery grant's start */
    CRUSTNEWT_BOX_LIGHT_RANDOM = 2,  /* in the random wait */
    CRUSTNEWT_BOX_LIGHT_WARMING = 3, /* discovery: laser on */
    CRUSTNEWT_BOX_LIGHT_ASKING = 4,  /* discovery: laser on, transmission enabled */
    CRUSTNEWT_BOX_LIGHT_DUE = 5,     /* waits for a normal grant's start */
    CRUSTNEWT_BOX_LIGHT_LIT = 6,     /* a normal grant: laser on */
    CRUSTNEWT_BOX_LIGHT_OPEN = 7,    /* a normal grant: laser on, transmission enabled */
    CRUSTNEWT_BOX_LIGHT_FADING = 8   /* behind either window: laser ordered off, going dark for 32 quanta */
};

/* The words that a call of the box tells. */
enum crustnewt_box_reply_word {
    CRUSTNEWT_BOX_REPLY_DRIFT = 0,   /* cast it to int64_t: how far the timestamp is from the box's count, 0 but for a message heard */
    CRUSTNEWT_BOX_REPLY_FRAMES = 1,  /* how many frames to send, 0 to 2: the first stands at octet 0 of `frames`, the second at 60 */
    CRUSTNEWT_BOX_REPLY_NOTICES = 2, /* how many notices, 0 to 4 */
    CRUSTNEWT_BOX_REPLY_NOTICE = 3   /* the first notice, and the others behind it in order, CRUSTNEWT_BOX_NOTICE_WORDS each: its kind
                                      * (enum crustnewt_box_notice), then of a grant its start, length and force bit, of others 0 */
};

enum crustnewt_box_notice {
    CRUSTNEWT_BOX_NOTICE_WINDOW = 1,       /* discovery: transmission is enabled for the REGISTER_REQ handed out */
    CRUSTNEWT_BOX_NOTICE_REGISTERED = 2,
    CRUSTNEWT_BOX_NOTICE_REFUSED = 3,      /* by the head; the box is in WAIT */
    CRUSTNEWT_BOX_NOTICE_RETRY = 4,        /* no REGISTER came; the box is REGISTERING */
    CRUSTNEWT_BOX_NOTICE_DEREGISTERED = 5, /* by head, client or watchdog; the box is in WAIT */
    CRUSTNEWT_BOX_NOTICE_GRANT = 6,        /* taken into the list */
    CRUSTNEWT_BOX_NOTICE_OPEN = 7,         /* a normal grant: transmission is enabled */
    CRUSTNEWT_BOX_NOTICE_CLOSE = 8         /* and over, 32 quanta before the grant's end */
};

/* The calls of the box. */

/* A box that has not begun: count 0, WAIT, dark, no grants. Whatever the block held is gone. CRUSTNEWT_RANGE for an address that no box has:
 * zero, a group's or above 48 bits. */
uint8_t crustnewt_box_fresh(uint64_t address, uint64_t *block, size_t block_words, uint8_t *frames, size_t frames_octets, uint64_t *reply,
                            size_t reply_words);

/* The client asks to register: CRUSTNEWT_STATE unless the box is in WAIT. */
uint8_t crustnewt_box_register(uint64_t *block, size_t block_words, uint8_t *frames, size_t frames_octets, uint64_t *reply,
                               size_t reply_words);

/* The client asks to deregister: CRUSTNEWT_STATE unless the box is REGISTERED. */
uint8_t crustnewt_box_deregister(uint64_t *block, size_t block_words, uint8_t *frames, size_t frames_octets, uint64_t *reply,
                                 size_t reply_words);

/* The client asks for a REPORT of `number` queue sets, or of none; the timer for the next one begins anew. `sets` has their octets: for each
 * set its bitmap, bit 0 for queue 0, then the length of every queue whose bit is set, the lowest queue first, in two octets, most significant
 * first. What a length counts is between you and the head's client; Clause 64 counts quanta. CRUSTNEWT_STATE unless the box is REGISTERED;
 * CRUSTNEWT_RANGE unless the octets are exactly so many sets, and at most CRUSTNEWT_MOST_SETS_OCTETS. */
uint8_t crustnewt_box_report(uint8_t number, const uint8_t *sets, size_t sets_octets, uint64_t *block, size_t block_words, uint8_t *frames,
                             size_t frames_octets, uint64_t *reply, size_t reply_words);

/* A frame came: its octets from the destination address on, without check sequence. `random` is any random number; it sets the
 * random wait of a discovery GATE. First the numbers of crustnewt_read; CRUSTNEWT_DIRECTION, CRUSTNEWT_PARTY. */
uint8_t crustnewt_box_hear(const uint8_t *octets, size_t octets_length, uint32_t random, uint64_t *block, size_t block_words,
                           uint8_t *frames, size_t frames_octets, uint64_t *reply, size_t reply_words);

/* One quantum has passed. CRUSTNEWT_WINDOW, but never of a box that began with crustnewt_box_fresh. */
uint8_t crustnewt_box_tick(uint64_t *block, size_t block_words, uint8_t *frames, size_t frames_octets, uint64_t *reply, size_t reply_words);

/* So many quanta have passed, 1 to CRUSTNEWT_MOST_TICKS: that many single ticks, but none behind one that hands out a frame or a
 * notice, and none that would be refused. Frames and reply are those of the last tick made, and `made` says how many were made, at least
 * one. CRUSTNEWT_GRANT for another number of ticks; CRUSTNEWT_WINDOW only if the very first would be refused. */
uint8_t crustnewt_box_advance(uint64_t ticks, uint64_t *block, size_t block_words, uint8_t *frames, size_t frames_octets, uint64_t *reply,
                              size_t reply_words, uint64_t *made, size_t made_words);

/* How many ticks from now are sure to be done and to hand out nothing, 0 to CRUSTNEWT_MOST_TICKS: those before the next end of a timer,
 * which may pass in silence too, and none where the next tick chooses a grant. No number of the card: what isn't sound or is short has 0. */
uint64_t crustnewt_box_ticks_until(const uint64_t *block, size_t block_words);

/* Which of two waiting frames goes next: 0 neither, 1 the control frame, 2 the data frame. A length of 0 says that none waits; of the octets
 * only the lengths are looked at. Soundness isn't judged: nothing but CRUSTNEWT_SHORT is refused, and words that are no state's have 0. */
uint8_t crustnewt_box_next_to_send(const uint64_t *block, size_t block_words, const uint8_t *control, size_t control_octets,
                                   const uint8_t *data, size_t data_octets);

/* The words of a head's block, and of each link of its table: link 1 first, each behind the one before. */
enum crustnewt_head_word {
    CRUSTNEWT_HEAD_ADDRESS = 0,
    CRUSTNEWT_HEAD_COUNT = 1,
    CRUSTNEWT_HEAD_WINDOW = 2,        /* the discovery window: enum crustnewt_head_window */
    CRUSTNEWT_HEAD_WINDOW_LEFT = 3,   /* BEFORE, INSIDE: its timer */
    CRUSTNEWT_HEAD_WINDOW_LENGTH = 4  /* BEFORE: how long it will be open */
};

enum crustnewt_head_window {
    CRUSTNEWT_HEAD_WINDOW_IDLE = 0,
    CRUSTNEWT_HEAD_WINDOW_BEFORE = 1,
    CRUSTNEWT_HEAD_WINDOW_INSIDE = 2
};

enum crustnewt_link_word {
    CRUSTNEWT_LINK_ADDRESS = 0,  /* of the box that holds it; 0 when it is idle */
    CRUSTNEWT_LINK_STATE = 1,    /* enum crustnewt_link_state */
    CRUSTNEWT_LINK_WAIT = 2,     /* timer: wait for REGISTER_ACK */
    CRUSTNEWT_LINK_WATCHDOG = 3, /* timer: omp_timer */
    CRUSTNEWT_LINK_PERIODIC = 4  /* timer: periodic GATE */
};

enum crustnewt_link_state {
    CRUSTNEWT_LINK_STATE_IDLE = 0,
    CRUSTNEWT_LINK_STATE_WAITING = 1,
    CRUSTNEWT_LINK_STATE_REGISTERED = 2
};

/* The words that a call of the head tells. */
enum crustnewt_head_reply_word {
    CRUSTNEWT_HEAD_REPLY_FRAMES = 0,  /* how many frames stand in `output`, from octet 0 on, 60 octets each */
    CRUSTNEWT_HEAD_REPLY_NOTICES = 1, /* how many notices, 0 or 1 */
    CRUSTNEWT_HEAD_REPLY_NOTICE = 2,  /* the notice: enum crustnewt_head_notice */
    CRUSTNEWT_HEAD_REPLY_LINK = 3,    /* its link, 0 of a request */
    CRUSTNEWT_HEAD_REPLY_TRIP = 4,    /* its round trip, in quanta: from the frame's timestamp on, so with what it waited at the box */
    CRUSTNEWT_HEAD_REPLY_SETS = 5     /* of a REPORT its body, five words as in its message; of other notices five times 0 */
};

enum crustnewt_head_notice {
    CRUSTNEWT_HEAD_NOTICE_REQUEST = 1,    /* a box asks to register: source and pending of the frame are for admit or reject */
    CRUSTNEWT_HEAD_NOTICE_REGISTERED = 2,
    CRUSTNEWT_HEAD_NOTICE_DROPPED = 3,    /* the box said that it leaves, or won't join */
    CRUSTNEWT_HEAD_NOTICE_REPORT = 4      /* with its queue sets, which the head doesn't keep */
};

/* The calls of the head. `links` is the table, of links_words / CRUSTNEWT_LINK_WORDS links, numbered from 1; `output` needs
 * CRUSTNEWT_FRAME_OCTETS for each, else CRUSTNEWT_OUTPUT. CRUSTNEWT_LINK for a link that is 0, above the table or idle. CRUSTNEWT_RANGE for
 * an address that is zero, a group's or above 48 bits, and for a length or a sync time above 65,535. */

/* A head that has not begun: count 0, window idle, every link idle. Whatever block and table held is gone. CRUSTNEWT_UNSOUND where not
 * 1 to 64 links are lent, then CRUSTNEWT_RANGE. */
uint8_t crustnewt_head_fresh(uint64_t address, uint64_t *head, size_t head_words, uint64_t *links, size_t links_words, uint64_t *reply,
                             size_t reply_words);

/* The client opens a discovery window: where the grant starts, its length, the sync time, how long the window is open. CRUSTNEWT_STATE
 * while there is one; CRUSTNEWT_RANGE; CRUSTNEWT_GRANT for a start that is past or more than 62,500,000 ahead, a length below
 * 32 + sync + 42 + 32, a window of not 1 to 131,072. */
uint8_t crustnewt_head_open(uint32_t start, uint32_t length, uint32_t sync, uint32_t window, uint64_t *head, size_t head_words,
                            uint64_t *links, size_t links_words, uint8_t *output, size_t output_octets, uint64_t *reply, size_t reply_words);

/* The client admits a box that asked: it takes the lowest idle link. CRUSTNEWT_RANGE, CRUSTNEWT_HELD, CRUSTNEWT_FULL. */
uint8_t crustnewt_head_admit(uint64_t address, uint8_t pending, uint32_t sync, uint64_t *head, size_t head_words, uint64_t *links,
                             size_t links_words, uint8_t *output, size_t output_octets, uint64_t *reply, size_t reply_words);

/* The client rejects a box that asked. CRUSTNEWT_RANGE. */
uint8_t crustnewt_head_reject(uint64_t address, uint8_t pending, uint32_t sync, uint64_t *head, size_t head_words, uint64_t *links,
                              size_t links_words, uint8_t *output, size_t output_octets, uint64_t *reply, size_t reply_words);

/* The client has a registered box register anew. CRUSTNEWT_LINK; CRUSTNEWT_STATE where the link only waits; CRUSTNEWT_RANGE. */
uint8_t crustnewt_head_reregister(size_t link, uint32_t sync, uint64_t *head, size_t head_words, uint64_t *links, size_t links_words,
                                  uint8_t *output, size_t output_octets, uint64_t *reply, size_t reply_words);

/* The client drops a registered box. CRUSTNEWT_LINK; CRUSTNEWT_STATE where the link only waits. */
uint8_t crustnewt_head_deregister(size_t link, uint64_t *head, size_t head_words, uint64_t *links, size_t links_words, uint8_t *output,
                                  size_t output_octets, uint64_t *reply, size_t reply_words);

/* The client sends a GATE of 0 to 4 grants. Bit 0 of `force` is the first grant's force bit. CRUSTNEWT_LINK; CRUSTNEWT_RANGE, also for a
 * force bit without its grant; CRUSTNEWT_GRANT for more grants. */
uint8_t crustnewt_head_gate(size_t link, const uint64_t *grants, size_t grants_words, uint8_t force, uint64_t *head, size_t head_words,
                            uint64_t *links, size_t links_words, uint8_t *output, size_t output_octets, uint64_t *reply, size_t reply_words);

/* A frame came: its octets and its numbers as for a box, and the link that it came on. That is 0 for a REGISTER_REQ that asks to register,
 * since newcomers share the broadcast LLID, and else the link of the box that sent it: the LLID that it came under, which is the port of
 * the box's REGISTER; or, without LLIDs, the place of its source among the table's addresses (examples/pair.c). CRUSTNEWT_LINK;
 * CRUSTNEWT_STATE for a REGISTER_REQ that asks outside the window. */
uint8_t crustnewt_head_hear(size_t link, const uint8_t *octets, size_t octets_length, uint64_t *head, size_t head_words, uint64_t *links,
                            size_t links_words, uint8_t *output, size_t output_octets, uint64_t *reply, size_t reply_words);

/* One quantum has passed. It gives no notices: a link whose wait or watchdog has run out is idle, and its REGISTER among the frames. */
uint8_t crustnewt_head_tick(uint64_t *head, size_t head_words, uint64_t *links, size_t links_words, uint8_t *output, size_t output_octets,
                            uint64_t *reply, size_t reply_words);

/* So many quanta have passed, as for a box: that many single ticks, but none behind one that hands out a frame. A window that opens or
 * closes hands out nothing. */
uint8_t crustnewt_head_advance(uint64_t ticks, uint64_t *head, size_t head_words, uint64_t *links, size_t links_words, uint8_t *output,
                               size_t output_octets, uint64_t *reply, size_t reply_words, uint64_t *made, size_t made_words);

/* How many ticks from now hand out nothing, 0 to CRUSTNEWT_MOST_TICKS; where they are fewer than that, the tick after them hands out a
 * frame. No number of the card, as for a box. */
uint64_t crustnewt_head_ticks_until(const uint64_t *head, size_t head_words, const uint64_t *links, size_t links_words);

/* Frames by themselves: the words of a message. What it doesn't hold is 0. From CRUSTNEWT_MESSAGE_BODY on:
 *   GATE          how many grants (0 to 4), force bits (bit 0 the first grant's), then the grants
 *   DISCOVERY     sync time, force bit, its grant
 *   REPORT        the forty octets of its body, eight to a word, the first highest: how many queue sets, the sets as crustnewt_box_report
 *                 takes them, and zeros; CRUSTNEWT_RANGE to write another octet behind them, or sets that run past
 *   REGISTER_REQ  flag (1 register, 3 deregister), pending
 *   REGISTER      flag (1 reregister, 2 deregister, 3 ack, 4 nack), port, sync time, pending
 *   REGISTER_ACK  flag (0 nack, 1 ack), port, sync time */
enum crustnewt_message_word {
    CRUSTNEWT_MESSAGE_DESTINATION = 0, /* any 48 bits */
    CRUSTNEWT_MESSAGE_SOURCE = 1,      /* 48 bits, not zero and no group's */
    CRUSTNEWT_MESSAGE_TIMESTAMP = 2,
    CRUSTNEWT_MESSAGE_KIND = 3,
    CRUSTNEWT_MESSAGE_BODY = 4
};

enum crustnewt_message_kind {
    CRUSTNEWT_MESSAGE_GATE = 0,
    CRUSTNEWT_MESSAGE_DISCOVERY = 1,
    CRUSTNEWT_MESSAGE_REPORT = 2,
    CRUSTNEWT_MESSAGE_REGISTER_REQ = 3,
    CRUSTNEWT_MESSAGE_REGISTER = 4,
    CRUSTNEWT_MESSAGE_REGISTER_ACK = 5
};

/* A frame's octets read into the words of a message; CRUSTNEWT_SIZE, _KIND, _OPCODE or _RANGE where they are none. _RANGE is for a source
 * of zero or a group's too. The words that a refusal leaves have no frame: to write them is CRUSTNEWT_RANGE. */
uint8_t crustnewt_read(const uint8_t *octets, size_t octets_length, uint64_t *message, size_t message_words);

/* The words of a message written into the first CRUSTNEWT_FRAME_OCTETS octets; CRUSTNEWT_RANGE where one is no field's or out of range, as
 * a source is that is zero, a group's or above 48 bits. */
uint8_t crustnewt_write(const uint64_t *message, size_t message_words, uint8_t *octets, size_t octets_length);

/* A worked example, whole: a box that registers, comes back, and lives on a timer of 1 ms. examples/coarse.c has it on a board;
 * examples/pair.c has both ends, quantum by quantum.
 *
 *   // The board's: it sleeps so many quanta, or less if a frame comes, one has gone or its millisecond is over, and says how many have
 *   // passed. It takes the frame that came and knows the first that waits to be sent, of 0 octets where there is none or one is going, and
 *   // how many quanta of data wait behind.
 *   uint64_t sleep_for(uint64_t quanta);
 *   size_t take_frame(uint8_t *octets);
 *   void queue_frame(const uint8_t *octets);
 *   void empty_queue(void);
 *   const uint8_t *first_in_queue(size_t *octets);
 *   void send_first(void);
 *   uint16_t data_waiting(void);
 *   void laser(int on);
 *   uint32_t random_number(void);
 *
 *   static uint64_t box[CRUSTNEWT_BOX_WORDS], reply[CRUSTNEWT_BOX_REPLY_WORDS];
 *   static uint8_t frames[CRUSTNEWT_BOX_FRAMES_OCTETS];
 *   #define LENT box, CRUSTNEWT_BOX_WORDS, frames, sizeof frames, reply, CRUSTNEWT_BOX_REPLY_WORDS
 *
 *   static void told(void)
 *   {
 *       uint64_t light = box[CRUSTNEWT_BOX_LIGHT];
 *
 *       for (uint64_t i = 0; i < reply[CRUSTNEWT_BOX_REPLY_FRAMES]; i++)
 *           queue_frame(frames + i * CRUSTNEWT_FRAME_OCTETS);
 *       laser(light == CRUSTNEWT_BOX_LIGHT_WARMING || light == CRUSTNEWT_BOX_LIGHT_ASKING || light == CRUSTNEWT_BOX_LIGHT_LIT ||
 *             light == CRUSTNEWT_BOX_LIGHT_OPEN);
 *   }
 *
 *   // All the quanta that have passed are made, and what is handed out on the way is looked at when it is.
 *   static uint8_t pass(uint64_t quanta)
 *   {
 *       uint8_t number = CRUSTNEWT_DONE;
 *
 *       for (uint64_t made = 0; quanta > 0 && number == CRUSTNEWT_DONE; quanta -= made) {
 *           number = crustnewt_box_advance(quanta < CRUSTNEWT_MOST_TICKS ? quanta : CRUSTNEWT_MOST_TICKS, LENT, &made, 1);
 *           told();
 *       }
 *       return number;
 *   }
 *
 *   // While the transmitter is at rest the millisecond will do: what is handed out waits for a window anyway.
 *   static uint64_t leisure(void)
 *   {
 *       if (box[CRUSTNEWT_BOX_LIGHT] == CRUSTNEWT_BOX_LIGHT_REST)
 *           return CRUSTNEWT_MOST_TICKS;
 *       return crustnewt_box_ticks_until(box, CRUSTNEWT_BOX_WORDS) + 1;
 *   }
 *
 *   // At first, and whenever the box has left: in WAIT the call is always done. To a newcomer nothing that waits is of use.
 *   static void join(void)
 *   {
 *       if (box[CRUSTNEWT_BOX_STATE] == CRUSTNEWT_BOX_STATE_WAIT)
 *           crustnewt_box_register(LENT);
 *       if (box[CRUSTNEWT_BOX_STATE] == CRUSTNEWT_BOX_STATE_REGISTERING)
 *           empty_queue();
 *   }
 *
 *   // Whether one of the grants that were told of has its force bit set.
 *   static int is_forced(void)
 *   {
 *       int forced = 0;
 *
 *       for (uint64_t i = 0; i < reply[CRUSTNEWT_BOX_REPLY_NOTICES]; i++) {
 *           const uint64_t *notice = reply + CRUSTNEWT_BOX_REPLY_NOTICE + i * CRUSTNEWT_BOX_NOTICE_WORDS;
 *
 *           forced |= notice[0] == CRUSTNEWT_BOX_NOTICE_GRANT && notice[3] == 1;
 *       }
 *       return forced;
 *   }
 *
 *   // The head wants to know how much waits: one queue set, of queue 0 alone.
 *   static void report(void)
 *   {
 *       uint16_t length = data_waiting();
 *       const uint8_t set[] = {1, length >> 8, length & 0xFF};
 *
 *       if (crustnewt_box_report(1, set, sizeof set, LENT) == CRUSTNEWT_DONE)
 *           told();
 *   }
 *
 *   static void hear(const uint8_t *octets, size_t heard)
 *   {
 *       if (crustnewt_box_hear(octets, heard, random_number(), LENT) != CRUSTNEWT_DONE)
 *           return;
 *       told();
 *       if (is_forced())
 *           report();
 *   }
 *
 *   uint8_t run(uint64_t address)
 *   {
 *       uint8_t octets[2048], number = crustnewt_box_fresh(address, LENT);
 *
 *       while (number == CRUSTNEWT_DONE) {
 *           const uint8_t *control;
 *           size_t heard, waiting;
 *
 *           join();
 *           number = pass(sleep_for(leisure()));
 *           heard = take_frame(octets);
 *           if (heard > 0)
 *               hear(octets, heard);
 *           control = first_in_queue(&waiting);
 *           if (crustnewt_box_next_to_send(box, CRUSTNEWT_BOX_WORDS, control, waiting, control, 0) == 1)
 *               send_first();
 *       }
 *       return number;
 *   }
 */

#ifdef __cplusplus
}
#endif

#endif
