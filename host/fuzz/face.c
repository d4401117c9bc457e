/* A libFuzzer target: an input is a run of calls on a box and a head, with lengths, words and octets taken from it, and each call is held
 * against what crustnewt.h promises of every call.
 *
 * The library isn't instrumented, so the fuzzer can't see which of its branches were taken. Counters tell it instead which call gave which
 * number in which state with which frames and notices: an input that brings about a new one is kept and built upon. */
#include <stdio.h>
#include <stdlib.h>
#include <string.h>

#include "crustnewt.h"

#define LINKS 66
#define GUARD 16
#define COUNTERS 16384
#define BOX_ADVANCE 5
#define BOX_REPORT 7
#define HEAD_ADVANCE 19
#define BODY_OCTETS (1 + CRUSTNEWT_MOST_SETS_OCTETS)
#define BODY_AT (CRUSTNEWT_FRAME_OCTETS - BODY_OCTETS)
#define LONGEST_SET 17

/* Everything that is lent, with guards between. */
struct memory {
    uint64_t box[CRUSTNEWT_BOX_WORDS + GUARD];
    uint64_t head[CRUSTNEWT_HEAD_WORDS + GUARD];
    uint64_t links[CRUSTNEWT_LINK_WORDS * LINKS + GUARD];
    uint64_t reply[CRUSTNEWT_BOX_REPLY_WORDS + GUARD];
    uint64_t message[CRUSTNEWT_MESSAGE_WORDS + GUARD];
    uint64_t made[CRUSTNEWT_MADE_WORDS + GUARD];
    uint8_t output[CRUSTNEWT_FRAME_OCTETS * LINKS + GUARD];
    uint8_t heard[CRUSTNEWT_FRAME_OCTETS + GUARD];
    uint8_t sets[CRUSTNEWT_MOST_SETS_OCTETS + LONGEST_SET + GUARD];
};

static struct memory now, before;
static size_t links, heard_octets;
static const uint8_t *input;
static size_t input_left;

__attribute__((section("__libfuzzer_extra_counters"))) static uint8_t counters[COUNTERS];

static void require(int holds, const char *promise)
{
    if (!holds) {
        fprintf(stderr, "broken: %s\n", promise);
        abort();
    }
}

static uint8_t take(void)
{
    if (input_left == 0)
        return 0;
    input_left--;
    return *input++;
}

static uint64_t take_number(unsigned octets)
{
    uint64_t number = 0;

    while (octets-- > 0)
        number = number << 8 | take();
    return number;
}

/* A word, often one where a field ends. */
static uint64_t take_word(void)
{
    static const uint64_t edges[] = {0, 1, 2, 3, 7, 8, 9, 16, 17, 32, 33, 42, 106, 65535, 65536, 131072, 3125000, 62500000, 0x7FFFFFFF,
                                     0xFFFFFFFF, (uint64_t)1 << 32, (uint64_t)1 << 48, UINT64_MAX};
    uint8_t choice = take();

    if (choice < sizeof edges / sizeof *edges)
        return edges[choice];
    return take_number(choice % 8 + 1);
}

/* The length needed, or another around it. */
static size_t take_length(size_t needed)
{
    uint8_t choice = take();

    if (choice < 224)
        return needed;
    return choice % 8 + needed < 4 ? 0 : needed + choice % 8 - 4;
}

/* How far to advance, often near an end of the range. */
static uint64_t take_ticks(void)
{
    uint64_t ticks = take_word();

    return ticks + take() % 3 - 1;
}

static uint64_t take_address(void)
{
    switch (take() % 8) {
    case 0:
    case 1:
        return 0x020000000001;
    case 2:
        return 0x0180C2000001;
    case 3:
        return take_word();
    case 4:
        return (uint64_t)1 << take() % 48;
    default:
        return 0x020000000031 + take() % LINKS;
    }
}

/* How many octets so many queue sets take of these; more than there are, where they run past. */
static size_t taken(uint8_t number, const uint8_t *sets, size_t octets)
{
    size_t used = 0;

    for (; number > 0; number--) {
        uint8_t bitmap = used < octets ? sets[used] : 0;

        for (used++; bitmap != 0; bitmap &= bitmap - 1)
            used += 2;
    }
    return used;
}

/* Queue sets to ask for, mostly whole ones and as many as is said: their number, and how many octets are lent. */
static uint8_t take_sets(size_t *lent)
{
    uint8_t most = take() % (BODY_OCTETS + 1), number = 0;
    size_t used = 0;

    for (; number < most && used < CRUSTNEWT_MOST_SETS_OCTETS; number++) {
        uint8_t bitmap = take();

        for (now.sets[used++] = bitmap; bitmap != 0; bitmap &= bitmap - 1) {
            now.sets[used++] = take();
            now.sets[used++] = take();
        }
    }
    *lent = take_length(used);
    return take() < 224 ? number : take();
}

/* Whether a source is in range: not zero, no group's, and of 48 bits. */
static int is_source(uint64_t address)
{
    return address != 0 && (address >> 40 & 1) == 0 && address >> 48 == 0;
}

static uint64_t source_of(const uint8_t *frame)
{
    uint64_t source = 0;

    for (unsigned i = 6; i < 12; i++)
        source = source << 8 | frame[i];
    return source;
}

/* What a call may change: from here on it isn't compared. */
static void allow(void *part, size_t octets)
{
    size_t offset = (size_t)((uint8_t *)part - (uint8_t *)&now);

    memcpy((uint8_t *)&before + offset, part, octets);
}

static void require_kept(const char *promise)
{
    require(memcmp(&now, &before, sizeof now) == 0, promise);
}

static void require_zero(const uint64_t *words, size_t number, const char *promise)
{
    while (number > 0)
        require(words[--number] == 0, promise);
}

static void count(unsigned call, uint64_t number, uint64_t state, uint64_t frames, uint64_t notice)
{
    uint64_t place = call;

    place = place * 16 + number % 16;
    place = place * 36 + state % 36;
    place = place * 3 + (frames > 1 ? 2 : frames);
    place = place * 9 + notice % 9;
    place *= 0x9E3779B97F4A7C15;
    if (++counters[place >> 50] == 0)
        counters[place >> 50] = 255;
}

/* The number is the card's, and 100 exactly where too little was lent. */
static void judge_number(uint8_t number, int is_short)
{
    require(number <= CRUSTNEWT_WINDOW || number == CRUSTNEWT_SHORT, "the number is of the card");
    require((number == CRUSTNEWT_SHORT) == (is_short != 0), "100 is answered exactly where too little is lent");
    if (number == CRUSTNEWT_SHORT)
        require_kept("too little lent is not touched");
}

/* Whether words are too wide, unknown, or not 0 where nothing is held: then they are no state's. */
static int is_nobodys_box(const uint64_t *box)
{
    static const uint8_t holds_left[] = {0, 1, 1, 1, 1, 1, 1, 1, 1}, holds_grant[] = {0, 1, 0, 0, 0, 1, 1, 0, 0},
                         holds_sync[] = {0, 1, 1, 0, 0, 1, 1, 0, 0};
    uint64_t light = box[CRUSTNEWT_BOX_LIGHT], grant = box[CRUSTNEWT_BOX_LIGHT_GRANT];

    for (unsigned i = CRUSTNEWT_BOX_COUNT; i < CRUSTNEWT_BOX_GRANTS; i++)
        if (i != CRUSTNEWT_BOX_LIGHT_GRANT && box[i] > (i == CRUSTNEWT_BOX_PORT ? UINT16_MAX : UINT32_MAX))
            return 1;
    if (box[CRUSTNEWT_BOX_STATE] > CRUSTNEWT_BOX_STATE_REGISTERED || light > CRUSTNEWT_BOX_LIGHT_FADING)
        return 1;
    for (uint64_t i = CRUSTNEWT_BOX_LIST + box[CRUSTNEWT_BOX_GRANTS] % 17; i < CRUSTNEWT_BOX_WORDS; i++)
        if (box[i] != 0 && box[CRUSTNEWT_BOX_GRANTS] < 17)
            return 1;
    return (!holds_left[light] && box[CRUSTNEWT_BOX_LIGHT_LEFT] != 0) || (!holds_sync[light] && box[CRUSTNEWT_BOX_LIGHT_SYNC] != 0) ||
           (!holds_grant[light] && grant != 0) || (light != CRUSTNEWT_BOX_LIGHT_DUE && grant > UINT32_MAX);
}

/* Whether a box fades for longer than a laser takes to go dark, or in WAIT: then its state is not sound. */
static int fades_wrongly(const uint64_t *box)
{
    uint64_t left = box[CRUSTNEWT_BOX_LIGHT_LEFT];

    return box[CRUSTNEWT_BOX_LIGHT] == CRUSTNEWT_BOX_LIGHT_FADING &&
           (left == 0 || left > 32 || box[CRUSTNEWT_BOX_STATE] == CRUSTNEWT_BOX_STATE_WAIT);
}

static int is_nobodys_head(const uint64_t *head)
{
    for (unsigned i = CRUSTNEWT_HEAD_COUNT; i < CRUSTNEWT_HEAD_WORDS; i++)
        if (head[i] > UINT32_MAX)
            return 1;
    return head[CRUSTNEWT_HEAD_WINDOW] > CRUSTNEWT_HEAD_WINDOW_INSIDE ||
           (head[CRUSTNEWT_HEAD_WINDOW] == CRUSTNEWT_HEAD_WINDOW_IDLE && head[CRUSTNEWT_HEAD_WINDOW_LEFT] != 0) ||
           (head[CRUSTNEWT_HEAD_WINDOW] != CRUSTNEWT_HEAD_WINDOW_BEFORE && head[CRUSTNEWT_HEAD_WINDOW_LENGTH] != 0);
}

/* A call other than fresh; one that hears may have met with a refusal of the reader's first. */
static void judge_words(int is_unsound, int hears, uint8_t number)
{
    int is_read_first = hears && number >= CRUSTNEWT_SIZE && number <= CRUSTNEWT_RANGE;

    require(!is_unsound || number == CRUSTNEWT_UNSOUND || number == CRUSTNEWT_SHORT || is_read_first,
            "words that are no sound state's are 13");
    require(!hears || number != CRUSTNEWT_DONE || is_source(source_of(now.heard)), "no group and nobody is heard");
}

/* An advance says what it made: nothing where it is refused, else 1 to as many ticks as were asked for, and the count moves by that. */
static void judge_made(uint8_t number, uint64_t ticks, uint64_t count_before, uint64_t count_after)
{
    uint64_t made = now.made[0];
    int is_in_range = ticks >= 1 && ticks <= CRUSTNEWT_MOST_TICKS;

    if (number == CRUSTNEWT_SHORT)
        return;
    allow(now.made, CRUSTNEWT_MADE_WORDS * sizeof *now.made);
    require(number == CRUSTNEWT_GRANT || number == CRUSTNEWT_UNSOUND || number == CRUSTNEWT_OUTPUT || is_in_range,
            "an advance outside its range is refused");
    require(number != CRUSTNEWT_GRANT || !is_in_range, "an advance in its range is made");
    if (number != CRUSTNEWT_DONE) {
        require(made == 0, "a refused advance makes no tick");
        return;
    }
    require(made >= 1 && made <= ticks, "an advance makes 1 to as many ticks as were asked for");
    require((uint32_t)(count_after - count_before) == made, "the count moves by the ticks made");
}

/* Each frame of the output is from someone, and the last of them is to be heard. */
static void hand_over(uint64_t frames)
{
    for (uint64_t i = 0; i < frames; i++)
        require(is_source(source_of(now.output + i * CRUSTNEWT_FRAME_OCTETS)), "no frame is from a group or nobody");
    if (frames == 0)
        return;
    memcpy(now.heard, now.output + (frames - 1) * CRUSTNEWT_FRAME_OCTETS, CRUSTNEWT_FRAME_OCTETS);
    heard_octets = CRUSTNEWT_FRAME_OCTETS;
}

static void judge_box(unsigned call, uint8_t number, int is_short)
{
    uint64_t frames = now.reply[CRUSTNEWT_BOX_REPLY_FRAMES], notices = now.reply[CRUSTNEWT_BOX_REPLY_NOTICES];

    judge_number(number, is_short);
    judge_words(call != 0 && (is_nobodys_box(before.box) || fades_wrongly(before.box)), call == 3, number);
    if (number == CRUSTNEWT_SHORT)
        return;
    if (number != CRUSTNEWT_DONE)
        require_zero(now.reply, CRUSTNEWT_BOX_REPLY_NOTICE, "a refusal tells nothing");
    require(frames <= 2, "a box hands out two frames at most");
    require(notices <= 4, "a box tells four notices at most");
    allow(now.reply, (CRUSTNEWT_BOX_REPLY_NOTICE + (size_t)notices * CRUSTNEWT_BOX_NOTICE_WORDS) * sizeof *now.reply);
    if (number == CRUSTNEWT_DONE || (call == 0 && number == CRUSTNEWT_RANGE))
        allow(now.box, CRUSTNEWT_BOX_WORDS * sizeof *now.box);
    if (call == 0 && number == CRUSTNEWT_RANGE)
        require_zero(now.box, CRUSTNEWT_BOX_WORDS, "a refused fresh box is zeros");
    require(number != CRUSTNEWT_DONE || !is_nobodys_box(now.box), "a call leaves a state");
    require(number != CRUSTNEWT_DONE || !fades_wrongly(now.box), "a box fades for 32 ticks at most, and not in WAIT");
    allow(now.output, (size_t)frames * CRUSTNEWT_FRAME_OCTETS);
    require_kept("a refusal changes nothing, and what isn't used stays");
    count(call, number, now.box[CRUSTNEWT_BOX_STATE] * 9 + now.box[CRUSTNEWT_BOX_LIGHT], frames,
          notices > 0 ? now.reply[CRUSTNEWT_BOX_REPLY_NOTICE] : 0);
    hand_over(frames);
}

/* The words of a REPORT that was heard, read or written: its number and sets, and zeros. */
static void judge_sets(const uint64_t *words, const uint8_t *body)
{
    size_t used = 1 + taken(body[0], body + 1, CRUSTNEWT_MOST_SETS_OCTETS);

    require(used <= BODY_OCTETS, "sets that run past are refused");
    for (size_t i = 0; i < BODY_OCTETS; i++)
        require((words[i / 8] >> (56 - i % 8 * 8) & 0xFF) == (i < used ? body[i] : 0), "a REPORT is its number, its sets and zeros");
}

/* A report that is done hands out one frame, with what was asked for and zeros; other octets than so many sets are refused. */
static void judge_report(uint8_t number, uint8_t asked, size_t lent)
{
    const uint8_t *body = now.output + BODY_AT;
    int are_sets = taken(asked, now.sets, lent) == lent && lent <= CRUSTNEWT_MOST_SETS_OCTETS;

    require(number != CRUSTNEWT_DONE || are_sets, "octets that are not so many sets are refused");
    require(number != CRUSTNEWT_RANGE || !are_sets, "sets that fit are reported");
    require((number != CRUSTNEWT_DONE && number != CRUSTNEWT_RANGE) || now.box[CRUSTNEWT_BOX_STATE] == CRUSTNEWT_BOX_STATE_REGISTERED,
            "only a registered box reports");
    if (number != CRUSTNEWT_DONE)
        return;
    require(now.reply[CRUSTNEWT_BOX_REPLY_FRAMES] == 1 && now.reply[CRUSTNEWT_BOX_REPLY_NOTICES] == 0, "a report is one frame");
    require(body[0] == asked && memcmp(body + 1, now.sets, lent) == 0, "a report has the sets that were asked for");
    for (size_t i = 1 + lent; i < BODY_OCTETS; i++)
        require(body[i] == 0, "a report has zeros behind its sets");
}

static void call_report(void)
{
    size_t words = take_length(CRUSTNEWT_BOX_WORDS), octets = take_length(CRUSTNEWT_BOX_FRAMES_OCTETS);
    size_t told = take_length(CRUSTNEWT_BOX_REPLY_WORDS), lent;
    uint8_t asked = take_sets(&lent), number;

    before = now;
    number = crustnewt_box_report(asked, now.sets, lent, now.box, words, now.output, octets, now.reply, told);
    judge_box(BOX_REPORT, number, words < CRUSTNEWT_BOX_WORDS || octets < CRUSTNEWT_BOX_FRAMES_OCTETS || told < CRUSTNEWT_BOX_REPLY_WORDS);
    judge_report(number, asked, lent);
}

static void call_box(unsigned call)
{
    size_t words = take_length(CRUSTNEWT_BOX_WORDS), octets = take_length(CRUSTNEWT_BOX_FRAMES_OCTETS);
    size_t told = take_length(CRUSTNEWT_BOX_REPLY_WORDS), made = CRUSTNEWT_MADE_WORDS;
    uint64_t address = call == 0 ? take_address() : 0, ticks = call == BOX_ADVANCE ? take_ticks() : 0;
    uint32_t random = call == 3 ? (uint32_t)take_number(2) : 0;
    uint8_t number;

    if (call == BOX_ADVANCE)
        made = take_length(CRUSTNEWT_MADE_WORDS);

    before = now;
    if (call == 0)
        number = crustnewt_box_fresh(address, now.box, words, now.output, octets, now.reply, told);
    else if (call == 1)
        number = crustnewt_box_register(now.box, words, now.output, octets, now.reply, told);
    else if (call == 2)
        number = crustnewt_box_deregister(now.box, words, now.output, octets, now.reply, told);
    else if (call == 3)
        number = crustnewt_box_hear(now.heard, heard_octets, random, now.box, words, now.output, octets, now.reply, told);
    else if (call == 4)
        number = crustnewt_box_tick(now.box, words, now.output, octets, now.reply, told);
    else
        number = crustnewt_box_advance(ticks, now.box, words, now.output, octets, now.reply, told, now.made, made);
    if (call == BOX_ADVANCE)
        judge_made(number, ticks, before.box[CRUSTNEWT_BOX_COUNT], now.box[CRUSTNEWT_BOX_COUNT]);
    judge_box(call, number,
              words < CRUSTNEWT_BOX_WORDS || octets < CRUSTNEWT_BOX_FRAMES_OCTETS || told < CRUSTNEWT_BOX_REPLY_WORDS ||
                  made < CRUSTNEWT_MADE_WORDS);
}

/* Asks how long a box is silent, and advances it by that. */
static void call_box_until(void)
{
    size_t words = take_length(CRUSTNEWT_BOX_WORDS);
    uint64_t until;
    uint8_t number;

    before = now;
    until = crustnewt_box_ticks_until(now.box, words);
    require_kept("asking how long a box is silent changes nothing");
    require(until <= CRUSTNEWT_MOST_TICKS, "a box is silent for as long as it may advance at most");
    require(until == 0 || (words >= CRUSTNEWT_BOX_WORDS && !is_nobodys_box(now.box)), "nobody is silent");
    if (until == 0)
        return;
    number = crustnewt_box_advance(until, now.box, CRUSTNEWT_BOX_WORDS, now.output, CRUSTNEWT_BOX_FRAMES_OCTETS, now.reply,
                                   CRUSTNEWT_BOX_REPLY_WORDS, now.made, CRUSTNEWT_MADE_WORDS);
    require(number == CRUSTNEWT_DONE && now.made[0] == until, "ticks that are silent are made");
    require_zero(now.reply, CRUSTNEWT_BOX_REPLY_NOTICE, "ticks that are silent tell nothing");
    judge_made(number, until, before.box[CRUSTNEWT_BOX_COUNT], now.box[CRUSTNEWT_BOX_COUNT]);
    judge_box(6, number, 0);
}

static void call_next(void)
{
    size_t words = take_length(CRUSTNEWT_BOX_WORDS), control = take() % 61, data = take() % 61;
    uint8_t number;

    before = now;
    number = crustnewt_box_next_to_send(now.box, words, now.heard, control, now.output, data);
    require(number <= 2 || number == CRUSTNEWT_SHORT, "the next frame is one of three");
    require((number == CRUSTNEWT_SHORT) == (words < CRUSTNEWT_BOX_WORDS), "100 is answered exactly where too little is lent");
    require(!is_nobodys_box(now.box) || number == 0 || number == CRUSTNEWT_SHORT, "nothing goes out for words that are no state's");
    require(now.box[CRUSTNEWT_BOX_LIGHT] != CRUSTNEWT_BOX_LIGHT_FADING || number == 0 || number == CRUSTNEWT_SHORT,
            "nothing goes out while the laser goes dark");
    require_kept("asking for the next frame changes nothing");
}

static void judge_head(unsigned call, uint8_t number, int is_short)
{
    uint64_t frames = now.reply[CRUSTNEWT_HEAD_REPLY_FRAMES], notices = now.reply[CRUSTNEWT_HEAD_REPLY_NOTICES];

    judge_number(number, is_short);
    judge_words(call != 10 && is_nobodys_head(before.head), call == 17, number);
    if (number == CRUSTNEWT_SHORT)
        return;
    if (number == CRUSTNEWT_DONE || (call == 10 && number == CRUSTNEWT_RANGE))
        allow(now.head, CRUSTNEWT_HEAD_WORDS * sizeof *now.head);
    if (number == CRUSTNEWT_DONE)
        allow(now.links, links * CRUSTNEWT_LINK_WORDS * sizeof *now.links);
    else
        require_zero(now.reply, CRUSTNEWT_HEAD_REPLY_NOTICE, "a refusal tells nothing");
    if (call == 10 && number == CRUSTNEWT_RANGE)
        require_zero(now.head, CRUSTNEWT_HEAD_WORDS, "a refused fresh head is zeros");
    require(number != CRUSTNEWT_DONE || !is_nobodys_head(now.head), "a call leaves a state");
    require(frames <= links, "a head hands out a frame a link at most");
    require(notices <= (call == 17), "a head tells a notice at most, of what it heard");
    if (notices > 0 && now.reply[CRUSTNEWT_HEAD_REPLY_NOTICE] == CRUSTNEWT_HEAD_NOTICE_REPORT)
        judge_sets(now.reply + CRUSTNEWT_HEAD_REPLY_SETS, now.heard + BODY_AT);
    else if (notices > 0)
        require_zero(now.reply + CRUSTNEWT_HEAD_REPLY_SETS, CRUSTNEWT_HEAD_REPLY_WORDS - CRUSTNEWT_HEAD_REPLY_SETS,
                     "only a REPORT has sets");
    allow(now.reply, (notices > 0 ? CRUSTNEWT_HEAD_REPLY_WORDS : CRUSTNEWT_HEAD_REPLY_NOTICE) * sizeof *now.reply);
    allow(now.output, (size_t)frames * CRUSTNEWT_FRAME_OCTETS);
    require_kept("a refusal changes nothing, and what isn't used stays");
    require(number != CRUSTNEWT_DONE || (links >= 1 && links <= CRUSTNEWT_MOST_LINKS), "only 1 to 64 links are served");
    count(call, number, now.head[CRUSTNEWT_HEAD_WINDOW] * 4 + now.links[CRUSTNEWT_LINK_STATE], frames,
          notices > 0 ? now.reply[CRUSTNEWT_HEAD_REPLY_NOTICE] : 0);
    hand_over(frames);
}

#define LENT now.head, words, now.links, table, now.output, octets, now.reply, told

static uint8_t make_head_call(unsigned call, size_t words, size_t table, size_t octets, size_t told, size_t made, uint64_t ticks)
{
    uint64_t grants[6], address = take_address();
    uint8_t small = take();
    uint32_t sync = (uint32_t)take_number(1), start = (uint32_t)now.head[CRUSTNEWT_HEAD_COUNT] + take();
    size_t link = take() % (LINKS + 1);

    for (unsigned i = 0; i < 6; i++)
        grants[i] = (uint64_t)start << 32 | take_number(2);
    before = now;
    switch (call) {
    case 10:
        return crustnewt_head_fresh(address, now.head, words, now.links, table, now.reply, told);
    case 11:
        return crustnewt_head_open(start, 106 + sync + small, sync, small, LENT);
    case 12:
        return crustnewt_head_admit(address, small, sync, LENT);
    case 13:
        return crustnewt_head_reject(address, small, sync, LENT);
    case 14:
        return crustnewt_head_reregister(link, sync, LENT);
    case 15:
        return crustnewt_head_deregister(link, LENT);
    case 16:
        return crustnewt_head_gate(link, grants, sync % 7, small, LENT);
    case 17:
        return crustnewt_head_hear(link, now.heard, heard_octets, LENT);
    case 18:
        return crustnewt_head_tick(LENT);
    default:
        return crustnewt_head_advance(ticks, LENT, now.made, made);
    }
}

static void call_head(unsigned call)
{
    size_t words = take_length(CRUSTNEWT_HEAD_WORDS), told = take_length(CRUSTNEWT_HEAD_REPLY_WORDS);
    size_t octets = take_length(links * CRUSTNEWT_FRAME_OCTETS), table = links * CRUSTNEWT_LINK_WORDS + take() % CRUSTNEWT_LINK_WORDS;
    size_t made = call == HEAD_ADVANCE ? take_length(CRUSTNEWT_MADE_WORDS) : CRUSTNEWT_MADE_WORDS;
    uint64_t ticks = call == HEAD_ADVANCE ? take_ticks() : 0;
    uint8_t number = make_head_call(call, words, table, octets, told, made, ticks);

    if (call == HEAD_ADVANCE)
        judge_made(number, ticks, before.head[CRUSTNEWT_HEAD_COUNT], now.head[CRUSTNEWT_HEAD_COUNT]);
    judge_head(call, number, words < CRUSTNEWT_HEAD_WORDS || told < CRUSTNEWT_HEAD_REPLY_WORDS || made < CRUSTNEWT_MADE_WORDS);
    if (number == CRUSTNEWT_DONE && call != 10)
        require(octets >= links * CRUSTNEWT_FRAME_OCTETS, "a short output isn't served");
}

/* Asks how long a head is silent, and advances it by one tick more: that hands out a frame, unless the time is the longest. */
static void call_head_until(void)
{
    size_t words = take_length(CRUSTNEWT_HEAD_WORDS), table = links * CRUSTNEWT_LINK_WORDS + take() % CRUSTNEWT_LINK_WORDS;
    size_t octets = links * CRUSTNEWT_FRAME_OCTETS, told = CRUSTNEWT_HEAD_REPLY_WORDS;
    uint64_t until, ticks;
    uint8_t number;

    before = now;
    until = crustnewt_head_ticks_until(now.head, words, now.links, table);
    require_kept("asking how long a head is silent changes nothing");
    require(until <= CRUSTNEWT_MOST_TICKS, "a head is silent for as long as it may advance at most");
    require(until == 0 || (words >= CRUSTNEWT_HEAD_WORDS && !is_nobodys_head(now.head)), "nobody is silent");
    if (until == 0)
        return;
    ticks = until < CRUSTNEWT_MOST_TICKS ? until + 1 : until;
    number = crustnewt_head_advance(ticks, LENT, now.made, CRUSTNEWT_MADE_WORDS);
    require(number == CRUSTNEWT_DONE && now.made[0] == ticks, "ticks that are silent are made");
    require((now.reply[CRUSTNEWT_HEAD_REPLY_FRAMES] > 0) == (ticks > until), "the tick after them hands out a frame");
    judge_made(number, ticks, before.head[CRUSTNEWT_HEAD_COUNT], now.head[CRUSTNEWT_HEAD_COUNT]);
    judge_head(HEAD_ADVANCE + 1, number, 0);
}

/* A refused frame is the blank words, and those have no frame. */
static void judge_blank(void)
{
    static const uint64_t blank[CRUSTNEWT_MESSAGE_WORDS] = {0, 0, 0, CRUSTNEWT_MESSAGE_REPORT};
    uint8_t frame[CRUSTNEWT_FRAME_OCTETS];

    require(memcmp(now.message, blank, sizeof blank) == 0, "a refused frame is an empty REPORT with every field 0");
    require(crustnewt_write(blank, CRUSTNEWT_MESSAGE_WORDS, frame, sizeof frame) == CRUSTNEWT_RANGE, "the blank words aren't written");
}

static void call_read(void)
{
    size_t words = take_length(CRUSTNEWT_MESSAGE_WORDS);
    uint8_t number;

    before = now;
    number = crustnewt_read(now.heard, heard_octets, now.message, words);
    judge_number(number, words < CRUSTNEWT_MESSAGE_WORDS);
    if (number == CRUSTNEWT_SHORT)
        return;
    allow(now.message, CRUSTNEWT_MESSAGE_WORDS * sizeof *now.message);
    require_kept("reading changes the message alone");
    count(30, number, now.message[CRUSTNEWT_MESSAGE_KIND], 0, now.message[CRUSTNEWT_MESSAGE_BODY]);
    if (number != CRUSTNEWT_DONE)
        judge_blank();
    else
        require(is_source(now.message[CRUSTNEWT_MESSAGE_SOURCE]), "no message is from a group or nobody");
    if (number == CRUSTNEWT_DONE && now.message[CRUSTNEWT_MESSAGE_KIND] == CRUSTNEWT_MESSAGE_REPORT)
        judge_sets(now.message + CRUSTNEWT_MESSAGE_BODY, now.heard + BODY_AT);
}

static void call_write(void)
{
    size_t words = take_length(CRUSTNEWT_MESSAGE_WORDS), octets = take_length(CRUSTNEWT_FRAME_OCTETS);
    uint8_t number;

    before = now;
    number = crustnewt_write(now.message, words, now.heard, octets);
    judge_number(number, words < CRUSTNEWT_MESSAGE_WORDS || octets < CRUSTNEWT_FRAME_OCTETS);
    if (number == CRUSTNEWT_SHORT)
        return;
    allow(now.heard, CRUSTNEWT_FRAME_OCTETS);
    require_kept("writing changes the frame alone");
    heard_octets = CRUSTNEWT_FRAME_OCTETS;
    count(31, number, now.message[CRUSTNEWT_MESSAGE_KIND], 0, now.message[CRUSTNEWT_MESSAGE_BODY]);
    for (unsigned i = 0; i < CRUSTNEWT_FRAME_OCTETS && number != CRUSTNEWT_DONE; i++)
        require(now.heard[i] == 0, "a refused message is written as zeros");
    require(number != CRUSTNEWT_DONE || is_source(now.message[CRUSTNEWT_MESSAGE_SOURCE]), "no message from a group or nobody is written");
    if (number == CRUSTNEWT_DONE && now.message[CRUSTNEWT_MESSAGE_KIND] == CRUSTNEWT_MESSAGE_REPORT)
        judge_sets(now.message + CRUSTNEWT_MESSAGE_BODY, now.heard + BODY_AT);
}

/* Of the frame to be heard: the writer takes no source that is to be refused. */
static void set_source(uint64_t source)
{
    for (unsigned i = 12; i-- > 6; source >>= 8)
        now.heard[i] = (uint8_t)source;
}

/* Changes something that a later call is handed. */
static void spoil(unsigned what)
{
    uint8_t place = take();

    if (what == 0)
        now.box[place % CRUSTNEWT_BOX_WORDS] = take_word();
    else if (what == 1)
        now.head[place % CRUSTNEWT_HEAD_WORDS] = take_word();
    else if (what == 2)
        now.links[place % (CRUSTNEWT_LINK_WORDS * 2)] = take_word();
    else if (what == 3)
        now.message[place % CRUSTNEWT_MESSAGE_WORDS] = place % CRUSTNEWT_MESSAGE_WORDS < 2 ? take_address() : take_word();
    else if (what == 4)
        now.heard[place % CRUSTNEWT_FRAME_OCTETS] = take();
    else if (what == 5)
        heard_octets = place % (CRUSTNEWT_FRAME_OCTETS + GUARD + 1);
    else
        set_source(take_address());
}

/* The box is registered, and the head's first link holds it. */
static void begin_registered(void)
{
    now.box[CRUSTNEWT_BOX_STATE] = CRUSTNEWT_BOX_STATE_REGISTERED;
    now.box[CRUSTNEWT_BOX_WATCHDOG] = now.links[CRUSTNEWT_LINK_WATCHDOG] = 62500000;
    now.box[CRUSTNEWT_BOX_REPORT] = now.links[CRUSTNEWT_LINK_PERIODIC] = 3125000;
    now.links[CRUSTNEWT_LINK_ADDRESS] = now.box[CRUSTNEWT_BOX_ADDRESS];
    now.links[CRUSTNEWT_LINK_STATE] = CRUSTNEWT_LINK_STATE_REGISTERED;
}

static void make_call(unsigned call)
{
    if (call < 5)
        call_box(call);
    else if (call == 5)
        call_next();
    else if (call < 10)
        call_box(call % 2 == 0 ? 4 : 3);
    else if (call < 20)
        call_head(call);
    else if (call == 20)
        call_read();
    else if (call == 21)
        call_write();
    else if (call < 28)
        spoil(call - 22);
    else if (call < 30)
        call_box(BOX_ADVANCE);
    else if (call == 30)
        call_box_until();
    else if (call == 31)
        call_head_until();
    else if (call == 32)
        spoil(6);
    else
        call_report();
}

int LLVMFuzzerTestOneInput(const uint8_t *octets, size_t length)
{
    static const size_t tables[] = {1, 2, 3, 64, 65, 0};

    input = octets;
    input_left = length;
    memset(&now, 0, sizeof now);
    now.box[CRUSTNEWT_BOX_ADDRESS] = 0x020000000031;
    now.head[CRUSTNEWT_HEAD_ADDRESS] = 0x020000000001;
    now.message[CRUSTNEWT_MESSAGE_SOURCE] = 0x020000000001;
    heard_octets = 0;
    links = tables[take() % 6];
    if (take() % 2 == 1)
        begin_registered();
    while (input_left > 0)
        make_call(take() % 34);
    return 0;
}
