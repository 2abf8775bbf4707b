/* Writes a random block file to standard output:
   generate SEED BLOCKS [large [PROCESSORS TASKS [short | long]]], or generate SEED BLOCKS small.
   large: a good set-up and BLOCKS full blocks of events, most of them accepted.
   small: a small set-up with much contention and up to BLOCKS blocks of events; some files with a fault.
   The same words give the same file. PROCESSORS and TASKS take the place of the numbers drawn for them;
   the start and the resources of the set-up are those of the file without them. With short or long, all
   resources are of that kind: with short ones no job is ever suspended, with long ones many are. */
#include <stdio.h>
#include <stdlib.h>
#include <string.h>

#include "blocks.h"
#include "rules.h"

enum { SMALL_BLOCKS_LIMIT = 64, TRIES = 12 };

/* ---- random numbers: splitmix64 */

static uint64_t random_state;

static uint64_t draw(void)
{
    uint64_t z = random_state += UINT64_C(0x9e3779b97f4a7c15);
    z = (z ^ z >> 30) * UINT64_C(0xbf58476d1ce4e5b9);
    z = (z ^ z >> 27) * UINT64_C(0x94d049bb133111eb);
    return z ^ z >> 31;
}

static uint32_t below(uint32_t limit)
{
    return (uint32_t)((draw() >> 32) * limit >> 32);
}

static uint32_t between(uint32_t low, uint32_t high)
{
    return low + below(high - low + 1);
}

static bool chance(uint32_t percent)
{
    return below(100) < percent;
}

/* A random number of a set that is not empty. */
static unsigned member(uint32_t set)
{
    for (unsigned skip = below((uint32_t)__builtin_popcount(set)); skip > 0; skip--)
        set &= set - 1;
    return lowest(set);
}

static uint32_t all_below(unsigned count)
{
    return count == 32 ? UINT32_MAX : bit(count) - 1;
}

/* ---- set-ups */

/* How a file's set-up and events are drawn. */
struct style {
    uint32_t accepted;    /* percent of events chosen among those that are accepted */
    uint32_t still;       /* percent of steps of 0 ticks */
    uint32_t longest;     /* usual step, in ticks */
    uint32_t leap;        /* per 10,000 events: a step of any length */
    uint32_t nesting;     /* percent: a job with an open request asks for another */
    uint32_t finishing;   /* percent: a job without one finishes */
    uint32_t hot;         /* resources below this are asked for more often */
};

static void draw_kinds(struct setup *setup, uint32_t longs)
{
    for (unsigned r = 0; r < setup->resources; r++)
        setup->kind[r] = chance(longs) ? LONG : SHORT;
}

/* Pairs that rule 5 allows: a long never inside a short. */
static void draw_pairs(struct setup *setup, unsigned count)
{
    if (setup->resources < 2)
        return;
    setup->pairs = count;
    for (unsigned p = 0; p < count; p++) {
        unsigned outer = below(setup->resources);
        unsigned inner = (outer + 1 + below(setup->resources - 1)) % setup->resources;
        bool turned = setup->kind[outer] == SHORT && setup->kind[inner] == LONG;
        setup->pair[p].outer = turned ? inner : outer;
        setup->pair[p].inner = turned ? outer : inner;
    }
}

static void draw_periods(struct setup *setup, unsigned digits)
{
    for (unsigned t = 0; t < setup->tasks; t++)
        setup->period[t] = chance(2) ? between(60000, 65535) : 1 + below(bit(between(2, digits)));
}

/* All periods are one of two, so that deadlines are often equal: the lower task number is then higher. */
static void draw_two_periods(struct setup *setup)
{
    for (unsigned t = 2; t < setup->tasks; t++)
        setup->period[t] = setup->period[below(2)];
}

/* What is asked for; a number of 0 leaves the one that is drawn. */
struct asked {
    uint8_t processors, tasks;
    bool one_kind; /* all resources are of the kind below */
    uint8_t kind;
};

static void draw_large_setup(struct setup *setup, struct asked asked)
{
    memset(setup, 0, sizeof *setup);
    setup->processors = between(1, PROCESSORS_LIMIT);
    setup->tasks = between(TASKS_LIMIT / 2, TASKS_LIMIT);
    if (asked.processors != 0)
        setup->processors = asked.processors;
    if (asked.tasks != 0)
        setup->tasks = asked.tasks;
    setup->resources = between(RESOURCES_LIMIT / 4, RESOURCES_LIMIT);
    setup->start = chance(50) ? 65536 * between(1, 1000) - between(1, 300) : below(UINT32_C(1) << 30);
    draw_kinds(setup, between(20, 60));
    if (asked.one_kind)
        memset(setup->kind, asked.kind, setup->resources);
    draw_pairs(setup, between(0, setup->resources));
    draw_periods(setup, 9);
}

static uint32_t draw_small_start(void)
{
    switch (below(14)) {
    case 0:
        return below(3);
    case 1:
        return 65536 * between(1, 65535) - between(1, 100);
    case 2:
        return UINT32_MAX - below(20);
    case 3:
        return UINT32_MAX - below(2000);
    default:
        return (uint32_t)draw();
    }
}

/* Many resources in few groups, so that nine requests can be tried. */
static void draw_deep_resources(struct setup *setup)
{
    setup->resources = between(9, 20);
    draw_kinds(setup, 25 * below(5));
    draw_pairs(setup, between(30, PAIRS_LIMIT));
}

/* Few resources, of both kinds where there are two: queues, inheritance and lost links are frequent. */
static void draw_contended_resources(struct setup *setup)
{
    setup->resources = between(1, 4);
    draw_kinds(setup, between(30, 70));
    if (setup->resources > 1)
        setup->kind[1] = setup->kind[0] == SHORT ? LONG : SHORT;
    draw_pairs(setup, below(3));
}

static void draw_small_setup(struct setup *setup)
{
    memset(setup, 0, sizeof *setup);
    bool contended = chance(75);
    setup->processors = contended ? between(1, 4) : between(1, PROCESSORS_LIMIT);
    setup->tasks = contended ? between(setup->processors + 2, 11) : between(1, TASKS_LIMIT);
    setup->start = draw_small_start();
    if (contended) {
        draw_contended_resources(setup);
    } else if (chance(40)) {
        draw_deep_resources(setup);
    } else {
        setup->resources = below(RESOURCES_LIMIT + 1);
        draw_kinds(setup, 25 * below(5));
        draw_pairs(setup, below(9));
    }
    draw_periods(setup, between(6, 12));
    if (chance(40))
        draw_two_periods(setup);
}

/* ---- events */

static uint16_t draw_tick(const struct state *state, const struct style *style)
{
    uint32_t ticks = chance(style->still) ? 0 : between(1, style->longest);
    if (below(10000) < style->leap)
        ticks = chance(10) ? 32767 : below(32768);
    uint32_t room = UINT32_MAX - state->clock;
    return (uint16_t)(state->clock + (ticks < room ? ticks : room));
}

/* A second draw where the first is of a free group: contention is wanted. */
static uint8_t draw_resource(const struct state *state, const struct style *style)
{
    uint32_t resources = state->setup.resources;
    uint32_t hot = style->hot < resources ? style->hot : resources;
    uint8_t resource = below(chance(50) ? hot : resources);
    if (state->holder[state->group[resource]] == NO_TASK)
        resource = below(chance(50) ? hot : resources);
    return resource;
}

/* Of two tasks the one with the shorter period, whose job is more often higher than others. */
static uint8_t draw_comer(const struct setup *setup, uint32_t absent)
{
    uint8_t one = member(absent), other = member(absent);
    return setup->period[one] < setup->period[other] ? one : other;
}

/* An event of a job that runs and does not spin. */
static void draw_job_event(const struct state *state, const struct style *style, struct event *event)
{
    const struct open_requests *open = &state->open[event->task];
    if (open->count == 0 && chance(style->finishing)) {
        event->kind = FINISH;
        return;
    }
    if (state->setup.resources > 0 && (open->count == 0 || chance(style->nesting))) {
        event->kind = REQUEST;
        for (unsigned i = 0; i < TRIES; i++) {
            event->resource = draw_resource(state, style);
            if (judge_event(state, event) == ACCEPTED)
                return;
        }
    }
    event->kind = open->count > 0 ? COMPLETE : FINISH;
    event->resource = open->count > 0 ? open->resource[open->count - 1] : 0;
}

/* An event that is accepted; where none is found, time passes only. */
static struct event draw_accepted(const struct state *state, const struct style *style)
{
    const struct standing *standing = &state->standing;
    uint32_t absent = all_below(state->setup.tasks) & ~standing->pending;
    uint32_t active = standing->running & ~standing->spinning;
    for (unsigned i = 0; i < TRIES; i++) {
        struct event event = { .tick = draw_tick(state, style) };
        if (chance(35) && absent != 0) {
            event.kind = ARRIVE;
            event.task = draw_comer(&state->setup, absent);
        } else if (active != 0 && chance(96)) {
            event.task = member(active);
            draw_job_event(state, style, &event);
        } else if (chance(20)) {
            event.kind = PASS;
        }
        if (judge_event(state, &event) == ACCEPTED)
            return event;
    }
    return (struct event) { .kind = PASS, .tick = draw_tick(state, style) };
}

/* An event with its fields in the table, whatever the state makes of it. */
static struct event draw_fitting(const struct state *state, const struct style *style)
{
    struct event event = { .kind = between(ARRIVE, PASS), .tick = draw_tick(state, style) };
    if (event.kind != PASS)
        event.task = below(state->setup.tasks);
    if ((event.kind == REQUEST || event.kind == COMPLETE) && state->setup.resources > 0)
        event.resource = below(state->setup.resources);
    return event;
}

/* The event is the given job's; one with eight requests open asks for a ninth. */
static void draw_nesting(const struct state *state, unsigned task, struct event *event)
{
    event->task = event->kind == PASS ? 0 : task;
    if (state->open[task].count < OPEN_LIMIT)
        return;
    event->kind = REQUEST;
    event->task = task;
    event->resource = below(state->setup.resources);
}

/* An event that is not an accepted one, or by chance one. */
static struct event draw_doubtful(const struct state *state, const struct style *style)
{
    const struct standing *standing = &state->standing;
    struct event event = draw_fitting(state, style);
    uint32_t active = standing->running & ~standing->spinning;
    uint32_t idle = standing->pending & ~standing->suspended & ~standing->running;
    switch (below(12)) {
    case 0:
        event.kind = chance(50) ? 0 : between(PASS + 1, 255);
        break;
    case 1:
        event.task = between(state->setup.tasks, 255);
        break;
    case 2:
        event.resource = between(state->setup.resources, 255);
        break;
    case 3:
        event.tick = (uint16_t)(state->clock + (chance(20) ? FORWARD_STEPS : between(FORWARD_STEPS, 65535)));
        break;
    case 4:
        event.tick = (uint16_t)(state->clock + below(50));
        break;
    case 5:
    case 6:
    case 7:
        if (active != 0)
            draw_nesting(state, member(active), &event);
        break;
    case 8:
        if (standing->spinning != 0)
            event.task = member(standing->spinning);
        break;
    case 9:
        if (standing->suspended != 0)
            event.task = member(standing->suspended);
        break;
    case 10:
        if (idle != 0)
            event.task = member(idle);
        break;
    default:
        break;
    }
    return event;
}

static void fill_events(struct state *state, const struct style *style, uint8_t *block, unsigned count)
{
    for (unsigned place = 0; place < count; place++) {
        struct event event = chance(style->accepted) ? draw_accepted(state, style)
                                                     : draw_doubtful(state, style);
        step(state, &event);
        write_event(block, place, &event);
    }
}

/* ---- files */

static void write_block(const uint8_t *block, size_t length)
{
    if (fwrite(block, 1, length, stdout) != length)
        exit(1);
}

static void seal_setup(uint8_t *block, const struct setup *setup)
{
    memset(block, 0, BLOCK_BYTES);
    write_setup(block, setup);
    write_header(block, 0, SETUP_BLOCK, 1);
    write_check(block);
}

static void seal_events(struct state *state, const struct style *style, uint8_t *block,
    uint32_t index, unsigned count)
{
    memset(block, 0, BLOCK_BYTES);
    fill_events(state, style, block, count);
    write_header(block, index, EVENTS_BLOCK, count);
    write_check(block);
}

static void generate_large(uint32_t blocks, struct asked asked)
{
    static struct state state;
    struct setup setup;
    uint8_t block[BLOCK_BYTES];
    struct style style = { .accepted = 90, .still = 30, .longest = 12, .leap = 1, .nesting = 40,
        .finishing = 30, .hot = 4 };
    draw_large_setup(&setup, asked);
    seal_setup(block, &setup);
    write_block(block, sizeof block);
    begin(&state, &setup);
    for (uint32_t index = 1; index <= blocks; index++) {
        seal_events(&state, &style, block, index, EVENTS_LIMIT);
        write_block(block, sizeof block);
    }
}

struct file {
    uint32_t blocks; /* of events */
    size_t length;
    uint8_t block[SMALL_BLOCKS_LIMIT + 1][BLOCK_BYTES];
};

static void draw_small_file(struct file *file, uint32_t limit)
{
    static struct state state;
    struct setup setup;
    struct style style = { .accepted = between(60, 97), .still = between(0, 80),
        .longest = chance(60) ? between(1, 4) : between(1, 40), .leap = chance(20) ? 300 : 0,
        .nesting = chance(30) ? between(60, 95) : between(10, 60), .finishing = between(20, 70),
        .hot = between(1, 4) };
    draw_small_setup(&setup);
    if (setup.resources > OPEN_LIMIT && chance(60))
        style.nesting = 92;
    seal_setup(file->block[0], &setup);
    begin(&state, &setup);
    file->blocks = between(1, limit);
    for (uint32_t index = 1; index <= file->blocks; index++)
        seal_events(&state, &style, file->block[index], index,
            chance(60) ? EVENTS_LIMIT : between(1, EVENTS_LIMIT));
    file->length = (file->blocks + 1) * (size_t)BLOCK_BYTES;
}

/* ---- faults */

static void break_count(struct setup *setup)
{
    switch (below(6)) {
    case 0:
        setup->processors = 0;
        break;
    case 1:
        setup->processors = between(PROCESSORS_LIMIT + 1, 255);
        break;
    case 2:
        setup->tasks = 0;
        break;
    case 3:
        setup->tasks = between(TASKS_LIMIT + 1, 255);
        break;
    case 4:
        setup->resources = between(RESOURCES_LIMIT + 1, 255);
        break;
    default:
        setup->pairs = between(PAIRS_LIMIT + 1, 255);
        break;
    }
}

/* A pair that names a resource past the table, or one twice. */
static void break_pair(struct setup *setup)
{
    struct pair *pair = &setup->pair[below(setup->pairs)];
    if (chance(40))
        pair->inner = pair->outer;
    else if (chance(50))
        pair->inner = between(setup->resources, 255);
    else
        pair->outer = between(setup->resources, 255);
}

/* Breaks one rule of the set-up, 1 to 5. There are at least two resources and a pair. */
static void break_rule(struct setup *setup, unsigned rule)
{
    unsigned p = below(setup->pairs);
    switch (rule) {
    case COUNT_OUTSIDE:
        break_count(setup);
        break;
    case PERIOD_ZERO:
        setup->period[below(setup->tasks)] = 0;
        break;
    case KIND_UNKNOWN:
        setup->kind[below(setup->resources)] = between(2, 255);
        break;
    case PAIR_UNKNOWN:
        break_pair(setup);
        break;
    default:
        setup->kind[setup->pair[p].outer] = SHORT;
        setup->kind[setup->pair[p].inner] = LONG;
        break;
    }
}

/* Breaks one rule, at times later ones too: the first in the list is then the answer. */
static void break_setup(struct file *file)
{
    struct setup setup;
    read_setup(file->block[0], &setup);
    if (setup.resources < 2)
        setup.resources = 2;
    if (setup.pairs == 0)
        setup.pairs = 1;
    if (setup.pair[0].outer == setup.pair[0].inner)
        setup.pair[0] = (struct pair) { 0, 1 };
    unsigned rule = between(COUNT_OUTSIDE, LONG_INSIDE_SHORT);
    for (unsigned later = LONG_INSIDE_SHORT; later > rule; later--)
        if (chance(20) && later != PAIR_UNKNOWN)
            break_rule(&setup, later);
    break_rule(&setup, rule);
    seal_setup(file->block[0], &setup);
}

static void break_header(uint8_t *block, unsigned place)
{
    uint8_t was = block[place];
    if (place == 3)
        block[place] = chance(50) ? 0 : between(EVENTS_LIMIT + 1, 255);
    while (block[place] == was)
        block[place] = chance(70) ? was + 1 - 2 * below(2) : below(256);
    write_check(block);
}

/* Puts a byte that is not 0 where the reader finds it in the filler. */
static void break_filler(uint8_t *block, uint32_t index)
{
    for (unsigned i = 0; i < 2000; i++) {
        unsigned place = between(PAYLOAD_PLACE, CHECK_PLACE - 1);
        uint8_t was = block[place];
        block[place] = between(1, 255);
        write_check(block);
        if (judge_block(block, BLOCK_BYTES, index) == FILLER_NOT_ZERO)
            return;
        block[place] = was;
        write_check(block);
    }
}

/* Faults of several sorts in one block, so that their order shows. */
static void break_several(uint8_t *block, uint32_t index)
{
    if (chance(60))
        break_filler(block, index);
    for (unsigned place = 0; place < 4; place++)
        if (chance(40))
            break_header(block, place);
    if (chance(20))
        block[between(CHECK_PLACE, BLOCK_BYTES - 1)] ^= between(1, 255);
}

/* Changes bytes of the payload and sets the check right. */
static void change_payload(uint8_t *block)
{
    for (unsigned i = between(1, 3); i > 0; i--)
        block[PAYLOAD_PLACE + (chance(50) ? below(20) : below(232))] = chance(50) ? below(4) : below(256);
    write_check(block);
}

/* A block whose sums are 0: none, half or all of its words are 65,535, which stands for 0 modulo 65,535, and the others
   are 0. In its check both numbers come, and only 0 is right. */
static void break_to_zeros(uint8_t *block)
{
    unsigned largest = 50 * below(3);
    for (unsigned place = 0; place < BLOCK_BYTES; place += 2)
        memset(block + place, chance(place < CHECK_PLACE ? largest : 50) ? 255 : 0, 2);
}

static void break_length(struct file *file)
{
    switch (below(4)) {
    case 0:
        file->length -= between(1, BLOCK_BYTES - 1);
        break;
    case 1:
        file->length += between(1, BLOCK_BYTES - 1);
        break;
    case 2:
        file->length = BLOCK_BYTES;
        break;
    default:
        file->length = chance(50) ? 0 : below(BLOCK_BYTES);
        break;
    }
}

static void break_file(struct file *file)
{
    uint32_t index = between(0, file->blocks);
    uint8_t *block = file->block[index];
    switch (below(12)) {
    case 0:
    case 1:
    case 2:
        break_setup(file);
        break;
    case 3:
        block[between(CHECK_PLACE, BLOCK_BYTES - 1)] ^= between(1, 255);
        break;
    case 4:
        break_header(block, below(4));
        break;
    case 5:
        break_filler(block, index);
        break;
    case 6:
        break_several(block, index);
        break;
    case 7:
    case 8:
        break_length(file);
        break;
    case 9:
        block[below(BLOCK_BYTES)] ^= between(1, 255);
        break;
    case 10:
        change_payload(block);
        break;
    default:
        break_to_zeros(block);
        break;
    }
}

static void generate_small(uint32_t blocks)
{
    static struct file file; /* one block longer than needed: a fault may add bytes of it */
    draw_small_file(&file, blocks < SMALL_BLOCKS_LIMIT ? blocks : SMALL_BLOCKS_LIMIT - 1);
    if (chance(30))
        break_file(&file);
    write_block(file.block[0], file.length);
}

/* A word as a number from 1 to the limit, or 0. */
static uint32_t number_in(const char *word, uint32_t limit)
{
    unsigned long number = strtoul(word, NULL, 10);
    return number <= limit ? (uint32_t)number : 0;
}

/* Takes the words after `large`; false where they are wrong. */
static bool read_asked(struct asked *asked, int words, char **word)
{
    if (words == 0)
        return true;
    if (words == 1 || words > 3)
        return false;
    asked->processors = number_in(word[0], PROCESSORS_LIMIT);
    asked->tasks = number_in(word[1], TASKS_LIMIT);
    asked->one_kind = words == 3;
    asked->kind = words == 3 && strcmp(word[2], "long") == 0 ? LONG : SHORT;
    bool named = words == 2 || asked->kind == LONG || strcmp(word[2], "short") == 0;
    return asked->processors != 0 && asked->tasks != 0 && named;
}

int main(int words, char **word)
{
    struct asked asked = { 0 };
    bool small = words == 4 && strcmp(word[3], "small") == 0;
    bool large = words == 3
        || (words >= 4 && strcmp(word[3], "large") == 0 && read_asked(&asked, words - 4, word + 4));
    uint32_t blocks = words >= 3 ? number_in(word[2], UINT32_MAX) : 0;
    if ((!small && !large) || blocks == 0) {
        fprintf(stderr,
            "usage: generate SEED BLOCKS [large [PROCESSORS TASKS [short | long]] | small]\n");
        return 2;
    }
    random_state = strtoull(word[1], NULL, 10);
    if (small)
        generate_small(blocks);
    else
        generate_large(blocks, asked);
    return 0;
}
