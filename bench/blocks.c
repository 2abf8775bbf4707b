#include "blocks.h"

#include <stdbool.h>

/* Places in the block of a set-up. */
enum {
    COUNTS_PLACE = PAYLOAD_PLACE,
    START_PLACE = COUNTS_PLACE + 4,
    PERIODS_PLACE = START_PLACE + 4,
    KINDS_PLACE = PERIODS_PLACE + 2 * TASKS_LIMIT,
    PAIRS_PLACE = KINDS_PLACE + RESOURCES_LIMIT
};

/* Places in an event record. */
enum { KIND_PLACE = 0, TASK_PLACE = 1, RESOURCE_PLACE = 2, RESERVE_PLACE = 3, TICK_PLACE = 4 };

static uint16_t read_two(const uint8_t *bytes)
{
    return (uint16_t)(bytes[0] | bytes[1] << 8);
}

static void write_two(uint8_t *bytes, uint16_t value)
{
    bytes[0] = value & 0xff;
    bytes[1] = value >> 8;
}

/* The check of a block's first 508 bytes, first sum low. Neither sum passes 32 bits before its one
   reduction: the second is at most 254 * 255 / 2 times 65,535. */
static uint32_t check_of(const uint8_t *block)
{
    uint32_t first = 0, second = 0;
    for (unsigned place = 0; place < CHECK_PLACE; place += 2) {
        first += read_two(block + place);
        second += first;
    }
    return first % 65535 | second % 65535 << 16;
}

static uint32_t read_four(const uint8_t *bytes)
{
    return read_two(bytes) | (uint32_t)read_two(bytes + 2) << 16;
}

static void write_four(uint8_t *bytes, uint32_t value)
{
    write_two(bytes, value & 0xffff);
    write_two(bytes + 2, value >> 16);
}

static bool all_zero(const uint8_t *block, unsigned from, unsigned to)
{
    uint8_t seen = 0;
    for (unsigned place = from; place < to; place++)
        seen |= block[place];
    return seen == 0;
}

static unsigned at_most(unsigned count, unsigned limit)
{
    return count < limit ? count : limit;
}

static bool setup_filler_zero(const uint8_t *block)
{
    unsigned tasks = at_most(block[COUNTS_PLACE + 1], TASKS_LIMIT);
    unsigned resources = at_most(block[COUNTS_PLACE + 2], RESOURCES_LIMIT);
    unsigned pairs = at_most(block[COUNTS_PLACE + 3], PAIRS_LIMIT);
    return all_zero(block, PERIODS_PLACE + 2 * tasks, KINDS_PLACE)
        && all_zero(block, KINDS_PLACE + resources, PAIRS_PLACE)
        && all_zero(block, PAIRS_PLACE + 2 * pairs, CHECK_PLACE);
}

static bool events_filler_zero(const uint8_t *block)
{
    unsigned end = PAYLOAD_PLACE + EVENT_BYTES * record_count(block);
    uint8_t seen = 0;
    for (unsigned place = PAYLOAD_PLACE; place < end; place += EVENT_BYTES)
        seen |= block[place + RESERVE_PLACE];
    return seen == 0 && all_zero(block, end, CHECK_PLACE);
}

unsigned record_count(const uint8_t *block)
{
    return block[3];
}

enum block_answer judge_block(const uint8_t *block, size_t length, uint32_t index)
{
    if (length != BLOCK_BYTES)
        return BLOCK_SHORT;
    if (check_of(block) != read_four(block + CHECK_PLACE))
        return CHECK_WRONG;
    if (index >= BLOCKS_LIMIT || read_two(block) != index % 65536)
        return NUMBER_WRONG;
    if (block[2] != (index == 0 ? SETUP_BLOCK : EVENTS_BLOCK))
        return BLOCK_KIND_WRONG;
    unsigned count = record_count(block);
    if (count < 1 || count > (index == 0 ? 1 : EVENTS_LIMIT))
        return RECORD_COUNT_WRONG;
    if (index == 0 ? !setup_filler_zero(block) : !events_filler_zero(block))
        return FILLER_NOT_ZERO;
    return BLOCK_ACCEPTED;
}

void read_setup(const uint8_t *block, struct setup *setup)
{
    setup->processors = block[COUNTS_PLACE];
    setup->tasks = block[COUNTS_PLACE + 1];
    setup->resources = block[COUNTS_PLACE + 2];
    setup->pairs = block[COUNTS_PLACE + 3];
    setup->start = read_four(block + START_PLACE);
    for (unsigned t = 0; t < TASKS_LIMIT; t++)
        setup->period[t] = read_two(block + PERIODS_PLACE + 2 * t);
    for (unsigned r = 0; r < RESOURCES_LIMIT; r++)
        setup->kind[r] = block[KINDS_PLACE + r];
    for (unsigned p = 0; p < PAIRS_LIMIT; p++) {
        setup->pair[p].outer = block[PAIRS_PLACE + 2 * p];
        setup->pair[p].inner = block[PAIRS_PLACE + 2 * p + 1];
    }
}

struct event read_event(const uint8_t *block, unsigned place)
{
    const uint8_t *record = block + PAYLOAD_PLACE + EVENT_BYTES * place;
    return (struct event) {
        .kind = record[KIND_PLACE],
        .task = record[TASK_PLACE],
        .resource = record[RESOURCE_PLACE],
        .tick = read_two(record + TICK_PLACE),
    };
}

/* Places past a count are left as they are. */
void write_setup(uint8_t *block, const struct setup *setup)
{
    block[COUNTS_PLACE] = setup->processors;
    block[COUNTS_PLACE + 1] = setup->tasks;
    block[COUNTS_PLACE + 2] = setup->resources;
    block[COUNTS_PLACE + 3] = setup->pairs;
    write_four(block + START_PLACE, setup->start);
    for (unsigned t = 0; t < at_most(setup->tasks, TASKS_LIMIT); t++)
        write_two(block + PERIODS_PLACE + 2 * t, setup->period[t]);
    for (unsigned r = 0; r < at_most(setup->resources, RESOURCES_LIMIT); r++)
        block[KINDS_PLACE + r] = setup->kind[r];
    for (unsigned p = 0; p < at_most(setup->pairs, PAIRS_LIMIT); p++) {
        block[PAIRS_PLACE + 2 * p] = setup->pair[p].outer;
        block[PAIRS_PLACE + 2 * p + 1] = setup->pair[p].inner;
    }
}

void write_event(uint8_t *block, unsigned place, const struct event *event)
{
    uint8_t *record = block + PAYLOAD_PLACE + EVENT_BYTES * place;
    record[KIND_PLACE] = event->kind;
    record[TASK_PLACE] = event->task;
    record[RESOURCE_PLACE] = event->resource;
    write_two(record + TICK_PLACE, event->tick);
}

void write_header(uint8_t *block, uint32_t index, unsigned kind, unsigned count)
{
    write_two(block, index % 65536);
    block[2] = kind;
    block[3] = count;
}

void write_check(uint8_t *block)
{
    write_four(block + CHECK_PLACE, check_of(block));
}
