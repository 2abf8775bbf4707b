/* Block files: 512 bytes a block, with number, kind, record count, payload and check. */
#ifndef BLOCKS_H
#define BLOCKS_H

#include <stddef.h>
#include <stdint.h>

#include "rules.h"

enum {
    BLOCK_BYTES = 512,
    CHECK_PLACE = 508,    /* the check's first byte */
    PAYLOAD_PLACE = 4,    /* the payload's first byte */
    EVENT_BYTES = 6,
    EVENTS_LIMIT = 84,    /* records in a block of events */
    BLOCKS_LIMIT = 1000000
};

enum kind_of_block { SETUP_BLOCK = 1, EVENTS_BLOCK = 2 };

/* The reader's refusals. */
enum block_answer {
    BLOCK_ACCEPTED = 0,
    BLOCK_SHORT = 30,
    CHECK_WRONG = 31,
    NUMBER_WRONG = 32,
    BLOCK_KIND_WRONG = 33,
    RECORD_COUNT_WRONG = 34,
    FILLER_NOT_ZERO = 35
};

/* 0 or the refusal 30 to 35 of the bytes that stand at a block's place. */
enum block_answer judge_block(const uint8_t *block, size_t length, uint32_t index);

/* The record count of an accepted block. */
unsigned record_count(const uint8_t *block);

/* The set-up of block 0, once accepted by the reader. */
void read_setup(const uint8_t *block, struct setup *setup);

/* The event at a place below the record count. */
struct event read_event(const uint8_t *block, unsigned place);

/* Writing: the payload into a block of zeros, then the header, then the check. */
void write_setup(uint8_t *block, const struct setup *setup);
void write_event(uint8_t *block, unsigned place, const struct event *event);
void write_header(uint8_t *block, uint32_t index, unsigned kind, unsigned count);
void write_check(uint8_t *block);

#endif
