/* The stepping program: block file on standard input, steps and totals on standard output. */
#define _POSIX_C_SOURCE 200809L

#include <errno.h>
#include <stdlib.h>
#include <string.h>
#include <unistd.h>

#include "blocks.h"
#include "rules.h"

#ifdef SELF_CHECK
#include "self_check.h"
#endif

enum { BUFFER_BYTES = 1 << 16, LINE_BYTES = 96, COUNTER_BYTES = 12 };

/* ---- input */

struct input {
    size_t start, end;
    uint8_t bytes[BUFFER_BYTES];
};

/* The next block where it stands in the buffer, and its length; less than 512 only at the end. */
static const uint8_t *next_block(struct input *input, size_t *length)
{
    if (input->end - input->start < BLOCK_BYTES) {
        input->end -= input->start;
        memmove(input->bytes, input->bytes + input->start, input->end);
        input->start = 0;
    }
    while (input->end - input->start < BLOCK_BYTES) {
        ssize_t got = read(STDIN_FILENO, input->bytes + input->end, BUFFER_BYTES - input->end);
        if (got < 0 && errno == EINTR)
            continue;
        if (got <= 0)
            break;
        input->end += (size_t)got;
    }
    const uint8_t *block = input->bytes + input->start;
    size_t rest = input->end - input->start;
    *length = rest < BLOCK_BYTES ? rest : BLOCK_BYTES;
    input->start += *length;
    return block;
}

/* ---- output */

struct output {
    char *end;
    char bytes[BUFFER_BYTES];
};

static void flush(struct output *output)
{
    const char *from = output->bytes;
    while (from < output->end) {
        ssize_t put = write(STDOUT_FILENO, from, (size_t)(output->end - from));
        if (put < 0 && errno == EINTR)
            continue;
        if (put < 0)
            exit(1);
        from += put;
    }
    output->end = output->bytes;
}

/* Room for one line, of at most 96 bytes. */
static char *line_in(struct output *output)
{
    if (output->bytes + BUFFER_BYTES - output->end < LINE_BYTES)
        flush(output);
    return output->end;
}

static char *put_text(char *at, const char *text)
{
    size_t length = strlen(text);
    memcpy(at, text, length);
    return at + length;
}

static char *put_number(char *at, uint32_t number)
{
    char digits[10];
    unsigned length = 0;
    do {
        digits[length++] = (char)('0' + number % 10);
        number /= 10;
    } while (number != 0);
    while (length > 0)
        *at++ = digits[--length];
    return at;
}

/* The number of the last event, kept in decimal, its last digit at the array's end. */
struct counter {
    unsigned first;
    char digit[COUNTER_BYTES];
};

static void count_on(struct counter *counter)
{
    unsigned place = COUNTER_BYTES - 1;
    while (counter->digit[place] == '9')
        counter->digit[place--] = '0';
    counter->digit[place]++;
    if (place < counter->first)
        counter->first = place;
}

static void begin_counter(struct counter *counter)
{
    counter->first = COUNTER_BYTES - 1;
    memset(counter->digit, '0', sizeof counter->digit);
}

/* " linked/running" for each two tasks or none, filled up to eight bytes. */
struct placement_text {
    char text[7];
    uint8_t length;
};

static struct placement_text placement_texts[TASKS_LIMIT + 1][TASKS_LIMIT + 1];

static char *put_task(char *at, unsigned task)
{
    if (task != NO_TASK)
        return put_number(at, task);
    *at++ = '-';
    return at;
}

static void begin_placement_texts(void)
{
    for (unsigned linked = 0; linked <= NO_TASK; linked++)
        for (unsigned running = 0; running <= NO_TASK; running++) {
            struct placement_text *entry = &placement_texts[linked][running];
            char *at = entry->text;
            *at++ = ' ';
            at = put_task(at, linked);
            *at++ = '/';
            at = put_task(at, running);
            entry->length = (uint8_t)(at - entry->text);
        }
}

/* Copies the whole entry and keeps its length of it: the line's buffer has room past the line. */
static char *put_placement(char *at, unsigned linked, unsigned running)
{
    const struct placement_text *entry = &placement_texts[linked][running];
    memcpy(at, entry, sizeof *entry);
    return at + entry->length;
}

/* ---- lines */

static void print_first_line(struct output *output, const struct setup *setup)
{
    char *at = line_in(output);
    at = put_text(at, "processors ");
    at = put_number(at, setup->processors);
    at = put_text(at, " tasks ");
    at = put_number(at, setup->tasks);
    at = put_text(at, " start ");
    at = put_number(at, setup->start);
    *at++ = '\n';
    output->end = at;
}

static void print_event_line(struct output *output, const struct counter *counter,
    enum answer answer, const struct state *state)
{
    char *at = line_in(output);
    for (unsigned place = counter->first; place < COUNTER_BYTES; place++)
        *at++ = counter->digit[place];
    *at++ = ' ';
    if (answer >= 10)
        *at++ = (char)('0' + answer / 10);
    *at++ = (char)('0' + answer % 10);
    for (unsigned k = 0; k < state->setup.processors; k++)
        at = put_placement(at, state->linked[k], state->running[k]);
    *at++ = '\n';
    output->end = at;
}

static void print_totals(struct output *output, struct state *state)
{
    charge_all(state);
    for (unsigned t = 0; t < state->setup.tasks; t++) {
        char *at = line_in(output);
        at = put_text(at, "task ");
        at = put_number(at, t);
        for (unsigned i = 0; i < TOTALS; i++) {
            *at++ = ' ';
            at = put_number(at, state->totals[t][i]);
        }
        *at++ = '\n';
        output->end = at;
    }
}

static void print_block_refused(struct output *output, uint32_t index, enum block_answer answer)
{
    char *at = line_in(output);
    at = put_text(at, "block ");
    at = put_number(at, index);
    at = put_text(at, " refused ");
    at = put_number(at, answer);
    *at++ = '\n';
    output->end = at;
}

static void print_setup_refused(struct output *output, enum answer answer)
{
    char *at = line_in(output);
    at = put_text(at, "setup refused ");
    at = put_number(at, answer);
    *at++ = '\n';
    output->end = at;
}

/* ---- the program */

static void play(struct output *output, struct counter *counter, struct state *state,
    const uint8_t *block)
{
    unsigned count = record_count(block);
    for (unsigned place = 0; place < count; place++) {
        struct event event = read_event(block, place);
        enum answer answer = step(state, &event);
        count_on(counter);
        print_event_line(output, counter, answer, state);
    }
}

/* Plays block 0; true where the blocks of events follow. */
static bool play_setup(struct input *input, struct output *output, struct state *state)
{
    size_t length;
    struct setup setup;
    const uint8_t *block = next_block(input, &length);
    enum block_answer refused = judge_block(block, length, 0);
    if (refused != BLOCK_ACCEPTED) {
        print_block_refused(output, 0, refused);
        return false;
    }
    read_setup(block, &setup);
    enum answer answer = judge_setup(&setup);
    if (answer != ACCEPTED) {
        print_setup_refused(output, answer);
        return false;
    }
    begin(state, &setup);
    print_first_line(output, &setup);
    return true;
}

/* Plays the blocks of events up to the input's end or a refused block, and the totals. */
static void play_events(struct input *input, struct output *output, struct state *state)
{
    struct counter counter;
    begin_counter(&counter);
    for (uint32_t index = 1;; index++) {
        size_t length;
        const uint8_t *block = next_block(input, &length);
        if (length == 0)
            break;
        enum block_answer refused = judge_block(block, length, index);
        if (refused != BLOCK_ACCEPTED) {
            print_block_refused(output, index, refused);
            return;
        }
        play(output, &counter, state, block);
    }
    print_totals(output, state);
}

int main(void)
{
    static struct input input;
    static struct output output;
    static struct state state;
    output.end = output.bytes;
    begin_placement_texts();
    if (play_setup(&input, &output, &state))
        play_events(&input, &output, &state);
    flush(&output);
#ifdef SELF_CHECK
    self_check_report();
#endif
    return 0;
}
