#include "self_check.h"

#include <assert.h>
#include <stdio.h>
#include <string.h>

static uint32_t totals[TASKS_LIMIT][TOTALS];
static uint32_t pending_ticks[TASKS_LIMIT];

/* What occurred: answers by number, and events after which the named thing stood. */
static unsigned long answers[ANSWERS];
static unsigned long spinning, suspended, inheriting, queued_two, displaced, linked_waiting, nested;
static unsigned long direct_blocking, suspended_otherwise;

void self_check_begin(const struct state *state)
{
    (void)state;
    memset(totals, 0, sizeof totals);
    memset(pending_ticks, 0, sizeof pending_ticks);
}

void self_check_charge(const struct state *state, uint32_t ticks)
{
    for (unsigned t = 0; t < state->setup.tasks; t++) {
        enum situation situation = situation_of(&state->standing, t);
        if (situation != ABSENT)
            totals[t][situation] += ticks;
        if (has(state->standing.pending, t))
            pending_ticks[t] += ticks;
    }
}

/* The six sum to the ticks that the task has been pending. */
static void check_totals(const struct state *state)
{
    for (unsigned t = 0; t < state->setup.tasks; t++) {
        uint32_t expected[TOTALS], sum = 0;
        memcpy(expected, state->totals[t], sizeof expected);
        enum situation situation = situation_of(&state->standing, t);
        if (situation != ABSENT)
            expected[situation] += state->clock - state->charged_to[t];
        assert(memcmp(expected, totals[t], sizeof expected) == 0);
        for (unsigned i = 0; i < TOTALS; i++)
            sum += expected[i];
        assert(sum == pending_ticks[t]);
    }
}

/* Own priorities from arrivals, periods and numbers, without the ranks that the state keeps. */
static bool is_higher(const struct state *state, unsigned task, unsigned other)
{
    uint64_t deadline = (uint64_t)state->last_arrival[task] + state->setup.period[task];
    uint64_t others = (uint64_t)state->last_arrival[other] + state->setup.period[other];
    return deadline < others || (deadline == others && task < other);
}

/* A suspended job is in direct blocking exactly while it is one of the m highest-priority pending jobs. */
static void check_suspended(const struct state *state)
{
    assert((state->standing.direct_blocking & ~state->standing.suspended) == 0);
    for (unsigned t = 0; t < state->setup.tasks; t++) {
        unsigned higher = 0;
        if (!has(state->standing.suspended, t))
            continue;
        for (unsigned o = 0; o < state->setup.tasks; o++)
            if (has(state->standing.pending, o) && is_higher(state, o, t))
                higher++;
        enum situation expected = higher < state->setup.processors ? DIRECT_BLOCKING : SUSPENDED_OTHERWISE;
        assert(situation_of(&state->standing, t) == expected);
    }
}

/* The effective priority from the holders and queues, without what the state keeps of it. */
static uint64_t effective(const struct state *state, unsigned task)
{
    uint64_t rank = state->own[task];
    for (unsigned g = 0; g < state->setup.resources; g++) {
        const struct queue *queue = &state->queue[g];
        if (state->setup.kind[g] != LONG || state->holder[g] != task)
            continue;
        for (unsigned i = 0; i < queue->length; i++) {
            uint64_t other = state->own[queue->task[(queue->first + i) % TASKS_LIMIT]];
            rank = other < rank ? other : rank;
        }
    }
    return rank;
}

/* Linked jobs are exactly the highest-priority runnable ones, as many as there are processors. */
static void check_links(const struct state *state)
{
    uint32_t runnable = state->standing.pending & ~state->standing.suspended;
    assert((state->standing.linked & ~runnable) == 0);
    for (unsigned t = 0; t < state->setup.tasks; t++) {
        unsigned higher = 0;
        if (!has(runnable, t))
            continue;
        uint64_t rank = effective(state, t);
        assert(rank == state->effective[t]);
        for (unsigned o = 0; o < state->setup.tasks; o++)
            if (has(runnable, o) && effective(state, o) < rank)
                higher++;
        assert(has(state->standing.linked, t) == (higher < state->setup.processors));
    }
}

static void check_processors(const struct state *state)
{
    uint32_t linked = 0, running = 0;
    for (unsigned k = 0; k < state->setup.processors; k++) {
        unsigned link = state->linked[k], run = state->running[k];
        assert((link == NO_TASK) == (run == NO_TASK));
        assert((link == NO_TASK) == has(state->unlinked, k));
        if (link == NO_TASK)
            continue;
        assert(!has(linked, link) && !has(running, run));
        assert(state->running_on[run] == k);
        linked |= bit(link);
        running |= bit(run);
        assert(link == run || !has(state->standing.linked, run));
        assert(link == run || has(state->non_preemptable, run));
    }
    assert(linked == state->standing.linked && running == state->standing.running);
    assert((running & (state->standing.suspended | ~state->standing.pending)) == 0);
    assert((state->non_preemptable & ~running) == 0);
    assert((state->standing.spinning & ~state->non_preemptable) == 0);
}

/* Each job's open requests agree with the holders; the waiting jobs are those of the queues. */
static void check_locks(const struct state *state)
{
    uint32_t waiting = 0, short_holders = 0;
    for (unsigned g = 0; g < state->setup.resources; g++) {
        const struct queue *queue = &state->queue[g];
        unsigned holder = state->holder[g], kind = state->setup.kind[g];
        if (holder == NO_TASK) {
            assert(queue->length == 0);
            continue;
        }
        assert(state->group[g] == g && state->open[holder].count_of_kind[kind] > 0);
        assert(state->open[holder].group_of_kind[kind] == g);
        if (kind == SHORT)
            short_holders |= bit(holder);
        for (unsigned i = 0; i < queue->length; i++) {
            unsigned task = queue->task[(queue->first + i) % TASKS_LIMIT];
            assert(!has(waiting, task) && state->group[state->waiting_for[task]] == g);
            assert(has(kind == SHORT ? state->standing.spinning : state->standing.suspended, task));
            waiting |= bit(task);
        }
    }
    assert(waiting == (state->standing.spinning | state->standing.suspended));
    assert(state->non_preemptable == (short_holders | state->standing.spinning));
    for (unsigned t = 0; t < state->setup.tasks; t++)
        assert(!has(state->standing.suspended, t) || state->open[t].count == 0);
}

static void count_what_occurred(const struct state *state)
{
    const struct standing *standing = &state->standing;
    spinning += standing->spinning != 0;
    suspended += standing->suspended != 0;
    direct_blocking += standing->direct_blocking != 0;
    suspended_otherwise += (standing->suspended & ~standing->direct_blocking) != 0;
    displaced += (standing->running & ~standing->linked) != 0;
    linked_waiting += (standing->linked & ~standing->running) != 0;
    bool inherits = false, two = false, inner = false;
    for (unsigned t = 0; t < state->setup.tasks; t++) {
        inherits |= has(standing->pending, t) && state->effective[t] != state->own[t];
        inner |= state->open[t].count > 1;
    }
    for (unsigned g = 0; g < state->setup.resources; g++)
        two |= state->setup.kind[g] == LONG && state->queue[g].length > 1;
    inheriting += inherits;
    queued_two += two;
    nested += inner;
}

void self_check_state(const struct state *state, enum answer answer)
{
    answers[answer]++;
    check_totals(state);
    check_suspended(state);
    check_processors(state);
    check_links(state);
    check_locks(state);
    count_what_occurred(state);
}

void self_check_report(void)
{
    for (unsigned i = 0; i < ANSWERS; i++)
        if (answers[i] != 0)
            fprintf(stderr, "answer-%u %lu\n", i, answers[i]);
    fprintf(stderr, "spinning %lu\nsuspended %lu\ninheriting %lu\n", spinning, suspended, inheriting);
    fprintf(stderr, "long-queue-of-two %lu\nrunning-unlinked %lu\n", queued_two, displaced);
    fprintf(stderr, "linked-not-running %lu\nnested %lu\n", linked_waiting, nested);
    fprintf(stderr, "direct-blocking %lu\nsuspended-otherwise %lu\n", direct_blocking, suspended_otherwise);
}
