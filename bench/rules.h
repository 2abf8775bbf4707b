/* The rules of Calviporum in C: set-ups and events judged, and the state stepped by accepted events.
   Written from the rules alone, apart from the proved program, so that the two can be compared. */
#ifndef RULES_H
#define RULES_H

#include <stdbool.h>
#include <stdint.h>

enum {
    PROCESSORS_LIMIT = 8,
    TASKS_LIMIT = 32,
    RESOURCES_LIMIT = 32,
    PAIRS_LIMIT = 64,
    OPEN_LIMIT = 8,
    NO_TASK = TASKS_LIMIT, /* in places that name a task or none */
    FORWARD_STEPS = 32768  /* steps below this go forward */
};

enum kind_of_resource { SHORT = 0, LONG = 1 };

enum kind_of_event { ARRIVE = 1, FINISH = 2, REQUEST = 3, COMPLETE = 4, PASS = 5 };

/* The numbers handed back by set-ups and events. */
enum answer {
    ACCEPTED = 0,
    COUNT_OUTSIDE = 1,
    PERIOD_ZERO = 2,
    KIND_UNKNOWN = 3,
    PAIR_UNKNOWN = 4,
    LONG_INSIDE_SHORT = 5,
    EVENT_UNKNOWN = 10,
    TASK_UNKNOWN = 11,
    RESOURCE_UNKNOWN = 12,
    UNUSED_FIELD = 13,
    STEP_BACKWARD = 14,
    CLOCK_PASSED = 15,
    ALREADY_PENDING = 16,
    TOO_EARLY = 17,
    NOT_PENDING = 18,
    JOB_SUSPENDED = 26, /* judged in 19's place */
    ON_NO_PROCESSOR = 19,
    JOB_SPINNING = 20,
    REQUEST_OPEN = 21,
    ALREADY_OPEN = 22,
    NESTING_WRONG = 23,
    EIGHT_OPEN = 24,
    NOT_NEWEST = 25
};
enum { ANSWERS = JOB_SUSPENDED + 1 };

/* The six tick totals in printed order: running, spinning, linked but not running, ready, direct blocking,
   suspended otherwise. ABSENT is where a task without a pending job stands. */
enum situation { RUNNING, SPINNING, LINKED, READY, DIRECT_BLOCKING, SUSPENDED_OTHERWISE, ABSENT };
enum { TOTALS = ABSENT, SITUATIONS = ABSENT + 1 };

struct pair {
    uint8_t outer, inner;
};

struct setup {
    uint8_t processors, tasks, resources, pairs;
    uint32_t start;
    uint16_t period[TASKS_LIMIT];
    uint8_t kind[RESOURCES_LIMIT];
    struct pair pair[PAIRS_LIMIT];
};

struct event {
    uint8_t kind, task, resource;
    uint16_t tick;
};

/* Sets of tasks, one bit for each. `direct_blocking` has the suspended jobs that are among the m
   highest-priority pending jobs, by own priority. */
struct standing {
    uint32_t pending, suspended, direct_blocking, spinning, linked, running;
};

/* A job's open requests, oldest first. Within a kind they are of one group, which the job holds. */
struct open_requests {
    uint8_t count;
    uint8_t count_of_kind[2];
    uint8_t group_of_kind[2]; /* read only where the count of that kind is not 0 */
    uint8_t resource[OPEN_LIMIT];
    uint32_t set; /* of resources, one bit for each */
};

/* Waiting tasks in the order they asked, in a ring. */
struct queue {
    uint8_t first, length;
    uint8_t task[TASKS_LIMIT];
};

struct state {
    struct setup setup;
    uint8_t group[RESOURCES_LIMIT]; /* each resource's group, named by its lowest resource */
    uint32_t clock;

    uint8_t linked[PROCESSORS_LIMIT];  /* each processor's linked task, or NO_TASK */
    uint8_t running[PROCESSORS_LIMIT]; /* each processor's running task, or NO_TASK */
    uint32_t unlinked;                 /* processors without a link, one bit for each */

    struct standing standing;
    uint32_t non_preemptable; /* holders and spinners of short groups */
    uint32_t arrived;         /* tasks that have a last arrival */
    uint32_t last_arrival[TASKS_LIMIT];
    /* Priorities as ranks: the deadline times 256 plus the task's number; a lower rank is higher. */
    uint64_t own[TASKS_LIMIT];
    uint64_t effective[TASKS_LIMIT];
    uint8_t higher[TASKS_LIMIT];      /* how many pending jobs are higher than a suspended one, by own */
    uint8_t running_on[TASKS_LIMIT];  /* a running job's processor */
    uint8_t waiting_for[TASKS_LIMIT]; /* the resource that a waiting job asked for */
    struct open_requests open[TASKS_LIMIT];

    uint8_t holder[RESOURCES_LIMIT]; /* by group: its holder, or NO_TASK */
    struct queue queue[RESOURCES_LIMIT];

    /* Ticks are charged when a task's situation changes: its totals are charged up to `charged_to`. */
    uint32_t charged_to[TASKS_LIMIT];
    uint32_t totals[TASKS_LIMIT][SITUATIONS];
};

/* 0 or the refusal 1 to 5 of a set-up. */
enum answer judge_setup(const struct setup *setup);

/* The state at the start of an accepted set-up. */
void begin(struct state *state, const struct setup *setup);

/* 0 or the refusal 10 to 26 that an event would be given. Changes nothing. */
enum answer judge_event(const struct state *state, const struct event *event);

/* Judges the event and, where it is accepted, takes the step. */
enum answer step(struct state *state, const struct event *event);

/* Charges all ticks up to the clock, so that `totals` can be read. */
void charge_all(struct state *state);

/* Where a task stands, by the sets given. */
enum situation situation_of(const struct standing *standing, unsigned task);

static inline uint32_t bit(unsigned number)
{
    return UINT32_C(1) << number;
}

static inline bool has(uint32_t set, unsigned number)
{
    return (set >> number & 1) != 0;
}

/* The lowest number in a set that is not empty. */
static inline unsigned lowest(uint32_t set)
{
    return (unsigned)__builtin_ctz(set);
}

#endif
