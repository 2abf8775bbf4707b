/* A debug build's checks of the state after each event (compile with -DSELF_CHECK). */
#ifndef SELF_CHECK_H
#define SELF_CHECK_H

#include "rules.h"

/* Forgets what was seen of an earlier state. */
void self_check_begin(const struct state *state);

/* Charges the step's ticks to each task, tick totals kept apart from the state's own. */
void self_check_charge(const struct state *state, uint32_t ticks);

/* Asserts what holds between events, and counts what occurred. */
void self_check_state(const struct state *state, enum answer answer);

/* Prints the counts on standard error. */
void self_check_report(void);

#endif
