/* Rows of instructions that callgrind counts, for programs that are compiled with COUNT_INSTRUCTIONS defined (programs.py). */

#ifndef COUNTER_H
#define COUNTER_H

#ifdef COUNT_INSTRUCTIONS

#include <stdio.h>
#include <valgrind/callgrind.h>

static char row_name[256];

/* Counts from here on what it takes to do a work `times` times in a way. */
static inline void start_row(const char *library, const char *work, const char *way, unsigned long times)
{
    snprintf(row_name, sizeof row_name, "%s|%s|%s|%lu", library, work, way, times);
    CALLGRIND_ZERO_STATS;
}

/* Writes what was counted. */
static inline void end_row(void) { CALLGRIND_DUMP_STATS_AT(row_name); }

#endif

#endif
