/* What times a task (tasks.c) needs of each library: a list of tasks, each done by one call. */

#ifndef TASKS_H
#define TASKS_H

#include <stddef.h>
#include <stdint.h>

/* A record as a line of a zone file. */
struct line {
    const char *text;
    size_t len;
};

/* A task: what is done, the way in which this library does it, and a call that does it once, or one that does it `times` times, or
 * one that does it with a record of records.h. The call returns the length in octets of what the task makes or reads, or another number that isn't 0; or 0 on failure. */
struct task {
    const char *work, *way;
    size_t (*one)(void);
    size_t (*often)(uint64_t times);
    size_t (*with)(const struct line *record, uint64_t times);
    const struct line *record;

    /* It takes too long for an instruction counter. */
    int uncounted;
};

/* The tasks of a library, up to one without a call. */
extern struct task tasks[];

/* Prepares what the tasks use, such as names in wire format. */
void prepare(void);

/* A message of inputs.py. */
struct input {
    const uint8_t *octets;
    size_t len;
};

/* The message of a workload, from the lines of inputs.py in the file that the variable INPUTS names. */
struct input load_input(const char *workload);

/* The octets of w2 up to the end of its question. */
enum { W2_QUESTION = 33 };

/* Makes the question of w2 a query with RD set. */
void make_query(uint8_t query[W2_QUESTION], const struct input *w2);

/* The client cookie of a query (RFC 7873 section 4). */
enum { COOKIE = 8 };

/* The messages that are written: a question and 20 addresses of one owner, and a question and 500 addresses of different
 * owners, as dig would show them:
 *
 *     www.example.com.          A     the question of the first
 *     www.example.com.    300   A     192.0.2.0 to 192.0.2.19
 *
 *     sub.example.com.          A     the question of the second
 *     h0.sub.example.com. 3600  A     10.0.0.0, and so on up to h499
 *
 * and the 20 RRSIG records of m40, after a question of type A for their owner. The query that is written asks for
 * www.example.com, type A, with RD and without EDNS. The message that is read is w2, if the work names no other.
 */
enum { ADDRESSES = 20, OWNERS = 500, SIGNATURES = 20, ADDRESS_TTL = 300, OWNER_TTL = 3600, ROOM = 65535 };

/* The messages of a transfer of 100,000 records between the first and the last, which are x1: so often x2500. */
enum { TRANSFERRED = 40 };

#endif
