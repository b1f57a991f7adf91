/* Times a library on the messages of inputs.py, with the calls of peer.h. README.md says what is
 * measured.
 *
 *   messages PEER INPUTS WORKLOAD..          prints a row for each of the workloads and ways of building
 *   messages PEER INPUTS -n N WORKLOAD WAY   does one of them N times, for an instruction counter
 *
 * A line of INPUTS has a workload, its sum (`-` if the message has to be refused, `?` if it may be),
 * and its octets in hexadecimal. If it is built with COUNT_ALLOCATIONS defined, and with count.c, the
 * rows have allocations and octets of memory instead of times; with COUNT_INSTRUCTIONS, instructions
 * (counter.h).
 */

#include "counter.h"
#include "peer.h"

#include <inttypes.h>
#include <stdio.h>
#include <stdlib.h>
#include <string.h>
#include <time.h>

#pragma weak peer_fields
#pragma weak peer_variant
#pragma weak peer_kept

#ifdef COUNT_ALLOCATIONS
extern uint64_t allocations;
void start_counting(void);
uint64_t most_octets(void);
#endif

/* BATCH is that of ours.c. Multiples of it are timed. */
enum { RUNS = 15, MOST = 128, ROOM = 65535, BATCH = 64, DIGITS = 1 << 19, OWNERS = 500 };

struct input {
    char workload[8];
    char sum[24];
    uint8_t *octets;
    size_t len;
};

enum kind { WALK, FIELDS, RESPONSE, ZONE };

/* Inputs to read, or one message to write. */
struct task {
    enum kind kind;
    const struct input *first;
    size_t count;
    int32_t variant, owners;
};

static struct input inputs[MOST];
static size_t input_count;
static uint8_t out[ROOM];
static volatile int64_t kept;

static void fail(const char *what)
{
    fprintf(stderr, "messages: %s\n", what);
    exit(1);
}

/* The value of a hexadecimal digit of inputs.py. */
static int digit(char c)
{
    return c <= '9' ? c - '0' : c - 'a' + 10;
}

static void load(const char *path)
{
    static char digits[DIGITS];
    struct input next;
    FILE *file = fopen(path, "r");
    if (!file)
        fail("no inputs");
    while (fscanf(file, "%7s %23s %524287s", next.workload, next.sum, digits) == 3) {
        if (input_count == MOST)
            fail("too many inputs");
        next.len = strlen(digits) / 2;
        next.octets = malloc(next.len + 1);
        for (size_t i = 0; i < next.len; i++)
            next.octets[i] = (uint8_t)(digit(digits[2 * i]) << 4 | digit(digits[2 * i + 1]));
        inputs[input_count++] = next;
    }
    fclose(file);
}

/* w3 is the response, w4 the zone, and z with a number a zone with that number of owners. Of m40 all fields are
 * read. */
static enum kind kind_of(const char *workload)
{
    if (!strcmp(workload, "w3"))
        return RESPONSE;
    if (workload[0] == 'm')
        return FIELDS;
    return !strcmp(workload, "w4") || workload[0] == 'z' ? ZONE : WALK;
}

static struct task task_of(const char *workload, int32_t variant)
{
    struct task task = {kind_of(workload), NULL, 0, variant, OWNERS};
    for (size_t i = 0; i < input_count; i++)
        if (!strcmp(inputs[i].workload, workload)) {
            if (!task.first)
                task.first = &inputs[i];
            task.count++;
        }
    if (!task.first)
        fail("no such workload");
    if (workload[0] == 'z')
        task.owners = atoi(workload + 1);
    return task;
}

static int64_t read_message(const struct task *task, const struct input *input)
{
    if (task->kind == FIELDS)
        return peer_fields(input->octets, input->len);
    return peer_walk(input->octets, input->len);
}

static int64_t write_message(const struct task *task)
{
    if (task->kind == RESPONSE)
        return peer_response(task->variant, out, sizeof out);
    return peer_zone(task->variant, task->owners, out, sizeof out);
}

/* Does the task `times` times. */
static void run(const struct task *task, uint64_t times)
{
    for (uint64_t n = 0; n < times; n++)
        if (task->kind > FIELDS)
            kept = write_message(task);
        else
            for (size_t i = 0; i < task->count; i++)
                kept = read_message(task, &task->first[i]);
}

#ifdef COUNT_INSTRUCTIONS

static void report(const char *peer, const char *way, const struct task *task)
{
    uint64_t batch = task->kind > FIELDS ? BATCH : 1;
    run(task, batch);
    for (uint64_t times = batch; times <= 2 * batch; times += batch) {
        start_row(peer, task->first->workload, way, times);
        run(task, times);
        end_row();
    }
}

#else

static void print_row(const char *peer, const char *way, const struct task *task)
{
    printf("%-18s  %-19s  %-6s", peer, way, task->first->workload);
}

#ifdef COUNT_ALLOCATIONS

/* The allocator calls for one message after a warm-up, and the memory that it takes. */
static void report(const char *peer, const char *way, const struct task *task)
{
    run(task, BATCH);
    start_counting();
    run(task, BATCH);
    double calls = (double)allocations / BATCH / (double)task->count;
    uint64_t octets = most_octets() + (peer_kept ? peer_kept() : 0);
    print_row(peer, way, task);
    printf("  %12.2f  %12" PRIu64 "\n", calls, octets);
}

#else

/* How a written message differs from the expected one. Empty if it doesn't. */
static const char *difference_written(const struct task *task)
{
    static char text[32];
    const struct input *asked = task->first;
    int64_t len = write_message(task);
    if (len < 0 || peer_walk(out, (size_t)len) != strtoll(asked->sum, NULL, 10))
        return "FAILED";
    snprintf(text, sizeof text, "%+" PRId64 " octets", len - (int64_t)asked->len);
    return (size_t)len == asked->len ? "" : text;
}

/* How reading differs from what is expected: in its sum, or in which messages are accepted. */
static const char *difference_walked(const struct task *task)
{
    static char text[32];
    const struct input *asked = task->first;
    size_t taken = 0;
    for (size_t i = 0; i < task->count; i++)
        taken += read_message(task, &asked[i]) >= 0;
    snprintf(text, sizeof text, "%zu of %zu", taken, task->count);
    if (!strcmp(asked->sum, "?"))
        return text;
    if (!strcmp(asked->sum, "-"))
        return taken ? "TAKEN" : "";
    return read_message(task, asked) == strtoll(asked->sum, NULL, 10) ? "" : "FAILED";
}

/* The processor time in nanoseconds, which other work on the machine affects less. */
static double now(void)
{
    struct timespec t;
    clock_gettime(CLOCK_PROCESS_CPUTIME_ID, &t);
    return t.tv_sec * 1e9 + t.tv_nsec;
}

static int by_value(const void *left, const void *right)
{
    double a = *(const double *)left, b = *(const double *)right;
    return (a > b) - (a < b);
}

/* How many times the task has to be done to take some 30 ms. */
static uint64_t times_for(const struct task *task)
{
    for (uint64_t times = BATCH;; times *= 2) {
        double start = now();
        run(task, times);
        if (now() - start > 30e6)
            return times;
    }
}

static void report(const char *peer, const char *way, const struct task *task)
{
    double ns[RUNS];
    uint64_t times = times_for(task);
    for (int i = 0; i < RUNS; i++) {
        double start = now();
        run(task, times);
        ns[i] = (now() - start) / (double)times / (double)task->count;
    }
    qsort(ns, RUNS, sizeof *ns, by_value);
    print_row(peer, way, task);
    printf("  %12.1f  %12.1f  %s\n", ns[RUNS / 2], ns[0],
           task->kind <= FIELDS ? difference_walked(task) : difference_written(task));
}

#endif
#endif

static const char *way_of(int32_t variant)
{
    if (peer_variant)
        return peer_variant(variant);
    return variant ? NULL : "build";
}

/* Prints the row of reading, or those of all ways of building whose capacity the message doesn't exceed. */
static void report_all(const char *peer, const char *workload)
{
    struct task task = task_of(workload, 0);
    if (task.kind == FIELDS && !peer_fields)
        return;
    if (task.kind <= FIELDS) {
        report(peer, "walk", &task);
        return;
    }
    for (; way_of(task.variant); task.variant++)
        if (write_message(&task) >= 0)
            report(peer, way_of(task.variant), &task);
    fflush(stdout);
}

/* The number of a way of building. That of reading is 0. */
static int32_t variant_of(const char *way)
{
    int32_t variant = 0;
    if (!strcmp(way, "walk"))
        return 0;
    while (way_of(variant) && strcmp(way_of(variant), way))
        variant++;
    if (!way_of(variant))
        fail("no such way");
    return variant;
}

int main(int argc, char **argv)
{
    if (argc < 4)
        fail("PEER INPUTS WORKLOAD.. or PEER INPUTS -n N WORKLOAD WAY");
    load(argv[2]);
    if (argc == 7 && !strcmp(argv[3], "-n")) {
        struct task task = task_of(argv[5], variant_of(argv[6]));
        run(&task, strtoull(argv[4], NULL, 10));
        return 0;
    }
    for (int i = 3; i < argc; i++)
        report_all(argv[1], argv[i]);
    return 0;
}
