/* Times the exports of crates/bench. README.md says what is measured.
 *
 *   names                    prints a row for each compressor and workload
 *   names ROW WORKLOAD N     writes N messages of one row, for an instruction counter
 *
 * If it is built with COUNT_ALLOCATIONS defined, and with count.c, the rows
 * have allocations instead of times; with COUNT_INSTRUCTIONS, instructions (counter.h).
 */

#include "counter.h"

#include <inttypes.h>
#include <stdint.h>
#include <stdio.h>
#include <stdlib.h>
#include <string.h>
#include <time.h>

/* The names of a message, consecutive and in wire format, and how often the
 * message is written. */
struct work {
    const uint8_t *names;
    size_t names_len;
    size_t rounds;
};

/* Writes the names as one message, `rounds` times. Copies the last message to
 * `out`, and returns its length, or 0 on failure. */
typedef size_t compressor(const struct work *work, uint8_t *out, size_t out_len);

compressor dns_bench_static, dns_bench_tree, dns_bench_hash, dns_bench_index;
compressor dns_bench_fresh_static, dns_bench_fresh_tree;
compressor dns_bench_fresh_hash, dns_bench_fresh_index;

#ifdef COUNT_ALLOCATIONS
extern uint64_t allocations;
#endif

enum { RUNS = 15, ROWS = 8, WORKLOADS = 2, MOST = 1 << 14, STATIC_PLACES = 24 };

struct row {
    const char *name;
    compressor *write;
    int is_static;
};

static const struct row rows[ROWS] = {
    {"static", dns_bench_static, 1},
    {"tree", dns_bench_tree, 0},
    {"hash", dns_bench_hash, 0},
    {"index", dns_bench_index, 0},
    {"static, fresh", dns_bench_fresh_static, 1},
    {"tree, fresh", dns_bench_fresh_tree, 0},
    {"hash, fresh", dns_bench_fresh_hash, 0},
    {"index, fresh", dns_bench_fresh_index, 0},
};

struct workload {
    const char *name;
    uint8_t octets[MOST];
    size_t len;
    /* The length of the message if all names are compressed, and if the table
     * of the static compressor fills up. */
    size_t compressed, compressed_static;
    size_t rounds;
};

static struct workload workloads[WORKLOADS];
static uint8_t out[1 << 16];

static void fail(const char *row, const char *workload, const char *what)
{
    fprintf(stderr, "%s, %s: %s\n", row, workload, what);
    exit(1);
}

/* Appends a name, given as its labels joined by dots. Returns the octets that
 * it takes. */
static size_t add_name(struct workload *work, const char *text)
{
    size_t before = work->len;
    while (*text) {
        size_t label = strcspn(text, ".");
        work->octets[work->len++] = (uint8_t)label;
        memcpy(work->octets + work->len, text, label);
        work->len += label;
        text += label + (text[label] == '.');
    }
    work->octets[work->len++] = 0;
    return work->len - before;
}

/* The question's name and 500 owners under it. Each owner takes its first
 * label and a pointer. The table of the static compressor is full after the
 * first owners, and it writes the others uncompressed. */
static void fill_zone(struct workload *work)
{
    static const char parent[] = "sub.example.com";
    work->name = "zone";
    work->rounds = 256;
    work->compressed = work->compressed_static = add_name(work, parent);
    for (int i = 0, places = 3; i < 500; i++) {
        char text[32];
        int label = snprintf(text, sizeof text, "h%d", i);
        snprintf(text + label, sizeof text - label, ".%s", parent);
        size_t whole = add_name(work, text);
        work->compressed += 1 + (size_t)label + 2;
        work->compressed_static += places++ < STATIC_PLACES ? 1 + (size_t)label + 2 : whole;
    }
}

/* The names of a question and of its answer. */
static void fill_response(struct workload *work)
{
    work->name = "response";
    work->rounds = 1 << 17;
    work->compressed = add_name(work, "example.com") + 2;
    work->compressed_static = work->compressed;
    add_name(work, "example.com");
}

static void write_messages(const struct row *row, const struct workload *load, size_t rounds)
{
    struct work work = {load->octets, load->len, rounds};
    size_t want = row->is_static ? load->compressed_static : load->compressed;
    size_t len = row->write(&work, out, sizeof out);
    if (len != want)
        fail(row->name, load->name, "the message has another length");
}

#ifdef COUNT_INSTRUCTIONS

static void report(const struct row *row, const struct workload *work)
{
    for (size_t rounds = 10; rounds <= 30; rounds += 20) {
        start_row("names", work->name, row->name, rounds);
        write_messages(row, work, rounds);
        end_row();
    }
}

#elif defined COUNT_ALLOCATIONS

static double allocations_of(const struct row *row, const struct workload *work, size_t rounds)
{
    uint64_t before = allocations;
    write_messages(row, work, rounds);
    return (double)(allocations - before);
}

/* The allocator calls for one message after a warm-up. */
static void report(const struct row *row, const struct workload *work)
{
    double few = allocations_of(row, work, 8), more = allocations_of(row, work, 72);
    printf("%-14s %-9s %12.2f\n", row->name, work->name, (more - few) / 64);
}

#else

/* The processor time in nanoseconds, which other work on the machine affects less. */
static double now(void)
{
    struct timespec t;
    clock_gettime(CLOCK_PROCESS_CPUTIME_ID, &t);
    return t.tv_sec * 1e9 + t.tv_nsec;
}

static int by_value(const void *left, const void *right)
{
    double a = *(const double *)left, b = *(const double *)right;
    return (a > b) - (a < b);
}

static void report(const struct row *row, const struct workload *work)
{
    double ns[RUNS];
    write_messages(row, work, work->rounds);
    for (int i = 0; i < RUNS; i++) {
        double start = now();
        write_messages(row, work, work->rounds);
        ns[i] = (now() - start) / (double)work->rounds;
    }
    qsort(ns, RUNS, sizeof *ns, by_value);
    printf("%-14s %-9s %12.1f %12.1f\n", row->name, work->name, ns[RUNS / 2], ns[0]);
}

#endif

int main(int argc, char **argv)
{
    fill_zone(&workloads[0]);
    fill_response(&workloads[1]);
    for (int i = 0; i < ROWS; i++)
        for (int j = 0; j < WORKLOADS; j++)
            if (argc != 4)
                report(&rows[i], &workloads[j]);
            else if (!strcmp(argv[1], rows[i].name) && !strcmp(argv[2], workloads[j].name))
                write_messages(&rows[i], &workloads[j], strtoul(argv[3], NULL, 10));
    return 0;
}
