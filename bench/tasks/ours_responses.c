/* The tasks of responses and of records as text with calls for users of Rattle, by the exports of crates/bench_tasks. */

#include "records.h"
#include "tasks.h"

#include <string.h>

size_t dns_bench_json(const uint8_t *octets, size_t octets_len, size_t rounds);
size_t dns_bench_reply(const uint8_t *query, size_t query_len, const uint8_t *reply, size_t reply_len, size_t rounds);
size_t dns_bench_stream(const uint8_t *octets, size_t octets_len, size_t rounds);
size_t dns_bench_transfer(const uint8_t *soa, size_t soa_len, const uint8_t *records, size_t records_len, size_t times);
size_t dns_bench_fit(const uint8_t *query, size_t query_len, size_t rounds);
size_t dns_bench_read_line(const uint8_t *line, size_t line_len, size_t rounds);
size_t dns_bench_print_line(const uint8_t *line, size_t line_len, size_t rounds);

/* How many messages the stream has. */
enum { MESSAGES = 64 };

/* The question of w2 as a query. */
static uint8_t query[W2_QUESTION];

/* w2 as messages of a stream, each after its length. */
static uint8_t stream[1 << 16];
static size_t stream_len;

static struct input w2, q1, x1, x2500;

void prepare(void)
{
    w2 = load_input("w2");
    q1 = load_input("q1");
    x1 = load_input("x1");
    x2500 = load_input("x2500");
    make_query(query, &w2);
    for (int i = 0; i < MESSAGES; i++) {
        stream[stream_len] = (uint8_t)(w2.len >> 8);
        stream[stream_len + 1] = (uint8_t)w2.len;
        memcpy(stream + stream_len + 2, w2.octets, w2.len);
        stream_len += 2 + w2.len;
    }
}

static size_t run_json(uint64_t times) { return dns_bench_json(w2.octets, w2.len, times); }

static size_t run_reply(uint64_t times)
{
    return dns_bench_reply(query, sizeof query, w2.octets, w2.len, times) ? w2.len : 0;
}

static size_t run_stream(uint64_t times)
{
    return dns_bench_stream(stream, stream_len, times) == MESSAGES ? stream_len : 0;
}

static size_t transfer(void)
{
    return dns_bench_transfer(x1.octets, x1.len, x2500.octets, x2500.len, TRANSFERRED);
}

static size_t run_fit(uint64_t times) { return dns_bench_fit(q1.octets, q1.len, times); }

static size_t read_line(const struct line *record, uint64_t times)
{
    return dns_bench_read_line((const uint8_t *)record->text, record->len, times);
}

static size_t print_line(const struct line *record, uint64_t times)
{
    return dns_bench_print_line((const uint8_t *)record->text, record->len, times);
}

struct task tasks[] = {
    {"20 addresses for q1", "respond, fit", .often = run_fit},
    {"w2 as a reply", "reply_to", .often = run_reply},
    {"w2 as JSON", "MessageJson", .often = run_json},
    {"a stream of 64 times w2", "StreamReader", .often = run_stream},
    {"a transfer of 100,000 records", "Transfer", .one = transfer},
    TASKS_OF_LINES("RecordText", print_line, "read_record", read_line),
    {.work = NULL},
};
