/* Messages as JSON and records as lines, of growing size, by the exports of crates/bench_tasks. */

#include "growing.h"

size_t dns_bench_json(const uint8_t *octets, size_t octets_len, size_t rounds);
size_t dns_bench_read_line(const uint8_t *line, size_t line_len, size_t rounds);
size_t dns_bench_print_line(const uint8_t *line, size_t line_len, size_t rounds);

static size_t print_json(const struct line *message, uint64_t times)
{
    return dns_bench_json((const uint8_t *)message->text, message->len, times);
}

static size_t print_line(const struct line *line, uint64_t times)
{
    return dns_bench_print_line((const uint8_t *)line->text, line->len, times);
}

static size_t read_line(const struct line *line, uint64_t times)
{
    return dns_bench_read_line((const uint8_t *)line->text, line->len, times);
}

const struct way ways[] = {
    {"read", "MessageJson", print_json},
    {"line", "RecordText", print_line},
    {"line", "read_record", read_line},
    {.name = NULL},
};
