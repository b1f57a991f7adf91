/* Messages of growing size, written and read, by the exports of crates/bench. */

#include "growing.h"

struct work {
    const uint8_t *names;
    size_t names_len;
    size_t rounds;
};

size_t dns_bench_zone(uint32_t target, const struct work *work, uint8_t *out, size_t out_len);
uint64_t dns_bench_walk(const uint8_t *octets, size_t octets_len, uint32_t fields);

static uint8_t out[1 << 22];

/* Writes a message with a target of this number, which is emptied before each. */
static size_t write_to(uint32_t target, const struct line *names, uint64_t times)
{
    const struct work work = {(const uint8_t *)names->text, names->len, times};
    return dns_bench_zone(target, &work, out, sizeof out);
}

static size_t write_plain(const struct line *names, uint64_t times) { return write_to(0, names, times); }
static size_t write_static(const struct line *names, uint64_t times) { return write_to(1, names, times); }
static size_t write_tree(const struct line *names, uint64_t times) { return write_to(2, names, times); }
static size_t write_hash(const struct line *names, uint64_t times) { return write_to(3, names, times); }
static size_t write_index(const struct line *names, uint64_t times) { return write_to(4, names, times); }

static size_t read_message(const struct line *message, uint64_t times)
{
    uint64_t sum = 0;
    for (uint64_t n = 0; n < times; n++)
        sum = dns_bench_walk((const uint8_t *)message->text, message->len, 0);
    return sum != UINT64_MAX;
}

const struct way ways[] = {
    {"write", "plain", write_plain}, {"write", "static", write_static}, {"write", "index", write_index},
    {"write", "hash", write_hash},   {"write", "tree", write_tree},     {"read", "Message", read_message},
    {.name = NULL},
};
