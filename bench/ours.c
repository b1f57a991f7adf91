/* This library as a peer: the calls of peer.h, made with the exports of crates/bench.
 *
 * An export keeps nothing between two calls. So it parses the names and creates its target once for
 * a batch of messages: of BATCH calls for one message, the first writes all messages, and the others
 * return the length. The mean is the time of one message. The driver makes multiples of BATCH calls.
 */

#include "peer.h"

#include <stdio.h>
#include <string.h>

struct work {
    const uint8_t *names;
    size_t names_len;
    size_t rounds;
};

typedef size_t writer(uint32_t target, const struct work *work, uint8_t *out, size_t out_len);

uint64_t dns_bench_walk(const uint8_t *octets, size_t octets_len, uint32_t fields);
writer dns_bench_response, dns_bench_zone;

enum { BATCH = 64, VARIANTS = 14, OWNERS = 500 };

/* The message that is written, how often it was requested, and its length. */
struct written {
    int32_t variant, owners;
    size_t calls, len;
};

static const uint8_t apex[] = "\7example\3com";
static const uint8_t parent[] = "\3sub\7example\3com";

/* The parent and the owners under it, and the length of the names up to each owner. */
static uint8_t names[1 << 14];
static size_t names_len[OWNERS + 1];

static void fill_names(void)
{
    uint8_t *end = names + sizeof parent;
    memcpy(names, parent, sizeof parent);
    names_len[0] = sizeof parent;
    for (int i = 0; i < OWNERS; i++) {
        int len = sprintf((char *)end + 1, "h%d", i);
        *end = (uint8_t)len;
        memcpy(end + 1 + len, parent, sizeof parent);
        end += 1 + (size_t)len + sizeof parent;
        names_len[i + 1] = (size_t)(end - names);
    }
}

const char *peer_variant(int32_t variant)
{
    static const char *const variants[VARIANTS] = {
        "plain",        "static",        "tree",        "hash",        "index",
        "plain, fresh", "static, fresh", "tree, fresh", "hash, fresh", "index, fresh",
        "static, lent", "index, lent",   "array, fresh", "static, fresh, lent",
    };
    return variant < VARIANTS ? variants[variant] : NULL;
}

int64_t peer_walk(const uint8_t *message, size_t len)
{
    return (int64_t)dns_bench_walk(message, len, 0);
}

int64_t peer_fields(const uint8_t *message, size_t len)
{
    return (int64_t)dns_bench_walk(message, len, 1);
}

#ifdef COUNT_ALLOCATIONS

extern uint64_t left_out;

/* Excludes from the count the allocator calls with which the next batch parses its names. */
static void leave_out_names(writer *write, struct work work, int32_t variant, uint8_t *out,
                            size_t room)
{
    work.rounds = 0;
    left_out = UINT64_MAX;
    write((uint32_t)variant, &work, out, room);
    left_out = UINT64_MAX - left_out;
}

#else

static void leave_out_names(writer *write, struct work work, int32_t variant, uint8_t *out,
                            size_t room)
{
    (void)write, (void)work, (void)variant, (void)out, (void)room;
}

#endif

static int64_t write_batch(struct written written, writer *write, struct work work, uint8_t *out,
                           size_t room)
{
    static struct written last;
    if (written.variant != last.variant || written.owners != last.owners)
        last = written;
    if (last.calls++ % BATCH == 0) {
        leave_out_names(write, work, last.variant, out, room);
        last.len = write((uint32_t)last.variant, &work, out, room);
    }
    return last.len ? (int64_t)last.len : -1;
}

int64_t peer_response(int32_t variant, uint8_t *out, size_t room)
{
    struct work work = {apex, sizeof apex, BATCH};
    return write_batch((struct written){variant, -1, 0, 0}, dns_bench_response, work, out, room);
}

int64_t peer_zone(int32_t variant, int32_t owners, uint8_t *out, size_t room)
{
    if (!names_len[0])
        fill_names();
    struct work work = {names, names_len[owners], BATCH};
    return write_batch((struct written){variant, owners, 0, 0}, dns_bench_zone, work, out, room);
}
