/* What the tasks of libknot allocate from: a pool that only counts up, instead of the pools of libknot's own server. */

#ifndef KNOT_POOL_H
#define KNOT_POOL_H

#include <libknot/libknot.h>
#include <stddef.h>
#include <stdint.h>

enum { POOL = 1 << 22 };

static _Alignas(16) uint8_t pool[POOL];
static size_t pool_used;

static void *take(void *context, size_t len)
{
    (void)context;
    len = (len + 15) & ~(size_t)15;
    if (len > POOL - pool_used)
        return NULL;
    pool_used += len;
    return pool + pool_used - len;
}

static void give_back(void *block)
{
    (void)block;
}

static knot_mm_t memory = {NULL, take, give_back};

/* Reads a message. Its packet is in the pool, after what is there. Returns NULL on failure. */
static inline knot_pkt_t *read_packet(const uint8_t *octets, size_t len)
{
    knot_pkt_t *packet = knot_pkt_new((uint8_t *)octets, (uint16_t)len, &memory);
    return knot_pkt_parse(packet, KNOT_PF_NOCANON) == KNOT_EOK ? packet : NULL;
}

#endif
