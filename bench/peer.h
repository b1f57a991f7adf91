/* What the bench needs of a library: three C calls and one more that is optional, made one after the other by one thread.
 *
 * A C file or a static archive with these calls is a peer. README.md says how to measure it beside this
 * library.
 *
 * peer_walk returns the sum of these numbers:
 *   ID, flags (octets 2 and 3) and the four counts;
 *   for each question the labels and octets of its name, its type and its class;
 *   for each record the labels and octets of its owner, its type, class and TTL, and its data.
 * Labels is the number of labels without the root, and octets the length of the uncompressed name. Data
 * is the address as a 32-bit number for A, the labels and octets of the name for NS and CNAME, and
 * RDLENGTH for other types.
 */

#ifndef PEER_H
#define PEER_H

#include <stddef.h>
#include <stdint.h>

/* Reads a message. Returns the sum, or a negative number if the message is refused. */
int64_t peer_walk(const uint8_t *message, size_t len);

/* Reads a message with all fields of its RDATA. Returns the same sum, but data is the sum of the fields: of a
 * number the number, of a name its labels and octets, and of any other field its octets. Optional. */
int64_t peer_fields(const uint8_t *message, size_t len);

/* Write the response w3, or the zone w4 with the first `owners` of its 500 owners, from scratch. Return
 * the length, or a negative number on failure. Names and data may be prepared beforehand. `variant` is
 * the number of a way of building, such as a compressor. peer_variant names all of them; if it is left
 * out, there is one. */
int64_t peer_response(int32_t variant, uint8_t *out, size_t room);
int64_t peer_zone(int32_t variant, int32_t owners, uint8_t *out, size_t room);

/* The name of a way of building, or null after the last one. Optional. */
const char *peer_variant(int32_t variant);

/* The octets of memory that the last message used and that are kept for the next one, such as a pool or
 * a buffer. Optional. */
size_t peer_kept(void);

#endif
