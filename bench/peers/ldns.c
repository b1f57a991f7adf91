/* ldns as a peer: with its packets if PACKET is 1, and with its calls for records, which only read, if
 * it is 0.
 *
 * Packets are written to one buffer, and copied from there.
 */

#include "../peer.h"

#include <ldns/ldns.h>
#include <stdio.h>
#include <stdlib.h>
#include <string.h>

enum { OWNERS = 500, TTL = 3600 };

/* The buffer that packets are written to, and its capacity if the last message was written. */
static ldns_buffer *buffer;
static size_t buffer_used;

static int64_t header_sum(const uint8_t *message)
{
    int64_t sum = 0;
    for (int i = 0; i < LDNS_HEADER_SIZE; i += 2)
        sum += ldns_read_uint16(message + i);
    return sum;
}

static int64_t name_sum(const ldns_rdf *name)
{
    return (int64_t)(ldns_dname_label_count(name) + ldns_rdf_size(name));
}

static int64_t data_sum(const ldns_rr *record)
{
    int64_t sum = 0;
    switch (ldns_rr_get_type(record)) {
    case LDNS_RR_TYPE_A:
        return ldns_read_uint32(ldns_rdf_data(ldns_rr_rdf(record, 0)));
    case LDNS_RR_TYPE_NS:
    case LDNS_RR_TYPE_CNAME:
        return name_sum(ldns_rr_rdf(record, 0));
    default:
        for (size_t i = 0; i < ldns_rr_rd_count(record); i++)
            sum += (int64_t)ldns_rdf_size(ldns_rr_rdf(record, i));
        return sum;
    }
}

/* The sum of a field: of a number, of a name, or else of octets. */
static int64_t field_sum(const ldns_rdf *field)
{
    switch (ldns_rdf_get_type(field)) {
    case LDNS_RDF_TYPE_INT8:
    case LDNS_RDF_TYPE_ALG:
        return ldns_rdf_data(field)[0];
    case LDNS_RDF_TYPE_INT16:
    case LDNS_RDF_TYPE_TYPE:
        return ldns_read_uint16(ldns_rdf_data(field));
    case LDNS_RDF_TYPE_INT32:
    case LDNS_RDF_TYPE_TIME:
        return ldns_read_uint32(ldns_rdf_data(field));
    case LDNS_RDF_TYPE_DNAME:
        return name_sum(field);
    default:
        return (int64_t)ldns_rdf_size(field);
    }
}

static int64_t fields_sum(const ldns_rr *record)
{
    int64_t sum = 0;
    for (size_t i = 0; i < ldns_rr_rd_count(record); i++)
        sum += field_sum(ldns_rr_rdf(record, i));
    return sum;
}

/* What is read of items: questions, records, or records with all fields of their data. */
enum part { QUESTIONS, RECORDS, FIELDS };

/* The sum of a question or of a record, which have one type in ldns. */
static int64_t item_sum(const ldns_rr *item, enum part part)
{
    int64_t sum = name_sum(ldns_rr_owner(item)) + ldns_rr_get_type(item) + ldns_rr_get_class(item);
    if (part == QUESTIONS)
        return sum;
    return sum + ldns_rr_ttl(item) + (part == FIELDS ? fields_sum(item) : data_sum(item));
}

static int64_t walk(const uint8_t *message, size_t len, enum part part)
{
    if (len < LDNS_HEADER_SIZE)
        return -1;
    int64_t sum = header_sum(message);
    size_t place = LDNS_HEADER_SIZE;
    int questions = LDNS_QDCOUNT(message);
    int items = questions + LDNS_ANCOUNT(message) + LDNS_NSCOUNT(message) + LDNS_ARCOUNT(message);
    for (int i = 0; i < items; i++) {
        ldns_rr *item;
        ldns_pkt_section section = i < questions ? LDNS_SECTION_QUESTION : LDNS_SECTION_ANSWER;
        if (ldns_wire2rr(&item, message, len, &place, section) != LDNS_STATUS_OK)
            return -1;
        sum += item_sum(item, i < questions ? QUESTIONS : part);
        ldns_rr_free(item);
    }
    return sum;
}

static int64_t section_sum(const ldns_rr_list *items, enum part part)
{
    int64_t sum = 0;
    for (size_t i = 0; i < ldns_rr_list_rr_count(items); i++)
        sum += item_sum(ldns_rr_list_rr(items, i), part);
    return sum;
}

static int64_t walk_packet(const uint8_t *message, size_t len, enum part part)
{
    ldns_pkt *packet;
    if (ldns_wire2pkt(&packet, message, len) != LDNS_STATUS_OK)
        return -1;
    int64_t sum = header_sum(message) + section_sum(ldns_pkt_question(packet), QUESTIONS) +
                  section_sum(ldns_pkt_answer(packet), part) +
                  section_sum(ldns_pkt_authority(packet), part) +
                  section_sum(ldns_pkt_additional(packet), part);
    ldns_pkt_free(packet);
    return sum;
}

int64_t peer_walk(const uint8_t *message, size_t len)
{
    buffer_used = 0;
    return PACKET ? walk_packet(message, len, RECORDS) : walk(message, len, RECORDS);
}

int64_t peer_fields(const uint8_t *message, size_t len)
{
    buffer_used = 0;
    return PACKET ? walk_packet(message, len, FIELDS) : walk(message, len, FIELDS);
}

static ldns_rr *item_of(const char *text, bool is_question)
{
    ldns_rr *item;
    ldns_status status = is_question ? ldns_rr_new_question_frm_str(&item, text, NULL, NULL)
                                     : ldns_rr_new_frm_str(&item, text, TTL, NULL, NULL);
    if (status != LDNS_STATUS_OK)
        abort();
    return item;
}

static ldns_pkt *make_response(void)
{
    ldns_pkt *packet = ldns_pkt_new();
    ldns_pkt_set_qr(packet, true);
    ldns_pkt_set_rd(packet, true);
    ldns_pkt_set_ra(packet, true);
    ldns_pkt_set_ad(packet, true);
    ldns_pkt_push_rr(packet, LDNS_SECTION_QUESTION, item_of("example.com. IN A", true));
    ldns_pkt_push_rr(packet, LDNS_SECTION_ANSWER,
                     item_of("example.com. 3600 IN A 203.0.113.1", false));
    return packet;
}

static ldns_pkt *make_zone(int32_t owners)
{
    ldns_pkt *packet = ldns_pkt_new();
    ldns_pkt_set_id(packet, 0x1234);
    ldns_pkt_set_qr(packet, true);
    ldns_pkt_set_aa(packet, true);
    ldns_pkt_push_rr(packet, LDNS_SECTION_QUESTION, item_of("sub.example.com. IN AXFR", true));
    for (int i = 0; i < owners; i++) {
        char text[96];
        snprintf(text, sizeof text, "h%d.sub.example.com. 3600 IN A 10.0.%d.%d", i, i / 256,
                 i % 256);
        ldns_pkt_push_rr(packet, LDNS_SECTION_ANSWER, item_of(text, false));
    }
    return packet;
}

size_t peer_kept(void)
{
    return buffer_used;
}

const char *peer_variant(int32_t variant)
{
    return PACKET && variant == 0 ? "build" : NULL;
}

static int64_t write_packet(const ldns_pkt *packet, uint8_t *out, size_t room)
{
    if (!buffer)
        buffer = ldns_buffer_new(LDNS_MIN_BUFLEN);
    ldns_buffer_clear(buffer);
    if (ldns_pkt2buffer_wire(buffer, packet) != LDNS_STATUS_OK)
        return -1;
    size_t len = ldns_buffer_position(buffer);
    if (len > room)
        return -1;
    memcpy(out, ldns_buffer_begin(buffer), len);
    buffer_used = ldns_buffer_capacity(buffer);
    return (int64_t)len;
}

int64_t peer_response(int32_t variant, uint8_t *out, size_t room)
{
    static ldns_pkt *response;
    (void)variant;
    if (!response)
        response = make_response();
    return write_packet(response, out, room);
}

int64_t peer_zone(int32_t variant, int32_t owners, uint8_t *out, size_t room)
{
    static ldns_pkt *zones[OWNERS + 1];
    (void)variant;
    if (!zones[owners])
        zones[owners] = make_zone(owners);
    return write_packet(zones[owners], out, room);
}
