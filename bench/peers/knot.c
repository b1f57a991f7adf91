/* libknot as a peer: with its packets if PACKET is 1, and with its calls for names, numbers and
 * records if it is 0.
 *
 * A packet allocates from a pool that only counts up, instead of the pools of libknot's own server.
 */

#include "../peer.h"

#include <libknot/libknot.h>
#include <stdbool.h>
#include <stdio.h>
#include <stdlib.h>
#include <string.h>

enum { OWNERS = 500, TTL = 3600, POOL = 1 << 20 };

static _Alignas(16) uint8_t pool[POOL];
static size_t pool_used;

static void *take(void *context, size_t len)
{
    (void)context;
    len = (len + 15) & ~(size_t)15;
    if (len > POOL - pool_used)
        return NULL;
    pool_used += len;
    return pool + pool_used - len;
}

static void give_back(void *block)
{
    (void)block;
}

static knot_mm_t memory = {NULL, take, give_back};

size_t peer_kept(void)
{
    return pool_used;
}

/* The sum of the numbers of the header. */
static int64_t header_sum(const uint8_t *message)
{
    int64_t sum = 0;
    for (int i = 0; i < KNOT_WIRE_HEADER_SIZE; i += 2)
        sum += knot_wire_read_u16(message + i);
    return sum;
}

/* A message, the offset of what is read next, and the sum of what was read. */
struct reader {
    const uint8_t *message;
    size_t len, place;
    int64_t sum;
};

static bool read_name(struct reader *reader, size_t end)
{
    const uint8_t *message = reader->message, *name = message + reader->place;
    int octets = knot_dname_wire_check(name, message + end, message);
    if (octets <= 0)
        return false;
    const uint8_t *label = knot_wire_seek_label(name, message);
    size_t labels = knot_dname_labels(label, message);
    reader->sum += (int64_t)(labels + knot_dname_realsize(label, message));
    reader->place += (size_t)octets;
    return true;
}

static bool read_question(struct reader *reader)
{
    if (!read_name(reader, reader->len) || reader->len - reader->place < 4)
        return false;
    const uint8_t *numbers = reader->message + reader->place;
    reader->sum += knot_wire_read_u16(numbers) + knot_wire_read_u16(numbers + 2);
    reader->place += 4;
    return true;
}

static bool read_data(struct reader *reader, uint16_t type, size_t octets)
{
    size_t end = reader->place + octets;
    switch (type) {
    case KNOT_RRTYPE_A:
        if (octets != 4)
            return false;
        reader->sum += knot_wire_read_u32(reader->message + reader->place);
        break;
    case KNOT_RRTYPE_NS:
    case KNOT_RRTYPE_CNAME:
        if (!read_name(reader, end) || reader->place != end)
            return false;
        break;
    default:
        reader->sum += (int64_t)octets;
    }
    reader->place = end;
    return true;
}

static bool read_record(struct reader *reader)
{
    if (!read_name(reader, reader->len) || reader->len - reader->place < 10)
        return false;
    const uint8_t *numbers = reader->message + reader->place;
    uint16_t type = knot_wire_read_u16(numbers);
    size_t octets = knot_wire_read_u16(numbers + 8);
    int64_t class_and_ttl = knot_wire_read_u16(numbers + 2) + (int64_t)knot_wire_read_u32(numbers + 4);
    reader->sum += type + class_and_ttl;
    reader->place += 10;
    return reader->len - reader->place >= octets && read_data(reader, type, octets);
}

static int64_t walk(const uint8_t *message, size_t len)
{
    if (len < KNOT_WIRE_HEADER_SIZE)
        return -1;
    struct reader reader = {message, len, KNOT_WIRE_HEADER_SIZE, header_sum(message)};
    int questions = knot_wire_get_qdcount(message);
    int records = knot_wire_get_ancount(message) + knot_wire_get_nscount(message);
    records += knot_wire_get_arcount(message);
    for (; questions > 0; questions--)
        if (!read_question(&reader))
            return -1;
    for (; records > 0; records--)
        if (!read_record(&reader))
            return -1;
    return reader.sum;
}

static int64_t name_sum(const knot_dname_t *name)
{
    return (int64_t)(knot_dname_labels(name, NULL) + knot_dname_size(name));
}

static int64_t data_sum(uint16_t type, const knot_rdata_t *data)
{
    switch (type) {
    case KNOT_RRTYPE_A:
        return knot_wire_read_u32(data->data);
    case KNOT_RRTYPE_NS:
    case KNOT_RRTYPE_CNAME:
        return name_sum(data->data);
    default:
        return data->len;
    }
}

static int64_t fields_sum(uint16_t type, const knot_rdata_t *data)
{
    switch (type) {
    case KNOT_RRTYPE_MX:
        return knot_wire_read_u16(data->data) + name_sum(knot_mx_name(data));
    case KNOT_RRTYPE_RRSIG:
        return (int64_t)knot_rrsig_type_covered(data) + knot_rrsig_alg(data) + knot_rrsig_labels(data) +
               knot_rrsig_original_ttl(data) + (int64_t)knot_rrsig_sig_expiration(data) +
               knot_rrsig_sig_inception(data) + knot_rrsig_key_tag(data) +
               name_sum(knot_rrsig_signer_name(data)) + knot_rrsig_signature_len(data);
    default:
        return data_sum(type, data);
    }
}

static int64_t record_sum(const knot_rrset_t *record, bool fields)
{
    const knot_rdata_t *data = record->rrs.rdata;
    int64_t sum = name_sum(record->owner) + record->type + record->rclass + (int64_t)record->ttl;
    return sum + (fields ? fields_sum(record->type, data) : data_sum(record->type, data));
}

/* The fields of each record are read from its data as libknot keeps it, with names uncompressed. */
static int64_t walk_fields(const uint8_t *message, size_t len)
{
    if (len < KNOT_WIRE_HEADER_SIZE)
        return -1;
    struct reader reader = {message, len, KNOT_WIRE_HEADER_SIZE, header_sum(message)};
    int questions = knot_wire_get_qdcount(message);
    int records = knot_wire_get_ancount(message) + knot_wire_get_nscount(message);
    records += knot_wire_get_arcount(message);
    for (; questions > 0; questions--)
        if (!read_question(&reader))
            return -1;
    pool_used = 0;
    for (; records > 0; records--) {
        knot_rrset_t record;
        if (knot_rrset_rr_from_wire(message, &reader.place, len, &record, &memory, false) != KNOT_EOK)
            return -1;
        reader.sum += record_sum(&record, true);
    }
    return reader.sum;
}

static int64_t section_sum(const knot_pktsection_t *section, bool fields)
{
    int64_t sum = 0;
    for (uint16_t i = 0; i < section->count; i++)
        sum += record_sum(knot_pkt_rr(section, i), fields);
    return sum;
}

static int64_t walk_packet(const uint8_t *message, size_t len, bool fields)
{
    pool_used = 0;
    knot_pkt_t *packet = knot_pkt_new((uint8_t *)message, (uint16_t)len, &memory);
    int answer = knot_pkt_parse(packet, KNOT_PF_NOCANON);
    if (answer != KNOT_EOK && answer != KNOT_ETRAIL)
        return -1;
    int64_t sum = header_sum(message);
    if (knot_wire_get_qdcount(message) == 1)
        sum += name_sum(knot_pkt_qname(packet)) + knot_pkt_qtype(packet) + knot_pkt_qclass(packet);
    return sum + section_sum(knot_pkt_section(packet, KNOT_ANSWER), fields) +
           section_sum(knot_pkt_section(packet, KNOT_AUTHORITY), fields) +
           section_sum(knot_pkt_section(packet, KNOT_ADDITIONAL), fields);
}

int64_t peer_walk(const uint8_t *message, size_t len)
{
    return PACKET ? walk_packet(message, len, false) : walk(message, len);
}

int64_t peer_fields(const uint8_t *message, size_t len)
{
    return PACKET ? walk_packet(message, len, true) : walk_fields(message, len);
}

/* The content of a message: the numbers of its header, its question and its answers. */
struct content {
    uint16_t id;
    uint8_t flags1, flags2;
    knot_dname_t *asked;
    uint16_t type, count;
    const knot_rrset_t *answers;
    /* libknot's hint for where owners are encoded already, if that is known. */
    uint16_t hint;
};

static void make_address(knot_rrset_t *record, const char *owner, const uint8_t *address)
{
    knot_rrset_init(record, knot_dname_from_str_alloc(owner), KNOT_RRTYPE_A, KNOT_CLASS_IN, TTL);
    if (knot_rrset_add_rdata(record, address, 4, NULL) != KNOT_EOK)
        abort();
}

static const struct content *response(void)
{
    static struct content content;
    static knot_rrset_t answer;
    if (!content.asked) {
        knot_dname_t *apex = knot_dname_from_str_alloc("example.com.");
        make_address(&answer, "example.com.", (const uint8_t[]){203, 0, 113, 1});
        content = (struct content){0, 0x81, 0xA0, apex, KNOT_RRTYPE_A, 1, &answer, KNOT_COMPR_HINT_QNAME};
    }
    return &content;
}

static void make_hosts(knot_rrset_t *hosts)
{
    for (int i = 0; i < OWNERS; i++) {
        char owner[32];
        snprintf(owner, sizeof owner, "h%d.sub.example.com.", i);
        make_address(&hosts[i], owner, (const uint8_t[]){10, 0, (uint8_t)(i / 256), (uint8_t)i});
    }
}

static const struct content *zone(int32_t owners)
{
    static struct content content;
    static knot_rrset_t hosts[OWNERS];
    if (!content.asked) {
        knot_dname_t *parent = knot_dname_from_str_alloc("sub.example.com.");
        make_hosts(hosts);
        content = (struct content){0x1234, 0x84, 0, parent, KNOT_RRTYPE_AXFR, 0, hosts, KNOT_COMPR_HINT_NONE};
    }
    content.count = (uint16_t)owners;
    return &content;
}

static void write_header(uint8_t *out, const struct content *content)
{
    memset(out, 0, KNOT_WIRE_HEADER_SIZE);
    knot_wire_set_id(out, content->id);
    knot_wire_set_flags1(out, content->flags1);
    knot_wire_set_flags2(out, content->flags2);
}

/* Writes the question. Returns the length of the header and the question, or 0 on failure. */
static size_t write_question(uint8_t *out, size_t room, const struct content *content)
{
    uint8_t *name = out + KNOT_WIRE_HEADER_SIZE;
    int octets = knot_dname_to_wire(name, content->asked, room - KNOT_WIRE_HEADER_SIZE);
    if (octets < 0 || room - KNOT_WIRE_HEADER_SIZE - (size_t)octets < 4)
        return 0;
    knot_wire_write_u16(name + octets, content->type);
    knot_wire_write_u16(name + octets + 2, KNOT_CLASS_IN);
    return KNOT_WIRE_HEADER_SIZE + (size_t)octets + 4;
}

/* Owners are compressed as a packet compresses them: against the question's name and the last owner. */
static int64_t write_content(const struct content *content, uint8_t *out, size_t room)
{
    write_header(out, content);
    size_t len = write_question(out, room, content);
    if (len == 0)
        return -1;
    knot_wire_set_qdcount(out, 1);
    knot_wire_set_ancount(out, content->count);
    knot_rrinfo_t info = {0};
    int labels = knot_dname_labels(content->asked, NULL);
    knot_compr_t compressor = {out, &info, {KNOT_WIRE_HEADER_SIZE, (uint8_t)labels}};
    for (uint16_t i = 0; i < content->count; i++) {
        info.pos = (uint16_t)len;
        info.compress_ptr[0] = content->hint;
        int octets = knot_rrset_to_wire_extra(&content->answers[i], out + len, (uint32_t)(room - len),
                                              0, &compressor, 0);
        if (octets < 0)
            return -1;
        len += (size_t)octets;
    }
    return (int64_t)len;
}

/* Writes the message with a packet over `out`. */
static int64_t write_packet(const struct content *content, uint8_t *out, size_t room)
{
    pool_used = 0;
    knot_pkt_t *packet = knot_pkt_new(out, (uint16_t)room, &memory);
    knot_pkt_clear(packet);
    packet->max_size = room;
    write_header(out, content);
    if (knot_pkt_put_question(packet, content->asked, KNOT_CLASS_IN, content->type) != KNOT_EOK ||
        knot_pkt_begin(packet, KNOT_ANSWER) != KNOT_EOK)
        return -1;
    for (uint16_t i = 0; i < content->count; i++)
        if (knot_pkt_put(packet, content->hint, &content->answers[i], 0) != KNOT_EOK)
            return -1;
    return (int64_t)packet->size;
}

static int64_t write_message(const struct content *content, uint8_t *out, size_t room)
{
    return PACKET ? write_packet(content, out, room) : write_content(content, out, room);
}

int64_t peer_response(int32_t variant, uint8_t *out, size_t room)
{
    (void)variant;
    return write_message(response(), out, room);
}

int64_t peer_zone(int32_t variant, int32_t owners, uint8_t *out, size_t room)
{
    (void)variant;
    return write_message(zone(owners), out, room);
}
