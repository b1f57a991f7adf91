/* The tasks of whole messages with the packets of libknot. The hint says where the owner was written: libknot's server knows it
 * for the owner of the question. */

#include "knot_pool.h"
#include "tasks.h"

#include <libknot/libknot.h>
#include <stdio.h>
#include <stdlib.h>
#include <string.h>

static uint8_t out[ROOM];
static knot_rrset_t addresses[ADDRESSES], all_addresses, owners[OWNERS], signatures[SIGNATURES];
static knot_dname_t *www, *parent;
static knot_dump_style_t style;
static struct input w2, m40, q1, f64, h64, p64, x1, x2500;

/* Copies of w2 and f64, of which the TTLs are lowered. */
static struct input w2_copy, f64_copy;

static void set_address(knot_rrset_t *record, const char *owner, uint32_t ttl, const uint8_t *octets)
{
    knot_rrset_init(record, knot_dname_from_str_alloc(owner), KNOT_RRTYPE_A, KNOT_CLASS_IN, ttl);
    if (knot_rrset_add_rdata(record, octets, 4, NULL) != KNOT_EOK)
        abort();
}

/* Keeps the RRSIG records of m40, to be put. */
static void keep_signatures(void)
{
    const knot_pkt_t *packet = read_packet(m40.octets, m40.len);
    for (uint16_t i = 0, kept = 0; i < packet->rrset_count && kept < SIGNATURES; i++)
        if (packet->rr[i].type == KNOT_RRTYPE_RRSIG)
            signatures[kept++] = *knot_rrset_copy(&packet->rr[i], NULL);
}

void prepare(void)
{
    style = KNOT_DUMP_STYLE_DEFAULT;
    style.show_class = true;
    www = knot_dname_from_str_alloc("www.example.com.");
    parent = knot_dname_from_str_alloc("sub.example.com.");
    w2 = load_input("w2");
    m40 = load_input("m40");
    q1 = load_input("q1");
    f64 = load_input("f64");
    h64 = load_input("h64");
    p64 = load_input("p64");
    x1 = load_input("x1");
    x2500 = load_input("x2500");
    w2_copy = load_input("w2");
    f64_copy = load_input("f64");
    keep_signatures();
    for (int i = 0; i < ADDRESSES; i++) {
        set_address(&addresses[i], "www.example.com.", ADDRESS_TTL, (const uint8_t[]){192, 0, 2, (uint8_t)i});
        if (i == 0)
            set_address(&all_addresses, "www.example.com.", ADDRESS_TTL, (const uint8_t[]){192, 0, 2, 0});
        else if (knot_rrset_add_rdata(&all_addresses, (const uint8_t[]){192, 0, 2, (uint8_t)i}, 4, NULL) != KNOT_EOK)
            abort();
    }
    for (int i = 0; i < OWNERS; i++) {
        char owner[32];
        snprintf(owner, sizeof owner, "h%d.sub.example.com.", i);
        set_address(&owners[i], owner, OWNER_TTL, (const uint8_t[]){10, 0, (uint8_t)(i / 256), (uint8_t)i});
    }
}

/* Writes a question and records with a new packet over `out`. Returns the length, or 0 on failure. */
static size_t write_packet(const knot_dname_t *asked, const knot_rrset_t *records, int count, uint16_t hint, uint16_t room)
{
    pool_used = 0;
    knot_pkt_t *packet = knot_pkt_new(out, room, &memory);
    knot_pkt_clear(packet);
    packet->max_size = room;
    knot_wire_set_id(packet->wire, 1);
    knot_wire_set_qr(packet->wire);
    if (knot_pkt_put_question(packet, asked, KNOT_CLASS_IN, KNOT_RRTYPE_A) != KNOT_EOK ||
        knot_pkt_begin(packet, KNOT_ANSWER) != KNOT_EOK)
        return 0;
    for (int i = 0; i < count; i++)
        if (knot_pkt_put(packet, hint, &records[i], 0) != KNOT_EOK)
            return 0;
    return packet->size;
}

static size_t write_hinted(void) { return write_packet(www, addresses, ADDRESSES, KNOT_COMPR_HINT_QNAME, 1232); }
static size_t write_addresses(void) { return write_packet(www, addresses, ADDRESSES, KNOT_COMPR_HINT_NONE, 1232); }
static size_t write_set(void) { return write_packet(www, &all_addresses, 1, KNOT_COMPR_HINT_QNAME, 1232); }
static size_t write_owners(void) { return write_packet(parent, owners, OWNERS, KNOT_COMPR_HINT_NONE, ROOM); }
static size_t write_signatures(void) { return write_packet(signatures[0].owner, signatures, SIGNATURES, KNOT_COMPR_HINT_QNAME, ROOM); }

static size_t write_query(void)
{
    pool_used = 0;
    knot_pkt_t *packet = knot_pkt_new(out, 512, &memory);
    knot_pkt_clear(packet);
    knot_wire_set_id(packet->wire, 1);
    knot_wire_set_rd(packet->wire);
    return knot_pkt_put_question(packet, www, KNOT_CLASS_IN, KNOT_RRTYPE_A) == KNOT_EOK ? packet->size : 0;
}

static size_t read_message(const struct input *from)
{
    pool_used = 0;
    const knot_pkt_t *packet = read_packet(from->octets, from->len);
    return packet ? packet->size : 0;
}

static size_t read_items(void) { return read_message(&w2); }
static size_t read_f64(void) { return read_message(&f64); }
static size_t read_h64(void) { return read_message(&h64); }
static size_t read_p64(void) { return read_message(&p64); }
static size_t read_data(void) { return read_message(&m40); }

/* Reads a message, and lowers the TTLs of its records by a second, but that of OPT. */
static size_t age(const struct input *from)
{
    pool_used = 0;
    const knot_pkt_t *packet = read_packet(from->octets, from->len);
    for (uint16_t i = 0; packet && i < packet->rrset_count; i++) {
        uint8_t *owner = packet->wire + packet->rr_info[i].pos;
        const int size = knot_dname_wire_check(owner, packet->wire + packet->size, packet->wire);
        if (size <= 0)
            return 0;
        const uint32_t ttl = knot_wire_read_u32(owner + size + 4);
        if (packet->rr[i].type != KNOT_RRTYPE_OPT)
            knot_wire_write_u32(owner + size + 4, ttl > 0 ? ttl - 1 : 0);
    }
    return packet ? packet->size : 0;
}

static size_t age_w2(void) { return age(&w2_copy); }
static size_t age_f64(void) { return age(&f64_copy); }

/* Reads the messages of a transfer. */
static size_t transfer(void)
{
    size_t count = 0;
    if (!read_message(&x1))
        return 0;
    for (int i = 0; i < TRANSFERRED; i++) {
        pool_used = 0;
        const knot_pkt_t *packet = read_packet(x2500.octets, x2500.len);
        count += packet ? packet->rrset_count : 0;
    }
    return read_message(&x1) ? count : 0;
}

static size_t read_addresses(void)
{
    static uint8_t address[4];
    pool_used = 0;
    const knot_pkt_t *packet = read_packet(w2.octets, w2.len);
    const knot_pktsection_t *answers = packet ? knot_pkt_section(packet, KNOT_ANSWER) : NULL;
    for (uint16_t i = 0; answers && i < answers->count; i++)
        if (knot_pkt_rr(answers, i)->type == KNOT_RRTYPE_A)
            memcpy(address, knot_pkt_rr(answers, i)->rrs.rdata->data, 4);
    return packet ? packet->size : 0;
}

static size_t read_texts(void)
{
    static size_t size = 4096;
    static char *line;
    pool_used = 0;
    const knot_pkt_t *packet = read_packet(w2.octets, w2.len);
    if (!line)
        line = malloc(size);
    for (uint16_t i = 0; packet && i < packet->rrset_count; i++)
        if (knot_rrset_txt_dump(&packet->rr[i], &line, &size, &style) <= 0)
            return 0;
    return packet ? packet->size : 0;
}

/* The sum of the fields of MX and RRSIG, where a name or octets count by their length. */
static size_t fields_of(const knot_rdata_t *data, uint16_t type)
{
    if (type == KNOT_RRTYPE_MX)
        return knot_wire_read_u16(data->data) + knot_dname_size(knot_mx_name(data));
    return knot_rrsig_type_covered(data) + knot_rrsig_alg(data) + knot_rrsig_labels(data) + knot_rrsig_original_ttl(data) +
           knot_rrsig_sig_expiration(data) + knot_rrsig_sig_inception(data) + knot_rrsig_key_tag(data) +
           knot_dname_size(knot_rrsig_signer_name(data)) + knot_rrsig_signature_len(data);
}

static size_t read_fields(void)
{
    pool_used = 0;
    const knot_pkt_t *packet = read_packet(m40.octets, m40.len);
    for (uint16_t i = 0; packet && i < packet->rrset_count; i++)
        if (fields_of(packet->rr[i].rrs.rdata, packet->rr[i].type) == 0)
            return 0;
    return packet ? packet->size : 0;
}

static size_t read_names_in(void)
{
    size_t sum = 0;
    pool_used = 0;
    const knot_pkt_t *packet = read_packet(m40.octets, m40.len);
    for (uint16_t i = 0; packet && i < packet->rrset_count; i++) {
        const knot_rdata_t *data = packet->rr[i].rrs.rdata;
        sum += *(packet->rr[i].type == KNOT_RRTYPE_MX ? knot_mx_name(data) : knot_rrsig_signer_name(data));
    }
    return packet && sum > 0 ? packet->size : 0;
}

static size_t read_exchanges(void)
{
    knot_dname_txt_storage_t text;
    pool_used = 0;
    const knot_pkt_t *packet = read_packet(m40.octets, m40.len);
    for (uint16_t i = 0; packet && i < packet->rrset_count; i++)
        if (packet->rr[i].type == KNOT_RRTYPE_MX && !knot_dname_to_str(text, knot_mx_name(packet->rr[i].rrs.rdata), sizeof text))
            return 0;
    return packet ? packet->size : 0;
}

/* Puts all items of w2 into another message. */
static size_t put_from(void)
{
    pool_used = 0;
    const knot_pkt_t *from = read_packet(w2.octets, w2.len);
    knot_pkt_t *to = knot_pkt_new(out, ROOM, &memory);
    knot_pkt_clear(to);
    memcpy(to->wire, from->wire, 4);
    if (knot_pkt_put_question(to, knot_pkt_qname(from), knot_pkt_qclass(from), knot_pkt_qtype(from)) != KNOT_EOK)
        return 0;
    for (knot_section_t id = KNOT_ANSWER; id <= KNOT_ADDITIONAL; id++) {
        const knot_pktsection_t *section = knot_pkt_section(from, id);
        if (knot_pkt_begin(to, id) != KNOT_EOK)
            return 0;
        for (uint16_t i = 0; i < section->count; i++)
            if (knot_pkt_put(to, KNOT_COMPR_HINT_NONE, knot_pkt_rr(section, i), 0) != KNOT_EOK)
                return 0;
    }
    return to->size;
}

static size_t respond(void)
{
    pool_used = 0;
    const knot_pkt_t *query = read_packet(q1.octets, q1.len);
    knot_pkt_t *response = knot_pkt_new(out, 1232, &memory);
    return query && knot_pkt_init_response(response, query) == KNOT_EOK && knot_pkt_begin(response, KNOT_ANSWER) == KNOT_EOK &&
                   knot_pkt_put(response, KNOT_COMPR_HINT_QNAME, &addresses[0], 0) == KNOT_EOK
               ? response->size
               : 0;
}

/* A response of 20 addresses to q1, and an OPT record, of at most 1,232 octets. */
static size_t respond_with_all(void)
{
    pool_used = 0;
    const knot_pkt_t *query = read_packet(q1.octets, q1.len);
    knot_pkt_t *response = knot_pkt_new(out, 1232, &memory);
    knot_rrset_t opt;
    if (!query || knot_edns_init(&opt, 1232, 0, 0, &memory) != KNOT_EOK || knot_pkt_init_response(response, query) != KNOT_EOK ||
        knot_pkt_reserve(response, knot_edns_wire_size(&opt)) != KNOT_EOK || knot_pkt_begin(response, KNOT_ANSWER) != KNOT_EOK ||
        knot_pkt_put(response, KNOT_COMPR_HINT_QNAME, &all_addresses, 0) != KNOT_EOK ||
        knot_pkt_begin(response, KNOT_ADDITIONAL) != KNOT_EOK || knot_pkt_reclaim(response, knot_edns_wire_size(&opt)) != KNOT_EOK)
        return 0;
    return knot_pkt_put(response, KNOT_COMPR_HINT_NONE, &opt, 0) == KNOT_EOK ? response->size : 0;
}

struct task tasks[] = {
    {"20 addresses", "knot_pkt_put, hint", .one = write_hinted},
    {"20 addresses", "knot_pkt_put", .one = write_addresses},
    {"20 addresses", "knot_pkt_put, RRset, hint", .one = write_set},
    {"500 owners", "knot_pkt_put", .one = write_owners},
    {"20 RRSIG of m40", "knot_pkt_put, hint", .one = write_signatures},
    {"query", "knot_pkt_put_question", .one = write_query},
    {"response to q1", "knot_pkt_init_response, knot_pkt_put", .one = respond},
    {"20 addresses for q1", "knot_pkt_init_response, knot_pkt_put, RRset", .one = respond_with_all},
    {"w2 written again", "knot_pkt_put", .one = put_from},
    {"items of w2", "knot_pkt_parse", .one = read_items},
    {"items of f64", "knot_pkt_parse", .one = read_f64},
    {"items of h64", "knot_pkt_parse", .one = read_h64},
    {"items of p64", "knot_pkt_parse", .one = read_p64},
    {"owners of w2", "knot_pkt_parse", .one = read_items},
    {"addresses of w2", "knot_pkt_parse", .one = read_addresses},
    {"texts of w2", "knot_rrset_txt_dump", .one = read_texts},
    {"fields of m40", "knot_mx_name, knot_rrsig_alg and others", .one = read_fields},
    {"RDATA of m40", "knot_pkt_parse", .one = read_data},
    {"names in RDATA of m40", "knot_mx_name, knot_rrsig_signer_name", .one = read_names_in},
    {"MX of m40 as text", "knot_mx_name, knot_dname_to_str", .one = read_exchanges},
    {"TTLs of w2", "knot_pkt_parse, knot_wire_write_u32", .one = age_w2},
    {"TTLs of 64 KiB", "knot_pkt_parse, knot_wire_write_u32", .one = age_f64},
    {"w2 as a reply", "knot_pkt_parse", .one = read_items},
    {"a transfer of 100,000 records", "knot_pkt_parse", .one = transfer},
    {.work = NULL},
};
