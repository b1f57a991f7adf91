/* The tasks of whole messages with the packets of ldns, which allocates each of their parts. Packets that are written are made before. */

#include "tasks.h"

#include <ldns/ldns.h>
#include <stdio.h>
#include <stdlib.h>
#include <string.h>

static ldns_pkt *addresses, *owners, *signatures;
static ldns_buffer *buffer;
static struct input w2, m40, f64, h64, p64;

static ldns_rdf *name_of(const char *text)
{
    ldns_rdf *name = ldns_dname_new_frm_str(text);
    if (!name)
        abort();
    return name;
}

static void push_address(ldns_pkt *packet, const char *owner, uint32_t ttl, const char *address)
{
    ldns_rr *record = ldns_rr_new_frm_type(LDNS_RR_TYPE_A);
    ldns_rr_set_owner(record, name_of(owner));
    ldns_rr_set_ttl(record, ttl);
    ldns_rr_set_rdf(record, ldns_rdf_new_frm_str(LDNS_RDF_TYPE_A, address), 0);
    if (!ldns_pkt_push_rr(packet, LDNS_SECTION_ANSWER, record))
        abort();
}

static ldns_pkt *response_to(const char *name)
{
    ldns_pkt *packet = ldns_pkt_query_new(name_of(name), LDNS_RR_TYPE_A, LDNS_RR_CLASS_IN, LDNS_QR);
    ldns_pkt_set_id(packet, 1);
    return packet;
}

/* Keeps the RRSIG records of m40 in a packet, to be written. */
static void keep_signatures(void)
{
    ldns_pkt *packet;
    signatures = response_to("example.com.");
    if (ldns_wire2pkt(&packet, m40.octets, m40.len) != LDNS_STATUS_OK)
        abort();
    for (size_t i = 0; i < ldns_rr_list_rr_count(ldns_pkt_answer(packet)); i++) {
        const ldns_rr *record = ldns_rr_list_rr(ldns_pkt_answer(packet), i);
        if (ldns_rr_get_type(record) == LDNS_RR_TYPE_RRSIG)
            ldns_pkt_push_rr(signatures, LDNS_SECTION_ANSWER, ldns_rr_clone(record));
    }
    ldns_pkt_free(packet);
}

void prepare(void)
{
    char owner[32], address[16];
    addresses = response_to("www.example.com.");
    owners = response_to("sub.example.com.");
    for (int i = 0; i < ADDRESSES; i++) {
        snprintf(address, sizeof address, "192.0.2.%d", i);
        push_address(addresses, "www.example.com.", ADDRESS_TTL, address);
    }
    for (int i = 0; i < OWNERS; i++) {
        snprintf(owner, sizeof owner, "h%d.sub.example.com.", i);
        snprintf(address, sizeof address, "10.0.%d.%d", i / 256, i % 256);
        push_address(owners, owner, OWNER_TTL, address);
    }
    buffer = ldns_buffer_new(ROOM);
    w2 = load_input("w2");
    m40 = load_input("m40");
    f64 = load_input("f64");
    h64 = load_input("h64");
    p64 = load_input("p64");
    keep_signatures();
}

static size_t write_packet(const ldns_pkt *packet)
{
    ldns_buffer_clear(buffer);
    return ldns_pkt2buffer_wire(buffer, packet) == LDNS_STATUS_OK ? ldns_buffer_position(buffer) : 0;
}

static size_t write_addresses(void) { return write_packet(addresses); }
static size_t write_owners(void) { return write_packet(owners); }
static size_t write_signatures(void) { return write_packet(signatures); }

static size_t write_query(void)
{
    ldns_pkt *packet = ldns_pkt_query_new(name_of("www.example.com."), LDNS_RR_TYPE_A, LDNS_RR_CLASS_IN, LDNS_RD);
    ldns_pkt_set_id(packet, 1);
    size_t len = write_packet(packet);
    ldns_pkt_free(packet);
    return len;
}

/* Does something with each record of a packet. Returns 0 on failure. */
typedef size_t visitor(const ldns_rr *record);

static size_t visit_all(const ldns_rr_list *records, visitor *visit)
{
    size_t done = 1;
    for (size_t i = 0; i < ldns_rr_list_rr_count(records) && done; i++)
        done = visit(ldns_rr_list_rr(records, i));
    return done;
}

/* Reads a message, and does this with each record. */
static size_t read_message(const struct input *from, visitor *visit)
{
    ldns_pkt *packet;
    if (ldns_wire2pkt(&packet, from->octets, from->len) != LDNS_STATUS_OK)
        return 0;
    const size_t done = !visit || (visit_all(ldns_pkt_answer(packet), visit) && visit_all(ldns_pkt_authority(packet), visit) &&
                                   visit_all(ldns_pkt_additional(packet), visit));
    ldns_pkt_free(packet);
    return done ? from->len : 0;
}

static size_t text_of(const ldns_rr *record)
{
    char *text = ldns_rr2str(record);
    free(text);
    return text != NULL;
}

static size_t address_of(const ldns_rr *record)
{
    static uint8_t address[4];
    if (ldns_rr_get_type(record) == LDNS_RR_TYPE_A)
        memcpy(address, ldns_rdf_data(ldns_rr_rdf(record, 0)), 4);
    return 1;
}

/* The sum of the lengths of the fields. */
static size_t fields_of(const ldns_rr *record)
{
    size_t sum = 0;
    for (size_t i = 0; i < ldns_rr_rd_count(record); i++)
        sum += ldns_rdf_size(ldns_rr_rdf(record, i));
    return sum;
}

static size_t name_in(const ldns_rr *record)
{
    return ldns_rdf_size(ldns_rr_rdf(record, ldns_rr_get_type(record) == LDNS_RR_TYPE_MX ? 1 : 7));
}

static size_t exchange_of(const ldns_rr *record)
{
    if (ldns_rr_get_type(record) != LDNS_RR_TYPE_MX)
        return 1;
    ldns_buffer_clear(buffer);
    return ldns_rdf2buffer_str(buffer, ldns_rr_rdf(record, 1)) == LDNS_STATUS_OK;
}

static size_t read_items(void) { return read_message(&w2, NULL); }
static size_t read_f64(void) { return read_message(&f64, NULL); }
static size_t read_h64(void) { return read_message(&h64, NULL); }
static size_t read_p64(void) { return read_message(&p64, NULL); }
static size_t read_addresses(void) { return read_message(&w2, address_of); }
static size_t read_texts(void) { return read_message(&w2, text_of); }
static size_t read_fields(void) { return read_message(&m40, fields_of); }
static size_t read_data(void) { return read_message(&m40, NULL); }
static size_t read_names_in(void) { return read_message(&m40, name_in); }
static size_t read_exchanges(void) { return read_message(&m40, exchange_of); }

static size_t write_again(void)
{
    ldns_pkt *packet;
    if (ldns_wire2pkt(&packet, w2.octets, w2.len) != LDNS_STATUS_OK)
        return 0;
    const size_t len = write_packet(packet);
    ldns_pkt_free(packet);
    return len;
}

struct task tasks[] = {
    {"20 addresses", "ldns_pkt2buffer_wire", .one = write_addresses},
    {"500 owners", "ldns_pkt2buffer_wire", .one = write_owners},
    {"20 RRSIG of m40", "ldns_pkt2buffer_wire", .one = write_signatures},
    {"query", "ldns_pkt_query_new", .one = write_query},
    {"w2 written again", "ldns_wire2pkt, ldns_pkt2buffer_wire", .one = write_again},
    {"items of w2", "ldns_wire2pkt", .one = read_items},
    {"items of f64", "ldns_wire2pkt", .one = read_f64},
    {"items of h64", "ldns_wire2pkt", .one = read_h64},
    {"items of p64", "ldns_wire2pkt", .one = read_p64},
    {"owners of w2", "ldns_wire2pkt", .one = read_items},
    {"addresses of w2", "ldns_wire2pkt", .one = read_addresses},
    {"texts of w2", "ldns_rr2str", .one = read_texts},
    {"fields of m40", "ldns_rr_rdf", .one = read_fields},
    {"RDATA of m40", "ldns_wire2pkt", .one = read_data},
    {"names in RDATA of m40", "ldns_rr_rdf", .one = read_names_in},
    {"MX of m40 as text", "ldns_rdf2buffer_str", .one = read_exchanges},
    {.work = NULL},
};
