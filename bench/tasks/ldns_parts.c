/* The tasks of names, texts and EDNS with the calls of ldns. */

#include "parts.h"
#include "records.h"
#include "tasks.h"

#include <ldns/ldns.h>
#include <stdlib.h>

static struct input q1;
static ldns_rdf *www_name, *upper_name, *parent_name, *mail_name;
static ldns_buffer *buffer;

static ldns_rdf *name_of(const char *text)
{
    ldns_rdf *name = ldns_dname_new_frm_str(text);
    if (!name)
        abort();
    return name;
}

void prepare(void)
{
    q1 = load_input("q1");
    buffer = ldns_buffer_new(ROOM);
    www_name = name_of("www.example.com.");
    upper_name = name_of("WWW.Example.com.");
    parent_name = name_of("example.com.");
    mail_name = name_of("mail.example.com.");
}

static size_t are_equal(void)
{
    return ldns_dname_compare(www_name, upper_name) == 0 ? sizeof www : 0;
}

static size_t is_below(void)
{
    return ldns_dname_is_subdomain(www_name, parent_name) ? sizeof www : 0;
}

static size_t compare(void)
{
    return ldns_dname_compare(www_name, mail_name) > 0 ? sizeof www : 0;
}

static size_t write_text(void)
{
    ldns_buffer_clear(buffer);
    return ldns_rdf2buffer_str_dname(buffer, www_name) == LDNS_STATUS_OK ? ldns_buffer_position(buffer) : 0;
}

static size_t read_text(void)
{
    ldns_rdf *name;
    if (ldns_str2rdf_dname(&name, WWW_TEXT) != LDNS_STATUS_OK)
        return 0;
    const size_t len = ldns_rdf_size(name);
    ldns_rdf_deep_free(name);
    return len;
}

static size_t write_type(void)
{
    ldns_buffer_clear(buffer);
    return ldns_rr_type2buffer_str(buffer, LDNS_RR_TYPE_TLSA) == LDNS_STATUS_OK ? ldns_buffer_position(buffer) : 0;
}

static size_t read_type(void)
{
    return ldns_get_rr_type_by_name(TYPE_TEXT);
}

static size_t read_record(void)
{
    ldns_rr *record;
    if (ldns_rr_new_frm_str(&record, RECORD, 0, NULL, NULL) != LDNS_STATUS_OK)
        return 0;
    const size_t len = ldns_rr_uncompressed_size(record);
    ldns_rr_free(record);
    return len;
}

static size_t read_line(const struct line *line, uint64_t times)
{
    for (uint64_t i = 0; i < times; i++) {
        ldns_rr *record;
        if (ldns_rr_new_frm_str(&record, line->text, 0, NULL, NULL) != LDNS_STATUS_OK)
            return 0;
        ldns_rr_free(record);
    }
    return line->len;
}

static size_t print_line(const struct line *line, uint64_t times)
{
    ldns_rr *record;
    size_t len = 0;
    if (ldns_rr_new_frm_str(&record, line->text, 0, NULL, NULL) != LDNS_STATUS_OK)
        return 0;
    for (uint64_t i = 0; i < times; i++) {
        ldns_buffer_clear(buffer);
        len = ldns_rr2buffer_str(buffer, record) == LDNS_STATUS_OK ? ldns_buffer_position(buffer) : 0;
    }
    ldns_rr_free(record);
    return len;
}

/* Writes a query with an OPT record that has a cookie. */
static size_t write_cookie(void)
{
    static const uint8_t cookie[COOKIE] = {1};
    ldns_pkt *query = ldns_pkt_query_new(ldns_rdf_clone(www_name), LDNS_RR_TYPE_A, LDNS_RR_CLASS_IN, LDNS_RD);
    ldns_edns_option_list *options = ldns_edns_option_list_new();
    ldns_edns_option_list_push(options, ldns_edns_new_from_data(LDNS_EDNS_COOKIE, sizeof cookie, cookie));
    ldns_pkt_set_id(query, 1);
    ldns_pkt_set_edns_udp_size(query, 1232);
    ldns_pkt_set_edns_option_list(query, options);
    ldns_buffer_clear(buffer);
    const size_t len = ldns_pkt2buffer_wire(buffer, query) == LDNS_STATUS_OK ? ldns_buffer_position(buffer) : 0;
    ldns_pkt_free(query);
    return len;
}

static size_t write_rcode(void)
{
    ldns_buffer_clear(buffer);
    return ldns_pkt_rcode2buffer_str(buffer, LDNS_RCODE_NXDOMAIN) == LDNS_STATUS_OK ? ldns_buffer_position(buffer) : 0;
}

/* Reads q1, and finds its cookie. Returns the length of the cookie. */
static size_t find_cookie(void)
{
    ldns_pkt *packet;
    size_t len = 0;
    if (ldns_wire2pkt(&packet, q1.octets, q1.len) != LDNS_STATUS_OK)
        return 0;
    const ldns_edns_option_list *options = ldns_pkt_edns_get_option_list(packet);
    for (size_t i = 0; i < ldns_edns_option_list_get_count(options); i++)
        if (ldns_edns_get_code(ldns_edns_option_list_get_option(options, i)) == LDNS_EDNS_COOKIE)
            len = ldns_edns_get_size(ldns_edns_option_list_get_option(options, i));
    ldns_pkt_free(packet);
    return len;
}

struct task tasks[] = {
    {"names are equal", "ldns_dname_compare", .one = are_equal},
    {"a name is below another", "ldns_dname_is_subdomain", .one = is_below},
    {"order of names", "ldns_dname_compare", .one = compare},
    {"text of a name", "ldns_rdf2buffer_str_dname", .one = write_text},
    {"name from text", "ldns_str2rdf_dname", .one = read_text},
    {"text of a type", "ldns_rr_type2buffer_str", .one = write_type},
    {"type from text", "ldns_get_rr_type_by_name", .one = read_type},
    {"text of an rcode", "ldns_pkt_rcode2buffer_str", .one = write_rcode},
    {"record from text", "ldns_rr_new_frm_str", .one = read_record},
    {"cookie of q1", "ldns_pkt_edns_get_option_list", .one = find_cookie},
    {"query with a cookie", "ldns_edns_new_from_data", .one = write_cookie},
    TASKS_OF_LINES("ldns_rr2buffer_str", print_line, "ldns_rr_new_frm_str", read_line),
    {.work = NULL},
};
