/* The tasks of names, texts and EDNS with the calls of libknot, and of its libzscanner for a record. */

#include "knot_pool.h"
#include "parts.h"
#include "records.h"
#include "tasks.h"

#include <libknot/libknot.h>
#include <libzscanner/scanner.h>
#include <stdlib.h>
#include <string.h>

static struct input q1;
static zs_scanner_t scanner;

void prepare(void)
{
    q1 = load_input("q1");
    if (zs_init(&scanner, ".", KNOT_CLASS_IN, 3600) != 0)
        abort();
}

static size_t are_equal(void)
{
    return knot_dname_is_case_equal(www, upper_www) ? sizeof www : 0;
}

static size_t is_below(void)
{
    return knot_dname_in_bailiwick(www, parent) > 0 ? sizeof www : 0;
}

static size_t compare(void)
{
    return knot_dname_cmp(www, mail) > 0 ? sizeof www : 0;
}

static size_t write_key(void)
{
    knot_dname_storage_t key;
    const uint8_t *made = knot_dname_lf(www, key);
    return made ? *made : 0;
}

static size_t write_text(void)
{
    knot_dname_txt_storage_t text;
    return knot_dname_to_str(text, www, sizeof text) ? sizeof WWW_TEXT - 1 : 0;
}

static size_t read_text(void)
{
    knot_dname_storage_t name;
    return knot_dname_from_str(name, WWW_TEXT, sizeof name) ? sizeof www : 0;
}

static size_t write_type(void)
{
    char text[16];
    const int len = knot_rrtype_to_string(KNOT_RRTYPE_TLSA, text, sizeof text);
    return len > 0 ? (size_t)len : 0;
}

static size_t read_type(void)
{
    uint16_t type;
    return knot_rrtype_from_string(TYPE_TEXT, &type) == 0 ? type : 0;
}

static size_t read_record(void)
{
    static const char line[] = RECORD "\n";
    if (zs_set_input_string(&scanner, line, sizeof line - 1) != 0 || zs_parse_record(&scanner) != 0 || scanner.state != ZS_STATE_DATA)
        return 0;
    return scanner.r_owner_length + 10 + scanner.r_data_length;
}

/* Reads a line, to which libzscanner wants a line feed. Returns the length without that. */
static size_t read_line(const struct line *record, uint64_t times)
{
    char line[512];
    memcpy(line, record->text, record->len);
    line[record->len] = '\n';
    for (uint64_t i = 0; i < times; i++)
        if (zs_set_input_string(&scanner, line, record->len + 1) != 0 || zs_parse_record(&scanner) != 0 || scanner.state != ZS_STATE_DATA)
            return 0;
    return record->len;
}

static size_t print_line(const struct line *record, uint64_t times)
{
    static size_t size = 4096;
    static char *line;
    knot_dump_style_t style = KNOT_DUMP_STYLE_DEFAULT;
    knot_rrset_t set;
    int len = 0;
    style.show_class = true;
    if (!line)
        line = malloc(size);
    if (!read_line(record, 1))
        return 0;
    knot_rrset_init(&set, scanner.r_owner, scanner.r_type, scanner.r_class, scanner.r_ttl);
    pool_used = 0;
    if (knot_rrset_add_rdata(&set, scanner.r_data, (uint16_t)scanner.r_data_length, &memory) != KNOT_EOK)
        return 0;
    for (uint64_t i = 0; i < times && len >= 0; i++)
        len = knot_rrset_txt_dump(&set, &line, &size, &style);
    return len > 0 ? (size_t)len : 0;
}

/* Writes a query with an OPT record that has a cookie. */
static size_t write_cookie(void)
{
    static const uint8_t cookie[COOKIE] = {1};
    static uint8_t out[512];
    knot_rrset_t opt;
    pool_used = 0;
    knot_pkt_t *query = knot_pkt_new(out, sizeof out, &memory);
    knot_pkt_clear(query);
    knot_wire_set_id(query->wire, 1);
    knot_wire_set_rd(query->wire);
    return knot_pkt_put_question(query, www, KNOT_CLASS_IN, KNOT_RRTYPE_A) == KNOT_EOK &&
                   knot_edns_init(&opt, 1232, 0, 0, &memory) == KNOT_EOK &&
                   knot_edns_add_option(&opt, KNOT_EDNS_OPTION_COOKIE, sizeof cookie, cookie, &memory) == KNOT_EOK &&
                   knot_pkt_begin(query, KNOT_ADDITIONAL) == KNOT_EOK && knot_pkt_put(query, KNOT_COMPR_HINT_NONE, &opt, 0) == KNOT_EOK
               ? query->size
               : 0;
}

static size_t write_rcode(void)
{
    const knot_lookup_t *found = knot_lookup_by_id(knot_rcode_names, KNOT_RCODE_NXDOMAIN);
    return found ? strlen(found->name) : 0;
}

/* Finds the OPT record of q1, and its cookie. Returns the length of the cookie. */
static size_t find_cookie(void)
{
    pool_used = 0;
    const knot_pkt_t *packet = read_packet(q1.octets, q1.len);
    if (!packet || !knot_pkt_has_edns(packet) || knot_edns_get_payload(packet->opt_rr) != 1232)
        return 0;
    const uint8_t *cookie = knot_pkt_edns_option(packet, KNOT_EDNS_OPTION_COOKIE);
    return cookie ? knot_edns_opt_get_length(cookie) : 0;
}

struct task tasks[] = {
    {"names are equal", "knot_dname_is_case_equal", .one = are_equal},
    {"a name is below another", "knot_dname_in_bailiwick", .one = is_below},
    {"order of names", "knot_dname_cmp", .one = compare},
    {"key of a name", "knot_dname_lf", .one = write_key},
    {"text of a name", "knot_dname_to_str", .one = write_text},
    {"name from text", "knot_dname_from_str", .one = read_text},
    {"text of a type", "knot_rrtype_to_string", .one = write_type},
    {"type from text", "knot_rrtype_from_string", .one = read_type},
    {"text of an rcode", "knot_lookup_by_id", .one = write_rcode},
    {"record from text", "zs_parse_record", .one = read_record},
    {"cookie of q1", "knot_pkt_parse, knot_pkt_edns_option", .one = find_cookie},
    {"query with a cookie", "knot_edns_add_option, knot_pkt_put", .one = write_cookie},
    TASKS_OF_LINES("knot_rrset_txt_dump", print_line, "zs_parse_record", read_line),
    {.work = NULL},
};
