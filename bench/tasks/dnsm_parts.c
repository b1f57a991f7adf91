/* The tasks of names, texts and EDNS with the calls of dnsm.h. */

#include "parts.h"
#include "tasks.h"

#include <dnsm.h>
#include <string.h>

static struct input q1;

void prepare(void)
{
    q1 = load_input("q1");
}

static size_t are_equal(void)
{
    uint8_t equal;
    return dnsm_name_equal(www, sizeof www, 0, upper_www, sizeof upper_www, 0, &equal) == DNSM_OK && equal ? sizeof www : 0;
}

static size_t is_below(void)
{
    uint8_t below;
    return dnsm_name_below(www, sizeof www, 0, parent, sizeof parent, 0, &below) == DNSM_OK && below ? sizeof www : 0;
}

static size_t compare(void)
{
    uint8_t order;
    return dnsm_name_order(www, sizeof www, 0, mail, sizeof mail, 0, &order) == DNSM_OK && order == 2 ? sizeof www : 0;
}

static size_t write_key(void)
{
    uint8_t key[DNSM_NAME_KEY];
    size_t len;
    return dnsm_name_key(www, sizeof www, 0, key, sizeof key, &len) == DNSM_OK ? len : 0;
}

static size_t hash(void)
{
    static const uint8_t seed[16] = {1};
    uint32_t found;
    return dnsm_name_hash(www, sizeof www, 0, seed, sizeof seed, &found) == DNSM_OK ? sizeof found : 0;
}

static size_t write_text(void)
{
    char text[DNSM_NAME_TEXT];
    size_t len;
    return dnsm_name_text(www, sizeof www, 0, text, sizeof text, &len) == DNSM_OK ? len : 0;
}

static size_t read_text(void)
{
    uint8_t name[DNSM_NAME_OCTETS];
    size_t len;
    return dnsm_name_from_text(WWW_TEXT, sizeof WWW_TEXT - 1, name, sizeof name, &len) == DNSM_OK ? len : 0;
}

static size_t write_type(void)
{
    char text[16];
    size_t len;
    return dnsm_type_text(DNSM_TYPE_TLSA, text, sizeof text, &len) == DNSM_OK ? len : 0;
}

static size_t read_type(void)
{
    uint16_t type;
    return dnsm_type_from_text(TYPE_TEXT, sizeof TYPE_TEXT - 1, &type) == DNSM_OK ? type : 0;
}

static size_t read_record(void)
{
    uint8_t octets[256];
    size_t len;
    dnsm_item item;
    return dnsm_record_from_text(RECORD, sizeof RECORD - 1, octets, sizeof octets, &len, &item) == DNSM_OK ? len : 0;
}

static size_t read_data(void)
{
    uint8_t data[256];
    size_t len;
    return dnsm_data_from_text(DNSM_TYPE_MX, MX_DATA, sizeof MX_DATA - 1, data, sizeof data, &len) == DNSM_OK ? len : 0;
}

static const uint8_t cookie[COOKIE] = {1};
static const dnsm_opt opt = {.udp_size = 1232};

/* Writes a query with an OPT record that has a cookie. */
static size_t write_cookie(void)
{
    uint8_t out[512], option[4 + COOKIE];
    size_t option_len, len;
    return dnsm_option_octets(DNSM_OPTION_COOKIE, cookie, sizeof cookie, option, sizeof option, &option_len) == DNSM_OK &&
                   dnsm_query_opt(1, true, WWW_TEXT, sizeof WWW_TEXT - 1, DNSM_TYPE_A, DNSM_CLASS_IN, &opt, option, option_len,
                                  out, sizeof out, &len) == DNSM_OK
               ? len
               : 0;
}

/* Does so by a draft. */
static size_t put_cookie(void)
{
    uint8_t out[512], option[4 + COOKIE];
    size_t option_len, len;
    dnsm_draft draft;
    if (dnsm_option_octets(DNSM_OPTION_COOKIE, cookie, sizeof cookie, option, sizeof option, &option_len) != DNSM_OK)
        return 0;
    const dnsm_put_item question = {.name = www, .name_len = sizeof www, .type = DNSM_TYPE_A, .class_ = DNSM_CLASS_IN};
    const dnsm_put_item last = {(const uint8_t *)"", 1, option, option_len, dnsm_opt_ttl(&opt), DNSM_TYPE_OPT, 1232, DNSM_ADDITIONAL};
    return dnsm_begin(&draft, out, sizeof out, 1, DNSM_RD) == DNSM_OK && dnsm_put(&draft, out, sizeof out, &question) == DNSM_OK &&
                   dnsm_put(&draft, out, sizeof out, &last) == DNSM_OK && dnsm_finish(&draft, out, sizeof out, &len) == DNSM_OK
               ? len
               : 0;
}

static size_t write_rcode(void)
{
    char text[16];
    size_t len;
    return dnsm_rcode_text(DNSM_RCODE_NXDOMAIN, text, sizeof text, &len) == DNSM_OK ? len : 0;
}

/* Finds the OPT record of q1, and its cookie. Returns the length of the cookie. */
static size_t find_cookie(void)
{
    dnsm_opt found;
    dnsm_item item;
    dnsm_opt_option option = {.data_len = 0};
    uint16_t rcode;
    if (dnsm_find_opt(q1.octets, q1.len, &found, &item, &rcode) != DNSM_OK || found.udp_size != 1232)
        return 0;
    for (size_t place = item.data; option.code != DNSM_OPTION_COOKIE;)
        if (dnsm_next_option(q1.octets, q1.len, &item, &place, &option) != DNSM_OK)
            return 0;
    return option.data_len;
}

struct task tasks[] = {
    {"names are equal", "dnsm_name_equal", .one = are_equal},
    {"a name is below another", "dnsm_name_below", .one = is_below},
    {"order of names", "dnsm_name_order", .one = compare},
    {"key of a name", "dnsm_name_key", .one = write_key},
    {"hash of a name", "dnsm_name_hash", .one = hash},
    {"text of a name", "dnsm_name_text", .one = write_text},
    {"name from text", "dnsm_name_from_text", .one = read_text},
    {"text of a type", "dnsm_type_text", .one = write_type},
    {"type from text", "dnsm_type_from_text", .one = read_type},
    {"text of an rcode", "dnsm_rcode_text", .one = write_rcode},
    {"record from text", "dnsm_record_from_text", .one = read_record},
    {"RDATA of MX from text", "dnsm_data_from_text", .one = read_data},
    {"cookie of q1", "dnsm_find_opt, dnsm_next_option", .one = find_cookie},
    {"query with a cookie", "dnsm_option_octets, dnsm_query_opt", .one = write_cookie},
    {"query with a cookie", "dnsm_option_octets, dnsm_put", .one = put_cookie},
    {.work = NULL},
};
