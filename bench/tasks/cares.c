/* The tasks with the calls of c-ares, which has no call for whole messages before version 1.28. */

#include "tasks.h"

#include <ares.h>
#include <string.h>

static struct input w2, m40;

void prepare(void)
{
    w2 = load_input("w2");
    m40 = load_input("m40");
}

static size_t write_query(void)
{
    unsigned char *query;
    int len;
    if (ares_create_query("www.example.com.", 1, 1, 1, 1, &query, &len, 0) != ARES_SUCCESS)
        return 0;
    ares_free_string(query);
    return (size_t)len;
}

static size_t read_addresses(void)
{
    struct ares_addrttl addresses[ADDRESSES];
    int count = ADDRESSES;
    return ares_parse_a_reply(w2.octets, (int)w2.len, NULL, addresses, &count) == ARES_SUCCESS && count == ADDRESSES ? w2.len : 0;
}

static size_t read_exchanges(void)
{
    struct ares_mx_reply *found;
    if (ares_parse_mx_reply(m40.octets, (int)m40.len, &found) != ARES_SUCCESS)
        return 0;
    ares_free_data(found);
    return m40.len;
}

static size_t read_name(void)
{
    static const unsigned char name[] = "\3www\7example\3com";
    char *text;
    long len;
    if (ares_expand_name(name, name, sizeof name, &text, &len) != ARES_SUCCESS)
        return 0;
    const size_t text_len = strlen(text);
    ares_free_string(text);
    return text_len;
}

struct task tasks[] = {
    {"query", "ares_create_query", .one = write_query},
    {"addresses of w2", "ares_parse_a_reply", .one = read_addresses},
    {"MX of m40 as text", "ares_parse_mx_reply", .one = read_exchanges},
    {"text of a name", "ares_expand_name", .one = read_name},
    {.work = NULL},
};
