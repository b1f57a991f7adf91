/* What servers and forwarders call beyond the calls of edge.c: each call with success, and for each error a call that returns it. */
#include "dnsm.h"

#undef NDEBUG
#include <assert.h>
#include <stdio.h>
#include <string.h>

#define TEXT(text) text, sizeof text - 1
#define OCTETS(octets) (const uint8_t *)octets, sizeof octets - 1
#define NAME(octets) (const uint8_t *)octets, sizeof octets, 0

static uint8_t out[512];
static size_t len;

/* A response for example.org: a question, MX with a pointer in its RDATA (offset 41), SRV (62), MINFO with two pointers (83), and OPT
 * (100) with a 1 as the upper bits of the rcode. */
static const uint8_t response[] = "\x12\x34\x85\x80\0\1\0\3\0\0\0\1\7example\3org\0\0\xf\0\1"
                                  "\xc0\xc\0\xf\0\1\0\0\xe\x10\0\x9\0\xa\4mail\xc0\xc"
                                  "\xc0\xc\0\x21\0\1\0\0\0\7\0\x9\0\1\0\2\0\3\1x\0"
                                  "\xc0\xc\0\xe\0\1\0\0\0\7\0\6\1a\xc0\xc\xc0\x2b"
                                  "\0\0\x29\4\xd0\1\0\x80\0\0\0";
/* A query that it answers: RD, and CD, which no response of ours has set. */
static const uint8_t query[] = "\x12\x34\1\x10\0\1\0\0\0\0\0\0\7EXAMPLE\3org\0\0\xf\0\1";
enum { RESPONSE = sizeof response - 1, QUERY = sizeof query - 1, MX = 1, SRV = 2, MINFO = 3 };

/* The item with this number, from 0 on. */
static dnsm_item item_of(const uint8_t *message, size_t message_len, unsigned number)
{
    dnsm_header header;
    dnsm_cursor cursor;
    dnsm_item item;
    assert(dnsm_open(message, message_len, &header, &cursor) == DNSM_OK);
    for (unsigned i = 0; i <= number; i++)
        assert(dnsm_next(message, message_len, &cursor, &item) == DNSM_OK);
    return item;
}

static void version(void)
{
    assert(dnsm_version() == DNSM_VERSION_NUMBER && dnsm_is_compatible());
}

/* The names that IANA has registered for opcodes, rcodes and options, and the numbers of others. */
static void numbers(void)
{
    static const struct { dnsm_status (*call)(uint16_t, char *, size_t, size_t *); uint16_t number; const char *text; } each[] = {
        {dnsm_rcode_text, 0, "NoError"}, {dnsm_rcode_text, 3, "NXDomain"}, {dnsm_rcode_text, 16, "BADVERS"},
        {dnsm_rcode_text, 4095, "RCODE4095"}, {dnsm_rcode_text, 65535, "RCODE65535"},
        {dnsm_option_text, 3, "NSID"}, {dnsm_option_text, 15, "Extended DNS Error"}, {dnsm_option_text, 4, "OPTION4"},
        {dnsm_extended_error_text, 0, "Other Error"}, {dnsm_extended_error_text, 49152, "EDE49152"},
        {dnsm_extended_error_text, 27, "Unsupported NSEC3 Iterations Value"}};
    char text[64];
    for (size_t i = 0; i < sizeof each / sizeof *each; i++) {
        assert(each[i].call(each[i].number, text, sizeof text, &len) == DNSM_OK && strcmp(text, each[i].text) == 0);
        assert(each[i].call(each[i].number, text, len, &len) == DNSM_NO_ROOM && len == strlen(each[i].text));
    }
    assert(dnsm_opcode_text(5, text, sizeof text, &len) == DNSM_OK && strcmp(text, "Update") == 0);
    assert(dnsm_opcode_text(3, text, 8, &len) == DNSM_OK && strcmp(text, "OPCODE3") == 0);
    assert(dnsm_opcode_text(3, text, 7, &len) == DNSM_NO_ROOM && len == 7);
    /* 16 octets are always enough, 32 for an option, and 64 for an extended error. */
    for (unsigned number = 0; number < 65536; number++) {
        assert(dnsm_rcode_text((uint16_t)number, text, 16, &len) == DNSM_OK);
        assert(dnsm_option_text((uint16_t)number, text, 32, &len) == DNSM_OK);
        assert(dnsm_extended_error_text((uint16_t)number, text, 64, &len) == DNSM_OK);
        assert(dnsm_opcode_text((uint8_t)number, text, 16, &len) == DNSM_OK);
    }
}

/* Numbers from their texts (RFC 3597 section 5): in any case, with leading zeros, and none above the most. */
static void numbers_from_text(void)
{
    uint16_t number = 7;
    uint8_t opcode = 7;
    assert(dnsm_type_from_text(TEXT("https"), &number) == DNSM_OK && number == DNSM_TYPE_HTTPS);
    assert(dnsm_type_from_text(TEXT("TYPE065"), &number) == DNSM_OK && number == 65);
    assert(dnsm_type_from_text(TEXT("ANY"), &number) == DNSM_OK && number == 255);
    assert(dnsm_type_from_text(TEXT("TYPE65536"), &number) == DNSM_BAD_TEXT && number == 255);
    assert(dnsm_type_from_text(TEXT("65"), &number) == DNSM_BAD_TEXT && number == 255);
    assert(dnsm_type_from_text(TEXT("\xff"), &number) == DNSM_BAD_TEXT && number == 255);
    assert(dnsm_type_from_text(NULL, 0, &number) == DNSM_BAD_TEXT && number == 255);
    assert(dnsm_class_from_text(TEXT("in"), &number) == DNSM_OK && number == DNSM_CLASS_IN);
    assert(dnsm_class_from_text(TEXT("Class32"), &number) == DNSM_OK && number == 32);
    assert(dnsm_class_from_text(TEXT("A"), &number) == DNSM_BAD_TEXT && number == 32);
    assert(dnsm_opcode_from_text(TEXT("UPDATE"), &opcode) == DNSM_OK && opcode == DNSM_OPCODE_UPDATE);
    assert(dnsm_opcode_from_text(TEXT("opcode255"), &opcode) == DNSM_OK && opcode == 255);
    assert(dnsm_opcode_from_text(TEXT("opcode256"), &opcode) == DNSM_BAD_TEXT && opcode == 255);
    assert(dnsm_rcode_from_text(TEXT("badvers"), &number) == DNSM_OK && number == DNSM_RCODE_BADVERS);
    assert(dnsm_rcode_from_text(TEXT("RCODE4095"), &number) == DNSM_OK && number == 4095);
    assert(dnsm_rcode_from_text(TEXT("RCODE4096"), &number) == DNSM_BAD_TEXT && number == 4095);
    assert(dnsm_option_from_text(TEXT("cookie"), &number) == DNSM_OK && number == DNSM_OPTION_COOKIE);
    assert(dnsm_option_from_text(TEXT("OPTION4"), &number) == DNSM_OK && number == 4);
    assert(dnsm_option_from_text(TEXT("OPTION"), &number) == DNSM_BAD_TEXT && number == 4);
    assert(dnsm_extended_error_from_text(TEXT("stale answer"), &number) == DNSM_OK && number == DNSM_EDE_STALE_ANSWER);
    assert(dnsm_extended_error_from_text(TEXT("EDE49152"), &number) == DNSM_OK && number == 49152);
    assert(dnsm_extended_error_from_text(TEXT("Stale"), &number) == DNSM_BAD_TEXT && number == 49152);
}

/* RFC 1035 section 2.3.3, RFC 1034 section 3.1. */
static void comparisons(void)
{
    uint8_t is = 7, order = 7;
    assert(dnsm_name_equal(NAME("\3www\7example"), NAME("\3WWW\7Example"), &is) == DNSM_OK && is == 1);
    assert(dnsm_name_equal(NAME("\3www\7example"), NAME("\3wwv\7example"), &is) == DNSM_OK && is == 0);
    assert(dnsm_name_below(NAME("\3www\7example"), NAME("\7EXAMPLE"), &is) == DNSM_OK && is == 1);
    assert(dnsm_name_below(NAME("\7example"), NAME("\3www\7example"), &is) == DNSM_OK && is == 0);
    assert(dnsm_name_below(NAME("\7example"), NAME("\7example"), &is) == DNSM_OK && is == 1);
    assert(dnsm_name_below(NAME("\12wwwexample"), NAME("\7example"), &is) == DNSM_OK && is == 0);
    is = 7;
    assert(dnsm_name_equal(NAME("\x40"), NAME("\xc0"), &is) == DNSM_BAD_LABEL && is == 7);
    assert(dnsm_name_below(NAME(""), OCTETS("\1a"), 0, &is) == DNSM_SHORT_INPUT && is == 7);
    /* RFC 4034 section 6.1: yljkjljk.a.example, Z.a.example, zABC.a.EXAMPLE, z.example. */
    assert(dnsm_name_order(NAME("\1Z\1a\7example"), NAME("\4zABC\1a\7EXAMPLE"), &order) == DNSM_OK && order == 0);
    assert(dnsm_name_order(NAME("\1z\1A\7example"), NAME("\1Z\1a\7example"), &order) == DNSM_OK && order == 1);
    assert(dnsm_name_order(NAME("\1z\7example"), NAME("\1Z\1a\7example"), &order) == DNSM_OK && order == 2);
    assert(dnsm_name_order(NAME("\x40"), NAME("\xc0"), &order) == DNSM_BAD_LABEL && order == 2);
}

/* The names of RFC 4034 section 6.1, in their order, and one with a zero octet, which is before them below the same name. */
static void keys(void)
{
    static const char *const names[] = {"example", "a.example", "\\000.a.example", "yljkjljk.a.example", "Z.a.example",
                                        "zABC.a.EXAMPLE", "z.example", "\\001.z.example", "*.z.example", "\\200.z.example"};
    uint8_t name[DNSM_NAME_OCTETS], key[2][DNSM_NAME_KEY];
    size_t key_len[2] = {0};
    for (size_t i = 0; i < sizeof names / sizeof *names; i++) {
        assert(dnsm_name_from_text(names[i], strlen(names[i]), name, sizeof name, &len) == DNSM_OK);
        assert(dnsm_name_key(name, len, 0, key[i % 2], DNSM_NAME_KEY, &key_len[i % 2]) == DNSM_OK);
        const size_t before = key_len[(i + 1) % 2], shorter = before < key_len[i % 2] ? before : key_len[i % 2];
        const int order = memcmp(key[(i + 1) % 2], key[i % 2], shorter);
        assert(i == 0 || order < 0 || (order == 0 && before < key_len[i % 2]));
    }
    assert(dnsm_name_key(OCTETS("\1\0\1\1\2aZ\0"), 0, out, 9, &len) == DNSM_OK && len == 9);
    assert(memcmp(out, "az\0\1\2\0\1\1\0", 9) == 0);
    assert(dnsm_name_key(OCTETS("\1\0\1\1\2aZ\0"), 0, out, 8, &len) == DNSM_NO_ROOM && len == 9);
    assert(dnsm_name_key(OCTETS("\0"), 0, out, 0, &len) == DNSM_OK && len == 0);
    assert(dnsm_name_key(OCTETS("\xc0\0"), 0, out, sizeof out, &len) == DNSM_BAD_POINTER && len == 0);
}

static void hashes(void)
{
    uint32_t one = 0, other = 1;
    assert(dnsm_name_hash(NAME("\3www\7example"), OCTETS("a secret"), &one) == DNSM_OK);
    assert(dnsm_name_hash(NAME("\3WWW\7Example"), OCTETS("a secret"), &other) == DNSM_OK && one == other);
    assert(dnsm_name_hash(OCTETS(""), 0, NULL, 0, &other) == DNSM_SHORT_INPUT && one == other);
}

/* Names in RDATA, also those of types beyond NS, CNAME, SOA, PTR, MX, SRV and DNAME. */
static void data_names(void)
{
    const dnsm_item mx = item_of(response, RESPONSE, MX), minfo = item_of(response, RESPONSE, MINFO);
    size_t place = 7;
    char text[DNSM_NAME_TEXT];
    assert(dnsm_data_name(response, RESPONSE, &minfo, 0, &place) == DNSM_OK && place == 83);
    assert(dnsm_data_name(response, RESPONSE, &minfo, 1, &place) == DNSM_OK && place == 87);
    assert(dnsm_data_name(response, RESPONSE, &minfo, 2, &place) == DNSM_NO_NAME && place == 87);
    assert(dnsm_data_name_text(response, RESPONSE, &minfo, 1, text, sizeof text, &len) == DNSM_OK);
    assert(strcmp(text, "mail.example.org.") == 0 && len == 17);
    assert(dnsm_data_name_octets(response, RESPONSE, &mx, 0, out, 18, &len) == DNSM_OK && len == 18);
    assert(memcmp(out, "\4mail\7example\3org", 18) == 0);
    assert(dnsm_data_name_octets(response, RESPONSE, &mx, 0, out, 17, &len) == DNSM_NO_ROOM && len == 18);
    assert(dnsm_data_name_text(response, RESPONSE, &mx, 1, text, sizeof text, &len) == DNSM_NO_NAME && len == 0);
}

/* RDATA with its names uncompressed: RFC 1035 section 3.3. */
static void data(void)
{
    const dnsm_item question = item_of(response, RESPONSE, 0), mx = item_of(response, RESPONSE, MX);
    const dnsm_item minfo = item_of(response, RESPONSE, MINFO);
    dnsm_item short_address = mx, outside = mx;
    assert(dnsm_data_octets(response, RESPONSE, &mx, out, 20, &len) == DNSM_OK && len == 20);
    assert(memcmp(out, "\0\xa\4mail\7example\3org", 20) == 0);
    assert(dnsm_data_octets(response, RESPONSE, &mx, out, 19, &len) == DNSM_NO_ROOM && len == 20);
    assert(dnsm_data_octets(response, RESPONSE, &minfo, out, sizeof out, &len) == DNSM_OK && len == 33);
    assert(memcmp(out, "\1a\7example\3org\0\4mail\7example\3org", 33) == 0);
    assert(dnsm_check_data(response, RESPONSE, &mx) == DNSM_OK && dnsm_check_data(response, RESPONSE, &minfo) == DNSM_OK);
    assert(dnsm_check_data(response, RESPONSE, &question) == DNSM_BAD_SECTION);
    assert(dnsm_data_octets(response, RESPONSE, &question, out, sizeof out, &len) == DNSM_BAD_SECTION && len == 0);
    short_address.type = 1;
    assert(dnsm_check_data(response, RESPONSE, &short_address) == DNSM_BAD_DATA);
    assert(dnsm_data_octets(response, RESPONSE, &short_address, out, sizeof out, &len) == DNSM_BAD_DATA && len == 0);
    outside.data = RESPONSE;
    assert(dnsm_check_data(response, RESPONSE, &outside) == DNSM_SHORT_INPUT);
    /* Only a record of class NONE or ANY may have no RDATA: RFC 2136 section 2.4. */
    dnsm_item odd = mx;
    odd.data_len = 0;
    assert(dnsm_check_data(response, RESPONSE, &odd) == DNSM_BAD_DATA);
    for (odd.class_ = 254; odd.class_ <= 255; odd.class_++) {
        assert(dnsm_check_data(response, RESPONSE, &odd) == DNSM_OK);
        assert(dnsm_data_octets(response, RESPONSE, &odd, NULL, 0, &len) == DNSM_OK && len == 0);
    }
}

static void fields(void)
{
    const dnsm_item srv = item_of(response, RESPONSE, SRV), opt = item_of(response, RESPONSE, 4);
    dnsm_item odd = srv;
    dnsm_data_field field;
    size_t index = 0, end;
    for (unsigned number = 1; number <= 3; number++) {
        assert(dnsm_next_field(response, RESPONSE, &srv, &index, &field) == DNSM_OK && index == number);
        assert(field.kind == DNSM_FIELD_NUMBER && field.number == number);
    }
    assert(dnsm_next_field(response, RESPONSE, &srv, &index, &field) == DNSM_OK && index == 4);
    assert(field.kind == DNSM_FIELD_NAME && field.place == 68);
    assert(dnsm_name_end(response, srv.data + srv.data_len, field.place, &end) == DNSM_OK);
    assert(dnsm_next_field(response, RESPONSE, &srv, &index, &field) == DNSM_END && index == 4 && field.place == 68);
    index = 0;
    assert(dnsm_next_field(response, RESPONSE, &opt, &index, &field) == DNSM_END || field.len == 0);
    odd.type = 1;
    assert(dnsm_next_field(response, RESPONSE, &odd, &index, &field) == DNSM_BAD_DATA);
    odd.section = DNSM_QUESTION;
    assert(dnsm_next_field(response, RESPONSE, &odd, &index, &field) == DNSM_BAD_SECTION);
}

/* RDATA and records as in a zone file. */
static void from_text(void)
{
    dnsm_item item;
    assert(dnsm_data_from_text(15, TEXT("10 mail.example.org."), out, 20, &len) == DNSM_OK && len == 20);
    assert(memcmp(out, "\0\xa\4mail\7example\3org", 20) == 0);
    assert(dnsm_data_from_text(65280, TEXT("\\# 2 01ff"), out, sizeof out, &len) == DNSM_OK && len == 2 && out[1] == 0xff);
    assert(dnsm_data_from_text(15, TEXT("10 mail.example.org."), out, 19, &len) == DNSM_NO_ROOM && len == 20);
    assert(dnsm_data_from_text(15, TEXT("10"), out, sizeof out, &len) == DNSM_BAD_TEXT && len == 0);
    assert(dnsm_record_from_text(TEXT("a.org. 7 IN MX 10 b.org."), out, sizeof out, &len, &item) == DNSM_OK && len == 26);
    assert(memcmp(out, "\1a\3org\0\0\xf\0\1\0\0\0\7\0\x9\0\xa\1b\3org", 26) == 0);
    assert(item.place == 0 && item.data == 17 && item.data_len == 9 && item.ttl == 7 && item.type == 15 && item.class_ == 1);
    assert(item.section == DNSM_ANSWER);
    assert(dnsm_record_from_text(TEXT("a.org. 7 IN MX 10"), out, sizeof out, &len, &item) == DNSM_BAD_TEXT && len == 0);
    assert(dnsm_record_from_text(TEXT("a.org. 7 IN MX 10 b.org."), out, 25, &len, &item) == DNSM_NO_ROOM && len == 26);
}

/* RFC 6891 sections 6.1.1 to 6.1.3. */
static void opts(void)
{
    static const uint8_t two[] = "\0\0\0\0\0\0\0\0\0\0\0\2\0\0\x29\4\xd0\0\0\0\0\0\0\0\0\x29\4\xd0\0\0\0\0\0\0";
    static const uint8_t owned[] = "\0\0\0\0\0\0\0\0\0\0\0\1\1a\0\0\x29\4\xd0\0\0\0\0\0\0";
    dnsm_opt opt;
    dnsm_item item;
    uint16_t rcode = 7;
    assert(dnsm_find_opt(query, QUERY, &opt, &item, &rcode) == DNSM_NO_OPT && rcode == 7);
    assert(dnsm_find_opt(two, sizeof two - 1, &opt, &item, &rcode) == DNSM_TWO_OPTS && rcode == 7);
    assert(dnsm_find_opt(owned, sizeof owned - 1, &opt, &item, &rcode) == DNSM_BAD_OWNER && rcode == 7);
    assert(dnsm_find_opt(response, RESPONSE - 1, &opt, &item, &rcode) == DNSM_SHORT_INPUT && rcode == 7);
    assert(dnsm_find_opt(response, RESPONSE, &opt, &item, &rcode) == DNSM_OK && rcode == 16);
    assert(opt.udp_size == 1232 && opt.flags == DNSM_DO && opt.rcode_high == 1 && item.place == 89);
}

static void answers(void)
{
    uint8_t other[QUERY];
    assert(dnsm_answers(query, QUERY, response, RESPONSE) == DNSM_OK);
    assert(dnsm_answers(query, QUERY, query, QUERY) == DNSM_NO_RESPONSE);
    assert(dnsm_answers(query, 11, response, RESPONSE) == DNSM_SHORT_INPUT);
    assert(dnsm_answers(query, QUERY, response, 11) == DNSM_SHORT_INPUT);
    for (size_t at = 0; at < QUERY; at++) { /* the ID, the opcode, the number of questions, the question */
        memcpy(other, query, QUERY);
        other[at] ^= 8;
        const bool is_read = at < 2 || at == 2 || at == 4 || at == 5 || at >= 12;
        assert((dnsm_answers(other, QUERY, response, RESPONSE) == DNSM_OK) == !is_read);
    }
}

/* A record of class IN for a reply, named by the octets of its owner. */
#define RECORD(section, type, ttl, owner, data) \
    {TEXT(owner), (const uint8_t *)data, sizeof data - 1, ttl, type, DNSM_CLASS_IN, section}
#define SOA "\2ns\0\1h\0\0\0\0\1\0\0\0\2\0\0\0\3\0\0\0\4\0\0\2\x58"
#define ADDRESS(ttl, owner) RECORD(DNSM_ANSWER, DNSM_TYPE_A, ttl, owner, "\300\0\2\1")
#define ALIAS(ttl, owner, target) RECORD(DNSM_ANSWER, DNSM_TYPE_CNAME, ttl, owner, target)
#define OPT RECORD(DNSM_ADDITIONAL, DNSM_TYPE_OPT, 0, ".", "")

static bool is_name(const uint8_t *name, size_t name_len, const char *text)
{
    char read[DNSM_NAME_TEXT];
    if (!text || name_len == 0)
        return !text && name_len == 0;
    return dnsm_name_text(name, name_len, 0, read, sizeof read, &len) == DNSM_OK && strcmp(read, text) == 0;
}

/* What replies to a query for a.example, type A, say, of servers that were asked about the zone example: RFC 1034 sections 3.6.2, 4.3.2
 * and 5.3.3, RFC 2181 section 5.2, RFC 2308 sections 2.1, 2.2 and 5 with a MINIMUM of 600, RFC 6672 section 3.1. */
static void replies(void)
{
    static const struct {
        uint16_t flags;
        dnsm_new_item records[2];
        size_t count;
        uint8_t kind;
        uint32_t ttl, alias_ttl;
        const char *name, *owner, *target;
    } each[] = {
        {0, {ADDRESS(300, "a.example"), ADDRESS(60, "A.example")}, 2, DNSM_REPLY_ANSWER, 60, 0, "a.example.", NULL, NULL},
        {0, {ALIAS(60, "a.example", "\1b\7example\0"), ADDRESS(300, "b.example")}, 2, DNSM_REPLY_ANSWER, 60, 0, "b.example.", NULL, NULL},
        {0, {ADDRESS(300, "b.example")}, 1, DNSM_REPLY_NO_DATA, 0, 0, "a.example.", NULL, NULL},
        {0, {RECORD(DNSM_AUTHORITY, DNSM_TYPE_SOA, 900, "example", SOA)}, 1, DNSM_REPLY_NO_DATA, 600, 0, "a.example.", "example.", NULL},
        {0, {ALIAS(60, "a.example", "\1b\7example\0"), RECORD(DNSM_AUTHORITY, DNSM_TYPE_SOA, 900, "example", SOA)}, 2,
         DNSM_REPLY_NO_DATA, 600, 60, "b.example.", "example.", NULL},
        {3, {RECORD(DNSM_AUTHORITY, DNSM_TYPE_SOA, 100, "example", SOA)}, 1, DNSM_REPLY_NO_NAME, 100, 0, "a.example.", "example.", NULL},
        {0, {RECORD(DNSM_AUTHORITY, DNSM_TYPE_NS, 7, "a.example", "\2ns\0")}, 1, DNSM_REPLY_REFERRAL, 0, 0, "a.example.", "a.example.",
         NULL},
        {0, {ALIAS(60, "a.example", "\1b\7example\0"), RECORD(DNSM_AUTHORITY, DNSM_TYPE_NS, 7, "b.example", "\2ns\0")}, 2,
         DNSM_REPLY_REFERRAL, 0, 60, "b.example.", "b.example.", NULL},
        {0, {ALIAS(60, "a.example", "\5other\0")}, 1, DNSM_REPLY_ALIAS, 60, 0, "other.", NULL, NULL},
        {0, {RECORD(DNSM_ANSWER, DNSM_TYPE_DNAME, 50, "example", "\5other\0")}, 1, DNSM_REPLY_DNAME, 50, 0, "a.example.", "example.",
         "other."},
        {DNSM_TC, {ADDRESS(300, "a.example")}, 1, DNSM_REPLY_TRUNCATED, 0, 0, NULL, NULL, NULL},
        {2, {ADDRESS(300, "a.example")}, 1, DNSM_REPLY_FAILED, 0, 0, NULL, NULL, NULL},
        {0, {OPT, OPT}, 2, DNSM_REPLY_MANY_OPTS, 0, 0, NULL, NULL, NULL},
        {0, {ALIAS(60, "a.example", "\1a\7example\0")}, 1, DNSM_REPLY_LOOP, 0, 0, NULL, NULL, NULL},
        {0, {RECORD(DNSM_AUTHORITY, DNSM_TYPE_NS, 7, "example", "\2ns\0")}, 1, DNSM_REPLY_LAME, 0, 0, NULL, NULL, NULL},
    };
    dnsm_saying saying;
    uint8_t asked[DNSM_MADE];
    size_t asked_len, made;
    assert(dnsm_query(9, true, TEXT("a.example"), DNSM_TYPE_A, DNSM_CLASS_IN, asked, sizeof asked, &asked_len) == DNSM_OK);
    for (size_t i = 0; i < sizeof each / sizeof *each; i++) {
        dnsm_new_item items[3] = {{TEXT("a.example"), NULL, 0, 0, DNSM_TYPE_A, DNSM_CLASS_IN, DNSM_QUESTION}};
        memcpy(items + 1, each[i].records, sizeof each[i].records);
        assert(dnsm_build(9, (uint16_t)(DNSM_QR | each[i].flags), items, 1 + each[i].count, out, sizeof out, &made) == DNSM_OK);
        assert(dnsm_reply(asked, asked_len, out, made, OCTETS("\7example\0"), &saying) == DNSM_OK && saying.kind == each[i].kind);
        assert(saying.ttl == each[i].ttl && saying.alias_ttl == each[i].alias_ttl);
        assert(saying.rcode == (each[i].kind == DNSM_REPLY_FAILED ? 2 : 0));
        assert(is_name(saying.name, saying.name_len, each[i].name) && is_name(saying.owner, saying.owner_len, each[i].owner));
        assert(is_name(saying.target, saying.target_len, each[i].target));
        if (each[i].kind != DNSM_REPLY_TRUNCATED)
            assert(dnsm_reply(asked, asked_len, out, made - 1, OCTETS("\0"), &saying) == DNSM_OK &&
                   saying.kind == DNSM_REPLY_UNREADABLE);
    }
    /* A question outside the zone: no alias, and so nothing to be cached. */
    assert(dnsm_reply(OCTETS("\0\1\1\0\0\1\0\0\0\0\0\0\0\0\1\0\1"), OCTETS("\0\1\x81\0\0\1\0\0\0\0\0\0\0\0\1\0\1"),
                      OCTETS("\7example\0"), &saying) == DNSM_OK);
    assert(saying.kind == DNSM_REPLY_ALIAS && saying.name_len == 1 && saying.ttl == 0 && saying.alias_ttl == 0);
    /* RFC 2136 section 3.8: the response to an UPDATE may have no sections. */
    assert(dnsm_reply(OCTETS("\0\1\x28\0\0\1\0\0\0\0\0\0\0\0\6\0\1"), OCTETS("\0\1\xa8\0\0\0\0\0\0\0\0\0"), OCTETS("\0"), &saying) ==
           DNSM_OK);
    assert(saying.kind == DNSM_REPLY_DONE && saying.name_len == 0);
}

/* Messages that are no replies, and octets that are no zone. */
static void no_replies(void)
{
    uint8_t other[RESPONSE];
    dnsm_saying saying = {.ttl = 7, .kind = 99};
    assert(dnsm_reply(query, 11, response, RESPONSE, OCTETS("\0"), &saying) == DNSM_SHORT_INPUT);
    assert(dnsm_reply(query, QUERY, response, 11, OCTETS("\0"), &saying) == DNSM_SHORT_INPUT);
    assert(dnsm_reply(query, QUERY, response, RESPONSE, NULL, 0, &saying) == DNSM_BAD_TEXT);
    assert(dnsm_reply(query, QUERY, response, RESPONSE, OCTETS("\0\0"), &saying) == DNSM_BAD_TEXT);
    assert(dnsm_reply(query, QUERY, query, QUERY, OCTETS("\0"), &saying) == DNSM_NO_RESPONSE);
    for (size_t at = 0; at < 29; at++) { /* the ID, the opcode, the number of questions, the question */
        memcpy(other, response, RESPONSE);
        other[at] ^= at == 2 ? 8 : 16;
        const bool is_compared = at < 3 || at == 4 || at == 5 || at >= 12;
        if (is_compared)
            assert(dnsm_reply(query, QUERY, other, RESPONSE, OCTETS("\0"), &saying) == DNSM_OTHER_QUERY);
    }
    assert(saying.ttl == 7 && saying.kind == 99);
}

/* What a cache asks of all records. RFC 1035 section 4.1.4: a pointer leads to a name that occurred earlier. */
static void cached(void)
{
    uint8_t regular = 7, longer[RESPONSE + 1] = {0};
    uint32_t ttl = 7;
    size_t end = 7;
    assert(dnsm_is_regular(response, 11, &regular) == DNSM_SHORT_INPUT && regular == 7);
    assert(dnsm_is_regular(response, RESPONSE, &regular) == DNSM_OK && regular == 1);
    assert(dnsm_is_regular(response, RESPONSE - 1, &regular) == DNSM_OK && regular == 0);
    memcpy(longer, response, RESPONSE);
    longer[30] = 13; /* the owner of MX: within the label `example` */
    assert(dnsm_is_regular(longer, RESPONSE, &regular) == DNSM_OK && regular == 0);
    assert(dnsm_min_ttl(response, 11, &ttl) == DNSM_SHORT_INPUT && ttl == 7);
    assert(dnsm_min_ttl(query, QUERY, &ttl) == DNSM_END && ttl == 7);
    assert(dnsm_min_ttl(response, RESPONSE - 1, &ttl) == DNSM_SHORT_INPUT && ttl == 7);
    longer[56] = longer[77] = 1; /* the TTLs of SRV and MINFO become great: that of MX is the least */
    assert(dnsm_min_ttl(longer, RESPONSE, &ttl) == DNSM_OK && ttl == 3600);
    assert(dnsm_min_ttl(response, RESPONSE, &ttl) == DNSM_OK && ttl == 7);
    assert(dnsm_records_end(longer, sizeof longer, &end) == DNSM_OK && end == RESPONSE);
    assert(dnsm_records_end(query, QUERY, &end) == DNSM_OK && end == QUERY);
    assert(dnsm_records_end(response, 12, &end) == DNSM_SHORT_INPUT && end == QUERY);
    longer[12] = 0x40;
    assert(dnsm_records_end(longer, sizeof longer, &end) == DNSM_BAD_LABEL && end == QUERY);
}

/* TTLs lowered in place, but not below 0, and no other octet changed. The field of OPT is no TTL (RFC 6891 section 6.1.3). */
static void aged(void)
{
    uint8_t octets[RESPONSE], wanted[RESPONSE];
    memcpy(octets, response, RESPONSE);
    memcpy(wanted, response, RESPONSE);
    assert(dnsm_age(octets, RESPONSE, 0) == DNSM_OK && memcmp(octets, wanted, RESPONSE) == 0);
    wanted[37] = 0xb; /* MX: 3600 - 600 = 3000 */
    wanted[38] = 0xb8;
    wanted[59] = wanted[80] = 0; /* SRV and MINFO: from 7 to 0 */
    assert(dnsm_age(octets, RESPONSE, 600) == DNSM_OK && memcmp(octets, wanted, RESPONSE) == 0);
    wanted[37] = wanted[38] = 0;
    assert(dnsm_age(octets, RESPONSE, UINT32_MAX) == DNSM_OK && memcmp(octets, wanted, RESPONSE) == 0);
    /* Refused messages stay as they are. */
    memcpy(octets, response, RESPONSE);
    assert(dnsm_age(octets, 11, 600) == DNSM_SHORT_INPUT && dnsm_age(octets, RESPONSE - 1, 600) == DNSM_SHORT_INPUT);
    assert(memcmp(octets, response, RESPONSE) == 0);
    octets[51] = 35; /* the owner of SRV leads to the TTL of MX, which a reader takes for the root */
    memcpy(wanted, octets, RESPONSE);
    assert(dnsm_age(octets, RESPONSE, 600) == DNSM_BAD_POINTER && memcmp(octets, wanted, RESPONSE) == 0);
    octets[51] = 12;
    octets[89] = 0x40; /* the owner of OPT */
    assert(dnsm_age(octets, RESPONSE, 600) == DNSM_BAD_LABEL && octets[37] == 0xe);
}

/* The messages of a stream, each after its length. */
static void frames(void)
{
    static const uint8_t stream[] = "\0\xc............\0\xb";
    size_t first = 7, missing = 7;
    assert(dnsm_first_message(NULL, 0, &first, &missing) == DNSM_END && missing == 2 && first == 7);
    assert(dnsm_first_message(stream, 1, &first, &missing) == DNSM_END && missing == 1);
    assert(dnsm_first_message(stream, 2, &first, &missing) == DNSM_END && missing == 12);
    assert(dnsm_first_message(stream, 13, &first, &missing) == DNSM_END && missing == 1 && first == 7);
    assert(dnsm_first_message(stream, 16, &first, &missing) == DNSM_OK && missing == 0 && first == 12);
    assert(dnsm_first_message(stream + 14, 2, &first, &missing) == DNSM_SHORT_INPUT && first == 12);
}

/* Makes the message of a transfer in `out`: a question for example.org, if its type isn't 0, and records. */
static void make_message(uint16_t id, uint16_t flags, uint16_t qtype, const char *const *lines)
{
    const dnsm_put_item question = {(const uint8_t *)"\7example\3org", 13, NULL, 0, 0, qtype, DNSM_CLASS_IN, DNSM_QUESTION};
    dnsm_draft draft;
    assert(dnsm_begin(&draft, out, sizeof out, id, flags) == DNSM_OK);
    assert(qtype == 0 || dnsm_put(&draft, out, sizeof out, &question) == DNSM_OK);
    for (; *lines; lines++) {
        uint8_t octets[128];
        dnsm_item item;
        assert(dnsm_record_from_text(*lines, strlen(*lines), octets, sizeof octets, &len, &item) == DNSM_OK);
        item.section = DNSM_ANSWER;
        assert(dnsm_put_from(&draft, out, sizeof out, octets, len, &item) == DNSM_OK);
    }
    assert(dnsm_finish(&draft, out, sizeof out, &len) == DNSM_OK);
}

/* The kinds of the steps of that message, as digits. Returns how it ends. */
static dnsm_status take(dnsm_transfer *transfer, char *kinds)
{
    dnsm_cursor cursor;
    dnsm_step step;
    dnsm_status status = dnsm_open_transfer(transfer, out, len, &cursor);
    while (status == DNSM_OK && (status = dnsm_next_step(transfer, out, len, &cursor, &step)) == DNSM_OK)
        *kinds++ = (char)('0' + step.kind);
    *kinds = 0;
    return status;
}

#define SOA_LINE(serial) "example.org. 300 IN SOA ns.example.org. admin.example.org. " serial " 7200 900 1209600 300"
#define NS "example.org. 300 IN NS ns.example.org."
#define A "ns.example.org. 300 IN A 192.0.2.1"
#define B "ns.example.org. 300 IN A 192.0.2.2"
#define LINES(...) (const char *const[]){__VA_ARGS__, NULL}

static dnsm_transfer begun(bool changes, uint32_t known)
{
    dnsm_transfer transfer = {.zone_len = 7};
    assert(dnsm_begin_transfer(&transfer, 4660, OCTETS("\7EXAMPLE\3org\0\0"), DNSM_CLASS_IN, changes, known) == DNSM_BAD_TEXT);
    assert(transfer.zone_len == 7);
    assert(dnsm_begin_transfer(&transfer, 4660, OCTETS("\7EXAMPLE\3org\0"), DNSM_CLASS_IN, changes, known) == DNSM_OK);
    return transfer;
}

/* RFC 5936 section 2.2, RFC 1995 sections 2 and 4. */
static void transfers(void)
{
    const struct { bool changes; uint16_t qtype; const char *const *lines; const char *kinds; } each[] = {
        {false, DNSM_TYPE_AXFR, LINES(SOA_LINE("3"), NS, A, SOA_LINE("3")), "0445"},
        {true, DNSM_TYPE_IXFR, LINES(SOA_LINE("3"), SOA_LINE("1"), A, SOA_LINE("3"), B, SOA_LINE("3")), "033445"},
        {true, DNSM_TYPE_IXFR, LINES(SOA_LINE("3"), SOA_LINE("1"), SOA_LINE("2"), A, SOA_LINE("2"), A, SOA_LINE("3"), SOA_LINE("3")),
         "03443345"},
        {true, DNSM_TYPE_IXFR, LINES(SOA_LINE("3"), NS, SOA_LINE("3")), "0245"},
        {true, DNSM_TYPE_IXFR, LINES(SOA_LINE("1")), "1"}};
    char kinds[16];
    dnsm_transfer transfer;
    for (size_t i = 0; i < sizeof each / sizeof *each; i++) {
        transfer = begun(each[i].changes, 1);
        make_message(4660, DNSM_QR | DNSM_AA, each[i].qtype, each[i].lines);
        assert(take(&transfer, kinds) == DNSM_END && strcmp(kinds, each[i].kinds) == 0);
        assert(dnsm_end_transfer(&transfer) == DNSM_OK && transfer.state == DNSM_TRANSFER_ENDED && transfer.status == DNSM_OK);
    }
    /* Several messages: the later ones need no question. A copy goes on from where it was taken. */
    transfer = begun(false, 0);
    make_message(4660, DNSM_QR, DNSM_TYPE_AXFR, LINES(SOA_LINE("3"), NS));
    assert(take(&transfer, kinds) == DNSM_END && strcmp(kinds, "04") == 0 && transfer.last == 3);
    assert(dnsm_end_transfer(&transfer) == DNSM_INCOMPLETE && transfer.state == DNSM_TRANSFER_WHOLE);
    dnsm_transfer copy = transfer;
    make_message(4660, DNSM_QR, 0, LINES(A, SOA_LINE("3")));
    assert(take(&transfer, kinds) == DNSM_END && strcmp(kinds, "45") == 0 && dnsm_end_transfer(&transfer) == DNSM_OK);
    assert(take(&copy, kinds) == DNSM_END && strcmp(kinds, "45") == 0);
    assert(take(&copy, kinds) == DNSM_AFTER_END && dnsm_end_transfer(&copy) == DNSM_AFTER_END);
    /* The record of a step, and its serial. */
    dnsm_cursor cursor;
    dnsm_step step;
    transfer = begun(false, 0);
    make_message(4660, DNSM_QR, DNSM_TYPE_AXFR, LINES(SOA_LINE("4294967295"), A));
    assert(dnsm_open_transfer(&transfer, out, len, &cursor) == DNSM_OK && cursor.left == 2);
    assert(dnsm_next_step(&transfer, out, len, &cursor, &step) == DNSM_OK && step.serial == UINT32_MAX && step.item.type == DNSM_TYPE_SOA);
    assert(dnsm_next_step(&transfer, out, len, &cursor, &step) == DNSM_OK && step.serial == 0 && step.item.type == DNSM_TYPE_A);
    assert(step.item.ttl == 300 && step.item.data_len == 4 && memcmp(out + step.item.data, "\300\0\2\1", 4) == 0);
    assert(dnsm_next_step(&transfer, out, len, &cursor, &step) == DNSM_END && step.item.type == DNSM_TYPE_A);
}

/* Messages that aren't the next ones of a transfer: each error, and the steps before it. */
static void no_transfers(void)
{
    const struct { uint16_t id, flags, qtype; const char *const *lines; dnsm_status status; const char *kinds; } each[] = {
        {4661, DNSM_QR, DNSM_TYPE_AXFR, LINES(SOA_LINE("3")), DNSM_OTHER_QUERY, ""},
        {4660, 0, DNSM_TYPE_AXFR, LINES(SOA_LINE("3")), DNSM_NO_RESPONSE, ""},
        {4660, DNSM_QR | 0x2000, DNSM_TYPE_AXFR, LINES(SOA_LINE("3")), DNSM_NO_RESPONSE, ""},
        {4660, DNSM_QR | 5, DNSM_TYPE_AXFR, LINES(SOA_LINE("3")), DNSM_BAD_RCODE, ""},
        {4660, DNSM_QR | DNSM_TC, DNSM_TYPE_AXFR, LINES(SOA_LINE("3")), DNSM_TRUNCATED, ""},
        {4660, DNSM_QR, DNSM_TYPE_IXFR, LINES(SOA_LINE("3")), DNSM_OTHER_QUERY, ""},
        {4660, DNSM_QR, 0, LINES(SOA_LINE("3")), DNSM_OTHER_QUERY, ""},
        {4660, DNSM_QR, DNSM_TYPE_AXFR, LINES(SOA_LINE("3"), "example.org. 300 CH NS ns.example.org."), DNSM_WRONG_CLASS, "0"},
        {4660, DNSM_QR, DNSM_TYPE_AXFR, LINES(SOA_LINE("3"), "org. 300 IN NS ns.example.org."), DNSM_OUTSIDE_ZONE, "0"},
        {4660, DNSM_QR, DNSM_TYPE_AXFR, LINES(NS), DNSM_NO_SOA, ""},
        {4660, DNSM_QR, DNSM_TYPE_AXFR, LINES("a." SOA_LINE("3")), DNSM_WRONG_SOA, ""},
        {4660, DNSM_QR, DNSM_TYPE_AXFR, LINES(SOA_LINE("3"), NS, SOA_LINE("4")), DNSM_WRONG_SOA, "04"},
        {4660, DNSM_QR, DNSM_TYPE_AXFR, LINES(SOA_LINE("3"), SOA_LINE("3"), NS), DNSM_AFTER_END, "05"}};
    char kinds[16];
    dnsm_transfer transfer;
    dnsm_cursor cursor = {.left = 7};
    dnsm_step step = {.kind = 99};
    for (size_t i = 0; i < sizeof each / sizeof *each; i++) {
        transfer = begun(false, 0);
        make_message(each[i].id, each[i].flags, each[i].qtype, each[i].lines);
        assert(take(&transfer, kinds) == each[i].status && strcmp(kinds, each[i].kinds) == 0);
        /* The error stays, whatever comes. */
        make_message(4660, DNSM_QR, DNSM_TYPE_AXFR, LINES(SOA_LINE("3")));
        assert(dnsm_open_transfer(&transfer, out, len, &cursor) == each[i].status && cursor.left == 7);
        assert(dnsm_next_step(&transfer, out, len, &cursor, &step) == each[i].status && step.kind == 99);
        assert(dnsm_end_transfer(&transfer) == each[i].status && transfer.status == each[i].status);
    }
    transfer = begun(false, 0);
    assert(dnsm_open_transfer(&transfer, out, 11, &cursor) == DNSM_SHORT_INPUT && dnsm_end_transfer(&transfer) == DNSM_SHORT_INPUT);
    transfer = begun(false, 0);
    assert(dnsm_open_transfer(&transfer, out, 20, &cursor) == DNSM_SHORT_INPUT);
    /* The record is cut off, or an octet follows the fields of its RDATA. */
    transfer = begun(false, 0);
    assert(dnsm_open_transfer(&transfer, out, len - 1, &cursor) == DNSM_OK && cursor.left == 1);
    assert(dnsm_next_step(&transfer, out, len - 1, &cursor, &step) == DNSM_SHORT_INPUT);
    out[item_of(out, len, 1).data - 1]++;
    transfer = begun(false, 0);
    assert(dnsm_open_transfer(&transfer, out, len + 1, &cursor) == DNSM_OK);
    assert(dnsm_next_step(&transfer, out, len + 1, &cursor, &step) == DNSM_FORM && transfer.status == DNSM_FORM);
    /* A struct that no call has set. */
    transfer = (dnsm_transfer){.zone_len = 1, .zone = {64}};
    assert(dnsm_open_transfer(&transfer, out, len, &cursor) == DNSM_BAD_TEXT && transfer.status == DNSM_BAD_TEXT);
}

/* The response to the query, with items of the other response. */
static void responses(void)
{
    dnsm_draft draft = {.len = 7};
    dnsm_item item;
    assert(dnsm_begin_response(&draft, out, 28, query, QUERY, 3) == DNSM_NO_ROOM && draft.len == 7);
    assert(dnsm_begin_response(&draft, out, sizeof out, query, 11, 3) == DNSM_SHORT_INPUT && draft.len == 7);
    assert(dnsm_begin_response(&draft, out, sizeof out, response, RESPONSE, 3) == DNSM_IS_RESPONSE);
    assert(dnsm_begin_response(&draft, out, sizeof out, OCTETS("\0\0\0\0\0\0\0\0\0\0\0\0"), 3) == DNSM_NO_QUESTION);
    assert(dnsm_begin_response(&draft, out, sizeof out, query, QUERY - 1, 3) == DNSM_SHORT_INPUT);
    assert(dnsm_begin_response(&draft, out, sizeof out, query, QUERY, 0x13) == DNSM_OK && draft.flags == 0x8113);
    assert(draft.id == 0x1234 && draft.len == 29 && draft.counts[0] == 1 && draft.limit == SIZE_MAX && draft.reserved == 0);
    assert(memcmp(out + 12, query + 12, 17) == 0);
    draft.flags = 0x8580;
    assert(dnsm_begin_response(&draft, out, sizeof out, response, RESPONSE, 0) == DNSM_IS_RESPONSE && draft.flags == 0x8580);
    for (unsigned number = MX; number <= MINFO; number++) {
        item = item_of(response, RESPONSE, number);
        assert(dnsm_put_from(&draft, out, sizeof out, response, RESPONSE, &item) == DNSM_OK);
    }
    item = item_of(response, RESPONSE, 4);
    item.ttl = 7;
    assert(dnsm_put_from(&draft, out, sizeof out, response, RESPONSE, &item) == DNSM_OK && draft.len <= RESPONSE + 13);
    assert(dnsm_finish(&draft, out, sizeof out, &len) == DNSM_OK && item_of(out, len, 4).ttl == 7);
    item = item_of(out, len, MINFO);
    assert(dnsm_data_octets(out, len, &item, out + len, sizeof out - len, &len) == DNSM_OK && len == 33);
}

/* The query with OPT records of this payload size and version, and with DO (RFC 6891 section 6.1.2). Returns its length. */
static size_t with_opts(uint8_t *to, uint8_t opts, uint16_t size, uint8_t version)
{
    const uint8_t opt[] = {0, 0, 41, (uint8_t)(size >> 8), (uint8_t)size, 0, version, 0x80, 0, 0, 0};
    memcpy(to, query, QUERY);
    to[11] = opts;
    for (uint8_t i = 0; i < opts; i++)
        memcpy(to + QUERY + i * sizeof opt, opt, sizeof opt);
    return QUERY + opts * sizeof opt;
}

/* The heads of responses: RFC 1035 section 4.1.1, RFC 6891 sections 6.1.1, 6.1.3 and 6.2.3. */
static void heads(void)
{
    static const struct { uint16_t wanted, size; uint8_t opts, version; uint16_t rcode, udp_size; uint8_t rcode_high; } rows[] = {
        {0, 0, 0, 0, 0, 0, 0}, {3, 0, 0, 0, 3, 0, 0}, {0x1003, 0, 0, 0, 3, 0, 0}, {3, 4096, 1, 0, 3, 4096, 0}, {0, 0, 1, 0, 0, 512, 0},
        {0, 511, 1, 0, 0, 512, 0}, {0, 65535, 1, 0, 0, 65535, 0}, {DNSM_RCODE_BADCOOKIE, 1232, 1, 0, 23, 1232, 1},
        {4095, 1232, 1, 0, 4095, 1232, 255}, {0, 1232, 1, 1, 16, 1232, 1}, {5, 1232, 1, 255, 16, 1232, 1}, {0, 1232, 2, 0, 1, 1232, 0},
        {5, 1232, 2, 1, 1, 1232, 0}};
    uint8_t asked[64];
    dnsm_draft draft;
    dnsm_opt opt;
    for (size_t i = 0; i < sizeof rows / sizeof *rows; i++) {
        const size_t asked_len = with_opts(asked, rows[i].opts, rows[i].size, rows[i].version);
        uint16_t rcode = rows[i].wanted;
        assert(dnsm_respond(&draft, out, sizeof out, asked, asked_len, &rcode, &opt) == DNSM_OK && rcode == rows[i].rcode);
        assert(draft.id == 0x1234 && draft.flags == (0x8110 | (rcode & 15)) && draft.len == 29 && draft.counts[0] == 1 && draft.section == 0);
        assert(draft.limit == SIZE_MAX && draft.unchecked == 0 && draft.reserved == (rows[i].opts ? 11 : 0));
        assert(opt.udp_size == rows[i].udp_size && opt.rcode_high == rows[i].rcode_high && opt.version == 0);
        assert(opt.flags == (rows[i].opts ? DNSM_DO : 0) && memcmp(out + 12, query + 12, 17) == 0);
    }
}

/* Heads without a question, by FORMERR or BADVERS, and queries that get none. The opcode of the first is NOTIFY. */
static void heads_without_question(void)
{
    uint8_t asked[64];
    dnsm_draft draft = {.len = 7};
    dnsm_opt opt = {.udp_size = 7};
    uint16_t rcode = 5;
    assert(dnsm_respond(&draft, out, sizeof out, query, 11, &rcode, &opt) == DNSM_SHORT_INPUT);
    assert(dnsm_respond(&draft, out, sizeof out, response, RESPONSE, &rcode, &opt) == DNSM_IS_RESPONSE);
    assert(dnsm_respond(&draft, out, 28, query, QUERY, &rcode, &opt) == DNSM_NO_ROOM);
    assert(dnsm_respond(&draft, out, 11, query, QUERY - 1, &rcode, &opt) == DNSM_NO_ROOM);
    assert(draft.len == 7 && opt.udp_size == 7 && rcode == 5);
    assert(dnsm_respond(&draft, out, 12, OCTETS("\x12\x34\x21\0\0\0\0\0\0\0\0\0"), &rcode, &opt) == DNSM_OK && rcode == 1);
    assert(draft.flags == 0xa101 && draft.id == 0x1234 && draft.len == 12 && draft.counts[0] == 0 && opt.udp_size == 0);
    rcode = 5;
    assert(dnsm_respond(&draft, out, sizeof out, query, QUERY - 1, &rcode, &opt) == DNSM_OK && rcode == 1 && draft.flags == 0x8111);
    assert(draft.len == 12 && draft.counts[0] == 0 && draft.reserved == 0);
    /* No question, and then an OPT record of version 1. */
    const size_t asked_len = with_opts(asked, 1, 1232, 1);
    asked[5] = 0;
    memmove(asked + 12, asked + QUERY, asked_len - QUERY);
    assert(dnsm_respond(&draft, out, sizeof out, asked, 23, &rcode, &opt) == DNSM_OK && rcode == 16 && draft.flags == 0x8110);
    assert(draft.len == 12 && opt.rcode_high == 1 && draft.reserved == 11);
}

static bool is_same(const dnsm_draft *one, const dnsm_draft *other)
{
    return memcmp(one, other, offsetof(dnsm_draft, hints)) == 0 && memcmp(one->hints, other->hints, sizeof one->hints) == 0;
}

/* Sets go in whole, or are left out, and then TC is set if the set is required (RFC 2181 sections 5 and 9). */
static void sets(void)
{
    static const uint8_t addresses[] = {192, 0, 2, 1, 192, 0, 2, 2};
    const dnsm_put_item two[] = {{query + 12, 13, addresses, 4, 300, DNSM_TYPE_A, DNSM_CLASS_IN, DNSM_ANSWER},
                                 {query + 12, 13, addresses + 4, 4, 300, DNSM_TYPE_A, DNSM_CLASS_IN, DNSM_ANSWER}};
    const dnsm_put_item odd[] = {two[0], {query + 12, 13, addresses, 5, 300, DNSM_TYPE_A, DNSM_CLASS_IN, DNSM_ANSWER}};
    dnsm_draft draft, mark;
    dnsm_opt opt;
    uint16_t rcode = 0;
    assert(dnsm_respond(&draft, out, sizeof out, query, QUERY, &rcode, &opt) == DNSM_OK);
    draft.limit = 29 + 2 * 16 - 1;
    mark = draft;
    assert(dnsm_put_set(&draft, out, sizeof out, two, 2, false) == DNSM_NO_ROOM && is_same(&draft, &mark));
    assert(dnsm_put_set(&draft, out, sizeof out, odd, 2, false) == DNSM_BAD_DATA && is_same(&draft, &mark));
    assert(dnsm_put_set(&draft, out, sizeof out, two, 2, true) == DNSM_NO_ROOM && draft.flags == (mark.flags | DNSM_TC));
    assert(dnsm_put_set(&draft, out, sizeof out, two, 1, true) == DNSM_NO_ROOM && dnsm_put_set(&draft, out, sizeof out, NULL, 0, false) == DNSM_NO_ROOM);
    draft.flags = mark.flags;
    assert(is_same(&draft, &mark));
    draft.limit++;
    assert(dnsm_put_set(&draft, out, sizeof out, NULL, 0, true) == DNSM_OK && draft.len == 29);
    draft.reserved = 1;
    assert(dnsm_put_set(&draft, out, sizeof out, two, 2, false) == DNSM_NO_ROOM && draft.len == 29);
    draft.reserved = 0;
    assert(dnsm_put_set(&draft, out, sizeof out, two, 2, true) == DNSM_OK && draft.len == 61 && draft.counts[1] == 2 && draft.flags == mark.flags);
    assert(dnsm_finish(&draft, out, sizeof out, &len) == DNSM_OK && len == 61 && item_of(out, len, 2).section == DNSM_ANSWER);
    assert(memcmp(out + 57, addresses + 4, 4) == 0);
    draft.limit = 65535;
    assert(dnsm_put_set(&draft, out, sizeof out, odd, 2, true) == DNSM_BAD_DATA && draft.len == 61 && draft.flags == mark.flags);
}

/* Items that aren't put. */
static void refused(void)
{
    dnsm_draft draft;
    dnsm_item item = item_of(response, RESPONSE, MX), odd = item;
    assert(dnsm_begin(&draft, out, 12, 1, 0) == DNSM_OK);
    assert(dnsm_put_from(&draft, out, 12, response, RESPONSE, &item) == DNSM_NO_ROOM && draft.len == 12);
    odd.section = DNSM_ADDITIONAL + 1;
    assert(dnsm_put_from(&draft, out, sizeof out, response, RESPONSE, &odd) == DNSM_BAD_SECTION);
    odd = item;
    odd.type = 1;
    assert(dnsm_put_from(&draft, out, sizeof out, response, RESPONSE, &odd) == DNSM_BAD_DATA);
    odd = item;
    odd.place = RESPONSE;
    assert(dnsm_put_from(&draft, out, sizeof out, response, RESPONSE, &odd) == DNSM_BAD_TEXT && draft.len == 12);
    /* RDATA of dnsm_put is checked unless the draft says otherwise: an address of five octets. */
    const dnsm_put_item address = {OCTETS("\0"), (const uint8_t *)"\1\2\3\4\5", 5, 7, 1, 1, DNSM_ANSWER};
    assert(dnsm_put(&draft, out, sizeof out, &address) == DNSM_BAD_DATA);
    draft.unchecked = 1;
    assert(dnsm_put(&draft, out, sizeof out, &address) == DNSM_OK && draft.len == 28);
}

int main(void)
{
    version();
    numbers();
    numbers_from_text();
    comparisons();
    keys();
    hashes();
    data_names();
    data();
    fields();
    from_text();
    opts();
    answers();
    replies();
    no_replies();
    cached();
    aged();
    frames();
    transfers();
    no_transfers();
    responses();
    heads();
    heads_without_question();
    sets();
    refused();
    puts("ok");
    return 0;
}
