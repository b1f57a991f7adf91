/* The tasks of whole messages with the calls of dnsm.h. */

#include "tasks.h"

#include <dnsm.h>
#include <stdio.h>
#include <string.h>

/* A name as text, as dnsm_build takes it, and as octets, as dnsm_put does. */
struct name {
    char text[32];
    uint8_t octets[40];
    size_t text_len, len;
};

static struct name www, parent, signer, owners[OWNERS];
static uint8_t addresses[OWNERS][4];
static dnsm_new_item texts[1 + OWNERS];
static dnsm_put_item signatures[SIGNATURES];
static uint8_t out[ROOM];
static struct input w2, m40, q1, f64, h64, h64b, p64, x1, x2500;

/* The question of w2 as a query. */
static uint8_t query[W2_QUESTION];

static void set_name(struct name *name, const char *text)
{
    name->text_len = strlen(text);
    memcpy(name->text, text, name->text_len + 1);
    dnsm_name_from_text(text, name->text_len, name->octets, sizeof name->octets, &name->len);
}

static dnsm_put_item question(const struct name *name)
{
    return (dnsm_put_item){.name = name->octets, .name_len = name->len, .type = 1, .class_ = 1};
}

static dnsm_put_item address(const struct name *owner, const uint8_t *octets, uint32_t ttl)
{
    dnsm_put_item item = question(owner);
    item.section = DNSM_ANSWER;
    item.data = octets;
    item.data_len = 4;
    item.ttl = ttl;
    return item;
}

static size_t put_20(uint8_t unchecked)
{
    dnsm_draft draft;
    size_t len;
    dnsm_put_item item = question(&www);
    dnsm_begin(&draft, out, 1232, 1, DNSM_QR);
    draft.unchecked = unchecked;
    if (dnsm_put(&draft, out, 1232, &item) != DNSM_OK)
        return 0;
    for (int i = 0; i < ADDRESSES; i++) {
        item = address(&www, (const uint8_t[]){192, 0, 2, (uint8_t)i}, ADDRESS_TTL);
        if (dnsm_put(&draft, out, 1232, &item) != DNSM_OK)
            return 0;
    }
    return dnsm_finish(&draft, out, 1232, &len) == DNSM_OK ? len : 0;
}

static size_t put_addresses(void) { return put_20(0); }
static size_t put_unchecked(void) { return put_20(1); }

static size_t put_20_signatures(uint8_t unchecked)
{
    dnsm_draft draft;
    size_t len;
    dnsm_put_item item = question(&signer);
    dnsm_begin(&draft, out, sizeof out, 1, DNSM_QR);
    draft.unchecked = unchecked;
    if (dnsm_put(&draft, out, sizeof out, &item) != DNSM_OK)
        return 0;
    for (int i = 0; i < SIGNATURES; i++)
        if (dnsm_put(&draft, out, sizeof out, &signatures[i]) != DNSM_OK)
            return 0;
    return dnsm_finish(&draft, out, sizeof out, &len) == DNSM_OK ? len : 0;
}

static size_t put_signatures(void) { return put_20_signatures(0); }
static size_t put_signatures_unchecked(void) { return put_20_signatures(1); }

static size_t put_owners(void)
{
    dnsm_draft draft;
    size_t len;
    dnsm_put_item item = question(&parent);
    dnsm_begin(&draft, out, sizeof out, 1, DNSM_QR);
    if (dnsm_put(&draft, out, sizeof out, &item) != DNSM_OK)
        return 0;
    for (int i = 0; i < OWNERS; i++) {
        item = address(&owners[i], (const uint8_t[]){10, 0, (uint8_t)(i / 256), (uint8_t)i}, OWNER_TTL);
        if (dnsm_put(&draft, out, sizeof out, &item) != DNSM_OK)
            return 0;
    }
    return dnsm_finish(&draft, out, sizeof out, &len) == DNSM_OK ? len : 0;
}

static void set_text(dnsm_new_item *item, const struct name *name, const uint8_t *octets, uint32_t ttl)
{
    *item = (dnsm_new_item){.name = name->text, .name_len = name->text_len, .type = 1, .class_ = 1};
    if (octets) {
        item->section = DNSM_ANSWER;
        item->data = octets;
        item->data_len = 4;
        item->ttl = ttl;
    }
}

static size_t build(size_t items, size_t room)
{
    size_t len;
    return dnsm_build(1, DNSM_QR, texts, items, out, room, &len) == DNSM_OK ? len : 0;
}

static size_t build_addresses(void)
{
    set_text(&texts[0], &www, NULL, 0);
    for (int i = 0; i < ADDRESSES; i++) {
        memcpy(addresses[i], (const uint8_t[]){192, 0, 2, (uint8_t)i}, 4);
        set_text(&texts[1 + i], &www, addresses[i], ADDRESS_TTL);
    }
    return build(1 + ADDRESSES, 1232);
}

static size_t build_owners(void)
{
    set_text(&texts[0], &parent, NULL, 0);
    for (int i = 0; i < OWNERS; i++) {
        memcpy(addresses[i], (const uint8_t[]){10, 0, (uint8_t)(i / 256), (uint8_t)i}, 4);
        set_text(&texts[1 + i], &owners[i], addresses[i], OWNER_TTL);
    }
    return build(1 + OWNERS, sizeof out);
}

/* What is done with an item of a message. Returns 0 on failure. */
typedef size_t visitor(const struct input *from, const dnsm_item *item);

/* Reads a message, and does this with each item, or with each record only. Returns the offset after the last item. */
static size_t read_message(const struct input *from, visitor *visit, bool records_only)
{
    dnsm_header header;
    dnsm_cursor cursor;
    dnsm_item item;
    dnsm_status status = dnsm_open(from->octets, from->len, &header, &cursor);
    while (status == DNSM_OK && (status = dnsm_next(from->octets, from->len, &cursor, &item)) == DNSM_OK)
        if (visit && !(records_only && item.section == DNSM_QUESTION) && visit(from, &item) == 0)
            return 0;
    return status == DNSM_END ? cursor.place : 0;
}

/* Keeps an RRSIG record of m40, to be put. Its RDATA has no compression pointers. */
static size_t keep_signature(const struct input *from, const dnsm_item *item)
{
    static size_t kept;
    if (item->type == DNSM_TYPE_RRSIG)
        signatures[kept++] = (dnsm_put_item){signer.octets, signer.len, from->octets + item->data, item->data_len,
                                             item->ttl, item->type, item->class_, DNSM_ANSWER};
    return 1;
}

void prepare(void)
{
    set_name(&www, "www.example.com.");
    set_name(&parent, "sub.example.com.");
    set_name(&signer, "example.com.");
    w2 = load_input("w2");
    m40 = load_input("m40");
    q1 = load_input("q1");
    f64 = load_input("f64");
    h64 = load_input("h64");
    h64b = load_input("h64b");
    p64 = load_input("p64");
    x1 = load_input("x1");
    x2500 = load_input("x2500");
    make_query(query, &w2);
    for (int i = 0; i < OWNERS; i++) {
        char text[32];
        snprintf(text, sizeof text, "h%d.sub.example.com.", i);
        set_name(&owners[i], text);
    }
    read_message(&m40, keep_signature, true);
}

static size_t name_of(const struct input *from, const dnsm_item *item)
{
    uint8_t name[DNSM_NAME_OCTETS];
    size_t len;
    return dnsm_name_octets(from->octets, from->len, item->place, name, sizeof name, &len) == DNSM_OK;
}

static size_t texts_of(const struct input *from, const dnsm_item *item)
{
    char name[DNSM_NAME_TEXT], class_[16], type[16], data[256], line[1400];
    size_t len;
    if (dnsm_name_text(from->octets, from->len, item->place, name, sizeof name, &len) != DNSM_OK ||
        dnsm_class_text(item->class_, class_, sizeof class_, &len) != DNSM_OK ||
        dnsm_type_text(item->type, type, sizeof type, &len) != DNSM_OK ||
        dnsm_data_text(from->octets, from->len, item, data, sizeof data, &len) != DNSM_OK)
        return 0;
    return (size_t)snprintf(line, sizeof line, "%s %u %s %s %s", name, item->ttl, class_, type, data);
}

static size_t address_of(const struct input *from, const dnsm_item *item)
{
    if (item->type == DNSM_TYPE_A && item->section == DNSM_ANSWER && item->data_len == 4)
        memcpy(addresses[0], from->octets + item->data, 4);
    return 1;
}

static size_t exchange_of(const struct input *from, const dnsm_item *item)
{
    char text[DNSM_NAME_TEXT];
    dnsm_data_field preference;
    size_t index = 0, len;
    return item->type != DNSM_TYPE_MX || (dnsm_next_field(from->octets, from->len, item, &index, &preference) == DNSM_OK &&
                                          dnsm_data_name_text(from->octets, from->len, item, 0, text, sizeof text, &len) == DNSM_OK);
}

/* The sum of the fields, where a name or octets count by their length. */
static size_t fields_of(const struct input *from, const dnsm_item *item)
{
    dnsm_data_field field;
    size_t index = 0, sum = 0;
    while (dnsm_next_field(from->octets, from->len, item, &index, &field) == DNSM_OK)
        sum += (size_t)field.number + field.len;
    return sum + index;
}

/* Signers and exchanges. */
static size_t name_in(const struct input *from, const dnsm_item *item)
{
    uint8_t name[DNSM_NAME_OCTETS];
    size_t len;
    return dnsm_data_name_octets(from->octets, from->len, item, 0, name, sizeof name, &len) == DNSM_OK;
}

static size_t check_of(const struct input *from, const dnsm_item *item)
{
    return dnsm_check_data(from->octets, from->len, item) == DNSM_OK;
}

static size_t data_of(const struct input *from, const dnsm_item *item)
{
    uint8_t data[512];
    size_t len;
    return dnsm_data_octets(from->octets, from->len, item, data, sizeof data, &len) == DNSM_OK;
}

static size_t read_items(void) { return read_message(&w2, NULL, false); }
static size_t read_f64(void) { return read_message(&f64, NULL, false); }
static size_t read_h64(void) { return read_message(&h64, NULL, false); }
static size_t read_p64(void) { return read_message(&p64, NULL, false); }
static size_t read_names(void) { return read_message(&w2, name_of, false); }
static size_t read_texts(void) { return read_message(&w2, texts_of, true); }
static size_t read_addresses(void) { return read_message(&w2, address_of, true); }
static size_t read_exchanges(void) { return read_message(&m40, exchange_of, true); }
static size_t read_fields(void) { return read_message(&m40, fields_of, true); }
static size_t read_names_in(void) { return read_message(&m40, name_in, true); }
static size_t check_data(void) { return read_message(&m40, check_of, true); }
static size_t read_data(void) { return read_message(&m40, data_of, true); }

/* Whether a message is regular. Returns its length if it is, or isn't, as expected. */
static size_t judge(const struct input *from, bool expected)
{
    uint8_t regular;
    return dnsm_is_regular(from->octets, from->len, &regular) == DNSM_OK && regular == expected ? from->len : 0;
}

static size_t judge_w2(void) { return judge(&w2, true); }
static size_t judge_f64(void) { return judge(&f64, true); }
static size_t judge_h64b(void) { return judge(&h64b, false); }
static size_t judge_p64(void) { return judge(&p64, false); }

/* What w2 says as a reply, for a server that resolves. */
static size_t take_reply(void)
{
    dnsm_saying saying;
    return dnsm_reply(query, sizeof query, w2.octets, w2.len, (const uint8_t *)"", 1, &saying) == DNSM_OK &&
                   saying.kind == DNSM_REPLY_ANSWER
               ? w2.len
               : 0;
}

/* Puts all items of w2 into another message. */
static size_t put_from(void)
{
    dnsm_header header;
    dnsm_cursor cursor;
    dnsm_item item;
    dnsm_draft draft;
    size_t len;
    if (dnsm_open(w2.octets, w2.len, &header, &cursor) != DNSM_OK)
        return 0;
    dnsm_status status = dnsm_begin(&draft, out, sizeof out, header.id, header.flags);
    while (status == DNSM_OK && (status = dnsm_next(w2.octets, w2.len, &cursor, &item)) == DNSM_OK)
        status = dnsm_put_from(&draft, out, sizeof out, w2.octets, w2.len, &item);
    return status == DNSM_END && dnsm_finish(&draft, out, sizeof out, &len) == DNSM_OK ? len : 0;
}

static const uint8_t localhost[4] = {127, 0, 0, 1};

static size_t respond(void)
{
    dnsm_draft draft;
    size_t len;
    const dnsm_put_item item = address(&www, localhost, ADDRESS_TTL);
    return dnsm_begin_response(&draft, out, 1232, q1.octets, q1.len, 0) == DNSM_OK && dnsm_put(&draft, out, 1232, &item) == DNSM_OK &&
                   dnsm_finish(&draft, out, 1232, &len) == DNSM_OK
               ? len
               : 0;
}

static size_t respond_at_once(void)
{
    size_t len;
    return dnsm_respond_a(q1.octets, q1.len, true, ADDRESS_TTL, localhost, out, 1232, &len) == DNSM_OK ? len : 0;
}

static size_t answers(void)
{
    static size_t len;
    if (len == 0)
        len = respond();
    return dnsm_answers(q1.octets, q1.len, out, len) == DNSM_OK ? len : 0;
}

static size_t put_query(void)
{
    dnsm_draft draft;
    size_t len;
    const dnsm_put_item item = question(&www);
    return dnsm_begin(&draft, out, sizeof out, 1, DNSM_RD) == DNSM_OK && dnsm_put(&draft, out, sizeof out, &item) == DNSM_OK &&
                   dnsm_finish(&draft, out, sizeof out, &len) == DNSM_OK
               ? len
               : 0;
}

static size_t write_query(void)
{
    size_t len;
    return dnsm_query(1, true, www.text, www.text_len, 1, 1, out, sizeof out, &len) == DNSM_OK ? len : 0;
}

/* Takes a message of a transfer. Returns how many records are added, or a number that no message has on failure. */
static size_t take_message(dnsm_transfer *transfer, const struct input *from)
{
    dnsm_cursor cursor;
    dnsm_step step;
    size_t added = 0;
    dnsm_status status = dnsm_open_transfer(transfer, from->octets, from->len, &cursor);
    while (status == DNSM_OK && (status = dnsm_next_step(transfer, from->octets, from->len, &cursor, &step)) == DNSM_OK)
        added += step.kind == DNSM_STEP_ADD;
    return status == DNSM_END ? added : SIZE_MAX / 2 / TRANSFERRED;
}

/* Takes the messages of a transfer. Returns how many records are added. */
static size_t transfer(void)
{
    static const uint8_t zone[] = "\3sub\7example\3com";
    dnsm_transfer begun;
    if (dnsm_begin_transfer(&begun, 0x1234, zone, sizeof zone, DNSM_CLASS_IN, false, 0) != DNSM_OK)
        return 0;
    size_t added = take_message(&begun, &x1);
    for (int i = 0; i < TRANSFERRED; i++)
        added += take_message(&begun, &x2500);
    added += take_message(&begun, &x1);
    return dnsm_end_transfer(&begun) == DNSM_OK ? added : 0;
}

struct task tasks[] = {
    {"20 addresses", "dnsm_put", .one = put_addresses},
    {"20 addresses", "dnsm_put, unchecked", .one = put_unchecked},
    {"20 addresses", "dnsm_build", .one = build_addresses},
    {"500 owners", "dnsm_put", .one = put_owners},
    {"500 owners", "dnsm_build", .one = build_owners},
    {"20 RRSIG of m40", "dnsm_put", .one = put_signatures},
    {"20 RRSIG of m40", "dnsm_put, unchecked", .one = put_signatures_unchecked},
    {"query", "dnsm_query", .one = write_query},
    {"query", "dnsm_put", .one = put_query},
    {"response to q1", "dnsm_begin_response, dnsm_put", .one = respond},
    {"response to q1", "dnsm_respond_a", .one = respond_at_once},
    {"response checked", "dnsm_answers", .one = answers},
    {"w2 written again", "dnsm_put_from", .one = put_from},
    {"items of w2", "dnsm_next", .one = read_items},
    {"items of f64", "dnsm_next", .one = read_f64},
    {"items of h64", "dnsm_next", .one = read_h64},
    {"items of p64", "dnsm_next", .one = read_p64, .uncounted = 1},
    {"w2 is regular", "dnsm_is_regular", .one = judge_w2},
    {"f64 is regular", "dnsm_is_regular", .one = judge_f64},
    {"h64b isn't regular", "dnsm_is_regular", .one = judge_h64b},
    {"p64 isn't regular", "dnsm_is_regular", .one = judge_p64},
    {"w2 as a reply", "dnsm_reply", .one = take_reply},
    {"a transfer of 100,000 records", "dnsm_next_step", .one = transfer},
    {"owners of w2", "dnsm_name_octets", .one = read_names},
    {"addresses of w2", "dnsm_next", .one = read_addresses},
    {"texts of w2", "dnsm_name_text and others", .one = read_texts},
    {"fields of m40", "dnsm_next_field", .one = read_fields},
    {"RDATA of m40", "dnsm_check_data", .one = check_data},
    {"RDATA of m40", "dnsm_data_octets", .one = read_data},
    {"names in RDATA of m40", "dnsm_data_name_octets", .one = read_names_in},
    {"MX of m40 as text", "dnsm_data_name_text", .one = read_exchanges},
    {.work = NULL},
};
