/* Answers queries as a name server does over UDP: reads them from standard input, in hexadecimal, one a line, of any length, and
 * prints the responses. A question for AAAA gets 20 addresses. If these don't fit, the response has none of them, and TC is set.
 * A line that isn't in hexadecimal is reported on standard error. The exit status is 1 if there is one, or if the input can't be
 * read. */
#include <dnsm.h>

#include <stdio.h>
#include <stdlib.h>
#include <string.h>

enum { ADDRESSES = 20, TTL = 300 };
/* The octets of an OPT record without options, of a message for a client without EDNS, and of the longest message sent. */
enum { OPT_OCTETS = 11, PLAIN_LIMIT = 512, MOST = 1232 };

typedef struct query {
    dnsm_header header;
    dnsm_item question;
    uint8_t name[DNSM_NAME_OCTETS];
    size_t name_len;
    bool has_opt;
    dnsm_opt opt;
} query;

/* Reads a query (opcode 0) with one question. Returns false for all else. */
static bool read_query(const uint8_t *message, size_t len, query *to)
{
    dnsm_cursor cursor;
    dnsm_item item;
    dnsm_status status;
    to->has_opt = false;
    if (dnsm_open(message, len, &to->header, &cursor) != DNSM_OK || to->header.flags & DNSM_QR || to->header.opcode != 0 ||
        to->header.counts[0] != 1 ||
        dnsm_next(message, len, &cursor, &to->question) != DNSM_OK ||
        dnsm_name_octets(message, len, to->question.place, to->name, sizeof to->name, &to->name_len) != DNSM_OK)
        return false;
    while ((status = dnsm_next(message, len, &cursor, &item)) == DNSM_OK)
        if (!to->has_opt && dnsm_opt_fields(&item, &to->opt) == DNSM_OK)
            to->has_opt = true;
    return status == DNSM_END;
}

static size_t limit_for(const query *to)
{
    if (!to->has_opt || to->opt.udp_size < PLAIN_LIMIT)
        return PLAIN_LIMIT;
    return to->opt.udp_size < MOST ? to->opt.udp_size : MOST;
}

static dnsm_status put_addresses(dnsm_draft *draft, uint8_t *out, const query *to)
{
    uint8_t address[16] = {0x20, 1, 0xd, 0xb8};
    const dnsm_put_item item = {to->name, to->name_len, address, sizeof address, TTL, DNSM_TYPE_AAAA, DNSM_CLASS_IN, DNSM_ANSWER};
    dnsm_status status = DNSM_OK;
    while (status == DNSM_OK && address[15] < ADDRESSES) {
        address[15]++;
        status = dnsm_put(draft, out, MOST, &item);
    }
    return status;
}

/* Puts the addresses, or none of them with TC if they don't fit. */
static dnsm_status put_answers(dnsm_draft *draft, uint8_t *out, const query *to)
{
    const dnsm_draft mark = *draft;
    if (to->question.type != DNSM_TYPE_AAAA || to->question.class_ != DNSM_CLASS_IN)
        return DNSM_OK;
    dnsm_status status = put_addresses(draft, out, to);
    if (status != DNSM_NO_ROOM)
        return status;
    *draft = mark;
    draft->flags |= DNSM_TC;
    return DNSM_OK;
}

static dnsm_status respond(const query *to, uint8_t *out, size_t *len)
{
    const dnsm_opt opt = {MOST, 0, 0, 0};
    const dnsm_put_item question = {to->name, to->name_len, NULL, 0, 0, to->question.type, to->question.class_, DNSM_QUESTION};
    const dnsm_put_item last = {(const uint8_t *)"", 1, NULL, 0, dnsm_opt_ttl(&opt), DNSM_TYPE_OPT, MOST, DNSM_ADDITIONAL};
    dnsm_draft draft;
    dnsm_status status = dnsm_begin(&draft, out, MOST, to->header.id, (uint16_t)(DNSM_QR | DNSM_AA | (to->header.flags & DNSM_RD)));
    draft.limit = limit_for(to);
    if (status == DNSM_OK)
        status = dnsm_put(&draft, out, MOST, &question);
    draft.reserved = to->has_opt ? OPT_OCTETS : 0;
    if (status == DNSM_OK)
        status = put_answers(&draft, out, to);
    draft.reserved = 0;
    if (status == DNSM_OK && to->has_opt)
        status = dnsm_put(&draft, out, MOST, &last);
    return status == DNSM_OK ? dnsm_finish(&draft, out, MOST, len) : status;
}

/* Octets on the heap. */
typedef struct octets {
    uint8_t *at;
    size_t len, room;
} octets;

/* Appends an octet. Ends the program if memory runs out. */
static void push(octets *to, uint8_t octet)
{
    if (to->len == to->room) {
        to->room = to->room ? 2 * to->room : 512;
        to->at = realloc(to->at, to->room);
        if (!to->at) {
            perror("no message");
            exit(1);
        }
    }
    to->at[to->len++] = octet;
}

/* A line of the input: the octets of a message in hexadecimal, or something else; or there is no more. */
typedef enum line { MESSAGE, OTHER, NONE } line;

/* Reads a line. */
static line read_message(octets *to)
{
    char digits[3] = "";
    size_t odd = 0;
    int next;
    to->len = 0;
    while (!odd && scanf("%2[0-9A-Fa-f]", digits) == 1) {
        odd = strlen(digits) % 2;
        push(to, (uint8_t)strtoul(digits, NULL, 16));
    }
    next = getchar();
    if (next == EOF && to->len == 0)
        return NONE;
    if (next == EOF || next == '\n')
        return odd ? OTHER : MESSAGE;
    while (next != EOF && next != '\n')
        next = getchar();
    return OTHER;
}

/* Prints the response to a query, or that there is none. */
static void print_response(const octets *message)
{
    static uint8_t out[MOST];
    query query;
    size_t len;
    if (read_query(message->at, message->len, &query) && respond(&query, out, &len) == DNSM_OK)
        for (size_t i = 0; i < len; i++)
            printf("%02x", out[i]);
    else
        printf("ignored");
    printf("\n");
}

int main(void)
{
    octets message = {NULL, 0, 0};
    int failed = 0;
    line kind;
    for (unsigned long number = 1; (kind = read_message(&message)) != NONE; number++)
        if (kind == MESSAGE) {
            print_response(&message);
        } else {
            fprintf(stderr, "line %lu: not two hexadecimal digits for each octet\n", number);
            failed = 1;
        }
    free(message.at);
    if (ferror(stdin)) {
        fprintf(stderr, "the input can't be read\n");
        failed = 1;
    }
    if (ferror(stdout) || fclose(stdout) != 0) {
        fprintf(stderr, "the output can't be written\n");
        return 1;
    }
    return failed;
}
