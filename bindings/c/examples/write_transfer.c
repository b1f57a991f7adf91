/* Writes the response to a query by AXFR: the messages of a stream (RFC 5936 section 2.2).
 *
 *     write_transfer ID ZONE <RECORDS >STREAM
 *
 * RECORDS has the zone as serve.c reads it, the SOA record first. Each message has as many records as fit. */
#define _GNU_SOURCE
#include <dnsm.h>

#include <stdio.h>
#include <stdlib.h>
#include <string.h>

enum { MOST = 65535, RECORD_MOST = DNSM_NAME_OCTETS + 10 + 65535 };

static uint8_t out[MOST], soa[RECORD_MOST];

/* Writes a message after its length (RFC 1035 section 4.2.2). */
static dnsm_status write_message(const dnsm_draft *draft)
{
    size_t len;
    const dnsm_status status = dnsm_finish(draft, out, MOST, &len);
    const uint8_t size[] = {(uint8_t)(len >> 8), (uint8_t)len};
    if (status == DNSM_OK && (fwrite(size, 1, 2, stdout) != 2 || fwrite(out, 1, len, stdout) != len))
        exit(1);
    return status;
}

/* Puts a record, into the next message if this one is full. Only the first message has a question. */
static dnsm_status put(dnsm_draft *draft, const uint8_t *octets, size_t len, const dnsm_item *item)
{
    dnsm_status status = dnsm_put_from(draft, out, MOST, octets, len, item);
    if (status == DNSM_NO_ROOM && draft->counts[DNSM_ANSWER] > 0) {
        status = write_message(draft);
        if (status == DNSM_OK)
            status = dnsm_begin(draft, out, MOST, draft->id, draft->flags);
        if (status == DNSM_OK)
            status = dnsm_put_from(draft, out, MOST, octets, len, item);
    }
    return status;
}

/* Begins the first message, with its question. */
static dnsm_status begin(dnsm_draft *draft, uint16_t id, const char *zone)
{
    uint8_t name[DNSM_NAME_OCTETS];
    size_t len;
    dnsm_status status = dnsm_name_from_text(zone, strlen(zone), name, sizeof name, &len);
    const dnsm_put_item question = {name, len, NULL, 0, 0, DNSM_TYPE_AXFR, DNSM_CLASS_IN, DNSM_QUESTION};
    if (status == DNSM_OK)
        status = dnsm_begin(draft, out, MOST, id, DNSM_QR | DNSM_AA);
    return status == DNSM_OK ? dnsm_put(draft, out, MOST, &question) : status;
}

int main(int argc, char **argv)
{
    static uint8_t octets[RECORD_MOST];
    char *line = NULL;
    size_t room = 0, len, soa_len = 0;
    dnsm_draft draft;
    dnsm_item item, soa_item = {0};
    dnsm_status status = argc == 3 ? begin(&draft, (uint16_t)strtoul(argv[1], NULL, 10), argv[2]) : DNSM_BAD_TEXT;
    while (status == DNSM_OK && getline(&line, &room, stdin) >= 0) {
        const size_t text_len = strcspn(line, "\r\n");
        if (strspn(line, " \t\r\n") >= text_len || line[0] == ';')
            continue;
        status = dnsm_record_from_text(line, text_len, octets, sizeof octets, &len, &item);
        if (status == DNSM_OK && soa_len == 0) {
            status = item.type == DNSM_TYPE_SOA ? DNSM_OK : DNSM_NO_SOA;
            memcpy(soa, octets, len);
            soa_item = item;
            soa_len = len;
        }
        if (status == DNSM_OK)
            status = put(&draft, octets, len, &item);
    }
    if (status == DNSM_OK)
        status = soa_len > 0 ? put(&draft, soa, soa_len, &soa_item) : DNSM_NO_SOA; /* it is the last record, too */
    if (status == DNSM_OK)
        status = write_message(&draft);
    free(line);
    return status != DNSM_OK || ferror(stdin) || fflush(stdout) != 0;
}
