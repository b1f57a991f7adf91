/* Builds a response with an MX and an SRV record from texts, and prints their RDATA as it is read back. */
#include <dnsm.h>

#include <stdio.h>
#include <string.h>

#define TEXT(text) text, sizeof text - 1

/* Writes numbers of 16 bits, and the octets of the name that a text represents: RDATA of MX (RFC 1035 section 3.3.9) with one
 * number, and of SRV (RFC 2782) with three. Returns its length, or 0 if the text is no name. */
static size_t numbers_and_name(const uint16_t *numbers, size_t count, const char *name, uint8_t *data, size_t room)
{
    size_t len;
    for (size_t i = 0; i < count; i++) {
        data[2 * i] = (uint8_t)(numbers[i] >> 8);
        data[2 * i + 1] = (uint8_t)numbers[i];
    }
    if (dnsm_name_from_text(name, strlen(name), data + 2 * count, room - 2 * count, &len) != DNSM_OK)
        return 0;
    return 2 * count + len;
}

int main(void)
{
    uint8_t mx[2 + DNSM_NAME_OCTETS], srv[6 + DNSM_NAME_OCTETS], message[512];
    size_t mx_len = numbers_and_name((const uint16_t[]){10}, 1, "mail.example.com", mx, sizeof mx);
    size_t srv_len = numbers_and_name((const uint16_t[]){0, 5, 5222}, 3, "chat.example.com", srv, sizeof srv);
    const dnsm_new_item items[] = {
        {TEXT("example.com"), NULL, 0, 0, DNSM_TYPE_MX, DNSM_CLASS_IN, DNSM_QUESTION},
        {TEXT("example.com"), mx, mx_len, 3600, DNSM_TYPE_MX, DNSM_CLASS_IN, DNSM_ANSWER},
        {TEXT("_xmpp-client._tcp.example.com"), srv, srv_len, 3600, DNSM_TYPE_SRV, DNSM_CLASS_IN, DNSM_ADDITIONAL},
    };
    size_t message_len, len;
    dnsm_status status =
        dnsm_build(4660, DNSM_QR | DNSM_AA, items, sizeof items / sizeof *items, message, sizeof message, &message_len);
    dnsm_header header;
    dnsm_cursor cursor;
    dnsm_item item;
    if (status == DNSM_OK)
        status = dnsm_open(message, message_len, &header, &cursor);
    while (status == DNSM_OK && (status = dnsm_next(message, message_len, &cursor, &item)) == DNSM_OK) {
        char type[16], text[1200];
        if (item.section == DNSM_QUESTION)
            continue;
        if ((status = dnsm_type_text(item.type, type, sizeof type, &len)) == DNSM_OK &&
            (status = dnsm_data_text(message, message_len, &item, text, sizeof text, &len)) == DNSM_OK)
            printf("%s %s\n", type, text);
    }
    if (ferror(stdout) || fclose(stdout) != 0) {
        fprintf(stderr, "the output can't be written\n");
        return 1;
    }
    return status == DNSM_END ? 0 : 1;
}
