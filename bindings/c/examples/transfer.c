/* Reads a transfer of a zone from standard input, as a server sends it over TCP, and prints what each of its records does:
 *
 *     transfer ID ZONE [SERIAL] < STREAM
 *
 * ID and ZONE are those of the query, and SERIAL is that of the version that is known, for IXFR. A line begins with `+` for a record that
 * is added, `-` for one that is removed, and `;` for what else is said. The exit status is 1 if the transfer isn't complete, or isn't that
 * of the query, which a line on standard error says. TSIG isn't checked. */
#define _POSIX_C_SOURCE 200809L
#include <dnsm.h>

#include <stdio.h>
#include <stdlib.h>
#include <string.h>
#include <unistd.h>

/* The most octets of a message after its length. */
enum { MOST = 65537 };

/* Says on standard error why there is no result. */
static int fail(dnsm_status status)
{
    char sentence[100];
    size_t len;
    dnsm_status_text(status, sentence, sizeof sentence, &len);
    fprintf(stderr, "transfer: %s\n", sentence);
    return 1;
}

/* Prints a record after a sign, as a line of a zone file. */
static void print_record(char sign, const uint8_t *message, size_t message_len, const dnsm_item *record)
{
    static char data[1 << 20];
    char name[DNSM_NAME_TEXT], class_[16], type[16];
    size_t len;
    if (dnsm_name_text(message, message_len, record->place, name, sizeof name, &len) == DNSM_OK &&
        dnsm_class_text(record->class_, class_, sizeof class_, &len) == DNSM_OK &&
        dnsm_type_text(record->type, type, sizeof type, &len) == DNSM_OK &&
        dnsm_data_text(message, message_len, record, data, sizeof data, &len) == DNSM_OK)
        printf("%c %s %lu %s %s %s\n", sign, name, (unsigned long)record->ttl, class_, type, data);
}

static void print_step(const uint8_t *message, size_t message_len, const dnsm_step *step)
{
    if (step->kind == DNSM_STEP_REMOVE)
        print_record('-', message, message_len, &step->item);
    else if (step->kind == DNSM_STEP_ADD)
        print_record('+', message, message_len, &step->item);
    else if (step->kind == DNSM_STEP_BEGIN) {
        printf("; version %lu, which begins with\n", (unsigned long)step->serial);
        print_record(';', message, message_len, &step->item);
    } else if (step->kind == DNSM_STEP_WHOLE)
        printf("; the whole zone\n");
    else
        printf("; %s %lu\n", step->kind == DNSM_STEP_END ? "the end of version" : "up to date:", (unsigned long)step->serial);
}

/* Prints the steps of a message. */
static dnsm_status take(dnsm_transfer *transfer, const uint8_t *message, size_t message_len)
{
    dnsm_cursor cursor;
    dnsm_step step;
    dnsm_status status = dnsm_open_transfer(transfer, message, message_len, &cursor);
    while (status == DNSM_OK && (status = dnsm_next_step(transfer, message, message_len, &cursor, &step)) == DNSM_OK)
        print_step(message, message_len, &step);
    return status == DNSM_END ? DNSM_OK : status;
}

/* Takes the messages of standard input, which may be a connection. What was read of the next one is at the start of the buffer. */
static dnsm_status take_all(dnsm_transfer *transfer)
{
    static uint8_t buffer[MOST];
    size_t kept = 0, len, missing;
    ssize_t got;
    while (dnsm_end_transfer(transfer) != DNSM_OK && (got = read(STDIN_FILENO, buffer + kept, sizeof buffer - kept)) > 0) {
        size_t offset = 0;
        dnsm_status status;
        kept += (size_t)got;
        while ((status = dnsm_first_message(buffer + offset, kept - offset, &len, &missing)) == DNSM_OK) {
            if ((status = take(transfer, buffer + offset + 2, len)) != DNSM_OK)
                return status;
            offset += 2 + len;
        }
        if (status != DNSM_END)
            return status;
        memmove(buffer, buffer + offset, kept -= offset);
    }
    return dnsm_end_transfer(transfer);
}

int main(int argc, char **argv)
{
    uint8_t zone[DNSM_NAME_OCTETS];
    size_t zone_len;
    dnsm_transfer transfer;
    if (argc < 3 || argc > 4) {
        fputs("usage: transfer ID ZONE [SERIAL] < STREAM\n", stderr);
        return 1;
    }
    const uint16_t id = (uint16_t)strtoul(argv[1], NULL, 10);
    const uint32_t known = argc > 3 ? (uint32_t)strtoul(argv[3], NULL, 10) : 0;
    dnsm_status status = dnsm_name_from_text(argv[2], strlen(argv[2]), zone, sizeof zone, &zone_len);
    if (status == DNSM_OK)
        status = dnsm_begin_transfer(&transfer, id, zone, zone_len, DNSM_CLASS_IN, argc > 3, known);
    if (status == DNSM_OK)
        status = take_all(&transfer);
    return status == DNSM_OK ? 0 : fail(status);
}
