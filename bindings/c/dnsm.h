/* Functions that read and write DNS messages, by proved code. The parts of this file are
 *
 *     1. Statuses, and the version
 *     2. Reading a message
 *     3. Names
 *     4. Names compared
 *     5. RDATA
 *     6. Names in RDATA
 *     7. RDATA and records from text
 *     8. Texts of numbers
 *     9. Numbers from texts
 *     10. EDNS
 *     11. Queries, and responses of one address
 *     12. Queries with EDNS
 *     13. Writing a message by one call
 *     14. Writing a message item by item
 *     15. Responses, and items of other messages
 *     16. Responses of a name server
 *     17. Replies, and what a cache asks of them
 *     18. Responses from a cache
 *     19. Messages of a stream, and transfers of zones
 *
 * and each begins with an example. There `message` are the `message_len` octets of a message, and `record` is its first record, as
 * dnsm_next wrote it. Each call is in an example.
 *
 * Calls. Each but dnsm_version and dnsm_opt_ttl returns a status: DNSM_OK, or the reason why there is no result. No call
 * prints, blocks, or ends the process.
 *
 * Threads. No call keeps state, so any thread may make any call at any time, if no other thread changes what the call uses.
 * Only dnsm_build, dnsm_data_from_text and dnsm_record_from_text allocate, by malloc, realloc and free. Don't call them from a
 * signal handler, nor in the forked child of a process with threads. All other calls may be made in both.
 *
 * Lifetimes. No call keeps a pointer that it was passed, and none returns memory that the caller has to free. Items, options
 * and cursors contain offsets into a message, no pointers: they stay valid as long as the message does, also if it is moved.
 * An offset counts octets from the start of the message.
 *
 * Pointers. One that comes with a length may be null if the length is 0. Each other pointer has to be valid, and aligned. What
 * a call writes may not overlap anything else that is passed to it. It needn't be initialised, except where a call says so.
 *
 * Results in a buffer. Each call with `out`, `out_len` and `len` but dnsm_finish writes its result into the `out_len` octets
 * at `out`, and sets `*len` to its length. A text is followed by a zero octet, which `*len` doesn't count. If the buffer is
 * too short, the call returns DNSM_NO_ROOM, sets `*len` to the length that the result would have, and leaves anything in the
 * buffer: octets need a buffer of `*len` octets, and a text one of `*len` + 1. So a call with a null `out` and length 0 gives
 * the length. On each other error `*len` is 0.
 *
 * Processor and systems. The library is compiled for Linux on x86-64, with pointers of 64 bits, and for processors of the
 * level x86-64-v2 (SSE4.2), as all since about 2009 are. On an older one a program doesn't start, or ends in an illegal
 * instruction. The library is tried on Debian 12, with glibc 2.36 and with musl; this file with gcc 12 and clang 14, as C99,
 * C11 and C++17.
 *
 * Sanitizers. The library isn't instrumented: the address sanitizer doesn't see its reads and writes, so it doesn't report a
 * length that is too great. valgrind does. */
#ifndef DNSM_H
#define DNSM_H

#include <stdbool.h>
#include <stddef.h>
#include <stdint.h>

#ifdef __cplusplus
extern "C" {
#endif

/* 1. Statuses, and the version
 *
 *     char sentence[100];
 *     size_t len;
 *     if (dnsm_status_text(DNSM_NO_ROOM, sentence, sizeof sentence, &len) == DNSM_OK)
 *         printf("%s (%zu characters)\n", sentence, len);
 *     if (!dnsm_is_compatible())
 *         printf("the library has version %lu\n", (unsigned long)dnsm_version());
 */

/* The version of this header and its library, as text and as a number: 10000 * major + 100 * minor + patch. */
#define DNSM_VERSION "2.0.0"
#define DNSM_VERSION_NUMBER 20000

/* The version of the library that the program runs with, as a number. */
uint32_t dnsm_version(void);

/* Whether that library has all that this header has: its major version is the same, and it isn't older. */
static inline bool dnsm_is_compatible(void)
{
    const uint32_t version = dnsm_version();
    return version >= DNSM_VERSION_NUMBER && version / 10000 == DNSM_VERSION_NUMBER / 10000;
}

/* What a call returns. A later version may have more of them. */
typedef uint32_t dnsm_status;
enum {
    DNSM_OK = 0,
    DNSM_END = 1,           /* no more items */
    DNSM_SHORT_INPUT = 2,   /* an octet that is needed is past the end of the message */
    DNSM_BAD_LABEL = 3,     /* a length octet has the high bits 01 or 10 */
    DNSM_BAD_POINTER = 4,   /* a compression pointer doesn't lead to an offset before its own */
    DNSM_LONG_NAME = 5,     /* a name has more than 255 octets */
    DNSM_FORM = 6,          /* octets follow the RDATA of an SOA record, in dnsm_next_step; else only the caller gave a cursor this status */
    DNSM_NO_ROOM = 7,       /* the output buffer, or the limit of a draft, is too short */
    DNSM_BAD_TEXT = 8,      /* a text can't be read, or the name of an item to put can't */
    DNSM_NO_QUESTION = 9,   /* the query doesn't have exactly one question */
    DNSM_BAD_SECTION = 10,  /* a section number exceeds 3 or is before that of the last item, or RDATA of a question is asked for */
    DNSM_NO_MEMORY = 11,    /* an allocation failed */
    DNSM_LONG_DATA = 12,    /* RDATA or an option of more than 65,535 octets */
    DNSM_TOO_MANY = 13,     /* more than 65,535 items for a section */
    DNSM_IS_RESPONSE = 14,  /* QR is set, so this is a response, and answering it could start an endless exchange */
    DNSM_OTHER_OPCODE = 15, /* the opcode isn't QUERY */
    DNSM_OTHER_CLASS = 16,  /* the class of the question isn't IN */
    DNSM_OTHER_TYPE = 17,   /* the type of the question is neither A nor ANY */
    DNSM_NOT_OPT = 18,      /* the item is no OPT record */
    DNSM_BAD_OPTION = 19,   /* an option isn't whole within the RDATA, or its offset isn't there */
    DNSM_NO_NAME = 20,      /* the RDATA has no such name */
    DNSM_BAD_DATA = 21,     /* the octets are no RDATA of the record type */
    DNSM_NO_OPT = 22,       /* the additional section has no OPT record */
    DNSM_TWO_OPTS = 23,     /* the additional section has two OPT records */
    DNSM_BAD_OWNER = 24,    /* the owner of the OPT record isn't the root */
    DNSM_NO_RESPONSE = 25,  /* QR isn't set, so this is no response */
    DNSM_OTHER_QUERY = 26,  /* the ID, the opcode or the questions of a response aren't those of the query */
    DNSM_BAD_RCODE = 27,    /* the rcode isn't NOERROR */
    DNSM_TRUNCATED = 28,    /* TC is set */
    DNSM_WRONG_CLASS = 29,  /* a record has another class than the zone */
    DNSM_OUTSIDE_ZONE = 30, /* the owner of a record is outside of the zone */
    DNSM_NO_SOA = 31,       /* the first record of a transfer is no SOA record */
    DNSM_WRONG_SOA = 32,    /* an SOA record isn't the one that may come next in a transfer */
    DNSM_AFTER_END = 33,    /* a record or a message follows the end of a transfer */
    DNSM_INCOMPLETE = 34    /* a transfer hasn't ended */
};

/* Writes what a status means, in English, as "the output buffer is too short", or "unknown status" with the number if there is no
 * such status. 100 octets are always enough.
 *
 * Errors: DNSM_NO_ROOM. */
dnsm_status dnsm_status_text(dnsm_status status, char *out, size_t out_len, size_t *len);

/* 2. Reading a message
 *
 *     dnsm_header header;
 *     dnsm_cursor cursor;
 *     dnsm_item item;
 *     dnsm_status status = dnsm_open(message, message_len, &header, &cursor);
 *     while (status == DNSM_OK && (status = dnsm_next(message, message_len, &cursor, &item)) == DNSM_OK)
 *         printf("section %u: type %u, TTL %lu\n", item.section, item.type, (unsigned long)item.ttl);
 *     puts(status == DNSM_END ? "read to its end" : "malformed");
 */

/* The numbers of the sections. */
enum { DNSM_QUESTION = 0, DNSM_ANSWER = 1, DNSM_AUTHORITY = 2, DNSM_ADDITIONAL = 3 };

/* The flags of a header, which are bits of its third and fourth octets (RFC 1035 section 4.1.1, RFC 4035 section 3). A server
 * that leaves out records because the message would be too long sets DNSM_TC; then the client asks again over TCP. */
enum {
    DNSM_QR = 0x8000,
    DNSM_AA = 0x400,
    DNSM_TC = 0x200,
    DNSM_RD = 0x100,
    DNSM_RA = 0x80,
    DNSM_AD = 0x20,
    DNSM_CD = 0x10
};

typedef struct dnsm_header {
    uint16_t id;
    uint16_t flags;     /* the third and fourth octets: the flags above, and opcode and rcode */
    uint16_t counts[4]; /* indexed by section */
    uint8_t opcode;
    uint8_t rcode;
} dnsm_header;

/* A position in a message. The caller owns it, and may copy it to return to the position later. In a cursor that dnsm_open hasn't
 * set, `owner` has to be 0. */
typedef struct dnsm_cursor {
    size_t place;       /* offset at which the next item begins; after DNSM_END the offset after the last item */
    uint16_t left;      /* items still to come in the section, by its count */
    uint8_t section;
    dnsm_status status; /* DNSM_OK, or the error that ended the iteration */
    uint16_t owner;     /* 0, or the offset of a name that was read: an owner that only points there isn't read again */
} dnsm_cursor;

/* A question or a record. */
typedef struct dnsm_item {
    size_t place;      /* offset of the name, for dnsm_name_text and dnsm_name_octets */
    size_t data;       /* offset of the RDATA, whose data_len octets all lie within the message; of a question its end */
    uint32_t ttl;      /* in seconds; 0 for a question. A record has it at offset data - 6, in four octets, big-endian */
    uint16_t type;
    uint16_t class_;
    uint16_t data_len; /* 0 for a question */
    uint8_t section;
} dnsm_item;

/* Reads the header, and sets the cursor before the first question. It needn't be initialised, nor the header.
 *
 * Errors: DNSM_SHORT_INPUT if the message has fewer than 12 octets. Then the cursor keeps this error, and the header isn't
 * written. */
dnsm_status dnsm_open(const uint8_t *message, size_t message_len, dnsm_header *header, dnsm_cursor *cursor);

/* Reads the next item, in the order of the message, and moves the cursor past it. The cursor is one that dnsm_open has set, for
 * the same octets. With another cursor, or over other octets, the call is safe, but its results mean nothing.
 *
 * Returns DNSM_OK with an item, or DNSM_END after the last one. Without an item, `*item` isn't written. At DNSM_END the cursor's
 * `place` is where the message ends: the offset after the last item, or 12 if there is none. The octets from there on, if there
 * are any, are no part of the message.
 *
 * Errors: DNSM_SHORT_INPUT, DNSM_BAD_LABEL, DNSM_BAD_POINTER or DNSM_LONG_NAME if the next item can't be read. The cursor keeps
 * the error, and each later call returns it again. DNSM_BAD_SECTION for a cursor that keeps no error and whose section
 * exceeds 3. */
dnsm_status dnsm_next(const uint8_t *message, size_t message_len, dnsm_cursor *cursor, dnsm_item *item);

/* 3. Names
 *
 *     char text[DNSM_NAME_TEXT];
 *     uint8_t name[DNSM_NAME_OCTETS];
 *     size_t len, end;
 *     if (dnsm_name_text(message, message_len, 12, text, sizeof text, &len) == DNSM_OK)
 *         puts(text);
 *     if (dnsm_name_octets(message, message_len, 12, name, sizeof name, &len) == DNSM_OK &&
 *         dnsm_name_end(message, message_len, 12, &end) == DNSM_OK)
 *         printf("%zu octets, from offset 12 to %zu\n", len, end);
 *     if (dnsm_name_from_text("a\\.b.example", 12, name, sizeof name, &len) == DNSM_OK)
 *         printf("a name of %zu octets\n", len);
 *
 * Names as text. The text of a name is its labels, separated by dots (RFC 1035 section 5.1). A final dot may be left out, and
 * changes nothing: each name is absolute. The root is a single dot. In a label, each graphic ASCII character but the dot and the
 * backslash (0x21 to 0x7e) represents itself. A backslash and a graphic character that is no digit represent that character, as
 * `\.` a dot within a label. A backslash and three decimal digits represent the octet with that number, 0 to 255, as `\032` a
 * space. A label has 1 to 63 octets, and a name at most 255, with a length octet for each label and one for the root. No other
 * text is a name: not the empty text, nor one with two dots in a row, spaces, control characters, or octets above 0x7e. There is
 * no origin, `@` is an ordinary character, and names of other scripts have to be in ASCII already (IDNA). A text that is passed
 * comes with its length, and needs no zero octet. */

/* Lengths of output buffers that are always enough: DNSM_NAME_TEXT for dnsm_name_text and dnsm_data_name_text,
 * DNSM_NAME_OCTETS for dnsm_name_octets, dnsm_name_from_text and dnsm_data_name_octets, and DNSM_NAME_KEY for dnsm_name_key. */
enum { DNSM_NAME_TEXT = 1005, DNSM_NAME_OCTETS = 255, DNSM_NAME_KEY = 504 };

/* Writes the name at offset `place` as text, with a dot after each label. dnsm_name_from_text reads it back as the same name.
 * To read a name in RDATA without the octets after the RDATA, pass the end of the RDATA as `message_len`: the item's `data` plus
 * its `data_len`. dnsm_data_name gives only offsets at which that succeeds, with the same name.
 *
 * Errors: DNSM_NO_ROOM, and DNSM_SHORT_INPUT, DNSM_BAD_LABEL, DNSM_BAD_POINTER or DNSM_LONG_NAME if no name can be read there. */
dnsm_status dnsm_name_text(const uint8_t *message, size_t message_len, size_t place, char *out, size_t out_len, size_t *len);

/* Writes the octets of the name at offset `place`, without compression pointers.
 *
 * Errors: those of dnsm_name_text. */
dnsm_status dnsm_name_octets(const uint8_t *message, size_t message_len, size_t place, uint8_t *out, size_t out_len,
                             size_t *len);

/* Sets `*end` to the offset after the name at offset `place`. A compression pointer ends a name and isn't followed for that.
 *
 * Errors: those of dnsm_name_text but DNSM_NO_ROOM. Then `*end` isn't written. */
dnsm_status dnsm_name_end(const uint8_t *message, size_t message_len, size_t place, size_t *end);

/* Writes the octets of the name that the text represents (see "Names as text"), as in the RDATA of a dnsm_new_item: that of MX is
 * two octets of the preference, and then those of the name. examples/mx.c builds MX and SRV records from texts.
 *
 * Errors: DNSM_NO_ROOM, and DNSM_BAD_TEXT if the text is no name. */
dnsm_status dnsm_name_from_text(const char *text, size_t text_len, uint8_t *out, size_t out_len, size_t *len);

/* 4. Names compared
 *
 *     static const uint8_t zone[] = "\7EXAMPLE\3ORG", seed[16] = {0};
 *     uint8_t equal, below, order, key[DNSM_NAME_KEY];
 *     uint32_t hash;
 *     size_t len;
 *     puts(dnsm_name_equal(message, message_len, 12, zone, sizeof zone, 0, &equal) == DNSM_OK && equal ? "the zone" : "another");
 *     puts(dnsm_name_below(message, message_len, 43, zone, sizeof zone, 0, &below) == DNSM_OK && below ? "in it" : "outside");
 *     puts(dnsm_name_order(message, message_len, 43, zone, sizeof zone, 0, &order) == DNSM_OK && order == 2 ? "after" : "not after");
 *     if (dnsm_name_key(message, message_len, 12, key, sizeof key, &len) == DNSM_OK &&
 *         dnsm_name_hash(message, message_len, 12, seed, sizeof seed, &hash) == DNSM_OK)
 *         printf("a key of %zu octets, and the hash %lu\n", len, (unsigned long)hash);
 *
 * All these calls ignore ASCII case (RFC 1035 section 2.3.3). A server that looks up many names computes the key of each once, and
 * sorts them by it. */

/* Sets `*equal` to 1 if two names are equal, each at an offset of octets of its own, else to 0.
 *
 * Errors: those of dnsm_name_end for the first name, or else for the second. Then `*equal` isn't written. */
dnsm_status dnsm_name_equal(const uint8_t *message, size_t message_len, size_t place, const uint8_t *other, size_t other_len,
                            size_t other_place, uint8_t *equal);

/* Sets `*below` to 1 if the first name is the second or a subdomain of it (RFC 1034 section 3.1), else to 0.
 *
 * Errors: those of dnsm_name_equal. */
dnsm_status dnsm_name_below(const uint8_t *message, size_t message_len, size_t place, const uint8_t *other, size_t other_len,
                            size_t other_place, uint8_t *below);

/* Sets `*order` to 0 if the first name is before the second as RFC 4034 section 6.1 orders names, to 1 if they are equal, and to 2
 * if it is after it.
 *
 * Errors: those of dnsm_name_equal. */
dnsm_status dnsm_name_order(const uint8_t *message, size_t message_len, size_t place, const uint8_t *other, size_t other_len,
                            size_t other_place, uint8_t *order);

/* Writes the key of the name at offset `place`. Keys compare as RFC 4034 section 6.1 orders names: by memcmp, and if one
 * begins with the other, by length. The keys of a name's subdomains begin with its own. The key has the labels from the root's
 * side on, in lower case, each followed by a zero octet; within a label the octets 0 and 1 are 1 1 and 1 2.
 *
 * Errors: those of dnsm_name_text. */
dnsm_status dnsm_name_key(const uint8_t *message, size_t message_len, size_t place, uint8_t *out, size_t out_len, size_t *len);

/* Sets `*hash` to a hash of the name at offset `place`. If others choose the names, the seed has to be secret and random, of 16
 * octets: else they can choose names with the same hash.
 *
 * Errors: those of dnsm_name_end. Then `*hash` isn't written. */
dnsm_status dnsm_name_hash(const uint8_t *message, size_t message_len, size_t place, const uint8_t *seed, size_t seed_len,
                           uint32_t *hash);

/* 5. RDATA
 *
 *     char text[512];
 *     uint8_t data[512];
 *     size_t len, index = 0;
 *     dnsm_data_field field;
 *     puts(dnsm_check_data(message, message_len, &record) == DNSM_OK ? "well-formed" : "malformed");
 *     puts(dnsm_data_text(message, message_len, &record, text, sizeof text, &len) == DNSM_OK ? text : "no record");
 *     while (dnsm_next_field(message, message_len, &record, &index, &field) == DNSM_OK)
 *         printf("field %zu is of kind %u\n", index, field.kind);
 *     if (dnsm_data_octets(message, message_len, &record, data, sizeof data, &len) == DNSM_OK)
 *         printf("%zu octets with names uncompressed\n", len);
 */

/* Writes the RDATA of a record as in a zone file (RFC 1035 section 5.1): the fields of its type, separated by spaces, for the 80
 * types that the library knows, such as A, AAAA, MX, TXT, SRV, DNSKEY and HTTPS. Names end with a dot, and are escaped as in
 * "Names as text"; a backslash precedes `"`, `$`, `(`, `)`, `;` and `@` too. All other RDATA is written as `\#`, its length and
 * its octets in hexadecimal (RFC 3597 section 5): that of other types, malformed RDATA, and RDATA with a field that has no text,
 * as a key without octets. The call reads the record at the item's `place`.
 *
 * Errors: DNSM_NO_ROOM, DNSM_BAD_SECTION for a question, which has no RDATA, and those of dnsm_name_text if no record can be read
 * there, which happens only for an item that dnsm_next didn't write for these octets. */
dnsm_status dnsm_data_text(const uint8_t *message, size_t message_len, const dnsm_item *item, char *out, size_t out_len,
                           size_t *len);

/* Writes the RDATA of a record, with names uncompressed: what dnsm_put and dnsm_build take. It is checked to be the fields of
 * its type, for the 80 types of dnsm_data_text; RDATA of other types may be any octets. A record of class NONE (254) or ANY (255)
 * may have none (RFC 2136 section 2.4). Nothing after the RDATA is read. 65,535 octets are always enough.
 *
 * Errors: DNSM_BAD_SECTION for a question, which has no RDATA; DNSM_SHORT_INPUT if the RDATA isn't within the message, which
 * happens only for an item that dnsm_next didn't write for these octets; DNSM_BAD_DATA if it isn't that of its type, or has more
 * than 65,535 octets once its names are uncompressed; DNSM_NO_ROOM. */
dnsm_status dnsm_data_octets(const uint8_t *message, size_t message_len, const dnsm_item *item, uint8_t *out, size_t out_len,
                             size_t *len);

/* Checks that the RDATA of a record is that of its type.
 *
 * Errors: those of dnsm_data_octets but DNSM_NO_ROOM. */
dnsm_status dnsm_check_data(const uint8_t *message, size_t message_len, const dnsm_item *item);

/* What a field of RDATA is: a number; a record type, in `number`; the octets of an address; a name, at `place`, to be read with the
 * end of the RDATA as `message_len`; a string, without its length; octets after their length of 16 bits; or other octets. */
enum {
    DNSM_FIELD_NUMBER = 0,
    DNSM_FIELD_TYPE = 1,
    DNSM_FIELD_IPV4 = 2,
    DNSM_FIELD_IPV6 = 3,
    DNSM_FIELD_NAME = 4,
    DNSM_FIELD_STRING = 5,
    DNSM_FIELD_SIZED = 6,
    DNSM_FIELD_OCTETS = 7
};

/* A field of RDATA. Members that don't belong to its kind are 0. */
typedef struct dnsm_data_field {
    size_t place;    /* offset of a name or of octets */
    size_t len;      /* the number of octets */
    uint64_t number;
    uint8_t kind;
} dnsm_data_field;

/* Reads the field with this index, and adds one to the index. Set it to 0 before the first call. The character strings of TXT, and
 * the parameters of SVCB, are one field of octets.
 *
 * Returns DNSM_OK with a field, or DNSM_END if there are no more. Without a field, nothing is written.
 *
 * Errors: those of dnsm_check_data. */
dnsm_status dnsm_next_field(const uint8_t *message, size_t message_len, const dnsm_item *item, size_t *index,
                            dnsm_data_field *field);

/* 6. Names in RDATA
 *
 *     char text[DNSM_NAME_TEXT];
 *     uint8_t name[DNSM_NAME_OCTETS];
 *     size_t len, place;
 *     if (dnsm_data_name_text(message, message_len, &record, 0, text, sizeof text, &len) == DNSM_OK)
 *         puts(text);
 *     if (dnsm_data_name_octets(message, message_len, &record, 0, name, sizeof name, &len) == DNSM_OK &&
 *         dnsm_data_name(message, message_len, &record, 0, &place) == DNSM_OK)
 *         printf("%zu octets, from offset %zu\n", len, place);
 */

/* Sets `*place` to the offset of a name in the RDATA of a record, for dnsm_name_text and dnsm_name_octets with the end of the
 * RDATA as `message_len`. All names are counted, from 0, in the order of the fields, for the 80 types of dnsm_data_text: also the
 * gateway of IPSECKEY and the relay of AMTRELAY, which are names if their type is 3 (RFC 4025 section 2.5, RFC 8777 section
 * 4.2.4), and each rendezvous server of HIP (RFC 8005 section 5). No octet after the RDATA belongs to the name, also where it has
 * a compression pointer.
 *
 * Errors, the first that applies: DNSM_BAD_SECTION for a question; DNSM_NO_NAME if RDATA of this type has no name with this
 * index, whatever its octets are; those of dnsm_data_octets but DNSM_NO_ROOM; and DNSM_NO_NAME if this RDATA has fewer names. On an
 * error `*place` isn't written. */
dnsm_status dnsm_data_name(const uint8_t *message, size_t message_len, const dnsm_item *item, size_t index, size_t *place);

/* Writes such a name as text, or as its octets.
 *
 * Errors: those of dnsm_data_name, and DNSM_NO_ROOM. */
dnsm_status dnsm_data_name_text(const uint8_t *message, size_t message_len, const dnsm_item *item, size_t index, char *out,
                                size_t out_len, size_t *len);
dnsm_status dnsm_data_name_octets(const uint8_t *message, size_t message_len, const dnsm_item *item, size_t index, uint8_t *out,
                                  size_t out_len, size_t *len);

/* 7. RDATA and records from text
 *
 *     static const char mx[] = "10 mail.example.org.", line[] = "www.example.org. 300 IN A 192.0.2.1";
 *     uint8_t data[512], octets[512];
 *     size_t data_len, len;
 *     dnsm_item item;
 *     if (dnsm_data_from_text(DNSM_TYPE_MX, mx, sizeof mx - 1, data, sizeof data, &data_len) == DNSM_OK)
 *         printf("%zu octets of RDATA\n", data_len);
 *     if (dnsm_record_from_text(line, sizeof line - 1, octets, sizeof octets, &len, &item) == DNSM_OK)
 *         printf("a record of %zu octets, with type %u and TTL %lu\n", len, item.type, (unsigned long)item.ttl);
 */

/* Writes the RDATA that a text represents, as in a zone file: what dnsm_data_text writes for RDATA of this type, or `\#` with a
 * length and hexadecimal digits (RFC 3597 section 5), which have to be RDATA of this type, too. Names are absolute. Allocates, and takes
 * up to 192 KiB of stack, for NSEC, NSEC3 and CSYNC; else up to 96 KiB. A thread of musl has 128 KiB, unless it is given more.
 *
 * Errors: DNSM_NO_ROOM, DNSM_BAD_TEXT, and DNSM_NO_MEMORY. */
dnsm_status dnsm_data_from_text(uint16_t type, const char *text, size_t text_len, uint8_t *out, size_t out_len, size_t *len);

/* Writes the octets of the record that a text represents, as in a line of a zone file: owner, TTL in seconds, class, type, and
 * RDATA. Sets the item as for a record of the answer section at the start of these octets, so that dnsm_put_from takes both.
 * Allocates, and takes as much stack.
 *
 * Errors: DNSM_NO_ROOM, DNSM_BAD_TEXT, and DNSM_NO_MEMORY. Then the item isn't written. */
dnsm_status dnsm_record_from_text(const char *text, size_t text_len, uint8_t *out, size_t out_len, size_t *len, dnsm_item *item);

/* 8. Texts of numbers
 *
 *     char type[16], class_[16], opcode[16], rcode[16], option[32], error[64];
 *     size_t len;
 *     dnsm_type_text(DNSM_TYPE_HTTPS, type, sizeof type, &len);
 *     dnsm_class_text(DNSM_CLASS_IN, class_, sizeof class_, &len);
 *     dnsm_opcode_text(DNSM_OPCODE_UPDATE, opcode, sizeof opcode, &len);
 *     dnsm_rcode_text(DNSM_RCODE_NXDOMAIN, rcode, sizeof rcode, &len);
 *     dnsm_option_text(DNSM_OPTION_NSID, option, sizeof option, &len);
 *     dnsm_extended_error_text(DNSM_EDE_STALE_ANSWER, error, sizeof error, &len);
 *     printf("%s, %s, %s, %s, %s, %s\n", type, class_, opcode, rcode, option, error);
 *
 * These buffers are always long enough, so that no call returns an error. */

/* The numbers that IANA has registered, by their names: of record types, classes, opcodes, rcodes of up to twelve bits (16 is
 * BADVERS), options of OPT records, and extended errors (RFC 8914). Any other number may be used, too. */
enum {
    DNSM_TYPE_A = 1, DNSM_TYPE_NS = 2, DNSM_TYPE_MD = 3, DNSM_TYPE_MF = 4, DNSM_TYPE_CNAME = 5, DNSM_TYPE_SOA = 6,
    DNSM_TYPE_MB = 7, DNSM_TYPE_MG = 8, DNSM_TYPE_MR = 9, DNSM_TYPE_NULL = 10, DNSM_TYPE_WKS = 11, DNSM_TYPE_PTR = 12,
    DNSM_TYPE_HINFO = 13, DNSM_TYPE_MINFO = 14, DNSM_TYPE_MX = 15, DNSM_TYPE_TXT = 16, DNSM_TYPE_RP = 17,
    DNSM_TYPE_AFSDB = 18, DNSM_TYPE_X25 = 19, DNSM_TYPE_ISDN = 20, DNSM_TYPE_RT = 21, DNSM_TYPE_NSAP = 22,
    DNSM_TYPE_NSAP_PTR = 23, DNSM_TYPE_SIG = 24, DNSM_TYPE_KEY = 25, DNSM_TYPE_PX = 26, DNSM_TYPE_GPOS = 27,
    DNSM_TYPE_AAAA = 28, DNSM_TYPE_LOC = 29, DNSM_TYPE_NXT = 30, DNSM_TYPE_EID = 31, DNSM_TYPE_NIMLOC = 32,
    DNSM_TYPE_SRV = 33, DNSM_TYPE_ATMA = 34, DNSM_TYPE_NAPTR = 35, DNSM_TYPE_KX = 36, DNSM_TYPE_CERT = 37, DNSM_TYPE_A6 = 38,
    DNSM_TYPE_DNAME = 39, DNSM_TYPE_SINK = 40, DNSM_TYPE_OPT = 41, DNSM_TYPE_APL = 42, DNSM_TYPE_DS = 43,
    DNSM_TYPE_SSHFP = 44, DNSM_TYPE_IPSECKEY = 45, DNSM_TYPE_RRSIG = 46, DNSM_TYPE_NSEC = 47, DNSM_TYPE_DNSKEY = 48,
    DNSM_TYPE_DHCID = 49, DNSM_TYPE_NSEC3 = 50, DNSM_TYPE_NSEC3PARAM = 51, DNSM_TYPE_TLSA = 52, DNSM_TYPE_SMIMEA = 53,
    DNSM_TYPE_HIP = 55, DNSM_TYPE_NINFO = 56, DNSM_TYPE_RKEY = 57, DNSM_TYPE_TALINK = 58, DNSM_TYPE_CDS = 59,
    DNSM_TYPE_CDNSKEY = 60, DNSM_TYPE_OPENPGPKEY = 61, DNSM_TYPE_CSYNC = 62, DNSM_TYPE_ZONEMD = 63, DNSM_TYPE_SVCB = 64,
    DNSM_TYPE_HTTPS = 65, DNSM_TYPE_DSYNC = 66, DNSM_TYPE_HHIT = 67, DNSM_TYPE_BRID = 68, DNSM_TYPE_SPF = 99,
    DNSM_TYPE_UINFO = 100, DNSM_TYPE_UID = 101, DNSM_TYPE_GID = 102, DNSM_TYPE_UNSPEC = 103, DNSM_TYPE_NID = 104,
    DNSM_TYPE_L32 = 105, DNSM_TYPE_L64 = 106, DNSM_TYPE_LP = 107, DNSM_TYPE_EUI48 = 108, DNSM_TYPE_EUI64 = 109,
    DNSM_TYPE_NXNAME = 128, DNSM_TYPE_TKEY = 249, DNSM_TYPE_TSIG = 250, DNSM_TYPE_IXFR = 251, DNSM_TYPE_AXFR = 252,
    DNSM_TYPE_MAILB = 253, DNSM_TYPE_MAILA = 254, DNSM_TYPE_ANY = 255, DNSM_TYPE_URI = 256, DNSM_TYPE_CAA = 257,
    DNSM_TYPE_AVC = 258, DNSM_TYPE_DOA = 259, DNSM_TYPE_AMTRELAY = 260, DNSM_TYPE_RESINFO = 261, DNSM_TYPE_WALLET = 262,
    DNSM_TYPE_CLA = 263, DNSM_TYPE_IPN = 264, DNSM_TYPE_TA = 32768, DNSM_TYPE_DLV = 32769
};
enum {
    DNSM_CLASS_IN = 1, DNSM_CLASS_CH = 3, DNSM_CLASS_HS = 4, DNSM_CLASS_NONE = 254, DNSM_CLASS_ANY = 255
};
enum {
    DNSM_OPCODE_QUERY = 0, DNSM_OPCODE_IQUERY = 1, DNSM_OPCODE_STATUS = 2, DNSM_OPCODE_NOTIFY = 4, DNSM_OPCODE_UPDATE = 5,
    DNSM_OPCODE_DSO = 6
};
enum {
    DNSM_RCODE_NOERROR = 0, DNSM_RCODE_FORMERR = 1, DNSM_RCODE_SERVFAIL = 2, DNSM_RCODE_NXDOMAIN = 3, DNSM_RCODE_NOTIMP = 4,
    DNSM_RCODE_REFUSED = 5, DNSM_RCODE_YXDOMAIN = 6, DNSM_RCODE_YXRRSET = 7, DNSM_RCODE_NXRRSET = 8, DNSM_RCODE_NOTAUTH = 9,
    DNSM_RCODE_NOTZONE = 10, DNSM_RCODE_DSOTYPENI = 11, DNSM_RCODE_BADVERS = 16, DNSM_RCODE_BADKEY = 17,
    DNSM_RCODE_BADTIME = 18, DNSM_RCODE_BADMODE = 19, DNSM_RCODE_BADNAME = 20, DNSM_RCODE_BADALG = 21,
    DNSM_RCODE_BADTRUNC = 22, DNSM_RCODE_BADCOOKIE = 23
};
enum {
    DNSM_OPTION_LLQ = 1, DNSM_OPTION_UPDATE_LEASE = 2, DNSM_OPTION_NSID = 3, DNSM_OPTION_DAU = 5, DNSM_OPTION_DHU = 6,
    DNSM_OPTION_N3U = 7, DNSM_OPTION_EDNS_CLIENT_SUBNET = 8, DNSM_OPTION_EDNS_EXPIRE = 9, DNSM_OPTION_COOKIE = 10,
    DNSM_OPTION_EDNS_TCP_KEEPALIVE = 11, DNSM_OPTION_PADDING = 12, DNSM_OPTION_CHAIN = 13, DNSM_OPTION_EDNS_KEY_TAG = 14,
    DNSM_OPTION_EXTENDED_DNS_ERROR = 15, DNSM_OPTION_EDNS_CLIENT_TAG = 16, DNSM_OPTION_EDNS_SERVER_TAG = 17,
    DNSM_OPTION_REPORT_CHANNEL = 18, DNSM_OPTION_ZONEVERSION = 19, DNSM_OPTION_UMBRELLA_IDENT = 20292,
    DNSM_OPTION_DEVICEID = 26946
};
enum {
    DNSM_EDE_OTHER_ERROR = 0, DNSM_EDE_UNSUPPORTED_DNSKEY_ALGORITHM = 1, DNSM_EDE_UNSUPPORTED_DS_DIGEST_TYPE = 2,
    DNSM_EDE_STALE_ANSWER = 3, DNSM_EDE_FORGED_ANSWER = 4, DNSM_EDE_DNSSEC_INDETERMINATE = 5, DNSM_EDE_DNSSEC_BOGUS = 6,
    DNSM_EDE_SIGNATURE_EXPIRED = 7, DNSM_EDE_SIGNATURE_NOT_YET_VALID = 8, DNSM_EDE_DNSKEY_MISSING = 9,
    DNSM_EDE_RRSIGS_MISSING = 10, DNSM_EDE_NO_ZONE_KEY_BIT_SET = 11, DNSM_EDE_NSEC_MISSING = 12, DNSM_EDE_CACHED_ERROR = 13,
    DNSM_EDE_NOT_READY = 14, DNSM_EDE_BLOCKED = 15, DNSM_EDE_CENSORED = 16, DNSM_EDE_FILTERED = 17, DNSM_EDE_PROHIBITED = 18,
    DNSM_EDE_STALE_NXDOMAIN_ANSWER = 19, DNSM_EDE_NOT_AUTHORITATIVE = 20, DNSM_EDE_NOT_SUPPORTED = 21,
    DNSM_EDE_NO_REACHABLE_AUTHORITY = 22, DNSM_EDE_NETWORK_ERROR = 23, DNSM_EDE_INVALID_DATA = 24,
    DNSM_EDE_SIGNATURE_EXPIRED_BEFORE_VALID = 25, DNSM_EDE_TOO_EARLY = 26, DNSM_EDE_UNSUPPORTED_NSEC3_ITERATIONS_VALUE = 27,
    DNSM_EDE_UNABLE_TO_CONFORM_TO_POLICY = 28, DNSM_EDE_SYNTHESIZED = 29, DNSM_EDE_INVALID_QUERY_TYPE = 30
};

/* Writes a record type: the name that IANA has registered for it, as SRV, RRSIG or HTTPS, and ANY for 255; or TYPE with its
 * number, if there is none (RFC 3597 section 5). 16 octets are always enough.
 *
 * Errors: DNSM_NO_ROOM. */
dnsm_status dnsm_type_text(uint16_t type, char *out, size_t out_len, size_t *len);

/* Writes a class: the name that IANA has registered for it, which is IN, CH, HS, NONE (254) or ANY (255); or CLASS with its
 * number (RFC 3597 section 5). 16 octets are always enough.
 *
 * Errors: DNSM_NO_ROOM. */
dnsm_status dnsm_class_text(uint16_t class_, char *out, size_t out_len, size_t *len);

/* Writes an opcode: the name that IANA has registered for it, as Query, or OPCODE with its number. 16 octets are always enough.
 *
 * Errors: DNSM_NO_ROOM. */
dnsm_status dnsm_opcode_text(uint8_t opcode, char *out, size_t out_len, size_t *len);

/* Writes an rcode of up to twelve bits, as dnsm_find_opt sets it: the name that IANA has registered for it, as NXDomain, or RCODE
 * with its number; 16 is BADVERS. 16 octets are always enough.
 *
 * Errors: DNSM_NO_ROOM. */
dnsm_status dnsm_rcode_text(uint16_t rcode, char *out, size_t out_len, size_t *len);

/* Writes the code of an option: the name that IANA has registered for it, as NSID, or OPTION with its number. 32 octets are
 * always enough.
 *
 * Errors: DNSM_NO_ROOM. */
dnsm_status dnsm_option_text(uint16_t code, char *out, size_t out_len, size_t *len);

/* Writes the code of an extended error: the name that IANA has registered for it, as Stale Answer, or EDE with its number.
 * 64 octets are always enough.
 *
 * Errors: DNSM_NO_ROOM. */
dnsm_status dnsm_extended_error_text(uint16_t code, char *out, size_t out_len, size_t *len);

/* 9. Numbers from texts
 *
 *     uint16_t type, class_, rcode, option, error;
 *     uint8_t opcode;
 *     if (dnsm_type_from_text("mx", 2, &type) == DNSM_OK && dnsm_class_from_text("CLASS1", 6, &class_) == DNSM_OK)
 *         printf("type %u, class %u\n", type, class_);
 *     if (dnsm_opcode_from_text("Notify", 6, &opcode) == DNSM_OK && dnsm_rcode_from_text("NXDOMAIN", 8, &rcode) == DNSM_OK)
 *         printf("opcode %u, rcode %u\n", opcode, rcode);
 *     if (dnsm_option_from_text("COOKIE", 6, &option) == DNSM_OK &&
 *         dnsm_extended_error_from_text("Blocked", 7, &error) == DNSM_OK)
 *         printf("option %u, extended error %u\n", option, error);
 *
 * Texts are read in any case, and need no zero octet: the name that IANA has registered, as dnsm_type_text writes it, or the word
 * that it writes for a number without a name, as TYPE, and the number in decimal digits. A call that reads one sets a number, and
 * returns DNSM_BAD_TEXT if the text is none; then the number isn't written. */

/* Reads a record type, as HTTPS or TYPE65, a class, as IN or CLASS1, an opcode up to 255, an rcode up to 4,095, the code of an
 * option, or that of an extended error.
 *
 * Errors: DNSM_BAD_TEXT. */
dnsm_status dnsm_type_from_text(const char *text, size_t text_len, uint16_t *type);
dnsm_status dnsm_class_from_text(const char *text, size_t text_len, uint16_t *class_);
dnsm_status dnsm_opcode_from_text(const char *text, size_t text_len, uint8_t *opcode);
dnsm_status dnsm_rcode_from_text(const char *text, size_t text_len, uint16_t *rcode);
dnsm_status dnsm_option_from_text(const char *text, size_t text_len, uint16_t *code);
dnsm_status dnsm_extended_error_from_text(const char *text, size_t text_len, uint16_t *code);

/* 10. EDNS
 *
 *     dnsm_item item;
 *     dnsm_opt opt;
 *     dnsm_opt_option option;
 *     uint16_t rcode;
 *     if (dnsm_find_opt(message, message_len, &opt, &item, &rcode) == DNSM_OK) {
 *         printf("up to %u octets; rcode %u\n", opt.udp_size, rcode);
 *         for (size_t place = item.data; dnsm_next_option(message, message_len, &item, &place, &option) == DNSM_OK;)
 *             printf("option %u of %u octets\n", option.code, option.data_len);
 *     }
 *     puts(dnsm_opt_fields(&record, &opt) == DNSM_NOT_OPT ? "the first record is no OPT record" : "it is one");
 */

/* The fields of an OPT record (RFC 6891 section 6.1.3). */
typedef struct dnsm_opt {
    uint16_t udp_size;  /* the most octets of a UDP payload that the sender can receive */
    uint16_t flags;     /* DNSM_DO, and 15 bits that have to be zero */
    uint8_t rcode_high; /* the upper eight bits of the extended rcode; the lower four are the rcode of the header */
    uint8_t version;
} dnsm_opt;

/* The flag that asks for DNSSEC records. */
enum { DNSM_DO = 0x8000 };

/* Reads the fields of an OPT record. That is an item of type 41 in the additional section; its name isn't looked at.
 *
 * Errors: DNSM_NOT_OPT. Then `*opt` isn't written. */
dnsm_status dnsm_opt_fields(const dnsm_item *item, dnsm_opt *opt);

/* Finds the OPT record of a message, and reads its fields. `*rcode` has twelve bits: the upper eight are in the record, the
 * lower four in the header.
 *
 * Errors, the first that applies: DNSM_SHORT_INPUT if the message has fewer than 12 octets; DNSM_TWO_OPTS; the error of the
 * first item that can't be read; DNSM_NO_OPT; DNSM_BAD_OWNER if the owner isn't the root. Then nothing is written. */
dnsm_status dnsm_find_opt(const uint8_t *message, size_t message_len, dnsm_opt *opt, dnsm_item *item, uint16_t *rcode);

/* An option of an OPT record (RFC 6891 section 6.1.2). */
typedef struct dnsm_opt_option {
    size_t data;       /* offset of its octets, which lie within the RDATA */
    uint16_t code;
    uint16_t data_len;
} dnsm_opt_option;

/* Reads the option at offset `*place` of the RDATA of an OPT record, and sets `*place` to the offset after it. Set `place` to the
 * item's `data` before the first call. The option needn't be initialised.
 *
 * Returns DNSM_OK with an option, or DNSM_END if `*place` is the end of the RDATA. Without an option, nothing is written.
 *
 * Errors, the first that applies: DNSM_NOT_OPT; DNSM_SHORT_INPUT if the RDATA isn't within the message, which happens only for an
 * item that dnsm_next didn't write for these octets; DNSM_BAD_OPTION if `*place` isn't in the RDATA, or no whole option begins
 * there. */
dnsm_status dnsm_next_option(const uint8_t *message, size_t message_len, const dnsm_item *item, size_t *place,
                             dnsm_opt_option *option);

/* 11. Queries, and responses of one address
 *
 *     static const uint8_t address[4] = {192, 0, 2, 1};
 *     uint8_t query[DNSM_MADE], response[DNSM_MADE];
 *     size_t query_len, response_len = 0;
 *     dnsm_status status =
 *         dnsm_query(4660, true, "www.example.com", 15, DNSM_TYPE_A, DNSM_CLASS_IN, query, sizeof query, &query_len);
 *     if (status == DNSM_OK)
 *         status = dnsm_respond_a(query, query_len, true, 3600, address, response, sizeof response, &response_len);
 *     if (status == DNSM_OK && dnsm_answers(query, query_len, response, response_len) == DNSM_OK)
 *         printf("a query of %zu octets, and its response of %zu\n", query_len, response_len);
 */

/* The length of an output buffer that is always enough for dnsm_query and dnsm_respond_a. */
enum { DNSM_MADE = 512 };

/* Writes a query: a header with `id`, RD as `recursion` says, and no other bit set, and one question.
 *
 * Errors: DNSM_NO_ROOM, and DNSM_BAD_TEXT if `name` is no name (see "Names as text"). */
dnsm_status dnsm_query(uint16_t id, bool recursion, const char *name, size_t name_len, uint16_t type, uint16_t class_,
                       uint8_t *out, size_t out_len, size_t *len);

/* Writes the response to a standard query of class IN with one question, for type A or ANY: a header, the question, and one A
 * record with `ttl`, in seconds, and `address`. The header has ID, opcode, RD and CD of the query, QR, AA as `authoritative`
 * says, and no other bit set.
 *
 * Errors: for octets that are no such query, the first that applies of DNSM_SHORT_INPUT, DNSM_IS_RESPONSE, DNSM_OTHER_OPCODE,
 * DNSM_NO_QUESTION, the error of reading the question, DNSM_OTHER_CLASS and DNSM_OTHER_TYPE. For all others, DNSM_NO_ROOM. */
dnsm_status dnsm_respond_a(const uint8_t *query, size_t query_len, bool authoritative, uint32_t ttl, const uint8_t address[4],
                           uint8_t *out, size_t out_len, size_t *len);

/* Checks that a response answers a query: QR is set, and ID, opcode and questions are those of the query, but for ASCII case.
 *
 * Errors, the first that applies: DNSM_SHORT_INPUT if one of them has fewer than 12 octets; DNSM_NO_RESPONSE;
 * DNSM_OTHER_QUERY. */
dnsm_status dnsm_answers(const uint8_t *query, size_t query_len, const uint8_t *response, size_t response_len);

/* 12. Queries with EDNS
 *
 *     const dnsm_opt opt = {1232, DNSM_DO, 0, 0};
 *     uint8_t options[4], query[512];
 *     size_t options_len, len;
 *     if (dnsm_option_octets(DNSM_OPTION_NSID, NULL, 0, options, sizeof options, &options_len) == DNSM_OK &&
 *         dnsm_query_opt(4660, true, "www.example.com", 15, DNSM_TYPE_A, DNSM_CLASS_IN, &opt, options, options_len,
 *                        query, sizeof query, &len) == DNSM_OK)
 *         printf("a query of %zu octets, whose OPT record has TTL %lu\n", len, (unsigned long)dnsm_opt_ttl(&opt));
 */

/* Writes an option: its code, the length of its data, and its data.
 *
 * Errors: DNSM_NO_ROOM, and DNSM_LONG_DATA for more than 65,535 octets of data. */
dnsm_status dnsm_option_octets(uint16_t code, const uint8_t *data, size_t data_len, uint8_t *out, size_t out_len, size_t *len);

/* Writes a query as dnsm_query does, and an OPT record (RFC 6891 section 6.1) with the fields of `opt` and the options `options`:
 * what dnsm_option_octets wrote for each, one after the other, or nothing. To set DNSM_AD or DNSM_CD, change the fourth octet
 * afterwards, as by `out[3] |= DNSM_CD`. 282 octets more than its options are always enough.
 *
 * Errors, the first that applies: DNSM_BAD_TEXT, DNSM_LONG_DATA for more than 65,535 octets of options, DNSM_BAD_OPTION if they
 * aren't whole options, and DNSM_NO_ROOM. */
dnsm_status dnsm_query_opt(uint16_t id, bool recursion, const char *name, size_t name_len, uint16_t type, uint16_t class_,
                           const dnsm_opt *opt, const uint8_t *options, size_t options_len,
                           uint8_t *out, size_t out_len, size_t *len);

/* The TTL of an OPT record with these fields. To write one with dnsm_build, pass an item with the name ".", this TTL, the class
 * `udp_size`, the type DNSM_TYPE_OPT, the section DNSM_ADDITIONAL, and as data what dnsm_option_octets wrote for each option, one
 * after the other, or nothing. */
uint32_t dnsm_opt_ttl(const dnsm_opt *opt);

/* 13. Writing a message by one call
 *
 *     static const uint8_t address[] = {192, 0, 2, 1};
 *     const dnsm_new_item items[] = {
 *         {"example.com", 11, NULL, 0, 0, DNSM_TYPE_A, DNSM_CLASS_IN, DNSM_QUESTION},
 *         {"example.com", 11, address, sizeof address, 3600, DNSM_TYPE_A, DNSM_CLASS_IN, DNSM_ANSWER},
 *     };
 *     uint8_t out[512];
 *     size_t len;
 *     if (dnsm_build(4660, DNSM_QR | DNSM_AA, items, 2, out, sizeof out, &len) == DNSM_OK)
 *         printf("%zu octets\n", len);
 *
 * Take dnsm_put (part 14) to keep within a limit, to allocate nothing, or to save time. Take dnsm_build for the shortest message, or
 * for names as text. */

/* A question or a record to write. The name is text (see "Names as text"). The data is RDATA in wire format, with names
 * uncompressed. For the 80 types of dnsm_data_text it has to be the fields of the type, whatever the class, without compression
 * pointers, which RDATA within a message may have; for other types it may be any octets. A record of class NONE (254) or ANY
 * (255) may also have no data (RFC 2136 section 2.4). The TTL is in seconds. TTL and data of a question are ignored. */
typedef struct dnsm_new_item {
    const char *name;
    size_t name_len;
    const uint8_t *data;
    size_t data_len;
    uint32_t ttl;
    uint16_t type;
    uint16_t class_;
    uint8_t section;
} dnsm_new_item;

/* Writes a message: a header of `id` and `flags` (as in dnsm_header), and the items, each in its section, in order. The counts
 * are those of the items. Names of questions and owners are compressed, and those in the RDATA of the types of RFC 1035, as NS,
 * MX and SOA. The message may have more than 65,535 octets, which no transport carries: check `*len`. The call allocates, and
 * frees all that it allocated.
 *
 * It gives all of the message or nothing. A name whose text is that of the item before isn't parsed again. In a message of up to
 * 16,384 octets no compression of the names is shorter.
 *
 * Errors: DNSM_BAD_SECTION, DNSM_BAD_TEXT, DNSM_LONG_DATA or DNSM_BAD_DATA for an item that can't be written, the first one if
 * there are several, also if memory is out. DNSM_TOO_MANY only if a section has more than 65,535 items, DNSM_NO_MEMORY if an
 * allocation failed, and DNSM_NO_ROOM. */
dnsm_status dnsm_build(uint16_t id, uint16_t flags, const dnsm_new_item *items, size_t items_len,
                       uint8_t *out, size_t out_len, size_t *len);

/* 14. Writing a message item by item
 *
 *     static const uint8_t name[] = "\7example\3com", address[] = {192, 0, 2, 1};
 *     const dnsm_put_item answer = {name, sizeof name, address, sizeof address, 3600, DNSM_TYPE_A, DNSM_CLASS_IN, DNSM_ANSWER};
 *     uint8_t out[512];
 *     size_t len;
 *     dnsm_draft draft;
 *     dnsm_status status = dnsm_begin(&draft, out, sizeof out, 4660, DNSM_QR | DNSM_AA);
 *     if (status == DNSM_OK && dnsm_put(&draft, out, sizeof out, &answer) == DNSM_NO_ROOM)
 *         draft.flags |= DNSM_TC;
 *     if (status == DNSM_OK && dnsm_finish(&draft, out, sizeof out, &len) == DNSM_OK)
 *         printf("%zu octets\n", len);
 */

/* A message under construction in a buffer of the caller (part 13 says when to take dnsm_build). The caller owns the draft and may
 * copy it. A copy taken before an item was put is a mark, and copying it back removes the items put since; then copies taken after
 * those items mean nothing. The buffer belongs to all copies: each call needs the octets that the call before left. They may move
 * between calls.
 *
 * Set `limit`, `reserved`, `id`, `flags` and `unchecked` between calls as you like. The other fields belong to the calls. With
 * other values there, each call is safe, but its results mean nothing; `hints` may have any values. */
typedef struct dnsm_draft {
    size_t len;         /* octets of the message so far, at least 12 */
    size_t limit;       /* the most octets of the message; dnsm_begin sets SIZE_MAX. Without it a message may exceed 65,535 octets,
                         * which no transport carries */
    size_t reserved;    /* octets to keep free before the limit and the end of the buffer, as for an OPT record; dnsm_begin sets 0.
                         * Set it to 0 to use them */
    uint16_t id;
    uint16_t flags;     /* as in dnsm_header */
    uint16_t counts[4]; /* the number of items in each section */
    uint8_t section;    /* that of the last item */
    uint8_t unchecked;  /* 0 if all RDATA is checked; dnsm_begin sets 0. Set it to 1 for RDATA that is known to be well-formed */
    uint16_t hints[64]; /* offsets of earlier names, by which names are compressed */
} dnsm_draft;

/* A question or a record to put. The name is its uncompressed octets, as dnsm_name_octets and dnsm_name_from_text write them. The
 * data is RDATA in wire format, with names uncompressed. The TTL is in seconds. TTL and data of a question are ignored. Neither
 * `name` nor `data` may lie within `out`. */
typedef struct dnsm_put_item {
    const uint8_t *name;
    size_t name_len;
    const uint8_t *data;
    size_t data_len;
    uint32_t ttl;
    uint16_t type;
    uint16_t class_;
    uint8_t section;
} dnsm_put_item;

/* Begins a message without items, and sets all fields of the draft, which needn't be initialised. Writes nothing to the buffer.
 *
 * Errors: DNSM_NO_ROOM if the buffer has fewer than 12 octets. Then the draft isn't written. */
dnsm_status dnsm_begin(dnsm_draft *draft, uint8_t *out, size_t out_len, uint16_t id, uint16_t flags);

/* Appends a question or a record. The draft is one that dnsm_begin has set, and the octets of the message so far are in `out`.
 * The items come in the order of the sections.
 *
 * Names of questions and owners are compressed where a hint leads to the same name, octet for octet, and so are those in the
 * RDATA of NS, MD, MF, CNAME, SOA, MB, MG, MR, PTR, MINFO and MX. RDATA of these eleven types has to be exactly the fields of
 * the type, without compression pointers; but a record of class NONE (254) or ANY (255) may have none. RDATA of all other types
 * of dnsm_data_text has to be, too, unless `unchecked` is set. It is copied as it is.
 *
 * Errors, the first that applies: DNSM_BAD_SECTION if the section exceeds 3 or is before that of the last item; DNSM_BAD_TEXT
 * if the octets aren't exactly one uncompressed name; DNSM_LONG_DATA; DNSM_BAD_DATA; DNSM_TOO_MANY if the section has 65,535
 * items; and DNSM_NO_ROOM, only if the item with its names uncompressed and the reserved octets would pass the end of the
 * buffer or the limit. On an error the message stays as it was, but octets of the buffer after it may have changed. */
dnsm_status dnsm_put(dnsm_draft *draft, uint8_t *out, size_t out_len, const dnsm_put_item *item);

/* Writes the header section of a draft, and sets `*len` to the length of the message, the draft's `len`, also on an error. More
 * items may be put afterwards; then call it again.
 *
 * Errors: DNSM_NO_ROOM if the draft's `len` is less than 12 or exceeds `out_len`. */
dnsm_status dnsm_finish(const dnsm_draft *draft, uint8_t *out, size_t out_len, size_t *len);

/* 15. Responses, and items of other messages
 *
 *     uint8_t query[DNSM_MADE], out[512];
 *     size_t query_len, len;
 *     dnsm_draft draft;
 *     if (dnsm_query(4660, true, "example.org", 11, DNSM_TYPE_MX, DNSM_CLASS_IN, query, sizeof query, &query_len) == DNSM_OK &&
 *         dnsm_begin_response(&draft, out, sizeof out, query, query_len, DNSM_RCODE_NOERROR) == DNSM_OK &&
 *         dnsm_put_from(&draft, out, sizeof out, message, message_len, &record) == DNSM_OK &&
 *         dnsm_finish(&draft, out, sizeof out, &len) == DNSM_OK)
 *         printf("a response of %zu octets\n", len);
 */

/* Begins the response to a query, with the query's question: its ID, opcode, RD and CD, QR, and the low four bits of `rcode`.
 * A server that doesn't validate clears DNSM_CD afterwards (RFC 4035 section 3.1.6). As by dnsm_begin, there is no limit, no octet
 * is reserved, and RDATA is checked.
 *
 * Errors, the first that applies: DNSM_SHORT_INPUT if the query has fewer than 12 octets; DNSM_IS_RESPONSE; DNSM_NO_QUESTION;
 * the error of reading the question; DNSM_NO_ROOM if the buffer is shorter than a header and the question with its name
 * uncompressed. Then nothing is written. dnsm_respond answers by FORMERR. */
dnsm_status dnsm_begin_response(dnsm_draft *draft, uint8_t *out, size_t out_len, const uint8_t *query, size_t query_len,
                                uint16_t rcode);

/* Appends an item of another message, as dnsm_next wrote it. Its `section` and `ttl` may have been changed: a cache lowers the
 * TTL by its age. Names are read there, and compressed anew as dnsm_put compresses them. RDATA is checked, also if `unchecked`
 * is set.
 *
 * Errors, the first that applies: DNSM_BAD_SECTION as of dnsm_put; DNSM_BAD_TEXT if no name can be read at the item's place;
 * DNSM_BAD_DATA if the RDATA of a record isn't that of its type, or not within the message; DNSM_TOO_MANY and DNSM_NO_ROOM as of
 * dnsm_put. On an error the message stays as it was, but octets of the buffer after it may have changed. */
dnsm_status dnsm_put_from(dnsm_draft *draft, uint8_t *out, size_t out_len, const uint8_t *message, size_t message_len,
                          const dnsm_item *item);

/* 16. Responses of a name server
 *
 *     static const uint8_t name[] = "\7example\3org", address[] = {192, 0, 2, 1};
 *     const dnsm_put_item set[] = {{name, sizeof name, address, sizeof address, 3600, DNSM_TYPE_A, DNSM_CLASS_IN, DNSM_ANSWER}};
 *     uint8_t query[DNSM_MADE], out[512];
 *     uint16_t rcode = DNSM_RCODE_NOERROR;
 *     size_t len;
 *     dnsm_draft draft;
 *     dnsm_opt opt;
 *     if (dnsm_query(4660, true, "example.org", 11, DNSM_TYPE_A, DNSM_CLASS_IN, query, sizeof query, &len) == DNSM_OK &&
 *         dnsm_respond(&draft, out, 512, query, len, &rcode, &opt) == DNSM_OK && dnsm_put_set(&draft, out, 512, set, 1, true) == DNSM_OK)
 *         printf("rcode %u, %zu octets, %zu reserved\n", rcode, draft.len, draft.reserved);
 *
 * examples/serve.c is a name server. */

/* Begins the response to any query, also to one that dnsm_begin_response refuses: with its question, if it has exactly one that can be
 * read, its ID, opcode, RD and CD, QR, and the low four bits of the rcode. `*rcode` is the rcode of twelve bits that is wanted, and is set
 * to that of the response. This is, the first that applies: DNSM_RCODE_FORMERR for more than one OPT record (RFC 6891 section 6.1.1);
 * DNSM_RCODE_BADVERS if the version of the OPT record is above 0 (section 6.1.3); DNSM_RCODE_FORMERR without such a question; the one that
 * is wanted. A query of another opcode may have no question: to answer DNSM_RCODE_NOTIMP, set it in `flags` afterwards. This call doesn't
 * ask dnsm_is_regular: looking for OPT records in a query of 64 KiB that isn't regular can take tenths of a second.
 *
 * Sets `*opt` to what the OPT record of the response says: version 0, DO of the query (RFC 3225 section 3), the upper bits of the rcode,
 * and as `udp_size` how many octets of a UDP payload the client can receive, at least 512: set it to your own. The draft reserves the 11
 * octets of an OPT record without options. If no OPT record of the query can be read, all of `*opt` is 0, and nothing is reserved. Before
 * the OPT record is put (dnsm_opt_ttl), set `reserved` to 0. Else the draft is as after dnsm_begin_response.
 *
 * Errors, the first that applies: DNSM_SHORT_INPUT if the query has fewer than 12 octets; DNSM_IS_RESPONSE; DNSM_NO_ROOM if the buffer
 * is shorter than a header and the question with its name uncompressed. Then nothing is written. */
dnsm_status dnsm_respond(dnsm_draft *draft, uint8_t *out, size_t out_len, const uint8_t *query, size_t query_len, uint16_t *rcode,
                         dnsm_opt *opt);

/* Appends all items of a set, as dnsm_put does, or none. If it is left out, the draft is as before, but at DNSM_NO_ROOM DNSM_TC is set if
 * the set is `required`, as one that answers the question (RFC 2181 section 9). Addresses of name servers are not. Once DNSM_TC is set,
 * each set is left out: a response is truncated at its end (RFC 1035 section 6.2).
 *
 * Errors: DNSM_NO_ROOM if DNSM_TC was set; else that of the first item that dnsm_put refuses. Then the set is left out, and octets of
 * the buffer after the message may have changed. */
dnsm_status dnsm_put_set(dnsm_draft *draft, uint8_t *out, size_t out_len, const dnsm_put_item *items, size_t items_len, bool required);

/* 17. Replies, and what a cache asks of them
 *
 *     uint8_t query[DNSM_MADE], root[1] = {0}, regular;
 *     size_t len, end;
 *     uint32_t ttl;
 *     dnsm_saying saying;
 *     dnsm_query(4660, true, "example.org", 11, DNSM_TYPE_MX, DNSM_CLASS_IN, query, sizeof query, &len);
 *     if (dnsm_is_regular(message, message_len, &regular) == DNSM_OK && regular &&
 *         dnsm_reply(query, len, message, message_len, root, 1, &saying) == DNSM_OK && saying.kind == DNSM_REPLY_ANSWER)
 *         printf("an answer for %lu seconds\n", (unsigned long)saying.ttl);
 *     if (dnsm_min_ttl(message, message_len, &ttl) == DNSM_OK && dnsm_records_end(message, message_len, &end) == DNSM_OK)
 *         printf("TTL %lu, up to offset %zu\n", (unsigned long)ttl, end);
 */

/* What a reply says (RFC 1034 section 5.3.3). "The name" is that at the end of the chain of aliases, CNAME records, that begins at
 * the question's name. */
enum {
    DNSM_REPLY_ANSWER = 0,     /* the name owns records that the question asks for; they are in the answer section */
    DNSM_REPLY_NO_DATA = 1,    /* the name owns no such records (RFC 2308 section 2.2) */
    DNSM_REPLY_NO_NAME = 2,    /* the name doesn't exist (RFC 2308 section 2.1) */
    DNSM_REPLY_REFERRAL = 3,   /* NS records of the authority section delegate the name to a zone below */
    DNSM_REPLY_ALIAS = 4,      /* the name is outside the zone: other servers have to be asked for it */
    DNSM_REPLY_DNAME = 5,      /* a DNAME record redirects the name, and there is no CNAME record for that (RFC 6672 section 3.1) */
    DNSM_REPLY_TRUNCATED = 6,  /* TC is set: the query has to be sent again over TCP */
    DNSM_REPLY_FAILED = 7,     /* the rcode is neither NOERROR nor NXDOMAIN, or an error where no records were asked for */
    DNSM_REPLY_DONE = 8,       /* NOERROR, where no records were asked for: the opcode isn't QUERY, or there is no question */
    DNSM_REPLY_UNREADABLE = 9, /* a record can't be read. This reply and those below are of no use: ask another server */
    DNSM_REPLY_MANY_OPTS = 10, /* there is more than one OPT record */
    DNSM_REPLY_LOOP = 11,      /* the chain of aliases has more than 20 names */
    DNSM_REPLY_LAME = 12       /* NS records, but of no zone below the one that was asked */
};

/* What a reply says, and of which name. Numbers and lengths that don't belong to its kind are 0. Names are uncompressed octets, for
 * dnsm_name_equal with a record's owner; a length of 0 is no name. The octets after a name are 0. DNSM_REPLY_NO_DATA without an
 * owner, of another name than the question's, may come of a server that sends the alias alone: ask for the name. */
typedef struct dnsm_saying {
    uint32_t ttl;       /* for how many seconds it may be cached. Of DNSM_REPLY_ANSWER it is the least TTL of its records and the
                         * aliases, of _NO_DATA and _NO_NAME by the SOA record (RFC 2308 section 5), without which it shouldn't be.
                         * Of _ALIAS it is the least TTL of the aliases, or 0 without one, as the question's own name isn't within
                         * the zone. A TTL with its highest bit set is a large number */
    uint32_t alias_ttl; /* of _NO_DATA, _NO_NAME and _REFERRAL: for how many seconds the aliases may be cached, or 0 without one */
    uint16_t rcode;     /* of DNSM_REPLY_FAILED, of twelve bits as that of dnsm_find_opt */
    uint8_t kind;       /* DNSM_REPLY_ANSWER, or one of those after it */
    uint8_t name_len;
    uint8_t owner_len;
    uint8_t target_len;
    uint8_t name[255];  /* the name, of the kinds up to DNSM_REPLY_DNAME */
    uint8_t owner[255]; /* that of the records that say so: the SOA record if there is one, the NS records, or the DNAME record */
    uint8_t target[255]; /* of DNSM_REPLY_DNAME: ask for the name with these octets in place of the owner's, which are its last */
} dnsm_saying;

/* Sets `*saying` to what a received message says of the first question of a query, if it is a reply to that: QR is set, and ID,
 * opcode and questions are those of the query, but for ASCII case. A reply that reports an error, or to an UPDATE, may have no
 * question. `zone` is the name of the zone that the server was asked about, as uncompressed octets: the root for a server that
 * resolves, and after DNSM_REPLY_REFERRAL the owner. Only records whose owners are within it count, but NS records of a
 * zone above can make it DNSM_REPLY_LAME, and any malformed record DNSM_REPLY_UNREADABLE.
 *
 * Ask dnsm_is_regular first: a message that isn't regular can take seconds. Takes 7 KB of stack.
 *
 * Errors, the first that applies: DNSM_SHORT_INPUT if the query or the message has fewer than 12 octets; DNSM_BAD_TEXT if `zone`
 * isn't exactly one uncompressed name; DNSM_NO_RESPONSE; DNSM_OTHER_QUERY. Then `*saying` isn't written. A message that is
 * no reply may be forged: go on waiting for one. */
dnsm_status dnsm_reply(const uint8_t *query, size_t query_len, const uint8_t *received, size_t received_len, const uint8_t *zone,
                       size_t zone_len, dnsm_saying *saying);

/* Sets `*regular` to 1 if each question and record can be skipped, the names in its RDATA end within it, and each compression
 * pointer leads to a label of an earlier name (RFC 1035 section 4.1.4), else to 0. To read a question's name, an owner or a name in
 * RDATA of such a message, at most 128 pointers are followed, else some 8,000. Takes 2 KB of stack.
 *
 * Errors: DNSM_SHORT_INPUT if the message has fewer than 12 octets. Then `*regular` isn't written. */
dnsm_status dnsm_is_regular(const uint8_t *message, size_t message_len, uint8_t *regular);

/* Sets `*ttl` to the least TTL of the records of the three sections, in seconds. The records of OPT, TSIG, TKEY and SIG have none. A reply
 * that there is no such record may be kept for less: for the `ttl` of what it says (dnsm_reply).
 *
 * Returns DNSM_OK with a TTL, or DNSM_END if no record has one. Without a TTL, `*ttl` isn't written.
 *
 * Errors: DNSM_SHORT_INPUT, DNSM_BAD_LABEL or DNSM_LONG_NAME of the first question or record that can't be skipped. Pointers aren't
 * followed. */
dnsm_status dnsm_min_ttl(const uint8_t *message, size_t message_len, uint32_t *ttl);

/* Sets `*end` to the offset after the last record; without records, after the last question, or 12. The octets from there on are no
 * part of the message.
 *
 * Errors: those of dnsm_min_ttl. Then `*end` isn't written. */
dnsm_status dnsm_records_end(const uint8_t *message, size_t message_len, size_t *end);

/* 18. Responses from a cache
 *
 *     uint8_t cached[512];
 *     uint32_t ttl;
 *     memcpy(cached, message, message_len);
 *     if (dnsm_age(cached, message_len, 600) == DNSM_OK && dnsm_min_ttl(cached, message_len, &ttl) == DNSM_OK)
 *         printf("for %lu seconds more\n", (unsigned long)ttl);
 */

/* Lowers the TTL of each record of a message by `seconds`, but not below 0, in place: for a response that was in a cache for so long.
 * The records of OPT, TSIG, TKEY and SIG have none. No other octet changes, and what is read of the message stays the same, but for the
 * TTLs. A TTL with its highest bit set is a large number. Takes 2 KB of stack.
 *
 * Errors: DNSM_SHORT_INPUT if the message has fewer than 12 octets; else the error of the first question or record that isn't as
 * dnsm_is_regular wants it: DNSM_BAD_POINTER if a pointer leads to anything but a label of an earlier name. Then nothing has changed. */
dnsm_status dnsm_age(uint8_t *message, size_t message_len, uint32_t seconds);

/* 19. Messages of a stream, and transfers of zones
 *
 *     static const uint8_t root[1] = {0};
 *     static const uint8_t stream[52] = "\0\x32\x12\x34\x84\0\0\1\0\1\0\0\0\0\0\0\xfb\0\1\0\0\6\0\1\0\0\0\0\0\x16\0\0\0\0\0\1";
 *     size_t len, missing;
 *     dnsm_transfer transfer;
 *     dnsm_cursor cursor;
 *     dnsm_step step;
 *     if (dnsm_begin_transfer(&transfer, 4660, root, 1, DNSM_CLASS_IN, true, 1) == DNSM_OK &&
 *         dnsm_first_message(stream, 52, &len, &missing) == DNSM_OK && dnsm_open_transfer(&transfer, stream + 2, len, &cursor) == DNSM_OK &&
 *         dnsm_next_step(&transfer, stream + 2, len, &cursor, &step) == DNSM_OK && dnsm_end_transfer(&transfer) == DNSM_OK)
 *         printf("step %u with serial %lu, the last\n", step.kind, (unsigned long)step.serial);
 *
 * Over TCP each message follows its length in two octets (RFC 1035 section 4.2.2). Keep what was received in a buffer of 65,537 octets:
 * receive more while dnsm_first_message returns DNSM_END, then take all steps of the message at offset 2, and move what follows it to the
 * start. examples/transfer.c does so. A response to AXFR or IXFR has one or several messages (RFC 5936 section 2.2, RFC 1995 section 4).
 * To write one, put its records into a draft of at most 65,535 octets up to DNSM_NO_ROOM, and that record into the next message. Only the
 * first message has the question (RFC 5936 section 2.2.2), as in examples/write_transfer.c. */

/* What a record of a transfer does. */
enum {
    DNSM_STEP_BEGIN = 0,      /* the version with this serial is transferred. The record is its SOA record: part of a zone that is sent whole,
                               * but changes add it again */
    DNSM_STEP_UP_TO_DATE = 1, /* the server's version has this serial, and isn't newer: nothing follows */
    DNSM_STEP_WHOLE = 2,      /* in place of changes the whole zone follows: forget the version before, and begin with the record of _BEGIN */
    DNSM_STEP_REMOVE = 3,     /* remove the record */
    DNSM_STEP_ADD = 4,        /* add the record */
    DNSM_STEP_END = 5         /* the zone is now the version with this serial */
};

/* What was read of a transfer: DNSM_TRANSFER_ENDED, or something else while a message is still to come. */
enum {
    DNSM_TRANSFER_WANTED = 0,   /* nothing */
    DNSM_TRANSFER_FIRST = 1,    /* the first SOA record of changes */
    DNSM_TRANSFER_WHOLE = 2,    /* records of the whole zone */
    DNSM_TRANSFER_REMOVING = 3, /* records to be removed */
    DNSM_TRANSFER_ADDING = 4,   /* records to be added */
    DNSM_TRANSFER_ENDED = 5     /* everything */
};

/* A transfer of a zone. The caller owns it, and may copy it. dnsm_begin_transfer sets all fields, which belong to the calls: with other
 * values there, each call is safe, but its results mean nothing. */
typedef struct dnsm_transfer {
    uint32_t known;     /* the serial of the version that is known */
    uint32_t version;   /* the serial of the version from which records are removed, or to which they are added */
    uint32_t last;      /* the serial of the server's version, once the first SOA record was read */
    dnsm_status status; /* DNSM_OK, or the error that ended the transfer */
    uint16_t id;
    uint16_t class_;
    uint8_t state;      /* DNSM_TRANSFER_WANTED, or one of those after it */
    uint8_t changes;    /* 0 if the whole zone is asked for */
    uint8_t zone_len;
    uint8_t zone[255];  /* the name of the zone, uncompressed */
} dnsm_transfer;

/* A step of a transfer. */
typedef struct dnsm_step {
    dnsm_item item;  /* the record, which of _UP_TO_DATE, _WHOLE and _END is only the one that says so */
    uint32_t serial; /* of _BEGIN, _UP_TO_DATE and _END, else 0 */
    uint8_t kind;    /* DNSM_STEP_BEGIN, or one of those after it */
} dnsm_step;

/* Sets `*len` to the number of octets of the first message of a stream, which is at offset 2. The next one begins after it.
 *
 * Returns DNSM_OK with a message, or DNSM_END if octets of its frame are missing. Without a message, `*len` isn't written. `*missing` is
 * how many are missing: from the length or, once that is there, from the message.
 *
 * Errors: DNSM_SHORT_INPUT if the length is less than 12. Close the connection then. */
dnsm_status dnsm_first_message(const uint8_t *stream, size_t stream_len, size_t *len, size_t *missing);

/* Begins the transfer that a query asks for: with `changes` by IXFR, of the changes since the version with serial `known` (RFC 1995
 * section 3), else by AXFR, of the whole zone. `id` is the query's, `zone` the name of its question as uncompressed octets, `class_` its
 * class. The query by IXFR has the SOA record of that version in its authority section: dnsm_build writes it.
 *
 * Errors: DNSM_BAD_TEXT if `zone` isn't exactly one uncompressed name. Then the transfer isn't written. */
dnsm_status dnsm_begin_transfer(dnsm_transfer *transfer, uint16_t id, const uint8_t *zone, size_t zone_len, uint16_t class_,
                                bool changes, uint32_t known);

/* Checks the header and the questions of the next message of a transfer, and sets the cursor, which needn't be initialised, before its
 * first record. TSIG isn't checked.
 *
 * Errors: DNSM_SHORT_INPUT if the message has fewer than 12 octets; DNSM_BAD_TEXT if the transfer has no zone; DNSM_AFTER_END if it has
 * ended; DNSM_OTHER_QUERY for another ID; DNSM_NO_RESPONSE, also for another opcode; DNSM_BAD_RCODE, DNSM_TRUNCATED; the error of reading
 * a question, or DNSM_OTHER_QUERY if there is another one, several, or none in the first message (RFC 5936 section 2.2.2). The transfer
 * keeps the error, and each later call returns it. Then the cursor isn't written. */
dnsm_status dnsm_open_transfer(dnsm_transfer *transfer, const uint8_t *message, size_t message_len, dnsm_cursor *cursor);

/* Sets `*step` to the next step of a message, and moves the cursor past its record, but at DNSM_STEP_WHOLE before it: then the record is
 * the next step, too. The cursor is one that dnsm_open_transfer has set, for the same octets and this transfer. With another cursor, or
 * over other octets, the call is safe, but its results mean nothing.
 *
 * Returns DNSM_OK with a step, or DNSM_END after the last one of the message. Without a step, `*step` isn't written.
 *
 * Errors: that of reading the record, or the RDATA of an SOA record; DNSM_WRONG_CLASS, DNSM_OUTSIDE_ZONE; DNSM_NO_SOA; DNSM_WRONG_SOA if
 * the owner of an SOA record isn't the zone, or its serial isn't the one that has to follow; DNSM_AFTER_END. The transfer keeps the error,
 * and each later call returns it. What the steps before did is to be undone: a zone changes at DNSM_STEP_END. */
dnsm_status dnsm_next_step(dnsm_transfer *transfer, const uint8_t *message, size_t message_len, dnsm_cursor *cursor, dnsm_step *step);

/* Says that no message follows. Over UDP there is one message: if the transfer hasn't ended, ask again over TCP (RFC 1995 section 2).
 *
 * Errors: that which the transfer keeps, or DNSM_INCOMPLETE if it hasn't ended. */
dnsm_status dnsm_end_transfer(const dnsm_transfer *transfer);

#ifdef __cplusplus
}
#endif

#endif
