/* Records that are printed and read, and the tasks of that. */

#ifndef RECORDS_H
#define RECORDS_H

#include "tasks.h"

#define LINE(rest) {"example.com. 3600 IN " rest, sizeof "example.com. 3600 IN " rest - 1}
#define KEY "mdsswUyr3DPW132mOi8V9xESWE8jTo0dxCjjnopKl+GqJxpVXckHAeF+KkxLbxILfDLUT0rAK9iUzy1L53eKGQ=="
#define WORDS "v=spf1 ip4:192.0.2.0/24 -all."
#define LONG_WORDS WORDS WORDS WORDS WORDS WORDS WORDS "v=spf1 ip4:192.0.2.0/24 -all"

enum { LINES = 12 };

static const struct line lines[LINES] = {
    LINE("A 192.0.2.1"),
    LINE("AAAA 2001:db8::1"),
    LINE("NS ns1.example.com."),
    LINE("MX 10 mail.example.com."),
    LINE("SOA ns1.example.com. hostmaster.example.com. 2026113000 7200 900 1209600 300"),
    LINE("TXT \"" WORDS "\""),
    LINE("TXT \"" LONG_WORDS "\""),
    LINE("DS 60485 13 2 D4B7D520E7BB5F0F67674A0CCEB1E3E0614B93C4F9E99B8383F6A1E4469DA50A"),
    LINE("NSEC host.example.com. A MX RRSIG NSEC TYPE1234"),
    LINE("DNSKEY 257 3 13 " KEY),
    LINE("RRSIG A 13 2 3600 20301230000000 20261130000000 60485 example.com. " KEY),
    LINE("HTTPS 1 . alpn=h2,h3 ipv4hint=192.0.2.1"),
};

/* The tasks of printing and of reading the record of this number, each by this call with this name. */
#define TASKS_OF_LINE(type, number, printed, print, was_read, read)                                                                    \
    {type " text", printed, .with = print, .record = &lines[number]}, {type " text", was_read, .with = read, .record = &lines[number]}

#define TASKS_OF_LINES(...)                                                                                                            \
    TASKS_OF_LINE("A", 0, __VA_ARGS__), TASKS_OF_LINE("AAAA", 1, __VA_ARGS__), TASKS_OF_LINE("NS", 2, __VA_ARGS__),                    \
        TASKS_OF_LINE("MX", 3, __VA_ARGS__), TASKS_OF_LINE("SOA", 4, __VA_ARGS__), TASKS_OF_LINE("short TXT", 5, __VA_ARGS__),         \
        TASKS_OF_LINE("long TXT", 6, __VA_ARGS__), TASKS_OF_LINE("DS", 7, __VA_ARGS__), TASKS_OF_LINE("NSEC", 8, __VA_ARGS__),         \
        TASKS_OF_LINE("DNSKEY", 9, __VA_ARGS__), TASKS_OF_LINE("RRSIG", 10, __VA_ARGS__), TASKS_OF_LINE("HTTPS", 11, __VA_ARGS__)

#endif
