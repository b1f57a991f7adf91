/* The calls that read text, in threads with the stack that dnsm.h says, and 32 KiB more; the first lines in that of a thread of musl. */
#include "dnsm.h"

#undef NDEBUG
#include <assert.h>
#include <pthread.h>
#include <string.h>

static const char *const lines[] = {
    "example.org. 300 IN SVCB 1 svc.example.org. mandatory=alpn,port alpn=h2,h3 port=853 ipv4hint=192.0.2.1 key65=\"a b\"",
    "example.org. 300 IN SVCB \\# 9 000100000300020035",
    "example.org. 300 IN TYPE65280 \\# 4 01020304",
    "example.org. 300 IN TXT \"one string\" another \\255",
    "example.org. 300 IN RRSIG A 8 2 300 20261130000000 20261101000000 1 example.org. AAECAwQFBgcICQ==",
    /* Lists of types take more. */
    "example.org. 300 IN NSEC a.example.org. A MX TYPE65280",
    "example.org. 300 IN NSEC3 1 1 12 aabbccdd 2t7b4g4vsa5smi47k61mv5bv1a22bojr A TYPE65535",
    "example.org. 300 IN CSYNC 66 3 A NS AAAA TYPE65535",
};
enum { LINES = sizeof lines / sizeof *lines, LISTS = 3 };

/* The lines from one number to another, and how many are read. */
typedef struct part {
    size_t from, to, read;
} part;

static void *read_lines(void *passed)
{
    part *it = passed;
    for (size_t i = it->from; i < it->to; i++) {
        uint8_t octets[512];
        size_t len;
        dnsm_item item;
        it->read += dnsm_record_from_text(lines[i], strlen(lines[i]), octets, sizeof octets, &len, &item) == DNSM_OK;
    }
    return NULL;
}

/* Reads these lines in a thread with so much stack. */
static void read_in_thread(size_t from, size_t to, size_t stack)
{
    part it = {from, to, 0};
    pthread_attr_t small;
    pthread_t thread;
    assert(pthread_attr_init(&small) == 0 && pthread_attr_setstacksize(&small, stack) == 0);
    assert(pthread_create(&thread, &small, read_lines, &it) == 0 && pthread_join(thread, NULL) == 0);
    assert(it.read == to - from);
}

int main(void)
{
    read_in_thread(0, LINES - LISTS, 128 * 1024);
    read_in_thread(LINES - LISTS, LINES, 224 * 1024);
    return 0;
}
