/* A forwarder over UDP and TCP with a cache.
 *
 *     forward PORT UPSTREAM [UPSTREAM_PORT]        UPSTREAM is the IPv4 address of a resolver
 *
 * It listens on 127.0.0.1. It asks over UDP, from a new port, with a random ID and letters of random case, which the reply has to
 * repeat ("0x20"), and again over TCP if the reply is truncated. A reply is kept until its first record expires; one without an
 * answer, as long as its SOA record says (RFC 2308 section 5).
 *
 * Left out: several questions at a time (a client over UDP waits while another one's is asked), a second try, a bound on TCP
 * connections, EDNS options, zone transfers. A connection has a process with a copy of the cache; what it adds there is lost. */
#define _DEFAULT_SOURCE
#include <dnsm.h>

#include <arpa/inet.h>
#include <ctype.h>
#include <err.h>
#include <poll.h>
#include <signal.h>
#include <stdlib.h>
#include <string.h>
#include <sys/random.h>
#include <sys/socket.h>
#include <sys/time.h>
#include <time.h>
#include <unistd.h>

/* The octets of an OPT record without options; of a UDP message for a client without EDNS, and at most; of any message. */
enum { OPT_OCTETS = 11, PLAIN = 512, UDP_MOST = 1232, MOST = 65535 };
/* Entries of the cache. Seconds, at most, that one is kept, a reply takes, a connection idles. The index of MINIMUM in SOA. */
enum { ENTRIES = 4096, LONGEST = 86400, PATIENCE = 2, IDLE = 5, SOA_MINIMUM = 6 };

/* What is asked upstream: a query with ID 0, the place where its name ends, and its flags, with DO of EDNS. */
typedef struct question {
    uint8_t octets[PLAIN];
    size_t len, name_end;
    uint16_t flags;
} question;

/* A reply with ID 0 and a question in lower case, when it was asked for, its lifetime in seconds, and the flags of the question. */
typedef struct entry {
    uint8_t *reply;
    size_t len;
    time_t since;
    uint32_t lifetime;
    uint16_t flags;
} entry;

static entry cache[ENTRIES];
static struct sockaddr_in upstream = {.sin_family = AF_INET};
/* For the hash of names. A client's query, the response to it, and the reply from upstream. */
static uint8_t seed[16], query[MOST], out[MOST], reply[MOST];

/* Puts an OPT record without options. */
static dnsm_status put_opt(dnsm_draft *draft, uint8_t *to, size_t room, uint16_t flags, uint16_t rcode)
{
    const dnsm_opt opt = {UDP_MOST, flags & DNSM_DO, (uint8_t)(rcode >> 4), 0};
    const dnsm_put_item item = {(const uint8_t *)"", 1, NULL, 0, dnsm_opt_ttl(&opt), DNSM_TYPE_OPT, UDP_MOST, DNSM_ADDITIONAL};
    return dnsm_put(draft, to, room, &item);
}

/* Sets the ID at random, and the case of each letter. Returns false if there are no random octets. */
static bool vary(question *asked)
{
    uint8_t cases[PLAIN];
    if (getrandom(asked->octets, 2, 0) != 2 || getrandom(cases, sizeof cases, 0) != sizeof cases)
        return false;
    for (size_t i = 12; i < asked->name_end; i++)
        if (isalpha(asked->octets[i]))
            asked->octets[i] = (uint8_t)(asked->octets[i] ^ (cases[i] & 0x20));
    return true;
}

static void set_patience(int socket, time_t seconds)
{
    const struct timeval patience = {seconds, 0};
    setsockopt(socket, SOL_SOCKET, SO_RCVTIMEO, &patience, sizeof patience);
    setsockopt(socket, SOL_SOCKET, SO_SNDTIMEO, &patience, sizeof patience);
}

/* Sends a message. Over TCP two octets with the length precede it (RFC 1035 section 4.2.2). */
static bool send_message(int socket, int type, const uint8_t *message, size_t len)
{
    const uint8_t size[] = {(uint8_t)(len >> 8), (uint8_t)len};
    return (type == SOCK_DGRAM || send(socket, size, 2, MSG_NOSIGNAL | MSG_MORE) == 2) &&
           send(socket, message, len, MSG_NOSIGNAL) == (ssize_t)len;
}

/* Receives a message of at most MOST octets. Returns its length, or -1. */
static ssize_t receive_message(int socket, int type, uint8_t *to)
{
    uint8_t size[] = {MOST >> 8, MOST & 255};
    if (type == SOCK_STREAM && recv(socket, size, 2, MSG_WAITALL) != 2)
        return -1;
    const ssize_t len = size[0] << 8 | size[1], got = recv(socket, to, (size_t)len, MSG_WAITALL);
    return type == SOCK_DGRAM || got == len ? got : -1;
}

/* Asks for the reply, which repeats the name octet for octet; others are ignored for PATIENCE seconds. Returns its length, or 0. */
static size_t exchange(int type, const question *asked)
{
    const time_t end = time(NULL) + PATIENCE;
    const int made = socket(AF_INET, type, 0);
    ssize_t got, len = 0;
    set_patience(made, PATIENCE);
    if (connect(made, (struct sockaddr *)&upstream, sizeof upstream) == 0 && send_message(made, type, asked->octets, asked->len))
        while (len == 0 && time(NULL) <= end && (got = receive_message(made, type, reply)) >= 0)
            if (dnsm_answers(asked->octets, asked->len, reply, (size_t)got) == DNSM_OK &&
                memcmp(asked->octets + 12, reply + 12, asked->name_end - 12) == 0)
                len = got;
    close(made);
    return (size_t)len;
}

/* Sets how many seconds the reply may be kept. Returns false if it is malformed, or has an rcode above 15. */
static bool read_lifetime(size_t len, uint32_t *lifetime)
{
    dnsm_header header;
    dnsm_cursor cursor;
    dnsm_item item;
    bool has_soa = false;
    dnsm_status status = dnsm_open(reply, len, &header, &cursor);
    *lifetime = LONGEST;
    while (status == DNSM_OK && (status = dnsm_next(reply, len, &cursor, &item)) == DNSM_OK) {
        uint64_t ttl = item.ttl > INT32_MAX ? 0 : item.ttl; /* RFC 2181 section 8 */
        dnsm_data_field minimum = {.number = ttl};
        size_t index = SOA_MINIMUM;
        if (item.section == DNSM_QUESTION || (item.type == DNSM_TYPE_OPT && item.ttl >> 24 == 0))
            continue;
        if (item.type == DNSM_TYPE_OPT || dnsm_check_data(reply, len, &item) != DNSM_OK)
            return false;
        if (item.section == DNSM_AUTHORITY && item.type == DNSM_TYPE_SOA)
            has_soa = dnsm_next_field(reply, len, &item, &index, &minimum) == DNSM_OK;
        ttl = minimum.number < ttl ? minimum.number : ttl;
        *lifetime = ttl < *lifetime ? (uint32_t)ttl : *lifetime;
    }
    if ((header.rcode != 0 && header.rcode != DNSM_RCODE_NXDOMAIN) || header.flags & DNSM_TC ||
        ((header.rcode == DNSM_RCODE_NXDOMAIN || header.counts[DNSM_ANSWER] == 0) && !has_soa))
        *lifetime = 0;
    return status == DNSM_END;
}

/* Asks the upstream resolver, and puts the reply into the entry. Returns false if there is none. */
static bool ask(const question *asked, entry *to)
{
    const time_t since = time(NULL);
    question varied = *asked;
    size_t len = vary(&varied) ? exchange(SOCK_DGRAM, &varied) : 0;
    uint8_t regular = 0;
    uint32_t lifetime;
    if (len > 0 && reply[2] & DNSM_TC >> 8)
        len = exchange(SOCK_STREAM, &varied);
    if (dnsm_is_regular(reply, len, &regular) != DNSM_OK || !regular || !read_lifetime(len, &lifetime))
        return false;
    reply[0] = reply[1] = 0;
    for (size_t i = 12; i < asked->name_end; i++) /* a length octet isn't a letter */
        reply[i] = (uint8_t)tolower(reply[i]);
    free(to->reply);
    *to = (entry){malloc(len), len, since, lifetime, asked->flags};
    return to->reply && memcpy(to->reply, reply, len);
}

/* The entry with the reply to a question, from the cache or upstream. Returns NULL if there is none. */
static const entry *find(const question *asked)
{
    uint32_t hash = 0;
    dnsm_name_hash(asked->octets, asked->len, 12, seed, sizeof seed, &hash);
    entry *it = &cache[(hash ^ asked->octets[asked->name_end + 1]) % ENTRIES]; /* by name and type */
    const bool is_kept = it->reply && it->flags == asked->flags && time(NULL) - it->since < it->lifetime &&
                         dnsm_answers(asked->octets, asked->len, it->reply, it->len) == DNSM_OK;
    return is_kept || ask(asked, it) ? it : NULL;
}

/* Puts the records of a reply but for its OPT record, with TTLs that are lower by its age. */
static dnsm_status put_records(dnsm_draft *draft, const entry *from)
{
    dnsm_header header;
    dnsm_cursor cursor;
    dnsm_item item;
    const uint32_t age = (uint32_t)(time(NULL) - from->since);
    dnsm_status status = dnsm_open(from->reply, from->len, &header, &cursor);
    draft->flags |= (uint16_t)(header.rcode | (header.flags & DNSM_AD));
    while (status == DNSM_OK && (status = dnsm_next(from->reply, from->len, &cursor, &item)) == DNSM_OK) {
        if (item.section == DNSM_QUESTION || item.type == DNSM_TYPE_OPT)
            continue;
        item.ttl = item.ttl > INT32_MAX || item.ttl < age ? 0 : item.ttl - age;
        status = dnsm_put_from(draft, out, MOST, from->reply, from->len, &item);
    }
    return status == DNSM_END ? DNSM_OK : status;
}

/* Puts the answer to a question. If it doesn't fit, TC is set instead; without one the rcode is SERVFAIL. */
static void put_answer(dnsm_draft *draft, const question *asked)
{
    const dnsm_draft mark = *draft;
    const entry *found = find(asked);
    const dnsm_status status = found ? put_records(draft, found) : DNSM_BAD_DATA;
    if (status == DNSM_OK)
        return;
    *draft = mark;
    draft->flags |= status == DNSM_NO_ROOM ? DNSM_TC : DNSM_RCODE_SERVFAIL;
}

/* Writes what is asked upstream for a query with one question. Returns the rcode if it gets no answer, else 0. */
static uint16_t read_question(size_t len, const dnsm_opt *opt, question *to)
{
    dnsm_header header;
    dnsm_cursor cursor;
    dnsm_item item;
    dnsm_draft up;
    if (dnsm_open(query, len, &header, &cursor) != DNSM_OK || dnsm_next(query, len, &cursor, &item) != DNSM_OK ||
        dnsm_begin(&up, to->octets, PLAIN, 0, DNSM_RD | (header.flags & (DNSM_AD | DNSM_CD))) != DNSM_OK ||
        dnsm_put_from(&up, to->octets, PLAIN, query, len, &item) != DNSM_OK ||
        put_opt(&up, to->octets, PLAIN, opt->flags, 0) != DNSM_OK || dnsm_finish(&up, to->octets, PLAIN, &to->len) != DNSM_OK)
        return DNSM_RCODE_FORMERR;
    to->name_end = to->len - 4 - OPT_OCTETS;
    to->flags = up.flags | (opt->flags & DNSM_DO);
    return header.opcode != DNSM_OPCODE_QUERY || item.type == DNSM_TYPE_AXFR || item.type == DNSM_TYPE_IXFR ? DNSM_RCODE_NOTIMP : 0;
}

/* Writes the response to a query of this length. Returns its length, or 0 if there is none. */
static size_t respond(size_t len, bool is_udp)
{
    dnsm_draft draft;
    dnsm_opt opt;
    question asked;
    uint8_t regular = 0;
    uint16_t rcode = dnsm_is_regular(query, len, &regular) == DNSM_OK && regular ? DNSM_RCODE_NOERROR : DNSM_RCODE_FORMERR;
    if (dnsm_respond(&draft, out, MOST, query, len, &rcode, &opt) != DNSM_OK)
        return 0;
    draft.flags |= DNSM_RA;
    draft.limit = !is_udp ? MOST : opt.udp_size < PLAIN ? PLAIN : opt.udp_size < UDP_MOST ? opt.udp_size : UDP_MOST;
    if (rcode == 0)
        draft.flags |= rcode = read_question(len, &opt, &asked);
    if (rcode == 0)
        put_answer(&draft, &asked);
    draft.reserved = 0;
    if (opt.udp_size > 0)
        put_opt(&draft, out, MOST, opt.flags, rcode);
    return dnsm_finish(&draft, out, MOST, &len) == DNSM_OK ? len : 0;
}

static void serve_udp(int udp)
{
    struct sockaddr_in client;
    socklen_t client_len = sizeof client;
    const ssize_t got = recvfrom(udp, query, sizeof query, 0, (struct sockaddr *)&client, &client_len);
    const size_t len = got < 0 ? 0 : respond((size_t)got, true);
    if (len > 0)
        sendto(udp, out, len, 0, (struct sockaddr *)&client, client_len);
}

/* Answers the queries of a TCP connection until it is idle. */
static int serve_tcp(int client)
{
    ssize_t got;
    size_t len;
    set_patience(client, IDLE);
    while ((got = receive_message(client, SOCK_STREAM, query)) >= 0 && (len = respond((size_t)got, false)) > 0 &&
           send_message(client, SOCK_STREAM, out, len))
        continue;
    return 0;
}

static int open_socket(int type, unsigned long port)
{
    struct sockaddr_in at = {AF_INET, htons((uint16_t)port), {htonl(INADDR_LOOPBACK)}, {0}};
    const int on = 1, made = socket(AF_INET, type | SOCK_NONBLOCK, 0);
    if (setsockopt(made, SOL_SOCKET, SO_REUSEADDR, &on, sizeof on) != 0 || bind(made, (struct sockaddr *)&at, sizeof at) != 0 ||
        (type == SOCK_STREAM && listen(made, 64) != 0))
        err(1, "port %lu", port);
    return made;
}

int main(int argc, char **argv)
{
    const unsigned long own = argc > 2 ? strtoul(argv[1], NULL, 10) : 0, theirs = argc > 3 ? strtoul(argv[3], NULL, 10) : 53;
    if (own < 1 || own > 65535 || theirs < 1 || theirs > 65535 || inet_pton(AF_INET, argv[2], &upstream.sin_addr) != 1)
        errx(1, "usage: forward PORT UPSTREAM [UPSTREAM_PORT]");
    upstream.sin_port = htons((uint16_t)theirs);
    struct pollfd sockets[] = {{open_socket(SOCK_DGRAM, own), POLLIN, 0}, {open_socket(SOCK_STREAM, own), POLLIN, 0}};
    if (getrandom(seed, sizeof seed, 0) != sizeof seed)
        err(1, "getrandom");
    signal(SIGCHLD, SIG_IGN);
    while (poll(sockets, 2, -1) >= 0) {
        if (sockets[0].revents)
            serve_udp(sockets[0].fd);
        const int client = sockets[1].revents ? accept(sockets[1].fd, NULL, NULL) : -1;
        if (client >= 0 && fork() == 0)
            return serve_tcp(client);
        if (client >= 0)
            close(client);
    }
    err(1, "poll");
}
