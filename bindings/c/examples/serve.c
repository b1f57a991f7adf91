/* An authoritative name server over UDP and TCP.
 *
 *     serve FILE PORT [ADDRESS]        ADDRESS is 127.0.0.1 by default
 *
 * FILE has a zone, a record a line: owner, TTL in seconds, class IN, type and RDATA, with absolute names. Empty lines and those
 * that begin with `;` are skipped. CNAME records are followed. There are no delegated zones, wildcards or DNSSEC. */
#define _GNU_SOURCE
#include <dnsm.h>

#include <arpa/inet.h>
#include <errno.h>
#include <poll.h>
#include <signal.h>
#include <stdio.h>
#include <stdlib.h>
#include <string.h>
#include <sys/socket.h>
#include <sys/time.h>
#include <unistd.h>

/* The octets of a UDP message for a client without EDNS, and at most; of a TCP message. */
enum { PLAIN = 512, UDP_MOST = 1232, TCP_MOST = 65535 };
/* How many CNAME records are followed. How long a TCP connection may be idle, in seconds. The index of the field MINIMUM of SOA. */
enum { CHAIN = 8, IDLE = 5, SOA_MINIMUM = 6 };

/* The key of a name. Keys compare as RFC 4034 section 6.1 orders names, and begin with the keys of all names above. */
typedef struct key {
    size_t len;
    uint8_t octets[DNSM_NAME_KEY];
} key;

/* A record of the zone, the key of its owner, and its octets. */
typedef struct record {
    key key;
    uint8_t *octets;
    size_t len;
    dnsm_item item;
} record;

/* The records of the zone, ordered by owner and type, and as items of the answer section. */
static record *zone, *soa;
static dnsm_put_item *items;
static size_t zone_len;

/* A query and the response to it. Over TCP two octets with the length precede the response (RFC 1035 section 4.2.2). */
static uint8_t query[TCP_MOST], framed[2 + TCP_MOST], *const out = framed + 2;

/* Says why the server ends, and ends it. */
static void stop(const char *what, const char *why)
{
    fprintf(stderr, "serve: %s: %s\n", what, why);
    exit(1);
}

static dnsm_status make_key(key *to, const uint8_t *message, size_t len, size_t place)
{
    return dnsm_name_key(message, len, place, to->octets, sizeof to->octets, &to->len);
}

static int compare_keys(const key *a, const key *b)
{
    const int order = memcmp(a->octets, b->octets, a->len < b->len ? a->len : b->len);
    return order ? order : (a->len > b->len) - (a->len < b->len);
}

/* Compares records by their owners and types. */
static int compare(const void *one, const void *other)
{
    const record *a = one, *b = other;
    const int order = compare_keys(&a->key, &b->key);
    return order ? order : (a->item.type > b->item.type) - (a->item.type < b->item.type);
}

static bool is_below(const key *name, const key *above)
{
    return name->len >= above->len && memcmp(name->octets, above->octets, above->len) == 0;
}

/* The number of the first record whose owner isn't before this name. */
static size_t find(const key *name)
{
    size_t from = 0, to = zone_len;
    while (from < to) {
        const size_t middle = from + (to - from) / 2;
        if (compare_keys(&zone[middle].key, name) < 0)
            from = middle + 1;
        else
            to = middle;
    }
    return from;
}

/* Appends a record to the zone. */
static dnsm_status add_record(const uint8_t *octets, size_t len, const dnsm_item *item)
{
    record it = {.octets = malloc(len), .len = len, .item = *item}, *more = realloc(zone, (zone_len + 1) * sizeof *zone);
    if (!it.octets || !more)
        return DNSM_NO_MEMORY;
    zone = more;
    memcpy(it.octets, octets, len);
    zone[zone_len] = it;
    return make_key(&zone[zone_len++].key, octets, len, item->place);
}

/* Orders the records, and makes the items. */
static void order_zone(const char *path)
{
    qsort(zone, zone_len, sizeof *zone, compare);
    items = calloc(zone_len, sizeof *items);
    for (size_t i = 0; items && i < zone_len; i++) {
        const dnsm_item *it = &zone[i].item;
        items[i] = (dnsm_put_item){zone[i].octets, it->data - 10, zone[i].octets + it->data, it->data_len,
                                   it->ttl, it->type, it->class_, DNSM_ANSWER};
        soa = it->type == DNSM_TYPE_SOA ? &zone[i] : soa;
    }
    if (!soa)
        stop(path, "no zone with an SOA record");
}

/* Reads a zone file. */
static void read_zone(const char *path)
{
    static uint8_t octets[DNSM_NAME_OCTETS + 10 + 65535];
    FILE *file = fopen(path, "r");
    char *line = NULL, why[100];
    size_t room = 0, len;
    dnsm_item item;
    if (!file)
        stop(path, strerror(errno));
    for (unsigned long number = 1; getline(&line, &room, file) >= 0; number++) {
        const size_t blanks = strspn(line, " \t\r\n"), text_len = strcspn(line, "\r\n");
        if (blanks >= text_len || line[0] == ';')
            continue;
        dnsm_status status = dnsm_record_from_text(line, text_len, octets, sizeof octets, &len, &item);
        if (status == DNSM_OK)
            status = item.class_ == DNSM_CLASS_IN ? add_record(octets, len, &item) : DNSM_OTHER_CLASS;
        if (status != DNSM_OK) {
            fprintf(stderr, "line %lu of ", number);
            stop(path, dnsm_status_text(status, why, sizeof why, &len) == DNSM_OK ? why : "no record");
        }
    }
    if (ferror(file))
        stop(path, strerror(errno));
    fclose(file);
    free(line);
    order_zone(path);
}

/* Puts the SOA record. Its TTL says how long a client may keep that there is no such record: RFC 2308 section 3. */
static dnsm_status put_negative(dnsm_draft *draft, uint16_t rcode)
{
    dnsm_data_field minimum = {.number = UINT32_MAX};
    dnsm_put_item item = items[soa - zone];
    size_t index = SOA_MINIMUM;
    dnsm_next_field(soa->octets, soa->len, &soa->item, &index, &minimum);
    draft->flags |= rcode;
    item.section = DNSM_AUTHORITY;
    item.ttl = minimum.number < item.ttl ? (uint32_t)minimum.number : item.ttl;
    return dnsm_put_set(draft, out, TCP_MOST, &item, 1, true);
}

/* How many records of a type a name has, or of any. The first is at `*at`, which was set to the first record of the name. */
static size_t count_set(size_t *at, const key *name, uint16_t type)
{
    size_t count = 0;
    while (*at < zone_len && zone[*at].item.type < type && type != DNSM_TYPE_ANY && compare_keys(&zone[*at].key, name) == 0)
        ++*at;
    while (*at + count < zone_len && (zone[*at + count].item.type == type || type == DNSM_TYPE_ANY) &&
           compare_keys(&zone[*at + count].key, name) == 0)
        count++;
    return count;
}

/* Puts what the zone has of a name and type. If that is a CNAME record alone, sets `*alias` to it, else to NULL. */
static dnsm_status put_records(dnsm_draft *draft, const key *name, uint16_t type, const record **alias)
{
    const size_t first = find(name);
    size_t at = first, count = count_set(&at, name, type);
    *alias = NULL;
    if (first == zone_len || !is_below(&zone[first].key, name))
        return put_negative(draft, DNSM_RCODE_NXDOMAIN);
    if (count == 0) {
        at = first;
        count = count_set(&at, name, DNSM_TYPE_CNAME);
        *alias = count > 0 ? &zone[at] : NULL;
    }
    return count > 0 ? dnsm_put_set(draft, out, TCP_MOST, items + at, count, true) : put_negative(draft, 0);
}

/* Puts the answer to a question. What doesn't fit is left out, and TC set. */
static void put_answer(dnsm_draft *draft, key *name, uint16_t type)
{
    const record *alias;
    size_t place;
    draft->flags |= DNSM_AA;
    for (int step = 0; step < CHAIN && is_below(name, &soa->key); step++)
        if (put_records(draft, name, type, &alias) != DNSM_OK || !alias ||
            dnsm_data_name(alias->octets, alias->len, &alias->item, 0, &place) != DNSM_OK ||
            make_key(name, alias->octets, alias->len, place) != DNSM_OK)
            return;
}

/* The rcode of a query with one question that gets no answer, or 0. Reads the question, and the key of its name. */
static uint16_t refuse(size_t len, dnsm_item *question, key *name)
{
    dnsm_header header;
    dnsm_cursor cursor;
    if (dnsm_open(query, len, &header, &cursor) != DNSM_OK || dnsm_next(query, len, &cursor, question) != DNSM_OK)
        return DNSM_RCODE_FORMERR;
    if (header.opcode != DNSM_OPCODE_QUERY)
        return DNSM_RCODE_NOTIMP;
    if (question->class_ != DNSM_CLASS_IN || question->type == DNSM_TYPE_AXFR || question->type == DNSM_TYPE_IXFR ||
        make_key(name, query, len, question->place) != DNSM_OK || !is_below(name, &soa->key))
        return DNSM_RCODE_REFUSED;
    return 0;
}

/* Writes the response to a query of this length. Returns its length, or 0 if there is none. */
static size_t respond(size_t len, bool is_udp)
{
    dnsm_draft draft;
    dnsm_opt opt;
    dnsm_item item;
    key name;
    uint8_t regular = 0;
    uint16_t rcode = dnsm_is_regular(query, len, &regular) == DNSM_OK && regular ? DNSM_RCODE_NOERROR : DNSM_RCODE_FORMERR;
    if (dnsm_respond(&draft, out, TCP_MOST, query, len, &rcode, &opt) != DNSM_OK)
        return 0;
    draft.flags &= (uint16_t)~DNSM_CD;
    draft.limit = !is_udp ? TCP_MOST : opt.udp_size < PLAIN ? PLAIN : opt.udp_size < UDP_MOST ? opt.udp_size : UDP_MOST;
    if (rcode == 0)
        draft.flags |= rcode = refuse(len, &item, &name);
    if (rcode == 0)
        put_answer(&draft, &name, item.type);
    const dnsm_put_item last = {(const uint8_t *)"", 1, NULL, 0, dnsm_opt_ttl(&opt), DNSM_TYPE_OPT, UDP_MOST, DNSM_ADDITIONAL};
    draft.reserved = 0;
    const bool is_whole = opt.udp_size == 0 || dnsm_put(&draft, out, TCP_MOST, &last) == DNSM_OK;
    return is_whole && dnsm_finish(&draft, out, TCP_MOST, &len) == DNSM_OK ? len : 0;
}

static void serve_udp(int udp)
{
    struct sockaddr_in client;
    socklen_t client_len = sizeof client;
    const ssize_t got = recvfrom(udp, query, sizeof query, 0, (struct sockaddr *)&client, &client_len);
    const size_t len = got < 0 ? 0 : respond((size_t)got, true);
    if (len > 0)
        sendto(udp, out, len, 0, (struct sockaddr *)&client, client_len);
}

/* Answers the queries of a TCP connection until it is idle. */
static int serve_tcp(int client)
{
    const struct timeval idle = {IDLE, 0};
    setsockopt(client, SOL_SOCKET, SO_RCVTIMEO, &idle, sizeof idle);
    setsockopt(client, SOL_SOCKET, SO_SNDTIMEO, &idle, sizeof idle);
    while (recv(client, framed, 2, MSG_WAITALL) == 2) {
        const size_t asked = (size_t)framed[0] << 8 | framed[1];
        const size_t len = recv(client, query, asked, MSG_WAITALL) == (ssize_t)asked ? respond(asked, false) : 0;
        framed[0] = (uint8_t)(len >> 8);
        framed[1] = (uint8_t)len;
        if (len == 0 || send(client, framed, 2 + len, MSG_NOSIGNAL) != (ssize_t)(2 + len))
            break;
    }
    return 0;
}

static int open_socket(int type, const char *address, unsigned long port)
{
    struct sockaddr_in at = {.sin_family = AF_INET, .sin_port = htons((uint16_t)port)};
    const int on = 1, made = socket(AF_INET, type | SOCK_NONBLOCK, 0);
    errno = EINVAL;
    if (inet_pton(AF_INET, address, &at.sin_addr) != 1 || setsockopt(made, SOL_SOCKET, SO_REUSEADDR, &on, sizeof on) != 0 ||
        bind(made, (struct sockaddr *)&at, sizeof at) != 0 || (type == SOCK_STREAM && listen(made, 64) != 0))
        stop(address, strerror(errno));
    return made;
}

int main(int argc, char **argv)
{
    const char *address = argc > 3 ? argv[3] : "127.0.0.1";
    const unsigned long port = argc > 2 ? strtoul(argv[2], NULL, 10) : 0;
    if (port < 1 || port > 65535)
        stop("usage", "serve FILE PORT [ADDRESS]");
    read_zone(argv[1]);
    const int udp = open_socket(SOCK_DGRAM, address, port), tcp = open_socket(SOCK_STREAM, address, port);
    struct pollfd sockets[] = {{udp, POLLIN, 0}, {tcp, POLLIN, 0}};
    signal(SIGCHLD, SIG_IGN);
    while (poll(sockets, 2, -1) >= 0) {
        if (sockets[0].revents)
            serve_udp(udp);
        const int client = sockets[1].revents ? accept(tcp, NULL, NULL) : -1;
        if (client >= 0 && fork() == 0)
            return serve_tcp(client);
        if (client >= 0)
            close(client);
    }
    stop("poll", strerror(errno));
}
