/* Times queries to name servers over UDP on the loopback interface: each query is sent when the response to the one before has come.
 *
 *     ask ROUNDS QUERIES NAME PORT PID [NAME PORT PID ..]
 *
 * In each round each server is asked in turn, QUERIES times for each kind of question. Prints for each server and kind the least time
 * of a round and the least processor time of the server, each in nanoseconds for one query, and the octets of the response. Ends with
 * status 1 if a response isn't as it has to be. The zone is that of bindings/c/tests. */
#define _GNU_SOURCE
#include <arpa/inet.h>
#include <dirent.h>
#include <stdint.h>
#include <stdio.h>
#include <stdlib.h>
#include <string.h>
#include <sys/socket.h>
#include <time.h>
#include <unistd.h>

enum { SERVERS = 8, KINDS = 4, ROOM = 4096 };

/* A kind of question: a name in wire format, a type, whether the query has EDNS, and the rcode and number of answers that it gets. */
static const struct kind {
    const char *what, *name;
    uint8_t type, has_opt, rcode, answers;
} kinds[KINDS] = {
    {"an address", "\4mail\7example\3org", 1, 0, 0, 1},
    {"an alias and its address", "\3www\7example\3org", 1, 0, 0, 2},
    {"no such name, EDNS", "\4none\7example\3org", 1, 1, 3, 0},
    {"too many addresses, EDNS", "\4many\7example\3org", 28, 1, 0, 0},
};

/* What was measured of a server for one kind. */
struct least {
    double taken, used;
    size_t len;
};

static struct server {
    const char *name, *pid;
    int socket;
    struct least least[KINDS];
} servers[SERVERS];

static void stop(const char *server, const char *why)
{
    fprintf(stderr, "ask: %s: %s\n", server, why);
    exit(1);
}

static double now(void)
{
    struct timespec t;
    clock_gettime(CLOCK_MONOTONIC, &t);
    return (double)t.tv_sec * 1e9 + (double)t.tv_nsec;
}

/* The processor time in nanoseconds that all threads of a process have used. */
static double used_by(const char *pid)
{
    char path[300];
    double sum = 0, used;
    snprintf(path, sizeof path, "/proc/%s/task", pid);
    DIR *tasks = opendir(path);
    for (struct dirent *task; tasks && (task = readdir(tasks));) {
        snprintf(path, sizeof path, "/proc/%s/task/%s/schedstat", pid, task->d_name);
        FILE *file = task->d_name[0] == '.' ? NULL : fopen(path, "r");
        if (file && fscanf(file, "%lf", &used) == 1)
            sum += used;
        if (file)
            fclose(file);
    }
    if (tasks)
        closedir(tasks);
    return sum;
}

/* Writes a query. Returns its length. */
static size_t write_query(const struct kind *kind, uint16_t id, uint8_t *out)
{
    static const uint8_t opt[] = {0, 0, 41, 0x04, 0xd0, 0, 0, 0, 0, 0, 0};
    const uint8_t header[12] = {(uint8_t)(id >> 8), (uint8_t)id, 0, 0, 0, 1, 0, 0, 0, 0, 0, kind->has_opt};
    const uint8_t rest[4] = {0, kind->type, 0, 1};
    const size_t name_len = strlen(kind->name) + 1, opt_len = kind->has_opt ? sizeof opt : 0;
    memcpy(out, header, sizeof header);
    memcpy(out + sizeof header, kind->name, name_len);
    memcpy(out + sizeof header + name_len, rest, sizeof rest);
    memcpy(out + sizeof header + name_len + sizeof rest, opt, opt_len);
    return sizeof header + name_len + sizeof rest + opt_len;
}

/* Asks a server once. Returns the length of the response. */
static size_t ask(const struct server *server, const struct kind *kind, uint16_t id)
{
    uint8_t query[512], response[ROOM];
    const size_t len = write_query(kind, id, query);
    if (send(server->socket, query, len, 0) != (ssize_t)len)
        stop(server->name, "no query can be sent");
    const ssize_t got = recv(server->socket, response, sizeof response, 0);
    if (got < 12 || memcmp(response, query, 2) != 0 || (response[2] & 0x80) == 0)
        stop(server->name, "no response to the query");
    if ((response[3] & 15) != kind->rcode || response[6] != 0 || response[7] != kind->answers)
        stop(server->name, "another response");
    return (size_t)got;
}

/* Asks a server many times, and keeps the least times for one. */
static void ask_often(struct server *server, int kind, unsigned queries)
{
    struct least *least = &server->least[kind];
    const double used = used_by(server->pid), start = now();
    for (unsigned n = 0; n < queries; n++)
        least->len = ask(server, &kinds[kind], (uint16_t)n);
    const double taken = (now() - start) / queries, cost = (used_by(server->pid) - used) / queries;
    if (least->taken == 0 || taken < least->taken)
        least->taken = taken;
    if (least->used == 0 || cost < least->used)
        least->used = cost;
}

static int connect_to(const char *port)
{
    struct sockaddr_in at = {.sin_family = AF_INET, .sin_port = htons((uint16_t)atoi(port)), .sin_addr.s_addr = htonl(INADDR_LOOPBACK)};
    const struct timeval patience = {5, 0};
    const int made = socket(AF_INET, SOCK_DGRAM, 0);
    if (connect(made, (struct sockaddr *)&at, sizeof at) != 0 ||
        setsockopt(made, SOL_SOCKET, SO_RCVTIMEO, &patience, sizeof patience) != 0)
        stop(port, "no socket");
    return made;
}

int main(int argc, char **argv)
{
    const int count = (argc - 3) / 3;
    if (argc < 6 || (argc - 3) % 3 || count > SERVERS)
        stop("usage", "ask ROUNDS QUERIES NAME PORT PID ..");
    for (int i = 0; i < count; i++)
        servers[i] = (struct server){.name = argv[3 + 3 * i], .pid = argv[5 + 3 * i], .socket = connect_to(argv[4 + 3 * i])};
    for (int round = atoi(argv[1]); round > 0; round--)
        for (int kind = 0; kind < KINDS; kind++)
            for (int i = 0; i < count; i++)
                ask_often(&servers[i], kind, (unsigned)atoi(argv[2]));
    for (int kind = 0; kind < KINDS; kind++)
        for (int i = 0; i < count; i++) {
            const struct least *least = &servers[i].least[kind];
            printf("%s|%s|%.0f|%.0f|%zu\n", kinds[kind].what, servers[i].name, least->taken, least->used, least->len);
        }
    return 0;
}
