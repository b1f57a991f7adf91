/* Serves a zone by a program that has no network, over UDP and TCP on this machine.
 *
 *     serve PORT PROGRAM ZONE
 *
 * For each query PROGRAM is run with `udp` or `tcp` and ZONE as its words, and gets the query in hexadecimal digits. It prints the response
 * in the same form, or an empty line if there is none. Runs until it is killed. */
#define _GNU_SOURCE
#include <arpa/inet.h>
#include <signal.h>
#include <stdint.h>
#include <stdio.h>
#include <stdlib.h>
#include <string.h>
#include <sys/prctl.h>
#include <sys/socket.h>
#include <unistd.h>

enum { MOST = 65535 };

static void stop(const char *why)
{
    fprintf(stderr, "serve: %s\n", why);
    exit(1);
}

/* The response to a query: the number of its octets, or 0 if there is none. */
static size_t answer(char **words, const char *how, const uint8_t *query, size_t len, uint8_t *response)
{
    static char command[3 * MOST];
    size_t end = (size_t)sprintf(command, "printf '%%s\\n' ");
    size_t got = 0;
    unsigned octet;
    FILE *program;
    for (size_t i = 0; i < len; i++)
        end += (size_t)sprintf(command + end, "%02x", query[i]);
    snprintf(command + end, sizeof command - end, " | '%s' %s '%s'", words[2], how, words[3]);
    program = popen(command, "r");
    if (program == NULL)
        return 0;
    while (got < MOST && fscanf(program, "%2x", &octet) == 1)
        response[got++] = (uint8_t)octet;
    pclose(program);
    return got;
}

/* A socket of this type at a port of this machine. */
static int bound(int type, const char *port)
{
    struct sockaddr_in at = {.sin_family = AF_INET, .sin_port = htons((uint16_t)atoi(port))};
    int again = 1, it = socket(AF_INET, type, 0);
    at.sin_addr.s_addr = htonl(INADDR_LOOPBACK);
    if (it < 0 || setsockopt(it, SOL_SOCKET, SO_REUSEADDR, &again, sizeof again) || bind(it, (struct sockaddr *)&at, sizeof at))
        stop("can't listen");
    return it;
}

static void serve_udp(char **words, int server)
{
    static uint8_t query[MOST], response[MOST];
    for (;;) {
        struct sockaddr_in from;
        socklen_t size = sizeof from;
        ssize_t got = recvfrom(server, query, MOST, 0, (struct sockaddr *)&from, &size);
        size_t len = got < 0 ? 0 : answer(words, "udp", query, (size_t)got, response);
        if (len > 0)
            sendto(server, response, len, 0, (struct sockaddr *)&from, size);
    }
}

/* Answers the queries of a connection, each after its length in two octets (RFC 1035 section 4.2.2). */
static void serve_connection(char **words, int client)
{
    static uint8_t query[MOST], frame[2 + MOST];
    uint8_t size[2];
    while (recv(client, size, 2, MSG_WAITALL) == 2) {
        size_t len = (size_t)size[0] << 8 | size[1];
        if (recv(client, query, len, MSG_WAITALL) != (ssize_t)len)
            break;
        len = answer(words, "tcp", query, len, frame + 2);
        frame[0] = (uint8_t)(len >> 8);
        frame[1] = (uint8_t)len;
        if (len == 0 || write(client, frame, len + 2) != (ssize_t)(len + 2))
            break;
    }
    close(client);
}

int main(int count, char **words)
{
    int udp, tcp;
    if (count != 4)
        stop("usage: serve PORT PROGRAM ZONE");
    udp = bound(SOCK_DGRAM, words[1]);
    tcp = bound(SOCK_STREAM, words[1]);
    if (listen(tcp, 16))
        stop("can't listen");
    if (fork() == 0) {
        prctl(PR_SET_PDEATHSIG, SIGTERM);
        serve_udp(words, udp);
    }
    for (;;) {
        int client = accept(tcp, NULL, NULL);
        if (client >= 0)
            serve_connection(words, client);
    }
}
