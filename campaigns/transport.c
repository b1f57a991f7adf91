/* The network for programs that have none: sends a query to a server on this machine, and prints what comes back.
 *
 *     transport udp PORT < DIGITS       sends it over UDP, and prints the response in hexadecimal digits
 *     transport tcp PORT < DIGITS       the same over TCP (RFC 1035 section 4.2.2)
 *     transport stream PORT < DIGITS    sends it over TCP, and copies all that the server sends, until it says nothing for two seconds
 *
 * Standard input has the query in hexadecimal digits. Ends with status 1 if the server doesn't respond: for `udp` and `tcp` within ten
 * seconds. */
#define _GNU_SOURCE
#include <arpa/inet.h>
#include <stdint.h>
#include <stdio.h>
#include <stdlib.h>
#include <string.h>
#include <sys/socket.h>
#include <sys/time.h>
#include <unistd.h>

enum { MOST = 65535 };

static void stop(const char *why)
{
    fprintf(stderr, "transport: %s\n", why);
    exit(1);
}

/* Reads octets from hexadecimal digits on standard input. Returns their number. */
static size_t read_digits(uint8_t *octets)
{
    size_t len = 0;
    unsigned octet;
    while (len < MOST && scanf("%2x", &octet) == 1)
        octets[len++] = (uint8_t)octet;
    return len;
}

static void print_digits(const uint8_t *octets, size_t len)
{
    for (size_t i = 0; i < len; i++)
        printf("%02x", octets[i]);
    printf("\n");
}

/* A socket of this type, connected to a port of this machine, whose reads end after `seconds`. */
static int connected(int type, const char *port, int seconds)
{
    struct sockaddr_in to = {.sin_family = AF_INET, .sin_port = htons((uint16_t)atoi(port))};
    struct timeval wait = {.tv_sec = seconds};
    int it = socket(AF_INET, type, 0);
    to.sin_addr.s_addr = htonl(INADDR_LOOPBACK);
    if (it < 0 || setsockopt(it, SOL_SOCKET, SO_RCVTIMEO, &wait, sizeof wait) || connect(it, (struct sockaddr *)&to, sizeof to))
        stop("can't connect");
    return it;
}

/* Sends a message after its length in two octets. */
static void send_frame(int server, const uint8_t *query, size_t len)
{
    uint8_t frame[2 + MOST] = {(uint8_t)(len >> 8), (uint8_t)len};
    memcpy(frame + 2, query, len);
    if (write(server, frame, len + 2) != (ssize_t)(len + 2))
        stop("can't send");
}

/* Reads exactly `len` octets. */
static void read_whole(int server, uint8_t *octets, size_t len)
{
    if (recv(server, octets, len, MSG_WAITALL) != (ssize_t)len)
        stop("no response");
}

int main(int count, char **words)
{
    static uint8_t query[MOST], response[MOST];
    size_t len = read_digits(query);
    if (count != 3)
        stop("usage: transport udp|tcp|stream PORT");
    if (!strcmp(words[1], "udp")) {
        int server = connected(SOCK_DGRAM, words[2], 10);
        ssize_t got = send(server, query, len, 0) == (ssize_t)len ? recv(server, response, MOST, 0) : -1;
        if (got < 0)
            stop("no response");
        print_digits(response, (size_t)got);
    } else if (!strcmp(words[1], "tcp")) {
        int server = connected(SOCK_STREAM, words[2], 10);
        send_frame(server, query, len);
        read_whole(server, response, 2);
        len = (size_t)response[0] << 8 | response[1];
        read_whole(server, response, len);
        print_digits(response, len);
    } else if (!strcmp(words[1], "stream")) {
        int server = connected(SOCK_STREAM, words[2], 2);
        size_t sent = 0;
        ssize_t got;
        send_frame(server, query, len);
        for (; (got = recv(server, response, MOST, 0)) > 0; sent += (size_t)got)
            if (fwrite(response, 1, (size_t)got, stdout) != (size_t)got)
                stop("can't write");
        if (sent == 0)
            stop("no response");
    } else
        stop("usage: transport udp|tcp|stream PORT");
    return 0;
}
