/* Sends requests to a server on this machine over many connections at once, and times their replies, for
   bench/many.

   many PORT CONNECTIONS REQUESTS OFFSET HEAD [BODY]

   Each request is HEAD, an empty line and BODY, where each %d is the number of the request, which begins
   at OFFSET. Each connection sends one request, and the next once its reply is there. Prints a line for
   each status that came, then the seconds of all, then the microseconds of each request. */
#include <arpa/inet.h>
#include <netinet/tcp.h>
#include <stdio.h>
#include <stdlib.h>
#include <string.h>
#include <strings.h>
#include <sys/epoll.h>
#include <sys/socket.h>
#include <time.h>
#include <unistd.h>

struct client {
    int made;
    size_t filled;
    double before;
    char buffer[16384];
};

static double now(void) {
    struct timespec time;
    clock_gettime(CLOCK_MONOTONIC, &time);
    return time.tv_sec + time.tv_nsec / 1e9;
}

static void fail(const char *why) {
    perror(why);
    exit(1);
}

static int connected(int port) {
    struct sockaddr_in to = {.sin_family = AF_INET, .sin_port = htons(port), .sin_addr.s_addr = htonl(INADDR_LOOPBACK)};
    int made = socket(AF_INET, SOCK_STREAM, 0), yes = 1;
    if (made < 0 || connect(made, (struct sockaddr *)&to, sizeof to)) fail("connect");
    setsockopt(made, IPPROTO_TCP, TCP_NODELAY, &yes, sizeof yes);
    return made;
}

/* Sends request number `number`. It is short, so one write takes all of it. */
static void ask(struct client *client, char **words, int count, long number) {
    char body[4096] = "", out[8192];
    int length = count > 6 ? snprintf(body, sizeof body, words[6], number) : 0;
    size_t all = sprintf(out, words[5], number);
    if (count > 6) all += sprintf(out + all, "\r\nContent-Length: %d", length);
    all += sprintf(out + all, "\r\n\r\n%s", body);
    client->before = now();
    client->filled = 0;
    if (write(client->made, out, all) != (ssize_t)all) fail("write");
}

/* Takes what came, and returns the status of the reply once it is whole, else 0. */
static int take(struct client *client) {
    ssize_t came = read(client->made, client->buffer + client->filled, sizeof client->buffer - 1 - client->filled);
    if (came <= 0) fail("read");
    client->buffer[client->filled += came] = 0;
    char *end = strstr(client->buffer, "\r\n\r\n"), *length = strcasestr(client->buffer, "\r\nContent-Length:");
    if (!end) return 0;
    size_t all = end + 4 - client->buffer + (length && length < end ? strtoul(length + 17, NULL, 10) : 0);
    return client->filled < all ? 0 : atoi(client->buffer + 9);
}

int main(int count, char **words) {
    if (count < 6) return 2;
    int port = atoi(words[1]), came[1000] = {0}, poll = epoll_create1(0);
    long size = atol(words[2]), all = atol(words[3]), offset = atol(words[4]), asked = 0, done = 0;
    struct client *clients = calloc(size, sizeof *clients);
    struct epoll_event events[256];
    double *times = calloc(all, sizeof *times);
    for (long at = 0; at < size; at++) {
        clients[at].made = connected(port);
        struct epoll_event event = {.events = EPOLLIN, .data.ptr = clients + at};
        if (epoll_ctl(poll, EPOLL_CTL_ADD, clients[at].made, &event)) fail("epoll_ctl");
    }
    double start = now();
    for (; asked < size && asked < all; asked++) ask(clients + asked, words, count, offset + asked);
    while (done < all) {
        int ready = epoll_wait(poll, events, 256, -1);
        for (int at = 0; at < ready; at++) {
            struct client *client = events[at].data.ptr;
            int status = take(client);
            if (!status) continue;
            came[status % 1000]++;
            times[done++] = now() - client->before;
            if (asked < all) ask(client, words, count, offset + asked++);
        }
    }
    double spent = now() - start;
    for (int status = 0; status < 1000; status++)
        if (came[status]) printf("status %d %d\n", status, came[status]);
    printf("seconds %.6f\n", spent);
    for (long at = 0; at < all; at++) printf("%.1f\n", times[at] * 1e6);
    return 0;
}
