/* Sends requests to a server on this machine and times their replies, for bench/load.

   load PORT REQUESTS each|batch SIZE OFFSET HEAD [BODY]

   Each request is HEAD, an empty line and BODY, where each %d is the number of the request, which begins
   at OFFSET. `batch` writes SIZE requests at once and reads their replies before the next; `each` opens a
   connection for each request, and SIZE is not looked at. Prints a line for each status that came, then
   the seconds of all, then with SIZE 1 the microseconds of each request. */
#include <arpa/inet.h>
#include <netinet/tcp.h>
#include <stdio.h>
#include <stdlib.h>
#include <string.h>
#include <strings.h>
#include <sys/socket.h>
#include <time.h>
#include <unistd.h>

static char buffer[1 << 20];
static size_t filled, used;

static double now(void) {
    struct timespec time;
    clock_gettime(CLOCK_MONOTONIC, &time);
    return time.tv_sec + time.tv_nsec / 1e9;
}

static void fail(const char *why) {
    perror(why);
    exit(1);
}

static int connected(int port) {
    struct sockaddr_in to = {.sin_family = AF_INET, .sin_port = htons(port), .sin_addr.s_addr = htonl(INADDR_LOOPBACK)};
    int made = socket(AF_INET, SOCK_STREAM, 0), yes = 1;
    if (made < 0 || connect(made, (struct sockaddr *)&to, sizeof to)) fail("connect");
    setsockopt(made, IPPROTO_TCP, TCP_NODELAY, &yes, sizeof yes);
    filled = used = 0;
    return made;
}

static void take(int from) {
    if (used) memmove(buffer, buffer + used, filled -= used), used = 0;
    ssize_t came = filled + 1 < sizeof buffer ? read(from, buffer + filled, sizeof buffer - 1 - filled) : -1;
    if (came <= 0) fail("read");
    buffer[filled += came] = 0;
}

/* Takes one reply, and returns its status. */
static int reply(int from) {
    char *end, *length;
    while (!(filled > used && (end = strstr(buffer + used, "\r\n\r\n")))) take(from);
    int status = atoi(buffer + used + 9);
    length = strcasestr(buffer + used, "\r\nContent-Length:");
    size_t all = end + 4 - (buffer + used) + (length && length < end ? strtoul(length + 17, NULL, 10) : 0);
    while (filled - used < all) take(from);
    used += all;
    return status;
}

static void put(int to, const char *from, size_t length) {
    while (length) {
        ssize_t gone = write(to, from, length);
        if (gone <= 0) fail("write");
        from += gone, length -= gone;
    }
}

/* Writes request number `number`, and returns its length. */
static size_t request(char *to, char **words, int count, long number) {
    char body[4096] = "";
    int length = count > 7 ? snprintf(body, sizeof body, words[7], number) : 0;
    size_t head = sprintf(to, words[6], number);
    if (count > 7) head += sprintf(to + head, "\r\nContent-Length: %d", length);
    return head + sprintf(to + head, "\r\n\r\n%s", body);
}

int main(int count, char **words) {
    if (count < 7) return 2;
    int port = atoi(words[1]), each = !strcmp(words[3], "each"), came[1000] = {0}, made = each ? -1 : connected(port);
    long all = atol(words[2]), batch = each ? 1 : atol(words[4]), offset = atol(words[5]);
    char *out = malloc(batch * 8192);
    double *times = calloc(all, sizeof *times), start = now();
    for (long done = 0; done < all;) {
        long some = all - done < batch ? all - done : batch;
        size_t length = 0;
        for (long at = 0; at < some; at++) length += request(out + length, words, count, offset + done + at);
        double before = now();
        if (each) made = connected(port);
        put(made, out, length);
        for (long at = 0; at < some; at++) came[reply(made) % 1000]++;
        if (each) close(made);
        times[done] = now() - before;
        done += some;
    }
    double spent = now() - start;
    for (int status = 0; status < 1000; status++)
        if (came[status]) printf("status %d %d\n", status, came[status]);
    printf("seconds %.6f\n", spent);
    for (long at = 0; batch == 1 && at < all; at++) printf("%.1f\n", times[at] * 1e6);
    return 0;
}
