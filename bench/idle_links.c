/* Opens LINKS links to PORT of 127.0.0.1, asks once over each for TARGET, and keeps all of them open and idle. Then VISITORS
 * visitors come, one after the other, each with a link of its own that it keeps too, and ask once. Prints the median and
 * the greatest time in milliseconds from a visitor's connect to its whole reply, and how many replies had status 200. */
#include <arpa/inet.h>
#include <netinet/in.h>
#include <netinet/tcp.h>
#include <stdio.h>
#include <stdlib.h>
#include <string.h>
#include <sys/socket.h>
#include <time.h>
#include <unistd.h>

static int port, pages;

/* Opens a link and asks once. The link stays open. */
static void ask(const char *target) {
    struct sockaddr_in there = {.sin_family = AF_INET, .sin_addr.s_addr = htonl(INADDR_LOOPBACK), .sin_port = htons(port)};
    int link = socket(AF_INET, SOCK_STREAM, 0), on = 1;
    struct timeval most = {.tv_sec = 60};
    char text[1100], reply[65536];
    size_t length = 0, wanted = 0;
    if (link < 0 || connect(link, (struct sockaddr *)&there, sizeof there)) return;
    setsockopt(link, IPPROTO_TCP, TCP_NODELAY, &on, sizeof on);
    setsockopt(link, SOL_SOCKET, SO_RCVTIMEO, &most, sizeof most);
    int size = snprintf(text, sizeof text, "GET %s HTTP/1.1\r\nHost: localhost\r\n\r\n", target);
    if (write(link, text, size) != size) return;
    while ((wanted == 0 || length < wanted) && length + 1 < sizeof reply) {
        ssize_t more = read(link, reply + length, sizeof reply - 1 - length);
        if (more <= 0) return;
        length += (size_t)more;
        reply[length] = 0;
        char *end = strstr(reply, "\r\n\r\n"), *body = strstr(reply, "Content-Length: ");
        if (wanted == 0 && end && body) wanted = (size_t)(end + 4 - reply) + (size_t)atol(body + 16);
    }
    if (atoi(reply + 9) == 200) pages++;
}

static int in_order(const void *left, const void *right) {
    double a = *(const double *)left, b = *(const double *)right;
    return (a > b) - (a < b);
}

int main(int count_of_words, char **words) {
    if (count_of_words != 5) return 2;
    port = atoi(words[1]);
    long links = atol(words[2]), visitors = atol(words[3]);
    double *times = calloc(visitors, sizeof *times);
    if (visitors < 1 || !times) return 2;
    for (long k = 0; k < links; k++) ask(words[4]);
    for (long k = 0; k < visitors; k++) {
        struct timespec before, after;
        clock_gettime(CLOCK_MONOTONIC, &before);
        ask(words[4]);
        clock_gettime(CLOCK_MONOTONIC, &after);
        times[k] = (after.tv_sec - before.tv_sec) * 1e3 + (after.tv_nsec - before.tv_nsec) / 1e6;
    }
    qsort(times, visitors, sizeof *times, in_order);
    printf("%.1f %.1f %d\n", times[visitors / 2], times[visitors - 1], pages);
    return 0;
}
