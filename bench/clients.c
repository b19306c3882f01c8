/* Sends requests from many clients at once: each of THREADS threads connects to PORT of 127.0.0.1, asks for one of the
 * targets that stand on the standard input, a line each, reads the reply, and begins again, until REQUESTS were sent in
 * all. With a fourth word each client keeps its link for as long as the server does; a request that meets the end of a
 * kept link is sent again over a new one, as browsers do. Prints how many replies a second came, how many had status 200,
 * and how many another one or none within a minute; and with a fourth word how many links were opened. */
#include <arpa/inet.h>
#include <netinet/in.h>
#include <netinet/tcp.h>
#include <pthread.h>
#include <stdatomic.h>
#include <stdio.h>
#include <stdlib.h>
#include <string.h>
#include <sys/socket.h>
#include <time.h>
#include <unistd.h>

enum { MOST_TARGETS = 4096, MOST_OF_LINE = 1024, MOST_OF_REPLY = 65536 };

static char *targets[MOST_TARGETS];
static long count_of_targets, requests;
static int port, keeps;
static atomic_long next_request, pages, others, links;

/* A new link; -1 where there is none. */
static int new_link(void) {
    struct sockaddr_in there = {.sin_family = AF_INET, .sin_addr.s_addr = htonl(INADDR_LOOPBACK), .sin_port = htons(port)};
    struct timeval most = {.tv_sec = 60};
    int link = socket(AF_INET, SOCK_STREAM, 0), on = 1;
    if (link < 0) return -1;
    setsockopt(link, IPPROTO_TCP, TCP_NODELAY, &on, sizeof on);
    setsockopt(link, SOL_SOCKET, SO_RCVTIMEO, &most, sizeof most);
    atomic_fetch_add(&links, 1);
    if (connect(link, (struct sockaddr *)&there, sizeof there) == 0) return link;
    close(link);
    return -1;
}

/* The status of the reply to one request over a link of its own; 0 where none came. */
static int ask(const char *target) {
    int link = new_link(), status = 0;
    if (link < 0) return 0;
    char text[MOST_OF_LINE + 64], reply[8192];
    int size = snprintf(text, sizeof text, "GET %s HTTP/1.0\r\n\r\n", target);
    if (write(link, text, size) == size) {
        ssize_t first = read(link, reply, sizeof reply - 1);
        if (first > 12) {
            reply[first] = 0;
            status = atoi(reply + 9);
            while (read(link, reply, sizeof reply) > 0) {}
        }
    }
    close(link);
    return status;
}

/* The status of the reply to one request over a link that goes on behind it, if the reply says so; 0 where none came. */
static int ask_on(int *link, const char *target) {
    char text[MOST_OF_LINE + 64], reply[MOST_OF_REPLY];
    int size = snprintf(text, sizeof text, "GET %s HTTP/1.1\r\nHost: localhost\r\n\r\n", target);
    size_t length = 0, wanted = 0;
    if (send(*link, text, size, MSG_NOSIGNAL) == size) {
        while ((wanted == 0 || length < wanted) && length + 1 < sizeof reply) {
            ssize_t more = read(*link, reply + length, sizeof reply - 1 - length);
            if (more <= 0) break;
            length += (size_t)more;
            reply[length] = 0;
            char *end = strstr(reply, "\r\n\r\n"), *body = strstr(reply, "Content-Length: ");
            if (wanted == 0 && end && body) wanted = (size_t)(end + 4 - reply) + (size_t)atol(body + 16);
        }
    }
    int whole = wanted > 0 && length >= wanted;
    if (!whole || strstr(reply, "\r\nConnection: close\r\n")) {
        close(*link);
        *link = -1;
    }
    return whole ? atoi(reply + 9) : 0;
}

static void *work(void *nothing) {
    int link = -1;
    (void)nothing;
    for (;;) {
        long k = atomic_fetch_add(&next_request, 1);
        if (k >= requests) break;
        const char *target = targets[k % count_of_targets];
        int status = 0;
        if (keeps) {
            int is_kept = link >= 0;
            if (link < 0) link = new_link();
            if (link >= 0) status = ask_on(&link, target);
            if (status == 0 && is_kept && (link = new_link()) >= 0) status = ask_on(&link, target);
        } else {
            status = ask(target);
        }
        atomic_fetch_add(status == 200 ? &pages : &others, 1);
    }
    if (link >= 0) close(link);
    return NULL;
}

int main(int count_of_words, char **words) {
    if (count_of_words < 4) return 2;
    port = atoi(words[1]);
    long threads = atol(words[2]);
    requests = atol(words[3]);
    keeps = count_of_words > 4;
    char line[MOST_OF_LINE];
    while (count_of_targets < MOST_TARGETS && fgets(line, sizeof line, stdin)) {
        line[strcspn(line, "\n")] = 0;
        targets[count_of_targets++] = strdup(line);
    }
    pthread_t *workers = calloc(threads, sizeof *workers);
    if (count_of_targets == 0 || threads < 1 || !workers) return 2;
    struct timespec before, after;
    clock_gettime(CLOCK_MONOTONIC, &before);
    for (long k = 0; k < threads; k++)
        if (pthread_create(&workers[k], NULL, work, NULL)) return 1;
    for (long k = 0; k < threads; k++) pthread_join(workers[k], NULL);
    clock_gettime(CLOCK_MONOTONIC, &after);
    double took = (after.tv_sec - before.tv_sec) + (after.tv_nsec - before.tv_nsec) / 1e9;
    printf("%.0f %ld %ld", requests / took, (long)pages, (long)others);
    if (keeps) printf(" %ld", (long)links);
    printf("\n");
    return 0;
}
