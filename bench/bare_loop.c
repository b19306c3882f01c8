/* Accepts links on a free port of 127.0.0.1, reads a request's head from each, sends one fixed reply and closes it: what a
 * server costs that does nothing. bench/serve.sh and bench/threads.sh compile it with `cc -O2` and compare `serve` with it.
 * Its first word says how many links it serves, its second in how many processes at once (1 if it is not given): then each
 * of them serves so many. Its third word says how many requests a link carries at most (1 if it is not given); it looks for
 * the end of a head and for nothing else, and what comes with it from the next request is lost. */
#include <arpa/inet.h>
#include <netinet/in.h>
#include <netinet/tcp.h>
#include <stdio.h>
#include <stdlib.h>
#include <string.h>
#include <sys/socket.h>
#include <unistd.h>

#define REPLY "HTTP/1.1 404 Not Found\r\nContent-Type: text/plain; charset=utf-8\r\nContent-Length: 8\r\nConnection: "
static const char reply[] = REPLY "close\r\n\r\nunknown\n", kept[] = REPLY "keep-alive\r\n\r\nunknown\n";

/* Reads until a head ends, or the link does. Says whether one came. */
static int read_head(int link) {
    char head[16384];
    size_t length = 0;
    while (length + 1 < sizeof head) {
        ssize_t more = read(link, head + length, sizeof head - 1 - length);
        if (more <= 0) return 0;
        length += (size_t)more;
        head[length] = 0;
        if (strstr(head, "\r\n\r\n")) return 1;
    }
    return 0;
}

int main(int count, char **words) {
    long links = count > 1 ? atol(words[1]) : 1000;
    long processes = count > 2 ? atol(words[2]) : 1;
    long requests = count > 3 ? atol(words[3]) : 1;
    int listener = socket(AF_INET, SOCK_STREAM, 0), on = 1;
    struct sockaddr_in here = {.sin_family = AF_INET, .sin_addr.s_addr = htonl(INADDR_LOOPBACK)};
    socklen_t size = sizeof here;
    if (listener < 0 || bind(listener, (struct sockaddr *)&here, size) || listen(listener, 128) ||
        getsockname(listener, (struct sockaddr *)&here, &size)) {
        perror("bare_loop");
        return 1;
    }
    fprintf(stderr, "listening on 127.0.0.1:%d\n", ntohs(here.sin_port));
    for (long more = 1; more < processes; more++)
        if (fork() == 0) break;
    for (long served = 0; served < links; served++) {
        int link = accept(listener, 0, 0);
        if (link < 0) {
            perror("bare_loop");
            return 1;
        }
        setsockopt(link, IPPROTO_TCP, TCP_NODELAY, &on, sizeof on);
        for (long left = requests - 1; left >= 0; left--) {
            if (!read_head(link)) break;
            ssize_t sent = left ? write(link, kept, sizeof kept - 1) : write(link, reply, sizeof reply - 1);
            if (sent < 0) perror("bare_loop");
        }
        shutdown(link, SHUT_WR);
        close(link);
    }
    return 0;
}
