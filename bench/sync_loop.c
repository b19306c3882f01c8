/* What a journal's disk can do: COUNT times a write of SIZE bytes behind the file's end, a sync, a write of one byte and a
   sync, and nothing else. With a fourth word so many processes do that side by side, each COUNT times in a file of its own.
   Prints how many such rounds a second went, of all together. */
#include <fcntl.h>
#include <stdio.h>
#include <stdlib.h>
#include <string.h>
#include <sys/wait.h>
#include <time.h>
#include <unistd.h>

/* So many rounds in this file. Says whether it went well. */
static int rounds(const char *name, long count, long size) {
    char *piece = malloc(size);
    int file = open(name, O_RDWR | O_CREAT | O_TRUNC, 0600);
    if (!piece || file < 0) return 0;
    memset(piece, 7, size);
    for (long k = 0; k < count; k++) {
        if (pwrite(file, piece, size, k * size + 1) != size || fdatasync(file)) return 0;
        if (pwrite(file, "\1", 1, k * size) != 1 || fdatasync(file)) return 0;
    }
    return 1;
}

int main(int count_of_words, char **words) {
    if (count_of_words < 4) return 2;
    long count = atol(words[2]), size = atol(words[3]);
    long processes = count_of_words > 4 ? atol(words[4]) : 1;
    struct timespec before, after;
    clock_gettime(CLOCK_MONOTONIC, &before);
    for (long k = 0; k < processes; k++) {
        char name[4096];
        snprintf(name, sizeof name, "%s.%ld", words[1], k);
        pid_t child = fork();
        if (child < 0) return 1;
        if (child == 0) _exit(rounds(name, count, size) ? 0 : 1);
    }
    for (long k = 0; k < processes; k++) {
        int status;
        if (wait(&status) < 0 || status != 0) return 1;
    }
    clock_gettime(CLOCK_MONOTONIC, &after);
    double took = (after.tv_sec - before.tv_sec) + (after.tv_nsec - before.tv_nsec) / 1e9;
    printf("%.0f\n", processes * count / took);
    return 0;
}
