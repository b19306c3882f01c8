/* Loaded before a program (LD_PRELOAD), it lets each sync of a file take a second, as that of a slow disk would. */
#include <unistd.h>

int fdatasync(int file) {
    (void)file;
    sleep(1);
    return 0;
}

int fsync(int file) { return fdatasync(file); }
