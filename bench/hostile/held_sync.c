/* Has fdatasync of the program that it is preloaded before wait as long as the file of the word HOLD is there. */
#define _GNU_SOURCE
#include <stdlib.h>
#include <sys/syscall.h>
#include <unistd.h>

int fdatasync(int file) {
    const char *held = getenv("HOLD");
    while (held && access(held, F_OK) == 0) usleep(5000);
    return (int)syscall(SYS_fdatasync, file);
}
