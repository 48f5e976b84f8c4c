/* Writes to the file of the word SYNCED, at each sync of the program that it is preloaded before, which file stood on the disk up to
   which length: its number and that length, as of the moment before the sync. */
#define _GNU_SOURCE
#include <fcntl.h>
#include <stdio.h>
#include <stdlib.h>
#include <sys/stat.h>
#include <sys/syscall.h>
#include <unistd.h>

static int synced(int file, long call) {
    struct stat before;
    int known = fstat(file, &before) == 0 && S_ISREG(before.st_mode);
    int done = (int)syscall(call, file);
    const char *name = getenv("SYNCED");
    if (done == 0 && known && name) {
        char line[64];
        int length = snprintf(line, sizeof line, "%20llu %20llu\n", (unsigned long long)before.st_ino, (unsigned long long)before.st_size);
        int told = open(name, O_WRONLY | O_CREAT | O_CLOEXEC, 0600);
        if (told >= 0) {
            if (pwrite(told, line, (size_t)length, 0) != length) abort();
            close(told);
        }
    }
    return done;
}

int fdatasync(int file) { return synced(file, SYS_fdatasync); }

int fsync(int file) { return synced(file, SYS_fsync); }
