/* Preloaded into a program (bench/disk_faults.py): of the calls of pread, pwrite and fdatasync that with the number FAIL fails, and the
   number of all of them is written to the descriptor TELL in the end. With FAIL=0 none fails. */
#define _GNU_SOURCE
#include <errno.h>
#include <stdio.h>
#include <stdlib.h>
#include <sys/syscall.h>
#include <unistd.h>

static unsigned long calls, failing;
static int tell;

__attribute__((constructor)) static void begin(void)
{
    const char *number = getenv("FAIL"), *descriptor = getenv("TELL");
    failing = number ? strtoul(number, NULL, 10) : 0;
    tell = descriptor ? atoi(descriptor) : 2;
}

__attribute__((destructor)) static void finish(void)
{
    dprintf(tell, "%lu\n", calls);
}

static int fails(void)
{
    if (++calls != failing)
        return 0;
    errno = EIO;
    return 1;
}

ssize_t pread64(int file, void *bytes, size_t count, off64_t at) { return fails() ? -1 : syscall(SYS_pread64, file, bytes, count, at); }

ssize_t pwrite64(int file, const void *bytes, size_t count, off64_t at) { return fails() ? -1 : syscall(SYS_pwrite64, file, bytes, count, at); }

ssize_t pread(int file, void *bytes, size_t count, off_t at) { return pread64(file, bytes, count, at); }

ssize_t pwrite(int file, const void *bytes, size_t count, off_t at) { return pwrite64(file, bytes, count, at); }

int fdatasync(int file) { return fails() ? -1 : (int)syscall(SYS_fdatasync, file); }
