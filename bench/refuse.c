/* Preloaded into a program (bench/growths.py): the call of malloc, calloc or realloc with the number REFUSE is refused, and the number of
   all calls is written to the descriptor TELL in the end. With REFUSE=0 no call is refused. */
#define _GNU_SOURCE
#include <errno.h>
#include <stdatomic.h>
#include <stdio.h>
#include <stdlib.h>
#include <unistd.h>

extern void *__libc_malloc(size_t);
extern void *__libc_calloc(size_t, size_t);
extern void *__libc_realloc(void *, size_t);

static atomic_ulong calls;
static unsigned long refused;
static int tell;

__attribute__((constructor)) static void begin(void)
{
    const char *number = getenv("REFUSE"), *descriptor = getenv("TELL");
    atomic_store(&calls, 0);
    refused = number ? strtoul(number, NULL, 10) : 0;
    tell = descriptor ? atoi(descriptor) : 2;
}

__attribute__((destructor)) static void finish(void)
{
    dprintf(tell, "%lu\n", atomic_load(&calls));
}

static int is_refused(void)
{
    if (atomic_fetch_add(&calls, 1) + 1 != refused)
        return 0;
    errno = ENOMEM;
    return 1;
}

void *malloc(size_t bytes) { return is_refused() ? NULL : __libc_malloc(bytes); }

void *calloc(size_t count, size_t bytes) { return is_refused() ? NULL : __libc_calloc(count, bytes); }

void *realloc(void *old, size_t bytes) { return is_refused() ? NULL : __libc_realloc(old, bytes); }
