/* Takes the time of the rounds of work that the static library alp_bench does, beside plain copies.
 *
 *   measure locks        asks and releases a second beside 16, 256 and 1,024 held resources, and the nanoseconds of an ask for 16 more
 *                        by who holds so many: the middle one of a thousand
 *   measure waiting      nanoseconds of a call that waits at a server, of a release for each call that it wakes, and of a collect, where
 *                        each of 63 transactions holds 16, 256 and 1,008 locks: the best of sixteen rounds
 *   measure frames       encodes and decodes a second of a write of 16 pages, and plain copies of as many bytes
 *   measure checkpoint   nanoseconds of a commit of 16 images and of a checkpoint of them, with 512 and with 65,536 home pages
 *   measure volume       fetches and changed pages a second of volumes of 10, 1,000 and 4,096 files, round all files and round ten of
 *                        them, and the time to read each whole
 *   measure buffers      copies of pages out of buffers, and plain copies
 *   measure counts       no time: what each function of the library answers, for few rounds
 *
 * The library has no clock. At each moment that is to be seen it asks for more memory than there is, 2^40 bytes and the number of the
 * kind of work that is done since the moment before. The linker puts `__wrap_malloc` in the place of `malloc` (--wrap=malloc), which
 * takes the time there and gives no memory; number 0 only starts the clock. bench/measure.sh builds it. */
#include <stdint.h>
#include <stdio.h>
#include <stdlib.h>
#include <string.h>
#include <time.h>

#define KINDS 8
#define MOST_TIMES 4096
#define PAGE_BYTES 512

uint64_t alp_bench_locks(uint32_t held);
uint64_t alp_bench_waiting(uint32_t held);
uint64_t alp_bench_frames(uint32_t rounds);
uint64_t alp_bench_log(uint32_t home, uint32_t rounds);
uint64_t alp_bench_volume(uint32_t files, uint32_t home, uint32_t rounds);
uint64_t alp_bench_buffers(uint32_t rounds);

/* The times of one kind of work, in nanoseconds. */
struct times {
    unsigned count;
    uint64_t each[MOST_TIMES];
};

static struct times work[KINDS];
static uint64_t before;

static uint64_t nanoseconds(void) {
    struct timespec now;
    clock_gettime(CLOCK_MONOTONIC, &now);
    return (uint64_t)now.tv_sec * 1000000000u + (uint64_t)now.tv_nsec;
}

void *__real_malloc(size_t bytes);
void *__wrap_malloc(size_t bytes);

void *__wrap_malloc(size_t bytes) {
    if (bytes >> 40 == 0) return __real_malloc(bytes);
    struct times *kind = &work[bytes % KINDS];
    uint64_t now = nanoseconds();
    if (bytes % KINDS != 0 && kind->count < MOST_TIMES) kind->each[kind->count++] = now - before;
    before = nanoseconds();
    return NULL;
}

/* Ends the program where a function of the library did not do what it was asked. */
static void must(uint64_t found, uint64_t wanted, const char *what) {
    if (found == wanted) return;
    fprintf(stderr, "measure: %s: %llu of %llu\n", what, (unsigned long long)found, (unsigned long long)wanted);
    exit(1);
}

static void forget(void) {
    for (unsigned kind = 0; kind < KINDS; kind++) work[kind].count = 0;
}

static int by_size(const void *left, const void *right) {
    uint64_t a = *(const uint64_t *)left, b = *(const uint64_t *)right;
    return (a > b) - (a < b);
}

/* The least, the middle one and the sum of the times of a kind of work. */
static uint64_t least(unsigned kind) {
    qsort(work[kind].each, work[kind].count, sizeof work[kind].each[0], by_size);
    return work[kind].each[0];
}

static uint64_t middle(unsigned kind) {
    qsort(work[kind].each, work[kind].count, sizeof work[kind].each[0], by_size);
    return work[kind].each[work[kind].count / 2];
}

static uint64_t sum(unsigned kind) {
    uint64_t all = 0;
    for (unsigned at = 0; at < work[kind].count; at++) all += work[kind].each[at];
    return all;
}

static double rate(uint64_t count, unsigned kind) {
    return (double)count * 1e9 / (double)sum(kind);
}

/* So many plain copies of as many bytes, in turn out of so many places, each into memory that is new, or that stands. Answers their
 * nanoseconds. */
static uint64_t copies(unsigned rounds, size_t bytes, unsigned places, int is_new) {
    unsigned char *from = malloc(bytes * places), *to = malloc(bytes);
    volatile unsigned char seen = 0;
    if (from == NULL || to == NULL) exit(1);
    memset(from, 7, bytes * places);
    uint64_t start = nanoseconds();
    for (unsigned round = 0, place = 0; round < rounds; round++) {
        unsigned char *into = is_new ? malloc(bytes) : to;
        if (into == NULL) exit(1);
        memcpy(into, from + bytes * place, bytes);
        seen = (unsigned char)(seen + into[round % PAGE_BYTES]);
        if (++place == places) place = 0;
        if (is_new) free(into);
    }
    uint64_t took = nanoseconds() - start;
    free(from);
    free(to);
    return took;
}

static void locks(void) {
    static const uint32_t sizes[] = { 16, 256, 1024 };
    for (unsigned at = 0; at < 3; at++) {
        forget();
        must(alp_bench_locks(sizes[at]), 20000 + 100 + 1000, "locks that are granted");
        printf("locks, %u held: %.0f asks and releases of one a second, %.0f of %u a second; %llu nanoseconds an ask of 16 by their holder\n",
               sizes[at], rate(20000, 1), rate(100, 2), sizes[at], (unsigned long long)middle(3));
    }
}

static void waiting(void) {
    static const uint32_t sizes[] = { 16, 256, 1008 };
    for (unsigned at = 0; at < 3; at++) {
        forget();
        must(alp_bench_waiting(sizes[at]), 16 * 63, "calls that wait and are collected");
        printf("waiting, %u held by each of 63: %llu nanoseconds an ask that waits, %llu of a release for each that it wakes, %llu a collect\n",
               sizes[at], (unsigned long long)(least(1) / 63), (unsigned long long)(least(2) / 63), (unsigned long long)(least(3) / 63));
    }
}

static void frames(void) {
    const uint32_t rounds = 2000;
    forget();
    uint64_t bytes = alp_bench_frames(rounds) / rounds;
    must(bytes > 16 * PAGE_BYTES, 1, "frames of 16 pages");
    double plain = (double)rounds * 1e9 / (double)copies(rounds, bytes, 1, 1);
    printf("encode: %.0f requests a second, %.0f bytes a second\n", rate(rounds, 1), rate(rounds * bytes, 1));
    printf("decode: %.0f requests a second, %.0f bytes a second\n", rate(rounds, 2), rate(rounds * bytes, 2));
    printf("copy: %.0f requests a second, %.0f bytes a second\n", plain, plain * (double)bytes);
}

static void checkpoint(void) {
    static const uint32_t sizes[] = { 512, 65536 };
    const uint32_t rounds = 100;
    for (unsigned at = 0; at < 2; at++) {
        forget();
        must(alp_bench_log(sizes[at], rounds), rounds, "commits with their checkpoints");
        printf("log, %u home pages: %llu nanoseconds a commit of 16 images, %llu a checkpoint of them\n", sizes[at],
               (unsigned long long)(sum(1) / rounds), (unsigned long long)(sum(2) / rounds));
    }
}

static void volume(void) {
    static const uint32_t sizes[][2] = { { 10, 512 }, { 10, 65536 }, { 1000, 65536 }, { 4096, 65536 } };
    const uint32_t rounds = 20000;
    for (unsigned at = 0; at < 4; at++) {
        forget();
        must(alp_bench_volume(sizes[at][0], sizes[at][1], rounds), rounds, "fetches and changes");
        printf("volume, %u files, %u home pages: %.0f fetches a second, of ten files %.0f\n", sizes[at][0], sizes[at][1],
               rate(rounds, 1), rate(rounds, 2));
        printf("  changed pages: %.0f a second, of ten files %.0f\n", rate(rounds, 3), rate(rounds, 4));
        printf("  reading all of it: %llu microseconds\n", (unsigned long long)(sum(5) / 1000));
    }
}

static void buffers(void) {
    const uint32_t rounds = 1000000;
    forget();
    must(alp_bench_buffers(rounds), rounds, "pages in buffers");
    printf("copies out of a page buffer: %llu picoseconds, plain copies: %llu\n", (unsigned long long)(sum(1) / (rounds / 1000)),
           (unsigned long long)(copies(rounds, PAGE_BYTES, 256, 0) / (rounds / 1000)));
}

/* Nothing of a time, so the same on each machine. */
static void counts(void) {
    printf("locks: %llu\n", (unsigned long long)alp_bench_locks(16));
    printf("waiting: %llu\n", (unsigned long long)alp_bench_waiting(16));
    printf("frames: %llu\n", (unsigned long long)alp_bench_frames(3));
    printf("log: %llu\n", (unsigned long long)alp_bench_log(512, 3));
    printf("volume: %llu\n", (unsigned long long)alp_bench_volume(20, 512, 30));
    printf("buffers: %llu\n", (unsigned long long)alp_bench_buffers(300));
}

int main(int words, char **word) {
    static const struct {
        const char *name;
        void (*measure)(void);
    } commands[] = { { "locks", locks },   { "waiting", waiting }, { "frames", frames }, { "checkpoint", checkpoint },
                     { "volume", volume }, { "buffers", buffers }, { "counts", counts } };
    for (unsigned at = 0; words == 2 && at < sizeof commands / sizeof commands[0]; at++) {
        if (strcmp(word[1], commands[at].name) != 0) continue;
        commands[at].measure();
        return 0;
    }
    fprintf(stderr, "usage: measure locks|waiting|frames|checkpoint|volume|buffers|counts\n");
    return 1;
}
