// Calls the library many times with one document, whose answers have to be equal:
//
//   calls repeat COUNT MODE DOCUMENT          one after another, and says what a call takes and how much memory all of them add
//   calls threads THREADS COUNT MODE DOCUMENT     COUNT calls in each of so many threads, 64 of them at a time
//
// MODE is a number, DOCUMENT a file. The status is 1 if an answer differs, or if memory grows.
#include <pthread.h>
#include <stdio.h>
#include <stdlib.h>
#include <string.h>
#include <sys/resource.h>
#include <time.h>

#include "laxirbon.h"

enum { MOST = 1 << 20, AT_A_TIME = 64, STACK = 1 << 20, MOST_GROWTH = 256 };

static uint8_t document[MOST], first[MOST], spare[MOST];
static size_t length, expected;
static uint32_t mode, expected_status;
static long calls_of_each;

static uint32_t call(uint8_t *out, size_t *needed) { return laxirbon_lower(mode, document, length, out, MOST, needed); }

// Calls so many times, and tells how many answers differ from the first.
static long differing(long count, uint8_t *out) {
    long differ = 0;
    for (long i = 0; i < count; i++) {
        size_t needed = 0;
        uint32_t status = call(out, &needed);
        differ += status != expected_status || needed != expected || memcmp(out, first, expected) != 0;
    }
    return differ;
}

// The time that the process has computed, in microseconds, since others may compute beside it.
static double now(void) {
    struct timespec time;
    clock_gettime(CLOCK_PROCESS_CPUTIME_ID, &time);
    return (double)time.tv_sec * 1e6 + (double)time.tv_nsec / 1e3;
}

// The most memory that the process has had, in kilobytes.
static long peak(void) {
    struct rusage usage;
    getrusage(RUSAGE_SELF, &usage);
    return usage.ru_maxrss;
}

// What it takes to copy an answer, in microseconds.
static double copy_time(long count) {
    double begin = now();
    for (long i = 0; i < count; i++) {
        memmove(spare, first, expected);
        __asm__ volatile("" ::"r"(spare) : "memory");
    }
    return (now() - begin) / (double)count;
}

static int repeat(long count) {
    long differ = differing(1000, spare), before = peak();
    double begin = now();
    differ += differing(count, spare);
    double took = (now() - begin) / (double)count;
    long growth = peak() - before;
    printf("%ld calls, %.2f us of CPU each, of which copying %zu bytes takes %.3f; memory grew by %ld KB, %ld answers differ\n",
           count, took, expected, copy_time(count), growth, differ);
    return differ != 0 || growth > MOST_GROWTH;
}

static void *run_thread(void *out) { return (void *)differing(calls_of_each, out); }

// Starts threads and waits for them, and tells how many answers differ.
static long wave(long threads, pthread_attr_t *attributes, uint8_t *out) {
    pthread_t started[AT_A_TIME];
    long differ = 0;
    for (long i = 0; i < threads; i++)
        if (pthread_create(&started[i], attributes, run_thread, out + i * MOST) != 0) exit(2);
    for (long i = 0; i < threads; i++) {
        void *more;
        pthread_join(started[i], &more);
        differ += (long)more;
    }
    return differ;
}

static int threads(long count) {
    uint8_t *out = malloc((size_t)AT_A_TIME * MOST);
    pthread_attr_t attributes;
    if (!out || pthread_attr_init(&attributes) != 0 || pthread_attr_setstacksize(&attributes, STACK) != 0) return 2;
    long differ = 0;
    for (long left = count; left > 0; left -= AT_A_TIME) differ += wave(left < AT_A_TIME ? left : AT_A_TIME, &attributes, out);
    pthread_attr_destroy(&attributes);
    free(out);
    printf("%ld threads of %ld calls, %ld answers differ\n", count, calls_of_each, differ);
    return differ != 0;
}

int main(int count, char **words) {
    int of_threads = count == 6 && strcmp(words[1], "threads") == 0;
    if (!of_threads && (count != 5 || strcmp(words[1], "repeat") != 0)) return 2;
    FILE *file = fopen(words[count - 1], "rb");
    if (!file) return 2;
    length = fread(document, 1, MOST, file);
    fclose(file);
    mode = (uint32_t)atol(words[count - 2]);
    calls_of_each = atol(words[count - 3]);
    expected_status = call(first, &expected);
    if (expected_status == LAXIRBON_TOO_SHORT) return 2;
    return of_threads ? threads(atol(words[2])) : repeat(calls_of_each);
}
