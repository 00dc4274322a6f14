/* Time to write and to read full files, the proved library beside a plain C writer and reader that do the same tests. */
#define _POSIX_C_SOURCE 199309L
#include "../include/dayfile.h"
#include <stdio.h>
#include <stdlib.h>
#include <string.h>
#include <time.h>

static void put2(uint8_t *p, size_t n) {
    p[0] = (uint8_t)(n >> 8);
    p[1] = (uint8_t)n;
}

static size_t get2(const uint8_t *p) { return (size_t)p[0] << 8 | p[1]; }

static uint64_t plain_write(const uint16_t *numbers, const size_t *sizes, size_t count, const uint8_t *bytes, size_t total, uint8_t *out,
                            size_t room) {
    size_t sum = 0;
    for (size_t i = 0; i < count; i++) {
        if (sizes[i] < 1 || sizes[i] > 1400) return (uint64_t)16 << 32;
        sum += sizes[i];
    }
    if (sum != total) return (uint64_t)16 << 32;
    if (count > 4096 || total + 7 * count + 3 > 65536) return (uint64_t)24 << 32;
    if (total + 7 * count + 3 > room) return (uint64_t)6 << 32;
    size_t trailer = total + 5 * count, at = 0, place = trailer;
    out[place++] = 0xd2;
    for (size_t i = 0; i < count; i++) {
        put2(out + place, trailer - at);
        place += 2;
        out[at] = 0xd1;
        put2(out + at + 1, numbers[i]);
        put2(out + at + 3, sizes[i]);
        memcpy(out + at + 5, bytes, sizes[i]);
        bytes += sizes[i];
        at += 5 + sizes[i];
    }
    put2(out + place, count);
    return place + 2;
}

static uint64_t plain_read(const uint8_t *file, size_t size) {
    if (size > 65536) return (uint64_t)24 << 32;
    if (size < 3) return (uint64_t)25 << 32;
    size_t count = get2(file + size - 2);
    if (count > 4096 || size < 3 + 2 * count) return (uint64_t)25 << 32;
    size_t trailer = size - 3 - 2 * count, at = 0;
    if (file[trailer] != 0xd2) return (uint64_t)25 << 32;
    for (size_t i = 0; i < count; i++) {
        if (trailer - get2(file + trailer + 1 + 2 * i) != at) return (uint64_t)25 << 32;
        if (trailer - at < 5 || file[at] != 0xd1) return (uint64_t)25 << 32;
        size_t n = get2(file + at + 3);
        if (n < 1 || n > 1400 || trailer - at - 5 < n) return (uint64_t)25 << 32;
        at += 5 + n;
    }
    return at == trailer ? count : (uint64_t)25 << 32;
}

static double now(void) {
    struct timespec t;
    clock_gettime(CLOCK_MONOTONIC, &t);
    return (double)t.tv_sec * 1e6 + (double)t.tv_nsec / 1e3;
}

static uint16_t numbers[4096];
static size_t sizes[4096];
static uint8_t bytes[65536], ours[65536], plain[65536];
static volatile uint64_t sink;

static int by_size(const void *a, const void *b) {
    double x = *(const double *)a, y = *(const double *)b;
    return (x > y) - (x < y);
}

/* the median of many timings of one call, in microseconds */
#define TIMED(call)                                        \
    ({                                                     \
        for (int r = 0; r < repetitions; r++) {            \
            double t = now();                              \
            for (int k = 0; k < 20; k++) sink = (call);    \
            times[r] = (now() - t) / 20;                   \
        }                                                  \
        qsort(times, repetitions, sizeof *times, by_size); \
        times[repetitions / 2];                            \
    })

static void row(const char *name, size_t count, size_t each, int repetitions) {
    static double times[100000];
    for (size_t i = 0; i < count; i++) {
        numbers[i] = (uint16_t)(i * 7);
        sizes[i] = each;
    }
    size_t total = count * each;
    uint64_t n = dayfile_write(numbers, count, sizes, count, bytes, total, ours, sizeof ours);
    uint64_t m = plain_write(numbers, sizes, count, bytes, total, plain, sizeof plain);
    if (n != m || n > 65536 || memcmp(ours, plain, n) != 0 || dayfile_read(ours, n) != count || plain_read(ours, n) != count) {
        fprintf(stderr, "bench/dayfile: the two do not agree on %s\n", name);
        exit(1);
    }
    double write_ours = TIMED(dayfile_write(numbers, count, sizes, count, bytes, total, ours, sizeof ours));
    double write_plain = TIMED(plain_write(numbers, sizes, count, bytes, total, plain, sizeof plain));
    double read_ours = TIMED(dayfile_read(ours, n));
    double read_plain = TIMED(plain_read(ours, n));
    printf("%-28s %6zu bytes  write %7.2f us, plain C %7.2f, ratio %.2f   read %7.2f us, plain C %7.2f, ratio %.2f\n", name, (size_t)n,
           write_ours, write_plain, write_ours / write_plain, read_ours, read_plain, read_ours / read_plain);
}

int main(int argc, char **argv) {
    int repetitions = argc > 1 ? atoi(argv[1]) : 500;
    if (repetitions < 1 || repetitions > 100000) return 2;
    for (size_t i = 0; i < sizeof bytes; i++) bytes[i] = (uint8_t)(i * 31);
    row("4,096 reports of 8 bytes", 4096, 8, repetitions);
    row("600 reports of 100 bytes", 600, 100, repetitions);
    row("46 reports of 1,400 bytes", 46, 1400, repetitions);
    return 0;
}
