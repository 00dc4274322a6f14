/* SHA-1 and HMAC of four makers, timed side by side: the crate digest, plain C, BearSSL and OpenSSL.
   Each repetition times all four, one after the other, at each kind of work; a ratio is of one repetition, and what is
   printed is the median over all. Nothing fails on speed. Status 1: the four do not agree. */
#include <stdio.h>
#include <stdlib.h>
#include <string.h>
#include <time.h>
#include <bearssl.h>
#include <openssl/sha.h>
#include "plain.h"

/* The crate speed. A slice is a pointer and a length. */
void speed_sha1(const uint8_t *s, size_t n, uint8_t *out, size_t room);
void speed_hmac(const uint8_t *k, size_t kn, const uint8_t *s, size_t n, uint8_t *out, size_t room);
void speed_codes(const uint8_t *k, size_t kn, const uint8_t *s, size_t n, size_t times, uint8_t *out, size_t room);
void speed_prf(const uint8_t *k, size_t kn, const uint8_t *label, size_t ln, const uint8_t *first, size_t an, const uint8_t *second,
               size_t bn, const uint8_t *third, size_t cn, uint8_t *out, size_t room);

enum { OURS, PLAIN, BEAR, OPEN, MAKERS };
static const char *const maker[MAKERS] = {"digest (ours)", "(a) plain C, clang -O3", "(b) BearSSL", "(c) OpenSSL, low level"};

/* One digest. */

static void ours_sha1(const uint8_t *s, size_t n, uint8_t *out) { speed_sha1(s, n, out, 20); }

static void plain_sha1(const uint8_t *s, size_t n, uint8_t *out) {
    struct plain_sha1 c;
    plain_start(&c);
    plain_update(&c, s, n);
    plain_finish(&c, out);
}

static void bear_sha1(const uint8_t *s, size_t n, uint8_t *out) {
    br_sha1_context c;
    br_sha1_init(&c);
    br_sha1_update(&c, s, n);
    br_sha1_out(&c, out);
}

static void open_sha1(const uint8_t *s, size_t n, uint8_t *out) {
    SHA_CTX c;
    SHA1_Init(&c);
    SHA1_Update(&c, s, n);
    SHA1_Final(out, &c);
}

static void (*const sha1_of[MAKERS])(const uint8_t *, size_t, uint8_t *) = {ours_sha1, plain_sha1, bear_sha1, open_sha1};

/* One key set up, and `times` codes under it. */

static void ours_codes(const uint8_t *k, size_t kn, const uint8_t *s, size_t n, size_t times, uint8_t *out) {
    speed_codes(k, kn, s, n, times, out, 20);
}

static void plain_codes(const uint8_t *k, size_t kn, const uint8_t *s, size_t n, size_t times, uint8_t *out) {
    struct plain_key key;
    plain_key(&key, k, kn);
    while (times-- > 0) plain_code(&key, s, n, out);
}

static void bear_codes(const uint8_t *k, size_t kn, const uint8_t *s, size_t n, size_t times, uint8_t *out) {
    br_hmac_key_context key;
    br_hmac_key_init(&key, &br_sha1_vtable, k, kn);
    while (times-- > 0) {
        br_hmac_context c;
        br_hmac_init(&c, &key, 0);
        br_hmac_update(&c, s, n);
        br_hmac_out(&c, out);
    }
}

static void open_codes(const uint8_t *k, size_t kn, const uint8_t *s, size_t n, size_t times, uint8_t *out) {
    SHA_CTX inner, outer, c;
    uint8_t padded[64] = {0}, pad[64], digest[20];
    int i;
    if (kn > 64) open_sha1(k, kn, padded);
    else if (kn != 0) memcpy(padded, k, kn);
    for (i = 0; i < 64; i++) pad[i] = padded[i] ^ 0x36;
    SHA1_Init(&inner);
    SHA1_Update(&inner, pad, 64);
    for (i = 0; i < 64; i++) pad[i] = padded[i] ^ 0x5c;
    SHA1_Init(&outer);
    SHA1_Update(&outer, pad, 64);
    while (times-- > 0) {
        c = inner;
        SHA1_Update(&c, s, n);
        SHA1_Final(digest, &c);
        c = outer;
        SHA1_Update(&c, digest, 20);
        SHA1_Final(out, &c);
    }
}

static void (*const codes_of[MAKERS])(const uint8_t *, size_t, const uint8_t *, size_t, size_t, uint8_t *) = {
    ours_codes, plain_codes, bear_codes, open_codes};

/* The work: each kind is done `batch` times in a repetition. */

enum { LONG = 65536, SHORT = 69, KEY = 20 };
static uint8_t text[LONG], key[256], result[20];

static void digests(int m, int batch) {
    while (batch-- > 0) sha1_of[m](text, LONG, result);
}

static void codes_with_setup(int m, int batch) {
    if (m == OURS)
        while (batch-- > 0) speed_hmac(key, KEY, text, SHORT, result, 20);
    else
        while (batch-- > 0) codes_of[m](key, KEY, text, SHORT, 1, result);
}

static void codes_alone(int m, int batch) { codes_of[m](key, KEY, text, SHORT, (size_t)batch, result); }

/* The expansion of OpenSSL's codes: the seed of n bytes behind the twenty of A(i). */
static void open_prf(const uint8_t *k, size_t kn, const uint8_t *seed, size_t n, uint8_t *out, size_t size) {
    uint8_t a[20 + LONG], code[20];
    memcpy(a + 20, seed, n);
    open_codes(k, kn, seed, n, 1, a);
    for (size_t at = 0; at < size; at += 20) {
        open_codes(k, kn, a, 20 + n, 1, code);
        memcpy(out + at, code, size - at < 20 ? size - at : 20);
        open_codes(k, kn, a, 20, 1, code);
        memcpy(a, code, 20);
    }
}

/* Whether ours and OpenSSL's agree on seeds of 0 to 140 bytes, in pieces cut anywhere, for 0 to 61 bytes. */
static int agree_on_prf(void) {
    uint8_t got[61], want[61];
    for (size_t n = 0; n <= 140; n++)
        for (size_t size = 0; size <= 61; size++) {
            size_t label = n * (size % 7) / 7, first = (n - label) * (size % 5) / 5, second = (n - label - first) * (size % 3) / 3;
            memset(got, 0, 61), memset(want, 0, 61);
            open_prf(key, KEY, text, n, want, size);
            speed_prf(key, KEY, text, label, text + label, first, text + label + first, second, text + label + first + second,
                      n - label - first - second, got, size);
            if (memcmp(got, want, 61) != 0) return printf("prf of %zu bytes with a seed of %zu: ours differs\n", size, n), 0;
        }
    return 1;
}

/* Whether the four agree, on messages and keys of many lengths, and whether a room that is too small stays as it was. */
static int agree(void) {
    uint8_t got[20], want[20], small[19] = {0}, zeros[19] = {0};
    for (size_t n = 0; n <= 320; n++)
        for (int m = 0; m < MAKERS; m++) {
            size_t size = n == 320 ? LONG : n;
            sha1_of[m](text, size, m == 0 ? want : got);
            if (m != 0 && memcmp(got, want, 20) != 0) return printf("SHA-1 of %zu bytes: %s differs\n", size, maker[m]), 0;
        }
    for (size_t kn = 0; kn <= 140; kn++)
        for (size_t n = 0; n <= 140; n++)
            for (int m = 0; m < MAKERS; m++) {
                codes_of[m](key, kn, text, n, 2, m == 0 ? want : got);
                if (m == 0) speed_hmac(key, kn, text, n, got, 20);
                if (memcmp(got, want, 20) != 0) return printf("HMAC of %zu bytes under a key of %zu: %s differs\n", n, kn, maker[m]), 0;
            }
    speed_sha1(text, 3, small, 19);
    speed_hmac(key, KEY, text, 3, small, 19);
    speed_codes(key, KEY, text, 3, 2, small, 19);
    if (memcmp(small, zeros, 19) != 0) return printf("a room of 19 bytes was written to\n"), 0;
    return 1;
}

static double now(void) {
    struct timespec t;
    clock_gettime(CLOCK_MONOTONIC, &t);
    return 1e9 * (double)t.tv_sec + (double)t.tv_nsec;
}

static int by_size(const void *a, const void *b) {
    double x = *(const double *)a, y = *(const double *)b;
    return (x > y) - (x < y);
}

static double median(double *v, int n) {
    qsort(v, (size_t)n, sizeof *v, by_size);
    return n % 2 ? v[n / 2] : (v[n / 2 - 1] + v[n / 2]) / 2;
}

static const struct {
    const char *title;
    void (*work)(int, int);
    int batch;
} kind[] = {
    {"SHA-1 over 64 KiB", digests, 1},
    {"HMAC over 69 bytes, 20-byte key, with key setup", codes_with_setup, 100},
    {"HMAC over 69 bytes, 20-byte key, key set up once for 200 codes", codes_alone, 200},
};
enum { KINDS = sizeof kind / sizeof kind[0] };

/* The time of each maker at each kind of work, one row for each repetition. */
static double (*took)[KINDS][MAKERS];

static void repeat(int repetitions) {
    for (int r = 0; r < repetitions; r++)
        for (int k = 0; k < KINDS; k++)
            for (int i = 0; i < MAKERS; i++) {
                int m = (i + r) % MAKERS; /* each maker is first in turn */
                double began = now();
                kind[k].work(m, kind[k].batch);
                took[r][k][m] = (now() - began) / kind[k].batch;
            }
}

static void show(int k, int repetitions) {
    double *v = malloc(sizeof *v * (size_t)repetitions);
    printf("\n%s\n  %-26s %12s %14s\n", kind[k].title, "", "ns", "ours/theirs");
    for (int m = 0; m < MAKERS; m++) {
        for (int r = 0; r < repetitions; r++) v[r] = took[r][k][m];
        printf("  %-26s %12.0f", maker[m], median(v, repetitions));
        for (int r = 0; r < repetitions; r++) v[r] = took[r][k][m] / took[r][k][OURS];
        if (m != OURS) printf(" %14.2f", median(v, repetitions));
        printf("\n");
    }
    free(v);
}

int main(int count, char **words) {
    int repetitions = count > 1 ? atoi(words[1]) : 2000;
    unsigned seed = 1;
    if (repetitions < 1) repetitions = 1;
    for (size_t i = 0; i < sizeof text; i++) text[i] = (uint8_t)((seed = seed * 1103515245u + 12345u) >> 16);
    for (size_t i = 0; i < sizeof key; i++) key[i] = (uint8_t)((seed = seed * 1103515245u + 12345u) >> 16);
    const char *off = getenv("OPENSSL_ia32cap");
    if (off == NULL || strcmp(off, "0:0") != 0) printf("OPENSSL_ia32cap is not 0:0, so (c) may use the processor's SHA instructions.\n");
    if (!agree() || !agree_on_prf()) return 1;
    printf("All four agree. Medians of %d repetitions; ours/theirs: how many times as fast ours is.\n", repetitions);
    took = malloc(sizeof *took * (size_t)repetitions);
    if (took == NULL) return printf("no memory for %d repetitions\n", repetitions), 1;
    repeat(1); /* to warm up */
    repeat(repetitions);
    for (int k = 0; k < KINDS; k++) show(k, repetitions);
    return 0;
}
