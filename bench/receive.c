/* Datagrams through the exported receive, beside the same work by a straightforward shore in C on OpenSSL.
   A datagram is one protected record with a report of 64 bytes under SHA_80, 77 bytes on the wire; each has a new number. The shore
   reads the record, derives the key of its number, makes the code and compares it, moves the window, counts, and hands out the part.
   Each repetition times all makers, one after the other, at both kinds of work; a ratio is of one repetition, and what is printed is
   the median over all. Nothing fails on speed. Status 1: the makers do not agree.

       receive [REPETITIONS]          the times
       receive count MAKER WORK N     N datagrams by one maker, for a counter of instructions */
#include <openssl/crypto.h>
#include <openssl/evp.h>
#include <openssl/hmac.h>
#include <openssl/sha.h>
#include <stdio.h>
#include <stdlib.h>
#include <string.h>
#include <time.h>
#include "gateway.h"

enum { REPORT = 64, CODE = 10, DATAGRAM = 3 + REPORT + CODE, DATAGRAMS = 256 };
enum { ONE_KEY, EVERY_RECORD, WORKS };
enum { OURS, HMAC_CALL, HMAC_KEPT, LOW_LEVEL, LAST_KEY, MAKERS };
static const char *const work_name[WORKS] = {"one key number (refresh 16)", "a refresh at every record (refresh 0)"};
static const char *const maker[MAKERS] = {"gateway_receive (ours)", "(a) HMAC(), one call", "(b) HMAC_CTX, kept",
                                          "(c) SHA1_Update, low level", "(d) as (b), last key kept"};
static uint8_t datagrams[WORKS][DATAGRAMS][DATAGRAM];

/* ---- HMAC by each maker: a key is set up, then codes are made under it. */

struct key {
    int made_by;
    uint8_t bytes[20];
    SHA_CTX inner, outer;
    HMAC_CTX *context;
};

static void key_new(struct key *k, const uint8_t bytes[20]) {
    uint8_t pad[64];
    memcpy(k->bytes, bytes, 20);
    if (k->made_by == HMAC_KEPT || k->made_by == LAST_KEY) HMAC_Init_ex(k->context, bytes, 20, EVP_sha1(), NULL);
    if (k->made_by != LOW_LEVEL) return;
    memset(pad, 0x36, 64);
    for (int i = 0; i < 20; i++) pad[i] ^= bytes[i];
    SHA1_Init(&k->inner);
    SHA1_Update(&k->inner, pad, 64);
    for (int i = 0; i < 64; i++) pad[i] ^= 0x36 ^ 0x5c;
    SHA1_Init(&k->outer);
    SHA1_Update(&k->outer, pad, 64);
}

static void key_code(struct key *k, const uint8_t *s, size_t n, uint8_t out[20]) {
    unsigned size = 20;
    if (k->made_by == HMAC_CALL) {
        HMAC(EVP_sha1(), k->bytes, 20, s, n, out, &size);
    } else if (k->made_by == LOW_LEVEL) {
        SHA_CTX c = k->inner;
        uint8_t digest[20];
        SHA1_Update(&c, s, n);
        SHA1_Final(digest, &c);
        c = k->outer;
        SHA1_Update(&c, digest, 20);
        SHA1_Final(out, &c);
    } else {
        HMAC_Init_ex(k->context, NULL, 0, NULL, NULL); /* the key as it was set up */
        HMAC_Update(k->context, s, n);
        HMAC_Final(k->context, out, &size);
    }
}

/* ---- The straightforward shore. */

struct shore {
    uint8_t secret[20], server[16], client[16];
    unsigned refresh, highest, handed, forged, old, repeated;
    uint32_t marks;
    struct key secret_key, record_key;
    long key_number; /* of the key that is kept; -1: none */
};

static struct shore peer[MAKERS];

static void derive(struct shore *s, unsigned number) {
    uint8_t seed[20 + 50], secret[20];
    unsigned key_number = s->refresh < 16 ? number >> s->refresh << s->refresh : 0;
    if (s->record_key.made_by == LAST_KEY && s->key_number == (long)key_number) return;
    memcpy(seed + 20, "client expansion", 16);
    seed[36] = (uint8_t)(key_number >> 8);
    seed[37] = (uint8_t)key_number;
    memcpy(seed + 38, s->server, 16);
    memcpy(seed + 54, s->client, 16);
    key_new(&s->secret_key, s->secret);
    key_code(&s->secret_key, seed + 20, 50, seed);
    key_code(&s->secret_key, seed, 70, secret);
    key_new(&s->record_key, secret);
    s->key_number = key_number;
}

static void code_of(struct shore *s, const uint8_t *d, size_t content, uint8_t code[20]) {
    uint8_t message[5 + 1400];
    message[0] = d[1];
    message[1] = d[2];
    message[2] = d[0];
    message[3] = (uint8_t)(content >> 8);
    message[4] = (uint8_t)content;
    memcpy(message + 5, d + 3, content);
    derive(s, (unsigned)d[1] << 8 | d[2]);
    key_code(&s->record_key, message, 5 + content, code);
}

/* The size of the report that begins at place 3, or 0. */
static size_t shore_receive(struct shore *s, const uint8_t *d, size_t n) {
    uint8_t code[20];
    if (n < 4 || n > 1400 || d[0] != 0x64 || n - 3 < CODE) return 0;
    size_t content = n - 3 - CODE;
    unsigned number = (unsigned)d[1] << 8 | d[2];
    code_of(s, d, content, code);
    if (CRYPTO_memcmp(code, d + 3 + content, CODE) != 0) return s->forged++, (size_t)0;
    if (s->marks == 0) {
        s->highest = number, s->marks = 1;
    } else if (number > s->highest) {
        s->marks = number - s->highest > 31 ? 1 : s->marks << (number - s->highest) | 1;
        s->highest = number;
    } else if (number + 32 <= s->highest) {
        return s->old++, (size_t)0;
    } else if (s->marks >> (s->highest - number) & 1) {
        return s->repeated++, (size_t)0;
    } else {
        s->marks |= 1u << (s->highest - number);
    }
    return s->handed++, content;
}

static void shore_open(struct shore *s, int made_by, unsigned refresh) {
    memset(s->secret, 0x31, 20), memset(s->server, 0x80, 16), memset(s->client, 0x10, 16);
    s->refresh = refresh, s->highest = 0, s->marks = 0, s->key_number = -1;
    s->handed = s->forged = s->old = s->repeated = 0;
    s->secret_key.made_by = s->record_key.made_by = made_by;
    if (s->secret_key.context == NULL) s->secret_key.context = HMAC_CTX_new(), s->record_key.context = HMAC_CTX_new();
}

/* ---- Ours: the same connection, in its 940 bytes (the places are in crates/lent/specs/Saved.antt). */

static uint8_t state[GATEWAY_STATE_SIZE], tally[GATEWAY_TALLY_SIZE], answers[GATEWAY_ANSWERS_SIZE], out[128], fresh_random[16];

static void ours_open(unsigned refresh) {
    uint8_t id[GATEWAY_ID_SIZE] = {0}, secret[GATEWAY_SECRET_SIZE];
    memset(secret, 0x31, sizeof secret);
    gateway_fresh(id, sizeof id, secret, sizeof secret, 32, state, sizeof state);
    state[40] = GATEWAY_OPEN;
    memset(state + 69, 0x80, 16), memset(state + 85, 0x10, 16);
    state[101] = 2;
    state[102] = (uint8_t)refresh;
}

static size_t ours_receive(const uint8_t *d, size_t n) {
    uint64_t result = gateway_receive(state, sizeof state, tally, sizeof tally, d, n, fresh_random, sizeof fresh_random, out,
                                      sizeof out, answers, sizeof answers);
    struct gateway_answer answer = gateway_answer_at(answers, 0);
    return GATEWAY_REFUSAL(result) == 0 && answer.kind == GATEWAY_DATA && answer.start == 3 ? answer.size : 0;
}

/* ---- The work. */

static size_t run(int m, int work, size_t n) {
    size_t handed = 0, i = 0;
    if (m == OURS) ours_open(work == ONE_KEY ? 16 : 0);
    else shore_open(&peer[m], m, work == ONE_KEY ? 16 : 0);
    for (; n > 0; n--, i = (i + 1) % DATAGRAMS) {
        if (i == 0) { /* the numbers begin anew: an empty window */
            if (m == OURS) memset(state + 435, 0, 10);
            else peer[m].marks = 0;
        }
        const uint8_t *d = datagrams[work][i];
        handed += m == OURS ? ours_receive(d, DATAGRAM) : shore_receive(&peer[m], d, DATAGRAM);
    }
    return handed;
}

static void make_datagrams(void) {
    struct shore unit = {0};
    uint8_t code[20];
    for (int work = 0; work < WORKS; work++) {
        shore_open(&unit, LOW_LEVEL, work == ONE_KEY ? 16 : 0);
        for (int i = 0; i < DATAGRAMS; i++) {
            uint8_t *d = datagrams[work][i];
            d[0] = 0x64, d[1] = (uint8_t)(i >> 8), d[2] = (uint8_t)i;
            for (int k = 0; k < REPORT; k++) d[3 + k] = (uint8_t)(i * 7 + k);
            code_of(&unit, d, REPORT, code);
            memcpy(d + 3 + REPORT, code, CODE);
        }
    }
}

/* Each maker hands out every report, refuses it a second time, and refuses a damaged one. */
static int agree(void) {
    for (int work = 0; work < WORKS; work++)
        for (int m = 0; m < MAKERS; m++) {
            uint8_t bad[DATAGRAM];
            if (run(m, work, DATAGRAMS) != (size_t)DATAGRAMS * REPORT) return printf("%s does not hand out all\n", maker[m]), 0;
            memcpy(bad, datagrams[work][DATAGRAMS - 1], DATAGRAM);
            for (int k = 0; k < 2; k++, bad[40] ^= 1)
                if ((m == OURS ? ours_receive(bad, DATAGRAM) : shore_receive(&peer[m], bad, DATAGRAM)) != 0)
                    return printf("%s hands out what it must refuse\n", maker[m]), 0;
        }
    return 1;
}

static double now(void) {
    struct timespec t;
    clock_gettime(CLOCK_MONOTONIC, &t);
    return 1e9 * (double)t.tv_sec + (double)t.tv_nsec;
}

static int by_size(const void *a, const void *b) {
    double x = *(const double *)a, y = *(const double *)b;
    return (x > y) - (x < y);
}

static double median(double *v, int n) {
    qsort(v, (size_t)n, sizeof *v, by_size);
    return n % 2 ? v[n / 2] : (v[n / 2 - 1] + v[n / 2]) / 2;
}

int main(int count, char **words) {
    make_datagrams();
    if (count == 5 && strcmp(words[1], "count") == 0) {
        printf("%zu bytes handed out\n", run(atoi(words[2]), atoi(words[3]), (size_t)atol(words[4])));
        return 0;
    }
    int repetitions = count > 1 ? atoi(words[1]) : 1000;
    if (repetitions < 1) repetitions = 1;
    if (!agree()) return 1;
    double(*took)[WORKS][MAKERS] = malloc(sizeof *took * (size_t)repetitions);
    double *v = malloc(sizeof *v * (size_t)repetitions);
    for (int r = 0; r < repetitions; r++)
        for (int work = 0; work < WORKS; work++)
            for (int i = 0; i < MAKERS; i++) {
                int m = (i + r) % MAKERS; /* each maker is first in turn */
                double began = now();
                run(m, work, DATAGRAMS);
                took[r][work][m] = (now() - began) / DATAGRAMS;
            }
    for (int work = 0; work < WORKS; work++) {
        printf("\n%s\n  %-28s %10s %14s %14s\n", work_name[work], "", "ns", "datagrams/s", "ours/theirs");
        for (int m = 0; m < MAKERS; m++) {
            for (int r = 0; r < repetitions; r++) v[r] = took[r][work][m];
            double ns = median(v, repetitions);
            printf("  %-28s %10.0f %14.0f", maker[m], ns, 1e9 / ns);
            for (int r = 0; r < repetitions; r++) v[r] = took[r][work][m] / took[r][work][OURS];
            if (m != OURS) printf(" %14.2f", median(v, repetitions));
            printf("\n");
        }
    }
    return 0;
}
