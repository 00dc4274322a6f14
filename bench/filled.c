/* How deep a run of each call of the crate speed goes, for many lengths: one line for each call, its name and its depth. Two
   patterns, since a call may store the one. */
#include "filled.h"

void speed_sha1(void), speed_hmac(void), speed_codes(void), speed_prf(void);

enum { LONGEST = 300 };
static uint8_t text[LONGEST], out[LONGEST];
static size_t deepest;

static void tried(void (*f)(void), const uint64_t *words) {
    static const uint8_t pattern[2] = {0xa5, 0x5a};
    for (int i = 0; i < 2; i++) {
        size_t depth = depth_on(pattern[i], f, words);
        if (depth > deepest) deepest = depth;
    }
}

static void told(const char *name) {
    printf("%s %zu\n", name, deepest);
    deepest = 0;
}

int main(void) {
    for (size_t i = 0; i < LONGEST; i++) text[i] = (uint8_t)(i * 7 + 1);
    for (size_t n = 0; n < LONGEST; n++) tried(speed_sha1, (uint64_t[12]){AT(text), n, AT(out), 20});
    told("speed_sha1");
    for (size_t k = 0; k <= 140; k += 5)
        for (size_t n = 0; n < LONGEST; n += 3) tried(speed_hmac, (uint64_t[12]){AT(text), k, AT(text), n, AT(out), 20});
    told("speed_hmac");
    for (size_t k = 0; k <= 140; k += 5)
        for (size_t n = 0; n < LONGEST; n += 7) tried(speed_codes, (uint64_t[12]){AT(text), k, AT(text), n, 2, AT(out), 20});
    told("speed_codes");
    for (size_t k = 0; k <= 140; k += 35)
        for (size_t n = 0; n < LONGEST; n += 13)
            for (size_t room = 0; room <= 60; room += 15)
                tried(speed_prf, (uint64_t[12]){AT(text), k, AT(text), n % 70, AT(text), n, AT(text), n / 3, AT(text), 20, AT(out), room});
    told("speed_prf");
    return 0;
}
