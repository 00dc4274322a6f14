/* SHA-1 (FIPS 180-1) and HMAC (RFC 2104) in plain C, as the papers describe them: eighty words, four loops of twenty
   rounds, whole blocks straight from the message, and a key with both pads absorbed. */
#include <string.h>
#include "plain.h"

static uint32_t turned(uint32_t x, int n) { return x << n | x >> (32 - n); }

static void block(uint32_t h[5], const uint8_t *s) {
    uint32_t w[80], a = h[0], b = h[1], c = h[2], d = h[3], e = h[4], x;
    int t;
    for (t = 0; t < 16; t++)
        w[t] = (uint32_t)s[4 * t] << 24 | (uint32_t)s[4 * t + 1] << 16 | (uint32_t)s[4 * t + 2] << 8 | s[4 * t + 3];
    for (t = 16; t < 80; t++)
        w[t] = turned(w[t - 3] ^ w[t - 8] ^ w[t - 14] ^ w[t - 16], 1);
    for (t = 0; t < 20; t++) {
        x = turned(a, 5) + ((b & c) | (~b & d)) + e + w[t] + 0x5a827999;
        e = d, d = c, c = turned(b, 30), b = a, a = x;
    }
    for (t = 20; t < 40; t++) {
        x = turned(a, 5) + (b ^ c ^ d) + e + w[t] + 0x6ed9eba1;
        e = d, d = c, c = turned(b, 30), b = a, a = x;
    }
    for (t = 40; t < 60; t++) {
        x = turned(a, 5) + ((b & c) | (b & d) | (c & d)) + e + w[t] + 0x8f1bbcdc;
        e = d, d = c, c = turned(b, 30), b = a, a = x;
    }
    for (t = 60; t < 80; t++) {
        x = turned(a, 5) + (b ^ c ^ d) + e + w[t] + 0xca62c1d6;
        e = d, d = c, c = turned(b, 30), b = a, a = x;
    }
    h[0] += a, h[1] += b, h[2] += c, h[3] += d, h[4] += e;
}

void plain_start(struct plain_sha1 *c) {
    static const uint32_t first[5] = {0x67452301, 0xefcdab89, 0x98badcfe, 0x10325476, 0xc3d2e1f0};
    memcpy(c->h, first, sizeof first);
    c->count = 0;
}

void plain_update(struct plain_sha1 *c, const uint8_t *s, size_t n) {
    size_t fill = c->count % 64;
    c->count += n;
    if (fill != 0) {
        size_t room = 64 - fill < n ? 64 - fill : n;
        memcpy(c->rest + fill, s, room);
        s += room, n -= room;
        if (fill + room < 64) return;
        block(c->h, c->rest);
    }
    for (; n >= 64; s += 64, n -= 64) block(c->h, s);
    if (n != 0) memcpy(c->rest, s, n);
}

void plain_finish(struct plain_sha1 *c, uint8_t out[20]) {
    uint8_t last[128] = {0};
    uint64_t bits = c->count << 3;
    size_t fill = c->count % 64, end = fill < 56 ? 64 : 128;
    int i;
    memcpy(last, c->rest, fill);
    last[fill] = 128;
    for (i = 0; i < 8; i++) last[end - 1 - i] = (uint8_t)(bits >> 8 * i);
    block(c->h, last);
    if (end == 128) block(c->h, last + 64);
    for (i = 0; i < 20; i++) out[i] = (uint8_t)(c->h[i / 4] >> (24 - 8 * (i % 4)));
}

void plain_key(struct plain_key *key, const uint8_t *k, size_t n) {
    uint8_t padded[64] = {0}, inner[64], outer[64];
    int i;
    if (n > 64) {
        plain_start(&key->inner);
        plain_update(&key->inner, k, n);
        plain_finish(&key->inner, padded);
    } else if (n != 0) {
        memcpy(padded, k, n);
    }
    for (i = 0; i < 64; i++) inner[i] = padded[i] ^ 0x36, outer[i] = padded[i] ^ 0x5c;
    plain_start(&key->inner);
    plain_update(&key->inner, inner, 64);
    plain_start(&key->outer);
    plain_update(&key->outer, outer, 64);
}

void plain_code(const struct plain_key *key, const uint8_t *s, size_t n, uint8_t out[20]) {
    struct plain_sha1 c = key->inner;
    uint8_t digest[20];
    plain_update(&c, s, n);
    plain_finish(&c, digest);
    c = key->outer;
    plain_update(&c, digest, 20);
    plain_finish(&c, out);
}
