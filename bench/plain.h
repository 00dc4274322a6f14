/* SHA-1 and HMAC in plain C, to compare with. */
#include <stddef.h>
#include <stdint.h>

struct plain_sha1 {
    uint32_t h[5];
    uint8_t rest[64];
    uint64_t count;
};

struct plain_key {
    struct plain_sha1 inner, outer;
};

void plain_start(struct plain_sha1 *c);
void plain_update(struct plain_sha1 *c, const uint8_t *s, size_t n);
void plain_finish(struct plain_sha1 *c, uint8_t out[20]);
void plain_key(struct plain_key *key, const uint8_t *k, size_t n);
void plain_code(const struct plain_key *key, const uint8_t *s, size_t n, uint8_t out[20]);
