/* A whole handshake and a report, and the report once more in two short messages, with a unit whose datagrams are stored (crates/handshakes has their values). To run it:
       tools/library gateway
       cc -I include examples/handshake.c target/staticlib/libgateway.a -o handshake && ./handshake */
#include <stdio.h>
#include "gateway.h"

static const char *const datagrams[] = {
    "43000001002501101112131415161718191a1b1c1d1e1f08a0a1a2a3a4a5a6a70000000002000201000203",
    "c1000100010163000014000c04ac9a5ad2e142cb90d95633ccdaaafd3f9109660126",
    "6400137265706f7274489fdc72603775709317",
};

/* the last of them in two parts: ports 9202 and 49153, reference 7 */
static const char *const messages[] = {
    "0b050423f2c0010003070202489fdc72603775709317",
    "0b050423f2c00100030702016400137265706f7274",
};

static size_t from_hex(const char *hex, uint8_t *to) {
    size_t n = 0;
    for (unsigned byte; sscanf(hex + 2 * n, "%2x", &byte) == 1; n++) to[n] = (uint8_t)byte;
    return n;
}

int main(void) {
    uint8_t state[GATEWAY_STATE_SIZE], tally[GATEWAY_TALLY_SIZE] = {0}, answers[GATEWAY_ANSWERS_SIZE];
    uint8_t id[8], secret[20], random[16], datagram[1400], out[GATEWAY_SEND_ROOM];
    from_hex("a0a1a2a3a4a5a6a7", id);
    from_hex("303132333435363738393a3b3c3d3e3f40414243", secret);
    from_hex("808182838485868788898a8b8c8d8e8f", random); /* a real caller draws fresh bytes for each receive */
    printf("fresh: refusal %u\n", GATEWAY_REFUSAL(gateway_fresh(id, 8, secret, 20, 64, state, sizeof state)));
    for (size_t i = 0; i < 3; i++) {
        size_t n = from_hex(datagrams[i], datagram);
        uint64_t result = gateway_receive(state, sizeof state, tally, sizeof tally, datagram, n, random, sizeof random,
                                          out, sizeof out, answers, sizeof answers);
        printf("receive: refusal %u, to send %zu\n", GATEWAY_REFUSAL(result), GATEWAY_WRITTEN(result));
        for (size_t k = 0; GATEWAY_REFUSAL(result) == 0 && k < GATEWAY_COUNT(result); k++) {
            struct gateway_answer answer = gateway_answer_at(answers, k);
            printf("  record %zu: kind %u, refusal %u", k, answer.kind, answer.refusal);
            if (answer.kind == GATEWAY_DATA) printf(", number %u: %.*s", answer.number, (int)answer.size, (char *)datagram + answer.start);
            printf("\n");
        }
    }
    uint64_t sent = gateway_send_data(state, sizeof state, (const uint8_t *)"answer", 6, out, sizeof out);
    printf("send: refusal %u, to send %zu\n", GATEWAY_REFUSAL(sent), GATEWAY_WRITTEN(sent));
    printf("arrived: %zu of the newest %zu\n", GATEWAY_COUNT(gateway_arrived(state, sizeof state)),
           GATEWAY_COUNT(gateway_width(state, sizeof state)));
    uint8_t gatherer[GATEWAY_GATHERER_SIZE], assembly[GATEWAY_ASSEMBLY_ROOM], said[GATEWAY_SAID_SIZE];
    printf("gatherer: refusal %u\n", GATEWAY_REFUSAL(gateway_gatherer(gatherer, sizeof gatherer)));
    for (size_t i = 0; i < 2; i++) {
        size_t n = from_hex(messages[i], datagram);
        uint64_t result = gateway_message(state, sizeof state, tally, sizeof tally, gatherer, sizeof gatherer, datagram, n,
                                          assembly, sizeof assembly, random, sizeof random, said, sizeof said,
                                          out, sizeof out, answers, sizeof answers);
        struct gateway_said s = gateway_said_in(said);
        printf("message: refusal %u, kind %u, %u of %u parts, place %zu\n", GATEWAY_REFUSAL(result), s.kind, s.have, s.total, s.place);
        if (GATEWAY_COUNT(result) == 1) printf("  record 0: refusal %u\n", gateway_answer_at(answers, 0).refusal);
    }
    return 0;
}
