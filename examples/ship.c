/* A ship's day: hello, the flight, a report and the shore's word, closing. The shore is the gateway, in this same program; on a ship
   each `cast` is a radio. To run it:
       tools/library gateway && tools/library shipboard
       cc -I include examples/ship.c target/staticlib/libshipboard.a target/staticlib/libgateway.a -o ship && ./ship */
#include <stdio.h>
#include "gateway.h"
#include "unit.h"

static uint8_t ship[UNIT_STATE_SIZE], counts[UNIT_TALLY_SIZE], heard[UNIT_ANSWERS_SIZE], air[UNIT_SEND_ROOM];
static uint8_t shore[GATEWAY_STATE_SIZE], tally[GATEWAY_TALLY_SIZE], answers[GATEWAY_ANSWERS_SIZE], back[GATEWAY_SEND_ROOM];

/* n bytes of `air` reach the shore; how many it answers with, in `back` */
static size_t cast(const char *what, size_t n) {
    static const uint8_t random[16] = "drawn on a shore"; /* a real caller draws fresh bytes for each receive */
    uint64_t r = gateway_receive(shore, sizeof shore, tally, sizeof tally, air, n, random, 16, back, sizeof back, answers, sizeof answers);
    struct gateway_answer a = gateway_answer_at(answers, 0);
    printf("ship sends %s, %zu bytes; shore: refusal %u, kind %u", what, n, GATEWAY_REFUSAL(r), a.kind);
    if (a.kind == GATEWAY_DATA) printf(": %.*s", (int)a.size, (char *)air + a.start);
    printf("\n");
    return GATEWAY_WRITTEN(r);
}

/* n bytes of `back` reach the ship; how many it sends at once, in `air` */
static size_t hear(size_t n) {
    uint64_t r = unit_receive(ship, sizeof ship, counts, sizeof counts, back, n, air, sizeof air, heard, sizeof heard);
    printf("ship hears %zu bytes: refusal %u, state %zu\n", n, UNIT_REFUSAL(r), UNIT_COUNT(unit_state(ship, sizeof ship)));
    for (size_t i = 0; UNIT_REFUSAL(r) == 0 && i < UNIT_COUNT(r); i++) {
        struct unit_answer a = unit_answer_at(heard, i);
        printf("  record %zu: kind %u, refusal %u", i, a.kind, a.refusal);
        if (a.kind == UNIT_DATA) printf(": %.*s", (int)a.size, (char *)back + a.start);
        printf("\n");
    }
    return UNIT_WRITTEN(r);
}

int main(void) {
    static const uint8_t id[8] = "a ship's", secret[20] = "twenty bytes, secret", random[16] = "fresh at the sea", kinds[2] = {3, 2};
    unit_fresh(id, 8, secret, 20, 64, ship, sizeof ship);
    gateway_fresh(id, 8, secret, 20, 64, shore, sizeof shore);
    size_t n = UNIT_WRITTEN(unit_hello(ship, sizeof ship, random, 16, kinds, 2, 4, air, sizeof air));
    cast("a hello, and no reply comes", n);
    n = UNIT_WRITTEN(unit_again(ship, sizeof ship, air, sizeof air));
    size_t flight = hear(cast("the hello again", n));
    cast("its flight", flight);
    n = UNIT_WRITTEN(unit_send_data(ship, sizeof ship, (const uint8_t *)"fuel 4711 t", 11, air, sizeof air));
    cast("a report", n);
    hear(GATEWAY_WRITTEN(gateway_send_data(shore, sizeof shore, (const uint8_t *)"noted", 5, back, sizeof back)));
    printf("again, now: refusal %u\n", UNIT_REFUSAL(unit_again(ship, sizeof ship, air, sizeof air)));
    n = UNIT_WRITTEN(unit_send_alert(ship, sizeof ship, 1, 1, 0, NULL, 0, air, sizeof air));
    cast("a warning: connection close notify", n);
    printf("close: refusal %u\n", UNIT_REFUSAL(unit_close(ship, sizeof ship)));
    printf("start again: refusal %u\n", UNIT_REFUSAL(unit_start(ship, sizeof ship)));
    return 0;
}
