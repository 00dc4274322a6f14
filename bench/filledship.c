/* How deep a run of each call of the shipboard end goes, over days with every MAC kind offered, several widths and key refreshes, and
   sizes of data: one line for each call, its name and its depth. The shore is the gateway. Each call is made twice from the same lent
   bytes, on two patterns, since a call may store the one. */
#include "filled.h"
#include "gateway.h"
#include "unit.h"

#define CALLS(X) X(fresh) X(hello) X(again) X(receive) X(send_data) X(send_alert) X(close) X(start) X(state) X(arrived) X(width)
#define NAMED(call) call##_call,
enum call { CALLS(NAMED) CALL_COUNT };
#define DECLARED(call) {"unit_" #call, (void (*)(void))unit_##call, 0},
static struct { const char *name; void (*f)(void); size_t deepest; } calls[] = {CALLS(DECLARED)};

static struct { uint8_t state[UNIT_STATE_SIZE], tally[UNIT_TALLY_SIZE], answers[UNIT_ANSWERS_SIZE], out[UNIT_SEND_ROOM]; } lent;
static uint8_t shore[GATEWAY_STATE_SIZE], tally[GATEWAY_TALLY_SIZE], answers[GATEWAY_ANSWERS_SIZE], air[GATEWAY_SEND_ROOM];
static const uint8_t text[1400], id[8] = "a ship's", secret[20] = "twenty bytes, secret", random_bytes[16] = "fresh at the sea";

static void tried(enum call call, const uint64_t *words) {
    static const uint8_t pattern[2] = {0xa5, 0x5a};
    uint8_t before[sizeof lent];
    memcpy(before, &lent, sizeof lent);
    for (int i = 0; i < 2; i++) {
        memcpy(&lent, before, sizeof lent);
        size_t depth = depth_on(pattern[i], calls[call].f, words);
        if (depth > calls[call].deepest) calls[call].deepest = depth;
    }
}

#define STATE AT(lent.state), sizeof lent.state
#define OUT AT(lent.out), sizeof lent.out
#define TRIED(call, ...) tried(call##_call, (uint64_t[12]){__VA_ARGS__})

static void receive(const uint8_t *datagram, size_t n) {
    TRIED(receive, STATE, AT(lent.tally), sizeof lent.tally, AT(datagram), n, OUT, AT(lent.answers), sizeof lent.answers);
}

/* what the ship has said last, the hello or the flight, reaches the shore; its reply, in `air` */
static size_t ashore(void) {
    size_t n = UNIT_WRITTEN(unit_again(lent.state, sizeof lent.state, lent.out, sizeof lent.out));
    return GATEWAY_WRITTEN(gateway_receive(shore, sizeof shore, tally, sizeof tally, lent.out, n, random_bytes, 16, air, sizeof air,
                                           answers, sizeof answers));
}

static void asked(void) {
    TRIED(again, STATE, OUT);
    TRIED(state, STATE);
    TRIED(arrived, STATE);
    TRIED(width, STATE);
    for (uint64_t protected = 0; protected < 2; protected++)
        for (size_t n = 0; n <= 1400; n += 175) TRIED(send_alert, STATE, protected, 1, 90, AT(text), n, OUT);
}

static void day(const uint8_t *macs, size_t kinds, uint64_t refresh, uint64_t width) {
    static const uint8_t request[] = {0x43, 0, 0, 0, 0, 0}, alert[] = {0x42, 0, 0, 2, 0, 1, 2, 3, 4}, none[] = {0};
    TRIED(fresh, AT(id), 8, AT(secret), 20, width, STATE);
    gateway_fresh(id, 8, secret, 20, (uint32_t)width, shore, sizeof shore);
    asked();
    TRIED(hello, STATE, AT(random_bytes), 16, AT(macs), kinds, refresh, OUT);
    asked();
    receive(request, sizeof request);
    receive(alert, sizeof alert);
    receive(none, 0);
    size_t n = ashore();
    receive(air, n);
    asked();
    ashore();
    for (size_t size = 1; size <= 1300; size += 61) {
        TRIED(send_data, STATE, AT(text), size, OUT);
        n = GATEWAY_WRITTEN(gateway_send_data(shore, sizeof shore, text, size, air, sizeof air));
        receive(air, n);
        receive(air, n);
        air[n - 1] ^= 1;
        receive(air, n);
    }
    asked();
    receive(request, sizeof request);
    n = GATEWAY_WRITTEN(gateway_send_alert(shore, sizeof shore, 1, 1, 90, text, 0, air, sizeof air));
    receive(air, n);
    TRIED(close, STATE);
    asked();
    TRIED(start, STATE);
    TRIED(hello, STATE, AT(random_bytes), 16, AT(macs), kinds, refresh, OUT);
    n = ashore();
    receive(air, n);
    n = GATEWAY_WRITTEN(gateway_send_alert(shore, sizeof shore, 1, 3, 90, text, 0, air, sizeof air));
    receive(air, n);
    TRIED(close, STATE);
    TRIED(start, STATE);
}

int main(void) {
    static const uint8_t offers[4][2] = {{2}, {3}, {2, 3}, {3, 2}};
    for (size_t i = 0; i < 4; i++)
        for (uint64_t refresh = 0; refresh <= 255; refresh += 51)
            for (uint64_t width = 32; width <= 64; width += 32) day(offers[i], i < 2 ? 1 : 2, refresh, width);
    for (size_t i = 0; i < CALL_COUNT; i++) printf("%s %zu\n", calls[i].name, calls[i].deepest);
    return 0;
}
