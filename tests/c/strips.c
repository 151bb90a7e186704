/* Key strips, made and run. Exits with 0 where all is as docs/SPECIFICATION.md has it. */
#include "case.h"

#include <math.h>

/* The strip's output: it holds a byte of its own before each call, and so do the bytes around it. */
#define BEFORE 0xa5
#define AROUND 16
static uint8_t lent[AROUND + BUNLAYOG_STRIP_MAX + AROUND];
static uint8_t *const out = lent + AROUND;
static uint64_t written;

static const double many[BUNLAYOG_VALUES_MAX + 1];

/* A strip into so many bytes: its answer, its length, its bytes, and that no other byte has changed. */
static void made(const char *what, uint64_t root, size_t room, uint32_t number, const uint8_t *strip, size_t length) {
    uint32_t r;
    uint64_t n = count;
    memset(lent, BEFORE, sizeof lent);
    written = UNTOUCHED;
    r = bunlayog_strip(POOL_READ, root, out, room, &written);
    expect(what, r, written, number, length, n);
    if (number != 0) {
        length = 0;
    } else if (strip != NULL) {
        bytes(what, out, strip, length);
    }
    for (size_t i = 0; i < sizeof lent; i++) {
        if ((i < AROUND || AROUND + length <= i) && lent[i] != BEFORE) {
            wrong(what);
            break;
        }
    }
}

static void ran(const char *what, const uint8_t *strip, size_t length, const double *values, size_t len, uint32_t number, uint64_t value) {
    uint64_t bits = UNTOUCHED;
    uint32_t r = bunlayog_run_strip(strip, length, values, len, &bits);
    expect(what, r, bits, number, value, count);
}

/* A strip in place, and how many bytes it has. */
#define STRIP(...) ((const uint8_t[]){__VA_ARGS__}), sizeof((const uint8_t[]){__VA_ARGS__})
#define X0 0x01, 0x00, 0x00
#define X1 0x01, 0x01, 0x00
#define LOW(byte) 0x02, byte, 0x00, 0x00, 0x00, 0x00, 0x00, 0x00, 0x00

/* x0, and from entry 1 on each the sum of x0, or of the one before, with the one before. */
static void sums(uint64_t nodes, uint64_t left) {
    memset(kinds, 0, sizeof kinds);
    memset(words, 0, sizeof words);
    set(0, 1, 0);
    for (uint64_t i = 1; i < nodes; i++) {
        set(i, 3, left * (i - 1) + (i - 1) * RIGHT);
    }
    count = nodes;
}

static void made_strips(void) {
    /* x0, x1, 1, 3, 1/3, exp x0, x0^2, max(x1, x0), x65535, -1, (x0 + exp x0), x0 * -1 */
    set(0, 1, 0);
    set(1, 1, 1);
    set(2, 2, 1);
    set(3, 2, 3);
    set(4, 5, 2 + 3 * RIGHT);
    set(5, 6, 0);
    set(6, 8, 0 + 2 * RIGHT);
    set(7, 9, 1 + 0 * RIGHT);
    set(8, 1, 65535);
    set(9, 2, (uint64_t)-1);
    set(10, 3, 0 + 5 * RIGHT);
    set(11, 4, 0 + 9 * RIGHT);
    count = 12;
    made("x0", 0, BUNLAYOG_STRIP_MAX, 0, STRIP(X0));
    made("1/3", 4, BUNLAYOG_STRIP_MAX, 0, STRIP(LOW(1), LOW(3), 0x05));
    made("1/3 in 19 bytes", 4, 19, 0, STRIP(LOW(1), LOW(3), 0x05));
    made("1/3 in 18 bytes", 4, 18, 19, NULL, 0);
    made("1/3 in none", 4, 0, 19, NULL, 0);
    made("x0^2", 6, 8, 0, STRIP(X0, 0x08, 0x02, 0x00, 0x00, 0x00));
    made("max(x1, x0)", 7, 7, 0, STRIP(X1, X0, 0x09));
    made("x65535", 8, 3, 0, STRIP(0x01, 0xff, 0xff));
    made("x0 * -1", 11, 13, 0, STRIP(X0, 0x02, 0xff, 0xff, 0xff, 0xff, 0xff, 0xff, 0xff, 0xff, 0x04));
    made("exp x0", 5, BUNLAYOG_STRIP_MAX, 16, NULL, 0);
    made("x0 + exp x0, in no bytes", 10, 0, 16, NULL, 0);
    made("no node", 12, BUNLAYOG_STRIP_MAX, 2, NULL, 0);
    set(12, 1, 0);
    made("an entry behind the count", 0, BUNLAYOG_STRIP_MAX, 1, NULL, 0);
    set(12, 0, 0);
}

static void places_and_lengths(void) {
    sums(BUNLAYOG_PLACES_MAX, 0);
    made("128 leaves, the right part the deeper", count - 1, BUNLAYOG_STRIP_MAX, 0, NULL, 4 * BUNLAYOG_PLACES_MAX - 1);
    ran("it runs", out, 4 * BUNLAYOG_PLACES_MAX - 1, (const double[]){0.5}, 1, 0, UINT64_C(0x4050000000000000));
    sums(BUNLAYOG_PLACES_MAX + 1, 0);
    made("129 leaves", count - 1, BUNLAYOG_STRIP_MAX, 27, NULL, 0);
    made("129 leaves, in no bytes", count - 1, 0, 27, NULL, 0);
    set(count, 7, count - 1);
    count++;
    made("log of 129 leaves", count - 1, BUNLAYOG_STRIP_MAX, 16, NULL, 0);
    sums(15, 1);
    made("2^14 leaves: 65,535 bytes", 14, BUNLAYOG_STRIP_MAX, 0, NULL, BUNLAYOG_STRIP_MAX);
    ran("they run", out, BUNLAYOG_STRIP_MAX, (const double[]){0.5}, 1, 0, UINT64_C(0x40c0000000000000));
    made("a byte less than 65,535", 14, BUNLAYOG_STRIP_MAX - 1, 19, NULL, 0);
    sums(BUNLAYOG_PLACES_MAX, 1);
    made("127 doublings", 127, BUNLAYOG_STRIP_MAX, 19, NULL, 0);
    sums(BUNLAYOG_PLACES_MAX + 1, 1);
    made("128 doublings", 128, BUNLAYOG_STRIP_MAX, 27, NULL, 0);
}

#define RUNS(what, values, len, number, value, ...) ran(what, STRIP(__VA_ARGS__), values, len, number, value)

static void runs(void) {
    static const double values[4] = {1.5, NAN, -0.0, INFINITY};
    RUNS("x0 runs", values, 1, 0, UINT64_C(0x3ff8000000000000), X0);
    RUNS("1/3 runs", values, 0, 0, UINT64_C(0x3fd5555555555555), LOW(1), LOW(3), 0x05);
    RUNS("a NaN is left", values, 2, 0, UINT64_C(0x7ff8000000000000), X1);
    RUNS("minus zero is left", values, 3, 0, UINT64_C(0x8000000000000000), 0x01, 0x02, 0x00);
    RUNS("max(NaN, 1.5)", values, 2, 0, UINT64_C(0x3ff8000000000000), X1, X0, 0x09);
    RUNS("max(1.5, NaN)", values, 2, 0, UINT64_C(0x3ff8000000000000), X0, X1, 0x09);
    RUNS("max(0, -0)", values, 3, 0, UINT64_C(0x8000000000000000), LOW(0), 0x01, 0x02, 0x00, 0x09);
    RUNS("max(-0, 0)", values, 3, 0, 0, 0x01, 0x02, 0x00, LOW(0), 0x09);
    RUNS("infinity over itself", values, 4, 0, UINT64_C(0x7ff8000000000000), 0x01, 0x03, 0x00, 0x01, 0x03, 0x00, 0x05);
    RUNS("1.5^2", values, 1, 0, UINT64_C(0x4002000000000000), X0, 0x08, 0x02, 0x00, 0x00, 0x00);
    RUNS("1^(2^32 - 1)", values, 0, 0, UINT64_C(0x3ff0000000000000), LOW(1), 0x08, 0xff, 0xff, 0xff, 0xff);
    RUNS("2^53 - 1", values, 0, 0, UINT64_C(0x433fffffffffffff), 0x02, 0xff, 0xff, 0xff, 0xff, 0xff, 0xff, 0x1f, 0x00);
    RUNS("1 - 2^53", values, 0, 0, UINT64_C(0xc33fffffffffffff), 0x02, 0x01, 0x00, 0x00, 0x00, 0x00, 0x00, 0xe0, 0xff);
    RUNS("65536 values", many, BUNLAYOG_VALUES_MAX, 0, 0, X0);
    RUNS("65537 values", many, BUNLAYOG_VALUES_MAX + 1, 6, 0, X0);
    RUNS("65537 values and no strip", many, BUNLAYOG_VALUES_MAX + 1, 6, 0, 0x00);
    RUNS("x1 of one value", values, 1, 15, 0, X1);
    RUNS("x1 of one value, then a sum", values, 1, 15, 0, X0, X1, 0x03);
}

static void no_strips(void) {
    static const double values[1] = {1.5};
    /* one push more than there are places, and then sums */
    uint8_t pushes[3 * (BUNLAYOG_PLACES_MAX + 1) + BUNLAYOG_PLACES_MAX];
    for (int i = 0; i <= BUNLAYOG_PLACES_MAX; i++) {
        memcpy(pushes + 3 * i, (const uint8_t[]){X0}, 3);
    }
    memset(pushes + 3 * (BUNLAYOG_PLACES_MAX + 1), 3, BUNLAYOG_PLACES_MAX);
    ran("129 pushes", pushes, sizeof pushes, values, 1, 28, 0);
    ran("128 of them", pushes + 3, sizeof pushes - 4, values, 1, 0, UINT64_C(0x4068000000000000));
    ran("an empty strip", pushes, 0, values, 1, 28, 0);
    RUNS("code 0", values, 1, 28, 0, X0, 0x00);
    RUNS("code 6", values, 1, 28, 0, X0, 0x06);
    RUNS("code 7", values, 1, 28, 0, X0, 0x07);
    RUNS("code 10", values, 1, 28, 0, X0, 0x0a);
    RUNS("a variable cut off", values, 1, 28, 0, 0x01, 0x00);
    RUNS("a literal cut off", values, 1, 28, 0, 0x02, 0x00, 0x00, 0x00, 0x00, 0x00, 0x00, 0x00);
    RUNS("an exponent cut off", values, 1, 28, 0, X0, 0x08, 0x02, 0x00, 0x00);
    RUNS("exponent 0", values, 1, 28, 0, X0, 0x08, 0x00, 0x00, 0x00, 0x00);
    RUNS("exponent 1", values, 1, 28, 0, X0, 0x08, 0x01, 0x00, 0x00, 0x00);
    RUNS("2^53", values, 1, 28, 0, 0x02, 0x00, 0x00, 0x00, 0x00, 0x00, 0x00, 0x20, 0x00);
    RUNS("-2^53", values, 1, 28, 0, 0x02, 0x00, 0x00, 0x00, 0x00, 0x00, 0x00, 0xe0, 0xff);
    RUNS("a sum of nothing", values, 1, 28, 0, 0x03);
    RUNS("a sum of one value", values, 1, 28, 0, X0, 0x03);
    RUNS("a sum of one value, and then a value", values, 1, 28, 0, X0, 0x03, X0);
    RUNS("a sum of nothing, and then two values", values, 1, 28, 0, 0x03, X0, X0);
    RUNS("a power of nothing", values, 1, 28, 0, 0x08, 0x02, 0x00, 0x00, 0x00);
    RUNS("a power of nothing, and then a value", values, 1, 28, 0, 0x08, 0x02, 0x00, 0x00, 0x00, X0);
    RUNS("two values left", values, 1, 28, 0, X0, X0);
    RUNS("no value looked at", values, 0, 28, 0, 0x01, 0x05, 0x00, 0xff);
}

int main(void) {
    made_strips();
    places_and_lengths();
    runs();
    no_strips();
    return failed;
}
