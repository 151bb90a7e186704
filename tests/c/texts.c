/* Printing. Exits with 0 where all is as docs/SPECIFICATION.md has it. */
#include "case.h"

int main(void) {
    uint8_t out[16];
    uint64_t written;
    uint32_t r;

#define CALL(what, root, room, number, length, wanted)            \
    memset(out, '.', sizeof out);                                 \
    written = UNTOUCHED;                                          \
    r = bunlayog_print(POOL_READ, root, out, room, &written);     \
    expect(what, r, written, number, length, 5);                  \
    bytes(what, out, wanted, sizeof out)

    /* x0, x26, x0 + x26, (x0 + x26)^2, max(x0, x26) */
    set(0, 1, 0);
    set(1, 1, 26);
    set(2, 3, 0 + 1 * RIGHT);
    set(3, 8, 2 + 2 * RIGHT);
    set(4, 9, 0 + 1 * RIGHT);
    count = 5;
    CALL("(x0 + x26)^2", 3, 16, 0, 12, "(a + x_26)^2....");
    CALL("in 12 bytes", 3, 12, 0, 12, "(a + x_26)^2....");
    CALL("in 11 bytes", 3, 11, 19, 0, "................");
    CALL("in no bytes", 0, 0, 19, 0, "................");
    CALL("max", 4, 0, 10, 0, "................");
    CALL("no node", 5, 16, 2, 0, "................");
    return failed;
}
