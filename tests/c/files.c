/* Node files written and read. Exits with 0 where all is as docs/SPECIFICATION.md has it. */
#include "case.h"

int main(void) {
    /* the file of x0 * x0 */
    static const uint8_t square[22] = {2, 0, 0, 0, 1, 4};
    uint8_t out[24], before[24], file[22];
    uint64_t given;
    uint32_t r;

    memset(before, 0xee, sizeof before);
    /* 7, x0, x0 * x0 */
    set(0, 2, 7);
    set(1, 1, 0);
    set(2, 4, 1 + 1 * RIGHT);
    count = 3;

#define WRITE(what, root, room, number, length)                 \
    memset(out, 0xee, sizeof out);                              \
    given = UNTOUCHED;                                          \
    r = bunlayog_write(POOL_READ, root, out, room, &given);     \
    expect(what, r, given, number, length, 3)

    WRITE("x0 * x0", 2, 22, 0, 22);
    bytes("x0 * x0", out, square, 22);
    bytes("past the file", out + 22, before, 2);
    WRITE("in 21 bytes", 2, 21, 19, 0);
    bytes("in 21 bytes", out, before, 24);
    WRITE("no node", 3, 24, 2, 0);

#define READ(what, len, number, root, n)            \
    given = UNTOUCHED;                              \
    r = bunlayog_read(POOL, file, len, &given);     \
    expect(what, r, given, number, root, n)

    memcpy(file, square, sizeof file);
    READ("x0 * x0", 22, 0, 4, 5);
    entry("x0 * x0", 3, 1, 0);
    entry("x0 * x0", 4, 4, 3 + 3 * RIGHT);
    READ("one byte short", 21, 7, 0, 5);
    file[5] = 10;
    READ("kind 10", 22, 8, 0, 5);
    file[5] = 1;
    READ("an entry that is not reached", 22, 9, 0, 5);
    return failed;
}
