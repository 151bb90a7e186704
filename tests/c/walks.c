/* The test of a pool, substitution and derivation. Exits with 0 where all is as docs/SPECIFICATION.md has it. */
#include "case.h"

int main(void) {
    uint64_t node;
    uint32_t r;

#define CALL(what, call, number, i, n)     \
    node = UNTOUCHED;                      \
    r = call;                              \
    expect(what, r, node, number, i, n)

    /* x0, x1, 2, x0 * x1, x0^3, max(x0, x1) */
    set(0, 1, 0);
    set(1, 1, 1);
    set(2, 2, 2);
    set(3, 4, 0 + 1 * RIGHT);
    set(4, 8, 0 + 3 * RIGHT);
    set(5, 9, 0 + 1 * RIGHT);
    count = 6;
    if (bunlayog_check(POOL_READ) != 0) wrong("the pool is refused");
    if (bunlayog_check(kinds, BUNLAYOG_LIMIT, words, BUNLAYOG_LIMIT, 5) != 1) wrong("an entry past the count is accepted");
    if (bunlayog_check(kinds, BUNLAYOG_LIMIT, words, BUNLAYOG_LIMIT - 1, 6) != 1) wrong("a short table is accepted");
    if (bunlayog_check(kinds, BUNLAYOG_LIMIT, words, BUNLAYOG_LIMIT, 7) != 1) wrong("an empty entry is accepted");

    /* 2 * x1 */
    CALL("x0 := 2", bunlayog_substitute_var(POOL, 3, 0, 2, &node), 0, 6, 7);
    entry("x0 := 2", 6, 4, 2 + 1 * RIGHT);
    CALL("x0 := x0", bunlayog_substitute_var(POOL, 3, 0, 0, &node), 0, 3, 7);
    CALL("x65536 := 2", bunlayog_substitute_var(POOL, 3, 65536, 2, &node), 3, 0, 7);
    CALL("x0 := no node", bunlayog_substitute_var(POOL, 3, 0, 7, &node), 2, 0, 7);

    /* 1, x0^2, 3, and 3 * x0^2 */
    CALL("derive x0^3", bunlayog_derive(POOL, 4, 0, &node), 0, 10, 11);
    entry("derive x0^3", 7, 2, 1);
    entry("derive x0^3", 8, 8, 0 + 2 * RIGHT);
    entry("derive x0^3", 9, 2, 3);
    entry("derive x0^3", 10, 4, 9 + 8 * RIGHT);
    CALL("derive max", bunlayog_derive(POOL, 5, 0, &node), 10, 0, 11);
    CALL("derive no node", bunlayog_derive(POOL, 11, 0, &node), 2, 0, 11);
    CALL("derive by x65536", bunlayog_derive(POOL, 4, 65536, &node), 3, 0, 11);
    return failed;
}
