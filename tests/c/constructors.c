/* The constructors of include/bunlayog.h on an example each: the answer, and the pool after it. Exits with 0 where all is as docs/SPECIFICATION.md has it. */
#include "case.h"

int main(void) {
    uint64_t node = UNTOUCHED;
    uint32_t r;

#define CALL(what, call, number, i, n)     \
    node = UNTOUCHED;                      \
    r = call;                              \
    expect(what, r, node, number, i, n)

    CALL("x0", bunlayog_var(POOL, 0, &node), 0, 0, 1);
    CALL("variable 65536", bunlayog_var(POOL, 65536, &node), 3, 0, 1);
    CALL("1", bunlayog_lit(POOL, 1, &node), 0, 1, 2);
    CALL("2^53", bunlayog_lit(POOL, INT64_C(9007199254740992), &node), 4, 0, 2);
    CALL("-2", bunlayog_lit(POOL, -2, &node), 0, 2, 3);
    entry("-2", 2, 2, UINT64_C(0xfffffffffffffffe));
    CALL("x0 + 1", bunlayog_add(POOL, 0, 1, &node), 0, 3, 4);
    entry("x0 + 1", 3, 3, 0 + 1 * RIGHT);
    /* -2 + (x0 + 1) is x0 + -1: a new literal, then the sum */
    CALL("-2 + (x0 + 1)", bunlayog_add(POOL, 2, 3, &node), 0, 5, 6);
    entry("-2 + (x0 + 1)", 5, 3, 0 + 4 * RIGHT);
    /* x0 * -2 is -2 * x0 */
    CALL("x0 * -2", bunlayog_mul(POOL, 0, 2, &node), 0, 6, 7);
    entry("x0 * -2", 6, 4, 2 + 0 * RIGHT);
    CALL("x0 / 1", bunlayog_div(POOL, 0, 1, &node), 0, 0, 7);
    CALL("max", bunlayog_max(POOL, 0, 1, &node), 0, 7, 8);
    entry("max", 7, 9, 0 + 1 * RIGHT);
    /* -1, then -1 * x0 */
    CALL("neg", bunlayog_neg(POOL, 0, &node), 0, 9, 10);
    entry("neg", 9, 4, 8 + 0 * RIGHT);
    CALL("exp 1", bunlayog_exp(POOL, 1, &node), 11, 0, 10);
    CALL("exp x0", bunlayog_exp(POOL, 0, &node), 0, 10, 11);
    entry("exp x0", 10, 6, 0);
    /* log 1 is a new 0 */
    CALL("log 1", bunlayog_log(POOL, 1, &node), 0, 11, 12);
    entry("log 1", 11, 2, 0);
    CALL("x0^3", bunlayog_pow(POOL, 0, 3, &node), 0, 12, 13);
    entry("x0^3", 12, 8, 0 + 3 * RIGHT);
    CALL("no such node", bunlayog_pow(POOL, 13, 3, &node), 2, 0, 13);
    CALL("a short table", bunlayog_pow(kinds, BUNLAYOG_LIMIT - 1, words, BUNLAYOG_LIMIT, &count, 0, 3, &node), 1, 0, 13);
    return failed;
}
