/* Expansions: an example of each operation, and what each refuses. Exits with 0 where all is as docs/SPECIFICATION.md has it. The expected
 * coefficients were worked by hand; those of expressions are the examples there. */
#include "case.h"

static uint64_t order, coeffs[BUNLAYOG_TERMS];

/* An expansion with these entries; the array's others are no nodes. */
struct list {
    uint64_t order;
    uint64_t coeffs[BUNLAYOG_TERMS];
};

static struct list list(uint64_t n, uint64_t a, uint64_t b, uint64_t c) {
    struct list l = {n, {a, b, c}};
    for (int i = 3; i < BUNLAYOG_TERMS; i++) l.coeffs[i] = 9999;
    return l;
}

static void begin(void) {
    order = UNTOUCHED;
    for (int i = 0; i < BUNLAYOG_TERMS; i++) coeffs[i] = UNTOUCHED;
}

static void text(const char *what, uint64_t node, const char *wanted) {
    uint8_t out[64];
    uint64_t written = 0;
    uint32_t r = bunlayog_print(POOL_READ, node, out, sizeof out, &written);
    if (r != 0 || written != strlen(wanted) || memcmp(out, wanted, written) != 0) {
        printf("%s: %.*s (%u), not %s\n", what, (int)written, (const char *)out, r, wanted);
        failed = 1;
    }
}

/* The answer has this order, entries with these texts, and 0 past them. */
static void given(const char *what, uint32_t r, uint64_t n, int entries, const char *const *texts) {
    if (r != 0 || order != n) {
        printf("%s: answer %u, order %llu\n", what, r, (unsigned long long)order);
        failed = 1;
        return;
    }
    for (int i = 0; i < entries; i++) text(what, coeffs[i], texts[i]);
    for (int i = entries; i < BUNLAYOG_TERMS; i++) {
        if (coeffs[i] != 0) wrong(what);
    }
}

static void refused(const char *what, uint32_t r, uint32_t number, uint64_t n) {
    if (r != number || order != UNTOUCHED || count != n) wrong(what);
    for (int i = 0; i < BUNLAYOG_TERMS; i++) {
        if (coeffs[i] != UNTOUCHED) wrong(what);
    }
}

#define OUT &order, coeffs
#define ONE(l) (l).order, (l).coeffs
#define THREE(what, call, a, b, c) (begin(), given(what, call, 3, 3, (const char *const[]){a, b, c}))
#define CONSTANT(what, call, a) (begin(), given(what, call, BUNLAYOG_CONSTANT, 1, (const char *const[]){a}))
#define REFUSED(what, call, number) (before = count, begin(), refused(what, call, number, before))

int main(void) {
    uint64_t node, before;
    uint32_t r;
    /* x0, 0, 1, 2, x0 * x0, log x0, exp x0, max(x0, x0) */
    static const uint8_t k[8] = {1, 2, 2, 2, 4, 7, 6, 9};
    static const uint64_t w[8] = {0, 0, 1, 2, 0, 0, 0, 0};
    for (uint64_t i = 0; i < 8; i++) set(i, k[i], w[i]);
    count = 8;

    const struct list one = list(BUNLAYOG_CONSTANT, 2, 9999, 9999), two = list(BUNLAYOG_CONSTANT, 3, 9999, 9999);
    const struct list at_x0 = list(3, 0, 2, 1), at_0 = list(3, 1, 2, 1), at_1 = list(3, 2, 2, 1), pair = list(2, 0, 2, 9999);
    const struct list empty = list(0, 0, 0, 0), unknown = list(3, 0, 2, 9999);

    /* expressions */
    THREE("x0 * x0 at 3", bunlayog_taylor_coeffs_at(POOL, 4, 0, 3, 2, OUT), "9", "6", "1");
    THREE("log x0 at 1", bunlayog_taylor_coeffs_at(POOL, 5, 0, 1, 2, OUT), "0", "1", "-1/2");
    THREE("exp x0 at 0", bunlayog_taylor_coeffs_at(POOL, 6, 0, 0, 2, OUT), "1", "1", "1/2");
    THREE("x0 * x0", bunlayog_taylor_coeffs(POOL, 4, 0, 2, OUT), "a*a", "a + a", "1");
    REFUSED("max", bunlayog_taylor_coeffs(POOL, 7, 0, 2, OUT), 10);
    REFUSED("order 25", bunlayog_taylor_coeffs(POOL, 4, 0, 25, OUT), 5);
    REFUSED("x65536", bunlayog_taylor_coeffs(POOL, 4, 65536, 25, OUT), 3);
    REFUSED("at 2^53", bunlayog_taylor_coeffs_at(POOL, 4, 0, INT64_C(9007199254740992), 25, OUT), 4);

    /* a variable, and what is asked of one expansion */
    THREE("var", bunlayog_taylor_var(POOL, 0, 2, OUT), "a", "1", "0");
    REFUSED("var of order 25", bunlayog_taylor_var(POOL, 0, 25, OUT), 5);
    THREE("from_coefficients", bunlayog_taylor_from_coefficients(POOL_READ, ONE(at_x0), OUT), "a", "1", "0");
    REFUSED("no coefficients", bunlayog_taylor_from_coefficients(POOL_READ, ONE(empty), OUT), 5);
    begin();
    r = bunlayog_taylor_order(POOL_READ, ONE(at_x0), &order);
    expect("order", r, order, 0, 3, count);
    r = bunlayog_taylor_order(POOL_READ, ONE(two), &order);
    expect("order of a constant", r, order, 0, BUNLAYOG_CONSTANT, count);
    begin();
    r = bunlayog_taylor_order(POOL_READ, ONE(unknown), &order);
    expect("order of no nodes", r, order, 2, 0, count);
    before = count;
    r = bunlayog_taylor_coeff(POOL, ONE(at_x0), 1, &node);
    expect("coeff 1", r, node, 0, 2, before);
    r = bunlayog_taylor_coeff(POOL, ONE(two), 7, &node);
    expect("coeff 7 of a constant", r, node, 0, before, before + 1);
    text("coeff 7 of a constant", node, "0");
    node = UNTOUCHED;
    r = bunlayog_taylor_coeff(POOL, ONE(at_x0), 3, &node);
    expect("coeff 3", r, node, 5, 0, before + 1);
    const struct list third = list(3, 1, 2, 0);
    if (bunlayog_taylor_derivative(POOL, ONE(third), 2, &node) != 0) wrong("derivative 2");
    text("derivative 2", node, "2*a");
    before = count;
    node = UNTOUCHED;
    r = bunlayog_taylor_derivative(POOL, ONE(third), 3, &node);
    expect("derivative 3", r, node, 5, 0, before);

    /* one expansion */
    THREE("exp", bunlayog_taylor_exp(POOL, ONE(at_0), OUT), "1", "1", "1/2");
    REFUSED("exp 1", bunlayog_taylor_exp(POOL, ONE(one), OUT), 11);
    THREE("log", bunlayog_taylor_log(POOL, ONE(at_1), OUT), "0", "1", "-1/2");
    REFUSED("log 2", bunlayog_taylor_log(POOL, ONE(two), OUT), 11);
    CONSTANT("neg 2", bunlayog_taylor_neg(POOL, ONE(two), OUT), "-2");
    REFUSED("neg of no nodes", bunlayog_taylor_neg(POOL, ONE(unknown), OUT), 2);
    THREE("pow", bunlayog_taylor_pow(POOL, ONE(at_0), 2, OUT), "0", "0", "1");
    REFUSED("pow of nothing", bunlayog_taylor_pow(POOL, ONE(empty), 2, OUT), 5);

    /* two */
    THREE("add", bunlayog_taylor_add(POOL, ONE(at_x0), ONE(at_x0), OUT), "a + a", "2", "0");
    CONSTANT("sub", bunlayog_taylor_sub(POOL, ONE(one), ONE(two), OUT), "-1");
    THREE("mul", bunlayog_taylor_mul(POOL, ONE(at_0), ONE(at_0), OUT), "0", "0", "1");
    CONSTANT("div", bunlayog_taylor_div(POOL, ONE(one), ONE(two), OUT), "1/2");
    CONSTANT("2 / 1", bunlayog_taylor_div(POOL, ONE(two), ONE(one), OUT), "2");
    THREE("subst", bunlayog_taylor_subst(POOL, ONE(at_0), ONE(at_0), OUT), "0", "1", "0");
    before = count;
    begin();
    r = bunlayog_taylor_max(POOL, ONE(one), ONE(two), OUT);
    expect("max of constants", r, coeffs[0], 0, before, before + 1);
    entry("max of constants", before, 9, 2 + 3 * RIGHT);
    REFUSED("max of lists", bunlayog_taylor_max(POOL, ONE(at_0), ONE(two), OUT), 10);
    REFUSED("subst of other lengths", bunlayog_taylor_subst(POOL, ONE(at_0), ONE(pair), OUT), 5);
    REFUSED("add of no nodes", bunlayog_taylor_add(POOL, ONE(empty), ONE(unknown), OUT), 2);
    kinds[count] = 1;
    REFUSED("mul on a broken pool", bunlayog_taylor_mul(POOL, ONE(empty), ONE(unknown), OUT), 1);
    REFUSED("sub on a broken pool", bunlayog_taylor_sub(POOL, ONE(one), ONE(two), OUT), 1);
    REFUSED("div on a broken pool", bunlayog_taylor_div(POOL, ONE(one), ONE(two), OUT), 1);
    return failed;
}
