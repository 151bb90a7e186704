/* Evaluation, as doubles and by residues. Exits with 0 where all is as docs/SPECIFICATION.md has it. */
#include "case.h"

#include <math.h>

static const double many[BUNLAYOG_VALUES_MAX + 1];

int main(void) {
    const double values[2] = {1.5, NAN};
    const uint32_t residues[2] = {7, 2147483646};
    const uint32_t modulus[1] = {2147483647};
    uint64_t bits;
    uint32_t residue;
    uint32_t r;

#define CALL(what, root, values, len, number, value)              \
    bits = UNTOUCHED;                                             \
    r = bunlayog_evaluate(POOL_READ, root, values, len, &bits);   \
    expect(what, r, bits, number, value, 8)

    /* x0, x1, 1, 3, 1/3, exp x0, x0 + x0, max(x1, x0) */
    set(0, 1, 0);
    set(1, 1, 1);
    set(2, 2, 1);
    set(3, 2, 3);
    set(4, 5, 2 + 3 * RIGHT);
    set(5, 6, 0);
    set(6, 3, 0 + 0 * RIGHT);
    set(7, 9, 1 + 0 * RIGHT);
    count = 8;
    CALL("1/3", 4, values, 2, 0, UINT64_C(0x3fd5555555555555));
    CALL("x0 + x0", 6, values, 2, 0, UINT64_C(0x4008000000000000));
    CALL("a NaN", 1, values, 2, 0, UINT64_C(0x7ff8000000000000));
    CALL("max(NaN, 1.5)", 7, values, 2, 0, UINT64_C(0x3ff8000000000000));
    CALL("x1 of one value", 1, values, 1, 15, 0);
    CALL("1/3 with no values", 4, values, 0, 0, UINT64_C(0x3fd5555555555555));
    CALL("exp x0", 5, values, 2, 16, 0);
    CALL("no node", 8, values, 2, 2, 0);
    CALL("65536 values", 0, many, BUNLAYOG_VALUES_MAX, 0, 0);
    CALL("65537 values", 0, many, BUNLAYOG_VALUES_MAX + 1, 6, 0);

#undef CALL
#define CALL(what, root, values, len, number, value)                           \
    residue = (uint32_t)UNTOUCHED;                                             \
    r = bunlayog_evaluate_residue(POOL_READ, root, values, len, &residue);     \
    expect(what, r, residue == (uint32_t)UNTOUCHED ? UNTOUCHED : residue, number, value, 8)

    CALL("1/3 by residues", 4, residues, 2, 0, 1431655765);
    CALL("x0 + x0 by residues", 6, residues, 2, 0, 14);
    CALL("the greatest residue", 1, residues, 2, 0, 2147483646);
    CALL("the modulus", 4, modulus, 1, 6, 0);
    CALL("x1 of one residue", 1, residues, 1, 15, 0);
    CALL("max by residues", 7, residues, 2, 16, 0);
    set(3, 2, 0);
    CALL("1/0 by residues", 4, residues, 2, 17, 0);
    return failed;
}
