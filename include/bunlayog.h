/* Bunlayog: a proved expression engine, as C functions.
 *
 * Link with libbunlayog.a (`rt lib` in crates/bunlayog writes out/libbunlayog.a there, `install.sh` installs it). What each function
 * answers stands in docs/SPECIFICATION.md, rule by rule; examples/first.c is a first program. C99 or later, or C++11 or later.
 *
 * Every function answers BUNLAYOG_OK or the number of a refusal. After a refusal every byte that was lent is as before, the places for
 * answers included. No function keeps a pointer, allocates, or has state of its own.
 *
 * The pool. An expression lives in a pool: a table of kinds, a table of words and a count. It starts with both tables all 0 and the count 0,
 * as a `struct bunlayog_pool` that is all 0. A call is lent the pool as five arguments, which BUNLAYOG_LEND writes, or BUNLAYOG_LEND_READ for
 * a function that only reads it:
 *
 *     static struct bunlayog_pool pool;
 *     uint64_t x, sum;
 *     uint32_t refused = bunlayog_var(BUNLAYOG_LEND(&pool), 0, &x);
 *     if (!refused) refused = bunlayog_add(BUNLAYOG_LEND(&pool), x, x, &sum);
 *
 * Each call checks the whole pool that it is lent, so that building node by node pays for that check at every node; a node file is read
 * with one.
 *
 * Pointers. None may be null, also where a length is 0, and each must be aligned for its type. What a call writes (tables, count, output,
 * places for answers) must not overlap anything else that the call is lent.
 *
 * Calls at once. All functions may run at once on different pools. Functions that only read a pool may run at once on the same one.
 *
 * Stack in bytes, as measured (docs/MEASUREMENTS.md has more figures, and the worst pool for each):
 *   check, taylor_order                                 1,024
 *   taylor_from_coefficients                            1,360
 *   run_strip                                           1,128
 *   lit, var and the constructors                      81,976
 *   the other operations on expansions                 86,072
 *   write, read                                       369,136
 *   strip                                             282,736
 *   substitute_var, derive, evaluate, evaluate_residue,
 *   print                                             495,624
 *   taylor_coeffs, taylor_coeffs_at                   761,864
 *
 * The archive is for x86-64 Linux. It calls memcpy and memset and nothing else, and has no data that can be written.
 */
#ifndef BUNLAYOG_H
#define BUNLAYOG_H

#include <stddef.h>
#include <stdint.h>

#ifdef __cplusplus
extern "C" {
#endif

/* The version. While the first number is 0, a new second number may change functions. */
#define BUNLAYOG_VERSION "0.1.0"
#define BUNLAYOG_VERSION_MAJOR 0
#define BUNLAYOG_VERSION_MINOR 1
#define BUNLAYOG_VERSION_PATCH 0

/* What a call answers. Behind each function below stand the refusals that it can be given: those that are checked first, and behind the
 * semicolon those of its work. 1 to 9 and then 28 are checked first, smallest number first; then the work runs, and its first step to meet one of
 * 10 to 18 decides; then comes 27, and 19 last. 20 to 26 are not given. bunlayog_text.h has a text for each. */
enum bunlayog_refusal {
    BUNLAYOG_OK = 0,
    /* the pool breaks a rule, or a table has another length */
    BUNLAYOG_BROKEN_POOL = 1,
    /* a node number given is not below the count */
    BUNLAYOG_UNKNOWN_NODE = 2,
    /* a variable number is above 65,535 */
    BUNLAYOG_UNKNOWN_VARIABLE = 3,
    /* a literal or point is outside the literal range */
    BUNLAYOG_NOT_LITERAL = 4,
    /* an order is above 24, an expansion's list has 0 or more than 25 entries, a coefficient index is outside its list, or subst gets two lists of unequal length */
    BUNLAYOG_WRONG_ORDER = 5,
    /* a table of values has more than 65,536 entries, or a residue in it is 2,147,483,647 or more */
    BUNLAYOG_WRONG_VALUES = 6,
    /* a node file is shorter than 4 bytes, its n is 0 or above 4,096, or its length is not 4 + 9 * n */
    BUNLAYOG_WRONG_LENGTH = 7,
    /* an entry of the file is no node by the table and the literal range, or a part is not below the entry's own number */
    BUNLAYOG_WRONG_ENTRY = 8,
    /* the file's entries are not in the writing order */
    BUNLAYOG_WRONG_SEQUENCE = 9,
    /* a Max is reached by derive, by an expansion or by printing, or max is asked of an expansion that is no constant */
    BUNLAYOG_MAX_REACHED = 10,
    /* exp or log of a literal is needed that has none */
    BUNLAYOG_NO_EXP_OR_LOG = 11,
    /* a folded literal leaves the literal range */
    BUNLAYOG_OUT_OF_RANGE = 12,
    /* an exponent sum is above 4,294,967,295 */
    BUNLAYOG_EXPONENT_TOO_LARGE = 13,
    /* a constructor would run at depth 201 */
    BUNLAYOG_TOO_DEEP = 14,
    /* a variable that is reached has no entry in the table of values */
    BUNLAYOG_NO_VALUE = 15,
    /* evaluation comes to Exp or Log, or by residues to Max, its parts being done, or a key strip is to be made of an expression that reaches Exp or Log */
    BUNLAYOG_NOT_EVALUATED = 16,
    /* by residues, a divisor has no inverse */
    BUNLAYOG_NO_INVERSE = 17,
    /* one more node is needed and the count is 4,096 */
    BUNLAYOG_POOL_FULL = 18,
    /* the lent output is too short, or a text or key strip has more than 65,535 bytes */
    BUNLAYOG_NO_ROOM = 19,
    /* more than 128 places would be in use */
    BUNLAYOG_TOO_MANY_PLACES = 27,
    /* a code is unknown, what follows a code is cut off or breaks the table or literal range, values are missing, more than 128 places are needed, or not exactly one value is left */
    BUNLAYOG_WRONG_STRIP = 28
};

/* The kinds of nodes, and what the word of each holds. A part is the number of an earlier node. */
enum bunlayog_kind {
    BUNLAYOG_KIND_VARIABLE = 1, /* its number */
    BUNLAYOG_KIND_LIT = 2,      /* a signed whole number, two's complement */
    BUNLAYOG_KIND_ADD = 3,      /* left + 2^32 * right */
    BUNLAYOG_KIND_MUL = 4,      /* left + 2^32 * right */
    BUNLAYOG_KIND_DIV = 5,      /* left + 2^32 * right */
    BUNLAYOG_KIND_EXP = 6,      /* the argument */
    BUNLAYOG_KIND_LOG = 7,      /* the argument */
    BUNLAYOG_KIND_POW = 8,      /* base + 2^32 * exponent */
    BUNLAYOG_KIND_MAX = 9       /* left + 2^32 * right */
};

/* Limits. */
#define BUNLAYOG_LIMIT 4096                                /* nodes of a pool, and entries of each of its tables */
#define BUNLAYOG_VARIABLE_MAX 65535                        /* a variable's number */
#define BUNLAYOG_LITERAL_MAX INT64_C(9007199254740991)     /* a literal or point: 2^53 - 1 */
#define BUNLAYOG_LITERAL_MIN (-BUNLAYOG_LITERAL_MAX)
#define BUNLAYOG_EXPONENT_MIN 2                            /* the exponent of a Pow node */
#define BUNLAYOG_EXPONENT_MAX UINT32_C(4294967295)
#define BUNLAYOG_DEPTH_MAX 200                             /* constructors that run inside one another */
#define BUNLAYOG_ORDER_MAX 24                              /* an order */
#define BUNLAYOG_TERMS 25                                  /* entries of an expansion's array */
#define BUNLAYOG_VALUES_MAX 65536                          /* entries of a table of values */
#define BUNLAYOG_MODULUS UINT32_C(2147483647)              /* a residue is below it */
#define BUNLAYOG_TEXT_MAX 65535                            /* bytes of a text */
#define BUNLAYOG_FILE_MAX 36868                            /* bytes of a node file: 4 + 9 * BUNLAYOG_LIMIT */
#define BUNLAYOG_STRIP_MAX 65535                           /* bytes of a key strip that is made; one that is run may be longer */
#define BUNLAYOG_PLACES_MAX 128                            /* places of the machine that runs a key strip */

/* The length of an expansion that is a constant. */
#define BUNLAYOG_CONSTANT UINT64_C(18446744073709551615)

/* A pool to lend. The two macros use their argument more than once. */
struct bunlayog_pool {
    uint8_t kinds[BUNLAYOG_LIMIT];
    uint64_t words[BUNLAYOG_LIMIT];
    uint64_t count; /* how many nodes there are; their numbers are 0 to count - 1 */
};

#define BUNLAYOG_LEND(pool) (pool)->kinds, BUNLAYOG_LIMIT, (pool)->words, BUNLAYOG_LIMIT, &(pool)->count
#define BUNLAYOG_LEND_READ(pool) (pool)->kinds, BUNLAYOG_LIMIT, (pool)->words, BUNLAYOG_LIMIT, (pool)->count

/* A caller that does not look at an answer is warned. */
#ifdef __GNUC__
#define BUNLAYOG_CHECKED __attribute__((warn_unused_result))
#else
#define BUNLAYOG_CHECKED
#endif

/* The arguments that BUNLAYOG_LEND_READ and BUNLAYOG_LEND write. The lengths are those of the tables, in entries. */
#define BUNLAYOG_POOL_READ const uint8_t *kinds, size_t kinds_len, const uint64_t *words, size_t words_len, uint64_t count
#define BUNLAYOG_POOL uint8_t *kinds, size_t kinds_len, uint64_t *words, size_t words_len, uint64_t *count

/* BUNLAYOG_OK where the tables and the count are a pool that keeps the rules, else 1. The rules: each table has BUNLAYOG_LIMIT entries, the
 * count is at most that, each entry below the count is a node whose parts have smaller numbers, and every later entry is 0 in both. */
BUNLAYOG_CHECKED uint32_t bunlayog_check(BUNLAYOG_POOL_READ); /* 1 */

/* A new literal, from BUNLAYOG_LITERAL_MIN to BUNLAYOG_LITERAL_MAX, or a new variable, 0 to BUNLAYOG_VARIABLE_MAX; *node is its number. */
BUNLAYOG_CHECKED uint32_t bunlayog_lit(BUNLAYOG_POOL, int64_t value, uint64_t *node); /* 1, 4; 18 */
BUNLAYOG_CHECKED uint32_t bunlayog_var(BUNLAYOG_POOL, uint64_t number, uint64_t *node); /* 1, 3; 18 */

/* The constructors. *node is the answer's number; nodes are appended as the rules need them, and the answer may be a node that was there.
 * The first step that meets a refusal decides: 11 (exp or log of a literal that has none), 12 (a folded literal leaves the range), 13 (an
 * exponent sum above BUNLAYOG_EXPONENT_MAX), 14 (a constructor at depth 201), 18 (the pool is full). */
BUNLAYOG_CHECKED uint32_t bunlayog_add(BUNLAYOG_POOL, uint64_t lhs, uint64_t rhs, uint64_t *node); /* 1, 2; 12, 14, 18 */
BUNLAYOG_CHECKED uint32_t bunlayog_mul(BUNLAYOG_POOL, uint64_t lhs, uint64_t rhs, uint64_t *node); /* 1, 2; 11, 12, 13, 14, 18 */
BUNLAYOG_CHECKED uint32_t bunlayog_div(BUNLAYOG_POOL, uint64_t lhs, uint64_t rhs, uint64_t *node); /* 1, 2; 18 */
BUNLAYOG_CHECKED uint32_t bunlayog_max(BUNLAYOG_POOL, uint64_t lhs, uint64_t rhs, uint64_t *node); /* 1, 2; 18 */
BUNLAYOG_CHECKED uint32_t bunlayog_neg(BUNLAYOG_POOL, uint64_t arg, uint64_t *node); /* 1, 2; 18 */
BUNLAYOG_CHECKED uint32_t bunlayog_exp(BUNLAYOG_POOL, uint64_t arg, uint64_t *node); /* 1, 2; 11, 14, 18 */
BUNLAYOG_CHECKED uint32_t bunlayog_log(BUNLAYOG_POOL, uint64_t arg, uint64_t *node); /* 1, 2; 11, 14, 18 */
BUNLAYOG_CHECKED uint32_t bunlayog_pow(BUNLAYOG_POOL, uint64_t base, uint32_t exp, uint64_t *node); /* 1, 2; 18 */

/* The expression at root with each variable of number var replaced by the node value. A node whose parts stay the same is kept, the others
 * are built by the constructors, left before right and each once; *node is the new root. */
BUNLAYOG_CHECKED uint32_t bunlayog_substitute_var(BUNLAYOG_POOL, uint64_t root, uint64_t var, uint64_t value, uint64_t *node); /* 1, 2, 3; 11, 12, 13, 14, 18 */

/* The derivative of the expression at root by a variable; *node is its root. A quotient a/b gives (a * db - b * da) / b^2, which has the other
 * sign than the calculus. */
BUNLAYOG_CHECKED uint32_t bunlayog_derive(BUNLAYOG_POOL, uint64_t root, uint64_t var, uint64_t *node); /* 1, 2, 3; 10, 11, 12, 13, 14, 18 */

/* The value of the expression at root as a double, from a table in which entry v is the value of variable v; *bits are its 64 bits, of a NaN
 * always 7FF8000000000000 (hexadecimal). Each operation rounds once. */
BUNLAYOG_CHECKED uint32_t bunlayog_evaluate(BUNLAYOG_POOL_READ, uint64_t root, const double *values, size_t values_len, uint64_t *bits); /* 1, 2, 6; 15, 16 */

/* The same by residues of the modulus BUNLAYOG_MODULUS. */
BUNLAYOG_CHECKED uint32_t bunlayog_evaluate_residue(BUNLAYOG_POOL_READ, uint64_t root, const uint32_t *values, size_t values_len, uint32_t *residue); /* 1, 2, 6; 15, 16, 17 */

/* The text of the expression at root. *written is how many bytes of the output it takes; those past it stay as they were, and no 0 is put
 * after it. BUNLAYOG_TEXT_MAX bytes take every text. 10 where a Max is reachable. */
BUNLAYOG_CHECKED uint32_t bunlayog_print(BUNLAYOG_POOL_READ, uint64_t root, uint8_t *out, size_t out_len, uint64_t *written); /* 1, 2; 10, 19 */

/* The node file of the expression at root: n (32 bits, low byte first), n kinds, n words of 8 bytes (low byte first), of the reachable nodes in
 * the writing order. *written is how many bytes it has; BUNLAYOG_FILE_MAX take every file. */
BUNLAYOG_CHECKED uint32_t bunlayog_write(BUNLAYOG_POOL_READ, uint64_t root, uint8_t *out, size_t out_len, uint64_t *written); /* 1, 2; 19 */

/* Appends the nodes of a node file, their parts shifted by the count; *root is its root. */
BUNLAYOG_CHECKED uint32_t bunlayog_read(BUNLAYOG_POOL, const uint8_t *file, size_t file_len, uint64_t *root); /* 1, 7, 8, 9; 18 */

/* The key strip of the expression at root, for a calculator with a stack: the strip of a node's left part, that of its right part, then its own code, which
 * is its kind; shared parts are repeated. A variable's number (16 bits), a literal (64 bits) or an exponent (32 bits) follows its code, low byte first.
 * *written is how many bytes of the output it takes; those past it stay as they were. BUNLAYOG_STRIP_MAX bytes take every strip. 16 where an Exp or Log is
 * reachable, which have no code; then 27 where running it would need more than BUNLAYOG_PLACES_MAX places; then 19 where it has more than
 * BUNLAYOG_STRIP_MAX bytes or the output is too short. */
BUNLAYOG_CHECKED uint32_t bunlayog_strip(BUNLAYOG_POOL_READ, uint64_t root, uint8_t *out, size_t out_len, uint64_t *written); /* 1, 2; 16, 19, 27 */

/* Runs a key strip, of any length and from anywhere, on a machine with BUNLAYOG_PLACES_MAX places: no pool is needed. 1 pushes a variable, 2 a literal; 3, 4, 5
 * and 9 combine the two topmost values, the lower one being the left; 8 raises the topmost. Entry v of the table is the value of variable v; *bits are the 64
 * bits of the double that is left, any NaN as 7FF8000000000000 (hexadecimal): of a strip that bunlayog_strip made, what bunlayog_evaluate gives of the
 * expression. 28 is for the whole strip, before any value is looked at; 15 where a variable that is pushed has no entry. */
BUNLAYOG_CHECKED uint32_t bunlayog_run_strip(const uint8_t *strip, size_t strip_len, const double *values, size_t values_len, uint64_t *bits); /* 6, 28; 15 */

/* Expansions. An expansion is a length and an array of BUNLAYOG_TERMS node numbers, coefficient 0 first. The length is how many entries its
 * list has, 1 to BUNLAYOG_TERMS, one more than its order; or it is BUNLAYOG_CONSTANT, and entry 0 is the constant's node. Entries past the end
 * are not read in arguments and are 0 in answers. Where two lists are given, the answer has the length of the shorter. Coefficients are not
 * simplified beyond the constructors' rules. 2 is given where an entry that is read is no node. */
#define BUNLAYOG_ONE uint64_t length, const uint64_t coeffs[BUNLAYOG_TERMS]
#define BUNLAYOG_TWO uint64_t lhs_length, const uint64_t lhs[BUNLAYOG_TERMS], uint64_t rhs_length, const uint64_t rhs[BUNLAYOG_TERMS]
#define BUNLAYOG_OUT uint64_t *length_out, uint64_t coeffs_out[BUNLAYOG_TERMS]

/* The expansion of a variable at the node x to an order: order + 1 entries, x, 1, 0, 0, .. */
BUNLAYOG_CHECKED uint32_t bunlayog_taylor_var(BUNLAYOG_POOL, uint64_t x, uint64_t order, BUNLAYOG_OUT); /* 1, 2, 5; 18 */

/* The expansion of given coefficients: the same one, with 0 past its end. */
BUNLAYOG_CHECKED uint32_t bunlayog_taylor_from_coefficients(BUNLAYOG_POOL_READ, BUNLAYOG_ONE, BUNLAYOG_OUT); /* 1, 2, 5 */

/* How many coefficients there are, which is the length given once it is found to be one: BUNLAYOG_CONSTANT of a constant. */
BUNLAYOG_CHECKED uint32_t bunlayog_taylor_order(BUNLAYOG_POOL_READ, BUNLAYOG_ONE, uint64_t *length_out); /* 1, 2, 5 */

/* Coefficient index, and the derivative of order index, which is that coefficient times a factorial (12 from 19! on). A positive index of a
 * constant gives a new literal 0. */
BUNLAYOG_CHECKED uint32_t bunlayog_taylor_coeff(BUNLAYOG_POOL, BUNLAYOG_ONE, uint64_t index, uint64_t *node); /* 1, 2, 5; 18 */
BUNLAYOG_CHECKED uint32_t bunlayog_taylor_derivative(BUNLAYOG_POOL, BUNLAYOG_ONE, uint64_t index, uint64_t *node); /* 1, 2, 5; 12, 18 */

/* exp, log and the negative of an expansion, and a power of it. */
BUNLAYOG_CHECKED uint32_t bunlayog_taylor_exp(BUNLAYOG_POOL, BUNLAYOG_ONE, BUNLAYOG_OUT); /* 1, 2, 5; 11, 12, 13, 14, 18 */
BUNLAYOG_CHECKED uint32_t bunlayog_taylor_log(BUNLAYOG_POOL, BUNLAYOG_ONE, BUNLAYOG_OUT); /* 1, 2, 5; 11, 12, 13, 14, 18 */
BUNLAYOG_CHECKED uint32_t bunlayog_taylor_neg(BUNLAYOG_POOL, BUNLAYOG_ONE, BUNLAYOG_OUT); /* 1, 2, 5; 18 */
BUNLAYOG_CHECKED uint32_t bunlayog_taylor_pow(BUNLAYOG_POOL, BUNLAYOG_ONE, uint32_t exp, BUNLAYOG_OUT); /* 1, 2, 5; 11, 12, 13, 14, 18 */

/* The four operations; a Max node of two constants (10 where one is a list); and the expansion lhs with rhs put for its variable. */
BUNLAYOG_CHECKED uint32_t bunlayog_taylor_add(BUNLAYOG_POOL, BUNLAYOG_TWO, BUNLAYOG_OUT); /* 1, 2, 5; 12, 14, 18 */
BUNLAYOG_CHECKED uint32_t bunlayog_taylor_sub(BUNLAYOG_POOL, BUNLAYOG_TWO, BUNLAYOG_OUT); /* 1, 2, 5; 12, 14, 18 */
BUNLAYOG_CHECKED uint32_t bunlayog_taylor_mul(BUNLAYOG_POOL, BUNLAYOG_TWO, BUNLAYOG_OUT); /* 1, 2, 5; 11, 12, 13, 14, 18 */
BUNLAYOG_CHECKED uint32_t bunlayog_taylor_div(BUNLAYOG_POOL, BUNLAYOG_TWO, BUNLAYOG_OUT); /* 1, 2, 5; 11, 12, 13, 14, 18 */
BUNLAYOG_CHECKED uint32_t bunlayog_taylor_max(BUNLAYOG_POOL, BUNLAYOG_TWO, BUNLAYOG_OUT); /* 1, 2, 5; 10, 18 */
BUNLAYOG_CHECKED uint32_t bunlayog_taylor_subst(BUNLAYOG_POOL, BUNLAYOG_TWO, BUNLAYOG_OUT); /* 1, 2, 5; 11, 12, 13, 14, 18 */

/* The expansion of the expression at root by a variable to an order, at the variable itself or at a whole number x. */
BUNLAYOG_CHECKED uint32_t bunlayog_taylor_coeffs(BUNLAYOG_POOL, uint64_t root, uint64_t var, uint64_t order, BUNLAYOG_OUT); /* 1, 2, 3, 5; 10, 11, 12, 13, 14, 18 */
BUNLAYOG_CHECKED uint32_t bunlayog_taylor_coeffs_at(BUNLAYOG_POOL, uint64_t root, uint64_t var, int64_t x, uint64_t order, BUNLAYOG_OUT); /* 1, 2, 3, 4, 5; 10, 11, 12, 13, 14, 18 */

#undef BUNLAYOG_ONE
#undef BUNLAYOG_TWO
#undef BUNLAYOG_OUT
#undef BUNLAYOG_POOL
#undef BUNLAYOG_POOL_READ

#ifdef __cplusplus
}
#endif

#endif
