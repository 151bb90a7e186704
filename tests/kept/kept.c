/* Every entry point on nodes that are shared most and nested deepest: chains of 512 and 4,096 nodes of each kind, 14, 40, 127 and 4,095 doublings; and strips
   of three lengths, run. One call after the other runs in `counted`, whose instructions callgrind counts. Standard output has a line for each: the number of nodes, or of
   the strip's bytes, the call and the pool. */
#include "../c/case.h"

static uint8_t before_kinds[BUNLAYOG_LIMIT];
static uint64_t before_words[BUNLAYOG_LIMIT];
static uint64_t before_count;

static uint64_t root, node, order, coeffs[BUNLAYOG_TERMS], list[BUNLAYOG_TERMS];
static uint8_t out[BUNLAYOG_TEXT_MAX], file[BUNLAYOG_FILE_MAX];
static uint64_t file_len;
static uint32_t residue, refused; /* what a call answers does not matter here: its work is counted */
static const double doubles[1] = {1.5};
static const uint32_t residues[1] = {3};

#define TAYLOR(name, ...) bunlayog_taylor_##name(POOL, __VA_ARGS__, &order, coeffs)

static void check(void) { refused = bunlayog_check(POOL_READ); }
static void lit(void) { refused = bunlayog_lit(POOL, 5, &node); }
static void var(void) { refused = bunlayog_var(POOL, 0, &node); }
static void add(void) { refused = bunlayog_add(POOL, root, root, &node); }
static void mul(void) { refused = bunlayog_mul(POOL, root, root, &node); }
static void divide(void) { refused = bunlayog_div(POOL, root, root, &node); }
static void max(void) { refused = bunlayog_max(POOL, root, root, &node); }
static void neg(void) { refused = bunlayog_neg(POOL, root, &node); }
static void exponential(void) { refused = bunlayog_exp(POOL, root, &node); }
static void logarithm(void) { refused = bunlayog_log(POOL, root, &node); }
static void power(void) { refused = bunlayog_pow(POOL, root, 3, &node); }
static void substitute(void) { refused = bunlayog_substitute_var(POOL, root, 0, root, &node); }
static void substitute_other(void) { refused = bunlayog_substitute_var(POOL, root, 1, 0, &node); }
static void derive(void) { refused = bunlayog_derive(POOL, root, 0, &node); }
static void derive_other(void) { refused = bunlayog_derive(POOL, root, 1, &node); }
static void evaluate(void) { refused = bunlayog_evaluate(POOL_READ, root, doubles, 1, &node); }
static void evaluate_residue(void) { refused = bunlayog_evaluate_residue(POOL_READ, root, residues, 1, &residue); }
static void print(void) { refused = bunlayog_print(POOL_READ, root, out, sizeof out, &node); }
static void write_file(void) { refused = bunlayog_write(POOL_READ, root, out, sizeof out, &node); }
static void strip(void) { refused = bunlayog_strip(POOL_READ, root, out, sizeof out, &node); }
static void read_file(void) { refused = bunlayog_read(POOL, file, file_len, &node); }
static void taylor_var(void) { refused = TAYLOR(var, root, 24); }
static void taylor_from_coefficients(void) { refused = bunlayog_taylor_from_coefficients(POOL_READ, BUNLAYOG_TERMS, list, &order, coeffs); }
static void taylor_order(void) { refused = bunlayog_taylor_order(POOL_READ, BUNLAYOG_TERMS, list, &order); }
static void taylor_coeff(void) { refused = bunlayog_taylor_coeff(POOL, BUNLAYOG_TERMS, list, 24, &node); }
static void taylor_derivative(void) { refused = bunlayog_taylor_derivative(POOL, BUNLAYOG_TERMS, list, 18, &node); }
static void taylor_exp(void) { refused = TAYLOR(exp, BUNLAYOG_TERMS, list); }
static void taylor_log(void) { refused = TAYLOR(log, BUNLAYOG_TERMS, list); }
static void taylor_neg(void) { refused = TAYLOR(neg, BUNLAYOG_TERMS, list); }
static void taylor_pow(void) { refused = TAYLOR(pow, BUNLAYOG_TERMS, list, UINT32_MAX); }
static void taylor_add(void) { refused = TAYLOR(add, BUNLAYOG_TERMS, list, BUNLAYOG_TERMS, list); }
static void taylor_sub(void) { refused = TAYLOR(sub, BUNLAYOG_TERMS, list, BUNLAYOG_TERMS, list); }
static void taylor_mul(void) { refused = TAYLOR(mul, BUNLAYOG_TERMS, list, BUNLAYOG_TERMS, list); }
static void taylor_div(void) { refused = TAYLOR(div, BUNLAYOG_TERMS, list, BUNLAYOG_TERMS, list); }
static void taylor_max(void) { refused = TAYLOR(max, BUNLAYOG_CONSTANT, list, BUNLAYOG_CONSTANT, list); }
static void taylor_subst(void) { refused = TAYLOR(subst, BUNLAYOG_TERMS, list, BUNLAYOG_TERMS, list); }
static void taylor_coeffs(void) { refused = TAYLOR(coeffs, root, 0, 2); }
static void taylor_coeffs_other(void) { refused = TAYLOR(coeffs, root, 1, 24); }
static void taylor_coeffs_at(void) { refused = TAYLOR(coeffs_at, root, 0, 1, 2); }

static const struct {
    const char *name;
    void (*call)(void);
} calls[] = {
    {"check", check}, {"lit", lit}, {"var", var}, {"add", add}, {"mul", mul}, {"div", divide}, {"max", max}, {"neg", neg}, {"exp", exponential},
    {"log", logarithm}, {"pow", power}, {"substitute_var", substitute}, {"substitute_var-other", substitute_other}, {"derive", derive},
    {"derive-other", derive_other}, {"evaluate", evaluate}, {"evaluate_residue", evaluate_residue}, {"print", print}, {"write", write_file},
    {"read", read_file}, {"strip", strip}, {"taylor_var", taylor_var}, {"taylor_from_coefficients", taylor_from_coefficients}, {"taylor_order", taylor_order},
    {"taylor_coeff", taylor_coeff}, {"taylor_derivative", taylor_derivative}, {"taylor_exp", taylor_exp}, {"taylor_log", taylor_log},
    {"taylor_neg", taylor_neg}, {"taylor_pow", taylor_pow}, {"taylor_add", taylor_add}, {"taylor_sub", taylor_sub}, {"taylor_mul", taylor_mul},
    {"taylor_div", taylor_div}, {"taylor_max", taylor_max}, {"taylor_subst", taylor_subst}, {"taylor_coeffs", taylor_coeffs},
    {"taylor_coeffs-other", taylor_coeffs_other}, {"taylor_coeffs_at", taylor_coeffs_at},
};

__attribute__((noinline)) void counted(void (*call)(void)) {
    call();
    __asm__ volatile("" ::: "memory");
}

/* x0, and each further node of one kind over the one before: as its left part, its right part (x0 is the other), or as both. */
static void pool_of(uint8_t kind, uint64_t left, uint64_t right, uint64_t nodes) {
    memset(kinds, 0, sizeof kinds);
    memset(words, 0, sizeof words);
    set(0, 1, 0);
    for (uint64_t i = 1; i < nodes; i++) {
        uint64_t part = i - 1;
        set(i, kind, kind == 8 ? part + 2 * RIGHT : left * part + right * part * RIGHT);
    }
    count = nodes;
    root = nodes - 1;
}

static void on_pool(const char *pool, uint64_t nodes) {
    memcpy(before_kinds, kinds, sizeof kinds);
    memcpy(before_words, words, sizeof words);
    before_count = count;
    for (int i = 0; i < BUNLAYOG_TERMS; i++) {
        list[i] = root;
    }
    if (bunlayog_write(POOL_READ, root, file, sizeof file, &file_len) != 0) {
        wrong("a file");
    }
    for (size_t i = 0; i < sizeof calls / sizeof *calls; i++) {
        printf("%llu %s %s\n", (unsigned long long)nodes, calls[i].name, pool);
        counted(calls[i].call);
        memcpy(kinds, before_kinds, sizeof kinds);
        memcpy(words, before_words, sizeof words);
        count = before_count;
    }
}

/* What the machine is lent: its bytes, and how many of them. */
static uint8_t bytes_lent[1 << 18];
static size_t bytes_len;

static void run_strip(void) { refused = bunlayog_run_strip(bytes_lent, bytes_len, doubles, 1, &node); }

/* x0, and again and again some bytes, up to a length; then perhaps a byte that is no code. The answer is what the strip was made for. */
static void on_strip(const char *name, const uint8_t *piece, size_t piece_len, size_t length, int broken) {
    memcpy(bytes_lent, "\001\000", 3);
    for (bytes_len = 3; bytes_len + piece_len < length; bytes_len += piece_len) {
        memcpy(bytes_lent + bytes_len, piece, piece_len);
    }
    if (broken) {
        bytes_lent[bytes_len++] = 6;
    }
    printf("%llu run_strip %s%s\n", (unsigned long long)bytes_len, name, broken ? "-broken" : "");
    counted(run_strip);
    if (refused != (broken ? 28 : 0)) {
        wrong("a strip");
    }
}

static void on_strips(void) {
    static const struct {
        const char *name;
        uint8_t piece[12];
        size_t len;
    } shapes[] = {
        {"Add", {1, 0, 0, 3}, 4},          {"Mul", {1, 0, 0, 4}, 4},
        {"Div", {1, 0, 0, 5}, 4},          {"Max", {1, 0, 0, 9}, 4},
        {"Lit", {2, 7, 0, 0, 0, 0, 0, 0, 0, 3}, 10}, {"Pow", {8, 255, 255, 255, 255}, 5},
    };
    static const size_t lengths[] = {2048, 65536, sizeof bytes_lent};
    for (size_t i = 0; i < sizeof shapes / sizeof *shapes; i++) {
        for (size_t j = 0; j < 3; j++) {
            on_strip(shapes[i].name, shapes[i].piece, shapes[i].len, lengths[j], 0);
            on_strip(shapes[i].name, shapes[i].piece, shapes[i].len, lengths[j], 1);
        }
    }
}

int main(void) {
    static const struct {
        const char *name;
        uint8_t kind, left, right;
        uint64_t nodes;
    } shapes[] = {
        {"Add", 3, 1, 0, 512}, {"Add-right", 3, 0, 1, 512}, {"Mul", 4, 1, 0, 512}, {"Mul-right", 4, 0, 1, 512}, {"Div", 5, 1, 0, 512},
        {"Div-right", 5, 0, 1, 512}, {"Exp", 6, 1, 0, 512}, {"Log", 7, 1, 0, 512}, {"Pow", 8, 1, 0, 512}, {"Max", 9, 1, 0, 512},
        {"Max-right", 9, 0, 1, 512}, {"Add-both", 3, 1, 1, 41}, {"Mul-both", 4, 1, 1, 41}, {"Div-both", 5, 1, 1, 41}, {"Max-both", 9, 1, 1, 41},
    };
    for (size_t i = 0; i < sizeof shapes / sizeof *shapes; i++) {
        uint64_t lengths[] = {shapes[i].nodes, BUNLAYOG_LIMIT};
        for (size_t j = 0; j < 2; j++) {
            pool_of(shapes[i].kind, shapes[i].left, shapes[i].right, lengths[j]);
            on_pool(shapes[i].name, lengths[j]);
        }
    }
    /* a strip of 65,535 bytes, and one of 2^129 - 1 */
    pool_of(3, 1, 1, 15);
    on_pool("Add-both", 15);
    pool_of(3, 1, 1, 128);
    on_pool("Add-both", 128);
    on_strips();
    return failed;
}
