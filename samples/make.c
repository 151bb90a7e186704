/* Makes the samples anew, with the engine's own calls. Writes NAME.bin and NAME.txt of each into the folder that is given.
 *
 *     cc -Iinclude samples/make.c crates/bunlayog/out/libbunlayog.a -o make_samples && ./make_samples samples */
#include "bunlayog.h"
#include "bunlayog_text.h"

#include <stdio.h>
#include <stdlib.h>

static struct bunlayog_pool pool;

static void need(uint32_t answer) {
    if (answer != BUNLAYOG_OK) {
        fprintf(stderr, "refused %u: %s\n", (unsigned)answer, bunlayog_refusal_text(answer));
        exit(1);
    }
}

static uint64_t lit(int64_t value) {
    uint64_t node;
    need(bunlayog_lit(BUNLAYOG_LEND(&pool), value, &node));
    return node;
}

static uint64_t power(uint64_t base, uint32_t exp) {
    uint64_t node;
    need(bunlayog_pow(BUNLAYOG_LEND(&pool), base, exp, &node));
    return node;
}

#define TWO(name, function)                                    \
    static uint64_t name(uint64_t lhs, uint64_t rhs) {         \
        uint64_t node;                                         \
        need(function(BUNLAYOG_LEND(&pool), lhs, rhs, &node)); \
        return node;                                           \
    }
TWO(sum, bunlayog_add)
TWO(product, bunlayog_mul)
TWO(quotient, bunlayog_div)

static void put(const char *folder, const char *name, const char *end, const uint8_t *bytes, uint64_t size) {
    char path[4096];
    FILE *f;
    snprintf(path, sizeof path, "%s/%s.%s", folder, name, end);
    f = fopen(path, "wb");
    if (f == NULL || fwrite(bytes, 1, (size_t)size, f) != size || fclose(f) != 0) {
        perror(path);
        exit(1);
    }
}

static void save(const char *folder, const char *name, uint64_t root) {
    static uint8_t file[BUNLAYOG_FILE_MAX], text[BUNLAYOG_TEXT_MAX + 1];
    uint64_t size, length;
    need(bunlayog_write(BUNLAYOG_LEND_READ(&pool), root, file, sizeof file, &size));
    need(bunlayog_print(BUNLAYOG_LEND_READ(&pool), root, text, BUNLAYOG_TEXT_MAX, &length));
    text[length] = '\n';
    put(folder, name, "bin", file, size);
    put(folder, name, "txt", text, length + 1);
}

int main(int argc, char **argv) {
    uint64_t x, above, e, l;
    if (argc != 2) return 2;
    need(bunlayog_var(BUNLAYOG_LEND(&pool), 0, &x));

    /* x^3 - 2x + 5 */
    save(argv[1], "polynomial", sum(sum(power(x, 3), product(lit(-2), x)), lit(5)));

    /* (x + 1) / (x^2 + 3) */
    above = sum(x, lit(1));
    save(argv[1], "quotient", quotient(above, sum(power(x, 2), lit(3))));

    /* exp(x) * log(x + 1) */
    need(bunlayog_exp(BUNLAYOG_LEND(&pool), x, &e));
    need(bunlayog_log(BUNLAYOG_LEND(&pool), sum(x, lit(1)), &l));
    save(argv[1], "exp_log", product(e, l));
    return 0;
}
