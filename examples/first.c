/* A first program: builds x^3 - 2x + 5, derives it, expands it at 2, prints all of it, writes the node file and reads it back.
 *
 *     cc -Iinclude examples/first.c crates/bunlayog/out/libbunlayog.a -o first
 *     ./first mine.bin
 *     ./sheet.sh mine.bin 0 3 2
 *
 * The file's name may be left out; the file is then written and read in memory alone. C99, and C++11 as it stands. */
#include "bunlayog.h"
#include "bunlayog_text.h"

#include <stdio.h>
#include <stdlib.h>
#include <string.h>

/* A pool has 36 KB: better not on a small stack. All 0 it is empty. */
static struct bunlayog_pool pool, other;

/* Ends the program where a call is refused. */
static void need(const char *what, uint32_t answer) {
    if (answer != BUNLAYOG_OK) {
        fprintf(stderr, "%s: refused %u: %s\n", what, (unsigned)answer, bunlayog_refusal_text(answer));
        exit(1);
    }
}

static void show(const char *what, const struct bunlayog_pool *of, uint64_t node) {
    static uint8_t text[BUNLAYOG_TEXT_MAX];
    uint64_t length;
    need("print", bunlayog_print(BUNLAYOG_LEND_READ(of), node, text, sizeof text, &length));
    printf("%s: %.*s\n", what, (int)length, (const char *)text);
}

/* x^3 - 2x + 5, where x is variable 0, which is printed as a. A difference is a sum with a factor of -1, or here of -2. */
static uint64_t build(void) {
    uint64_t x, cube, minus_two, product, five, sum, root;
    need("var", bunlayog_var(BUNLAYOG_LEND(&pool), 0, &x));
    need("pow", bunlayog_pow(BUNLAYOG_LEND(&pool), x, 3, &cube));
    need("lit", bunlayog_lit(BUNLAYOG_LEND(&pool), -2, &minus_two));
    need("mul", bunlayog_mul(BUNLAYOG_LEND(&pool), minus_two, x, &product));
    need("lit", bunlayog_lit(BUNLAYOG_LEND(&pool), 5, &five));
    need("add", bunlayog_add(BUNLAYOG_LEND(&pool), cube, product, &sum));
    need("add", bunlayog_add(BUNLAYOG_LEND(&pool), sum, five, &root));
    return root;
}

static void expand(uint64_t root) {
    uint64_t length, coeffs[BUNLAYOG_TERMS];
    need("taylor_coeffs_at", bunlayog_taylor_coeffs_at(BUNLAYOG_LEND(&pool), root, 0, 2, 3, &length, coeffs));
    if (length == BUNLAYOG_CONSTANT) length = 1;
    for (uint64_t k = 0; k < length; k++) {
        char name[32];
        snprintf(name, sizeof name, "coefficient %u at 2", (unsigned)k);
        show(name, &pool, coeffs[k]);
    }
}

static void save(const char *name, const uint8_t *file, size_t size) {
    FILE *f = fopen(name, "wb");
    if (f == NULL || fwrite(file, 1, size, f) != size || fclose(f) != 0) {
        perror(name);
        exit(1);
    }
}

int main(int argc, char **argv) {
    static uint8_t file[BUNLAYOG_FILE_MAX], again[BUNLAYOG_FILE_MAX];
    uint64_t root, derivative, size, back, size_again;

    root = build();
    show("expression", &pool, root);
    need("derive", bunlayog_derive(BUNLAYOG_LEND(&pool), root, 0, &derivative));
    show("derivative", &pool, derivative);
    expand(root);

    need("write", bunlayog_write(BUNLAYOG_LEND_READ(&pool), root, file, sizeof file, &size));
    printf("file: %u bytes\n", (unsigned)size);
    if (argc > 1) save(argv[1], file, (size_t)size);

    need("read", bunlayog_read(BUNLAYOG_LEND(&other), file, (size_t)size, &back));
    show("read back", &other, back);
    need("write", bunlayog_write(BUNLAYOG_LEND_READ(&other), back, again, sizeof again, &size_again));
    printf("written again: %s\n", size_again == size && memcmp(file, again, (size_t)size) == 0 ? "the same bytes" : "other bytes");
    return 0;
}
