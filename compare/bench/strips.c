/* Key strips as one would write them in C: what the engine's are measured beside. A strip is tested as a whole before any value is looked at, and then it runs. */
#include <stddef.h>
#include <stdint.h>
#include <string.h>

#define LIMIT 4096
#define LITERAL_MAX 9007199254740991
#define PLACES 128
#define STRIP_MAX 65535
#define VALUES_MAX 65536

uint32_t plain_check(const uint8_t *kinds, size_t kinds_len, const uint64_t *words, size_t words_len, uint64_t count);

static size_t following(uint8_t code)
{
    switch (code) {
    case 1: return 2;
    case 2: return 8;
    case 8: return 4;
    default: return 0;
    }
}

/* Whether bytes are a strip that the machine can run. */
static int is_strip(const uint8_t *strip, size_t len)
{
    size_t at = 0, depth = 0;
    while (at < len) {
        uint8_t code = strip[at++];
        if (len - at < following(code))
            return 0;
        switch (code) {
        case 1:
            depth++;
            break;
        case 2: {
            int64_t z;
            memcpy(&z, strip + at, 8);
            if (z < -LITERAL_MAX || z > LITERAL_MAX)
                return 0;
            depth++;
            break;
        }
        case 3: case 4: case 5: case 9:
            if (depth < 2)
                return 0;
            depth--;
            break;
        case 8: {
            uint32_t e;
            memcpy(&e, strip + at, 4);
            if (e < 2 || depth < 1)
                return 0;
            break;
        }
        default:
            return 0;
        }
        if (depth > PLACES)
            return 0;
        at += following(code);
    }
    return depth == 1;
}

static double power(double base, uint32_t e)
{
    double r = 1;
    for (;;) {
        if (e & 1)
            r *= base;
        e >>= 1;
        if (e == 0)
            return r;
        base *= base;
    }
}

static uint64_t bits_of(double x)
{
    uint64_t bits;
    if (x != x)
        return 0x7ff8000000000000;
    memcpy(&bits, &x, 8);
    return bits;
}

uint32_t plain_run_strip(const uint8_t *strip, size_t len, const double *values, size_t values_len, uint64_t *bits)
{
    double stack[PLACES];
    size_t at = 0, depth = 0;
    if (values_len > VALUES_MAX)
        return 6;
    if (!is_strip(strip, len))
        return 28;
    while (at < len) {
        switch (strip[at++]) {
        case 1: {
            uint16_t v;
            memcpy(&v, strip + at, 2);
            at += 2;
            if (v >= values_len)
                return 15;
            stack[depth++] = values[v];
            break;
        }
        case 2: {
            int64_t z;
            memcpy(&z, strip + at, 8);
            at += 8;
            stack[depth++] = (double)z;
            break;
        }
        case 3:
            depth--;
            stack[depth - 1] += stack[depth];
            break;
        case 4:
            depth--;
            stack[depth - 1] *= stack[depth];
            break;
        case 5:
            depth--;
            stack[depth - 1] /= stack[depth];
            break;
        case 8: {
            uint32_t e;
            memcpy(&e, strip + at, 4);
            at += 4;
            stack[depth - 1] = power(stack[depth - 1], e);
            break;
        }
        default: { /* 9 */
            double right = stack[--depth];
            if (!(stack[depth - 1] > right || right != right))
                stack[depth - 1] = right;
            break;
        }
        }
    }
    *bits = bits_of(stack[0]);
    return 0;
}

/* What is known of the strip of a node: whether an Exp or Log is in reach, the places and the bytes, these cut off above their limits. */
struct known {
    uint8_t no_code;
    uint8_t places;
    uint32_t bytes;
};

static struct known known_of(uint8_t kind, uint64_t word, const struct known *of)
{
    struct known leaf = {0, 1, kind == 1 ? 3 : 9};
    struct known l, r;
    if (kind < 3)
        return leaf;
    l = of[(uint32_t)word];
    if (kind == 6 || kind == 7) {
        l.no_code = 1;
    } else if (kind == 8) {
        l.bytes += 5;
    } else {
        r = of[word >> 32];
        l.no_code |= r.no_code;
        if (r.places + 1 > l.places)
            l.places = (uint8_t)(r.places + 1);
        l.bytes += r.bytes + 1;
    }
    if (l.places > PLACES)
        l.places = PLACES + 1;
    if (l.bytes > STRIP_MAX)
        l.bytes = STRIP_MAX + 1;
    return l;
}

static uint8_t *put(const uint8_t *kinds, const uint64_t *words, uint64_t i, uint8_t *to)
{
    uint64_t word = words[i];
    uint32_t high = (uint32_t)(word >> 32);
    if (kinds[i] > 2)
        to = put(kinds, words, (uint32_t)word, to);
    if (kinds[i] > 2 && kinds[i] != 8)
        to = put(kinds, words, high, to);
    *to++ = kinds[i];
    switch (kinds[i]) {
    case 1: memcpy(to, &word, 2); return to + 2;
    case 2: memcpy(to, &word, 8); return to + 8;
    case 8: memcpy(to, &high, 4); return to + 4;
    default: return to;
    }
}

uint32_t plain_strip(const uint8_t *kinds, size_t kinds_len, const uint64_t *words, size_t words_len, uint64_t count,
                     uint64_t root, uint8_t *out, size_t out_len, uint64_t *written)
{
    struct known of[LIMIT];
    if (plain_check(kinds, kinds_len, words, words_len, count))
        return 1;
    if (root >= count)
        return 2;
    for (uint64_t i = 0; i <= root; i++)
        of[i] = known_of(kinds[i], words[i], of);
    if (of[root].no_code)
        return 16;
    if (of[root].places > PLACES)
        return 27;
    if (of[root].bytes > STRIP_MAX || of[root].bytes > out_len)
        return 19;
    put(kinds, words, root, out);
    *written = of[root].bytes;
    return 0;
}
