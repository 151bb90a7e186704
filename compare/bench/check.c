/* The check of a pool by document 01's rules, as one would write it in C: what the engine's check is measured beside. */
#include <stddef.h>
#include <stdint.h>

#define LIMIT 4096
#define LITERAL_MAX 9007199254740991

static int keeps(uint32_t i, uint8_t kind, uint64_t word)
{
    uint32_t low = (uint32_t)word, high = (uint32_t)(word >> 32);
    int64_t z = (int64_t)word;
    switch (kind) {
    case 1: return word <= 65535;
    case 2: return -LITERAL_MAX <= z && z <= LITERAL_MAX;
    case 3: case 4: case 5: case 9: return low < i && high < i;
    case 6: case 7: return word < i;
    case 8: return low < i && high >= 2;
    default: return 0;
    }
}

uint32_t plain_check(const uint8_t *kinds, size_t kinds_len, const uint64_t *words, size_t words_len, uint64_t count)
{
    if (kinds_len != LIMIT || words_len != LIMIT || count > LIMIT)
        return 1;
    for (uint32_t i = 0; i < LIMIT; i++) {
        if (i < count) {
            if (!keeps(i, kinds[i], words[i]))
                return 1;
        } else if (kinds[i] != 0 || words[i] != 0) {
            return 1;
        }
    }
    return 0;
}
