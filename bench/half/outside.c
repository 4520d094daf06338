/* Compares the proved library with the machine's own half conversions and f32 unit: every unordered pair of half codes,
   product and sum, in all three modes. Prints how many pairs were compared and how many differed. */
#include <immintrin.h>
#include <stdint.h>
#include <stdio.h>

size_t half_products(uint8_t mode, const uint32_t *a, size_t na, const uint32_t *b, size_t nb, uint32_t *out, size_t no);
size_t half_sums(uint8_t mode, const uint32_t *a, size_t na, const uint32_t *b, size_t nb, uint32_t *out, size_t no);

enum { CODES = 31744 };

static const unsigned directions[3] = { _MM_ROUND_TOWARD_ZERO, _MM_ROUND_NEAREST, _MM_ROUND_UP };
static uint32_t first[CODES], second[CODES], ours[CODES];

/* Products of half values are exact in f32. A sum may be rounded on the way, but in the direction of the mode, or at the
   nearest to more than twice the digits, so that the second rounding gives the right code. */
static long differences(int sum, uint32_t a, size_t from)
{
    long found = 0;
    float x = _cvtsh_ss((unsigned short)a);
    for (size_t b = from; b < CODES; b++) {
        float y = _cvtsh_ss((unsigned short)b);
        found += ours[b - from] != _cvtss_sh(sum ? x + y : x * y, _MM_FROUND_CUR_DIRECTION);
    }
    return found;
}

int main(void)
{
    static const char *const names[3] = { "toward zero", "to nearest", "up" };
    unsigned before = _MM_GET_ROUNDING_MODE();
    long all = 0;
    for (uint32_t b = 0; b < CODES; b++)
        second[b] = b;
    for (int sum = 0; sum < 2; sum++)
        for (int mode = 0; mode < 3; mode++) {
            long pairs = 0, found = 0;
            _MM_SET_ROUNDING_MODE(directions[mode]);
            for (uint32_t a = 0; a < CODES; a++) {
                size_t n = CODES - a;
                for (size_t i = 0; i < n; i++)
                    first[i] = a;
                pairs += (long)(sum ? half_sums : half_products)((uint8_t)mode, first, n, second + a, n, ours, n);
                found += differences(sum, a, a);
            }
            _MM_SET_ROUNDING_MODE(before);
            printf("%s %s: %ld pairs, %ld differences\n", sum ? "sum" : "product", names[mode], pairs, found);
            all += found;
        }
    return all != 0;
}
