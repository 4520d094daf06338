/* Times half products and sums of the proved library against two other implementations, in one run, on the same
   random codes, and compares every result.
     hardware   the F16C conversions and the f32 unit, rounding in the direction of the control register: products of two
                half values are exact in f32, and a sum that is rounded twice in one direction, or first to 24 and then
                to 11 digits at the nearest, is rounded right
     by hand    whole numbers in C: significands multiplied or aligned with a sticky bit, one rounding step
   "calls" calls a function for each pair; "rows" hands over two whole rows. */
#include <immintrin.h>
#include <stdint.h>
#include <stdio.h>
#include <stdlib.h>
#include <time.h>

uint32_t half_product(uint8_t mode, uint32_t a, uint32_t b);
uint32_t half_sum(uint8_t mode, uint32_t a, uint32_t b);
size_t half_products(uint8_t mode, const uint32_t *a, size_t na, const uint32_t *b, size_t nb, uint32_t *out, size_t no);
size_t half_sums(uint8_t mode, const uint32_t *a, size_t na, const uint32_t *b, size_t nb, uint32_t *out, size_t no);

enum { TOP = 31743, OVER = 31744, N = 1 << 14, ROUNDS = 200 };

/* ---- the hardware's, for machines with AVX2 and F16C; all else, as our library, is built for any x86-64 */

#pragma GCC push_options
#pragma GCC target("avx2,f16c")

static inline uint32_t hardware_one(int sum, uint32_t a, uint32_t b)
{
    if (a > TOP || b > TOP)
        return OVER;
    float x = _cvtsh_ss((unsigned short)a), y = _cvtsh_ss((unsigned short)b);
    return _cvtss_sh(sum ? x + y : x * y, _MM_FROUND_CUR_DIRECTION);
}

static const unsigned directions[3] = { _MM_ROUND_TOWARD_ZERO, _MM_ROUND_NEAREST, _MM_ROUND_UP };

__attribute__((noinline)) static uint32_t hardware_product(uint8_t mode, uint32_t a, uint32_t b) { (void)mode; return hardware_one(0, a, b); }
__attribute__((noinline)) static uint32_t hardware_sum(uint8_t mode, uint32_t a, uint32_t b) { (void)mode; return hardware_one(1, a, b); }

static inline __attribute__((always_inline)) void hardware_rows(int sum, const uint32_t *a, const uint32_t *b, uint32_t *out)
{
    const __m256i top = _mm256_set1_epi32(TOP), over = _mm256_set1_epi32(OVER);
    for (size_t i = 0; i < N; i += 8) {
        __m256i x = _mm256_loadu_si256((const __m256i *)(a + i)), y = _mm256_loadu_si256((const __m256i *)(b + i));
        __m256i past = _mm256_or_si256(_mm256_cmpgt_epi32(x, top), _mm256_cmpgt_epi32(y, top));
        __m128i xs = _mm_packus_epi32(_mm256_castsi256_si128(x), _mm256_extracti128_si256(x, 1));
        __m128i ys = _mm_packus_epi32(_mm256_castsi256_si128(y), _mm256_extracti128_si256(y, 1));
        __m256 p = _mm256_cvtph_ps(xs), q = _mm256_cvtph_ps(ys);
        __m256 r = sum ? _mm256_add_ps(p, q) : _mm256_mul_ps(p, q);
        __m256i wide = _mm256_cvtepu16_epi32(_mm256_cvtps_ph(r, _MM_FROUND_CUR_DIRECTION));
        _mm256_storeu_si256((__m256i *)(out + i), _mm256_blendv_epi8(wide, over, past));
    }
}

__attribute__((noinline)) static void hardware_products(uint8_t mode, const uint32_t *a, const uint32_t *b, uint32_t *out) { (void)mode; hardware_rows(0, a, b, out); }
__attribute__((noinline)) static void hardware_sums(uint8_t mode, const uint32_t *a, const uint32_t *b, uint32_t *out) { (void)mode; hardware_rows(1, a, b, out); }

#pragma GCC pop_options

/* ---- by hand, in whole numbers */

/* Rounds a significand of 14 bits below the one bit, with a sticky last bit, at the exponent e: four bits are dropped. */
static inline uint32_t round_pack(uint8_t mode, int e, uint32_t significand)
{
    uint32_t add = mode == 1 ? 8 : mode == 2 ? 15 : 0;
    if (e < 0) {
        int by = -e;
        significand = by < 31 ? significand >> by | ((significand << (32 - by)) != 0) : significand != 0;
        e = 0;
    } else if (e > 29 || (e == 29 && significand + add >= 0x8000)) {
        return mode == 0 ? TOP : OVER;
    }
    uint32_t dropped = significand & 15;
    significand = (significand + add) >> 4;
    if (mode == 1 && dropped == 8)
        significand &= ~1u;
    return significand ? ((uint32_t)e << 10) + significand : 0;
}

static inline void normal(uint32_t code, int *e, uint32_t *f)
{
    *e = (int)(code >> 10);
    *f = code & 1023;
    if (*e == 0) {
        int by = __builtin_clz(*f) - 21;
        *f <<= by;
        *e = 1 - by;
    } else
        *f |= 1024;
}

static inline uint32_t hand_product_one(uint8_t mode, uint32_t a, uint32_t b)
{
    if (a > TOP || b > TOP)
        return OVER;
    if (a == 0 || b == 0)
        return 0;
    int ea, eb;
    uint32_t fa, fb;
    normal(a, &ea, &fa);
    normal(b, &eb, &fb);
    int e = ea + eb - 15;
    uint32_t product = (fa << 4) * (fb << 5);
    uint32_t significand = product >> 16 | ((product & 0xffff) != 0);
    if (significand < 0x4000) {
        e -= 1;
        significand = product >> 15 | ((product & 0x7fff) != 0);
    }
    return round_pack(mode, e, significand);
}

static inline uint32_t hand_sum_one(uint8_t mode, uint32_t a, uint32_t b)
{
    if (a > TOP || b > TOP)
        return OVER;
    if (a < b) {
        uint32_t swap = a;
        a = b;
        b = swap;
    }
    int ea = (int)(a >> 10), eb = (int)(b >> 10);
    if (ea == 0)
        return a + b;
    uint32_t fa = (1024 | (a & 1023)) << 3, fb = (eb ? 1024 | (b & 1023) : b) << 3;
    int by = ea - (eb ? eb : 1);
    fb = by < 31 ? fb >> by | ((fb & ((1u << by) - 1)) != 0) : fb != 0;
    uint32_t significand = (fa + fb) << 1;
    int e = ea - 1;
    if (significand >= 0x8000) {
        significand = significand >> 1 | (significand & 1);
        e += 1;
    }
    return round_pack(mode, e, significand);
}

__attribute__((noinline)) static uint32_t hand_product(uint8_t mode, uint32_t a, uint32_t b) { return hand_product_one(mode, a, b); }
__attribute__((noinline)) static uint32_t hand_sum(uint8_t mode, uint32_t a, uint32_t b) { return hand_sum_one(mode, a, b); }
__attribute__((noinline)) static void hand_products(uint8_t mode, const uint32_t *a, const uint32_t *b, uint32_t *out) { for (size_t i = 0; i < N; i++) out[i] = hand_product_one(mode, a[i], b[i]); }
__attribute__((noinline)) static void hand_sums(uint8_t mode, const uint32_t *a, const uint32_t *b, uint32_t *out) { for (size_t i = 0; i < N; i++) out[i] = hand_sum_one(mode, a[i], b[i]); }

/* ---- ours, by rows */

static void our_products(uint8_t mode, const uint32_t *a, const uint32_t *b, uint32_t *out) { half_products(mode, a, N, b, N, out, N); }
static void our_sums(uint8_t mode, const uint32_t *a, const uint32_t *b, uint32_t *out) { half_sums(mode, a, N, b, N, out, N); }

/* ---- the clock */

typedef uint32_t one(uint8_t, uint32_t, uint32_t);
typedef void rows(uint8_t, const uint32_t *, const uint32_t *, uint32_t *);

static uint32_t first[N], second[N], results[3][N];

static double now(void)
{
    struct timespec t;
    clock_gettime(CLOCK_MONOTONIC, &t);
    return t.tv_sec * 1e9 + t.tv_nsec;
}

static double best_calls(one *f, uint8_t mode, uint32_t *out)
{
    double best = 1e30;
    one *volatile hidden = f;
    for (int k = 0; k < ROUNDS; k++) {
        one *g = hidden;
        double start = now();
        for (size_t i = 0; i < N; i++)
            out[i] = g(mode, first[i], second[i]);
        double taken = now() - start;
        if (taken < best)
            best = taken;
    }
    return best / N;
}

static double best_rows(rows *f, uint8_t mode, uint32_t *out)
{
    double best = 1e30;
    for (int k = 0; k < ROUNDS; k++) {
        double start = now();
        f(mode, first, second, out);
        double taken = now() - start;
        if (taken < best)
            best = taken;
    }
    return best / N;
}

static long differences;

static void print(const char *what, int mode, double ours, double hardware, double hand)
{
    for (size_t i = 0; i < N; i++)
        differences += (results[0][i] != results[1][i]) + (results[0][i] != results[2][i]);
    printf("%-14s mode %d: ours %5.2f ns, hardware %5.2f ns (ours / it %5.2f), by hand %5.2f ns (ours / it %5.2f)\n", what, mode, ours, hardware, ours / hardware, hand, ours / hand);
}

int main(void)
{
    srand(1);
    for (size_t i = 0; i < N; i++) {
        first[i] = (uint32_t)rand() % (TOP + 1);
        second[i] = (uint32_t)rand() % (TOP + 1);
    }
    unsigned before = _MM_GET_ROUNDING_MODE();
    for (int mode = 0; mode < 3; mode++) {
        _MM_SET_ROUNDING_MODE(directions[mode]);
        double ours = best_calls(half_product, mode, results[0]), hw = best_calls(hardware_product, mode, results[1]), hand = best_calls(hand_product, mode, results[2]);
        print("product calls", mode, ours, hw, hand);
        ours = best_calls(half_sum, mode, results[0]), hw = best_calls(hardware_sum, mode, results[1]), hand = best_calls(hand_sum, mode, results[2]);
        print("sum calls", mode, ours, hw, hand);
        ours = best_rows(our_products, mode, results[0]), hw = best_rows(hardware_products, mode, results[1]), hand = best_rows(hand_products, mode, results[2]);
        print("product rows", mode, ours, hw, hand);
        ours = best_rows(our_sums, mode, results[0]), hw = best_rows(hardware_sums, mode, results[1]), hand = best_rows(hand_sums, mode, results[2]);
        print("sum rows", mode, ours, hw, hand);
    }
    _MM_SET_ROUNDING_MODE(before);
    printf("differences: %ld\n", differences);
    return differences != 0;
}
