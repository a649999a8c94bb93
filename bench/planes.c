/* The correlations of the overlap's sums over planes of 64 samples in C, to compare with the crate plane_sums: from the
   packed spins of two replicas on the same words, timed as crates/bench_kernels times them, with AVX2. Checks itself
   against plain sums of one sample at a time, then prints the least nanoseconds of a pass, and the correlations of all
   samples in one number.

   1. Three projections. q = ~(s ^ s') goes plane by plane into rows sorted by x. Carry-save adders make of it
      R(z, y), S(z, x) and T(y, x), the sums of q over the third coordinate, log2(L) + 1 words of bits each.
   2. Nine families of planes. Each is a sum of L entries of one projection: along a row, a column or a diagonal.
      A diagonal is an unaligned load, since the rows of a projection are kept twice, one behind the other.
   3. Words of bits become 64 numbers of 16 bits: two exchanges of 8 by 8 bits, four planes at a time.
   4. Products of numbers, two planes in a multiply-add, eight samples in a vector. */
#include "plane_counts.h"

/* Exchanges bits between words i and i + s where the mask has them: 8 words of 8 by 8 bits are turned over. */
INLINE void turn_bits(V v[8]) {
    const V m1 = _mm256_set1_epi8(0x55), m2 = _mm256_set1_epi8(0x33), m4 = _mm256_set1_epi8(0x0f);
    for (int i = 0; i < 8; i += 2) {
        V t = and(xor(_mm256_srli_epi64(v[i], 1), v[i + 1]), m1);
        v[i + 1] = xor(v[i + 1], t);
        v[i] = xor(v[i], _mm256_slli_epi64(t, 1));
    }
    for (int j = 0; j < 8; j += 4)
        for (int i = j; i < j + 2; i++) {
            V t = and(xor(_mm256_srli_epi64(v[i], 2), v[i + 2]), m2);
            v[i + 2] = xor(v[i + 2], t);
            v[i] = xor(v[i], _mm256_slli_epi64(t, 2));
        }
    for (int i = 0; i < 4; i++) {
        V t = and(xor(_mm256_srli_epi64(v[i], 4), v[i + 4]), m4);
        v[i + 4] = xor(v[i + 4], t);
        v[i] = xor(v[i], _mm256_slli_epi64(t, 4));
    }
}

/* The numbers of four planes of a family. Place 8 i + j has sample 8 j + i. */
INLINE void numbers_as(const int L, const int wide) {
    const V square = _mm256_set1_epi16(L * L);
    for (int d = 0; d < FAMILIES; d++) {
        int sorted = d == 0 || (d >= 3 && d <= 6);
        for (int m = 0; m < L; m += 4) {
            V low[8], high[8];
            for (int w = 0; w < 8; w++) {
                low[w] = w < wide ? load(counts[d][w] + m) : _mm256_setzero_si256();
                high[w] = w + 8 < wide ? load(counts[d][w + 8] + m) : _mm256_setzero_si256();
            }
            turn_bits(low);
            if (wide > 8) turn_bits(high);
            int at[4];
            for (int i = 0; i < 4; i++)
                at[i] = sorted ? (m + i < L / 2 ? 2 * (m + i) : 2 * (m + i) - L + 1) : m + i;
            for (int i = 0; i < 8; i++) {
                V a = _mm256_unpacklo_epi8(low[i], high[i]), b = _mm256_unpackhi_epi8(low[i], high[i]);
                a = _mm256_sub_epi16(_mm256_slli_epi16(a, 1), square);
                b = _mm256_sub_epi16(_mm256_slli_epi16(b, 1), square);
                _mm_storeu_si128((__m128i *)(sums[d][at[0]] + 8 * i), _mm256_castsi256_si128(a));
                _mm_storeu_si128((__m128i *)(sums[d][at[2]] + 8 * i), _mm256_extracti128_si256(a, 1));
                _mm_storeu_si128((__m128i *)(sums[d][at[1]] + 8 * i), _mm256_castsi256_si128(b));
                _mm_storeu_si128((__m128i *)(sums[d][at[3]] + 8 * i), _mm256_extracti128_si256(b, 1));
            }
        }
    }
}

/* Adds 32-bit sums of 16 places to 64-bit ones. */
INLINE void widen(int64_t *to, V a, V b) {
    V low = _mm256_permute2x128_si256(a, b, 0x20), high = _mm256_permute2x128_si256(a, b, 0x31);
    V four[4] = {_mm256_cvtepi32_epi64(_mm256_castsi256_si128(low)), _mm256_cvtepi32_epi64(_mm256_extracti128_si256(low, 1)),
                 _mm256_cvtepi32_epi64(_mm256_castsi256_si128(high)), _mm256_cvtepi32_epi64(_mm256_extracti128_si256(high, 1))};
    for (int i = 0; i < 4; i++)
        _mm256_store_si256((V *)to + i, _mm256_add_epi64(_mm256_load_si256((V *)to + i), four[i]));
}

/* D(r) of a family, two planes at a time: pairs of P(m) and P(m + 1) against those r on. */
INLINE void products_as(const int L) {
    static V pairs[MOST + HALF + 1][2];
    for (int g = 0; g < 64; g += 16)
        for (int d = 0; d < FAMILIES; d++) {
            V next = _mm256_loadu_si256((const V *)(sums[d][0] + g));
            for (int m = 0; m < L; m++) {
                V a = next;
                next = _mm256_loadu_si256((const V *)(sums[d][(m + 1) % L] + g));
                pairs[m][0] = _mm256_unpacklo_epi16(a, next);
                pairs[m][1] = _mm256_unpackhi_epi16(a, next);
                if (m < L / 2) {
                    pairs[m + L][0] = pairs[m][0];
                    pairs[m + L][1] = pairs[m][1];
                }
            }
            int64_t(*to)[64] = d < 3 ? axis : face;
            /* Three distances at a time share the loads of one side. */
            for (int r = 0; r <= L / 2; r += 3) {
                V a[3] = {0}, b[3] = {0};
                int last = r + 2 <= L / 2 ? 2 : L / 2 - r;
                for (int m = 0; m < L; m += 2) {
                    V x = pairs[m][0], y = pairs[m][1];
                    for (int i = 0; i < 3; i++) {
                        int at = i <= last ? m + r + i : m + r;
                        a[i] = _mm256_add_epi32(a[i], _mm256_madd_epi16(x, pairs[at][0]));
                        b[i] = _mm256_add_epi32(b[i], _mm256_madd_epi16(y, pairs[at][1]));
                    }
                }
                for (int i = 0; i <= last; i++)
                    widen(to[r + i] + g, a[i], b[i]);
            }
        }
}

#define SIZED(NAME, CALL) \
    static __attribute__((noinline)) void NAME(int L) { \
        switch (L) { \
        case 8: { enum { N = 8, B = 4, W = 7 }; CALL; } break; \
        case 16: { enum { N = 16, B = 5, W = 9 }; CALL; } break; \
        case 32: { enum { N = 32, B = 6, W = 11 }; CALL; } break; \
        default: { enum { N = 64, B = 7, W = 13 }; CALL; } \
        } \
    }
SIZED(project, project_as(N, B))
SIZED(families, families_as(N, B, W))
SIZED(numbers, numbers_as(N, W))
SIZED(products, products_as(N))

/* The same one sample at a time. */
static int spin(const uint64_t *words, int L, int x, int y, int z, int sample) {
    int colour = (x + y + z) % 2;
    size_t at = (((size_t)colour * L + z) * L + y) * (L / 2) + x / 2;
    return words[at] >> sample & 1 ? 1 : -1;
}

static int check(int L, int sample) {
    for (int kind = 0; kind < 2; kind++) {
        int64_t want[HALF + 1] = {0};
        for (int d = kind ? 3 : 0; d < (kind ? 9 : 3); d++) {
            int64_t P[MOST] = {0};
            for (int z = 0; z < L; z++)
                for (int y = 0; y < L; y++)
                    for (int x = 0; x < L; x++) {
                        int m[9] = {x, y, z, x + y, x - y + L, x + z, x - z + L, y + z, y - z + L};
                        P[m[d] % L] += spin(first, L, x, y, z, sample) * spin(second, L, x, y, z, sample);
                    }
            for (int r = 0; r <= L / 2; r++)
                for (int m = 0; m < L; m++)
                    want[r] += P[m] * P[(m + r) % L];
        }
        for (int r = 0; r <= L / 2; r++)
            if (want[r] != (kind ? face : axis)[r][8 * (sample % 8) + sample / 8]) {
                printf("sample %d %s %d: %lld, not %lld\n", sample, kind ? "face" : "axis", r,
                       (long long)(kind ? face : axis)[r][8 * (sample % 8) + sample / 8], (long long)want[r]);
                return 1;
            }
    }
    return 0;
}

/* All correlations in one number. */
static uint64_t all_of(int L) {
    uint64_t all = 0;
    for (int r = 0; r <= L / 2; r++)
        for (int sample = 0; sample < 64; sample++) {
            int place = 8 * (sample % 8) + sample / 8;
            all = (all * 3 ^ (uint64_t)axis[r][place]) * 3 ^ (uint64_t)face[r][place];
        }
    return all;
}

int main(int argc, char **argv) {
    int L = argc == 3 ? atoi(argv[1]) : 0;
    if (L != 8 && L != 16 && L != 32 && L != 64) {
        fputs("usage: planes_c 8|16|32|64 PASSES\n", stderr);
        return 2;
    }
    long passes = atol(argv[2]);
    uint64_t state = 88172645463325252, least_time = UINT64_MAX;
    size_t volume = (size_t)L * L * L;
    for (size_t i = 0; i < volume; i++)
        first[i] = next_word(&state);
    for (size_t i = 0; i < volume; i++)
        second[i] = next_word(&state);
    for (long i = 0; i < passes; i++) {
        uint64_t start = now();
        memset(axis, 0, sizeof axis);
        memset(face, 0, sizeof face);
        project(L);
        families(L);
        numbers(L);
        products(L);
        least_time = least(least_time, now() - start);
    }
    for (int sample = 0; sample < 64; sample++)
        if (check(L, sample)) return 1;
    printf("planes %" PRIu64 " %" PRIu64 "\n", least_time, all_of(L));
    return 0;
}
