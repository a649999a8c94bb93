/* The counts of the overlap's planes of 64 samples, in bits: the three projections and the nine families of planes.
   bench/planes.c tells how, and makes numbers and correlations of them. */
#ifndef PLANE_COUNTS_H
#define PLANE_COUNTS_H
#include "common.h"
#include <immintrin.h>

#define INLINE static inline __attribute__((always_inline))

typedef __m256i V;

enum { MOST = 64, BITS = 13, HALF = MOST / 2, FAMILIES = 9 };

static uint64_t first[2 * MOST * MOST * HALF] __attribute__((aligned(64))),
    second[2 * MOST * MOST * HALF] __attribute__((aligned(64)));

/* Eight z planes of q: row (z, y) has its even x, then its odd x. Rows of a plane are a little apart. */
static uint64_t q[8][MOST * MOST + 8] __attribute__((aligned(64)));

/* The projections in bits, in the order [outer][bit][inner]. Of an inner x the even ones come before the odd ones.
   Each half is there twice, so that a turned row is one load. */
static uint64_t R[MOST][7][2 * MOST] __attribute__((aligned(64)));
static uint64_t S[MOST][7][4 * HALF + 8] __attribute__((aligned(64)));
static uint64_t T[MOST][7][4 * HALF + 8] __attribute__((aligned(64)));

/* T while it grows: each vector of x of a row y has its words of bits side by side. */
static uint64_t growing[MOST][MOST / 4][7][4] __attribute__((aligned(64)));

/* The counts of each family's planes in bits, and as numbers 2 count - L^2. */
static uint64_t counts[FAMILIES][BITS][MOST] __attribute__((aligned(64)));
static int16_t sums[FAMILIES][MOST][64] __attribute__((aligned(64)));

/* By r and place of a sample. */
static int64_t axis[HALF + 1][64] __attribute__((aligned(32))), face[HALF + 1][64] __attribute__((aligned(32)));

INLINE V load(const uint64_t *p) { return _mm256_loadu_si256((const V *)p); }
INLINE void store(uint64_t *p, V v) { _mm256_storeu_si256((V *)p, v); }
INLINE V xor(V a, V b) { return _mm256_xor_si256(a, b); }
INLINE V and(V a, V b) { return _mm256_and_si256(a, b); }
INLINE V or(V a, V b) { return _mm256_or_si256(a, b); }

INLINE void full(V a, V b, V c, V *low, V *high) {
    V either = xor(a, b);
    *low = xor(either, c);
    *high = or(and(a, b), and(either, c));
}

/* The count of eight vectors in four. */
INLINE void count8(const V v[8], V out[4]) {
    V a, b, c, d, e, f, g;
    full(v[0], v[1], v[2], &a, &b);
    full(v[3], v[4], v[5], &c, &d);
    full(a, c, v[6], &a, &e);
    out[0] = xor(a, v[7]);
    f = and(a, v[7]);
    full(b, d, e, &b, &g);
    out[1] = xor(b, f);
    c = and(b, f);
    out[2] = xor(g, c);
    out[3] = and(g, c);
}

/* Adds a number of n bits to one of m bits; the sum has at most m. */
INLINE void add(V *to, int m, const V *from, int n) {
    V carry = and(to[0], from[0]);
    to[0] = xor(to[0], from[0]);
    for (int w = 1; w < n; w++)
        full(to[w], from[w], carry, &to[w], &carry);
    for (int w = n; w < m; w++) {
        V next = and(to[w], carry);
        to[w] = xor(to[w], carry);
        carry = next;
    }
}

/* The sum of `count` vectors (a multiple of 8, up to 64) `step` words apart, in bits. */
INLINE void total(const uint64_t *p, size_t step, int count, int bits, V *out) {
    V v[8], four[4];
    for (int i = 0; i < 8; i++)
        v[i] = load(p + i * step);
    count8(v, out);
    for (int w = 4; w < bits; w++)
        out[w] = _mm256_setzero_si256();
    for (int k = 8; k < count; k += 8) {
        for (int i = 0; i < 8; i++)
            v[i] = load(p + (k + i) * step);
        count8(v, four);
        add(out, bits, four, 4);
    }
}

/* Row (z, y) of q, sorted by the parity of x. */
INLINE void make_row(int L, int z, int y, uint64_t *row) {
    size_t half = L / 2, colour = (size_t)L * L * half, at = ((size_t)z * L + y) * half;
    size_t even = (y + z) % 2 ? colour : 0, odd = colour - even;
    V ones = _mm256_set1_epi64x(-1);
    for (size_t k = 0; k < half; k += 4) {
        store(row + k, xor(xor(load(first + even + at + k), load(second + even + at + k)), ones));
        store(row + half + k, xor(xor(load(first + odd + at + k), load(second + odd + at + k)), ones));
    }
}

/* The four vectors with their lanes for their places. */
INLINE void turn4(V v[4]) {
    V a = _mm256_unpacklo_epi64(v[0], v[1]), b = _mm256_unpackhi_epi64(v[0], v[1]);
    V c = _mm256_unpacklo_epi64(v[2], v[3]), d = _mm256_unpackhi_epi64(v[2], v[3]);
    v[0] = _mm256_permute2x128_si256(a, c, 0x20);
    v[1] = _mm256_permute2x128_si256(b, d, 0x20);
    v[2] = _mm256_permute2x128_si256(a, c, 0x31);
    v[3] = _mm256_permute2x128_si256(b, d, 0x31);
}

/* R(z, y) of four rows, y to y + 3: lanes are summed by a turn of four vectors a bit. */
INLINE void sum_rows(int L, int bits, int z, int y, const uint64_t *plane) {
    int vectors = L / 4, own = 2;
    V n[4][7];
    while (1 << own <= vectors) own++;
    own = vectors >= 8 ? own : 2;
    for (int i = 0; i < 4; i++) {
        const uint64_t *row = plane + (size_t)(y + i) * L;
        if (vectors >= 8) {
            total(row, 4, vectors, own, n[i]);
        } else if (vectors == 4) {
            V a, b, d = load(row + 12);
            full(load(row), load(row + 4), load(row + 8), &a, &b);
            n[i][0] = xor(a, d);
            V c = and(a, d);
            n[i][1] = xor(b, c);
            n[i][2] = and(b, c);
        } else {
            V a = load(row), b = load(row + 4);
            n[i][0] = xor(a, b);
            n[i][1] = and(a, b);
        }
    }
    if (vectors == 4) own = 3;
    V part[4][7];
    for (int w = 0; w < own; w++) {
        V v[4] = {n[0][w], n[1][w], n[2][w], n[3][w]};
        turn4(v);
        for (int i = 0; i < 4; i++)
            part[i][w] = v[i];
    }
    for (int i = 0; i < 4; i++)
        for (int w = own; w < bits; w++)
            part[i][w] = _mm256_setzero_si256();
    add(part[0], own + 1, part[1], own);
    add(part[2], own + 1, part[3], own);
    add(part[0], bits, part[2], own + 1);
    for (int w = 0; w < bits; w++) {
        store(R[z][w] + y, part[0][w]);
        store(R[z][w] + y + L, part[0][w]);
    }
}

/* Stores a vector of x of one parity in both of its places. */
INLINE void put_twice(uint64_t *row, int half, int parity, int k, V v) {
    store(row + 2 * half * parity + k, v);
    store(row + 2 * half * parity + k + half, v);
}

INLINE void project_as(const int L, const int bits) {
    const int half = L / 2;
    for (int block = 0; block < L; block += 8) {
        for (int i = 0; i < 8; i++) {
            for (int y = 0; y < L; y++)
                make_row(L, block + i, y, q[i] + (size_t)y * L);
            for (int y = 0; y < L; y += 4)
                sum_rows(L, bits, block + i, y, q[i]);
            for (int parity = 0; parity < 2; parity++)
                for (int k = 0; k < half; k += 4) {
                    V n[7];
                    total(q[i] + parity * half + k, L, L, bits, n);
                    for (int w = 0; w < bits; w++)
                        put_twice(S[block + i][w], half, parity, k, n[w]);
                }
        }
        for (int y = 0; y < L; y++)
            for (int parity = 0; parity < 2; parity++)
                for (int k = 0; k < half; k += 4) {
                    V v[8], n[7], four[4];
                    for (int i = 0; i < 8; i++)
                        v[i] = load(q[i] + (size_t)y * L + parity * half + k);
                    count8(v, four);
                    if (block == 0) {
                        for (int w = 0; w < bits; w++)
                            n[w] = w < 4 ? four[w] : _mm256_setzero_si256();
                    } else {
                        for (int w = 0; w < bits; w++)
                            n[w] = load(growing[y][(parity * half + k) / 4][w]);
                        add(n, bits, four, 4);
                    }
                    if (block + 8 < L)
                        for (int w = 0; w < bits; w++)
                            store(growing[y][(parity * half + k) / 4][w], n[w]);
                    else
                        for (int w = 0; w < bits; w++)
                            put_twice(T[y][w], half, parity, k, n[w]);
                }
    }
}

/* Family d: the plane of (inner, outer) is inner, inner + outer or inner - outer, for a projection [outer][bit][y]. */
INLINE void family_of_rows(const int L, const int bits, const int wide, int d, int sign) {
    for (int m = 0; m < L; m += 4) {
        V n[BITS];
        for (int w = 0; w < wide; w++)
            n[w] = _mm256_setzero_si256();
        for (int z = 0; z < L; z++) {
            /* plane m = y + sign z, so y = m - sign z */
            int y = (m + (sign > 0 ? L - z : sign < 0 ? z : 0)) % L;
            V from[7];
            for (int w = 0; w < bits; w++)
                from[w] = load(R[z][w] + y);
            add(n, wide, from, bits);
        }
        for (int w = 0; w < wide; w++)
            store(counts[d][w] + m, n[w]);
    }
}

/* The same for a projection whose inner coordinate is x, even ones first. Planes come out even ones first too. */
INLINE void family_of_columns(const int L, const int bits, const int wide, uint64_t P[MOST][7][4 * HALF + 8], int d,
                              int sign) {
    const int half = L / 2;
    for (int parity = 0; parity < 2; parity++)
        for (int k = 0; k < half; k += 4) {
            V n[BITS];
            for (int w = 0; w < wide; w++)
                n[w] = _mm256_setzero_si256();
            for (int o = 0; o < L; o++) {
                /* plane m = 2 k + parity = x + sign o */
                int x = 2 * k + parity + (sign > 0 ? L - o : sign < 0 ? o : 0);
                int p = x % 2, at = x / 2 % half;
                V from[7];
                for (int w = 0; w < bits; w++)
                    from[w] = load(P[o][w] + 2 * half * p + at);
                add(n, wide, from, bits);
            }
            for (int w = 0; w < wide; w++)
                store(counts[d][w] + parity * half + k, n[w]);
        }
}

/* The sum over the inner coordinate: of each row (z, .) of R. */
INLINE void family_of_outer(const int L, const int bits, const int wide, int d) {
    for (int z = 0; z < L; z += 4) {
        V part[4][BITS];
        int own = bits + 1;
        while (1 << (own - bits) < L / 4 * 2 && own < wide) own++;
        for (int i = 0; i < 4; i++) {
            for (int w = 0; w < wide; w++)
                part[i][w] = _mm256_setzero_si256();
            for (int y = 0; y < L; y += 4) {
                V from[7];
                for (int w = 0; w < bits; w++)
                    from[w] = load(R[z + i][w] + y);
                add(part[i], wide, from, bits);
            }
        }
        for (int w = 0; w < wide; w++) {
            V v[4] = {part[0][w], part[1][w], part[2][w], part[3][w]};
            turn4(v);
            for (int i = 0; i < 4; i++)
                part[i][w] = v[i];
        }
        add(part[0], wide, part[1], wide);
        add(part[2], wide, part[3], wide);
        add(part[0], wide, part[2], wide);
        for (int w = 0; w < wide; w++)
            store(counts[d][w] + z, part[0][w]);
    }
}

INLINE void families_as(const int L, const int bits, const int wide) {
    family_of_columns(L, bits, wide, S, 0, 0);
    family_of_rows(L, bits, wide, 1, 0);
    family_of_outer(L, bits, wide, 2);
    family_of_columns(L, bits, wide, T, 3, 1);
    family_of_columns(L, bits, wide, T, 4, -1);
    family_of_columns(L, bits, wide, S, 5, 1);
    family_of_columns(L, bits, wide, S, 6, -1);
    family_of_rows(L, bits, wide, 7, 1);
    family_of_rows(L, bits, wide, 8, -1);
}

#endif
