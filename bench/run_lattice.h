// The packed lattice of run.cpp: random numbers, couplings, replicas, sweeps and sums of 64 samples at a
// time, on vectors as wide as a register of the processor (two words with SSE4.2, four with AVX2).
#pragma once
#include "draws.h"
#include <atomic>
#include <cstdint>
#include <cstdlib>
#include <cstring>
#include <immintrin.h>
#include <sys/mman.h>
using u8 = uint8_t;
using u32 = uint32_t;
using u64 = uint64_t;
using i64 = int64_t;
#define INL static inline __attribute__((always_inline))

// ---- random numbers
// 64 words; word 3 is I(n), word 63 is I(n + 60); the first three are not part of the wheel.
struct alignas(64) Wheel {
    u32 w[64];
    static Wheel seeded(u64 seed, u32 kind, u32 a, u32 b, u32 c) {
        stream from = ::seeded(seed, kind, a, b, c);
        Wheel r;
        r.w[0] = r.w[1] = r.w[2] = 0;
        memcpy(r.w + 3, from.ring, 61 * sizeof(u32));
        return r;
    }
};
// The draws of one wheel, n of them (n even), and the wheel moved on. The room of `out` is n rounded up
// to 16.
struct Work {
    alignas(64) u32 draws[2048 + 64];
    alignas(64) u32 line[2048 + 192];
}; // n is at most 2048
INL void generate(Wheel &wh, Work &k, int n) {
    memcpy(k.line, wh.w, 256);
    u32 *b = k.line + 64;
    int i = 0;
#ifdef __AVX2__
    __m256i p1 = _mm256_loadu_si256((const __m256i *)(b - 24)),
            p2 = _mm256_loadu_si256((const __m256i *)(b - 16)),
            p3 = _mm256_loadu_si256((const __m256i *)(b - 8));
    for (; i + 8 <= n; i += 8) {
        __m256i v = _mm256_add_epi32(p1, _mm256_loadu_si256((const __m256i *)(b + i - 55)));
        _mm256_storeu_si256((__m256i *)(b + i), v);
        _mm256_storeu_si256((__m256i *)(k.draws + i),
                            _mm256_xor_si256(v, _mm256_loadu_si256((const __m256i *)(b + i - 61))));
        p1 = p2;
        p2 = p3;
        p3 = v;
    }
#else
    for (; i + 4 <= n; i += 4) {
        __m128i v = _mm_add_epi32(_mm_loadu_si128((const __m128i *)(b + i - 24)),
                                  _mm_loadu_si128((const __m128i *)(b + i - 55)));
        _mm_storeu_si128((__m128i *)(b + i), v);
        _mm_storeu_si128((__m128i *)(k.draws + i),
                         _mm_xor_si128(v, _mm_loadu_si128((const __m128i *)(b + i - 61))));
    }
#endif
    for (int m = n & 7, e = 0; e < m && i < n; e++, i++) {
        b[i] = b[i - 24] + b[i - 55];
        k.draws[i] = b[i] ^ b[i - 61];
    }
    memcpy(wh.w, b + n - 64, 256);
}

// ---- vectors of words
struct V1 { // one word, for sides of which a row is odd
    static constexpr int W = 1;
    using T = u64;
    INL T load(const u64 *p) { return *p; }
    INL void store(u64 *p, T v) { *p = v; }
    INL T x(T a, T b) { return a ^ b; }
    INL T an(T a, T b) { return a & b; }
    INL T o(T a, T b) { return a | b; }
    INL T andn(T a, T b) { return ~a & b; }
    INL T up(T, T b) { return b; }
    INL T down(T p, T) { return p; }
    INL T draws(const u32 *d) { return *d; }
    INL T splat(u64 v) { return v; }
    INL T less(T d, T t) { return -u64(d < t); }
};
struct V2 { // 2 words, SSE4.2 (or VL)
    static constexpr int W = 2;
    using T = __m128i;
    INL T load(const u64 *p) { return _mm_load_si128((const T *)p); }
    INL void store(u64 *p, T v) { _mm_store_si128((T *)p, v); }
    INL T x(T a, T b) { return _mm_xor_si128(a, b); }
    INL T an(T a, T b) { return _mm_and_si128(a, b); }
    INL T o(T a, T b) { return _mm_or_si128(a, b); }
    INL T andn(T a, T b) { return _mm_andnot_si128(a, b); }
    INL T up(T a, T b) { return _mm_alignr_epi8(b, a, 8); }   // a1 b0
    INL T down(T p, T a) { return _mm_alignr_epi8(a, p, 8); } // p1 a0
    INL T draws(const u32 *d) { return _mm_cvtepu32_epi64(_mm_loadl_epi64((const T *)d)); }
    INL T splat(u64 v) { return _mm_set1_epi64x(i64(v)); }
    INL T less(T d, T t) { return _mm_cmpgt_epi64(t, d); }
};
#ifdef __AVX2__
struct V4 {
    static constexpr int W = 4;
    using T = __m256i;
    INL T load(const u64 *p) { return _mm256_load_si256((const T *)p); }
    INL void store(u64 *p, T v) { _mm256_store_si256((T *)p, v); }
    INL T x(T a, T b) { return _mm256_xor_si256(a, b); }
    INL T an(T a, T b) { return _mm256_and_si256(a, b); }
    INL T o(T a, T b) { return _mm256_or_si256(a, b); }
    INL T andn(T a, T b) { return _mm256_andnot_si256(a, b); }
    INL T up(T a, T b) { return _mm256_permute4x64_epi64(_mm256_blend_epi32(a, b, 0x03), 0x39); }
    INL T down(T p, T a) { return _mm256_permute4x64_epi64(_mm256_blend_epi32(a, p, 0xC0), 0x93); }
    INL T draws(const u32 *d) { return _mm256_cvtepu32_epi64(_mm_loadu_si128((const __m128i *)d)); }
    INL T splat(u64 v) { return _mm256_set1_epi64x(i64(v)); }
    INL T less(T d, T t) { return _mm256_cmpgt_epi64(t, d); }
};
#endif
template <class V>
INL void full(typename V::T a, typename V::T b, typename V::T c, typename V::T &s, typename V::T &k) {
    auto t = V::x(a, b);
    s = V::x(t, c);
    k = V::o(V::an(a, b), V::an(t, c));
}
template <class V>
INL void count6(const typename V::T n[6], typename V::T &b0, typename V::T &b1, typename V::T &b2) {
    typename V::T s1, c1, s2, c2;
    full<V>(n[0], n[1], n[2], s1, c1);
    full<V>(n[3], n[4], n[5], s2, c2);
    b0 = V::x(s1, s2);
    full<V>(c1, c2, V::an(s1, s2), b1, b2);
}

enum Rule { Heat, Metro };
struct Row {
    u64 v[7];
};
// The new spins of W words. `n` is aligned bits for heat bath, satisfied bits for Metropolis.
template <class V, Rule R>
INL typename V::T decide_spins(const typename V::T n[6], typename V::T s, typename V::T d,
                               const typename V::T *th) {
    using T = typename V::T;
    T b0, b1, b2;
    count6<V>(n, b0, b1, b2);
    {
        auto mux = [](T m, T a, T b) { return V::x(b, V::an(m, V::x(a, b))); };
        if constexpr (R == Metro) {
            T y = mux(b1, V::less(d, th[2]), mux(b0, V::less(d, th[1]), V::less(d, th[0])));
            return V::x(V::x(s, V::splat(~0ull)), V::andn(y, b2)); // s ^ (~b2 | y)
        } else {
            T m[7];
            for (int a = 0; a < 7; a++) m[a] = V::less(d, th[a]);
            T lo = mux(b1, mux(b0, m[3], m[2]), mux(b0, m[1], m[0]));
            T hi = mux(b1, m[6], mux(b0, m[5], m[4]));
            return mux(b2, hi, lo);
        }
    }
}

// ---- lattice data in compact order
// Word (z, y, xh) of a colour c is the site x = 2 xh + ((y + z + c) mod 2).
template <class T> struct Aligned {
    T *p = nullptr;
    size_t n = 0;
    void *whole = nullptr;
    // Arrays whose lengths are powers of two get different places modulo 4096, since a store and a later load
    // there would wait for each other.
    void make(size_t k) {
        static std::atomic<u32> count{0};
        size_t skew = (count++ % 9) * 448, bytes = (k * sizeof(T) + 4095) / 4096 * 4096 + 4096;
        size_t unit = bytes >= (1u << 20) ? 1u << 21 : 4096;
        n = k;
        whole = aligned_alloc(unit, (bytes + unit - 1) / unit * unit);
        if (unit > 4096) madvise(whole, bytes, MADV_HUGEPAGE);
        p = (T *)((char *)whole + skew);
        memset((void *)p, 0, k * sizeof(T));
    }
    ~Aligned() { free(whole); }
    Aligned() = default;
    Aligned(const Aligned &) = delete;
    Aligned(Aligned &&o) {
        p = o.p;
        n = o.n;
        whole = o.whole;
        o.p = nullptr;
        o.whole = nullptr;
    }
};
struct Couplings {
    int L;
    Aligned<u64> neg[2][3]; // neg[c][d][i]: forward bond d of that site
    void make(int l) {
        L = l;
        for (auto &c : neg)
            for (auto &d : c) d.make(size_t(l) * l * l / 2);
    }
};
struct Replica {
    int L;
    Aligned<u64> s[2];
    Aligned<Wheel> wheels;
    u8 labels[64];
    void make(int l) {
        L = l;
        s[0].make(size_t(l) * l * l / 2);
        s[1].make(size_t(l) * l * l / 2);
        wheels.make(2 * l);
    }
};

// The pointers of a plane of one colour c: the other colour's words of the plane and of those above and
// below, and the couplings.
struct PlaneAt {
    const u64 *o, *zu, *zd, *jx, *jy, *jz, *kx, *ky, *kz;
};
INL PlaneAt plane_at(const u64 *opp, const Couplings &J, int c, int z, int H, int L) {
    int zu = z + 1 == L ? 0 : z + 1, zd = z ? z - 1 : L - 1, k = 1 - c;
    size_t P = size_t(H) * L, me = P * z;
    return {opp + me,           opp + P * zu,       opp + P * zd,
            J.neg[c][0].p + me, J.neg[c][1].p + me, J.neg[c][2].p + me,
            J.neg[k][0].p + me, J.neg[k][1].p + me, J.neg[k][2].p + P * zd};
}
// The six neighbour bits at word `row + j W`: aligned (XOR with the coupling), or with SAT satisfied. `up`
// and `dn` lead to the rows y+1 and y-1. p is the parity of x.
template <class V, bool SAT>
INL void six(const PlaneAt &r, size_t row, i64 up, i64 dn, int j, int HV, bool p, typename V::T s,
             typename V::T n[6]) {
    using T = typename V::T;
    constexpr int W = V::W;
    size_t at = row + j * W;
    T o = V::load(r.o + at), f, b, jx = V::load(r.jx + at), kx = V::load(r.kx + at);
    if (!p) { // forward x is the same index, backward the one below
        size_t e = row + (j ? j - 1 : HV - 1) * W;
        T ok = V::x(o, kx);
        f = o;
        b = V::down(HV == 1 ? ok : V::x(V::load(r.o + e), V::load(r.kx + e)), ok);
    } else {
        size_t e = row + (j + 1 < HV ? j + 1 : 0) * W;
        f = V::up(o, HV == 1 ? o : V::load(r.o + e));
        b = V::x(o, kx);
    }
    T a1 = V::load(r.o + at + up), a2 = V::load(r.o + at + dn), a3 = V::load(r.zu + at),
      a4 = V::load(r.zd + at);
    T j1 = V::load(r.jy + at), j2 = V::load(r.ky + at + dn), j3 = V::load(r.jz + at), j4 = V::load(r.kz + at);
    if constexpr (SAT) {
        T q = V::x(s, V::splat(~0ull));
        n[0] = V::x(V::x(f, jx), q);
        n[1] = V::x(b, q);
        n[2] = V::x(V::x(a1, j1), q);
        n[3] = V::x(V::x(a2, j2), q);
        n[4] = V::x(V::x(a3, j3), q);
        n[5] = V::x(V::x(a4, j4), q);
    } else {
        n[0] = V::x(f, jx);
        n[1] = b;
        n[2] = V::x(a1, j1);
        n[3] = V::x(a2, j2);
        n[4] = V::x(a3, j3);
        n[5] = V::x(a4, j4);
    }
}
// Calls f(row, up, dn, parity) at each row of a plane; P0 is the parity of x in the first row.
template <bool P0, class F> INL void each_row(int H, int L, F f) {
    i64 h = H, last = i64(L - 1) * H;
    f(size_t(0), h, last, P0);
    for (i64 y = h; y < last; y += 2 * h) {
        f(size_t(y), h, -h, !P0);
        f(size_t(y + h), h, -h, P0);
    }
    f(size_t(last), -last, -h, !P0);
}
template <class V, Rule R, int LC>
static void half_plane(Replica &r, const Couplings &J, const Row &row, int c, int z, Work &work) {
    using T = typename V::T;
    constexpr int W = V::W;
    const int L = LC ? LC : r.L, H = L / 2, HV = H / W;
    generate(r.wheels.p[c * L + z], work, L * H);
    T th[7];
    for (int a = 0; a < (R == Metro ? 3 : 7); a++) th[a] = V::splat(row.v[a]);
    u64 *m = r.s[c].p + size_t(z) * H * L;
    const u32 *d = work.draws;
    const PlaneAt at = plane_at(r.s[1 - c].p, J, c, z, H, L);
    auto go = [&](size_t y, i64 up, i64 dn, bool p) __attribute__((always_inline)) {
        for (int j = 0; j < HV; j++) {
            T n[6], s = R == Metro ? V::load(m + y + j * W) : V::splat(0);
            six<V, R == Metro>(at, y, up, dn, j, HV, p, s, n);
            V::store(m + y + j * W, decide_spins<V, R>(n, s, V::draws(d + y + j * W), th));
        }
    };
    if ((z + c) & 1) each_row<true>(H, L, go);
    else each_row<false>(H, L, go);
}
// Colour 1 of a plane follows as soon as the planes of colour 0 that it sees are done: the couplings are read
// once per sweep. With `other` the two copies of a slot go plane by plane together, and share the couplings'
// way to the cache.
template <class V, Rule R, int LC>
static void sweep_as(Replica &r, const Couplings &J, const Row &row, Work &w, Replica *other) {
    int L = r.L;
    auto go = [&](int c, int z) {
        half_plane<V, R, LC>(r, J, row, c, z, w);
        if (other) half_plane<V, R, LC>(*other, J, row, c, z, w);
    };
    go(0, 0);
    go(0, 1);
    for (int z = 2; z < L; z++) {
        go(0, z);
        go(1, z - 1);
    }
    go(1, L - 1);
    go(1, 0);
}
#if defined(__AVX2__)
using VW = V4;
#else
using VW = V2;
#endif
#ifdef __AVX2__
using VH = V4;
#else
using VH = V2;
#endif
template <Rule R>
static void sweep_rule(Replica &r, const Couplings &J, const Row &row, Work &w, Replica *other) {
    switch (r.L) {
    case 8:
        sweep_as<VH, R, 8>(r, J, row, w, other);
        break;
    case 16:
        sweep_as<VW, R, 16>(r, J, row, w, other);
        break;
    case 32:
        sweep_as<VW, R, 32>(r, J, row, w, other);
        break;
    case 64:
        sweep_as<VW, R, 64>(r, J, row, w, other);
        break;
    default:
        if (r.L % 16 == 0) sweep_as<VW, R, 0>(r, J, row, w, other);
        else if (r.L % 8 == 0) sweep_as<VH, R, 0>(r, J, row, w, other);
        else if (r.L % 4 == 0) sweep_as<V2, R, 0>(r, J, row, w, other);
        else sweep_as<V1, R, 0>(r, J, row, w, other);
    }
}
static void sweep(Replica &r, const Couplings &J, const Row &row, Rule k, Work &w, Replica *other = nullptr) {
    if (k == Heat) sweep_rule<Heat>(r, J, row, w, other);
    else sweep_rule<Metro>(r, J, row, w, other);
}
