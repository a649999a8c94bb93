// The sums of run.cpp: unsatisfied bonds and agreeing sites of 64 samples at once, by adders over words.
#pragma once
#include "run_lattice.h"

template <class V> struct Counter { // per lane and sample a number of 20 planes
    using T = typename V::T;
    T a[20];
    Counter() {
        for (auto &x : a) x = V::splat(0);
    }
    INL void fa(T &acc, T x, T y, T &c) {
        T s;
        full<V>(acc, x, y, s, c);
        acc = s;
    }
    INL void ha(T &acc, T x, T &c) {
        c = V::an(acc, x);
        acc = V::x(acc, x);
    }
    INL void ripple(Counter &k, int from, T c) {
        for (int i = from; i < 20; i++) {
            T n;
            ha(k.a[i], c, n);
            c = n;
        }
    }
    // Sums the lanes bit-sliced, and turns the first `planes` planes into 64 numbers by transposing blocks of
    // 8 by 8 bits.
    void finish(u32 out[64], int planes) {
        alignas(64) u64 w[24][V::W];
        memset(w, 0, sizeof w);
        for (int i = 0; i < planes; i++) V::store(w[i], a[i]);
        for (int step = V::W / 2; step; step /= 2)
            for (int l = 0; l < step; l++) {
                u64 c = 0;
                for (int i = 0; i < planes; i++) {
                    u64 x = w[i][l], y = w[i][l + step];
                    w[i][l] = x ^ y ^ c;
                    c = (x & y) | (c & (x ^ y));
                }
            }
        memset(out, 0, 256);
        for (int g = 0; g < planes; g += 8)
            for (int k = 0; k < 8; k++) {
                u64 x = 0, t;
                for (int i = 0; i < 8; i++) x |= (w[g + i][0] >> (8 * k) & 255) << (8 * i);
                t = (x ^ (x >> 7)) & 0x00aa00aa00aa00aaull;
                x ^= t ^ (t << 7);
                t = (x ^ (x >> 14)) & 0x0000cccc0000ccccull;
                x ^= t ^ (t << 14);
                t = (x ^ (x >> 28)) & 0x00000000f0f0f0f0ull;
                x ^= t ^ (t << 28);
                for (int i = 0; i < 8; i++) out[8 * k + i] |= u32(x >> (8 * i) & 255) << g;
            }
    }
};
static int bits_for(u64 n) {
    int b = 0;
    while (n >> b) b++;
    return b;
}
template <class V, int LC> static void unsat_as(const Replica &r, const Couplings &J, u32 out[64]) {
    using T = typename V::T;
    using C = Counter<V>;
    constexpr int W = V::W;
    const int L = LC ? LC : r.L, H = L / 2, HV = H / W;
    C k;
    T held = V::splat(0);
    bool odd = false;
    T b0[4], b1[4], b2[4];
    int at = 0;
    for (int z = 0; z < L; z++) {
        const PlaneAt q = plane_at(r.s[1].p, J, 0, z, H, L);
        const u64 *m = r.s[0].p + size_t(z) * H * L;
        auto count = [&](size_t y, i64 up, i64 dn, int j, bool p, T &c0, T &c1, T &c2)
            __attribute__((always_inline)) {
            T n[6], s = V::x(V::load(m + y + j * W), V::splat(~0ull)); // so that "satisfied" says unsatisfied
            six<V, true>(q, y, up, dn, j, HV, p, s, n);
            count6<V>(n, c0, c1, c2);
        };
        auto take = [&]() __attribute__((always_inline)) {
            T p0, p1, q0, q1, q2, r0, r1, r2, r3, t0, t1, u;
            C::fa(k.a[0], b0[0], b0[1], p0);
            C::fa(k.a[0], b0[2], b0[3], p1);
            C::fa(k.a[1], b1[0], b1[1], q0);
            C::fa(k.a[1], b1[2], b1[3], q1);
            C::fa(k.a[1], p0, p1, q2);
            C::fa(k.a[2], b2[0], b2[1], r0);
            C::fa(k.a[2], b2[2], b2[3], r1);
            C::fa(k.a[2], q0, q1, r2);
            C::ha(k.a[2], q2, r3);
            C::fa(k.a[3], r0, r1, t0);
            C::fa(k.a[3], r2, r3, t1);
            C::fa(k.a[4], t0, t1, u);
            if (odd) {
                T c;
                C::fa(k.a[5], held, u, c);
                C::ripple(k, 6, c);
            } else held = u;
            odd = !odd;
        };
        auto go = [&](size_t y, i64 up, i64 dn, bool p) __attribute__((always_inline)) {
            for (int j = 0; j < HV; j++) {
                count(y, up, dn, j, p, b0[at], b1[at], b2[at]);
                if (++at == 4) {
                    at = 0;
                    take();
                }
            }
        };
        if (LC && LC * HV % 4 == 0) { // four vectors at a time, their places known
            bool p0 = z & 1;
            const i64 h = H, last = i64(L - 1) * H;
            const int R = HV >= 4 ? 1 : 4 / HV; // rows in a group
            for (int y = 0; y < L; y += R) {
                if (HV >= 4)
                    for (int j = 0; j < HV; j += 4) {
                        i64 up = y + 1 == L ? -last : h, dn = y ? -h : last;
                        bool p = p0 ^ (y & 1);
                        if (p)
                            for (int e = 0; e < 4; e++)
                                count(y * h, up, dn, j + e, true, b0[e], b1[e], b2[e]);
                        else
                            for (int e = 0; e < 4; e++)
                                count(y * h, up, dn, j + e, false, b0[e], b1[e], b2[e]);
                        take();
                    }
                else {
                    i64 dn = y ? -h : last,
                        up = y + R == L ? -last : h; // R is even, so the parities alternate from p0
                    if (p0)
                        for (int e = 0; e < 4; e++) {
                            int i = e / HV;
                            count((y + i) * h, i + 1 == R ? up : h, i ? -h : dn, e % HV, !(i & 1), b0[e],
                                  b1[e], b2[e]);
                        }
                    else
                        for (int e = 0; e < 4; e++) {
                            int i = e / HV;
                            count((y + i) * h, i + 1 == R ? up : h, i ? -h : dn, e % HV, i & 1, b0[e], b1[e],
                                  b2[e]);
                        }
                    take();
                }
            }
        } else if (z & 1) each_row<true>(H, L, go);
        else each_row<false>(H, L, go);
    }
    if (odd) C::ripple(k, 5, held);
    for (int i = 0; i < at; i++) { // left over where the count of vectors is no multiple of 4
        T c;
        C::ha(k.a[0], b0[i], c);
        C::ripple(k, 1, c);
        C::ripple(k, 1, b1[i]);
        C::ripple(k, 2, b2[i]);
    }
    k.finish(out, bits_for(u64(L) * L * L * 3));
}
static void unsatisfied(const Replica &r, const Couplings &J, u32 out[64]) {
    switch (r.L) {

    case 8:
        unsat_as<VH, 8>(r, J, out);
        break;
    case 16:
        unsat_as<VW, 16>(r, J, out);
        break;
    case 32:
        unsat_as<VW, 32>(r, J, out);
        break;
    case 64:
        unsat_as<VW, 64>(r, J, out);
        break;
    default:
        if (r.L % 4 == 0) unsat_as<V2, 0>(r, J, out);
        else unsat_as<V1, 0>(r, J, out);
    }
}
static void agreeing(const Replica &a, const Replica &b0, u32 out[64]) {
    using V = VH;
    using T = V::T;
    using C = Counter<V>;
    C k;
    size_t n = a.s[0].n; // L^3/2, a multiple of 32
    T ones = V::splat(~0ull), held = V::splat(0);
    bool odd = false;
    const size_t step = 8 * V::W;
    u32 more[64] = {0};
    for (int c = 0; c < 2; c++)
        for (size_t i = n / step * step; i < n; i++)
            for (int b = 0; b < 64; b++) more[b] += ~(a.s[c].p[i] ^ b0.s[c].p[i]) >> b & 1;
    for (int c = 0; c < 2; c++)
        for (size_t i = 0; i + step <= n; i += step) {
            const u64 *p = a.s[c].p + i, *q = b0.s[c].p + i;
            T w[8];
            for (int j = 0; j < 8; j++) w[j] = V::x(V::x(V::load(p + j * V::W), V::load(q + j * V::W)), ones);
            T c0, c1, c2, c3, d0, d1, e;
            C::fa(k.a[0], w[0], w[1], c0);
            C::fa(k.a[0], w[2], w[3], c1);
            C::fa(k.a[0], w[4], w[5], c2);
            C::fa(k.a[0], w[6], w[7], c3);
            C::fa(k.a[1], c0, c1, d0);
            C::fa(k.a[1], c2, c3, d1);
            C::fa(k.a[2], d0, d1, e);
            if (odd) {
                T f;
                C::fa(k.a[3], held, e, f);
                C::ripple(k, 4, f);
            } else held = e;
            odd = !odd;
        }
    if (odd) C::ripple(k, 3, held);
    k.finish(out, bits_for(2 * n));
    for (int b = 0; b < 64; b++) out[b] += more[b];
}
