// The opponent of a whole run: a hand-made program that reads a run file and its tables and prints the report
// that `glass run` prints, byte for byte, on one thread. It reads loosely, refuses nothing and keeps nothing.
//
//     g++ -std=c++20 -O3 -march=x86-64-v3 run.cpp -o run_c
//     ./run_c RUN
#include "run_totals.h"
#include <algorithm>
#include <cstdio>
#include <fstream>
#include <functional>
#include <memory>
#include <sstream>
#include <string>
#include <vector>

// ---- exchange
static u64 decide(const u32 cold[64], const u32 hot[64], Wheel &w, Work &k, const std::vector<u64> &entries) {
    generate(w, k, 64);
    u64 m = 0, n = entries.size();
    for (int b = 0; b < 64; b++) {
        i64 gap = i64(hot[b]) - i64(cold[b]);
        u64 at = u64(gap - 1) / 2;
        bool yes = gap <= 0 || (at < n && k.draws[b] < entries[at]);
        m |= u64(yes) << b;
    }
    return m;
}
static void exchange(Replica &a, Replica &b, u64 mask) {
    for (int c = 0; c < 2; c++) {
        u64 *p = a.s[c].p, *q = b.s[c].p;
        size_t n = a.s[c].n;
        for (size_t i = 0; i < n; i++) {
            u64 t = (p[i] ^ q[i]) & mask;
            p[i] ^= t;
            q[i] ^= t;
        }
    }
    for (int i = 0; i < 64; i++)
        if (mask >> i & 1) std::swap(a.labels[i], b.labels[i]);
}

// ---- plan and run
struct Config {
    int size;
    Rule rule;
    std::vector<Row> rows;
    std::vector<std::vector<u64>> swaps;
    bool random_j;
    u32 sweeps;
    u64 seed;
    int samples;
    u64 epochs, every;
    bool random_start, spins;
};
struct Rec {
    int e0, e1, q;
    u8 r0, r1;
};
struct Stand {
    int L, T;
    std::vector<Replica> reps;
    std::vector<Wheel> pairs;
    Couplings J;
};
INL size_t compact_at(int L, int x, int y, int z) {
    return size_t(z) * L * L / 2 + size_t(y) * L / 2 + x / 2;
}
static void draws_of(const Wheel &from, std::vector<u32> &out, size_t n) { // a long list of draws
    Wheel w = from;
    out.resize(n);
    Work *k = new Work;
    for (size_t i = 0; i < n; i += 2048) {
        int m = int(std::min<size_t>(2048, n - i));
        generate(w, *k, 2048);
        memcpy(&out[i], k->draws, m * 4);
    }
    delete k;
}
static void opening(Stand &st, const Config &c) {
    int L = st.L = c.size, T = st.T = int(c.rows.size());
    size_t V = size_t(L) * L * L;
    st.J.make(L);
    std::vector<u32> d;
    if (c.random_j) {
        std::vector<u64> neg(3 * V, 0);
        for (int b = 0; b < 64; b++) {
            draws_of(Wheel::seeded(c.seed, 3, b, 0, 0), d, 3 * V);
            for (size_t i = 0; i < 3 * V; i++) neg[i] |= u64(d[i] >> 31) << b;
        }
        size_t i = 0;
        for (int z = 0; z < L; z++)
            for (int y = 0; y < L; y++)
                for (int x = 0; x < L; x++, i++)
                    for (int k = 0; k < 3; k++)
                        st.J.neg[(x + y + z) & 1][k].p[compact_at(L, x, y, z)] = neg[3 * i + k];
    }
    st.reps.clear();
    st.reps.reserve(2 * T);
    for (int t = 0; t < T; t++)
        for (int h = 0; h < 2; h++) {
            st.reps.emplace_back();
            Replica &r = st.reps.back();
            r.make(L);
            memset(r.labels, t, 64);
            if (c.random_start) {
                draws_of(Wheel::seeded(c.seed, 4, t, h, 0), d, 2 * V);
                size_t i = 0;
                for (int z = 0; z < L; z++)
                    for (int y = 0; y < L; y++)
                        for (int x = 0; x < L; x++, i++)
                            r.s[(x + y + z) & 1].p[compact_at(L, x, y, z)] = u64(d[2 * i]) | u64(d[2 * i + 1])
                                                                                                 << 32;
            } else
                for (int k = 0; k < 2; k++)
                    for (size_t i = 0; i < V / 2; i++) r.s[k].p[i] = ~0ull;
            for (int k = 0; k < 2; k++)
                for (int z = 0; z < L; z++) r.wheels.p[k * L + z] = Wheel::seeded(c.seed, 1, t, 2 * h + k, z);
        }
    st.pairs.clear();
    for (int k = 0; k + 1 < T; k++)
        for (int h = 0; h < 2; h++) st.pairs.push_back(Wheel::seeded(c.seed, 2, k, h, 0));
}
// All epochs, slot by slot, then pair by pair. On large lattices both copies of a slot go together.
static void drive(Stand &st, const Config &c, std::vector<Rec> &recs) {
    struct alignas(64) Tot {
        u32 u[2][64];
    };
    const bool duo = st.L >= 32;
    const int T = st.T, L = st.L;
    const i64 V = i64(L) * L * L;
    std::vector<Tot> tot(T);
    auto work = std::make_unique<Work>();
    Work &w = *work;
    for (u64 e = 0; e < c.epochs; e++) {
        for (int t = 0; t < T; t++) {
            Replica &first = st.reps[2 * t], &second = st.reps[2 * t + 1];
            for (u32 s = 0; s < c.sweeps; s++) {
                if (duo) {
                    sweep(first, st.J, c.rows[t], c.rule, w, &second);
                    continue;
                }
                sweep(first, st.J, c.rows[t], c.rule, w);
            }
            unsatisfied(first, st.J, tot[t].u[0]);
            for (u32 s = 0; !duo && s < c.sweeps; s++) sweep(second, st.J, c.rows[t], c.rule, w);
            unsatisfied(second, st.J, tot[t].u[1]);
            if (e % c.every != c.every - 1) continue;
            u32 q[64];
            agreeing(first, second, q);
            u64 block = e / c.every * u64(c.samples) * T;
            for (int b = 0; b < c.samples; b++)
                recs[block + u64(b) * T + t] = {int(2 * i64(tot[t].u[0][b]) - 3 * V),
                                                int(2 * i64(tot[t].u[1][b]) - 3 * V), int(2 * i64(q[b]) - V),
                                                first.labels[b], second.labels[b]};
        }
        for (int t = int(e & 1); t + 1 < T; t += 2)
            for (int h = 0; h < 2; h++) {
                u64 m = decide(tot[t].u[h], tot[t + 1].u[h], st.pairs[2 * t + h], w, c.swaps[t]);
                if (m) exchange(st.reps[2 * t + h], st.reps[2 * t + 2 + h], m);
            }
    }
}
static void spin_hex(std::string &out, int L, const std::function<bool(size_t)> &at) {
    size_t V = size_t(L) * L * L;
    for (size_t i = 0; i < V; i += 4) {
        int n = 0;
        for (int k = 0; k < 4; k++) n = n * 2 + at(i + k);
        out += "0123456789abcdef"[n];
    }
}
static std::string report(const Config &c, const std::vector<Rec> &recs,
                          const std::function<bool(int, int, int, size_t)> &spin) {
    int T = int(c.rows.size());
    char s[160];
    std::string out;
    out.reserve(recs.size() * 40 + 200);
    snprintf(s, sizeof s, "glass 1 size=%d slots=%d samples=%d rule=%s from=0 to=%llu\n", c.size, T,
             c.samples, c.rule == Heat ? "heat" : "metropolis", (unsigned long long)c.epochs);
    out += s;
    size_t at = 0;
    auto num = [&](long long v) {
        char t[24];
        int n = 24;
        bool neg = v < 0;
        unsigned long long u = neg ? -v : v;
        do t[--n] = char('0' + u % 10);
        while (u /= 10);
        if (neg) t[--n] = '-';
        out.append(t + n, 24 - n);
    };
    for (u64 e = c.every - 1; e < c.epochs; e += c.every)
        for (int b = 0; b < c.samples; b++)
            for (int t = 0; t < T; t++) {
                const Rec &r = recs[at++];
                out += "row,";
                num(e);
                out += ',';
                num(b);
                out += ',';
                num(t);
                out += ',';
                num(r.e0);
                out += ',';
                num(r.e1);
                out += ',';
                num(r.q);
                out += ',';
                num(r.r0);
                out += ',';
                num(r.r1);
                out += '\n';
            }
    out += "end,";
    num(c.epochs);
    out += '\n';
    if (c.spins)
        for (int b = 0; b < c.samples; b++)
            for (int t = 0; t < T; t++)
                for (int h = 0; h < 2; h++) {
                    snprintf(s, sizeof s, "spin,%d,%d,%d,", b, t, h);
                    out += s;
                    spin_hex(out, c.size, [&](size_t i) { return spin(b, t, h, i); });
                    out += '\n';
                }
    return out;
}
static std::string run(const Config &c) {
    Stand st;
    opening(st, c);
    int T = st.T, L = st.L;
    std::vector<Rec> recs(c.epochs / c.every * c.samples * T);
    drive(st, c, recs);
    return report(c, recs, [&](int b, int t, int h, size_t i) {
        int x = i % L, y = i / L % L, z = int(i / L / L);
        return bool(st.reps[2 * t + h].s[(x + y + z) & 1].p[compact_at(L, x, y, z)] >> b & 1);
    });
}

// ---- files
static std::string slurp(const std::string &p) {
    std::ifstream f(p, std::ios::binary);
    if (!f) {
        fprintf(stderr, "run_c: no file %s\n", p.c_str());
        exit(7);
    }
    std::stringstream s;
    s << f.rdbuf();
    return s.str();
}
static std::vector<std::vector<u64>> table(const std::string &t) {
    std::vector<std::vector<u64>> out;
    std::stringstream s(t);
    std::string line;
    while (std::getline(s, line)) {
        while (!line.empty() && (line.back() == '\r')) line.pop_back();
        if (line.empty()) continue;
        out.emplace_back();
        std::stringstream l(line);
        std::string f;
        while (std::getline(l, f, ',')) out.back().push_back(strtoull(f.c_str(), nullptr, 10));
    }
    return out;
}
static Config read_run(const std::string &path) {
    Config c{};
    std::stringstream s(slurp(path));
    std::string line, rules, swaps, rule;
    while (std::getline(s, line)) {
        size_t eq = line.find('=');
        if (line.empty() || line[0] == '#' || eq == std::string::npos) continue;
        auto trim = [](std::string v) {
            size_t a = v.find_first_not_of(" \""), b = v.find_last_not_of(" \"\r");
            return a == std::string::npos ? std::string() : v.substr(a, b - a + 1);
        };
        std::string k = trim(line.substr(0, eq)), v = trim(line.substr(eq + 1));
        if (k == "size") c.size = atoi(v.c_str());
        else if (k == "rule") rule = v;
        else if (k == "rules") rules = v;
        else if (k == "swaps") swaps = v;
        else if (k == "couplings") c.random_j = v == "random";
        else if (k == "sweeps") c.sweeps = atoi(v.c_str());
        else if (k == "seed") c.seed = strtoull(v.c_str(), nullptr, 10);
        else if (k == "samples") c.samples = atoi(v.c_str());
        else if (k == "epochs") c.epochs = strtoull(v.c_str(), nullptr, 10);
        else if (k == "every") c.every = strtoull(v.c_str(), nullptr, 10);
        else if (k == "start") c.random_start = v == "random";
        else if (k == "spins") c.spins = v == "true";
    }
    c.rule = rule == "heat" ? Heat : Metro;
    size_t cut = path.find_last_of('/');
    std::string dir = cut == std::string::npos ? "" : path.substr(0, cut + 1);
    for (auto &r : table(slurp(dir + rules))) {
        Row w{};
        for (size_t i = 0; i < r.size() && i < 7; i++) w.v[i] = r[i];
        c.rows.push_back(w);
    }
    c.swaps = table(slurp(dir + swaps));
    return c;
}
int main(int argc, char **argv) {
    if (argc != 2) {
        fprintf(stderr, "usage: run_c RUN\n");
        return 2;
    }
    std::string out = run(read_run(argv[1]));
    fwrite(out.data(), 1, out.size(), stdout);
    return 0;
}
