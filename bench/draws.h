/* The random numbers of docs/specification/random_numbers.md: a generator seeded by its label, and its
   numbers one at a time. */
#include <stdint.h>
#include <string.h>

/* Word k of the stream stands at k mod 64, and k is the next. */
typedef struct {
    uint32_t ring[64];
    unsigned k;
} stream;

static inline uint32_t turned(uint32_t word, int places) { return word >> places | word << (32 - places); }

static const uint32_t ROUND[64] = {
    0x428a2f98, 0x71374491, 0xb5c0fbcf, 0xe9b5dba5, 0x3956c25b, 0x59f111f1, 0x923f82a4, 0xab1c5ed5,
    0xd807aa98, 0x12835b01, 0x243185be, 0x550c7dc3, 0x72be5d74, 0x80deb1fe, 0x9bdc06a7, 0xc19bf174,
    0xe49b69c1, 0xefbe4786, 0x0fc19dc6, 0x240ca1cc, 0x2de92c6f, 0x4a7484aa, 0x5cb0a9dc, 0x76f988da,
    0x983e5152, 0xa831c66d, 0xb00327c8, 0xbf597fc7, 0xc6e00bf3, 0xd5a79147, 0x06ca6351, 0x14292967,
    0x27b70a85, 0x2e1b2138, 0x4d2c6dfc, 0x53380d13, 0x650a7354, 0x766a0abb, 0x81c2c92e, 0x92722c85,
    0xa2bfe8a1, 0xa81a664b, 0xc24b8b70, 0xc76c51a3, 0xd192e819, 0xd6990624, 0xf40e3585, 0x106aa070,
    0x19a4c116, 0x1e376c08, 0x2748774c, 0x34b0bcb5, 0x391c0cb3, 0x4ed8aa4a, 0x5b9cca4f, 0x682e6ff3,
    0x748f82ee, 0x78a5636f, 0x84c87814, 0x8cc70208, 0x90befffa, 0xa4506ceb, 0xbef9a3f7, 0xc67178f2,
};

/* The SHA-256 digest (FIPS 180-4) of a message of seven big-endian words, which fits one block. */
static void digest_of(const uint32_t message[7], uint32_t digest[8]) {
    static const uint32_t first[8] = {0x6a09e667, 0xbb67ae85, 0x3c6ef372, 0xa54ff53a,
                                      0x510e527f, 0x9b05688c, 0x1f83d9ab, 0x5be0cd19};
    uint32_t w[64] = {0}, h[8];
    memcpy(w, message, 7 * sizeof *w);
    w[7] = 0x80000000;
    w[15] = 7 * 32;
    for (int t = 16; t < 64; t++) {
        uint32_t a = w[t - 15], b = w[t - 2];
        uint32_t low = turned(a, 7) ^ turned(a, 18) ^ (a >> 3), high = turned(b, 17) ^ turned(b, 19) ^ (b >> 10);
        w[t] = high + w[t - 7] + low + w[t - 16];
    }
    memcpy(h, first, sizeof h);
    for (int t = 0; t < 64; t++) {
        uint32_t a = h[0], e = h[4];
        uint32_t choice = (e & h[5]) ^ (~e & h[6]), majority = (a & h[1]) ^ (a & h[2]) ^ (h[1] & h[2]);
        uint32_t one = h[7] + (turned(e, 6) ^ turned(e, 11) ^ turned(e, 25)) + choice + ROUND[t] + w[t];
        uint32_t two = (turned(a, 2) ^ turned(a, 13) ^ turned(a, 22)) + majority;
        memmove(h + 1, h, 7 * sizeof *h);
        h[4] += one;
        h[0] = one + two;
    }
    for (int i = 0; i < 8; i++)
        digest[i] = first[i] + h[i];
}

/* The generator with this label: 61 words of eight digests, oldest first. */
static stream seeded(uint64_t seed, uint32_t kind, uint32_t a, uint32_t b, uint32_t c) {
    stream s = {.k = 61};
    for (uint32_t j = 0; j < 8; j++) {
        uint32_t message[7] = {(uint32_t)(seed >> 32), (uint32_t)seed, kind, a, b, c, j};
        digest_of(message, s.ring + 8 * j);
    }
    return s;
}

static inline uint32_t next_draw(stream *s) {
    unsigned k = s->k++;
    uint32_t old = s->ring[(k - 61) % 64], sum = s->ring[(k - 24) % 64] + s->ring[(k - 55) % 64];
    s->ring[k % 64] = sum;
    return sum ^ old;
}
