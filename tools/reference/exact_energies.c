/* Exact mean energies of a +-J sample of size 4, and its ground states, by a transfer matrix.

       cc -O3 -march=native -o exact_energies exact_energies.c -lm
       ./exact_energies COUPLINGS_FILE SAMPLE BETA...

   COUPLINGS_FILE is what tools/couplings.py makes. For each inverse temperature a line: beta, mean energy per
   site, and the logarithm of the partition function. At beta = 8 the energy tells the ground state, see below.

   The lattice is four layers of 16 spins. Given the layers 0 and 2 the layers 1 and 3 are independent, and each
   feels of them a field of -2, 0 or 2 on every spin. So for a layer and all 3^16 fields its sum over the 2^16
   states is made a spin at a time, and the pairs of states of the layers 0 and 2 are summed over, of which one
   spin is held, since turning all spins changes nothing.

   Every weight is exp(-2 beta u), u being the number of unsatisfied bonds, and beside the sum of weights goes
   that of u times the weight. All terms are positive, so that no digits cancel: a sum of n terms is relatively
   wrong by at most about n roundings. On the longest way there are fewer than 2^15 + 2^12 + 100 of them, of
   1.2e-16 each, so the mean of u, below 192, is wrong by less than 2e-9, and the energy per site, 2 u / 64 - 3, by
   less than 1e-10.

   Ground state: energies of one sample differ by multiples of 4. With beta = 8 a level of energy 4 less than
   another has exp(32) times the weight of a state, and at least 2^-64 of its number of states, so at least
   4e-6 of its probability: an energy within 1e-6 of a level E is that of the ground states, and their number is
   Z exp(8 E), to the nearest whole number. */
#include <math.h>
#include <stdint.h>
#include <stdio.h>
#include <stdlib.h>
#include <string.h>
#ifdef __SSE2__
#include <xmmintrin.h>
#endif

enum { SPINS = 16, STATES = 1 << SPINS, HALF = 8, PARTS = 1 << HALF, FIELDS = 6561, BONDS = 192 };

/* A sum of weights, and that of the unsatisfied bonds times the weight. */
typedef struct { double weight, unsatisfied; } Sum;

static int coupling[BONDS];
static Sum of_bonds[BONDS + 1];
/* The intra-layer weights of the layers, then for the layers 1 and 3 the sums over their upper eight spins. */
static Sum layer[4][STATES];
static Sum upper[2][FIELDS * PARTS];
/* The number of the fields that two half states of the layers 0 and 2 make: [layer 1 or 3][half][state 0][state 2]. */
static uint16_t fields[2][2][PARTS][PARTS];

static int spin(int state, int site) { return state >> site & 1 ? 1 : -1; }

static Sum product(Sum a, Sum b) {
    return (Sum){a.weight * b.weight, a.weight * b.unsatisfied + a.unsatisfied * b.weight};
}

static Sum added(Sum a, Sum b) { return (Sum){a.weight + b.weight, a.unsatisfied + b.unsatisfied}; }

/* Bond 3 i + d joins site i = x + 4 y + 16 z to its forward neighbour in direction d; a bit is 1 where J is -1. */
static void read_couplings(const char *name, int sample) {
    unsigned char head[16], bits[BONDS / 8];
    FILE *file = fopen(name, "rb");
    if (!file || fread(head, 1, 16, file) != 16 || memcmp(head, "GLASSCJ1\0\0\0\4", 12) || sample < 0
        || fseek(file, 16 + (long)sample * (BONDS / 8), SEEK_SET) || fread(bits, 1, BONDS / 8, file) != BONDS / 8
        || sample >= (head[14] << 8 | head[15])) {
        fprintf(stderr, "exact_energies: %s is no couplings file of size 4 with sample %d\n", name, sample);
        exit(2);
    }
    fclose(file);
    for (int n = 0; n < BONDS; n++) coupling[n] = bits[n / 8] >> (7 - n % 8) & 1 ? -1 : 1;
}

/* The unsatisfied bonds within layer z. */
static int unsatisfied_within(int z, int state) {
    int count = 0;
    for (int y = 0; y < 4; y++)
        for (int x = 0; x < 4; x++) {
            int site = x + 4 * y, bond = 3 * (site + 16 * z);
            count += coupling[bond] * spin(state, site) * spin(state, (x + 1) % 4 + 4 * y) < 0;
            count += coupling[bond + 1] * spin(state, site) * spin(state, x + 4 * ((y + 1) % 4)) < 0;
        }
    return count;
}

static void number_fields(void) {
    for (int odd = 0; odd < 2; odd++)
        for (int half = 0; half < 2; half++)
            for (int a = 0; a < PARTS; a++)
                for (int b = 0; b < PARTS; b++) {
                    int number = 0;
                    for (int k = HALF - 1; k >= 0; k--) {
                        int site = HALF * half + k, below = 3 * (site + 32 * odd) + 2, above = below + 48;
                        /* Layer 1 has layer 0 below and 2 above; layer 3 has layer 2 below and 0 above. */
                        int field = coupling[below] * spin(odd ? b : a, k) + coupling[above] * spin(odd ? a : b, k);
                        number = 3 * number + 1 + field / 2;
                    }
                    fields[odd][half][a][b] = number;
                }
}

/* Sums over eight spins, the highest first, of `from`[2^8][rest]: `to`[3^8][rest] by the fields on them. */
static void sum_over_eight(const Sum *from, Sum *to, int rest, Sum *room) {
    const Sum *now = from;
    for (int step = 0, outer = 1; step < HALF; step++, outer *= 3) {
        int inner = rest << (HALF - 1 - step);
        Sum *next = step % 2 ? to : room;
        for (int o = 0; o < outer; o++)
            for (int field = 0; field < 3; field++)
                for (int m = 0; m < inner; m++)
                    /* Of its two bonds out of the layer, 2 - field are unsatisfied with the spin up. */
                    next[(3 * o + field) * inner + m] =
                        added(product(of_bonds[2 - field], now[(2 * o + 1) * inner + m]),
                              product(of_bonds[field], now[2 * o * inner + m]));
        now = next;
    }
}

/* The sum over sixteen states of layer 2: their weights, and those of the layers 1 and 3 in the fields of them. */
static inline Sum sum_of_sixteen(const uint16_t *field1, const uint16_t *field3, const Sum *layer2,
                                 const Sum *layer1, const Sum *layer3) {
    Sum parts[4] = {{0, 0}, {0, 0}, {0, 0}, {0, 0}};
    for (int n = 0; n < 16; n += 4)
        for (int k = 0; k < 4; k++)
            parts[k] = added(parts[k], product(product(layer1[field1[n + k]], layer3[field3[n + k]]), layer2[n + k]));
    return added(added(parts[0], parts[1]), added(parts[2], parts[3]));
}

static Sum total(void) {
    static Sum block[2][FIELDS], room[FIELDS], all;
    all = (Sum){0, 0};
    /* The highest spin of layer 0 is held down. */
    for (int high0 = 0; high0 < PARTS / 2; high0++)
        for (int high2 = 0; high2 < PARTS; high2++) {
            for (int odd = 0; odd < 2; odd++)
                sum_over_eight(upper[odd] + fields[odd][1][high0][high2] * PARTS, block[odd], 1, room);
            Sum part = {0, 0};
            /* The lower eight spins of a layer go as two times four, so that the inner sums stay in 81 fields. */
            for (int middle0 = 0; middle0 < PARTS; middle0 += 16)
                for (int middle2 = 0; middle2 < PARTS; middle2 += 16)
                    for (int low0 = middle0; low0 < middle0 + 16; low0++) {
                        const Sum inner = sum_of_sixteen(fields[0][0][low0] + middle2, fields[1][0][low0] + middle2,
                                                         layer[2] + high2 * PARTS + middle2, block[0], block[1]);
                        part = added(part, product(layer[0][high0 * PARTS + low0], inner));
                    }
            all = added(all, part);
        }
    return all;
}

int main(int count, char **words) {
    if (count < 4) {
        fprintf(stderr, "usage: exact_energies COUPLINGS_FILE SAMPLE BETA...\n");
        return 2;
    }
#ifdef __SSE2__
    /* Terms below 2.3e-308 are 0, and not slow. All 2^64 of them would be 5e-289; Z must be above 1e-280. */
    _mm_setcsr(_mm_getcsr() | 0x8040);
#endif
    read_couplings(words[1], atoi(words[2]));
    number_fields();
    Sum *room = malloc(sizeof(Sum) * FIELDS * PARTS);
    for (int n = 3; room && n < count; n++) {
        double beta = atof(words[n]);
        for (int u = 0; u <= BONDS; u++) of_bonds[u] = (Sum){exp(-2 * beta * u), u * exp(-2 * beta * u)};
        for (int z = 0; z < 4; z++)
            for (int state = 0; state < STATES; state++) layer[z][state] = of_bonds[unsatisfied_within(z, state)];
        for (int odd = 0; odd < 2; odd++) sum_over_eight(layer[1 + 2 * odd], upper[odd], PARTS, room);
        Sum all = total();
        if (!(all.weight > 1e-280)) {
            fprintf(stderr, "exact_energies: the inverse temperature is too high for this sample: %s\n", words[n]);
            return 2;
        }
        double mean = all.unsatisfied / all.weight;
        printf("%s %.10f %.10f\n", words[n], 2 * mean / 64 - 3, log(2 * all.weight) + BONDS * beta);
        fflush(stdout);
    }
    return room ? 0 : 1;
}
