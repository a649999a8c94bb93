/* count6 and add_count in C, to compare with the crate bit_compare: the same functions on the same
   words, timed as crates/bench_kernels times them. Prints for each the least nanoseconds of a pass and
   the exclusive or of all words that it left. */
#include "common.h"

enum { PLANES = 20, GROUPS = 1048576 / (6 * 8), TOTALS = 1048576 / (PLANES * 8) };

static uint64_t six[GROUPS][6], counts[GROUPS][3], totals[TOTALS][PLANES];

static inline void full_adder(uint64_t a, uint64_t b, uint64_t c, uint64_t *low, uint64_t *high) {
    uint64_t either = a ^ b;
    *low = either ^ c;
    *high = (a & b) | (either & c);
}

/* How many of six bits of each sample are set, in three planes. */
static inline void count6(const uint64_t six[6], uint64_t count[3]) {
    uint64_t front, front_twos, back, back_twos, ones, carry, twos, fours;
    full_adder(six[0], six[1], six[2], &front, &front_twos);
    full_adder(six[3], six[4], six[5], &back, &back_twos);
    full_adder(front, back, 0, &ones, &carry);
    full_adder(front_twos, back_twos, carry, &twos, &fours);
    count[0] = ones;
    count[1] = twos;
    count[2] = fours;
}

/* Adds three planes to twenty. */
static inline void add_count(uint64_t total[PLANES], const uint64_t count[3]) {
    uint64_t carry = 0;
#pragma GCC unroll 20
    for (int w = 0; w < 3; w++)
        full_adder(total[w], count[w], carry, &total[w], &carry);
#pragma GCC unroll 20
    for (int w = 3; w < PLANES; w++) {
        uint64_t next = total[w] & carry;
        total[w] ^= carry;
        carry = next;
    }
}

static __attribute__((noinline)) void count_all(const uint64_t (*restrict six)[6], uint64_t (*restrict counts)[3],
                                                size_t groups) {
    for (size_t i = 0; i < groups; i++)
        count6(six[i], counts[i]);
}

static __attribute__((noinline)) void add_all(uint64_t (*restrict totals)[PLANES], const uint64_t (*restrict counts)[3],
                                              size_t length) {
    for (size_t i = 0; i < length; i++)
        add_count(totals[i], counts[i]);
}

static uint64_t check(const uint64_t *words, size_t length) {
    uint64_t all = 0;
    for (size_t i = 0; i < length; i++)
        all ^= words[i];
    return all;
}

int main(int argc, char **argv) {
    if (argc != 2) {
        puts("bit_arithmetic: give the number of passes");
        return 2;
    }
    long passes = atol(argv[1]);
    uint64_t state = 88172645463325252, counting = UINT64_MAX, adding = UINT64_MAX;
    for (size_t i = 0; i < GROUPS; i++)
        for (int w = 0; w < 6; w++)
            six[i][w] = next_word(&state);
    for (long pass = 0; pass < passes; pass++) {
        uint64_t start = now();
        count_all(six, counts, GROUPS);
        counting = least(counting, now() - start);
    }
    for (long pass = 0; pass < passes; pass++) {
        for (size_t i = 0; i < TOTALS; i++)
            for (int w = 0; w < PLANES; w++)
                totals[i][w] = 0;
        uint64_t start = now();
        add_all(totals, counts, TOTALS);
        adding = least(adding, now() - start);
    }
    printf("count6 %" PRIu64 " %" PRIu64 "\n", counting, check(counts[0], GROUPS * 3));
    printf("add_count %" PRIu64 " %" PRIu64 "\n", adding, check(totals[0], TOTALS * PLANES));
    return 0;
}
