/* The unsatisfied bonds and the agreeing sites of 64 samples in C, to compare with the crate bit_totals:
   the same form on the same words, timed as crates/bench_kernels times them. Prints for each the least
   nanoseconds of a pass and the planes that it left in one number. */
#include "common.h"
#include "lanes.h"

enum { PLANES = 20, MOST = 64 * 64 * 64, PLANE = 64 * 32 };

static uint64_t first[MOST], second[MOST], couplings[3 * MOST], ones[PLANE];

INLINE lanes row_at(const uint64_t *a, const uint64_t *b, const uint64_t *c) {
    lanes x, y, z;
    memcpy(&x, a, sizeof x);
    memcpy(&y, b, sizeof y);
    memcpy(&z, c, sizeof z);
    return x ^ y ^ z;
}

/* Adds two words of each lane to a row, and gives what is carried to the row above. */
INLINE lanes add_two(lanes *row, lanes a, lanes b) {
    lanes carry;
    full_adder(*row, a, b, row, &carry);
    return carry;
}

/* Adds a word of each lane to a row, the carry rippling upwards. */
INLINE void add_one(lanes total[PLANES], int from, lanes carry) {
#pragma GCC unroll 20
    for (int w = from; w < PLANES; w++) {
        lanes next = total[w] & carry;
        total[w] ^= carry;
        carry = next;
    }
}

/* Adds four vectors of places, but for the carries of four, which it gives. */
INLINE lanes sum_four(lanes total[PLANES], const uint64_t *a, const uint64_t *b, const uint64_t *c) {
    lanes front = add_two(&total[0], row_at(a, b, c), row_at(a + WIDTH, b + WIDTH, c + WIDTH));
    a += 2 * WIDTH, b += 2 * WIDTH, c += 2 * WIDTH;
    lanes back = add_two(&total[0], row_at(a, b, c), row_at(a + WIDTH, b + WIDTH, c + WIDTH));
    return add_two(&total[1], front, back);
}

/* Adds in how many places an odd number of three words has each sample's bit. */
INLINE void tally(lanes total[PLANES], const uint64_t *a, const uint64_t *b, const uint64_t *c, size_t n) {
    enum { FOUR = 4 * WIDTH };
    size_t at = 0;
    for (; n - at >= 4 * FOUR; at += 4 * FOUR) {
        lanes fours[4];
#pragma GCC unroll 4
        for (int i = 0; i < 4; i += 2) {
            size_t j = at + i * FOUR, k = j + FOUR;
            fours[i] = sum_four(total, a + j, b + j, c + j);
            fours[i + 1] = sum_four(total, a + k, b + k, c + k);
            fours[i] = add_two(&total[2], fours[i], fours[i + 1]);
        }
        add_one(total, 4, add_two(&total[3], fours[0], fours[2]));
    }
    for (; n - at >= FOUR; at += FOUR)
        add_one(total, 2, sum_four(total, a + at, b + at, c + at));
    for (; at < n; at += WIDTH) {
        lanes row = {0};
        for (size_t i = 0; i < WIDTH && at + i < n; i++)
            row[i] = a[at + i] ^ b[at + i] ^ c[at + i];
        add_one(total, 0, row);
    }
}

/* The words around the sites of colour 0 in a plane: the other colour's spins in the plane, one plane on and
   one back, and the couplings ahead of the sites and of the neighbours behind. */
struct around {
    const uint64_t *own, *here, *above, *below, *ahead[3], *here_x, *here_y, *below_z;
};

/* A row, and where those beside it begin. Its sites begin at x = 0 where it is even. */
struct row {
    size_t half, here, up, down;
    int even;
};

/* How many of the six bonds of each place of a vector are unsatisfied, in low and high bits. */
struct counts {
    lanes ones[2], twos[2];
};

INLINE lanes load(const uint64_t *words) {
    lanes v;
    memcpy(&v, words, sizeof v);
    return v;
}

/* A vector of two lists behind each other, from a place on. */
INLINE lanes shifted(lanes a, lanes b, uint64_t from) {
    lanes places;
    for (size_t i = 0; i < WIDTH; i++)
        places[i] = from + i;
    return __builtin_shuffle(a, b, places);
}

INLINE lanes ahead_in_x(const struct around *a, const struct row *r, size_t k) {
    const uint64_t *words = a->here + r->here;
    if (r->even) return load(words + k);
    if (k + WIDTH < r->half) return load(words + k + 1);
    return shifted(load(words + k), load(words), 1);
}

INLINE lanes behind_in_x(const struct around *a, const struct row *r, size_t k) {
    const uint64_t *words = a->here + r->here, *bonds = a->here_x + r->here;
    if (!r->even) return load(words + k) ^ load(bonds + k);
    if (k > 0) return load(words + k - 1) ^ load(bonds + k - 1);
    size_t end = r->half - WIDTH;
    return shifted(load(words + end) ^ load(bonds + end), load(words) ^ load(bonds), WIDTH - 1);
}

INLINE struct counts count(const struct around *a, const struct row *r, size_t k) {
    size_t here = r->here + k, up = r->up + k, down = r->down + k;
    lanes own = load(a->own + here);
    lanes x = ahead_in_x(a, r, k) ^ load(a->ahead[0] + here), y = load(a->here + up) ^ load(a->ahead[1] + here);
    lanes z = load(a->above + here) ^ load(a->ahead[2] + here), u = behind_in_x(a, r, k);
    lanes v = load(a->here + down) ^ load(a->here_y + down), w = load(a->below + here) ^ load(a->below_z + here);
    struct counts sum;
    full_adder(x ^ own, y ^ own, z ^ own, &sum.ones[0], &sum.twos[0]);
    full_adder(u ^ own, v ^ own, w ^ own, &sum.ones[1], &sum.twos[1]);
    return sum;
}

/* Adds two counts, but for the carries of eight and of four. */
INLINE lanes add_counts(lanes total[PLANES], struct counts a, struct counts b, lanes *fours) {
    lanes front = add_two(&total[0], a.ones[0], a.ones[1]), back = add_two(&total[0], b.ones[0], b.ones[1]);
    lanes first = add_two(&total[1], a.twos[0], a.twos[1]), second = add_two(&total[1], b.twos[0], b.twos[1]);
    *fours = add_two(&total[1], front, back);
    return add_two(&total[2], first, second);
}

/* Adds two vectors of both rows, but for the carries of 32, which it gives. */
INLINE lanes sum_square(lanes total[PLANES], const struct around *a, const struct row *first,
                        const struct row *second, size_t k) {
    lanes fours, more_fours, none = {0};
    lanes eights = add_counts(total, count(a, first, k), count(a, first, k + WIDTH), &fours);
    lanes more_eights = add_counts(total, count(a, second, k), count(a, second, k + WIDTH), &more_fours);
    lanes last = add_two(&total[2], fours, more_fours);
    lanes front = add_two(&total[3], eights, more_eights), back = add_two(&total[3], last, none);
    return add_two(&total[4], front, back);
}

/* The six words of a site, set where a bond is unsatisfied. */
INLINE void six(const struct around *a, const struct row *r, size_t k, uint64_t words[6]) {
    size_t here = r->here + k, up = r->up + k, down = r->down + k;
    size_t right = r->here + (r->even ? k : (k + 1) % r->half);
    size_t left = r->here + (r->even ? (k + r->half - 1) % r->half : k);
    uint64_t own = a->own[here];
    words[0] = own ^ a->here[right] ^ a->ahead[0][here];
    words[1] = own ^ a->here[up] ^ a->ahead[1][here];
    words[2] = own ^ a->above[here] ^ a->ahead[2][here];
    words[3] = own ^ a->here[left] ^ a->here_x[left];
    words[4] = own ^ a->here[down] ^ a->here_y[down];
    words[5] = own ^ a->below[here] ^ a->below_z[here];
}

/* Adds one column, whose twelve words stand in the lanes of three vectors, or of six. */
INLINE void add_column(lanes total[PLANES], const struct around *a, const struct row *first,
                       const struct row *second, size_t k) {
    uint64_t words[12];
    lanes v[12 / WIDTH], low, high, none = {0};
    six(a, first, k, words);
    six(a, second, k, words + 6);
    memcpy(v, words, sizeof v);
    for (size_t i = 0; i < 12 / WIDTH; i += 3) {
        full_adder(v[i], v[i + 1], v[i + 2], &low, &high);
        add_one(total, 2, add_two(&total[1], high, add_two(&total[0], low, none)));
    }
}

/* Adds two rows: by two vectors of columns, by one and by single ones. */
INLINE void add_rows(lanes total[PLANES], const struct around *a, const struct row *first,
                     const struct row *second) {
    size_t k = 0, half = first->half;
    for (; half - k >= 2 * WIDTH; k += 2 * WIDTH)
        add_one(total, 5, sum_square(total, a, first, second, k));
    for (; half - k >= WIDTH; k += WIDTH) {
        lanes fours, none = {0}, eights = add_counts(total, count(a, first, k), count(a, second, k), &fours);
        add_one(total, 4, add_two(&total[3], eights, add_two(&total[2], fours, none)));
    }
    for (; k < half; k++)
        add_column(total, a, first, second, k);
}

INLINE struct row row_behind(struct row r, size_t plane) {
    struct row next = {r.half, r.here + r.half, r.up + r.half < plane ? r.up + r.half : 0, r.here, !r.even};
    return next;
}

INLINE void count_pairs(lanes all[PLANES], const struct around *around, size_t size, int even) {
    size_t half = size / 2, plane = size * half;
    struct row first = {half, 0, half, (size - 1) * half, even};
    /* Copies, so that the compiler sees that no word is written where others are read. */
    lanes total[PLANES];
    struct around a = *around;
    memcpy(total, all, sizeof total);
    for (size_t i = 0; i < half; i++) {
        struct row second = row_behind(first, plane);
        add_rows(total, &a, &first, &second);
        first = row_behind(second, plane);
    }
    memcpy(all, total, sizeof total);
}

/* With code of its own for four sizes and both parities. */
#define SIZED(SIZE) \
    case SIZE: \
        if (even) count_pairs(total, a, SIZE, 1); \
        else count_pairs(total, a, SIZE, 0); \
        break;

static __attribute__((noinline)) void count_plane(lanes total[PLANES], const struct around *a, size_t size, int even) {
    switch (size) {
        SIZED(8)
        SIZED(16)
        SIZED(32)
        SIZED(64)
    default: count_pairs(total, a, size, even);
    }
}

static void total_of(const lanes rows[PLANES], uint64_t total[PLANES]) {
    memset(total, 0, PLANES * sizeof *total);
    for (int lane = 0; lane < WIDTH; lane++) {
        uint64_t carry = 0;
        for (int w = 0; w < PLANES; w++) {
            uint64_t a = total[w], b = rows[w][lane], either = a ^ b;
            total[w] = either ^ carry;
            carry = (a & b) | (either & carry);
        }
    }
}

static __attribute__((noinline)) void unsatisfied(const uint64_t *words, size_t size, uint64_t total[PLANES]) {
    size_t plane = size * (size / 2), colour = size * plane, volume = 2 * colour;
    const uint64_t *other = words + colour, *bonds = couplings;
    lanes rows[PLANES] = {{0}};
    for (size_t z = 0; z < size; z++) {
        size_t at = z * plane, on = (z + 1) % size * plane, back = (z + size - 1) % size * plane;
        const struct around a = {words + at, other + at, other + on, other + back,
                                 {bonds + at, bonds + volume + at, bonds + 2 * volume + at},
                                 bonds + colour + at, bonds + volume + colour + at, bonds + 2 * volume + colour + back};
        count_plane(rows, &a, size, z % 2 == 0);
    }
    total_of(rows, total);
}

static __attribute__((noinline)) void agreeing(const uint64_t *a, const uint64_t *b, size_t size,
                                               uint64_t total[PLANES]) {
    size_t plane = size * (size / 2);
    lanes rows[PLANES] = {{0}};
    for (size_t q = 0; q < 2 * size; q++)
        tally(rows, ones, a + q * plane, b + q * plane, plane);
    total_of(rows, total);
}

static void say(const char *name, uint64_t time, const uint64_t total[PLANES]) {
    uint64_t all = 0;
    for (int w = 0; w < PLANES; w++)
        all = all * 3 ^ total[w];
    printf("%s %" PRIu64 " %" PRIu64 "\n", name, time, all);
}

int main(int argc, char **argv) {
    if (argc != 3) {
        fputs("usage: totals_c SIZE PASSES\n", stderr);
        return 2;
    }
    size_t size = strtoul(argv[1], NULL, 10), volume = size * size * size;
    long passes = strtol(argv[2], NULL, 10);
    uint64_t state = 88172645463325252, total[PLANES] = {0}, time;
    for (size_t i = 0; i < volume; i++)
        first[i] = next_word(&state);
    for (size_t i = 0; i < volume; i++)
        second[i] = next_word(&state);
    /* Written, since the pages of an array that is only read are one page of zeros. */
    memset(couplings, 0, sizeof couplings);
    for (size_t i = 0; i < PLANE; i++)
        ones[i] = UINT64_MAX;
    time = UINT64_MAX;
    for (long i = 0; i < passes; i++) {
        uint64_t start = now();
        unsatisfied(first, size, total);
        time = least(time, now() - start);
    }
    say("unsatisfied", time, total);
    time = UINT64_MAX;
    for (long i = 0; i < passes; i++) {
        uint64_t start = now();
        agreeing(first, second, size, total);
        time = least(time, now() - start);
    }
    say("agreeing", time, total);
    return 0;
}
