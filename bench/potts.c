/* The sweep of the four-state Potts glass in 64 samples in C, to compare with the crate potts_glass: the
   same draws and the same colours, in the fastest form that is known, timed as crates/bench_kernels times it.
   Prints the least nanoseconds of a pass, and the colours that all passes left in one number.

   Four sites of a row are updated at a time. Their words lie in compact order: by class, plane, row and
   column, the low bits of a plane and then its high bits. A site of colour c is proposed c ^ d. A neighbour
   of colour c ^ e counts where e is 0 or d: the others are neither = (d_high & e_low) ^ (d_low & e_high).
   Where it counts, it has the new colour just where e is not 0, and pulls to it where that differs from
   J = -1. The six votes, 2 for a pull and 1 for neither, are 6 - g in sum, g what the change costs: from 6
   on the change is free. */
/* By SSE each of the vectors below is two registers. */
#pragma GCC diagnostic ignored "-Wpsabi"
#include "common.h"
#include "draws.h"

/* So that loops over constants are unrolled in each case. */
#define INLINE static inline __attribute__((always_inline))

typedef uint64_t lanes __attribute__((vector_size(32), may_alias));
typedef int64_t signed_lanes __attribute__((vector_size(32)));
typedef uint32_t draw_row __attribute__((vector_size(32), may_alias));
typedef lanes lanes_anywhere __attribute__((aligned(8)));

#define FROM_1(a, b) __builtin_shufflevector(a, b, 1, 2, 3, 4)
#define FROM_LAST(a, b) __builtin_shufflevector(a, b, 3, 4, 5, 6)
#define DRAWS_FROM_1(a, b) __builtin_shufflevector(a, b, 1, 2, 3, 4, 5, 6, 7, 8)
#define DRAWS_FROM_3(a, b) __builtin_shufflevector(a, b, 3, 4, 5, 6, 7, 8, 9, 10)

enum { RING = 8, PLANE = 2048, ROOM = 2 * 64 * (PLANE + 8) + 64 };

/* T(1) to T(6). No constants, and seen by other files: of a constant gcc makes a comparison and turns it over. */
int64_t costs[6] = {1746203392, 709953319, 288645479, 117354494, 47712777, 19398567};
/* The first draws below the first number have step 0, those from the second on step 2: 3 u / 2^32. */
int64_t steps_at[2] = {1431655766, 2863311531};

static struct {
    uint64_t sites[2 * ROOM], couplings[3 * ROOM];
    draw_row wheels[128][RING];
    uint32_t draws[2 * PLANE];
} state __attribute__((aligned(64)));

INLINE size_t high_step(size_t size) { return size * size / 2 + 8; }
INLINE size_t plane_step(size_t size) { return 2 * high_step(size); }
INLINE size_t class_step(size_t size) { return size * plane_step(size) + 24; }
INLINE size_t bonds_step(size_t size) { return size * size / 2 + 8; }
INLINE size_t bonds_class_step(size_t size) { return size * bonds_step(size) + 24; }
INLINE size_t direction_step(size_t size) { return 2 * bonds_class_step(size) + 40; }

INLINE lanes load(const uint64_t *words) { return *(const lanes_anywhere *)words; }
INLINE void store(uint64_t *words, lanes value) { *(lanes_anywhere *)words = value; }
INLINE lanes below(signed_lanes draws, int64_t bound) { return (lanes)((signed_lanes){0} + bound > draws); }

INLINE draw_row turn(draw_row ring[RING], int k) {
    draw_row sums = ring[(k + 5) % RING] + DRAWS_FROM_1(ring[(k + 1) % RING], ring[(k + 2) % RING]);
    draw_row numbers = sums ^ DRAWS_FROM_3(ring[k], ring[(k + 1) % RING]);
    ring[k] = sums;
    return numbers;
}

/* The next numbers of a generator, a multiple of 64. */
INLINE void fill(draw_row wheel[RING], draw_row *out, size_t count) {
    draw_row ring[RING];
    for (int k = 0; k < RING; k++) {
        ring[k] = wheel[k];
#ifdef __AVX2__
        __asm__("" : "+x"(ring[k]));
#endif
    }
    for (; count >= 64; count -= 64) {
#pragma GCC unroll 8
        for (int k = 0; k < RING; k++)
            *out++ = turn(ring, k);
    }
    for (int k = 0; k < RING; k++)
        wheel[k] = ring[k];
}

INLINE void full_adder(lanes a, lanes b, lanes c, lanes *low, lanes *high) {
    lanes either = a ^ b;
    *low = either ^ c;
    *high = (a & b) | (either & c);
}

typedef struct {
    lanes low, high;
} colours;

/* The change of a site's colour: c ^ d, with the low bits of d, and those samples where its high bit is not set. */
typedef struct {
    lanes low, not_high;
} change;

/* 2 pull + neither, of one neighbour; never both. */
typedef struct {
    lanes neither, pull;
} vote;

INLINE vote vote_of(colours own, change d, colours near, lanes negative) {
    lanes low = near.low ^ own.low, high = near.high ^ own.high;
    lanes neither = (~d.not_high & low) ^ (d.low & high);
    return (vote){neither, ~neither & ((low | high) ^ negative)};
}

/* The sum of three votes, 0 to 6. */
INLINE void sum_of(vote a, vote b, vote c, lanes sum[3]) {
    lanes ones = a.neither ^ b.neither, twos = (a.pull ^ b.pull) | (a.neither & b.neither), fours = a.pull & b.pull;
    lanes more = c.pull | (ones & c.neither);
    sum[0] = ones ^ c.neither;
    sum[1] = twos ^ more;
    sum[2] = fours | (twos & more);
}

/* The samples whose change is made, by 6 - g = a + b. */
INLINE lanes made(const lanes a[3], const lanes b[3], signed_lanes draw, const int64_t t[6]) {
    lanes ones = a[0] ^ b[0], carry = a[0] & b[0], twos, more, either = a[2] | b[2];
    full_adder(a[1], b[1], carry, &twos, &more);
    /* Where two of the fours are set the change is free, whatever the rest says. */
    lanes fours = either | more, free = (a[2] & b[2]) | (either & more);
    lanes x = below(draw, t[1]), y = below(draw, t[3]), z = below(draw, t[5]);
    lanes five_four = x ^ (ones & (x ^ below(draw, t[0])));
    lanes three_two = y ^ (ones & (y ^ below(draw, t[2])));
    lanes one_zero = z ^ (ones & (z ^ below(draw, t[4])));
    lanes up_to_three = one_zero ^ (twos & (one_zero ^ three_two));
    return free | (up_to_three ^ (fours & (up_to_three ^ (twos | five_four))));
}

typedef struct {
    size_t own, here, up, down, above, below, bond, here_bond, down_bond, below_bond, draw;
} places;

INLINE colours colours_at(size_t size, size_t at) {
    return (colours){load(state.sites + at), load(state.sites + at + high_step(size))};
}

INLINE void visit(size_t size, places at, colours far, lanes near_bond, lanes far_bond) {
    const uint64_t *x = state.couplings, *y = x + direction_step(size), *z = y + direction_step(size);
    lanes draws = load((const uint64_t *)state.draws + at.draw);
    signed_lanes first = (signed_lanes)(draws & 0xffffffff), second = (signed_lanes)(draws >> 32);
    colours own = colours_at(size, at.own);
    lanes zero = below(first, steps_at[0]), d_low = zero | (lanes)(first > (signed_lanes){0} + (steps_at[1] - 1));
    change d = {d_low, zero ^ (own.low & d_low)};
    lanes a[3], b[3];
    sum_of(vote_of(own, d, colours_at(size, at.here), near_bond), vote_of(own, d, far, far_bond),
           vote_of(own, d, colours_at(size, at.up), load(y + at.bond)), a);
    sum_of(vote_of(own, d, colours_at(size, at.down), load(y + at.down_bond)),
           vote_of(own, d, colours_at(size, at.above), load(z + at.bond)),
           vote_of(own, d, colours_at(size, at.below), load(z + at.below_bond)), b);
    lanes changed = made(a, b, second, costs);
    store(state.sites + at.own, own.low ^ (d.low & changed));
    store(state.sites + at.own + high_step(size), own.high ^ (~d.not_high & changed));
}

INLINE places moved(places at, size_t words) {
    at.own += words; at.here += words; at.up += words; at.down += words; at.above += words; at.below += words;
    at.bond += words; at.here_bond += words; at.down_bond += words; at.below_bond += words; at.draw += words;
    return at;
}

/* A row that begins at x = 0: of the neighbours in x the one behind stands one word back. */
INLINE void even_row(size_t size, places at) {
    const uint64_t *x = state.couplings;
    colours first = colours_at(size, at.here), last = colours_at(size, at.here + size / 2 - 4);
    colours far = {FROM_LAST(last.low, first.low), FROM_LAST(last.high, first.high)};
    visit(size, at, far, load(x + at.bond), FROM_LAST(load(x + at.here_bond + size / 2 - 4), load(x + at.here_bond)));
    for (size_t k = 4; k < size / 2; k += 4) {
        at = moved(at, 4);
        visit(size, at, colours_at(size, at.here - 1), load(x + at.bond), load(x + at.here_bond - 1));
    }
}

INLINE void odd_row(size_t size, places at) {
    const uint64_t *x = state.couplings;
    colours first = colours_at(size, at.here);
    for (size_t k = 0; k + 4 < size / 2; k += 4) {
        visit(size, at, colours_at(size, at.here + 1), load(x + at.here_bond), load(x + at.bond));
        at = moved(at, 4);
    }
    colours last = colours_at(size, at.here);
    colours far = {FROM_1(last.low, first.low), FROM_1(last.high, first.high)};
    visit(size, at, far, load(x + at.here_bond), load(x + at.bond));
}

INLINE places next_row(size_t size, places at) {
    size_t half = size / 2, down = at.here, down_bond = at.here_bond;
    at = moved(at, half);
    at.down = down;
    at.down_bond = down_bond;
    return at;
}

INLINE void sweep_plane(size_t size, int even, size_t class, size_t z) {
    size_t half = size / 2, step = plane_step(size), bonds = bonds_step(size);
    size_t after = z + 1 < size ? z + 1 : 0, before = z > 0 ? z - 1 : size - 1;
    size_t own = class * class_step(size), other = (1 - class) * class_step(size);
    size_t other_bonds = (1 - class) * bonds_class_step(size);
    places at = {.own = own + z * step, .here = other + z * step, .above = other + after * step, .below = other + before * step,
                 .bond = class * bonds_class_step(size) + z * bonds, .here_bond = other_bonds + z * bonds,
                 .below_bond = other_bonds + before * bonds};
    at.up = at.here + half;
    at.down = at.here + (size - 1) * half;
    at.down_bond = at.here_bond + (size - 1) * half;
    for (size_t y = 0; y < size; y += 2) {
        even ? even_row(size, at) : odd_row(size, at);
        at = next_row(size, at);
        if (y + 2 == size)
            at.up -= size * half;
        even ? odd_row(size, at) : even_row(size, at);
        at = next_row(size, at);
    }
}

INLINE void sweep_at(size_t size, int even, size_t class, size_t z) {
    fill(state.wheels[class * size + z], (draw_row *)state.draws, size * size);
    sweep_plane(size, even, class, z);
}

INLINE void sweep_step(size_t size, int even, size_t step) {
#pragma GCC unroll 1
    for (size_t class = 0; class < 2; class++)
        if (class == 0 ? step < size : step > 1)
            sweep_at(size, even, class, class == 0 ? step : step - 1 < size ? step - 1 : 0);
}

INLINE void sweep_sized(size_t size) {
    for (size_t step = 0; step < size + 2; step += 2) {
        sweep_step(size, 1, step);
        sweep_step(size, 0, step + 1);
    }
}

static __attribute__((noinline)) void sweep(size_t size) {
    switch (size) {
    case 8: sweep_sized(8); break;
    case 16: sweep_sized(16); break;
    case 32: sweep_sized(32); break;
    case 64: sweep_sized(64); break;
    default: sweep_sized(size);
    }
}

static size_t site_place(size_t size, size_t x, size_t y, size_t z) {
    return (x + y + z) % 2 * class_step(size) + z * plane_step(size) + y * (size / 2) + x / 2;
}

static void open_state(size_t size, uint64_t seed) {
    size_t volume = size * size * size;
    for (uint32_t sample = 0; sample < 64; sample++) {
        stream s = seeded(seed, 3, sample, 0, 0);
        for (size_t site = 0; site < volume; site++)
            for (size_t d = 0; d < 3; d++) {
                size_t x = site % size, y = site / size % size, z = site / (size * size);
                size_t word = d * direction_step(size) + (x + y + z) % 2 * bonds_class_step(size) + z * bonds_step(size) + y * (size / 2) + x / 2;
                state.couplings[word] |= (uint64_t)(next_draw(&s) >> 31) << sample;
            }
    }
    stream s = seeded(seed, 6, 0, 0, 0);
    for (size_t site = 0; site < volume; site++) {
        uint64_t words[4];
        for (int k = 0; k < 4; k++)
            words[k] = next_draw(&s);
        size_t place = site_place(size, site % size, site / size % size, site / (size * size));
        state.sites[place] = words[1] << 32 | words[0];
        state.sites[place + high_step(size)] = words[3] << 32 | words[2];
    }
    for (uint32_t k = 0; k < 2 * size; k++) {
        s = seeded(seed, 5, k / size, k % size, 0);
        memcpy((uint32_t *)state.wheels[k] + 3, s.ring, 61 * sizeof *s.ring);
    }
}

static uint64_t all_colours(size_t size) {
    uint64_t all = 0;
    for (size_t site = 0; site < size * size * size; site++) {
        size_t place = site_place(size, site % size, site / size % size, site / (size * size));
        uint64_t low = state.sites[place], high = state.sites[place + high_step(size)];
        for (int b = 0; b < 64; b++) {
            all = (all ^ (low >> b & 1) ^ (high >> b & 1) << 1) * 31;
            all = all << 1 | all >> 63;
        }
    }
    return all;
}

int main(int argc, char **argv) {
    size_t size = argc == 4 ? strtoul(argv[1], NULL, 10) : 0;
    if (size < 8 || size > 64 || size % 8 != 0) {
        fputs("usage: potts_c SIZE SWEEPS PASSES\n", stderr);
        return 2;
    }
    long sweeps = strtol(argv[2], NULL, 10), passes = strtol(argv[3], NULL, 10);
    uint64_t took = UINT64_MAX;
    open_state(size, 7);
    for (long pass = 0; pass < passes; pass++) {
        uint64_t start = now();
        for (long i = 0; i < sweeps; i++)
            sweep(size);
        took = least(took, now() - start);
    }
    printf("%" PRIu64 " %" PRIu64 "\n", took, all_colours(size));
    return 0;
}
