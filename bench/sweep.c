/* The sweep of one replica in 64 samples in C, to compare with the crate plane_sweep: the same state and
   the same form, timed as crates/bench_kernels times it. Prints the least nanoseconds of a pass, and the
   spins that all passes left in one number. */
#include "common.h"
#include "draws.h"
#include "lanes.h"

#ifdef __AVX2__
#define FROM_1(a, b) __builtin_shufflevector(a, b, 1, 2, 3, 4)
#define FROM_LAST(a, b) __builtin_shufflevector(a, b, 3, 4, 5, 6)
#define DRAWS_FROM_1(a, b) __builtin_shufflevector(a, b, 1, 2, 3, 4, 5, 6, 7, 8)
#define DRAWS_FROM_3(a, b) __builtin_shufflevector(a, b, 3, 4, 5, 6, 7, 8, 9, 10)
#else
#define FROM_1(a, b) __builtin_shufflevector(a, b, 1, 2)
#define FROM_LAST(a, b) __builtin_shufflevector(a, b, 1, 2)
#define DRAWS_FROM_1(a, b) __builtin_shufflevector(a, b, 1, 2, 3, 4)
#define DRAWS_FROM_3(a, b) __builtin_shufflevector(a, b, 3, 4, 5, 6)
#endif

typedef int64_t signed_lanes __attribute__((vector_size(BYTES)));
typedef uint32_t draw_row __attribute__((vector_size(BYTES), may_alias));

enum { RING = 256 / BYTES, PLANE = 2048, ROOM = 2 * 64 * (PLANE + 8) + 64 };

typedef int64_t thresholds[7];

/* No constants, and seen by other files: of a constant gcc makes a comparison and turns it over. */
thresholds metropolis_row = {117354494, 3206562, 87615};
thresholds heat_row = {87613, 3204169, 114233218, 2147483648, 4180734078, 4291763127, 4294879683};

/* All words in one object, so that one register reaches them. */
static struct {
    uint64_t spins[ROOM], couplings[3 * ROOM];
    draw_row wheels[128][RING];
    uint32_t draws[PLANE];
} state __attribute__((aligned(64)));

/* Planes, colours and directions stand a few cache lines apart: at distances of whole pages the dozen
   places that are read at once would share one set of the first cache. */
INLINE size_t plane_step(size_t size) { return size * size / 2 + 8; }
INLINE size_t colour_step(size_t size) { return size * plane_step(size) + 24; }
INLINE size_t direction_step(size_t size) { return 2 * colour_step(size) + 40; }

typedef lanes lanes_anywhere __attribute__((aligned(8)));

INLINE lanes load(const uint64_t *words) { return *(const lanes_anywhere *)words; }

INLINE lanes choose(lanes mask, lanes inside, lanes outside) { return outside ^ (mask & (inside ^ outside)); }

/* The same where the bits of outside are among those of inside. */
INLINE lanes raised(lanes mask, lanes inside, lanes outside) { return outside | (mask & inside); }

INLINE lanes below(signed_lanes draws, int64_t threshold) {
    return (lanes)(draws < (signed_lanes){0} + threshold);
}

INLINE signed_lanes widened(const uint32_t *draws) {
    signed_lanes wide = {0};
    for (int i = 0; i < WIDTH; i++)
        wide[i] = draws[i];
    return wide;
}

/* Row k of a generator's ring becomes the next words; gives their numbers. */
INLINE draw_row turn(draw_row ring[RING], int k) {
    int near = 160 / BYTES, far = 32 / BYTES;
    draw_row sums = ring[(k + near) % RING] + DRAWS_FROM_1(ring[(k + far) % RING], ring[(k + far + 1) % RING]);
    draw_row numbers = sums ^ DRAWS_FROM_3(ring[k], ring[(k + 1) % RING]);
    ring[k] = sums;
    return numbers;
}

/* The next numbers of a generator, a multiple of 32. */
INLINE void fill(draw_row wheel[RING], draw_row *out, size_t count) {
    draw_row ring[RING];
    int done = count % 64 == 0 ? 0 : RING / 2;
    for (int k = 0; k < RING; k++) {
        ring[k] = wheel[k];
        /* Else gcc may copy the ring by halves, and each load waits for two stores. */
        __asm__("" : "+x"(ring[k]));
    }
    for (; count >= 64; count -= 64) {
#pragma GCC unroll 16
        for (int k = 0; k < RING; k++)
            *out++ = turn(ring, k);
    }
    if (count > 0) {
#pragma GCC unroll 16
        for (int k = 0; k < RING / 2; k++)
            *out++ = turn(ring, k);
    }
    for (int k = 0; k < RING; k++)
        wheel[k] = ring[(k + done) % RING];
}

/* The same of a multiple of 8, row by row in memory: the ring then begins at any of its rows. */
INLINE void fill_rows(draw_row wheel[RING], draw_row *out, size_t count) {
    draw_row ring[2 * RING];
    size_t rows = 4 * count / BYTES, done = rows % RING;
    for (; rows >= RING; rows -= RING) {
#pragma GCC unroll 16
        for (int k = 0; k < RING; k++)
            *out++ = turn(wheel, k);
    }
#pragma GCC unroll 16
    for (int k = 0; k < RING; k++)
        if ((size_t)k < done)
            *out++ = turn(wheel, k);
    memcpy(ring, wheel, sizeof ring / 2);
    memcpy(ring + RING, wheel, sizeof ring / 2);
    memcpy(wheel, ring + done, sizeof ring / 2);
}

/* The new spins of a site of each lane, from J times its six neighbours' spins, by thresholds in order. */
INLINE lanes new_spins(int heat, const uint32_t *draws, const thresholds t, const lanes six[6], lanes spin) {
    signed_lanes draw = widened(draws);
    lanes front, front_twos, back, back_twos;
    full_adder(six[0], six[1], six[2], &front, &front_twos);
    full_adder(six[3], six[4], six[5], &back, &back_twos);
    lanes ones = front ^ back, either_twos = front_twos ^ back_twos;
    if (heat) {
        lanes carry = front & ~ones, twos = either_twos ^ carry, fours = choose(either_twos, carry, front_twos);
        lanes zero_one = raised(ones, below(draw, t[1]), below(draw, t[0]));
        lanes two_three = raised(ones, below(draw, t[3]), below(draw, t[2]));
        lanes four_five = raised(ones, below(draw, t[5]), below(draw, t[4]));
        lanes from_four = raised(twos, below(draw, t[6]), four_five);
        return raised(fours, from_four, raised(twos, two_three, zero_one));
    }
    /* Whether two bits differ doesn't depend on the spin. The other planes are kept turned over. */
    lanes no_carry = ones | (front ^ spin), no_twos = either_twos ^ no_carry;
    lanes no_fours = choose(either_twos, no_carry, front_twos ^ spin);
    lanes accepted = below(draw, t[2]) | (no_twos & (below(draw, t[1]) | (below(draw, t[0]) & ~ones)));
    return spin ^ (no_fours | accepted);
}

INLINE uint64_t below_one(uint32_t draw, int64_t threshold) { return -(uint64_t)(draw < threshold); }

INLINE uint64_t choose_one(uint64_t mask, uint64_t inside, uint64_t outside) {
    return outside ^ (mask & (inside ^ outside));
}

/* The same of one site, for what is left of a row. */
INLINE uint64_t new_word(int heat, uint32_t draw, const thresholds t, const uint64_t six[6], uint64_t spin) {
    uint64_t front = six[0] ^ six[1] ^ six[2], back = six[3] ^ six[4] ^ six[5];
    uint64_t front_twos = (six[0] & six[1]) | ((six[0] ^ six[1]) & six[2]);
    uint64_t back_twos = (six[3] & six[4]) | ((six[3] ^ six[4]) & six[5]);
    uint64_t ones = front ^ back, either_twos = front_twos ^ back_twos;
    if (heat) {
        uint64_t carry = front & ~ones, twos = either_twos ^ carry;
        uint64_t fours = choose_one(either_twos, carry, front_twos);
        uint64_t zero_one = below_one(draw, t[0]) | (ones & below_one(draw, t[1]));
        uint64_t two_three = below_one(draw, t[2]) | (ones & below_one(draw, t[3]));
        uint64_t four_five = below_one(draw, t[4]) | (ones & below_one(draw, t[5]));
        return zero_one | (twos & two_three) | (fours & (four_five | (twos & below_one(draw, t[6]))));
    }
    uint64_t no_carry = ones | (front ^ spin), no_twos = either_twos ^ no_carry;
    uint64_t no_fours = choose_one(either_twos, no_carry, front_twos ^ spin);
    uint64_t four_five = below_one(draw, t[1]) | (below_one(draw, t[0]) & ~ones);
    return spin ^ (no_fours | below_one(draw, t[2]) | (no_twos & four_five));
}

/* Where the words of one colour and their neighbours' stand. */
typedef struct {
    size_t own, here, up, down, above, below, draw;
} places;

INLINE places moved(places at, size_t words) {
    at.own += words;
    at.here += words;
    at.up += words;
    at.down += words;
    at.above += words;
    at.below += words;
    at.draw += words;
    return at;
}

INLINE void visit(int heat, size_t size, places at, lanes ahead, lanes behind, const thresholds t) {
    uint64_t *spins = state.spins;
    const uint64_t *x = state.couplings, *y = x + direction_step(size), *z = y + direction_step(size);
    const lanes six[6] = {
        ahead ^ load(x + at.own),
        behind,
        load(spins + at.up) ^ load(y + at.own),
        load(spins + at.down) ^ load(y + at.down),
        load(spins + at.above) ^ load(z + at.own),
        load(spins + at.below) ^ load(z + at.below),
    };
    *(lanes_anywhere *)(spins + at.own) = new_spins(heat, state.draws + at.draw, t, six, load(spins + at.own));
}

INLINE void visit_one(int heat, size_t size, places at, uint64_t ahead, uint64_t behind, const thresholds t) {
    uint64_t *spins = state.spins;
    const uint64_t *x = state.couplings, *y = x + direction_step(size), *z = y + direction_step(size);
    const uint64_t six[6] = {
        ahead ^ x[at.own],           behind,
        spins[at.up] ^ y[at.own],    spins[at.down] ^ y[at.down],
        spins[at.above] ^ z[at.own], spins[at.below] ^ z[at.below],
    };
    spins[at.own] = new_word(heat, state.draws[at.draw], t, six, spins[at.own]);
}

/* A row that begins at x = 0: of the neighbours in x the one behind stands one word back. */
INLINE void even_row(int heat, size_t size, places at, const thresholds t) {
    const uint64_t *spins = state.spins, *x = state.couplings;
    size_t last = at.here + size / 2 - WIDTH;
    lanes before = load(spins + last) ^ load(x + last), first = load(spins + at.here);
    visit(heat, size, at, first, FROM_LAST(before, first ^ load(x + at.here)), t);
    size_t k = WIDTH;
    for (; k + WIDTH <= size / 2; k += WIDTH) {
        at = moved(at, WIDTH);
        visit(heat, size, at, load(spins + at.here), load(spins + at.here - 1) ^ load(x + at.here - 1), t);
    }
    at = moved(at, WIDTH);
    for (; k < size / 2; k++) {
        visit_one(heat, size, at, spins[at.here], spins[at.here - 1] ^ x[at.here - 1], t);
        at = moved(at, 1);
    }
}

/* A row that begins at x = 1: the one ahead stands one word on. */
INLINE void odd_row(int heat, size_t size, places at, const thresholds t) {
    const uint64_t *spins = state.spins, *x = state.couplings;
    size_t row = at.here, k = 0;
    lanes first = load(spins + row);
    for (; k + WIDTH < size / 2; k += WIDTH) {
        visit(heat, size, at, load(spins + at.here + 1), load(spins + at.here) ^ load(x + at.here), t);
        at = moved(at, WIDTH);
    }
    if (k + WIDTH == size / 2) {
        lanes here = load(spins + at.here);
        visit(heat, size, at, FROM_1(here, first), here ^ load(x + at.here), t);
        return;
    }
    for (; k < size / 2; k++) {
        uint64_t ahead = spins[k + 1 < size / 2 ? at.here + 1 : row];
        visit_one(heat, size, at, ahead, spins[at.here] ^ x[at.here], t);
        at = moved(at, 1);
    }
}

INLINE void sweep_plane(int heat, size_t size, size_t colour, size_t z, const thresholds t) {
    size_t half = size / 2, step = plane_step(size);
    size_t own = colour * colour_step(size), other = (1 - colour) * colour_step(size);
    places at = {.own = own + z * step, .here = other + z * step};
    at.above = other + (z + 1) % size * step;
    at.below = other + (z + size - 1) % size * step;
    at.up = at.here + half;
    at.down = at.here + (size - 1) * half;
    for (size_t y = 0; y < size; y++) {
        if ((colour + y + z) % 2 == 0)
            even_row(heat, size, at, t);
        else
            odd_row(heat, size, at, t);
        size_t down = at.here;
        at = moved(at, half);
        at.down = down;
        if (y + 2 == size)
            at.up -= size * half;
    }
}

INLINE void sweep_at(int heat, size_t size, size_t colour, size_t z, const thresholds t) {
    draw_row *wheel = state.wheels[colour * size + z], *draws = (draw_row *)state.draws;
    if (size % 8 == 0)
        fill(wheel, draws, size * size / 2);
    else
        fill_rows(wheel, draws, size * size / 2);
    sweep_plane(heat, size, colour, z, t);
}

/* Each plane of colour 1 follows those beside it of colour 0, while its couplings are near the processor. */
INLINE void sweep_colours(int heat, size_t size, const thresholds t) {
    for (size_t step = 0; step < size + 2; step++) {
        if (step < size)
            sweep_at(heat, size, 0, step, t);
        if (step > 1)
            sweep_at(heat, size, 1, (step - 1) % size, t);
    }
}

#ifdef __AVX2__
#include "sweep_pairs.h"
#endif

/* A sweep by code of its own for each rule and four of the sizes, with AVX2 also for sizes that are no multiple of 8, and one
   for the others. */
static __attribute__((noinline)) void sweep(int heat, size_t size) {
    switch (size) {
#ifdef __AVX2__
#define PAIRS(n)                                                                                                                   \
    case n:                                                                                                                        \
        heat ? pairs_colours(1, n, n / 2 % 4, heat_row) : pairs_colours(0, n, n / 2 % 4, metropolis_row);                          \
        break;
        PAIRS(10) PAIRS(12) PAIRS(14) PAIRS(18) PAIRS(20) PAIRS(22) PAIRS(26) PAIRS(28) PAIRS(30) PAIRS(36) PAIRS(44) PAIRS(60)
#undef PAIRS
#endif
    case 8:
        heat ? sweep_colours(1, 8, heat_row) : sweep_colours(0, 8, metropolis_row);
        break;
    case 16:
        heat ? sweep_colours(1, 16, heat_row) : sweep_colours(0, 16, metropolis_row);
        break;
    case 32:
        heat ? sweep_colours(1, 32, heat_row) : sweep_colours(0, 32, metropolis_row);
        break;
    case 64:
        heat ? sweep_colours(1, 64, heat_row) : sweep_colours(0, 64, metropolis_row);
        break;
    default:
        heat ? sweep_colours(1, size, heat_row) : sweep_colours(0, size, metropolis_row);
    }
}

/* The place of word k in compact order. */
static size_t place_of(size_t size, size_t k) {
    size_t half_plane = size * size / 2, plane = k / half_plane;
    return plane / size * colour_step(size) + plane % size * plane_step(size) + k % half_plane;
}

static size_t place_of_site(size_t size, size_t site) {
    size_t x = site % size, y = site / size % size, z = site / (size * size), colour = (x + y + z) % 2;
    return place_of(size, ((colour * size + z) * size + y) * (size / 2) + x / 2);
}

/* Random couplings, a random start, and the generators of slot 0 and replica 0. */
static void open_state(size_t size, uint64_t seed) {
    size_t volume = size * size * size;
    for (uint32_t sample = 0; sample < 64; sample++) {
        stream s = seeded(seed, 3, sample, 0, 0);
        for (size_t site = 0; site < volume; site++)
            for (size_t d = 0; d < 3; d++)
                state.couplings[d * direction_step(size) + place_of_site(size, site)]
                    |= (uint64_t)(next_draw(&s) >> 31) << sample;
    }
    stream s = seeded(seed, 4, 0, 0, 0);
    for (size_t site = 0; site < volume; site++) {
        uint64_t low = next_draw(&s), high = next_draw(&s);
        state.spins[place_of_site(size, site)] = high << 32 | low;
    }
    for (uint32_t plane = 0; plane < 2 * size; plane++) {
        s = seeded(seed, 1, 0, plane / size, plane % size);
        memcpy((uint32_t *)state.wheels[plane] + 3, s.ring, 61 * sizeof *s.ring);
    }
}

/* All words in one number, which depends on their order too. */
static uint64_t all_words(size_t size) {
    uint64_t all = 0;
    for (size_t k = 0; k < size * size * size; k++) {
        all = (all ^ state.spins[place_of(size, k)]) * 31;
        all = all << 1 | all >> 63;
    }
    return all;
}

int main(int argc, char **argv) {
    size_t size = argc == 5 ? strtoul(argv[1], NULL, 10) : 0;
#ifdef __AVX2__
    int step = size < 32 ? 2 : 4;
#else
    int step = 4;
#endif
    if (size % step != 0 || size < 8 || size > 64) {
        fputs("usage: sweep_c 8|12|..|64 metropolis|heat SWEEPS PASSES, with AVX2 also 10|14|..|30\n", stderr);
        return 2;
    }
    int heat = strcmp(argv[2], "heat") == 0;
    long sweeps = strtol(argv[3], NULL, 10), passes = strtol(argv[4], NULL, 10);
    uint64_t took = UINT64_MAX;
    open_state(size, 7);
    for (long pass = 0; pass < passes; pass++) {
        uint64_t start = now();
        for (long i = 0; i < sweeps; i++)
            sweep(heat, size);
        took = least(took, now() - start);
    }
    printf("%" PRIu64 " %" PRIu64 "\n", took, all_words(size));
    return 0;
}
