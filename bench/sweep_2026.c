/* The sweep of one replica in 64 samples in C, to compare with the crate plane_sweep: the same state and
   the same form, timed as crates/bench_kernels times it. Prints the least nanoseconds of a pass, and the
   spins that all passes left in one number. */
#include "common.h"
#include "draws.h"
#include "lanes.h"

#ifdef __AVX2__
#define FROM_1(a, b) __builtin_shufflevector(a, b, 1, 2, 3, 4)
#define FROM_LAST(a, b) __builtin_shufflevector(a, b, 3, 4, 5, 6)
#define DRAWS_FROM_1(a, b) __builtin_shufflevector(a, b, 1, 2, 3, 4, 5, 6, 7, 8)
#define DRAWS_FROM_3(a, b) __builtin_shufflevector(a, b, 3, 4, 5, 6, 7, 8, 9, 10)
#else
#define FROM_1(a, b) __builtin_shufflevector(a, b, 1, 2)
#define FROM_LAST(a, b) __builtin_shufflevector(a, b, 1, 2)
#define DRAWS_FROM_1(a, b) __builtin_shufflevector(a, b, 1, 2, 3, 4)
#define DRAWS_FROM_3(a, b) __builtin_shufflevector(a, b, 3, 4, 5, 6)
#endif

typedef int64_t signed_lanes __attribute__((vector_size(BYTES)));
typedef uint32_t draw_row __attribute__((vector_size(BYTES), may_alias));

enum { RING = 256 / BYTES, PLANE = 2048, ROOM = 2 * 64 * (PLANE + 8) + 64 };

typedef int64_t thresholds[7];

static const thresholds METROPOLIS = {117354494, 3206562, 87615};
static const thresholds HEAT = {87613, 3204169, 114233218, 2147483648, 4180734078, 4291763127, 4294879683};

/* All words in one object, so that one register reaches them. */
static struct {
    uint64_t spins[ROOM], couplings[3 * ROOM];
    draw_row wheels[128][RING];
    uint32_t draws[PLANE];
} state __attribute__((aligned(64)));

/* Planes, colours and directions stand a few cache lines apart: at distances of whole pages the dozen
   places that are read at once would share one set of the first cache. */
INLINE size_t plane_step(size_t size) { return size * size / 2 + 8; }
INLINE size_t colour_step(size_t size) { return size * plane_step(size) + 24; }
INLINE size_t direction_step(size_t size) { return 2 * colour_step(size) + 40; }

typedef lanes lanes_anywhere __attribute__((aligned(8)));

INLINE lanes load(const uint64_t *words) { return *(const lanes_anywhere *)words; }

INLINE lanes choose(lanes mask, lanes inside, lanes outside) { return outside ^ (mask & (inside ^ outside)); }

INLINE lanes below(signed_lanes draws, int64_t threshold) {
    return (lanes)(draws < (signed_lanes){0} + threshold);
}

INLINE signed_lanes widened(const uint32_t *draws) {
    signed_lanes wide = {0};
    for (int i = 0; i < WIDTH; i++)
        wide[i] = draws[i];
    return wide;
}

/* Row k of a generator's ring becomes the next words; gives their numbers. */
INLINE draw_row turn(draw_row ring[RING], int k) {
    int near = 160 / BYTES, far = 32 / BYTES;
    draw_row sums = ring[(k + near) % RING] + DRAWS_FROM_1(ring[(k + far) % RING], ring[(k + far + 1) % RING]);
    draw_row numbers = sums ^ DRAWS_FROM_3(ring[k], ring[(k + 1) % RING]);
    ring[k] = sums;
    return numbers;
}

/* The next numbers of a generator, a multiple of 32. */
INLINE void fill(draw_row wheel[RING], draw_row *out, size_t count) {
    draw_row ring[RING];
    int done = count % 64 == 0 ? 0 : RING / 2;
    for (int k = 0; k < RING; k++)
        ring[k] = wheel[k];
    for (; count >= 64; count -= 64) {
#pragma GCC unroll 16
        for (int k = 0; k < RING; k++)
            *out++ = turn(ring, k);
    }
    if (count > 0) {
#pragma GCC unroll 16
        for (int k = 0; k < RING / 2; k++)
            *out++ = turn(ring, k);
    }
    for (int k = 0; k < RING; k++)
        wheel[k] = ring[(k + done) % RING];
}

/* The new spins of a site of each lane, from J times its six neighbours' spins. */
INLINE lanes new_spins(int heat, const uint32_t *draws, const thresholds t, const lanes six[6], lanes spin) {
    signed_lanes draw = widened(draws);
    lanes down = heat ? (lanes){0} : ~spin, front, front_twos, back, back_twos, twos, fours;
    full_adder(six[0], six[1], six[2], &front, &front_twos);
    full_adder(six[3], six[4], six[5], &back, &back_twos);
    /* Three turned bits have the turned sum and the turned carry, so these are turned, and not all six. */
    lanes ones = front ^ back;
    full_adder(front_twos ^ down, back_twos ^ down, (front ^ down) & (back ^ down), &twos, &fours);
    lanes first = choose(ones, below(draw, t[1]), below(draw, t[0]));
    if (!heat)
        return down ^ (fours & ~choose(twos, below(draw, t[2]), first));
    lanes up_to_three = choose(twos, choose(ones, below(draw, t[3]), below(draw, t[2])), first);
    lanes four_five = choose(ones, below(draw, t[5]), below(draw, t[4]));
    return choose(fours, choose(twos, below(draw, t[6]), four_five), up_to_three);
}

/* Where the words of one colour and their neighbours' stand. */
typedef struct {
    size_t own, here, up, down, above, below, draw;
} places;

INLINE places moved(places at, size_t words) {
    at.own += words;
    at.here += words;
    at.up += words;
    at.down += words;
    at.above += words;
    at.below += words;
    at.draw += words;
    return at;
}

INLINE void visit(int heat, size_t size, places at, lanes ahead, lanes behind, const thresholds t) {
    uint64_t *spins = state.spins;
    const uint64_t *x = state.couplings, *y = x + direction_step(size), *z = y + direction_step(size);
    const lanes six[6] = {
        ahead ^ load(x + at.own),
        behind,
        load(spins + at.up) ^ load(y + at.own),
        load(spins + at.down) ^ load(y + at.down),
        load(spins + at.above) ^ load(z + at.own),
        load(spins + at.below) ^ load(z + at.below),
    };
    *(lanes_anywhere *)(spins + at.own) = new_spins(heat, state.draws + at.draw, t, six, load(spins + at.own));
}

/* A row that begins at x = 0: of the neighbours in x the one behind stands one word back. */
INLINE void even_row(int heat, size_t size, places at, const thresholds t) {
    const uint64_t *spins = state.spins, *x = state.couplings;
    size_t last = at.here + size / 2 - WIDTH;
    lanes before = load(spins + last) ^ load(x + last);
    for (size_t k = 0; k < size / 2; k += WIDTH) {
        lanes ahead = load(spins + at.here), bonds = ahead ^ load(x + at.here);
        visit(heat, size, at, ahead, FROM_LAST(before, bonds), t);
        before = bonds;
        at = moved(at, WIDTH);
    }
}

/* A row that begins at x = 1: the one ahead stands one word on. */
INLINE void odd_row(int heat, size_t size, places at, const thresholds t) {
    const uint64_t *spins = state.spins, *x = state.couplings;
    lanes first = load(spins + at.here), here = first;
    for (size_t k = WIDTH; k < size / 2; k += WIDTH) {
        lanes next = load(spins + at.here + WIDTH);
        visit(heat, size, at, FROM_1(here, next), here ^ load(x + at.here), t);
        here = next;
        at = moved(at, WIDTH);
    }
    visit(heat, size, at, FROM_1(here, first), here ^ load(x + at.here), t);
}

INLINE void sweep_plane(int heat, size_t size, size_t colour, size_t z, const thresholds t) {
    size_t half = size / 2, step = plane_step(size);
    size_t own = colour * colour_step(size), other = (1 - colour) * colour_step(size);
    places at = {.own = own + z * step, .here = other + z * step};
    at.above = other + (z + 1) % size * step;
    at.below = other + (z + size - 1) % size * step;
    at.up = at.here + half;
    at.down = at.here + (size - 1) * half;
    for (size_t y = 0; y < size; y++) {
        if ((colour + y + z) % 2 == 0)
            even_row(heat, size, at, t);
        else
            odd_row(heat, size, at, t);
        size_t down = at.here;
        at = moved(at, half);
        at.down = down;
        if (y + 2 == size)
            at.up -= size * half;
    }
}

INLINE void sweep_colours(int heat, size_t size, const thresholds t) {
    for (size_t colour = 0; colour < 2; colour++)
        for (size_t z = 0; z < size; z++) {
            fill(state.wheels[colour * size + z], (draw_row *)state.draws, size * size / 2);
            sweep_plane(heat, size, colour, z, t);
        }
}

/* A sweep by code of its own for each size and rule. */
static __attribute__((noinline)) void sweep(int heat, size_t size) {
    switch (size) {
    case 8:
        heat ? sweep_colours(1, 8, HEAT) : sweep_colours(0, 8, METROPOLIS);
        break;
    case 16:
        heat ? sweep_colours(1, 16, HEAT) : sweep_colours(0, 16, METROPOLIS);
        break;
    case 32:
        heat ? sweep_colours(1, 32, HEAT) : sweep_colours(0, 32, METROPOLIS);
        break;
    default:
        heat ? sweep_colours(1, 64, HEAT) : sweep_colours(0, 64, METROPOLIS);
    }
}

/* The place of word k in compact order. */
static size_t place_of(size_t size, size_t k) {
    size_t half_plane = size * size / 2, plane = k / half_plane;
    return plane / size * colour_step(size) + plane % size * plane_step(size) + k % half_plane;
}

static size_t place_of_site(size_t size, size_t site) {
    size_t x = site % size, y = site / size % size, z = site / (size * size), colour = (x + y + z) % 2;
    return place_of(size, ((colour * size + z) * size + y) * (size / 2) + x / 2);
}

/* Random couplings, a random start, and the generators of slot 0 and replica 0. */
static void open_state(size_t size, uint64_t seed) {
    size_t volume = size * size * size;
    for (uint32_t sample = 0; sample < 64; sample++) {
        stream s = seeded(seed, 3, sample, 0, 0);
        for (size_t site = 0; site < volume; site++)
            for (size_t d = 0; d < 3; d++)
                state.couplings[d * direction_step(size) + place_of_site(size, site)]
                    |= (uint64_t)(next_draw(&s) >> 31) << sample;
    }
    stream s = seeded(seed, 4, 0, 0, 0);
    for (size_t site = 0; site < volume; site++) {
        uint64_t low = next_draw(&s), high = next_draw(&s);
        state.spins[place_of_site(size, site)] = high << 32 | low;
    }
    for (uint32_t plane = 0; plane < 2 * size; plane++) {
        s = seeded(seed, 1, 0, plane / size, plane % size);
        memcpy((uint32_t *)state.wheels[plane] + 3, s.ring, 61 * sizeof *s.ring);
    }
}

/* All words in one number, which depends on their order too. */
static uint64_t all_words(size_t size) {
    uint64_t all = 0;
    for (size_t k = 0; k < size * size * size; k++) {
        all = (all ^ state.spins[place_of(size, k)]) * 31;
        all = all << 1 | all >> 63;
    }
    return all;
}

int main(int argc, char **argv) {
    size_t size = argc == 5 ? strtoul(argv[1], NULL, 10) : 0;
    if (size != 8 && size != 16 && size != 32 && size != 64) {
        fputs("usage: sweep_c 8|16|32|64 metropolis|heat SWEEPS PASSES\n", stderr);
        return 2;
    }
    int heat = strcmp(argv[2], "heat") == 0;
    long sweeps = strtol(argv[3], NULL, 10), passes = strtol(argv[4], NULL, 10);
    uint64_t took = UINT64_MAX;
    open_state(size, 7);
    for (long pass = 0; pass < passes; pass++) {
        uint64_t start = now();
        for (long i = 0; i < sweeps; i++)
            sweep(heat, size);
        took = least(took, now() - start);
    }
    printf("%" PRIu64 " %" PRIu64 "\n", took, all_words(size));
    return 0;
}
