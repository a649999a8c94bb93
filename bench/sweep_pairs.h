/* The sweep of sizes that are no multiple of 8, for sweep.c with AVX2: rows in pairs, of which each is one run of words in
   vectors of four, whichever row they lie in. Where a row ends inside a vector, its pulls in x (and at the plane's ends in y)
   are blended of two. */

/* Lanes below n from a, the others from b. */
INLINE lanes front_lanes(int n, lanes a, lanes b) {
    switch (n) {
    case 0: return b;
    case 1: return __builtin_shufflevector(a, b, 0, 5, 6, 7);
    case 2: return __builtin_shufflevector(a, b, 0, 1, 6, 7);
    case 3: return __builtin_shufflevector(a, b, 0, 1, 2, 7);
    default: return a;
    }
}

/* Lane n from a, the others from b. */
INLINE lanes one_lane(int n, lanes a, lanes b) {
    switch (n) {
    case 0: return __builtin_shufflevector(a, b, 0, 5, 6, 7);
    case 1: return __builtin_shufflevector(a, b, 4, 1, 6, 7);
    case 2: return __builtin_shufflevector(a, b, 4, 5, 2, 7);
    default: return __builtin_shufflevector(a, b, 4, 5, 6, 3);
    }
}

/* The last n lanes of a, then the first of b. */
INLINE lanes last_lanes(int n, lanes a, lanes b) {
    switch (n) {
    case 1: return __builtin_shufflevector(a, b, 3, 4, 5, 6);
    case 2: return __builtin_shufflevector(a, b, 2, 3, 4, 5);
    default: return __builtin_shufflevector(a, b, 1, 2, 3, 4);
    }
}

INLINE lanes all_of(uint64_t word) { return (lanes){0} + word; }

/* Where the words of a pair of rows stand: its first, in both colours; those above and below; the row before the pair, the
   row behind it. */
typedef struct {
    size_t own, here, above, below, before, behind, draw;
} pair;

typedef uint64_t two __attribute__((vector_size(16), may_alias, aligned(8)));

/* The new spins at `own + j`, or of the last two alone: the others have theirs by then. */
INLINE void update_at(int heat, size_t size, pair at, size_t j, int last_two, lanes near, lanes far, lanes up, lanes down,
                   const thresholds t) {
    uint64_t *spins = state.spins;
    const uint64_t *x = state.couplings, *y = x + direction_step(size), *z = y + direction_step(size);
    (void)x;
    const lanes six[6] = {
        near, far,
        up ^ load(y + at.own + j),
        down,
        load(spins + at.above + j) ^ load(z + at.own + j),
        load(spins + at.below + j) ^ load(z + at.below + j),
    };
    if (last_two) {
        two old = *(two *)(spins + at.own + j + 2);
        lanes new = new_spins(heat, state.draws + at.draw + j, t, six, __builtin_shufflevector(old, old, 0, 1, 0, 1));
        *(two *)(spins + at.own + j + 2) = __builtin_shufflevector(new, new, 2, 3);
    } else
        *(lanes_anywhere *)(spins + at.own + j) = new_spins(heat, state.draws + at.draw + j, t, six, load(spins + at.own + j));
}

/* The vector from word j of a pair on, that lies in one of its rows. */
INLINE void in_row(int heat, size_t size, pair at, size_t j, int second, int even, int last_two, const thresholds t) {
    const uint64_t *spins = state.spins, *x = state.couplings, *y = x + direction_step(size);
    size_t half = size / 2, p = at.here + j, o = at.own + j, row = at.here + (second ? half : 0);
    size_t up = second ? at.behind + j - half : p + half, down = second ? p - half : at.before + j;
    lanes here = load(spins + p), near, far;
    if (even) {
        near = here ^ load(x + o);
        if (p == row) {
            size_t last = row + half - WIDTH;
            far = FROM_LAST(load(spins + last) ^ load(x + last), here ^ load(x + p));
        } else
            far = load(spins + p - 1) ^ load(x + p - 1);
    } else {
        near = here ^ load(x + p);
        if (p + WIDTH == row + half)
            far = FROM_1(here, load(spins + row)) ^ load(x + o);
        else
            far = load(spins + p + 1) ^ load(x + o);
    }
    update_at(heat, size, at, j, last_two, near, far, load(spins + up), load(spins + down) ^ load(y + down), t);
}

/* The vector whose first h words end the first row of a pair, and whose others begin the second. */
INLINE void between(int heat, size_t size, pair at, size_t j, int h, int even, const thresholds t) {
    const uint64_t *spins = state.spins, *x = state.couplings, *y = x + direction_step(size);
    size_t half = size / 2, p = at.here + j, o = at.own + j, first = at.here, last = at.here + size - 1;
    lanes here = load(spins + p), near, far;
    if (even) {
        near = here ^ front_lanes(h, load(x + o), load(x + p));
        far = front_lanes(h, load(spins + p - 1) ^ load(x + p - 1), load(spins + p + 1) ^ load(x + o));
    } else {
        near = here ^ front_lanes(h, load(x + p), load(x + o));
        lanes words = front_lanes(h, load(spins + p + 1), load(spins + p - 1));
        words = one_lane(h - 1, all_of(spins[first]), one_lane(h, all_of(spins[last]), words));
        far = words ^ front_lanes(h, load(x + o), one_lane(h, all_of(x[last]), load(x + p - 1)));
    }
    lanes up, down;
    if (at.behind == at.here + size)
        up = load(spins + p + half);
    else /* the plane's last row: its end, and the first row's begin */
        up = last_lanes(h, load(spins + at.here + size - WIDTH), load(spins + at.behind));
    if (at.before == at.here - half)
        down = load(spins + p - half) ^ load(y + p - half);
    else {
        size_t end = at.before + half - WIDTH;
        down = last_lanes(h, load(spins + end), load(spins + at.here)) ^ last_lanes(h, load(y + end), load(y + at.here));
    }
    update_at(heat, size, at, j, 0, near, far, up, down, t);
}

/* Half a row has h words more than a multiple of four. */
INLINE void pairs_rows(int heat, size_t size, int h, int even, pair at, const thresholds t) {
    size_t half = size / 2, j = 0;
#pragma GCC unroll 2
    for (; j + WIDTH <= half; j += WIDTH)
        in_row(heat, size, at, j, 0, even, 0, t);
    if (h > 0) {
        between(heat, size, at, j, h, even, t);
        j += WIDTH;
    }
    if (h % 2 == 0) {
        for (; j < size; j += WIDTH)
            in_row(heat, size, at, j, 1, !even, 0, t);
    } else {
        /* Two words are left: the last vector begins among those of the one before. */
        for (; j + WIDTH <= size; j += WIDTH)
            in_row(heat, size, at, j, 1, !even, 0, t);
        in_row(heat, size, at, size - WIDTH, 1, !even, 1, t);
    }
}

INLINE void pairs_plane(int heat, size_t size, int h, int even, size_t colour, size_t z, const thresholds t) {
    size_t half = size / 2, step = plane_step(size);
    size_t own = colour * colour_step(size), other = (1 - colour) * colour_step(size);
    pair at = {.own = own + z * step, .here = other + z * step};
    at.above = other + (z + 1 < size ? z + 1 : 0) * step;
    at.below = other + (z > 0 ? z - 1 : size - 1) * step;
    at.before = at.here + (size - 1) * half;
    at.behind = at.here + size;
    for (size_t y = 0; y < size; y += 2) {
        if (y + 2 == size)
            at.behind -= size * half;
        pairs_rows(heat, size, h, even, at, t);
        at.before = at.here + half;
        at.own += size;
        at.here += size;
        at.above += size;
        at.below += size;
        at.behind += size;
        at.draw += size;
    }
}

/* The next numbers, where their count is known: the ring is in registers for all of them. A count that is no multiple of
   eight is by two more than one: the ring then moves on by two words. There is room for six words more. */
INLINE void fill_known(draw_row wheel[RING], draw_row *out, size_t count) {
    draw_row ring[RING + 1];
    for (int k = 0; k < RING; k++) {
        ring[k] = wheel[k];
        __asm__("" : "+x"(ring[k]));
    }
    size_t rows = count / 8, rest = rows % 8;
    for (size_t i = 0; i < rows / 8; i++) {
#pragma GCC unroll 8
        for (int k = 0; k < RING; k++)
            *out++ = turn(ring, k);
    }
#pragma GCC unroll 8
    for (int k = 0; k < RING; k++)
        if ((size_t)k < rest)
            *out++ = turn(ring, k);
    if (count % 8 == 0) {
#pragma GCC unroll 8
        for (int k = 0; k < RING; k++)
            wheel[k] = ring[(k + rest) % RING];
        return;
    }
    draw_row first = ring[rest], second = ring[(rest + 1) % RING];
    (void)second;
    *out = turn(ring, rest);
    /* Row `rest` is the last now. */
#pragma GCC unroll 8
    for (int k = 0; k < RING; k++) {
        draw_row a = k == 0 ? first : ring[(rest + k) % RING], b = ring[(rest + k + 1) % RING];
        wheel[k] = __builtin_shufflevector(a, b, 2, 3, 4, 5, 6, 7, 8, 9);
    }
}

INLINE void pairs_at(int heat, size_t size, int h, int even, size_t colour, size_t z, const thresholds t) {
    draw_row *wheel = state.wheels[colour * size + z], *draws = (draw_row *)state.draws;
    fill_known(wheel, draws, size * size / 2);
    pairs_plane(heat, size, h, even, colour, z, t);
}

/* Each plane of colour 1 follows those beside it of colour 0, while its couplings are near the processor. */
INLINE void pairs_step(int heat, size_t size, int h, int even, size_t step, const thresholds t) {
#pragma GCC unroll 1
    for (size_t colour = 0; colour < 2; colour++)
        if (colour == 0 ? step < size : step > 1)
            pairs_at(heat, size, h, even, colour, colour == 0 ? step : step - 1 < size ? step - 1 : 0, t);
}

INLINE void pairs_colours(int heat, size_t size, int h, const thresholds t) {
    for (size_t step = 0; step < size + 2; step += 2) {
        pairs_step(heat, size, h, 1, step, t);
        pairs_step(heat, size, h, 0, step + 1, t);
    }
}
