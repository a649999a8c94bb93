/* Vectors of words of 64 samples, as wide as a register: gcc keeps wider ones in memory. */
#include <stdint.h>

#ifdef __AVX2__
enum { BYTES = 32 };
#else
enum { BYTES = 16 };
#endif

enum { WIDTH = BYTES / 8 };

typedef uint64_t lanes __attribute__((vector_size(BYTES), may_alias));

/* So that loops over constants are unrolled in each case. */
#define INLINE static inline __attribute__((always_inline))

INLINE void full_adder(lanes a, lanes b, lanes c, lanes *low, lanes *high) {
    lanes either = a ^ b;
    *low = either ^ c;
    *high = (a & b) | (either & c);
}
