/* Keccak-f[1600] in plain C, as a yardstick for the library's permutation.

   Compile with -DKECCAK_PLAIN=name to choose the exported name, so that two compilers' versions
   can stand in one program. */

#include <stdint.h>

static const uint64_t constants[24] = {
    0x0000000000000001, 0x0000000000008082, 0x800000000000808A, 0x8000000080008000,
    0x000000000000808B, 0x0000000080000001, 0x8000000080008081, 0x8000000000008009,
    0x000000000000008A, 0x0000000000000088, 0x0000000080008009, 0x000000008000000A,
    0x000000008000808B, 0x800000000000008B, 0x8000000000008089, 0x8000000000008003,
    0x8000000000008002, 0x8000000000000080, 0x000000000000800A, 0x800000008000000A,
    0x8000000080008081, 0x8000000000008080, 0x0000000080000001, 0x8000000080008008,
};

/* A lane turned left by n bits, 0 < n < 64. */
static inline uint64_t turned(uint64_t lane, int n) {
    return lane << n | lane >> (64 - n);
}

/* The parity of column x. */
static inline uint64_t parity(const uint64_t a[25], int x) {
    return a[x] ^ a[x + 5] ^ a[x + 10] ^ a[x + 15] ^ a[x + 20];
}

/* Chi on five lanes, stored as one row. */
static inline void row(uint64_t *to, uint64_t b0, uint64_t b1, uint64_t b2, uint64_t b3, uint64_t b4) {
    to[0] = b0 ^ (~b1 & b2);
    to[1] = b1 ^ (~b2 & b3);
    to[2] = b2 ^ (~b3 & b4);
    to[3] = b3 ^ (~b4 & b0);
    to[4] = b4 ^ (~b0 & b1);
}

/* One round from the lanes a to the lanes e: theta as d, then rho and pi in the choice of the five
   lanes that chi mixes. */
static inline void round_to(uint64_t e[25], const uint64_t a[25], uint64_t constant) {
    uint64_t c0 = parity(a, 0), c1 = parity(a, 1), c2 = parity(a, 2), c3 = parity(a, 3), c4 = parity(a, 4);
    uint64_t d0 = c4 ^ turned(c1, 1);
    uint64_t d1 = c0 ^ turned(c2, 1);
    uint64_t d2 = c1 ^ turned(c3, 1);
    uint64_t d3 = c2 ^ turned(c4, 1);
    uint64_t d4 = c3 ^ turned(c0, 1);
    row(e, a[0] ^ d0, turned(a[6] ^ d1, 44), turned(a[12] ^ d2, 43), turned(a[18] ^ d3, 21),
        turned(a[24] ^ d4, 14));
    row(e + 5, turned(a[3] ^ d3, 28), turned(a[9] ^ d4, 20), turned(a[10] ^ d0, 3),
        turned(a[16] ^ d1, 45), turned(a[22] ^ d2, 61));
    row(e + 10, turned(a[1] ^ d1, 1), turned(a[7] ^ d2, 6), turned(a[13] ^ d3, 25),
        turned(a[19] ^ d4, 8), turned(a[20] ^ d0, 18));
    row(e + 15, turned(a[4] ^ d4, 27), turned(a[5] ^ d0, 36), turned(a[11] ^ d1, 10),
        turned(a[17] ^ d2, 15), turned(a[23] ^ d3, 56));
    row(e + 20, turned(a[2] ^ d2, 62), turned(a[8] ^ d3, 55), turned(a[14] ^ d4, 39),
        turned(a[15] ^ d0, 41), turned(a[21] ^ d1, 2));
    e[0] ^= constant;
}

/* The whole permutation, two rounds a turn so that no lane is copied back. */
static void permute(uint64_t lanes[25]) {
    uint64_t other[25];
    for (int i = 0; i < 24; i += 2) {
        round_to(other, lanes, constants[i]);
        round_to(lanes, other, constants[i + 1]);
    }
}

/* Permutes the lanes `times` times. */
void KECCAK_PLAIN(uint64_t lanes[25], uint64_t times) {
    for (uint64_t i = 0; i < times; i++) {
        permute(lanes);
    }
}
