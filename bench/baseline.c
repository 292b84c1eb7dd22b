// The list and the cover in C, for six variables: what the proved library is measured against.
//
// One bit a square: code c is bit c % 64 of row c / 64, 64 rows of 64 bits, two rows a vector of 128 bits. Literal k of a code is its bit k, so
// literals 0 to 5 are shifts inside a row, literal 6 is a shift of a vector by a row, literals 7 to 11 lead from vector to vector.
// Nothing is refused: the codes are below 4,096 and the buffers have room.
#include "types.h"

#define INLINE static inline __attribute__((always_inline))
#define UNROLL _Pragma("clang loop unroll(full)")

typedef uint64_t pair __attribute__((vector_size(16)));
typedef uint32_t quads __attribute__((vector_size(16)));
typedef uint16_t words __attribute__((vector_size(16)));

typedef union {
    uint64_t row[64];
    pair two[32];
} map;

// The codes of a row that have literal 0, 1 or 2. Literals 3 to 5 need no mask: a lane's shift drops what leaves it.
#define HAS_0 0xaaaaaaaaaaaaaaaaull
#define HAS_1 0xccccccccccccccccull
#define HAS_2 0xf0f0f0f0f0f0f0f0ull

INLINE pair both(uint64_t row) { return (pair){row, row}; }

// One literal more, or one less, inside a vector.
INLINE pair more_0(pair x) { return (x << 1) & both(HAS_0); }
INLINE pair more_1(pair x) { return (x << 2) & both(HAS_1); }
INLINE pair more_2(pair x) { return (x << 4) & both(HAS_2); }
INLINE pair more_3(pair x) { return (pair)((words)x << 8); }
INLINE pair more_4(pair x) { return (pair)((quads)x << 16); }
INLINE pair more_5(pair x) { return x << 32; }
INLINE pair more_6(pair x) { return __builtin_shufflevector((pair){0, 0}, x, 0, 2); }

INLINE pair less_0(pair x) { return (x >> 1) & both(HAS_0 >> 1); }
INLINE pair less_1(pair x) { return (x >> 2) & both(HAS_1 >> 2); }
INLINE pair less_2(pair x) { return (x >> 4) & both(HAS_2 >> 4); }
INLINE pair less_3(pair x) { return (pair)((words)x >> 8); }
INLINE pair less_4(pair x) { return (pair)((quads)x >> 16); }
INLINE pair less_5(pair x) { return x >> 32; }
INLINE pair less_6(pair x) { return __builtin_shufflevector(x, (pair){0, 0}, 1, 2); }

INLINE pair up(pair x)
{
    x |= more_0(x);
    x |= more_1(x);
    x |= more_2(x);
    x |= more_3(x);
    x |= more_4(x);
    x |= more_5(x);
    return x | more_6(x);
}

INLINE pair down(pair x)
{
    x |= less_0(x);
    x |= less_1(x);
    x |= less_2(x);
    x |= less_3(x);
    x |= less_4(x);
    x |= less_5(x);
    return x | less_6(x);
}

INLINE pair above(pair x)
{
    return more_0(x) | more_1(x) | more_2(x) | more_3(x) | more_4(x) | more_5(x) | more_6(x);
}

// The simple or full codes: no digit 3, or no digit 0. By a row's three digits: it may go on with three digits of 0 to 2, of 1 to 3, or both.
#define SIMPLE 0x0000077707770777ull
#define FULL 0xeee0eee0eee00000ull
#define HAS_DIGIT(r, d) (((r) & 3) == (d) || ((r) >> 2 & 3) == (d) || ((r) >> 4 & 3) == (d))
#define ROW(r) ((HAS_DIGIT(r, 3) ? 0 : SIMPLE) | (HAS_DIGIT(r, 0) ? 0 : FULL))
#define ROWS_4(r) ROW(r), ROW((r) + 1), ROW((r) + 2), ROW((r) + 3)
#define ROWS_16(r) ROWS_4(r), ROWS_4((r) + 4), ROWS_4((r) + 8), ROWS_4((r) + 12)

static const map simple_or_full = {{ROWS_16(0), ROWS_16(16), ROWS_16(32), ROWS_16(48)}};

INLINE void mark(map *m, const uint16_t *sheet, unsigned count)
{
    UNROLL
    for (int k = 0; k < 32; k++)
        m->two[k] = (pair){0, 0};
#pragma clang loop unroll_count(8)
    for (unsigned i = 0; i < count; i++) {
        unsigned code = sheet[i];
        m->row[code >> 6] |= 1ull << (code & 63);
    }
}

// From the sheet's marks to the marks of its primes.
INLINE void primes(map *m)
{
    // Within: closed upwards over literals 0 to 9, eight vectors at a time.
#pragma clang loop unroll(disable)
    for (pair *g = m->two; g != m->two + 32; g += 8) {
        pair x[8];
        UNROLL
        for (int k = 0; k < 8; k++)
            x[k] = up(g[k]);
        UNROLL
        for (int s = 1; s < 8; s *= 2)
            UNROLL
            for (int k = 0; k < 8; k++)
                if (k & s)
                    x[k] |= x[k - s];
        UNROLL
        for (int k = 0; k < 8; k++)
            g[k] = x[k];
    }
    // Literals 10 and 11; then the simple or full codes outside, closed downwards over literals 11 and 10.
    pair *v = m->two;
#pragma clang loop unroll(disable)
    for (int k = 0; k < 8; k++) {
        pair a = v[k], b = v[k + 8] | a, c = v[k + 16] | a, d = v[k + 24] | b | c;
        a = simple_or_full.two[k] & ~a;
        b = simple_or_full.two[k + 8] & ~b;
        c = simple_or_full.two[k + 16] & ~c;
        d = simple_or_full.two[k + 24] & ~d;
        b |= d;
        c |= d;
        v[k] = a | b | c;
        v[k + 8] = b;
        v[k + 16] = c;
        v[k + 24] = d;
    }
    // Literals 0 to 9 downwards. What is left are the implicants.
#pragma clang loop unroll(disable)
    for (pair *g = m->two; g != m->two + 32; g += 8) {
        pair x[8];
        UNROLL
        for (int k = 0; k < 8; k++)
            x[k] = down(g[k]);
        UNROLL
        for (int s = 1; s < 8; s *= 2)
            UNROLL
            for (int k = 0; k < 8; k++)
                if (!(k & s))
                    x[k] |= x[k + s];
        UNROLL
        for (int k = 0; k < 8; k++)
            g[k] = ~x[k];
    }
    // The least of them, from the highest vector on, so that those below are still implicants.
    UNROLL
    for (int k = 31; k >= 0; k--) {
        pair x = v[k];
        pair more = above(x);
        UNROLL
        for (int s = 1; s < 32; s *= 2)
            if (k & s)
                more |= v[k - s];
        v[k] = x & ~more;
    }
}

INLINE unsigned read(const map *m, uint16_t *codes)
{
    uint16_t *out = codes;
    for (unsigned r = 0; r < 64; r++)
        for (uint64_t rest = m->row[r]; rest; rest &= rest - 1)
            *out++ = (uint16_t)(r * 64 + (unsigned)__builtin_ctzll(rest));
    return (unsigned)(out - codes);
}

// Writes the primes of the sheet of m codes, rising, and gives how many there are.
static unsigned base_list(const uint16_t *sheet, unsigned m, uint16_t *codes)
{
    map marks;
    mark(&marks, sheet, m);
    primes(&marks);
    return read(&marks, codes);
}

// The cover falls apart by sets of pairs. A phrase with the pairs S, S not empty, is struck if the full codes with exactly these pairs that have
// it within have another one not struck within. Such a full code is a point: bit i says whether variable i (from the last) is plain; at
// a pair it is 0. A phrase covers the points that agree with its literals, a cube. What is covered by phrases with fewer pairs stays
// covered whatever is struck there, so each S is a walk of its own over at most 32 points.

// A digit's points, M those where its variable is plain.
#define CUBE(d, M) (((d) & 3) == 0 ? ~0ull : ((d) & 3) == 2 ? (M) : ~(M))
#define CUBE_LOW(c) (CUBE(c, HAS_0) & CUBE((c) >> 2, HAS_1) & CUBE((c) >> 4, HAS_2))
#define CUBE_HIGH(c) (CUBE(c, 0xff00ff00ff00ff00ull) & CUBE((c) >> 2, 0xffff0000ffff0000ull) & CUBE((c) >> 4, 0xffffffff00000000ull))
// The set of pairs, and above it, from bit 8 on, the number of literals outside pairs.
#define KEY_1(d, i) (((d) & 3) == 3 ? 1 << (i) : ((d) & 3) ? 256 : 0)
#define KEY(c, i) (KEY_1(c, i) + KEY_1((c) >> 2, (i) + 1) + KEY_1((c) >> 4, (i) + 2))
#define KEY_LOW(c) KEY(c, 0)
#define KEY_HIGH(c) KEY(c, 3)
#define OF_4(f, c) f(c), f((c) + 1), f((c) + 2), f((c) + 3)
#define OF_16(f, c) OF_4(f, c), OF_4(f, (c) + 4), OF_4(f, (c) + 8), OF_4(f, (c) + 12)
#define OF_64(f) OF_16(f, 0), OF_16(f, 16), OF_16(f, 32), OF_16(f, 48)

static const uint64_t cube_low[64] = {OF_64(CUBE_LOW)}, cube_high[64] = {OF_64(CUBE_HIGH)};
static const uint16_t key_low[64] = {OF_64(KEY_LOW)}, key_high[64] = {OF_64(KEY_HIGH)};

// For each set of pairs, what is covered by phrases with fewer pairs, from what is covered by its own: a point with a pair at i has
// two points below it, with variable i complemented and plain. Bits at 1 in a pair mean nothing.
INLINE void below(const map *own, map *low)
{
    map all;
    UNROLL
    for (int k = 0; k < 32; k++) {
        pair x = {0, 0};
        UNROLL
        for (int j = 0; j < 5; j++)
            if (k >> j & 1) {
                pair y = all.two[k ^ 1 << j];
                x |= y | y >> (2 << j);
            }
        pair y = own->two[k] | x;
        x |= more_6(y | y >> 1);
        low->two[k] = x;
        all.two[k] = own->two[k] | x;
    }
}

// The same list, and beside each prime whether the cover keeps it.
static unsigned base_cover(const uint16_t *sheet, unsigned m, uint16_t *codes, uint8_t *flags)
{
    // At most 4,096 primes with each number of literals outside pairs, 0 to 5 where there is a pair.
    struct phrase {
        uint64_t cube, later;
        uint32_t set, place;
    } level[6][4096];
    unsigned filled[6] = {0};
    unsigned count = base_list(sheet, m, codes);
    map own;
    UNROLL
    for (int k = 0; k < 32; k++)
        own.two[k] = (pair){0, 0};
    for (unsigned i = 0; i < count; i++) {
        unsigned high = codes[i] >> 6, lowest = codes[i] & 63;
        uint64_t cube = cube_high[high] & cube_low[lowest];
        unsigned key = (unsigned)key_high[high] + key_low[lowest];
        unsigned set = key & 63;
        if (set == 0) {
            own.row[0] |= cube;
            flags[i] = 1;
            continue;
        }
        struct phrase *p = &level[key >> 8][filled[key >> 8]++];
        p->cube = cube;
        p->set = set;
        p->place = i;
    }
    // Against the walk: what the later ones of the same set cover.
    for (int l = 0; l < 6; l++)
        for (struct phrase *p = level[l], *end = p + filled[l]; p != end; p++) {
            p->later = own.row[p->set];
            own.row[p->set] |= p->cube;
        }
    // The walk: most literals first, then the larger code.
    map kept;
    below(&own, &kept);
    for (int l = 5; l >= 0; l--)
        for (struct phrase *p = level[l] + filled[l]; p != level[l];) {
            p--;
            uint64_t others = kept.row[p->set];
            int needed = (p->cube & ~(others | p->later)) != 0;
            kept.row[p->set] = others | (needed ? p->cube : 0);
            flags[p->place] = (uint8_t)needed;
        }
    return count;
}
