/* Writes the list of float cases that crates/float_vectors replays: for each function of the crate `float` inputs, and the answers of this machine's
   processor. Each line is the function's digit, the input and the answer, as in oracle/floats/README.md. The same list comes out on every machine that keeps
   IEEE 754 in its default mode: nearest, a tie to the even one, subnormals kept. */
#include <math.h>
#include <stdint.h>
#include <stdio.h>
#include <stdlib.h>
#include <string.h>

enum { CASES = 2048 };

/* A NaN equals any other, so one pattern stands for all. */
static uint32_t bits32(float x) { uint32_t n; memcpy(&n, &x, 4); return isnan(x) ? 0x7fc00000 : n; }
static uint64_t bits64(double x) { uint64_t n; memcpy(&n, &x, 8); return isnan(x) ? 0x7ff8000000000000 : n; }
static float f32(uint32_t n) { float x; memcpy(&x, &n, 4); return x; }
static double f64(uint64_t n) { double x; memcpy(&x, &n, 8); return x; }

/* ---- the answers, by the processor's own operations */

static uint64_t quotient32(uint64_t in) { return bits32(f32(in >> 32) / f32((uint32_t)in)); }
static uint64_t quotient64(uint64_t in) { return bits64((double)f32(in >> 32) / (double)f32((uint32_t)in)); }
static uint64_t widened(uint64_t in) { return bits64((double)f32((uint32_t)in)); }
static uint64_t third(uint64_t in) { return bits64(f64(in) / 3.0); }
static uint64_t abs32(uint64_t in) { return bits32(fabsf(f32((uint32_t)in))); }
static uint64_t abs64(uint64_t in) { return bits64(fabs(f64(in))); }

/* C leaves the sign of fmaxf(-0.0, 0.0) open, and so does Rust. The crate says: the first of two that are equal. */
static uint64_t max32(uint64_t in) {
    float a = f32(in >> 32), b = f32((uint32_t)in), r = isnan(a) ? b : a < b ? b : a;
    if (!isnan(a) && !isnan(b) && r != fmaxf(a, b)) abort();
    return bits32(r);
}

static uint64_t min32(uint64_t in) {
    float a = f32(in >> 32), b = f32((uint32_t)in), r = isnan(a) ? b : b < a ? b : a;
    if (!isnan(a) && !isnan(b) && r != fminf(a, b)) abort();
    return bits32(r);
}

/* The processor cuts toward zero; where the integer type does not hold that, C says nothing, so the ends are written out. */
static uint64_t to_u32(uint64_t in) {
    float x = f32((uint32_t)in);
    if (isnan(x) || x <= -1.0f) return 0;
    if (x >= 4294967296.0f) return 0xffffffff;
    return (uint32_t)(int64_t)x;
}

static uint64_t to_i32(uint64_t in) {
    float x = f32((uint32_t)in);
    if (isnan(x)) return 0;
    if (x < -2147483648.0f) return bits64(-2147483648.0);
    if (x >= 2147483648.0f) return bits64(2147483647.0);
    return bits64((double)(int32_t)x);
}

/* Halves away from zero: no processor mode does that. x - truncf(x) is exact. */
static uint64_t round32(uint64_t in) {
    float x = f32((uint32_t)in), t = truncf(x), r = fabsf(x - t) >= 0.5f ? t + copysignf(1.0f, x) : t;
    r = copysignf(r, x);
    if (!isnan(x) && bits32(r) != bits32(roundf(x))) abort();
    return bits32(r);
}

static uint64_t narrow(uint64_t in) { return bits32((float)f64(in)); }
static uint64_t sqrt32(uint64_t in) { return bits32(sqrtf(f32((uint32_t)in))); }

/* ---- the inputs */

static uint64_t state = 0x9e3779b97f4a7c15;

static uint64_t any(void) {
    state ^= state << 13;
    state ^= state >> 7;
    state ^= state << 17;
    return state * 0x2545f4914f6cdd1d;
}

static uint32_t below(uint32_t n) { return (uint32_t)((any() >> 32) % n); }
static uint32_t sign32(void) { return (uint32_t)(any() >> 63) << 31; }
static uint64_t sign64(void) { return any() >> 63 << 63; }

/* zeros, ends of the subnormals, of the normals and of the integers, halves, infinities, NaNs of both kinds; each with both signs */
static const uint32_t special[] = {
    0x00000000, 0x00000001, 0x00000002, 0x00000003, 0x007ffffe, 0x007fffff, 0x00800000, 0x00800001, 0x00ffffff, 0x01000000, 0x33800000, 0x34000000,
    0x3e800000, 0x3effffff, 0x3f000000, 0x3f000001, 0x3f7fffff, 0x3f800000, 0x3f800001, 0x3fbfffff, 0x3fc00000, 0x3fc00001, 0x40000000, 0x40200000,
    0x40400000, 0x40490fdb, 0x40e00000, 0x41200000, 0x4a7fffff, 0x4a800000, 0x4affffff, 0x4b000000, 0x4b000001, 0x4b7fffff, 0x4b800000, 0x4effffff,
    0x4f000000, 0x4f000001, 0x4f7fffff, 0x4f800000, 0x4f800001, 0x5effffff, 0x5f000000, 0x5f800000, 0x7e800000, 0x7f000000, 0x7f7ffffe, 0x7f7fffff,
    0x7f800000, 0x7f800001, 0x7fbfffff, 0x7fc00000, 0x7fc00001, 0x7fffffff,
};
enum { SPECIAL = sizeof special / sizeof special[0] };

/* case number i of an f32 function */
static uint32_t single(int i) {
    if (i < 2 * SPECIAL) return special[i / 2] | (uint32_t)(i % 2) << 31;
    switch (i % 8) {
    case 0: return sign32() | below(0x800000);                                                  /* subnormal */
    case 1: return bits32(((float)below(1u << (1 + below(22))) + 0.5f)) ^ sign32();             /* half-way between whole numbers */
    case 2: return (bits32(((float)below(1u << (1 + below(22))) + 0.5f)) + below(3) - 1) ^ sign32(); /* and beside */
    case 3: return (bits32((float)(any() >> (32 + below(32)))) + below(3) - 1) ^ sign32();      /* whole, and beside */
    case 4: { float r = (float)below(1u << (1 + below(12))); return bits32(r * r) + below(3); } /* squares, and beside */
    case 5: return (0x34000000 + below(0x18000000)) ^ sign32();                                 /* from 2^-23 to 2^25 */
    default: return (uint32_t)(any() >> 32);                                                    /* any pattern */
    }
}

/* case number i of an f64 function */
static uint64_t twice(int i) {
    if (i < 2 * SPECIAL) {
        uint32_t n = special[i / 2];
        uint64_t a = n <= 0x7f800000 ? bits64((double)f32(n)) : (uint64_t)n << 32;
        return a | (uint64_t)(i % 2) << 63;
    }
    uint32_t n = (uint32_t)(any() >> 33);
    switch (i % 8) {
    case 0: case 1: /* half-way between two f32, and beside */
        if (n > 0x7f7fffff) n = 0x7f7fffff;
        return (bits64(((double)f32(n) + (n == 0x7f7fffff ? 0x1p128 : (double)f32(n + 1))) / 2) + (i % 2 ? below(3) - 1 : 0)) ^ sign64();
    case 2: n = below(0x800000); /* the same among the subnormal f32 */
        return (bits64(((double)f32(n) + (double)f32(n + 1)) / 2) + below(3) - 1) ^ sign64();
    case 3: return ((uint64_t)(862 + below(40)) << 52 | any() >> 12) ^ sign64();      /* where f32 begins, normal and subnormal */
    case 4: return ((uint64_t)(1145 + below(8)) << 52 | any() >> 12) ^ sign64();      /* where f32 ends */
    case 5: return sign64() | any() >> (12 + below(52));                              /* subnormal */
    case 6: return ((uint64_t)(896 + below(254)) << 52 | any() >> 12) ^ sign64();     /* within f32 */
    default: return any();                                                            /* any pattern */
    }
}

static uint64_t one(int i) { return single(i); }

/* two f32: the same, opposite, neighbours, specials, any with any */
static uint64_t two(int i) {
    uint32_t a = below(2) ? special[below(SPECIAL)] ^ sign32() : single(i + 2 * SPECIAL), b;
    switch (below(5)) {
    case 0: b = a; break;
    case 1: b = a ^ 0x80000000; break;
    case 2: b = a + below(3) - 1; break;
    case 3: b = special[below(SPECIAL)] ^ sign32(); break;
    default: b = single(i + 2 * SPECIAL); break;
    }
    return (uint64_t)a << 32 | b;
}

int main(void) {
    static const struct { char digit; uint64_t (*input)(int), (*answer)(uint64_t); } list[] = {
        {'1', two, quotient32}, {'2', two, quotient64}, {'3', one, widened}, {'4', twice, third}, {'5', one, abs32}, {'6', twice, abs64}, {'7', two, max32},
        {'8', two, min32}, {'9', one, to_u32}, {'a', one, to_i32}, {'b', one, round32}, {'c', twice, narrow}, {'d', one, sqrt32},
    };
    static uint64_t in[CASES];
    for (size_t f = 0; f < sizeof list / sizeof list[0]; f++)
        for (int i = 0; i < CASES; i++) {
            int k;
            do { /* until the input is a new one */
                in[i] = list[f].input(i);
                for (k = 0; in[k] != in[i]; k++) {}
            } while (k < i);
            printf("%c %016llx %016llx\n", list[f].digit, (unsigned long long)in[i], (unsigned long long)list[f].answer(in[i]));
        }
    return 0;
}
