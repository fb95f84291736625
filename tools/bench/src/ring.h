/* Ring elements and their products, by -DKERNEL (fold.c). */
#ifndef RING_H
#define RING_H
#include "bench.h"
#include <stdlib.h>
#include <string.h>
#if KERNEL == 2
#include <flint/nmod_poly.h>
#endif
#define Q 4294967197LL
#define MOST 2147483598LL

typedef struct { int32_t v[64]; } element;

/* The centred number congruent to x; centre_sum is for x of at most 2^32. */
#if KERNEL == 1
static inline int32_t centre(int64_t x) { return (int32_t)((x % Q + (Q + MOST)) % Q - MOST); }
static inline int32_t centre_sum(int64_t x) { return (int32_t)((x + (Q + MOST)) % Q - MOST); }
#else
static inline int32_t centre(int64_t x) {
    int64_t r = x % Q;
    if (r > MOST) r -= Q;
    if (r < -MOST) r += Q;
    return (int32_t)r;
}
#define centre_sum centre
#endif

/* ---- products */

#if KERNEL == 0
static element inner(size_t d, size_t n, const int32_t *u, const int32_t *v) {
    int64_t sum[64] = {0};
    element out = {{0}};
    for (size_t k = 0; k < n; k++, u += d, v += d)
        for (size_t i = 0; i < d; i++)
            for (size_t j = 0; j < d; j++) {
                int64_t x = (int64_t)u[i] * v[j];
                if (i + j < d) sum[i + j] = (sum[i + j] + x) % Q;
                else sum[i + j - d] = (sum[i + j - d] - x) % Q;
            }
    for (size_t k = 0; k < d; k++) out.v[k] = centre(sum[k]);
    return out;
}
#elif KERNEL == 1
/* by the bits of the sign, where the library takes a remainder: of that these compilers make slower code */
static inline uint64_t residue(int32_t x) {
    int64_t w = x;
    return (uint64_t)(w + ((w >> 63) & Q));
}

static inline uint64_t magnitude(int32_t x) {
    int64_t w = x, sign = w >> 63;
    return (uint64_t)((w ^ sign) - sign);
}

static inline int32_t from_residue(uint64_t x) {
    int64_t w = (int64_t)(x % (uint64_t)Q);
    return (int32_t)(w - (w + 2147483697) / 4294967296 * Q);
}

/* all numbers below 2^22 in absolute value */
static inline int is_short(size_t d, const int32_t *v) {
    uint64_t excess = 0;
    for (size_t i = 0; i < d; i++) excess += magnitude(v[i]) / 4194304;
    return excess == 0;
}

/* v short: raised so that none is negative, and columns summed exactly */
static inline void add_short_pair(size_t d, const uint64_t *a, const int32_t *v, uint64_t *e, uint64_t *sums) {
    size_t half = (d + 1) / 2;
    uint64_t raise = 0;
    e[0] = 0;
    for (size_t i = 0; i < d; i++) {
        uint64_t x = (uint64_t)(4194304 + (int64_t)v[d - 1 - i]);
        e[i + 1] = x;
        e[d + i + 1] = 8388608 - x;
    }
    for (size_t i = 0; i < d; i++) raise += a[i];
    raise = 4194304 * (274877900608 - raise);
    for (size_t c = 0; c < half; c++) {
        const uint64_t *p = e + (d - c), *q = e + (d - c - half);
        uint64_t sum = raise, sum2 = raise;
        for (size_t i = 0; i < d; i++) {
            uint64_t x = a[i] & 0xffffffff;
            sum += x * (p[i] & 0xffffffff);
            sum2 += x * (q[i] & 0xffffffff);
        }
        sums[c] += (sum & 0xffffffff) + 99 * (sum >> 32);
        sums[half + c] += (sum2 & 0xffffffff) + 99 * (sum2 >> 32);
    }
}

/* any v: products summed wrapping, their upper halves exactly */
static inline void add_pair(size_t d, const uint64_t *a, const int32_t *v, uint64_t *e, uint64_t *sums) {
    size_t half = (d + 1) / 2;
    for (size_t i = 0; i < d; i++) {
        uint64_t x = residue(v[d - 1 - i]);
        e[i + 1] = x;
        e[d + i + 1] = Q - x;
    }
    for (size_t c = 0; c < half; c++) {
        const uint64_t *p = e + (d - c), *q = e + (d - c - half);
        uint64_t sum = 0, high = 0, sum2 = 0, high2 = 0;
        for (size_t i = 0; i < d; i++) {
            uint64_t x = a[i] & 0xffffffff;
            uint64_t y = x * (p[i] & 0xffffffff), z = x * (q[i] & 0xffffffff);
            sum += y;
            sum2 += z;
            high += y >> 32;
            high2 += z >> 32;
        }
        sums[c] += sum - (high << 32) + 99 * high;
        sums[half + c] += sum2 - (high2 << 32) + 99 * high2;
    }
}

static element inner(size_t d, size_t n, const int32_t *u, const int32_t *v) {
    uint64_t sums[64] = {0}, a[64], e[129];
    element out = {{0}};
    for (size_t k = 0; k < n; k++, u += d, v += d) {
        for (size_t i = 0; i < d; i++) a[i] = residue(u[i]);
        if (is_short(d, v)) add_short_pair(d, a, v, e, sums);
        else add_pair(d, a, v, e, sums);
    }
    for (size_t k = 0; k < d; k++) out.v[k] = from_residue(sums[k]);
    return out;
}
#else
static void load(nmod_poly_t p, size_t d, const int32_t *u) {
    nmod_poly_fit_length(p, d);
    for (size_t i = 0; i < d; i++) p->coeffs[i] = u[i] < 0 ? (mp_limb_t)(u[i] + Q) : (mp_limb_t)u[i];
    p->length = d;
    _nmod_poly_normalise(p);
}

static element inner(size_t d, size_t n, const int32_t *u, const int32_t *v) {
    static nmod_poly_t x, y, z, sum;
    static int ready = 0;
    element out = {{0}};
    if (!ready) {
        nmod_poly_init(x, Q), nmod_poly_init(y, Q), nmod_poly_init(z, Q), nmod_poly_init(sum, Q);
        ready = 1;
    }
    nmod_poly_zero(sum);
    for (size_t k = 0; k < n; k++) {
        load(x, d, u + k * d);
        load(y, d, v + k * d);
        nmod_poly_mul(z, x, y);
        nmod_poly_add(sum, sum, z);
    }
    for (size_t k = 0; k < d; k++)
        out.v[k] = centre((int64_t)nmod_poly_get_coeff_ui(sum, k) - (int64_t)nmod_poly_get_coeff_ui(sum, d + k));
    return out;
}
#endif

/* ---- elements */

/* With -DCENTRED=1 elements are centred where they are read or turned, as in the library. */
#if CENTRED
static inline int32_t minus(int32_t x) { return centre(-(int64_t)x); }

static element load_element(size_t d, const int32_t *xs) {
    element x = {{0}};
    for (size_t i = 0; i < d; i++) x.v[i] = centre_sum(xs[i]);
    return x;
}
#else
static inline int32_t minus(int32_t x) { return -x; }

static element load_element(size_t d, const int32_t *xs) {
    element x = {{0}};
    memcpy(x.v, xs, d * sizeof(int32_t));
    return x;
}
#endif

static void store(size_t d, element x, int32_t *out) { memcpy(out, x.v, d * sizeof(int32_t)); }

static element add(size_t d, element x, element y) {
    for (size_t i = 0; i < d; i++) x.v[i] = centre_sum((int64_t)x.v[i] + y.v[i]);
    return x;
}

static element scale(size_t d, int64_t c, element x) {
    for (size_t i = 0; i < d; i++) x.v[i] = centre(c * x.v[i]);
    return x;
}

static element mul(size_t d, element x, element y) { return inner(d, 1, x.v, y.v); }

static element recompose(size_t d, int64_t base, size_t t, const int32_t *xs, size_t stride) {
    element sum = load_element(d, xs + (t - 1) * stride * d);
    for (size_t e = t - 1; e > 0; e--) sum = add(d, scale(d, base, sum), load_element(d, xs + (e - 1) * stride * d));
    return sum;
}

static int same(size_t d, element x, element y) { return memcmp(x.v, y.v, d * sizeof(int32_t)) == 0; }

/* digits of the numbers in the last of t blocks of `width`; a half leaves an even quotient */
static void split(int32_t base, size_t t, size_t width, int32_t *block) {
    int32_t *rest = block + (t - 1) * width;
    for (size_t k = 0; k + 1 < t; k++)
        for (size_t i = 0; i < width; i++) {
            int64_t x = rest[i];
#if KERNEL == 1
            /* rounded to the nearest, a half to the even number; 2^31 bases are added, so that the dividend is not negative */
            int64_t raised = x + 2147483648 * base, down = raised / base, remainder = raised % base;
            int64_t left = down + (2 * remainder + down % 2 + (131071 - base)) / 131072 - 2147483648;
            int64_t low = x - left * base;
#else
            int64_t low = x % base;
            if (low < 0) low += base;
            if (2 * low > base || (2 * low == base && (x - low) / base % 2 != 0)) low -= base;
            int64_t left = (x - low) / base;
#endif
            block[k * width + i] = (int32_t)low;
            rest[i] = (int32_t)left;
        }
}
#endif
