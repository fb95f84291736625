/* The five second functions and the aggregate, by place. */
#ifndef SECOND_H
#define SECOND_H
#include "ring.h"

/* Σ ψ f' at place e of the second function k */
static element constant_terms_entry(const lizkarg_sizes *s, const lists *l, size_t k, size_t e) {
    size_t d = s->d, step = function(s) + 1;
    element sum = {{0}};
    for (size_t j = 0; j < s->l; j++) sum = add(d, sum, scale(d, l->psi[k * s->l + j], load_element(d, l->constant_terms + j * step + e * d)));
    return sum;
}

/* the element whose coefficients the projection rows weigh, conjugated, and Σ ψ φ' */
static element with_constant_terms(const lizkarg_sizes *s, const lists *l, size_t k, size_t e, element projected) {
    size_t d = s->d;
    element turned = {{0}};
    turned.v[0] = projected.v[0];
    for (size_t y = 1; y < d; y++) turned.v[y] = minus(projected.v[d - y]);
    return add(d, constant_terms_entry(s, l, k, pairs(s->r) + e), turned);
}

#if KERNEL == 1
/* The projection rows four at a time: number (g * 81 + c) * 5 + k of the table is the sum of four entries of code c, weighted by the ω_k of
 * rows 4g to 4g + 3; number y * 5 + k of an accumulator belongs to coefficient y and function k. */
typedef struct { int64_t v[25920]; } table;
typedef struct { element v[5]; } five;

static void write_table(const lizkarg_sizes *s, const lists *l, table *omega_sums) {
    size_t count = s->w / 4 * 405;
    for (size_t i = 0; i < count; i++) {
        size_t k = i % 5, number = i / 5, group = number / 81, c = number % 81;
        const int32_t *omega = l->omega + k * s->w + group * 4;
        int64_t sum = 0;
        for (size_t j = 0; j < 4; j++, c /= 3) sum += (int64_t)omega[j] * ((int64_t)(c % 3) - 1);
        omega_sums->v[i] = sum;
    }
}

static inline uint32_t code_at(const int32_t *row, size_t step) {
    uint32_t t0 = (uint32_t)(row[0] + 1), t1 = (uint32_t)(row[step] + 1), t2 = (uint32_t)(row[2 * step] + 1), t3 = (uint32_t)(row[3 * step] + 1);
    return ((t3 * 3 + t2) * 3 + t1) * 3 + t0;
}

/* The codes at element e: number g * 64 + y is that of group g and coefficient y. All are formed before the sums, so that the rows, which
 * stand far apart, are read without waiting. */
static void group_codes(const lizkarg_sizes *s, const lists *l, size_t e, uint32_t codes[4096]) {
    size_t d = s->d, step = s->r * s->n * d;
    for (size_t g = 0; g < s->w / 4; g++)
        for (size_t y = 0; y < d; y++) codes[g * 64 + y] = code_at(l->projections + g * 4 * step + e * d + y, step);
}

static five second_row_phi(const lizkarg_sizes *s, const lists *l, const table *omega_sums, size_t e) {
    size_t d = s->d, w = s->w, step = s->r * s->n * d;
    uint32_t codes[4096] = {0};
    int64_t acc[320] = {0};
    five row;
    group_codes(s, l, e, codes);
    for (size_t g = 0; g < w / 4; g++)
        for (size_t y = 0; y < d; y++) {
            const int64_t *from = omega_sums->v + (g * 81 + codes[g * 64 + y]) * 5;
            for (size_t k = 0; k < 5; k++) acc[y * 5 + k] += from[k];
        }
    for (size_t j = w / 4 * 4; j < w; j++)
        for (size_t y = 0; y < d; y++) {
            int32_t x = l->projections[j * step + e * d + y];
            for (size_t k = 0; k < 5; k++) {
                int64_t weight = l->omega[k * w + j];
                acc[y * 5 + k] += x > 0 ? weight : x < 0 ? -weight : 0;
            }
        }
    for (size_t k = 0; k < 5; k++) {
        element projected = {{0}};
        for (size_t y = 0; y < d; y++) projected.v[y] = centre(acc[y * 5 + k]);
        row.v[k] = with_constant_terms(s, l, k, e, projected);
    }
    return row;
}

static five second_row_a(const lizkarg_sizes *s, const lists *l, size_t e) {
    five row;
    for (size_t k = 0; k < 5; k++) row.v[k] = constant_terms_entry(s, l, k, e);
    return row;
}

static five add_products(size_t d, five sums, const five *row, element y) {
    for (size_t k = 0; k < 5; k++) sums.v[k] = add(d, sums.v[k], mul(d, row->v[k], y));
    return sums;
}

static int is_zero(size_t d, const five *row) {
    int32_t some = 0;
    for (size_t k = 0; k < 5; k++)
        for (size_t y = 0; y < d; y++) some |= row->v[k].v[y];
    return some == 0;
}

static element weighted_row(size_t d, const lists *l, const five *row) {
    element sum = {{0}};
    for (size_t k = 0; k < 5; k++) sum = add(d, sum, mul(d, load_element(d, l->delta + k * d), row->v[k]));
    return sum;
}

static element seconds_a(const lizkarg_sizes *s, const lists *l, size_t e) {
    five row = second_row_a(s, l, e);
    return weighted_row(s->d, l, &row);
}

static element seconds_phi(const lizkarg_sizes *s, const lists *l, const table *omega_sums, size_t e) {
    five row = second_row_phi(s, l, omega_sums, e);
    return weighted_row(s->d, l, &row);
}
#else
typedef struct { char none; } table;
static void write_table(const lizkarg_sizes *s, const lists *l, table *omega_sums) { (void)s, (void)l, (void)omega_sums; }

static element second_phi(const lizkarg_sizes *s, const lists *l, size_t k, size_t e) {
    size_t d = s->d, step = s->r * s->n * d;
    int64_t sum[64] = {0};
    element projected = {{0}};
    const int32_t *row = l->projections + e * d;
    for (size_t j = 0; j < s->w; j++, row += step) {
        int64_t c = l->omega[k * s->w + j];
        for (size_t y = 0; y < d; y++) sum[y] += c * row[y];
    }
    for (size_t y = 0; y < d; y++) projected.v[y] = centre(sum[y]);
    return with_constant_terms(s, l, k, e, projected);
}

static element seconds_a(const lizkarg_sizes *s, const lists *l, size_t e) {
    element sum = {{0}};
    for (size_t k = 0; k < 5; k++) sum = add(s->d, sum, mul(s->d, load_element(s->d, l->delta + k * s->d), constant_terms_entry(s, l, k, e)));
    return sum;
}

static element seconds_phi(const lizkarg_sizes *s, const lists *l, const table *omega_sums, size_t e) {
    element sum = {{0}};
    (void)omega_sums;
    for (size_t k = 0; k < 5; k++) sum = add(s->d, sum, mul(s->d, load_element(s->d, l->delta + k * s->d), second_phi(s, l, k, e)));
    return sum;
}
#endif

static element whole_entry(const lizkarg_sizes *s, const lists *l, size_t e) {
    size_t d = s->d, step = function(s) + d;
    element sum = {{0}};
    for (size_t k = 0; k < s->k; k++) sum = add(d, sum, mul(d, load_element(d, l->alpha + k * d), load_element(d, l->whole + k * step + e * d)));
    return sum;
}

static element aggregate_a(const lizkarg_sizes *s, const lists *l, size_t e) { return add(s->d, whole_entry(s, l, e), seconds_a(s, l, e)); }

static element aggregate_phi(const lizkarg_sizes *s, const lists *l, const table *omega_sums, size_t e) {
    return add(s->d, whole_entry(s, l, pairs(s->r) + e), seconds_phi(s, l, omega_sums, e));
}

static element aggregate_constant(const lizkarg_sizes *s, const lists *l) {
    return add(s->d, whole_entry(s, l, pairs(s->r) + s->r * s->n), inner(s->d, 5, l->delta, l->second_b));
}
#endif
