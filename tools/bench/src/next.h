/* The next instance: constraints on the opening cut into 2 nu + mu parts. Each coefficient is formed at its place, from four lists. */
#ifndef NEXT_H
#define NEXT_H
#include "second.h"

typedef struct { int32_t folded[256 * 64], products[136 * 64], aggregate_a[136 * 64], diagonal[136 * 64]; } next_lists;
static const element zero = {{0}};

static void write_next_lists(const lizkarg_sizes *s, const lists *l, next_lists *x) {
    size_t d = s->d, n = s->n, r = s->r;
    table omega_sums;
    write_table(s, l, &omega_sums);
    for (size_t k = 0; k < n; k++) {
        element sum = zero;
        for (size_t i = 0; i < r; i++) sum = add(d, sum, mul(d, aggregate_phi(s, l, &omega_sums, i * n + k), load_element(d, l->c + i * d)));
        store(d, sum, x->folded + k * d);
    }
    for (size_t i = 0, q = 0; i < r; i++)
        for (size_t j = i; j < r; j++, q++) {
            element one = {{i == j}};
            store(d, scale(d, -1, scale(d, i == j ? 1 : 2, mul(d, load_element(d, l->c + i * d), load_element(d, l->c + j * d)))), x->products + q * d);
            store(d, aggregate_a(s, l, q), x->aggregate_a + q * d);
            store(d, one, x->diagonal + q * d);
        }
}

static int32_t power(size_t base, size_t e) {
    int32_t x = 1;
    for (size_t i = 0; i < e; i++) x = centre((int64_t)x * (int64_t)base);
    return x;
}

static element z_entry(const lizkarg_sizes *s, const int32_t *xs, size_t p) {
    return scale(s->d, power(s->b, p / s->n), load_element(s->d, xs + p % s->n * s->d));
}

static element garbage_entry(size_t d, size_t base, size_t t, const int32_t *xs, size_t p) {
    return scale(d, power(base, p % t), load_element(d, xs + p / t * d));
}

static element t_entry(const lizkarg_sizes *s, const lists *l, size_t k, size_t p) {
    size_t column = p / s->kappa;
    if (p % s->kappa != k) return zero;
    return scale(s->d, -1, scale(s->d, power(s->b1, column % s->t1), load_element(s->d, l->c + column / s->t1 * s->d)));
}

/* the coefficient of constraint x at place p of the opening; constraints in the order 5, 6, 7, 8, 3, 4 */
static element coefficient(const lizkarg_sizes *s, const lists *l, const next_lists *y, size_t x, size_t p) {
    size_t d = s->d, t = 2 * s->n, tn = s->r * s->t1 * s->kappa, gn = pairs(s->r) * s->t2, g = t + tn, h = g + gn;
    if (x < s->kappa) return p < t ? z_entry(s, l->a_matrix + x * s->n * d, p) : p < g ? t_entry(s, l, x, p - t) : zero;
    x -= s->kappa;
    if (x == 0) return p < g || p >= h ? zero : garbage_entry(d, s->b2, s->t2, y->products, p - g);
    if (x == 1) return p < t ? z_entry(s, y->folded, p) : p < h ? zero : garbage_entry(d, s->b1, s->t1, y->products, p - h);
    if (x == 2) {
        if (p < g) return zero;
        return p < h ? garbage_entry(d, s->b2, s->t2, y->aggregate_a, p - g) : garbage_entry(d, s->b1, s->t1, y->diagonal, p - h);
    }
    x -= 3;
    if (x < s->kappa1) {
        if (p < t || p >= h) return zero;
        return load_element(d, p < g ? l->b_matrix + (x * tn + p - t) * d : l->c_matrix + (x * gn + p - g) * d);
    }
    x -= s->kappa1;
    return p < h ? zero : load_element(d, l->d_matrix + (x * pairs(s->r) * s->t1 + p - h) * d);
}

static element next_a(const lizkarg_sizes *s, size_t nu, size_t x, size_t i, size_t j) {
    element out = zero;
    if (x != s->kappa || i >= 2 * nu || j >= 2 * nu || i % nu != j % nu) return zero;
    out.v[0] = power(s->b, i / nu + j / nu);
    if (i != j) out.v[0] = centre(2 * (int64_t)out.v[0]);
    return out;
}

static element next_constant(const lizkarg_sizes *s, const lists *l, size_t x) {
    size_t third = s->kappa + 3;
    if (x + 1 < third) return zero;
    if (x + 1 == third) return aggregate_constant(s, l);
    if (x < third + s->kappa1) return load_element(s->d, l->u1 + (x - third) * s->d);
    return load_element(s->d, l->u2 + (x - third - s->kappa1) * s->d);
}

static size_t chunk(size_t whole, size_t count, size_t i) {
    size_t size = (whole + count - 1) / count, from = i * size;
    return from >= whole ? 0 : whole - from < size ? whole - from : size;
}

static void write_next(const lizkarg_sizes *s, const lists *l) {
    size_t d = s->d, n = s->n, nu = l->nu, mu = l->mu, m = rest(s), rank = next_rank(s, l), parts = 2 * nu + mu;
    next_lists y;
    int32_t *out = l->next;
    write_next_lists(s, l, &y);
    for (size_t x = 0; x < s->kappa + s->kappa1 + s->kappa2 + 3; x++) {
        size_t start = 0;
        for (size_t i = 0; i < parts; i++)
            for (size_t j = i; j < parts; j++, out += d) store(d, next_a(s, nu, x, i, j), out);
        for (size_t i = 0; i < parts; i++) {
            size_t size = i < 2 * nu ? chunk(n, nu, i % nu) : chunk(m, mu, i - 2 * nu);
            for (size_t k = 0; k < rank; k++, out += d) store(d, k < size ? coefficient(s, l, &y, x, start + k) : zero, out);
            start += size;
        }
        store(d, next_constant(s, l, x), out);
        out += d;
    }
}
#endif
