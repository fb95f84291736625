/* A random statement with a witness that solves it, and draws. The next instance is cut into 2·2 + 12 parts. */
#include "case.h"
#include <stdlib.h>
#include <string.h>

static const int32_t MOST = 2147483598;

static uint64_t state = 1;

static uint64_t draw(void) {
    uint64_t z = (state += 0x9e3779b97f4a7c15);
    z = (z ^ (z >> 30)) * 0xbf58476d1ce4e5b9;
    z = (z ^ (z >> 27)) * 0x94d049bb133111eb;
    return z ^ (z >> 31);
}

static int32_t *filled(size_t n, int32_t most) {
    int32_t *xs = malloc((n + 1) * sizeof *xs);
    for (size_t i = 0; i < n; i++) xs[i] = (int32_t)((int64_t)(draw() % (2 * (uint64_t)most + 1)) - most);
    return xs;
}

/* r challenges: of 64 coefficients 10 are 2 or -2, 31 are 1 or -1 and 23 are 0, as the paper draws them, at lower degrees as many in proportion */
static int32_t *challenges(size_t d, size_t r) {
    int32_t *c = calloc(r * d, sizeof *c);
    for (size_t i = 0; i < r; i++) {
        int32_t *x = c + i * d;
        for (size_t k = 0; k < 41 * d / 64; k++) x[k] = (k < 10 * d / 64 ? 2 : 1) * (draw() % 2 ? 1 : -1);
        for (size_t k = d - 1; k > 0; k--) {
            size_t other = draw() % (k + 1);
            int32_t kept = x[k];
            x[k] = x[other], x[other] = kept;
        }
    }
    return c;
}

static void add_to(size_t d, int32_t *sum, const int32_t *x) {
    for (size_t i = 0; i < d; i++) {
        int64_t v = ((int64_t)sum[i] + x[i]) % 4294967197;
        if (v > MOST) v -= 4294967197;
        if (v < -MOST) v += 4294967197;
        sum[i] = (int32_t)v;
    }
}

static void sum_products(size_t d, size_t n, const int32_t *x, const int32_t *y, int32_t *out) {
    int32_t product[64];
    for (size_t k = 0; k < n; k++) {
        gcc_tuned.multiply(d, x + k * d, y + k * d, product);
        add_to(d, out, product);
    }
}

static lengths lengths_of(const lizkarg_sizes *s, const lists *l) {
    size_t d = s->d, n = s->n, parts = 2 * l->nu + l->mu;
    size_t t = s->r * s->t1 * s->kappa * d, g = pairs(s->r) * s->t2 * d, h = pairs(s->r) * s->t1 * d;
    return (lengths){.a_matrix = s->kappa * n * d, .b_matrix = s->kappa1 * t, .c_matrix = s->kappa1 * g, .d_matrix = s->kappa2 * h,
        .whole = s->k * (function(s) + d), .constant_terms = s->l * (function(s) + 1), .projections = s->w * s->r * n * d, .psi = 5 * s->l,
        .omega = 5 * s->w, .alpha = s->k * d, .delta = 5 * d, .c = s->r * d, .witness = s->r * n * d, .u1 = s->kappa1 * d, .p = s->w,
        .second_b = 5 * d, .u2 = s->kappa2 * d, .z = 2 * n * d, .t = t, .g = g, .h = h, .opening = 2 * n * d + t + g + h,
        .next = (s->kappa + s->kappa1 + s->kappa2 + 3) * (pairs(parts) + parts * next_rank(s, l) + 1) * d};
}

/* sets the constants of the constraints to the values at the witness */
static void solve(const lizkarg_sizes *s, const int32_t *witness, int32_t *whole, int32_t *constant_terms) {
    size_t d = s->d, n = s->n, r = s->r, size = function(s);
    int32_t *products = calloc(pairs(r) * d, sizeof *products);
    for (size_t i = 0, at = 0; i < r; i++)
        for (size_t j = i; j < r; j++, at++) sum_products(d, n, witness + i * n * d, witness + j * n * d, products + at * d);
    for (size_t k = 0; k < s->k + s->l; k++) {
        int32_t value[64] = {0};
        int32_t *f = k < s->k ? whole + k * (size + d) : constant_terms + (k - s->k) * (size + 1);
        sum_products(d, pairs(r), f, products, value);
        sum_products(d, r * n, f + pairs(r) * d, witness, value);
        memcpy(f + size, value, (k < s->k ? d : 1) * sizeof *f);
    }
    free(products);
}

void make_case(lizkarg_sizes *s, lists *l, int32_t most) {
    state = 1;
    s->bound = s->target = 999999999999999;
    l->nu = 2, l->mu = 12;
    lengths n = l->n = lengths_of(s, l);
    int32_t *witness = filled(n.witness, most), *whole = filled(n.whole, MOST), *constant_terms = filled(n.constant_terms, MOST);
    solve(s, witness, whole, constant_terms);
    l->witness = witness, l->whole = whole, l->constant_terms = constant_terms;
    l->a_matrix = filled(n.a_matrix, MOST), l->b_matrix = filled(n.b_matrix, MOST);
    l->c_matrix = filled(n.c_matrix, MOST), l->d_matrix = filled(n.d_matrix, MOST);
    l->projections = filled(n.projections, 1);
    l->psi = filled(n.psi, MOST), l->omega = filled(n.omega, MOST), l->alpha = filled(n.alpha, MOST), l->delta = filled(n.delta, MOST);
    l->c = challenges(s->d, s->r);
    l->u1 = filled(n.u1, 0), l->p = filled(n.p, 0), l->second_b = filled(n.second_b, 0), l->u2 = filled(n.u2, 0);
    l->z = filled(n.opening, 0), l->t = l->z + n.z, l->g = l->t + n.t, l->h = l->g + n.g;
    l->next = malloc(n.next * sizeof *l->next);
}

void without_products(const lizkarg_sizes *s, lists *l) {
    int32_t *whole = (int32_t *)l->whole, *constant_terms = (int32_t *)l->constant_terms;
    for (size_t k = 0; k < s->k + s->l; k++) {
        int32_t *a = k < s->k ? whole + k * (function(s) + s->d) : constant_terms + (k - s->k) * (function(s) + 1);
        for (size_t i = 0; i < s->r; i++)
            for (size_t j = i; j < s->r; j++, a += s->d)
                if (i < j) memset(a, 0, s->d * sizeof *a);
    }
    solve(s, l->witness, whole, constant_terms);
}

void free_case(lists *l) {
    const void *all[] = {l->a_matrix, l->b_matrix, l->c_matrix, l->d_matrix, l->whole, l->constant_terms, l->projections, l->psi, l->omega,
        l->alpha, l->delta, l->c, l->witness, l->u1, l->p, l->second_b, l->u2, l->z, l->next};
    for (size_t i = 0; i < sizeof all / sizeof *all; i++) free((void *)all[i]);
}
