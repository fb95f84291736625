/* The library's algorithm in C. Compiled with
 *   -DKERNEL=1  the library's algorithm as it is: the same loops, formulas and data layout
 *   -DKERNEL=0  one % per term of a product        -DKERNEL=2  FLINT's nmod_poly
 * and -DNAME=.. for the implementation's name; 0 and 2 sum the projection rows one by one, by multiplications, and form all <s_i, s_j> in
 * message 3. It tests no sizes and no lengths. With -DTESTS=1 it looks through what it is lent as the library does (rows 8 to 10, 15), and its
 * product takes elements by value and tests them. -DCENTRED=1: ring.h. */
#include "next.h"

/* ---- squared lengths */

/* Whether the squares fit into the bound; what they leave of it. */
static int within(uint64_t bound, const int32_t *xs, size_t n, int times, uint64_t *margin) {
    uint64_t rest = bound;
    for (int t = 0; t < times; t++)
        for (size_t i = 0; i < n; i++) {
            uint64_t x = (uint64_t)((int64_t)xs[i] * xs[i]);
            if (rest < x) return 0;
            rest -= x;
        }
    *margin = rest;
    return 1;
}

/* ---- tests */

#if TESTS
static int all_between(const int32_t *xs, size_t n, int32_t low, int32_t high) {
    int all = 1;
    for (size_t i = 0; i < n; i++) all &= !(xs[i] < low) & !(high < xs[i]);
    return all;
}

static void within_range(const int32_t *xs, size_t n, int32_t most) {
    if (!all_between(xs, n, -most, most)) abort();
}
#else
static inline void within_range(const int32_t *xs, size_t n, int32_t most) { (void)xs, (void)n, (void)most; }
#endif

#define NUMBERS(xs) within_range(l->xs, l->n.xs, MOST)

/* entries of -1, 0, 1 are in coefficient range, too */
static void test_projections(const lists *l) { within_range(l->projections, l->n.projections, 1); }

static void test_seconds(const lists *l) {
    NUMBERS(constant_terms);
    NUMBERS(psi);
    NUMBERS(omega);
    test_projections(l);
}

static void test_wholes(const lists *l) {
    NUMBERS(whole);
    NUMBERS(alpha);
    NUMBERS(delta);
    NUMBERS(d_matrix);
}

static void test_commit(const lists *l) {
    NUMBERS(a_matrix);
    NUMBERS(b_matrix);
    NUMBERS(c_matrix);
}

static void test_messages(const lists *l) {
    NUMBERS(u1);
    NUMBERS(p);
    NUMBERS(second_b);
    NUMBERS(u2);
}

#if TESTS
/* At degree 64, 23 coefficients 0, 31 of 1 or -1 and 10 of 2 or -2; at smaller degrees -2 to 2, squared length at most 71 */
static int is_challenge(const int32_t *c, size_t d) {
    uint64_t margin;
    if (d < 64) return all_between(c, d, -2, 2) && within(71, c, d, 1, &margin);
    int zeros = 0, ones = 0, twos = 0;
    for (size_t i = 0; i < d; i++) zeros += c[i] == 0, ones += (c[i] == 1) | (c[i] == -1), twos += (c[i] == 2) | (c[i] == -2);
    return zeros == 23 && ones == 31 && twos == 10;
}
#endif

static void test_challenges(const lizkarg_sizes *s, const lists *l) {
    NUMBERS(c);
#if TESTS
    for (size_t i = 0; i < s->r; i++)
        if (!is_challenge(l->c + i * s->d, s->d)) abort();
#else
    (void)s;
#endif
}

static void test_witness(const lists *l) { NUMBERS(witness); }

/* The low digits of so many values, each of `digits` digits of `width` numbers: at most half their base. */
static void test_low_digits(const int32_t *xs, size_t values, size_t digits, size_t width, size_t base) {
    for (size_t i = 0; i < values; i++) within_range(xs + i * digits * width, (digits - 1) * width, (int32_t)(base / 2));
}

static void test_opening(const lizkarg_sizes *s, const lists *l) {
    within_range(l->z, l->n.opening, MOST);
    test_low_digits(l->z, 1, 2, s->n * s->d, s->b);
    test_low_digits(l->t, s->r, s->t1, s->kappa * s->d, s->b1);
    test_low_digits(l->g, pairs(s->r), s->t2, s->d, s->b2);
    test_low_digits(l->h, pairs(s->r), s->t1, s->d, s->b1);
}

/* ---- messages */

static void pair_products(const lizkarg_sizes *s, const int32_t *w, int32_t *out) {
    for (size_t i = 0; i < s->r; i++)
        for (size_t j = i; j < s->r; j++, out += s->d) store(s->d, inner(s->d, s->n, w + i * s->n * s->d, w + j * s->n * s->d), out);
}

static void digits_of(size_t d, int32_t base, size_t t, size_t count, const int32_t *values, int32_t *out) {
    for (size_t e = 0; e < count; e++, values += d, out += t * d) {
        store(d, load_element(d, values), out + (t - 1) * d);
        split(base, t, d, out);
    }
}

static void commit(const lizkarg_sizes *s, const lists *l) {
    size_t d = s->d, n = s->n, m = s->r * s->t1 * s->kappa, g = pairs(s->r) * s->t2;
    int32_t products[136 * 64];
    test_commit(l), test_witness(l);
    for (size_t i = 0; i < s->r; i++) {
        int32_t *block = l->t + i * s->t1 * s->kappa * d;
        for (size_t k = 0; k < s->kappa; k++)
            store(d, inner(d, n, l->a_matrix + k * n * d, l->witness + i * n * d), block + ((s->t1 - 1) * s->kappa + k) * d);
        split((int32_t)s->b1, s->t1, s->kappa * d, block);
    }
    pair_products(s, l->witness, products);
    digits_of(d, (int32_t)s->b2, s->t2, pairs(s->r), products, l->g);
    for (size_t k = 0; k < s->kappa1; k++)
        store(d, add(d, inner(d, m, l->b_matrix + k * m * d, l->t), inner(d, g, l->c_matrix + k * g * d, l->g)), l->u1 + k * d);
}

static void project(const lizkarg_sizes *s, const lists *l) {
    size_t size = s->r * s->n * s->d;
    test_projections(l), test_witness(l);
    for (size_t j = 0; j < s->w; j++) {
        int64_t sum = 0;
        for (size_t x = 0; x < size; x++) sum += (int64_t)l->projections[j * size + x] * l->witness[x];
        l->p[j] = centre(sum);
    }
}

#if KERNEL == 1
static void aggregate(const lizkarg_sizes *s, const lists *l) {
    size_t d = s->d, n = s->n;
    five quadratic = {0}, linear = {0};
    table omega_sums;
    test_seconds(l), test_witness(l);
    write_table(s, l, &omega_sums);
    for (size_t i = 0, e = 0; i < s->r; i++)
        for (size_t j = i; j < s->r; j++, e++) {
            five row = second_row_a(s, l, e);
            if (!is_zero(d, &row)) quadratic = add_products(d, quadratic, &row, inner(d, n, l->witness + i * n * d, l->witness + j * n * d));
        }
    for (size_t e = 0; e < s->r * n; e++) {
        five row = second_row_phi(s, l, &omega_sums, e);
        linear = add_products(d, linear, &row, load_element(d, l->witness + e * d));
    }
    for (size_t k = 0; k < 5; k++) store(d, add(d, quadratic.v[k], linear.v[k]), l->second_b + k * d);
}
#else
static void aggregate(const lizkarg_sizes *s, const lists *l) {
    size_t d = s->d;
    int32_t products[136 * 64];
    test_seconds(l), test_witness(l);
    pair_products(s, l->witness, products);
    for (size_t k = 0; k < 5; k++) {
        element sum = {{0}};
        for (size_t e = 0; e < pairs(s->r); e++) sum = add(d, sum, mul(d, constant_terms_entry(s, l, k, e), load_element(d, products + e * d)));
        for (size_t e = 0; e < s->r * s->n; e++) sum = add(d, sum, mul(d, second_phi(s, l, k, e), load_element(d, l->witness + e * d)));
        store(d, sum, l->second_b + k * d);
    }
}
#endif

static void garbage(const lizkarg_sizes *s, const lists *l) {
    size_t d = s->d, n = s->n, r = s->r, m = pairs(r) * s->t1;
    int32_t phi[256 * 64], products[256 * 64], values[136 * 64], *out = values;
    table omega_sums;
    test_seconds(l), test_wholes(l), test_witness(l);
    write_table(s, l, &omega_sums);
    for (size_t i = 0; i < r; i++) {
        for (size_t y = 0; y < n; y++) store(d, aggregate_phi(s, l, &omega_sums, i * n + y), phi + y * d);
        for (size_t j = 0; j < r; j++) store(d, inner(d, n, phi, l->witness + j * n * d), products + (i * r + j) * d);
    }
    for (size_t i = 0; i < r; i++)
        for (size_t j = i; j < r; j++, out += d) {
            element both = add(d, load_element(d, products + (i * r + j) * d), load_element(d, products + (j * r + i) * d));
            store(d, scale(d, 2147483599 - Q, both), out);
        }
    digits_of(d, (int32_t)s->b1, s->t1, pairs(r), values, l->h);
    for (size_t k = 0; k < s->kappa2; k++) store(d, inner(d, m, l->d_matrix + k * m * d, l->h), l->u2 + k * d);
}

static void amortize(const lizkarg_sizes *s, const lists *l) {
    size_t d = s->d, n = s->n;
    test_witness(l), test_challenges(s, l);
    for (size_t k = 0; k < n; k++) {
        element sum = {{0}};
        for (size_t i = 0; i < s->r; i++) sum = add(d, sum, mul(d, load_element(d, l->c + i * d), load_element(d, l->witness + (i * n + k) * d)));
        store(d, sum, l->z + (n + k) * d);
    }
    split((int32_t)s->b, 2, n * d, l->z);
}

/* ---- verdict */

static element mixed(const lizkarg_sizes *s, const lists *l, const int32_t *digits, int64_t base, size_t t) {
    size_t d = s->d;
    element sum = {{0}};
    for (size_t i = 0; i < s->r; i++)
        for (size_t j = i; j < s->r; j++, digits += t * d) {
            element x = mul(d, recompose(d, base, t, digits, 1), mul(d, load_element(d, l->c + i * d), load_element(d, l->c + j * d)));
            sum = add(d, sum, i == j ? x : add(d, x, x));
        }
    return sum;
}

static lizkarg_answer failed(uint64_t check) { return (lizkarg_answer){LIZKARG_FAILED, check}; }

/* checks 1 and 2: the first that fails, else 0 */
static uint64_t first_checks(const lizkarg_sizes *s, const lists *l) {
    size_t size = function(s);
    uint64_t margin;
    int good = 1;
    if (!within(s->w * s->bound, l->p, s->w, 2, &margin)) return 1;
    for (size_t k = 0; k < 5; k++) {
        int64_t sum = 0;
        for (size_t j = 0; j < s->l; j++) sum = (sum + (int64_t)l->psi[k * s->l + j] * l->constant_terms[j * (size + 1) + size]) % Q;
        for (size_t j = 0; j < s->w; j++) sum = (sum + (int64_t)l->omega[k * s->w + j] * l->p[j]) % Q;
        good &= centre(sum) == l->second_b[k * s->d];
    }
    return good ? 0 : 2;
}

static lizkarg_answer verify(const lizkarg_sizes *s, const lists *l) {
    size_t d = s->d, n = s->n, r = s->r, m = r * s->t1 * s->kappa, g = pairs(r) * s->t2, h = pairs(r) * s->t1;
    int32_t z[256 * 64];
    table omega_sums;
    int good = 1;
    uint64_t first, margin;
    test_commit(l), test_wholes(l), test_seconds(l), test_messages(l), test_challenges(s, l);
    test_opening(s, l);
    if ((first = first_checks(s, l))) return failed(first);
    for (size_t k = 0; k < s->kappa1; k++)
        good &= same(d, load_element(d, l->u1 + k * d), add(d, inner(d, m, l->b_matrix + k * m * d, l->t), inner(d, g, l->c_matrix + k * g * d, l->g)));
    if (!good) return failed(3);
    for (size_t k = 0; k < s->kappa2; k++) good &= same(d, load_element(d, l->u2 + k * d), inner(d, h, l->d_matrix + k * h * d, l->h));
    if (!good) return failed(4);
    for (size_t k = 0; k < n; k++) store(d, recompose(d, (int64_t)s->b, 2, l->z + k * d, n), z + k * d);
    for (size_t k = 0; k < s->kappa; k++) {
        element sum = {{0}};
        for (size_t i = 0; i < r; i++)
            sum = add(d, sum, mul(d, load_element(d, l->c + i * d), recompose(d, (int64_t)s->b1, s->t1, l->t + (i * s->t1 * s->kappa + k) * d, s->kappa)));
        good &= same(d, inner(d, n, l->a_matrix + k * n * d, z), sum);
    }
    if (!good) return failed(5);
    if (!same(d, inner(d, n, z, z), mixed(s, l, l->g, (int64_t)s->b2, s->t2))) return failed(6);
    element linear = {{0}};
    write_table(s, l, &omega_sums);
    for (size_t i = 0; i < r; i++) {
        element sum = {{0}};
        for (size_t y = 0; y < n; y++) sum = add(d, sum, mul(d, aggregate_phi(s, l, &omega_sums, i * n + y), load_element(d, z + y * d)));
        linear = add(d, linear, mul(d, sum, load_element(d, l->c + i * d)));
    }
    if (!same(d, linear, mixed(s, l, l->h, (int64_t)s->b1, s->t1))) return failed(7);
    element left = {{0}};
    for (size_t i = 0, q = 0; i < r; i++)
        for (size_t j = i; j < r; j++, q++) {
            left = add(d, left, mul(d, aggregate_a(s, l, q), recompose(d, (int64_t)s->b2, s->t2, l->g + q * s->t2 * d, 1)));
            if (i == j) left = add(d, left, recompose(d, (int64_t)s->b1, s->t1, l->h + q * s->t1 * d, 1));
        }
    if (!same(d, left, aggregate_constant(s, l))) return failed(8);
    if (!within(s->target, l->z, l->n.opening, 1, &margin)) return failed(9);
    return (lizkarg_answer){LIZKARG_ACCEPTED, margin};
}

static lizkarg_answer next(const lizkarg_sizes *s, const lists *l) {
    uint64_t first;
    test_commit(l), test_wholes(l), test_seconds(l), test_messages(l), test_challenges(s, l);
    if ((first = first_checks(s, l))) return failed(first);
    write_next(s, l);
    return (lizkarg_answer){LIZKARG_WRITTEN, 0};
}

#if TESTS
static __attribute__((noinline)) lizkarg_product tested_product(size_t d, lizkarg_element x, lizkarg_element y) {
    lizkarg_product out = {LIZKARG_REFUSED, 8, {{0}}};
    const int32_t *a = x.coefficients, *b = y.coefficients, most = (int32_t)MOST;
    if (!(all_between(a, 64, -most, most) & all_between(a + d, 64 - d, 0, 0) & all_between(b, 64, -most, most) & all_between(b + d, 64 - d, 0, 0)))
        return out;
    element product = inner(d, 1, a, b);
    out.kind = LIZKARG_WRITTEN, out.number = 0;
    memcpy(out.element.coefficients, product.v, sizeof product.v);
    return out;
}

static void multiply(size_t d, const int32_t *x, const int32_t *y, int32_t *out) {
    lizkarg_element a = {{0}}, b = {{0}};
    memcpy(a.coefficients, x, d * sizeof *x);
    memcpy(b.coefficients, y, d * sizeof *y);
    lizkarg_product p = tested_product(d, a, b);
    if (p.kind != LIZKARG_WRITTEN) abort();
    memcpy(out, p.element.coefficients, d * sizeof *out);
}
#else
static void multiply(size_t d, const int32_t *x, const int32_t *y, int32_t *out) { store(d, inner(d, 1, x, y), out); }
#endif

#define STRING(x) #x
#define TEXT(x) STRING(x)
const implementation NAME = {TEXT(NAME), multiply, commit, project, aggregate, garbage, amortize, verify, next};
