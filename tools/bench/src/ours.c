/* The library through its C interface. */
#include "bench.h"
#include <stdlib.h>
#include <string.h>

static void need(lizkarg_answer x) {
    if (x.kind != LIZKARG_WRITTEN) abort();
}

#define LIST(x) l->x, l->n.x
#define SHAPE (lizkarg_shape){s->d, s->n, s->r}
#define SECONDS LIST(constant_terms), LIST(projections), LIST(psi), LIST(omega)
#define STATEMENT LIST(a_matrix), LIST(b_matrix), LIST(c_matrix), LIST(d_matrix), LIST(whole), LIST(constant_terms)
#define MESSAGES LIST(u1), LIST(projections), LIST(p), LIST(psi), LIST(omega), LIST(second_b), LIST(alpha), LIST(delta), LIST(u2), LIST(c)

static void multiply(size_t d, const int32_t *x, const int32_t *y, int32_t *out) {
    lizkarg_element a = {{0}}, b = {{0}};
    memcpy(a.coefficients, x, d * sizeof *x);
    memcpy(b.coefficients, y, d * sizeof *y);
    lizkarg_product p = lizkarg_multiply(d, a, b);
    if (p.kind != LIZKARG_WRITTEN) abort();
    memcpy(out, p.element.coefficients, d * sizeof *out);
}

static void commit(const lizkarg_sizes *s, const lists *l) {
    lizkarg_commit_sizes x = {s->d, s->n, s->r, s->kappa, s->kappa1, s->b1, s->b2, s->t1, s->t2};
    need(lizkarg_commit(x, LIST(a_matrix), LIST(b_matrix), LIST(c_matrix), LIST(witness), LIST(t), LIST(g), LIST(u1)));
}

static void project(const lizkarg_sizes *s, const lists *l) {
    need(lizkarg_project(SHAPE, s->w, LIST(projections), LIST(witness), LIST(p)));
}

static void aggregate(const lizkarg_sizes *s, const lists *l) {
    need(lizkarg_aggregate(SHAPE, s->l, s->w, SECONDS, LIST(witness), LIST(second_b)));
}

static void garbage(const lizkarg_sizes *s, const lists *l) {
    lizkarg_garbage_sizes x = {s->d, s->n, s->r, s->k, s->l, s->w, s->kappa2, s->b1, s->t1};
    need(lizkarg_commit_garbage(x, LIST(whole), SECONDS, LIST(alpha), LIST(delta), LIST(d_matrix), LIST(witness), LIST(h), LIST(u2)));
}

static void amortize(const lizkarg_sizes *s, const lists *l) {
    need(lizkarg_amortize(SHAPE, s->b, LIST(c), LIST(witness), LIST(z)));
}

static lizkarg_answer verify(const lizkarg_sizes *s, const lists *l) {
    return lizkarg_verify(*s, STATEMENT, MESSAGES, l->z, l->n.opening);
}

static lizkarg_answer next(const lizkarg_sizes *s, const lists *l) {
    return lizkarg_next_instance(*s, l->nu, l->mu, STATEMENT, MESSAGES, LIST(next));
}

const implementation ours = {"ours", multiply, commit, project, aggregate, garbage, amortize, verify, next};

/* ---- the bare level */

static void bare_prove(const bare_case *x) {
    const lists *l = x->l;
    const lizkarg_bare_sizes *s = &x->s;
    size_t t = s->r * s->kappa * s->d, four = 4 * s->d;
    int32_t *turns = x->opening + t + s->n * s->d;
    lizkarg_constraint_sizes sizes = {s->d, s->n, s->r, s->k, s->l, s->w};
    need(lizkarg_bare_commit(SHAPE, s->kappa, LIST(a_matrix), LIST(witness), x->opening, t));
    need(lizkarg_bare_phi(sizes, LIST(whole), SECONDS, LIST(alpha), LIST(delta), x->phi, x->phi_length));
    for (size_t i = 1; i <= s->r; i++)
        need(lizkarg_bare_turn(SHAPE, i, x->phi, x->phi_length, l->c, (i - 1) * s->d, LIST(witness), turns + (i - 1) * four, four));
}

static lizkarg_answer bare_verify(const bare_case *x) {
    const lists *l = x->l;
    return lizkarg_bare_verify(x->s, LIST(a_matrix), LIST(whole), LIST(constant_terms), LIST(projections), LIST(p), LIST(psi), LIST(omega), LIST(second_b),
        LIST(alpha), LIST(delta), LIST(c), x->opening, x->opening_length);
}

const bare_implementation ours_bare = {"ours", bare_prove, bare_verify};
