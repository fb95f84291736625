/* tools/plain: plain_rust/src/lib.rs. */
#include "bench.h"

typedef struct { uint64_t sizes[18]; const int32_t *lists[18]; } plain_case;
void plain_multiply(size_t d, const int32_t *x, const int32_t *y, int32_t *out);
void plain_commit(const plain_case *x, int32_t *t, int32_t *g, int32_t *u1);
void plain_project(const plain_case *x, int32_t *p);
void plain_aggregate(const plain_case *x, int32_t *second_b);
void plain_garbage(const plain_case *x, int32_t *h, int32_t *u2);
void plain_amortize(const plain_case *x, int32_t *z);
uint8_t plain_verify(const plain_case *x, uint64_t *margin);
uint8_t plain_next(const plain_case *x, int32_t *out);

static plain_case lent(const lizkarg_sizes *s, const lists *l) {
    return (plain_case){{s->d, s->n, s->r, s->k, s->l, s->w, s->kappa, s->kappa1, s->kappa2, s->b, s->b1, s->b2, s->t1, s->t2, l->nu, l->mu,
        s->bound, s->target}, {l->a_matrix, l->b_matrix, l->c_matrix, l->d_matrix, l->whole, l->constant_terms, l->u1, l->projections, l->p,
        l->psi, l->omega, l->second_b, l->alpha, l->delta, l->u2, l->c, l->z, l->witness}};
}

static void commit(const lizkarg_sizes *s, const lists *l) {
    plain_case x = lent(s, l);
    plain_commit(&x, l->t, l->g, l->u1);
}

static void project(const lizkarg_sizes *s, const lists *l) {
    plain_case x = lent(s, l);
    plain_project(&x, l->p);
}

static void aggregate(const lizkarg_sizes *s, const lists *l) {
    plain_case x = lent(s, l);
    plain_aggregate(&x, l->second_b);
}

static void garbage(const lizkarg_sizes *s, const lists *l) {
    plain_case x = lent(s, l);
    plain_garbage(&x, l->h, l->u2);
}

static void amortize(const lizkarg_sizes *s, const lists *l) {
    plain_case x = lent(s, l);
    plain_amortize(&x, l->z);
}

static lizkarg_answer verify(const lizkarg_sizes *s, const lists *l) {
    plain_case x = lent(s, l);
    uint64_t margin = 0;
    uint8_t check = plain_verify(&x, &margin);
    return check ? (lizkarg_answer){LIZKARG_FAILED, check} : (lizkarg_answer){LIZKARG_ACCEPTED, margin};
}

static lizkarg_answer next(const lizkarg_sizes *s, const lists *l) {
    plain_case x = lent(s, l);
    uint8_t check = plain_next(&x, l->next);
    return (lizkarg_answer){check ? LIZKARG_FAILED : LIZKARG_WRITTEN, check};
}

const implementation rust_plain = {"rust_plain", plain_multiply, commit, project, aggregate, garbage, amortize, verify, next};

/* ---- the bare level */

typedef struct { uint64_t sizes[9]; const int32_t *lists[18]; } plain_bare_case;
void plain_bare_prove(const plain_bare_case *x, int32_t *phi, int32_t *opening);
uint8_t plain_bare_verify(const plain_bare_case *x, uint64_t *margin);

/* B, C, D, u1 and u2 have no numbers there: any pointer stands for them */
static plain_bare_case bare_lent(const bare_case *x) {
    const lists *l = x->l;
    const lizkarg_bare_sizes *s = &x->s;
    const int32_t *none = l->a_matrix;
    return (plain_bare_case){{s->d, s->n, s->r, s->k, s->l, s->w, s->kappa, s->bound, s->z_bound}, {l->a_matrix, none, none, none, l->whole, l->constant_terms,
        none, l->projections, l->p, l->psi, l->omega, l->second_b, l->alpha, l->delta, none, l->c, x->opening, l->witness}};
}

static void bare_prove(const bare_case *x) {
    plain_bare_case lent = bare_lent(x);
    plain_bare_prove(&lent, x->phi, x->opening);
}

static lizkarg_answer bare_verify(const bare_case *x) {
    plain_bare_case lent = bare_lent(x);
    uint64_t margin = 0;
    uint8_t check = plain_bare_verify(&lent, &margin);
    return check ? (lizkarg_answer){LIZKARG_FAILED, check} : (lizkarg_answer){LIZKARG_ACCEPTED, margin};
}

const bare_implementation rust_plain_bare = {"rust_plain", bare_prove, bare_verify};
