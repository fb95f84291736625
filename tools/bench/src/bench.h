/* What every implementation of the benchmark offers: the calls of the library over one struct of sizes and one of lists. */
#ifndef BENCH_H
#define BENCH_H
#include "../../../bindings/c/lizkarg.h"

/* How many numbers each list has. */
typedef struct {
    size_t a_matrix, b_matrix, c_matrix, d_matrix, whole, constant_terms, projections, psi, omega, alpha, delta, c, witness;
    size_t u1, p, second_b, u2, z, t, g, h, opening, next;
} lengths;

typedef struct {
    const int32_t *a_matrix, *b_matrix, *c_matrix, *d_matrix, *whole, *constant_terms, *projections, *psi, *omega, *alpha, *delta, *c, *witness;
    int32_t *u1, *p, *second_b, *u2, *z, *t, *g, *h, *next; /* z, t, g, h follow one another: the opening */
    size_t nu, mu; /* the cut of the next instance */
    lengths n;
} lists;

typedef struct {
    const char *name;
    void (*multiply)(size_t d, const int32_t *x, const int32_t *y, int32_t *out);
    void (*commit)(const lizkarg_sizes *s, const lists *l);
    void (*project)(const lizkarg_sizes *s, const lists *l);
    void (*aggregate)(const lizkarg_sizes *s, const lists *l);
    void (*garbage)(const lizkarg_sizes *s, const lists *l);
    void (*amortize)(const lizkarg_sizes *s, const lists *l);
    lizkarg_answer (*verify)(const lizkarg_sizes *s, const lists *l);
    lizkarg_answer (*next)(const lizkarg_sizes *s, const lists *l);
} implementation;

extern const implementation ours, gcc_tuned, gcc_plain, clang_tuned, clang_tested, clang_centred, clang_plain, flint_based, rust_plain;

/* The bare level over the same lists; the opening and phi are its own, and p, second_b and z are made already. */
typedef struct {
    lizkarg_bare_sizes s;
    const lists *l;
    int32_t *phi, *opening; /* t, z, then the turns */
    size_t phi_length, opening_length;
} bare_case;

/* t, phi and all turns; the verdict. */
typedef struct {
    const char *name;
    void (*prove)(const bare_case *x);
    lizkarg_answer (*verify)(const bare_case *x);
} bare_implementation;

extern const bare_implementation ours_bare, rust_plain_bare;

static inline size_t pairs(size_t r) { return r * (r + 1) / 2; }

/* the numbers of a and phi of a constraint */
static inline size_t function(const lizkarg_sizes *s) { return (pairs(s->r) + s->r * s->n) * s->d; }

/* the elements of the opening after z */
static inline size_t rest(const lizkarg_sizes *s) { return s->r * s->kappa * s->t1 + pairs(s->r) * (s->t1 + s->t2); }

/* n', the elements of a part of the next witness */
static inline size_t next_rank(const lizkarg_sizes *s, const lists *l) {
    size_t of_z = (s->n + l->nu - 1) / l->nu, of_rest = (rest(s) + l->mu - 1) / l->mu;
    return of_z > of_rest ? of_z : of_rest;
}
#endif
