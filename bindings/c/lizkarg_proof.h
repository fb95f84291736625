/* The lists of a proof by name, how long each is, and the calls of lizkarg.h over them. Everything here is inline, C99 or C++; nothing
 * allocates.
 *
 * One block of numbers holds a whole proof, its lists one after another in the order of a sheet:
 *
 *     size_t length = lizkarg_proof_length(sizes);
 *     lizkarg_list numbers = {(int32_t *)calloc(length, sizeof(int32_t)), length};
 *     lizkarg_proof proof = lizkarg_proof_of(sizes, numbers);
 *
 * Fill the statement; then make each message and fill the draws that come after it: prove.c. Or let lizkarg_read_sheet fill the block:
 * verdict.c. The block is what lizkarg_write_sheet takes: its text is the sheet of the proof. With sizes.one_digit the opening holds z in one
 * digit; such a proof has no sheet.
 *
 * The lists may lie anywhere else, too; what lizkarg.h asks of pointers and lengths is asked of every list here. */
#ifndef LIZKARG_PROOF_H
#define LIZKARG_PROOF_H

#include "lizkarg.h"

#ifdef __cplusplus
extern "C" {
#endif

/* Numbers one after another, and how many they are. Where there are none, numbers may be NULL. */
typedef struct { int32_t *numbers; size_t length; } lizkarg_list;

/* A list that no call writes, as one: for the statement, the draws and the witness. A message must not be asked to write it. */
static inline lizkarg_list lizkarg_read_only(const int32_t *numbers, size_t length) {
    lizkarg_list list = {(int32_t *)(uintptr_t)numbers, length};
    return list;
}

/* The lists of the verifier, in the order of its arguments, which is that of a sheet. The witness is none of them: a proof is kept when it is
 * deleted. Elements have d numbers each; P is r(r+1)/2. */
typedef struct {
    /* the statement */
    lizkarg_list a_matrix;       /* A: kappa rows of n elements */
    lizkarg_list b_matrix;       /* B: kappa1 rows, an element for each t digit */
    lizkarg_list c_matrix;       /* C: kappa1 rows, an element for each g digit */
    lizkarg_list d_matrix;       /* D: kappa2 rows, an element for each h digit */
    lizkarg_list whole;          /* k constraints that vanish wholly: a (P elements), phi (r·n elements), b (one element) */
    lizkarg_list constant_terms; /* l constraints that vanish in the constant term: a, phi, b (one number) */
    lizkarg_list u1;             /* message 1: kappa1 elements */
    lizkarg_list projections;    /* drawn: w rows of r·n elements, each number -1, 0 or 1 */
    lizkarg_list p;              /* message 2: w numbers */
    lizkarg_list psi;            /* drawn: 5 rows of l numbers */
    lizkarg_list omega;          /* drawn: 5 rows of w numbers */
    lizkarg_list second_b;       /* message 3: 5 elements b'' */
    lizkarg_list alpha;          /* drawn: k elements */
    lizkarg_list delta;          /* drawn: 5 elements */
    lizkarg_list u2;             /* message 4: kappa2 elements */
    lizkarg_list c;              /* drawn: r challenges, by the rule at lizkarg_amortize */
    lizkarg_list opening;        /* the digits of z, t, g, h; messages 1, 4 and 5 write them */
} lizkarg_proof;

/* The lists of the verifier of the bare level, in the order of its arguments; with k, l, r, w and kappa of lizkarg_bare_sizes. */
typedef struct {
    lizkarg_list a_matrix;       /* A: kappa rows of n elements */
    lizkarg_list whole;          /* as in lizkarg_proof, no a_ij with i < j other than 0 */
    lizkarg_list constant_terms; /* likewise */
    lizkarg_list projections;    /* drawn: w rows of r·n elements, each number -1, 0 or 1 */
    lizkarg_list p;              /* message 2: w numbers */
    lizkarg_list psi;            /* drawn: 5 rows of l numbers */
    lizkarg_list omega;          /* drawn: 5 rows of w numbers */
    lizkarg_list second_b;       /* message 3: 5 elements b'' */
    lizkarg_list alpha;          /* drawn: k elements */
    lizkarg_list delta;          /* drawn: 5 elements */
    lizkarg_list c;              /* drawn one by one, c_i after turn i: r challenges, by the rule at lizkarg_amortize */
    lizkarg_list opening;        /* t, z, then the garbage of each turn */
} lizkarg_bare_proof;

/* The parts of a bare opening. */
typedef struct {
    lizkarg_list t;     /* by part, then row: r·kappa elements */
    lizkarg_list z;     /* n elements */
    lizkarg_list turns; /* 4 elements a turn: mixed phi, own phi, mixed z, own z */
} lizkarg_bare_parts;

/* The parts of an opening. */
typedef struct {
    lizkarg_list z; /* z low, z high: n elements each; with one_digit z: n elements */
    lizkarg_list t; /* by part, then digit, then row: r·t1·kappa elements */
    lizkarg_list g; /* by i, then j, then digit: P·t2 elements */
    lizkarg_list h; /* by i, then j, then digit: P·t1 elements */
} lizkarg_digits;

/* ---- sizes */

/* The sizes that a sheet's header gives to the verifier, with two z digits; nu and mu stay in the header. */
static inline lizkarg_sizes lizkarg_sizes_of(lizkarg_sheet h) {
    lizkarg_sizes sizes = {h.d, h.n, h.r, h.k, h.l, h.w, h.kappa, h.kappa1, h.kappa2, h.b, h.b1, h.b2, h.t1, h.t2, h.bound, h.target, 0};
    return sizes;
}

/* What messages 2, 3 and 5, message 1, message 4 and the next witness take of the sizes. */
static inline lizkarg_shape lizkarg_shape_of(lizkarg_sizes s) {
    lizkarg_shape shape = {s.d, s.n, s.r};
    return shape;
}

static inline lizkarg_commit_sizes lizkarg_commit_sizes_of(lizkarg_sizes s) {
    lizkarg_commit_sizes sizes = {s.d, s.n, s.r, s.kappa, s.kappa1, s.b1, s.b2, s.t1, s.t2};
    return sizes;
}

static inline lizkarg_garbage_sizes lizkarg_garbage_sizes_of(lizkarg_sizes s) {
    lizkarg_garbage_sizes sizes = {s.d, s.n, s.r, s.k, s.l, s.w, s.kappa2, s.b1, s.t1};
    return sizes;
}

static inline lizkarg_part_sizes lizkarg_part_sizes_of(lizkarg_sizes s, size_t nu, size_t mu) {
    lizkarg_part_sizes sizes = {s.d, s.n, s.r, s.kappa, s.t1, s.t2, nu, mu, s.one_digit};
    return sizes;
}

/* What lizkarg_bare_phi takes of the sizes of the bare level; and what lizkarg_project, lizkarg_aggregate and lizkarg_bare_commit take. */
static inline lizkarg_constraint_sizes lizkarg_constraint_sizes_of(lizkarg_bare_sizes s) {
    lizkarg_constraint_sizes sizes = {s.d, s.n, s.r, s.k, s.l, s.w};
    return sizes;
}

static inline lizkarg_shape lizkarg_bare_shape_of(lizkarg_bare_sizes s) {
    lizkarg_shape shape = {s.d, s.n, s.r};
    return shape;
}

/* The sizes of a fold with one_digit that has those of the bare level, and the least of all others: the lists that both have are as long. */
static inline lizkarg_sizes lizkarg_bare_as_fold(lizkarg_bare_sizes s) {
    lizkarg_sizes sizes = {s.d, s.n, s.r, s.k, s.l, s.w, s.kappa, 1, 1, 0, 2, 2, 2, 2, s.bound, 0, 1};
    return sizes;
}

/* Whether d, n, r, k, l, w, kappa, kappa1, kappa2, t1 and t2 are within the limits of rows 1 to 4. No length looks at a base or a bound. */
static inline int lizkarg_within_limits(lizkarg_sizes s) {
    int degree = s.d == 2 || s.d == 4 || s.d == 8 || s.d == 16 || s.d == 32 || s.d == 64;
    int statement = 1 <= s.n && s.n <= 256 && 1 <= s.r && s.r <= 16 && s.k <= 32 && s.l <= 32 && s.w <= 256;
    int ranks = 1 <= s.kappa && s.kappa <= 8 && 1 <= s.kappa1 && s.kappa1 <= 8 && 1 <= s.kappa2 && s.kappa2 <= 8;
    int digits = 2 <= s.t1 && s.t1 <= 8 && 2 <= s.t2 && s.t2 <= 8;
    return degree && statement && ranks && digits;
}

/* ---- lengths, in numbers
 *
 * lizkarg_X_length is the length that the list X must have: with any other the calls refuse by 7. Within the limits nothing overflows: no
 * list has more than 2^27 numbers. Where lizkarg_within_limits is 0 every length is 0, and the verifier refuses the sizes by 1 to 4. */

/* The length if the sizes are within the limits, else 0. */
static inline size_t lizkarg_limited(lizkarg_sizes s, size_t length) { return lizkarg_within_limits(s) ? length : 0; }

/* The number of z digits. */
static inline size_t lizkarg_z_digits(lizkarg_sizes s) { return s.one_digit ? 1 : 2; }

/* P: the pairs i <= j. */
static inline size_t lizkarg_pairs(size_t r) { return r * (r + 1) / 2; }

static inline size_t lizkarg_witness_length(lizkarg_sizes s) { return lizkarg_limited(s, s.r * s.n * s.d); }

/* The parts of an opening. */
static inline size_t lizkarg_z_length(lizkarg_sizes s) { return lizkarg_limited(s, lizkarg_z_digits(s) * s.n * s.d); }
static inline size_t lizkarg_t_length(lizkarg_sizes s) { return lizkarg_limited(s, s.r * s.t1 * s.kappa * s.d); }
static inline size_t lizkarg_g_length(lizkarg_sizes s) { return lizkarg_limited(s, lizkarg_pairs(s.r) * s.t2 * s.d); }
static inline size_t lizkarg_h_length(lizkarg_sizes s) { return lizkarg_limited(s, lizkarg_pairs(s.r) * s.t1 * s.d); }

/* One constraint's a and phi. */
static inline size_t lizkarg_function_length(lizkarg_sizes s) { return lizkarg_limited(s, (lizkarg_pairs(s.r) + s.r * s.n) * s.d); }

/* The lists of a proof. */
static inline size_t lizkarg_a_matrix_length(lizkarg_sizes s) { return lizkarg_limited(s, s.kappa * s.n * s.d); }
static inline size_t lizkarg_b_matrix_length(lizkarg_sizes s) { return s.kappa1 * lizkarg_t_length(s); }
static inline size_t lizkarg_c_matrix_length(lizkarg_sizes s) { return s.kappa1 * lizkarg_g_length(s); }
static inline size_t lizkarg_d_matrix_length(lizkarg_sizes s) { return s.kappa2 * lizkarg_h_length(s); }
static inline size_t lizkarg_whole_length(lizkarg_sizes s) { return lizkarg_limited(s, s.k * (lizkarg_function_length(s) + s.d)); }
static inline size_t lizkarg_constant_terms_length(lizkarg_sizes s) { return lizkarg_limited(s, s.l * (lizkarg_function_length(s) + 1)); }
static inline size_t lizkarg_u1_length(lizkarg_sizes s) { return lizkarg_limited(s, s.kappa1 * s.d); }
static inline size_t lizkarg_projections_length(lizkarg_sizes s) { return s.w * lizkarg_witness_length(s); }
static inline size_t lizkarg_p_length(lizkarg_sizes s) { return lizkarg_limited(s, s.w); }
static inline size_t lizkarg_psi_length(lizkarg_sizes s) { return lizkarg_limited(s, 5 * s.l); }
static inline size_t lizkarg_omega_length(lizkarg_sizes s) { return lizkarg_limited(s, 5 * s.w); }
static inline size_t lizkarg_second_b_length(lizkarg_sizes s) { return lizkarg_limited(s, 5 * s.d); }
static inline size_t lizkarg_alpha_length(lizkarg_sizes s) { return lizkarg_limited(s, s.k * s.d); }
static inline size_t lizkarg_delta_length(lizkarg_sizes s) { return lizkarg_limited(s, 5 * s.d); }
static inline size_t lizkarg_u2_length(lizkarg_sizes s) { return lizkarg_limited(s, s.kappa2 * s.d); }
static inline size_t lizkarg_c_length(lizkarg_sizes s) { return lizkarg_limited(s, s.r * s.d); }
static inline size_t lizkarg_opening_length(lizkarg_sizes s) {
    return lizkarg_z_length(s) + lizkarg_t_length(s) + lizkarg_g_length(s) + lizkarg_h_length(s);
}

/* All lists of a proof together: with two z digits what lizkarg_sheet_numbers says of a sheet with these sizes. */
static inline size_t lizkarg_proof_length(lizkarg_sizes s) {
    return lizkarg_a_matrix_length(s) + lizkarg_b_matrix_length(s) + lizkarg_c_matrix_length(s) + lizkarg_d_matrix_length(s)
        + lizkarg_whole_length(s) + lizkarg_constant_terms_length(s) + lizkarg_u1_length(s) + lizkarg_projections_length(s)
        + lizkarg_p_length(s) + lizkarg_psi_length(s) + lizkarg_omega_length(s) + lizkarg_second_b_length(s) + lizkarg_alpha_length(s)
        + lizkarg_delta_length(s) + lizkarg_u2_length(s) + lizkarg_c_length(s) + lizkarg_opening_length(s);
}

/* ---- the next instance's sizes: 0 where lizkarg_within_limits is 0, or where nu or mu is below 1 or r' above 16 */

/* m: the elements of t, g and h together. */
static inline size_t lizkarg_rest_size(lizkarg_sizes s) {
    return lizkarg_limited(s, s.r * s.kappa * s.t1 + lizkarg_pairs(s.r) * (s.t1 + s.t2));
}

/* r': the parts of the next witness, 2·nu + mu, with one_digit nu + mu. */
static inline size_t lizkarg_next_parts(lizkarg_sizes s, size_t nu, size_t mu) {
    size_t parts = 1 <= nu && nu <= 16 && 1 <= mu && mu <= 16 ? lizkarg_z_digits(s) * nu + mu : 0;
    return parts <= 16 ? parts : 0;
}

/* n': the elements of each part. Above 256 lizkarg_next_instance refuses by 11. */
static inline size_t lizkarg_next_rank(lizkarg_sizes s, size_t nu, size_t mu) {
    size_t of_z, of_rest;
    if (!lizkarg_within_limits(s) || !lizkarg_next_parts(s, nu, mu)) return 0;
    of_z = (s.n + nu - 1) / nu;
    of_rest = (lizkarg_rest_size(s) + mu - 1) / mu;
    return of_z > of_rest ? of_z : of_rest;
}

/* Whether each chunk of z is full, nu·n' = n: a chain must cut so (lizkarg_next_instance). No cut that row 5 refuses is full. */
static inline int lizkarg_full_chunks(lizkarg_sizes s, size_t nu, size_t mu) {
    size_t rank = lizkarg_next_rank(s, nu, mu);
    return rank != 0 && nu * rank == s.n;
}

/* K': the constraints, all of the whole kind. */
static inline size_t lizkarg_next_constraints(lizkarg_sizes s) { return lizkarg_limited(s, s.kappa + s.kappa1 + s.kappa2 + 3); }

/* The length of out, in numbers. */
static inline size_t lizkarg_next_length(lizkarg_sizes s, size_t nu, size_t mu) {
    size_t parts = lizkarg_next_parts(s, nu, mu), rank = lizkarg_next_rank(s, nu, mu);
    return rank ? lizkarg_next_constraints(s) * (lizkarg_pairs(parts) + parts * rank + 1) * s.d : 0;
}

/* The sizes of the next instance of a fold with one_digit, sent bare with w projection rows and kappa rows of A. */
static inline lizkarg_bare_sizes lizkarg_bare_sizes_of_next(lizkarg_sizes s, size_t nu, size_t mu, size_t w, size_t kappa, uint64_t z_bound) {
    lizkarg_bare_sizes sizes = {s.d, lizkarg_next_rank(s, nu, mu), lizkarg_next_parts(s, nu, mu), lizkarg_next_constraints(s), 0, w, kappa, s.target, z_bound};
    return sizes;
}

/* ---- lengths of the bare level, in numbers: 0 where the sizes are outside their limits. Its other lists are as long as those of
 * lizkarg_bare_as_fold(sizes): lizkarg_a_matrix_length and so on. */

static inline size_t lizkarg_bare_t_length(lizkarg_bare_sizes s) { return lizkarg_limited(lizkarg_bare_as_fold(s), s.r * s.kappa * s.d); }
static inline size_t lizkarg_bare_z_length(lizkarg_bare_sizes s) { return lizkarg_limited(lizkarg_bare_as_fold(s), s.n * s.d); }
static inline size_t lizkarg_bare_phi_length(lizkarg_bare_sizes s) { return lizkarg_witness_length(lizkarg_bare_as_fold(s)); }
/* The garbage of one turn. */
static inline size_t lizkarg_bare_garbage_length(lizkarg_bare_sizes s) { return lizkarg_limited(lizkarg_bare_as_fold(s), 4 * s.d); }
static inline size_t lizkarg_bare_opening_length(lizkarg_bare_sizes s) {
    size_t turns = lizkarg_limited(lizkarg_bare_as_fold(s), s.r * lizkarg_bare_garbage_length(s));
    return lizkarg_bare_t_length(s) + lizkarg_bare_z_length(s) + turns;
}

/* All lists of a proof of the bare level together. */
static inline size_t lizkarg_bare_proof_length(lizkarg_bare_sizes sizes) {
    lizkarg_sizes s = lizkarg_bare_as_fold(sizes);
    return lizkarg_a_matrix_length(s) + lizkarg_whole_length(s) + lizkarg_constant_terms_length(s) + lizkarg_projections_length(s)
        + lizkarg_p_length(s) + lizkarg_psi_length(s) + lizkarg_omega_length(s) + lizkarg_second_b_length(s) + lizkarg_alpha_length(s)
        + lizkarg_delta_length(s) + lizkarg_c_length(s) + lizkarg_bare_opening_length(sizes);
}

/* ---- lists out of a longer one */

/* The first `length` numbers of rest, which holds those after them from then on. */
static inline lizkarg_list lizkarg_cut(lizkarg_list *rest, size_t length) {
    lizkarg_list first = {NULL, 0};
    if (length == 0 || rest->length < length) return first;
    first.numbers = rest->numbers;
    first.length = length;
    rest->numbers += length;
    rest->length -= length;
    return first;
}

/* The proof whose lists stand in numbers one after another, as lizkarg_read_sheet puts them there and lizkarg_write_sheet takes them. Where
 * numbers is not lizkarg_proof_length long every list is empty, and the verifier refuses: by 7 if not by 1 to 6. */
static inline lizkarg_proof lizkarg_proof_of(lizkarg_sizes s, lizkarg_list numbers) {
    lizkarg_proof proof;
    if (numbers.length != lizkarg_proof_length(s)) numbers.length = 0;
    proof.a_matrix = lizkarg_cut(&numbers, lizkarg_a_matrix_length(s));
    proof.b_matrix = lizkarg_cut(&numbers, lizkarg_b_matrix_length(s));
    proof.c_matrix = lizkarg_cut(&numbers, lizkarg_c_matrix_length(s));
    proof.d_matrix = lizkarg_cut(&numbers, lizkarg_d_matrix_length(s));
    proof.whole = lizkarg_cut(&numbers, lizkarg_whole_length(s));
    proof.constant_terms = lizkarg_cut(&numbers, lizkarg_constant_terms_length(s));
    proof.u1 = lizkarg_cut(&numbers, lizkarg_u1_length(s));
    proof.projections = lizkarg_cut(&numbers, lizkarg_projections_length(s));
    proof.p = lizkarg_cut(&numbers, lizkarg_p_length(s));
    proof.psi = lizkarg_cut(&numbers, lizkarg_psi_length(s));
    proof.omega = lizkarg_cut(&numbers, lizkarg_omega_length(s));
    proof.second_b = lizkarg_cut(&numbers, lizkarg_second_b_length(s));
    proof.alpha = lizkarg_cut(&numbers, lizkarg_alpha_length(s));
    proof.delta = lizkarg_cut(&numbers, lizkarg_delta_length(s));
    proof.u2 = lizkarg_cut(&numbers, lizkarg_u2_length(s));
    proof.c = lizkarg_cut(&numbers, lizkarg_c_length(s));
    proof.opening = lizkarg_cut(&numbers, lizkarg_opening_length(s));
    return proof;
}

/* The parts of an opening; all empty where it is not lizkarg_opening_length long. */
static inline lizkarg_digits lizkarg_digits_of(lizkarg_sizes s, lizkarg_list opening) {
    lizkarg_digits digits;
    if (opening.length != lizkarg_opening_length(s)) opening.length = 0;
    digits.z = lizkarg_cut(&opening, lizkarg_z_length(s));
    digits.t = lizkarg_cut(&opening, lizkarg_t_length(s));
    digits.g = lizkarg_cut(&opening, lizkarg_g_length(s));
    digits.h = lizkarg_cut(&opening, lizkarg_h_length(s));
    return digits;
}

/* The proof of the bare level whose lists stand in numbers one after another. Where numbers is not lizkarg_bare_proof_length long every list is
 * empty, and the verifier refuses: by 7 if not by 1 to 3 or 6. */
static inline lizkarg_bare_proof lizkarg_bare_proof_of(lizkarg_bare_sizes sizes, lizkarg_list numbers) {
    lizkarg_sizes s = lizkarg_bare_as_fold(sizes);
    lizkarg_bare_proof proof;
    if (numbers.length != lizkarg_bare_proof_length(sizes)) numbers.length = 0;
    proof.a_matrix = lizkarg_cut(&numbers, lizkarg_a_matrix_length(s));
    proof.whole = lizkarg_cut(&numbers, lizkarg_whole_length(s));
    proof.constant_terms = lizkarg_cut(&numbers, lizkarg_constant_terms_length(s));
    proof.projections = lizkarg_cut(&numbers, lizkarg_projections_length(s));
    proof.p = lizkarg_cut(&numbers, lizkarg_p_length(s));
    proof.psi = lizkarg_cut(&numbers, lizkarg_psi_length(s));
    proof.omega = lizkarg_cut(&numbers, lizkarg_omega_length(s));
    proof.second_b = lizkarg_cut(&numbers, lizkarg_second_b_length(s));
    proof.alpha = lizkarg_cut(&numbers, lizkarg_alpha_length(s));
    proof.delta = lizkarg_cut(&numbers, lizkarg_delta_length(s));
    proof.c = lizkarg_cut(&numbers, lizkarg_c_length(s));
    proof.opening = lizkarg_cut(&numbers, lizkarg_bare_opening_length(sizes));
    return proof;
}

/* The parts of a bare opening; all empty where it is not lizkarg_bare_opening_length long. */
static inline lizkarg_bare_parts lizkarg_bare_parts_of(lizkarg_bare_sizes s, lizkarg_list opening) {
    lizkarg_bare_parts parts;
    if (opening.length != lizkarg_bare_opening_length(s)) opening.length = 0;
    parts.t = lizkarg_cut(&opening, lizkarg_bare_t_length(s));
    parts.z = lizkarg_cut(&opening, lizkarg_bare_z_length(s));
    parts.turns = opening;
    return parts;
}

/* ---- the calls
 *
 * Each is the call of lizkarg.h without `proof_`, with its answers. A message reads the lists of the proof that it is made from and the
 * witness, and writes its own: messages 1, 4 and 5 their digits into the opening, and if that is not lizkarg_opening_length long they are
 * refused by 7 if not by a lower number. */

#define LIZKARG_LIST(list) (list).numbers, (list).length
#define LIZKARG_STATEMENT_DRAWS_MESSAGES LIZKARG_LIST(proof->a_matrix), LIZKARG_LIST(proof->b_matrix), LIZKARG_LIST(proof->c_matrix), \
    LIZKARG_LIST(proof->d_matrix), LIZKARG_LIST(proof->whole), LIZKARG_LIST(proof->constant_terms), LIZKARG_LIST(proof->u1), \
    LIZKARG_LIST(proof->projections), LIZKARG_LIST(proof->p), LIZKARG_LIST(proof->psi), LIZKARG_LIST(proof->omega), \
    LIZKARG_LIST(proof->second_b), LIZKARG_LIST(proof->alpha), LIZKARG_LIST(proof->delta), LIZKARG_LIST(proof->u2), LIZKARG_LIST(proof->c)

/* Message 1: from the matrices A, B, C; writes u1 and the digits of t and g. */
static inline lizkarg_answer lizkarg_proof_commit(lizkarg_sizes sizes, lizkarg_list witness, lizkarg_proof *proof) {
    lizkarg_digits digits = lizkarg_digits_of(sizes, proof->opening);
    return lizkarg_commit(lizkarg_commit_sizes_of(sizes), LIZKARG_LIST(proof->a_matrix), LIZKARG_LIST(proof->b_matrix),
        LIZKARG_LIST(proof->c_matrix), LIZKARG_LIST(witness), LIZKARG_LIST(digits.t), LIZKARG_LIST(digits.g), LIZKARG_LIST(proof->u1));
}

/* Message 2: from the projections; writes p. */
static inline lizkarg_answer lizkarg_proof_project(lizkarg_sizes sizes, lizkarg_list witness, lizkarg_proof *proof) {
    return lizkarg_project(lizkarg_shape_of(sizes), sizes.w, LIZKARG_LIST(proof->projections), LIZKARG_LIST(witness), LIZKARG_LIST(proof->p));
}

/* Message 3: from the constant-term constraints, projections, psi and omega; writes second_b. */
static inline lizkarg_answer lizkarg_proof_aggregate(lizkarg_sizes sizes, lizkarg_list witness, lizkarg_proof *proof) {
    return lizkarg_aggregate(lizkarg_shape_of(sizes), sizes.l, sizes.w, LIZKARG_LIST(proof->constant_terms),
        LIZKARG_LIST(proof->projections), LIZKARG_LIST(proof->psi), LIZKARG_LIST(proof->omega), LIZKARG_LIST(witness),
        LIZKARG_LIST(proof->second_b));
}

/* Message 4: from both kinds of constraints, projections, psi, omega, alpha, delta and the matrix D; writes u2 and the digits of h. */
static inline lizkarg_answer lizkarg_proof_commit_garbage(lizkarg_sizes sizes, lizkarg_list witness, lizkarg_proof *proof) {
    lizkarg_digits digits = lizkarg_digits_of(sizes, proof->opening);
    return lizkarg_commit_garbage(lizkarg_garbage_sizes_of(sizes), LIZKARG_LIST(proof->whole), LIZKARG_LIST(proof->constant_terms),
        LIZKARG_LIST(proof->projections), LIZKARG_LIST(proof->psi), LIZKARG_LIST(proof->omega), LIZKARG_LIST(proof->alpha),
        LIZKARG_LIST(proof->delta), LIZKARG_LIST(proof->d_matrix), LIZKARG_LIST(witness), LIZKARG_LIST(digits.h), LIZKARG_LIST(proof->u2));
}

/* Message 5: from the challenges c; writes the digits of z, with one_digit z. */
static inline lizkarg_answer lizkarg_proof_amortize(lizkarg_sizes sizes, lizkarg_list witness, lizkarg_proof *proof) {
    lizkarg_digits digits = lizkarg_digits_of(sizes, proof->opening);
    if (sizes.one_digit)
        return lizkarg_amortize_one_digit(lizkarg_shape_of(sizes), LIZKARG_LIST(proof->c), LIZKARG_LIST(witness), LIZKARG_LIST(digits.z));
    return lizkarg_amortize(lizkarg_shape_of(sizes), sizes.b, LIZKARG_LIST(proof->c), LIZKARG_LIST(witness), LIZKARG_LIST(digits.z));
}

/* The verdict. */
static inline lizkarg_answer lizkarg_proof_verify(lizkarg_sizes sizes, const lizkarg_proof *proof) {
    return lizkarg_verify(sizes, LIZKARG_STATEMENT_DRAWS_MESSAGES, LIZKARG_LIST(proof->opening));
}

/* The next instance; writes out, which is lizkarg_next_length long. The opening is not looked at. In a chain lizkarg_full_chunks must hold. */
static inline lizkarg_answer lizkarg_proof_next_instance(lizkarg_sizes sizes, size_t nu, size_t mu, const lizkarg_proof *proof, lizkarg_list out) {
    return lizkarg_next_instance(sizes, nu, mu, LIZKARG_STATEMENT_DRAWS_MESSAGES, LIZKARG_LIST(out));
}

/* ---- the calls of the bare level
 *
 * As above. t, z and the garbage of each turn are written into the opening; where that is not lizkarg_bare_opening_length long the call is refused by
 * 7 if not by a lower number. */

/* t: from the matrix A. */
static inline lizkarg_answer lizkarg_bare_proof_commit(lizkarg_bare_sizes sizes, lizkarg_list witness, lizkarg_bare_proof *proof) {
    lizkarg_bare_parts parts = lizkarg_bare_parts_of(sizes, proof->opening);
    return lizkarg_bare_commit(lizkarg_bare_shape_of(sizes), sizes.kappa, LIZKARG_LIST(proof->a_matrix), LIZKARG_LIST(witness), LIZKARG_LIST(parts.t));
}

/* Message 2: from the projections; writes p. */
static inline lizkarg_answer lizkarg_bare_proof_project(lizkarg_bare_sizes sizes, lizkarg_list witness, lizkarg_bare_proof *proof) {
    return lizkarg_project(lizkarg_bare_shape_of(sizes), sizes.w, LIZKARG_LIST(proof->projections), LIZKARG_LIST(witness), LIZKARG_LIST(proof->p));
}

/* Message 3: from the constant-term constraints, projections, psi and omega; writes second_b. */
static inline lizkarg_answer lizkarg_bare_proof_aggregate(lizkarg_bare_sizes sizes, lizkarg_list witness, lizkarg_bare_proof *proof) {
    return lizkarg_aggregate(lizkarg_bare_shape_of(sizes), sizes.l, sizes.w, LIZKARG_LIST(proof->constant_terms), LIZKARG_LIST(proof->projections),
        LIZKARG_LIST(proof->psi), LIZKARG_LIST(proof->omega), LIZKARG_LIST(witness), LIZKARG_LIST(proof->second_b));
}

/* phi, from both kinds of constraints, projections, psi, omega, alpha and delta; writes phi, which is lizkarg_bare_phi_length long and no list of the
 * proof. */
static inline lizkarg_answer lizkarg_bare_proof_phi(lizkarg_bare_sizes sizes, const lizkarg_bare_proof *proof, lizkarg_list phi) {
    return lizkarg_bare_phi(lizkarg_constraint_sizes_of(sizes), LIZKARG_LIST(proof->whole), LIZKARG_LIST(proof->constant_terms),
        LIZKARG_LIST(proof->projections), LIZKARG_LIST(proof->psi), LIZKARG_LIST(proof->omega), LIZKARG_LIST(proof->alpha),
        LIZKARG_LIST(proof->delta), LIZKARG_LIST(phi));
}

/* Turn number turn, from 1: from phi and the challenges before it, the first turn - 1 of c; writes its garbage. The other challenges are not
 * looked at. */
static inline lizkarg_answer lizkarg_bare_proof_turn(lizkarg_bare_sizes sizes, size_t turn, lizkarg_list phi, lizkarg_list witness, lizkarg_bare_proof *proof) {
    lizkarg_list turns = lizkarg_bare_parts_of(sizes, proof->opening).turns, c = proof->c, garbage = {NULL, 0};
    if (turns.length && 1 <= turn && turn <= sizes.r) {
        lizkarg_cut(&turns, (turn - 1) * lizkarg_bare_garbage_length(sizes));
        garbage = lizkarg_cut(&turns, lizkarg_bare_garbage_length(sizes));
        if (c.length > (turn - 1) * sizes.d) c.length = (turn - 1) * sizes.d;
    }
    return lizkarg_bare_turn(lizkarg_bare_shape_of(sizes), turn, LIZKARG_LIST(phi), LIZKARG_LIST(c), LIZKARG_LIST(witness), LIZKARG_LIST(garbage));
}

/* z, from all challenges. */
static inline lizkarg_answer lizkarg_bare_proof_amortize(lizkarg_bare_sizes sizes, lizkarg_list witness, lizkarg_bare_proof *proof) {
    lizkarg_bare_parts parts = lizkarg_bare_parts_of(sizes, proof->opening);
    return lizkarg_amortize_one_digit(lizkarg_bare_shape_of(sizes), LIZKARG_LIST(proof->c), LIZKARG_LIST(witness), LIZKARG_LIST(parts.z));
}

/* The verdict on the bare level. */
static inline lizkarg_answer lizkarg_bare_proof_verify(lizkarg_bare_sizes sizes, const lizkarg_bare_proof *proof) {
    return lizkarg_bare_verify(sizes, LIZKARG_LIST(proof->a_matrix), LIZKARG_LIST(proof->whole), LIZKARG_LIST(proof->constant_terms),
        LIZKARG_LIST(proof->projections), LIZKARG_LIST(proof->p), LIZKARG_LIST(proof->psi), LIZKARG_LIST(proof->omega),
        LIZKARG_LIST(proof->second_b), LIZKARG_LIST(proof->alpha), LIZKARG_LIST(proof->delta), LIZKARG_LIST(proof->c), LIZKARG_LIST(proof->opening));
}

#undef LIZKARG_STATEMENT_DRAWS_MESSAGES
#undef LIZKARG_LIST

/* The number with which lizkarg_proof_next_part refuses, else 0. */
static inline uint8_t lizkarg_proof_next_part_refusal(lizkarg_sizes sizes, size_t nu, size_t mu, size_t part, const lizkarg_proof *proof) {
    return lizkarg_next_part_refusal(lizkarg_part_sizes_of(sizes, nu, mu), part, proof->opening.numbers, proof->opening.length);
}

/* Part number part, from 1, of the next witness: these numbers of the opening, without the zeros that pad them to n' elements. Empty where it
 * is refused, and where the last chunk is. */
static inline lizkarg_list lizkarg_proof_next_part(lizkarg_sizes sizes, size_t nu, size_t mu, size_t part, const lizkarg_proof *proof) {
    lizkarg_part place = lizkarg_next_part(lizkarg_part_sizes_of(sizes, nu, mu), part, proof->opening.numbers, proof->opening.length);
    lizkarg_list list = {NULL, 0};
    if (place.length) {
        list.numbers = proof->opening.numbers + place.start;
        list.length = place.length;
    }
    return list;
}

#ifdef __cplusplus
}
#endif
#endif
