/* Lizkarg for C: the calls of crates/capi, built by `tools/staticlib` as target/staticlib/libcapi.a (x86-64, System V). bindings/c/install
 * installs it as liblizkarg.a. lizkarg_proof.h has the same calls over a struct of named lists, and the lengths of the lists.
 *
 * Every call tests what it is given and refuses by a number of SPECIFICATION 7; on a refusal nothing lent is changed.
 * What no call can test is what C cannot say: each pointer must be valid and aligned for as many numbers as the length after it says,
 * and what a call writes must overlap no other list of the same call. A list of no numbers (k, l or w is 0) may be NULL with length
 * 0: nothing is read or written through it. So may a text or a buffer of no bytes.
 *
 * A list holds ring elements one after another, d numbers each, lowest power first, numbers from -2147483598 to 2147483598. Lengths are
 * counts of numbers (bytes for a sheet's text). P below is r(r+1)/2, the number of pairs i <= j. No call needs more than a megabyte of
 * stack. */
#ifndef LIZKARG_H
#define LIZKARG_H

#include <stddef.h>
#include <stdint.h>

#ifdef __cplusplus
extern "C" {
#endif

/* kind of an answer */
enum { LIZKARG_ACCEPTED = 0, LIZKARG_FAILED = 1, LIZKARG_REFUSED = 2, LIZKARG_WRITTEN = 3 };

/* An answer as two numbers. number: where accepted, the margin (0..999999999999999), which is the target bound minus the squared length of
 * all digits of the opening, at the bare level the bound on z minus the squared length of z; the check that failed (1..9, of the bare level
 * 1..7); the refusal (1..15); else 0.
 *
 * The number has 64 bits because it holds the margin, here and in the three structs below that hold an answer. Code that was built against a
 * header in which it has 8 must be compiled anew. So must code that was built against one in which lizkarg_sizes and lizkarg_part_sizes do
 * not end with one_digit. All structs here are the C interface's own: they stay where the library's change. */
typedef struct {
    uint8_t kind;
    uint64_t number;
} lizkarg_answer;

/* Degree, rank, number of parts. */
typedef struct { size_t d, n, r; } lizkarg_shape;

/* The sizes of message 1. */
typedef struct { size_t d, n, r, kappa, kappa1, b1, b2, t1, t2; } lizkarg_commit_sizes;

/* The sizes of message 4. */
typedef struct { size_t d, n, r, k, l, w, kappa2, b1, t1; } lizkarg_garbage_sizes;

/* The sizes of both kinds of constraints and of the projection rows. */
typedef struct { size_t d, n, r, k, l, w; } lizkarg_constraint_sizes;

/* The sizes of the verifier of the bare level; bound is beta^2, z_bound the bound on the squared length of z. */
typedef struct {
    size_t d, n, r, k, l, w, kappa;
    uint64_t bound, z_bound;
} lizkarg_bare_sizes;

/* The sizes of the verifier; bound is beta^2, target is beta'^2. one_digit: 0, z is in two digits to base b; any other value, z is in one
 * digit, itself, and b is not looked at. An initialiser that leaves it out leaves it 0. Sheets have two z digits: their calls do not look at
 * one_digit, and take b. */
typedef struct {
    size_t d, n, r, k, l, w, kappa, kappa1, kappa2, b, b1, b2, t1, t2;
    uint64_t bound, target;
    uint8_t one_digit;
} lizkarg_sizes;

/* The sizes of an opening and of its cut into nu and mu chunks; one_digit as in lizkarg_sizes. */
typedef struct {
    size_t d, n, r, kappa, t1, t2, nu, mu;
    uint8_t one_digit;
} lizkarg_part_sizes;

/* A part of the next witness within the opening: where it starts and how long it is, both in numbers. */
typedef struct { size_t start, length; } lizkarg_part;

/* The answer to a sheet, and its header in the header's order (all 0 where refused). */
typedef struct {
    uint8_t kind;
    uint64_t number;
    size_t d, n, r, k, l, w, kappa, kappa1, kappa2, b, b1, b2, t1, t2, nu, mu;
    uint64_t bound, target;
} lizkarg_sheet;

/* The answer to the numbers of a sheet, and the length of their text in bytes (0 where refused). */
typedef struct {
    uint8_t kind;
    uint64_t number;
    size_t length;
} lizkarg_text;

/* A ring element by value: sixty-four numbers, those past d zero. */
typedef struct { int32_t coefficients[64]; } lizkarg_element;

/* The answer to a product, and the product (zero where refused). */
typedef struct {
    uint8_t kind;
    uint64_t number;
    lizkarg_element element;
} lizkarg_product;

/* x·y in Z_q[X]/(X^d+1), q = 2^32 - 99. Written; refused 1 (d not 2, 4, 8, 16, 32, 64), 8 (a number out of range or not 0 past d). */
lizkarg_product lizkarg_multiply(size_t d, lizkarg_element x, lizkarg_element y);

/* Message 1. Takes A (kappa·n elements), B (kappa1·r·t1·kappa), C (kappa1·P·t2) and the witness (r·n); writes the t digits
 * (r·t1·kappa), the g digits (P·t2) and u1 (kappa1). Written, or refused 1 to 4, 7, 8. */
lizkarg_answer lizkarg_commit(lizkarg_commit_sizes sizes,
    const int32_t *a_matrix, size_t a_matrix_len, const int32_t *b_matrix, size_t b_matrix_len,
    const int32_t *c_matrix, size_t c_matrix_len, const int32_t *witness, size_t witness_len,
    int32_t *t, size_t t_len, int32_t *g, size_t g_len, int32_t *u1, size_t u1_len);

/* Message 2. Takes w projection rows (w·r·n elements of -1, 0, 1) and the witness; writes p (w numbers). Written, or refused 1, 2, 7 to 9. */
lizkarg_answer lizkarg_project(lizkarg_shape shape, size_t w,
    const int32_t *projections, size_t projections_len, const int32_t *witness, size_t witness_len, int32_t *p, size_t p_len);

/* Message 3. Takes l constant-term constraints ((P + r·n)·d + 1 numbers each: a, phi, b), the projection rows, psi (5·l numbers), omega
 * (5·w numbers) and the witness; writes b'' (5 elements). Written, or refused 1, 2, 7 to 9. */
lizkarg_answer lizkarg_aggregate(lizkarg_shape shape, size_t l, size_t w,
    const int32_t *constant_terms, size_t constant_terms_len, const int32_t *projections, size_t projections_len,
    const int32_t *psi, size_t psi_len, const int32_t *omega, size_t omega_len, const int32_t *witness, size_t witness_len,
    int32_t *second_b, size_t second_b_len);

/* Message 4. Takes k whole constraints (P + r·n + 1 elements each: a, phi, b), the lists of message 3, alpha (k elements), delta (5), D
 * (kappa2·P·t1) and the witness; writes the h digits (P·t1) and u2 (kappa2). Written, or refused 1 to 4, 7 to 9. */
lizkarg_answer lizkarg_commit_garbage(lizkarg_garbage_sizes sizes,
    const int32_t *whole, size_t whole_len, const int32_t *constant_terms, size_t constant_terms_len,
    const int32_t *projections, size_t projections_len, const int32_t *psi, size_t psi_len, const int32_t *omega, size_t omega_len,
    const int32_t *alpha, size_t alpha_len, const int32_t *delta, size_t delta_len, const int32_t *d_matrix, size_t d_matrix_len,
    const int32_t *witness, size_t witness_len, int32_t *h, size_t h_len, int32_t *u2, size_t u2_len);

/* Message 5. Takes the challenges c (r elements) and the witness; writes z low, then z high (n elements each). Written, or refused 1, 2,
 * 4, 7, 8, 10. Where d is 64, a challenge has exactly 23 coefficients 0, 31 of 1 or -1 and 10 of 2 or -2; where d is smaller, coefficients
 * -2 to 2 whose squares sum to at most 71. */
lizkarg_answer lizkarg_amortize(lizkarg_shape shape, size_t b,
    const int32_t *c, size_t c_len, const int32_t *witness, size_t witness_len, int32_t *z, size_t z_len);

/* Message 5 with z in one digit: writes z (n elements). Takes no b, and else what lizkarg_amortize does. Written, or refused 1, 2, 7, 8, 10. */
lizkarg_answer lizkarg_amortize_one_digit(lizkarg_shape shape,
    const int32_t *c, size_t c_len, const int32_t *witness, size_t witness_len, int32_t *z, size_t z_len);

/* The verifier. opening: z low, z high, t, g and h digits, in this order in one list; with one_digit z in place of z low and z high. Accepted
 * with the margin; failed with the first check that fails; or refused 1 to 4, 6 to 10, 15 (a low digit x of a base B with 2·|x| > B: B is b for
 * z low, b1 for t and h, b2 for g; the top digit of each value is free, z high among them, and z in one digit). */
lizkarg_answer lizkarg_verify(lizkarg_sizes sizes,
    const int32_t *a_matrix, size_t a_matrix_len, const int32_t *b_matrix, size_t b_matrix_len,
    const int32_t *c_matrix, size_t c_matrix_len, const int32_t *d_matrix, size_t d_matrix_len,
    const int32_t *whole, size_t whole_len, const int32_t *constant_terms, size_t constant_terms_len, const int32_t *u1, size_t u1_len,
    const int32_t *projections, size_t projections_len, const int32_t *p, size_t p_len, const int32_t *psi, size_t psi_len,
    const int32_t *omega, size_t omega_len, const int32_t *second_b, size_t second_b_len, const int32_t *alpha, size_t alpha_len,
    const int32_t *delta, size_t delta_len, const int32_t *u2, size_t u2_len, const int32_t *c, size_t c_len,
    const int32_t *opening, size_t opening_len);

/* The next instance. Takes the lists of the verifier but the opening, and nu and mu; writes kappa + kappa1 + kappa2 + 3 whole constraints
 * on r' = 2·nu + mu parts, with one_digit r' = nu + mu, of n' elements to out, (r'(r'+1)/2 + r'·n' + 1) elements each: a, phi, b; n' is the
 * larger of n / nu and m / mu, both rounded up, where m = r·kappa·t1 + P·(t1 + t2). With one_digit no a_ij with i < j is other than 0.
 * Written; failed 1 or 2, and then out is not changed; or refused 1 to 11 (5: r' above 16).
 *
 * A chain, which folds the next instance in its turn, must cut with nu·n' = n, so that no chunk of z is padded: else the accepted end says
 * nothing of the first statement. Nobody sees the padding, and in a chunk of z it enters check 6: docs/CALLS.md has an example. With full
 * chunks each solution, its padding cut off, is an accepted opening if its low digits are narrow, which no one tests inside a chain, and an
 * accepted last opening gives by itself no opening one fold up. Where the last fold of a chain has one_digit, its next instance can be sent by
 * lizkarg_bare_commit and the calls after it. */
lizkarg_answer lizkarg_next_instance(lizkarg_sizes sizes, size_t nu, size_t mu,
    const int32_t *a_matrix, size_t a_matrix_len, const int32_t *b_matrix, size_t b_matrix_len,
    const int32_t *c_matrix, size_t c_matrix_len, const int32_t *d_matrix, size_t d_matrix_len,
    const int32_t *whole, size_t whole_len, const int32_t *constant_terms, size_t constant_terms_len, const int32_t *u1, size_t u1_len,
    const int32_t *projections, size_t projections_len, const int32_t *p, size_t p_len, const int32_t *psi, size_t psi_len,
    const int32_t *omega, size_t omega_len, const int32_t *second_b, size_t second_b_len, const int32_t *alpha, size_t alpha_len,
    const int32_t *delta, size_t delta_len, const int32_t *u2, size_t u2_len, const int32_t *c, size_t c_len,
    int32_t *out, size_t out_len);

/* The number with which lizkarg_next_part refuses: 1 to 5 or 7, 2 also for a part that is not 1 to r', which is 2·nu + mu, with one_digit
 * nu + mu; else 0. */
uint8_t lizkarg_next_part_refusal(lizkarg_part_sizes sizes, size_t part, const int32_t *opening, size_t opening_len);

/* Part number part, from 1, of the next witness, without the zeros that pad it to n' elements: the length numbers of opening from
 * opening + start on. Both are 0 where lizkarg_next_part_refusal is not 0. A last chunk can be empty: then the length alone is 0. */
lizkarg_part lizkarg_next_part(lizkarg_part_sizes sizes, size_t part, const int32_t *opening, size_t opening_len);

/* The bare level, the last of a chain: there are no outer commitments, t is sent in the clear, z whole, and garbage in r turns, each
 * before the next challenge is known. It takes the next instance of a fold with one_digit, and every other statement in which no a_ij with i < j
 * is other than 0. p, b'' and z are those of lizkarg_project, lizkarg_aggregate and lizkarg_amortize_one_digit. The bare opening is one list: t
 * (r·kappa elements, by part, then row), z (n), then the four elements of each turn: r·kappa + n + 4·r elements.
 *
 * Takes A (kappa·n elements) and the witness (r·n); writes t. Written, or refused 1 to 3, 7, 8. */
lizkarg_answer lizkarg_bare_commit(lizkarg_shape shape, size_t kappa,
    const int32_t *a_matrix, size_t a_matrix_len, const int32_t *witness, size_t witness_len, int32_t *t, size_t t_len);

/* phi of the aggregate, from which the turns are made. Takes both kinds of constraints, the projection rows, psi, omega, alpha and delta as
 * message 4 does; writes phi (r·n elements, by part). Written, or refused 1, 2, 7 to 9, 14 (an a_ij with i < j of a constraint of either kind is
 * not 0, whatever its weight). */
lizkarg_answer lizkarg_bare_phi(lizkarg_constraint_sizes sizes,
    const int32_t *whole, size_t whole_len, const int32_t *constant_terms, size_t constant_terms_len,
    const int32_t *projections, size_t projections_len, const int32_t *psi, size_t psi_len, const int32_t *omega, size_t omega_len,
    const int32_t *alpha, size_t alpha_len, const int32_t *delta, size_t delta_len, int32_t *phi, size_t phi_len);

/* Turn i, from 1 to r. Takes phi, the challenges before the turn (exactly i - 1 elements) and the witness; writes the turn's garbage (4 elements):
 * the sum over j < i of (<phi_j,s_i> + <phi_i,s_j>)·c_j; <phi_i,s_i>; twice the sum over j < i of <s_i,s_j>·c_j; <s_i,s_i>. Written, or refused 1,
 * 2 (also for a turn that is not 1 to r), 7, 8, 10. */
lizkarg_answer lizkarg_bare_turn(lizkarg_shape shape, size_t turn,
    const int32_t *phi, size_t phi_len, const int32_t *c, size_t c_len, const int32_t *witness, size_t witness_len,
    int32_t *garbage, size_t garbage_len);

/* The verifier of the bare level. Accepted with the margin, z_bound minus the squared length of z; failed with the first of its checks that
 * fails: 1 projection, 2 constant terms, 3 A z, 4 the garbage equation of z, 5 that of phi, 6 the aggregate, 7 the length of z; or refused 1 to 3, 6
 * to 10, 14 (as lizkarg_bare_phi). */
lizkarg_answer lizkarg_bare_verify(lizkarg_bare_sizes sizes,
    const int32_t *a_matrix, size_t a_matrix_len, const int32_t *whole, size_t whole_len,
    const int32_t *constant_terms, size_t constant_terms_len, const int32_t *projections, size_t projections_len,
    const int32_t *p, size_t p_len, const int32_t *psi, size_t psi_len, const int32_t *omega, size_t omega_len,
    const int32_t *second_b, size_t second_b_len, const int32_t *alpha, size_t alpha_len, const int32_t *delta, size_t delta_len,
    const int32_t *c, size_t c_len, const int32_t *opening, size_t opening_len);

/* Judges a sheet as the program does: accepted with the margin; failed with the first check that fails; or refused 12 (also where the text
 * is longer than 65536 bytes), 1 to 6, 8 to 10, 15. */
lizkarg_answer lizkarg_judge_sheet(const uint8_t *text, size_t text_len);

/* How many numbers a sheet with this header holds after it: the numbers_len of lizkarg_read_sheet. 0 where the header is refused, by 12 or
 * 1 to 6. Only the header is looked at. */
size_t lizkarg_sheet_numbers(const uint8_t *text, size_t text_len);

/* Reads a sheet: its header is the result, and all numbers after the header are put into numbers, in the sheet's order. Written, or
 * refused, in this order: 12 (header), 1 to 6, 12 (other lines), 7 (numbers_len is not lizkarg_sheet_numbers), 8 to 10. The text may be of
 * any length. */
lizkarg_sheet lizkarg_read_sheet(const uint8_t *text, size_t text_len, int32_t *numbers, size_t numbers_len);

/* How many bytes the text of a sheet of these sizes, with two z digits, has: the least text_len of lizkarg_write_sheet. 0 where the sizes
 * are refused, by 1 to 6. With e the elements of all lists, 289 + (16·d + 1)·e + 17·6·(l + w). */
size_t lizkarg_sheet_bytes(lizkarg_sizes sizes, size_t nu, size_t mu);

/* Writes a sheet, which has two z digits. Takes the header as sizes, nu and mu, and all numbers after it in the sheet's order, as
 * lizkarg_read_sheet puts them down; writes their text to the first lizkarg_sheet_bytes bytes of text. Those past it are not changed, and no
 * byte 0 is put after it. Written, with the length of the text; or refused, in this order: 1 to 6, 7 (numbers_len is not what the sizes
 * give), 8 to 10, 13 (text_len is less than lizkarg_sheet_bytes). The text may be of any length; lizkarg_judge_sheet takes 65536 bytes. */
lizkarg_text lizkarg_write_sheet(lizkarg_sizes sizes, size_t nu, size_t mu, const int32_t *numbers, size_t numbers_len,
    uint8_t *text, size_t text_len);

#ifdef __cplusplus
}
#endif
#endif
