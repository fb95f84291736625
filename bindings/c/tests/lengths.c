/* The lengths of lizkarg_proof.h, held to the library on random sizes: each call refuses by 7 exactly where a list is not as long as its
 * function says, lizkarg_sheet_numbers gives the sum, and lizkarg_sheet_bytes 16 bytes for each number and one for each line; outside the
 * limits every length is 0. */
#include "../lizkarg_proof.h"
#include "held.h"

/* ---- random sizes */

static uint64_t state = 1;

/* A number from low to high. */
static size_t draw(size_t low, size_t high) {
    state ^= state << 13, state ^= state >> 7, state ^= state << 17;
    return low + (size_t)(state % (high - low + 1));
}

/* The header's numbers before the bounds, with their limits. d is 2 to the power of a number from 1 to 6. */
enum { D, N, R, K, L, W, KAPPA, KAPPA1, KAPPA2, B, B1, B2, T1, T2, NU, MU, COUNT };
static const size_t least[COUNT] = {1, 1, 1, 0, 0, 0, 1, 1, 1, 2, 2, 2, 2, 2, 1, 1};
static const size_t most[COUNT] = {6, 256, 16, 32, 32, 256, 8, 8, 8, 65536, 65536, 65536, 8, 8, 7, 14};

typedef struct { size_t number[COUNT]; } header;

/* Sizes within the limits: the least, the most, or any. */
static header draw_header(void) {
    header h;
    for (int i = 0; i < COUNT; i++) {
        size_t kind = draw(0, 3);
        h.number[i] = kind == 0 ? least[i] : kind == 1 ? most[i] : draw(least[i], most[i]);
    }
    h.number[D] = (size_t)1 << h.number[D];
    h.number[MU] = draw(1, 16 - 2 * h.number[NU]);
    return h;
}

static lizkarg_sizes sizes_of(header h) {
    size_t *x = h.number;
    lizkarg_sizes sizes = {x[D], x[N], x[R], x[K], x[L], x[W], x[KAPPA], x[KAPPA1], x[KAPPA2], x[B], x[B1], x[B2], x[T1], x[T2], 0, 0, 0};
    return sizes;
}

/* ---- against the calls */

/* The lists of every call, each as long as its function says and with room for one number more; all numbers are 0. */
typedef struct {
    lizkarg_sizes sizes;
    size_t nu, mu;
    lizkarg_proof proof;
    lizkarg_list witness, z, t, g, h, out;
    lizkarg_list numbers; /* of the whole proof */
} lists;

#define LIST(x) (x).numbers, (x).length
#define OF(x) LIST(s->proof.x)
#define SHARED OF(a_matrix), OF(b_matrix), OF(c_matrix), OF(d_matrix), OF(whole), OF(constant_terms), OF(u1), OF(projections), OF(p), \
    OF(psi), OF(omega), OF(second_b), OF(alpha), OF(delta), OF(u2), OF(c)

static lizkarg_answer commit(const lists *s) {
    return lizkarg_commit(lizkarg_commit_sizes_of(s->sizes), OF(a_matrix), OF(b_matrix), OF(c_matrix), LIST(s->witness), LIST(s->t), LIST(s->g), OF(u1));
}
static lizkarg_answer project(const lists *s) {
    return lizkarg_project(lizkarg_shape_of(s->sizes), s->sizes.w, OF(projections), LIST(s->witness), OF(p));
}
static lizkarg_answer aggregate(const lists *s) {
    return lizkarg_aggregate(lizkarg_shape_of(s->sizes), s->sizes.l, s->sizes.w, OF(constant_terms), OF(projections), OF(psi), OF(omega),
        LIST(s->witness), OF(second_b));
}
static lizkarg_answer commit_garbage(const lists *s) {
    return lizkarg_commit_garbage(lizkarg_garbage_sizes_of(s->sizes), OF(whole), OF(constant_terms), OF(projections), OF(psi), OF(omega), OF(alpha),
        OF(delta), OF(d_matrix), LIST(s->witness), LIST(s->h), OF(u2));
}
static lizkarg_answer amortize(const lists *s) {
    if (s->sizes.one_digit) return lizkarg_amortize_one_digit(lizkarg_shape_of(s->sizes), OF(c), LIST(s->witness), LIST(s->z));
    return lizkarg_amortize(lizkarg_shape_of(s->sizes), s->sizes.b, OF(c), LIST(s->witness), LIST(s->z));
}
static lizkarg_answer verify(const lists *s) { return lizkarg_verify(s->sizes, SHARED, OF(opening)); }
static lizkarg_answer next_instance(const lists *s) { return lizkarg_next_instance(s->sizes, s->nu, s->mu, SHARED, LIST(s->out)); }
static lizkarg_answer next_part(const lists *s) {
    uint8_t number = lizkarg_next_part_refusal(lizkarg_part_sizes_of(s->sizes, s->nu, s->mu), 1, OF(opening));
    lizkarg_answer answer = {number ? LIZKARG_REFUSED : LIZKARG_WRITTEN, number};
    return answer;
}
/* no buffer: where nothing else is refused the answer is 13 */
static lizkarg_answer write_sheet(const lists *s) {
    lizkarg_text text = lizkarg_write_sheet(s->sizes, s->nu, s->mu, LIST(s->numbers), NULL, 0);
    lizkarg_answer answer = {text.kind, text.number};
    return answer;
}

static lizkarg_list zeros(size_t length) {
    lizkarg_list list = {room(length + 1, sizeof(int32_t)), length};
    return list;
}

#define FIELDS(X) X(a_matrix) X(b_matrix) X(c_matrix) X(d_matrix) X(whole) X(constant_terms) X(u1) X(projections) X(p) X(psi) X(omega) \
    X(second_b) X(alpha) X(delta) X(u2) X(c) X(opening)

/* Challenges that no call refuses: zero, and at degree 64 with the counts that the rule asks for. */
static void fill_challenges(lizkarg_list c, size_t d) {
    for (size_t i = 0; d == 64 && i < c.length; i++) c.numbers[i] = i % d < 31 ? 1 : i % d < 41 ? -2 : 0;
}

static lists lists_of(header h, uint8_t one_digit) {
    lists s;
    lizkarg_sizes sizes = sizes_of(h);
    sizes.one_digit = one_digit, s.sizes = sizes;
    s.nu = h.number[NU], s.mu = h.number[MU];
#define ZEROS(x) s.proof.x = zeros(lizkarg_##x##_length(sizes));
    FIELDS(ZEROS)
    s.witness = zeros(lizkarg_witness_length(sizes));
    s.z = zeros(lizkarg_z_length(sizes)), s.t = zeros(lizkarg_t_length(sizes));
    s.g = zeros(lizkarg_g_length(sizes)), s.h = zeros(lizkarg_h_length(sizes));
    s.out = zeros(lizkarg_next_length(sizes, s.nu, s.mu)), s.numbers = zeros(lizkarg_proof_length(sizes));
    fill_challenges(s.proof.c, sizes.d), fill_challenges(lizkarg_proof_of(sizes, s.numbers).c, sizes.d);
    return s;
}

static void free_lists(lists *s) {
#define FREE(x) free(s->proof.x.numbers);
    FIELDS(FREE)
    free(s->witness.numbers), free(s->z.numbers), free(s->t.numbers), free(s->g.numbers), free(s->h.numbers), free(s->out.numbers);
    free(s->numbers.numbers);
}

static int refused_by_7(lizkarg_answer answer) { return answer.kind == LIZKARG_REFUSED && answer.number == 7; }

/* The call passes row 7 with these lists, and with no other length of one of them: NULL ends them. */
static void exact(const lists *s, lizkarg_answer (*call)(const lists *), lizkarg_list **list) {
    HOLD(!refused_by_7(call(s)));
    for (; *list; list++) {
        (*list)->length++;
        HOLD(refused_by_7(call(s)));
        (*list)->length -= 2;
        HOLD((*list)->length == (size_t)-1 || refused_by_7(call(s)));
        (*list)->length++;
    }
}

#define EXACT(call, ...) do { lizkarg_list *taken[] = {__VA_ARGS__, NULL}; exact(&s, call, taken); } while (0)

/* With one z digit the cut goes up to nu + mu = 16, and there is no sheet. */
static void against_calls(header h, uint8_t one_digit) {
    if (one_digit) h.number[NU] = draw(1, 15), h.number[MU] = draw(1, 16 - h.number[NU]);
    lists s = lists_of(h, one_digit);
    lizkarg_proof *p = &s.proof;
    EXACT(commit, &p->a_matrix, &p->b_matrix, &p->c_matrix, &s.witness, &s.t, &s.g, &p->u1);
    EXACT(project, &p->projections, &s.witness, &p->p);
    EXACT(aggregate, &p->constant_terms, &p->projections, &p->psi, &p->omega, &s.witness, &p->second_b);
    EXACT(commit_garbage, &p->whole, &p->constant_terms, &p->projections, &p->psi, &p->omega, &p->alpha, &p->delta, &p->d_matrix, &s.witness,
        &s.h, &p->u2);
    EXACT(amortize, &p->c, &s.witness, &s.z);
#define TAKEN(x) &p->x,
    EXACT(verify, FIELDS(TAKEN) NULL);
    EXACT(next_part, &p->opening);
    if (!one_digit) {
        EXACT(write_sheet, &s.numbers);
        ANSWER(write_sheet(&s), LIZKARG_REFUSED, 13);
    }
    EXACT(next_instance, &p->a_matrix, &p->b_matrix, &p->c_matrix, &p->d_matrix, &p->whole, &p->constant_terms, &p->u1, &p->projections, &p->p,
        &p->psi, &p->omega, &p->second_b, &p->alpha, &p->delta, &p->u2, &p->c, &s.out);
    lizkarg_answer answer = next_instance(&s);
    int above = answer.kind == LIZKARG_REFUSED && answer.number == 11;
    HOLD(above == (lizkarg_next_rank(s.sizes, s.nu, s.mu) > 256));
    /* parts 1 to r' are there, and no more; the chunks of the rest come last and have m elements */
    lizkarg_part_sizes cut = lizkarg_part_sizes_of(s.sizes, s.nu, s.mu);
    size_t parts = lizkarg_next_parts(s.sizes, s.nu, s.mu), rest = 0, longest = 0, shortest = s.sizes.n * s.sizes.d;
    HOLD(lizkarg_next_part_refusal(cut, parts, p->opening.numbers, p->opening.length) == 0);
    HOLD(lizkarg_next_part_refusal(cut, parts + 1, p->opening.numbers, p->opening.length) == 2);
    for (size_t i = 1; i <= parts; i++) {
        size_t length = lizkarg_next_part(cut, i, p->opening.numbers, p->opening.length).length;
        if (i > lizkarg_z_digits(s.sizes) * s.nu) rest += length;
        else if (length < shortest) shortest = length;
        if (length > longest) longest = length;
    }
    /* full chunks: none of z is padded */
    HOLD(lizkarg_full_chunks(s.sizes, s.nu, s.mu) == (shortest == lizkarg_next_rank(s.sizes, s.nu, s.mu) * s.sizes.d));
    HOLD(rest == lizkarg_rest_size(s.sizes) * s.sizes.d && longest == lizkarg_next_rank(s.sizes, s.nu, s.mu) * s.sizes.d);
    free_lists(&s);
}

/* ---- against the header of a sheet, up to the limits and beyond */

static size_t sheet_numbers(header h) {
    char text[18 * 20 + 2];
    int size = 0;
    for (int i = 0; i < COUNT; i++) size += sprintf(text + size, "%16zu", h.number[i]);
    size += sprintf(text + size, "%16d%16d\n", 0, 0);
    return lizkarg_sheet_numbers((uint8_t *)text, (size_t)size);
}

static size_t sheet_bytes(header h) { return lizkarg_sheet_bytes(sizes_of(h), h.number[NU], h.number[MU]); }

static void all_zero(lizkarg_sizes s) {
#define NONE(x) HOLD(lizkarg_##x##_length(s) == 0);
    FIELDS(NONE)
    NONE(witness) NONE(z) NONE(t) NONE(g) NONE(h) NONE(function) NONE(proof)
    HOLD(lizkarg_rest_size(s) == 0 && lizkarg_next_constraints(s) == 0 && lizkarg_next_rank(s, 1, 1) == 0 && lizkarg_next_length(s, 1, 1) == 0);
}

static void against_header(header h) {
    size_t length = lizkarg_proof_length(sizes_of(h));
    HOLD(length > 0 && sheet_numbers(h) == length);
    size_t alone = 6 * (h.number[L] + h.number[W]), lines = alone + (length - alone) / h.number[D];
    HOLD(sheet_bytes(h) == 18 * 16 + 1 + 16 * length + lines);
    for (int i = D; i < NU; i++) {
        header other = h;
        size_t outside[] = {least[i] - 1, i == D ? 65 : most[i] + 1, (size_t)1 << 63, (size_t)1 << 32};
        for (int j = least[i] == 0; j < 4; j++) {
            other.number[i] = outside[j];
            if (j != 2) HOLD(sheet_numbers(other) == 0);
            HOLD(sheet_bytes(other) == 0);
            if (i < B || i > B2) all_zero(sizes_of(other));
            else HOLD(lizkarg_proof_length(sizes_of(other)) == length);
        }
    }
    size_t cuts[][2] = {{0, 1}, {1, 0}, {8, 1}, {1, 15}, {7, 3}, {(size_t)1 << 63, 2}, {1, (size_t)-1}, {(size_t)-1, 4}};
    for (int i = 0; i < 8; i++) {
        lizkarg_sizes s = sizes_of(h);
        HOLD(!lizkarg_next_parts(s, cuts[i][0], cuts[i][1]) && !lizkarg_next_rank(s, cuts[i][0], cuts[i][1]) && !lizkarg_next_length(s, cuts[i][0], cuts[i][1]));
        HOLD(lizkarg_sheet_bytes(s, cuts[i][0], cuts[i][1]) == 0);
    }
    size_t ones[][3] = {{8, 1, 9}, {9, 7, 16}, {15, 1, 16}, {1, 15, 16}, {16, 1, 0}, {9, 8, 0}, {1, 16, 0}, {0, 16, 0}, {16, 0, 0}, {(size_t)-1, 2, 0}, {(size_t)1 << 63, (size_t)1 << 63, 0}};
    for (int i = 0; i < 11; i++) {
        lizkarg_sizes s = sizes_of(h);
        s.one_digit = 1;
        HOLD(lizkarg_next_parts(s, ones[i][0], ones[i][1]) == ones[i][2] && !lizkarg_next_length(s, ones[i][0], ones[i][1]) == !ones[i][2]);
    }
}

/* ---- full chunks: nu·n' = n, up to r' = 16; past row 5 no cut is full. Here m = 6. */

typedef struct { size_t nu, mu, full; } cut_case;

static void full_cuts(lizkarg_sizes s, const cut_case *cuts, size_t count) {
    for (size_t i = 0; i < count; i++) HOLD((size_t)lizkarg_full_chunks(s, cuts[i].nu, cuts[i].mu) == cuts[i].full);
}

static void full_chunks(void) {
    const size_t half = (size_t)1 << 63, most = (size_t)-1;
    const cut_case both[] = {{1, 1, 1}, {2, 1, 1}, {3, 2, 1}, {4, 2, 1}, {6, 3, 1}, {3, 1, 0}, {5, 6, 0}, {12, 6, 0},
        {0, 0, 0}, {0, 1, 0}, {0, 6, 0}, {1, 0, 0}, {2, 0, 0}, {12, 0, 0}, {1, most, 0}, {1, most - 1, 0}, {12, most, 0}, {half, 1, 0},
        {half, 2, 0}, {half, half, 0}, {most, 1, 0}, {most, 2, 0}, {most, 3, 0}, {most, most, 0}, {half + 1, most, 0}, {0, most, 0}, {most, 0, 0}};
    const cut_case two[] = {{1, 14, 1}, {6, 4, 1}, {7, 2, 0}, {1, 15, 0}, {2, 13, 0}, {6, 5, 0}};
    const cut_case one[] = {{1, 15, 1}, {6, 10, 1}, {12, 4, 0}, {1, 16, 0}, {2, 15, 0}, {6, 11, 0}};
    lizkarg_sizes s = {2, 12, 1, 1, 0, 0, 1, 1, 1, 4, 8, 4, 2, 2, 0, 0, 0};
    full_cuts(s, both, sizeof both / sizeof *both), full_cuts(s, two, sizeof two / sizeof *two);
    s.one_digit = 1;
    full_cuts(s, both, sizeof both / sizeof *both), full_cuts(s, one, sizeof one / sizeof *one);
}

/* Every degree that is listed, and the others. */
static void against_degrees(void) {
    header h = draw_header();
    for (size_t d = 0; d <= 130; d++) {
        h.number[D] = d;
        HOLD(sheet_numbers(h) == lizkarg_proof_length(sizes_of(h)) && !sheet_numbers(h) == !sheet_bytes(h));
    }
}

/* The arguments are how many sizes are held to the calls, and how many numbers such a proof may have. */
int main(int argc, char **argv) {
    int calls = argc > 1 ? atoi(argv[1]) : 100;
    size_t largest = argc > 2 ? (size_t)atoi(argv[2]) : 50000;
    name = "lengths";
    against_degrees();
    full_chunks();
    while (calls > 0) {
        header h = draw_header();
        against_header(h);
        if (lizkarg_proof_length(sizes_of(h)) > largest) continue;
        against_calls(h, 0);
        against_calls(h, (uint8_t)draw(1, 255));
        calls--;
    }
    return report();
}
