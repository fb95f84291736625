/* The calls of the bare level: on the cases of crates/bare_cases each answers and writes what is stored there, and where it is not refused by its sizes or
 * lengths the lists are as long as lizkarg_proof.h says. A level by hand goes through lizkarg_proof.h.
 *     bare FOLDER     crates/bare_cases */
#include "../lizkarg_proof.h"
#include "held.h"

enum { COMMIT = 1, PHI, TURN, VERIFY, MOST_LISTS = 12 };

#define LIST(x) (x).numbers, (x).length

/* ---- stored cases */

typedef struct {
    int call;
    lizkarg_bare_sizes sizes;
    size_t turn;
    lizkarg_list lists[MOST_LISTS];
    lizkarg_list out;
} stored;

static stored read_case(char **at) {
    static const int counts[] = {0, 2, 7, 3, 12};
    stored s;
    size_t sizes[10];
    memset(&s, 0, sizeof s);
    s.call = (int)strtol(*at, at, 10);
    for (int i = 0; i < 10; i++) sizes[i] = strtoull(*at, at, 10);
    lizkarg_bare_sizes z = {sizes[0], sizes[1], sizes[2], sizes[3], sizes[4], sizes[5], sizes[6], sizes[7], sizes[8]};
    s.sizes = z, s.turn = sizes[9];
    for (int i = 0; i < counts[s.call]; i++) {
        size_t length = strtoull(*at, at, 10);
        s.lists[i].length = length;
        s.lists[i].numbers = length ? room(length, sizeof(int32_t)) : NULL;
        for (size_t k = 0; k < length; k++) s.lists[i].numbers[k] = (int32_t)strtol(*at, at, 10);
    }
    if (s.call != VERIFY) {
        s.out.length = strtoull(*at, at, 10);
        s.out.numbers = s.out.length ? room(s.out.length, sizeof(int32_t)) : NULL;
        for (size_t k = 0; k < s.out.length; k++) s.out.numbers[k] = 77;
    }
    return s;
}

static void free_case(stored *s) {
    for (int i = 0; i < MOST_LISTS; i++) free(s->lists[i].numbers);
    free(s->out.numbers);
}

static lizkarg_answer answer(stored *s) {
    lizkarg_shape shape = {s->sizes.d, s->sizes.n, s->sizes.r};
    lizkarg_constraint_sizes sizes = {s->sizes.d, s->sizes.n, s->sizes.r, s->sizes.k, s->sizes.l, s->sizes.w};
    const lizkarg_list *l = s->lists;
    switch (s->call) {
    case COMMIT: return lizkarg_bare_commit(shape, s->sizes.kappa, LIST(l[0]), LIST(l[1]), LIST(s->out));
    case PHI: return lizkarg_bare_phi(sizes, LIST(l[0]), LIST(l[1]), LIST(l[2]), LIST(l[3]), LIST(l[4]), LIST(l[5]), LIST(l[6]), LIST(s->out));
    case TURN: return lizkarg_bare_turn(shape, s->turn, LIST(l[0]), LIST(l[1]), LIST(l[2]), LIST(s->out));
    default: return lizkarg_bare_verify(s->sizes, LIST(l[0]), LIST(l[1]), LIST(l[2]), LIST(l[3]), LIST(l[4]), LIST(l[5]), LIST(l[6]), LIST(l[7]),
        LIST(l[8]), LIST(l[9]), LIST(l[10]), LIST(l[11]));
    }
}

/* Of a case of the verifier that rows 1 to 7 do not refuse: the lengths, and the same answer by the struct of lists. */
static void by_name(const stored *s, lizkarg_answer should) {
    const lizkarg_list *l = s->lists;
    lizkarg_bare_proof proof = {l[0], l[1], l[2], l[3], l[4], l[5], l[6], l[7], l[8], l[9], l[10], l[11]};
    lizkarg_sizes fold = lizkarg_bare_as_fold(s->sizes);
    lizkarg_bare_parts parts = lizkarg_bare_parts_of(s->sizes, proof.opening);
    size_t all = 0;
    for (int i = 0; i < MOST_LISTS; i++) all += l[i].length;
    HOLD(l[0].length == lizkarg_a_matrix_length(fold) && l[1].length == lizkarg_whole_length(fold) && l[2].length == lizkarg_constant_terms_length(fold));
    HOLD(l[10].length == lizkarg_c_length(fold) && l[11].length == lizkarg_bare_opening_length(s->sizes) && all == lizkarg_bare_proof_length(s->sizes));
    HOLD(parts.t.length == s->sizes.r * s->sizes.kappa * s->sizes.d && parts.z.length == s->sizes.n * s->sizes.d);
    HOLD(parts.turns.length == s->sizes.r * lizkarg_bare_garbage_length(s->sizes) && parts.turns.numbers == l[11].numbers + parts.t.length + parts.z.length);
    ANSWER(lizkarg_bare_proof_verify(s->sizes, &proof), should.kind, should.number);
}

static void stored_cases(const char *folder) {
    char path[4096], line[64];
    size_t size;
    snprintf(path, sizeof path, "%s/stdin", folder);
    char *given = read_text(path, &size), *at = given, *end = given + size;
    snprintf(path, sizeof path, "%s/stdout", folder);
    char *lines = read_text(path, &size), *should = lines;
    for (int number = 1; at + 1 < end; number++) {
        snprintf(line, sizeof line, "case %d", number);
        name = line;
        stored s = read_case(&at);
        lizkarg_answer found = answer(&s);
        unsigned long long kind = strtoull(should, &should, 10), row = strtoull(should, &should, 10);
        HOLD(found.kind == kind && found.number == row);
        for (size_t k = 0; k < s.out.length; k++) HOLD(s.out.numbers[k] == (int32_t)strtol(should, &should, 10));
        if (s.call == VERIFY && (kind < LIZKARG_REFUSED || row > 7)) by_name(&s, found);
        free_case(&s);
    }
    HOLD(strspn(at, "\n") == strlen(at) && strspn(should, "\n") == strlen(should));
    free(given), free(lines);
}

/* ---- a level by hand: s_1 = 1+2X, s_2 = 3, A = (1+X), 2<s_1,s_1> + s_1 + X·s_2 = -5+13X, c = (X, 1-X), so that z = 1-2X */

static void copy(const int32_t *from, lizkarg_list to) { memcpy(to.numbers, from, to.length * sizeof(int32_t)); }

static void by_hand(void) {
    lizkarg_bare_sizes sizes = {2, 1, 2, 1, 0, 0, 1, 0, 5}, other = sizes;
    const int32_t a_matrix[] = {1, 1}, whole[] = {2, 0, 0, 0, 0, 0, 1, 0, 0, 1, -5, 13}, one[] = {1, 0}, s[] = {1, 2, 3, 0}, c[] = {0, 1, 1, -1};
    const int32_t opening[] = {-1, 3, 3, 3, 1, -2, 0, 0, 1, 2, 0, 0, -3, 4, -1, 1, 0, 3, -12, 6, 9, 0};
    lizkarg_list numbers = {room(lizkarg_bare_proof_length(sizes), sizeof(int32_t)), lizkarg_bare_proof_length(sizes)};
    lizkarg_list phi = {room(lizkarg_bare_phi_length(sizes), sizeof(int32_t)), lizkarg_bare_phi_length(sizes)}, none = {NULL, 0};
    lizkarg_list witness = lizkarg_read_only(s, 4);
    lizkarg_bare_proof proof = lizkarg_bare_proof_of(sizes, numbers), shorter = proof;
    name = "by hand";
    copy(a_matrix, proof.a_matrix), copy(whole, proof.whole), copy(one, proof.alpha);
    ANSWER(lizkarg_bare_proof_commit(sizes, witness, &proof), LIZKARG_WRITTEN, 0);
    ANSWER(lizkarg_bare_proof_project(sizes, witness, &proof), LIZKARG_WRITTEN, 0);
    ANSWER(lizkarg_bare_proof_aggregate(sizes, witness, &proof), LIZKARG_WRITTEN, 0);
    ANSWER(lizkarg_bare_proof_phi(sizes, &proof, phi), LIZKARG_WRITTEN, 0);
    ANSWER(lizkarg_bare_proof_turn(sizes, 1, phi, witness, &proof), LIZKARG_WRITTEN, 0);
    /* c_1 is drawn after turn 1, c_2 after turn 2 */
    proof.c.numbers[1] = 1;
    ANSWER(lizkarg_bare_proof_turn(sizes, 2, phi, witness, &proof), LIZKARG_WRITTEN, 0);
    copy(c, proof.c);
    ANSWER(lizkarg_bare_proof_amortize(sizes, witness, &proof), LIZKARG_WRITTEN, 0);
    HOLD(proof.opening.length == 22 && !memcmp(proof.opening.numbers, opening, sizeof opening));
    ANSWER(lizkarg_bare_proof_verify(sizes, &proof), LIZKARG_ACCEPTED, 0);
    other.z_bound = 12;
    ANSWER(lizkarg_bare_proof_verify(other, &proof), LIZKARG_ACCEPTED, 7);
    other.z_bound = 4;
    ANSWER(lizkarg_bare_proof_verify(other, &proof), LIZKARG_FAILED, 7);
    /* a_12 */
    proof.whole.numbers[3] = 1;
    ANSWER(lizkarg_bare_proof_verify(sizes, &proof), LIZKARG_REFUSED, 14);
    ANSWER(lizkarg_bare_proof_phi(sizes, &proof, phi), LIZKARG_REFUSED, 14);
    proof.whole.numbers[3] = 0;
    /* turns and lengths */
    ANSWER(lizkarg_bare_proof_turn(sizes, 0, phi, witness, &proof), LIZKARG_REFUSED, 2);
    ANSWER(lizkarg_bare_proof_turn(sizes, 3, phi, witness, &proof), LIZKARG_REFUSED, 2);
    ANSWER(lizkarg_bare_proof_turn(sizes, (size_t)-1, phi, witness, &proof), LIZKARG_REFUSED, 2);
    ANSWER(lizkarg_bare_proof_turn(sizes, 2, none, witness, &proof), LIZKARG_REFUSED, 7);
    shorter.opening.length--;
    ANSWER(lizkarg_bare_proof_commit(sizes, witness, &shorter), LIZKARG_REFUSED, 7);
    ANSWER(lizkarg_bare_proof_turn(sizes, 1, phi, witness, &shorter), LIZKARG_REFUSED, 7);
    ANSWER(lizkarg_bare_proof_amortize(sizes, witness, &shorter), LIZKARG_REFUSED, 7);
    ANSWER(lizkarg_bare_proof_verify(sizes, &shorter), LIZKARG_REFUSED, 7);
    shorter = proof, shorter.c.length = 1;
    ANSWER(lizkarg_bare_proof_turn(sizes, 2, phi, witness, &shorter), LIZKARG_REFUSED, 7);
    numbers.length--;
    shorter = lizkarg_bare_proof_of(sizes, numbers);
    HOLD(shorter.a_matrix.numbers == NULL && shorter.opening.length == 0);
    free(numbers.numbers), free(phi.numbers);
    /* past the limits every length is 0 */
    other = sizes, other.r = 17;
    HOLD(lizkarg_bare_proof_length(other) == 0 && lizkarg_bare_opening_length(other) == 0 && lizkarg_bare_phi_length(other) == 0);
    lizkarg_sizes fold = {64, 12, 2, 1, 0, 0, 1, 1, 1, 0, 8, 4, 2, 2, 5, 13, 1};
    lizkarg_bare_sizes next = lizkarg_bare_sizes_of_next(fold, 2, 3, 4, 2, 99), is = {64, 6, 5, 6, 0, 4, 2, 13, 99};
    HOLD(!memcmp(&next, &is, sizeof is));
}

int main(int argc, char **argv) {
    if (argc < 2) return 2;
    by_hand();
    stored_cases(argv[1]);
    return report();
}
