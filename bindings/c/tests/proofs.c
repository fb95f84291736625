/* The calls of lizkarg_proof.h: on the stored cases each writes and answers what the call of lizkarg.h does in calls.c, and each sheet that is
 * given, cut into a proof, has the verdict of lizkarg_judge_sheet.
 *     proofs FOLDER SHEET ..     the folder of the stored cases, and sheets */
#include "../lizkarg_proof.h"
#include "held.h"

/* ---- lists */

static lizkarg_list filled(size_t length, int32_t number) {
    lizkarg_list x = {length ? room(length, sizeof(int32_t)) : NULL, length};
    for (size_t i = 0; i < length; i++) x.numbers[i] = number;
    return x;
}

static int equal(lizkarg_list x, lizkarg_list y) {
    return x.length == y.length && (x.length == 0 || !memcmp(x.numbers, y.numbers, x.length * sizeof(int32_t)));
}

static void copy(lizkarg_list from, lizkarg_list to) {
    HOLD(from.length == to.length);
    if (from.length) memcpy(to.numbers, from.numbers, from.length * sizeof(int32_t));
}

static lizkarg_list next_list(char **at, size_t length) {
    lizkarg_list x = filled(length, 0);
    for (size_t i = 0; i < length; i++) x.numbers[i] = (int32_t)strtol(*at, at, 10);
    return x;
}

/* ---- stored cases */

typedef struct {
    lizkarg_sizes sizes;
    size_t nu, mu;
    lizkarg_list numbers; /* of the proof */
    lizkarg_proof proof;
    lizkarg_list witness, places, next;
} stored;

static stored read_case(const char *folder) {
    stored s;
    size_t size, more_size;
    char *text = read_file(folder, ".sheet", &size), *more = read_file(folder, ".more", &more_size), *at = more;
    s.numbers = filled(lizkarg_sheet_numbers((uint8_t *)text, size), 0);
    lizkarg_sheet sheet = lizkarg_read_sheet((uint8_t *)text, size, s.numbers.numbers, s.numbers.length);
    HOLD(sheet.kind == LIZKARG_WRITTEN);
    s.sizes = lizkarg_sizes_of(sheet), s.nu = sheet.nu, s.mu = sheet.mu;
    s.proof = lizkarg_proof_of(s.sizes, s.numbers);
    s.witness = next_list(&at, lizkarg_witness_length(s.sizes));
    s.places = next_list(&at, 2 * lizkarg_next_parts(s.sizes, s.nu, s.mu));
    s.next = next_list(&at, lizkarg_next_length(s.sizes, s.nu, s.mu));
    free(text), free(more);
    return s;
}

static void free_case(stored *s) {
    free(s->numbers.numbers), free(s->witness.numbers), free(s->places.numbers), free(s->next.numbers);
}

/* ---- the prover */

/* A proof with the statement and the draws of the case and 77 in all that the prover writes. */
static lizkarg_proof begun(const stored *s, lizkarg_list numbers) {
    const lizkarg_proof *from = &s->proof;
    lizkarg_proof to = lizkarg_proof_of(s->sizes, numbers);
    copy(from->a_matrix, to.a_matrix), copy(from->b_matrix, to.b_matrix), copy(from->c_matrix, to.c_matrix), copy(from->d_matrix, to.d_matrix);
    copy(from->whole, to.whole), copy(from->constant_terms, to.constant_terms), copy(from->projections, to.projections);
    copy(from->psi, to.psi), copy(from->omega, to.omega), copy(from->alpha, to.alpha), copy(from->delta, to.delta), copy(from->c, to.c);
    return to;
}

static void messages(const stored *s) {
    lizkarg_list numbers = filled(lizkarg_proof_length(s->sizes), 77), witness = lizkarg_read_only(s->witness.numbers, s->witness.length);
    lizkarg_proof proof = begun(s, numbers);
    ANSWER(lizkarg_proof_commit(s->sizes, witness, &proof), LIZKARG_WRITTEN, 0);
    ANSWER(lizkarg_proof_project(s->sizes, witness, &proof), LIZKARG_WRITTEN, 0);
    ANSWER(lizkarg_proof_aggregate(s->sizes, witness, &proof), LIZKARG_WRITTEN, 0);
    ANSWER(lizkarg_proof_commit_garbage(s->sizes, witness, &proof), LIZKARG_WRITTEN, 0);
    ANSWER(lizkarg_proof_amortize(s->sizes, witness, &proof), LIZKARG_WRITTEN, 0);
    HOLD(equal(numbers, s->numbers));
    free(numbers.numbers);
}

/* A refused message writes nothing; an opening of another length is refused by 7. */
static void refused_messages(const stored *s) {
    lizkarg_list numbers = filled(lizkarg_proof_length(s->sizes), 77), before = filled(numbers.length, 0), none = {NULL, 0};
    lizkarg_proof proof = begun(s, numbers), other = proof;
    lizkarg_sizes sizes = s->sizes;
    copy(numbers, before);
    other.opening.length--;
    ANSWER(lizkarg_proof_commit(sizes, s->witness, &other), LIZKARG_REFUSED, 7);
    ANSWER(lizkarg_proof_commit_garbage(sizes, s->witness, &other), LIZKARG_REFUSED, 7);
    ANSWER(lizkarg_proof_amortize(sizes, s->witness, &other), LIZKARG_REFUSED, 7);
    ANSWER(lizkarg_proof_project(sizes, none, &proof), LIZKARG_REFUSED, 7);
    ANSWER(lizkarg_proof_aggregate(sizes, none, &proof), LIZKARG_REFUSED, 7);
    sizes.kappa2 = 9;
    ANSWER(lizkarg_proof_commit(sizes, s->witness, &proof), LIZKARG_REFUSED, 7);
    ANSWER(lizkarg_proof_commit_garbage(sizes, s->witness, &proof), LIZKARG_REFUSED, 3);
    sizes.d = 3;
    ANSWER(lizkarg_proof_amortize(sizes, s->witness, &proof), LIZKARG_REFUSED, 1);
    HOLD(equal(numbers, before));
    free(numbers.numbers), free(before.numbers);
}

/* ---- the verifier and the next instance */

static void verdicts(const stored *s) {
    lizkarg_sizes other = s->sizes;
    lizkarg_list less = s->numbers, more = s->numbers;
    less.length--, more.length++;
    lizkarg_proof shorter = lizkarg_proof_of(s->sizes, less), longer = lizkarg_proof_of(s->sizes, more);
    ANSWER(lizkarg_proof_verify(s->sizes, &s->proof), LIZKARG_ACCEPTED, 0);
    ANSWER(lizkarg_proof_verify(s->sizes, &shorter), LIZKARG_REFUSED, 7);
    ANSWER(lizkarg_proof_verify(s->sizes, &longer), LIZKARG_REFUSED, 7);
    HOLD(longer.a_matrix.numbers == NULL && longer.a_matrix.length == 0 && longer.opening.numbers == NULL && longer.opening.length == 0);
    other.target--;
    ANSWER(lizkarg_proof_verify(other, &s->proof), LIZKARG_FAILED, 9);
    other.target = s->sizes.target + 7;
    ANSWER(lizkarg_proof_verify(other, &s->proof), LIZKARG_ACCEPTED, 7);
    /* one number more in a list, and the first check that it breaks */
    const lizkarg_list lists[] = {s->proof.second_b, s->proof.u1, s->proof.u2};
    for (int i = 0; i < 3; i++) {
        lists[i].numbers[0]++;
        ANSWER(lizkarg_proof_verify(s->sizes, &s->proof), LIZKARG_FAILED, 2 + i);
        lists[i].numbers[0]--;
    }
}

static void next(const stored *s) {
    lizkarg_list out = filled(s->next.length, 77), none = {NULL, 0};
    size_t parts = lizkarg_next_parts(s->sizes, s->nu, s->mu);
    ANSWER(lizkarg_proof_next_instance(s->sizes, s->nu, s->mu, &s->proof, none), LIZKARG_REFUSED, 7);
    ANSWER(lizkarg_proof_next_instance(s->sizes, 8, 1, &s->proof, out), LIZKARG_REFUSED, 5);
    ANSWER(lizkarg_proof_next_instance(s->sizes, s->nu, s->mu, &s->proof, out), LIZKARG_WRITTEN, 0);
    HOLD(equal(out, s->next));
    for (size_t i = 1; i <= parts; i++) {
        lizkarg_list part = lizkarg_proof_next_part(s->sizes, s->nu, s->mu, i, &s->proof);
        HOLD(part.length == (size_t)s->places.numbers[2 * i - 1]);
        HOLD(part.length == 0 ? part.numbers == NULL : part.numbers == s->proof.opening.numbers + s->places.numbers[2 * i - 2]);
        HOLD(lizkarg_proof_next_part_refusal(s->sizes, s->nu, s->mu, i, &s->proof) == 0);
    }
    lizkarg_list past = lizkarg_proof_next_part(s->sizes, s->nu, s->mu, parts + 1, &s->proof);
    HOLD(past.numbers == NULL && past.length == 0);
    HOLD(lizkarg_proof_next_part_refusal(s->sizes, s->nu, s->mu, parts + 1, &s->proof) == 2);
    free(out.numbers);
}

/* ---- challenges */

/* Two challenges of degree d, of so many ones and twos, all other numbers zero: they are taken, or each call refuses them by 10. */
static void challenges(size_t d, size_t ones, size_t twos, int taken) {
    lizkarg_sizes sizes = {.d = d, .n = 1, .r = 2, .kappa = 1, .kappa1 = 1, .kappa2 = 1, .b = 4, .b1 = 4, .b2 = 4, .t1 = 2, .t2 = 2};
    lizkarg_list numbers = filled(lizkarg_proof_length(sizes), 0), witness = filled(2 * d, 0), out = filled(lizkarg_next_length(sizes, 1, 1), 77);
    lizkarg_proof proof = lizkarg_proof_of(sizes, numbers);
    for (size_t i = 0; i < 2 * d; i++) proof.c.numbers[i] = i % d < twos ? -2 : i % d < twos + ones;
    int kind = taken ? LIZKARG_WRITTEN : LIZKARG_REFUSED, number = taken ? 0 : 10;
    name = "challenges";
    ANSWER(lizkarg_proof_amortize(sizes, witness, &proof), kind, number);
    ANSWER(lizkarg_proof_verify(sizes, &proof), taken ? LIZKARG_ACCEPTED : LIZKARG_REFUSED, number);
    ANSWER(lizkarg_proof_next_instance(sizes, 1, 1, &proof, out), kind, number);
    free(numbers.numbers), free(witness.numbers), free(out.numbers);
}

/* ---- sheets */

/* Read, cut and verified, the sheet `name` is judged as lizkarg_judge_sheet judges it. */
static void sheet(void) {
    size_t size;
    uint8_t *text = (uint8_t *)read_text(name, &size);
    lizkarg_list numbers = filled(lizkarg_sheet_numbers(text, size), 0);
    lizkarg_sheet header = lizkarg_read_sheet(text, size, numbers.numbers, numbers.length);
    lizkarg_answer judged = lizkarg_judge_sheet(text, size);
    if (header.kind == LIZKARG_WRITTEN) {
        lizkarg_sizes sizes = lizkarg_sizes_of(header);
        lizkarg_proof proof = lizkarg_proof_of(sizes, numbers);
        ANSWER(lizkarg_proof_verify(sizes, &proof), judged.kind, judged.number);
    } else {
        HOLD(header.kind == judged.kind && header.number == judged.number);
    }
    free(text), free(numbers.numbers);
}

int main(int argc, char **argv) {
    const char *names[] = {"alike", "apart", "empty"};
    if (argc < 2) return 2;
    for (int i = 0; i < 3; i++) {
        name = names[i];
        stored s = read_case(argv[1]);
        messages(&s);
        refused_messages(&s);
        verdicts(&s);
        next(&s);
        free_case(&s);
    }
    challenges(64, 31, 10, 1), challenges(64, 32, 10, 0), challenges(64, 35, 9, 0), challenges(64, 0, 0, 0);
    challenges(32, 3, 17, 1), challenges(32, 0, 18, 0), challenges(32, 0, 0, 1);
    for (int i = 2; i < argc; i++) {
        name = argv[i];
        sheet();
    }
    return report();
}
