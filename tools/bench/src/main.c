/* Times every implementation in one run: repetitions are interleaved, the least processor time counts, and every result is compared with ours.
 * usage: bench [n r w K kappa repetitions] (default 256 16 256 4 8 5); degree 64. */
#include "case.h"
#include <stdio.h>
#include <stdlib.h>
#include <string.h>
#include <time.h>

static const implementation *all[] = {&ours, &gcc_tuned, &clang_tuned, &clang_tested, &clang_centred, &gcc_plain, &clang_plain, &rust_plain, &flint_based};
enum { COUNT = sizeof all / sizeof *all, STEPS = 7 };
static const char *steps[] = {"message 1", "message 2", "message 3", "message 4", "message 5", "verifier", "next instance"};

static double now(void) {
    struct timespec t;
    clock_gettime(CLOCK_THREAD_CPUTIME_ID, &t);
    return t.tv_sec * 1e9 + t.tv_nsec;
}

static void lessen(double *least, double from) {
    double ns = now() - from;
    if (ns < *least) *least = ns;
}

static void differ(const char *what, const char *who) {
    fprintf(stderr, "%s of %s differs from ours\n", what, who);
    exit(1);
}

static void show(double ns) {
    if (ns < 1e4) printf("%9.0f ns", ns);
    else if (ns < 1e7) printf("%9.1f us", ns / 1e3);
    else printf("%9.1f ms", ns / 1e6);
}

static void line(const char *what, const double *ns) {
    printf("| %-26s |", what);
    show(ns[0]);
    for (int i = 1; i < COUNT; i++) printf(" | %12.2f", ns[i] / ns[0]);
    printf(" |\n");
    fflush(stdout);
}

static void heading(void) {
    printf("| %-26s | %12s", "", "ours");
    for (int i = 1; i < COUNT; i++) printf(" | %12s", all[i]->name);
    printf(" |\n|---|");
    for (int i = 0; i < COUNT; i++) printf("---|");
    printf("\n");
}

static void products(const char *what, int32_t most) {
    enum { ELEMENTS = 64, ROUNDS = 400 };
    static int32_t x[ELEMENTS * 64], y[ELEMENTS * 64], first[64], other[64];
    double least[COUNT];
    for (int i = 0; i < ELEMENTS * 64; i++) {
        x[i] = (int32_t)((uint64_t)i * 0x9e3779b97f4a7c15 % 4294967197u - 2147483598);
        y[i] = (int32_t)((uint64_t)(i + 7777) * 0xbf58476d1ce4e5b9 % (2 * (uint64_t)most + 1) - most);
    }
    for (int i = 0; i < COUNT; i++) least[i] = 1e30;
    for (int round = 0; round < ROUNDS; round++)
        for (int i = 0; i < COUNT; i++) {
            double from = now();
            for (int k = 0; k < ELEMENTS; k++) all[i]->multiply(64, x + k * 64, y + k * 64, i ? other : first);
            double ns = (now() - from) / ELEMENTS;
            if (ns < least[i]) least[i] = ns;
            if (i && memcmp(first, other, sizeof first)) differ("product", all[i]->name);
        }
    line(what, least);
}

enum { VERIFIER = 5 };

static lizkarg_answer step(const implementation *x, int which, const lizkarg_sizes *s, const lists *l) {
    switch (which) {
    case 0: x->commit(s, l); break;
    case 1: x->project(s, l); break;
    case 2: x->aggregate(s, l); break;
    case 3: x->garbage(s, l); break;
    case 4: x->amortize(s, l); break;
    case VERIFIER: return x->verify(s, l);
    default: return x->next(s, l);
    }
    return (lizkarg_answer){LIZKARG_WRITTEN, 0};
}

/* what the calls write */
enum { OUTPUTS = 6 };
typedef struct { int32_t *numbers; size_t count; } output;
typedef struct { output of[OUTPUTS]; } outputs;

static outputs outputs_of(const lists *l) {
    return (outputs){{{l->z, l->n.opening}, {l->u1, l->n.u1}, {l->second_b, l->n.second_b}, {l->u2, l->n.u2}, {l->p, l->n.p}, {l->next, l->n.next}}};
}

static void spoil(outputs x) {
    for (int i = 0; i < OUTPUTS; i++) memset(x.of[i].numbers, 0x55, x.of[i].count * sizeof(int32_t));
}

static outputs kept(outputs x) {
    for (int i = 0; i < OUTPUTS; i++) {
        size_t bytes = x.of[i].count * sizeof(int32_t);
        x.of[i].numbers = memcpy(malloc(bytes + 1), x.of[i].numbers, bytes);
    }
    return x;
}

static void compare(outputs x, outputs first, const implementation *who) {
    for (int i = 0; i < OUTPUTS; i++)
        if (memcmp(x.of[i].numbers, first.of[i].numbers, x.of[i].count * sizeof(int32_t))) differ("message or instance", who->name);
}

static void release(outputs x) {
    for (int i = 0; i < OUTPUTS; i++) free(x.of[i].numbers);
}

/* Steps `from` to `to` - 1 by some implementations in turn, what they write and the margin compared with the first's; the least times of each. */
static void measure(const lizkarg_sizes *s, const lists *l, const implementation **who, int count, int from, int to, int repetitions,
    double least[][STEPS]) {
    outputs written = outputs_of(l), first = {0};
    uint64_t margin = 0;
    for (int i = 0; i < count; i++)
        for (int x = 0; x < STEPS; x++) least[i][x] = 1e30;
    for (int round = 0; round < repetitions; round++)
        for (int i = 0; i < count; i++) {
            spoil(written);
            for (int x = from; x < to; x++) {
                double start = now();
                lizkarg_answer answer = step(who[i], x, s, l);
                double ns = now() - start;
                if (ns < least[i][x]) least[i][x] = ns;
                if (answer.kind != (x == VERIFIER ? LIZKARG_ACCEPTED : LIZKARG_WRITTEN)) differ("verdict", who[i]->name);
                if (round == 0 && i == 0 && x == VERIFIER) margin = answer.number;
                if (x == VERIFIER && answer.number != margin) differ("margin", who[i]->name);
            }
            if (round == 0 && i == 0) first = kept(written);
            compare(written, first, who[i]);
        }
    release(first);
}

static double prover(const double *least) { return least[0] + least[1] + least[2] + least[3] + least[4]; }

/* one step of every implementation, divided by `parts` */
static void step_line(const char *what, double least[][STEPS], int x, double parts) {
    double ns[COUNT];
    for (int i = 0; i < COUNT; i++) ns[i] = least[i][x] / parts;
    line(what, ns);
}

/* Message 1 with one part and one row is two inner products of n pairs and four products more. */
static void inner_products(const char *what, int32_t most) {
    lizkarg_sizes s = {64, 256, 1, 0, 0, 0, 1, 1, 1, 16, 256, 256, 2, 2, 0, 0};
    lists l;
    double least[COUNT][STEPS];
    make_case(&s, &l, most);
    measure(&s, &l, all, COUNT, 0, 1, 20, least);
    step_line(what, least, 0, 2 * s.n + 4);
    free_case(&l);
}

static void fold(lizkarg_sizes s, int repetitions) {
    lists l;
    double least[COUNT][STEPS], whole[COUNT];
    make_case(&s, &l, 1);
    measure(&s, &l, all, COUNT, 0, STEPS, repetitions, least);
    for (int x = 0; x < STEPS; x++) step_line(steps[x], least, x, 1);
    for (int i = 0; i < COUNT; i++) whole[i] = prover(least[i]);
    line("prover, all messages", whole);
    free_case(&l);
}

/* Message 3 where the constant-term constraints are linear: all a' are zero, and no <s_i, s_j> is needed. */
static void linear(lizkarg_sizes s, int repetitions) {
    lists l;
    double least[COUNT][STEPS];
    make_case(&s, &l, 1);
    for (size_t k = 0; k < s.l; k++) memset((int32_t *)l.constant_terms + k * (function(&s) + 1), 0, pairs(s.r) * s.d * sizeof(int32_t));
    measure(&s, &l, all, COUNT, 2, 3, repetitions, least);
    step_line("message 3, linear f'", least, 2, 1);
    free_case(&l);
}

/* ---- the bare level */

static const bare_implementation *const bare[] = {&ours_bare, &rust_plain_bare};
enum { BARE = sizeof bare / sizeof *bare };

/* A line of which only some implementations have a time. */
static void bare_line(const char *what, const double *ns) {
    printf("| %-26s |", what);
    show(ns[0]);
    for (int i = 1; i < COUNT; i++) {
        int at = 0;
        while (at < BARE && strcmp(bare[at]->name, all[i]->name)) at++;
        if (at < BARE) printf(" | %12.2f", ns[at] / ns[0]);
        else printf(" | %12s", "");
    }
    printf(" |\n");
    fflush(stdout);
}

/* The bare level of the same sizes, without mixed products: t, phi and all turns by each implementation in turn, then the verdict, compared with ours. */
static void bare_level(lizkarg_sizes s, int repetitions) {
    lists l;
    double prove[BARE], verify[BARE];
    make_case(&s, &l, 1);
    without_products(&s, &l);
    bare_case x = {.s = {s.d, s.n, s.r, s.k, s.l, s.w, s.kappa, s.bound, s.target}, .l = &l, .phi_length = l.n.witness,
        .opening_length = (s.r * s.kappa + s.n + 4 * s.r) * s.d};
    size_t bytes = x.opening_length * sizeof(int32_t), phi_bytes = x.phi_length * sizeof(int32_t);
    int32_t *z = malloc(s.n * s.d * sizeof *z), *first = malloc(bytes), *first_phi = malloc(phi_bytes);
    lizkarg_shape shape = {s.d, s.n, s.r};
    x.opening = malloc(bytes), x.phi = malloc(phi_bytes);
    step(&ours, 1, &s, &l), step(&ours, 2, &s, &l);
    if (lizkarg_amortize_one_digit(shape, l.c, l.n.c, l.witness, l.n.witness, z, s.n * s.d).kind != LIZKARG_WRITTEN) differ("z", "ours");
    for (int i = 0; i < BARE; i++) prove[i] = verify[i] = 1e30;
    lizkarg_answer ours_is = {0};
    for (int round = 0; round < repetitions; round++)
        for (int i = 0; i < BARE; i++) {
            memset(x.opening, 0x55, bytes), memset(x.phi, 0x55, phi_bytes);
            memcpy(x.opening + s.r * s.kappa * s.d, z, s.n * s.d * sizeof *z);
            double from = now();
            bare[i]->prove(&x);
            lessen(&prove[i], from);
            from = now();
            lizkarg_answer answer = bare[i]->verify(&x);
            lessen(&verify[i], from);
            if (round == 0 && i == 0) memcpy(first, x.opening, bytes), memcpy(first_phi, x.phi, phi_bytes), ours_is = answer;
            if (memcmp(first, x.opening, bytes) || memcmp(first_phi, x.phi, phi_bytes)) differ("bare opening", bare[i]->name);
            if (answer.kind != LIZKARG_ACCEPTED || answer.number != ours_is.number) differ("verdict on the bare level", bare[i]->name);
        }
    bare_line("bare level, t, phi, turns", prove);
    bare_line("bare level, verifier", verify);
    free(z), free(first), free(first_phi), free(x.opening), free(x.phi);
    free_case(&l);
}

/* Ours step by step, and the whole prover, the verifier and the next instance of some others as ratios. */
static const implementation *grown[] = {&ours, &clang_tuned, &clang_tested, &clang_centred, &rust_plain, &flint_based};
enum { GROWN = sizeof grown / sizeof *grown };

static void growth_heading(void) {
    printf("|  |");
    for (int x = 0; x < STEPS; x++) printf(" %s |", steps[x]);
    printf(" prover |");
    for (int i = 1; i < GROWN; i++) printf(" %s: prover, verifier, next |", grown[i]->name);
    printf("\n|---|");
    for (int x = 0; x < STEPS + GROWN; x++) printf("---|");
    printf("\n");
}

static void growth_line(const char *what, size_t v, lizkarg_sizes s, int repetitions) {
    lists l;
    double least[GROWN][STEPS];
    make_case(&s, &l, 1);
    measure(&s, &l, grown, GROWN, 0, STEPS, repetitions, least);
    printf("| %s = %-4zu |", what, v);
    for (int x = 0; x < STEPS; x++) {
        show(least[0][x]);
        printf(" |");
    }
    show(prover(least[0]));
    printf(" |");
    for (int i = 1; i < GROWN; i++)
        printf(" %.2f, %.2f, %.2f |", prover(least[i]) / prover(least[0]), least[i][5] / least[0][5], least[i][6] / least[0][6]);
    printf("\n");
    fflush(stdout);
    free_case(&l);
}

/* ---- sheets */

enum { NU = 1, MU = 1, PROGRAM = 65536 };

/* A field as one writes it first in C, and as one writes it by hand. */
static inline char *printed_field(char *at, int64_t x) { return at + sprintf(at, "%16lld", (long long)x); }

static inline char *field_by_hand(char *at, int64_t x) {
    uint64_t rest = x < 0 ? -(uint64_t)x : (uint64_t)x;
    char *to = at + 16;
    memset(at, ' ', 16);
    do *--to = (char)('0' + rest % 10);
    while (rest /= 10);
    if (x < 0) *--to = '-';
    return at + 16;
}

typedef char *put_field(char *at, int64_t x);
#define INLINED static inline __attribute__((always_inline))

/* The next lines of `width` numbers each. */
INLINED char *put_lines(put_field *put, char *at, const int32_t **xs, size_t lines, size_t width) {
    for (size_t i = 0; i < lines; i++) {
        for (size_t k = 0; k < width; k++) at = put(at, *(*xs)++);
        *at++ = '\n';
    }
    return at;
}

/* The sheet of these numbers, which nothing is asked of; how long it is. */
INLINED size_t put_sheet(put_field *put, const lizkarg_sizes *s, const int32_t *xs, char *text) {
    size_t d = s->d, t = s->r * s->t1 * s->kappa, g = pairs(s->r) * s->t2, h = pairs(s->r) * s->t1, phi = s->r * s->n, f = pairs(s->r) + phi;
    uint64_t header[] = {d, s->n, s->r, s->k, s->l, s->w, s->kappa, s->kappa1, s->kappa2, s->b, s->b1, s->b2, s->t1, s->t2, NU, MU, s->bound, s->target};
    char *at = text;
    for (int i = 0; i < 18; i++) at = put(at, (int64_t)header[i]);
    *at++ = '\n';
    at = put_lines(put, at, &xs, s->kappa * s->n + s->kappa1 * (t + g) + s->kappa2 * h + s->k * (f + 1), d);
    for (size_t k = 0; k < s->l; k++) {
        at = put_lines(put, at, &xs, f, d);
        at = put_lines(put, at, &xs, 1, 1);
    }
    at = put_lines(put, at, &xs, s->kappa1 + s->w * phi, d);
    at = put_lines(put, at, &xs, s->w + 5 * s->l + 5 * s->w, 1);
    at = put_lines(put, at, &xs, 5 + s->k + 5 + s->kappa2 + s->r + 2 * s->n + t + g + h, d);
    return (size_t)(at - text);
}

static size_t by_printf(const lizkarg_sizes *s, const int32_t *xs, size_t count, char *text, size_t room) {
    (void)count, (void)room;
    return put_sheet(printed_field, s, xs, text);
}

static size_t by_hand(const lizkarg_sizes *s, const int32_t *xs, size_t count, char *text, size_t room) {
    (void)count, (void)room;
    return put_sheet(field_by_hand, s, xs, text);
}

static size_t by_ours(const lizkarg_sizes *s, const int32_t *xs, size_t count, char *text, size_t room) {
    return lizkarg_write_sheet(*s, NU, MU, xs, count, (uint8_t *)text, room).length;
}

typedef size_t writer(const lizkarg_sizes *s, const int32_t *xs, size_t count, char *text, size_t room);
static writer *const writers[] = {by_ours, by_printf, by_hand};
static const char *const writer_names[] = {"ours", "printf", "C by hand"};
enum { WRITERS = sizeof writers / sizeof *writers };

/* The sheet of an accepted proof, written by each writer, read, and judged by the call that the program makes. */
static void sheet_line(const char *what, const lizkarg_sizes *s, const int32_t *numbers, size_t count) {
    size_t size = lizkarg_sheet_bytes(*s, NU, MU);
    char *text = malloc(size + 1), *other = malloc(size + 1);
    int32_t *back = malloc(count * sizeof *back);
    double read = 1e30, judge = 1e30, write[WRITERS];
    for (int i = 0; i < WRITERS; i++) write[i] = 1e30;
    if (by_ours(s, numbers, count, text, size) != size) differ("sheet", "ours");
    for (int round = 0; round < (size > PROGRAM ? 9 : 100); round++) {
        for (int i = 0; i < WRITERS; i++) {
            memset(other, 0x55, size);
            double from = now();
            size_t length = writers[i](s, numbers, count, other, size);
            lessen(&write[i], from);
            if (length != size || memcmp(text, other, size)) differ("sheet", writer_names[i]);
        }
        memset(back, 0x55, count * sizeof *back);
        double from = now();
        lizkarg_sheet h = lizkarg_read_sheet((const uint8_t *)text, size, back, count);
        lessen(&read, from);
        if (h.kind != LIZKARG_WRITTEN || memcmp(back, numbers, count * sizeof *back)) differ("numbers of a sheet", "ours");
        if (size > PROGRAM) continue;
        from = now();
        lizkarg_answer x = lizkarg_judge_sheet((const uint8_t *)text, size);
        lessen(&judge, from);
        if (x.kind != LIZKARG_ACCEPTED) differ("verdict on a sheet", "ours");
    }
    printf("| %s | %zu |", what, size);
    show(read);
    printf(" | %.1f ns |", read / size);
    if (size > PROGRAM) printf(" none |");
    else show(judge), printf(" |");
    show(write[0]);
    printf(" | %.1f ns |", write[0] / size);
    for (int i = 1; i < WRITERS; i++) printf(" %.2f |", write[i] / write[0]);
    printf("\n");
    fflush(stdout);
    free(text), free(other), free(back);
}

/* The whole case of SPECIFICATION 12.4. */
static void whole_case_line(void) {
    lizkarg_sizes s = {2, 1, 1, 1, 0, 0, 1, 1, 1, 4, 8, 4, 2, 2, 5, 13};
    static const int32_t numbers[] = {1, 0, 1, 0, 0, 0, 1, 0, 0, 0, 1, 0, 1, 0, 1, 0, 0, 0, -3, 4, 2, 2, 0, 0, 0, 0, 0, 0, 0, 0, 0, 0, 1, 0, 0, 0,
        0, 0, 0, 0, 0, 0, 0, 0, 0, 0, 0, 1, -2, 1, 0, 0, 1, 2, 0, 0, 1, 0, -1, 1, 0, 0, 0, 0};
    sheet_line("whole case", &s, numbers, sizeof numbers / sizeof *numbers);
}

/* The lists of an honest proof one after another. */
static void honest_line(const char *what, lizkarg_sizes s) {
    lists l;
    make_case(&s, &l, 1);
    for (int x = 0; x < 5; x++) step(&ours, x, &s, &l);
#define OF(x) {l.x, l.n.x}
    struct { const int32_t *numbers; size_t count; } all_lists[] = {OF(a_matrix), OF(b_matrix), OF(c_matrix), OF(d_matrix), OF(whole), OF(constant_terms), OF(u1),
        OF(projections), OF(p), OF(psi), OF(omega), OF(second_b), OF(alpha), OF(delta), OF(u2), OF(c), {l.z, l.n.opening}};
    size_t count = 0, at = 0, parts = sizeof all_lists / sizeof *all_lists;
    for (size_t i = 0; i < parts; i++) count += all_lists[i].count;
    int32_t *numbers = malloc(count * sizeof *numbers);
    for (size_t i = 0; i < parts; at += all_lists[i++].count) memcpy(numbers + at, all_lists[i].numbers, all_lists[i].count * sizeof *numbers);
    sheet_line(what, &s, numbers, count);
    free(numbers);
    free_case(&l);
}

static void sheets(void) {
    printf("\nSheets through the C interface: lizkarg_read_sheet, lizkarg_judge_sheet, which reads and judges, and lizkarg_write_sheet, with the times of two writers in C divided by its\n\n");
    printf("| | bytes | reading | reading, a byte | verdict, reading included | writing | writing, a byte |");
    for (int i = 1; i < WRITERS; i++) printf(" %s |", writer_names[i]);
    printf("\n|---|---|---|---|---|---|---|---|---|\n");
    whole_case_line();
    honest_line("d = 8, n = 2, r = 2, w = 8", (lizkarg_sizes){8, 2, 2, 1, 1, 8, 1, 1, 1, 16, 256, 256, 4, 4, 0, 0});
    honest_line("d = 32, n = 2, r = 2, w = 10", (lizkarg_sizes){32, 2, 2, 1, 1, 10, 2, 1, 2, 16, 65536, 65536, 2, 2, 0, 0});
    honest_line("d = 64, n = 64, r = 8, w = 2", (lizkarg_sizes){64, 64, 8, 2, 2, 2, 4, 4, 4, 16, 256, 256, 4, 4, 0, 0});
}

int main(int argc, char **argv) {
    size_t v[6] = {256, 16, 256, 4, 8, 5};
    for (int i = 1; i < argc && i < 7; i++) v[i - 1] = strtoul(argv[i], 0, 10);
    lizkarg_sizes s = {64, v[0], v[1], v[3], v[3], v[2], v[4], v[4], v[4], 16, 256, 256, 4, 4, 0, 0};
    printf("d = 64, n = %zu, r = %zu, w = %zu, K = L = %zu, kappa = kappa1 = kappa2 = %zu, t1 = t2 = 4, best of %zu, interleaved\n", v[0], v[1],
        v[2], v[3], v[4], v[5]);
    printf("ours: time; the others: their time divided by ours (above 1: ours is faster); short: the second operand's numbers are below 2^22\n");
    printf("next instance: nu = 2, mu = 12\n\n");
    heading();
    products("ring product", 2147483598);
    products("ring product, short", 4194303);
    inner_products("inner product, per pair", 2147483598);
    inner_products("inner product, short", 4194303);
    fold(s, (int)v[5]);
    linear(s, (int)v[5]);
    bare_level(s, (int)v[5]);
    sheets();
    printf("\nGrowth with n (r = 8) and with r (n = 64); w = 64, K = L = 2, kappa = 4, best of 9; ours, then ratios to ours\n\n");
    growth_heading();
    lizkarg_sizes small = {64, 64, 8, 2, 2, 64, 4, 4, 4, 16, 256, 256, 4, 4, 0, 0};
    for (size_t n = 16; n <= 256; n *= 2) {
        lizkarg_sizes x = small;
        x.n = n;
        growth_line("n", n, x, 9);
    }
    for (size_t r = 1; r <= 16; r *= 2) {
        lizkarg_sizes x = small;
        x.r = r;
        growth_line("r", r, x, 9);
    }
    return 0;
}
