/* Every call of lizkarg.h but those of the bare level (bare.c) on stored cases: the layout of its structs, the order of its arguments, each number that a call writes. The
 * cases come from tools/reference/binding_cases.py; `run` beside this file builds and runs the test. A list of no numbers is passed as NULL. */
#include "../lizkarg.h"
#include "held.h"

/* ---- layout: x86-64, System V */

#define AT(type, field, place) _Static_assert(offsetof(type, field) == (place), #type "." #field)
#define SIZE(type, size) _Static_assert(sizeof(type) == (size), #type)

SIZE(lizkarg_answer, 16); AT(lizkarg_answer, kind, 0); AT(lizkarg_answer, number, 8);
SIZE(lizkarg_part, 16); AT(lizkarg_part, start, 0); AT(lizkarg_part, length, 8);
SIZE(lizkarg_shape, 24); AT(lizkarg_shape, d, 0); AT(lizkarg_shape, n, 8); AT(lizkarg_shape, r, 16);
SIZE(lizkarg_commit_sizes, 72); AT(lizkarg_commit_sizes, kappa, 24); AT(lizkarg_commit_sizes, b1, 40); AT(lizkarg_commit_sizes, t2, 64);
SIZE(lizkarg_garbage_sizes, 72); AT(lizkarg_garbage_sizes, k, 24); AT(lizkarg_garbage_sizes, kappa2, 48); AT(lizkarg_garbage_sizes, t1, 64);
SIZE(lizkarg_sizes, 136); AT(lizkarg_sizes, kappa, 48); AT(lizkarg_sizes, b, 72); AT(lizkarg_sizes, bound, 112); AT(lizkarg_sizes, target, 120);
AT(lizkarg_sizes, one_digit, 128);
SIZE(lizkarg_part_sizes, 72); AT(lizkarg_part_sizes, kappa, 24); AT(lizkarg_part_sizes, nu, 48); AT(lizkarg_part_sizes, mu, 56);
AT(lizkarg_part_sizes, one_digit, 64);
_Static_assert(sizeof((lizkarg_sizes){0}.one_digit) == 1 && sizeof((lizkarg_part_sizes){0}.one_digit) == 1, "one_digit");
SIZE(lizkarg_constraint_sizes, 48); AT(lizkarg_constraint_sizes, d, 0); AT(lizkarg_constraint_sizes, k, 24); AT(lizkarg_constraint_sizes, w, 40);
SIZE(lizkarg_bare_sizes, 72); AT(lizkarg_bare_sizes, d, 0); AT(lizkarg_bare_sizes, k, 24); AT(lizkarg_bare_sizes, kappa, 48);
AT(lizkarg_bare_sizes, bound, 56); AT(lizkarg_bare_sizes, z_bound, 64);
SIZE(lizkarg_sheet, 16 + 18 * 8); AT(lizkarg_sheet, kind, 0); AT(lizkarg_sheet, number, 8); AT(lizkarg_sheet, d, 16); AT(lizkarg_sheet, nu, 128);
AT(lizkarg_sheet, mu, 136); AT(lizkarg_sheet, bound, 144); AT(lizkarg_sheet, target, 152);
SIZE(lizkarg_text, 24); AT(lizkarg_text, kind, 0); AT(lizkarg_text, number, 8); AT(lizkarg_text, length, 16);
SIZE(lizkarg_element, 256);
SIZE(lizkarg_product, 272); AT(lizkarg_product, kind, 0); AT(lizkarg_product, number, 8); AT(lizkarg_product, element, 16);
_Static_assert(sizeof((lizkarg_answer){0}.number) == 8 && sizeof((lizkarg_sheet){0}.number) == 8 && sizeof((lizkarg_text){0}.number) == 8
    && sizeof((lizkarg_product){0}.number) == 8, "the number of an answer");

/* ---- lists */

typedef struct { int32_t *at; size_t length; } list;

#define LIST(x) (x).at, (x).length

static list filled(size_t length, int32_t number) {
    list x = {length ? room(length, sizeof(int32_t)) : NULL, length};
    for (size_t i = 0; i < length; i++) x.at[i] = number;
    return x;
}

/* A list to be written: `length` numbers, each 77. */
static list blank(size_t length) { return filled(length, 77); }

static int equal(list x, list y) {
    return x.length == y.length && (x.length == 0 || !memcmp(x.at, y.at, x.length * sizeof(int32_t)));
}

static int is_blank(list x) {
    for (size_t i = 0; i < x.length; i++)
        if (x.at[i] != 77) return 0;
    return 1;
}

/* Holds that the call wrote what it should, and frees it. */
#define WRITTEN(x, should) do { hold(equal(x, should), __FILE__, __LINE__, #x " is " #should); free((x).at); } while (0)
#define UNTOUCHED(x) do { hold(is_blank(x), __FILE__, __LINE__, #x " is as it was"); free((x).at); } while (0)

/* ---- stored numbers */

static list next_list(char **at, size_t length) {
    list x = filled(length, 0);
    for (size_t i = 0; i < length; i++) x.at[i] = (int32_t)strtol(*at, at, 10);
    return x;
}

typedef struct {
    size_t d, n, r, k, l, w, kappa, kappa1, kappa2, b, b1, b2, t1, t2, nu, mu;
    uint64_t bound, target;
} header;

typedef struct {
    header h;
    list a_matrix, b_matrix, c_matrix, d_matrix, whole, constant_terms, u1, projections, p, psi, omega, second_b, alpha, delta, u2, c, opening;
    list z, t, g, hd; /* the opening's digits of z, t, g, h */
    list witness, places, next;
    uint8_t *text;
    size_t text_length;
} stored;

static stored read_case(const char *folder) {
    stored s;
    size_t size;
    s.text = (uint8_t *)read_file(folder, ".sheet", &s.text_length);
    char *at = (char *)s.text, *more = read_file(folder, ".more", &size), *rest = more;
    unsigned long long numbers[18];
    for (int i = 0; i < 18; i++) numbers[i] = strtoull(at, &at, 10);
    memcpy(&s.h, numbers, sizeof s.h);
    header h = s.h;
    size_t d = h.d, pairs = h.r * (h.r + 1) / 2, function = (pairs + h.r * h.n) * d;
    size_t t = h.r * h.t1 * h.kappa * d, g = pairs * h.t2 * d, hd = pairs * h.t1 * d;
    s.a_matrix = next_list(&at, h.kappa * h.n * d);
    s.b_matrix = next_list(&at, h.kappa1 * t);
    s.c_matrix = next_list(&at, h.kappa1 * g);
    s.d_matrix = next_list(&at, h.kappa2 * hd);
    s.whole = next_list(&at, h.k * (function + d));
    s.constant_terms = next_list(&at, h.l * (function + 1));
    s.u1 = next_list(&at, h.kappa1 * d);
    s.projections = next_list(&at, h.w * h.r * h.n * d);
    s.p = next_list(&at, h.w);
    s.psi = next_list(&at, 5 * h.l);
    s.omega = next_list(&at, 5 * h.w);
    s.second_b = next_list(&at, 5 * d);
    s.alpha = next_list(&at, h.k * d);
    s.delta = next_list(&at, 5 * d);
    s.u2 = next_list(&at, h.kappa2 * d);
    s.c = next_list(&at, h.r * d);
    s.opening = next_list(&at, 2 * h.n * d + t + g + hd);
    s.z = (list){s.opening.at, 2 * h.n * d};
    s.t = (list){s.z.at + s.z.length, t};
    s.g = (list){s.t.at + t, g};
    s.hd = (list){s.g.at + g, hd};
    size_t parts = 2 * h.nu + h.mu, m = (t + g + hd) / d;
    size_t z_rank = (h.n + h.nu - 1) / h.nu, rest_rank = (m + h.mu - 1) / h.mu, rank = z_rank > rest_rank ? z_rank : rest_rank;
    s.witness = next_list(&rest, h.r * h.n * d);
    s.places = next_list(&rest, 2 * parts);
    s.next = next_list(&rest, (h.kappa + h.kappa1 + h.kappa2 + 3) * (parts * (parts + 1) / 2 + parts * rank + 1) * d);
    free(more);
    return s;
}

static lizkarg_sizes sizes_of(const stored *s) {
    header h = s->h;
    return (lizkarg_sizes){.d = h.d, .n = h.n, .r = h.r, .k = h.k, .l = h.l, .w = h.w, .kappa = h.kappa, .kappa1 = h.kappa1,
        .kappa2 = h.kappa2, .b = h.b, .b1 = h.b1, .b2 = h.b2, .t1 = h.t1, .t2 = h.t2, .bound = h.bound, .target = h.target};
}

/* ---- the calls */

/* a list of the case; those that the verifier and the next instance both take, in order */
#define OF(x) LIST(s->x)
#define SHARED OF(a_matrix), OF(b_matrix), OF(c_matrix), OF(d_matrix), OF(whole), OF(constant_terms), OF(u1), OF(projections), OF(p), \
    OF(psi), OF(omega), OF(second_b), OF(alpha), OF(delta), OF(u2), OF(c)

static void messages(const stored *s) {
    header h = s->h;
    lizkarg_shape shape = {.d = h.d, .n = h.n, .r = h.r};
    lizkarg_commit_sizes first = {.d = h.d, .n = h.n, .r = h.r, .kappa = h.kappa, .kappa1 = h.kappa1, .b1 = h.b1, .b2 = h.b2, .t1 = h.t1, .t2 = h.t2};
    lizkarg_garbage_sizes fourth = {.d = h.d, .n = h.n, .r = h.r, .k = h.k, .l = h.l, .w = h.w, .kappa2 = h.kappa2, .b1 = h.b1, .t1 = h.t1};
    list t = blank(s->t.length), g = blank(s->g.length), u1 = blank(s->u1.length), p = blank(s->p.length);
    list second_b = blank(s->second_b.length), hd = blank(s->hd.length), u2 = blank(s->u2.length), z = blank(s->z.length);
    ANSWER(lizkarg_commit(first, OF(a_matrix), OF(b_matrix), OF(c_matrix), OF(witness), LIST(t), LIST(g), LIST(u1)), LIZKARG_WRITTEN, 0);
    WRITTEN(t, s->t);
    WRITTEN(g, s->g);
    WRITTEN(u1, s->u1);
    ANSWER(lizkarg_project(shape, h.w, OF(projections), OF(witness), LIST(p)), LIZKARG_WRITTEN, 0);
    WRITTEN(p, s->p);
    ANSWER(lizkarg_aggregate(shape, h.l, h.w, OF(constant_terms), OF(projections), OF(psi), OF(omega), OF(witness), LIST(second_b)),
        LIZKARG_WRITTEN, 0);
    WRITTEN(second_b, s->second_b);
    ANSWER(lizkarg_commit_garbage(fourth, OF(whole), OF(constant_terms), OF(projections), OF(psi), OF(omega), OF(alpha), OF(delta),
        OF(d_matrix), OF(witness), LIST(hd), LIST(u2)), LIZKARG_WRITTEN, 0);
    WRITTEN(hd, s->hd);
    WRITTEN(u2, s->u2);
    ANSWER(lizkarg_amortize(shape, h.b, OF(c), OF(witness), LIST(z)), LIZKARG_WRITTEN, 0);
    WRITTEN(z, s->z);
}

static void refused_messages(const stored *s) {
    header h = s->h;
    lizkarg_shape shape = {.d = h.d, .n = h.n, .r = h.r};
    list p = blank(s->p.length + 1), z = blank(s->z.length), none = {NULL, 0};
    ANSWER(lizkarg_project(shape, h.w, OF(projections), OF(witness), LIST(p)), LIZKARG_REFUSED, 7);
    UNTOUCHED(p);
    ANSWER(lizkarg_amortize(shape, 1, OF(c), OF(witness), LIST(z)), LIZKARG_REFUSED, 4);
    ANSWER(lizkarg_amortize(shape, h.b, LIST(none), LIST(none), LIST(none)), LIZKARG_REFUSED, 7);
    ANSWER(lizkarg_amortize((lizkarg_shape){.d = 3, .n = h.n, .r = h.r}, h.b, LIST(none), LIST(none), LIST(none)), LIZKARG_REFUSED, 1);
    UNTOUCHED(z);
}

static lizkarg_answer verify(const stored *s, lizkarg_sizes sizes) { return lizkarg_verify(sizes, SHARED, OF(opening)); }

static void verdicts(const stored *s) {
    lizkarg_sizes sizes = sizes_of(s), other = sizes;
    /* the stored target is the squared length of all digits: margins on both sides of 8, 16 and 32 bits, and the widest */
    static const uint64_t margins[] = {1, 7, 255, 256, 65535, 65536, 4294967295, 4294967296};
    ANSWER(verify(s, sizes), LIZKARG_ACCEPTED, 0);
    for (size_t i = 0; i < sizeof margins / sizeof *margins; i++) {
        other.target = sizes.target + margins[i];
        ANSWER(verify(s, other), LIZKARG_ACCEPTED, margins[i]);
    }
    other.target = 999999999999999;
    ANSWER(verify(s, other), LIZKARG_ACCEPTED, 999999999999999 - sizes.target);
    other.target = sizes.target - 1;
    ANSWER(verify(s, other), LIZKARG_FAILED, 9);
    other = sizes, other.bound = sizes.bound - 1;
    if (s->h.w) ANSWER(verify(s, other), LIZKARG_FAILED, 1); else ANSWER(verify(s, other), LIZKARG_REFUSED, 6);
    other = sizes, other.b2 = 1;
    ANSWER(verify(s, other), LIZKARG_REFUSED, 4);
    /* one number more in a list, and the first check that it breaks */
    const list *lists[] = {&s->second_b, &s->u1, &s->u2};
    for (int i = 0; i < 3; i++) {
        lists[i]->at[0]++;
        ANSWER(verify(s, sizes), LIZKARG_FAILED, 2 + i);
        lists[i]->at[0]--;
    }
}

static lizkarg_answer next_instance(const stored *s, lizkarg_sizes sizes, size_t nu, size_t mu, list out) {
    return lizkarg_next_instance(sizes, nu, mu, SHARED, LIST(out));
}

static void next(const stored *s) {
    header h = s->h;
    list out = blank(s->next.length), other = blank(s->next.length), none = {NULL, 0};
    ANSWER(next_instance(s, sizes_of(s), h.nu, h.mu, out), LIZKARG_WRITTEN, 0);
    WRITTEN(out, s->next);
    s->second_b.at[0]++;
    ANSWER(next_instance(s, sizes_of(s), h.nu, h.mu, other), LIZKARG_FAILED, 2);
    s->second_b.at[0]--;
    ANSWER(next_instance(s, sizes_of(s), 8, 1, other), LIZKARG_REFUSED, 5);
    ANSWER(next_instance(s, sizes_of(s), h.nu, h.mu, none), LIZKARG_REFUSED, 7);
    UNTOUCHED(other);
    lizkarg_part_sizes cut = {.d = h.d, .n = h.n, .r = h.r, .kappa = h.kappa, .t1 = h.t1, .t2 = h.t2, .nu = h.nu, .mu = h.mu};
    size_t parts = 2 * h.nu + h.mu;
    for (size_t i = 1; i <= parts; i++) {
        lizkarg_part part = lizkarg_next_part(cut, i, OF(opening));
        HOLD(part.start == (size_t)s->places.at[2 * i - 2] && part.length == (size_t)s->places.at[2 * i - 1]);
        HOLD(lizkarg_next_part_refusal(cut, i, OF(opening)) == 0);
    }
    lizkarg_part past = lizkarg_next_part(cut, parts + 1, OF(opening)), empty = lizkarg_next_part(cut, parts, LIST(none));
    HOLD(past.start == 0 && past.length == 0 && lizkarg_next_part_refusal(cut, parts + 1, OF(opening)) == 2);
    HOLD(empty.start == 0 && empty.length == 0 && lizkarg_next_part_refusal(cut, parts, LIST(none)) == 7);
}

static void sheets(const stored *s) {
    size_t count = lizkarg_sheet_numbers(s->text, s->text_length);
    list numbers = blank(count), longer = blank(count + 1), shorter = {longer.at, count - 1}, none = {NULL, 0};
    HOLD(lizkarg_sheet_numbers(NULL, 0) == 0);
    ANSWER(lizkarg_judge_sheet(s->text, s->text_length), LIZKARG_ACCEPTED, 0);
    ANSWER(lizkarg_judge_sheet(s->text, s->text_length - 1), LIZKARG_REFUSED, 12);
    ANSWER(lizkarg_judge_sheet(NULL, 0), LIZKARG_REFUSED, 12);
    lizkarg_sheet broken = lizkarg_read_sheet(NULL, 0, LIST(none)), full = lizkarg_read_sheet(s->text, s->text_length, LIST(none));
    HOLD(broken.kind == LIZKARG_REFUSED && broken.number == 12 && broken.d == 0 && broken.target == 0);
    HOLD(full.kind == LIZKARG_REFUSED && full.number == 7 && full.d == 0 && full.target == 0);
    lizkarg_sheet less = lizkarg_read_sheet(s->text, s->text_length, LIST(shorter)), more = lizkarg_read_sheet(s->text, s->text_length, LIST(longer));
    HOLD(less.kind == LIZKARG_REFUSED && less.number == 7 && more.kind == LIZKARG_REFUSED && more.number == 7 && is_blank(longer));
    lizkarg_sheet sheet = lizkarg_read_sheet(s->text, s->text_length, LIST(numbers));
    header found = {sheet.d, sheet.n, sheet.r, sheet.k, sheet.l, sheet.w, sheet.kappa, sheet.kappa1, sheet.kappa2, sheet.b, sheet.b1, sheet.b2,
        sheet.t1, sheet.t2, sheet.nu, sheet.mu, sheet.bound, sheet.target};
    HOLD(sheet.kind == LIZKARG_WRITTEN && sheet.number == 0 && !memcmp(&found, &s->h, sizeof found));
    const list *lists[] = {&s->a_matrix, &s->b_matrix, &s->c_matrix, &s->d_matrix, &s->whole, &s->constant_terms, &s->u1, &s->projections,
        &s->p, &s->psi, &s->omega, &s->second_b, &s->alpha, &s->delta, &s->u2, &s->c, &s->opening};
    list rest = numbers;
    for (int i = 0; i < 17; i++) {
        HOLD(equal((list){rest.at, lists[i]->length}, *lists[i]));
        rest.at += lists[i]->length, rest.length -= lists[i]->length;
    }
    HOLD(rest.length == 0);
    uint8_t *text = room(s->text_length, 1);
    lizkarg_text written = lizkarg_write_sheet(sizes_of(s), s->h.nu, s->h.mu, LIST(numbers), text, s->text_length);
    HOLD(written.kind == LIZKARG_WRITTEN && written.number == 0 && written.length == s->text_length && !memcmp(text, s->text, s->text_length));
    HOLD(lizkarg_sheet_bytes(sizes_of(s), s->h.nu, s->h.mu) == s->text_length);
    free(numbers.at), free(longer.at), free(text);
}

/* ---- z in one digit */

/* The case with z in one digit: NAME.one. */
static void one_digit(const char *folder, const stored *two) {
    stored x = *two, *s = &x;
    header h = x.h;
    size_t size, short_z = h.n * h.d, parts = h.nu + h.mu, m = (x.t.length + x.g.length + x.hd.length) / h.d;
    size_t z_rank = (h.n + h.nu - 1) / h.nu, rest_rank = (m + h.mu - 1) / h.mu, rank = z_rank > rest_rank ? z_rank : rest_rank;
    char *text = read_file(folder, ".one", &size), *at = text;
    lizkarg_sizes sizes = sizes_of(s), other;
    lizkarg_shape shape = {.d = h.d, .n = h.n, .r = h.r};
    sizes.target = strtoull(at, &at, 10), sizes.one_digit = 1;
    x.z = next_list(&at, short_z);
    x.places = next_list(&at, 2 * parts);
    x.next = next_list(&at, (h.kappa + h.kappa1 + h.kappa2 + 3) * (parts * (parts + 1) / 2 + parts * rank + 1) * h.d);
    x.opening = filled(two->opening.length - short_z, 0);
    memcpy(x.opening.at, x.z.at, short_z * sizeof(int32_t));
    memcpy(x.opening.at + short_z, two->t.at, (x.opening.length - short_z) * sizeof(int32_t));

    list z = blank(short_z), wide = blank(2 * short_z), none = {NULL, 0}, out = blank(x.next.length), again = blank(x.next.length);
    ANSWER(lizkarg_amortize_one_digit(shape, OF(c), OF(witness), LIST(z)), LIZKARG_WRITTEN, 0);
    WRITTEN(z, s->z);
    ANSWER(lizkarg_amortize_one_digit(shape, OF(c), OF(witness), LIST(wide)), LIZKARG_REFUSED, 7);
    ANSWER(lizkarg_amortize_one_digit(shape, OF(c), OF(witness), LIST(none)), LIZKARG_REFUSED, 7);
    ANSWER(lizkarg_amortize_one_digit((lizkarg_shape){.d = 3, .n = h.n, .r = h.r}, LIST(none), LIST(none), LIST(none)), LIZKARG_REFUSED, 1);
    UNTOUCHED(wide);

    /* any value but 0 is one digit; no b is looked at */
    static const uint8_t flags[] = {1, 2, 128, 255};
    static const size_t bases[] = {0, 1, 65537, (size_t)-1};
    for (int i = 0; i < 4; i++) {
        other = sizes, other.one_digit = flags[i], other.b = bases[i];
        ANSWER(verify(s, other), LIZKARG_ACCEPTED, 0);
        other.target += 7;
        ANSWER(verify(s, other), LIZKARG_ACCEPTED, 7);
        other.target = sizes.target - 1;
        ANSWER(verify(s, other), LIZKARG_FAILED, 9);
    }
    ANSWER(verify(two, sizes), LIZKARG_REFUSED, 7);
    other = sizes, other.one_digit = 0;
    ANSWER(verify(s, other), LIZKARG_REFUSED, 7);
    other = sizes, other.b1 = 1;
    ANSWER(verify(s, other), LIZKARG_REFUSED, 4);
    x.opening.at[0]++;
    ANSWER(verify(s, sizes), LIZKARG_FAILED, 5);
    x.opening.at[0]--;

    ANSWER(next_instance(s, sizes, h.nu, h.mu, out), LIZKARG_WRITTEN, 0);
    WRITTEN(out, s->next);
    ANSWER(next_instance(s, sizes, 16, 1, again), LIZKARG_REFUSED, 5);
    ANSWER(next_instance(s, sizes, 9, 7, none), LIZKARG_REFUSED, 7);
    other = sizes, other.one_digit = 0;
    ANSWER(next_instance(s, other, 9, 7, none), LIZKARG_REFUSED, 5);
    ANSWER(next_instance(s, other, h.nu, h.mu, again), LIZKARG_REFUSED, 7);
    UNTOUCHED(again);

    lizkarg_part_sizes cut = {.d = h.d, .n = h.n, .r = h.r, .kappa = h.kappa, .t1 = h.t1, .t2 = h.t2, .nu = h.nu, .mu = h.mu, .one_digit = 3};
    for (size_t i = 1; i <= parts; i++) {
        lizkarg_part part = lizkarg_next_part(cut, i, OF(opening));
        HOLD(part.start == (size_t)s->places.at[2 * i - 2] && part.length == (size_t)s->places.at[2 * i - 1]);
        HOLD(lizkarg_next_part_refusal(cut, i, OF(opening)) == 0);
    }
    HOLD(lizkarg_next_part_refusal(cut, parts + 1, OF(opening)) == 2 && lizkarg_next_part_refusal(cut, 1, LIST(two->opening)) == 7);
    cut.nu = 8, cut.mu = 1;
    HOLD(lizkarg_next_part_refusal(cut, 9, OF(opening)) == 0 && lizkarg_next_part_refusal(cut, 10, OF(opening)) == 2);
    cut.nu = 16;
    HOLD(lizkarg_next_part_refusal(cut, 17, OF(opening)) == 5 && lizkarg_next_part_refusal(cut, 18, OF(opening)) == 2);

    /* a sheet has two z digits, whatever one_digit is */
    other = sizes_of(two);
    size_t bytes = lizkarg_sheet_bytes(other, h.nu, h.mu);
    other.one_digit = 1;
    HOLD(lizkarg_sheet_bytes(other, h.nu, h.mu) == bytes);
    other.b = 0;
    HOLD(lizkarg_sheet_bytes(other, h.nu, h.mu) == 0);
    free(text), free(x.z.at), free(x.places.at), free(x.next.at), free(x.opening.at);
}

/* ---- challenges */

/* n = 1, r = 2, bases 4, all other sizes the least: the elements of each list of a sheet, in its order, and of the next instance. */
static const size_t ELEMENTS[17] = {1, 4, 6, 6, 0, 0, 1, 0, 0, 0, 0, 5, 0, 5, 1, 2, 18};
enum { ALL_ELEMENTS = 49, NEXT_ELEMENTS = 330, CHALLENGES = 15 };

/* The sheet of these sizes and numbers; every line has d fields. */
static uint8_t *sheet_text(lizkarg_sizes z, list numbers, size_t size) {
    uint64_t header[] = {z.d, z.n, z.r, z.k, z.l, z.w, z.kappa, z.kappa1, z.kappa2, z.b, z.b1, z.b2, z.t1, z.t2, 1, 1, z.bound, z.target};
    char *text = room(size + 1, 1), *at = text;
    for (int i = 0; i < 18; i++) at += sprintf(at, "%16llu", (unsigned long long)header[i]);
    *at++ = '\n';
    for (size_t i = 1; i <= numbers.length; i++) at += sprintf(at, i % z.d ? "%16ld" : "%16ld\n", (long)numbers.at[i - 1]);
    HOLD((size_t)(at - text) == size);
    return (uint8_t *)text;
}

/* c_1 and c_2 of degree d through every call that takes challenges, all other numbers zero: they are taken, or each call refuses them by 10. */
static void through(size_t d, const int32_t *c, int taken) {
    stored x = {0}, *s = &x;
    list numbers = filled(ALL_ELEMENTS * d, 0), rest = numbers, witness = filled(2 * d, 0), z = blank(2 * d), next = blank(NEXT_ELEMENTS * d);
    list *lists[] = {&x.a_matrix, &x.b_matrix, &x.c_matrix, &x.d_matrix, &x.whole, &x.constant_terms, &x.u1, &x.projections, &x.p, &x.psi, &x.omega,
        &x.second_b, &x.alpha, &x.delta, &x.u2, &x.c, &x.opening};
    for (int i = 0; i < 17; i++) *lists[i] = (list){rest.at, ELEMENTS[i] * d}, rest.at += ELEMENTS[i] * d;
    memcpy(x.c.at, c, 2 * d * sizeof *c);
    lizkarg_sizes sizes = {.d = d, .n = 1, .r = 2, .kappa = 1, .kappa1 = 1, .kappa2 = 1, .b = 4, .b1 = 4, .b2 = 4, .t1 = 2, .t2 = 2};
    size_t size = lizkarg_sheet_bytes(sizes, 1, 1);
    uint8_t *text = sheet_text(sizes, numbers, size), *again = room(size, 1), *untouched = room(size, 1);
    int kind = taken ? LIZKARG_WRITTEN : LIZKARG_REFUSED, judged = taken ? LIZKARG_ACCEPTED : LIZKARG_REFUSED;
    uint64_t number = taken ? 0 : 10;
    ANSWER(lizkarg_amortize((lizkarg_shape){.d = d, .n = 1, .r = 2}, 4, OF(c), LIST(witness), LIST(z)), kind, number);
    ANSWER(verify(s, sizes), judged, number);
    ANSWER(next_instance(s, sizes, 1, 1, next), kind, number);
    ANSWER(lizkarg_judge_sheet(text, size), judged, number);
    list found = blank(numbers.length);
    lizkarg_sheet read = lizkarg_read_sheet(text, size, LIST(found));
    HOLD(read.kind == kind && read.number == number && (taken ? equal(found, numbers) : is_blank(found)));
    lizkarg_text written = lizkarg_write_sheet(sizes, 1, 1, LIST(numbers), again, size);
    HOLD(written.kind == kind && written.number == number && !memcmp(again, taken ? text : untouched, size));
    HOLD(is_blank(z) == !taken && is_blank(next) == !taken);
    free(numbers.at), free(witness.at), free(z.at), free(next.at), free(found.at), free(text), free(again), free(untouched);
}

/* So many coefficients 2 or -2, then 1 or -1, then 0. */
static void counted(int32_t *c, size_t d, size_t ones, size_t twos) {
    for (size_t i = 0; i < d; i++) c[i] = (i < twos ? 2 : i < twos + ones) * (i % 2 ? -1 : 1);
}

/* At degree 64 by their counts, at degree 32 by their squared length; a wrong one as the first and as the last. */
static void challenges(void) {
    static const struct { size_t d, ones, twos; int taken; } sides[CHALLENGES] = {
        {64, 31, 10, 1}, {64, 30, 10, 0}, {64, 32, 10, 0}, {64, 31, 9, 0}, {64, 31, 11, 0}, {64, 32, 9, 0}, {64, 30, 11, 0}, {64, 35, 9, 0},
        {64, 27, 11, 0}, {64, 19, 13, 0}, {64, 3, 17, 0}, {64, 0, 0, 0}, {32, 3, 17, 1}, {32, 0, 18, 0}, {32, 0, 0, 1}};
    int32_t c[128];
    name = "challenges";
    for (int i = 0; i < CHALLENGES; i++)
        for (int part = 0; part < 2; part++) {
            size_t d = sides[i].d;
            counted(c, d, 31 * (d == 64), 10), counted(c + d, d, 31 * (d == 64), 10);
            counted(c + part * d, d, sides[i].ones, sides[i].twos);
            through(d, c, sides[i].taken);
        }
    counted(c, 64, 31, 10), counted(c + 64, 64, 31, 10);
    c[64] = 3;
    through(64, c, 0);
}

/* ---- low digits */

/* One number of the opening, all others and all other lists zero: the verifier and the judge refuse it by 15, or neither does; the next instance, the reader
 * and the writer take it. */
static void opened(lizkarg_sizes sizes, size_t place, int32_t number, int wide) {
    stored x = {0}, *s = &x;
    size_t d = sizes.d;
    list numbers = filled(ALL_ELEMENTS * d, 0), rest = numbers, next = blank(NEXT_ELEMENTS * d), found = blank(numbers.length);
    list *lists[] = {&x.a_matrix, &x.b_matrix, &x.c_matrix, &x.d_matrix, &x.whole, &x.constant_terms, &x.u1, &x.projections, &x.p, &x.psi, &x.omega,
        &x.second_b, &x.alpha, &x.delta, &x.u2, &x.c, &x.opening};
    for (int i = 0; i < 17; i++) *lists[i] = (list){rest.at, ELEMENTS[i] * d}, rest.at += ELEMENTS[i] * d;
    x.opening.at[place] = number;
    size_t size = lizkarg_sheet_bytes(sizes, 1, 1);
    uint8_t *text = sheet_text(sizes, numbers, size), *again = room(size, 1);
    lizkarg_answer verdict = verify(s, sizes), judged = lizkarg_judge_sheet(text, size);
    HOLD(wide ? verdict.kind == LIZKARG_REFUSED && verdict.number == 15 : verdict.kind == LIZKARG_FAILED);
    HOLD(judged.kind == verdict.kind && judged.number == verdict.number);
    ANSWER(next_instance(s, sizes, 1, 1, next), LIZKARG_WRITTEN, 0);
    lizkarg_sheet read = lizkarg_read_sheet(text, size, LIST(found));
    HOLD(read.kind == LIZKARG_WRITTEN && read.number == 0 && equal(found, numbers));
    lizkarg_text written = lizkarg_write_sheet(sizes, 1, 1, LIST(numbers), again, size);
    HOLD(written.kind == LIZKARG_WRITTEN && written.number == 0 && !memcmp(again, text, size));
    /* a lower row beside it */
    x.c.at[0] = 3;
    ANSWER(verify(s, sizes), LIZKARG_REFUSED, 10);
    free(numbers.at), free(next.at), free(found.at), free(text), free(again);
}

/* Each number of the opening on both sides of half its base, and at the end of the range. A value has two digits of one element each, so that the elements with
 * an even number hold low digits: of z, then two parts of t, then three pairs of g and of h. */
static void digits(void) {
    static const size_t bases[][3] = {{3, 4, 65535}, {4, 65535, 3}, {65536, 5, 2}};
    name = "low digits";
    for (int i = 0; i < 3; i++) {
        size_t b = bases[i][0], b1 = bases[i][1], b2 = bases[i][2];
        lizkarg_sizes sizes = {.d = 2, .n = 1, .r = 2, .kappa = 1, .kappa1 = 1, .kappa2 = 1, .b = b, .b1 = b1, .b2 = b2, .t1 = 2, .t2 = 2};
        for (size_t place = 0; place < ELEMENTS[16] * 2; place++) {
            size_t e = place / 2;
            int low = e % 2 == 0;
            int32_t half = (int32_t)((e < 2 ? b : e < 6 ? b1 : e < 12 ? b2 : b1) / 2), sizes_of_x[] = {half, half + 1, 1 << 30, 2147483598};
            for (int k = 0; k < 4; k++)
                for (int sign = -1; sign <= 1; sign += 2) opened(sizes, place, sign * sizes_of_x[k], low && k > 0);
        }
    }
}

static lizkarg_element element(int32_t zeroth, int32_t first, int32_t second) { return (lizkarg_element){{zeroth, first, second}}; }

/* (1+2X)(3+4X) is -5+10X modulo X^2+1, 3+10X+8X^2 modulo X^4+1. */
static void products(void) {
    name = "products";
    lizkarg_element x = element(1, 2, 0), y = element(3, 4, 0), low = element(-5, 10, 0), high = element(3, 10, 8), zero = element(0, 0, 0);
    lizkarg_product two = lizkarg_multiply(2, x, y), four = lizkarg_multiply(4, x, y), no = lizkarg_multiply(3, x, y), past = lizkarg_multiply(2, x, high);
    HOLD(two.kind == LIZKARG_WRITTEN && two.number == 0 && !memcmp(&two.element, &low, sizeof low));
    HOLD(four.kind == LIZKARG_WRITTEN && four.number == 0 && !memcmp(&four.element, &high, sizeof high));
    HOLD(no.kind == LIZKARG_REFUSED && no.number == 1 && !memcmp(&no.element, &zero, sizeof zero));
    HOLD(past.kind == LIZKARG_REFUSED && past.number == 8 && !memcmp(&past.element, &zero, sizeof zero));
}

int main(int argc, char **argv) {
    const char *folder = argc > 1 ? argv[1] : ".", *names[] = {"alike", "apart", "empty"};
    for (int i = 0; i < 3; i++) {
        name = names[i];
        stored s = read_case(folder);
        messages(&s);
        refused_messages(&s);
        verdicts(&s);
        next(&s);
        sheets(&s);
        one_digit(folder, &s);
    }
    challenges();
    digits();
    products();
    return report();
}
