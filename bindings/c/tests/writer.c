/* The writer of a sheet. Each sheet that is given and can be read is written again byte for byte, and so are other numbers in its place; in
 * buffers that are too short, exact and longer. Every set of faults is refused by the lowest of them, and then the buffer is as it was. Texts
 * that are longer than the program takes are written and read.
 *     writer SHEET .. */
#include "../lizkarg_proof.h"
#include "held.h"

/* Whether two sizes are equal; bytes after one_digit are no member. */
static int same_sizes(lizkarg_sizes x, lizkarg_sizes y) {
    return !memcmp(&x, &y, offsetof(lizkarg_sizes, one_digit)) && !x.one_digit == !y.one_digit;
}

enum { MARK = '#', PAST = 5, MOST = 65536, LARGEST = 2147483598 };
static const uint64_t LARGEST_BOUND = 999999999999999;

/* What the writer takes. */
typedef struct {
    lizkarg_sizes sizes;
    size_t nu, mu;
    lizkarg_list numbers;
} taken;

static lizkarg_text put(const taken *x, uint8_t *text, size_t length) {
    return lizkarg_write_sheet(x->sizes, x->nu, x->mu, x->numbers.numbers, x->numbers.length, text, length);
}

static size_t bytes(const taken *x) { return lizkarg_sheet_bytes(x->sizes, x->nu, x->mu); }

static int refused(lizkarg_text answer, uint64_t number) {
    return answer.kind == LIZKARG_REFUSED && answer.number == number && answer.length == 0;
}

/* ---- buffers */

/* A buffer with room for `length` bytes and some past them, each MARK. */
static uint8_t *marked(size_t length) { return memset(room(length + PAST, 1), MARK, length + PAST); }

/* Whether all bytes of such a buffer from `from` on are as they were. */
static int untouched(const uint8_t *buffer, size_t from, size_t length) {
    for (size_t i = from; i < length + PAST; i++)
        if (buffer[i] != MARK) return 0;
    return 1;
}

static void buffers(const taken *x, const uint8_t *text, size_t size) {
    uint8_t *buffer = marked(size);
    HOLD(bytes(x) == size);
    HOLD(refused(put(x, NULL, 0), 13) && refused(put(x, buffer, 0), 13) && refused(put(x, buffer, size - 1), 13) && untouched(buffer, 0, size));
    for (size_t length = size; length <= size + PAST; length += PAST) {
        lizkarg_text answer = put(x, buffer, length);
        HOLD(answer.kind == LIZKARG_WRITTEN && answer.number == 0 && answer.length == size);
        HOLD(!memcmp(buffer, text, size) && untouched(buffer, size, size));
        memset(buffer, MARK, size);
    }
    free(buffer);
}

/* ---- the text by printf */

static void line(char **at, const int32_t *numbers, size_t count) {
    for (size_t i = 0; i < count; i++) *at += sprintf(*at, "%16ld", (long)numbers[i]);
    *(*at)++ = '\n';
}

static void lines(char **at, lizkarg_list list, size_t width) {
    for (size_t i = 0; i < list.length; i += width) line(at, list.numbers + i, width);
}

static uint8_t *printed(const taken *x, size_t *size) {
    lizkarg_sizes s = x->sizes;
    lizkarg_proof p = lizkarg_proof_of(s, x->numbers);
    uint64_t header[] = {s.d, s.n, s.r, s.k, s.l, s.w, s.kappa, s.kappa1, s.kappa2, s.b, s.b1, s.b2, s.t1, s.t2, x->nu, x->mu, s.bound, s.target};
    lizkarg_list elements[] = {p.a_matrix, p.b_matrix, p.c_matrix, p.d_matrix, p.whole}, alone[] = {p.p, p.psi, p.omega};
    lizkarg_list rest[] = {p.second_b, p.alpha, p.delta, p.u2, p.c, p.opening};
    char *text = room(17 * (18 + x->numbers.length) + 1, 1), *at = text;
    for (int i = 0; i < 18; i++) at += sprintf(at, "%16llu", (unsigned long long)header[i]);
    *at++ = '\n';
    for (int i = 0; i < 5; i++) lines(&at, elements[i], s.d);
    for (size_t k = 0, size = lizkarg_function_length(s); k < s.l; k++) {
        lizkarg_list function = {p.constant_terms.numbers + k * (size + 1), size};
        lines(&at, function, s.d);
        line(&at, function.numbers + size, 1);
    }
    lines(&at, p.u1, s.d);
    lines(&at, p.projections, s.d);
    for (int i = 0; i < 3; i++) lines(&at, alone[i], 1);
    for (int i = 0; i < 6; i++) lines(&at, rest[i], s.d);
    *size = (size_t)(at - text);
    return (uint8_t *)text;
}

/* The text is that of the numbers, and they are those of the text. If it is not too long the program judges it, or refuses it by 15. */
static void same(const taken *x, const uint8_t *text, size_t size) {
    lizkarg_list numbers = {room(x->numbers.length, sizeof(int32_t)), x->numbers.length};
    HOLD(lizkarg_sheet_numbers(text, size) == numbers.length);
    lizkarg_sheet sheet = lizkarg_read_sheet(text, size, numbers.numbers, numbers.length);
    lizkarg_sizes sizes = lizkarg_sizes_of(sheet);
    HOLD(sheet.kind == LIZKARG_WRITTEN && sheet.nu == x->nu && sheet.mu == x->mu && same_sizes(sizes, x->sizes));
    HOLD(!memcmp(numbers.numbers, x->numbers.numbers, numbers.length * sizeof(int32_t)));
    lizkarg_answer judged = lizkarg_judge_sheet(text, size);
    HOLD(size > MOST ? judged.kind == LIZKARG_REFUSED && judged.number == 12 : judged.kind != LIZKARG_REFUSED || judged.number == 15);
    buffers(x, text, size);
    free(numbers.numbers);
}

/* ---- other numbers */

static uint64_t state = 1;

/* A number from -most to most, often one of the ends. */
static int32_t draw(int32_t most) {
    state ^= state << 13, state ^= state >> 7, state ^= state << 17;
    if (state % 8 < 2) return state % 8 ? most : -most;
    return (int32_t)((int64_t)((state >> 8) % (2 * (uint64_t)most + 1)) - most);
}

static void draw_list(lizkarg_list list, int32_t most) {
    for (size_t i = 0; i < list.length; i++) list.numbers[i] = draw(most);
}

/* Challenges: at degree 64, 31 coefficients 1 or -1 and 10 coefficients 2 or -2, at smaller degrees 0, 1 or -1. */
static void draw_challenges(lizkarg_list list, size_t d) {
    draw_list(list, 1);
    for (size_t at = 0; d == 64 && at < list.length; at += d) {
        int32_t *c = list.numbers + at;
        for (size_t i = 0; i < d; i++) c[i] = (i < 10 ? 2 : i < 41) * (draw(LARGEST) % 2 ? -1 : 1);
        for (size_t i = d - 1; i > 0; i--) {
            size_t other = (size_t)((int64_t)draw(LARGEST) + LARGEST) % (i + 1);
            int32_t kept = c[i];
            c[i] = c[other], c[other] = kept;
        }
    }
}

/* Numbers of these sizes that are not refused, up to the ends of their ranges, and of every width. */
static void drawn(taken x) {
    x.numbers.length = lizkarg_proof_length(x.sizes);
    x.numbers.numbers = room(x.numbers.length, sizeof(int32_t));
    x.sizes.target = LARGEST_BOUND;
    for (int round = 0; round < 3; round++) {
        size_t size;
        lizkarg_proof proof = lizkarg_proof_of(x.sizes, x.numbers);
        x.sizes.bound = round ? (uint64_t)draw(LARGEST) % 100 : LARGEST_BOUND;
        draw_list(x.numbers, LARGEST);
        draw_list(proof.projections, 1);
        draw_challenges(proof.c, x.sizes.d);
        for (int32_t i = 1, power = 1; i < 10; i++, power *= 10) {
            proof.opening.numbers[2 * i % proof.opening.length] = power - 1;
            proof.opening.numbers[(2 * i + 1) % proof.opening.length] = -power;
        }
        uint8_t *text = printed(&x, &size);
        same(&x, text, size);
        free(text);
    }
    free(x.numbers.numbers);
}

/* ---- refusals */

static const int rows[] = {1, 2, 3, 4, 5, 6, 7, 8, 9, 10, 13};
enum { ROWS = sizeof rows / sizeof *rows };

/* Puts a fault of that row into what the writer takes, whose numbers stand in the lists of the proof. */
static void spoil(taken *x, lizkarg_proof *proof, size_t *length, int row) {
    switch (row) {
    case 1: x->sizes.d = 3; break;
    case 2: x->sizes.r = 17; break;
    case 3: x->sizes.kappa1 = 0; break;
    case 4: x->sizes.b2 = 1; break;
    case 5: x->nu = 8, x->mu = 1; break;
    case 6: x->sizes.bound = LARGEST_BOUND + 1; break;
    case 7: x->numbers.length--; break;
    case 8: proof->a_matrix.numbers[0] = LARGEST + 1; break;
    case 9: proof->projections.numbers[0] = 2; break;
    case 10: proof->c.numbers[0] = 3; break;
    default: *length -= 1;
    }
}

/* Each set of rows: refused by the lowest. */
static void faults(const taken *x) {
    size_t size = bytes(x);
    uint8_t *buffer = marked(size);
    lizkarg_list copy = {room(x->numbers.length, sizeof(int32_t)), x->numbers.length};
    int wrong = 0;
    for (int set = 1; set < 1 << ROWS; set++) {
        taken y = *x;
        size_t length = size;
        int lowest = 0;
        y.numbers = copy;
        memcpy(copy.numbers, x->numbers.numbers, copy.length * sizeof(int32_t));
        lizkarg_proof proof = lizkarg_proof_of(x->sizes, copy);
        for (int i = ROWS - 1; i >= 0; i--)
            if (set >> i & 1 && (rows[i] != 9 || x->sizes.w)) spoil(&y, &proof, &length, lowest = rows[i]);
        if (lowest) wrong += !refused(put(&y, buffer, length), lowest);
    }
    HOLD(wrong == 0);
    HOLD(untouched(buffer, 0, size));
    free(buffer), free(copy.numbers);
}

/* Each size outside its limits. */
static void sizes_outside(const taken *x) {
    size_t size = bytes(x), huge = (size_t)-1;
    uint8_t *buffer = marked(size);
    taken y;
#define OUTSIDE(field, value, row) do { y = *x; y.field = (value); HOLD(bytes(&y) == 0 && refused(put(&y, buffer, size), row)); } while (0)
#define LIMITS(field, least, most, row) do { OUTSIDE(field, (least) - 1, row); OUTSIDE(field, (most) + 1, row); OUTSIDE(field, huge, row); } while (0)
    LIMITS(sizes.d, 2, 64, 1);
    OUTSIDE(sizes.d, 6, 1);
    LIMITS(sizes.n, 1, 256, 2);
    LIMITS(sizes.r, 1, 16, 2);
    OUTSIDE(sizes.k, 33, 2);
    OUTSIDE(sizes.l, 33, 2);
    OUTSIDE(sizes.w, 257, 2);
    LIMITS(sizes.kappa, 1, 8, 3);
    LIMITS(sizes.kappa1, 1, 8, 3);
    LIMITS(sizes.kappa2, 1, 8, 3);
    LIMITS(sizes.b, 2, 65536, 4);
    LIMITS(sizes.b1, 2, 65536, 4);
    LIMITS(sizes.b2, 2, 65536, 4);
    LIMITS(sizes.t1, 2, 8, 4);
    LIMITS(sizes.t2, 2, 8, 4);
    LIMITS(nu, 1, 7, 5);
    LIMITS(mu, 1, 14, 5);
    OUTSIDE(sizes.bound, LARGEST_BOUND + 1, 6);
    OUTSIDE(sizes.target, LARGEST_BOUND + 1, 6);
    OUTSIDE(sizes.target, (uint64_t)-1, 6);
    HOLD(untouched(buffer, 0, size));
    free(buffer);
}

/* A number at each place that is out of its range. */
static int wrong_places(const taken *x, lizkarg_list list, int32_t number, int row, uint8_t *buffer, size_t size) {
    int wrong = 0;
    for (size_t i = 0; i < list.length; i++) {
        int32_t kept = list.numbers[i];
        list.numbers[i] = number;
        wrong += !refused(put(x, buffer, size), row);
        list.numbers[i] = kept;
    }
    return wrong;
}

static void numbers_outside(const taken *x) {
    size_t size = bytes(x);
    uint8_t *buffer = marked(size);
    lizkarg_proof proof = lizkarg_proof_of(x->sizes, x->numbers);
    taken less = *x, more = *x, none = *x;
    HOLD(wrong_places(x, x->numbers, LARGEST + 1, 8, buffer, size) == 0);
    HOLD(wrong_places(x, x->numbers, -LARGEST - 1, 8, buffer, size) == 0);
    HOLD(wrong_places(x, proof.projections, 2, 9, buffer, size) == 0);
    HOLD(wrong_places(x, proof.c, -3, 10, buffer, size) == 0);
    less.numbers.length--;
    more.numbers.length++;
    none.numbers.numbers = NULL, none.numbers.length = 0;
    HOLD(refused(put(&less, buffer, size), 7) && refused(put(&more, buffer, size), 7) && refused(put(&none, buffer, size), 7));
    HOLD(untouched(buffer, 0, size));
    free(buffer);
}

/* ---- sheets */

static void sheet(void) {
    size_t size, again;
    uint8_t *text = (uint8_t *)read_text(name, &size);
    size_t count = lizkarg_sheet_numbers(text, size);
    taken x = {.numbers = {room(count + 1, sizeof(int32_t)), count}};
    lizkarg_sheet header = lizkarg_read_sheet(text, size, x.numbers.numbers, count);
    if (header.kind == LIZKARG_WRITTEN) {
        x.sizes = lizkarg_sizes_of(header), x.nu = header.nu, x.mu = header.mu;
        uint8_t *other = printed(&x, &again);
        HOLD(again == size && !memcmp(other, text, size));
        same(&x, text, size);
        drawn(x);
        faults(&x);
        sizes_outside(&x);
        numbers_outside(&x);
        free(other);
    }
    free(text), free(x.numbers.numbers);
}

/* Texts at the program's limit of 65536 bytes, just past it, and of more than a megabyte. */
static void long_texts(void) {
    name = "long texts";
    taken whole = {.sizes = {.d = 32, .n = 2, .r = 2, .k = 1, .l = 1, .w = 10, .kappa = 2, .kappa1 = 1, .kappa2 = 2, .b = 16, .b1 = 65536,
        .b2 = 65536, .t1 = 2, .t2 = 2}, .nu = 2, .mu = 12};
    HOLD(bytes(&whole) == MOST);
    drawn(whole);
    whole.sizes.kappa1 = 2;
    HOLD(bytes(&whole) > MOST && bytes(&whole) < MOST + 10000);
    drawn(whole);
    whole.sizes.n = 64, whole.sizes.r = 4;
    HOLD(bytes(&whole) > 1 << 20);
    drawn(whole);
}

int main(int argc, char **argv) {
    for (int i = 1; i < argc; i++) {
        name = argv[i];
        sheet();
    }
    long_texts();
    return report();
}
