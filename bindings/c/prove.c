/* Example: the proof of docs/CLASS.md, made, verified and written down. Three slots with two readings each; the first readings add up to 3,
 * the second to 4. Prints the verdict, kind and number in 16 columns each: 0 and the margin, which is 0, since the target is the squared length
 * of all digits. Writes the sheet to the file that is named, if one is.
 *     cc -O2 bindings/c/prove.c target/staticlib/libcapi.a -o target/prove_c
 *     target/prove_c [FILE] */
#include "lizkarg_proof.h"
#include <stdio.h>
#include <stdlib.h>

/* Fills the list with these numbers, of which there is at least one, over and over. */
static void fill(lizkarg_list list, const int32_t *numbers, size_t count) {
    for (size_t i = 0; i < list.length; i++) list.numbers[i] = numbers[i % count];
}

#define FILL(list, ...) fill(list, (const int32_t[]){__VA_ARGS__}, sizeof (const int32_t[]){__VA_ARGS__} / sizeof(int32_t))

/* Ends the program if the message was refused. */
static void made(int message, lizkarg_answer answer) {
    if (answer.kind == LIZKARG_WRITTEN) return;
    fprintf(stderr, "message %d: refused by %llu\n", message, (unsigned long long)answer.number);
    exit(1);
}

/* Writes the sheet of these numbers to the file. nu and mu say how the next instance would cut the opening. */
static void write_sheet(const char *path, lizkarg_sizes sizes, lizkarg_list numbers) {
    size_t nu = 1, mu = 2, size = lizkarg_sheet_bytes(sizes, nu, mu);
    uint8_t *text = malloc(size);
    if (!text) exit(1);
    lizkarg_text sheet = lizkarg_write_sheet(sizes, nu, mu, numbers.numbers, numbers.length, text, size);
    if (sheet.kind != LIZKARG_WRITTEN) {
        fprintf(stderr, "sheet: refused by %llu\n", (unsigned long long)sheet.number);
        exit(1);
    }
    FILE *file = fopen(path, "wb");
    if (!file || fwrite(text, 1, sheet.length, file) != sheet.length || fclose(file)) {
        perror(path);
        exit(1);
    }
    free(text);
}

int main(int argc, char **argv) {
    /* the readings: 1 + 2X, X, 2 + X */
    static const int32_t readings[] = {1, 2, 0, 1, 2, 1};
    lizkarg_list witness = lizkarg_read_only(readings, 6);
    lizkarg_sizes sizes = {.d = 2, .n = 1, .r = 3, .l = 2, .w = 2, .kappa = 1, .kappa1 = 1, .kappa2 = 1, .b = 4, .b1 = 4, .b2 = 4,
        .t1 = 2, .t2 = 2, .bound = 11, .target = 101};

    lizkarg_list numbers = {NULL, lizkarg_proof_length(sizes)};
    numbers.numbers = calloc(numbers.length, sizeof *numbers.numbers);
    if (!numbers.numbers) return 1;
    lizkarg_proof proof = lizkarg_proof_of(sizes, numbers);

    /* the statement: matrices, and for each of two constraints six a_ij, three phi_i and b */
    FILL(proof.a_matrix, 1, 1);
    FILL(proof.b_matrix, 1, 0, 0, 1);
    FILL(proof.c_matrix, 0, 1, 1, 0);
    FILL(proof.d_matrix, 1, 0, 1, 1);
    FILL(proof.constant_terms, 0, 0, 0, 0, 0, 0, 0, 0, 0, 0, 0, 0, 1, 0, 1, 0, 1, 0, 3,
        0, 0, 0, 0, 0, 0, 0, 0, 0, 0, 0, 0, 0, -1, 0, -1, 0, -1, 4);

    /* the messages, and before each from the second on what is drawn for it */
    made(1, lizkarg_proof_commit(sizes, witness, &proof));
    FILL(proof.projections, 1, 0, -1, 0, 0, 1, 0, 1, 0, 0, -1, 0);
    made(2, lizkarg_proof_project(sizes, witness, &proof));
    FILL(proof.psi, 1, 0, 0, 1, 0, 0, 0, 0, 1, 1);
    FILL(proof.omega, 0, 0, 0, 0, 1, 0, 0, 1, 1, 0);
    made(3, lizkarg_proof_aggregate(sizes, witness, &proof));
    FILL(proof.delta, 2, 0, 0, 0, 0, 2, 0, 0, 2, 0);
    made(4, lizkarg_proof_commit_garbage(sizes, witness, &proof));
    FILL(proof.c, 1, 0, 0, 1, -1, 0);
    made(5, lizkarg_proof_amortize(sizes, witness, &proof));

    lizkarg_answer verdict = lizkarg_proof_verify(sizes, &proof);
    printf("%16llu%16llu\n", (unsigned long long)verdict.kind, (unsigned long long)verdict.number);
    if (argc > 1) write_sheet(argv[1], sizes, numbers);
    free(numbers.numbers);
    return 0;
}
