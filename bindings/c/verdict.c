/* Example: reads a sheet from standard input and prints the verdict as SPECIFICATION 10.7 says, kind and number in 16 columns each; where
 * it is accepted the number is the margin.
 *     cc -O2 bindings/c/verdict.c target/staticlib/libcapi.a -o target/verdict_c */
#include "lizkarg_proof.h"
#include <stdio.h>

enum { MOST = 65536 };

static uint8_t text[MOST + 1];
static int32_t numbers[MOST / 16];

int main(void) {
    size_t size = fread(text, 1, sizeof text, stdin);
    lizkarg_answer answer = {LIZKARG_REFUSED, 12};
    if (size <= MOST && !ferror(stdin)) {
        /* a header that gives more numbers than MOST bytes hold is over broken lines: 12, before 7 */
        size_t count = lizkarg_sheet_numbers(text, size);
        lizkarg_list list = {numbers, count < MOST / 16 ? count : MOST / 16};
        lizkarg_sheet sheet = lizkarg_read_sheet(text, size, list.numbers, list.length);
        answer = (lizkarg_answer){sheet.kind, sheet.number};
        if (sheet.kind == LIZKARG_WRITTEN) {
            lizkarg_sizes sizes = lizkarg_sizes_of(sheet);
            lizkarg_proof proof = lizkarg_proof_of(sizes, list);
            answer = lizkarg_proof_verify(sizes, &proof);
        }
    }
    printf("%16llu%16llu\n", (unsigned long long)answer.kind, (unsigned long long)answer.number);
    return 0;
}
