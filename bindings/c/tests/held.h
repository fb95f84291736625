/* What the test programs share: what is held and counted, room for numbers, the stored files. */
#ifndef HELD_H
#define HELD_H

#include <stdio.h>
#include <stdlib.h>
#include <string.h>

static const char *name;
static int failures, held;

static void hold(int right, const char *file, int line, const char *what) {
    held++;
    if (!right) {
        failures++;
        printf("%s: %s:%d: %s\n", name, file, line, what);
    }
}

#define HOLD(right) hold(right, __FILE__, __LINE__, #right)
#define ANSWER(answer, k, no) do { lizkarg_answer x = answer; hold(x.kind == (k) && x.number == (uint64_t)(no), __FILE__, __LINE__, #answer); } while (0)

/* Prints the count; the program's exit status. */
static int report(void) {
    printf("%d passed, %d failed\n", held - failures, failures);
    return failures != 0;
}

static void *room(size_t count, size_t size) {
    void *at = calloc(count, size);
    if (!at) exit(2);
    return at;
}

/* The text of a file of less than a megabyte. */
static inline char *read_text(const char *path, size_t *size) {
    FILE *file = fopen(path, "rb");
    if (!file) { perror(path); exit(2); }
    char *text = room(1 << 20, 1);
    *size = fread(text, 1, (1 << 20) - 1, file);
    fclose(file);
    return text;
}

/* The text of the file of the case `name` with this ending. */
static inline char *read_file(const char *folder, const char *ending, size_t *size) {
    char path[4096];
    snprintf(path, sizeof path, "%s/%s%s", folder, name, ending);
    return read_text(path, size);
}

#endif
