#ifndef CASE_H
#define CASE_H
#include "bench.h"
void make_case(lizkarg_sizes *s, lists *l, int32_t most); /* a witness of numbers up to most; sets the bounds, too */
void without_products(const lizkarg_sizes *s, lists *l);   /* no a_ij with i < j other than 0; the witness solves the statement again */
void free_case(lists *l);
#endif
