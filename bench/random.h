/* Random numbers and reports, the same for the same seed. */
#ifndef RANDOM_H
#define RANDOM_H

#include <stdbool.h>
#include <stdint.h>

#include "plain.h"

void random_seed(uint64_t seed);
/* From 0 to below n. */
uint32_t pick(uint32_t n);
bool one_in(uint32_t n);
/* Small, around a power of two, or any. */
uint64_t random_number(void);

/* What an engine could say to the work, or not. */
void random_report(Report *r, uint32_t work);

#endif
