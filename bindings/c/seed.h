/* What calls.c needs of seed.c. ./embed makes this name local, as all that pelgaisti.h doesn't declare. */
#ifndef SEED_H
#define SEED_H

#include <stdint.h>

uint64_t draw_seed(void);

#endif
