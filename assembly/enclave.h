/* What a C program has of the world outside: see start.s. */
#include <stdint.h>

uint64_t input(void);          /* call 2: the value of the next entering */
void output(uint64_t value);   /* call 1: an output of the report */
