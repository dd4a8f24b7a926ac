/* The permutation by look-ups, which the test must report. */
#include <stddef.h>
#include <stdint.h>
void lookup_permute(uint8_t *s, size_t n);
