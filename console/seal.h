/* For the C programs that spoil blocks: the checks of a block, so that a wrong field is all that is wrong with it. */
#include <stdint.h>

enum { CHECKS = 508 };

/* A and B of what now stands in bytes 0 to 507. */
static void seal(uint8_t *block)
{
    unsigned long a = 0, b = 0;

    for (int i = 0; i < CHECKS; i++) {
        a += block[i];
        b += (unsigned long)(i + 1) * block[i];
    }
    block[CHECKS] = (uint8_t)(a % 65521 / 256);
    block[CHECKS + 1] = (uint8_t)(a % 65521 % 256);
    block[CHECKS + 2] = (uint8_t)(b % 65521 / 256);
    block[CHECKS + 3] = (uint8_t)(b % 65521 % 256);
}
