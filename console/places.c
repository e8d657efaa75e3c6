/* Where the cut fell, from C: the place after each bit of the format's two worked codings and of bits that close a set or a
   rest; 0 once a plane is finished, or where there is none; and 0 beside a refusal. */
#include <stdio.h>
#include <stdlib.h>
#include <string.h>

#include "label.h"

enum { K = 3, L = 2, PLACES = LABEL_PLACES(K), BYTES = LABEL_MOST_BYTES(K, LABEL_MOST_PLANES), LENT = -77 };

static int32_t numbers[PLACES + 1];
static uint8_t bytes[BYTES];

static void fail(const char *what)
{
    printf("places: %s\n", what);
    exit(1);
}

/* The decoder's answer for the first b bits, once it is seen that it is 0 beside a refusal, which changes nothing. */
static struct label_settled decoded(uint32_t k, uint32_t levels, uint32_t n, size_t count, size_t lent, size_t b)
{
    struct label_settled settled;

    for (size_t i = 0; i <= PLACES; i++)
        numbers[i] = LENT;
    settled = label_decode(k, levels, n, numbers, count, bytes, lent, b);
    for (size_t i = settled.refusal ? 0 : PLACES; i <= PLACES; i++)
        if (numbers[i] != LENT)
            fail("a call changed what it may not");
    if (settled.refusal && (settled.unfinished || settled.read || settled.place))
        fail("a call refused, and answered more");
    return settled;
}

/* The place after each count of bits, a line for each plane; of a cut that ends one, the place is in the next. */
static void each(const char *what, uint32_t levels, uint32_t n, size_t bits)
{
    uint32_t plane = n + 1;

    printf("%s:", what);
    for (size_t b = 0; b <= bits; b++) {
        struct label_settled settled = decoded(K, levels, n, PLACES, sizeof bytes, b);

        if (settled.refusal || settled.place >= PLACES || settled.unfinished > plane)
            fail("a cut is refused, or goes back");
        if (settled.unfinished < plane)
            printf("\n  %u unfinished:", (unsigned)settled.unfinished);
        plane = settled.unfinished;
        printf(" %zu", settled.place);
    }
    printf("\n");
}

/* Of the coding of one number, the others 0. */
static void coding_of(const char *what, size_t place, int32_t number)
{
    struct label_written coded;

    memset(numbers, 0, sizeof numbers);
    numbers[place] = number;
    coded = label_code(K, L, numbers, PLACES, SIZE_MAX, bytes, sizeof bytes);
    if (coded.refusal)
        fail("a coding is refused");
    each(what, L, coded.n, coded.bits);
}

/* Of bits by hand. */
static void bits_of(const char *what, uint32_t levels, uint32_t n, const char *bits)
{
    memset(bytes, 0, sizeof bytes);
    for (size_t i = 0; bits[i]; i++)
        if (bits[i] == '1')
            bytes[i / 8] |= (uint8_t)(0x80 >> i % 8);
    each(what, levels, n, strlen(bits));
}

/* The list that the format's page has, by itself: it is looked at, and not only printed. */
static void page(void)
{
    static const size_t list[18] = {0, 0, 0, 1, 2, 3, 4, 0, 1, 2, 3, 4, 0, 1, 2, 3, 4, 0};
    static const uint8_t coding[3] = {0xC0, 0x08, 0x00};

    memcpy(bytes, coding, sizeof coding);
    for (size_t b = 0; b < 18; b++)
        if (decoded(K, L, 3, PLACES, sizeof coding, b).place != list[b])
            fail("not the places of the format's page");
    printf("the 18 cuts of C0 08 00: as on the format's page\n");
}

static void refused(const char *what, struct label_settled settled)
{
    printf("  %s: refusal %u, place %zu\n", what, (unsigned)settled.refusal, settled.place);
}

int main(void)
{
    page();
    coding_of("place 0 is 5", 0, 5);
    coding_of("place 15 is -3", 15, -3);
    coding_of("place 63 is 1", 63, 1);
    bits_of("the first set is closed, the rest opens, its sets are closed, the rest is", L, 1, "010000");
    bits_of("a 1 and no sign, then its sign", L, 1, "1011");
    bits_of("bits beyond the last plane", L, 2, "0000111111");
    bits_of("one level, no rest behind the last set", 1, 1, "01000");
    bits_of("no plane", L, 0, "111");
    printf("18 planes, of which there is no bit: place %zu\n", decoded(K, L, 18, PLACES, 0, 0).place);
    printf("with 9 of the bits of place 15 being -3, and\n");
    memcpy(bytes, "\x48\xC0\x40", 3);
    refused("all right", decoded(K, L, 2, PLACES, 3, 9));
    refused("k 2", decoded(2, L, 2, PLACES, 3, 9));
    refused("L 3", decoded(K, 3, 2, PLACES, 3, 9));
    refused("63 numbers", decoded(K, L, 2, PLACES - 1, 3, 9));
    refused("n 19", decoded(K, L, 19, PLACES, 3, 9));
    refused("one byte", decoded(K, L, 2, PLACES, 1, 9));
    return 0;
}
