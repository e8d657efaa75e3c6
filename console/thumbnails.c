/* Thumbnails in the call that makes them: the cases of the format's page, every k, L and r, and what is refused, in the
   order in which it is judged. A refused call leaves what it was lent as it was: that is looked at each time. */
#include <stdio.h>
#include <stdlib.h>
#include <string.h>

#include "label.h"

enum { MOST_K = 8, PLACES = LABEL_PLACES(MOST_K) + 1, GREY = 0x5A, NUMBER = -77 };

static int32_t numbers[PLACES], lent[PLACES], room[PLACES];
static uint8_t picture[PLACES];

static void fail(const char *what)
{
    printf("thumbnails: %s\n", what);
    exit(1);
}

/* The call, once it is seen that it left the numbers as they were, and so picture and room if it refused, else what
   lies behind the places lent. */
static uint32_t asked(uint32_t k, uint32_t levels, uint32_t r, size_t given, size_t greys, size_t work)
{
    size_t all = 1 + (given > greys ? given > work ? given : work : greys > work ? greys : work);
    uint32_t refusal;

    memcpy(lent, numbers, all * sizeof *lent);
    memset(picture, GREY, all);
    for (size_t i = 0; i < all; i++)
        room[i] = NUMBER;
    refusal = label_thumbnail(k, levels, r, numbers, given, picture, greys, room, work);
    if (memcmp(lent, numbers, all * sizeof *lent))
        fail("a call changed the numbers");
    for (size_t i = refusal ? 0 : greys; i < all; i++)
        if (picture[i] != GREY)
            fail("a call changed a picture that it may not");
    for (size_t i = refusal ? 0 : work; i < all; i++)
        if (room[i] != NUMBER)
            fail("a call changed a room that it may not");
    return refusal;
}

/* With the lengths that are right for k and r. */
static uint32_t fitting(uint32_t k, uint32_t levels, uint32_t r)
{
    return asked(k, levels, r, LABEL_PLACES(k), LABEL_PLACES(k - r), LABEL_PLACES(k - r));
}

/* A thumbnail of side 8's numbers, two levels: its rows, and its greys before they are set. */
static void show(uint32_t r)
{
    size_t side = (size_t)8 >> r;

    if (fitting(3, 2, r))
        fail("a thumbnail is refused");
    printf("  side %zu:", side);
    for (size_t i = 0; i < side * side; i++)
        printf("%s %d", i && i % side == 0 ? " /" : "", picture[i]);
    printf("\n    in Z order:");
    for (size_t i = 0; i < side * side; i++)
        printf(" %d", (int)room[i]);
    printf("\n");
}

/* Every k, L and r, and some that are none: refused by 1, 2 or 13, or taken. */
static void every(void)
{
    static const uint32_t any[] = {0, 1, 2, 3, 4, 5, 6, 7, 8, 9, 31, 32, 33, 64, UINT32_MAX};
    enum { ANY = sizeof any / sizeof *any };
    unsigned long counts[14] = {0};

    for (int i = 0; i < ANY; i++)
        for (int j = 0; j < ANY; j++)
            for (int h = 0; h < ANY; h++) {
                uint32_t k = any[i], levels = any[j], r = any[h], refusal;
                uint32_t wanted = k < 3 || k > 8 ? LABEL_BAD_SIDE
                    : levels < 1 || levels > LABEL_MOST_LEVELS(k) ? LABEL_BAD_LEVELS
                    : r < 1 || r > levels ? LABEL_BAD_HALVINGS : LABEL_OK;

                /* where it is to be refused no length is right, and a number is beyond the limit: 3 and 4 come later */
                numbers[0] = wanted ? INT32_MIN : LABEL_NUMBER_LIMIT;
                refusal = wanted ? asked(k, levels, r, 1, 2, 3) : fitting(k, levels, r);
                if (refusal != wanted)
                    fail("k, L or r is judged wrongly");
                counts[refusal]++;
            }
    numbers[0] = 0;
    printf("%d each of k, L and r: taken %lu; refused by 1 %lu, by 2 %lu, by 13 %lu\n", ANY, counts[LABEL_OK],
           counts[LABEL_BAD_SIDE], counts[LABEL_BAD_LEVELS], counts[LABEL_BAD_HALVINGS]);
}

/* Lengths from 0 to 70 at side 8, two levels, where a number is beyond the limit too: 3 comes before 4. */
static void lengths(uint32_t r)
{
    unsigned refused = 0;

    numbers[0] = INT32_MAX;
    for (size_t count = 0; count <= 70; count++) {
        size_t few = LABEL_PLACES(3 - r);

        if (asked(3, 2, r, count, few, few) != (count == 64 ? LABEL_BAD_NUMBER : LABEL_BAD_LENGTH)
            || asked(3, 2, r, 64, count, few) != (count == few ? LABEL_BAD_NUMBER : LABEL_BAD_LENGTH)
            || asked(3, 2, r, 64, few, count) != (count == few ? LABEL_BAD_NUMBER : LABEL_BAD_LENGTH))
            fail("a length is judged wrongly");
        refused += 3;
    }
    numbers[0] = 0;
    printf("r = %u: %u calls refused, by 3, or by 4 where the lengths are right\n", (unsigned)r, refused);
}

/* A number beyond the limit in each place: 4 where it is one of the first, and not looked at behind them. */
static void beyond(uint32_t r)
{
    static const int32_t limits[] = {LABEL_NUMBER_LIMIT, -LABEL_NUMBER_LIMIT};
    static const int32_t wrong[] = {LABEL_NUMBER_LIMIT + 1, -LABEL_NUMBER_LIMIT - 1, INT32_MAX, INT32_MIN};
    size_t first = 0;

    for (size_t place = 0; place < 64; place++) {
        uint32_t refusal = LABEL_OK;

        for (size_t i = 0; i < sizeof limits / sizeof *limits; i++) {
            numbers[place] = limits[i];
            if (fitting(3, 2, r))
                fail("a number within the limit is refused");
        }
        for (size_t i = 0; i < sizeof wrong / sizeof *wrong; i++) {
            numbers[place] = wrong[i];
            refusal = fitting(3, 2, r);
            if (refusal != (place < LABEL_PLACES(3 - r) ? LABEL_BAD_NUMBER : LABEL_OK))
                fail("a number is judged wrongly");
        }
        numbers[place] = 0;
        first += refusal == LABEL_BAD_NUMBER;
    }
    printf("r = %u: a number beyond the limit is refused by 4 in the first %zu of 64 places\n", (unsigned)r, first);
}

int main(void)
{
    printf("the numbers 5, 0, 0, .. 0, side 8, two levels:\n");
    numbers[0] = 5;
    show(1);
    show(2);
    printf("the numbers 5, -200, 200, 0, .. 0:\n");
    numbers[1] = -200;
    numbers[2] = 200;
    show(2);

    memset(numbers, 0, sizeof numbers);
    printf("judged, and where it is refused nothing is changed:\n");
    every();
    for (uint32_t r = 1; r <= 2; r++)
        lengths(r);
    for (uint32_t r = 1; r <= 2; r++)
        beyond(r);
    return 0;
}
