/* Softer pictures in the call that makes them: cases worked by hand, every p and place against the inverse of numbers that
   are moved here, and what is refused, in the order in which it is judged. The numbers lent are never changed, and a refused
   call leaves picture and room as they were: that is looked at each time. */
#include <stdio.h>
#include <stdlib.h>
#include <string.h>

#include "label.h"

enum { MOST_K = 8, PLACES = LABEL_PLACES(MOST_K) + 1, GREY = 0x5A, NUMBER = -77, SIDE = 8, S2 = SIDE * SIDE };

static int32_t numbers[PLACES], lent[PLACES], room[PLACES], moved[PLACES], plain_room[PLACES];
static uint8_t picture[PLACES], plain[PLACES];

static void fail(const char *what)
{
    printf("softer: %s\n", what);
    exit(1);
}

/* The call, once it is seen that it left the numbers as they were, and so picture and room if it refused, else what
   lies behind the places lent. */
static uint32_t asked(uint32_t k, uint32_t levels, uint32_t p, size_t place, size_t given, size_t greys, size_t work)
{
    size_t all = 1 + (given > greys ? given > work ? given : work : greys > work ? greys : work);
    uint32_t refusal;

    memcpy(lent, numbers, all * sizeof *lent);
    memset(picture, GREY, all);
    for (size_t i = 0; i < all; i++)
        room[i] = NUMBER;
    refusal = label_display(k, levels, p, place, numbers, given, picture, greys, room, work);
    if (memcmp(lent, numbers, all * sizeof *lent))
        fail("a call changed the numbers");
    for (size_t i = refusal ? 0 : greys; i < all; i++)
        if (picture[i] != GREY)
            fail("a call changed a picture that it may not");
    for (size_t i = refusal ? 0 : work; i < all; i++)
        if (room[i] != NUMBER)
            fail("a call changed a room that it may not");
    return refusal;
}

/* With the lengths that are right for k. */
static uint32_t fitting(uint32_t k, uint32_t levels, uint32_t p, size_t place)
{
    return asked(k, levels, p, place, LABEL_PLACES(k), LABEL_PLACES(k), LABEL_PLACES(k));
}

static uint32_t chance(void)
{
    static uint32_t state = 417;

    state = state * 1664525u + 1013904223u;
    return state >> 8;
}

/* ---- worked by hand, at side 8 with two levels */

/* A number in place 0, all else 0: the first grey before it is set, less 128, is the number that is shown. */
static void one(int32_t number, uint32_t p, size_t place)
{
    int32_t grey;

    memset(numbers, 0, sizeof numbers);
    numbers[0] = number;
    if (fitting(3, 2, p, place))
        fail("a number is refused");
    grey = room[0] < 0 ? 0 : room[0] > 255 ? 255 : room[0];
    if (picture[0] != grey)
        fail("a grey is not set into 0 to 255");
    printf("  %d, p %u, the cut at %zu: %d\n", (int)number, (unsigned)p, place, (int)room[0] - 128);
}

/* Four numbers, the smallest band, all else 0: the greys that they stand on, less 128, are the numbers that are shown. */
static void four(uint32_t p, size_t place, int32_t a, int32_t b, int32_t c, int32_t d)
{
    memset(numbers, 0, sizeof numbers);
    numbers[0] = a;
    numbers[1] = b;
    numbers[2] = c;
    numbers[3] = d;
    if (fitting(3, 2, p, place))
        fail("four numbers are refused");
    printf("  p %u, the cut at %zu: %d %d %d %d\n", (unsigned)p, place, (int)room[0] - 128, (int)room[16] - 128,
           (int)room[32] - 128, (int)room[48] - 128);
}

/* The upper left quarter of the picture of a number in place 0, all else 0; the rest is 128. */
static void quarter(int32_t number, uint32_t p, size_t place)
{
    memset(numbers, 0, sizeof numbers);
    numbers[0] = number;
    if (fitting(3, 2, p, place))
        fail("a number is refused");
    printf("  %d, p %u, the cut at %zu:\n   ", (int)number, (unsigned)p, place);
    for (size_t i = 0; i < S2; i++)
        if (i / SIDE < 4 && i % SIDE < 4)
            printf("%s %d", i && i % SIDE == 0 ? " /" : "", picture[i]);
        else if (picture[i] != 128)
            fail("a grey far off is not 128");
    printf("\n");
}

/* ---- against the inverse */

/* The picture and the greys before they are set are those that the inverse makes of the numbers moved here. */
static void as_moved(uint32_t k, uint32_t levels, uint32_t p, size_t place)
{
    size_t places = LABEL_PLACES(k);

    for (size_t i = 0; i < places; i++) {
        uint32_t u = i >= place ? p : p ? p - 1 : 0;
        int32_t half = u ? (int32_t)1 << (u - 1) : 0;

        moved[i] = numbers[i] > 0 ? numbers[i] + half : numbers[i] < 0 ? numbers[i] - half : 0;
    }
    if (label_inverse(k, levels, moved, places, plain, places, plain_room, places))
        fail("the inverse refuses");
    if (fitting(k, levels, p, place))
        fail("a softer picture is refused");
    if (memcmp(plain, picture, places) || memcmp(plain_room, room, places * sizeof *room))
        fail("not the picture of the numbers moved");
}

/* Numbers by chance, of every length, with both signs and zeros among them. They stay within the limit when they are moved,
   since the inverse judges that. */
static void draw(size_t places)
{
    for (size_t i = 0; i < places; i++) {
        uint32_t length = chance() % 18;

        numbers[i] = (int32_t)(chance() & (((uint32_t)1 << length) - 1));
        if (chance() % 2)
            numbers[i] = -numbers[i];
    }
}

/* A coding of one number, cut at each of its bits: with the decoder's own p and place, what is shown of it. */
static void cut(const char *what, const uint8_t *bytes, uint32_t n, size_t bits, size_t at)
{
    printf("%s, cut at each bit, is shown as\n ", what);
    for (size_t b = 0; b <= bits; b++) {
        struct label_settled settled = label_decode(3, 2, n, numbers, S2, bytes, 3, b);

        if (settled.refusal)
            fail("a cut is refused");
        as_moved(3, 2, settled.unfinished, settled.place);
        printf(" %d", (int)moved[at]);
    }
    printf("\n");
}

static void against_inverse(void)
{
    static const uint8_t five[3] = {0xC0, 0x08, 0x00}, minus_three[3] = {0x48, 0xC0, 0x40};
    unsigned count = 0, sizes = 0;

    cut("5 in place 0", five, 3, 17, 0);
    cut("-3 in place 15", minus_three, 2, 19, 15);
    draw(S2);
    for (uint32_t p = 0; p <= LABEL_MOST_PLANES; p++)
        for (size_t place = 0; place < S2; place++) {
            as_moved(3, 2, p, place);
            count++;
        }
    printf("every p and place at side 8: %u pictures\n", count);
    for (uint32_t k = 3; k <= MOST_K; k++)
        for (uint32_t levels = 1; levels <= LABEL_MOST_LEVELS(k); levels++) {
            draw(LABEL_PLACES(k));
            as_moved(k, levels, 1 + chance() % LABEL_MOST_PLANES, chance() % LABEL_PLACES(k));
            sizes++;
        }
    printf("every side and every number of levels: %u pictures\n", sizes);
    /* with p = 0 nothing is moved: numbers up to the limit */
    for (size_t i = 0; i < S2; i++)
        numbers[i] = i % 3 == 0 ? LABEL_NUMBER_LIMIT : i % 3 == 1 ? -LABEL_NUMBER_LIMIT : (int32_t)(chance() % 512) - 256;
    for (size_t place = 0; place < S2; place++)
        as_moved(3, 2, 0, place);
    printf("p 0, numbers up to the limit, every place: the inverse's own picture\n");
}

/* ---- what is refused */

/* Every k and L, and some that are none: refused by 1 or 2, or taken. */
static void every(void)
{
    static const uint32_t any[] = {0, 1, 2, 3, 4, 5, 6, 7, 8, 9, 31, 32, 33, 64, UINT32_MAX};
    enum { ANY = sizeof any / sizeof *any };
    unsigned counts[3] = {0};

    for (int i = 0; i < ANY; i++)
        for (int j = 0; j < ANY; j++) {
            uint32_t k = any[i], levels = any[j], refusal;
            uint32_t wanted = k < 3 || k > 8 ? LABEL_BAD_SIDE
                : levels < 1 || levels > LABEL_MOST_LEVELS(k) ? LABEL_BAD_LEVELS : LABEL_OK;

            /* where it is to be refused all that is judged later is wrong too */
            numbers[0] = wanted ? INT32_MIN : LABEL_NUMBER_LIMIT;
            refusal = wanted ? asked(k, levels, 19, SIZE_MAX, 1, 2, 3) : fitting(k, levels, 18, LABEL_PLACES(k) - 1);
            if (refusal != wanted)
                fail("k or L is judged wrongly");
            counts[refusal]++;
        }
    numbers[0] = 0;
    printf("%d each of k and L: taken %u; refused by 1 %u, by 2 %u\n", ANY, counts[0], counts[1], counts[2]);
}

/* Lengths from 0 to 70, where a number, p and the place are wrong too: 3 comes before 4. */
static void lengths(void)
{
    unsigned refused = 0;

    numbers[0] = INT32_MAX;
    for (size_t count = 0; count <= 70; count++) {
        uint32_t wanted = count == S2 ? LABEL_BAD_NUMBER : LABEL_BAD_LENGTH;

        if (asked(3, 2, 19, S2, count, S2, S2) != wanted || asked(3, 2, 19, S2, S2, count, S2) != wanted
            || asked(3, 2, 19, S2, S2, S2, count) != wanted)
            fail("a length is judged wrongly");
        refused += 3;
    }
    numbers[0] = 0;
    printf("%u calls refused by 3, or by 4 where the lengths are right\n", refused);
}

/* A number at the limit in each place is taken, though moved it passes the limit; one beyond it is refused, before p and the
   place are looked at. */
static void beyond(void)
{
    static const int32_t limits[] = {LABEL_NUMBER_LIMIT, -LABEL_NUMBER_LIMIT};
    static const int32_t wrong[] = {LABEL_NUMBER_LIMIT + 1, -LABEL_NUMBER_LIMIT - 1, INT32_MAX, INT32_MIN};
    unsigned taken = 0, refused = 0;

    for (size_t at = 0; at < S2; at++) {
        for (size_t i = 0; i < sizeof limits / sizeof *limits; i++) {
            numbers[at] = limits[i];
            if (fitting(3, 2, 18, 0) || fitting(3, 2, 18, S2 - 1))
                fail("a number within the limit is refused");
            taken += 2;
        }
        for (size_t i = 0; i < sizeof wrong / sizeof *wrong; i++) {
            numbers[at] = wrong[i];
            if (fitting(3, 2, 0, 0) != LABEL_BAD_NUMBER || fitting(3, 2, 19, S2) != LABEL_BAD_NUMBER)
                fail("a number is judged wrongly");
            refused += 2;
        }
        numbers[at] = 0;
    }
    printf("in each of 64 places: at the limit %u taken, beyond it %u refused by 4\n", taken, refused);
}

/* Every p up to 20 and some far off, with a place that is right and one that is wrong: 5 comes before 11. */
static void planes(void)
{
    static const uint32_t far[] = {31, 32, 33, 64, 256, 65536, (uint32_t)1 << 31, UINT32_MAX};
    enum { NEAR = 21, FAR = sizeof far / sizeof *far };
    unsigned taken = 0, refused = 0;

    for (uint32_t i = 0; i < NEAR + FAR; i++) {
        uint32_t p = i < NEAR ? i : far[i - NEAR], right = p > 18 ? LABEL_BAD_PLANES : LABEL_OK;

        if (fitting(3, 2, p, S2 - 1) != right || fitting(3, 2, p, S2) != (right ? right : LABEL_BAD_STATE))
            fail("p is judged wrongly");
        taken += !right;
        refused += !!right;
    }
    printf("p: %u taken, %u refused by 5, the place being right or wrong\n", taken, refused);
}

/* Every place up to 70 and some far off, whose low bits would be right, at each p. */
static void cuts(void)
{
    static const size_t far[] = {256, 65536, (size_t)1 << 32, (size_t)1 << 63, SIZE_MAX};
    enum { NEAR = 71, FAR = sizeof far / sizeof *far };
    unsigned taken = 0, refused = 0;

    for (uint32_t p = 0; p <= LABEL_MOST_PLANES; p++)
        for (size_t i = 0; i < NEAR + FAR; i++) {
            size_t place = i < NEAR ? i : far[i - NEAR];

            if (fitting(3, 2, p, place) != (place < S2 ? LABEL_OK : LABEL_BAD_STATE))
                fail("a place is judged wrongly");
            taken += place < S2;
            refused += place >= S2;
        }
    printf("places, at each p from 0: %u taken, %u refused by 11\n", taken, refused);
}

/* Every choice of the six faults, each pair and all of them among these: the first in the order 1, 2, 3, 4, 5, 11 is told. */
static void faults(void)
{
    static const uint32_t order[] = {LABEL_BAD_SIDE, LABEL_BAD_LEVELS, LABEL_BAD_LENGTH, LABEL_BAD_NUMBER, LABEL_BAD_PLANES,
                                     LABEL_BAD_STATE};
    enum { FAULTS = sizeof order / sizeof *order };
    unsigned counts[12] = {0};

    for (unsigned chosen = 0; chosen < 1u << FAULTS; chosen++)
        for (unsigned slice = 0; slice < 3; slice++) { /* which of the three has the wrong length */
            size_t length[3] = {S2, S2, S2};
            uint32_t wanted = LABEL_OK, refusal;

            for (unsigned i = FAULTS; i-- > 0;)
                if (chosen >> i & 1)
                    wanted = order[i];
            if (chosen & 4)
                length[slice]--;
            numbers[7] = chosen & 8 ? LABEL_NUMBER_LIMIT + 1 : 0;
            refusal = asked(chosen & 1 ? 9 : 3, chosen & 2 ? 0 : 2, chosen & 16 ? 19 : 18, chosen & 32 ? S2 : S2 - 1,
                            length[0], length[1], length[2]);
            if (refusal != wanted)
                fail("of several faults another is told than the first");
            counts[refusal]++;
        }
    numbers[7] = 0;
    printf("several faults: by 1 %u, by 2 %u, by 3 %u, by 4 %u, by 5 %u, by 11 %u, none %u\n", counts[1], counts[2], counts[3],
           counts[4], counts[5], counts[11], counts[0]);
}

int main(void)
{
    printf("a number in place 0, and what is shown of it:\n");
    /* 5, of which the bits of C0 08 00 come one by one, as on the format's page */
    one(0, 3, 0);
    one(4, 3, 1);
    one(4, 2, 0);
    one(4, 2, 1);
    one(4, 1, 0);
    one(5, 1, 1);
    one(5, 0, 0);
    one(-4, 2, 0);
    one(-4, 2, 1);
    one(-1, 1, 0);
    one(-1, 1, S2 - 1);
    one(4, 0, S2 - 1);
    one(1, 18, 0);
    one(LABEL_NUMBER_LIMIT, 1, 0);
    one(LABEL_NUMBER_LIMIT, 18, 0);
    one(LABEL_NUMBER_LIMIT, 18, S2 - 1);
    one(-LABEL_NUMBER_LIMIT, 18, 0);
    one(-LABEL_NUMBER_LIMIT, 18, S2 - 1);

    printf("4 -4 4 -4 in places 0 to 3:\n");
    for (size_t place = 0; place <= 4; place++)
        four(2, place, 4, -4, 4, -4);
    four(3, 2, 4, -4, 4, -4);
    four(1, 2, 4, -4, 4, -4);
    four(0, 2, 4, -4, 4, -4);
    printf("0 4 -4 0 in places 0 to 3:\n");
    four(2, 0, 0, 4, -4, 0);
    four(2, 2, 0, 4, -4, 0);
    printf("the upper left quarter, a number in place 0:\n");
    quarter(4, 0, 0);
    quarter(4, 2, 0);
    quarter(4, 2, 1);
    quarter(-4, 2, 0);

    printf("against the inverse of numbers moved here:\n");
    against_inverse();

    memset(numbers, 0, sizeof numbers);
    printf("judged, and where it is refused nothing is changed:\n");
    every();
    lengths();
    beyond();
    planes();
    cuts();
    faults();
    return 0;
}
