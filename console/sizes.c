/*
 * The sizes that label.h gives, held to a plain count and to the library: sizes [LARGEST_K]. At every k and n the most
 * bits, bytes and blocks are counted here once more, from what a walk can ask at most, and label_write takes that much
 * in either edition and refuses more. Numbers that need n planes, by chance and as bad as can be, are coded within these
 * sizes, and label.h's rule for a coding that was cut tells the truth; at every number of bits where there are few. A
 * thumbnail is made in the places that label.h says, and not in one more or fewer.
 */
#include <stdio.h>
#include <stdlib.h>
#include <string.h>

#include "label.h"

#define COUNT(array) (sizeof(array) / sizeof(array)[0])

static const uint8_t label[8] = {'0', '0', '0', '0', '0', '4', '1', '7'};

/* constants: arrays have these sizes */
static int32_t numbers[LABEL_PLACES(8)], settled[LABEL_PLACES(8)];
static uint8_t record[(LABEL_MOST_BLOCKS(8, LABEL_MOST_PLANES) + 1) * LABEL_BLOCK_BYTES];
_Static_assert(LABEL_MOST_LEVELS(3) == 2 && LABEL_MOST_LEVELS(8) == 5 && LABEL_MOST_BITS(3, 0) == 64
               && LABEL_PAYLOAD_BITS_OF(1) == 3936 && LABEL_PAYLOAD_BITS_OF(2) == 3904, "constants");

static void hold(int truth, const char *what, unsigned k, unsigned levels, unsigned n)
{
    if (truth)
        return;
    printf("WRONG: %s, at k %u, L %u, n %u\n", what, k, levels, n);
    exit(1);
}

/* Exactly so many bytes, so that a memory checker sees a byte too far. */
static uint8_t *lend(size_t count)
{
    uint8_t *bytes = (uint8_t *)malloc(count + !count);

    if (!bytes) {
        printf("no memory\n");
        exit(1);
    }
    memset(bytes, 0xEE, count + !count);
    return bytes;
}

static uint32_t chance(void)
{
    static uint32_t state = 417;

    state = state * 1664525u + 1013904223u;
    return state >> 8;
}

/* The blocks of a record of so many bits, counted plainly. */
static size_t blocks_of(unsigned edition, size_t bits)
{
    size_t blocks = 0;

    do
        blocks++;
    while (blocks * (edition == 1 ? 3936 : 3904) < bits);
    return blocks;
}

/* The sizes, counted plainly: in each plane a test for each set of 4, 16 and so on to all places, and a bit for each
   number; once, a sign for each number. */
static void count(unsigned k, unsigned n)
{
    size_t places = 0, bits = 0, bytes = 0;

    for (unsigned row = 0; row < 1u << k; row++)
        for (unsigned column = 0; column < 1u << k; column++)
            places++;
    hold(LABEL_PLACES(k) == places, "LABEL_PLACES", k, 0, n);
    for (unsigned plane = 0; plane < n; plane++) {
        for (size_t set = 4; set <= places; set *= 4)
            bits += places / set;
        bits += places;
    }
    bits += places;
    hold(LABEL_MOST_BITS(k, n) == bits, "LABEL_MOST_BITS", k, 0, n);
    while (bytes * 8 < bits)
        bytes++;
    hold(LABEL_MOST_BYTES(k, n) == bytes, "LABEL_MOST_BYTES", k, 0, n);
    hold(LABEL_MOST_BLOCKS(k, n) == blocks_of(2, bits), "LABEL_MOST_BLOCKS", k, 0, n);
}

static struct label_blocks write_in(unsigned edition, unsigned k, unsigned levels, unsigned n, const uint8_t *bytes,
                                    size_t count, size_t bits, uint8_t *room, size_t lent)
{
    return label_write(k, levels, n, edition, 1, LABEL_MOST_MOUNT, label, sizeof label, bytes, count, bits, room, lent);
}

/* label_write takes the most bits that n planes can have, in the room that label.h says, and no bit more; in the room
   of the edition's own blocks, and in no byte less. */
static void write_most(unsigned edition, unsigned k, unsigned levels, unsigned n)
{
    size_t bits = LABEL_MOST_BITS(k, n), count = LABEL_MOST_BYTES(k, n);
    size_t blocks = blocks_of(edition, bits), room = blocks * LABEL_BLOCK_BYTES;
    uint8_t *bytes = lend(count), *lent = lend(room);
    struct label_blocks made;

    hold(blocks <= LABEL_MOST_BLOCKS(k, n), "no record above the most blocks", k, levels, n);
    made = write_in(edition, k, levels, n, bytes, count, bits, lent, room);
    hold(made.refusal == LABEL_OK && made.blocks == blocks, "the most bits in the most blocks", k, levels, n);
    made = write_in(edition, k, levels, n, bytes, count, bits, lent, room - 1);
    hold(made.refusal == LABEL_BAD_ROOM, "a byte of room too few", k, levels, n);
    free(bytes);
    bytes = lend(count + 1);
    made = write_in(edition, k, levels, n, bytes, count + 1, bits + 1, record, sizeof record);
    hold(made.refusal == LABEL_BAD_ROOM, "a bit more than the most", k, levels, n);
    free(bytes);
    free(lent);
}

/* Is the coding in `bytes` all of it? The rule of label.h, in its two parts. */
static int whole(struct label_written coded, unsigned k, unsigned levels, const uint8_t *bytes, size_t count, size_t limit)
{
    struct label_settled told;

    if (coded.bits < limit && coded.bits / 8 < count)
        return 1;
    told = label_decode(k, levels, coded.n, settled, LABEL_PLACES(k), bytes, count, coded.bits);
    hold(told.refusal == LABEL_OK, "a coding decodes", k, levels, coded.n);
    return told.unfinished == 0;
}

/* The rule, with a limit and with a room: what is cut has fewer bits than all. */
static void cut_at(unsigned k, unsigned levels, unsigned n, size_t all, size_t limit, size_t count)
{
    uint8_t *bytes = lend(count);
    struct label_written coded = label_code(k, levels, numbers, LABEL_PLACES(k), limit, bytes, count);

    hold(coded.refusal == LABEL_OK && coded.n == n && coded.bits <= all, "a coding in any room", k, levels, n);
    hold(whole(coded, k, levels, bytes, count, limit) == (coded.bits == all), "the rule of a cut coding", k, levels, n);
    free(bytes);
}

/* Numbers that need n planes, each of a length of its own up to n or (flat) all of them 2^n - 1. */
static void fill(unsigned k, unsigned n, int flat)
{
    for (size_t i = 0; i < LABEL_PLACES(k); i++) {
        uint32_t size = ((uint32_t)1 << n) - 1;
        if (!flat)
            size = (chance() & size) >> (n ? chance() % n : 0);
        numbers[i] = chance() & 1 ? (int32_t)size : -(int32_t)size;
    }
    numbers[chance() % LABEL_PLACES(k)] = ((int32_t)1 << n) - 1;
}

static void code(unsigned k, unsigned levels, unsigned n, int flat)
{
    size_t most = LABEL_MOST_BYTES(k, n), all;
    uint8_t *bytes = lend(most), *lent;
    struct label_written coded;
    struct label_blocks made;

    fill(k, n, flat);
    coded = label_code(k, levels, numbers, LABEL_PLACES(k), SIZE_MAX, bytes, most);
    all = coded.bits;
    hold(coded.refusal == LABEL_OK && coded.n == n, "a coding in the most bytes", k, levels, n);
    hold(all <= LABEL_MOST_BITS(k, n), "no coding above the most bits", k, levels, n);
    hold(!flat || n != 1 || all == LABEL_MOST_BITS(k, n), "with one plane the most bits are reached", k, levels, n);
    hold(label_decode(k, levels, n, settled, LABEL_PLACES(k), bytes, most, all).unfinished == 0
         && !memcmp(numbers, settled, LABEL_PLACES(k) * sizeof numbers[0]), "nothing is cut in the most bytes", k, levels, n);
    lent = lend(LABEL_MOST_BLOCKS(k, n) * LABEL_BLOCK_BYTES);
    for (unsigned edition = 1; edition <= 2; edition++) {
        made = write_in(edition, k, levels, n, bytes, most, all, lent, LABEL_MOST_BLOCKS(k, n) * LABEL_BLOCK_BYTES);
        hold(made.refusal == LABEL_OK, "a coding in the most blocks", k, levels, n);
    }
    free(lent);
    free(bytes);

    if (k == 3 && n < 5) {
        for (size_t limit = 0; limit <= all + 9; limit++)
            cut_at(k, levels, n, all, limit, most);
        for (size_t count = 0; count <= most; count++)
            cut_at(k, levels, n, all, SIZE_MAX, count);
    } else {
        size_t limits[] = {0, 1, all / 2, all ? all - 1 : 0, all, all + 1};
        for (size_t i = 0; i < COUNT(limits); i++) {
            cut_at(k, levels, n, all, limits[i], most);
            cut_at(k, levels, n, all, SIZE_MAX, limits[i] / 8);
        }
        cut_at(k, levels, n, all, SIZE_MAX, (all + 7) / 8);
    }
}

/* What label_thumbnail answers, lent exactly so many numbers, greys and places to work in. */
static uint32_t thumbnail(unsigned k, unsigned levels, unsigned r, size_t given, size_t greys, size_t work)
{
    int32_t *lent = (int32_t *)(void *)lend(given * sizeof *lent), *room = (int32_t *)(void *)lend(work * sizeof *room);
    uint8_t *picture = lend(greys);
    uint32_t refusal;

    memset(lent, 0, given * sizeof *lent);
    refusal = label_thumbnail(k, levels, r, lent, given, picture, greys, room, work);
    free(picture);
    free(room);
    free(lent);
    return refusal;
}

/* A thumbnail takes LABEL_PLACES(k - r) places of picture and of room, and S x S numbers, and no other count. */
static void thumbnails(unsigned k, unsigned levels)
{
    size_t all = LABEL_PLACES(k);

    for (unsigned r = 1; r <= levels; r++) {
        size_t side = ((size_t)1 << k) >> r, few = LABEL_PLACES(k - r);

        hold(few == side * side, "the places of a thumbnail, n being r", k, levels, r);
        hold(thumbnail(k, levels, r, all, few, few) == LABEL_OK, "a thumbnail, n being r", k, levels, r);
        hold(thumbnail(k, levels, r, all - 1, few, few) == LABEL_BAD_LENGTH
             && thumbnail(k, levels, r, all + 1, few, few) == LABEL_BAD_LENGTH
             && thumbnail(k, levels, r, few, few, few) == LABEL_BAD_LENGTH
             && thumbnail(k, levels, r, all, few - 1, few) == LABEL_BAD_LENGTH
             && thumbnail(k, levels, r, all, few + 1, few) == LABEL_BAD_LENGTH
             && thumbnail(k, levels, r, all, few, few - 1) == LABEL_BAD_LENGTH
             && thumbnail(k, levels, r, all, few, few + 1) == LABEL_BAD_LENGTH
             && thumbnail(k, levels, r, all, all, all) == LABEL_BAD_LENGTH,
             "a thumbnail in other places, n being r", k, levels, r);
    }
}

int main(int argc, char **argv)
{
    unsigned largest = argc > 1 ? (unsigned)atoi(argv[1]) : 8;

    for (unsigned k = 3; k <= largest; k++) {
        unsigned most = LABEL_MOST_LEVELS(k);

        for (unsigned n = 0; n <= LABEL_MOST_PLANES; n++) {
            count(k, n);
            /* the largest pictures at the fewest and at the most levels only, and at few n, for time */
            for (unsigned levels = 1; levels <= most; levels += k < 7 ? 1 : most - 1) {
                write_most(1, k, levels, n);
                write_most(2, k, levels, n);
                if (k < 6 || n == 1 || n % 9 == 0) {
                    code(k, levels, n, 0);
                    code(k, levels, n, 1);
                }
            }
        }
        for (unsigned levels = 1; levels <= most; levels++)
            thumbnails(k, levels);
        hold(label_code(k, most + 1, numbers, LABEL_PLACES(k), 0, record, 0).refusal == LABEL_BAD_LEVELS,
             "LABEL_MOST_LEVELS", k, most, 0);
        printf("most at side %u: %u levels, %zu bits, %zu bytes, blocks: %zu\n", 1u << k, most,
               LABEL_MOST_BITS(k, LABEL_MOST_PLANES), LABEL_MOST_BYTES(k, LABEL_MOST_PLANES),
               LABEL_MOST_BLOCKS(k, LABEL_MOST_PLANES));
    }
    memset(numbers, 0, sizeof numbers);
    numbers[0] = LABEL_NUMBER_LIMIT;
    hold(label_code(3, 1, numbers, 64, 0, record, 0).n == LABEL_MOST_PLANES, "the largest number", 3, 1, 18);
    numbers[0] = -LABEL_NUMBER_LIMIT - 1;
    hold(label_code(3, 1, numbers, 64, 0, record, 0).refusal == LABEL_BAD_NUMBER, "a larger number", 3, 1, 18);
    hold(LABEL_PAYLOAD_BITS == 8 * LABEL_PAYLOAD_BYTES, "LABEL_PAYLOAD_BITS", 3, 1, 18);
    hold(label_write(3, 1, 0, 2, 1, LABEL_MOST_MOUNT + 1, label, sizeof label, label, 0, 0, record, sizeof record).refusal
         == LABEL_BAD_FIELD, "a larger mount number", 3, 1, 18);
    return 0;
}
