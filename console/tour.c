/* A picture's whole journey through the archive, from C: into a record of each edition, and out of it whole and cut, plain,
   softer and as every thumbnail, at every size up to the largest k given: tour [LARGEST_K]. */
#include <stdio.h>
#include <stdlib.h>
#include <string.h>

#include "label.h"

enum { MOST_K = 8, PLACES = LABEL_PLACES(MOST_K), BLOCKS = LABEL_MOST_BLOCKS(MOST_K, LABEL_MOST_PLANES) };

static uint8_t picture[PLACES], shown[PLACES], softer[PLACES], bytes[LABEL_MOST_BYTES(MOST_K, LABEL_MOST_PLANES)];
static uint8_t record[BLOCKS * LABEL_BLOCK_BYTES], payload[BLOCKS * LABEL_PAYLOAD_BYTES];
static int32_t numbers[PLACES], room[PLACES], low[PLACES], moved[PLACES], truth[PLACES];
static const uint8_t label[8] = {'0', '0', '0', '0', '0', '4', '1', '7'};

/* A ramp with a bar across it. */
static void draw(size_t side)
{
    for (size_t row = 0; row < side; row++)
        for (size_t column = 0; column < side; column++)
            picture[row * side + column] = (uint8_t)(column % 8 < 2 ? 255 - row * 200 / side : column * 255 / (side - 1));
}

static void refused(void)
{
    printf("refused\n");
    exit(1);
}

/* The Z place of a row and a column. */
static size_t z_place(size_t row, size_t column)
{
    size_t z = 0;

    for (unsigned bit = 0; bit < MOST_K; bit++)
        z |= (column >> bit & 1) << 2 * bit | (row >> bit & 1) << (2 * bit + 1);
    return z;
}

/* How far a thumbnail of the numbers is off at most, from the low band that as many levels leave of the picture. */
static unsigned long thumbnail_off(uint32_t k, uint32_t levels, uint32_t halvings)
{
    size_t places = LABEL_PLACES(k), few = LABEL_PLACES(k - halvings), side = (size_t)1 << (k - halvings);
    unsigned long largest = 0;

    if (label_forward(k, halvings, picture, places, low, places).refusal
        || label_thumbnail(k, levels, halvings, numbers, places, shown, few, room, few))
        refused();
    for (size_t row = 0; row < side; row++)
        for (size_t column = 0; column < side; column++) {
            int32_t grey = low[z_place(row, column)] + 128, set = grey < 0 ? 0 : grey > 255 ? 255 : grey;
            unsigned long off = (unsigned long)abs(shown[row * side + column] - set);
            if (off > largest)
                largest = off;
        }
    return largest;
}

/* Whether a number is above the true one, short of it by more than is promised, or of the wrong sign: before the place
   where the cut fell by 2^(p - 1) - 1, at it and behind by 2^p - 1. */
static int numbers_worse(size_t places, struct label_settled settled)
{
    for (size_t i = 0; i < places; i++) {
        uint32_t unread = settled.unfinished - (i < settled.place);
        int32_t size = abs(numbers[i]), all = abs(truth[i]);

        if (size > all || all - size >= (int32_t)1 << unread || (numbers[i] && (numbers[i] < 0) != (truth[i] < 0)))
            return 1;
    }
    return settled.place >= places || (settled.place && !settled.unfinished);
}

/* How far the shown picture is off at most. */
static unsigned long off(size_t places)
{
    unsigned long largest = 0;

    for (size_t place = 0; place < places; place++) {
        unsigned long by = (unsigned long)abs(picture[place] - shown[place]);
        if (by > largest)
            largest = by;
    }
    return largest;
}

/* Whether the softer picture is worth less than is promised: a grey is too far off, or it is not the picture of numbers of
   which each that isn't zero is within 2^(u - 1) of the true one, u of its bits being unread, and exact where none is. */
static int softer_worse(uint32_t k, uint32_t levels, struct label_settled settled, unsigned long promised)
{
    size_t places = LABEL_PLACES(k);

    for (size_t i = 0; i < places; i++) {
        uint32_t unread = settled.unfinished - (i < settled.place);
        int32_t half = unread ? (int32_t)1 << (unread - 1) : 0;

        moved[i] = numbers[i] > 0 ? numbers[i] + half : numbers[i] < 0 ? numbers[i] - half : 0;
        if (moved[i] && abs(moved[i] - truth[i]) > half)
            return 1;
    }
    if (label_display(k, levels, settled.unfinished, settled.place, numbers, places, softer, places, room, places)
        || label_inverse(k, levels, moved, places, shown, places, room, places))
        refused();
    return memcmp(softer, shown, places) || off(places) > promised;
}

/* What the first blocks of the record show: edition, arm and mount, the planes unfinished, where the cut fell, the numbers
   and the largest error against what is promised; then of the softer picture, and of each thumbnail. */
static void out(uint32_t k, size_t places, size_t blocks)
{
    struct label_kept kept;
    struct label_settled settled;
    unsigned long promised;
    int worse = 0;

    kept = label_read(record, blocks * LABEL_BLOCK_BYTES, label, sizeof label, payload, sizeof payload);
    settled = label_decode(kept.k, kept.levels, kept.n, numbers, places, payload, sizeof payload, kept.bits);
    if (kept.refusal || settled.refusal || kept.k != k
        || label_inverse(kept.k, kept.levels, numbers, places, shown, places, room, places))
        refused();
    promised = (7ul * kept.levels + 1) * ((1ul << settled.unfinished) - 1);
    printf("  %zu of its blocks: edition %u, arm %u, mount %u, %zu bits\n", kept.blocks, (unsigned)kept.edition,
           (unsigned)kept.arm, (unsigned)kept.mount, kept.bits);
    printf("    %u planes unfinished", (unsigned)settled.unfinished);
    if (settled.unfinished)
        printf(", the cut at place %zu of %zu", settled.place, places);
    printf(", %s\n", off(places) > promised || numbers_worse(places, settled) ? "WORSE THAN PROMISED"
                     : settled.unfinished == 0 ? "the very picture" : "as good as promised");
    printf("    softer: %s\n", softer_worse(k, kept.levels, settled, promised) ? "WORSE THAN PROMISED"
                               : settled.unfinished == 0 ? "the very picture" : "as good as promised");
    for (uint32_t r = 1; r <= kept.levels; r++)
        worse |= thumbnail_off(k, kept.levels, r) > (7ul * (kept.levels - r) + 1) * ((1ul << settled.unfinished) - 1);
    printf("    thumbnails, sides %u to %u: %s\n", 1u << (k - 1), 1u << (k - kept.levels),
           worse ? "WORSE THAN PROMISED" : settled.unfinished == 0 ? "the low bands of the picture" : "as good as promised");
}

int main(int argc, char **argv)
{
    uint32_t most = argc > 1 ? (uint32_t)atoi(argv[1]) : MOST_K;

    for (uint32_t k = 3; k <= most; k++) {
        size_t places = LABEL_PLACES(k);
        uint32_t levels = LABEL_MOST_LEVELS(k);
        struct label_planes planes;
        struct label_written written;

        draw((size_t)1 << k);
        planes = label_forward(k, levels, picture, places, numbers, places);
        written = label_code(k, levels, numbers, places, SIZE_MAX, bytes, sizeof bytes);
        if (planes.refusal || written.refusal || planes.n != written.n)
            refused();
        memcpy(truth, numbers, places * sizeof *truth);
        for (uint32_t edition = 1; edition <= 2; edition++) {
            /* edition 1 has no place for the arm and the mount number that it is given */
            struct label_blocks blocks = label_write(k, levels, written.n, edition, 1 + k % 2, 70120 + k, label, sizeof label,
                                                     bytes, sizeof bytes, written.bits, record, sizeof record);
            if (blocks.refusal)
                refused();
            printf("side %u, %u levels, edition %u: %u planes, %zu bits, %zu %s\n", 1u << k, (unsigned)levels,
                   (unsigned)edition, (unsigned)planes.n, written.bits, blocks.blocks, blocks.blocks == 1 ? "block" : "blocks");
            out(k, places, blocks.blocks);
            if (blocks.blocks > 1)
                out(k, places, blocks.blocks / 2);
        }
    }
    return 0;
}
