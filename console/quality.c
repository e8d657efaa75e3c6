/*
 * How near a cut picture comes to the original, plain and softer: quality LEVELS < picture.pgm. The picture is coded and its
 * record written; then for each count of its blocks, from 1 to all, these are read, decoded and shown in both ways. A line for
 * each count:
 *
 *     blocks, unfinished planes, place, the limit that is promised of a grey; then of the plain picture and of the softer one
 *     the sum of the squared errors of all greys, and the largest error of one
 *
 * Ends with 1 if a call refuses, if a grey of either is off by more than the limit, or if all blocks do not give the very
 * picture.
 */
#include <inttypes.h>
#include <stdio.h>
#include <stdlib.h>
#include <string.h>

#include "label.h"

enum { MOST_K = 8, PLACES = LABEL_PLACES(MOST_K), BLOCKS = LABEL_MOST_BLOCKS(MOST_K, LABEL_MOST_PLANES) };

/* The errors of a picture. */
struct errors { uint64_t squares; uint32_t most; };

static const uint8_t label[8] = {'0', '0', '0', '0', '0', '4', '1', '7'};
static uint8_t picture[PLACES], plain[PLACES], softer[PLACES];
static uint8_t bits[BLOCKS * LABEL_PAYLOAD_BYTES], record[BLOCKS * LABEL_BLOCK_BYTES];
static int32_t numbers[PLACES], room[PLACES];
static uint32_t k, levels;
static size_t places;

static void fail(const char *what)
{
    fprintf(stderr, "quality: %s\n", what);
    exit(1);
}

/* A picture as tools/samples writes it: without a comment in its header. */
static void read_picture(void)
{
    unsigned width, height, most;

    if (scanf("P5 %u %u %u", &width, &height, &most) != 3 || getchar() != '\n' || width != height || most != 255)
        fail("no square binary PGM of 255 greys");
    for (k = 3; k < MOST_K && 1u << k < width; k++)
        ;
    if (1u << k != width)
        fail("the side is none of 8, 16 .. 256");
    places = LABEL_PLACES(k);
    if (fread(picture, 1, places, stdin) != places)
        fail("greys are missing");
}

/* The picture made a record; gives its count of blocks. */
static size_t written(void)
{
    struct label_written coded;
    struct label_blocks made;

    if (label_forward(k, levels, picture, places, numbers, places).refusal)
        fail("label_forward refused");
    coded = label_code(k, levels, numbers, places, SIZE_MAX, bits, sizeof bits);
    if (coded.refusal)
        fail("label_code refused");
    made = label_write(k, levels, coded.n, 1, 0, 0, label, sizeof label, bits, sizeof bits, coded.bits, record, sizeof record);
    if (made.refusal)
        fail("label_write refused");
    return made.blocks;
}

/* What is promised: no grey is off by more than this. */
static uint32_t limit_of(uint32_t unfinished)
{
    uint32_t limit = (7 * levels + 1) * (((uint32_t)1 << unfinished) - 1);

    return limit < 255 ? limit : 255;
}

static struct errors errors_of(const uint8_t *shown)
{
    struct errors errors = {0, 0};

    for (size_t i = 0; i < places; i++) {
        uint32_t error = (uint32_t)abs(shown[i] - picture[i]);

        errors.squares += error * error;
        if (error > errors.most)
            errors.most = error;
    }
    return errors;
}

/* So many blocks, read, decoded and shown in both ways. */
static void measure(size_t blocks, int all)
{
    struct label_kept kept = label_read(record, blocks * LABEL_BLOCK_BYTES, label, sizeof label, bits, sizeof bits);
    struct label_settled cut = label_decode(kept.k, kept.levels, kept.n, numbers, places, bits, sizeof bits, kept.bits);
    struct errors off_plain, off_softer;
    uint32_t limit;

    if (kept.refusal || kept.blocks != blocks || cut.refusal)
        fail("label_read or label_decode refused");
    memset(plain, 0, sizeof plain);
    memset(softer, 0, sizeof softer);
    if (label_inverse(k, levels, numbers, places, plain, places, room, places)
        || label_display(k, levels, cut.unfinished, cut.place, numbers, places, softer, places, room, places))
        fail("label_inverse or label_display refused");
    off_plain = errors_of(plain);
    off_softer = errors_of(softer);
    limit = limit_of(cut.unfinished);
    printf("%zu %u %zu %u %" PRIu64 " %u %" PRIu64 " %u\n", blocks, (unsigned)cut.unfinished, cut.place, (unsigned)limit,
           off_plain.squares, (unsigned)off_plain.most, off_softer.squares, (unsigned)off_softer.most);
    if (off_plain.most > limit || off_softer.most > limit)
        fail("a grey is off by more than is promised");
    if (all && (cut.unfinished || off_plain.squares || off_softer.squares))
        fail("a whole record does not give the very picture");
}

int main(int count, char **words)
{
    size_t blocks;

    levels = count == 2 ? (uint32_t)strtoul(words[1], NULL, 10) : 0;
    if (levels == 0) {
        fputs("usage: quality LEVELS < picture.pgm\n", stderr);
        return 2;
    }
    read_picture();
    blocks = written();
    for (size_t kept = 1; kept <= blocks; kept++)
        measure(kept, kept == blocks);
    return 0;
}
