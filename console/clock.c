/*
 * The clock of tools/bench: clock ROUNDS. It times the archive and the crate `timing` of one tree, and writes a line for each
 * thing: how many a call does, the least nanoseconds of a call, what it is. All memory is touched before. Answers are looked at
 * as they come: what lies along a line of places must be together what the paper's bits say, and a picture must come back. A last
 * line for each side sums up the numbers that forward gave, for whoever has two trees to compare. The header is the tree's own.
 */
#define _POSIX_C_SOURCE 199309L
#include <inttypes.h>
#include <stdio.h>
#include <stdlib.h>
#include <string.h>
#include <time.h>

#include <label.h>

int32_t timing_to_z(uint32_t k, size_t from, size_t to, const int32_t *numbers, size_t places);
uint8_t timing_from_z(uint32_t k, size_t from, size_t to, const uint8_t *picture, size_t places);
int32_t timing_z_of(uint32_t k, size_t row, size_t from, size_t to, const int32_t *numbers, size_t places);

/*
 * The archive's code lies behind this file's, so that SHIFT moves it. Where a loop lies changes its time, most of all through an
 * emulator, which follows no jump to another page of memory as quickly as one within.
 */
#ifdef SHIFT
#define TEXT(number) #number
#define SKIP(number) __asm__(".text\n.skip " TEXT(number) "\n")
SKIP(SHIFT);
#endif

enum { MOST_K = 8, MOST_SIDE = 1 << MOST_K, LEVELS = 5 };

static uint8_t picture[LABEL_PLACES(MOST_K)], back[LABEL_PLACES(MOST_K)];
static int32_t numbers[LABEL_PLACES(MOST_K)], room[LABEL_PLACES(MOST_K)];
static uint32_t k;
static size_t side, places;

/* What each row of numbers, and each line of Z places, brings together. */
static int32_t row_numbers[MOST_SIDE];
static uint8_t line_greys[MOST_SIDE];

static void wrong(const char *what)
{
    fprintf(stderr, "clock: a wrong answer: %s, side %zu\n", what, side);
    exit(1);
}

/* The Z place of a row and a column, bit by bit. */
static size_t z_by_bits(size_t row, size_t column)
{
    size_t z = 0;
    for (uint32_t bit = 0; bit < k; bit++)
        z |= (column >> bit & 1) << 2 * bit | (row >> bit & 1) << (2 * bit + 1);
    return z;
}

static void expect(void)
{
    memset(row_numbers, 0, sizeof row_numbers);
    memset(line_greys, 0, sizeof line_greys);
    for (size_t row = 0; row < side; row++)
        for (size_t column = 0; column < side; column++) {
            size_t z = z_by_bits(row, column);
            row_numbers[row] ^= numbers[z];
            line_greys[z / side] ^= picture[row * side + column];
        }
}

static void to_z(void)
{
    for (size_t row = 0; row < side; row++)
        if (timing_to_z(k, row * side, (row + 1) * side, numbers, places) != row_numbers[row])
            wrong("raster to Z");
}

static void from_z(void)
{
    for (size_t line = 0; line < side; line++)
        if (timing_from_z(k, line * side, (line + 1) * side, picture, places) != line_greys[line])
            wrong("Z to raster");
}

static void z_of(void)
{
    for (size_t row = 0; row < side; row++)
        if (timing_z_of(k, row, 0, side, numbers, places) != row_numbers[row])
            wrong("row, column to Z");
}

static void forward(void)
{
    if (label_forward(k, LEVELS, picture, places, numbers, places).refusal != 0)
        wrong("forward");
}

static void inverse(void)
{
    if (label_inverse(k, LEVELS, numbers, places, back, places, room, places) != 0)
        wrong("inverse");
}

static double now(void)
{
    struct timespec t;
    clock_gettime(CLOCK_MONOTONIC, &t);
    return 1e9 * (double)t.tv_sec + (double)t.tv_nsec;
}

/* Rounds of as many calls as take some milliseconds. */
static void clocked(const char *what, size_t count, unsigned rounds, void (*work)(void))
{
    unsigned calls = 1;
    double least = 0;
    work();
    for (;; calls *= 2) {
        double start = now();
        for (unsigned call = 0; call < calls; call++)
            work();
        if (now() - start > 4e6)
            break;
    }
    for (unsigned round = 0; round < rounds; round++) {
        double start = now();
        for (unsigned call = 0; call < calls; call++)
            work();
        double took = (now() - start) / calls;
        if (round == 0 || took < least)
            least = took;
    }
    printf("%zu %.0f %s, side %zu\n", count, least, what, side);
}

int main(int count, char **words)
{
    unsigned rounds = count == 2 ? (unsigned)strtoul(words[1], NULL, 10) : 0;
    if (rounds == 0) {
        fputs("usage: clock ROUNDS\n", stderr);
        return 2;
    }
    static const uint32_t sizes[] = {6, 8};
    for (size_t size = 0; size < sizeof sizes / sizeof *sizes; size++) {
        k = sizes[size];
        side = (size_t)1 << k;
        places = LABEL_PLACES(k);
        uint32_t chance = 417;
        for (size_t i = 0; i < places; i++) {
            chance = chance * 1664525 + 1013904223;
            picture[i] = (uint8_t)(chance >> 24);
        }
        clocked("forward", 1, rounds, forward);
        clocked("inverse", 1, rounds, inverse);
        if (memcmp(picture, back, places) != 0)
            wrong("there and back");
        expect();
        clocked("raster to Z", places, rounds, to_z);
        clocked("Z to raster", places, rounds, from_z);
        clocked("row, column to Z", places, rounds, z_of);
        uint64_t sum = 0;
        for (size_t i = 0; i < places; i++)
            sum = sum * 31 + (uint32_t)numbers[i];
        printf("0 %" PRIu64 " numbers, side %zu\n", sum, side);
    }
    return 0;
}
