/*
 * Records for the console to judge, made by the archive and then spoilt, each in one way: records DIRECTORY BLOCKS. A
 * file's name says what is wrong with it; the one named `long` has so many blocks.
 */
#include <stdio.h>
#include <stdlib.h>
#include <string.h>

#include "label.h"
#include "seal.h"

enum { K = 7, PLACES = LABEL_PLACES(K), BLOCKS = LABEL_MOST_BLOCKS(K, LABEL_MOST_PLANES) };

static uint8_t picture[PLACES], bytes[LABEL_MOST_BYTES(K, LABEL_MOST_PLANES)], record[BLOCKS * LABEL_BLOCK_BYTES];
static int32_t numbers[PLACES];
static size_t blocks;
static const char *directory;

static void fail(const char *what)
{
    printf("records: %s\n", what);
    exit(1);
}

/* The record of a ramp with a bar across it, with a limit of bits; of edition 2 where there is an arm. */
static void make_by(uint32_t arm, uint32_t mount, uint32_t k, const char *label, size_t limit)
{
    size_t side = (size_t)1 << k;
    struct label_written coded;
    struct label_blocks made;

    for (size_t i = 0; i < side * side; i++)
        picture[i] = (uint8_t)(i % 8 < 2 ? 255 - i / side * 200 / side : i % side * 255 / (side - 1));
    if (label_forward(k, 2, picture, side * side, numbers, side * side).refusal)
        fail("label_forward refused");
    coded = label_code(k, 2, numbers, side * side, limit, bytes, sizeof bytes);
    made = label_write(k, 2, coded.n, arm ? 2 : 1, arm, mount, (const uint8_t *)label, 8, bytes, sizeof bytes, coded.bits,
                       record, sizeof record);
    if (coded.refusal || made.refusal)
        fail("label_code or label_write refused");
    blocks = made.blocks;
}

static void make(uint32_t k, const char *label, size_t limit)
{
    make_by(0, 0, k, label, limit);
}

static uint8_t *block_at(size_t i)
{
    return record + i * LABEL_BLOCK_BYTES;
}

static FILE *file(const char *name, const char *mode)
{
    char path[4096];
    FILE *stream;

    if (snprintf(path, sizeof path, "%s/%s", directory, name) >= (int)sizeof path)
        fail("a name is too long");
    stream = fopen(path, mode);
    if (!stream)
        fail("a file does not open");
    return stream;
}

static void put(const char *name, const char *mode, size_t from, size_t count)
{
    FILE *stream = file(name, mode);

    if (fwrite(record + from, 1, count, stream) != count || fclose(stream))
        fail("a file can't be written");
}

static void put_all(const char *name, const char *mode)
{
    put(name, mode, 0, blocks * LABEL_BLOCK_BYTES);
}

int main(int argc, char **argv)
{
    uint8_t kept[LABEL_BLOCK_BYTES];
    unsigned count;
    FILE *stream;

    if (argc != 3) {
        fprintf(stderr, "usage: records DIRECTORY BLOCKS\n");
        return 2;
    }
    directory = argv[1];
    count = (unsigned)atoi(argv[2]);

    /* as they should be, four blocks with the last one short; cut, turned round, or cut by a limit */
    make(6, "00000417", SIZE_MAX);
    put_all("whole", "wb");
    put("two-blocks", "wb", 0, 2 * LABEL_BLOCK_BYTES);
    put("two-blocks-and-76-bytes", "wb", 0, 1100);
    put("100-bytes", "wb", 0, 100);
    put("without-block-0", "wb", LABEL_BLOCK_BYTES, (blocks - 1) * LABEL_BLOCK_BYTES);
    memcpy(kept, block_at(1), sizeof kept);
    memcpy(block_at(1), block_at(2), sizeof kept);
    memcpy(block_at(2), kept, sizeof kept);
    put_all("blocks-1-and-2-changed-places", "wb");
    make(6, "00000417", 5000);
    put_all("limited-to-5000-bits", "wb");
    make(3, "00000417", 0);
    put_all("limited-to-no-bit", "wb");
    if (label_write(3, 2, 0, 1, 0, 0, (const uint8_t *)"00000417", 8, bytes, 0, 0, record, sizeof record).blocks != 1)
        fail("label_write refused");
    put_all("flat", "wb");

    /* with blocks of other records behind */
    make(6, "00000417", SIZE_MAX);
    put("block-1-of-another-label", "wb", 0, LABEL_BLOCK_BYTES);
    put("block-1-of-another-side", "wb", 0, LABEL_BLOCK_BYTES);
    put("block-1-all-wrong", "wb", 0, LABEL_BLOCK_BYTES);
    put_all("two-records", "wb");
    make(6, "00000418", SIZE_MAX);
    put_all("another-label", "wb");
    put("block-1-of-another-label", "ab", LABEL_BLOCK_BYTES, (blocks - 1) * LABEL_BLOCK_BYTES);
    block_at(1)[20] ^= 1;
    put_all("two-records", "ab");
    make(7, "00000417", SIZE_MAX);
    put("block-1-of-another-side", "ab", LABEL_BLOCK_BYTES, 2 * LABEL_BLOCK_BYTES);
    make(7, "00000418", SIZE_MAX);
    put("block-1-all-wrong", "ab", 5 * LABEL_BLOCK_BYTES, LABEL_BLOCK_BYTES);

    /* damaged, and wrong in a field; the label that stands there would clear a terminal */
    make(6, "00000417", SIZE_MAX);
    memcpy(block_at(2) + 4, "\033[2J\033[1m", 8);
    put_all("block-2-damaged", "wb");
    seal(block_at(2));
    put_all("block-2-without-a-label", "wb");
    make(6, "00000417", SIZE_MAX);
    block_at(0)[508] ^= 1;
    put_all("block-0-damaged", "wb");
    make(6, "00000417", SIZE_MAX);
    block_at(0)[0] = 3;
    seal(block_at(0));
    put_all("block-0-of-edition-3", "wb");

    /* edition 2: whole and cut, with blocks of another edition, arm and mount behind, and block 2 of arm 3, which is none */
    make_by(1, 70123, 6, "00000417", SIZE_MAX);
    put_all("arm-1", "wb");
    put("arm-1-two-blocks", "wb", 0, 2 * LABEL_BLOCK_BYTES);
    put("arm-1-then-edition-1", "wb", 0, LABEL_BLOCK_BYTES);
    put("arm-1-then-arm-2", "wb", 0, 2 * LABEL_BLOCK_BYTES);
    put("arm-1-all-wrong", "wb", 0, LABEL_BLOCK_BYTES);
    block_at(2)[16] = 3;
    seal(block_at(2));
    put_all("arm-1-block-2-of-arm-3", "wb");
    make(6, "00000417", SIZE_MAX);
    put("arm-1-then-edition-1", "ab", LABEL_BLOCK_BYTES, (blocks - 1) * LABEL_BLOCK_BYTES);
    put("edition-1-then-arm-1", "wb", 0, LABEL_BLOCK_BYTES);
    make_by(2, LABEL_MOST_MOUNT, 6, "00000417", SIZE_MAX);
    put("arm-1-then-arm-2", "ab", 2 * LABEL_BLOCK_BYTES, (blocks - 2) * LABEL_BLOCK_BYTES);
    make_by(2, LABEL_MOST_MOUNT, 7, "00000418", SIZE_MAX);
    put("arm-1-all-wrong", "ab", 5 * LABEL_BLOCK_BYTES, LABEL_BLOCK_BYTES);
    make_by(1, 70123, 6, "00000417", SIZE_MAX);
    put("edition-1-then-arm-1", "ab", LABEL_BLOCK_BYTES, (blocks - 1) * LABEL_BLOCK_BYTES);

    /* a label with a media type; then block 2 has it in small letters, which is no label, and its checks are right */
    make(6, "0417AAL6", SIZE_MAX);
    put_all("media", "wb");
    memcpy(block_at(2) + 4, "0417aal6", 8);
    seal(block_at(2));
    put_all("block-2-in-small-letters", "wb");

    /* many blocks, all full and in turn */
    make(6, "00000417", SIZE_MAX);
    stream = file("long", "wb");
    for (unsigned i = 0; i < count; i++) {
        record[12] = (uint8_t)(i / 256);
        record[13] = (uint8_t)(i % 256);
        seal(record);
        if (fwrite(record, 1, LABEL_BLOCK_BYTES, stream) != LABEL_BLOCK_BYTES)
            fail("a file can't be written");
    }
    if (fclose(stream))
        fail("a file can't be written");
    return 0;
}
