/* Labels in the calls that judge them: 0417AAL6 into a record and out of it, every byte in each of a label's eight
   places, and what is no label. A refused call leaves what it was lent as it was: that is looked at each time. */
#include <stdio.h>
#include <stdlib.h>
#include <string.h>

#include "label.h"
#include "seal.h"

enum { K = 3, L = 2, N = 3, BITS = 17, PLACES = LABEL_PLACES(K), LABEL = 4, LONG = 8, USED = 3, LENT = 0x5A };

/* The block that the format's page gives whole: the numbers 5, 0, 0, .. 0, S 8, L 2, label 0417AAL6. */
static const uint8_t page[LABEL_BLOCK_BYTES] = {
    0x01, 0x03, 0x02, 0x03, 0x30, 0x34, 0x31, 0x37, 0x41, 0x41, 0x4C, 0x36, 0x00, 0x00, 0x00, 0x11, 0xC0, 0x08, 0x00,
    [CHECKS] = 0x02, 0xB2, 0x1E, 0x4F
};

static uint8_t block[LABEL_BLOCK_BYTES], room[LABEL_BLOCK_BYTES + 1];
static int32_t numbers[PLACES];

static void fail(const char *what)
{
    printf("labels: %s\n", what);
    exit(1);
}

/* What a call answered, once the room is seen to be as it was lent: all of it if it refused, else what lies behind the
   bytes that it used. */
static uint32_t looked_at(uint32_t refusal, size_t used)
{
    for (size_t i = refusal ? 0 : used; i < sizeof room; i++)
        if (room[i] != LENT)
            fail("a call changed what it may not");
    return refusal;
}

/* The writer's answer to a label, with the bits of the page's block. */
static uint32_t written(const uint8_t *label, size_t count)
{
    struct label_blocks made;

    memset(room, LENT, sizeof room);
    made = label_write(K, L, N, 1, 0, 0, label, count, page + 16, USED, BITS, room, sizeof room);
    if (made.blocks != (made.refusal ? 0 : 1))
        fail("the writer's blocks");
    return looked_at(made.refusal, LABEL_BLOCK_BYTES);
}

/* The reader's answer to the block, where this label is asked for. */
static uint32_t asked_for(const uint8_t *label, size_t count)
{
    struct label_kept kept;

    memset(room, LENT, sizeof room);
    kept = label_read(block, sizeof block, label, count, room, sizeof room);
    if (kept.refusal
        && (kept.k || kept.levels || kept.n || kept.blocks || kept.bits || kept.ended
            || kept.edition || kept.arm || kept.mount))
        fail("the reader refused, and answered more");
    if (!kept.refusal
        && (kept.k != K || kept.levels != L || kept.n != N || kept.blocks != 1 || kept.bits != BITS || kept.ended
            || kept.edition != 1 || kept.arm || kept.mount || memcmp(room, page + 16, USED)))
        fail("the reader kept something else");
    return looked_at(kept.refusal, USED);
}

static void hex(size_t from, size_t count, const char *before)
{
    for (size_t i = 0; i < count; i++)
        printf("%s%02X", i ? " " : before, room[from + i]);
}

/* 0417AAL6, from numbers to a block and back. */
static void journey(void)
{
    static uint8_t bytes[LABEL_MOST_BYTES(K, N)];
    struct label_written coded;
    struct label_blocks made;
    struct label_kept kept;
    struct label_settled settled;
    size_t zeros = 0;

    numbers[0] = 5;
    coded = label_code(K, L, numbers, PLACES, SIZE_MAX, bytes, sizeof bytes);
    memset(room, LENT, sizeof room);
    made = label_write(K, L, coded.n, 1, 0, 0, page + LABEL, LONG, bytes, sizeof bytes, coded.bits, room, sizeof room);
    if (coded.refusal || looked_at(made.refusal, LABEL_BLOCK_BYTES))
        fail("0417AAL6 is refused");
    printf("the numbers 5, 0, 0, .. 0 under 0417AAL6: %u planes, %zu bits, %zu block\n", (unsigned)coded.n, coded.bits,
           made.blocks);
    hex(0, 4, "  ");
    hex(4, 8, "  ");
    hex(12, 2, "  ");
    hex(14, 2, "  ");
    hex(16, 3, "  ");
    while (19 + zeros < CHECKS && !room[19 + zeros])
        zeros++;
    printf("\n  then %zu zero bytes, then", zeros);
    hex(CHECKS, 2, "  ");
    hex(CHECKS + 2, 2, "  ");
    printf("\n  %s the format's page\n", memcmp(room, page, sizeof page) ? "UNLIKE" : "as on");

    memcpy(block, room, sizeof block);
    printf("its check: %u\n", (unsigned)label_block_check(block, sizeof block));
    memset(room, LENT, sizeof room);
    kept = label_read(block, sizeof block, page + LABEL, LONG, room, sizeof room);
    printf("read: %u, k %u, L %u, n %u, %zu block, %zu bits, ended by %u, payload", (unsigned)kept.refusal,
           (unsigned)kept.k, (unsigned)kept.levels, (unsigned)kept.n, kept.blocks, kept.bits, (unsigned)kept.ended);
    hex(0, 3, " ");
    memset(numbers, LENT, sizeof numbers);
    settled = label_decode(kept.k, kept.levels, kept.n, numbers, PLACES, room, sizeof room, kept.bits);
    for (zeros = 0; zeros < PLACES - 1 && !numbers[1 + zeros];)
        zeros++;
    printf("\ndecoded: %u, %u planes unfinished, place %zu, the number %d and %zu zeros\n", (unsigned)settled.refusal,
           (unsigned)settled.unfinished, settled.place, (int)numbers[0], zeros);
}

/* With a byte in one place of 0417AAL6: what the block check answers, the writer, the reader that is asked for this
   label, and the reader that is asked for 0417AAL6. */
static void ask(int byte, int place, uint32_t answers[4])
{
    uint8_t lent[LABEL_BLOCK_BYTES];

    memcpy(block, page, sizeof block);
    block[LABEL + place] = (uint8_t)byte;
    seal(block);
    memcpy(lent, block, sizeof lent);
    answers[0] = label_block_check(block, sizeof block);
    answers[1] = written(block + LABEL, LONG);
    if (!answers[1] && memcmp(room, block, sizeof block))
        fail("another block was written");
    answers[2] = asked_for(block + LABEL, LONG);
    answers[3] = asked_for(page + LABEL, LONG);
    if (memcmp(lent, block, sizeof lent))
        fail("a call changed what it was lent to read");
}

/* A line for a byte: the four answers for each of the eight places. */
static void line(int byte)
{
    uint32_t answers[LONG][4];

    for (int place = 0; place < LONG; place++)
        ask(byte, place, answers[place]);
    if (byte < ' ' || byte > '~')
        printf("%-3d", byte);
    else
        printf("'%c'", byte);
    for (int call = 0; call < 4; call++)
        for (int place = 0; place < LONG; place++)
            printf("%s%u", place ? " " : "  ", (unsigned)answers[place][call]);
    printf("\n");
}

/* Every byte in every place, held to the rule. */
static void every(void)
{
    unsigned labels = 0, none = 0;

    for (int byte = 0; byte < 256; byte++)
        for (int place = 0; place < LONG; place++) {
            int taken = (byte >= '0' && byte <= '9') || (byte >= 'A' && byte <= 'Z');
            uint32_t answers[4], turn = byte == page[LABEL + place] ? LABEL_OK : LABEL_BAD_TURN;

            ask(byte, place, answers);
            if (answers[0] != (taken ? LABEL_OK : LABEL_BAD_FIELD) || answers[1] != (taken ? LABEL_OK : LABEL_BAD_LABEL)
                || answers[2] != answers[1] || answers[3] != (taken ? turn : LABEL_BAD_FIELD))
                fail("a byte is judged wrongly");
            labels += taken;
            none += !taken;
        }
    printf("256 bytes in each of 8 places: %u are labels, %u are none\n", labels, none);
}

/* A label of any length, given to the writer and asked for of the page's block. */
static void given(const char *label)
{
    size_t count = strlen(label);
    uint32_t writer = written((const uint8_t *)label, count), reader;

    memcpy(block, page, sizeof block);
    reader = asked_for((const uint8_t *)label, count);
    printf("\"%s\": %u %u\n", label, (unsigned)writer, (unsigned)reader);
}

int main(void)
{
    /* what stands beside 0 to 9 and A to Z, with small letters and more; then the first and the last that are taken */
    static const int bytes[] = {'/', ':', '@', '[', '`', 'a', 'z', '{', ' ', 0, 255, '0', '9', 'A', 'Z'};

    journey();

    printf("\nin each of the eight places of 0417AAL6:\n"
           "     block check      written          asked for it     asked for 0417AAL6\n");
    for (size_t i = 0; i < sizeof bytes / sizeof *bytes; i++)
        line(bytes[i]);
    every();

    printf("\nwritten, and asked for where 0417AAL6 stands:\n");
    given("0417AAL6");
    given("0417AAL5");
    given("0417aal6");
    given("0417AAl6");
    given(" 0417AAL");
    given("0417AAL");
    given("0417AAL60");
    given("");
    return 0;
}
