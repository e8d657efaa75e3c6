/* The two editions of a record, from C: the block of edition 2 that the format's page gives whole; records of each, whole
   and cut; what the writer refuses, in the order in which it is judged; and blocks that are not of one record. A refused
   call leaves what it was lent as it was: that is looked at each time. */
#include <stdio.h>
#include <stdlib.h>
#include <string.h>

#include "label.h"
#include "seal.h"

enum { K = 5, L = 2, N = 8, BLOCKS = 3, LAST = 61, LABEL = 4, ARM = 16, MOUNT = 17, PAYLOAD = 20, USED = 3, LENT = 0x5A };
#define WHOLE ((size_t)BLOCKS * LABEL_BLOCK_BYTES)

/* The numbers 5, 0, 0, .. 0, S 8, L 2, label 0417AAL6, arm 2, mount 70123. */
static const uint8_t page[LABEL_BLOCK_BYTES] = {
    0x02, 0x03, 0x02, 0x03, 0x30, 0x34, 0x31, 0x37, 0x41, 0x41, 0x4C, 0x36, 0x00, 0x00, 0x00, 0x11, 0x02, 0x01, 0x11, 0xEB,
    0xC0, 0x08, 0x00, [CHECKS] = 0x03, 0xB2, 0x35, 0x43
};

/* bits by chance, a record of them, and what is kept of it */
static uint8_t bytes[BLOCKS * LABEL_PAYLOAD_BYTES], record[BLOCKS * LABEL_BLOCK_BYTES], room[BLOCKS * LABEL_PAYLOAD_BYTES];

static void fail(const char *what)
{
    printf("editions: %s\n", what);
    exit(1);
}

/* The places of what was lent that a call may not change. */
static void look(const uint8_t *lent, size_t from, size_t count)
{
    for (size_t i = from; i < count; i++)
        if (lent[i] != LENT)
            fail("a call changed what it may not");
}

static void hex(const char *before, const uint8_t *from, size_t count)
{
    printf("%s", before);
    for (size_t i = 0; i < count; i++)
        printf(" %02X", from[i]);
}

/* ---- the page's block */
/* The same picture, as the writer puts it. */
static void write_worked(uint32_t edition, uint32_t arm, uint32_t mount)
{
    struct label_blocks made;

    memset(record, LENT, sizeof record);
    made = label_write(3, 2, 3, edition, arm, mount, page + LABEL, 8, page + PAYLOAD, USED, 17, record, sizeof record);
    if (made.refusal || made.blocks != 1)
        fail("the page's picture is refused");
    look(record, LABEL_BLOCK_BYTES, sizeof record);
}

static void worked(void)
{
    static const uint32_t any[] = {0, 1, 2, 3, LABEL_MOST_MOUNT, LABEL_MOST_MOUNT + 1, UINT32_MAX};
    uint8_t first[LABEL_BLOCK_BYTES];
    struct label_kept kept;
    size_t zeros = 0;

    write_worked(2, 2, 70123);
    printf("the page's picture, arm 2, mount 70123:\n");
    hex(" ", record, 4);
    hex(" ", record + 4, 8);
    hex(" ", record + 12, 2);
    hex(" ", record + 14, 2);
    hex("\n ", record + ARM, 1);
    hex(" ", record + MOUNT, 3);
    hex(" ", record + PAYLOAD, USED);
    while (PAYLOAD + USED + zeros < CHECKS && !record[PAYLOAD + USED + zeros])
        zeros++;
    printf("  then %zu zero bytes, then", zeros);
    hex(" ", record + CHECKS, 2);
    hex(" ", record + CHECKS + 2, 2);
    printf("\n  %s the format's page\n", memcmp(record, page, sizeof page) ? "UNLIKE" : "as on");

    memset(room, LENT, sizeof room);
    kept = label_read(record, LABEL_BLOCK_BYTES, page + LABEL, 8, room, sizeof room);
    look(room, USED, sizeof room);
    printf("its check: %u; read: %u, edition %u, arm %u, mount %u, %zu bits,",
           (unsigned)label_block_check(record, LABEL_BLOCK_BYTES), (unsigned)kept.refusal, (unsigned)kept.edition,
           (unsigned)kept.arm, (unsigned)kept.mount, kept.bits);
    hex("", room, USED);

    write_worked(1, 0, 0);
    memcpy(first, record, sizeof first);
    for (size_t i = 0; i < sizeof any / sizeof *any; i++)
        for (size_t j = 0; j < sizeof any / sizeof *any; j++) {
            write_worked(1, any[i], any[j]);
            if (memcmp(first, record, sizeof first))
                fail("edition 1 knows of an arm or a mount number");
        }
    hex("\nin edition 1, whatever arm and mount are given, its checks are", first + CHECKS, 4);
    printf("\n");
}

/* ---- three blocks, the last one so short that two of edition 1 would hold all the bits of edition 2 */
static size_t bits_of(uint32_t edition)
{
    return (BLOCKS - 1) * (size_t)LABEL_PAYLOAD_BITS_OF(edition) + LAST;
}

static uint32_t written(uint32_t edition, uint32_t arm, uint32_t mount, size_t lent)
{
    size_t bits = bits_of(edition);
    struct label_blocks made;

    memset(record, LENT, sizeof record);
    made = label_write(K, L, N, edition, arm, mount, page + LABEL, 8, bytes, (bits + 7) / 8, bits, record, lent);
    if (made.blocks != (made.refusal ? 0 : BLOCKS))
        fail("the writer's blocks");
    look(record, made.blocks * LABEL_BLOCK_BYTES, sizeof record);
    return made.refusal;
}

/* What the reader says of the first blocks, with so much room for each. */
static void read_back(const char *what, size_t blocks, size_t each)
{
    struct label_kept kept;

    memset(room, LENT, sizeof room);
    kept = label_read(record, blocks * LABEL_BLOCK_BYTES, page + LABEL, 8, room, blocks * each);
    look(room, (kept.bits + 7) / 8, sizeof room);
    if (memcmp(room, bytes, kept.bits / 8))
        fail("the reader kept other bits");
    if (!kept.refusal)
        printf("  %s: kept %zu, %zu bits, ended by %u; edition %u, arm %u, mount %u\n", what, kept.blocks, kept.bits,
               (unsigned)kept.ended, (unsigned)kept.edition, (unsigned)kept.arm, (unsigned)kept.mount);
    else if (kept.k || kept.levels || kept.n || kept.blocks || kept.bits || kept.ended
             || kept.edition || kept.arm || kept.mount)
        fail("the reader refused, and answered more");
    else
        printf("  %s: refused by %u\n", what, (unsigned)kept.refusal);
}

static void whole_and_cut(uint32_t edition)
{
    printf("edition %u, %zu bits: in 1535 bytes %u, in 1536 bytes", (unsigned)edition, bits_of(edition),
           (unsigned)written(edition, 1, LABEL_MOST_MOUNT, WHOLE - 1));
    printf(" %u\n", (unsigned)written(edition, 1, LABEL_MOST_MOUNT, WHOLE));
    read_back("whole", 3, 492);
    read_back("two blocks", 2, 492);
    read_back("one", 1, 492);
    read_back("room of 491 a block", 3, 491);
    read_back("room of 488 a block", 3, 488);
}

/* Block 1 is one of another record of the same bits. */
static void mixed(const char *what, uint32_t edition, uint32_t other, uint32_t arm, uint32_t mount)
{
    uint8_t block[LABEL_BLOCK_BYTES];

    if (written(other, arm, mount, WHOLE))
        fail("another record is refused");
    memcpy(block, record + LABEL_BLOCK_BYTES, sizeof block);
    written(edition, 1, 70123, WHOLE);
    memcpy(record + LABEL_BLOCK_BYTES, block, sizeof block);
    read_back(what, 3, 492);
}

/* A block of edition 2 with one byte another, its checks right. */
static void changed(const char *what, size_t block, int place, int byte)
{
    written(2, 1, 70123, WHOLE);
    record[block * LABEL_BLOCK_BYTES + place] = (uint8_t)byte;
    seal(record + block * LABEL_BLOCK_BYTES);
    read_back(what, 3, 492);
}

/* ---- the writer's refusals */
/* A call with these, and all else right: three blocks of edition 2, in room that may have a byte less. */
struct call { uint32_t k, levels, n, edition; size_t missing; const char *label; uint32_t arm, mount; };

static void judged(const char *what, struct call call)
{
    size_t bits = bits_of(2);
    struct label_blocks made;

    memset(record, LENT, sizeof record);
    made = label_write(call.k, call.levels, call.n, call.edition, call.arm, call.mount, (const uint8_t *)call.label,
                       strlen(call.label), bytes, (bits + 7) / 8, bits, record, WHOLE - call.missing);
    look(record, made.blocks * LABEL_BLOCK_BYTES, sizeof record);
    printf("  %s: %u\n", what, (unsigned)made.refusal);
}

static void in_order(void)
{
    printf("the writer, where what is judged later is wrong too:\n");
    judged("k 2", (struct call){2, 9, 19, 3, 1, "417", 0, UINT32_MAX});
    judged("L 9", (struct call){K, 9, 19, 3, 1, "417", 0, UINT32_MAX});
    judged("n 19", (struct call){K, L, 19, 3, 1, "417", 0, UINT32_MAX});
    judged("edition 3", (struct call){K, L, N, 3, 1, "417", 0, UINT32_MAX});
    judged("a byte of room missing", (struct call){K, L, N, 2, 1, "417", 0, UINT32_MAX});
    judged("label 417", (struct call){K, L, N, 2, 0, "417", 0, UINT32_MAX});
    judged("arm 0", (struct call){K, L, N, 2, 0, "0417AAL6", 0, UINT32_MAX});
    printf("and where all else is right (the low byte of 258 is 2):\n");
    judged("edition 0", (struct call){K, L, N, 0, 0, "0417AAL6", 1, 0});
    judged("edition 3", (struct call){K, L, N, 3, 0, "0417AAL6", 1, 0});
    judged("edition 258", (struct call){K, L, N, 258, 0, "0417AAL6", 1, 0});
    judged("arm 0", (struct call){K, L, N, 2, 0, "0417AAL6", 0, 0});
    judged("arm 1", (struct call){K, L, N, 2, 0, "0417AAL6", 1, 0});
    judged("arm 2", (struct call){K, L, N, 2, 0, "0417AAL6", 2, 0});
    judged("arm 3", (struct call){K, L, N, 2, 0, "0417AAL6", 3, 0});
    judged("arm 258", (struct call){K, L, N, 2, 0, "0417AAL6", 258, 0});
    judged("mount 16777215", (struct call){K, L, N, 2, 0, "0417AAL6", 1, 16777215});
    judged("mount 16777216", (struct call){K, L, N, 2, 0, "0417AAL6", 1, 16777216});
}

int main(void)
{
    uint32_t chance = 417;

    for (size_t i = 0; i < sizeof bytes; i++) {
        chance = chance * 1664525u + 1013904223u;
        bytes[i] = (uint8_t)(chance >> 24);
    }
    worked();
    whole_and_cut(1);
    whole_and_cut(2);
    in_order();
    printf("edition 2, arm 1, mount 70123, and block 1 is of\n");
    mixed("the same", 2, 2, 1, 70123);
    mixed("arm 2", 2, 2, 2, 70123);
    mixed("mount 4587", 2, 2, 1, 4587); /* each of the three bytes, another */
    mixed("mount 70379", 2, 2, 1, 70379);
    mixed("mount 70124", 2, 2, 1, 70124);
    mixed("edition 1", 2, 1, 1, 70123);
    changed("edition 3", 1, 0, 3);
    changed("arm 0", 1, ARM, 0);
    changed("arm 3", 1, ARM, 3);
    printf("and block 0 is of\n");
    changed("arm 2", 0, ARM, 2);
    changed("arm 3", 0, ARM, 3);
    printf("edition 1, and block 1 is of\n");
    mixed("the same", 1, 1, 2, 70123);
    mixed("edition 2", 1, 2, 1, 70123);
    return 0;
}
