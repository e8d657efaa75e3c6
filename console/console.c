/*
 * label-check, the vault's console: judges a record block by block and changes nothing. Without a label each block is
 * judged alone, by label_block_check. With a label the verdict is the reader's own, label_read's: which blocks it keeps,
 * which block ended the run and why, and what stands behind it. The record comes on standard input.
 *
 * What it prints of the input is numbers and labels, and labels only where they are eight characters, 0-9 or A-Z.
 */
#include <stdio.h>
#include <stdlib.h>
#include <string.h>

#include "label.h"

/* Blocks are numbered by two bytes: more than these are no record. */
enum { MOST_BLOCKS = 65536, MOST_K = 8 };
#define MOST_INPUT ((size_t)MOST_BLOCKS * LABEL_BLOCK_BYTES)

/* what a script sees */
enum { WELL = 0, NOT_WELL = 1, WRONG_USAGE = 2 };

static const char usage[] = "usage: label-check [LABEL] < record\n";
static const char help[] =
    "\n"
    "Judges the blocks of a record, 512 bytes each; nothing is changed.\n"
    "\n"
    "  LABEL   the label wanted: eight characters, 0-9 or A-Z; leading zeros count.\n"
    "          Order and label are judged too then, as decode judges them. Without\n"
    "          it each block is judged alone.\n"
    "  --help, --version\n"
    "\n"
    "The first word is the verdict:\n"
    "  GOOD    without LABEL: every block is good, alone\n"
    "  WHOLE   with LABEL: every block is kept, and the picture is whole\n"
    "  CUT     with LABEL: every block is kept, and the picture is cut; decode says\n"
    "          what it is worth\n"
    "  BAD     a block is refused or left over, bytes are, or no block came\n"
    "Then a line for each block; L are its levels, n its planes. In edition 2 one\n"
    "more has arm and mount number: without LABEL below each good block; with LABEL\n"
    "one for all blocks kept, and below each behind the run that is good alone.\n"
    "\n"
    "Ends with 0 if the verdict is GOOD, WHOLE or CUT; with 1 if it is BAD or there\n"
    "is none, since input or output failed; with 2 if it was called wrongly.\n";

/* The record: its bytes, how many, how many blocks they fill, and how many are over. */
static const uint8_t *record;
static size_t length, whole, over;

static const uint8_t *block_at(size_t i)
{
    return record + i * LABEL_BLOCK_BYTES;
}

static unsigned pair_at(const uint8_t *block, size_t place)
{
    return block[place] * 256u + block[place + 1];
}

/* Edition, arm and mount number of a block that passed, the last two 0 in edition 1. */
static unsigned edition_of(const uint8_t *block)
{
    return block[0];
}

static unsigned arm_of(const uint8_t *block)
{
    return edition_of(block) == 2 ? block[16] : 0;
}

static unsigned mount_of(const uint8_t *block)
{
    return edition_of(block) == 2 ? block[17] * 65536u + pair_at(block, 18) : 0;
}

/* The label of a block that passed, as it stands there: eight characters, each 0 to 9 or A to Z. */
static const char *label_of(const uint8_t *block)
{
    static char characters[9];

    memcpy(characters, block + 4, 8);
    return characters;
}

static const char *s(size_t count)
{
    return count == 1 ? "" : "s";
}

/* What is wrong with a block, whatever stands around it. */
static const char *meaning(uint32_t refusal)
{
    switch (refusal) {
    case LABEL_BAD_CHECK: return "damaged, a check is wrong (8)";
    case LABEL_BAD_FIELD: return "no block of edition 1 or 2, a field is wrong (9)";
    default: return "no block (6)";
    }
}

/* The line that a block which passed has in edition 2 alone. */
static void say_mount(const uint8_t *block)
{
    if (edition_of(block) == 2)
        printf("    edition 2: arm %u, mount %u\n", arm_of(block), mount_of(block));
}

static void say_over(void)
{
    if (over)
        printf("  %zu byte%s over: no whole block\n", over, s(over));
}

/* Each block alone. */
static int judge_alone(void)
{
    size_t good = 0;

    for (size_t i = 0; i < whole; i++)
        good += label_block_check(block_at(i), LABEL_BLOCK_BYTES) == LABEL_OK;
    if (!whole)
        printf("BAD: no whole block came, only %zu of 512 bytes (6)\n", over);
    else if (good == whole)
        printf("%s: %zu block%s, %s good alone", over ? "BAD" : "GOOD", whole, s(whole), whole == 1 ? "it is" : "each is");
    else
        printf("BAD: %zu block%s, %zu good alone", whole, s(whole), good);
    if (!whole)
        return NOT_WELL;
    if (over)
        printf("; %zu byte%s over", over, s(over));
    else if (good == whole)
        printf("; order and label are not judged");
    printf("\n");

    for (size_t i = 0; i < whole; i++) {
        const uint8_t *block = block_at(i);
        uint32_t refusal = label_block_check(block, LABEL_BLOCK_BYTES);

        if (refusal) {
            printf("  block %zu: %s\n", i, meaning(refusal));
            continue;
        }
        printf("  block %zu: good: %s, number %u, side %u, L %u, n %u, %u bit%s\n", i, label_of(block),
               pair_at(block, 12), 1u << block[1], block[2], block[3], pair_at(block, 14), s(pair_at(block, 14)));
        say_mount(block);
    }
    say_over();
    printf("not judged: their order, whether they are of one record, and whether it is of\n"
           "the label wanted; give LABEL for that\n");
    return good == whole && !over ? WELL : NOT_WELL;
}

/* Why block i, which is good alone, is not the next of the run: each reason that applies. */
static void say_turn(size_t i, const char *label)
{
    const uint8_t *block = block_at(i);

    if (pair_at(block, 12) != i)
        printf("    its number is %u and not %zu\n", pair_at(block, 12), i);
    if (memcmp(block + 4, label, 8))
        printf("    its label is %s and not %s\n", label_of(block), label);
    if (edition_of(block) != edition_of(record))
        printf("    its edition is %u and not %u\n", edition_of(block), edition_of(record));
    if (memcmp(block + 1, record + 1, 3))
        printf("    its side, levels or planes are not block 0's\n");
    /* edition 1 names no arm and no mount that could differ */
    if (edition_of(block) != edition_of(record))
        return;
    if (arm_of(block) != arm_of(record))
        printf("    its arm is %u and not %u\n", arm_of(block), arm_of(record));
    if (mount_of(block) != mount_of(record))
        printf("    its mount is %u and not %u\n", mount_of(block), mount_of(record));
}

static void say_ended(size_t i, uint32_t number, const char *label)
{
    printf("  block %zu ended the run: ", i);
    if (number != LABEL_BAD_TURN) {
        /* 9's words leave no room for more behind the number of a late block */
        printf("%s%s\n", number == LABEL_BAD_FIELD ? "" : "it is ", meaning(number));
        return;
    }
    printf("it is not the %s (10)\n", i ? "next block of this record" : "start of the record asked for");
    say_turn(i, label);
}

/* A block behind the run: the reader keeps none behind the block that ended it, and looks at none behind a short one. */
static void say_behind(size_t i, uint32_t ended)
{
    const uint8_t *block = block_at(i);
    uint32_t refusal = label_block_check(block, LABEL_BLOCK_BYTES);

    printf("  block %zu: %s; ", i, ended ? "not kept" : "not looked at by the reader");
    if (refusal) {
        printf("%s (%u)\n", refusal == LABEL_BAD_CHECK ? "damaged" : "no block of edition 1 or 2", (unsigned)refusal);
        return;
    }
    printf("good alone: %s, number %u\n", label_of(block), pair_at(block, 12));
    say_mount(block);
}

/* What the bits kept settle: the planes that they leave unfinished, and where the cut fell. */
static struct label_settled settled_by(struct label_kept kept, const uint8_t *payload, size_t room)
{
    static int32_t numbers[LABEL_PLACES(MOST_K)];

    return label_decode(kept.k, kept.levels, kept.n, numbers, LABEL_PLACES(kept.k), payload, room, kept.bits);
}

/* The line of planes, as decode has it. Of a plane that is running, how much is in: whole per cent of the picture's
   numbers, rounded down, so that it is never 100. */
static void say_planes(struct label_kept kept, struct label_settled settled)
{
    printf("  planes finished: %u of %u", (unsigned)(kept.n - settled.unfinished), (unsigned)kept.n);
    if (settled.unfinished)
        printf(" and %u%% of the next", (unsigned)(100 * settled.place / LABEL_PLACES(kept.k)));
    printf(", levels: %u, bits: %zu\n", (unsigned)kept.levels, kept.bits);
}

/* Like a reader that was asked for this label. */
static int judge_record(const char *label)
{
    size_t room = whole * LABEL_PAYLOAD_BYTES;
    uint8_t *payload = (uint8_t *)malloc(room + 1);
    struct label_kept kept;
    struct label_settled settled = {0, 0, 0, 0};
    uint32_t ended, p;
    unsigned full;
    int all;

    if (!payload) {
        fprintf(stderr, "REFUSED: not enough memory\n");
        return NOT_WELL;
    }
    kept = label_read(record, length, (const uint8_t *)label, strlen(label), payload, room);
    if (!kept.refusal)
        settled = settled_by(kept, payload, room);
    p = settled.unfinished;
    free(payload);
    if (kept.refusal == LABEL_BAD_ROOM) {
        printf("BAD: no whole block came, only %zu of 512 bytes (6)\n", over);
        return NOT_WELL;
    }
    if (kept.refusal == LABEL_BAD_LABEL) {
        printf("BAD: a label is eight characters, 0-9 or A-Z; leading zeros count (7)\n");
        return NOT_WELL;
    }

    all = kept.blocks == whole;
    full = LABEL_PAYLOAD_BITS_OF(kept.edition);
    printf("%s %s", !all || over ? "BAD" : p ? "CUT" : "WHOLE", label);
    if (kept.blocks)
        printf(", side %u", 1u << kept.k);
    if (all)
        printf(": %zu block%s, all kept", whole, s(whole));
    else
        printf(": %zu of %zu block%s kept", kept.blocks, whole, s(whole));
    if (all && !over)
        printf(", %smore expected", p && kept.bits == whole * full ? "" : "no ");
    if (over)
        printf("; %zu byte%s over", over, s(over));
    printf("\n");
    if (kept.edition == 2)
        printf("  edition 2: arm %u, mount %u\n", (unsigned)kept.arm, (unsigned)kept.mount);

    ended = kept.refusal ? kept.refusal : kept.ended;
    for (size_t i = 0; i < whole; i++) {
        unsigned bits = pair_at(block_at(i), 14);

        if (i < kept.blocks && bits < full)
            printf("  block %zu: kept, %u bit%s, fewer than %u: the last of its record\n", i, bits, s(bits), full);
        else if (i < kept.blocks)
            printf("  block %zu: kept, %u bits\n", i, bits);
        else if (i == kept.blocks && ended)
            say_ended(i, ended, label);
        else
            say_behind(i, ended);
    }
    say_over();
    if (kept.blocks)
        say_planes(kept, settled);
    if (kept.blocks > 1)
        printf("not judged: whether the blocks are of one shot; %s\n",
               kept.edition == 2 ? "they are of one arm and mount" : "edition 1 can't tell");
    return all && !over ? WELL : NOT_WELL;
}

/* All of standard input, as far as a record can go. */
static int read_input(void)
{
    uint8_t *bytes = NULL;
    size_t room = 0, got;

    do {
        if (length == room) {
            size_t larger = room ? 2 * room : (size_t)64 * LABEL_BLOCK_BYTES;
            uint8_t *moved;

            if (larger > MOST_INPUT)
                larger = MOST_INPUT + 1; /* a byte more shows that more came */
            moved = (uint8_t *)realloc(bytes, larger);
            if (!moved) {
                free(bytes);
                fprintf(stderr, "REFUSED: not enough memory\n");
                return 0;
            }
            bytes = moved;
            room = larger;
        }
        got = fread(bytes + length, 1, room - length, stdin);
        length += got;
    } while (got && length <= MOST_INPUT);
    record = bytes;
    if (ferror(stdin)) {
        fprintf(stderr, "REFUSED: standard input could not be read\n");
        return 0;
    }
    if (length > MOST_INPUT) {
        fprintf(stderr, "REFUSED: more came than a record has, %d blocks of 512 bytes\n", MOST_BLOCKS);
        return 0;
    }
    whole = length / LABEL_BLOCK_BYTES;
    over = length % LABEL_BLOCK_BYTES;
    return 1;
}

/* The status, once all that was said has gone out. */
static int done(int status)
{
    int failed = ferror(stdout);

    if (fclose(stdout) || failed) {
        fprintf(stderr, "REFUSED: standard output could not be written\n");
        return NOT_WELL;
    }
    return status;
}

int main(int argc, char **argv)
{
    int status = NOT_WELL;

    if (argc == 2 && !strcmp(argv[1], "--help")) {
        printf("%s%s", usage, help);
        return done(WELL);
    }
    if (argc == 2 && !strcmp(argv[1], "--version")) {
        printf("label-check " LABEL_VERSION "\n");
        return done(WELL);
    }
    if (argc > 2 || (argc == 2 && argv[1][0] == '-')) {
        fprintf(stderr, "%sMore: label-check --help\n", usage);
        return WRONG_USAGE;
    }
    if (read_input())
        status = argc == 2 ? judge_record(argv[1]) : judge_alone();
    free((void *)record);
    return done(status);
}
