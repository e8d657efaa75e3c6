/* The console's side of the block check: blocks that are good, short, damaged or wrong in a field, one line each. */
#include <stdio.h>
#include <string.h>

#include "label.h"
#include "seal.h"

enum { COUNT = 14, PAYLOAD = 16, ARM = 16, MOUNT = 17, PAYLOAD_2 = 20 };

static uint8_t block[LABEL_BLOCK_BYTES + 1];

/* The block that the paper gives whole: all greys 128, S 8, L 2, label 00000417. */
static void start(void)
{
    static const uint8_t front[12] = {1, 3, 2, 0, '0', '0', '0', '0', '0', '4', '1', '7'};
    static const uint8_t checks[4] = {0x01, 0x92, 0x0D, 0x54};

    memset(block, 0, sizeof block);
    memcpy(block, front, sizeof front);
    memcpy(block + CHECKS, checks, sizeof checks);
}

static void say(const char *what, size_t count)
{
    printf("%s: %u\n", what, (unsigned)label_block_check(block, count));
}

/* The paper's block with one byte changed, and its checks made right again or left as they were. */
static void changed(const char *what, int place, int byte, int sealed)
{
    start();
    block[place] = (uint8_t)byte;
    if (sealed)
        seal(block);
    say(what, LABEL_BLOCK_BYTES);
}

/* The block with a payload count, and one payload byte, sealed. */
static void counted(const char *what, int count, int place, int byte)
{
    block[COUNT] = (uint8_t)(count / 256);
    block[COUNT + 1] = (uint8_t)(count % 256);
    block[place] = (uint8_t)byte;
    seal(block);
    say(what, LABEL_BLOCK_BYTES);
}

static void counted_1(const char *what, int count, int place, int byte)
{
    start();
    counted(what, count, place, byte);
}

/* The same picture in edition 2, of this arm, with one byte changed, and sealed. */
static void start_2(int arm, int place, int byte)
{
    start();
    block[0] = 2;
    block[ARM] = (uint8_t)arm;
    block[place] = (uint8_t)byte;
    seal(block);
}

static void changed_2(const char *what, int arm, int place, int byte)
{
    start_2(arm, place, byte);
    say(what, LABEL_BLOCK_BYTES);
}

static void counted_2(const char *what, int count, int place, int byte)
{
    start_2(1, 0, 2);
    counted(what, count, place, byte);
}

int main(void)
{
    start();
    say("good", 512);
    say("no byte", 0);
    say("a byte short", 511);
    say("a byte long", 513);

    changed("payload damaged", 20, 1, 0);
    changed("A damaged", CHECKS + 1, 0x93, 0);
    changed("B damaged", CHECKS + 3, 0x55, 0);
    changed("edition damaged, its checks with it", 0, 2, 0);
    start();
    block[40] = 1;
    seal(block);
    block[40] = 0;
    block[41] = 1;
    say("A right and B wrong", 512);

    changed("edition 0", 0, 0, 1);
    changed("edition 3", 0, 3, 1);
    changed("k 2", 1, 2, 1);
    changed("k 9", 1, 9, 1);
    changed("L 0", 2, 0, 1);
    changed("k 3, L 3", 2, 3, 1);
    changed("n 18", 3, 18, 1);
    changed("n 19", 3, 19, 1);
    changed("a capital in the label", 8, 'O', 1);
    changed("a small letter in the label", 8, 'o', 1);
    changed("a space before the label", 4, ' ', 1);
    changed("block number 7, which is not judged", 13, 7, 1);

    counted_1("no bit, and the first bit set", 0, PAYLOAD, 0x80);
    counted_1("1 bit, and the first bit set", 1, PAYLOAD, 0x80);
    counted_1("1 bit, and the second bit set", 1, PAYLOAD, 0x40);
    counted_1("3935 bits, and the last bit set", 3935, CHECKS - 1, 0x01);
    counted_1("3936 bits, and the last bit set", 3936, CHECKS - 1, 0x01);
    counted_1("3937 bits", 3937, PAYLOAD, 0x00);

    changed_2("edition 2, arm 0", 0, MOUNT, 1);
    changed_2("edition 2, arm 1", 1, MOUNT, 1);
    changed_2("edition 2, arm 2", 2, MOUNT, 1);
    changed_2("edition 2, arm 3", 3, MOUNT, 1);
    changed_2("edition 2, arm 255", 255, MOUNT, 1);
    changed_2("edition 2, mount 0", 1, MOUNT, 0);
    changed_2("edition 2, mount 255", 1, MOUNT + 2, 255);
    changed_2("edition 2, k 9", 1, 1, 9);
    changed_2("edition 2, a small letter in the label", 1, 8, 'o');
    start_2(1, MOUNT, 1);
    block[MOUNT] = 2;
    say("edition 2, mount damaged", 512);
    counted_2("edition 2, no bit, and the first bit set", 0, PAYLOAD_2, 0x80);
    counted_2("edition 2, 1 bit, and the first bit set", 1, PAYLOAD_2, 0x80);
    counted_2("edition 2, 1 bit, and the second bit set", 1, PAYLOAD_2, 0x40);
    counted_2("edition 2, 3903 bits, and the last bit set", 3903, CHECKS - 1, 0x01);
    counted_2("edition 2, 3904 bits, and the last bit set", 3904, CHECKS - 1, 0x01);
    counted_2("edition 2, 3905 bits", 3905, PAYLOAD_2, 0x00);
    return 0;
}
