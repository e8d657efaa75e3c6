/*
 * The stack that each call takes, measured: stack [LARGEST_K]. A call runs in a thread; the stack below the caller is
 * painted first, and afterwards the deepest byte that lost its paint is looked for. A line for each call says whether it
 * stays within LABEL_STACK_BYTES; the bytes measured go to standard error, since another compiler may take others.
 */
#define _GNU_SOURCE
#include <pthread.h>
#include <stdio.h>
#include <stdlib.h>
#include <string.h>
#include <sys/mman.h>
#include <unistd.h>

#include "label.h"

enum { STACK = 1 << 18, MOST_K = 8, ROOM = LABEL_MOST_BLOCKS(MOST_K, LABEL_MOST_PLANES) };

/* The address sanitizer puts its own memcpy and memset in place, which take more. */
#ifdef __SANITIZE_ADDRESS__
enum { OTHERS = 4096 };
#else
enum { OTHERS = 0 };
#endif

/* The same memory at two addresses: the thread runs on `stack`; painting and looking is done through `view`, since what
   lies below a stack pointer is no memory to a memory checker. */
static uint8_t *stack, *view;

static uint8_t picture[LABEL_PLACES(MOST_K)], bytes[ROOM * LABEL_PAYLOAD_BYTES], record[ROOM * LABEL_BLOCK_BYTES];
static int32_t numbers[LABEL_PLACES(MOST_K)], room[LABEL_PLACES(MOST_K)];
static const uint8_t label[8] = {'0', '0', '0', '0', '0', '4', '1', '7'};
static uint32_t k, levels, halvings, n, edition, refusal;
static size_t places, bits, blocks;

static void forward(void)
{
    struct label_planes planes = label_forward(k, levels, picture, places, numbers, places);
    refusal = planes.refusal;
    n = planes.n;
}

static void code(void)
{
    struct label_written written = label_code(k, levels, numbers, places, SIZE_MAX, bytes, sizeof bytes);
    refusal = written.refusal;
    n = written.n;
    bits = written.bits;
}

static void decode(void)
{
    refusal = label_decode(k, levels, n, numbers, places, bytes, sizeof bytes, bits).refusal;
}

static void inverse(void)
{
    refusal = label_inverse(k, levels, numbers, places, picture, places, room, places);
}

static void thumbnail(void)
{
    size_t few = LABEL_PLACES(k - halvings);
    refusal = label_thumbnail(k, levels, halvings, numbers, places, picture, few, room, few);
}

static void display(void)
{
    refusal = label_display(k, levels, LABEL_MOST_PLANES, places / 2, numbers, places, picture, places, room, places);
}

static void write_record(void)
{
    struct label_blocks made = label_write(k, levels, n, edition, 2, LABEL_MOST_MOUNT, label, sizeof label,
                                           bytes, sizeof bytes, bits, record, sizeof record);
    refusal = made.refusal;
    blocks = made.blocks;
}

static void read_record(void)
{
    refusal = label_read(record, blocks * LABEL_BLOCK_BYTES, label, sizeof label, bytes, sizeof bytes).refusal;
}

static void block_check(void)
{
    refusal = label_block_check(record, LABEL_BLOCK_BYTES);
}

static struct { const char *name; void (*call)(void); size_t most; } calls[] = {
    {"label_forward", forward, 0}, {"label_code", code, 0}, {"label_decode", decode, 0},
    {"label_inverse", inverse, 0}, {"label_thumbnail", thumbnail, 0}, {"label_display", display, 0},
    {"label_write", write_record, 0}, {"label_read", read_record, 0}, {"label_block_check", block_check, 0},
};
enum { FORWARD, CODE, DECODE, INVERSE, THUMBNAIL, DISPLAY, WRITE, READ, CHECK, CALLS };

static void fail(const char *what)
{
    printf("stack: %s\n", what);
    exit(1);
}

struct run { void (*call)(void); uint8_t paint; size_t taken; };

/* No function is called between painting and looking but the one that is measured: a call would leave its own marks. */
static void *measured(void *argument)
{
    struct run *run = (struct run *)argument;
    volatile uint8_t *seen = view;
    uint8_t *top;
    size_t free_bytes, i;

    __asm__ volatile("mov %%rsp, %0" : "=r"(top));
    free_bytes = (size_t)(top - stack);
    for (i = 0; i < free_bytes; i++)
        seen[i] = run->paint;
    run->call();
    for (i = 0; i < free_bytes && seen[i] == run->paint; i++)
        ;
    run->taken = free_bytes - i;
    return NULL;
}

/* Painted twice, since a call may happen to leave the paint's own byte in the deepest place. */
static void measure(int which)
{
    static const uint8_t paints[2] = {0xA5, 0x5A};
    pthread_attr_t attributes;
    pthread_t thread;

    for (int i = 0; i < 2; i++) {
        struct run run = {calls[which].call, paints[i], 0};
        if (pthread_attr_init(&attributes) || pthread_attr_setstack(&attributes, stack, STACK)
            || pthread_create(&thread, &attributes, measured, &run) || pthread_join(thread, NULL)
            || pthread_attr_destroy(&attributes))
            fail("no thread to measure in");
        if (refusal)
            fail("a call refused");
        if (run.taken > calls[which].most)
            calls[which].most = run.taken;
    }
}

static uint32_t chance(void)
{
    static uint32_t state = 417;

    state = state * 1664525u + 1013904223u;
    return state >> 8;
}

/* One way through all calls, with numbers that are dense (0), nearly all zero (1) or those of a picture of noise (2). */
static void tour(int kind)
{
    for (size_t i = 0; i < places; i++) {
        picture[i] = (uint8_t)chance();
        numbers[i] = kind ? 0 : (int32_t)(chance() % (2 * LABEL_NUMBER_LIMIT + 1)) - LABEL_NUMBER_LIMIT;
    }
    numbers[places - 1] = LABEL_NUMBER_LIMIT;
    if (kind == 2)
        measure(FORWARD);
    measure(CODE);
    for (edition = 1; edition <= 2; edition++) {
        measure(WRITE);
        measure(CHECK);
        measure(READ);
    }
    measure(DECODE);
    measure(INVERSE);
    measure(DISPLAY);
    for (halvings = 1; halvings <= levels; halvings++)
        measure(THUMBNAIL);
}

int main(int argc, char **argv)
{
    uint32_t largest = argc > 1 ? (uint32_t)atoi(argv[1]) : MOST_K;
    int status = 0, memory = memfd_create("stack", 0);

    if (memory < 0 || ftruncate(memory, STACK))
        fail("no memory for a stack");
    stack = (uint8_t *)mmap(NULL, STACK, PROT_READ | PROT_WRITE, MAP_SHARED, memory, 0);
    view = (uint8_t *)mmap(NULL, STACK, PROT_READ | PROT_WRITE, MAP_SHARED, memory, 0);
    if (stack == MAP_FAILED || view == MAP_FAILED)
        fail("no memory for a stack");

    /* once without measuring: the loader looks up memcpy and memset at their first call, on the caller's stack */
    for (int round = 0; round < 2; round++) {
        if (round)
            for (int i = 0; i < CALLS; i++)
                calls[i].most = 0;
        for (k = 3; k <= (round ? largest : 3); k++) {
            places = LABEL_PLACES(k);
            for (levels = 1; levels <= LABEL_MOST_LEVELS(k); levels++)
                for (int kind = 0; kind < 3; kind++)
                    tour(kind);
        }
    }
    for (int i = 0; i < CALLS; i++) {
        int within = calls[i].most > 0 && calls[i].most <= LABEL_STACK_BYTES + OTHERS;

        printf("%s: %s %d bytes of stack\n", calls[i].name, within ? "within" : "NOT WITHIN", LABEL_STACK_BYTES);
        fprintf(stderr, "%s took %zu bytes of stack\n", calls[i].name, calls[i].most);
        status |= !within;
    }
    return status;
}
