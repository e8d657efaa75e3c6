/*
 * NAME
 *     label - grey label pictures, their bits and their blocks
 *
 * SYNOPSIS
 *     #include "label.h"
 *
 *     A picture into a record:
 *         label_forward    greys to wavelet numbers
 *         label_code       numbers to bits, most significant plane first
 *         label_write      bits to 512-byte blocks, of edition 1 or 2
 *     A record, whole or cut anywhere, into a picture:
 *         label_read       the longest run of good blocks, to bits
 *         label_decode     bits to numbers: what they settle, 0 elsewhere
 *         label_inverse    numbers to greys
 *         label_thumbnail  the first of the numbers to fewer greys, the side halved r times
 *         label_display    numbers to the greys of a softer picture, for the eye
 *     One block:
 *         label_block_check
 *
 *     Link with liblabel.a where it is installed, libconsole.a in the source tree (x86-64, made by
 *     tools/archive). Of the C library it asks for memcpy and memset, no more.
 *
 * DESCRIPTION
 *     A picture has S x S greys of one byte, S = 2^k, k from 3 to 8, row by row. Its S x S wavelet numbers,
 *     of 32 bits with sign, are within +-262143 and stand in Z order: the place of row r, column c
 *     interleaves their bits, the lowest bit of c lowest (row 6, column 7 is place 61). L, the levels, is
 *     from 1 to the smaller of 5 and k - 1; n, the bit planes, at most 18.
 *
 *     A label is eight ASCII characters, each 0 to 9 or A to Z. It is never a number: leading zeros count.
 *     Small letters and spaces are refused.
 *
 *     A record is of edition 1 or 2. A block of edition 1 holds at most 3936 bits; one of edition 2 names the
 *     arm that shot the picture, 1 or 2, and a mount number, 0 to 16777215, and holds at most 3904.
 *     label_write makes the edition that it is asked for; label_read and label_block_check take both, and
 *     label_read gives edition, arm and mount, the last two 0 in edition 1. What was made before version
 *     0.5.0 knows edition 1 alone, and refuses by 9 every block of edition 2 whose checks are right.
 *     Code that was compiled with a page before 0.6.0 has to be compiled anew, also if it only reads: struct
 *     label_kept is longer since 0.5.0, and struct label_settled since 0.6.0. No linker tells: with this page
 *     and an archive of two versions a program links, and then crashes or reads what nobody wrote. Take both
 *     of one version.
 *     A kept block is full at LABEL_PAYLOAD_BITS_OF(kept.edition) bits.
 *
 *     Nothing is allocated and nothing is kept between calls; a call takes at most LABEL_STACK_BYTES of
 *     stack. A slice is a pointer and a count of elements. No slice that is written to overlaps another (two
 *     that are only read may, as a label within the blocks). A pointer is never NULL, not even where the
 *     count is 0.
 *
 *     What a cut picture is worth, with p planes unfinished: no wavelet number's magnitude is above the true
 *     one, none is short by more than 2^p - 1, none that isn't zero has the wrong sign, and no grey is off by
 *     more than (7L + 1)(2^p - 1). With p = 0 it is the very picture.
 *
 *     Where the cut fell is `place`, of label_decode: the lowest place not yet settled in the plane that is
 *     running, in Z order; 0 where no plane is running or none of it is settled. A closed set settles all its
 *     places, an open test none, and a 1 that lacks its sign does not settle its number. What that is worth:
 *     the numbers before it are short by at most 2^(p - 1) - 1, the others by at most 2^p - 1.
 *
 *     A thumbnail is the picture at side S/2^r, r from 1 to L, made of the first (S/2^r)^2 numbers alone: the
 *     inverse stops r levels early, and at r = L it is the smallest band plus 128. With p = 0 it is the low
 *     band that r levels leave of the picture, plus 128 and set into 0 to 255; else no grey is further from
 *     that than (7(L - r) + 1)(2^p - 1).
 *
 *     A softer picture is for the eye. Each number that isn't zero is shown moved up in magnitude by half of
 *     what is still unknown of it: with u of its bits unread, u at least 1, by 2^(u - 1). u is p - 1 before
 *     the place where the cut fell and p from there on; with p = 0 nothing is moved. Zeros stay zeros, and
 *     the numbers lent are not changed. What that is worth, for numbers of label_decode with its p and place:
 *     where u is at least 1, each number shown that isn't zero is within 2^(u - 1) of the true one, above it
 *     or below; where u is 0 it is the true one. No grey is off by more than (7L + 1)(2^p - 1), as in the
 *     plain picture. It is not promised to be nearer to the truth than the plain one. It is for the eye: to
 *     measure or to keep, take the plain picture, of whose numbers more is proved. Measured on labels with
 *     noise, it helped with p of 3 or more, and with p of 1 mostly not; docs/SOFTER.md has it all.
 *
 *     All this is of the blocks of one coding: blocks of two shots under one label, with the same k, L and n,
 *     splice unnoticed in edition 1, and in edition 2 only if arm and mount number are the same too.
 *
 *     Was a coding cut by what label_code was lent? Not if `bits` is below both `limit` and 8 x bytes_count.
 *     If it equals one of them, label_decode tells: of these bits, `unfinished` is 0 exactly if they are all.
 *     With LABEL_MOST_BYTES(k, n) bytes and a limit of SIZE_MAX nothing is ever cut.
 *
 * REFUSALS
 *     `refusal` is 0, LABEL_OK, or the lowest of these that applies; but 13, which label_thumbnail alone has,
 *     is judged after 2 and before 3, and label_write judges the edition, which is 9, just before 6. A
 *     refused call answers 0 for all else and changes no byte and no number that it was lent. There is no 12
 *     yet.
 *      1  LABEL_BAD_SIDE      k not in 3..8
 *      2  LABEL_BAD_LEVELS    L not in its range
 *      3  LABEL_BAD_LENGTH    picture, number or working slice not S x S long; label_thumbnail: numbers not
 *                             that, picture or working slice not (S/2^r)^2 long
 *      4  LABEL_BAD_NUMBER    a number beyond +-262143; label_thumbnail: one of the first (S/2^r)^2;
 *                             label_display: one as it was lent, and not as it is shown
 *      5  LABEL_BAD_PLANES    n above 18; label_display: p above 18
 *      6  LABEL_BAD_ROOM      b beyond the bytes lent; label_write: b beyond what n planes can have, or room
 *                             under 512 bytes a block; label_read: under 512 bytes, or room under 492 for
 *                             each whole block lent; label_block_check: not 512 bytes
 *      7  LABEL_BAD_LABEL     the label given is not eight characters, 0-9 or A-Z
 *      8  LABEL_BAD_CHECK     a block's check A or B is wrong: it is damaged
 *      9  LABEL_BAD_FIELD     a block's edition, k, L, n, label, arm, payload count or an unused bit is
 *                             wrong; label_write: the edition is not 1 or 2, judged just before 6; or in
 *                             edition 2 arm is not 1 or 2, or mount above 16777215, judged after 7
 *     10  LABEL_BAD_TURN      a block's number is out of turn, its bytes 0 to 11, in edition 2 also 16 to 19,
 *                             are unlike block 0's, or its label is unlike the one expected
 *     11  LABEL_BAD_STATE     label_display: the place is S x S or more; no decoding gives one
 *     13  LABEL_BAD_HALVINGS  r not in 1..L
 *
 * EXAMPLE
 *     #include <stdio.h>
 *     #include "label.h"
 *
 *     enum { K = 6, L = 2, PLACES = LABEL_PLACES(K), BLOCKS = LABEL_MOST_BLOCKS(K, LABEL_MOST_PLANES) };
 *     enum { EDITION = 2, ARM = 1, MOUNT = 70123 };
 *     static const uint8_t name[] = {'0', '0', '0', '0', '0', '4', '1', '7'};
 *     static uint8_t picture[PLACES], bits[BLOCKS * LABEL_PAYLOAD_BYTES], record[BLOCKS * LABEL_BLOCK_BYTES];
 *     static int32_t numbers[PLACES], room[PLACES];
 *
 *     int main(void)
 *     {
 *         for (size_t i = 0; i < PLACES; i++)
 *             picture[i] = (uint8_t)(i * i / 64);
 *
 *         // a picture into a record
 *         struct label_planes planes = label_forward(K, L, picture, PLACES, numbers, PLACES);
 *         struct label_written coded = label_code(K, L, numbers, PLACES, SIZE_MAX, bits, sizeof bits);
 *         struct label_blocks made = label_write(K, L, coded.n, EDITION, ARM, MOUNT, name, sizeof name,
 *                                                bits, sizeof bits, coded.bits, record, sizeof record);
 *         if (planes.refusal || coded.refusal || made.refusal)
 *             return 1;
 *
 *         // and its first two blocks into a picture
 *         struct label_kept kept = label_read(record, 2 * LABEL_BLOCK_BYTES, name, sizeof name,
 *                                             bits, sizeof bits);
 *         struct label_settled cut = label_decode(kept.k, kept.levels, kept.n, numbers, PLACES,
 *                                                 bits, sizeof bits, kept.bits);
 *         uint32_t refusal = label_inverse(kept.k, kept.levels, numbers, PLACES,
 *                                          picture, PLACES, room, PLACES);
 *         if (kept.refusal || cut.refusal || refusal)
 *             return 1;
 *         printf("arm %u, mount %u: %zu of %zu blocks kept\n", (unsigned)kept.arm, (unsigned)kept.mount,
 *                kept.blocks, made.blocks);
 *         printf("%u of %u planes unfinished, the cut at place %zu of %u\n", (unsigned)cut.unfinished,
 *                (unsigned)kept.n, cut.place, (unsigned)PLACES);
 *         return 0;
 *     }
 *
 * WHAT IS PROVED
 *     That a call takes whatever it is given, ends, and leaves and answers what its job is defined to, and
 *     that the jobs keep the promises above: these are theorems, for every input, about the contracts and the
 *     source of the exported functions as the checker reads them; docs/PROMISES.md leads to each. What must
 *     be believed: the definitions, the checker, the compiler's back end from there to x86-64, and the
 *     boundary: that this page declares what the archive exports, and that pointers and counts are as said
 *     above. LABEL_STACK_BYTES is measured on x86-64, by console/stack.c, and not proved.
 *
 * Copyright (c) 2026 The Cantrufeddu authors
 * SPDX-License-Identifier: MIT
 */
#ifndef LABEL_H
#define LABEL_H

#include <stddef.h>
#include <stdint.h>

#ifdef __cplusplus
extern "C" {
#endif

#define LABEL_VERSION_MAJOR 0
#define LABEL_VERSION_MINOR 7
#define LABEL_VERSION_PATCH 0
#define LABEL_VERSION "0.7.0"

/* LABEL_PAYLOAD_BYTES and LABEL_PAYLOAD_BITS are those of edition 1; of whichever edition the blocks are,
   label_read asks for LABEL_PAYLOAD_BYTES of room a block. LABEL_PAYLOAD_BITS_OF takes edition 1 or 2; of a
   label_kept that is refused, whose edition is 0, it means nothing. */
#define LABEL_BLOCK_BYTES 512
#define LABEL_PAYLOAD_BYTES 492
#define LABEL_PAYLOAD_BITS 3936
#define LABEL_PAYLOAD_BITS_OF(edition) ((edition) == 1 ? LABEL_PAYLOAD_BITS : 3904)
#define LABEL_NUMBER_LIMIT 262143
#define LABEL_MOST_PLANES 18
#define LABEL_MOST_MOUNT 16777215
#define LABEL_STACK_BYTES 4096 /* measured, rounded up; a call's arguments, memcpy and memset are in it */

/* Sizes of what a caller lends, for k from 3 to 8 and n from 0 to 18: constants where k and n are, so that
   arrays can have them. A thumbnail has LABEL_PLACES(k - r) greys, r from 1 to L. No coding of n planes has
   more than n(4S^2 - 1)/3 + S^2 bits. LABEL_MOST_BLOCKS is enough in either edition: it counts the blocks of
   edition 2, which hold less. label_write needs 512 bytes of room for each block, label_read 492 for each
   whole block that it is lent. */
#define LABEL_PLACES(k) ((size_t)1 << (2 * (k)))
#define LABEL_MOST_LEVELS(k) ((k) < 6 ? (k) - 1 : 5)
#define LABEL_MOST_BITS(k, n) ((size_t)(n) * ((4 * LABEL_PLACES(k) - 1) / 3) + LABEL_PLACES(k))
#define LABEL_MOST_BYTES(k, n) ((LABEL_MOST_BITS(k, n) + 7) / 8)
#define LABEL_MOST_BLOCKS(k, n) \
    ((LABEL_MOST_BITS(k, n) + LABEL_PAYLOAD_BITS_OF(2) - 1) / LABEL_PAYLOAD_BITS_OF(2))

enum label_refusal {
    LABEL_OK = 0,
    LABEL_BAD_SIDE = 1,
    LABEL_BAD_LEVELS = 2,
    LABEL_BAD_LENGTH = 3,
    LABEL_BAD_NUMBER = 4,
    LABEL_BAD_PLANES = 5,
    LABEL_BAD_ROOM = 6,
    LABEL_BAD_LABEL = 7,
    LABEL_BAD_CHECK = 8,
    LABEL_BAD_FIELD = 9,
    LABEL_BAD_TURN = 10,
    LABEL_BAD_STATE = 11,
    LABEL_BAD_HALVINGS = 13
};

/* Fills `numbers` and gives n, the planes that they need. Refusals 1, 2, 3. */
struct label_planes { uint32_t refusal; uint32_t n; };
struct label_planes label_forward(uint32_t k, uint32_t levels,
                                  const uint8_t *picture, size_t picture_count,
                                  int32_t *numbers, size_t numbers_count);

/* Writes the first min(limit, 8 x bytes_count, all) bits; gives that count and n. Spare bits of the last byte
   written are 0, later bytes untouched. Refusals 1, 2, 3, 4. */
struct label_written { uint32_t refusal; size_t bits; uint32_t n; };
struct label_written label_code(uint32_t k, uint32_t levels,
                                const int32_t *numbers, size_t numbers_count, size_t limit,
                                uint8_t *bytes, size_t bytes_count);

/* Decodes the first b bits: writes all S x S numbers; gives the unfinished planes p, the bits read, and the
   place where the cut fell, below S x S: the lowest Z place not yet settled in the running plane, 0 where no
   plane is running or none of it is settled. Refusals 1, 2, 3, 5, 6. */
struct label_settled { uint32_t refusal; uint32_t unfinished; size_t read; size_t place; };
struct label_settled label_decode(uint32_t k, uint32_t levels, uint32_t n,
                                  int32_t *numbers, size_t numbers_count,
                                  const uint8_t *bytes, size_t bytes_count, size_t b);

/* Fills the picture; `room` ends with the greys before they are set into 0 to 255, in Z order.
   Gives the refusal: 0, 1, 2, 3, 4. */
uint32_t label_inverse(uint32_t k, uint32_t levels,
                       const int32_t *numbers, size_t numbers_count,
                       uint8_t *picture, size_t picture_count,
                       int32_t *room, size_t room_count);

/* Fills the thumbnail, r being `halvings`, from the first LABEL_PLACES(k - r) of all S x S numbers; `picture`
   and `room` have that many places. `room` ends with its greys before they are set into 0 to 255, in Z order.
   Gives the refusal, judged in this order: 1, 2, 13, 3, 4; 0 if none. */
uint32_t label_thumbnail(uint32_t k, uint32_t levels, uint32_t halvings,
                         const int32_t *numbers, size_t numbers_count,
                         uint8_t *picture, size_t picture_count,
                         int32_t *room, size_t room_count);

/* Fills the softer picture: `numbers` as label_decode left them, `unfinished` and `place` as it gave them;
   any others that are not refused are taken too. Then nothing is promised, and no refusal tells: p or place
   of another decoding, p forgotten as 0, p and place exchanged. Each number that isn't 0 is shown moved up in
   magnitude by 2^(u - 1) where u is at least 1, u being unfinished - 1 before the place (0 where `unfinished`
   is 0) and unfinished from it on. Of numbers that no decoding left so, what is moved may pass
   LABEL_NUMBER_LIMIT and reach 393215: only the numbers lent are judged. With `unfinished` 0 it is
   label_inverse's picture. `room` ends with the greys before they are set into 0 to 255, in Z order.
   Gives the refusal, judged in this order: 1, 2, 3, 4, 5, 11; 0 if none. A place of S x S or more is 11 with
   `unfinished` 0 too. */
uint32_t label_display(uint32_t k, uint32_t levels, uint32_t unfinished, size_t place,
                       const int32_t *numbers, size_t numbers_count,
                       uint8_t *picture, size_t picture_count,
                       int32_t *room, size_t room_count);

/* Writes the record of the first b bits at the front of `room`, in the edition asked for, 1 or 2; gives its
   count of blocks. In edition 2 each of them names `arm` and `mount`; in edition 1 the two are ignored. The
   three are of one type: if an arm 1 lands in `edition`, arm and mount are ignored without a word, and only
   the `edition` that label_read gives back, 1, tells.
   Refusals, judged in this order: 1, 2, 5, 9 (edition), 6, 7, 9 (arm, mount). */
struct label_blocks { uint32_t refusal; size_t blocks; };
struct label_blocks label_write(uint32_t k, uint32_t levels, uint32_t n,
                                uint32_t edition, uint32_t arm, uint32_t mount,
                                const uint8_t *label, size_t label_count,
                                const uint8_t *bytes, size_t bytes_count, size_t b,
                                uint8_t *room, size_t room_count);

/* Keeps the longest run of good blocks from the front: k, L, n, the blocks kept, their bits, and the number
   (8, 9, 10) that ended the run, 0 if none; then their edition, arm and mount, the last two 0 in edition 1.
   Their payload stands at the front of `room`. Refusals 6, 7, 8, 9, 10. */
struct label_kept {
    uint32_t refusal; uint32_t k; uint32_t levels; uint32_t n; size_t blocks; size_t bits; uint32_t ended;
    uint32_t edition; uint32_t arm; uint32_t mount;
};
struct label_kept label_read(const uint8_t *blocks, size_t blocks_count,
                             const uint8_t *label, size_t label_count,
                             uint8_t *room, size_t room_count);

/* Judges one block, of either edition, but not its number: 0, 6, 8 or 9. If its checks were right, and one or
   two of its bytes were changed in place since, or two unequal ones exchanged, it is always 8; if three were,
   not always (docs/FORMAT.md). */
uint32_t label_block_check(const uint8_t *block, size_t block_count);

#ifdef __cplusplus
}
#endif

#endif
