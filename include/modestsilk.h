/* Modestsilk: lines of ARM7TDMI instruction words.
 *
 * Any word, address and buffer gets an answer; nothing has to be checked first.
 * A form of 0 is bench, every other number sheet. A kind is answered as one of the
 * numbers below. That of a Thumb word goes by its top byte, bits 15 to 8, alone, so
 * silk_kind_thumb_top(form, w >> 8) is silk_kind_thumb(form, w) for every w.
 *
 * A print answers 0, or the number of a refusal: 1 (condition 1111 where the
 * condition is printed), 2 (halfword transfer of type 00), 9 (on the sheet: a test,
 * tst, teq, cmp or cmn, whose S, bit 20, is clear), 3 (the buffer is shorter than
 * the line), in this order, and of a call pair 5 (the halfwords are not a first half
 * and then a second), which comes before 3. The length goes through the pointer and
 * is 0 on a refusal; the bytes behind the line, and on a refusal all bytes, keep
 * their values. A line has from 5 to 80 bytes and no end mark, that of a pair 13. A
 * read takes any bytes and answers 0 with the lowest word that prints just that line
 * at that address, or 4 with word 0 where no word does.
 *
 * A Thumb call is two halfwords, a first half (top bits 11110) and then a second
 * (11111). silk_print_pair prints the two as one sheet line with the call's
 * target; silk_print_thumb prints each by itself. silk_read_pair answers 0 with
 * the one pair that prints a line at that address, or 4 with both halves 0.
 * silk_unpaired answers 1 with the index of the earliest half of a run that lacks
 * its partner (directly behind a first half, directly before a second), or 0 with
 * index 0 where all are paired.
 *
 * silk_list_step answers one step of the listing of an image: 0 to 65536 bytes,
 * little-endian, with base as the address of the first; stretches are the parts
 * in Thumb, pairs of offset and length, 32 bits each, little-endian and sorted,
 * and the rest is ARM. The sheet line of what stands at the place goes into the
 * buffer; its offset, its byte length (4, in Thumb 2, or 4 for a call pair inside
 * one stretch) and the line's length go through the pointers. A listing begins at
 * place 0, and its next place is offset + bytes. The answer is
 *   0   the line; with bytes 0 the end mark, its offset the place,
 *   1, 2, 9   that word is refused: bytes 4, length 0, and the listing goes on,
 *   3   the buffer is shorter than the line: bytes 0, length 0, offset the place,
 *   6   the image has more than 65536 bytes, or not a multiple of 4,
 *   7   the stretches are not whole pairs, or a pair has length 0, an offset or a
 *       length that is not a multiple of 4, an end past the image, or an offset
 *       below the end of the pair before it,
 *   8   the place is past the image's end, or odd in Thumb, or no multiple of 4
 *       in ARM,
 * with 6, 7 and 8 in this order before the others, and all three numbers 0. Each
 * call looks at all stretches. A listing is put aside as its place and resumed
 * there, over the image as it then is: a second half of a call at that place
 * prints alone, though a listing from the start would show the pair.
 *
 * silk_patch overwrites one word of an image, the 4 bytes at an offset or in Thumb
 * the 2, with the lowest word that prints the sheet line at base + offset, as
 * silk_read_arm or silk_read_thumb gives it. The answer is 0, or
 *   6, 7   as above,
 *   8   the offset is no place for a word: as above, or it is the image's end,
 *   4   no word of the set at that place prints the line there,
 * in this order, and then the image keeps its bytes. A call pair takes two
 * patches, as its line is no halfword's; in ARM such a line is that of bl. The line
 * of a test stores the word with S. A word that is not the lowest of its line cannot
 * be patched in: F800, which prints as F000 does.
 *
 * silk_steps_at takes up to 64 (SILK_MOST_ADDRESSES) addresses of an image, and gives
 * for each the offset of the step that it lies in, in a listing from place 0: an
 * address in the middle of a word gets the word's offset, one in the second half of a
 * call pair the pair's. The place of an address is address - base, modulo 2^32; places
 * must not descend, and equal ones are fine. The answer is 0, or
 *   6, 7   as above,
 *   10  there are more than 64 addresses,
 *   11  the place of an address is below that of the one before it,
 * in this order. It has 64 numbers: one for each address, 0xffffffff (SILK_NO_OFFSET)
 * where the place is outside the image, and behind them, or on a refusal everywhere,
 * 0xffffffff. They are written to the first 64 of offsets, or to all where it has
 * fewer; what is behind the 64th keeps its value. One walk over the steps serves all
 * addresses, and prints nothing.
 *
 * silk_worst_run tells where data that is taken for code crowds an image. A run is 256
 * consecutive steps of a listing from place 0, or all of them where there are fewer. A
 * step shows no instruction where its word is refused with 1, 2 or 9, or where its line
 * is <Undefined>, in ARM and in Thumb. The largest number of such steps in one run goes
 * through count, and the offset of the first step of the first run that has so many
 * through offset; where none has any, and of an image of 0 bytes, both are 0. The answer
 * is 0, or 6 or 7 as above, and then both numbers are 0. Nothing is printed.
 *
 * silk_address_arm, silk_address_thumb and silk_address_pair tell which address the
 * sheet line of a word, a halfword or a call pair at an address shows, so that lines
 * are sorted by it without being read: where a branch or a call goes, what a Thumb load
 * from pc reads, or what an ARM transfer with an offset from pc reads or writes, by its
 * comment. The answer is 1 with that address behind shown, or 0 with 0 there where the
 * line shows none, where the word is refused with 1, 2 or 9, or where the halfwords are
 * no pair. A line shows one address at most, as its last ten bytes. The line of the same
 * word or pair d bytes further on, modulo 2^32, has an address there that is d higher,
 * and all its other bytes are the same; of a Thumb load from pc that holds where d is a
 * multiple of 4. Where none is shown, the line is the same everywhere. A print answers
 * the same number and length at both places, 3 among them.
 *
 * What the pointers must be: line points to capacity bytes (a print) or length
 * bytes (a read or a patch), halfwords and addresses to count of theirs, offsets to
 * capacity of them, image and stretches to as many bytes as their lengths say, and
 * may be NULL where that number is 0; length, word, first, second, index, offset, bytes
 * shown and, in silk_worst_run, count point to memory for one value each, and are never
 * NULL.
 * What a call writes to must not overlap anything else that it is given, nor be used by
 * another call at that time. The functions keep no state, so any thread may call them.
 *
 * Link with crates/modestsilk/out/libmodestsilk.a (rt lib, in crates/modestsilk).
 */
#ifndef MODESTSILK_H
#define MODESTSILK_H

#include <stddef.h>
#include <stdint.h>

#ifdef __cplusplus
extern "C" {
#endif

enum { SILK_BENCH = 0, SILK_SHEET = 1 };

enum { SILK_MOST_ADDRESSES = 64 };
#define SILK_NO_OFFSET UINT32_C(0xffffffff)

enum silk_arm_kind {
    SILK_ARM_BRANCH_EXCHANGE = 0,
    SILK_ARM_BRANCH_LINK = 1,
    SILK_ARM_SOFTWARE_INTERRUPT = 2,
    SILK_ARM_MULTIPLY = 3,
    SILK_ARM_MULTIPLY_LONG = 4,
    SILK_ARM_SINGLE_DATA_TRANSFER = 5,
    SILK_ARM_HALFWORD_DATA_TRANSFER_REG_OFFSET = 6,
    SILK_ARM_HALFWORD_DATA_TRANSFER_IMMEDIATE_OFFSET = 7,
    SILK_ARM_DATA_PROCESSING = 8,
    SILK_ARM_BLOCK_DATA_TRANSFER = 9,
    SILK_ARM_SINGLE_DATA_SWAP = 10,
    SILK_ARM_MOVE_FROM_STATUS = 11,
    SILK_ARM_MOVE_TO_STATUS = 12,
    SILK_ARM_MOVE_TO_FLAGS = 13,
    SILK_ARM_UNDEFINED = 14
};

enum silk_thumb_kind {
    SILK_THUMB_MOVE_SHIFTED_REG = 0,
    SILK_THUMB_ADD_SUB = 1,
    SILK_THUMB_DATA_PROCESS_IMM = 2,
    SILK_THUMB_ALU_OPS = 3,
    SILK_THUMB_HI_REG_OP_OR_BRANCH_EXCHANGE = 4,
    SILK_THUMB_LDR_PC = 5,
    SILK_THUMB_LDR_STR_REG_OFFSET = 6,
    SILK_THUMB_LDR_STR_SHB = 7,
    SILK_THUMB_LDR_STR_IMM_OFFSET = 8,
    SILK_THUMB_LDR_STR_HALF_WORD = 9,
    SILK_THUMB_LDR_STR_SP = 10,
    SILK_THUMB_LOAD_ADDRESS = 11,
    SILK_THUMB_ADD_SP = 12,
    SILK_THUMB_PUSH_POP = 13,
    SILK_THUMB_LDM_STM = 14,
    SILK_THUMB_BRANCH_CONDITIONAL = 15,
    SILK_THUMB_SWI = 16,
    SILK_THUMB_BRANCH = 17,
    SILK_THUMB_BRANCH_LONG_WITH_LINK = 18,
    SILK_THUMB_UNDEFINED = 19
};

uint32_t silk_kind_arm(uint32_t form, uint32_t word);
uint32_t silk_kind_thumb(uint32_t form, uint16_t word);
uint32_t silk_kind_thumb_top(uint32_t form, uint8_t top);

uint32_t silk_print_arm(uint32_t form, uint32_t word, uint32_t address, uint8_t *line, size_t capacity, size_t *length);
uint32_t silk_print_thumb(uint32_t form, uint16_t word, uint32_t address, uint8_t *line, size_t capacity, size_t *length);

uint32_t silk_read_arm(uint32_t form, uint32_t address, const uint8_t *line, size_t length, uint32_t *word);
uint32_t silk_read_thumb(uint32_t form, uint32_t address, const uint8_t *line, size_t length, uint16_t *word);

uint32_t silk_print_pair(uint16_t first, uint16_t second, uint32_t address, uint8_t *line, size_t capacity, size_t *length);
uint32_t silk_read_pair(uint32_t address, const uint8_t *line, size_t length, uint16_t *first, uint16_t *second);
uint32_t silk_unpaired(const uint16_t *halfwords, size_t count, size_t *index);

uint32_t silk_list_step(const uint8_t *image, size_t image_length, const uint8_t *stretches, size_t stretches_length, uint32_t base, uint32_t place,
                        uint8_t *line, size_t capacity, uint32_t *offset, uint32_t *bytes, size_t *length);

uint32_t silk_patch(uint8_t *image, size_t image_length, const uint8_t *stretches, size_t stretches_length, uint32_t base, uint32_t offset,
                    const uint8_t *line, size_t length);

uint32_t silk_steps_at(const uint8_t *image, size_t image_length, const uint8_t *stretches, size_t stretches_length, uint32_t base,
                       const uint32_t *addresses, size_t count, uint32_t *offsets, size_t capacity);

uint32_t silk_worst_run(const uint8_t *image, size_t image_length, const uint8_t *stretches, size_t stretches_length, uint32_t *count, uint32_t *offset);

uint32_t silk_address_arm(uint32_t word, uint32_t address, uint32_t *shown);
uint32_t silk_address_thumb(uint16_t word, uint32_t address, uint32_t *shown);
uint32_t silk_address_pair(uint16_t first, uint16_t second, uint32_t address, uint32_t *shown);

#ifdef __cplusplus
}
#endif

#endif
