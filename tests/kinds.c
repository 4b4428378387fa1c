/* The kinds of all halfwords through the C interface, by the halfword and by its
 * top byte, beside ranges of top bytes written down from the data sheet. */
#include <stdbool.h>
#include <stdio.h>
#include <stdlib.h>

#include "modestsilk.h"

/* The top bytes from a first one up to the next row's, with their kind in each form:
 * on the sheet DE is Undefined. */
static const struct range {
    unsigned first;
    uint32_t bench;
    uint32_t sheet;
} ranges[] = {
#define BOTH(kind) kind, kind
    { 0x00, BOTH(SILK_THUMB_MOVE_SHIFTED_REG) },
    { 0x18, BOTH(SILK_THUMB_ADD_SUB) },
    { 0x20, BOTH(SILK_THUMB_DATA_PROCESS_IMM) },
    { 0x40, BOTH(SILK_THUMB_ALU_OPS) },
    { 0x44, BOTH(SILK_THUMB_HI_REG_OP_OR_BRANCH_EXCHANGE) },
    { 0x48, BOTH(SILK_THUMB_LDR_PC) },
    { 0x50, BOTH(SILK_THUMB_LDR_STR_REG_OFFSET) },
    { 0x52, BOTH(SILK_THUMB_LDR_STR_SHB) },
    { 0x54, BOTH(SILK_THUMB_LDR_STR_REG_OFFSET) },
    { 0x56, BOTH(SILK_THUMB_LDR_STR_SHB) },
    { 0x58, BOTH(SILK_THUMB_LDR_STR_REG_OFFSET) },
    { 0x5a, BOTH(SILK_THUMB_LDR_STR_SHB) },
    { 0x5c, BOTH(SILK_THUMB_LDR_STR_REG_OFFSET) },
    { 0x5e, BOTH(SILK_THUMB_LDR_STR_SHB) },
    { 0x60, BOTH(SILK_THUMB_LDR_STR_IMM_OFFSET) },
    { 0x80, BOTH(SILK_THUMB_LDR_STR_HALF_WORD) },
    { 0x90, BOTH(SILK_THUMB_LDR_STR_SP) },
    { 0xa0, BOTH(SILK_THUMB_LOAD_ADDRESS) },
    { 0xb0, BOTH(SILK_THUMB_ADD_SP) },
    { 0xb1, BOTH(SILK_THUMB_UNDEFINED) },
    { 0xb4, BOTH(SILK_THUMB_PUSH_POP) },
    { 0xb6, BOTH(SILK_THUMB_UNDEFINED) },
    { 0xbc, BOTH(SILK_THUMB_PUSH_POP) },
    { 0xbe, BOTH(SILK_THUMB_UNDEFINED) },
    { 0xc0, BOTH(SILK_THUMB_LDM_STM) },
    { 0xd0, BOTH(SILK_THUMB_BRANCH_CONDITIONAL) },
    { 0xde, SILK_THUMB_BRANCH_CONDITIONAL, SILK_THUMB_UNDEFINED },
    { 0xdf, BOTH(SILK_THUMB_SWI) },
    { 0xe0, BOTH(SILK_THUMB_BRANCH) },
    { 0xe8, BOTH(SILK_THUMB_UNDEFINED) },
    { 0xf0, BOTH(SILK_THUMB_BRANCH_LONG_WITH_LINK) },
};

/* Bench is 0, sheet every other number. */
static const uint32_t forms[] = { SILK_BENCH, SILK_SHEET, 2, UINT32_MAX };

#define COUNT(array) (sizeof(array) / sizeof(array)[0])

static unsigned passed, failed;

static void check(bool good, const char *what, uint32_t word, uint32_t form)
{
    if (good) {
        passed++;
    } else if (failed++ < 20) {
        printf("%s: word %04x, form %u\n", what, word, form);
    }
}

/* The range of a top byte: the last that begins at or before it. */
static const struct range *range_of(unsigned top)
{
    size_t r = COUNT(ranges) - 1;
    while (ranges[r].first > top) {
        r--;
    }
    return &ranges[r];
}

int main(void)
{
    for (size_t f = 0; f < COUNT(forms); f++) {
        uint32_t form = forms[f];
        for (uint32_t word = 0; word < 0x10000; word++) {
            uint8_t top = (uint8_t)(word >> 8);
            const struct range *range = range_of(top);
            uint32_t want = form == SILK_BENCH ? range->bench : range->sheet;
            check(silk_kind_thumb(form, (uint16_t)word) == want, "kind", word, form);
            check(silk_kind_thumb_top(form, top) == want, "kind by top byte", word, form);
        }
    }
    printf("%u passed, %u failed\n", passed, failed);
    return failed == 0 ? EXIT_SUCCESS : EXIT_FAILURE;
}
