/* The worked lines, bench and sheet, through the C interface, into buffers that
 * are too short, exact and too long, with guard bytes around them and a page
 * without access behind them; and lines that are read back. Call pairs among them. */
#include <stdbool.h>
#include <stdio.h>
#include <stdlib.h>
#include <string.h>
#include <sys/mman.h>

#include "modestsilk.h"

enum { PAGE = 4096, MIDDLE = 1024, GUARD = 0xa5, LONGEST = 80 };

/* Of a call pair a word holds both halves, the first above. It has one line, so its
 * answers are the same for all forms. */
enum set { ARM, THUMB, PAIR };

/* What a form answers: the number, and the line where it is 0. */
struct answer {
    uint32_t number;
    const char *line;
};

#define LINE(text) { 0, text }
#define REFUSAL(number) { number, "" }
#define BOTH(answer) answer, answer

static const struct row {
    enum set set;
    uint32_t word;
    uint32_t address;
    struct answer bench;
    struct answer sheet;
} table[] = {
    { ARM, 0xe0821003, 0, LINE("add\tr2, r2, r3"), LINE("add\tr1, r2, r3") },
    { ARM, 0xe5110004, 0, LINE("ldr\tr0, [r1, #4294967292]\t; 0xfffffffc"), LINE("ldr\tr0, [r1, #-4]\t; 0xfffffffc") },
    { ARM, 0xe7910002, 0, LINE("<Undefined>"), LINE("ldr\tr0, [r1, r2]") },
    { ARM, 0xe59f0004, 0x100, LINE("ldr\tr0, [pc, #4]\t; 0x10c"), LINE("ldr\tr0, [pc, #4]\t; 0x0000010c") },
    { ARM, 0xeafffffe, 0x100, LINE("b\t0x100"), LINE("b\t0x00000100") },
    { ARM, 0xf12fff10, 0, LINE("bx\tr0"), REFUSAL(1) },
    { ARM, 0xe1800090, 0, REFUSAL(2), REFUSAL(2) },
    { ARM, 0xf1800090, 0, REFUSAL(1), REFUSAL(1) },
    { THUMB, 0x4480, 0, LINE("add\tr0, r0"), LINE("add\tr8, r0") },
    { THUMB, 0xc808, 0, LINE("ldm\tr1!, {r3}"), LINE("ldm\tr0!, {r3}") },
    { THUMB, 0xb0ff, 0, LINE("add\tsp, #fffffe04"), LINE("add\tsp, #-0x1fc") },
    /* The words of the row program's example. */
    { THUMB, 0xde00, 0x100, LINE("b\t0x104"), LINE("<Undefined>") },
    { ARM, 0xf0000000, 0, REFUSAL(1), REFUSAL(1) },
    /* The shortest bench line and the longest line, of 5 and 80 bytes. */
    { ARM, 0xeafffffe, 0, LINE("b\t0x0"), LINE("b\t0x00000000") },
    { ARM, 0x086affff, 0, LINE("stmdaeq\tr10!, {r0, r1, r2, r3, r4, r5, r6, r7, r8, r9, r10, fp, ip, sp, lr, pc}^"),
      LINE("stmdaeq\tr10!, {r0, r1, r2, r3, r4, r5, r6, r7, r8, r9, r10, fp, ip, sp, lr, pc}^") },
    /* Addresses have eight digits on the sheet. */
    { ARM, 0x0b000000, 0xfffffff8, LINE("bleq\t0x0"), LINE("bleq\t0x00000000") },
    { ARM, 0xe15f00b4, 0x100, LINE("ldrh\tr0, [pc, #4294967292]\t; 0x104"), LINE("ldrh\tr0, [pc, #-4]\t; 0x00000104") },
    { ARM, 0xe4af1008, 0x100, LINE("strt\tr1, [pc], #8\t; 0x110"), LINE("strt\tr1, [pc], #8\t; 0x00000110") },
    { ARM, 0xe5bf1008, 0x100, LINE("ldr\tr1, [pc, #8]!\t; 0x110"), LINE("ldr\tr1, [pc, #8]!\t; 0x00000110") },
    { THUMB, 0x4801, 0x100, LINE("ldr\tr0, [pc, #0x4] ; = #0x108"), LINE("ldr\tr0, [pc, #0x4] ; = #0x00000108") },
    { THUMB, 0xd0fe, 0x100, LINE("beq\t0x100"), LINE("beq\t0x00000100") },
    { THUMB, 0xe7fe, 0x100, LINE("b\t0x100"), LINE("b\t0x00000100") },
    /* An amount of 0 prints on the sheet as what it means. */
    { ARM, 0xe1a01022, 0, LINE("mov\tr0, r2, lsr #0"), LINE("mov\tr1, r2, lsr #32") },
    { ARM, 0xe1a01042, 0, LINE("mov\tr0, r2, asr #0"), LINE("mov\tr1, r2, asr #32") },
    { ARM, 0xe1a01062, 0, LINE("mov\tr0, r2, ror #0"), LINE("mov\tr1, r2, rrx") },
    { ARM, 0xe1a01002, 0, LINE("mov\tr0, r2"), LINE("mov\tr1, r2") },
    { ARM, 0xe1a010e2, 0, LINE("mov\tr0, r2, ror #1"), LINE("mov\tr1, r2, ror #1") },
    { ARM, 0xe1a01fa2, 0, LINE("mov\tr0, r2, lsr #31"), LINE("mov\tr1, r2, lsr #31") },
    { ARM, 0xe1a01072, 0, LINE("mov\tr0, r2, ror r0"), LINE("mov\tr1, r2, ror r0") },
    { ARM, 0xe0821063, 0, LINE("add\tr2, r2, r3, ror #0"), LINE("add\tr1, r2, r3, rrx") },
    { ARM, 0xe128f042, 0, LINE("msr\tCPSR_f, r2, asr #0"), LINE("msr\tCPSR_f, r2, asr #32") },
    { ARM, 0xe128f062, 0, LINE("msr\tCPSR_f, r2, ror #0"), LINE("msr\tCPSR_f, r2, rrx") },
    { ARM, 0xe7910062, 0, LINE("<Undefined>"), LINE("ldr\tr0, [r1, r2, rrx]") },
    { ARM, 0xe7110062, 0, LINE("<Undefined>"), LINE("ldr\tr0, [r1, -r2, rrx]") },
    { ARM, 0xe7310062, 0, LINE("<Undefined>"), LINE("ldr\tr0, [r1, -r2, rrx]!") },
    { ARM, 0xe6910042, 0, LINE("<Undefined>"), LINE("ldr\tr0, [r1], r2, asr #32") },
    { ARM, 0xe6010062, 0, LINE("<Undefined>"), LINE("str\tr0, [r1], -r2, rrx") },
    { THUMB, 0x0008, 0, LINE("LSL\tr0, r1, #0"), LINE("LSL\tr0, r1, #0") },
    { THUMB, 0x0808, 0, LINE("LSR\tr0, r1, #0"), LINE("LSR\tr0, r1, #32") },
    { THUMB, 0x1008, 0, LINE("ASR\tr0, r1, #0"), LINE("ASR\tr0, r1, #32") },
    { THUMB, 0x0848, 0, LINE("LSR\tr0, r1, #1"), LINE("LSR\tr0, r1, #1") },
    /* Tests without S are refused with 9 on the sheet, but 1 comes first. */
    { ARM, 0xe1000000, 0, LINE("tst\tr0, r0"), REFUSAL(9) },
    { ARM, 0xe1200000, 0, LINE("teq\tr0, r0"), REFUSAL(9) },
    { ARM, 0xe1400000, 0, LINE("cmp\tr0, r0"), REFUSAL(9) },
    { ARM, 0xe1600000, 0, LINE("cmn\tr0, r0"), REFUSAL(9) },
    { ARM, 0xe3000000, 0, LINE("tst\tr0, #0\t; 0x0"), REFUSAL(9) },
    { ARM, 0xe3200000, 0, LINE("teq\tr0, #0\t; 0x0"), REFUSAL(9) },
    { ARM, 0xe3400000, 0, LINE("cmp\tr0, #0\t; 0x0"), REFUSAL(9) },
    { ARM, 0xe3600000, 0, LINE("cmn\tr0, #0\t; 0x0"), REFUSAL(9) },
    { ARM, 0xe121f000, 0, LINE("teq\tr1, r0"), REFUSAL(9) },
    { ARM, 0xe120f000, 0, LINE("teq\tr0, r0"), REFUSAL(9) },
    { ARM, 0xe320f000, 0, LINE("teq\tr0, #0\t; 0x0"), REFUSAL(9) },
    { ARM, 0x01600003, 0, LINE("cmneq\tr0, r3"), REFUSAL(9) },
    { ARM, 0xf1000000, 0, REFUSAL(1), REFUSAL(1) },
    /* With S they print. */
    { ARM, 0xe1100000, 0, BOTH(LINE("tst\tr0, r0")) },
    { ARM, 0xe1300000, 0, BOTH(LINE("teq\tr0, r0")) },
    { ARM, 0xe1500000, 0, BOTH(LINE("cmp\tr0, r0")) },
    { ARM, 0xe1700000, 0, BOTH(LINE("cmn\tr0, r0")) },
    { ARM, 0xe11f0000, 0, BOTH(LINE("tst\tpc, r0")) },
    { ARM, 0xe3100000, 0, BOTH(LINE("tst\tr0, #0\t; 0x0")) },
    { ARM, 0xe3700000, 0, BOTH(LINE("cmn\tr0, #0\t; 0x0")) },
    /* So do words of other kinds without that bit. */
    { ARM, 0xe1000090, 0, BOTH(LINE("swp\tr0, r0, [r0]")) },
    { ARM, 0xe10000b0, 0, BOTH(LINE("strh\tr0, [r0, -r0]")) },
    { ARM, 0xe10f0000, 0, BOTH(LINE("mrs\tr0, CPSR")) },
    { ARM, 0xe129f000, 0, BOTH(LINE("msr\tCPSR, r0")) },
    { ARM, 0xe328f000, 0, BOTH(LINE("msr\tCPSR_f, #0\t; 0x0\t; N=false Z=false C=false V=false")) },
    { ARM, 0xe12fff10, 0, BOTH(LINE("bx\tr0")) },
    /* Other numbers have as many as they need. */
    { ARM, 0xe5910004, 0x100, LINE("ldr\tr0, [r1, #4]\t; 0x4"), LINE("ldr\tr0, [r1, #4]\t; 0x4") },
    { ARM, 0xe3a0f004, 0x100, LINE("mov\tr0, #4\t; 0x4"), LINE("mov\tpc, #4\t; 0x4") },
    { ARM, 0xef000010, 0x100, LINE("swi\t#0x10"), LINE("swi\t#0x10") },
    { THUMB, 0xa001, 0x100, LINE("add\tr0, pc, #0x4"), LINE("add\tr0, pc, #0x4") },
    { THUMB, 0xf001, 0x100, LINE("bl\t#0x00001000"), LINE("bl\t#0x00001000") },
    /* Call pairs, on the sheet; refusal 5 comes before 3. */
    { PAIR, 0xf000f800, 0, BOTH(LINE("bl\t0x00000004")) },
    { PAIR, 0xf7fffffe, 0x100, BOTH(LINE("bl\t0x00000100")) },
    { PAIR, 0xf400f800, 0, BOTH(LINE("bl\t0xffc00004")) },
    { PAIR, 0xf3ffffff, 0, BOTH(LINE("bl\t0x00400002")) },
    { PAIR, 0xf000f800, 0xfffffffe, BOTH(LINE("bl\t0x00000002")) },
    { PAIR, 0xf001f801, 1, BOTH(LINE("bl\t0x00001007")) },
    { PAIR, 0xf800f000, 0, BOTH(REFUSAL(5)) },
    { PAIR, 0xf000f000, 0, BOTH(REFUSAL(5)) },
    { PAIR, 0xf800f800, 0, BOTH(REFUSAL(5)) },
    { PAIR, 0xe000f800, 0, BOTH(REFUSAL(5)) },
    { PAIR, 0xf000e800, 0, BOTH(REFUSAL(5)) },
    /* Their halves alone. */
    { THUMB, 0xf000, 0, BOTH(LINE("bl\t#0x00000000")) },
    { THUMB, 0xf800, 0, BOTH(LINE("bl\t#0x00000000")) },
    { THUMB, 0xf7ff, 0x100, BOTH(LINE("bl\t#0xfffff000")) },
    { THUMB, 0xfffe, 0x102, BOTH(LINE("bl\t#0x00000ffc")) },
};

/* Words whose kind differs between the forms, and two others. */
static const struct kind {
    enum set set;
    uint32_t word;
    uint32_t bench;
    uint32_t sheet;
} kinds[] = {
    { ARM, 0xe0821003, SILK_ARM_DATA_PROCESSING, SILK_ARM_DATA_PROCESSING },
    { ARM, 0xe7910002, SILK_ARM_UNDEFINED, SILK_ARM_SINGLE_DATA_TRANSFER },
    { ARM, 0xe7910012, SILK_ARM_SINGLE_DATA_TRANSFER, SILK_ARM_UNDEFINED },
    { THUMB, 0x4480, SILK_THUMB_HI_REG_OP_OR_BRANCH_EXCHANGE, SILK_THUMB_HI_REG_OP_OR_BRANCH_EXCHANGE },
    { THUMB, 0xde00, SILK_THUMB_BRANCH_CONDITIONAL, SILK_THUMB_UNDEFINED },
};

/* Lines to be read, and the words; NONE where no word prints the line. */
enum { NONE = 1 };

static const struct reading {
    enum set set;
    uint32_t address;
    const char *line;
    uint32_t bench;
    uint32_t sheet;
} readings[] = {
    { ARM, 0, "add\tr1, r2, r3", NONE, 0xe0821003 },
    { ARM, 0, "tst\tpc, r0", 0xe11f0000, 0xe11f0000 },
    { ARM, 0, "teq\tpc, r0", 0xe12f0000, 0xe13f0000 },
    { ARM, 0, "cmp\tpc, r0", 0xe15f0000, 0xe15f0000 },
    { ARM, 0, "cmn\tpc, r0", 0xe16f0000, 0xe17f0000 },
    { ARM, 0, "tst\tpc, r1", 0xe10f0001, 0xe11f0001 },
    { ARM, 0, "tst\tr0, r0", 0xe1000000, 0xe1100000 },
    { ARM, 0, "teq\tr0, r0", 0xe1200000, 0xe1300000 },
    { ARM, 0, "cmp\tr0, r0", 0xe1400000, 0xe1500000 },
    { ARM, 0, "cmn\tr0, r0", 0xe1600000, 0xe1700000 },
    { ARM, 0, "tst\tr0, #0\t; 0x0", 0xe3000000, 0xe3100000 },
    { ARM, 0, "teq\tr0, #0\t; 0x0", 0xe3200000, 0xe3300000 },
    { ARM, 0, "cmp\tr0, #0\t; 0x0", 0xe3400000, 0xe3500000 },
    { ARM, 0, "cmn\tr0, #0\t; 0x0", 0xe3600000, 0xe3700000 },
    { ARM, 0, "tst\tr0, r0, lsr #0", 0xe1000020, NONE },
    { ARM, 0, "tst\tr0, r0, lsr #32", NONE, 0xe1100020 },
    { ARM, 0, "mov\tr0, #256\t; 0x100", 0xe3a00c01, 0xe3a00c01 },
    { ARM, 0, "mov\tr0, #257\t; 0x101", NONE, NONE },
    { ARM, 0, "mov\tr0, #4\t; 0x4", 0xe3a00004, 0xe3a00004 },
    { ARM, 0, "ldr\tr0, [r1, #0]\t; 0x0", 0xe5110000, 0xe5910000 },
    { ARM, 0, "<Undefined>", 0x06000000, 0x06000010 },
    { ARM, 0, "bx\tr0", 0x012fff10, 0xe12fff10 },
    { ARM, 0, "", NONE, NONE },
    { ARM, 0, "b", NONE, NONE },
    { ARM, 0, "add\tr1, r2, r3\n", NONE, NONE },
    { ARM, 0, "b\t0x0 ", NONE, NONE },
    { ARM, 0, "b\t0x00000000 ", NONE, NONE },
    { ARM, 0x100, "b\t0x100", 0xeafffffe, NONE },
    { ARM, 0x100, "b\t0x00000100", NONE, 0xeafffffe },
    { ARM, 0x100, "ldr\tr0, [pc, #4]\t; 0x10c", 0xe59f0004, NONE },
    { ARM, 0x100, "ldr\tr0, [pc, #4]\t; 0x0000010c", NONE, 0xe59f0004 },
    { ARM, 0x100, "ldr\tr0, [r1, #4]\t; 0x4", 0xe5910004, 0xe5910004 },
    { ARM, 0x100, "ldr\tr0, [r1, #4]\t; 0x00000004", NONE, NONE },
    { ARM, 0, "mov\tr1, r2, lsr #0", 0xe1a10022, NONE },
    { ARM, 0, "mov\tr1, r2, asr #0", 0xe1a10042, NONE },
    { ARM, 0, "mov\tr1, r2, ror #0", 0xe1a10062, NONE },
    { ARM, 0, "mov\tr1, r2, lsr #32", NONE, 0xe1a01022 },
    { ARM, 0, "mov\tr1, r2, asr #32", NONE, 0xe1a01042 },
    { ARM, 0, "mov\tr1, r2, rrx", NONE, 0xe1a01062 },
    { ARM, 0, "mov\tr1, r2, lsl #32", NONE, NONE },
    { ARM, 0, "mov\tr1, r2, ror #32", NONE, NONE },
    { ARM, 0, "mov\tr1, r2, rrx #0", NONE, NONE },
    { ARM, 0, "mov\tr1, r2, rrx ", NONE, NONE },
    { ARM, 0, "mov\tr1, r2, rrx r0", NONE, NONE },
    { ARM, 0, "mov\tr1, r2, lsl #0", NONE, NONE },
    { ARM, 0, "mov\tr1, r2, lsr #33", NONE, NONE },
    { ARM, 0, "mov\tr1, r2, lsr #032", NONE, NONE },
    { ARM, 0, "mov\tr1, r2, lsr #4294967328", NONE, NONE },
    { ARM, 0, "mov\tr1, r2, lsr #31", 0xe1a10fa2, 0xe1a01fa2 },
    { ARM, 0, "mov\tr1, r2, ror r0", 0xe1a10072, 0xe1a01072 },
    { ARM, 0, "msr\tCPSR_f, r2, rrx", NONE, 0xe128f062 },
    { ARM, 0, "msr\tCPSR_f, r2, ror #0", 0xe128f062, NONE },
    { ARM, 0, "ldr\tr0, [r1, r2, rrx]", NONE, 0xe7910062 },
    { ARM, 0, "ldr\tr0, [r1, -r2, rrx]", NONE, 0xe7110062 },
    { ARM, 0, "ldr\tr0, [r1, -r2, rrx]!", NONE, 0xe7310062 },
    { ARM, 0, "ldr\tr0, [r1], r2, asr #32", NONE, 0xe6910042 },
    { ARM, 0, "ldr\tr0, [r1, r2, ror #0]", NONE, NONE },
    { THUMB, 0, "LSL\tr0, r1, #0", 0x0008, 0x0008 },
    { THUMB, 0, "LSL\tr0, r1, #32", NONE, NONE },
    { THUMB, 0, "LSR\tr0, r1, #0", 0x0808, NONE },
    { THUMB, 0, "LSR\tr0, r1, #32", NONE, 0x0808 },
    { THUMB, 0, "ASR\tr0, r1, #32", NONE, 0x1008 },
    { THUMB, 0, "LSR\tr0, r1, #33", NONE, NONE },
    { THUMB, 0, "LSR\tr0, r1, rrx", NONE, NONE },
    { THUMB, 0, "ROR\tr0, r1, #0", NONE, NONE },
    { THUMB, 0x100, "b\t0x104", 0xde00, NONE },
    { THUMB, 0x100, "b\t0x00000104", NONE, 0xe000 },
    { THUMB, 0x100, "b\t0x000000104", NONE, NONE },
    { THUMB, 0x100, "b\t0x0000104", NONE, NONE },
    { THUMB, 0x100, "b\t0x0000010c", NONE, 0xe004 },
    { THUMB, 0x100, "b\t0x0000010C", NONE, NONE },
    { THUMB, 0x100, "b\t0X00000104", NONE, NONE },
    { THUMB, 0x100, "b\t00000104", NONE, NONE },
    { THUMB, 0x100, "ldr\tr0, [pc, #0x4] ; = #0x108", 0x4801, NONE },
    { THUMB, 0x100, "ldr\tr0, [pc, #0x4] ; = #0x00000108", NONE, 0x4801 },
    { THUMB, 0x100, "ldr\tr0, [pc, #0x00000004] ; = #0x00000108", NONE, NONE },
    { THUMB, 0, "cmp\tr0, r0", 0x4280, 0x4280 },
    { THUMB, 0, "bl\t#0x00000000", 0xf000, 0xf000 },
    { THUMB, 0, "ldm\tr0!, {r3}", NONE, 0xc808 },
    { THUMB, 0, "<Undefined>", 0xb100, 0xb100 },
    { THUMB, 0, "", NONE, NONE },
    { THUMB, 0, "cmp\tr0, r0\n", NONE, NONE },
    { THUMB, 0, "bl\t0x00000004", NONE, NONE },
    { PAIR, 0, "bl\t0x00000004", BOTH(0xf000f800) },
    { PAIR, 0x100, "bl\t0x00000100", BOTH(0xf7fffffe) },
    { PAIR, 0, "bl\t0xffc00004", BOTH(0xf400f800) },
    { PAIR, 0, "bl\t0x00400002", BOTH(0xf3ffffff) },
    { PAIR, 0xfffffffe, "bl\t0x00000002", BOTH(0xf000f800) },
    { PAIR, 1, "bl\t0x00001007", BOTH(0xf001f801) },
    { PAIR, 0, "bl\t0x00400004", BOTH(NONE) },
    { PAIR, 0, "bl\t0xffc00002", BOTH(NONE) },
    { PAIR, 0, "bl\t0x00000005", BOTH(NONE) },
    { PAIR, 0, "bl\t#0x00000000", BOTH(NONE) },
    { PAIR, 0, "bl\t#0x0000004", BOTH(NONE) },
    { PAIR, 0, "bl\t0x0000004", BOTH(NONE) },
    { PAIR, 0, "bl\t0x4", BOTH(NONE) },
    { PAIR, 0, "bl\t0x000000004", BOTH(NONE) },
    { PAIR, 0, "bl\t0x0000000A", BOTH(NONE) },
    { PAIR, 0, "bl\t0X00000004", BOTH(NONE) },
    { PAIR, 0, "bl 0x00000004", BOTH(NONE) },
    { PAIR, 0, "b\t0x000000004", BOTH(NONE) },
    { PAIR, 0, "bl\t0x00000004\n", BOTH(NONE) },
    { PAIR, 0, "bl\t0x00000004 ", BOTH(NONE) },
    { PAIR, 0, "bl\t", BOTH(NONE) },
    { PAIR, 0, "", BOTH(NONE) },
    { PAIR, 0, "<Undefined>", BOTH(NONE) },
    { ARM, 0, "bl\t0x00000008", NONE, 0xeb000000 },
};

/* Bench is 0, sheet every other number. */
static const uint32_t forms[] = { SILK_BENCH, SILK_SHEET, 2, UINT32_MAX };

#define COUNT(array) (sizeof(array) / sizeof(array)[0])

static unsigned passed, failed;

static void check(bool good, const char *what, uint32_t word, uint32_t form, size_t capacity)
{
    if (good) {
        passed++;
    } else {
        failed++;
        printf("%s: word %08x, form %u, capacity %zu\n", what, word, form, capacity);
    }
}

static uint32_t print_word(const struct row *row, uint32_t form, uint8_t *line, size_t capacity, size_t *length)
{
    uint16_t half = (uint16_t)row->word;
    switch (row->set) {
    case ARM:
        return silk_print_arm(form, row->word, row->address, line, capacity, length);
    case THUMB:
        return silk_print_thumb(form, half, row->address, line, capacity, length);
    default:
        return silk_print_pair(row->word >> 16, half, row->address, line, capacity, length);
    }
}

/* Lends `capacity` bytes at a place of the page, and looks at the answer and at
 * every byte of the page. */
static bool lend(uint8_t *page, size_t place, size_t capacity, const struct row *row, uint32_t form)
{
    struct answer want = form == SILK_BENCH ? row->bench : row->sheet;
    if (want.number == 0 && capacity < strlen(want.line)) {
        want = (struct answer)REFUSAL(3);
    }
    size_t line_length = strlen(want.line);
    size_t length = SIZE_MAX;
    memset(page, GUARD, PAGE);
    uint32_t number = print_word(row, form, page + place, capacity, &length);
    bool good = number == want.number && length == line_length;
    for (size_t i = 0; i < PAGE; i++) {
        bool inside = i >= place && i - place < line_length;
        good = good && page[i] == (inside ? (uint8_t)want.line[i - place] : GUARD);
    }
    return good;
}

static void lines(uint8_t *page)
{
    for (size_t r = 0; r < COUNT(table); r++) {
        for (size_t f = 0; f < COUNT(forms); f++) {
            const struct row *row = &table[r];
            size_t n = strlen(forms[f] == SILK_BENCH ? row->bench.line : row->sheet.line);
            size_t capacities[] = { 0, 1, n > 0 ? n - 1 : 0, n, n + 1, 79, 80, 81, 128 };
            for (size_t c = 0; c < COUNT(capacities); c++) {
                size_t capacity = capacities[c];
                check(lend(page, MIDDLE, capacity, row, forms[f]), "print, guard bytes", row->word, forms[f], capacity);
                check(lend(page, PAGE - capacity, capacity, row, forms[f]), "print, page's end", row->word, forms[f],
                      capacity);
            }
        }
    }
}

static void kind_numbers(void)
{
    for (size_t k = 0; k < COUNT(kinds); k++) {
        for (size_t f = 0; f < COUNT(forms); f++) {
            uint32_t word = kinds[k].word;
            uint32_t number = kinds[k].set == ARM ? silk_kind_arm(forms[f], word)
                                                  : silk_kind_thumb(forms[f], (uint16_t)word);
            check(number == (forms[f] == SILK_BENCH ? kinds[k].bench : kinds[k].sheet), "kind", word, forms[f], 0);
        }
    }
}

static void read_as(enum set set, uint32_t form, uint32_t address, const uint8_t *line, size_t length, uint32_t want)
{
    uint32_t word = UINT32_MAX;
    uint16_t first = UINT16_MAX, second = UINT16_MAX;
    uint32_t number;
    switch (set) {
    case ARM:
        number = silk_read_arm(form, address, line, length, &word);
        break;
    case THUMB:
        number = silk_read_thumb(form, address, line, length, &second);
        word = second;
        break;
    default:
        number = silk_read_pair(address, line, length, &first, &second);
        word = (uint32_t)first << 16 | second;
    }
    bool good = want == NONE ? number == 4 && word == 0 : number == 0 && word == want;
    check(good, "read", word, form, length);
}

/* Each line ends at the page's end. */
static void reads(uint8_t *page)
{
    for (size_t f = 0; f < COUNT(forms); f++) {
        for (size_t r = 0; r < COUNT(readings); r++) {
            const struct reading *row = &readings[r];
            size_t length = strlen(row->line);
            uint8_t *line = page + PAGE - length;
            memcpy(line, row->line, length);
            read_as(row->set, forms[f], row->address, line, length, forms[f] == SILK_BENCH ? row->bench : row->sheet);
        }
        memset(page, 'r', PAGE);
        for (int set = ARM; set <= PAIR; set++) {
            read_as(set, forms[f], 0, page + PAGE - 81, 81, NONE);
            read_as(set, forms[f], 0, page, PAGE, NONE);
        }
    }
}

/* A word of the kind data processing with opcode 1000 to 1011. */
static bool is_test(uint32_t word)
{
    uint32_t opcode = word >> 21 & 0xf;
    return silk_kind_arm(SILK_SHEET, word) == SILK_ARM_DATA_PROCESSING && opcode >= 8 && opcode <= 11;
}

static bool has_s(uint32_t word)
{
    return (word >> 20 & 1) == 1;
}

/* 9 for just the tests without S, on the sheet, behind 1 and before 3; and the sheet
 * line of a test reads as a word with S. */
static void test_word(uint32_t word)
{
    uint8_t line[LONGEST];
    size_t length;
    uint32_t back = 0;
    bool lacks = is_test(word) && !has_s(word) && word >> 28 != 0xf;
    uint32_t bench = silk_print_arm(SILK_BENCH, word, 0, line, LONGEST, &length);
    uint32_t no_room = silk_print_arm(SILK_SHEET, word, 0, line, 0, &length);
    uint32_t sheet = silk_print_arm(SILK_SHEET, word, 0, line, LONGEST, &length);
    check(bench != 9 && (no_room == 9) == lacks && (sheet == 9) == lacks, "9", word, SILK_SHEET, LONGEST);
    if (sheet == 0 && is_test(word)) {
        uint32_t number = silk_read_arm(SILK_SHEET, 0, line, length, &back);
        check(number == 0 && has_s(back) && back <= word, "test read back", word, SILK_SHEET, length);
    }
}

/* Words of all upper 12 bits, each with some lower ones. */
static void tests(void)
{
    uint32_t low = 1;
    for (uint32_t n = 0; n < 0x1000 * 64; n++) {
        low = low * 1664525 + 1013904223;
        test_word(n << 20 | low >> 12);
    }
}

int main(void)
{
    uint8_t *page = mmap(NULL, 2 * PAGE, PROT_NONE, MAP_PRIVATE | MAP_ANONYMOUS, -1, 0);
    if (page == MAP_FAILED || mprotect(page, PAGE, PROT_READ | PROT_WRITE) != 0) {
        perror("a page for the buffers");
        return EXIT_FAILURE;
    }
    lines(page);
    kind_numbers();
    reads(page);
    tests();
    munmap(page, 2 * PAGE);
    printf("%u passed, %u failed\n", passed, failed);
    return failed == 0 ? EXIT_SUCCESS : EXIT_FAILURE;
}
