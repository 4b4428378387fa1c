/* Patches of one word through the C interface, and listings that are put aside and
 * resumed, beside the rules of image.h and those written here: worked patches, every
 * class of place and line at random, and listings that go on over an altered image.
 * From the library the rules take the line of a word, and of an ARM line the word.
 * Image, stretches and line end at a page without access. */
#include "image.h"

/* The most bytes of a random line, all halfwords, and the most bytes of an image whose
 * listing is put aside. */
enum { RANDOM = 100, HALFWORDS = 0x10000, LISTED = 400 };

/* The line to be patched in. Where `made` says so it was printed for `word`, in the set
 * and at the address of the place. */
static struct {
    const uint8_t *line;
    size_t length;
    bool made;
    uint32_t word;
} patch;

/* What a patch answers, and where that is 0 the bytes that it writes. */
struct effect {
    uint32_t number;
    uint32_t word;
    uint32_t bytes;
};

/* Memory for the line, before a page without access; and the image's memory as a patch
 * should leave it. */
static uint8_t *line_room, wanted[ROOM];

/* How often the rules gave each number to a patch; patches in each set, and those of a
 * word below the line's own; call pairs that patches made and broke; and resumed
 * listings that begin in the middle of a call pair. */
static unsigned long answers[16], arm_patches, thumb_patches, lower, joined, parted, alone;

static void take(const void *line, size_t length)
{
    uint8_t *room = line_room + ROOM - length;
    if (length > 0) {
        memcpy(room, line, length);
    }
    patch.line = length == 0 && below(2) == 0 ? NULL : room;
    patch.length = length;
    patch.made = false;
}

static bool is_patch(const uint8_t *line, size_t length)
{
    return length == patch.length && memcmp(line, patch.line, length) == 0;
}

/* The word that is read, which must print the line. */
static struct effect arm_effect(uint32_t offset)
{
    uint8_t line[WIDEST];
    size_t length = 0;
    uint32_t word = 0, address = image.base + offset;
    if (silk_read_arm(SILK_SHEET, address, patch.line, patch.length, &word) != 0) {
        check(!patch.made, "no word", offset, patch.length);
        return (struct effect){ .number = 4 };
    }
    uint32_t number = silk_print_arm(SILK_SHEET, word, address, line, WIDEST, &length);
    check(number == 0 && is_patch(line, length), "word of another line", offset, patch.length);
    check(!patch.made || word <= patch.word, "not the lowest word", offset, patch.length);
    arm_patches++;
    return (struct effect){ 0, word, 4 };
}

/* The first of all halfwords that prints the line. */
static struct effect thumb_effect(uint32_t offset)
{
    uint8_t line[WIDEST];
    size_t length;
    for (uint32_t half = 0; half < HALFWORDS; half++) {
        uint32_t number = silk_print_thumb(SILK_SHEET, (uint16_t)half, image.base + offset, line, WIDEST, &length);
        if (number == 0 && is_patch(line, length)) {
            thumb_patches++;
            return (struct effect){ 0, half, 2 };
        }
    }
    check(!patch.made, "no halfword", offset, patch.length);
    return (struct effect){ .number = 4 };
}

static struct effect effect(uint32_t offset)
{
    if (image.refusal != 0) {
        return (struct effect){ .number = image.refusal };
    }
    if (offset >= image.size || !aligned(offset)) {
        return (struct effect){ .number = 8 };
    }
    return image.marks[offset] == ARM ? arm_effect(offset) : thumb_effect(offset);
}

/* The place is inside one stretch with the halfword before it. */
static bool behind_half(uint32_t place)
{
    return place >= 2 && place < image.size && image.marks[place] != ARM
           && image.marks[place - 2] == image.marks[place];
}

/* A halfword at the place that is half of a call inside one stretch. */
static bool in_call(uint32_t place)
{
    if (image.marks[place] == ARM) {
        return false;
    }
    return covered(place) == 4 || (behind_half(place) && covered(place - 2) == 4);
}

/* The target of the call at the place. */
static uint32_t target(uint32_t place)
{
    int64_t high = little_endian(image.bytes + place, 2) & 0x7ff;
    int64_t low = little_endian(image.bytes + place + 2, 2) & 0x7ff;
    return (uint32_t)(image.base + place + 4 + (high < 0x400 ? high : high - 0x800) * 4096 + low * 2);
}

/* The step at a patched place: the line patched in, or a call that begins there. */
static void shown(uint32_t place)
{
    uint8_t line[WIDEST];
    char call[16] = "";
    struct answer answer = ask(place, line, WIDEST);
    bool good = answer.number == 0 && answer.offset == place && answer.bytes == covered(place);
    if (image.marks[place] != ARM && covered(place) == 4) {
        snprintf(call, sizeof call, "bl\t0x%08x", target(place));
        good = good && answer.length == strlen(call) && memcmp(line, call, answer.length) == 0;
    } else {
        good = good && is_patch(line, answer.length);
    }
    check(good, "patched step", place, patch.length);
}

static uint32_t patch_image(uint32_t offset)
{
    return silk_patch(image.bytes, image.size, image.stretches, image.stretches_size, image.base, offset, patch.line,
                      patch.length);
}

/* One patch beside the rules, with every byte of the image and before it; answers the
 * rules' number. */
static uint32_t apply(const char *what, uint32_t offset)
{
    struct effect want = effect(offset);
    bool before = want.number == 0 && in_call(offset);
    memcpy(wanted, image_room, ROOM);
    for (uint32_t i = 0; i < want.bytes; i++) {
        wanted[ROOM - image.size + offset + i] = (uint8_t)(want.word >> 8 * i);
    }
    uint32_t number = patch_image(offset);
    check(number == want.number && memcmp(image_room, wanted, ROOM) == 0, what, offset, patch.length);
    answers[want.number]++;
    if (want.number == 0) {
        shown(offset);
        joined += !before && in_call(offset);
        parted += before && !in_call(offset);
        lower += patch.made && want.word < patch.word;
    }
    return want.number;
}

static uint8_t digit(char c)
{
    return (uint8_t)(c <= '9' ? c - '0' : c - 'a' + 10);
}

/* Bytes, two digits each, with spaces between some; answers how many. */
static size_t spelled(const char *text, uint8_t *bytes)
{
    size_t count = 0;
    for (; *text != 0; text++) {
        if (*text != ' ') {
            bytes[count++] = (uint8_t)(digit(text[0]) << 4 | digit(text[1]));
            text++;
        }
    }
    return count;
}

/* An image in bytes, with a list of up to two stretches. */
static void spell_image(const char *bytes, const uint32_t *stretches, size_t list, uint32_t base)
{
    uint8_t spelling[WIDEST];
    size_t size = spelled(bytes, spelling), count = (list + 7) / 8;
    open_image(size);
    for (size_t i = 0; i < size; i++) {
        put(i, spelling[i], 1);
    }
    memcpy(pairs, stretches, 8 * count);
    give(count, 8 * count - list);
    image.base = base;
    look();
}

/* The image's bytes as they are spelled, and those before it as they were. */
static bool spelled_image(const char *bytes)
{
    uint8_t spelling[WIDEST];
    size_t size = spelled(bytes, spelling), before = ROOM - image.size;
    return size == image.size && memcmp(image_room, wanted, before) == 0
           && memcmp(image_room + before, spelling, size) == 0;
}

#define LONG_LINE "stmdaeq\tr10!, {r0, r1, r2, r3, r4, r5, r6, r7, r8, r9, r10, fp, ip, sp, lr, pc}^"
#define NO_LIST { 0 }, 0
#define LIST(...) { __VA_ARGS__ }, sizeof(uint32_t[]){ __VA_ARGS__ }
#define CUT_LIST(size, ...) { __VA_ARGS__ }, size

/* A patch, and the image's bytes after it; NULL where it is refused. */
static const struct row {
    const char *image;
    uint32_t stretches[4];
    size_t list;
    uint32_t base, offset;
    const char *line;
    uint32_t number;
    const char *after;
} table[] = {
    { "00000000 00000000", NO_LIST, 0, 4, "add\tr1, r2, r3", 0, "00000000 031082e0" },
    { "ffffffff ffffffff", NO_LIST, 0, 0, "add\tr1, r2, r3", 0, "031082e0 ffffffff" },
    { "ffffffff", NO_LIST, 0, 0, LONG_LINE, 0, "ffff6a08" },
    { "ffffffff", LIST(0, 4), 0, 0, "add\tr8, r0", 0, "8044ffff" },
    { "ffffffff", LIST(0, 4), 0, 2, "add\tr8, r0", 0, "ffff8044" },
    /* The lowest word, also over another word of the line. */
    { "00101fe1", NO_LIST, 0, 0, "tst\tpc, r0", 0, "00001fe1" },
    { "000000e1 000000e1", NO_LIST, 0, 0, "tst\tr0, r0", 0, "000010e1 000000e1" },
    { "ffffffff", NO_LIST, 0, 0, "teq\tpc, r0", 0, "00003fe1" },
    { "ffffffff", NO_LIST, 0, 0, "cmn\tr0, #0\t; 0x0", 0, "000070e3" },
    { "ffffffff", NO_LIST, 0, 0, "mov\tr0, #256\t; 0x100", 0, "010ca0e3" },
    { "ffffffff", NO_LIST, 0, 0, "<Undefined>", 0, "10000006" },
    { "ffffffff", LIST(0, 4), 0, 2, "<Undefined>", 0, "ffff00b1" },
    { "00de0000", LIST(0, 4), 0, 0, "<Undefined>", 0, "00b10000" },
    { "000000f8", LIST(0, 4), 0, 2, "bl\t#0x00000000", 0, "000000f0" },
    { "00000000", LIST(0, 4), 0, 0, "cmp\tr0, r0", 0, "80420000" },
    /* A target is taken at base + offset, modulo 2^32. At the base it would be that of
     * EAFFFFFF, E000, EAFFFFFF and E7FF. */
    { "00000000 00000000", NO_LIST, 0xfc, 4, "b\t0x00000100", 0, "00000000 feffffea" },
    { "00000000 00000000", LIST(0, 8), 0xfc, 4, "b\t0x00000100", 0, "00000000 fee70000" },
    { "00000000 00000000", NO_LIST, 0xfffffffe, 4, "b\t0x00000002", 0, "00000000 feffffea" },
    { "00000000", LIST(0, 4), 0xfffffffe, 2, "b\t0x00000000", 0, "0000fee7" },
    { "00000000 00000000", NO_LIST, 0xfffffffc, 4, "bleq\t0x00000008", 0, "00000000 0000000b" },
    { "00000000 00000000 00000000", NO_LIST, 0xf8, 8, "ldr\tr0, [pc, #4]\t; 0x0000010c", 0,
      "00000000 00000000 04009fe5" },
    { "00000000 00000000 00000000", NO_LIST, 0x100, 8, "ldr\tr0, [pc, #4]\t; 0x0000010c", 4, NULL },
    { "00000000 00000000 00000000", LIST(4, 8), 0xf8, 8, "ldr\tr0, [pc, #0x4] ; = #0x00000108", 0,
      "00000000 00000000 01480000" },
    { "00000000 00000000 00000000", LIST(4, 8), 0x100, 8, "ldr\tr0, [pc, #0x4] ; = #0x00000108", 4, NULL },
    { "00000000", LIST(0, 4), 0, 0, "beq\t0x00001000", 4, NULL },
    /* A call pair's line is no word's in Thumb; in ARM such a line is a word's. */
    { "fff7feff", LIST(0, 4), 0, 0, "bl\t0x00000000", 4, NULL },
    { "00000000", LIST(0, 4), 0, 0, "bl\t0x00000004", 4, NULL },
    { "00000000", LIST(0, 4), 0, 2, "bl\t0x00000006", 4, NULL },
    { "00000000", NO_LIST, 0, 0, "bl\t0x00000008", 0, "000000eb" },
    { "00000000", NO_LIST, 0, 0, "bl\t#0x00000000", 4, NULL },
    /* A stretch's end is in the set of what follows, the image's end in none. */
    { "00000000 00000000 00000000", LIST(4, 4), 0, 8, "add\tr1, r2, r3", 0, "00000000 00000000 031082e0" },
    { "00000000 00000000 00000000", LIST(4, 4), 0, 8, "add\tr8, r0", 4, NULL },
    { "00000000 00000000 00000000", LIST(4, 4), 0, 6, "add\tr8, r0", 0, "00000000 00008044 00000000" },
    { "00000000 00000000 00000000", LIST(4, 4), 0, 4, "add\tr8, r0", 0, "00000000 80440000 00000000" },
    { "00000000 00000000 00000000", LIST(4, 4), 0, 4, "add\tr1, r2, r3", 0, "00000000 d1180000 00000000" },
    { "00000000 00000000 00000000", LIST(4, 4), 0, 4, "add\tr9, r2, r3", 4, NULL },
    { "00000000 00000000 00000000", LIST(4, 4), 0, 0, "add\tr8, r0", 4, NULL },
    { "00000000 00000000 00000000", LIST(4, 4), 0, 10, "add\tr8, r0", 8, NULL },
    { "00000000 00000000", LIST(0, 4, 4, 4), 0, 4, "add\tr8, r0", 0, "00000000 80440000" },
    { "00000000 00000000", LIST(0, 4, 4, 4), 0, 6, "add\tr8, r0", 0, "00000000 00008044" },
    { "00000000 00000000", LIST(0, 4, 4, 4), 0, 4, "add\tr9, r2, r3", 4, NULL },
    { "00000000 00000000", LIST(0, 4, 4, 4), 0, 8, "add\tr8, r0", 8, NULL },
    /* Lines of no word, among them bench lines, and one of 81 bytes. */
    { "00000000", NO_LIST, 0, 0, "add\tr1, r2, r33", 4, NULL },
    { "00000000", NO_LIST, 0, 0, "add\tr1, r2, r3\n", 4, NULL },
    { "00000000", NO_LIST, 0, 0, LONG_LINE " ", 4, NULL },
    { "00000000", NO_LIST, 0, 0, "", 4, NULL },
    { "00000000", NO_LIST, 0x100, 0, "b\t0x100", 4, NULL },
    { "00000000", NO_LIST, 0, 0, "mov\tr1, r2, lsr #0", 4, NULL },
    { "000000e1", NO_LIST, 0, 0, "tst\tr0, r0, lsr #0", 4, NULL },
    { "00000000", LIST(0, 4), 0, 2, "add\tr8, r00", 4, NULL },
    { "00000000", LIST(0, 4), 0, 2, LONG_LINE, 4, NULL },
    { "00000000", LIST(0, 4), 0, 2, LONG_LINE " ", 4, NULL },
    { "00000000", LIST(0, 4), 0, 2, "", 4, NULL },
    { "00000000", LIST(0, 4), 0x100, 0, "b\t0x104", 4, NULL },
    { "00000000", LIST(0, 4), 0, 2, "add\tsp, #fffffe04", 4, NULL },
    /* 6 comes before 7, 8 and 4, whichever of them hold too. */
    { "000000", NO_LIST, 0, 0, "<Undefined>", 6, NULL },
    { "000000", LIST(0, 4), 0, 0, "<Undefined>", 6, NULL },
    { "0000000000", LIST(0, 4), 0, 5, "<Undefined>", 6, NULL },
    { "000000000000", LIST(0, 0), 0, 9, "", 6, NULL },
    { "00000000000000", CUT_LIST(7, 0, 4), 0, 1, "b", 6, NULL },
    /* 7 comes before 8 and 4, and is no matter of the place. */
    { "00000000 00000000", LIST(0, 0), 0, 0, "<Undefined>", 7, NULL },
    { "00000000 00000000", LIST(1, 4), 0, 0, "<Undefined>", 7, NULL },
    { "00000000 00000000", LIST(0, 6), 0, 0, "<Undefined>", 7, NULL },
    { "00000000 00000000", LIST(4, 8), 0, 0, "<Undefined>", 7, NULL },
    { "00000000 00000000", LIST(0xfffffffc, 8), 0, 0, "<Undefined>", 7, NULL },
    { "00000000 00000000", LIST(4, 4, 0, 4), 0, 0, "<Undefined>", 7, NULL },
    { "00000000 00000000", LIST(0, 8, 4, 4), 0, 0, "<Undefined>", 7, NULL },
    { "00000000 00000000", CUT_LIST(12, 0, 4, 4, 4), 0, 0, "<Undefined>", 7, NULL },
    { "00000000 00000000", CUT_LIST(1, 0, 4), 0, 0, "<Undefined>", 7, NULL },
    { "00000000 00000000", LIST(4, 8), 0, 3, "<Undefined>", 7, NULL },
    { "00000000 00000000", LIST(4, 8), 0, 0, "", 7, NULL },
    { "00000000 00000000", LIST(4, 8), 0, 8, "", 7, NULL },
    { "00000000 00000000", LIST(4, 8), 0, 0xffffffff, "b", 7, NULL },
    /* 8 comes before 4. */
    { "00000000 00000000", LIST(4, 4), 0, 2, "", 8, NULL },
    { "00000000 00000000", LIST(4, 4), 0, 5, "b", 8, NULL },
    { "00000000 00000000", LIST(4, 4), 0, 8, "", 8, NULL },
    { "00000000 00000000", LIST(4, 4), 0, 0xffffffff, LONG_LINE " ", 8, NULL },
    /* An image without bytes has no place. */
    { "", NO_LIST, 0, 0, "<Undefined>", 8, NULL },
    { "", NO_LIST, 0, 0, "", 8, NULL },
    { "", NO_LIST, 0xffffffff, 1, "<Undefined>", 8, NULL },
    { "", NO_LIST, 0, 0xfffffffc, "<Undefined>", 8, NULL },
    { "", LIST(0, 4), 0, 0, "<Undefined>", 7, NULL },
};

static void spell_row(const struct row *row)
{
    spell_image(row->image, row->stretches, row->list, row->base);
    take(row->line, strlen(row->line));
    memcpy(wanted, image_room, ROOM);
}

static void work(const struct row *row)
{
    spell_row(row);
    uint32_t number = patch_image(row->offset);
    check(number == row->number && spelled_image(row->after != NULL ? row->after : row->image), "worked", row->offset,
          patch.length);
    spell_row(row);
    apply("worked, rules", row->offset);
}

/* Eight times each, as an empty image, list or line is NULL at random. */
static void worked(void)
{
    for (size_t r = 0; r < 8 * COUNT(table); r++) {
        work(&table[r / 8]);
    }
}

static void work_place(uint32_t offset, uint32_t number, const char *after)
{
    work(&(struct row){ "00000000 00000000 00000000", LIST(4, 4), 0, offset, "<Undefined>", number, after });
}

/* The four places of an image, and offsets that are none. */
static void places(void)
{
    work_place(0, 0, "10000006 00000000 00000000");
    work_place(4, 0, "00000000 00b10000 00000000");
    work_place(6, 0, "00000000 000000b1 00000000");
    work_place(8, 0, "00000000 00000000 10000006");
    for (uint32_t offset = 0; offset < 40; offset++) {
        if (offset != 0 && offset != 4 && offset != 6 && offset != 8) {
            work_place(offset, 8, NULL);
        }
        work_place(offset + 0x100, 8, NULL);
        work_place(offset + 0x10000, 8, NULL);
        work_place(offset + 0x80000000, 8, NULL);
        work_place(0xffffffff - offset, 8, NULL);
    }
    for (size_t f = 0; f < COUNT(far); f++) {
        work_place(far[f], 8, NULL);
    }
}

/* Patches one after the other, each with the image's bytes after it, and with the lines
 * of a listing that is then resumed at a place. */
static const struct sequence {
    const char *image;
    uint32_t stretches[4];
    size_t list;
    uint32_t base;
    struct change {
        uint32_t offset;
        const char *line, *after;
        uint32_t from;
        const char *listed;
    } changes[8];
} sequences[] = {
    /* Both halves of a call; the second alone; pairs made and broken. */
    { "00000000", LIST(0, 4), 0,
      { { 0, "bl\t#0xfffff000", "fff70000", 0, "bl\t#0xfffff000\nLSL\tr0, r0, #0\n" },
        { 2, "bl\t#0x00000ffc", "fff7feff", 0, "bl\t0x00000000\n" },
        { 2, "bl\t#0x00000ffc", "fff7feff", 2, "bl\t#0x00000ffc\n" },
        { 0, "add\tr8, r0", "8044feff", 0, "add\tr8, r0\nbl\t#0x00000ffc\n" },
        { 0, "bl\t#0x00000000", "00f0feff", 0, "bl\t0x00001000\n" },
        { 2, "add\tr8, r0", "00f08044", 0, "bl\t#0x00000000\nadd\tr8, r0\n" },
        { 2, "bl\t#0x00000000", "00f000f0", 0, "bl\t#0x00000000\nbl\t#0x00000000\n" },
        { 2, "bl\t#0x00000002", "00f001f8", 0, "bl\t0x00000006\n" } } },
    /* The second half first, and the listing resumed behind the first; then calls that
     * begin one halfword later. */
    { "00000000 00000000", LIST(0, 8), 0x100,
      { { 4, "bl\t#0x00000ffc", "00000000 feff0000", 2, "LSL\tr0, r0, #0\nbl\t#0x00000ffc\nLSL\tr0, r0, #0\n" },
        { 2, "bl\t#0xfffff000", "0000fff7 feff0000", 4, "bl\t#0x00000ffc\nLSL\tr0, r0, #0\n" },
        { 6, "add\tr8, r0", "0000fff7 feff8044", 0, "LSL\tr0, r0, #0\nbl\t0x00000102\nadd\tr8, r0\n" },
        { 4, "bl\t#0xfffff000", "0000fff7 fff78044", 2, "bl\t#0xfffff000\nbl\t#0xfffff000\nadd\tr8, r0\n" },
        { 6, "bl\t#0x00000ffc", "0000fff7 fff7feff", 0, "LSL\tr0, r0, #0\nbl\t#0xfffff000\nbl\t0x00000104\n" },
        { 6, "<Undefined>", "0000fff7 fff700b1", 8, "" } } },
    /* Halves that a border keeps apart. */
    { "00000000 feff0000", LIST(0, 4, 4, 4), 0,
      { { 2, "bl\t#0xfffff000", "0000fff7 feff0000", 0,
          "LSL\tr0, r0, #0\nbl\t#0xfffff000\nbl\t#0x00000ffc\nLSL\tr0, r0, #0\n" } } },
    { "00000000 00f8a0e1", LIST(0, 4), 0,
      { { 2, "bl\t#0xfffff000", "0000fff7 00f8a0e1", 0,
          "LSL\tr0, r0, #0\nbl\t#0xfffff000\nmov\tpc, r0, lsl #16\n" } } },
    { "000000f0 00000000", LIST(4, 4), 0,
      { { 4, "bl\t#0x00000ffc", "000000f0 feff0000", 4, "bl\t#0x00000ffc\nLSL\tr0, r0, #0\n" } } },
    /* ARM: before the place at which the listing goes on, at it and behind it. */
    { "031082e0 031082e0 031082e0", NO_LIST, 0x100,
      { { 0, "bl\t0x00000108", "000000eb 031082e0 031082e0", 4, "add\tr1, r2, r3\nadd\tr1, r2, r3\n" },
        { 4, "b\t0x00000104", "000000eb feffffea 031082e0", 4, "b\t0x00000104\nadd\tr1, r2, r3\n" },
        { 8, "b\t0x00000104", "000000eb feffffea fdffffea", 4, "b\t0x00000104\nb\t0x00000104\n" },
        { 8, "<Undefined>", "000000eb feffffea 10000006", 0, "bl\t0x00000108\nb\t0x00000104\n<Undefined>\n" } } },
};

/* One step, with its line. */
static struct answer stepped(uint32_t place)
{
    uint8_t line[WIDEST];
    struct answer answer = ask(place, line, WIDEST);
    if (answer.length <= WIDEST) {
        memcpy(answer.line, line, answer.length);
    }
    return answer;
}

/* Lists the image from a place, and looks for just these lines. */
static bool listed(uint32_t place, const char *lines)
{
    for (;;) {
        struct answer answer = stepped(place);
        size_t length = answer.length;
        if (answer.bytes == 0) {
            return answer.number == 0 && place == image.size && *lines == 0;
        }
        if (answer.number != 0 || strncmp(lines, (const char *)answer.line, length) != 0 || lines[length] != '\n') {
            return false;
        }
        lines += length + 1;
        place += answer.bytes;
    }
}

static void worked_sequences(void)
{
    for (size_t s = 0; s < COUNT(sequences); s++) {
        const struct sequence *row = &sequences[s];
        spell_image(row->image, row->stretches, row->list, row->base);
        for (const struct change *change = row->changes; change < row->changes + 8 && change->line != NULL; change++) {
            take(change->line, strlen(change->line));
            memcpy(wanted, image_room, ROOM);
            uint32_t number = patch_image(change->offset);
            check(number == 0 && spelled_image(change->after), "sequence", change->offset, patch.length);
            check(listed(change->from, change->listed), "sequence, listed", change->from, 0);
            shown(change->offset);
            rest("sequence, rules", change->from, LONGEST);
        }
    }
}

/* Patches of the last word and halfword of 65,536 bytes, and refusals there; 6 for 65,540
 * bytes, also with a pair of length 0 and no line. */
static void largest(void)
{
    static const uint32_t last[] = { 0, MOST - 4, MOST - 2, MOST, MOST + 2, MOST + 4 };
    halved_image(0, 0);
    take("add\tr1, r2, r3", 14);
    check(apply("largest", MOST - 4) == 0 && memcmp(image.bytes + MOST - 4, "\x03\x10\x82\xe0", 4) == 0,
          "last word", MOST - 4, patch.length);
    check(apply("largest", MOST - 2) == 8, "middle of the last word", MOST - 2, patch.length);
    check(apply("largest", MOST) == 8, "end", MOST, patch.length);
    give_one(MOST);
    take("add\tr8, r0", 10);
    check(apply("largest", MOST - 2) == 0 && memcmp(image.bytes + MOST - 4, "\x03\x10\x80\x44", 4) == 0,
          "last halfword", MOST - 2, patch.length);
    check(apply("largest", MOST - 1) == 8, "odd", MOST - 1, patch.length);
    check(apply("largest", MOST) == 8, "end", MOST, patch.length);
    pairs[1] = 0;
    for (size_t i = 0; i < 2 * COUNT(last); i++) {
        open_image(MOST + 4);
        give(i % 2, 0);
        look();
        take("<Undefined>", i % 2 == 0 ? 11 : 0);
        check(apply("too large", last[i / 2]) == 6, "too large", last[i / 2], patch.length);
    }
}

/* Lengths that would be good in 32 bits: a line of 2^32 + 11 bytes, a list, and an image
 * that cannot be written to. */
static void above_32_bits(void)
{
    size_t large = (size_t)1 << 32;
    uint8_t *room = large_room(large + 11);
    memcpy(room, "<Undefined>", 11);
    open_image(4);
    give(0, 0);
    look();
    memcpy(wanted, image_room, ROOM);
    patch.line = room;
    patch.length = large + 11;
    check(patch_image(0) == 4 && memcmp(image_room, wanted, ROOM) == 0, "line above 32 bits", 0, patch.length);
    memset(room, 0, 11);
    take("<Undefined>", 11);
    list_above_32_bits(room);
    memcpy(wanted, image_room, ROOM);
    check(patch_image(0) == 7 && memcmp(image_room, wanted, ROOM) == 0, "list above 32 bits", 0, patch.length);
    image_above_32_bits(room);
    check(mprotect(room, large + 11, PROT_READ) == 0 && patch_image(0) == 6, "image above 32 bits", 0, patch.length);
    munmap(room, large + 11);
}

/* The line of a word in a set, at an address, if it has one. */
static uint32_t print_line(uint32_t form, bool arm, uint32_t word, uint32_t address)
{
    uint8_t line[WIDEST];
    size_t length;
    uint32_t number = arm ? silk_print_arm(form, word, address, line, WIDEST, &length)
                          : silk_print_thumb(form, (uint16_t)word, address, line, WIDEST, &length);
    take(line, length);
    patch.word = word;
    return number;
}

/* The line of a random word. */
static void word_line(uint32_t form, bool arm, uint32_t address)
{
    uint32_t word;
    do {
        if (arm) {
            word = below(2) == 0 ? random_number() : random_word();
        } else {
            word = below(2) == 0 ? below(HALFWORDS) : random_half();
        }
    } while (print_line(form, arm, word, address) != 0);
}

/* A line that a patch stores at the offset. */
static void good_line(bool arm, uint32_t offset)
{
    word_line(SILK_SHEET, arm, image.base + offset);
    patch.made = true;
}

static void pair_line(uint32_t address)
{
    uint8_t line[WIDEST];
    size_t length;
    uint16_t first = (uint16_t)(0xf000 + below(0x800)), second = (uint16_t)(0xf800 + below(0x800));
    silk_print_pair(first, second, address, line, WIDEST, &length);
    take(line, length);
}

/* Any bytes, or a line that is cut or has bytes behind it, or one with a byte changed. */
enum edit { ANY_BYTES, OTHER_LENGTH, ONE_BYTE };

static void edit_line(enum edit edit)
{
    uint8_t line[RANDOM];
    size_t length = below(RANDOM + 1);
    for (size_t i = 0; i < RANDOM; i++) {
        line[i] = (uint8_t)below(256);
    }
    if (edit != ANY_BYTES) {
        memcpy(line, patch.line, patch.length);
    }
    if (edit == ONE_BYTE) {
        length = patch.length;
        line[below((uint32_t)length)] ^= (uint8_t)(1 << below(below(2) == 0 ? 3 : 8));
    }
    take(line, length);
}

/* A line for a place, every other one good. */
static void random_line(uint32_t offset)
{
    uint32_t address = image.base + offset;
    uint32_t others[] = { image.base, address + 2, address - 2, address + 4, address - 4, random_number() };
    bool arm = image.refusal != 0 || offset >= image.size || image.marks[offset] == ARM;
    good_line(arm, offset);
    switch (below(16)) {
    case 0:
    case 1:
        word_line(SILK_SHEET, arm, others[below(COUNT(others))]);
        break;
    case 2:
        word_line(SILK_SHEET, !arm, address);
        break;
    case 3:
        pair_line(address);
        break;
    case 4:
        word_line(SILK_BENCH, arm, address);
        break;
    case 5:
        edit_line(ANY_BYTES);
        break;
    case 6:
        edit_line(OTHER_LENGTH);
        break;
    case 7:
        edit_line(ONE_BYTE);
        break;
    }
}

/* A place of the image, which has bytes. */
static uint32_t random_place(void)
{
    uint32_t place = 2 * below((uint32_t)image.size / 2);
    return image.marks[place] == ARM ? place / 4 * 4 : place;
}

/* Mostly places; offsets inside, around the end and a stretch's borders, and far ones. */
static uint32_t random_offset(void)
{
    uint32_t size = (uint32_t)image.size, borders = (uint32_t)image.stretches_size / 4;
    switch (below(12)) {
    case 0:
        return size + below(9) - 4;
    case 1:
        return far[below(COUNT(far))];
    case 2:
        return random_number();
    case 3:
        return below(size + 1) + (below(2) == 0 ? 0x10000 : 0x80000000);
    case 4:
        return below(size + 1);
    case 5:
    case 6:
        if (borders > 1) {
            const uint8_t *pair = image.stretches + 8 * below(borders / 2);
            return little_endian(pair, 4) + (below(2) == 0 ? 0 : little_endian(pair + 4, 4)) + 2 * below(5) - 4;
        }
    }
    return image.refusal == 0 && size > 0 ? random_place() : 2 * below(size / 2 + 1);
}

/* Valid images mostly; the largest, larger ones, and such with other faults. */
static void any_image(int n)
{
    static const size_t counts[] = { 0, 1, 100, 8192 };
    static const uint32_t most[] = { 40, 400, 4000 };
    if (n % 64 == 0) {
        halved_image(counts[below(COUNT(counts))], below(2));
    } else if (n % 64 == 32) {
        open_image(MOST + 4);
        give(random_pairs(), 0);
        look();
    } else if (n % 8 == 1) {
        faulty_image();
    } else {
        random_image(most[n % 3]);
        if (n % 16 == 2 && image.size > 0) {
            cut_image();
        }
    }
}

static void random_patches(void)
{
    for (int n = 0; n < 4000; n++) {
        any_image(n);
        for (int i = 0; i < 3; i++) {
            uint32_t offset = random_offset();
            random_line(offset);
            apply("random", offset);
        }
    }
    check(answers[4] > 1000 && answers[6] > 500 && answers[7] > 500 && answers[8] > 2000, "too few refusals", 0, 0);
    check(arm_patches > 1500 && thumb_patches > 1500, "too few patches", 0, 0);
    check(lower > 500 && joined > 30 && parted > 100, "too few patches of a kind", 0, 0);
}

/* The steps of a listing that was not interrupted, and the end mark. */
static struct answer whole[LISTED / 2 + 1];

/* Lists the image; answers how many steps come before the end mark. */
static size_t list_whole(void)
{
    size_t count = 0;
    whole[0] = stepped(0);
    while (whole[count].bytes != 0 && count + 1 < COUNT(whole)) {
        whole[count + 1] = stepped(whole[count].offset + whole[count].bytes);
        count++;
    }
    return count;
}

/* The listing resumed at a step gives the steps of the whole one. */
static void same_rest(const char *what, size_t from, size_t count)
{
    uint32_t place = whole[from].offset;
    for (size_t i = from; i <= count; i++) {
        struct answer answer = stepped(place);
        check(answer.number == whole[i].number && answer.offset == whole[i].offset && answer.bytes == whole[i].bytes
                  && answer.length == whole[i].length && memcmp(answer.line, whole[i].line, WIDEST) == 0,
              what, place, answer.length);
        place += answer.bytes;
    }
    check(place == image.size, what, place, 0);
}

/* A place at which a patch may matter to a listing that goes on at another. */
static uint32_t near_place(uint32_t place)
{
    uint32_t offset = place + 2 * below(4) - 4;
    if (offset >= image.size || below(2) == 0) {
        return random_place();
    }
    return image.marks[offset] == ARM ? offset / 4 * 4 : offset;
}

/* Patches a call in, one half after the other. */
static void patch_call(uint32_t place)
{
    uint32_t order = 2 * below(2);
    for (uint32_t i = 0; i <= 2; i += 2) {
        uint32_t offset = place + (i ^ order), top = offset == place ? 0xf000 : 0xf800;
        print_line(SILK_SHEET, false, top + 1 + below(0x7ff), image.base + offset);
        patch.made = true;
        check(apply("half of a call", offset) == 0, "refused", offset, patch.length);
    }
    check(covered(place) == 4, "call", place, 0);
}

/* A listing is put aside at a step, resumed, and resumed again after some patches. Those
 * of bytes before the step alter none of the lines to come. */
static void interrupt(void)
{
    random_image(LISTED);
    size_t count = list_whole(), stop = below((uint32_t)count + 1);
    uint32_t place = whole[stop].offset;
    bool before = true;
    same_rest("resumed", stop, count);
    for (uint32_t i = below(3); i > 0 && image.size > 0; i--) {
        uint32_t offset = near_place(place);
        good_line(image.marks[offset] == ARM, offset);
        check(apply("patch of a listing", offset) == 0, "refused", offset, patch.length);
        before = before && offset < place;
    }
    if (behind_half(place) && below(4) == 0) {
        patch_call(place - 2);
        before = false;
    }
    rest("resumed after patches", place, LONGEST);
    rest("listed after patches", 0, LONGEST);
    if (before) {
        same_rest("patched before", stop, count);
    }
    alone += behind_half(place) && covered(place - 2) == 4;
    if (image.size > 0) {
        rest("resumed at any place", random_place(), LONGEST);
    }
}

static void interrupted(void)
{
    for (int n = 0; n < 2000; n++) {
        interrupt();
    }
    check(alone > 100, "too few second halves alone", 0, 0);
}

int main(void)
{
    image_room = closed_room();
    stretches_room = closed_room();
    line_room = closed_room();
    worked();
    places();
    worked_sequences();
    largest();
    above_32_bits();
    random_patches();
    interrupted();
    munmap(image_room, ROOM + PAGE);
    munmap(stretches_room, ROOM + PAGE);
    munmap(line_room, ROOM + PAGE);
    printf("%lu passed, %lu failed\n", passed, failed);
    return failed == 0 ? EXIT_SUCCESS : EXIT_FAILURE;
}
