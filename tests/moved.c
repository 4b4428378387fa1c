/* Moved code reads the same, through the C interface, beside rules written here: which
 * sheet lines show an address, and which. All halfwords and call pairs, halfwords that are
 * no pair, and a million ARM words, among which each kind that shows an address and words
 * almost like it come often: the address that the library tells, which stands between
 * guards; the lines at two places, which differ in that address alone; short buffers; and
 * the steps of images at two bases. The rules take nothing from the library. */
#include "image.h"

/* An address is the last ten bytes of its line. */
enum { SPELLED = 10 };

/* An ARM word, a halfword, or two of them, the first in the lower bits. */
enum set { WORD, HALF, HALVES };

struct code {
    enum set set;
    uint32_t word;
};

/* What shows an address: in ARM a branch, a transfer from pc, and one of a halfword or
 * with a sign; in Thumb a load from pc, a branch with a condition and one without, and a
 * call pair. */
enum kind { NONE, BRANCH, TRANSFER, HALF_TRANSFER, LOAD, CONDITIONAL, JUMP, CALL, KINDS };

/* The address of a line, before it is taken modulo 2^32; of NONE it is 0. */
struct shown {
    enum kind kind;
    int64_t sum;
};

/* Bits of codes of a kind, each of which has to come often. */
static const struct row {
    enum set set;
    enum kind kind;
    uint32_t mask, value;
} table[] = {
    /* Branches with link, the farthest back, and the farthest ahead. */
    { WORD, BRANCH, 0x01000000, 0x01000000 },
    { WORD, BRANCH, 0x00ffffff, 0x00800000 },
    { WORD, BRANCH, 0x00ffffff, 0x007fffff },
    /* Transfers: less 0, less the most, and W without P. */
    { WORD, TRANSFER, 0x00800fff, 0 },
    { WORD, TRANSFER, 0x00800fff, 0x00000fff },
    { WORD, TRANSFER, 0x01200000, 0x00200000 },
    /* The same of halfwords; each half of the offset alone, and each type. */
    { WORD, HALF_TRANSFER, 0x00800f0f, 0 },
    { WORD, HALF_TRANSFER, 0x00800f0f, 0x00000f0f },
    { WORD, HALF_TRANSFER, 0x01200000, 0x00200000 },
    { WORD, HALF_TRANSFER, 0x00000f0f, 0x00000f00 },
    { WORD, HALF_TRANSFER, 0x00000f0f, 0x0000000f },
    { WORD, HALF_TRANSFER, 0x00000060, 0x00000020 },
    { WORD, HALF_TRANSFER, 0x00000060, 0x00000040 },
    { WORD, HALF_TRANSFER, 0x00000060, 0x00000060 },
    /* Transfers from another base, of a register as offset, and undefined. */
    { WORD, NONE, 0x0e000000, 0x04000000 },
    { WORD, NONE, 0x0e0f0010, 0x060f0000 },
    { WORD, NONE, 0x0e0f0010, 0x060f0010 },
    /* Of halfwords, from another base and of a register; and of type 00. */
    { WORD, NONE, 0x0e4000b0, 0x004000b0 },
    { WORD, NONE, 0x0e4f0fb0, 0x000f00b0 },
    { WORD, NONE, 0x0fcf00f0, 0x01cf0090 },
    { WORD, NONE, 0x0fcf00f0, 0x004f0090 },
    /* mul, smull, swp and swpb with pc; mrs; and msr to the flags with bits 7, 5 and 4. */
    { WORD, NONE, 0x0fcf00f0, 0x000f0090 },
    { WORD, NONE, 0x0fcf00f0, 0x00cf0090 },
    { WORD, NONE, 0x0fff0ff0, 0x010f0090 },
    { WORD, NONE, 0x0fff0ff0, 0x014f0090 },
    { WORD, NONE, 0x0fbf0fff, 0x010f0000 },
    { WORD, NONE, 0x0ffff0b0, 0x0168f0b0 },
    /* Data processing of pc with a number, and with bit 4 or 7 alone; stm and ldm from pc,
     * a coprocessor's transfer, and swi. */
    { WORD, NONE, 0x0e0f0000, 0x020f0000 },
    { WORD, NONE, 0x0e4f0090, 0x004f0010 },
    { WORD, NONE, 0x0e4f0090, 0x004f0080 },
    { WORD, NONE, 0x0e0f0000, 0x080f0000 },
    { WORD, NONE, 0x0e0f0000, 0x0c0f0000 },
    { WORD, NONE, 0x0f000000, 0x0f000000 },
    /* Undefined, swi, and each half of a call by itself. */
    { HALF, NONE, 0xff00, 0xde00 },
    { HALF, NONE, 0xff00, 0xdf00 },
    { HALF, NONE, 0xf800, 0xf000 },
    { HALF, NONE, 0xf800, 0xf800 },
    /* Halves swapped, two first and two second; one beside another halfword, or beside one
     * that is almost a second half. */
    { HALVES, NONE, 0xf800f800, 0xf000f800 },
    { HALVES, NONE, 0xf800f800, 0xf000f000 },
    { HALVES, NONE, 0xf800f800, 0xf800f800 },
    { HALVES, NONE, 0x8000f800, 0x0000f000 },
    { HALVES, NONE, 0xf8008000, 0xf8000000 },
    { HALVES, NONE, 0xf800f800, 0xe800f000 },
};

/* How often the rules met each case. */
static struct {
    unsigned long rows[COUNT(table)];
    /* By kind: codes, and addresses that wrap at the top and at 0; ARM words that show
     * none for their condition alone. */
    unsigned long kinds[KINDS], above[KINDS], under[KINDS], no_condition[KINDS];
    /* By kind: codes elsewhere, and those where the place wraps. Loads elsewhere by no
     * multiple of 4, and of them those whose addresses are another distance apart. */
    unsigned long moved[KINDS], wrapped[KINDS], uneven, unequal;
    /* Steps of images by kind, and those that wrap; short buffers by kind; and the numbers
     * of prints, of prints into short buffers, and of steps. */
    unsigned long listed[KINDS], listed_wrapped[KINDS], short_kinds[KINDS], prints[16], shorts[16], steps[16];
} seen;

/* A failure names the distance, or the length of a short buffer. */
static void expect(bool good, const char *what, struct code code, uint32_t address, uint32_t number)
{
    static const char *const sets[] = { "word", "halfword", "halfwords" };
    if (good) {
        passed++;
    } else if (failed++ < 20) {
        printf("%s: %s %08x at %08x, with %08x\n", what, sets[code.set], code.word, address, number);
    }
}

/* The lowest bits as a number with a sign. */
static int64_t signed_field(uint32_t word, int count)
{
    int64_t end = INT64_C(1) << count, field = word % end;
    return field < end / 2 ? field : field - end;
}

/* The kind of an ARM word, whatever its condition is. Multiplies and swaps have bits 6 and
 * 5 clear, as type 00 has; status transfers have bit 7 or one of those of pc clear. */
static enum kind word_kind(uint32_t word)
{
    if ((word & 0x0e000000) == 0x0a000000) {
        return BRANCH;
    }
    if ((word & 0x0e0f0000) == 0x040f0000) {
        return TRANSFER;
    }
    return (word & 0x0e4f0090) == 0x004f0090 && (word & 0x60) != 0 ? HALF_TRANSFER : NONE;
}

static enum kind half_kind(uint32_t half)
{
    if (half >> 12 == 0xd) {
        return (half >> 8 & 15) < 14 ? CONDITIONAL : NONE;
    }
    return half >> 11 == 0x09 ? LOAD : half >> 11 == 0x1c ? JUMP : NONE;
}

static enum kind kind_of(struct code code)
{
    switch (code.set) {
    case WORD:
        return code.word >> 28 == 15 ? NONE : word_kind(code.word);
    case HALF:
        return half_kind(code.word);
    default:
        return (code.word & 0xf800f800) == 0xf800f000 ? CALL : NONE;
    }
}

/* What the line of a code at an address shows. */
static struct shown shown_at(struct code code, int64_t address)
{
    enum kind kind = kind_of(code);
    uint32_t word = code.word;
    int64_t sign = (word >> 23 & 1) != 0 ? 1 : -1;
    switch (kind) {
    case BRANCH:
        return (struct shown){ kind, address + 8 + signed_field(word, 24) * 4 };
    case TRANSFER:
        return (struct shown){ kind, address + 8 + sign * (word & 0xfff) };
    case HALF_TRANSFER:
        return (struct shown){ kind, address + 8 + sign * ((word >> 8 & 15) * 16 + (word & 15)) };
    case LOAD:
        return (struct shown){ kind, ((address + 4) & ~INT64_C(2)) + (word & 0xff) * 4 };
    case CONDITIONAL:
        return (struct shown){ kind, address + 4 + signed_field(word, 8) * 2 };
    case JUMP:
        return (struct shown){ kind, address + 4 + signed_field(word, 11) * 2 };
    case CALL:
        return (struct shown){ kind, address + 4 + signed_field(word, 11) * 4096 + (word >> 16 & 0x7ff) * 2 };
    default:
        return (struct shown){ NONE, 0 };
    }
}

static void count_code(struct code code, struct shown shown)
{
    seen.kinds[shown.kind]++;
    seen.above[shown.kind] += shown.sum > UINT32_MAX;
    seen.under[shown.kind] += shown.sum < 0;
    if (code.set == WORD && code.word >> 28 == 15) {
        seen.no_condition[word_kind(code.word)]++;
        return;
    }
    for (size_t i = 0; i < COUNT(table) && shown.kind != CALL; i++) {
        const struct row *row = &table[i];
        seen.rows[i] += row->set == code.set && row->kind == shown.kind && (code.word & row->mask) == row->value;
    }
}

/* The address that the library tells, beside the rules. */
static void check_address(struct code code, uint32_t address)
{
    uint32_t room[] = { GUARD, GUARD, UNSET, GUARD, GUARD }, *shown = room + 2, number;
    struct shown want = shown_at(code, address);
    if (code.set == WORD) {
        number = silk_address_arm(code.word, address, shown);
    } else if (code.set == HALF) {
        number = silk_address_thumb((uint16_t)code.word, address, shown);
    } else {
        number = silk_address_pair((uint16_t)code.word, (uint16_t)(code.word >> 16), address, shown);
    }
    expect(number == (want.kind != NONE) && *shown == (uint32_t)want.sum && room[0] == GUARD && room[1] == GUARD
               && room[3] == GUARD && room[4] == GUARD,
           "address", code, address, 0);
    count_code(code, want);
}

static uint32_t print_code(struct code code, uint32_t address, uint8_t *line, size_t capacity, size_t *length)
{
    switch (code.set) {
    case WORD:
        return silk_print_arm(SILK_SHEET, code.word, address, line, capacity, length);
    case HALF:
        return silk_print_thumb(SILK_SHEET, (uint16_t)code.word, address, line, capacity, length);
    default:
        return silk_print_pair((uint16_t)code.word, (uint16_t)(code.word >> 16), address, line, capacity, length);
    }
}

static struct answer print_at(struct code code, uint32_t address)
{
    struct answer answer = { .length = SIZE_MAX };
    answer.number = print_code(code, address, answer.line, WIDEST, &answer.length);
    return answer;
}

/* Whether the line ends with an address, by digits, as printf is slow. */
static bool ends_with(const struct answer *answer, uint32_t address)
{
    const uint8_t *text = answer->line + answer->length - SPELLED;
    for (int i = SPELLED - 1; i > 1; i--, address /= 16) {
        if (text[i] != "0123456789abcdef"[address % 16]) {
            return false;
        }
    }
    return text[0] == '0' && text[1] == 'x';
}

/* The address that the line shows elsewhere: as far from the one here, but for a load that
 * is moved by no multiple of 4. */
static uint32_t shown_elsewhere(struct code code, uint32_t address, uint32_t distance)
{
    struct shown shown = shown_at(code, address);
    uint32_t further = (uint32_t)shown.sum + distance;
    if (shown.kind != LOAD || distance % 4 == 0) {
        return further;
    }
    uint32_t elsewhere = (uint32_t)shown_at(code, address + distance).sum;
    seen.uneven++;
    seen.unequal += elsewhere != further;
    return elsewhere;
}

/* Whether what is answered of a code here and elsewhere is the same, but for the address
 * that the line shows by the rules. */
static bool reads_same(struct code code, uint32_t address, uint32_t distance, const struct answer *here,
                       const struct answer *there)
{
    struct shown shown = shown_at(code, address);
    size_t length = here->length;
    if (here->number != there->number || length != there->length || length > LONGEST) {
        return false;
    }
    if (shown.kind == NONE) {
        return memcmp(here->line, there->line, length) == 0;
    }
    return here->number == 0 && length > SPELLED && memcmp(here->line, there->line, length - SPELLED) == 0
           && ends_with(here, (uint32_t)shown.sum) && ends_with(there, shown_elsewhere(code, address, distance));
}

static void check_moved(struct code code, uint32_t address, uint32_t distance)
{
    struct answer here = print_at(code, address), there = print_at(code, address + distance);
    enum kind kind = kind_of(code);
    expect(reads_same(code, address, distance, &here, &there), "line elsewhere", code, address, distance);
    seen.moved[kind]++;
    seen.wrapped[kind] += address + distance < address;
    seen.prints[here.number % 16]++;
}

/* An address or a distance, half of them such that something changes around them. */
static uint32_t random_place(void)
{
    static const uint32_t edges[] = { 0, 1, 2, 3, 4, 6, 8, 0x100, 0xfff, 0x7ffffffe, 0x80000000, 0xfffffff6,
                                      0xfffffff8, 0xfffffffc, 0xfffffffd, 0xfffffffe, 0xffffffff };
    return below(2) == 0 ? random_number() : edges[below(COUNT(edges))];
}

/* Many distances lead to a place around address 0. */
static uint32_t random_distance(uint32_t address)
{
    return below(4) == 0 ? below(16) - 8 - address : random_place();
}

/* A print's number and length, and that bytes past the line keep their values. */
static void check_short(struct code code, uint32_t address, size_t capacity, uint32_t number, size_t length)
{
    uint8_t room[SIDE + WIDEST + SIDE], guards[sizeof room];
    size_t printed = SIZE_MAX;
    memset(room, GUARD, sizeof room);
    memset(guards, GUARD, sizeof guards);
    uint8_t *line = capacity == 0 && below(2) == 0 ? NULL : room + SIDE;
    bool same = print_code(code, address, line, capacity, &printed) == number && printed == length;
    memset(room + SIDE, GUARD, length);
    expect(same && memcmp(room, guards, sizeof room) == 0, "short buffer", code, address, (uint32_t)capacity);
    seen.shorts[number % 16]++;
}

/* Buffers of each length up to one more than the line's, here and elsewhere. */
static void check_shorts(struct code code, uint32_t address, uint32_t distance)
{
    struct answer whole = print_at(code, address);
    size_t last = whole.number == 0 ? whole.length : SIDE;
    for (size_t capacity = 0; capacity <= last + 1 && last <= LONGEST; capacity++) {
        bool refused = whole.number == 0 && capacity < last;
        check_short(code, address, capacity, refused ? 3 : whole.number, refused ? 0 : whole.length);
        check_short(code, address + distance, capacity, refused ? 3 : whole.number, refused ? 0 : whole.length);
    }
    seen.short_kinds[kind_of(code)]++;
}

/* All of a code at an address; a load is moved by a multiple of 4, too. */
static void check_code(struct code code, uint32_t address)
{
    uint32_t distance = random_distance(address);
    check_address(code, address);
    check_moved(code, address, distance);
    if (distance % 4 != 0 && kind_of(code) == LOAD) {
        check_moved(code, address, distance / 4 * 4);
    }
    if (below(64) == 0) {
        check_shorts(code, address, distance);
    }
}

static void all_halves(void)
{
    static const uint32_t addresses[] = { 0, 1, 2, 3, 4, 5, 6, 7, 0x100, 0x7fffffff, 0xfffffff8, 0xfffffffc,
                                          0xfffffffd, 0xfffffffe, 0xffffffff };
    for (uint32_t half = 0; half < 0x10000; half++) {
        for (size_t i = 0; i < COUNT(addresses) + 3; i++) {
            check_code((struct code){ HALF, half }, i < COUNT(addresses) ? addresses[i] : random_number());
        }
    }
}

static void all_pairs(void)
{
    for (uint32_t n = 0; n < 1 << 22; n++) {
        check_code((struct code){ HALVES, 0xf800f000 | n / 2048 << 16 | n % 2048 }, random_place());
    }
}

/* Halfwords of which one is a half of a call, or none, or both. */
static void no_pairs(void)
{
    for (int n = 0; n < 200000; n++) {
        uint32_t word = below(2) == 0 ? random_half() << 16 | random_half() : random_number();
        check_code((struct code){ HALVES, below(8) == 0 ? (word & 0x07ff07ff) | 0xe800f000 : word }, random_place());
    }
}

/* An ARM word like a row of the table, some of their fields all clear or set, or with one
 * bit changed; or any word. */
static uint32_t random_code(void)
{
    static const uint32_t masks[KINDS] = { 0, 0x0e000000, 0x0e0f0000, 0x0e4f0090 };
    static const uint32_t values[KINDS] = { 0, 0x0a000000, 0x040f0000, 0x004f0090 };
    const struct row *row = &table[below(COUNT(table))];
    uint32_t word = random_number(), form = below(8);
    if (row->set != WORD) {
        return word;
    }
    word = form == 0 ? word & 0xfff0f000 : form == 1 ? word | 0x000f0fff : word;
    word = (word & ~masks[row->kind]) | values[row->kind];
    word = (word & ~row->mask) | row->value;
    return form == 2 ? word ^ 1u << below(32) : word;
}

static void words(void)
{
    for (int n = 0; n < 1000000; n++) {
        check_code((struct code){ WORD, random_code() }, random_place());
    }
}

/* What stands at a place of the image. */
static struct code code_at(uint32_t place)
{
    uint32_t bytes = covered(place);
    enum set set = image.marks[place] == ARM ? WORD : bytes == 2 ? HALF : HALVES;
    return (struct code){ set, little_endian(image.bytes + place, (int)bytes) };
}

/* Other words and halfwords for most of an image. */
static void fill(void)
{
    for (uint32_t place = 0; place < image.size; place += 4) {
        if (below(3) != 0) {
            put(place, image.marks[place] == ARM ? random_code() : random_number(), 4);
        }
    }
}

/* One step with the image's base raised. */
static struct answer list_at(uint32_t distance, uint32_t place, size_t capacity)
{
    uint8_t line[WIDEST];
    image.base += distance;
    struct answer answer = ask(place, line, capacity);
    image.base -= distance;
    memcpy(answer.line, line, answer.length <= WIDEST ? answer.length : 0);
    return answer;
}

static bool same_step(const struct answer *a, const struct answer *b)
{
    return a->number == b->number && a->offset == b->offset && a->bytes == b->bytes && a->length == b->length;
}

/* A step at both bases: its numbers beside the rules of image.h, its line beside those here. */
static void check_step(uint32_t place, size_t capacity, uint32_t distance)
{
    uint32_t address = image.base + place;
    struct answer want = step(place, capacity);
    struct answer here = list_at(0, place, capacity), there = list_at(distance, place, capacity);
    check(same_step(&here, &want) && same_step(&there, &want), "step elsewhere", place, capacity);
    seen.steps[want.number % 16]++;
    if (want.number == 0 && want.bytes > 0) {
        struct code code = code_at(place);
        check(reads_same(code, address, distance, &here, &there), "line of a step elsewhere", place, capacity);
        seen.listed[kind_of(code)]++;
        seen.listed_wrapped[kind_of(code)] += address + distance < address;
    }
}

/* Each place of the image, and with that each step of its listing, and some places behind
 * it; and the listing elsewhere. */
static void check_image(void)
{
    uint32_t distance = random_distance(image.base + below(64)) / 4 * 4;
    size_t end = image.refusal == 0 ? image.size + 5 : 12;
    for (uint32_t place = 0; place < end; place++) {
        check_step(place, below(4) == 0 ? below(LONGEST) : LONGEST, distance);
    }
    if (image.refusal == 0) {
        image.base += distance;
        rest("listing elsewhere", 0, LONGEST);
    }
}

static void images(void)
{
    for (int n = 0; n < 2000; n++) {
        random_image(400);
        fill();
        check_image();
        faulty_image();
        if (below(4) == 0 && image.size > 0) {
            cut_image();
        }
        check_image();
    }
}

/* 65,536 bytes, in Thumb alone and with stretches; and lengths above 32 bits. */
static void large_images(void)
{
    size_t size = ((size_t)1 << 32) + 8;
    uint8_t *zeros = large_room(size);
    open_image(MOST);
    give_one(MOST);
    fill();
    check_image();
    halved_image(100, 1);
    fill();
    check_image();
    image_above_32_bits(zeros);
    check_image();
    list_above_32_bits(zeros);
    check_image();
    munmap(zeros, size);
}

/* The counts whose bits are set have to reach the least. */
static void often(const char *what, const unsigned long *counts, uint32_t bits, unsigned long least)
{
    for (uint32_t i = 0; bits >> i != 0; i++) {
        check((bits >> i & 1) == 0 || counts[i] >= least, what, i, counts[i]);
    }
}

/* A load's address never wraps at 0, nor has a code without one an address that wraps. */
static void all_often(void)
{
    for (size_t i = 0; i < COUNT(table); i++) {
        check(seen.rows[i] >= 4000, "too few codes of a row", (uint32_t)i, seen.rows[i]);
    }
    often("too few codes of a kind", seen.kinds, 0xff, 30000);
    often("too few addresses past the top", seen.above, 0xfe, 4000);
    often("too few addresses below 0", seen.under, 0xee, 7000);
    often("too few words of condition 1111", seen.no_condition, 0x0f, 4000);
    often("too few codes elsewhere", seen.moved, 0xff, 30000);
    often("too few codes elsewhere past the top", seen.wrapped, 0xff, 12000);
    check(seen.unequal > 10000 && seen.uneven - seen.unequal > 5000, "too few loads elsewhere", 0, seen.uneven);
    often("too few steps of a kind", seen.listed, 0xff, 2000);
    often("too few steps elsewhere past the top", seen.listed_wrapped, 0xff, 1000);
    often("too few short buffers of a kind", seen.short_kinds, 0xff, 400);
    often("too few numbers of prints", seen.prints, 1 << 9 | 1 << 5 | 1 << 2 | 1 << 1 | 1, 12000);
    often("too few numbers of short buffers", seen.shorts, 1 << 9 | 1 << 5 | 1 << 3 | 1 << 2 | 1 << 1 | 1, 7000);
    often("too few numbers of steps", seen.steps, 0xf << 6 | 0xf, 2500);
}

int main(void)
{
    image_room = closed_room();
    stretches_room = closed_room();
    all_halves();
    all_pairs();
    no_pairs();
    words();
    images();
    large_images();
    all_often();
    munmap(image_room, ROOM + PAGE);
    munmap(stretches_room, ROOM + PAGE);
    printf("%lu passed, %lu failed\n", passed, failed);
    return failed == 0 ? EXIT_SUCCESS : EXIT_FAILURE;
}
