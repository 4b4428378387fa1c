/* The worst run of a listing, through the C interface, beside the rules of image.h and
 * those written here: which words and halfwords show no instruction, worked images, one
 * such step at each place of an image and a second behind it, random images of every
 * number of steps around that of a run, refusals and their order, and images of 65,536
 * bytes. The rules take nothing from the library; its prints and its own listings, at
 * several bases, are compared with them. Image and stretches end at a page without
 * access, and the two numbers stand among guard bytes. */
#include "image.h"

/* How many steps a run has, where the listing has as many. */
enum { RUN = 256 };

/* What a step shows: an instruction, no line by the number of its refusal, or the line
 * `<Undefined>`. */
enum { INSTRUCTION = 0, NO_CONDITION = 1, NO_TYPE = 2, NO_FLAGS = 9, UNDEFINED = 15 };

/* The top bytes of the halfwords that are `<Undefined>`, DE among them. */
static const uint8_t undefined_tops[] = { 0xb1, 0xb2, 0xb3, 0xb6, 0xb7, 0xb8, 0xb9, 0xba, 0xbb, 0xbe,
                                          0xbf, 0xde, 0xe8, 0xe9, 0xea, 0xeb, 0xec, 0xed, 0xee, 0xef };

/* A listing: the offset of each step, and how many of the steps before each, and of all
 * of them, show no instruction. */
static struct {
    uint32_t offsets[MOST / 2];
    uint32_t before[MOST / 2 + 1];
    size_t count;
} listed;

/* The first step of a run, by its number, and how many of the run show no instruction. */
struct run {
    size_t first;
    uint32_t count;
};

/* What a call answers, and its numbers. */
struct found {
    uint32_t number;
    uint32_t count;
    uint32_t offset;
};

/* What stood at the ends of the memory of image and stretches before a call. */
static uint8_t image_before[ROOM], stretches_before[ROOM];

/* How often the rules met each case. */
static struct {
    /* The number of an image. */
    unsigned long answers[16];
    /* What steps showed, and halfwords among them that are `<Undefined>` on the sheet alone. */
    unsigned long arm[16], thumb[16], traps;
    /* Images with fewer steps than a run, as many, and one more; and images for which runs
     * of 255, or of 257, have another answer. */
    unsigned long fewer, exact, more, other_255, other_257;
    /* Images with more steps than a run: with instructions alone, and else those whose worst
     * run comes first, comes last, is equalled by a later one, and has no instruction. */
    unsigned long spotless, first, last, equalled, filled;
    /* Of their worst runs, behind the image's start: those that begin with a call pair,
     * behind one, and with a second half that a border cuts from its first; and at the start
     * those that end with a call pair. */
    unsigned long pair_first, behind_pair, cut_first, pair_last;
    /* Images and stretches of no bytes, without a pointer and with one. */
    unsigned long null_images, empty_images, null_stretches, empty_stretches;
} seen;

/* Bits 27 to 25 are 011 above bit 4, or bits 27 to 24 are those of a coprocessor. */
static bool is_undefined(uint32_t word)
{
    return (word & 0x0e000010) == 0x06000010 || (word & 0x0e000000) == 0x0c000000 || (word & 0x0f000000) == 0x0e000000;
}

/* mrs, msr, and msr to the flags, of a register or a number. */
static bool is_status_transfer(uint32_t word)
{
    return (word & 0x0fbf0fff) == 0x010f0000 || (word & 0x0fbffff0) == 0x0129f000 || (word & 0x0dbff000) == 0x0128f000;
}

/* mul and mla, their long forms, and swp: with bits 7 to 4 of 1001. */
static bool is_multiply_or_swap(uint32_t word)
{
    return (word & 0x0fc000f0) == 0x00000090 || (word & 0x0f8000f0) == 0x00800090
           || (word & 0x0fb00ff0) == 0x01000090;
}

/* Bits 7 and 4 are set, and bits 11 to 8 are those of a number, or are clear behind a
 * register. */
static bool is_halfword_transfer(uint32_t word)
{
    bool offset = (word & 0x00400000) != 0 || (word & 0x00000f00) == 0;
    return (word & 0x0e000090) == 0x00000090 && offset && !is_multiply_or_swap(word) && !is_status_transfer(word);
}

/* tst, teq, cmp and cmn, whose S is clear; other words have such bits too. */
static bool is_test_without_flags(uint32_t word)
{
    bool branch_exchange = (word & 0x0ffffff0) == 0x012fff10;
    return (word & 0x0d900000) == 0x01000000 && !branch_exchange && !is_multiply_or_swap(word)
           && !is_halfword_transfer(word) && !is_status_transfer(word);
}

static uint32_t arm_shows(uint32_t word)
{
    if (is_undefined(word)) {
        return UNDEFINED;
    }
    if (word >> 28 == 15) {
        return NO_CONDITION;
    }
    if (is_halfword_transfer(word) && (word & 0x60) == 0) {
        return NO_TYPE;
    }
    return is_test_without_flags(word) ? NO_FLAGS : INSTRUCTION;
}

static uint32_t thumb_shows(uint32_t half)
{
    return memchr(undefined_tops, (int)(half >> 8), sizeof undefined_tops) != NULL ? UNDEFINED : INSTRUCTION;
}

/* What the step at a place shows; a call pair is an instruction. */
static uint32_t shows(uint32_t place)
{
    if (image.marks[place] == ARM) {
        return arm_shows(little_endian(image.bytes + place, 4));
    }
    return covered(place) == 4 ? INSTRUCTION : thumb_shows(little_endian(image.bytes + place, 2));
}

static void append(uint32_t offset, bool invalid)
{
    listed.offsets[listed.count] = offset;
    listed.before[listed.count + 1] = listed.before[listed.count] + invalid;
    listed.count++;
}

/* The listing by the rules. */
static void list(void)
{
    listed.count = 0;
    for (uint32_t place = 0; place < image.size; place += covered(place)) {
        append(place, shows(place) != INSTRUCTION);
    }
}

/* How many steps a run of at most so many has. */
static size_t run_length(size_t most)
{
    return listed.count < most ? listed.count : most;
}

/* How many steps of a run show no instruction. */
static uint32_t invalid_steps(size_t first, size_t length)
{
    return listed.before[first + length] - listed.before[first];
}

/* Of all runs of so many steps, the first with the largest count. */
static struct run worst_of(size_t most)
{
    size_t length = run_length(most);
    struct run worst = { 0, invalid_steps(0, length) };
    for (size_t first = 1; first + length <= listed.count; first++) {
        uint32_t count = invalid_steps(first, length);
        if (count > worst.count) {
            worst = (struct run){ first, count };
        }
    }
    return worst;
}

/* The answer for what is listed. */
static struct found found_in_listing(void)
{
    struct run worst = worst_of(RUN);
    return (struct found){ 0, worst.count, listed.count == 0 ? 0 : listed.offsets[worst.first] };
}

static bool same(const struct found *a, const struct found *b)
{
    return a->number == b->number && a->count == b->count && a->offset == b->offset;
}

static struct found find(void)
{
    if (image.refusal != 0) {
        return (struct found){ .number = image.refusal };
    }
    list();
    return found_in_listing();
}

static void count_steps(void)
{
    for (size_t i = 0; i < listed.count; i++) {
        uint32_t place = listed.offsets[i];
        (image.marks[place] == ARM ? seen.arm : seen.thumb)[shows(place)]++;
        seen.traps += image.marks[place] != ARM && image.bytes[place + 1] == 0xde;
    }
}

static bool is_pair(uint32_t place)
{
    return image.marks[place] != ARM && covered(place) == 4;
}

/* A border lies between the halves of a call, the second of which is at the place. */
static bool is_cut(uint32_t place)
{
    return image.marks[place] != ARM && image.marks[place - 2] != ARM && halves(place - 2)
           && image.marks[place - 2] != image.marks[place];
}

/* The steps at the ends of a worst run. */
static void count_ends(struct run worst)
{
    uint32_t place = listed.offsets[worst.first];
    if (worst.first == 0) {
        seen.pair_last += is_pair(listed.offsets[RUN - 1]);
        return;
    }
    seen.pair_first += is_pair(place);
    seen.behind_pair += is_pair(listed.offsets[worst.first - 1]);
    seen.cut_first += is_cut(place);
}

/* The worst run among the others, in an image of more steps than a run. */
static void count_runs(struct run worst)
{
    size_t last = listed.count - RUN, later = worst.first + 1;
    if (worst.count == 0) {
        seen.spotless++;
        return;
    }
    while (later <= last && invalid_steps(later, RUN) < worst.count) {
        later++;
    }
    seen.first += worst.first == 0;
    seen.last += worst.first == last;
    seen.equalled += later <= last;
    seen.filled += worst.count == RUN;
    count_ends(worst);
}

static void count_pointers(void)
{
    if (image.size == 0) {
        *(image.bytes == NULL ? &seen.null_images : &seen.empty_images) += 1;
    }
    if (image.stretches_size == 0) {
        *(image.stretches == NULL ? &seen.null_stretches : &seen.empty_stretches) += 1;
    }
}

/* Runs of so many steps have another answer. */
static bool is_other(size_t most, struct run worst)
{
    struct run other = worst_of(most);
    return other.first != worst.first || other.count != worst.count;
}

static void count_image(uint32_t number)
{
    seen.answers[number]++;
    count_pointers();
    if (number != 0) {
        return;
    }
    struct run worst = worst_of(RUN);
    count_steps();
    seen.fewer += listed.count < RUN;
    seen.exact += listed.count == RUN;
    seen.more += listed.count == RUN + 1;
    seen.other_255 += is_other(RUN - 1, worst);
    seen.other_257 += is_other(RUN + 1, worst);
    if (listed.count > RUN) {
        count_runs(worst);
    }
}

/* What the library answers. The numbers stand among guard bytes, in either order. */
static struct found ask_run(void)
{
    uint32_t room[3 * SIDE + 2], guards[COUNT(room)], *places[2] = { room + SIDE, room + 2 * SIDE + 1 };
    memset(room, GUARD, sizeof room);
    memset(guards, GUARD, sizeof guards);
    size_t order = below(2);
    uint32_t *count = places[order], *offset = places[1 - order];
    uint32_t number = silk_worst_run(image.bytes, image.size, image.stretches, image.stretches_size, count, offset);
    struct found found = { number, *count, *offset };
    *count = *offset = guards[0];
    check(memcmp(room, guards, sizeof room) == 0, "guard bytes", found.offset, found.count);
    return found;
}

/* The end of a room: bytes that a call is given, and some before them. */
static size_t end_size(size_t size)
{
    return size < ROOM - SIDE ? size + SIDE : ROOM;
}

/* One call beside what it should answer, with every byte of image and stretches. A
 * failure names the wanted offset and count. */
static void call(const char *what, const struct found *want)
{
    size_t image_size = end_size(image.size), stretches_size = end_size(image.stretches_size);
    const uint8_t *image_end = image_room + ROOM - image_size, *stretches_end = stretches_room + ROOM - stretches_size;
    memcpy(image_before, image_end, image_size);
    memcpy(stretches_before, stretches_end, stretches_size);
    struct found found = ask_run();
    check(same(&found, want), what, want->offset, want->count);
    check(memcmp(image_before, image_end, image_size) == 0
              && memcmp(stretches_before, stretches_end, stretches_size) == 0,
          "bytes of image and stretches", want->offset, want->count);
}

/* One call beside the rules, whose number is answered. */
static uint32_t beside(const char *what)
{
    struct found want = find();
    call(what, &want);
    count_image(want.number);
    return want.number;
}

/* What the library shows of a word, a halfword or a call pair. */
static uint32_t printed(uint32_t number, const uint8_t *line, size_t length)
{
    static const char undefined[] = "<Undefined>";
    if (number == 0 && length == strlen(undefined) && memcmp(line, undefined, length) == 0) {
        return UNDEFINED;
    }
    return number;
}

/* An image of one word, in Thumb or in ARM, that has so many steps without an
 * instruction. */
static void alone(const char *what, uint32_t word, bool thumb, uint32_t count)
{
    image.stretches_size = thumb ? 8 : 0;
    put(0, word, 4);
    struct found found = ask_run();
    check(found.number == 0 && found.count == count && found.offset == 0, what, word, thumb);
}

/* An ARM word: the rules beside the library's print, and an image of that word. */
static void check_word(uint32_t word)
{
    uint8_t line[WIDEST];
    size_t length = 0;
    uint32_t number = silk_print_arm(SILK_SHEET, word, random_number(), line, WIDEST, &length), shown = arm_shows(word);
    check(printed(number, line, length) == shown, "ARM word", word, 0);
    alone("ARM word alone", word, false, shown != INSTRUCTION);
    seen.arm[shown]++;
}

/* The same for a halfword, before and behind another that shows an instruction. */
static void check_half(uint32_t half)
{
    uint8_t line[WIDEST];
    size_t length = 0;
    uint32_t number = silk_print_thumb(SILK_SHEET, (uint16_t)half, random_number(), line, WIDEST, &length);
    uint32_t shown = thumb_shows(half);
    check(printed(number, line, length) == shown, "halfword", half, 0);
    alone("halfword before another", 0x10030000 | half, true, shown != INSTRUCTION);
    alone("halfword behind another", half << 16 | 0x1003, true, shown != INSTRUCTION);
    seen.thumb[shown]++;
}

/* Bits 19 to 8 and 3 to 0 of words: none, all, those of bx, mrs and msr, and others that
 * are almost like them, or are not clear where those of a swap have to be. */
static const uint32_t others[] = { 0x00000000, 0x000fff0f, 0x000fff00, 0x000f7f00, 0x000f0000, 0x000f0100, 0x0009f000,
                                   0x0009f20f, 0x0008f000, 0x0008ff0f, 0x0000f00f, 0x00000f00, 0x0000080f };

/* Every combination of bits 31 to 20 and 7 to 4, with those and with random bits. */
static void combinations(void)
{
    for (uint32_t n = 0; n < 0x10000; n++) {
        uint32_t word = (n & 0xfff0) << 16 | (n & 15) << 4;
        for (size_t i = 0; i < COUNT(others); i++) {
            check_word(word | others[i]);
        }
        check_word(word | (random_number() & 0x000fff0f));
    }
}

/* Words of narrow kinds, and all that differ from them in one bit or two. */
static void near_words(void)
{
    static const uint32_t words[] = { 0xe12fff10, 0xe10f0000, 0xe14f0000, 0xe129f000, 0xe169f000, 0xe128f000,
                                      0xe328f000, 0xe128f090, 0xe1000090, 0xe1400090, 0xe0000090, 0xe0800090,
                                      0xe00000b0, 0xe04000b0, 0xe1800090, 0xe1000000, 0xe3000000, 0xe6000010 };
    for (size_t i = 0; i < COUNT(words); i++) {
        for (uint32_t first = 0; first < 32; first++) {
            for (uint32_t second = first; second < 32; second++) {
                check_word(words[i] ^ (1u << first | 1u << second));
            }
        }
        check_word(words[i]);
    }
}

/* The rules themselves, which have to give each answer often. */
static void words(void)
{
    open_image(4);
    give_one(4);
    combinations();
    near_words();
    for (int n = 0; n < 200000; n++) {
        check_word(n % 2 == 0 ? random_number() : random_word());
    }
    for (uint32_t half = 0; half < 0x10000; half++) {
        check_half(half);
    }
    check(seen.arm[INSTRUCTION] > 500000 && seen.arm[NO_CONDITION] > 50000 && seen.arm[NO_TYPE] > 10000
              && seen.arm[NO_FLAGS] > 30000 && seen.arm[UNDEFINED] > 250000,
          "too few words of a kind", 0, 0);
    check(seen.thumb[UNDEFINED] == 20 * 256, "halfwords without an instruction", 0, 0);
}

/* Words of the worked images. GOOD is an instruction in ARM and two in Thumb, BAD none in
 * either, and PAIR a call in Thumb; the others have one bad halfword, the lower or the
 * higher. */
#define GOOD 0xe0821003
#define BAD 0xee00e800
#define PAIR 0xf800f000
#define BAD_LOW 0x1003b100
#define BAD_HIGH 0xe8001003

/* Words in a row, their stretches up to one of no length, and the answer. */
static const struct row {
    struct {
        uint32_t times;
        uint32_t word;
    } words[8];
    uint32_t stretches[6];
    uint32_t count, offset;
} table[] = {
    /* No step, and one step that shows an instruction. */
    { { { 0 } }, { 0 }, 0, 0 },
    { { { 1, GOOD } }, { 0 }, 0, 0 },
    { { { 1, 0xe6000000 } }, { 0 }, 0, 0 },
    { { { 1, 0xe1100000 } }, { 0 }, 0, 0 },
    { { { 1, 0xe1000090 } }, { 0 }, 0, 0 },
    { { { 1, 0xe10000b0 } }, { 0 }, 0, 0 },
    { { { 1, 0xe10f0000 } }, { 0 }, 0, 0 },
    { { { 1, 0xe129f000 } }, { 0 }, 0, 0 },
    { { { 1, 0xe328f000 } }, { 0 }, 0, 0 },
    { { { 1, 0xe12fff10 } }, { 0 }, 0, 0 },
    /* A word that is refused with 1, 2 and 9, and `<Undefined>`. */
    { { { 1, 0xf0821003 } }, { 0 }, 1, 0 },
    { { { 1, 0xf12fff10 } }, { 0 }, 1, 0 },
    { { { 1, 0xe1800090 } }, { 0 }, 1, 0 },
    { { { 1, 0xf1800090 } }, { 0 }, 1, 0 },
    { { { 1, 0xe1000000 } }, { 0 }, 1, 0 },
    { { { 1, 0xe3600000 } }, { 0 }, 1, 0 },
    { { { 1, 0xe120f000 } }, { 0 }, 1, 0 },
    { { { 1, 0xe6000010 } }, { 0 }, 1, 0 },
    { { { 1, 0xf6000010 } }, { 0 }, 1, 0 },
    { { { 1, 0xec000000 } }, { 0 }, 1, 0 },
    { { { 1, 0xee000000 } }, { 0 }, 1, 0 },
    /* Halfwords in Thumb: instructions, `<Undefined>`, and on the sheet alone DE00. */
    { { { 1, GOOD } }, { 0, 4 }, 0, 0 },
    { { { 1, 0xdf00b000 } }, { 0, 4 }, 0, 0 },
    { { { 1, 0xdd00e7ff } }, { 0, 4 }, 0, 0 },
    { { { 1, 0x1003b100 } }, { 0, 4 }, 1, 0 },
    { { { 1, 0xb1001003 } }, { 0, 4 }, 1, 0 },
    { { { 1, 0xe8001003 } }, { 0, 4 }, 1, 0 },
    { { { 1, 0xde001003 } }, { 0, 4 }, 1, 0 },
    { { { 1, 0x1003deff } }, { 0, 4 }, 1, 0 },
    { { { 1, 0xefffbf00 } }, { 0, 4 }, 2, 0 },
    /* No instruction in ARM alone, and in Thumb alone. */
    { { { 1, 0xf0821003 } }, { 0, 4 }, 0, 0 },
    { { { 1, GOOD }, { 1, 0x0000b100 } }, { 0 }, 0, 0 },
    { { { 1, GOOD }, { 1, 0x0000b100 } }, { 4, 4 }, 1, 0 },
    /* Call pairs, and halves without their partner; in ARM their words are refused with 1. */
    { { { 1, PAIR } }, { 0, 4 }, 0, 0 },
    { { { 3, PAIR } }, { 0, 12 }, 0, 0 },
    { { { 1, 0xf000f800 } }, { 0, 4 }, 0, 0 },
    { { { 3, PAIR } }, { 0 }, 3, 0 },
    { { { 3, PAIR } }, { 4, 4 }, 2, 0 },
    /* Fewer than 256 steps: all of them, from the start. */
    { { { 3, GOOD }, { 2, BAD }, { 5, GOOD } }, { 0 }, 2, 0 },
    { { { 254, GOOD }, { 1, BAD } }, { 0 }, 1, 0 },
    { { { 255, BAD } }, { 0 }, 255, 0 },
    { { { 126, GOOD }, { 1, BAD } }, { 0, 508 }, 2, 0 },
    { { { 10, BAD }, { 5, PAIR }, { 10, GOOD } }, { 8, 92 }, 18, 0 },
    /* 256 steps, in ARM, in Thumb and in both. */
    { { { 255, GOOD }, { 1, BAD } }, { 0 }, 1, 0 },
    { { { 1, BAD }, { 255, GOOD } }, { 0 }, 1, 0 },
    { { { 256, BAD } }, { 0 }, 256, 0 },
    { { { 256, GOOD } }, { 0 }, 0, 0 },
    { { { 127, GOOD }, { 1, BAD_HIGH } }, { 0, 512 }, 1, 0 },
    { { { 128, BAD } }, { 0, 512 }, 256, 0 },
    { { { 56, GOOD }, { 100, BAD } }, { 224, 400 }, 200, 0 },
    /* 257 steps: the last, the first, both and neither; then all, and all but one. */
    { { { 256, GOOD }, { 1, BAD } }, { 0 }, 1, 4 },
    { { { 1, BAD }, { 256, GOOD } }, { 0 }, 1, 0 },
    { { { 1, BAD }, { 255, GOOD }, { 1, BAD } }, { 0 }, 1, 0 },
    { { { 257, GOOD } }, { 0 }, 0, 0 },
    { { { 257, BAD } }, { 0 }, 256, 0 },
    { { { 1, GOOD }, { 256, BAD } }, { 0 }, 256, 4 },
    { { { 256, BAD }, { 1, GOOD } }, { 0 }, 256, 0 },
    { { { 1, BAD }, { 1, GOOD }, { 255, BAD } }, { 0 }, 255, 0 },
    /* Two steps 255 apart lie in one run, and two 256 apart do not. */
    { { { 99, GOOD }, { 1, BAD }, { 254, GOOD }, { 1, BAD }, { 99, GOOD } }, { 0 }, 2, 396 },
    { { { 99, GOOD }, { 1, BAD }, { 255, GOOD }, { 1, BAD }, { 99, GOOD } }, { 0 }, 1, 0 },
    /* Of runs with as many the first, which is the first that holds step 301, or 9. */
    { { { 300, GOOD }, { 2, BAD }, { 400, GOOD }, { 2, BAD }, { 50, GOOD } }, { 0 }, 2, 184 },
    { { { 9, GOOD }, { 1, BAD }, { 400, GOOD }, { 1, BAD }, { 50, GOOD } }, { 0 }, 1, 0 },
    { { { 300, GOOD }, { 2, BAD }, { 400, GOOD }, { 3, BAD }, { 50, GOOD } }, { 0 }, 3, 1796 },
    /* The last run alone: of 601 steps that from 345, of 603 that from 347. */
    { { { 600, GOOD }, { 1, BAD } }, { 0 }, 1, 1380 },
    { { { 1, BAD }, { 600, GOOD }, { 2, BAD } }, { 0 }, 2, 1388 },
    /* No step in many, and steps of one kind alone: each run has to hold step 300. */
    { { { 1000, GOOD } }, { 0 }, 0, 0 },
    { { { 500, GOOD }, { 500, PAIR } }, { 2000, 2000 }, 0, 0 },
    { { { 300, GOOD }, { 1, 0xf0821003 }, { 9, GOOD } }, { 0 }, 1, 180 },
    { { { 300, GOOD }, { 1, 0xe1800090 }, { 9, GOOD } }, { 0 }, 1, 180 },
    { { { 300, GOOD }, { 1, 0xe1000000 }, { 9, GOOD } }, { 0 }, 1, 180 },
    { { { 300, GOOD }, { 1, 0xe6000010 }, { 9, GOOD } }, { 0 }, 1, 180 },
    { { { 300, GOOD }, { 1, 0xee000000 }, { 9, GOOD } }, { 0 }, 1, 180 },
    { { { 150, GOOD }, { 1, 0x1003b100 }, { 9, GOOD } }, { 0, 640 }, 1, 90 },
    { { { 150, GOOD }, { 1, 0x1003e800 }, { 9, GOOD } }, { 0, 640 }, 1, 90 },
    { { { 150, GOOD }, { 1, 0x1003de00 }, { 9, GOOD } }, { 0, 640 }, 1, 90 },
    /* 200 words and 80 halfwords: the run from word 24. The reverse: it ends with the
     * word of step 279, and begins with the halfword of step 24. */
    { { { 200, GOOD }, { 40, BAD } }, { 800, 160 }, 80, 96 },
    { { { 100, GOOD }, { 80, BAD } }, { 0, 400 }, 80, 48 },
    /* A call pair is one step: 257 steps, the run from the first behind it. */
    { { { 1, PAIR }, { 127, GOOD }, { 1, BAD } }, { 0, 516 }, 2, 4 },
    /* The run begins with the pair, the third of 259 steps, and ends with B100; the next
     * run, from the step behind the pair, has no more. */
    { { { 1, GOOD }, { 1, PAIR }, { 126, GOOD }, { 1, BAD }, { 1, BAD_LOW } }, { 0, 520 }, 3, 4 },
    /* The run ends with a pair that lies across two words, the last of 256 steps, and the
     * run from the next step has no more; then it has one more, with B100 behind the pair. */
    { { { 1, BAD }, { 126, GOOD }, { 1, 0xf0001003 }, { 1, 0xb100f800 } }, { 0, 516 }, 2, 0 },
    { { { 127, GOOD }, { 1, 0xf000b100 }, { 1, 0xb100f800 } }, { 0, 516 }, 2, 2 },
    /* The halves of a call cut by a border, which are two steps, and in one stretch. */
    { { { 1, 0xf000b100 }, { 1, 0x1003f800 }, { 126, GOOD }, { 1, 0x1003e800 } }, { 0, 4, 4, 512 }, 1, 0 },
    { { { 1, 0xf000b100 }, { 1, 0x1003f800 }, { 126, GOOD }, { 1, 0x1003e800 } }, { 0, 516 }, 2, 0 },
    /* The run begins with the second half, as step 2, and with the pair, as step 1. */
    { { { 1, 0xf0001003 }, { 1, 0x1003f800 }, { 126, GOOD }, { 1, 0xe800b100 } }, { 0, 4, 4, 512 }, 2, 4 },
    { { { 1, 0xf0001003 }, { 1, 0x1003f800 }, { 126, GOOD }, { 1, 0xe800b100 } }, { 0, 516 }, 2, 2 },
    /* 65,536 bytes: their last step, and all. */
    { { { 16383, GOOD }, { 1, BAD } }, { 0 }, 1, 64512 },
    { { { 16383, GOOD }, { 1, BAD_HIGH } }, { 0, MOST }, 1, 65024 },
    { { { 16383, PAIR }, { 1, BAD } }, { 0, MOST }, 2, 64516 },
    { { { 16384, GOOD } }, { 0 }, 0, 0 },
    { { { 16384, PAIR } }, { 0, MOST }, 0, 0 },
    { { { 16384, BAD } }, { 0 }, 256, 0 },
    { { { 16384, BAD } }, { 0, MOST }, 256, 0 },
};

/* How many words a worked image has. */
static size_t words_of(const struct row *row)
{
    size_t count = 0;
    for (size_t i = 0; i < COUNT(row->words); i++) {
        count += row->words[i].times;
    }
    return count;
}

static void work(const struct row *row)
{
    struct found want = { 0, row->count, row->offset };
    size_t place = 0, count = 0;
    open_image(4 * words_of(row));
    for (size_t i = 0; i < COUNT(row->words); i++) {
        for (uint32_t times = row->words[i].times; times > 0; times--, place += 4) {
            put(place, row->words[i].word, 4);
        }
    }
    while (row->stretches[2 * count + 1] != 0) {
        count++;
    }
    memcpy(pairs, row->stretches, sizeof row->stretches);
    give(count, 0);
    look();
    call("worked", &want);
    check(beside("worked, rules") == 0, "worked", want.offset, want.count);
}

/* More than once, as images and stretches of no bytes have a pointer or none. */
static void worked(void)
{
    for (size_t n = 0; n < 4 * COUNT(table); n++) {
        work(&table[n / 4]);
    }
    check(seen.null_images > 0 && seen.empty_images > 0, "too few empty images", 0, 0);
    check(seen.null_stretches > 50 && seen.empty_stretches > 50, "too few empty lists", 0, 0);
}

/* An image of so many steps, all of which show an instruction, in one set. */
static void plain_image(size_t steps, uint32_t width)
{
    open_image(width * steps);
    for (uint32_t place = 0; place < image.size; place += 4) {
        put(place, GOOD, 4);
    }
    if (width == 2) {
        give_one((uint32_t)image.size);
    } else {
        give(0, 0);
        look();
    }
}

/* Two steps of a plain image that show no instruction, or one twice. The answer follows
 * from their numbers: that of the first run that holds both, or else the first of them. */
static void spot(size_t first, size_t second, uint32_t width)
{
    static const uint32_t bad[] = { 0xde00, 0xe1800090 }, good[] = { 0x1003, GOOD };
    bool both = second < first + RUN;
    size_t reached = both ? second : first, begin = reached < RUN ? 0 : reached - (RUN - 1);
    struct found want = { 0, both && first != second ? 2 : 1, width * (uint32_t)begin };
    put(width * first, bad[width / 4], width);
    put(width * second, bad[width / 4], width);
    struct found ruled = find();
    check(same(&ruled, &want), "spot, rules", want.offset, want.count);
    call("spot", &want);
    put(width * first, good[width / 4], width);
    put(width * second, good[width / 4], width);
}

/* One such step at each place, and a second about as far behind it as a run is long. */
static void spots(void)
{
    static const struct {
        size_t steps;
        uint32_t width;
    } images[] = { { 1, 4 },   { 2, 4 },   { 2, 2 },   { 255, 4 }, { 256, 4 }, { 256, 2 },
                   { 257, 4 }, { 258, 2 }, { 300, 4 }, { 512, 2 }, { 513, 4 }, { 600, 2 } };
    static const size_t apart[] = { 0, 1, RUN - 1, RUN };
    for (size_t n = 0; n < COUNT(images); n++) {
        plain_image(images[n].steps, images[n].width);
        for (size_t first = 0; first < images[n].steps; first++) {
            for (size_t i = 0; i < COUNT(apart) && first + apart[i] < images[n].steps; i++) {
                spot(first, first + apart[i], images[n].width);
            }
        }
    }
}

/* How many of 1,024 words show no instruction, in each of two zones that follow one
 * another, and how many words a zone has on average. */
static const struct mixture {
    uint32_t chances[2];
    uint32_t zone;
} mixtures[] = {
    { { 0, 0 }, 1 },
    { { 4, 4 }, 1 },
    { { 60, 60 }, 1 },
    { { 512, 512 }, 1 },
    { { 1000, 1000 }, 1 },
    { { 1024, 1024 }, 1 },
    { { 8, 700 }, 30 },
    { { 2, 200 }, 200 },
    { { 0, 1024 }, 100 },
    { { 0, 1024 }, 300 },
};

static uint32_t word_of(bool invalid)
{
    uint32_t word;
    do {
        word = !invalid || below(2) == 0 ? random_number() : random_word();
    } while ((arm_shows(word) != INSTRUCTION) != invalid);
    return word;
}

static uint32_t half_of(bool invalid)
{
    uint32_t half = (uint32_t)undefined_tops[below(COUNT(undefined_tops))] << 8 | below(0x100);
    while (!invalid && thumb_shows(half) != INSTRUCTION) {
        half = random_half();
    }
    return half;
}

/* True of so many in 1,024. */
static bool happens(uint32_t chance)
{
    return below(1024) < chance;
}

/* Two halfwords in Thumb, or a call. */
static void fill_thumb(uint32_t place, uint32_t chance)
{
    put(place, half_of(happens(chance)), 2);
    put(place + 2, half_of(happens(chance)), 2);
    if (!happens(chance) && below(2) == 0) {
        put(place, random_call(), 4);
    }
}

/* Gives each word of the image, and in Thumb each halfword, a value. */
static void fill(const struct mixture *mixture)
{
    size_t zone = below(2);
    for (uint32_t place = 0; place < image.size; place += 4) {
        uint32_t chance = mixture->chances[zone];
        if (image.marks[place] == ARM) {
            put(place, word_of(happens(chance)), 4);
        } else {
            fill_thumb(place, chance);
        }
        zone = below(mixture->zone) == 0 ? 1 - zone : zone;
    }
}

/* Leaves so many bytes of the image out, the first or the last. */
static void shorten(size_t bytes, bool first)
{
    uint8_t *begin = image_room + ROOM - image.size;
    image.size -= bytes;
    image.bytes = begin + bytes;
    if (!first) {
        memmove(begin + bytes, begin, image.size);
    }
}

/* The first `count` pairs as the list, that many bytes further on, modulo 2^32. */
static void give_moved(size_t count, uint32_t bytes)
{
    for (size_t i = 0; i < count; i++) {
        pairs[2 * i] += bytes;
    }
    give(count, 0);
    look();
}

/* A valid image whose listing has so many steps. As many words of ARM stand before words
 * with random stretches, or behind them; of these the ones that are too many are left out. */
static void make_image(size_t steps, const struct mixture *mixture)
{
    static const uint32_t longest[] = { 1, 4, 30, 200 };
    uint32_t before = below(2) * 4 * (uint32_t)steps, words = (uint32_t)steps / 2;
    words = below(2) == 0 ? words : below(words + 1);
    open_image(4 * words);
    size_t count = random_stretches(longest[below(COUNT(longest))], 300);
    open_image(4 * (steps + words));
    give_moved(count, before);
    fill(mixture);
    cross(count);
    list();
    size_t spare = 4 * (listed.count - steps);
    shorten(spare, before > 0);
    give_moved(count, before > 0 ? 0 - (uint32_t)spare : 0);
    list();
    check(listed.count == steps && image.refusal == 0, "steps of an image", 0, steps);
}

/* Mostly around as many as a run has, or as two. */
static size_t random_steps(void)
{
    switch (below(8)) {
    case 0:
        return below(RUN);
    case 1:
        return 2 * RUN - 6 + below(12);
    case 2:
    case 3:
        return RUN + below(2 * RUN);
    default:
        return RUN - 2 + below(12);
    }
}

/* Images of each mixture, in which each case has to come often. */
static void random_images(void)
{
    memset(&seen, 0, sizeof seen);
    for (size_t n = 0; n < 5000; n++) {
        make_image(random_steps(), &mixtures[n % COUNT(mixtures)]);
        check(beside("random") == 0, "random", 0, n);
    }
    check(seen.fewer > 700 && seen.exact > 100 && seen.more > 100, "too few images of a size", 0, 0);
    check(seen.other_255 > 1500 && seen.other_257 > 1500, "too few images that tell 256", 0, 0);
    check(seen.spotless > 400 && seen.filled > 100, "too few images of one kind of step", 0, 0);
    check(seen.first > 1200 && seen.last > 200 && seen.equalled > 1800, "too few worst runs", 0, 0);
    check(seen.pair_first > 40 && seen.behind_pair > 70 && seen.cut_first > 50 && seen.pair_last > 40,
          "too few calls at a border", 0, 0);
    check(seen.arm[NO_CONDITION] > 50000 && seen.arm[NO_TYPE] > 20000 && seen.arm[NO_FLAGS] > 20000
              && seen.arm[UNDEFINED] > 50000 && seen.thumb[UNDEFINED] > 100000 && seen.traps > 5000,
          "too few steps without an instruction", 0, 0);
}

/* The listing that the library gives, from place 0 on. */
static void list_by_library(void)
{
    uint8_t line[WIDEST];
    struct answer answer = ask(0, line, WIDEST);
    listed.count = 0;
    while (answer.bytes > 0 && listed.count < COUNT(listed.offsets)) {
        append(answer.offset, printed(answer.number, line, answer.length) != INSTRUCTION);
        answer = ask(answer.offset + answer.bytes, line, WIDEST);
    }
}

/* A listing of the library, step by step beside the rules of image.h, and the worst of
 * its runs. */
static void listing(const char *what)
{
    rest(what, 0, LONGEST);
    list_by_library();
    struct found want = found_in_listing();
    call(what, &want);
}

/* Listings at several bases, which do not matter. */
static void listings(void)
{
    static const uint32_t bases[] = { 0, 1, 0x8000, 0x7ffffffe, 0xfffffff0, 0xffffffff };
    for (size_t n = 0; n < 300; n++) {
        make_image(random_steps(), &mixtures[n % COUNT(mixtures)]);
        for (size_t i = 0; i < 3; i++) {
            image.base = i == 0 ? random_number() : bases[below(COUNT(bases))];
            listing("listing");
        }
    }
}

/* An image's size and the length of its one stretch, from 0 on; and the answer. */
static const struct order {
    size_t size;
    uint32_t length;
    uint32_t number;
} orders[] = {
    { 8, 4, 0 },
    { 8, 8, 0 },
    { MOST, MOST, 0 },
    { 8, 0, 7 },
    { 8, 6, 7 },
    { 8, 12, 7 },
    { 0, 4, 7 },
    { MOST, 0, 7 },
    { MOST, MOST + 4, 7 },
    { 1, 4, 6 },
    { 6, 4, 6 },
    { 6, 8, 6 },
    { 7, 0, 6 },
    { MOST - 1, 4, 6 },
    { MOST + 1, 4, 6 },
    { MOST + 2, 4, 6 },
    { MOST + 4, 4, 6 },
    { MOST + 4, 0, 6 },
    { 2 * MOST, 6, 6 },
};

/* Refusals one before the other. */
static void ordered(void)
{
    for (size_t r = 0; r < COUNT(orders); r++) {
        const struct order *row = &orders[r];
        open_image(row->size);
        give_one(row->length);
        check(beside("order") == row->number, "order", row->length, row->size);
    }
}

/* Images with any number of faults, and such that are cut or have too many bytes. */
static void random_refusals(void)
{
    memset(&seen, 0, sizeof seen);
    for (int n = 0; n < 6000; n++) {
        if (n % 64 == 0) {
            open_image(MOST + 1 + below(2) * below(MOST));
            give(random_pairs(), 0);
            look();
        } else if (n % 2 == 0) {
            random_image(400);
        } else {
            faulty_image();
        }
        if (below(6) == 0 && image.size > 0) {
            cut_image();
        }
        beside("refused");
    }
    check(seen.answers[6] > 700 && seen.answers[7] > 1200 && seen.answers[0] > 2500, "too few refused images", 0, 0);
}

static void above_32_bits(void)
{
    size_t size = ((size_t)1 << 32) + 8;
    uint8_t *zeros = large_room(size);
    image_above_32_bits(zeros);
    check(beside("image above 32 bits") == 6, "image above 32 bits", 0, 0);
    list_above_32_bits(zeros);
    check(beside("list above 32 bits") == 7, "list above 32 bits", 0, 0);
    munmap(zeros, size);
}

/* 65,536 bytes: as halved_image has them, and then with each mixture. */
static void large_image(size_t count, size_t thumb_first)
{
    halved_image(count, thumb_first);
    check(beside("largest") == 0, "largest", 0, count);
    for (size_t i = 0; i < COUNT(mixtures); i++) {
        fill(&mixtures[i]);
        check(beside("largest, filled") == 0, "largest, filled", (uint32_t)i, count);
    }
}

/* The last of them is listed too: each step looks at all stretches. */
static void largest(void)
{
    static const size_t counts[] = { 8192, 1 };
    large_image(0, 0);
    for (size_t i = 0; i < 2 * COUNT(counts); i++) {
        large_image(counts[i / 2], i % 2);
    }
    listing("largest, listing");
}

int main(void)
{
    image_room = closed_room();
    stretches_room = closed_room();
    words();
    worked();
    spots();
    random_images();
    listings();
    ordered();
    random_refusals();
    above_32_bits();
    largest();
    munmap(image_room, ROOM + PAGE);
    munmap(stretches_room, ROOM + PAGE);
    printf("%lu passed, %lu failed\n", passed, failed);
    return failed == 0 ? EXIT_SUCCESS : EXIT_FAILURE;
}
