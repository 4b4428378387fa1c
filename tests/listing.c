/* Steps of listings through the C interface, beside the rules of image.h: worked
 * steps, random images from end to end, short buffers, places that are none, images
 * and stretches that are refused, and images of 65,536 bytes. Image and stretches
 * end at a page without access, and the line stands between guard bytes. */
#include "image.h"

/* The call pairs of the random images, inside one stretch and cut by a border. */
static unsigned long joined, parted;

/* A listing from place 0 to the end mark, which comes again with any buffer. */
static void listing(const char *what, size_t capacity)
{
    static const size_t capacities[] = { 0, 1, LONGEST, WIDEST, 0 };
    uint32_t place = rest(what, 0, capacity);
    for (size_t c = 0; c < COUNT(capacities); c++) {
        check(compare("end mark", place, capacities[c]) == 0, "end mark's bytes", place, capacities[c]);
    }
}

/* Words and stretches, and what a step answers, the line spelled out. */
static const struct row {
    uint32_t words[3];
    size_t words_count;
    uint32_t stretches[4];
    size_t stretches_count;
    uint32_t base, place;
    size_t capacity;
    uint32_t number, offset, bytes;
    const char *line;
} table[] = {
    { { 0xe0821003 }, 1, { 0 }, 0, 0, 0, 80, 0, 0, 4, "add\tr1, r2, r3" },
    { { 0xe0821003, 0xeafffffe }, 2, { 0 }, 0, 0xfc, 4, 80, 0, 4, 4, "b\t0x00000100" },
    { { 0, 0xeafffffe }, 2, { 0 }, 0, 0xfffffffe, 4, 12, 0, 4, 4, "b\t0x00000002" },
    { { 0x086affff }, 1, { 0 }, 0, 0, 0, 80, 0, 0, 4,
      "stmdaeq\tr10!, {r0, r1, r2, r3, r4, r5, r6, r7, r8, r9, r10, fp, ip, sp, lr, pc}^" },
    { { 0x086affff }, 1, { 0 }, 0, 0, 0, 79, 3, 0, 0, "" },
    /* Refusals of a word come before 3. */
    { { 0, 0xf0000000 }, 2, { 0 }, 0, 0, 4, 0, 1, 4, 4, "" },
    { { 0, 0xe1800090 }, 2, { 0 }, 0, 0, 4, 0, 2, 4, 4, "" },
    { { 0, 0xf1800090 }, 2, { 0 }, 0, 0, 4, 80, 1, 4, 4, "" },
    { { 0, 0xe1000000 }, 2, { 0 }, 0, 0, 4, 0, 9, 4, 4, "" },
    { { 0, 0xe3600000 }, 2, { 0 }, 0, 0, 4, 80, 9, 4, 4, "" },
    { { 0, 0xf1000000 }, 2, { 0 }, 0, 0, 4, 80, 1, 4, 4, "" },
    { { 0, 0xe1100000 }, 2, { 0 }, 0, 0, 4, 80, 0, 4, 4, "tst\tr0, r0" },
    { { 0, 0xe0821003 }, 2, { 0 }, 0, 0, 4, 13, 3, 4, 0, "" },
    /* Halfwords and a call pair in Thumb; its second half alone. */
    { { 0xc8084480 }, 1, { 0, 4 }, 1, 0, 0, 80, 0, 0, 2, "add\tr8, r0" },
    { { 0xc8084480 }, 1, { 0, 4 }, 1, 0, 2, 80, 0, 2, 2, "ldm\tr0!, {r3}" },
    { { 0, 0xfffef7ff }, 2, { 4, 4 }, 1, 0xfc, 4, 13, 0, 4, 4, "bl\t0x00000100" },
    { { 0, 0xfffef7ff }, 2, { 4, 4 }, 1, 0xfc, 6, 80, 0, 6, 2, "bl\t#0x00000ffc" },
    { { 0, 0xf800f000 }, 2, { 4, 4 }, 1, 0, 4, 12, 3, 4, 0, "" },
    /* The same halves over the middle of a stretch, and cut by borders. */
    { { 0xf0000000, 0xf800 }, 2, { 0, 8 }, 1, 0, 2, 80, 0, 2, 4, "bl\t0x00000006" },
    { { 0xf0000000, 0xf800 }, 2, { 0, 4, 4, 4 }, 2, 0, 2, 80, 0, 2, 2, "bl\t#0x00000000" },
    { { 0xf0000000, 0xf800 }, 2, { 0, 4 }, 1, 0, 2, 80, 0, 2, 2, "bl\t#0x00000000" },
    { { 0xf0000000, 0xf800 }, 2, { 4, 4 }, 1, 0, 4, 80, 0, 4, 2, "bl\t#0x00000000" },
    { { 0xf0000000 }, 1, { 0, 4 }, 1, 0, 2, 80, 0, 2, 2, "bl\t#0x00000000" },
    /* End marks, and places that are none. */
    { { 0 }, 0, { 0 }, 0, 0, 0, 0, 0, 0, 0, "" },
    { { 0, 0, 0 }, 3, { 4, 8 }, 1, 0, 12, 0, 0, 12, 0, "" },
    { { 0, 0, 0 }, 3, { 4, 8 }, 1, 0, 13, 80, 8, 0, 0, "" },
    { { 0, 0, 0 }, 3, { 4, 8 }, 1, 0, 16, 80, 8, 0, 0, "" },
    { { 0, 0, 0 }, 3, { 4, 8 }, 1, 0, 2, 80, 8, 0, 0, "" },
    { { 0, 0, 0 }, 3, { 4, 8 }, 1, 0, 7, 80, 8, 0, 0, "" },
    /* Stretches that are refused, also at places that are none. */
    { { 0, 0, 0 }, 3, { 4, 12 }, 1, 0, 0, 80, 7, 0, 0, "" },
    { { 0, 0, 0 }, 3, { 0, 8, 4, 8 }, 2, 0, 99, 80, 7, 0, 0, "" },
    { { 0, 0, 0 }, 3, { 0xfffffffc, 8 }, 1, 0, 0, 0, 7, 0, 0, "" },
};

static void worked(void)
{
    for (size_t r = 0; r < COUNT(table); r++) {
        const struct row *row = &table[r];
        uint8_t line[WIDEST];
        size_t want = strlen(row->line);
        open_image(4 * row->words_count);
        for (size_t i = 0; i < row->words_count; i++) {
            put(4 * i, row->words[i], 4);
        }
        memcpy(pairs, row->stretches, sizeof row->stretches);
        give(row->stretches_count, 0);
        image.base = row->base;
        look();
        struct answer answer = ask(row->place, line, row->capacity);
        check(answer.number == row->number && answer.offset == row->offset && answer.bytes == row->bytes
                  && answer.length == want && memcmp(line, row->line, want) == 0,
              "worked", row->place, row->capacity);
        compare("worked, rules", row->place, row->capacity);
    }
}

/* Call pairs of the image: those of one stretch, and those that a border cuts. */
static void count_pairs(void)
{
    for (uint32_t place = 0; place < image.size; place += 2) {
        if (image.marks[place] != ARM && halves(place)) {
            *(covered(place) == 4 ? &joined : &parted) += 1;
        }
    }
}

static void random_images(void)
{
    for (int n = 0; n < 10000; n++) {
        random_image(n % 2 == 0 ? 40 : 400);
        count_pairs();
        listing("80 bytes", LONGEST);
        listing("128 bytes", WIDEST);
    }
    check(numbers[1] > 10000 && numbers[2] > 10000 && numbers[9] > 10000, "too few refusals", 0, 0);
    check(joined > 10000 && parted > 10000, "too few call pairs", 0, 0);
}

/* Every step of a listing with short buffers, and those around its line's length. */
static void short_buffers(void)
{
    for (int n = 0; n < 400; n++) {
        random_image(100);
        for (uint32_t place = 0; place < image.size; place += covered(place)) {
            for (size_t capacity = 0; capacity <= 16; capacity++) {
                compare("short buffer", place, capacity);
            }
            struct answer whole = step(place, LONGEST);
            if (whole.number == 0) {
                size_t less = whole.length - 1;
                check(compare("a byte short", place, less) == 0, "a byte short, bytes", place, less);
                compare("no byte more", place, whole.length);
            }
        }
    }
}

/* Every place of an image and behind it, and those far behind it. */
static void places(void)
{
    for (int n = 0; n < 400; n++) {
        random_image(200);
        for (uint32_t place = 0; place < image.size + 10; place++) {
            compare("place", place, place % 3 == 0 ? 0 : LONGEST);
            compare("place and 65,536", place + 0x10000, LONGEST);
            compare("place and 2^31", place + 0x80000000, LONGEST);
        }
        for (size_t f = 0; f < COUNT(far); f++) {
            compare("far place", far[f], 0);
            compare("far place", far[f], LONGEST);
        }
    }
}

/* An image and its refusal, at places that an image has, and at such that it has not. */
static void refused(const char *what, uint32_t number)
{
    uint32_t size = (uint32_t)image.size;
    uint32_t at[] = { 0, 1, 2, 4, size - 1, size, size + 1, size + 4, 0x80000000, 0xffffffff };
    look();
    check(image.refusal == number, what, 0, 0);
    for (size_t i = 0; i < COUNT(at); i++) {
        compare(what, at[i], 0);
        compare(what, at[i], LONGEST);
    }
}

/* Faults of one pair. Those that add to a number leave its end in the gap behind it. */
enum { NO_LENGTH, OFFSET, LENGTH = OFFSET + 3, PAST = LENGTH + 3, FAR_PAST };
enum { WRAP = FAR_PAST + 1, WRAP_0, WRAP_END, LOWER, TWICE, FAULTS };

static void spoil(size_t i, int fault)
{
    uint32_t *pair = &pairs[2 * i], size = (uint32_t)image.size;
    uint32_t offset = pair[0], end = pair[0] + pair[1], before = i > 0 ? pair[-2] + pair[-1] : 0;
    const uint32_t faults[FAULTS][2] = {
        [NO_LENGTH] = { offset, 0 },
        [OFFSET] = { offset + 1, end - offset },
        [OFFSET + 1] = { offset + 2, end - offset },
        [OFFSET + 2] = { offset + 3, end - offset },
        [LENGTH] = { offset, end - offset + 1 },
        [LENGTH + 1] = { offset, end - offset + 2 },
        [LENGTH + 2] = { offset, end - offset + 3 },
        [PAST] = { offset, size - offset + 4 },
        [FAR_PAST] = { offset, 0xfffffffc - offset },
        /* Sums of 2^32 and some: 4, 0, and the image's size. */
        [WRAP] = { 0xfffffffc, 8 },
        [WRAP_0] = { offset, 0 - offset },
        [WRAP_END] = { 0x80000000, size + 0x80000000 },
        /* Below the end before; the first pair has none, and ends past the image. */
        [LOWER] = { i > 0 ? before - 4 : size, i > 0 ? end - before + 4 : 4 },
        [TWICE] = { i > 0 ? pair[-2] : size - 4, i > 0 ? pair[-1] : 8 },
    };
    pair[0] = faults[fault][0];
    pair[1] = faults[fault][1];
}

/* An image with stretches of 8 bytes and gaps of 4, first in Thumb. */
static void even_image(size_t count)
{
    open_image(12 * count);
    for (size_t i = 0; i < count; i++) {
        pairs[2 * i] = (uint32_t)(12 * i);
        pairs[2 * i + 1] = 8;
    }
}

/* Each fault of each pair, and each number of bytes too few. */
static void single_faults(void)
{
    for (size_t count = 1; count <= 6; count++) {
        even_image(count);
        give(count, 0);
        refused("no fault", 0);
        for (size_t i = 0; i < count; i++) {
            for (int fault = 0; fault < FAULTS; fault++) {
                even_image(count);
                spoil(i, fault);
                give(count, 0);
                refused("fault", 7);
            }
        }
        even_image(count);
        for (size_t cut = 1; cut < 8; cut++) {
            give(count, cut);
            refused("cut short", 7);
        }
    }
}

/* Two faults in one list, of two pairs or of its end; then 6 before them. */
static void double_faults(void)
{
    for (int n = 0; n < 4000; n++) {
        size_t count = 2 + below(5), i = below((uint32_t)count - 1) + 1, j = below((uint32_t)i);
        even_image(count);
        spoil(i, (int)below(FAULTS));
        spoil(j, (int)below(FAULTS));
        give(count, below(2) * below(8));
        refused("two faults", 7);
        cut_image();
        refused("6 before 7", 6);
    }
}

/* Lists with any number of faults, also of one pair, and some with none. */
static void random_faults(void)
{
    for (int n = 0; n < 20000; n++) {
        faulty_image();
        refused("random", refusal());
    }
}

/* Sizes that no image has, without a stretch, with one of 4 bytes and with one of 6. */
static void sizes(void)
{
    static const uint32_t lengths[] = { 0, 4, 6 };
    static const size_t large[] = { MOST - 1, MOST + 1, MOST + 2, MOST + 3, MOST + 4, 2 * MOST, 2 * MOST + 4 };
    for (size_t n = 0; n < 300 + COUNT(large); n++) {
        size_t size = n < 300 ? n : large[n - 300];
        if (n < 300 && n % 4 == 0) {
            continue;
        }
        for (size_t i = 0; i < COUNT(lengths); i++) {
            open_image(size);
            give_one(lengths[i]);
            if (lengths[i] == 0) {
                give(0, 0);
            }
            refused("size", 6);
        }
    }
}

static void above_32_bits(void)
{
    size_t size = ((size_t)1 << 32) + 8;
    uint8_t *zeros = large_room(size);
    image_above_32_bits(zeros);
    refused("image above 32 bits", 6);
    list_above_32_bits(zeros);
    refused("list above 32 bits", 7);
    munmap(zeros, size);
}

/* `count` stretches that cover about half of 65,536 bytes. */
static void halved(size_t count, size_t thumb_first)
{
    halved_image(count, thumb_first);
    check(image.refusal == 0, "largest image", 0, 0);
    listing("largest image", LONGEST);
}

/* 65,536 bytes in Thumb: one stretch, and all stretches of 4 bytes. */
static void filled(size_t count)
{
    open_image(MOST);
    for (size_t i = 0; i < count; i++) {
        pairs[2 * i] = (uint32_t)(MOST / count * i);
        pairs[2 * i + 1] = (uint32_t)(MOST / count);
    }
    give(count, 0);
    look();
    check(image.refusal == 0, "largest Thumb image", 0, 0);
    listing("largest Thumb image", LONGEST);
}

/* Step by step, though each call looks at all stretches. */
static void largest(void)
{
    halved(0, 0);
    for (size_t thumb_first = 0; thumb_first < 2; thumb_first++) {
        halved(1, thumb_first);
        halved(100, thumb_first);
        halved(8192, thumb_first);
    }
    filled(1);
    filled(MOST / 4);
}

int main(void)
{
    image_room = closed_room();
    stretches_room = closed_room();
    worked();
    random_images();
    short_buffers();
    places();
    single_faults();
    double_faults();
    random_faults();
    sizes();
    above_32_bits();
    largest();
    munmap(image_room, ROOM + PAGE);
    munmap(stretches_room, ROOM + PAGE);
    printf("%lu passed, %lu failed\n", passed, failed);
    return failed == 0 ? EXIT_SUCCESS : EXIT_FAILURE;
}
