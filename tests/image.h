/* An image before a page without access, the rules of its listing, and random images:
 * what listing.c, patch.c, steps_at.c, worst_run.c and moved.c share. The rules take from
 * the library only the line of a single word, halfword or call pair. */
#ifndef IMAGE_H
#define IMAGE_H

#include <stdbool.h>
#include <stdio.h>
#include <stdlib.h>
#include <string.h>
#include <sys/mman.h>

#include "modestsilk.h"

enum { MOST = 65536, PAGE = 4096, ROOM = 2 * MOST + PAGE, MOST_PAIRS = ROOM / 8 };
enum { LONGEST = 80, WIDEST = 128, SIDE = 16, GUARD = 0xa5, UNSET = 0x5a5a5a5a };
enum { ARM = 0 };

#define COUNT(array) (sizeof(array) / sizeof(array)[0])

/* The image. A byte's mark is ARM, or the number of its stretch from 1; the marks are
 * those of an image that is not refused. */
static struct {
    uint8_t *bytes;
    size_t size;
    const uint8_t *stretches;
    size_t stretches_size;
    uint32_t base;
    uint32_t refusal;
    uint16_t marks[MOST];
} image;

struct answer {
    uint32_t number;
    uint32_t offset;
    uint32_t bytes;
    size_t length;
    uint8_t line[WIDEST];
};

/* Memory for the image and for its stretches; a page without access follows. */
static uint8_t *image_room, *stretches_room;

/* Offsets and lengths of the stretches, from which the list is made. */
static uint32_t pairs[2 * MOST_PAIRS];

static unsigned long passed, failed;

/* How often the rules gave each number to a step. */
static unsigned long numbers[16];

/* Places far behind an image, some of which would be places in fewer bits. */
static const uint32_t far[] = { 0xffff, 0x10000, 0x7ffffffe, 0x80000000, 0xfffffff8, 0xfffffffe, 0xffffffff };

static void check(bool good, const char *what, uint32_t place, size_t line)
{
    if (good) {
        passed++;
    } else if (failed++ < 20) {
        printf("%s: %zu bytes at %08x, %zu bytes of stretches, place %u, line %zu\n", what, image.size, image.base,
               image.stretches_size, place, line);
    }
}

static uint32_t little_endian(const uint8_t *bytes, int count)
{
    uint32_t value = 0;
    for (int i = 0; i < count; i++) {
        value |= (uint32_t)bytes[i] << 8 * i;
    }
    return value;
}

/* 6, 7, or 0 where neither holds. */
static uint32_t refusal(void)
{
    if (image.size > MOST || image.size % 4 != 0) {
        return 6;
    }
    if (image.stretches_size % 8 != 0) {
        return 7;
    }
    uint64_t before = 0;
    for (size_t i = 0; i < image.stretches_size; i += 8) {
        uint64_t offset = little_endian(image.stretches + i, 4);
        uint64_t length = little_endian(image.stretches + i + 4, 4);
        if (length == 0 || offset % 4 != 0 || length % 4 != 0 || offset + length > image.size || offset < before) {
            return 7;
        }
        before = offset + length;
    }
    return 0;
}

/* Looks at an image before its steps. */
static void look(void)
{
    image.refusal = refusal();
    if (image.refusal != 0) {
        return;
    }
    memset(image.marks, ARM, sizeof image.marks);
    for (size_t i = 0; i < image.stretches_size / 8; i++) {
        uint32_t offset = little_endian(image.stretches + 8 * i, 4);
        uint32_t end = offset + little_endian(image.stretches + 8 * i + 4, 4);
        for (uint32_t at = offset; at < end; at++) {
            image.marks[at] = (uint16_t)(i + 1);
        }
    }
}

/* A first half at the place, and a second behind it, wherever the borders are. */
static bool halves(uint32_t place)
{
    return place + 4 <= image.size && little_endian(image.bytes + place, 2) >> 11 == 0x1e
           && little_endian(image.bytes + place + 2, 2) >> 11 == 0x1f;
}

static bool aligned(uint32_t place)
{
    return place % (image.marks[place] == ARM ? 4 : 2) == 0;
}

static uint32_t covered(uint32_t place)
{
    if (image.marks[place] == ARM) {
        return 4;
    }
    return halves(place) && image.marks[place + 2] == image.marks[place] ? 4 : 2;
}

/* What the library prints for the bytes at the place, in a buffer for any line. */
static uint32_t print(uint32_t place, uint32_t bytes, uint8_t *line, size_t *length)
{
    uint32_t address = image.base + place;
    uint32_t word = little_endian(image.bytes + place, (int)bytes);
    if (image.marks[place] == ARM) {
        return silk_print_arm(SILK_SHEET, word, address, line, WIDEST, length);
    }
    if (bytes == 4) {
        return silk_print_pair((uint16_t)word, (uint16_t)(word >> 16), address, line, WIDEST, length);
    }
    return silk_print_thumb(SILK_SHEET, (uint16_t)word, address, line, WIDEST, length);
}

static struct answer step(uint32_t place, size_t capacity)
{
    if (image.refusal != 0) {
        return (struct answer){ .number = image.refusal };
    }
    if (place > image.size) {
        return (struct answer){ .number = 8 };
    }
    struct answer answer = { .offset = place };
    if (place == image.size) {
        return answer;
    }
    if (!aligned(place)) {
        return (struct answer){ .number = 8 };
    }
    answer.bytes = covered(place);
    answer.number = print(place, answer.bytes, answer.line, &answer.length);
    if (answer.number == 0 && answer.length > capacity) {
        return (struct answer){ .number = 3, .offset = place };
    }
    return answer;
}

/* One step of the library, the line in the buffer. */
static struct answer ask(uint32_t place, uint8_t *line, size_t capacity)
{
    struct answer answer = { .offset = UNSET, .bytes = UNSET, .length = SIZE_MAX };
    answer.number = silk_list_step(image.bytes, image.size, image.stretches, image.stretches_size, image.base, place,
                                   line, capacity, &answer.offset, &answer.bytes, &answer.length);
    return answer;
}

/* One step of the library beside the rules, with every byte of the buffer and around
 * it; answers what the step covers. */
static uint32_t lend(const char *what, uint32_t place, size_t capacity, bool buffer)
{
    uint8_t room[SIDE + WIDEST + SIDE], wanted[sizeof room];
    struct answer want = step(place, capacity);
    memset(room, GUARD, sizeof room);
    memset(wanted, GUARD, sizeof wanted);
    memcpy(wanted + SIDE, want.line, want.length);
    struct answer answer = ask(place, buffer ? room + SIDE : NULL, capacity);
    check(answer.number == want.number && answer.offset == want.offset && answer.bytes == want.bytes
              && answer.length == want.length && memcmp(room, wanted, sizeof room) == 0,
          what, place, capacity);
    numbers[want.number]++;
    return answer.bytes;
}

/* With capacity 0 also without a buffer. */
static uint32_t compare(const char *what, uint32_t place, size_t capacity)
{
    if (capacity == 0) {
        lend(what, place, 0, false);
    }
    return lend(what, place, capacity, true);
}

/* A listing from a place to the end mark, whose place is answered. */
static uint32_t rest(const char *what, uint32_t from, size_t capacity)
{
    uint32_t place = from;
    size_t sum = from, steps = 0;
    while (sum <= image.size) {
        uint32_t bytes = compare(what, place, capacity);
        if (bytes == 0) {
            break;
        }
        place += bytes;
        sum += bytes;
        steps++;
    }
    check(sum == image.size && 2 * steps <= image.size - from, "sum", place, capacity);
    return place;
}

static uint32_t random_number(void)
{
    static uint64_t state = 1;
    state = state * 6364136223846793005u + 1442695040888963407u;
    return (uint32_t)(state >> 32);
}

static uint32_t below(uint32_t end)
{
    return random_number() % end;
}

static void put(size_t place, uint32_t value, size_t count)
{
    uint8_t *bytes = image_room + ROOM - image.size + place;
    for (size_t i = 0; i < count && place + i < image.size; i++) {
        bytes[i] = (uint8_t)(value >> 8 * i);
    }
}

/* Call halves mostly, and any halfword. */
static uint32_t random_half(void)
{
    static const uint32_t tops[] = { 0xf000, 0xf800 };
    uint32_t half = below(0x10000);
    return below(4) == 0 ? half : tops[below(2)] | (half & 0x7ff);
}

/* Condition 1111, halfword type 00 under any condition and under 1110, the longest
 * line, a call pair, a test without S, two halfwords, and any word. */
static uint32_t random_word(void)
{
    uint32_t word = random_number();
    switch (below(9)) {
    case 0:
        return word | 0xf0000000;
    case 1:
        return (word & 0xf07fff0f) | 0x01800090;
    case 2:
        return (word & 0x007fff0f) | 0xe1800090;
    case 3:
        return 0x086affff;
    case 4:
        return (word & 0x07ff07ff) | 0xf800f000;
    case 5:
        return (word & 0xf26fffff) | 0x01000000;
    case 6:
    case 7:
        return random_half() << 16 | random_half();
    default:
        return word;
    }
}

/* An image of random words without stretches. */
static void open_image(size_t size)
{
    static const uint32_t bases[] = { 0, 1, 0x100, 0x7fffffff, 0xfffffff1, 0xfffffffe, 0xffffffff };
    image.size = size;
    image.bytes = size == 0 && below(2) == 0 ? NULL : image_room + ROOM - size;
    image.base = below(2) == 0 ? random_number() : bases[below(COUNT(bases))];
    for (size_t place = 0; place < size; place += 4) {
        put(place, random_word(), 4);
    }
}

/* The first `count` pairs as the list, cut short by some bytes. */
static void give(size_t count, size_t cut)
{
    size_t size = 8 * count - cut;
    uint8_t *list = stretches_room + ROOM - size;
    for (size_t i = 0; i < size; i++) {
        list[i] = (uint8_t)(pairs[i / 4] >> 8 * (i % 4));
    }
    image.stretches = size == 0 && below(2) == 0 ? NULL : list;
    image.stretches_size = size;
}

/* One stretch, from the image's start on. */
static void give_one(uint32_t length)
{
    pairs[0] = 0;
    pairs[1] = length;
    give(1, 0);
    look();
}

/* Random stretches of up to so many words, many of them touching. The list ends behind
 * `many` of them on average, or where the image does. */
static size_t random_stretches(uint32_t longest, uint32_t many)
{
    uint32_t words = (uint32_t)(image.size / 4), at = 0;
    size_t count = 0;
    while (at < words && below(many) != 0) {
        at += below(2) == 0 ? 0 : below(longest);
        uint32_t length = 1 + below(longest);
        if (at + length > words) {
            break;
        }
        pairs[2 * count] = 4 * at;
        pairs[2 * count + 1] = 4 * length;
        at += length;
        count++;
    }
    return count;
}

/* A few short ones. */
static size_t random_pairs(void)
{
    return random_stretches(1 + below(8), 16);
}

/* The halves of a call, the first below. */
static uint32_t random_call(void)
{
    return 0xf800f000 | (random_number() & 0x07ff07ff);
}

/* Calls across many of the ends of the first `count` stretches. */
static void cross(size_t count)
{
    for (size_t i = 0; i < count; i++) {
        if (below(2) == 0) {
            put(pairs[2 * i] + pairs[2 * i + 1] - 2, random_call(), 4);
        }
    }
}

/* A valid image; call pairs lie across many of the borders. */
static void random_image(uint32_t most)
{
    open_image(4 * below(most / 4 + 1));
    size_t count = random_pairs();
    cross(count);
    give(count, 0);
    look();
}

/* Mostly the number itself. */
static uint32_t altered(uint32_t number)
{
    switch (below(16)) {
    case 0:
        return 4 * below(20);
    case 1:
        return random_number();
    case 2:
        return 0 - 4 * below(4);
    default:
        return number;
    }
}

/* An image whose list has any number of faults, also of one pair, or none. */
static void faulty_image(void)
{
    random_image(60);
    size_t count = image.stretches_size / 8 + below(2);
    for (size_t i = 0; i < 2 * count; i++) {
        pairs[i] = altered(pairs[i]);
    }
    give(count, count > 0 && below(8) == 0 ? below(8) : 0);
    look();
}

/* The image less its last bytes: no multiple of 4. */
static void cut_image(void)
{
    image.size -= 1 + below(3);
    image.bytes = image_room + ROOM - image.size;
    look();
}

/* 65,536 bytes with stretches over about half of them, first ARM or first Thumb. */
static void halved_image(size_t count, size_t thumb_first)
{
    open_image(MOST);
    for (size_t i = 0; i < count; i++) {
        size_t border = 2 * i + 1 - thumb_first;
        pairs[2 * i] = (uint32_t)(MOST * border / (2 * count) / 4 * 4);
        pairs[2 * i + 1] = (uint32_t)(MOST * (border + 1) / (2 * count) / 4 * 4) - pairs[2 * i];
    }
    give(count, 0);
    look();
}

/* Memory of ROOM bytes before a page without access. */
static uint8_t *closed_room(void)
{
    uint8_t *room = mmap(NULL, ROOM + PAGE, PROT_NONE, MAP_PRIVATE | MAP_ANONYMOUS, -1, 0);
    if (room == MAP_FAILED || mprotect(room, ROOM, PROT_READ | PROT_WRITE) != 0) {
        perror("memory for the images");
        exit(EXIT_FAILURE);
    }
    return room;
}

/* Memory of more than 32 bits, all zeros. */
static uint8_t *large_room(size_t size)
{
    uint8_t *zeros = mmap(NULL, size, PROT_READ | PROT_WRITE, MAP_PRIVATE | MAP_ANONYMOUS | MAP_NORESERVE, -1, 0);
    if (zeros == MAP_FAILED) {
        perror("memory of more than 32 bits");
        exit(EXIT_FAILURE);
    }
    return zeros;
}

/* Lengths that would be good in 32 bits, over such memory: an image of 2^32 + 4 bytes. */
static void image_above_32_bits(uint8_t *zeros)
{
    open_image(8);
    give(0, 0);
    image.bytes = zeros;
    image.size = ((size_t)1 << 32) + 4;
    look();
}

/* And a list of 2^32 + 8, of which the first pair is good. */
static void list_above_32_bits(uint8_t *zeros)
{
    open_image(8);
    zeros[4] = 4;
    image.stretches = zeros;
    image.stretches_size = ((size_t)1 << 32) + 8;
    look();
}

#endif
