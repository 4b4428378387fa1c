/* The steps that cover many addresses, through the C interface, beside the rules of
 * image.h and those written here: worked lists, random lists over random images, lists
 * of every length, every capacity for the offsets, refusals and their order, each byte
 * of small images alone and with others, and all bytes of images of 65,536. The rules
 * take nothing from the library; its own listings are compared with them. Image,
 * stretches and addresses end at a page without access, and so do the offsets in some
 * calls; in others guard elements follow. */
#include "image.h"

/* The most addresses that are not refused, which is how many numbers an answer has, and
 * the most that a list can have here. */
enum { ADDRESSES = 64, MOST_ADDRESSES = ROOM / 4 };

/* The most bytes of an image whose bytes are asked alone, and how many places behind it
 * are asked too. */
enum { SMALL = 200, BEHIND = 9 };

/* The number of an address that no step covers, and where there is no address. */
#define NONE 0xffffffffu

_Static_assert(SILK_MOST_ADDRESSES == 64 && SILK_NO_OFFSET == NONE, "the numbers of the header");

/* The addresses of a call, each as its place. */
static struct {
    uint32_t places[MOST_ADDRESSES];
    size_t count;
} asked;

/* What a call answers, and its numbers. */
struct found {
    uint32_t number;
    uint32_t offsets[ADDRESSES];
};

/* Memory for the addresses and for the offsets; a page without access follows. */
static uint8_t *addresses_room, *offsets_room;

/* How often the rules gave each number to a list. Of the addresses of lists that are not
 * refused: those in the second half of a call, in a second half that a border cuts from
 * its first, outside the image, equal to the one before, and below it, which is across
 * 2^32. And such lists of 64. */
static unsigned long answers[16], seconds, alone, outside, equal, wrapped, full;

/* The offset of the step that covers a place of the image. No halfword is both halves of
 * a call, so the halfword before tells whether one is a second half inside one stretch. */
static uint32_t start(uint32_t place)
{
    uint32_t half = place / 2 * 2;
    if (image.marks[place] == ARM) {
        return place / 4 * 4;
    }
    if (half >= 2 && image.marks[half - 2] == image.marks[half] && covered(half - 2) == 4) {
        return half - 2;
    }
    return half;
}

/* 6, 7, 10, 11, or 0 where none holds. */
static uint32_t list_refusal(void)
{
    if (image.refusal != 0) {
        return image.refusal;
    }
    if (asked.count > ADDRESSES) {
        return 10;
    }
    for (size_t i = 1; i < asked.count; i++) {
        if (asked.places[i] < asked.places[i - 1]) {
            return 11;
        }
    }
    return 0;
}

static struct found find(void)
{
    struct found found = { .number = list_refusal() };
    for (size_t i = 0; i < ADDRESSES; i++) {
        bool inside = found.number == 0 && i < asked.count && asked.places[i] < image.size;
        found.offsets[i] = inside ? start(asked.places[i]) : NONE;
    }
    return found;
}

/* An address of a list that is not refused. */
static void count_address(size_t i)
{
    uint32_t place = asked.places[i], half = place / 2 * 2;
    if (place >= image.size) {
        outside++;
    } else if (image.marks[place] != ARM && half >= 2 && halves(half - 2)) {
        *(start(place) < half ? &seconds : &alone) += 1;
    }
    if (i > 0) {
        equal += place == asked.places[i - 1];
        wrapped += image.base + place < image.base + asked.places[i - 1];
    }
}

static void count_list(uint32_t number)
{
    answers[number]++;
    if (number == 0) {
        full += asked.count == ADDRESSES;
        for (size_t i = 0; i < asked.count; i++) {
            count_address(i);
        }
    }
}

static const uint32_t *lay_addresses(void)
{
    uint32_t *addresses = (uint32_t *)(addresses_room + ROOM) - asked.count;
    for (size_t i = 0; i < asked.count; i++) {
        addresses[i] = image.base + asked.places[i];
    }
    return asked.count == 0 && below(2) == 0 ? NULL : addresses;
}

/* The addresses are as they were laid. */
static bool kept(const uint32_t *addresses)
{
    for (size_t i = 0; i < asked.count; i++) {
        if (addresses[i] != image.base + asked.places[i]) {
            return false;
        }
    }
    return true;
}

/* One call beside what it should answer, with every element before, of and behind the
 * offsets: `capacity` are lent, and `behind` stand between them and the page. Answers
 * the offsets. A failure names the place of the first wrong number, if it has one. */
static const uint32_t *call(const char *what, const struct found *want, size_t capacity, size_t behind)
{
    size_t written = capacity < ADDRESSES ? capacity : ADDRESSES, all = SIDE + capacity + behind, right = 0;
    uint32_t *room = (uint32_t *)(offsets_room + ROOM) - all, *offsets = room + SIDE;
    for (size_t i = 0; i < all; i++) {
        room[i] = UNSET;
    }
    const uint32_t *addresses = lay_addresses();
    uint32_t number = silk_steps_at(image.bytes, image.size, image.stretches, image.stretches_size, image.base,
                                    addresses, asked.count, capacity == 0 && below(2) == 0 ? NULL : offsets, capacity);
    while (right < all) {
        bool guard = right < SIDE || right >= SIDE + written;
        if (room[right] != (guard ? UNSET : want->offsets[right - SIDE])) {
            break;
        }
        right++;
    }
    check(number == want->number && right == all && kept(addresses), what,
          right >= SIDE && right - SIDE < asked.count ? asked.places[right - SIDE] : NONE, asked.count);
    return offsets;
}

/* One call beside the rules, whose number is answered. */
static uint32_t beside(const char *what, size_t capacity, size_t behind)
{
    struct found want = find();
    call(what, &want, capacity, behind);
    count_list(want.number);
    return want.number;
}

/* Places from one on, each `apart` from the one before. */
static void spread(uint32_t from, uint32_t apart, size_t count)
{
    asked.count = count;
    for (size_t i = 0; i < count; i++) {
        asked.places[i] = from + (uint32_t)i * apart;
    }
}

/* Exchanges the i-th place, which is not the first, with the one before. */
static void swap(size_t i)
{
    uint32_t place = asked.places[i];
    asked.places[i] = asked.places[i - 1];
    asked.places[i - 1] = place;
}

#define NO { 0 }, 0
#define LIST(...) { __VA_ARGS__ }, COUNT(((uint32_t[]){ __VA_ARGS__ }))
#define EIGHT(number) number, number, number, number, number, number, number, number

/* Words, stretches, the base and the addresses; the answer, and the offsets where it is
 * 0. All other numbers of the 64 are FFFFFFFF. */
static const struct row {
    uint32_t words[6];
    size_t words_count;
    uint32_t stretches[4];
    size_t stretches_count;
    uint32_t base;
    uint32_t addresses[ADDRESSES + 8];
    size_t count;
    uint32_t number;
    uint32_t offsets[ADDRESSES];
} table[] = {
    /* No address, and an image without bytes. */
    { LIST(0xe0821003, 0xeafffffe), NO, 0, NO, 0, { 0 } },
    { NO, NO, 0, NO, 0, { 0 } },
    { NO, NO, 0, LIST(0), 0, { NONE } },
    { NO, NO, 0x100, LIST(0x100, 0x101, 0xff), 0, { NONE, NONE, NONE } },
    { NO, NO, 0x100, LIST(0x101, 0x100), 11, { 0 } },
    /* ARM words: each of their bytes, the first of the image, its last and its end. */
    { LIST(0xe0821003, 0xeafffffe), NO, 0, LIST(0), 0, { 0 } },
    { LIST(0xe0821003, 0xeafffffe), NO, 0, LIST(6), 0, { 4 } },
    { LIST(0xe0821003, 0xeafffffe), NO, 0, LIST(7), 0, { 4 } },
    { LIST(0xe0821003, 0xeafffffe), NO, 0, LIST(8), 0, { NONE } },
    { LIST(0xe0821003, 0xeafffffe), NO, 0, LIST(0, 1, 2, 3, 4, 5, 6, 7, 8, 9), 0,
      { 0, 0, 0, 0, 4, 4, 4, 4, NONE, NONE } },
    { LIST(0xe0821003, 0xeafffffe), NO, 0x8000, LIST(0x8003, 0x8004, 0x8007, 0x8008), 0, { 0, 4, 4, NONE } },
    /* A word that has no line is a step too. */
    { LIST(0xf0000000, 0xe1800090, 0xe1000000), NO, 0, LIST(1, 6, 11, 12), 0, { 0, 4, 8, NONE } },
    /* Places count from the base, also from an odd one. */
    { LIST(0xe0821003, 0xeafffffe), NO, 0xfd, LIST(0xfd, 0x100, 0x101, 0x104, 0x105), 0, { 0, 0, 4, 4, NONE } },
    { LIST(0xc8084480), LIST(0, 4), 0xfd, LIST(0xfd, 0xfe, 0xff, 0x100, 0x101), 0, { 0, 0, 2, 2, NONE } },
    /* Thumb halfwords, and their second bytes. */
    { LIST(0xc8084480), LIST(0, 4), 0, LIST(1), 0, { 0 } },
    { LIST(0xc8084480), LIST(0, 4), 0, LIST(3), 0, { 2 } },
    { LIST(0xc8084480), LIST(0, 4), 0, LIST(0, 1, 2, 3, 4, 5), 0, { 0, 0, 2, 2, NONE, NONE } },
    { LIST(0xe0821003, 0xc8084480, 0xe0821003), LIST(4, 4), 0x100,
      LIST(0x103, 0x104, 0x105, 0x106, 0x107, 0x108, 0x10b), 0, { 0, 4, 4, 6, 6, 8, 8 } },
    /* A call pair, and its second half alone. */
    { LIST(0, 0xfffef7ff), LIST(4, 4), 0xfc, LIST(0x102), 0, { 4 } },
    { LIST(0, 0xfffef7ff), LIST(4, 4), 0xfc, LIST(0x103), 0, { 4 } },
    { LIST(0, 0xfffef7ff), LIST(4, 4), 0xfc, LIST(0xff, 0x100, 0x101, 0x102, 0x103, 0x104), 0,
      { 0, 4, 4, 4, 4, NONE } },
    { LIST(0xfffff7ff), LIST(0, 4), 0, LIST(0, 1, 2, 3), 0, { 0, 0, 0, 0 } },
    { LIST(0xf800f000, 0xf800f000), LIST(0, 8), 0, LIST(0, 1, 2, 3, 4, 5, 6, 7), 0, { 0, 0, 0, 0, 4, 4, 4, 4 } },
    { LIST(0xf800f000, 0xf800f000), LIST(0, 4, 4, 4), 0, LIST(0, 1, 2, 3, 4, 5, 6, 7), 0, { 0, 0, 0, 0, 4, 4, 4, 4 } },
    /* The same halves over the middle of a stretch, cut by borders, and in ARM. */
    { LIST(0xf0000000, 0xf800), LIST(0, 8), 0, LIST(0, 1, 2, 3, 4, 5, 6, 7), 0, { 0, 0, 2, 2, 2, 2, 6, 6 } },
    { LIST(0xf0000000, 0xf800), LIST(0, 4, 4, 4), 0, LIST(0, 1, 2, 3, 4, 5, 6, 7), 0, { 0, 0, 2, 2, 4, 4, 6, 6 } },
    { LIST(0xf0000000, 0xf800), LIST(0, 4), 0, LIST(0, 1, 2, 3, 4, 5, 6, 7), 0, { 0, 0, 2, 2, 4, 4, 4, 4 } },
    { LIST(0xf0000000, 0xf800), LIST(4, 4), 0, LIST(0, 1, 2, 3, 4, 5, 6, 7), 0, { 0, 0, 0, 0, 4, 4, 6, 6 } },
    { LIST(0xf0000000, 0xf800), NO, 0, LIST(0, 1, 2, 3, 4, 5, 6, 7), 0, { 0, 0, 0, 0, 4, 4, 4, 4 } },
    { LIST(0xf800f000), NO, 0, LIST(0, 1, 2, 3, 4), 0, { 0, 0, 0, 0, NONE } },
    { LIST(0xf0000000), LIST(0, 4), 0, LIST(0, 1, 2, 3, 4), 0, { 0, 0, 2, 2, NONE } },
    /* Halves without their partner. */
    { LIST(0xf800), LIST(0, 4), 0, LIST(0, 1, 2, 3), 0, { 0, 0, 2, 2 } },
    { LIST(0xf8000000), LIST(0, 4), 0, LIST(0, 1, 2, 3), 0, { 0, 0, 2, 2 } },
    { LIST(0xf800f800), LIST(0, 4), 0, LIST(0, 1, 2, 3), 0, { 0, 0, 2, 2 } },
    { LIST(0xf000f000), LIST(0, 4), 0, LIST(0, 1, 2, 3), 0, { 0, 0, 2, 2 } },
    { LIST(0xf000f800), LIST(0, 4), 0, LIST(0, 1, 2, 3), 0, { 0, 0, 2, 2 } },
    { LIST(0xf000f000, 0xf800f800), LIST(0, 8), 0, LIST(0, 1, 2, 3, 4, 5, 6, 7), 0, { 0, 0, 2, 2, 2, 2, 6, 6 } },
    /* Halfwords that are almost halves. */
    { LIST(0xf800efff), LIST(0, 4), 0, LIST(0, 1, 2, 3), 0, { 0, 0, 2, 2 } },
    { LIST(0xeffff000), LIST(0, 4), 0, LIST(0, 1, 2, 3), 0, { 0, 0, 2, 2 } },
    { LIST(0xf7fff7ff), LIST(0, 4), 0, LIST(0, 1, 2, 3), 0, { 0, 0, 2, 2 } },
    { LIST(0x7800f000), LIST(0, 4), 0, LIST(0, 1, 2, 3), 0, { 0, 0, 2, 2 } },
    /* Equal addresses. */
    { LIST(0xe0821003), NO, 0, LIST(0, 0, 2, 2, 2, 4, 4), 0, { 0, 0, 0, 0, 0, NONE, NONE } },
    { LIST(0, 0xfffef7ff), LIST(4, 4), 0x100, LIST(0x106, 0x106, 0x106), 0, { 4, 4, 4 } },
    { LIST(0xe0821003), NO, 0x100, LIST(0xff, 0xff), 0, { NONE, NONE } },
    /* Places modulo 2^32: addresses may fall, and addresses that do not fall may be of
     * places that do. */
    { LIST(0, 0, 0, 0, 0, 0), NO, 0xfffffff0, LIST(0xfffffff4, 0x00000004), 0, { 4, 20 } },
    { LIST(0, 0, 0, 0, 0, 0), NO, 0xfffffff0, LIST(0x00000004, 0xfffffff4), 11, { 0 } },
    { LIST(0, 0), NO, 0xfffffff0, LIST(0xfffffff4, 0x00000004), 0, { 4, NONE } },
    { LIST(0, 0), NO, 0xfffffff0, LIST(0x00000004, 0xfffffff4), 11, { 0 } },
    { LIST(0, 0), NO, 0xfffffffc, LIST(0xfffffffc, 0xffffffff, 0, 3, 4, 0xfffffffb), 0, { 0, 0, 4, 4, NONE, NONE } },
    { LIST(0xf0000000, 0xf800), LIST(0, 8), 0xfffffffc, LIST(0xffffffff, 1, 2), 0, { 2, 2, 6 } },
    { LIST(0, 0), NO, 0xffffffff, LIST(0xffffffff, 0, 2, 3, 6, 7), 0, { 0, 0, 0, 4, 4, NONE } },
    /* An address below the base has a place far outside. */
    { LIST(0, 0), NO, 0x100, LIST(0xff), 0, { NONE } },
    { LIST(0, 0), NO, 0x100, LIST(0x100, 0xff), 0, { 0, NONE } },
    { LIST(0, 0), NO, 0x100, LIST(0xff, 0x100), 11, { 0 } },
    { LIST(0, 0), NO, 0x100, LIST(0x107, 0x108, 0, 0xff), 0, { 4, NONE, NONE, NONE } },
    /* Places outside: those from 2^31 on are not below others, and 65,536 and some are
     * none of the image. */
    { LIST(0, 0), NO, 0, LIST(4, 8, 0x10004, 0x7fffffff, 0x80000000, 0x80000004, 0xffffffff), 0,
      { 4, NONE, NONE, NONE, NONE, NONE, NONE } },
    { LIST(0, 0), NO, 0, LIST(0x80000000, 0x7fffffff), 11, { 0 } },
    { LIST(0, 0), NO, 0, LIST(0x80000000, 4), 11, { 0 } },
    { LIST(0, 0), NO, 0, LIST(0xffffffff, 0), 11, { 0 } },
    { LIST(0, 0), NO, 0, LIST(12, 8), 11, { 0 } },
    { LIST(0, 0), NO, 0, LIST(9, 8), 11, { 0 } },
    { LIST(0, 0), NO, 0, LIST(8, 7), 11, { 0 } },
    { LIST(0, 0), NO, 0, LIST(0, 4, 8, 0xffffffff, 0xfffffffe), 11, { 0 } },
    /* Places that fall inside one step, at the list's end, and by equal ones. */
    { LIST(0, 0), NO, 0, LIST(1, 0), 11, { 0 } },
    { LIST(0, 0), NO, 0, LIST(0, 7, 6), 11, { 0 } },
    { LIST(0xf800f000), LIST(0, 4), 0, LIST(0, 2, 0), 11, { 0 } },
    { LIST(0, 0), NO, 0, LIST(4, 0, 4), 11, { 0 } },
    { LIST(0, 0), NO, 0, LIST(0, 4, 4, 4, 3), 11, { 0 } },
    { LIST(0, 0), NO, 0, LIST(5, 4, 4, 4, 8), 11, { 0 } },
    /* 64 addresses are accepted, and 65 are not, also where they fall. */
    { LIST(0, 0, 0), NO, 0,
      LIST(EIGHT(0), EIGHT(1), EIGHT(3), EIGHT(4), EIGHT(7), EIGHT(8), EIGHT(11), EIGHT(12)), 0,
      { EIGHT(0), EIGHT(0), EIGHT(0), EIGHT(4), EIGHT(4), EIGHT(8), EIGHT(8), EIGHT(NONE) } },
    { LIST(0, 0, 0), NO, 0,
      LIST(EIGHT(0), EIGHT(0), EIGHT(0), EIGHT(0), EIGHT(0), EIGHT(0), EIGHT(0), 0, 0, 0, 0, 0, 0, 0, 4), 0,
      { EIGHT(0), EIGHT(0), EIGHT(0), EIGHT(0), EIGHT(0), EIGHT(0), EIGHT(0), 0, 0, 0, 0, 0, 0, 0, 4 } },
    { LIST(0, 0, 0), NO, 0,
      LIST(EIGHT(4), EIGHT(4), EIGHT(4), EIGHT(4), EIGHT(4), EIGHT(4), EIGHT(4), 4, 4, 4, 4, 4, 4, 4, 3), 11, { 0 } },
    { LIST(0, 0, 0), NO, 0,
      LIST(EIGHT(0), EIGHT(1), EIGHT(3), EIGHT(4), EIGHT(7), EIGHT(8), EIGHT(11), EIGHT(12), 12), 10, { 0 } },
    { LIST(0, 0, 0), NO, 0,
      LIST(EIGHT(0), EIGHT(0), EIGHT(0), EIGHT(0), EIGHT(0), EIGHT(0), EIGHT(0), EIGHT(0), 0), 10, { 0 } },
    { LIST(0, 0, 0), NO, 0,
      LIST(EIGHT(12), EIGHT(11), EIGHT(8), EIGHT(7), EIGHT(4), EIGHT(3), EIGHT(1), EIGHT(0), 0), 10, { 0 } },
    { LIST(0, 0, 0), NO, 0,
      LIST(EIGHT(4), EIGHT(4), EIGHT(4), EIGHT(4), EIGHT(4), EIGHT(4), EIGHT(4), EIGHT(4), 3), 10, { 0 } },
    { NO, NO, 0, LIST(EIGHT(0), EIGHT(0), EIGHT(0), EIGHT(0), EIGHT(0), EIGHT(0), EIGHT(0), EIGHT(0), 0), 10, { 0 } },
    /* A list of stretches is refused also where there is no address or no byte. */
    { LIST(0, 0), LIST(0, 0), 0, NO, 7, { 0 } },
    { LIST(0, 0), LIST(4, 8), 0, LIST(0), 7, { 0 } },
    { LIST(0, 0), LIST(4, 4, 0, 4), 0, LIST(0, 8), 7, { 0 } },
    { LIST(0, 0), LIST(0, 8, 4, 4), 0, LIST(8, 0), 7, { 0 } },
    { LIST(0, 0), LIST(0xfffffffc, 8), 0, LIST(4), 7, { 0 } },
    { NO, LIST(0, 4), 0, NO, 7, { 0 } },
};

static void work(const struct row *row, size_t capacity)
{
    struct found want = { .number = row->number };
    open_image(4 * row->words_count);
    for (size_t i = 0; i < row->words_count; i++) {
        put(4 * i, row->words[i], 4);
    }
    memcpy(pairs, row->stretches, sizeof row->stretches);
    give(row->stretches_count / 2, 0);
    image.base = row->base;
    look();
    asked.count = row->count;
    for (size_t i = 0; i < row->count; i++) {
        asked.places[i] = row->addresses[i] - row->base;
    }
    for (size_t i = 0; i < ADDRESSES; i++) {
        want.offsets[i] = row->number == 0 && i < row->count ? row->offsets[i] : NONE;
    }
    call("worked", &want, capacity, SIDE);
    call("worked, at the page", &want, capacity, 0);
    beside("worked, rules", capacity, 0);
}

static void worked(void)
{
    static const size_t capacities[] = { ADDRESSES, 0, 0, 0, 1, 2, ADDRESSES - 1, ADDRESSES + 1, 100 };
    for (size_t r = 0; r < COUNT(table); r++) {
        for (size_t c = 0; c < COUNT(capacities); c++) {
            work(&table[r], capacities[c]);
        }
    }
}

/* An image's size and the length of its one stretch, from 0 on; how many addresses, and
 * whether one is below the one before; and the answer. */
static const struct order {
    size_t size;
    uint32_t length;
    size_t count;
    bool falls;
    uint32_t number;
} orders[] = {
    { 8, 4, 64, false, 0 },
    { 8, 4, 64, true, 11 },
    { 8, 4, 65, false, 10 },
    { 8, 4, 65, true, 10 },
    { 8, 6, 64, false, 7 },
    { 8, 6, 64, true, 7 },
    { 8, 6, 65, false, 7 },
    { 8, 6, 65, true, 7 },
    { 6, 4, 64, false, 6 },
    { 6, 4, 64, true, 6 },
    { 6, 4, 65, false, 6 },
    { 6, 4, 65, true, 6 },
    { 6, 8, 64, false, 6 },
    { 6, 8, 64, true, 6 },
    { 6, 8, 65, false, 6 },
    { 6, 8, 65, true, 6 },
    { MOST + 4, 4, 64, false, 6 },
    { MOST + 4, 4, 64, true, 6 },
    { MOST + 4, 4, 65, false, 6 },
    { MOST + 4, 4, 65, true, 6 },
    { MOST + 4, 0, 64, false, 6 },
    { MOST + 4, 0, 64, true, 6 },
    { MOST + 4, 0, 65, false, 6 },
    { MOST + 4, 0, 65, true, 6 },
};

/* Refusals one before the other, with the list falling at each of its places. */
static void ordered(void)
{
    for (size_t r = 0; r < COUNT(orders); r++) {
        const struct order *row = &orders[r];
        open_image(row->size);
        give_one(row->length);
        for (size_t i = 1; i < row->count; i++) {
            spread(0, 1, row->count);
            if (row->falls) {
                swap(i);
            }
            check(beside("order", i % 3 == 0 ? i : ADDRESSES, i % 2 * SIDE) == row->number, "order", 0, row->count);
        }
    }
}

/* Inside the image, at a border of a stretch, around the end, and far outside. */
static uint32_t random_place(void)
{
    uint32_t size = (uint32_t)image.size, borders = (uint32_t)image.stretches_size / 4;
    switch (below(12)) {
    case 0:
        return far[below(COUNT(far))];
    case 1:
        return random_number();
    case 2:
        return size + below(9) - 4;
    case 3:
        return below(size + 1) + (below(2) == 0 ? 0x10000 : 0x80000000);
    case 4:
    case 5:
    case 6:
        if (borders > 1) {
            const uint8_t *pair = image.stretches + 8 * below(borders / 2);
            return little_endian(pair, 4) + (below(2) == 0 ? 0 : little_endian(pair + 4, 4)) + below(9) - 4;
        }
    }
    return below(size + 1);
}

static int by_place(const void *a, const void *b)
{
    uint32_t first = *(const uint32_t *)a, second = *(const uint32_t *)b;
    return (first > second) - (first < second);
}

/* Sorted places: many are equal, near each other, or at the borders of a step. */
static void random_list(size_t count)
{
    asked.count = count;
    for (uint32_t i = 0; i < count; i++) {
        uint32_t place = random_place(), choice = below(6);
        if (i > 0 && choice < 2) {
            place = asked.places[below(i)] + (choice == 0 ? 0 : below(5) - 2);
        } else if (choice < 4 && image.refusal == 0 && place < image.size) {
            place = start(place) + (choice == 2 ? 0 : covered(start(place)) - below(2));
        }
        asked.places[i] = place;
    }
    qsort(asked.places, count, sizeof asked.places[0], by_place);
}

static size_t random_count(void)
{
    switch (below(4)) {
    case 0:
        return below(4);
    case 1:
        return ADDRESSES - below(2);
    default:
        return below(ADDRESSES + 1);
    }
}

static size_t random_capacity(void)
{
    return below(3) == 0 ? below(101) : ADDRESSES;
}

/* The steps of the library's listing, each of which is what covers its places; and a
 * listing that is resumed at the step of a place. */
static void walk(void)
{
    uint32_t place = 0, bytes = 1;
    while (place < image.size && bytes > 0) {
        bytes = compare("step", place, LONGEST);
        for (uint32_t i = 0; i < bytes && place + i < image.size; i++) {
            check(start(place + i) == place, "covered by a step", place + i, 0);
        }
        place += bytes;
    }
    check(place == image.size, "walked to the end", place, 0);
    if (image.size > 0) {
        rest("resumed at a step", start(below((uint32_t)image.size)), LONGEST);
    }
}

/* Random lists of random images, a third of which lie across 2^32. */
static void random_lists(void)
{
    static const uint32_t most[] = { 40, 400, 4000 };
    for (int n = 0; n < 9000; n++) {
        random_image(most[n % 3]);
        if (below(3) == 0) {
            image.base = 0 - below((uint32_t)image.size + 1);
        }
        if (n % 16 == 0) {
            walk();
        }
        for (int i = 0; i < 3; i++) {
            random_list(random_count());
            beside("random", random_capacity(), below(2) * SIDE);
        }
    }
    check(answers[0] > 25000 && full > 3000, "too few lists", 0, 0);
    check(seconds > 8000 && alone > 16000, "too few second halves", 0, 0);
    check(outside > 200000 && equal > 200000 && wrapped > 10000, "too few addresses of a kind", 0, 0);
}

/* Each image of three words whose halfwords are a first half, a second, or neither, with
 * each list of stretches: each word is ARM, or Thumb, with a border before it or not. */
static void all_halves(void)
{
    for (uint32_t n = 0; n < 19683; n++) {
        uint32_t digits = n;
        size_t count = 0;
        bool thumb = false;
        open_image(12);
        for (uint32_t i = 0; i < 6; i++, digits /= 3) {
            put(2 * i, digits % 3 == 0 ? below(0xf000) : 0xe800 + 0x800 * (digits % 3) + below(0x800), 2);
        }
        for (uint32_t i = 0; i < 3; i++, digits /= 3) {
            if (digits % 3 == 1 && thumb) {
                pairs[2 * count - 1] += 4;
            } else if (digits % 3 != 0) {
                pairs[2 * count] = 4 * i;
                pairs[2 * count + 1] = 4;
                count++;
            }
            thumb = digits % 3 != 0;
        }
        give(count, 0);
        look();
        spread(0, 1, 12 + BEHIND);
        check(beside("halves", ADDRESSES, 0) == 0, "halves", 0, n);
    }
}

/* Lists of every length up to 70 and of some larger ones: ascending, equal, falling. */
static void lengths(void)
{
    static const size_t large[] = { 100, 127, 128, 129, 192, 255, 256, 257, 320, 1000, 1024, 8192, MOST_ADDRESSES };
    for (size_t n = 0; n < 40 * (71 + COUNT(large)); n++) {
        size_t count = n / 40 <= 70 ? n / 40 : large[n / 40 - 71];
        uint32_t number = count <= ADDRESSES ? 0 : 10, falling = number == 0 && count > 1 ? 11 : number;
        random_image(400);
        spread(0, n % 5, count);
        check(beside("length", ADDRESSES, n % 2 * SIDE) == number, "length", 0, count);
        spread(below((uint32_t)image.size + BEHIND), 0, count);
        check(beside("equal", ADDRESSES, n % 2 * SIDE) == number, "equal", 0, count);
        spread((uint32_t)count, 0xffffffff, count);
        check(beside("falling", ADDRESSES, n % 2 * SIDE) == falling, "falling", 0, count);
    }
}

/* Every capacity up to 80 and some larger ones, with lists of every length up to 66. */
static void capacities(void)
{
    static const size_t large[] = { 100, 127, 128, 129, 192, 256, 1000, 4096 };
    for (size_t c = 0; c < 81 + COUNT(large); c++) {
        size_t capacity = c <= 80 ? c : large[c - 81];
        for (size_t count = 0; count <= ADDRESSES + 2; count++) {
            random_image(100);
            spread(below((uint32_t)image.size + 1), below(3), count);
            beside("capacity", capacity, 0);
            beside("capacity", capacity, SIDE);
            if (count > 1) {
                swap(1 + below((uint32_t)count - 1));
                beside("capacity, swapped", capacity, below(2) * SIDE);
            }
            faulty_image();
            beside("capacity, faulty", capacity, below(2) * SIDE);
        }
    }
}

/* A list that ascends by some, and the same with two of its places exchanged. */
static void fall(uint32_t from, uint32_t apart, size_t count)
{
    spread(from, apart, count);
    check(beside("ascends", ADDRESSES, 0) == 0, "ascends", from, count);
    for (size_t i = 1; i < count; i++) {
        swap(i);
        check(beside("falls", ADDRESSES, i % 2 * SIDE) == 11, "falls", from, i);
        swap(i);
    }
}

/* One descent at each position, of places inside, across the image's end and outside. */
static void falls(void)
{
    for (uint32_t count = 2; count <= ADDRESSES; count++) {
        random_image(100);
        uint32_t size = (uint32_t)image.size;
        fall(0, 1, count);
        fall(size > count / 2 ? size - count / 2 : 0, 1, count);
        fall(size, 1, count);
        fall(0x80000000 - count / 2, 1, count);
        fall(0 - count, 1, count);
        fall(size / 2, 0x3ffffff, count);
    }
}

/* Valid images mostly; such with faults of the stretches or of the size; and the largest
 * and larger ones. */
static void any_image(int n)
{
    static const size_t counts[] = { 0, 1, 100, 8192 };
    if (n % 64 == 0) {
        halved_image(counts[below(COUNT(counts))], below(2));
    } else if (n % 64 == 32) {
        open_image(MOST + 1 + below(2) * below(MOST));
        give(random_pairs(), 0);
        look();
    } else if (n % 4 == 1) {
        faulty_image();
    } else {
        random_image(400);
    }
    if (below(6) == 0 && image.size > 0) {
        cut_image();
    }
}

/* More addresses than 64, places that fall, both, or neither. */
static void spoil_list(void)
{
    if (below(3) == 0) {
        random_list(ADDRESSES + 1 + below(2) * below(200));
    }
    if (below(2) == 0 && asked.count > 1) {
        swap(1 + below((uint32_t)asked.count - 1));
    }
}

static void random_refusals(void)
{
    memset(answers, 0, sizeof answers);
    for (int n = 0; n < 16000; n++) {
        any_image(n);
        random_list(random_count());
        spoil_list();
        beside("refused", random_capacity(), below(2) * SIDE);
    }
    check(answers[6] > 2000 && answers[7] > 2000, "too few refused images", 0, 0);
    check(answers[10] > 3000 && answers[11] > 2000 && answers[0] > 4000, "too few lists", 0, 0);
}

/* Counts that in fewer bits would be 0, 1 or 64. */
static void large_counts(const uint32_t *zeros)
{
    const size_t large = (size_t)1 << 32;
    const size_t counts[] = { 0x10000, 0x10001, 0x10040, 0x40000001, 0x80000000, 0xffffffff, large, large + 1,
                              large + ADDRESSES };
    struct found want = { .number = 10 };
    memset(want.offsets, 0xff, sizeof want.offsets);
    for (size_t i = 0; i < COUNT(counts); i++) {
        struct found found = { .number = UNSET };
        found.number = silk_steps_at(image.bytes, image.size, image.stretches, image.stretches_size, 0, zeros,
                                     counts[i], found.offsets, ADDRESSES);
        check(memcmp(&found, &want, sizeof want) == 0, "large count", 0, counts[i]);
    }
}

/* Capacities that in 32 bits would be 0, 1 or 64. */
static void large_capacities(uint32_t *zeros)
{
    const size_t large = (size_t)1 << 32, capacities[] = { large, large + 1, large + ADDRESSES };
    uint32_t wanted[2 * ADDRESSES];
    for (size_t i = 0; i < COUNT(capacities); i++) {
        memset(zeros, GUARD, sizeof wanted);
        memset(wanted, GUARD, sizeof wanted);
        memset(wanted, 0xff, sizeof wanted / 2);
        wanted[0] = 4;
        spread(7, 0, 1);
        uint32_t number = silk_steps_at(image.bytes, image.size, image.stretches, image.stretches_size, image.base,
                                        lay_addresses(), asked.count, zeros, capacities[i]);
        check(number == 0 && memcmp(zeros, wanted, sizeof wanted) == 0 && zeros[2 * ADDRESSES] == 0
                  && zeros[capacities[i] - 1] == 0,
              "large capacity", 7, capacities[i]);
    }
    memset(zeros, 0, sizeof wanted);
}

/* Lengths that would be good in 32 bits: of addresses, of elements for offsets, and of the
 * image and of its stretches. */
static void above_32_bits(void)
{
    size_t large = (size_t)1 << 32, size = 4 * (large + ADDRESSES);
    uint8_t *zeros = large_room(size);
    open_image(8);
    give(0, 0);
    look();
    large_counts((uint32_t *)zeros);
    large_capacities((uint32_t *)zeros);
    spread(0, 1, ADDRESSES);
    image_above_32_bits(zeros);
    check(beside("image above 32 bits", ADDRESSES, 0) == 6, "image above 32 bits", 0, 0);
    list_above_32_bits(zeros);
    check(beside("list above 32 bits", ADDRESSES, 0) == 7, "list above 32 bits", 0, 0);
    munmap(zeros, size);
}

/* Every byte of an image and some places behind it: asked alone, and then with others,
 * the library gives the same numbers. */
static void every_byte(void)
{
    struct found apart[SMALL + BEHIND], want = { 0 };
    uint32_t end = (uint32_t)image.size + BEHIND;
    for (uint32_t place = 0; place < end; place++) {
        spread(place, 0, 1);
        apart[place] = find();
        apart[place].offsets[0] = *call("alone", &apart[place], ADDRESSES, 0);
    }
    for (uint32_t from = 0; from < end; from += ADDRESSES / 2) {
        spread(from, 1, end - from < ADDRESSES ? end - from : ADDRESSES);
        for (size_t i = 0; i < ADDRESSES; i++) {
            want.offsets[i] = i < asked.count ? apart[from + i].offsets[0] : NONE;
        }
        call("with others", &want, ADDRESSES, 0);
    }
}

static void small_images(void)
{
    for (int n = 0; n < 400; n++) {
        random_image(SMALL);
        every_byte();
    }
}

/* May the image and its stretches be written to, or only read? */
static void allow(int access)
{
    check(mprotect(image_room, ROOM, access) == 0 && mprotect(stretches_room, ROOM, access) == 0, "access", 0, 0);
}

/* All places of 65,536 bytes, which no call writes to, and some behind them. */
static void all_places(void)
{
    check(image.refusal == 0, "largest image", 0, 0);
    allow(PROT_READ);
    for (uint32_t from = 0; from <= MOST; from += ADDRESSES) {
        spread(from, 1, ADDRESSES);
        check(beside("largest", ADDRESSES, 0) == 0, "largest", from, ADDRESSES);
    }
    spread(MOST / ADDRESSES - 1, MOST / ADDRESSES, ADDRESSES);
    check(beside("last bytes", ADDRESSES, 0) == 0, "last bytes", MOST - 1, ADDRESSES);
    allow(PROT_READ | PROT_WRITE);
}

/* 65,536 bytes in Thumb: one stretch, or stretches of the same length. The last two
 * halfwords are no call. */
static void filled(size_t count)
{
    open_image(MOST);
    put(MOST - 4, 0xc8084480, 4);
    for (size_t i = 0; i < count; i++) {
        pairs[2 * i] = (uint32_t)(MOST / count * i);
        pairs[2 * i + 1] = (uint32_t)(MOST / count);
    }
    give(count, 0);
    look();
    all_places();
}

static void largest(void)
{
    static const size_t counts[] = { 1, 100, 8192 };
    halved_image(0, 0);
    all_places();
    for (size_t i = 0; i < COUNT(counts); i++) {
        halved_image(counts[i], i % 2);
        all_places();
    }
    filled(1);
    filled(MOST / 4);
}

int main(void)
{
    image_room = closed_room();
    stretches_room = closed_room();
    addresses_room = closed_room();
    offsets_room = closed_room();
    worked();
    ordered();
    random_lists();
    all_halves();
    lengths();
    capacities();
    falls();
    random_refusals();
    above_32_bits();
    small_images();
    largest();
    munmap(image_room, ROOM + PAGE);
    munmap(stretches_room, ROOM + PAGE);
    munmap(addresses_room, ROOM + PAGE);
    munmap(offsets_room, ROOM + PAGE);
    printf("%lu passed, %lu failed\n", passed, failed);
    return failed == 0 ? EXIT_SUCCESS : EXIT_FAILURE;
}
