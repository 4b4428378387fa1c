/* Call pairs through the C interface, beside rules written here: all pairs, each
 * at an address of its own, printed and read back; refusals for every halfword;
 * and the check of all runs of up to nine halfwords. */
#include <stdbool.h>
#include <stdio.h>
#include <stdlib.h>
#include <string.h>

#include "modestsilk.h"

enum { LENGTH = 13, GUARD = 0xa5, LONGEST = 9 };

static unsigned long passed, failed;

static void check(bool good, const char *what, uint32_t first, uint32_t second, uint32_t address)
{
    if (good) {
        passed++;
    } else if (failed++ < 20) {
        printf("%s: %04x %04x at %08x\n", what, first, second, address);
    }
}

static uint32_t target(uint32_t first, uint32_t second, uint32_t address)
{
    int64_t high = first & 0x7ff;
    if (high >= 0x400) {
        high -= 0x800;
    }
    return (uint32_t)(address + 4 + high * 4096 + (second & 0x7ff) * 2);
}

/* A pair's line, lent too little room, just enough and more, and read back. */
static void pair(uint16_t first, uint16_t second, uint32_t address)
{
    char line[LENGTH + 1];
    uint8_t buffer[LENGTH + 3], guard[sizeof buffer];
    size_t capacity = LENGTH - 1 + (first + second) % 4;
    size_t length = SIZE_MAX;
    snprintf(line, sizeof line, "bl\t0x%08x", target(first, second, address));
    memset(buffer, GUARD, sizeof buffer);
    memset(guard, GUARD, sizeof guard);
    uint32_t number = silk_print_pair(first, second, address, buffer, capacity, &length);
    if (capacity < LENGTH) {
        check(number == 3 && length == 0 && memcmp(buffer, guard, sizeof buffer) == 0, "short", first, second, address);
    } else {
        check(number == 0 && length == LENGTH && memcmp(buffer, line, LENGTH) == 0
                  && memcmp(buffer + LENGTH, guard, sizeof buffer - LENGTH) == 0,
              "print", first, second, address);
    }
    uint16_t a = 1, b = 1;
    number = silk_read_pair(address, (const uint8_t *)line, LENGTH, &a, &b);
    check(number == 0 && a == first && b == second, "read", first, second, address);
}

static void all_pairs(void)
{
    for (uint32_t n = 0; n < 1 << 22; n++) {
        pair((uint16_t)(0xf000 + n / 2048), (uint16_t)(0xf800 + n % 2048), n * 2654435761u);
    }
}

/* Two halfwords that may be no pair: then 5, with a buffer and without. */
static void refusal(uint16_t first, uint16_t second, bool pair)
{
    uint8_t buffer[LENGTH], guard[LENGTH];
    size_t length = SIZE_MAX;
    memset(buffer, GUARD, LENGTH);
    memset(guard, GUARD, LENGTH);
    uint32_t number = silk_print_pair(first, second, first, buffer, LENGTH, &length);
    check(pair ? number == 0 && length == LENGTH : number == 5 && length == 0 && memcmp(buffer, guard, LENGTH) == 0,
          "kind", first, second, first);
    length = SIZE_MAX;
    number = silk_print_pair(first, second, first, NULL, 0, &length);
    check(number == (pair ? 3 : 5) && length == 0, "no buffer", first, second, first);
}

/* Every halfword before a second half, and behind a first. */
static void refusals(void)
{
    for (uint32_t n = 0; n < 1 << 16; n++) {
        refusal((uint16_t)n, 0xf800, n >> 11 == 0x1e);
        refusal(0xf000, (uint16_t)n, n >> 11 == 0x1f);
    }
}

/* Targets at random distances: 4 where no pair reaches them. */
static void out_of_reach(void)
{
    for (uint32_t n = 0; n < 1 << 20; n++) {
        uint32_t address = n * 2246822519u, away = n * 3266489917u;
        char line[LENGTH + 1];
        uint16_t a = 1, b = 1;
        snprintf(line, sizeof line, "bl\t0x%08x", address + 4 + away);
        uint32_t number = silk_read_pair(address, (const uint8_t *)line, LENGTH, &a, &b);
        bool reached = away % 2 == 0 && away + 0x400000 < 0x800000;
        check(reached ? number == 0 && target(a, b, address) == address + 4 + away : number == 4 && a == 0 && b == 0,
              "reach", a, b, address);
    }
}

/* The earliest half that lacks its partner, or the count where none does. */
static size_t earliest(const uint16_t *run, size_t count)
{
    for (size_t i = 0; i < count; i++) {
        bool first = run[i] >> 11 == 0x1e, second = run[i] >> 11 == 0x1f;
        bool followed = i + 1 < count && run[i + 1] >> 11 == 0x1f;
        bool preceded = i > 0 && run[i - 1] >> 11 == 0x1e;
        if ((first && !followed) || (second && !preceded)) {
            return i;
        }
    }
    return count;
}

/* Of four halfwords: a first half, a second, and two others, 0 among them. Each run
 * is a block of its own, so that the sanitizer sees a read past its end. */
static void runs(void)
{
    static const uint16_t words[] = { 0xf7ff, 0xf800, 0, 0xefff };
    for (size_t count = 0; count <= LONGEST; count++) {
        uint16_t *run = malloc(count * sizeof *run + (count == 0));
        for (uint32_t n = 0; n < 1u << 2 * count; n++) {
            for (size_t i = 0; i < count; i++) {
                run[i] = words[n >> 2 * i & 3];
            }
            size_t index = SIZE_MAX, want = earliest(run, count);
            uint32_t number = silk_unpaired(run, count, &index);
            check(want < count ? number == 1 && index == want : number == 0 && index == 0, "run", n, (uint32_t)count, 0);
        }
        free(run);
    }
    size_t index = SIZE_MAX;
    check(silk_unpaired(NULL, 0, &index) == 0 && index == 0, "no run", 0, 0, 0);
}

int main(void)
{
    all_pairs();
    refusals();
    out_of_reach();
    runs();
    printf("%lu passed, %lu failed\n", passed, failed);
    return failed == 0 ? EXIT_SUCCESS : EXIT_FAILURE;
}
