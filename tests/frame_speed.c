/*
 * How many lines a second the frame reader reads: lines of kinds 01 to 0a in turn, changes and queries of 1 to 16 items, one line in eight with a wrong digit
 * somewhere. The best of eight rounds is printed.
 */
#define _POSIX_C_SOURCE 199309L
#include <stdio.h>
#include <time.h>

#include "../include/nomiluvar_frame.h"

enum { LINES = 4000, TURNS = 200, ROOM = NOMILUVAR_FRAME_ROOM };

static uint8_t digits[LINES][2 * ROOM];
static size_t lengths[LINES];
static size_t frame_lengths[LINES];

static uint32_t seed = 20240501;

static uint32_t random_below(uint32_t n)
{
    seed ^= seed << 13;
    seed ^= seed >> 17;
    seed ^= seed << 5;
    return seed % n;
}

static size_t code(uint8_t *b, size_t i)
{
    for (int k = 0; k < 6; k++)
        b[i + k] = (uint8_t)('0' + random_below(10));
    return i + 6;
}

static size_t any(uint8_t *b, size_t i, size_t n)
{
    for (size_t k = 0; k < n; k++)
        b[i + k] = (uint8_t)random_below(256);
    return i + n;
}

static size_t byte(uint8_t *b, size_t i, uint32_t v)
{
    b[i] = (uint8_t)v;
    return i + 1;
}

static size_t header(uint8_t *b, size_t i)
{
    uint32_t second = random_below(86400);
    i = any(b, code(b, i), 36);
    for (int shift = 24; shift >= 0; shift -= 8)
        i = byte(b, i, second >> shift & 255);
    return i;
}

static size_t make_frame(uint8_t *b, uint32_t kind)
{
    size_t i = byte(b, 0, kind);
    uint32_t n = 1 + random_below(16);
    switch (kind) {
    case 1: return code(b, i);
    case 2: return byte(b, byte(b, code(b, code(b, i)), random_below(4)), random_below(4));
    case 3:
    case 4: return any(b, code(b, i), 8);
    case 5: return any(b, code(b, i), 16);
    case 6: return any(b, code(b, code(b, byte(b, i, random_below(2)))), 8);
    case 7: return any(b, byte(b, header(b, i), n), 19 * n);
    case 8: return any(b, header(b, i), 11);
    case 9: return any(b, byte(b, header(b, i), n), 10 * n);
    default: return any(b, i, 4);
    }
}

static void make_lines(void)
{
    uint8_t frame[ROOM];
    for (uint32_t l = 0; l < LINES; l++) {
        size_t n = make_frame(frame, 1 + l % 10);
        for (size_t i = 0; i < n; i++) {
            digits[l][2 * i] = (uint8_t)"0123456789abcdef"[frame[i] >> 4];
            digits[l][2 * i + 1] = (uint8_t)"0123456789abcdef"[frame[i] & 15];
        }
        lengths[l] = 2 * n;
        frame_lengths[l] = n;
        if (random_below(8) == 0) {
            digits[l][random_below((uint32_t)(2 * n))] = 'G';
            frame_lengths[l] = 0;
        }
    }
}

static double seconds(void)
{
    struct timespec t;
    clock_gettime(CLOCK_MONOTONIC, &t);
    return (double)t.tv_sec + (double)t.tv_nsec * 1e-9;
}

int main(void)
{
    uint8_t frame[ROOM] = {0};
    double best = 0;
    unsigned long wrong = 0;
    size_t total = 0;
    make_lines();
    for (int l = 0; l < LINES; l++)
        total += lengths[l];
    for (int round = 0; round < 8; round++) {
        double start = seconds();
        for (int turn = 0; turn < TURNS; turn++)
            for (int l = 0; l < LINES; l++)
                wrong += nomiluvar_read_frame(digits[l], lengths[l], frame, ROOM) != frame_lengths[l];
        double rate = (double)TURNS * LINES / (seconds() - start);
        if (rate > best)
            best = rate;
    }
    printf("%.1f million lines a second, of %.0f digits on average\n", best / 1e6, (double)total / LINES);
    if (wrong)
        printf("%lu wrong lengths\n", wrong);
    return wrong != 0;
}
