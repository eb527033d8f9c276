/*
 * Runs the frame reader over good and refused lines and compares what it returns and every byte of the buffer that it was lent, and of the bytes around that.
 * Cases that are written out say what is to come of them; the sweeps, which change each byte of the good lines, compare with `frame_of`.
 */
#include <stdio.h>
#include <stdlib.h>
#include <string.h>

#include "../include/nomiluvar_frame.h"

enum { ROOM = NOMILUVAR_FRAME_ROOM, GUARD = 64, LARGEST = 1000 };

static unsigned long passed, failed;

/* ---- the lines, in parts */

#define CODE "383838383838"
#define OWNER "303132333439"
#define MONEY "00000000000003e8"
#define BELOW "ffffffffffffff9c"
#define DAY "00000007"
#define LAST "0001517f" /* second 86,399 */
#define QUARTER "3132333435363738"
#define ID QUARTER QUARTER QUARTER QUARTER
#define HEAD CODE ID DAY LAST
#define ACCOUNT "31554148383838383838"
#define ITEM ACCOUNT "01" BELOW
#define EQUAL "010a" ACCOUNT
#define CONTAINS "0203383838"
#define LACKS "030138"
#define TWICE(x) x x
#define EIGHT(x) TWICE(TWICE(TWICE(x)))
#define SIXTEEN(x) TWICE(EIGHT(x))

struct named {
    const char *name, *digits;
};

static const struct named good[] = {
    {"01 bank", "01" CODE},
    {"01 code 012349", "01" OWNER},
    {"02 branch", "02" CODE OWNER "0003"},
    {"02 branch, methods the other way", "02" CODE OWNER "0300"},
    {"03 funding", "03" CODE MONEY},
    {"03 funding of the highest bits", "03" CODE "ffffffffffffffff"},
    {"04 withdrawal", "04" CODE "00000000000003e9"},
    {"05 bank limits", "05" CODE MONEY BELOW},
    {"06 credit", "0600" CODE OWNER MONEY},
    {"06 debit", "0601" CODE OWNER MONEY},
    {"07 change of 1", "07" HEAD "01" ITEM},
    {"07 change of 2", "07" HEAD "02" ITEM ITEM},
    {"07 change of 16, the longest frame", "07" HEAD "10" SIXTEEN(ITEM)},
    {"08 deletion", "08" HEAD ACCOUNT "02"},
    {"08 deletion of type ff", "08" HEAD ACCOUNT "ff"},
    {"08 deletion at second 0", "08" CODE ID DAY "00000000" ACCOUNT "02"},
    {"09 query of 1", "09" HEAD "01" ACCOUNT},
    {"09 query of 16", "09" HEAD "10" SIXTEEN(ACCOUNT)},
    {"0a opening", "0a" DAY},
    {"0a opening of the last day", "0affffffff"},
    {"0b search, equal", "0b" HEAD "01" EQUAL},
    {"0b search, contains", "0b" HEAD "01" CONTAINS},
    {"0b search, lacks", "0b" HEAD "01" LACKS},
    {"0b contains of length 1, the shortest search", "0b" HEAD "01" "020138"},
    {"0b contains of length 10", "0b" HEAD "01" "020a" ACCOUNT},
    {"0b lacks of length 10", "0b" HEAD "01" "030a" ACCOUNT},
    {"0b text of any bytes", "0b" HEAD "01" "0306000a0dff8020"},
    {"0b at second 0", "0b" CODE ID DAY "00000000" "01" CONTAINS},
    {"0b search of 2", "0b" HEAD "02" LACKS EQUAL},
    {"0b search of 3", "0b" HEAD "03" CONTAINS EQUAL LACKS},
    {"0b search of 7", "0b" HEAD "07" EQUAL TWICE(TWICE(LACKS)) TWICE(CONTAINS)},
    {"0b search of 8", "0b" HEAD "08" EIGHT(CONTAINS)},
    {"0b search of 8, the longest", "0b" HEAD "08" EIGHT(EQUAL)},
    {"0c no letters", "0c" CODE "00"},
    {"0c letter A", "0c" CODE "01"},
    {"0c letters B, N and S", "0c" CODE "0e"},
    {"0c letter R", "0c" OWNER "10"},
    {"0c all five letters", "0c" OWNER "1f"},
    {"13 mark", "13" CODE},
    {"13 mark of 012349", "13" OWNER},
};

static const struct named refused[] = {
    {"empty line", ""},
    {"one digit", "0"},
    {"an odd number of digits", "01" CODE "3"},
    {"an odd number of digits, one missing", "0138383838383"},
    {"upper-case kind", "0A" DAY},
    {"upper-case digit in an amount", "03" CODE "00000000000003E8"},
    {"upper-case digit in the last place", "03" CODE "000000000000000F"},
    {"g", "03" CODE "00000000000003g8"},
    {"slash, before 0", "03" CODE "00000000000003/8"},
    {"colon, after 9", "03" CODE "00000000000003:8"},
    {"backquote, before a", "03" CODE "00000000000003`8"},
    {"space", "04383838383838 00000000000003e9"},
    {"spaces, an even number of bytes", "04 " CODE " 00000000000003e9"},
    {"ended by 0a", "01" CODE "\n"},
    {"ended by 0d 0a", "01" CODE "\r\n"},
    {"0x before the digits", "0x01" CODE},
    {"kind 00", "00" CODE},
    {"kind 00 alone", "00"},
    {"kind 0d as an opening", "0d" DAY},
    {"kind 0d as a bank", "0d" CODE},
    {"kind 0d as letters", "0d" CODE "00"},
    {"kind 0d as a search", "0d" HEAD "01" CONTAINS},
    {"kind 10", "10" DAY},
    {"kind 12 as a mark", "12" CODE},
    {"kind 12 as letters", "12" CODE "00"},
    {"kind 14 as a mark", "14" CODE},
    {"kind 14 as letters", "14" CODE "00"},
    {"kind 19, the decimal of 13, as a mark", "19" CODE},
    {"kind 1a", "1a" DAY},
    {"kind ff", "ff" CODE},
    {"01 a byte short", "013838383838"},
    {"01 a byte long", "01" CODE "38"},
    {"02 without its last method", "02" CODE OWNER "00"},
    {"03 a byte short", "03" CODE "000000000003e8"},
    {"03 a byte long", "03" CODE MONEY "00"},
    {"04 a byte long", "04" CODE MONEY "00"},
    {"05 with one limit", "05" CODE MONEY},
    {"06 a byte long", "0600" CODE OWNER MONEY "00"},
    {"07 without items", "07" HEAD},
    {"08 without its type", "08" HEAD ACCOUNT},
    {"09 without ids", "09" HEAD},
    {"0a a byte short", "0a000007"},
    {"0a a byte long", "0a" DAY "00"},
    {"code with a letter", "01383838383861"},
    {"code with a slash", "012f3838383838"},
    {"code with a colon", "013838383a3838"},
    {"owner not digits", "02" CODE "303132333420" "0000"},
    {"receiver not digits", "0600" CODE "303132333420" MONEY},
    {"LTK method 4", "02" CODE OWNER "0400"},
    {"LPO method 4", "02" CODE OWNER "0004"},
    {"payment byte 2", "0602" CODE OWNER MONEY},
    {"payment byte ff", "06ff" CODE OWNER MONEY},
    {"07 second 86,400", "07" CODE ID DAY "00015180" "01" ITEM},
    {"08 second 86,400", "08" CODE ID DAY "00015180" ACCOUNT "02"},
    {"09 second 86,400", "09" CODE ID DAY "00015180" "01" ACCOUNT},
    {"second with its high byte set", "08" CODE ID DAY "01000000" ACCOUNT "02"},
    {"07 count 0", "07" HEAD "00"},
    {"07 count 0 with an item", "07" HEAD "00" ITEM},
    {"07 count 17", "07" HEAD "11" SIXTEEN(ITEM) ITEM},
    {"07 count 2 with 1 item", "07" HEAD "02" ITEM},
    {"07 count 1 with 2 items", "07" HEAD "01" ITEM ITEM},
    {"09 count 0", "09" HEAD "00"},
    {"09 count 17", "09" HEAD "11" SIXTEEN(ACCOUNT) ACCOUNT},
    {"09 count 2 with 1 id", "09" HEAD "02" ACCOUNT},
    {"0b as an opening", "0b" DAY},
    {"0b without conditions", "0b" HEAD},
    {"0b second 86,400", "0b" CODE ID DAY "00015180" "01" CONTAINS},
    {"0b sender not digits", "0b" "383838383861" ID DAY LAST "01" CONTAINS},
    {"0b count 0", "0b" HEAD "00"},
    {"0b count 0 with a condition", "0b" HEAD "00" CONTAINS},
    {"0b count 9", "0b" HEAD "09" EIGHT(CONTAINS) CONTAINS},
    {"0b count 16", "0b" HEAD "10" SIXTEEN(LACKS)},
    {"0b count ff", "0b" HEAD "ff" CONTAINS},
    {"0b count 2 with 1 condition", "0b" HEAD "02" CONTAINS},
    {"0b count 1 with 2 conditions", "0b" HEAD "01" CONTAINS CONTAINS},
    {"0b mode 0", "0b" HEAD "01" "0003383838"},
    {"0b mode 4", "0b" HEAD "01" "0403383838"},
    {"0b mode ff", "0b" HEAD "01" "ff0a" ACCOUNT},
    {"0b mode 4 in the last of eight", "0b" HEAD "08" EQUAL TWICE(EQUAL) TWICE(TWICE(LACKS)) "040138"},
    {"0b contains of length 0", "0b" HEAD "01" "0200"},
    {"0b contains of length 11", "0b" HEAD "01" "020b" ACCOUNT "38"},
    {"0b lacks of length 0", "0b" HEAD "01" "0300"},
    {"0b lacks of length 11", "0b" HEAD "01" "030b" ACCOUNT "38"},
    {"0b lacks of length ff", "0b" HEAD "01" "03ff" ACCOUNT},
    {"0b equal of length 0", "0b" HEAD "01" "0100"},
    {"0b equal of length 1", "0b" HEAD "01" "010138"},
    {"0b equal of length 9", "0b" HEAD "01" "0109315541483838383838"},
    {"0b equal of length 11", "0b" HEAD "01" "010b" ACCOUNT "38"},
    {"0b equal of length 9 behind a good one", "0b" HEAD "02" CONTAINS "0109315541483838383838"},
    {"0b without a mode", "0b" HEAD "01"},
    {"0b without a length", "0b" HEAD "01" "02"},
    {"0b without a text", "0b" HEAD "01" "0203"},
    {"0b a byte of text short", "0b" HEAD "01" "02033838"},
    {"0b a byte long", "0b" HEAD "01" CONTAINS "38"},
    {"0b the second text short", "0b" HEAD "02" EQUAL "02033838"},
    {"0c as an opening", "0c" DAY},
    {"0c as a search", "0c" HEAD "01" CONTAINS},
    {"0c alone", "0c"},
    {"0c without letters", "0c" CODE},
    {"0c half a byte of letters", "0c" CODE "1"},
    {"0c a byte long", "0c" CODE "1f00"},
    {"0c a digit of the code short", "0c3838383838" "01"},
    {"0c bit 5", "0c" CODE "20"},
    {"0c bit 6", "0c" CODE "40"},
    {"0c bit 7", "0c" CODE "80"},
    {"0c bit 5 beside all five letters", "0c" CODE "3f"},
    {"0c bit 6 beside all five letters", "0c" CODE "5f"},
    {"0c bit 7 beside all five letters", "0c" CODE "9f"},
    {"0c letters ff", "0c" CODE "ff"},
    {"0c letters as the letter A in ASCII", "0c" CODE "41"},
    {"0c code with a letter", "0c" "383838383861" "01"},
    {"0c code with a slash", "0c" "2f3838383838" "01"},
    {"0c code with a colon", "0c" "3838383a3838" "01"},
    {"0c upper-case kind", "0C" CODE "01"},
    {"0c upper-case digit of the letters", "0c" CODE "1F"},
    {"13 as an opening", "13" DAY},
    {"13 alone", "13"},
    {"13 a byte short", "133838383838"},
    {"13 half a byte short", "1338383838383"},
    {"13 a byte long", "13" CODE "00"},
    {"13 code with a letter", "13" "383838383861"},
    {"13 code with a slash", "13" "2f3838383838"},
    {"13 code with a colon", "13" "3838383a3838"},
    {"13 upper-case digit in the code", "13" "3838383A3838"},
    {"352 bytes that are no frame", SIXTEEN(SIXTEEN("01")) SIXTEEN(TWICE(TWICE("01"))) SIXTEEN(TWICE("01"))},
};

enum { GOODS = sizeof good / sizeof *good, REFUSALS = sizeof refused / sizeof *refused };

/* ---- what a line is */

static int digit_value(int c)
{
    static const char digits[] = "0123456789abcdef";
    const char *at = c ? strchr(digits, c) : NULL;
    return at ? (int)(at - digits) : -1;
}

/* By kind, what stands behind it; a kind without one is unknown. C: code. M: amount. D: 4 bytes. H: header. A: account id and type. 1, 3: a byte up to this.
 * L: letters, a byte up to 31. i, q: a count, and rows of 19 or 10 bytes. s: a count, and conditions. */
static const char *const layouts[256] = {
    [0x01] = "C", [0x02] = "CC33", [0x03] = "CM", [0x04] = "CM", [0x05] = "CMM", [0x06] = "1CCM", [0x07] = "Hi",
    [0x08] = "HA", [0x09] = "Hq", [0x0a] = "D", [0x0b] = "Hs", [0x0c] = "CL", [0x13] = "C",
};

/* The number of bytes of a count and so many conditions: mode, length, text. */
static int conditions_bytes(const uint8_t *b)
{
    int at = 1;
    if (b[0] < 1 || b[0] > 8)
        return -1;
    for (int i = 0; i < b[0]; i++) {
        int mode = b[at], length = b[at + 1];
        if (mode < 1 || mode > 3 || length < (mode == 1 ? 10 : 1) || length > 10)
            return -1;
        at += 2 + length;
    }
    return at;
}

/* The number of bytes that the field takes, or -1. The bytes behind the frame are 0. */
static int field_bytes(char field, const uint8_t *b)
{
    switch (field) {
    case 'C':
        for (int i = 0; i < 6; i++)
            if (b[i] < '0' || b[i] > '9')
                return -1;
        return 6;
    case 'M': return 8;
    case 'D': return 4;
    case 'A': return 11;
    case 'H':
        if (((uint32_t)b[42] << 24 | (uint32_t)b[43] << 16 | (uint32_t)b[44] << 8 | b[45]) > 86399)
            return -1;
        return field_bytes('C', b) < 0 ? -1 : 46;
    case '1':
    case '3': return *b > field - '0' ? -1 : 1;
    case 'L': return *b > 31 ? -1 : 1;
    case 's': return conditions_bytes(b);
    default: return *b < 1 || *b > 16 ? -1 : 1 + *b * (field == 'i' ? 19 : 10);
    }
}

/* The frame that the line is, and its length, 0 where it is none. */
static size_t frame_of(const uint8_t *line, size_t digits, uint8_t *frame)
{
    uint8_t b[3 * ROOM] = {0};
    size_t at = 1, length = digits / 2;
    if (digits % 2 || digits == 0 || length > ROOM)
        return 0;
    for (size_t i = 0; i < digits; i++) {
        int value = digit_value(line[i]);
        if (value < 0)
            return 0;
        b[i / 2] = (uint8_t)(b[i / 2] * 16 + value);
    }
    if (!layouts[b[0]])
        return 0;
    for (const char *field = layouts[b[0]]; *field; field++) {
        int bytes = field_bytes(*field, b + at);
        if (bytes < 0)
            return 0;
        at += (size_t)bytes;
    }
    if (at != length)
        return 0;
    memcpy(frame, b, length);
    return length;
}

/* ---- one call, compared */

static uint8_t pattern(size_t i, int turn)
{
    return (uint8_t)(turn ? ~(i * 7 + 3) : i * 7 + 3);
}

/* Calls the reader twice, on buffers of opposite bytes, so that a byte that is written is seen to be. */
static int same(const uint8_t *line, size_t digits, size_t room, const uint8_t *want, size_t length)
{
    uint8_t all[GUARD + LARGEST + GUARD];
    uint8_t *frame = all + GUARD;
    for (int turn = 0; turn < 2; turn++) {
        for (size_t i = 0; i < sizeof all; i++)
            all[i] = pattern(i, turn);
        if (nomiluvar_read_frame(line, digits, frame, room) != length || memcmp(frame, want, length))
            return 0;
        for (size_t i = 0; i < sizeof all; i++)
            if ((i < GUARD || i >= GUARD + length) && all[i] != pattern(i, turn))
                return 0;
    }
    return 1;
}

static void tell(const char *name, size_t digits, size_t room, int as_wanted)
{
    if (as_wanted)
        passed++;
    else if (failed++ < 20)
        printf("failed: %s, %zu digits, buffer of %zu bytes\n", name, digits, room);
}

static void check(const char *name, const uint8_t *line, size_t digits, size_t room, const uint8_t *want, size_t length)
{
    tell(name, digits, room, same(line, digits, room, want, length));
}

static void compare(const char *name, const uint8_t *line, size_t digits)
{
    uint8_t want[ROOM] = {0};
    size_t length = frame_of(line, digits, want);
    check(name, line, digits, ROOM, want, length);
}

/* ---- the cases */

static void bytes_of(const char *digits, uint8_t *bytes)
{
    for (size_t i = 0; digits[2 * i]; i++)
        bytes[i] = (uint8_t)(digit_value(digits[2 * i]) * 16 + digit_value(digits[2 * i + 1]));
}

static void written_out(void)
{
    static const size_t small[] = {0, 1, 7, 351}, enough[] = {352, 353, LARGEST};
    for (int g = 0; g < GOODS; g++) {
        const uint8_t *line = (const uint8_t *)good[g].digits;
        size_t digits = strlen(good[g].digits);
        uint8_t want[ROOM];
        bytes_of(good[g].digits, want);
        for (size_t r = 0; r < sizeof enough / sizeof *enough; r++)
            check(good[g].name, line, digits, enough[r], want, digits / 2);
        for (size_t r = 0; r < sizeof small / sizeof *small; r++)
            check(good[g].name, line, digits, small[r], want, 0);
    }
    for (int r = 0; r < REFUSALS; r++) {
        const uint8_t *line = (const uint8_t *)refused[r].digits;
        check(refused[r].name, line, strlen(refused[r].digits), ROOM, line, 0);
        check(refused[r].name, line, strlen(refused[r].digits), LARGEST, line, 0);
        check(refused[r].name, line, strlen(refused[r].digits), 0, line, 0);
    }
}

/* Every length of a good line, cut off or with more digits behind. */
static void lengths(void)
{
    for (int g = 0; g < GOODS; g++) {
        uint8_t line[2 * ROOM + 40];
        size_t digits = strlen(good[g].digits);
        memset(line, '0', sizeof line);
        memcpy(line, good[g].digits, digits);
        for (size_t n = 0; n <= digits + 40; n++)
            compare(good[g].name, line, n);
    }
}

/* Each digit of a good line as each of the 256 bytes. */
static void digits_changed(void)
{
    for (int g = 0; g < GOODS; g++) {
        uint8_t line[2 * ROOM];
        size_t digits = strlen(good[g].digits);
        memcpy(line, good[g].digits, digits);
        for (size_t i = 0; i < digits; i++) {
            uint8_t was = line[i];
            for (int v = 0; v < 256; v++) {
                line[i] = (uint8_t)v;
                compare(good[g].name, line, digits);
            }
            line[i] = was;
        }
    }
}

/* Each byte of a good frame as each of the 256 values. */
static void bytes_changed(void)
{
    for (int g = 0; g < GOODS; g++) {
        uint8_t line[2 * ROOM];
        size_t digits = strlen(good[g].digits);
        memcpy(line, good[g].digits, digits);
        for (size_t i = 0; i < digits; i += 2) {
            uint8_t high = line[i], low = line[i + 1];
            for (int v = 0; v < 256; v++) {
                line[i] = (uint8_t)"0123456789abcdef"[v / 16];
                line[i + 1] = (uint8_t)"0123456789abcdef"[v % 16];
                compare(good[g].name, line, digits);
            }
            line[i] = high;
            line[i + 1] = low;
        }
    }
}

/* Each count from 0 to 255 with each number of items from 0 to 18. */
static void counts(void)
{
    static const struct named kinds[] = {{"07" HEAD, ITEM}, {"09" HEAD, ACCOUNT}, {"0b" HEAD, EQUAL}, {"0b" HEAD, LACKS}};
    for (int k = 0; k < 4; k++)
        for (int count = 0; count < 256; count++) {
            char line[1024];
            int digits = sprintf(line, "%s%02x", kinds[k].name, count);
            for (int items = 0; items <= 18; items++) {
                compare("count", (const uint8_t *)line, (size_t)digits);
                digits += sprintf(line + digits, "%s", kinds[k].digits);
            }
        }
}

/* Modes 0 to 4 and lengths 0 to 255 with texts of 0 to 12 bytes, by themselves and behind a good condition. */
static void conditions(void)
{
    static const char *const before[] = {"0b" HEAD "01", "0b" HEAD "02" CONTAINS};
    for (int k = 0; k < 2; k++)
        for (int mode = 0; mode < 5; mode++)
            for (int length = 0; length < 256; length++) {
                char line[256];
                int digits = sprintf(line, "%s%02x%02x", before[k], mode, length);
                for (int text = 0; text <= 12; text++) {
                    compare("condition", (const uint8_t *)line, (size_t)digits);
                    digits += sprintf(line + digits, "38");
                }
            }
}

/* A buffer of length 0 may have no place at all. */
static void no_buffer(void)
{
    uint8_t want[ROOM] = {0};
    check("NULL for the line", NULL, 0, ROOM, want, 0);
    check("NULL for the line, a large buffer", NULL, 0, LARGEST, want, 0);
    for (int g = 0; g < GOODS; g++) {
        const uint8_t *line = (const uint8_t *)good[g].digits;
        tell("NULL for the buffer", strlen(good[g].digits), 0, nomiluvar_read_frame(line, strlen(good[g].digits), NULL, 0) == 0);
    }
    tell("NULL for both", 0, 0, nomiluvar_read_frame(NULL, 0, NULL, 0) == 0);
}

/* Lines that are longer than any frame, of digits and of every byte. */
static void long_lines(void)
{
    static const size_t sizes[] = {705, 706, 708, 1024, 65536, 65537, 1 << 20, (1 << 24) + 2};
    for (size_t s = 0; s < sizeof sizes / sizeof *sizes; s++) {
        uint8_t *line = malloc(sizes[s]);
        if (!line)
            exit(2);
        memset(line, '0', sizes[s]);
        memcpy(line, good[12].digits, strlen(good[12].digits));
        compare("a long line behind a good one", line, sizes[s]);
        memcpy(line, "01" CODE, 14);
        compare("a long line that begins as a bank", line, sizes[s]);
        for (size_t i = 0; i < sizes[s]; i++)
            line[i] = (uint8_t)i;
        compare("a long line of every byte", line, sizes[s]);
        compare("256 bytes, every value", line, 256);
        free(line);
    }
}

int main(void)
{
    written_out();
    lengths();
    digits_changed();
    bytes_changed();
    counts();
    conditions();
    no_buffer();
    long_lines();
    printf("%lu passed, %lu failed\n", passed, failed);
    return failed != 0;
}
