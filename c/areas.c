/* Every entry with empty, one-byte and over-long slices and areas of every size from 0 on. Guard bytes
 * stand around each area; nothing outside it may change, nor anything inside that the header says is
 * kept. Prints the number of comparisons, or the first that is wrong. */
#include <stdio.h>
#include <stdlib.h>
#include <string.h>

#include "okwazibelu.h"

#define GUARD 64
#define ROOM 4096

static unsigned long compared;

static void fail(const char *what) {
    printf("wrong: %s\n", what);
    exit(1);
}

static void expect(int holds, const char *what) {
    compared++;
    if (!holds) fail(what);
}

/* The eight figures with guards on both sides. */
static uint64_t held[8 + 2 * GUARD];
static uint64_t *const figures = held + GUARD;

static uint64_t mark(size_t k) { return 0xA5A5A5A500000000u + k; }

static void clear_figures(void) {
    for (size_t k = 0; k < 8 + 2 * GUARD; k++) held[k] = mark(k);
}

/* The code and the figures, with every entry past them and every guard as it was. */
static void figures_are(const char *what, uint32_t no, uint32_t code, size_t n, const uint64_t *list) {
    expect(no == code, what);
    expect(figures[0] == n, what);
    for (size_t k = 0; k < n; k++) expect(figures[1 + k] == list[k], what);
    for (size_t k = n + 1; k < 8; k++) expect(figures[k] == mark(GUARD + k), what);
    for (size_t k = 0; k < GUARD; k++) {
        expect(held[k] == mark(k), what);
        expect(held[GUARD + 8 + k] == mark(GUARD + 8 + k), what);
    }
}

static void code_is(const char *what, uint32_t no, uint32_t code) { figures_are(what, no, code, 0, NULL); }

static void one_is(const char *what, uint32_t no, uint32_t code, uint64_t figure) {
    figures_are(what, no, code, 1, &figure);
}

/* ---- numbers */

static uint32_t number(const char *s, size_t n) {
    clear_figures();
    return okw_read_number((const uint8_t *)s, n, figures);
}

static void numbers(void) {
    char text[80];
    static const uint64_t seven[7] = {0, 0, 0, 7, 0, 0, 0};
    static const uint64_t case3[7] = {1, 3, 2, 1200, 50, 1, 5};
    static const uint64_t zero[7] = {0, 0, 0, 0, 0, 0, 0};
    code_is("number: NULL", number(NULL, 0), 11);
    code_is("number: empty", number("", 0), 11);
    for (int b = 0; b < 256; b++) {
        char c = (char)b;
        if (b >= '0' && b <= '9') {
            uint64_t operands[7] = {0, 0, 0, (uint64_t)(b - '0'), 0, 0, 0};
            figures_are("number: a digit", number(&c, 1), 0, 7, operands);
        } else {
            code_is("number: a byte", number(&c, 1), 11);
        }
    }
    figures_are("number: 7", number("7", 1), 0, 7, seven);
    figures_are("number: -1.20050c3", number("-1.20050c3", 10), 0, 7, case3);
    memset(text, '0', sizeof text);
    figures_are("number: 64 bytes", number(text, 64), 0, 7, zero);
    code_is("number: 65 bytes", number(text, 65), 10);
    memset(text, '9', sizeof text);
    code_is("number: 16 digits", number(text, 16), 14);
}

/* ---- packs */

static char pack[4200];

/* One rule, and white space behind it. */
static void long_pack(void) {
    memset(pack, ' ', sizeof pack);
    memcpy(pack, "one: n = 1", 10);
}

static uint32_t check(const char *s, size_t n) {
    clear_figures();
    return okw_check((const uint8_t *)s, n, figures);
}

static uint32_t select_word(const char *s, size_t n, const char *x, size_t m) {
    clear_figures();
    return okw_select((const uint8_t *)s, n, (const uint8_t *)x, m, figures);
}

static void packs(void) {
    static const uint64_t clash[6] = {1, 2, 0, 1, 1, 2};
    static const uint64_t pair[2] = {1, 2};
    one_is("check: NULL", check(NULL, 0), 21, 0);
    one_is("check: empty", check("", 0), 21, 0);
    one_is("select: NULL", select_word(NULL, 0, NULL, 0), 21, 0);
    code_is("select: no number", select_word("other:", 6, NULL, 0), 11);
    for (int b = 0; b < 256; b++) {
        char c = (char)b;
        int word = b >= 'a' && b <= 'z';
        int white = (b >= 9 && b <= 13) || b == 32;
        one_is("check: a byte", check(&c, 1), 21, word || white ? 1 : 0);
        one_is("select: a byte", select_word(&c, 1, &c, 1), 21, word || white ? 1 : 0);
    }
    long_pack();
    code_is("check: 4,096 bytes", check(pack, 4096), 0);
    code_is("check: 4,097 bytes", check(pack, 4097), 20);
    one_is("select: 4,096 bytes", select_word(pack, 4096, "1", 1), 0, 1);
    code_is("select: 4,097 bytes", select_word(pack, 4097, "1", 1), 20);
    char zeros[65];
    memset(zeros, '0', sizeof zeros);
    one_is("select: 64 digits", select_word("other:", 6, zeros, 64), 0, 5);
    code_is("select: 65 digits", select_word("other:", 6, zeros, 65), 10);
    figures_are("check: two rules", check("one: i = 1; two: f = 2", 22), 27, 6, clash);
    figures_are("select: two rules", select_word("one: i = 1; two: f = 2", 22, "1.2", 3), 27, 2, pair);
}

/* ---- printing */

static uint8_t area[ROOM + 2 * GUARD];
static uint8_t *const out = area + GUARD;

static uint8_t filling(size_t k) { return (uint8_t)(0xC0 + k % 61); }

static void clear_area(void) {
    for (size_t k = 0; k < sizeof area; k++) area[k] = filling(k);
}

static uint32_t print(const char *y, size_t yn, const char *p, size_t pn, const char *x, size_t xn, size_t room) {
    clear_figures();
    clear_area();
    return okw_print((const uint8_t *)y, yn, (const uint8_t *)p, pn, (const uint8_t *)x, xn, out, room, figures);
}

/* The text at the area's front, and every other byte as it was. */
static void area_is(const char *what, const char *text, size_t n) {
    expect(memcmp(out, text, n) == 0, what);
    for (size_t k = 0; k < sizeof area; k++)
        if (k < GUARD || k >= GUARD + n) expect(area[k] == filling(k), what);
}

/* The text with each size of area from 0 to a few bytes past the text. */
static void sizes(const char *y, size_t yn, const char *p, const char *x, const char *text) {
    size_t n = strlen(text);
    for (size_t room = 0; room < n + 4; room++) {
        uint32_t no = print(y, yn, p, strlen(p), x, strlen(x), room);
        if (room < n) {
            one_is(p, no, 51, n);
            area_is(p, "", 0);
        } else {
            one_is(p, no, 0, n);
            area_is(p, text, n);
        }
    }
}

static void refused(const char *what, uint32_t no, uint32_t code) {
    code_is(what, no, code);
    area_is(what, "", 0);
}

static void prints(void) {
    refused("print: NULL", print(NULL, 0, NULL, 0, NULL, 0, 0), 33);
    refused("print: empty pattern", print("", 0, "", 0, "1", 1, ROOM), 33);
    refused("print: no number", print("", 0, "0", 1, NULL, 0, ROOM), 11);
    clear_figures();
    one_is("print: no area", okw_print(NULL, 0, (const uint8_t *)"0", 1, (const uint8_t *)"1", 1, NULL, 0, figures), 51, 1);
    for (int b = 0; b < 256; b++) {
        char c = (char)b;
        uint32_t no = print(&c, 1, "0", 1, "1", 1, 1);
        refused("print: a byte as symbols", no, 40);
        no = print("", 0, &c, 1, "1", 1, 1);
        if (b >= '0' && b <= '9') {
            compared++;
            if (no != 0 && no != 51) fail("print: a digit as pattern");
        } else {
            expect(no >= 31 && no <= 33, "print: a byte as pattern");
            area_is("print: a byte as pattern", "", 0);
        }
    }
    sizes("", 0, "0.0", "0.349", "0.3");
    sizes("", 0, "#,##0.##", "1234.567", "1,234.57");
    sizes("\x11\x2C\x21\x20", 4, "#,##0.##", "1234.567", "1 234,57");
    sizes("\x71\x02", 2, "#,##0", "1234", "1234");
    sizes("\x71\x02", 2, "#,##0", "12345", "12,345");
    sizes("", 0, "0.00;(0.00)", "-3.1415", "(3.14)");
    sizes("\x33\xE2\x88\x92", 4, "0 'm'", "-7", "\xE2\x88\x92" "7 m");
}

static void lengths(void) {
    char long_text[300];
    memset(long_text, 'x', sizeof long_text);
    long_text[0] = '0';
    char expected[300];
    memset(expected, 'x', sizeof expected);
    expected[0] = '7';
    for (size_t room = 254; room <= 258; room++) {
        uint32_t no = print("", 0, long_text, 256, "7", 1, room);
        if (room < 256) {
            one_is("print: 256 bytes of pattern", no, 51, 256);
            area_is("print: 256 bytes of pattern", "", 0);
        } else {
            one_is("print: 256 bytes of pattern", no, 0, 256);
            area_is("print: 256 bytes of pattern", expected, 256);
        }
    }
    refused("print: 257 bytes of pattern", print("", 0, long_text, 257, "7", 1, ROOM), 30);
    memset(long_text, '0', sizeof long_text);
    refused("print: 65 bytes of number", print("", 0, "0", 1, long_text, 65, ROOM), 10);
    refused("print: an exponent", print("", 0, "0", 1, "1c3", 3, ROOM), 50);
    char symbols[33] = "\x14\xF0\x9F\x98\x80\x24\xF0\x9F\x98\x80\x34\xF0\x9F\x98\x80"
                       "\x44\xF0\x9F\x98\x80\x54\xF0\x9F\x98\x80\x64\xF0\x9F\x98\x80"
                       "\x71\x02";
    one_is("print: 32 bytes of symbols", print(symbols, 32, "0.0", 3, "1.5", 3, ROOM), 0, 6);
    area_is("print: 32 bytes of symbols", "1\xF0\x9F\x98\x80" "5", 6);
    refused("print: 33 bytes of symbols", print(symbols, 33, "0.0", 3, "1.5", 3, ROOM), 40);
}

int main(void) {
    numbers();
    packs();
    prints();
    lengths();
    printf("%lu comparisons, all as they should be\n", compared);
    return 0;
}
