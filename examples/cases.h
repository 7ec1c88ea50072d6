/* Reads samples/worked.cases, which says how its lines are written, word by word. For worked.c. */
#ifndef CASES_H
#define CASES_H

#include <assert.h>
#include <ctype.h>
#include <inttypes.h>
#include <stdio.h>
#include <stdlib.h>
#include <string.h>

#include "desk.h"

static_assert(1 << DESK_PARTS <= DESK_LIMIT && DESK_LIMIT < 2 << DESK_PARTS, "the number of parts follows from the limit");

#define WORD 0xDEADBEEF /* what stands in lent memory before a call */
#define BYTE 0xEE
#define MORE 38 /* how much longer than what is used an area or a sheet is */

/* The line that is read, from the next word on, and whether all of it was as it must be. */
static const char *at;
static int as_it_must;

static void must(int holds) { as_it_must = as_it_must && holds; }

/* A figure in braces, worked out: {limit/2+1}. */
static unsigned long long figure(void) {
    static const struct {
        const char *name;
        unsigned long long value;
    } figures[] = {{"limit", DESK_LIMIT}, {"terms", DESK_TERMS}, {"parts", DESK_PARTS},
                   {"words", DESK_WORDS}, {"bytes", DESK_BYTES}, {"sheet", DESK_SHEET}};
    unsigned long long value = 0;
    at++;
    for (size_t i = 0; i < sizeof figures / sizeof *figures; i++) {
        if (strncmp(at, figures[i].name, 5) == 0) value = figures[i].value;
    }
    at += 5;
    while (*at != '}') {
        char what = *at++, *end;
        unsigned long long by = strtoull(at, &end, 10);
        at = end;
        value = what == '+' ? value + by : what == '-' ? value - by : what == '*' ? value * by : value / by;
    }
    at++;
    return value;
}

static void blanks(void) {
    while (*at == ' ') at++;
}

/* The next word of the line, with its figures worked out. */
static const char *next(void) {
    static char word[4096];
    size_t n = 0;
    blanks();
    while (*at != ' ' && *at != '\0') {
        if (*at == '{') {
            n += (size_t)sprintf(word + n, "%llu", figure());
        } else {
            word[n++] = *at++;
        }
    }
    word[n] = '\0';
    return word;
}

/* Whether that is the next word; if so, it is read. */
static int reads(const char *word) {
    const char *before = at;
    if (strcmp(next(), word) == 0) return 1;
    at = before;
    return 0;
}

static size_t size(void) { return (size_t)strtoull(next(), NULL, 10); }
static uint32_t word(void) { return (uint32_t)size(); }

/* How long an area or a sheet is that is lent: what stands behind `in`, one or two numbers, or the usual. */
static size_t length(size_t usual) {
    int given = reads("in");
    blanks();
    return given || isdigit((unsigned char)*at) || *at == '{' ? size() : usual;
}

static struct {
    char name[8];
    desk_polynomial f;
} names[64];
static size_t named;

/* [96,3,9], x^9+3*x^2+96, or a name. */
static void coefficients(const char *word, desk_polynomial f) {
    memset(f, 0, sizeof(desk_polynomial));
    for (size_t i = 0; i < named; i++) {
        if (strcmp(word, names[i].name) == 0) {
            memcpy(f, names[i].f, sizeof(desk_polynomial));
            return;
        }
    }
    char *end;
    if (*word == '[') {
        for (size_t i = 0; *word++ != ']' && *word != ']'; i++, word = end) f[i] = (uint32_t)strtoul(word, &end, 10);
        return;
    }
    while (*word != '\0') {
        uint32_t c = 1;
        size_t power = 0;
        if (isdigit((unsigned char)*word)) {
            c = (uint32_t)strtoul(word, &end, 10);
            word = end + (*end == '*');
        }
        if (*word == 'x') {
            power = 1;
            if (*++word == '^') {
                power = (size_t)strtoul(word + 1, &end, 10);
                word = end;
            }
        }
        f[power] = c;
        word += *word == '+';
    }
}

static void polynomial(desk_polynomial f) { coefficients(next(), f); }

/* ( part part .. ), and zeros; what is past it stays. */
static void parts(uint32_t *area) {
    memset(area, 0, DESK_WORDS * sizeof *area);
    must(reads("("));
    for (; !reads(")") && *at != '\0'; area += DESK_TERMS) coefficients(next(), area);
}

/* m:polynomial, or <the bytes>, or - for a place that is not used. */
static void record(uint8_t *bytes) {
    const char *word = next();
    desk_polynomial f;
    char *end;
    memset(bytes, 0, DESK_BYTES);
    if (*word == '<') {
        for (; *word != '>'; word = end) *bytes++ = (uint8_t)strtoul(word + 1, &end, 10);
    } else if (*word != '-') {
        uint32_t m = (uint32_t)strtoul(word, &end, 10);
        coefficients(end + 1, f);
        for (size_t i = 0; i < DESK_BYTES; i++) bytes[i] = (uint8_t)((i < 4 ? m : f[i / 4 - 1]) >> 8 * (i % 4));
    }
}

static void records(uint8_t *sheet) {
    memset(sheet, 0, DESK_SHEET);
    must(reads("("));
    for (; !reads(")") && *at != '\0'; sheet += DESK_BYTES) record(sheet);
}

/* "x^2", "+0"*3 for "+0+0+0", \x20 for a byte; one behind the other. */
static size_t text(uint8_t *bytes) {
    size_t count = 0;
    blanks();
    while (*at == '"') {
        char piece[4096];
        size_t n = 0, times = 1;
        const char *word = next() + 1;
        for (; *word != '"'; n++) {
            int byte = strncmp(word, "\\x", 2) == 0;
            char digits[3] = {word[0], '\0', '\0'};
            if (byte) memcpy(digits, word + 2, 2);
            piece[n] = byte ? (char)strtoul(digits, NULL, 16) : *word;
            word += byte ? 4 : 1;
        }
        if (word[1] == '*') times = (size_t)strtoul(word + 2, NULL, 10);
        for (; times > 0; times--, count += n) memcpy(bytes + count, piece, n);
        blanks();
    }
    return count;
}

/* Whether the request was answered, as it must be; else it must be refused by that number. */
static int answered(desk_refused refused) {
    char found[64];
    size_t n = (size_t)sprintf(found, "No.%" PRIu32, refused.number);
    must(reads("="));
    if (refused.number == 0) {
        blanks();
        must(strncmp(at, "No.", 3) != 0 && refused.polynomial == 0 && refused.power == 0);
        return as_it_must;
    }
    if (refused.polynomial == 1) n += (size_t)sprintf(found + n, ",first");
    if (refused.polynomial == 2) n += (size_t)sprintf(found + n, ",second");
    if (refused.polynomial >= 16) n += (size_t)sprintf(found + n, ",place%" PRIu32, refused.polynomial - 16);
    if (refused.number == 2) sprintf(found + n, ",%" PRIu32, refused.power);
    must(strcmp(next(), found) == 0);
    return 0;
}

static void is(const desk_polynomial f) {
    desk_polynomial due;
    polynomial(due);
    must(memcmp(f, due, sizeof due) == 0);
}

/* An area that was lent: after No. 11 as it was, after another refusal zero, else with these parts. */
static uint32_t *lent(size_t count) {
    static uint32_t area[2 * DESK_WORDS];
    for (size_t i = 0; i < count; i++) area[i] = WORD;
    return area;
}

static void area_is(const uint32_t *area, size_t count, uint32_t refused) {
    uint32_t due[DESK_WORDS] = {0};
    size_t used = refused == 11 ? 0 : DESK_WORDS;
    if (refused == 0) parts(due);
    must(memcmp(area, due, used * sizeof *area) == 0);
    for (size_t i = used; i < count; i++) must(area[i] == WORD);
}

#endif
