/* Measures the stack that each function of desk.h takes: it is called on a painted stack, and what is not paint afterwards
 * is counted. By hand, for the figures in desk.h, after `machine/build desk`:
 *
 *     cc -O2 -Wl,-z,now -o target/examples/stack examples/stack.c crates/desk/out/libdesk.a && target/examples/stack
 *
 * The requests are x^n and x^n + x at all degrees of g and h, each of their chains and the j after the last, and the sheet of g
 * and h; texts with 0 to 8 brackets in one another, good and faulty; and a polynomial without zeros, written: modulo 101 and
 * 2^32. The most that any of them takes is printed. By -z,now memcpy is found before the first call, which would count as the
 * function's own. */
#include <stdio.h>
#include <string.h>
#include <ucontext.h>

#include "desk.h"

#define ROOM (1 << 18)
#define PAINT 0xA5
#define DIGITS(figure) DIGITS_OF(figure) /* as text */
#define DIGITS_OF(figure) #figure

static unsigned char stack[ROOM] __attribute__((aligned(16)));
static ucontext_t caller, callee;

static uint32_t m;
static uint8_t square[DESK_BYTES] = {[4 * 3] = 1};
static desk_polynomial f, g, h, left, right, dense;
static uint32_t area[DESK_WORDS], change[2];
static uint8_t sheet[DESK_SHEET], text[DESK_TEXT_BYTES], written[DESK_TEXT_MOST];
static size_t r, j, length, numbers[3];

static void check(void) { desk_check(square, sizeof square, change, left, numbers); }
static void compose(void) { desk_compose(m, g, h, left); }
static void left_part(void) { desk_left_part(m, f, h, left); }
static void split(void) { desk_split(m, f, r, left, right); }
static void quick(void) { desk_quick(m, f, r, numbers); }
static void change_polynomial(void) { desk_change_polynomial(m, f, 3, 2, left); }
static void change_pair(void) { desk_change_pair(m, g, h, 3, 2, left, right); }
static void combine(void) { desk_combine(m, 3, 2, 5, 7, change); }
static void undo(void) { desk_undo(m, 3, 2, change); }
static void chain(void) { desk_chain(m, f, area, DESK_WORDS, numbers); }
static void count_chains(void) { desk_count_chains(m, f, numbers); }
static void nth_chain(void) { desk_nth_chain(m, f, j, area, DESK_WORDS, numbers); }
static void part(void) { desk_part(area, DESK_WORDS, 0, numbers); }
static void write_sheet(void) { desk_write_sheet(m, area, DESK_WORDS, sheet, DESK_SHEET); }
static void read_sheet(void) { desk_read_sheet(sheet, DESK_SHEET, area, DESK_WORDS, change, left); }
static void read_text(void) { desk_read_text(m, text, length, left); }
static void write_text(void) { desk_write_text(m, dense, written, DESK_TEXT_MOST, numbers); }

static const struct {
    const char *name;
    void (*run)(void);
} functions[] = {
    {"desk_check", check}, {"desk_compose", compose}, {"desk_left_part", left_part}, {"desk_split", split},
    {"desk_quick", quick}, {"desk_change_polynomial", change_polynomial}, {"desk_change_pair", change_pair},
    {"desk_combine", combine}, {"desk_undo", undo}, {"desk_chain", chain}, {"desk_count_chains", count_chains},
    {"desk_nth_chain", nth_chain}, {"desk_part", part}, {"desk_write_sheet", write_sheet}, {"desk_read_sheet", read_sheet},
    {"desk_read_text", read_text}, {"desk_write_text", write_text},
};

static size_t taken(void (*run)(void)) {
    memset(stack, PAINT, ROOM);
    getcontext(&callee);
    callee.uc_stack.ss_sp = stack;
    callee.uc_stack.ss_size = ROOM;
    callee.uc_link = &caller;
    makecontext(&callee, run, 0);
    swapcontext(&caller, &callee);
    size_t untouched = 0;
    while (untouched < ROOM && stack[untouched] == PAINT) untouched++;
    return ROOM - untouched;
}

static size_t most_taken(void (*run)(void), uint32_t modulus) {
    size_t most = 0;
    m = modulus;
    square[0] = (uint8_t)m;
    for (size_t i = 0; i < DESK_TERMS; i++) dense[i] = i + 1 < DESK_TERMS ? m - 1 : 1;
    for (r = 2; 2 * r < DESK_TERMS; r++) {
        for (size_t s = 2; r * s < DESK_TERMS; s++) {
            memset(f, 0, sizeof f);
            memset(g, 0, sizeof g);
            memset(h, 0, sizeof h);
            f[r * s] = g[r] = h[s] = 1;
            memset(area, 0, sizeof area);
            memcpy(area, g, sizeof g);
            memcpy(area + DESK_TERMS, h, sizeof h);
            write_sheet();
            for (f[1] = 0; f[1] < 2; f[1]++) {
                size_t last = 0;
                if (run == nth_chain) desk_count_chains(m, f, &last);
                for (j = 0; j <= last; j++) {
                    size_t now = taken(run);
                    if (most < now) most = now;
                }
            }
        }
    }
    return most;
}

static void type(const char *more) {
    while (*more) text[length++] = (uint8_t)*more++;
}

static size_t most_of_texts(uint32_t modulus) {
    static const char *const before[] = {"(", "-(", "x*(", "1-x*("};
    static const char *const inside[] = {"x", "-x^2", "2*x^" DIGITS(DESK_LIMIT), "3^2-x*x+1", "x^1" DIGITS(DESK_LIMIT), "x+", "(", ""};
    static const char *const after[] = {")", ")^2", ")*x", ")^1*x^0-1"};
    size_t most = 0;
    m = modulus;
    for (size_t kind = 0; kind < 4 * 8 * 4; kind++) {
        for (size_t depth = 0; depth <= 8; depth++) {
            length = 0;
            for (size_t i = 0; i < depth; i++) type(before[kind % 4]);
            type(inside[kind / 4 % 8]);
            for (size_t i = 0; i < depth; i++) type(after[kind / 32]);
            size_t now = taken(read_text);
            if (most < now) most = now;
        }
    }
    return most;
}

static size_t most_of(void (*run)(void), uint32_t modulus) {
    return run == read_text ? most_of_texts(modulus) : most_taken(run, modulus);
}

int main(void) {
    for (size_t i = 0; i < sizeof functions / sizeof *functions; i++) {
        size_t most = most_of(functions[i].run, 101), at_2_32 = most_of(functions[i].run, DESK_TWO_TO_32);
        if (most < at_2_32) most = at_2_32;
        printf("%-24s %6zu bytes, %zu KB\n", functions[i].name, most, (most + 1023) / 1024);
    }
    return 0;
}
