/* How each of the seventeen functions is called. The requests and their answers are those of samples/worked.cases: word(), size(),
 * polynomial() and so on read the next one of the line, must() and is() hold what was answered against it (cases.h). What is answered
 * otherwise is printed, and at the end each function that answered all of its cases as it must. It is C and C++; worked.py asks the same
 * and prints the same. */
#include "cases.h"
#include "desk.h"

static void check(void) {
    uint8_t bytes[DESK_BYTES];
    record(bytes);
    size_t count = length(DESK_BYTES), degree;
    uint32_t modulus;
    desk_polynomial f;
    if (!answered(desk_check(bytes, count, &modulus, f, &degree))) return;
    must(modulus == word());
    must(degree == size());
    is(f);
}

static void compose(void) {
    desk_polynomial f, g, h;
    uint32_t m = word();
    polynomial(g);
    polynomial(h);
    if (answered(desk_compose(m, g, h, f))) is(f);
}

static void left_part(void) {
    desk_polynomial f, g, h;
    uint32_t m = word();
    polynomial(f);
    polynomial(h);
    if (answered(desk_left_part(m, f, h, g))) is(g);
}

static void split(void) {
    desk_polynomial f, g, h;
    uint32_t m = word();
    polynomial(f);
    size_t r = size();
    if (!answered(desk_split(m, f, r, g, h))) return;
    is(g);
    is(h);
}

static void quick(void) {
    desk_polynomial f;
    uint32_t m = word();
    polynomial(f);
    size_t r = size(), answer[2];
    if (!answered(desk_quick(m, f, r, answer))) return;
    must(answer[0] == size());
    must(answer[1] == size());
}

static void change_polynomial(void) {
    desk_polynomial f, out;
    uint32_t m = word();
    polynomial(f);
    uint32_t a = word(), b = word();
    if (answered(desk_change_polynomial(m, f, a, b, out))) is(out);
}

static void change_pair(void) {
    desk_polynomial g, h, left, right;
    uint32_t m = word();
    polynomial(g);
    polynomial(h);
    uint32_t a = word(), b = word();
    if (!answered(desk_change_pair(m, g, h, a, b, left, right))) return;
    is(left);
    is(right);
}

static void combine(void) {
    uint32_t m = word(), a = word(), b = word(), a2 = word(), b2 = word(), out[2];
    if (!answered(desk_combine(m, a, b, a2, b2, out))) return;
    must(out[0] == word());
    must(out[1] == word());
}

static void undo(void) {
    uint32_t m = word(), a = word(), b = word(), out[2];
    if (!answered(desk_undo(m, a, b, out))) return;
    must(out[0] == word());
    must(out[1] == word());
}

static void chain(void) {
    desk_polynomial f;
    uint32_t m = word();
    polynomial(f);
    size_t count = length(DESK_WORDS + MORE), numbers[3];
    uint32_t *area = lent(count);
    desk_refused refused = desk_chain(m, f, area, count, numbers);
    if (answered(refused)) {
        for (size_t i = 0; i < 3; i++) must(numbers[i] == size());
    }
    area_is(area, count, refused.number);
}

static void count_chains(void) {
    desk_polynomial f;
    uint32_t m = word();
    polynomial(f);
    size_t number;
    if (answered(desk_count_chains(m, f, &number))) must(number == size());
}

static void nth_chain(void) {
    desk_polynomial f;
    uint32_t m = word();
    polynomial(f);
    size_t j = size(), count = length(DESK_WORDS + MORE), numbers[2];
    uint32_t *area = lent(count);
    desk_refused refused = desk_nth_chain(m, f, j, area, count, numbers);
    if (answered(refused)) {
        for (size_t i = 0; i < 2; i++) must(numbers[i] == size());
    }
    area_is(area, count, refused.number);
}

static void part(void) {
    uint32_t *area = lent(2 * DESK_WORDS);
    parts(area);
    size_t i = size(), place[2];
    desk_part(area, length(DESK_WORDS + MORE), i, place);
    must(reads("=") && place[0] == size());
    must(place[1] == size());
}

static void write_sheet(void) {
    static uint8_t sheet[DESK_SHEET + MORE], due[DESK_SHEET];
    uint32_t m = word(), *area = lent(2 * DESK_WORDS);
    parts(area);
    size_t words = length(DESK_WORDS + MORE), bytes = length(DESK_SHEET + MORE), used = 0;
    memset(sheet, BYTE, sizeof sheet);
    if (answered(desk_write_sheet(m, area, words, sheet, bytes))) {
        records(due);
        must(memcmp(sheet, due, sizeof due) == 0);
        used = sizeof due;
    }
    for (size_t i = used; i < sizeof sheet; i++) must(sheet[i] == BYTE);
}

static void read_sheet(void) {
    static uint8_t sheet[DESK_SHEET + MORE];
    memset(sheet, BYTE, sizeof sheet);
    records(sheet);
    size_t words = length(DESK_WORDS + MORE), bytes = length(DESK_SHEET + MORE);
    uint32_t *area = lent(words), modulus;
    desk_polynomial f;
    desk_refused refused = desk_read_sheet(sheet, bytes, area, words, &modulus, f);
    if (answered(refused)) {
        must(modulus == word());
        is(f);
    }
    area_is(area, words, refused.number);
}

static void read_text(void) {
    static uint8_t typed[2 * DESK_TEXT_BYTES];
    desk_polynomial f;
    uint32_t m = word();
    size_t count = text(typed);
    if (answered(desk_read_text(m, typed, count, f))) is(f);
}

static void write_text(void) {
    static uint8_t area[DESK_TEXT_MOST], due[DESK_TEXT_MOST];
    desk_polynomial f;
    uint32_t m = word();
    polynomial(f);
    size_t count = length(DESK_TEXT_MOST), used = 0;
    memset(area, BYTE, sizeof area);
    if (answered(desk_write_text(m, f, area, count, &used))) {
        must(used == size() && used == text(due));
        must(memcmp(area, due, used) == 0);
    }
    for (size_t i = used; i < sizeof area; i++) must(area[i] == BYTE);
}

static struct {
    const char *name;
    void (*ask)(void);
    int cases, wrong;
} functions[] = {
    {"check", check, 0, 0},
    {"compose", compose, 0, 0},
    {"left_part", left_part, 0, 0},
    {"split", split, 0, 0},
    {"quick", quick, 0, 0},
    {"change_polynomial", change_polynomial, 0, 0},
    {"change_pair", change_pair, 0, 0},
    {"combine", combine, 0, 0},
    {"undo", undo, 0, 0},
    {"chain", chain, 0, 0},
    {"count_chains", count_chains, 0, 0},
    {"nth_chain", nth_chain, 0, 0},
    {"part", part, 0, 0},
    {"write_sheet", write_sheet, 0, 0},
    {"read_sheet", read_sheet, 0, 0},
    {"read_text", read_text, 0, 0},
    {"write_text", write_text, 0, 0},
};
#define FUNCTIONS (sizeof functions / sizeof *functions)

/* A name of a polynomial, or a case. */
static void read_line(const char *line) {
    size_t i = 0;
    char name[64];
    at = line;
    as_it_must = 1;
    snprintf(name, sizeof name, "%s", next());
    if (reads("=")) {
        polynomial(names[named].f);
        snprintf(names[named].name, sizeof names[named].name, "%.7s", name);
        named++;
        return;
    }
    while (i < FUNCTIONS && strcmp(name, functions[i].name) != 0) i++;
    if (i == FUNCTIONS) {
        printf("no function: %s\n", line);
        return;
    }
    functions[i].ask();
    blanks();
    must(*at == '\0');
    functions[i].cases++;
    functions[i].wrong += !as_it_must;
    if (!as_it_must) printf("not as it must be: %s\n", line);
}

int main(int count, char **words) {
    const char *path = count > 1 ? words[1] : "samples/worked.cases";
    FILE *file = fopen(path, "r");
    char line[4096];
    if (file == NULL) {
        perror(path);
        return 2;
    }
    while (fgets(line, sizeof line, file) != NULL) {
        char *end = strstr(line, "  # ");
        line[strcspn(line, "\n")] = '\0';
        if (end != NULL) *end = '\0';
        if (*line != '#' && *line != '\0') read_line(line);
    }
    fclose(file);
    for (size_t i = 0; i < FUNCTIONS; i++) {
        if (functions[i].cases > 0 && functions[i].wrong == 0) printf("desk_%s: as it must be\n", functions[i].name);
    }
    return 0;
}
