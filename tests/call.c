/* Lists a rule through the library: call RULE LOW HIGH STEPS. It prints what the program prints, but goes on where a
 * list is full, so that it has no limit of 1,000 rows. With --sheet before RULE it prints the list on pages. call --house
 * RULE prints the rule in house style. */
#include <errno.h>
#include <stdio.h>
#include <stdlib.h>
#include <string.h>

#include "plans.h"

enum { ROWS = 1000, BUDGET = 1000000 };

/* A whole number from least to most; ends the program where a word is none. */
static long long number(const char *name, const char *word, long long least, long long most) {
    char *end;
    errno = 0;
    long long value = strtoll(word, &end, 10);
    if (end == word || *end != '\0' || errno != 0 || value < least || value > most) {
        fprintf(stderr, "call: %s is no whole number from %lld to %lld: %s\n", name, least, most, word);
        exit(2);
    }
    return value;
}

static void print_rows(const int32_t *rows, uint32_t count) {
    for (uint32_t row = 0; row < count; row++) {
        const int32_t *words = rows + row * PLANS_ROW_WORDS;
        printf("%d :", (int)words[0]);
        for (int32_t value = 0; value < words[1]; value++) printf(" %d", (int)words[2 + value]);
        printf("\n");
    }
}

/* A page that is full is not the last one, and has no word on its last line. */
static void print_page(const int32_t *rows, uint32_t count, uint32_t page, uint32_t ending) {
    uint8_t bytes[PLANS_PAGE_BYTES];
    plans_page(rows, (size_t)count * PLANS_ROW_WORDS, page, ending == PLANS_FULL ? PLANS_UNSAID : ending, bytes,
               sizeof bytes);
    fwrite(bytes, 1, sizeof bytes, stdout);
}

/* The rule in a file, and its length. One byte more than a rule may have tells that it is too long. */
static size_t read_rule(const char *path, uint8_t text[PLANS_MOST_BYTES + 1]) {
    FILE *rule = fopen(path, "rb");
    size_t length = rule == NULL ? 0 : fread(text, 1, PLANS_MOST_BYTES + 1, rule);
    if (rule == NULL || ferror(rule)) {
        fprintf(stderr, "call: can't read %s\n", path);
        exit(2);
    }
    fclose(rule);
    return length;
}

static int refused(const uint32_t *answer) {
    printf("refused %u at %u\n", (unsigned)answer[0], (unsigned)answer[1]);
    return 1;
}

/* What was printed is written, or the program ends. */
static void flush(const char *what) {
    if (fflush(stdout) != 0 || ferror(stdout)) {
        fprintf(stderr, "call: can't write the %s\n", what);
        exit(2);
    }
}

static int house(const char *path) {
    static uint8_t text[PLANS_MOST_BYTES + 1], out[PLANS_HOUSE_BYTES];
    uint32_t answer[PLANS_WRITE_WORDS];
    plans_write(text, read_rule(path, text), out, sizeof out, answer, PLANS_WRITE_WORDS);
    if (answer[0] != 0) return refused(answer);
    fwrite(out, 1, answer[2], stdout);
    flush("rule");
    return 0;
}

int main(int count, char **arguments) {
    static uint8_t text[PLANS_MOST_BYTES + 1];
    static int32_t rows[ROWS * PLANS_ROW_WORDS];
    static uint32_t scratch[PLANS_SCRATCH_WORDS];
    static const char *const endings[] = {"whole", "cut", "full", "spent"};
    uint32_t answer[PLANS_LIST_WORDS], listed = 0, page = 0;
    if (count == 3 && strcmp(arguments[1], "--house") == 0) return house(arguments[2]);
    int sheet = count > 1 && strcmp(arguments[1], "--sheet") == 0;
    arguments += sheet;
    if (count - sheet != 5) {
        fprintf(stderr, "usage: call [--sheet] RULE LOW HIGH STEPS or call --house RULE\n");
        return 2;
    }
    int32_t low = (int32_t)number("LOW", arguments[2], INT32_MIN, INT32_MAX);
    int32_t high = (int32_t)number("HIGH", arguments[3], INT32_MIN, INT32_MAX);
    uint32_t steps = (uint32_t)number("STEPS", arguments[4], 0, UINT32_MAX);
    size_t length = read_rule(arguments[1], text);
    do {
        plans_list(text, length, low, high, steps, listed, BUDGET, rows,
                   (size_t)(sheet ? PLANS_PAGE_ROWS : ROWS) * PLANS_ROW_WORDS, scratch, PLANS_SCRATCH_WORDS, answer,
                   PLANS_LIST_WORDS);
        if (answer[0] != 0) return refused(answer);
        if (sheet)
            print_page(rows, answer[3], ++page, answer[2]);
        else
            print_rows(rows, answer[3]);
        listed += answer[3];
    } while (answer[2] == PLANS_FULL);
    if (!sheet) printf("%s %u rows %u moves\n", endings[answer[2]], (unsigned)listed, (unsigned)answer[4]);
    flush("list");
    return answer[2] == PLANS_WHOLE ? 0 : 3;
}
