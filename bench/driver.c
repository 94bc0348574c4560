// driver FILE...: times vireopatch_read, best of some runs, in ns a byte. The tables have as many records as the text needs.
// driver --shares FILE: times vireopatch_shares on 1,000 texts and vireopatch_text_words on the file's reading, in ns a call.
#include <stdio.h>
#include <stdlib.h>
#include <string.h>
#include <time.h>

#include "../library/vireopatch.h"

#define LONGEST 65536
#define TEXTS 1000
#define RUNS 150

// What the calls are lent.
struct lent {
    size_t n, rows_len, errors_len, requests_len, row_count, given;
    uint32_t *rows, *errors, *requests;
    size_t *roots;
    uint32_t list[TEXTS * 2];
};

static uint8_t text[LONGEST];

static double now(void) {
    struct timespec t;
    clock_gettime(CLOCK_MONOTONIC, &t);
    return t.tv_sec * 1e9 + t.tv_nsec;
}

static void *memory(size_t n) {
    void *p = malloc(n + 1);
    if (p == NULL) exit(2);
    return p;
}

static uint32_t read_text(struct lent *t) {
    size_t errors, requests, scope;
    bool swallow;
    return vireopatch_read(text, t->n, 0, false, 64, t->rows, t->rows_len, t->errors, t->errors_len, t->requests, t->requests_len, &t->row_count,
                           &errors, &requests, &scope, &swallow, &t->given);
}

static uint32_t shares(struct lent *t) {
    uint64_t numerator, denominator;
    size_t count, first, second, third;
    return vireopatch_shares(t->list, TEXTS * 2, &numerator, &denominator, &count, &first, &second, &third, &t->given);
}

static uint32_t text_words(struct lent *t) {
    return vireopatch_text_words(text, t->n, t->rows, t->rows_len, t->row_count, t->roots, t->row_count, &t->list[0], &t->list[1], &t->given);
}

static double best(uint32_t (*call)(struct lent *), struct lent *t) {
    double least = 1e18;
    for (int i = 0; i < RUNS; i++) {
        double begin = now();
        if (call(t) != 0) exit(2);
        double took = now() - begin;
        if (took < least) least = took;
    }
    return least;
}

static uint32_t *words(size_t n) { return memory(n * sizeof(uint32_t)); }

// Reads a file. A refusal names the need; the tables get it until the text is answered.
static struct lent load(const char *name) {
    FILE *f = fopen(name, "rb");
    if (f == NULL) exit(2);
    struct lent t = {.n = fread(text, 1, LONGEST, f), .rows = words(0), .errors = words(0), .requests = words(0)};
    fclose(f);
    for (uint32_t r = read_text(&t); r != 0; r = read_text(&t)) {
        if (r == VIREOPATCH_NO_ROOM_FOR_ROWS) t.rows = words(t.rows_len = t.given * VIREOPATCH_ROW_WORDS);
        else if (r == VIREOPATCH_NO_ROOM_FOR_ERRORS) t.errors = words(t.errors_len = t.given * VIREOPATCH_ERROR_WORDS);
        else if (r == VIREOPATCH_NO_ROOM_FOR_REQUESTS) t.requests = words(t.requests_len = t.given * VIREOPATCH_REQUEST_WORDS);
        else exit(2);
    }
    t.roots = memory(t.row_count * sizeof(size_t));
    return t;
}

// Texts of one length; from each to the next the trivia grows by so much, modulo it.
static void measure_shares(struct lent *t, const char *name, uint64_t start, uint64_t step) {
    for (size_t i = 0; i < TEXTS; i++) {
        t->list[2 * i] = (uint32_t)((start + i * step) % 65521);
        t->list[2 * i + 1] = 65521;
    }
    printf("shares of 1000 texts, %s: %.0f ns\n", name, best(shares, t));
}

int main(int argc, char **argv) {
    if (argc == 3 && strcmp(argv[1], "--shares") == 0) {
        struct lent t = load(argv[2]);
        printf("two words of a text of %zu bytes and %zu rows: %.0f ns\n", t.n, t.row_count, best(text_words, &t));
        measure_shares(&t, "each larger than the one before", 0, 1);
        measure_shares(&t, "each smaller", 65520, 65520);
        measure_shares(&t, "all equal", 40503, 0);
        measure_shares(&t, "in no order", 0, 40503);
        return 0;
    }
    for (int i = 1; i < argc; i++) {
        struct lent t = load(argv[i]);
        printf("%s %zu bytes %.2f ns/byte\n", argv[i], t.n, best(read_text, &t) / t.n);
    }
    return 0;
}
