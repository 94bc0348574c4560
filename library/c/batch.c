/*
 * batch < CASES, batch --room < CASES, batch --words < CASES: reads many texts, for `compare`.
 *
 * A case is a line, HEX or SCOPE FLAG<tab>HEX: the bytes of a text, and the state to read it from (else 0 0). Each is printed again with a tab
 * and its listing, LF replaced by `|`; or `! ` and the refusal; with --room its needs instead (see needs), with --words its trivia bytes and
 * its length (see text_words). Status 1 if a check failed.
 */
#include "vireopatch.h"

#include <stdio.h>
#include <stdlib.h>
#include <string.h>

enum { ROWS, ERRORS, REQUESTS, KINDS };

static const size_t width[KINDS] = {VIREOPATCH_ROW_WORDS, VIREOPATCH_ERROR_WORDS, VIREOPATCH_REQUEST_WORDS};

struct text {
    const uint8_t *bytes;
    size_t len, scope;
    bool swallow;
};

/* A call's tables, and what it gave. */
struct reading {
    uint32_t *words[KINDS];
    size_t len[KINDS], count[KINDS];
    size_t scope, given;
    bool swallow;
    uint32_t code;
};

static int failed;

static void check(int holds, const char *what)
{
    if (!holds) {
        failed = 1;
        printf(" FAILED: %s", what);
    }
}

static void *memory(size_t bytes)
{
    void *p = malloc(bytes ? bytes : 1);
    if (!p) {
        fprintf(stderr, "batch: no memory\n");
        exit(2);
    }
    return p;
}

static void drop(struct reading *r)
{
    for (int k = 0; k < KINDS; k++)
        free(r->words[k]);
}

/* Tables of these lengths are not set before the call, so that valgrind sees a word that it should have written. */
static struct reading read_text(struct text t, size_t level, const size_t *len)
{
    struct reading r;
    for (int k = 0; k < KINDS; k++) {
        r.len[k] = len[k];
        r.words[k] = memory(len[k] * sizeof(uint32_t));
    }
    r.code = vireopatch_read(t.bytes, t.len, t.scope, t.swallow, level, r.words[ROWS], r.len[ROWS], r.words[ERRORS], r.len[ERRORS],
                             r.words[REQUESTS], r.len[REQUESTS], &r.count[ROWS], &r.count[ERRORS], &r.count[REQUESTS], &r.scope, &r.swallow,
                             &r.given);
    return r;
}

static int zero_from(const struct reading *r, int k, size_t from)
{
    for (size_t i = from; i < r->len[k]; i++)
        if (r->words[k][i] != 0)
            return 0;
    return 1;
}

/* Nothing behind the last record. */
static void check_rest(const struct reading *r)
{
    for (int k = 0; k < KINDS; k++)
        check(zero_from(r, k, r->count[k] * width[k]), "zeros behind the last record");
}

static void print_listing(const struct reading *r)
{
    static const char *const heading[KINDS] = {"kind size tlow low high detail line|", "error low high|", "request low high|"};
    for (int k = 0; k < KINDS; k++) {
        fputs(heading[k], stdout);
        for (size_t i = 0; i < r->count[k] * width[k]; i++)
            printf("%lu%c", (unsigned long)r->words[k][i], i % width[k] == width[k] - 1 ? '|' : ' ');
    }
    printf("scope swallow|%zu %d|", r->scope, r->swallow);
}

static struct reading with_enough(struct text t)
{
    size_t n = t.len <= VIREOPATCH_MAX_TEXT ? t.len : 0;
    size_t len[KINDS] = {VIREOPATCH_ROWS_ENOUGH(n), VIREOPATCH_ERRORS_ENOUGH(n), VIREOPATCH_REQUESTS_ENOUGH(n)};
    return read_text(t, VIREOPATCH_MAX_LEVEL, len);
}

static void listing(struct text t)
{
    struct reading r = with_enough(t);
    if (r.code != VIREOPATCH_ANSWERED) {
        printf("! %lu %zu", (unsigned long)r.code, r.given);
    } else {
        print_listing(&r);
        check_rest(&r);
    }
    drop(&r);
}

/* A refusal: its number, what it gives, no counts, the starting state, tables of zeros. */
static void check_refused(struct text t, size_t level, const size_t *len, uint32_t code, size_t given)
{
    struct reading r = read_text(t, level, len);
    check(r.code == code, "the refusal");
    check(r.given == given, "what the refusal gives");
    check(r.scope == t.scope && r.swallow == t.swallow, "the end state of a refusal");
    for (int k = 0; k < KINDS; k++) {
        check(r.count[k] == 0, "the counts of a refusal");
        check(zero_from(&r, k, 0), "the tables of a refusal");
    }
    drop(&r);
}

/* The same answer as in r, in tables of these lengths. */
static void check_same(struct text t, size_t level, const size_t *len, const struct reading *r)
{
    struct reading s = read_text(t, level, len);
    check(s.code == VIREOPATCH_ANSWERED && s.given == 0, "an answer where there is room");
    check(s.scope == r->scope && s.swallow == r->swallow, "the end state where there is room");
    for (int k = 0; k < KINDS; k++) {
        check(s.count[k] == r->count[k], "the counts where there is room");
        check(!memcmp(s.words[k], r->words[k], r->count[k] * width[k] * sizeof(uint32_t)), "the records where there is room");
    }
    check_rest(&s);
    drop(&s);
}

/* The smallest level limit that is answered; the one below it is refused. */
static size_t check_level(struct text t, const size_t *len, const struct reading *r)
{
    size_t level = 0;
    for (;;) {
        struct reading s = read_text(t, level, len);
        uint32_t code = s.code;
        drop(&s);
        if (code != VIREOPATCH_TOO_DEEP)
            break;
        check_refused(t, level, len, VIREOPATCH_TOO_DEEP, level);
        level++;
    }
    check_same(t, level, len, r);
    return level;
}

/*
 * Rows, errors, requests and level of a text. Each is the least that is answered: just enough is answered as more is, and one less is refused,
 * with the need. The words of just enough are one short of a further record, so that room is seen to be rounded down.
 */
static void needs(struct text t)
{
    struct reading r = with_enough(t);
    size_t len[KINDS];
    if (r.code != VIREOPATCH_ANSWERED) {
        printf("! %lu %zu", (unsigned long)r.code, r.given);
        drop(&r);
        return;
    }
    for (int k = 0; k < KINDS; k++)
        len[k] = (r.count[k] + 1) * width[k] - 1;
    size_t level = check_level(t, len, &r);
    for (int k = 0; k < KINDS; k++) {
        size_t less[KINDS] = {len[ROWS], len[ERRORS], len[REQUESTS]};
        if (r.count[k] == 0)
            continue;
        less[k] -= width[k];
        check_refused(t, level, less, VIREOPATCH_NO_ROOM_FOR_ROWS + (uint32_t)k, r.count[k]);
    }
    printf("%zu %zu %zu %zu", r.count[ROWS], r.count[ERRORS], r.count[REQUESTS], level);
    drop(&r);
}

/* The top rows, which walk finds from the last to the first, and zeros behind them. */
static void check_roots(const struct reading *r, const size_t *roots, size_t top, size_t len)
{
    size_t count = r->count[ROWS], root, given;
    for (size_t i = top; i < len; i++)
        check(roots[i] == 0, "zeros behind the last top row");
    while (top-- > 0) {
        check(vireopatch_walk(r->words[ROWS], r->len[ROWS], count, &root, &count, &given) == VIREOPATCH_ANSWERED, "a subtree for each top row");
        check(roots[top] == root, "the top rows");
    }
    check(count == 0, "all top rows");
}

/* The words of a text, in a table of so many roots, which is not set before the call. Gives how many top rows there are if they have no room. */
static size_t words_in(struct text t, const struct reading *r, size_t top, size_t len, uint32_t *trivia, uint32_t *length)
{
    size_t given, *roots = memory(len * sizeof *roots);
    uint32_t code = vireopatch_text_words(t.bytes, t.len, r->words[ROWS], r->len[ROWS], r->count[ROWS], roots, len, trivia, length, &given);
    if (len < top) {
        check(code == VIREOPATCH_NO_ROOM_FOR_ROWS && *trivia == 0 && *length == 0, "the refusal of too few roots");
        for (size_t i = 0; i < len; i++)
            check(roots[i] == 0, "the roots of a refusal");
    } else {
        check(code == VIREOPATCH_ANSWERED && given == 0, "an answer where there is room for roots");
        check_roots(r, roots, top, len);
    }
    free(roots);
    return given;
}

/* Trivia bytes and length of a text. Just enough roots are answered as more are, and less is refused, with the need, which is never 0. */
static void text_words(struct text t)
{
    struct reading r = with_enough(t);
    if (r.code != VIREOPATCH_ANSWERED) {
        printf("! %lu %zu", (unsigned long)r.code, r.given);
    } else {
        uint32_t word[2], more[2];
        size_t top = words_in(t, &r, 1, 0, &word[0], &word[1]);
        check(words_in(t, &r, top, top - 1, &word[0], &word[1]) == top, "what the refusal of too few roots gives");
        words_in(t, &r, top, top + 2, &more[0], &more[1]);
        words_in(t, &r, top, top, &word[0], &word[1]);
        check(word[0] == more[0] && word[1] == more[1], "the words where there is room");
        printf("%lu %lu", (unsigned long)word[VIREOPATCH_TEXT_TRIVIA], (unsigned long)word[VIREOPATCH_TEXT_LENGTH]);
    }
    drop(&r);
}

static int digit(char c)
{
    return c >= '0' && c <= '9' ? c - '0' : c >= 'a' && c <= 'f' ? c - 'a' + 10 : -1;
}

/* One case; the line has no LF. */
static int run(const char *line, void (*print)(struct text))
{
    const char *hex = strchr(line, '\t');
    struct text t = {NULL, 0, 0, false};
    if (hex) {
        char *end;
        t.scope = strtoul(line, &end, 10);
        t.swallow = end[0] == ' ' && end[1] == '1';
    }
    hex = hex ? hex + 1 : line;
    t.len = strlen(hex) / 2;
    uint8_t *bytes = memory(t.len);
    for (size_t i = 0; i < t.len; i++) {
        int high = digit(hex[2 * i]), low = digit(hex[2 * i + 1]);
        if (high < 0 || low < 0) {
            free(bytes);
            return 0;
        }
        bytes[i] = (uint8_t)(high * 16 + low);
    }
    t.bytes = bytes;
    printf("%s\t", line);
    print(t);
    printf("\n");
    free(bytes);
    return 1;
}

int main(int argc, char **argv)
{
    const char *mode = argc > 1 ? argv[1] : "";
    void (*print)(struct text) = !strcmp(mode, "--room") ? needs : !strcmp(mode, "--words") ? text_words : listing;
    size_t most = 4 * (size_t)VIREOPATCH_MAX_TEXT;
    char *line = memory(most);
    while (fgets(line, (int)most, stdin)) {
        line[strcspn(line, "\r\n")] = 0;
        if (!run(line, print)) {
            fprintf(stderr, "batch: no case: %s\n", line);
            failed = 1;
        }
    }
    free(line);
    return failed;
}
