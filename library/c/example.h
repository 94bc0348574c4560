/* What the examples share: a text that they are called with, and its reading as a first text, in tables that are always enough. */
#ifndef EXAMPLE_H
#define EXAMPLE_H

#include "vireopatch.h"

#include <stdio.h>
#include <stdlib.h>

struct text {
    uint8_t *bytes;
    size_t len;
};

struct reading {
    uint32_t *rows, *errors, *requests;
    size_t rows_len, row_count, error_count, request_count, end_scope;
    bool end_swallow;
};

/* The whole stream. An empty one has a byte too, since no pointer may be null. */
static int slurp(FILE *from, struct text *out)
{
    size_t room = 4096, n;
    out->len = 0;
    out->bytes = malloc(room);
    while (out->bytes && (n = fread(out->bytes + out->len, 1, room - out->len, from)) > 0) {
        out->len += n;
        if (out->len == room) {
            uint8_t *more = realloc(out->bytes, room *= 2);
            if (!more)
                free(out->bytes);
            out->bytes = more;
        }
    }
    return out->bytes && !ferror(from);
}

/* Prints a refusal, whose status is 1. */
static int refused(uint32_t code, size_t given)
{
    printf("refusal number\n%lu %zu\n", (unsigned long)code, given);
    return 1;
}

/* Reads the text, and has the reading printed, or prints the refusal. Status: that of `print`, 1 refused, 2 no memory. */
static int read_and_print(struct text text, int (*print)(struct text, const struct reading *))
{
    /* A longer text is refused before anything is written. */
    size_t n = text.len <= VIREOPATCH_MAX_TEXT ? text.len : 0;
    size_t errors_len = VIREOPATCH_ERRORS_ENOUGH(n), requests_len = VIREOPATCH_REQUESTS_ENOUGH(n + 1), given;
    struct reading r = {.rows_len = VIREOPATCH_ROWS_ENOUGH(n)};
    int status;
    r.rows = malloc((r.rows_len + errors_len + requests_len) * sizeof *r.rows);
    if (!r.rows)
        return 2;
    r.errors = r.rows + r.rows_len;
    r.requests = r.errors + errors_len;

    uint32_t code = vireopatch_read(text.bytes, text.len, 0, false, VIREOPATCH_MAX_LEVEL, r.rows, r.rows_len, r.errors, errors_len,
                                    r.requests, requests_len, &r.row_count, &r.error_count, &r.request_count, &r.end_scope,
                                    &r.end_swallow, &given);
    status = code == VIREOPATCH_ANSWERED ? print(text, &r) : refused(code, given);
    free(r.rows);
    return status;
}

/* The same for a file that the example is called with, or standard input if it is null. Status 2 if there is no text. Says which text is refused. */
static int run(const char *file, const char *name, int (*print)(struct text, const struct reading *))
{
    struct text text;
    const char *place = file ? file : "standard input";
    FILE *from = file ? fopen(file, "rb") : stdin;
    int status;
    if (!from || !slurp(from, &text)) {
        fprintf(stderr, "%s: %s: no text\n", name, place);
        return 2;
    }
    status = read_and_print(text, print);
    if (status == 1)
        fprintf(stderr, "%s: %s: refused\n", name, place);
    free(text.bytes);
    if (from != stdin)
        fclose(from);
    return status;
}

#endif
