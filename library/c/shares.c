/*
 * shares FILE..: prints how much of some files is trivia, and then the files with the largest shares, up to three: index, name, trivia bytes and
 * length. Status: 0 read, 1 refused, 2 no text or no memory.
 */
#include "example.h"

#include <inttypes.h>

/* The list of texts, so far. */
static uint32_t *words;
static size_t words_len;

/* One text more. The top rows are some of the rows, so there is room for them. */
static int add_text(struct text text, const struct reading *r)
{
    uint32_t *word = words + words_len;
    size_t given, *roots = malloc(r->row_count * sizeof *roots);
    if (!roots)
        return 2;
    uint32_t code = vireopatch_text_words(text.bytes, text.len, r->rows, r->rows_len, r->row_count, roots, r->row_count,
                                          &word[VIREOPATCH_TEXT_TRIVIA], &word[VIREOPATCH_TEXT_LENGTH], &given);
    free(roots);
    words_len += VIREOPATCH_TEXT_WORDS;
    return code == VIREOPATCH_ANSWERED ? 0 : refused(code, given);
}

static int print_shares(char **files)
{
    uint64_t numerator, denominator;
    size_t count, largest[3], given;
    uint32_t code = vireopatch_shares(words, words_len, &numerator, &denominator, &count, &largest[0], &largest[1], &largest[2], &given);
    if (code != VIREOPATCH_ANSWERED)
        return refused(code, given);
    printf("%" PRIu64 " / %" PRIu64 "\n", numerator, denominator);
    for (size_t i = 0; i < count; i++) {
        const uint32_t *word = words + largest[i] * VIREOPATCH_TEXT_WORDS;
        printf("%zu %s %" PRIu32 " %" PRIu32 "\n", largest[i], files[largest[i]], word[VIREOPATCH_TEXT_TRIVIA], word[VIREOPATCH_TEXT_LENGTH]);
    }
    return 0;
}

int main(int argc, char **argv)
{
    int status = 0;
    words = malloc((size_t)argc * VIREOPATCH_TEXT_WORDS * sizeof *words);
    if (!words)
        return 2;
    for (int i = 1; i < argc && status == 0; i++)
        status = run(argv[i], "shares", add_text);
    if (status == 0)
        status = print_shares(argv + 1);
    free(words);
    return status;
}
