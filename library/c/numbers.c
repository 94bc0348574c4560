/*
 * numbers [FILE]: prints the numbers of a file or of standard input, a line for each top row, first to last: values, and refusals with their
 * places. Status: 0 read, 1 refused, 2 no text or no memory.
 */
#include "example.h"

#include <inttypes.h>

/* The rows of a number are its type, its digits and itself, one behind the other. The digits are not copied: they are a part of the text. */
static void print_number(struct text text, const uint32_t *number)
{
    const uint32_t *digits = number - VIREOPATCH_ROW_WORDS, *type = digits - VIREOPATCH_ROW_WORDS;
    size_t low = digits[VIREOPATCH_ROW_LOW], high = digits[VIREOPATCH_ROW_HIGH];
    uint64_t value;
    uint32_t code = vireopatch_value(type[VIREOPATCH_ROW_DETAIL], text.bytes + low, high - low, &value);
    if (code == VIREOPATCH_ANSWERED)
        printf(" %" PRIu64, value);
    else
        printf(" refused %" PRIu32 " at %zu..%zu", code, low, high);
}

/* The numbers of a subtree, which ends with its root. */
static void print_subtree(struct text text, const uint32_t *root)
{
    for (size_t back = root[VIREOPATCH_ROW_SIZE]; back-- > 0;) {
        const uint32_t *row = root - back * VIREOPATCH_ROW_WORDS;
        if (row[VIREOPATCH_ROW_KIND] == VIREOPATCH_KIND_NUMBER)
            print_number(text, row);
    }
}

/* The top rows are found from the last to the first. */
static int print_numbers(struct text text, const struct reading *r)
{
    size_t n = 0, count = r->row_count, given;
    size_t *roots = malloc(r->row_count * sizeof *roots);
    if (!roots)
        return 2;
    while (count > 0 && vireopatch_walk(r->rows, r->rows_len, count, &roots[n], &count, &given) == VIREOPATCH_ANSWERED)
        n++;
    for (size_t i = 1; i <= n; i++) {
        printf("row %zu:", i);
        print_subtree(text, r->rows + roots[n - i] * VIREOPATCH_ROW_WORDS);
        putchar('\n');
    }
    free(roots);
    return 0;
}

int main(int argc, char **argv)
{
    return run(argc > 1 ? argv[1] : NULL, "numbers", print_numbers);
}
