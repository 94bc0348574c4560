/* listing [FILE]: prints the reading of a file or of standard input. Status: 0 read, 1 refused, 2 no text or no memory. */
#include "example.h"

/* So many records of this width, a line each. */
static void print_records(const uint32_t *words, size_t count, size_t width)
{
    for (size_t i = 0; i < count * width; i++)
        printf("%lu%c", (unsigned long)words[i], i % width == width - 1 ? '\n' : ' ');
}

static int print_listing(struct text text, const struct reading *r)
{
    (void)text;
    printf("kind size tlow low high detail line\n");
    print_records(r->rows, r->row_count, VIREOPATCH_ROW_WORDS);
    printf("error low high\n");
    print_records(r->errors, r->error_count, VIREOPATCH_ERROR_WORDS);
    printf("request low high\n");
    print_records(r->requests, r->request_count, VIREOPATCH_REQUEST_WORDS);
    printf("scope swallow\n%zu %d\n", r->end_scope, r->end_swallow);
    return 0;
}

int main(int argc, char **argv)
{
    return run(argc > 1 ? argv[1] : NULL, "listing", print_listing);
}
