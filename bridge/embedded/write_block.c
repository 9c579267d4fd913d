/* Compiles a grammar while a program is built: write_block NAME < GRAMMAR > HEADER
 *
 * HEADER has the block of the grammar as an array NAME, which `pest_meta_run` reads in place. The status is 1 where the
 * grammar has errors, which pest-lint tells, 2 where it cannot be run, and 3 where the input or the memory fails.
 */
#include <pest_meta.h>

#include <stdio.h>

enum { MOST_BYTES = 1 << 20 };

static uint8_t grammar[MOST_BYTES];

int main(int count, char **words)
{
    size_t length = fread(grammar, 1, sizeof grammar, stdin);
    pest_meta_bytes block = {PEST_META_EMPTY, 0};

    if (count != 2 || ferror(stdin) || !feof(stdin)) {
        fprintf(stderr, "usage: write_block NAME < GRAMMAR, of less than %d bytes\n", MOST_BYTES);
        return 3;
    }
    switch (pest_meta_compile(grammar, length, &block)) {
    case PEST_META_ANSWERED:
        break;
    case PEST_META_REFUSED:
        fprintf(stderr, "%s: the grammar has errors\n", words[1]);
        return 1;
    case PEST_META_UNFIT:
        fprintf(stderr, "%s: the grammar cannot be run\n", words[1]);
        return 2;
    default:
        fprintf(stderr, "%s: no text, or no memory\n", words[1]);
        return 3;
    }
    printf("static const unsigned char %s[%zu] = {", words[1], block.count);
    for (size_t at = 0; at < block.count; at++)
        printf("%s%u,", at % 20 ? "" : "\n    ", (unsigned)block.at[at]);
    printf("\n};\n");
    return fflush(stdout) ? 3 : 0;
}
