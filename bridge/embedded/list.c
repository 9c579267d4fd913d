/* Reads lists of numbers by a grammar that was compiled while this program was built:
 *
 *   export PKG_CONFIG_PATH=bridge/lib/pkgconfig
 *   cc write_block.c $(pkg-config --cflags --libs pest_meta_c) -o write_block
 *   ./write_block list_block < list.pest > list_block.h
 *   cc -I. list.c $(pkg-config --cflags --libs pest_meta_c) -o list
 *   ./list "1,(23),4"
 *
 * It prints the tree of the text, or where the text fails and what is expected there.
 */
#include "list_block.h"
#include <pest_meta.h>

#include <stdio.h>
#include <stdlib.h>
#include <string.h>

/* The rules in the grammar's order, and the end of the input. */
enum row { LIST, ITEM, NUMBER, END };

static const char *const names[] = {"list", "item", "number", "EOI"};

/* Prints each token below the one that it is in. `ends` has room for one index a token: those behind which the tokens that
 * are open end. */
static void print_tokens(const char *text, const pest_meta_node *nodes, size_t count, size_t *ends)
{
    size_t depth = 0;

    for (size_t at = 0; at < count; at++) {
        const pest_meta_node *node = &nodes[at];

        while (depth && ends[depth - 1] <= at)
            depth--;
        printf("%*s%s: %.*s\n", (int)(2 * depth), "", names[node->row], (int)(node->end - node->start),
               text + node->start);
        ends[depth++] = node->after;
    }
}

/* The sum of the numbers of a list: what a program does with a tree. */
static unsigned long sum_of(const char *text, const pest_meta_node *nodes, size_t count)
{
    unsigned long sum = 0;

    for (size_t at = 0; at < count; at++)
        if (nodes[at].row == NUMBER)
            sum += strtoul(text + nodes[at].start, NULL, 10);
    return sum;
}

static int tell_failure(const char *text, size_t place)
{
    pest_meta_row_list rows = {PEST_META_EMPTY, 0};
    uint8_t status = pest_meta_expected(list_block, sizeof list_block, LIST, (const uint8_t *)text, strlen(text), 0, place,
                                        UINT64_MAX, &rows);

    printf("no list, at byte %zu", place);
    for (size_t at = 0; status == PEST_META_ANSWERED && at < rows.count; at++)
        printf("%s%s", at ? ", " : ": expected ", names[rows.at[at]]);
    printf("\n");
    if (rows.count)
        free(rows.at);
    return 1;
}

int main(int count, char **words)
{
    const char *text = count == 2 ? words[1] : "";
    pest_meta_node_list nodes = {PEST_META_EMPTY, 0};
    size_t *ends, end = 0;
    uint8_t status = pest_meta_run(list_block, sizeof list_block, LIST, (const uint8_t *)text, strlen(text), 0, UINT64_MAX,
                                   &nodes, &end);

    if (status == PEST_META_REFUSED)
        return tell_failure(text, end);
    if (status != PEST_META_ANSWERED) {
        fprintf(stderr, "status %d\n", status);
        return 2;
    }
    ends = malloc((nodes.count + 1) * sizeof *ends);
    if (ends)
        print_tokens(text, nodes.at, nodes.count, ends);
    free(ends);
    printf("sum: %lu\n", sum_of(text, nodes.at, nodes.count));
    if (nodes.count)
        free(nodes.at);
    return 0;
}
