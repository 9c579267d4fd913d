/* Calls each function of the library once on a grammar, one with too little
 * room, and one that asks how much room is wanted. After bridge/build:
 *
 *   export PKG_CONFIG_PATH=bridge/lib/pkgconfig
 *   cc bridge/example.c $(pkg-config --cflags --libs pest_meta_c) -o example
 *
 * bridge/example.out has what it prints.
 */
#include <pest_meta.h>

#include <stdio.h>
#include <string.h>

static uint8_t out[65536];
static size_t numbers[64];

static void show(const char *call, uint8_t status, size_t needed)
{
    printf("%s: status %d, length %zu\n", call, status, needed);
    if (status <= PEST_META_REFUSED)
        printf("  %.*s\n", (int)needed, (const char *)out);
}

static void show_numbers(const char *call, uint8_t status, size_t needed)
{
    printf("%s: status %d, length %zu\n", call, status, needed);
    if (status <= PEST_META_REFUSED) {
        for (size_t i = 0; i < needed; i++)
            printf(" %zu", numbers[i]);
        printf("\n");
    }
}

/* Shows lines. */
static void show_lines(const char *call, uint8_t status, size_t needed)
{
    printf("%s: status %d, length %zu\n", call, status, needed);
    if (status <= PEST_META_REFUSED)
        printf("%.*s", (int)needed, (const char *)out);
}

/* Shows bytes: those of texts as they are, and a full stop for any other. */
static void show_bytes(const char *call, uint8_t status, size_t needed)
{
    printf("%s: status %d, length %zu\n  ", call, status, needed);
    for (size_t i = 0; i < needed; i++)
        putchar(out[i] > ' ' && out[i] < 127 ? out[i] : '.');
    printf("\n");
}

/* A grammar that is compiled once, and run: what a program keeps in a file or as a constant is `block`. */
static void run_block(const uint8_t *grammar, size_t grammar_len)
{
    const char *texts[] = {"1,23", "1,x"};
    pest_meta_bytes block = {PEST_META_EMPTY, 0};
    uint8_t status = pest_meta_compile(grammar, grammar_len, &block);

    printf("compile: status %d, begins with %.4s\n", status, (const char *)block.at);
    for (uint32_t rule = 0; rule <= pest_meta_rule_count(block.at, block.count); rule++) {
        size_t needed = 0;
        uint8_t told = pest_meta_rule_name(block.at, block.count, rule, out, sizeof out, &needed);
        show("rule_name", told, needed);
    }
    for (int i = 0; i < 2; i++) {
        const uint8_t *text = (const uint8_t *)texts[i];
        size_t length = strlen(texts[i]), end = 0;
        pest_meta_node_list nodes = {PEST_META_EMPTY, 0};
        pest_meta_row_list rows = {PEST_META_EMPTY, 0}, others = {PEST_META_EMPTY, 0};
        pest_meta_path_list calls = {PEST_META_EMPTY, 0};
        status = pest_meta_run(block.at, block.count, 0, text, length, 0, PEST_META_NO_LIMIT, &nodes, &end);
        printf("run: status %d, end %zu\n", status, end);
        for (size_t at = 0; at < nodes.count; at++) {
            const pest_meta_node *node = &nodes.at[at];
            printf("  rule %u from %u to %u, next %u\n", (unsigned)node->row, (unsigned)node->start,
                   (unsigned)node->end, (unsigned)node->after);
        }
        if (nodes.count)
            pest_meta_free(nodes.at);
        if (status != PEST_META_REFUSED)
            continue;
        status = pest_meta_expected(block.at, block.count, 0, text, length, 0, end, PEST_META_NO_LIMIT, &rows);
        printf("expected: status %d", status);
        for (size_t at = 0; at < rows.count; at++)
            printf(", rule %u", (unsigned)rows.at[at]);
        printf("\n");
        if (rows.count)
            pest_meta_free(rows.at);
        status = pest_meta_paths(block.at, block.count, 0, text, length, 0, end, PEST_META_NO_LIMIT, &calls);
        printf("paths: status %d\n", status);
        for (size_t at = 0; at < calls.count; at++) {
            const pest_meta_path_call *call = &calls.at[at];
            printf("  path %zu: rule %zu, from %zu\n", call->path, call->row, call->start);
        }
        if (calls.count)
            pest_meta_free(calls.at);
        rows.count = 0;
        status = pest_meta_attempts(block.at, block.count, 0, text, length, 0, PEST_META_NO_LIMIT, &end, &rows, &others);
        printf("attempts: status %d, place %zu, %zu expected, %zu not\n", status, end, rows.count, others.count);
        if (rows.count)
            pest_meta_free(rows.at);
        if (others.count)
            pest_meta_free(others.at);
    }
    if (block.count)
        pest_meta_free(block.at);
}

/* What is no grammar, and bytes that are no block, are told by a status. */
static void run_no_block(const uint8_t *wrong, const uint8_t *prepared, size_t prepared_len)
{
    pest_meta_bytes block = {PEST_META_EMPTY, 0};
    pest_meta_node_list nodes = {PEST_META_EMPTY, 0};
    size_t end = 0;
    uint8_t status = pest_meta_compile(wrong, strlen((const char *)wrong), &block);

    printf("compile of no grammar: status %d\n", status);
    status = pest_meta_compile_prepared(prepared, prepared_len, &block);
    printf("compile_prepared: status %d, begins with %.4s\n", status, (const char *)block.at);
    status = pest_meta_check(block.at, block.count);
    printf("check: status %d\n", status);
    memcpy(out, block.at, block.count);
    out[block.count - 1] ^= 1;
    status = pest_meta_check(out, block.count);
    printf("check of a changed block: status %d\n", status);
    status = pest_meta_run(block.at, block.count, 7, wrong, 0, 0, PEST_META_NO_LIMIT, &nodes, &end);
    printf("run by an unknown rule: status %d\n", status);
    status = pest_meta_run(block.at, block.count, 0, (const uint8_t *)"xx", 2, 0, 0, &nodes, &end);
    printf("run in no step: status %d\n", status);
    status = pest_meta_run(block.at, block.count, 0, (const uint8_t *)"\xff", 1, 0, PEST_META_NO_LIMIT, &nodes, &end);
    printf("run of no text: status %d\n", status);
    status = pest_meta_run(block.at + 1, block.count - 1, 0, wrong, 0, 0, PEST_META_NO_LIMIT, &nodes, &end);
    printf("run of no block: status %d\n", status);
    pest_meta_free(block.at);
}

int main(void)
{
    const uint8_t *text = (const uint8_t *)"a = @{ \"x\"? ~ b | 'a'..'z' } b = { ASCII_DIGIT{2} ~ a* }";
    const uint8_t *wrong = (const uint8_t *)"a = { b ~ \"x }";
    const uint8_t *loop = (const uint8_t *)"a = { (\"\")* }";
    const uint8_t *bytes = (const uint8_t *)"\xff";
    const uint8_t *list = (const uint8_t *)"[{\"name\":\"a\",\"type\":\"normal\",\"expr\":[[\"rep_once\"],[\"str\",\"x\"]]}]";
    const uint8_t *numbered = (const uint8_t *)"list = { item ~ (\",\" ~ item)* ~ EOI } item = { ASCII_DIGIT+ }";
    const uint8_t *warned = (const uint8_t *)"a = { 'z'..'a' }";
    const uint8_t *rules = (const uint8_t *)"[{\"name\":\"a\",\"type\":\"normal\",\"expr\":[[\"rep_exact\",2],[\"str\",\"x\"]]}]";
    size_t length = strlen((const char *)text);
    size_t needed = 0;
    uint8_t status;

    status = pest_meta_version(out, sizeof out, &needed);
    show("version", status, needed);
    status = pest_meta_tokens((const uint8_t *)"\"x\"", 3, (const uint8_t *)"string", 6, out, sizeof out, &needed);
    show("tokens", status, needed);
    status = pest_meta_tokens(text, length, (const uint8_t *)"strong", 6, out, sizeof out, &needed);
    show("tokens of an unknown rule", status, needed);
    status = pest_meta_token_numbers((const uint8_t *)"\"x\"", 3, (const uint8_t *)"string", 6, numbers, 64, &needed);
    show_numbers("token_numbers", status, needed);
    status = pest_meta_token_numbers((const uint8_t *)"x", 1, (const uint8_t *)"string", 6, numbers, 64, &needed);
    show_numbers("token_numbers of a text that does not match", status, needed);
    status = pest_meta_names(text, length, out, sizeof out, &needed);
    show("names", status, needed);
    status = pest_meta_rust_keyword((const uint8_t *)"while", 5, out, sizeof out, &needed);
    show("rust_keyword", status, needed);
    status = pest_meta_rules(text, length, out, sizeof out, &needed);
    show("rules", status, needed);
    status = pest_meta_rules(loop, strlen((const char *)loop), out, sizeof out, &needed);
    show("rules of a loop", status, needed);
    status = pest_meta_nodes(text, length, out, sizeof out, &needed);
    show("nodes", status, needed);
    status = pest_meta_optimize(rules, strlen((const char *)rules), out, sizeof out, &needed);
    show("optimize", status, needed);
    status = pest_meta_optimize(text, length, out, sizeof out, &needed);
    show("optimize of no JSON", status, needed);
    status = pest_meta_parse_and_optimize(text, length, out, sizeof out, &needed);
    show("parse_and_optimize", status, needed);
    status = pest_meta_parse_and_optimize(wrong, strlen((const char *)wrong), out, sizeof out, &needed);
    show("parse_and_optimize of no grammar", status, needed);
    status = pest_meta_parse_and_optimize(bytes, 1, out, sizeof out, &needed);
    show("parse_and_optimize of no text", status, needed);
    status = pest_meta_grammar(text, length, out, sizeof out, &needed);
    show_bytes("grammar", status, needed);
    status = pest_meta_grammar(wrong, strlen((const char *)wrong), out, sizeof out, &needed);
    show("grammar of no grammar", status, needed);
    memset(out, '.', sizeof out);
    status = pest_meta_parse_and_optimize(text, length, out, 8, &needed);
    show("parse_and_optimize with too little room", status, needed);
    printf("  %.10s\n", (const char *)out);
    status = pest_meta_version(NULL, 0, &needed);
    show("version without room", status, needed);
    status = pest_meta_names(NULL, 0, out, sizeof out, &needed);
    show("names of an empty text", status, needed);
    status = pest_meta_prepare(rules, strlen((const char *)rules), out, sizeof out, &needed);
    show("prepare of rules that are not optimized", status, needed);
    run_block(numbered, strlen((const char *)numbered));
    status = pest_meta_prepare(list, strlen((const char *)list), out, sizeof out, &needed);
    printf("prepare: status %d, length %zu\n", status, needed);
    run_no_block(wrong, out, needed);
    status = pest_meta_diagnostics(warned, strlen((const char *)warned), out, sizeof out, &needed);
    show_lines("diagnostics", status, needed);
    status = pest_meta_diagnostics(wrong, strlen((const char *)wrong), out, sizeof out, &needed);
    show_lines("diagnostics of no grammar", status, needed);
    status = pest_meta_diagnostics(wrong, strlen((const char *)wrong), NULL, 0, &needed);
    show_lines("diagnostics without room", status, needed);
    status = pest_meta_diagnostics(NULL, 0, out, sizeof out, &needed);
    show_lines("diagnostics of an empty text", status, needed);
    status = pest_meta_diagnostics(bytes, 1, out, sizeof out, &needed);
    show_lines("diagnostics of no text", status, needed);
    return 0;
}
