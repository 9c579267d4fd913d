/* Asks the library about grammars and texts, and writes all that it answers: conform CASES > ANSWERS
 *
 * CASES is a file of release/platforms/cases. Each answer is a line of the case, the text, the call, the status and a
 * count of bytes, and then these bytes. conform.mjs does the same by the WebAssembly module. With MACHINE defined, the
 * file has compiled grammars in the place of grammars, and the calls that run them alone are asked. */
#include <pest_meta.h>
#include <stdio.h>
#include <stdlib.h>
#include <string.h>
#ifdef _WIN32
#include <fcntl.h>
#include <io.h>
#endif

typedef struct {
    const uint8_t *at;
    size_t count;
} bytes;

static const uint8_t *next_case;
static unsigned case_number, text_number;

static uint32_t read_word(void)
{
    const uint8_t *at = next_case;
    next_case += 4;
    return (uint32_t)at[0] | (uint32_t)at[1] << 8 | (uint32_t)at[2] << 16 | (uint32_t)at[3] << 24;
}

static bytes read_bytes(void)
{
    uint32_t count = read_word();
    bytes found = {next_case, count};
    next_case += count;
    return found;
}

static void write_answer(const char *call, unsigned status, const void *at, size_t count)
{
    printf("%u %u %s %u %lu\n", case_number, text_number, call, status, (unsigned long)count);
    fwrite(at, 1, count, stdout);
    putchar('\n');
}

static void give_back(const void *at, size_t count)
{
    if (count)
        free((void *)at);
}

#ifndef MACHINE
/* A buffer that calls write into. */
static uint64_t *room;
static size_t room_len;

static void *with_room(size_t len)
{
    if (len > room_len) {
        free(room);
        room = malloc(len);
        room_len = len;
    }
    return room;
}

typedef uint8_t (*text_call)(const uint8_t *, size_t, uint8_t *, size_t, size_t *);

/* The answer stays in the room: its length. */
static size_t ask(const char *name, text_call call, bytes text)
{
    size_t needed = 0, len = 64;
    unsigned status;
    while ((status = call(text.at, text.count, with_room(len), len, &needed)) == PEST_META_NO_ROOM)
        len = needed;
    write_answer(name, status, room, status < 2 ? needed : 0);
    return status == 0 ? needed : 0;
}

static void ask_tokens(bytes text, const char *rule)
{
    size_t needed = 0, len = 64;
    unsigned status;
    const uint8_t *name = (const uint8_t *)rule;
    while ((status = pest_meta_tokens(text.at, text.count, name, strlen(rule), with_room(len), len, &needed)) == PEST_META_NO_ROOM)
        len = needed;
    write_answer("tokens", status, room, status < 2 ? needed : 0);
    len = 1;
    while ((status = pest_meta_token_numbers(text.at, text.count, name, strlen(rule), with_room(8 * len), len, &needed)) == PEST_META_NO_ROOM)
        len = needed;
    write_answer("token_numbers", status, room, status == 0 ? 8 * needed : 0);
}

typedef uint8_t (*handing_call)(const uint8_t *, size_t, pest_meta_bytes *);

static void ask_handed(const char *name, handing_call call, bytes text)
{
    pest_meta_bytes found = {PEST_META_EMPTY, 0};
    unsigned status = call(text.at, text.count, &found);
    write_answer(name, status, found.at, found.count);
    give_back(found.at, found.count);
}

/* Optimized rules in binary form, and in JSON, by the answers of other calls. */
static void ask_rules(bytes grammar)
{
    size_t count = ask("rules", pest_meta_rules, grammar);
    if (!count)
        return;
    bytes rules = {memcpy(malloc(count), room, count), count};
    size_t optimized = ask("optimize", pest_meta_optimize, rules);
    bytes json = {memcpy(malloc(optimized + 1), room, optimized), optimized};
    size_t prepared = ask("prepare", pest_meta_prepare, json);
    bytes binary = {memcpy(malloc(prepared + 1), room, prepared), prepared};
    ask_handed("compile_prepared", pest_meta_compile_prepared, binary);
    free((void *)rules.at);
    free((void *)json.at);
    free((void *)binary.at);
}

#endif

static void write_rows(const char *name, unsigned status, pest_meta_row_list rows)
{
    write_answer(name, status, rows.at, 4 * rows.count);
    give_back(rows.at, rows.count);
}

/* Writes the nodes of a rule on a text. */
static void run_until(bytes block, uint32_t row, bytes text, size_t from, uint64_t steps)
{
    pest_meta_node_list nodes = {PEST_META_EMPTY, 0};
    size_t end = 0;
    unsigned status = pest_meta_run(block.at, block.count, row, text.at, text.count, from, steps, &nodes, &end);
    write_answer("run_until", status, nodes.at, 16 * nodes.count);
    give_back(nodes.at, nodes.count);
}

/* Runs a rule on a text in so many steps, without a limit, and in few steps, and asks what is expected if it fails. */
static void run_text(bytes block, uint32_t row, bytes text, size_t from, uint64_t steps)
{
    pest_meta_node_list nodes = {PEST_META_EMPTY, 0};
    size_t end = 0;
    unsigned status = pest_meta_run(block.at, block.count, row, text.at, text.count, from, steps, &nodes, &end);
    write_answer("run", status, nodes.at, 16 * nodes.count);
    give_back(nodes.at, nodes.count);
    uint64_t told[1] = {end};
    write_answer("end", status, told, 8);

    /* Within the steps it has an answer, so it has one without a limit. */
    if (status <= 1)
        run_until(block, row, text, from, UINT64_MAX);
    run_until(block, row, text, from, 16);
    if (status != 1)
        return;

    pest_meta_row_list expected = {PEST_META_EMPTY, 0}, yes = {PEST_META_EMPTY, 0}, no = {PEST_META_EMPTY, 0};
    pest_meta_path_list paths = {PEST_META_EMPTY, 0};
    status = pest_meta_expected(block.at, block.count, row, text.at, text.count, from, end, steps, &expected);
    write_rows("expected", status, expected);
    status = pest_meta_paths(block.at, block.count, row, text.at, text.count, from, end, steps, &paths);
    write_answer("paths", status, paths.at, 24 * paths.count);
    give_back(paths.at, paths.count);
    size_t place = end;
    status = pest_meta_attempts(block.at, block.count, row, text.at, text.count, from, steps, &place, &yes, &no);
    told[0] = place;
    write_answer("place", status, told, 8);
    write_rows("positives", status, yes);
    write_rows("negatives", status, no);
}

/* Writes the names of the rules of a block. */
static void ask_names(bytes block)
{
    uint64_t told[1] = {pest_meta_rule_count(block.at, block.count)};
    write_answer("rule_count", 0, told, 8);
    uint64_t count = told[0] < 100 ? told[0] : 100;
    for (uint32_t rule = 0; rule <= count; rule++) {
        static uint8_t name[4096];
        size_t needed = 0;
        unsigned status = pest_meta_rule_name(block.at, block.count, rule, name, sizeof name, &needed);
        write_answer("rule_name", status, name, status ? 0 : needed);
    }
}

/* Asks about a block, changed and cut, and about the texts behind it in the file. */
static void ask_block(bytes whole)
{
    write_answer("check", pest_meta_check(whole.at, whole.count), "", 0);
    uint8_t *changed = memcpy(malloc(whole.count + 1), whole.at, whole.count);
    bytes other = {changed, whole.count}, part = {whole.at, whole.count / 2};
    if (whole.count)
        changed[whole.count * 2 / 3] ^= 1;
    write_answer("check", pest_meta_check(changed, whole.count), "", 0);
    ask_names(whole);
    ask_names(other);
    ask_names(part);
    for (uint32_t left = read_word(); left; left--) {
        text_number++;
        uint32_t row = read_word(), from = read_word();
        bytes text = read_bytes();
        run_text(whole, row, text, from, 200000);
        run_text(whole, row, text, from, 40);
        run_text(other, row, text, from, 2000);
        run_text(part, row, text, from, 2000);
    }
    free(changed);
}

#ifndef MACHINE
static void ask_grammar(bytes grammar)
{
    ask("diagnostics", pest_meta_diagnostics, grammar);
    ask("names", pest_meta_names, grammar);
    ask("rust_keyword", pest_meta_rust_keyword, grammar);
    ask("nodes", pest_meta_nodes, grammar);
    ask("parse_and_optimize", pest_meta_parse_and_optimize, grammar);
    ask("grammar", pest_meta_grammar, grammar);
    ask_tokens(grammar, "grammar_rules");
    ask_tokens(grammar, "no_such_rule");
    ask_rules(grammar);
    ask_handed("format", pest_meta_format, grammar);
    ask_handed("page", pest_meta_page, grammar);

    pest_meta_bytes block = {PEST_META_EMPTY, 0};
    unsigned status = pest_meta_compile(grammar.at, grammar.count, &block);
    write_answer("compile", status, block.at, block.count);
    ask_block((bytes){block.at, block.count});
    give_back(block.at, block.count);
}
#endif

int main(int argc, char **argv)
{
    FILE *file = argc == 2 ? fopen(argv[1], "rb") : NULL;
    if (!file)
        return 2;
#ifdef _WIN32
    _setmode(_fileno(stdout), _O_BINARY);
#endif
    fseek(file, 0, SEEK_END);
    size_t count = (size_t)ftell(file);
    rewind(file);
    uint8_t *cases = malloc(count);
    if (fread(cases, 1, count, file) != count)
        return 2;
#ifndef MACHINE
    size_t needed = 0;
    uint8_t version[100];
    unsigned status = pest_meta_version(version, sizeof version, &needed);
    write_answer("version", status, version, needed);
#endif
    for (next_case = cases; next_case < cases + count;) {
        case_number++;
        text_number = 0;
        bytes given = read_bytes();
#ifdef MACHINE
        /* A grammar without a block has an empty one, which lies at an address that is not null. */
        ask_block(given);
#else
        ask_grammar(given);
#endif
    }
    return fflush(stdout) ? 2 : 0;
}
