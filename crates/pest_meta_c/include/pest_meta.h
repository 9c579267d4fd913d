/*
 * Grammars of pest: their rules, errors, warnings and optimized rules, and
 * matches by their rules. A name in quotes, such as "Rules", is a section of
 * docs/FORMAT.md, which describes the JSON and the numbers.
 *
 * A call reads texts. Each text is a pointer and a length in bytes. Most calls
 * write into the buffer `out`. It has `out_len` bytes, or `out_len` numbers if the
 * comment of the call says so. These calls return a status:
 *
 *   0  the answer is written, and `*needed` is its length
 *   1  the text is refused: its errors are written, and `*needed` is their
 *      length
 *   2  an allocation failed, or a text has 4 GiB or more. Nothing is written,
 *      and `*needed` is 0
 *   3  a text is not UTF-8. Nothing is written, and `*needed` is 0
 *   4  the buffer is too small. Nothing is written, and `*needed` is the length
 *      that is needed: call again with a buffer of that length
 *
 * The bytes of `out` after the written ones are not changed. A pointer to 0
 * bytes may be null, so NULL and 0 for `out` ask for the needed length. No
 * other pointer may be null, and neither may `needed`. `out` and `needed` must
 * not overlap with any other argument. Nobody else may change an argument while
 * the call runs. Memory is taken by malloc and realloc, and freed before the
 * call returns. The calls keep no state, so several threads may make calls at
 * the same time. Do not make calls from a signal handler.
 */
#ifndef PEST_META_H
#define PEST_META_H

#include <stddef.h>
#include <stdint.h>

#ifdef __cplusplus
extern "C" {
#endif

#define PEST_META_ANSWERED 0
#define PEST_META_REFUSED 1
#define PEST_META_MEMORY 2
#define PEST_META_NO_TEXT 3
#define PEST_META_NO_ROOM 4
#define PEST_META_NO_RULES 5
#define PEST_META_UNFIT 6
#define PEST_META_NO_RULE 7
#define PEST_META_OUT_OF_STEPS 8
#define PEST_META_EMPTY_STACK 9
#define PEST_META_LONG_TEXT 10
#define PEST_META_OTHER_VERSION 11
#define PEST_META_CHANGED 12

/* Writes the tokens of `text` by the rule named `rule` of pest's grammar of grammars,
 * from the start of `text` on ("Tokens"). With status 1, a list of one error is
 * written if `rule` does not match. If that grammar has no rule named `rule`, an
 * object with the member `message` is written, also with status 1. */
uint8_t pest_meta_tokens(const uint8_t *text, size_t text_len, const uint8_t *rule, size_t rule_len,
                         uint8_t *out, size_t out_len, size_t *needed);

/* Writes the tokens of pest_meta_tokens as numbers: a pest_meta_entry for each start
 * and each end of a token ("Tokens as numbers"). `out` is a buffer of `out_len`
 * numbers, and `*needed` counts numbers. If the text is refused, nothing is written,
 * and `*needed` is 0. To get the error, call pest_meta_tokens. */
uint8_t pest_meta_token_numbers(const uint8_t *text, size_t text_len, const uint8_t *rule,
                                size_t rule_len, size_t *out, size_t out_len, size_t *needed);

/* Writes the names of the builtins that a grammar uses ("Names"). If the grammar
 * is refused, its errors are written: of syntax, or else of names. */
uint8_t pest_meta_names(const uint8_t *text, size_t text_len, uint8_t *out, size_t out_len,
                        size_t *needed);

/* If `name` is a keyword of Rust, writes a list of one error, with the span of the
 * name ("Errors"). If `name` is no keyword, writes an empty list. The name may be
 * any text, and the status is never 1. Rules may have such names, so no other call
 * reports them. */
uint8_t pest_meta_rust_keyword(const uint8_t *name, size_t name_len, uint8_t *out, size_t out_len,
                               size_t *needed);

/* Writes the rules of a grammar ("Rules"). Names are not checked. If the grammar is
 * refused, its errors are written: of syntax, or else the first flaw, or else all
 * errors of the rules. A flaw is a number out of range, a greatest count of 0, or
 * an escape that names no character. */
uint8_t pest_meta_rules(const uint8_t *text, size_t text_len, uint8_t *out, size_t out_len,
                        size_t *needed);

/* Writes the rules of a grammar with the spans of their names and nodes ("Rules
 * with spans"). Names and rules are not checked. If the grammar is refused, its
 * errors are written: of syntax, or else the first flaw. */
uint8_t pest_meta_nodes(const uint8_t *text, size_t text_len, uint8_t *out, size_t out_len,
                        size_t *needed);

/* Reads rules in JSON, and writes the optimized rules in JSON ("Rules"). If the JSON
 * is no list of rules, the status is 1, and an object is written. It has `message`, and
 * may have members that say where the problem is ("Reading"). */
uint8_t pest_meta_optimize(const uint8_t *rules, size_t rules_len, uint8_t *out, size_t out_len,
                           size_t *needed);

/* Writes the builtins that a grammar uses, and its optimized rules ("An answer for
 * a whole text"). If the grammar is refused, its errors are written: of syntax,
 * or else of names, or else the first flaw, or else all errors of the rules. */
uint8_t pest_meta_parse_and_optimize(const uint8_t *text, size_t text_len, uint8_t *out,
                                     size_t out_len, size_t *needed);

/* Writes the builtins that a grammar uses, its rules and its optimized rules
 * ("Binary form"). If the grammar is refused, the errors of
 * pest_meta_parse_and_optimize are written, in JSON. */
uint8_t pest_meta_grammar(const uint8_t *text, size_t text_len, uint8_t *out, size_t out_len,
                          size_t *needed);

/* Reads optimized rules in JSON, and writes them in binary form ("Binary form").
 * pest_meta_compile_prepared reads this form. If the JSON is refused, the status and
 * the object are those of pest_meta_optimize. */
uint8_t pest_meta_prepare(const uint8_t *rules, size_t rules_len, uint8_t *out, size_t out_len,
                          size_t *needed);

/* The start or the end of a token, as pest_meta_token_numbers writes it. */
typedef struct pest_meta_entry {
    size_t rule;    /* at a start, the number of the rule, from 1; at an end, 0 */
    size_t pos;     /* the position in the text, in bytes, from 0 */
    size_t partner; /* the index of the entry at the other end of the token */
} pest_meta_entry;

/* The calls below are about compiled grammars ("Compiled grammars"). A compiled
 * grammar is a block of bytes. It is made once, and each run reads it in place. A
 * rule is given by its index, from 0, in the order of the grammar.
 *
 * These calls return lists that the caller owns. Before a call, `at` of a list
 * must not be null, and `count` must be 0: begin with PEST_META_EMPTY and 0. If the
 * status is 0 and `count` is not 0, free `at` by free() or by pest_meta_free(). After
 * any other status, the list is not changed. Status 2 says that an allocation failed.
 */
typedef struct pest_meta_bytes {
    uint8_t *at;
    size_t count;
} pest_meta_bytes;

/* A token of a match. Tokens are in preorder: a token is before the tokens inside it.
 * `row` is the index of the token's rule, from 0. For `EOI`, `row` is
 * pest_meta_rule_count of the block. `start` and `end` are positions in the text, in
 * bytes, from 0. `after` is the index in the list of the next token that is not
 * inside this one. If there is none, `after` is the length of the list. */
typedef struct pest_meta_node {
    uint32_t row, start, end, after;
} pest_meta_node;

typedef struct pest_meta_node_list {
    pest_meta_node *at;
    size_t count;
} pest_meta_node_list;

typedef struct pest_meta_row_list {
    uint32_t *at;
    size_t count;
} pest_meta_row_list;

/* A call that is open at a position at which a rule is expected. `path` is the index
 * of the path that has the call, from 0. `row` is the index of the rule that is
 * called. `start` is the position at which the call begins, in bytes. */
typedef struct pest_meta_path_call {
    size_t path, row, start;
} pest_meta_path_call;

typedef struct pest_meta_path_list {
    pest_meta_path_call *at;
    size_t count;
} pest_meta_path_list;

/* The address of an empty list. It is not null, and it is aligned for each kind of
 * list. No call reads or writes at this address. */
#ifdef __cplusplus
extern "C++" {
struct pest_meta_empty {
    template <typename T> operator T *() const { return reinterpret_cast<T *>(static_cast<uintptr_t>(8)); }
};
}
#define PEST_META_EMPTY (pest_meta_empty())
#else
#define PEST_META_EMPTY ((void *)8)
#endif

/* Compiles the grammar `grammar` to a block. Status 0: `*block` is the block. 1: the
 * grammar has errors, and pest_meta_parse_and_optimize writes them. 2: an allocation
 * failed. 3: the grammar is not UTF-8. 6: a rule calls a name that is neither a rule
 * nor a builtin, or a bound of a range is not one character. */
uint8_t pest_meta_compile(const uint8_t *grammar, size_t grammar_len, pest_meta_bytes *block);

/* Compiles a grammar to say what a text was missing: in this block each literal, range
 * and builtin is a rule of its own. Its name is a number, `#`, and the terminal as it is
 * written in a grammar, such as `12#"]"`. A rule has the same outcomes as by the block of
 * pest_meta_compile, except for its trees. If a rule fails, the `*end` of pest_meta_run is
 * the furthest position at which anything failed. For this position pest_meta_expected
 * finds the terminals that were tried there. If it finds none, call pest_meta_attempts. If
 * an atomic rule, WHITESPACE or COMMENT fails at its start, it is found in place of its
 * terminals. The statuses are those of pest_meta_compile. */
uint8_t pest_meta_compile_exposed(const uint8_t *grammar, size_t grammar_len,
                                  pest_meta_bytes *block);

/* Compiles optimized rules in binary form, as pest_meta_prepare writes them. Status 5:
 * the bytes `rules` are not the binary form of rules. 0, 2 and 6: as for
 * pest_meta_compile. */
uint8_t pest_meta_compile_prepared(const uint8_t *rules, size_t rules_len, pest_meta_bytes *block);

/* Checks the version and the checksum of `block`. If a program reads a block from a
 * file, it calls this before the first run. Status 0: both are right. 5: the bytes are
 * no block. 11: the block is of another version, so compile the grammar again. 12: the
 * block was changed. */
uint8_t pest_meta_check(const uint8_t *block, size_t block_len);

/* Returns the number of the rules of a block. If the bytes are no block, the result
 * means nothing. */
size_t pest_meta_rule_count(const uint8_t *block, size_t block_len);

/* Writes the name of the rule with the index `rule`. Status 0: the name is written,
 * and `*needed` is its length. 4: the buffer is too small, as above. 7: no rule has
 * the index. */
uint8_t pest_meta_rule_name(const uint8_t *block, size_t block_len, uint32_t rule, uint8_t *out,
                            size_t out_len, size_t *needed);

/* Frees `at`, which is the member `at` of a list that a call has returned. Call it if
 * the program's own free() is not that of the library, for example with a DLL. */
void pest_meta_free(void *at);

/* This number of steps means that a run has no limit. */
#define PEST_META_NO_LIMIT UINT64_MAX

/* Runs the rule with the index `rule` on `text`, from the byte `from` on. Status 0:
 * the rule matches; `*nodes` has the tokens, and `*end` is the end of the match. 1: the
 * rule fails, and `*end` is the furthest position of a failure. 2: an allocation failed. 3: the
 * text is not UTF-8, or `from` is inside a character or after the end of the text.
 * 5: the bytes are no block. 7: no rule has the index. 8: the rule takes more than
 * `steps` steps. 9: PEEK or POP came to the empty stack, so the rule has no
 * outcome. 10: the text has 4 GiB or more. 11: the block is of another version. If
 * the status is neither 0 nor 1, `*end` is not changed. `*end` is in bytes.
 *
 * Most runs are short. If a run takes many steps, the rule is run again with a memo
 * table. The turns of that run are linear in the bytes of the text and in the tokens.
 * If the rule uses the stack (PUSH, PEEK, POP), a run without a table follows. That run
 * may take exponential time, so give a limit. If no rule of the grammar uses the stack,
 * and `steps` is PEST_META_NO_LIMIT, the status is not 8. docs/SPEC.md ("Accepted
 * grammars end") has the further premises of this. A step is four operations of the
 * machine. Each run takes at most `steps` steps.
 *
 * `block` may be any bytes. The checksum is not checked here, so the rules of a changed
 * block may match what those of the grammar do not match. */
uint8_t pest_meta_run(const uint8_t *block, size_t block_len, uint32_t rule, const uint8_t *text,
                      size_t text_len, size_t from, uint64_t steps, pest_meta_node_list *nodes,
                      size_t *end);

/* Finds the rules that are expected at the byte `place` in a run as by pest_meta_run.
 * `*rows` has the index of each such rule once, in the order in which they are first
 * called at `place`. Status 0 also if the rule fails on `text`. 2 also if there are more
 * than 65,535 rules. The other statuses are those of pest_meta_run. */
uint8_t pest_meta_expected(const uint8_t *block, size_t block_len, uint32_t rule,
                           const uint8_t *text, size_t text_len, size_t from, size_t place,
                           uint64_t steps, pest_meta_row_list *rows);

/* Finds the paths to the rules that are expected at the byte `place` in a run as by
 * pest_meta_run. A path has the calls that are open at `place`: the outermost call
 * first, and the expected one last. `*calls` has each path once. Paths are numbered
 * from 0, and are one after another. A call is listed only if it gives a token and the
 * mode of its caller is not Atomic. The run may take more steps than that of
 * pest_meta_expected. Status 2 also if there are more than 1,024 paths. The other
 * statuses are those of pest_meta_expected. */
uint8_t pest_meta_paths(const uint8_t *block, size_t block_len, uint32_t rule, const uint8_t *text,
                        size_t text_len, size_t from, size_t place, uint64_t steps,
                        pest_meta_path_list *calls);

/* Finds the rules that an error of pest names if pest_meta_run fails, and the position
 * of that error. `*positives` has the rules that are expected at this position, and
 * `*negatives` has the rules that are not. Both lists are in the order of the calls, and
 * a rule may be in a list several times. Before the call, `*place` is the first position
 * to try: set it to the `*end` of pest_meta_run. After status 0, `*place` is the position
 * of the error, in bytes. Mostly both positions are the same, and one run is enough.
 * Otherwise there are at most three runs. Each run takes at most `steps` steps. Status 2
 * also if a list would have more than 65,535 rules. The other statuses are those of
 * pest_meta_expected. If the status is not 0, `*place` is not changed. */
uint8_t pest_meta_attempts(const uint8_t *block, size_t block_len, uint32_t rule,
                           const uint8_t *text, size_t text_len, size_t from, uint64_t steps,
                           size_t *place, pest_meta_row_list *positives,
                           pest_meta_row_list *negatives);

/* Writes the diagnostics of a grammar as lines, as pest-lint prints them in JSON
 * ("Diagnostics"). If the grammar has errors, its errors are written. If not, its
 * warnings are written. The status is 0 in both cases, and never 1. If no line is
 * written, the grammar has neither errors nor warnings. */
uint8_t pest_meta_diagnostics(const uint8_t *text, size_t text_len, uint8_t *out, size_t out_len,
                              size_t *needed);

/* Formats the grammar `text`. Status 0: `*formatted` is the formatted text, and the
 * caller owns the list. 1: the syntax of `text` is wrong. 2: an allocation failed. 3:
 * `text` is not UTF-8. 6: the printed text failed the check of its tokens, comments and
 * line ends, so keep `text` as it is. */
uint8_t pest_meta_format(const uint8_t *text, size_t text_len, pest_meta_bytes *formatted);

/* Makes a page of the grammar `text` in HTML, with railroad diagrams. Status 0: `*page`
 * is the page, and the caller owns the list. 1: the grammar is refused for its syntax,
 * its names or a flaw. 2: an allocation failed. 3: `text` is not UTF-8. A grammar whose
 * rules have other errors has a page, too. */
uint8_t pest_meta_page(const uint8_t *text, size_t text_len, pest_meta_bytes *page);

/* Writes the number of the JSON format, and the version of pest_meta that this library
 * ports ("Versions"). The status is never 1. */
uint8_t pest_meta_version(uint8_t *out, size_t out_len, size_t *needed);

#ifdef __cplusplus
}
#endif

#endif
