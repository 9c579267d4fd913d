// Expands each macro of pest_meta.h in C++, and makes calls that hand out lists.
#include <pest_meta.h>

#include <cstdio>
#include <cstdlib>

static const pest_meta_bytes first = {PEST_META_EMPTY, 0};
static const uint8_t statuses[] = {
    PEST_META_ANSWERED, PEST_META_REFUSED, PEST_META_MEMORY, PEST_META_NO_TEXT,      PEST_META_NO_ROOM,
    PEST_META_NO_RULES, PEST_META_UNFIT,   PEST_META_NO_RULE, PEST_META_OUT_OF_STEPS, PEST_META_EMPTY_STACK,
    PEST_META_LONG_TEXT, PEST_META_OTHER_VERSION, PEST_META_CHANGED};

int main()
{
    static const uint8_t grammar[] = {'a', '=', '{', '"', 'x', '"', '*', '}'};
    static const uint8_t text[] = {'x', 'x'};
    pest_meta_bytes block = first;
    pest_meta_node_list nodes = {PEST_META_EMPTY, 0};
    pest_meta_row_list rows = {PEST_META_EMPTY, 0};
    pest_meta_path_list calls = {PEST_META_EMPTY, 0};
    size_t end = 0;
    if (pest_meta_compile(grammar, sizeof grammar, &block) != PEST_META_ANSWERED)
        return 1;
    const uint8_t status =
        pest_meta_run(block.at, block.count, 0, text, sizeof text, 0, UINT64_MAX, &nodes, &end);
    int sum = 0;
    for (const uint8_t each : statuses)
        sum += each;
    std::printf("%d %zu %zu %zu %d\n", status, end, nodes.count, rows.count + calls.count, sum);
    std::free(nodes.at);
    std::free(block.at);
    return 0;
}
