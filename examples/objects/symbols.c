/* Symbols: one for each name, in a table that a global names. So two names are equal if their symbols are the same. */
#include "objects.h"

static bool is_named(handle symbol, handle name) {
    const struct scope scope = scope_begin(&handles);
    const bool is_so = string_equal(symbol_name(symbol), name);
    scope_end(&handles, scope);
    return is_so;
}
handle symbol_of(handle name) {
    const struct scope scope = scope_begin(&handles);
    const handle symbol = handle_new(&handles), table = handle_new(&handles);
    const uint64_t hash = string_hash(name);
    load_global(table, SYMBOLS);
    if (is_null(table)) {
        copy(table, table_new());
        store_global(SYMBOLS, table);
    }
    bool is_there = links_find(symbol, table, hash);
    while (is_there && !is_named(symbol, name)) is_there = links_next(symbol, hash);
    if (!is_there) {
        make(symbol, SYMBOL, &name, 1, &hash, 1);
        links_add(table, symbol);
    }
    return scope_escape(&handles, scope, symbol);
}
handle symbol_name(handle symbol) {
    const handle name = handle_new(&handles);
    load(name, symbol, NAME);
    return name;
}
