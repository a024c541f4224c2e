/* Hash tables: a header, which has the number of links, and a body of a size class, whose references are chains of
 * links. A table that has as many links as chains gets a larger body, up to the largest class.
 *
 * The hash of a key is the number of its birth, which stays when the object moves. No other object has the same one, so
 * two keys are the same if their hashes are. */
#include "objects.h"

enum { FIRST_BUCKETS = 8 };

handle table_new(void) {
    const struct scope scope = scope_begin(&handles);
    const handle table = handle_new(&handles), body = handle_new(&handles);
    const uint64_t data[] = {[COUNT] = 0, [BUCKETS] = make_body(body, FIRST_BUCKETS)};
    make(table, TABLE, &body, 1, data, 2);
    return scope_escape(&handles, scope, table);
}
uint64_t table_count(handle table) { return word(table, COUNT); }

/* Births that follow one another, or have a common distance, are spread over all chains. */
static uint64_t bucket_of(uint64_t hash, uint64_t buckets) { return (hash * 0x9e3779b97f4a7c15 >> 32) % buckets; }

/* Goes on from a link to the first one that has a hash. */
static bool links_from(handle link, uint64_t hash) {
    for (uint64_t found; peek(link, HASH, &found); load(link, link, NEXT))
        if (found == hash) return true;
    return false;
}
bool links_find(handle link, handle table, uint64_t hash) {
    const uint64_t bucket = bucket_of(hash, word(table, BUCKETS));
    load(link, table, BODY);
    load(link, link, bucket);
    return links_from(link, hash);
}
bool links_next(handle link, uint64_t hash) {
    load(link, link, NEXT);
    return links_from(link, hash);
}

/* Puts a link in front of its chain in a body. */
static void chain(handle body, uint64_t buckets, handle link) {
    const struct scope scope = scope_begin(&handles);
    const handle first = handle_new(&handles);
    const uint64_t bucket = bucket_of(word(link, HASH), buckets);
    load(first, body, bucket);
    store(link, NEXT, first);
    store(body, bucket, link);
    scope_end(&handles, scope);
}

/* Moves all links to a body of about twice as many chains, if there is a class for it. */
static void grow(handle table, uint64_t buckets) {
    const uint64_t more = room_for(2 * buckets);
    if (more <= buckets) return;
    const struct scope scope = scope_begin(&handles);
    const handle body = handle_new(&handles), larger = handle_new(&handles);
    const handle link = handle_new(&handles), next = handle_new(&handles);
    make_body(larger, more);
    load(body, table, BODY);
    for (uint64_t i = 0; i < buckets; i++) {
        for (load(link, body, i); !is_null(link); copy(link, next)) {
            load(next, link, NEXT);
            chain(larger, more, link);
        }
    }
    store(table, BODY, larger);
    set_word(table, BUCKETS, more);
    scope_end(&handles, scope);
}
void links_add(handle table, handle link) {
    const uint64_t count = table_count(table), buckets = word(table, BUCKETS);
    if (count >= buckets) grow(table, buckets);
    const struct scope scope = scope_begin(&handles);
    const handle body = handle_new(&handles);
    load(body, table, BODY);
    chain(body, word(table, BUCKETS), link);
    set_word(table, COUNT, count + 1);
    scope_end(&handles, scope);
}

/* Returns a new handle of the entry of a key, or of null if there is none. */
static handle entry_of(handle table, handle key) {
    const handle entry = handle_new(&handles);
    links_find(entry, table, identity(key));
    return entry;
}

/* The same, but an entry is made if there is none. */
static handle entry_for(handle table, handle key) {
    const handle entry = entry_of(table, key);
    if (is_null(entry)) {
        const uint64_t hash = identity(key);
        make(entry, ENTRY, &key, 1, &hash, 1);
        links_add(table, entry);
    }
    return entry;
}
bool table_has(handle table, handle key) {
    const struct scope scope = scope_begin(&handles);
    const bool is_so = !is_null(entry_of(table, key));
    scope_end(&handles, scope);
    return is_so;
}
handle table_get(handle table, handle key) {
    const handle entry = entry_of(table, key);
    if (!is_null(entry)) load(entry, entry, VALUE);
    return entry;
}
void table_put(handle table, handle key, handle value) {
    const struct scope scope = scope_begin(&handles);
    store(entry_for(table, key), VALUE, value);
    scope_end(&handles, scope);
}
uint64_t table_number(handle table, handle key) {
    const struct scope scope = scope_begin(&handles);
    uint64_t number = 0;
    peek(entry_of(table, key), NUMBER, &number);
    scope_end(&handles, scope);
    return number;
}
void table_add(handle table, handle key, uint64_t amount) {
    const struct scope scope = scope_begin(&handles);
    const handle entry = entry_for(table, key);
    set_word(entry, NUMBER, word(entry, NUMBER) + amount);
    scope_end(&handles, scope);
}
bool table_remove(handle table, handle key) {
    const struct scope scope = scope_begin(&handles);
    const handle body = handle_new(&handles), before = handle_new(&handles), entry = handle_new(&handles);
    const uint64_t hash = identity(key), bucket = bucket_of(hash, word(table, BUCKETS));
    uint64_t found;
    load(body, table, BODY);
    load(entry, body, bucket);
    while (peek(entry, HASH, &found) && found != hash) {
        copy(before, entry);
        load(entry, entry, NEXT);
    }
    const bool is_there = !is_null(entry);
    if (is_there) {
        load(entry, entry, NEXT);
        if (is_null(before)) store(body, bucket, entry);
        else store(before, NEXT, entry);
        set_word(table, COUNT, table_count(table) - 1);
    }
    scope_end(&handles, scope);
    return is_there;
}
handle table_keys(handle table) {
    const struct scope scope = scope_begin(&handles);
    const handle keys = array_new(), body = handle_new(&handles);
    const handle entry = handle_new(&handles), key = handle_new(&handles);
    const uint64_t buckets = word(table, BUCKETS);
    load(body, table, BODY);
    for (uint64_t i = 0; i < buckets; i++) {
        for (load(entry, body, i); !is_null(entry); load(entry, entry, NEXT)) {
            load(key, entry, KEY);
            array_push(keys, key);
        }
    }
    return scope_escape(&handles, scope, keys);
}
