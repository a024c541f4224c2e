/* Names, reading and printing. */
#include "lisp.h"

#include <ctype.h>
#include <stdio.h>
#include <stdlib.h>
#include <string.h>

enum { LENGTH = 32, NODES = 65536, DEPTH = 500 };
static char names[NAMES][LENGTH];
struct node nodes[NODES];
static uint32_t used; /* of the nodes */

void fail(const char *what) {
    fflush(stdout);
    fprintf(stderr, "lisp: %s\n", what);
    exit(1);
}

const char *spelling(uint64_t symbol) { return names[symbol]; }

uint64_t symbol_of(const char *name) {
    uint64_t symbol = 0;
    while (symbol < NAMES && names[symbol][0] && strcmp(names[symbol], name) != 0) symbol++;
    if (symbol == NAMES) fail("too many names");
    strcpy(names[symbol], name);
    return symbol;
}

static uint32_t new_node(int form, int64_t value) {
    if (++used == NODES) fail("an expression is too long");
    nodes[used] = (struct node){.form = form, .value = value};
    return used;
}

/* Puts an item at the end of a list. */
static void append(uint32_t list, uint32_t item) {
    const uint32_t last = nodes[list].last;
    nodes[item].previous = last;
    *(last ? &nodes[last].next : &nodes[list].first) = item;
    nodes[list].last = item;
}

/* A number or a symbol. */
static uint32_t read_word(const char **text) {
    char word[LENGTH] = "";
    const size_t length = strcspn(*text, "(); \t\r\n");
    if (length >= LENGTH) fail("a name is too long");
    memcpy(word, *text, length);
    *text += length;
    if (isdigit((unsigned char)word[word[0] == '-'])) return new_node(INTEGER, strtoll(word, NULL, 10));
    return new_node(NAME, (int64_t)symbol_of(word));
}

static void skip_space(const char **text) {
    for (; isspace((unsigned char)**text) || **text == ';'; ++*text)
        if (**text == ';') *text += strcspn(*text, "\n") - 1;
}

/* Reads an item at some depth of lists; returns 0 at the end of a list or of the text. */
static uint32_t read_item(const char **text, int depth) {
    skip_space(text);
    if (!**text || **text == ')') return 0;
    if (depth == DEPTH) fail("brackets are too deep");
    if (**text == '\'') {
        ++*text;
        const uint32_t list = new_node(LIST, 0);
        append(list, new_node(NAME, (int64_t)symbol_of("quote")));
        const uint32_t item = read_item(text, depth + 1);
        if (!item) fail("nothing is quoted");
        append(list, item);
        return list;
    }
    if (**text != '(') return read_word(text);
    ++*text;
    const uint32_t list = new_node(LIST, 0);
    for (uint32_t item; (item = read_item(text, depth + 1)) != 0;) append(list, item);
    if (!**text) fail("a bracket is missing");
    ++*text;
    return list;
}

uint32_t read_expression(const char **text) {
    used = 0;
    const uint32_t expression = read_item(text, 0);
    if (!expression && **text) fail("a bracket too many");
    return expression;
}

static void print_atom(uint64_t word) {
    switch (kind_of(word)) {
    case NIL: printf("()"); break;
    case NUMBER: printf("%lld", (long long)integer_of(word)); break;
    case SYMBOL: printf("%s", spelling(number_of(word))); break;
    case THREAD: printf("#thread"); break;
    default: printf("#procedure"); break;
    }
}

/* Prints brackets up to the next item, which is then in item; false at the end. stack has the rest of each list. */
static bool print_rest(unsigned item, unsigned stack) {
    const struct memory_scope scope = memory_begin_scope();
    const unsigned rest = memory_handle();
    bool is_there = false;
    while (!is_there && words[stack] != NIL) {
        memory_get(item, stack, CAR);
        is_there = words[item] == PAIR;
        if (is_there) {
            putchar(' ');
            memory_get(rest, item, CDR);
            memory_put(stack, CAR, rest);
            memory_get(item, item, CAR);
        } else {
            if (words[item] != NIL) printf(" . ");
            if (words[item] != NIL) print_atom(words[item]);
            putchar(')');
            memory_get(stack, stack, CDR);
        }
    }
    memory_end_scope(scope);
    return is_there;
}

/* Lists that are open are in a list, so depth takes none of C's stack. */
void print_value(unsigned value) {
    const struct memory_scope scope = memory_begin_scope();
    const unsigned item = memory_handle(), rest = memory_handle(), stack = memory_handle();
    memory_copy(item, value);
    do {
        for (; words[item] == PAIR; memory_get(item, item, CAR)) {
            putchar('(');
            memory_get(rest, item, CDR);
            memory_make(stack, PAIR, (const uint32_t[]){[CDR] = stack, [CAR] = rest}, PAIR_SIZE);
        }
        print_atom(words[item]);
    } while (print_rest(item, stack));
    memory_end_scope(scope);
}
