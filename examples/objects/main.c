/* objects [-n TURNS] [-w WORDS] [-f FRAMES] [-v OBJECTS] [-s] writes a text in each of TURNS turns, counts its words,
 * keeps an index of the sentences that each word is in, and prints the results; in a heap of FRAMES pages of WORDS
 * words. The heap is verified after each OBJECTS objects; -s prints at the end how many were made. It is built by
 *
 *     cc -Iinclude examples/objects/main.c examples/objects/memory.c examples/objects/strings.c \
 *         examples/objects/symbols.c examples/objects/arrays.c examples/objects/tables.c libpauseless.a -o objects
 */
#define _POSIX_C_SOURCE 200809L
#include "objects.h"

#include <stdio.h>
#include <stdlib.h>
#include <string.h>
#include <unistd.h>

/* The sentences of a turn, the words of a sentence, and the words that there are, of which the first are used most.
 * They are few enough for an array in pages of 512 words. SPELLED is the space for a word, and SHOWN is how many of the
 * most frequent words are printed. */
enum { SENTENCES = 64, LENGTH_OF_SENTENCE = 8, VOCABULARY = 360, SPELLED = 32, SHOWN = 5 };

/* The table that counts the symbols of all turns; and a sum of all that was found, in order. */
static handle counts;
static uint64_t sum;

static void add_to_sum(uint64_t value) { sum = (sum ^ value) * 0x100000001b3; }

/* Returns a number below bound, by a linear congruential generator. */
static uint64_t random_below(uint64_t bound) {
    static uint64_t state = 1;
    state = state * 6364136223846793005 + 1442695040888963407;
    return (state >> 33) % bound;
}

/* Writes a word of the vocabulary by its number: two or three syllables, and more for each seventh word. */
static void spell(uint64_t number, char *text) {
    static const char syllables[16][3] = {"ba", "do", "fi", "gu", "ha", "ke", "li", "mo",
                                          "nu", "pa", "re", "si", "to", "vu", "wa", "zo"};
    const bool is_long = number % 7 == 6;
    *text = 0;
    for (number += 16; number > 0; number /= 16) strcat(text, syllables[number % 16]);
    if (is_long) strcat(text, "-and-so-on");
}

/* Returns a sentence of random words. */
static handle write_sentence(void) {
    const handle sentence = string_new("", 0);
    for (int i = 0; i < LENGTH_OF_SENTENCE; i++) {
        const struct scope scope = scope_begin(&handles);
        char text[SPELLED];
        spell(random_below(1 + random_below(VOCABULARY)), text);
        strcat(text, " ");
        copy(sentence, string_concat(sentence, string_new(text, strlen(text))));
        scope_end(&handles, scope);
    }
    return sentence;
}

/* Counts a word of a sentence, and adds the sentence to the array that the index has for the word. */
static void read_word(handle sentence, uint64_t from, uint64_t to, handle index) {
    const struct scope scope = scope_begin(&handles);
    const handle symbol = symbol_of(string_slice(sentence, from, to));
    const handle list = table_get(index, symbol);
    if (is_null(list)) {
        copy(list, array_new());
        table_put(index, symbol, list);
    }
    array_push(list, sentence);
    table_add(counts, symbol, 1);
    scope_end(&handles, scope);
}

/* Reads a sentence: a word ends at each space. Its number in a table is that of its words. */
static void read_sentence(handle sentence, handle index, handle lengths) {
    char bytes[LONGEST];
    const size_t length = string_read(sentence, bytes);
    for (size_t from = 0, to = 0; to < length; to++) {
        if (bytes[to] != ' ') continue;
        read_word(sentence, from, to, index);
        table_add(lengths, sentence, 1);
        from = to + 1;
    }
}

static int by_name(handle left, handle right) {
    const struct scope scope = scope_begin(&handles);
    const int order = string_compare(symbol_name(left), symbol_name(right));
    scope_end(&handles, scope);
    return order;
}

/* Those that are counted more come first. */
static int by_count(handle left, handle right) {
    const uint64_t numbers[] = {table_number(counts, left), table_number(counts, right)};
    if (numbers[0] != numbers[1]) return numbers[0] < numbers[1] ? 1 : -1;
    return by_name(left, right);
}

/* Adds to the sum what the index has of a symbol: its name, how many sentences, and how many words those have. */
static void sum_symbol(handle symbol, handle index, handle lengths) {
    const struct scope scope = scope_begin(&handles);
    char bytes[LONGEST];
    const size_t length = string_read(symbol_name(symbol), bytes);
    const handle list = table_get(index, symbol), sentence = handle_new(&handles);
    for (size_t i = 0; i < length; i++) add_to_sum((unsigned char)bytes[i]);
    for (uint64_t i = array_length(list); i > 0; i--) {
        const struct scope turn = scope_begin(&handles);
        copy(sentence, array_pop(list));
        add_to_sum(table_number(lengths, sentence));
        scope_end(&handles, turn);
    }
    scope_end(&handles, scope);
}

/* Sums the index in reverse order of names, and takes each second symbol out. */
static void sum_index(handle index, handle lengths) {
    const struct scope scope = scope_begin(&handles);
    const handle symbols = table_keys(index);
    const uint64_t length = array_length(symbols);
    uint64_t left = 0;
    array_sort(symbols, by_name);
    array_reverse(symbols);
    for (uint64_t i = 0; i < length; i++) {
        const struct scope turn = scope_begin(&handles);
        const handle symbol = array_get(symbols, i);
        sum_symbol(symbol, index, lengths);
        if (i % 2 == 0) table_remove(index, symbol);
        scope_end(&handles, turn);
    }
    for (uint64_t i = 0; i < length; i++) {
        const struct scope turn = scope_begin(&handles);
        left += table_has(index, array_get(symbols, i));
        scope_end(&handles, turn);
    }
    if (left != length / 2 || left != table_count(index)) fail("a table has other keys than it should");
    scope_end(&handles, scope);
}

/* One turn: a text is written, read and summed; nothing of it is kept but symbols and their counts. */
static void take_turn(void) {
    const struct scope scope = scope_begin(&handles);
    const handle index = table_new(), lengths = table_new();
    for (int i = 0; i < SENTENCES; i++) {
        const struct scope turn = scope_begin(&handles);
        read_sentence(write_sentence(), index, lengths);
        scope_end(&handles, turn);
    }
    sum_index(index, lengths);
    scope_end(&handles, scope);
}

/* Prints how many words there were, those that were counted most, and the sum. */
static void print_results(uint64_t turns) {
    const struct scope scope = scope_begin(&handles);
    const handle symbols = table_keys(counts);
    printf("%llu words, %llu of them different\n", (unsigned long long)turns * SENTENCES * LENGTH_OF_SENTENCE,
           (unsigned long long)table_count(counts));
    array_sort(symbols, by_count);
    for (uint64_t i = 0; i < SHOWN && i < array_length(symbols); i++) {
        const struct scope turn = scope_begin(&handles);
        char bytes[LONGEST];
        const handle symbol = array_get(symbols, i);
        const size_t length = string_read(symbol_name(symbol), bytes);
        printf("%.*s %llu\n", (int)length, bytes, (unsigned long long)table_number(counts, symbol));
        scope_end(&handles, turn);
    }
    printf("sum %016llx\n", (unsigned long long)sum);
    scope_end(&handles, scope);
}

int main(int count, char **words) {
    struct options options = {.words = 4096, .frames = 2048, .check = 0};
    uint64_t turns = 100;
    bool prints = false;
    for (int option; (option = getopt(count, words, "n:w:f:v:s")) != -1;) {
        if (option == '?') return 2;
        if (option == 'n') turns = strtoull(optarg, NULL, 10);
        if (option == 'w') options.words = (uint32_t)strtoul(optarg, NULL, 10);
        if (option == 'f') options.frames = (uint32_t)strtoul(optarg, NULL, 10);
        if (option == 'v') options.check = strtoull(optarg, NULL, 10);
        if (option == 's') prints = true;
    }
    if (optind != count) fail("no file is read");
    objects_open(&options);
    counts = table_new();
    for (uint64_t i = 0; i < turns; i++) take_turn();
    print_results(turns);
    objects_close(prints);
    return 0;
}
