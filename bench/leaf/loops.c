/* loops FILE WORD OTHER DENIED PREFIX: the questions of docs/FIGURES.md on leaf_search, as loops over the bytes of a split file
   of write_split.py. It checks nothing. Of each it prints the least processor time of five rounds and what was found.
   cc -O2 -march=x86-64-v2 -o loops loops.c */
#define _GNU_SOURCE
#include <stdint.h>
#include <stdio.h>
#include <stdlib.h>
#include <string.h>
#include <time.h>

enum { DOCUMENTS, DICTIONARY, POSTINGS, POSITIONS, COLUMNS, SECTIONS };
enum { BLOCK = 128, MOST_TERMS = 100000, MOST_STEPS = 100000, WANTED = 20 };

typedef struct {
    uint64_t documents, list, list_length, places, places_length;
} Term;

typedef struct {
    uint64_t count, least;
    int width;
    const uint8_t *packed;
} Column;

static uint8_t *file;
static uint64_t document_count, word_count, section_starts[SECTIONS + 1];
static uint64_t fast_count, fast_fields[8], fast_starts[8];
static uint64_t *set, *other_set;

static inline uint64_t take(const uint8_t **at) {
    uint64_t number = 0;
    for (int shift = 0;; shift += 7) {
        uint8_t byte = *(*at)++;
        number |= (uint64_t)(byte & 127) << shift;
        if (byte < 128) return number;
    }
}

static void skip_text(const uint8_t **at) {
    uint64_t length = take(at);
    *at += length;
}

static void read_footer(uint64_t size) {
    uint64_t length;
    memcpy(&length, file + size - 12, 8);
    const uint8_t *at = file + size - 12 - length;
    document_count = take(&at);
    section_starts[0] = 4;
    for (int i = 0; i < SECTIONS; i++) section_starts[i + 1] = section_starts[i] + take(&at);
    for (uint64_t left = take(&at); left > 0; left--) skip_text(&at);
    take(&at);
    for (uint64_t left = take(&at); left > 0; left--) {
        skip_text(&at);
        take(&at);
    }
    fast_count = take(&at);
    for (uint64_t i = 0; i < fast_count; i++) {
        fast_fields[i] = take(&at);
        fast_starts[i] = take(&at);
    }
    word_count = (document_count + 63) / 64;
    set = malloc(8 * word_count);
    other_set = malloc(8 * word_count);
}

/* The terms of the first field whose keys begin with a text, or are it. */
static int find_terms(const char *text, int whole, Term *found) {
    const uint8_t *at = file + section_starts[DICTIONARY], *end = file + section_starts[POSTINGS];
    uint64_t wanted = 2 + strlen(text);
    int count = 0;
    while (at < end) {
        uint64_t length = take(&at);
        const uint8_t *key = at;
        at += length;
        Term term;
        term.documents = take(&at);
        term.list = take(&at);
        term.list_length = take(&at);
        term.places = take(&at);
        term.places_length = take(&at);
        int fits = whole ? length == wanted : length >= wanted;
        if (fits && key[0] == 0 && key[1] == 0 && !memcmp(key + 2, text, wanted - 2) && count < MOST_TERMS) found[count++] = term;
    }
    return count;
}

static const uint8_t *blocks_of(const Term *term) {
    const uint8_t *at = file + section_starts[POSTINGS] + term->list;
    for (uint64_t left = 3 * ((term->documents - 1) / BLOCK); left > 0; left--) take(&at);
    return at;
}

static void fill(uint64_t *bits, const Term *term) {
    const uint8_t *at = blocks_of(term);
    uint32_t document = 0;
    for (uint64_t i = 0; i < term->documents; i++) {
        document += take(&at);
        take(&at);
        bits[document >> 6] |= 1ull << (document & 63);
    }
}

static uint64_t count_bits(const uint64_t *bits) {
    uint64_t count = 0;
    for (uint64_t i = 0; i < word_count; i++) count += __builtin_popcountll(bits[i]);
    return count;
}

static uint64_t count_both(const Term *a, const Term *b) {
    memset(set, 0, 8 * word_count);
    memset(other_set, 0, 8 * word_count);
    fill(set, a);
    fill(other_set, b);
    for (uint64_t i = 0; i < word_count; i++) set[i] &= other_set[i];
    return count_bits(set);
}

static uint64_t count_others(const Term *term) {
    memset(set, 0, 8 * word_count);
    fill(set, term);
    for (uint64_t i = 0; i < word_count; i++) set[i] = ~set[i];
    if (document_count & 63) set[word_count - 1] &= (1ull << (document_count & 63)) - 1;
    return count_bits(set);
}

static uint64_t count_some(const Term *terms, int count) {
    memset(set, 0, 8 * word_count);
    for (int i = 0; i < count; i++) fill(set, &terms[i]);
    return count_bits(set);
}

static int follows(const uint64_t *first, uint64_t first_count, const uint64_t *second, uint64_t second_count) {
    uint64_t at = 0;
    for (uint64_t i = 0; i < first_count; i++) {
        while (at < second_count && second[at] < first[i] + 1) at++;
        if (at < second_count && second[at] == first[i] + 1) return 1;
    }
    return 0;
}

static inline void read_places(const uint8_t **at, uint64_t count, uint64_t *places) {
    uint64_t last = 0;
    for (uint64_t i = 0; i < count; i++) {
        last += take(at);
        places[i & 63] = last;
    }
}

/* Both lists side by side; what is walked stands in locals, not in a structure, for the compiler's sake. */
static uint64_t count_phrase(const Term *a, const Term *b) {
    const uint8_t *at = blocks_of(a), *other_at = blocks_of(b);
    const uint8_t *places_at = file + section_starts[POSITIONS] + a->places, *other_places_at = file + section_starts[POSITIONS] + b->places;
    uint64_t left = a->documents - 1, other_left = b->documents - 1, found = 0;
    uint64_t places[64], other_places[64];
    uint32_t document = take(&at);
    uint64_t count = take(&at);
    uint32_t other_document = take(&other_at);
    uint64_t other_count = take(&other_at);
    for (;;) {
        int goes = document <= other_document, other_goes = other_document <= document;
        if (goes && other_goes) {
            read_places(&places_at, count, places);
            read_places(&other_places_at, other_count, other_places);
            found += follows(places, count, other_places, other_count);
        } else if (goes) {
            for (uint64_t i = 0; i < count; i++) take(&places_at);
        } else {
            for (uint64_t i = 0; i < other_count; i++) take(&other_places_at);
        }
        if (goes) {
            if (left-- == 0) return found;
            document += take(&at);
            count = take(&at);
        }
        if (other_goes) {
            if (other_left-- == 0) return found;
            other_document += take(&other_at);
            other_count = take(&other_at);
        }
    }
}

static Column column_of(uint64_t field, int has_texts) {
    Column column = {0, 0, 0, 0};
    for (uint64_t i = 0; i < fast_count; i++) {
        if (fast_fields[i] != field) continue;
        const uint8_t *at = file + section_starts[COLUMNS] + fast_starts[i];
        column.count = take(&at);
        if (has_texts)
            for (uint64_t left = take(&at); left > 0; left--) skip_text(&at);
        at += 4 * column.count;
        memcpy(&column.least, at, 8);
        column.width = at[8];
        column.packed = at + 9;
    }
    return column;
}

/* The eight bytes from a value's first one on stand before the end of the file: the footer follows. */
static inline uint64_t value_at(const Column *column, uint64_t place) {
    uint64_t bit = place * column->width, bytes;
    memcpy(&bytes, column->packed + (bit >> 3), 8);
    return column->least + ((bytes >> (bit & 7)) & ((1ull << column->width) - 1));
}

static uint64_t count_values(const Column *column) {
    uint64_t counts[16] = {0}, most = 0;
    for (uint64_t i = 0; i < column->count; i++) counts[value_at(column, i) & 15]++;
    for (int i = 0; i < 16; i++) most = counts[i] > most ? counts[i] : most;
    return most;
}

static volatile uint64_t asked_interval;
static uint64_t steps[MOST_STEPS];

static uint64_t count_steps(const Column *column) {
    uint64_t interval = asked_interval, some = 0;
    memset(steps, 0, sizeof steps);
    for (uint64_t i = 0; i < column->count; i++) steps[(value_at(column, i) - column->least) / interval]++;
    for (int i = 0; i < MOST_STEPS; i++) some += steps[i] != 0;
    return some;
}

static uint64_t last_of_first(const Column *column, int downwards) {
    uint64_t best[WANTED];
    int count = 0;
    for (uint64_t i = 0; i < column->count; i++) {
        uint64_t value = value_at(column, i);
        if (downwards) value = ~value;
        if (count < WANTED || value < best[count - 1]) {
            int place = count < WANTED ? count++ : WANTED - 1;
            while (place > 0 && best[place - 1] > value) {
                best[place] = best[place - 1];
                place--;
            }
            best[place] = value;
        }
    }
    return downwards ? ~best[WANTED - 1] : best[WANTED - 1];
}

static double now(void) {
    struct timespec time;
    clock_gettime(CLOCK_THREAD_CPUTIME_ID, &time);
    return time.tv_sec * 1e6 + time.tv_nsec / 1e3;
}

#define MEASURE(name, times, question)                                             \
    do {                                                                           \
        double least = 1e18;                                                       \
        uint64_t found = 0;                                                        \
        for (int round = 0; round < 5; round++) {                                  \
            double start = now();                                                  \
            for (int i = 0; i < (times); i++) found = (question);                  \
            double taken = (now() - start) / (times);                              \
            least = taken < least ? taken : least;                                 \
        }                                                                          \
        printf("%12.3f us  %llu  %s\n", least, (unsigned long long)found, (name)); \
    } while (0)

static Term with_prefix[MOST_TERMS];

int main(int count, char **words) {
    if (count < 6) return 2;
    FILE *input = fopen(words[1], "rb");
    if (!input) return 1;
    fseek(input, 0, SEEK_END);
    uint64_t size = ftell(input);
    rewind(input);
    file = malloc(size);
    if (!file || fread(file, 1, size, input) != size) return 1;
    read_footer(size);
    static Term word[MOST_TERMS], other[MOST_TERMS], denied[MOST_TERMS];
    if (!find_terms(words[2], 1, word) || !find_terms(words[3], 1, other) || !find_terms(words[4], 1, denied)) return 1;
    int prefixed = find_terms(words[5], 0, with_prefix);
    printf("%llu documents, words in %llu, %llu and %llu of them, %d words with the prefix\n", (unsigned long long)document_count,
           (unsigned long long)word->documents, (unsigned long long)other->documents, (unsigned long long)denied->documents, prefixed);
    MEASURE("both words", 10, count_both(word, other));
    MEASURE("not the third word", 10, count_others(denied));
    MEASURE("both words as a phrase", 5, count_phrase(word, other));
    MEASURE("the prefix", 100, count_some(with_prefix, prefixed));
    Column levels = column_of(1, 1), numbers = column_of(2, 0), times = column_of(3, 0);
    MEASURE("the most frequent text", 5, count_values(&levels));
    asked_interval = 1000;
    MEASURE("steps of a thousand", 5, count_steps(&numbers));
    asked_interval = 3600;
    MEASURE("hours", 5, count_steps(&times));
    MEASURE("the first 20 by the number", 5, last_of_first(&numbers, 0));
    MEASURE("the last 20 by the time", 5, last_of_first(&times, 1));
    return 0;
}
