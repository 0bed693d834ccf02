/* Readings of a lamp kept in lent words: every call of ska.h from C, each refusal once, and an arena of the largest size.
   Prints an account; stops with status 1 at the first answer that is not the expected one. It needs ska.h and the library alone:
   gcc -std=c99 -Wall -Wextra -pedantic -Iinclude examples/c/lamp.c crates/ska_c/out/libska_c.a */
#include "ska.h"

#include <stdio.h>
#include <stdlib.h>

enum { LISTS = 3, LEVELS = 2, NODES = 6, WORDS = SKA_WORDS(LISTS, LEVELS, NODES) };
enum { NOW, LATE, SPARE };

static void expect(const char *what, uint64_t got, uint64_t wanted) {
    if (got != wanted) {
        printf("%s: %llu, where %llu was expected\n", what, (unsigned long long)got, (unsigned long long)wanted);
        exit(1);
    }
}

/* A refused call: its number is told, and its out-parameter, if it has one, must have been set to 0. */
static void refused(const char *what, uint32_t got, uint32_t wanted, const uint32_t *out) {
    expect(what, got, wanted);
    if (out != NULL) expect("a refusal's value", *out, 0);
    printf("  %2u  %s\n", (unsigned)got, what);
}

static void show(const uint32_t *w, size_t n, uint32_t list, const char *name) {
    uint32_t key, i = 0;
    printf("%s:", name);
    for (; ska_read(w, n, list, i, &key) == SKA_ACCEPTED; i++) printf(" %u", (unsigned)key);
    printf(i == 0 ? " none\n" : "\n");
}

static void fill(uint32_t *w) {
    static const uint32_t readings[] = {30, 20, 10, 20};
    expect("set up", ska_set_up(w, WORDS, LISTS, LEVELS, NODES), SKA_ACCEPTED);
    for (size_t i = 0; i < 4; i++) expect("insert", ska_insert(w, WORDS, NOW, readings[i], 0), SKA_ACCEPTED);
    expect("level", ska_level(w, WORDS, NOW), SKA_ACCEPTED);
}

static void searches(const uint32_t *w) {
    static const uint32_t rows[][5] = {/* key, allowance, found, place, tally */
                                       {5, 9, 0, 0, 3}, {20, 4, 1, 1, 4}, {25, 5, 0, 3, 5}, {30, 9, 1, 3, 5}, {31, 9, 0, 4, 1}};
    for (size_t i = 0; i < 5; i++) {
        uint32_t found = 9, place = 9, tally = 9;
        const uint32_t *r = rows[i];
        expect("search", ska_search(w, WORDS, NOW, r[0], r[1], &found, &place, &tally), SKA_ACCEPTED);
        expect("found", found, r[2]);
        expect("place", place, r[3]);
        expect("tally", tally, r[4]);
        printf("search %u: %s %u, %u comparisons\n", (unsigned)r[0], found ? "found at index" : "missing, place", (unsigned)place,
               (unsigned)tally);
    }
}

static void changes(uint32_t *w) {
    uint32_t key = 9;
    uint64_t twice = 9;
    expect("middle", ska_middle(w, WORDS, NOW, &twice), SKA_ACCEPTED);
    expect("twice the median", twice, 40);
    printf("middle: %llu, twice the median\n", (unsigned long long)twice);
    expect("split", ska_split_key(w, WORDS, NOW, LATE, 20), SKA_ACCEPTED);
    show(w, WORDS, NOW, "split by 20, first list");
    show(w, WORDS, LATE, "           second list");
    expect("insert", ska_insert(w, WORDS, NOW, 25, 2), SKA_ACCEPTED);
    expect("append", ska_append(w, WORDS, NOW, LATE), SKA_ACCEPTED);
    show(w, WORDS, NOW, "25 inserted, second list appended");
    expect("remove", ska_remove_at(w, WORDS, NOW, 0, &key), SKA_ACCEPTED);
    expect("its key", key, 10);
    expect("remove", ska_remove_key(w, WORDS, NOW, 20, &key), SKA_ACCEPTED);
    expect("its key", key, 20);
    show(w, WORDS, NOW, "index 0 and one 20 removed");
    expect("truncate", ska_truncate(w, WORDS, NOW, 2), SKA_ACCEPTED);
    show(w, WORDS, NOW, "truncated to 2");
    expect("split", ska_split_at(w, WORDS, NOW, LATE, 1), SKA_ACCEPTED);
    expect("clear", ska_clear(w, WORDS, NOW), SKA_ACCEPTED);
    show(w, WORDS, NOW, "split at 1 and cleared, first list");
    show(w, WORDS, LATE, "                      second list");
    expect("check", ska_check(w, WORDS), 1);
}

static void refusals(uint32_t *w) {
    uint32_t found = 9, place = 9, tally = 9, key = 9;
    uint64_t twice = 9;
    puts("refusals:");
    w[12] ^= 1;
    expect("check", ska_check(w, WORDS), 0);
    refused("read from damaged words", ska_read(w, WORDS, NOW, 0, &key), SKA_BROKEN, &key);
    w[12] ^= 1;
    refused("one word too few at set-up", ska_set_up(w, WORDS - 1, LISTS, LEVELS, NODES), SKA_BAD_SIZES, NULL);
    refused("list 3 of 3", ska_clear(w, WORDS, LISTS), SKA_NO_LIST, NULL);
    refused("a list appended to itself", ska_append(w, WORDS, NOW, NOW), SKA_SAME_LIST, NULL);
    refused("height 3 of 2", ska_insert(w, WORDS, NOW, 7, LEVELS + 1), SKA_TOO_HIGH, NULL);
    expect("insert", ska_insert(w, WORDS, LATE, 40, 1), SKA_ACCEPTED);
    expect("insert", ska_insert(w, WORDS, LATE, 50, 0), SKA_ACCEPTED);
    refused("a seventh reading", ska_insert(w, WORDS, NOW, 60, 0), SKA_FULL, NULL);
    refused("split into a list with readings", ska_split_at(w, WORDS, NOW, LATE, 0), SKA_NOT_EMPTY, NULL);
    key = 9;
    refused("index 4 of 4", ska_read(w, WORDS, NOW, 4, &key), SKA_PAST_END, &key);
    expect("an empty list's middle", ska_middle(w, WORDS, SPARE, &twice), SKA_PAST_END);
    expect("a refusal's value", twice, 0);
    key = 9;
    refused("no such reading to remove", ska_remove_key(w, WORDS, NOW, 25, &key), SKA_NO_KEY, &key);
    refused("25 searched with 4 comparisons", ska_search(w, WORDS, NOW, 25, 4, &found, &place, &tally), SKA_BEYOND, NULL);
    expect("found", found, 0);
    expect("place", place, 0);
    expect("tally", tally, 4);
    expect("link", ska_link_make(7, &key), SKA_ACCEPTED);
    expect("its distance", key, 7);
    refused("a distance of 0", ska_link_make(0, &key), SKA_LINK_ZERO, &key);
    key = 9;
    refused("4294967295 raised", ska_link_raise(UINT32_MAX, &key), SKA_LINK_TOP, &key);
    key = 9;
    refused("1 lowered", ska_link_lower(1, &key), SKA_LINK_LAST, &key);
    expect("check", ska_check(w, WORDS), 1);
}

/* 16 lists, 16 levels, 65535 nodes; 40 readings over the lists, each list levelled. */
static void largest(void) {
    size_t n = SKA_WORDS(16, 16, 65535);
    uint32_t *w = malloc(n * sizeof *w), found, place, tally;
    uint64_t twice;
    if (w == NULL) exit(1);
    expect("set up", ska_set_up(w, n, 16, 16, 65535), SKA_ACCEPTED);
    for (uint32_t i = 0; i < 40; i++) expect("insert", ska_insert(w, n, i % 16, 1000 - i, i % 17), SKA_ACCEPTED);
    for (uint32_t list = 0; list < 16; list++) expect("level", ska_level(w, n, list), SKA_ACCEPTED);
    expect("append", ska_append(w, n, 0, 15), SKA_ACCEPTED);
    expect("search", ska_search(w, n, 0, 984, SKA_NO_LIMIT, &found, &place, &tally), SKA_ACCEPTED);
    expect("found", found, 1);
    expect("place", place, 2);
    expect("insert", ska_insert(w, n, 15, UINT32_MAX, 0), SKA_ACCEPTED);
    expect("middle", ska_middle(w, n, 15, &twice), SKA_ACCEPTED);
    expect("twice the largest reading", twice, 2 * (uint64_t)UINT32_MAX);
    expect("check", ska_check(w, n), 1);
    printf("largest arena: %zu words\n", n);
    show(w, n, 0, "its first list");
    w[n - 1] = 1;
    expect("check", ska_check(w, n), 0);
    expect("clear", ska_clear(w, n, 0), SKA_BROKEN);
    free(w);
}

int main(void) {
    static uint32_t w[WORDS];
    expect("check of no words", ska_check(w, 0), 0);
    fill(w);
    show(w, WORDS, NOW, "readings");
    searches(w);
    changes(w);
    fill(w);
    refusals(w);
    largest();
    return 0;
}
