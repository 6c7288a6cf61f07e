/* Finds blocks of each layout from every set of positions that is enough, by every call, and sees that one bit of
 * one bin that is altered makes its own block inconsistent and no other; then alters each bin of the widest sets in turn.
 * Prints how many sets and bins there were. */
#include "../include/mj_c.h"
#include <stdio.h>
#include <stdlib.h>
#include <string.h>

enum { WORDS = 4096, MOST = 16, BINS = 2104, SET = 8, EIGHT = 8, BLOCKS = 9 };

static uint64_t state = 1, blocks[BLOCKS * WORDS], out[BLOCKS * WORDS], all[BLOCKS][MOST][BINS];
static uint64_t bins[BLOCKS * SET * BINS], lanes[EIGHT * SET * BINS], eight[EIGHT * WORDS], *room;
static size_t room_words;

static uint64_t noise(void) {
    state = state * 6364136223846793005u + 1442695040888963407u;
    return state ^ (state >> 29);
}

static void want(int holds, const char *what, uint32_t layout, unsigned mask) {
    if (!holds) {
        fprintf(stderr, "%s in layout %u at the positions %x\n", what, layout, mask);
        exit(1);
    }
}

/* A set of positions: `each` bins and `words` words a block. */
struct set {
    uint32_t layout, positions[SET];
    unsigned mask;
    size_t count, each, words;
};

static void fill(uint64_t *words, size_t count) { memset(words, 1, count * sizeof *words); }

/* Whether block i in `out` is right, or as it was. */
static int is_back(const struct set *s, size_t i) { return !memcmp(out + i * s->words, blocks + i * s->words, s->words * 8); }

static int is_kept(const struct set *s, size_t i) {
    for (size_t j = 0; j < s->words; j++)
        if (out[i * s->words + j] != 0x0101010101010101u) return 0;
    return 1;
}

/* Blocks apart, of which block `bad` is damaged, or none where that is BLOCKS. */
static void many(const struct set *s, size_t bad) {
    uint8_t lost[BLOCKS];
    fill(out, BLOCKS * s->words);
    memset(lost, 7, sizeof lost);
    want(mj_c_solve_many_in(s->layout, s->positions, s->count, bins, BLOCKS * s->each, out, BLOCKS * s->words, lost, BLOCKS,
                            room, room_words) == MJ_C_DONE, "solve_many_in", s->layout, s->mask);
    for (size_t i = 0; i < BLOCKS; i++) {
        want(lost[i] == (i == bad), "solve_many_in names another block", s->layout, s->mask);
        want(i == bad ? is_kept(s, i) : is_back(s, i), "solve_many_in writes another block", s->layout, s->mask);
    }
}

/* The same, each position's bins in a list of their own, with two words between blocks. */
static void stand_apart(const struct set *s, size_t bad) {
    static uint64_t apart[SET][BLOCKS * (BINS + 2)];
    struct mj_c_part parts[SET];
    size_t strides[SET], from = 0;
    uint8_t lost[BLOCKS];
    for (size_t n = 0; n < s->count; n++) {
        size_t some = mj_c_bins(s->layout, s->positions[n]);
        strides[n] = some + 2;
        for (size_t i = 0; i < BLOCKS; i++) memcpy(apart[n] + i * strides[n], bins + i * s->each + from, some * 8);
        parts[n] = (struct mj_c_part){apart[n], BLOCKS * strides[n] - 2};
        from += some;
    }
    fill(out, BLOCKS * s->words);
    memset(lost, 7, sizeof lost);
    want(mj_c_solve_apart_in(s->layout, s->positions, s->count, parts, s->count, strides, s->count, out, BLOCKS * s->words, lost,
                             BLOCKS, room, room_words) == MJ_C_DONE, "solve_apart_in", s->layout, s->mask);
    for (size_t i = 0; i < BLOCKS; i++) {
        want(lost[i] == (i == bad), "solve_apart_in names another block", s->layout, s->mask);
        want(i == bad ? is_kept(s, i) : is_back(s, i), "solve_apart_in writes another block", s->layout, s->mask);
    }
}

/* Eight blocks side by side. */
static void side_by_side(const struct set *s, size_t bad, int lent) {
    uint8_t answer = 7;
    for (size_t i = 0; i < EIGHT; i++)
        for (size_t b = 0; b < s->each; b++) lanes[EIGHT * b + i] = bins[i * s->each + b];
    fill(eight, EIGHT * s->words);
    uint32_t ended = lent ? mj_c_solve_eight_in(s->layout, s->positions, s->count, lanes, EIGHT * s->each, eight,
                                                EIGHT * s->words, &answer, 1, room, room_words)
                          : mj_c_solve_eight(s->layout, s->positions, s->count, lanes, EIGHT * s->each, eight,
                                             EIGHT * s->words, &answer, 1);
    want(ended == MJ_C_DONE, "solve_eight", s->layout, s->mask);
    want(answer == (bad < EIGHT ? 1u << bad : 0), "solve_eight names another block", s->layout, s->mask);
    for (size_t i = 0; i < EIGHT; i++)
        for (size_t j = 0; i != bad && j < s->words; j++)
            want(eight[EIGHT * j + i] == blocks[i * s->words + j], "another word of eight", s->layout, s->mask);
}

/* Block i by itself, and all in room that is taken. */
static void one(const struct set *s, size_t i, uint32_t answer) {
    fill(out, s->words * (i + 1));
    want(mj_c_solve(s->layout, s->positions, s->count, bins + i * s->each, s->each, out + i * s->words, s->words) == answer,
         "solve", s->layout, s->mask);
    want(answer == MJ_C_DONE ? is_back(s, i) : is_kept(s, i), "solve writes another block", s->layout, s->mask);
}

static void taken(const struct set *s, uint32_t answer) {
    fill(out, BLOCKS * s->words);
    want(mj_c_solve_many(s->layout, s->positions, s->count, bins, BLOCKS * s->each, out, BLOCKS * s->words) == answer,
         "solve_many", s->layout, s->mask);
    want(answer != MJ_C_DONE || !memcmp(out, blocks, BLOCKS * s->words * 8), "another block of many", s->layout, s->mask);
}

/* One bit of bin b of block `bad` is altered. */
static void damaged(const struct set *s, size_t bad, size_t b) {
    uint64_t bit = 1ull << (noise() % 64);
    bins[bad * s->each + b] ^= bit;
    one(s, bad, MJ_C_INCONSISTENT);
    many(s, bad);
    stand_apart(s, bad);
    side_by_side(s, bad, 1);
    bins[bad * s->each + b] ^= bit;
}

static void choose(struct set *s, uint32_t layout, const struct mj_c_numbers *n, unsigned mask) {
    s->layout = layout;
    s->mask = mask;
    s->words = (size_t)n->inverse * n->cols;
    s->count = s->each = 0;
    for (uint32_t i = 0; i < n->safe; i++)
        if (mask >> i & 1) {
            s->positions[s->count++] = i;
            s->each += mj_c_bins(layout, i);
        }
    uint64_t *to = bins;
    for (size_t b = 0; b < BLOCKS; b++)
        for (size_t i = 0; i < s->count; i++) {
            size_t some = mj_c_bins(layout, s->positions[i]);
            memcpy(to, all[b][s->positions[i]], some * 8);
            to += some;
        }
}

/* The calls that take room do what those in lent room do, and are made for one set in eight. */
static void try_set(const struct set *s, size_t number) {
    one(s, noise() % BLOCKS, MJ_C_DONE);
    many(s, BLOCKS);
    stand_apart(s, BLOCKS);
    damaged(s, noise() % BLOCKS, noise() % s->each);
    if (number % 8) return;
    taken(s, MJ_C_DONE);
    side_by_side(s, BLOCKS, 0);
    side_by_side(s, BLOCKS, 1);
}

static size_t each_bin(struct set *s, uint32_t layout, const struct mj_c_numbers *n) {
    unsigned low = (1u << n->inverse / 2) - 1;
    choose(s, layout, n, low | low << (n->safe - n->inverse / 2));
    for (size_t b = 0; b < s->each; b++) damaged(s, b % EIGHT, b);
    bins[0] ^= 1;
    taken(s, MJ_C_INCONSISTENT);
    side_by_side(s, 0, 0);
    return s->each;
}

int main(void) {
    size_t sets = 0, altered = 0;
    static struct set s;
    for (uint32_t layout = 0; layout < 12; layout++) {
        struct mj_c_numbers n;
        want(mj_c_numbers(layout, &n) == MJ_C_DONE, "no numbers", layout, 0);
        size_t words = (size_t)n.inverse * n.cols;
        room_words = mj_c_room(layout);
        room = malloc(room_words * 8);
        want(room != NULL, "no memory", layout, 0);
        fill(room, room_words);
        for (size_t i = 0; i < BLOCKS * words; i++) blocks[i] = noise();
        for (size_t b = 0; b < BLOCKS; b++)
            for (uint32_t i = 0; i < n.safe; i++)
                want(mj_c_project(layout, i, blocks + b * words, words, all[b][i], mj_c_bins(layout, i)) == MJ_C_DONE,
                     "no projection", layout, 1u << i);
        for (unsigned mask = 0; mask < 1u << n.safe; mask++)
            if ((uint32_t)__builtin_popcount(mask) == n.inverse) {
                choose(&s, layout, &n, mask);
                try_set(&s, sets++);
            }
        altered += each_bin(&s, layout, &n);
        free(room);
    }
    printf("%zu sets of positions give their blocks back by every call, and name a damaged one\n", sets);
    printf("%zu bins of the widest sets are each missed where they are altered\n", altered);
    return 0;
}
