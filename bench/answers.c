/* Calls each function of mj_c with what it refuses and with what it does, and compares the answers. */
#include "../include/mj_c.h"
#include <stdio.h>
#include <stdlib.h>
#include <string.h>

enum { WORDS = 512, FIRST = 258, SECOND = 257, ALL = 1028, GROUP = 8 * (FIRST + SECOND) };

static uint64_t block[8 * WORDS], bins[2 * GROUP], out[16 * WORDS], room[8 * FIRST];

static void want(size_t got, size_t wanted, const char *what) {
    if (got != wanted) {
        fprintf(stderr, "%s: %zu in place of %zu\n", what, got, wanted);
        exit(1);
    }
}

static void fill(uint64_t *words, size_t count, uint64_t word) {
    for (size_t i = 0; i < count; i++) words[i] = word;
}

static void numbers(void) {
    struct mj_c_numbers n = {7, 7, 7, 7};
    want(mj_c_numbers(12, &n), MJ_C_BAD_LAYOUT, "numbers of no layout");
    want(n.inverse == 7 && n.forward == 7 && n.safe == 7 && n.cols == 7, 1, "numbers after a refusal");
    want(mj_c_numbers(5, &n), MJ_C_DONE, "numbers");
    want(n.inverse == 2 && n.forward == 3 && n.safe == 4 && n.cols == 2048, 1, "numbers of L0B3");
    want(mj_c_bins(0, 0), FIRST, "bins at position 0");
    want(mj_c_bins(0, 4), 0, "bins at no position");
    want(mj_c_bins(12, 0), 0, "bins of no layout");
}

static void projections(void) {
    static const struct { uint32_t layout, position; size_t words, bins, answer; } rows[] = {
        {12, 0, WORDS, FIRST, MJ_C_BAD_LAYOUT},  {0, 4, WORDS, 256, MJ_C_BAD_POSITION},
        {0, 0, WORDS - 1, FIRST, MJ_C_BAD_LENGTH}, {0, 0, WORDS, FIRST - 1, MJ_C_BAD_LENGTH},
        {3, 3, WORDS, 257, MJ_C_BAD_LENGTH},     {1, 4, WORDS, 128, MJ_C_DONE},
    };
    for (size_t i = 0; i < sizeof rows / sizeof *rows; i++) {
        fill(room, FIRST, 7);
        want(mj_c_project(rows[i].layout, rows[i].position, block, rows[i].words, room, rows[i].bins),
             rows[i].answer, "project");
        want(room[0], rows[i].answer == MJ_C_DONE ? 0 : 7, "the first bin");
    }
}

/* Word 0 of a block of layout 0 falls on bins 2, 1, 0 and 0 at the four positions. */
static void all_projections(void) {
    block[0] = 1;
    want(mj_c_project_all(0, 5, 0, block, WORDS, bins, ALL), MJ_C_BAD_POSITION, "five positions");
    want(mj_c_project_all(0, 4, 0, block, WORDS, bins, ALL - 1), MJ_C_BAD_LENGTH, "no room for all");
    fill(bins, ALL, 9);
    want(mj_c_project_all(0, 4, 3, block, WORDS, bins, ALL), MJ_C_DONE, "all positions");
    for (size_t i = 0; i < ALL; i++) want(bins[i], i == 2 || i == 259 || i == 515 || i == 771, "a bin of all");
    want(mj_c_project_at(0, 1, 5, block, WORDS, room, SECOND), MJ_C_DONE, "a lead");
    want(memcmp(room, bins + FIRST, 8 * SECOND) == 0, 1, "bins with a lead");
    block[0] = 0;
    fill(block, 8 * WORDS, 7);
    want(mj_c_project_eight(0, 0, block, 8 * WORDS - 1, room, 8 * FIRST), MJ_C_BAD_LENGTH, "less than eight");
    want(mj_c_project_eight(0, 0, block, 8 * WORDS, room, 8 * FIRST), MJ_C_DONE, "eight");
    want(room[8 * FIRST - 1], 7, "the last bin of eight");
    fill(block, 8 * WORDS, 0);
}

static void inversions(void) {
    static const struct { uint32_t layout, positions[3]; size_t count, bins, words, answer; } rows[] = {
        {12, {0, 1}, 2, 515, WORDS, MJ_C_BAD_LAYOUT},   {0, {4, 0}, 2, 515, WORDS, MJ_C_BAD_POSITION},
        {0, {1, 0}, 2, 515, WORDS, MJ_C_NOT_ASCENDING}, {0, {1, 1}, 2, 514, WORDS, MJ_C_NOT_ASCENDING},
        {0, {0, 1, 2}, 3, 771, WORDS, MJ_C_BAD_LENGTH}, {0, {0, 1}, 2, 514, WORDS, MJ_C_BAD_LENGTH},
        {0, {0, 1}, 2, 515, WORDS - 1, MJ_C_BAD_LENGTH}, {0, {0, 1}, 2, 515, WORDS, MJ_C_DONE},
    };
    fill(bins, ALL, 0);
    for (size_t i = 0; i < sizeof rows / sizeof *rows; i++) {
        fill(out, WORDS, 7);
        want(mj_c_solve(rows[i].layout, rows[i].positions, rows[i].count, bins, rows[i].bins, out, rows[i].words),
             rows[i].answer, "solve");
        want(out[0], rows[i].answer == MJ_C_DONE ? 0 : 7, "the first word");
    }
}

static void many_blocks(void) {
    static const uint32_t positions[] = {0, 1};
    fill(bins, ALL, 0);
    bins[2] = bins[FIRST + 1] = bins[515 + 2] = bins[515 + FIRST + 1] = 1;
    want(mj_c_solve_many(0, positions, 2, bins, 1030, out, 2 * WORDS), MJ_C_DONE, "two blocks");
    for (size_t i = 0; i < 2 * WORDS; i++) want(out[i], i % WORDS == 0, "a word of two blocks");
    bins[1029] ^= 1;
    want(mj_c_solve_many(0, positions, 2, bins, 1030, out, 2 * WORDS), MJ_C_INCONSISTENT, "a damaged block");
    want(mj_c_solve_many(0, positions, 2, bins, 1030, out, WORDS), MJ_C_BAD_LENGTH, "room for one block");
}

/* One bit of one bin of block 3 of the second group is altered. */
static void groups_of_eight(void) {
    static const uint32_t positions[] = {0, 1};
    uint8_t answers[2] = {9, 9};
    fill(bins, 2 * GROUP, 0);
    bins[GROUP + 3] = 1;
    fill(out, 16 * WORDS, 9);
    want(mj_c_solve_eight(0, positions, 2, bins, 2 * GROUP, out, 16 * WORDS, answers, 1), MJ_C_BAD_LENGTH,
         "one answer for two groups");
    want(mj_c_solve_eight(0, positions, 2, bins, 2 * GROUP, out, 16 * WORDS, answers, 2), MJ_C_DONE, "two groups");
    want(answers[0], 0, "the first group");
    want(answers[1], 8, "the second group");
    want(out[0], 0, "the first word of eight");
    want(out[16 * WORDS - 1], 0, "the last word of eight");
}

/* Two blocks whose fragments stand 300 and 400 words apart: the second of them has no words. */
static void fragments_apart(uint64_t *room, size_t lent) {
    static const struct { uint32_t layout, positions[2]; size_t count, parts, strides, short_by, words, blocks, room, answer; } rows[] = {
        {12, {0, 1}, 2, 2, 2, 0, 2 * WORDS, 2, 0, MJ_C_BAD_LAYOUT},   {0, {4, 0}, 2, 2, 2, 0, 2 * WORDS, 2, 0, MJ_C_BAD_POSITION},
        {0, {1, 0}, 2, 2, 2, 0, 2 * WORDS, 2, 0, MJ_C_NOT_ASCENDING}, {0, {0, 1}, 1, 1, 1, 0, 2 * WORDS, 2, 0, MJ_C_BAD_LENGTH},
        {0, {0, 1}, 2, 1, 2, 0, 2 * WORDS, 2, 0, MJ_C_BAD_LENGTH},    {0, {0, 1}, 2, 2, 1, 0, 2 * WORDS, 2, 0, MJ_C_BAD_LENGTH},
        {0, {0, 1}, 2, 2, 2, 1, 2 * WORDS, 2, 0, MJ_C_BAD_LENGTH},    {0, {0, 1}, 2, 2, 2, 0, 2 * WORDS, 3, 0, MJ_C_BAD_LENGTH},
        {0, {0, 1}, 2, 2, 2, 0, 2 * WORDS, 2, 1, MJ_C_BAD_LENGTH},    {0, {0, 1}, 2, 2, 2, 0, 2 * WORDS, 2, 0, MJ_C_DONE},
        {0, {0, 1}, 2, 0, 0, 0, 0, 0, 0, MJ_C_DONE},
    };
    static uint64_t first[300 + FIRST], second[400 + SECOND];
    static const size_t strides[] = {300, 400};
    first[2] = first[302] = second[1] = second[401] = 1;
    first[299] = 7;
    second[400 + SECOND - 1] = 1;
    for (size_t i = 0; i < sizeof rows / sizeof *rows; i++) {
        struct mj_c_part parts[2] = {{first, 300 + FIRST}, {second, 400 + SECOND - rows[i].short_by}};
        uint8_t lost[3] = {9, 9, 9};
        fill(out, 2 * WORDS, 7);
        want(mj_c_solve_apart_in(rows[i].layout, rows[i].positions, rows[i].count, parts, rows[i].parts, strides, rows[i].strides,
                                 out, rows[i].words, lost, rows[i].blocks, room, lent - rows[i].room), rows[i].answer, "solve_apart_in");
        int found = rows[i].answer == MJ_C_DONE && rows[i].blocks == 2;
        want(out[0], found ? 1 : 7, "a block whose fragments stand apart");
        want(out[1], found ? 0 : 7, "its second word");
        want(out[WORDS], 7, "a block beside it that has no words");
        want(lost[0], found ? 0 : 9, "the byte of a block apart");
        want(lost[1], found ? 1 : 9, "the byte of a block apart that has no words");
    }
}

/* What is refused in room that is lent, and what is done, whatever the room holds. */
static void in_lent_room(void) {
    static const uint32_t positions[] = {0, 1};
    static const struct { uint32_t layout, positions[2]; size_t count, bins, words, blocks, room, answer; } rows[] = {
        {12, {0, 1}, 2, 1030, 2 * WORDS, 2, 0, MJ_C_BAD_LAYOUT},   {0, {4, 0}, 2, 1030, 2 * WORDS, 2, 0, MJ_C_BAD_POSITION},
        {0, {1, 0}, 2, 1030, 2 * WORDS, 2, 0, MJ_C_NOT_ASCENDING}, {0, {0, 1}, 1, 1030, 2 * WORDS, 2, 0, MJ_C_BAD_LENGTH},
        {0, {0, 1}, 2, 1029, 2 * WORDS, 2, 0, MJ_C_BAD_LENGTH},    {0, {0, 1}, 2, 1030, 2 * WORDS, 3, 0, MJ_C_BAD_LENGTH},
        {0, {0, 1}, 2, 1030, 2 * WORDS, 2, 1, MJ_C_BAD_LENGTH},    {0, {0, 1}, 2, 1030, 2 * WORDS, 2, 0, MJ_C_DONE},
        {0, {0, 1}, 2, 0, 0, 0, 0, MJ_C_DONE},
    };
    size_t lent = mj_c_room(0);
    uint64_t *room = malloc(lent * 8);
    want(mj_c_room(12), 0, "room of no layout");
    want(room != NULL && lent > 0, 1, "room");
    fill(room, lent, 0x5555);
    fill(bins, ALL + 2, 0);
    bins[3] = 1;
    for (size_t i = 0; i < sizeof rows / sizeof *rows; i++) {
        uint8_t lost[3] = {9, 9, 9};
        fill(out, 2 * WORDS, 7);
        want(mj_c_solve_many_in(rows[i].layout, rows[i].positions, rows[i].count, bins, rows[i].bins, out, rows[i].words, lost,
                                rows[i].blocks, room, lent - rows[i].room), rows[i].answer, "solve_many_in");
        int found = rows[i].answer == MJ_C_DONE && rows[i].blocks == 2;
        want(out[0], 7, "a block that has no words, or none that was looked for");
        want(out[2 * WORDS - 1], found ? 0 : 7, "a block beside it");
        want(lost[0], found ? 1 : 9, "the byte of a block that has no words");
        want(lost[1], found ? 0 : 9, "the byte of a block beside it");
    }
    fragments_apart(room, lent);
    uint8_t answers[2] = {9, 9};
    fill(bins, 2 * GROUP, 0);
    bins[GROUP + 3] = 1;
    fill(out, 16 * WORDS, 9);
    want(mj_c_solve_eight_in(0, positions, 2, bins, 2 * GROUP, out, 16 * WORDS, answers, 2, room, lent - 1), MJ_C_BAD_LENGTH,
         "too little room for two groups");
    want(answers[0] == 9 && out[0] == 9, 1, "two groups after a refusal");
    want(mj_c_solve_eight_in(0, positions, 2, bins, 2 * GROUP, out, 16 * WORDS, answers, 2, room, lent), MJ_C_DONE, "two groups in room");
    want(answers[0], 0, "the first group in room");
    want(answers[1], 8, "the second group in room");
    want(out[0], 0, "the first word of eight in room");
    want(out[16 * WORDS - 1], 0, "the last word of eight in room");
    free(room);
}

/* out[lead] begins a line of 64 bytes. */
static void leads(void) {
    for (size_t i = 0; i < 16; i++) {
        size_t lead = mj_c_lead(block + i);
        want(lead < 8, 1, "a lead below eight");
        want((uintptr_t)(block + i + lead) % 64, (uintptr_t)block % 8, "the word at the lead");
    }
}

int main(void) {
    leads();
    in_lent_room();
    numbers();
    projections();
    all_projections();
    inversions();
    many_blocks();
    groups_of_eight();
    puts("each call answers what it refuses and what it does");
    return 0;
}
