/* A file in six fragments, of which any four give it back (layout 1).
 *
 *   fragments encode FILE FOLDER    writes FOLDER/0 to FOLDER/5
 *   fragments decode FOLDER FILE    writes the file again from the fragments that are there
 *
 * A fragment begins with a header of eight words: the bytes of the file, and its position. Then it has a record for
 * each block of 4096 bytes: the block's number, and the bins of its projection behind it. */
#include "../../include/mj_c.h"
#include <stdio.h>
#include <stdlib.h>
#include <string.h>

enum { LAYOUT = 1, HEADER = 8, BEFORE = 1 };

static struct mj_c_numbers numbers;
static size_t block_words;

static void stop(const char *why, const char *what) {
    fprintf(stderr, "fragments: %s %s\n", why, what);
    exit(1);
}

static void *room_for(size_t count, size_t size) {
    void *at = calloc(count ? count : 1, size);
    if (!at) stop("no memory for", "the file");
    return at;
}

static FILE *opened(const char *folder, unsigned position, const char *mode) {
    char path[4096];
    if (snprintf(path, sizeof path, "%s/%u", folder, position) >= (int)sizeof path) stop("too long:", folder);
    return fopen(path, mode);
}

static size_t size_of(FILE *file) {
    if (fseek(file, 0, SEEK_END)) return 0;
    long size = ftell(file);
    rewind(file);
    return size < 0 ? 0 : (size_t)size;
}

static size_t blocks_in(size_t bytes) {
    return (bytes + block_words * 8 - 1) / (block_words * 8);
}

/* One fragment of all blocks. */
static void write_fragment(const char *folder, unsigned position, const uint64_t *words, size_t bytes) {
    size_t bins = mj_c_bins(LAYOUT, position), blocks = blocks_in(bytes);
    uint64_t header[HEADER] = {bytes, position}, *record = room_for(BEFORE + bins, 8);
    FILE *out = opened(folder, position, "wb");
    if (!out || fwrite(header, 8, HEADER, out) != HEADER) stop("cannot write to", folder);
    for (size_t b = 0; b < blocks; b++) {
        uint64_t *at = record + BEFORE;
        record[0] = b;
        if (mj_c_project_at(LAYOUT, position, mj_c_lead(at), words + b * block_words, block_words, at, bins) != MJ_C_DONE)
            stop("not projected:", folder);
        if (fwrite(record, 8, BEFORE + bins, out) != BEFORE + bins) stop("cannot write to", folder);
    }
    if (fclose(out)) stop("cannot write to", folder);
    free(record);
}

static void encode(const char *from, const char *folder) {
    FILE *in = fopen(from, "rb");
    if (!in) stop("cannot read", from);
    size_t bytes = size_of(in);
    uint64_t *words = room_for(blocks_in(bytes) * block_words, 8);
    if (fread(words, 1, bytes, in) != bytes) stop("cannot read", from);
    fclose(in);
    for (unsigned position = 0; position < numbers.forward; position++) write_fragment(folder, position, words, bytes);
    free(words);
}

/* A fragment that is there, whole. */
struct fragment {
    uint64_t *words;
    size_t bins, bytes;
};

static int read_fragment(const char *folder, unsigned position, struct fragment *f) {
    FILE *in = opened(folder, position, "rb");
    if (!in) return 0;
    size_t size = size_of(in);
    f->words = room_for(size / 8 + HEADER, 8);
    int whole = fread(f->words, 1, size, in) == size && size >= HEADER * 8 && f->words[1] == position;
    fclose(in);
    f->bins = mj_c_bins(LAYOUT, position);
    f->bytes = whole ? (size_t)f->words[0] : 0;
    if (whole && size == 8 * (HEADER + blocks_in(f->bytes) * (BEFORE + f->bins))) return 1;
    free(f->words);
    return 0;
}

static void decode(const char *folder, const char *to) {
    uint32_t positions[16];
    struct fragment have[16];
    struct mj_c_part parts[16];
    size_t strides[16], count = 0;
    for (unsigned position = 0; position < numbers.forward && count < numbers.inverse; position++)
        if (read_fragment(folder, position, &have[count])) {
            if (count && have[count].bytes != have[0].bytes) stop("fragments of two files in", folder);
            strides[count] = BEFORE + have[count].bins;
            parts[count].at = have[count].words + HEADER + BEFORE;
            parts[count].words = blocks_in(have[count].bytes) * strides[count];
            if (parts[count].words) parts[count].words -= BEFORE;
            positions[count++] = position;
        }
    if (count < numbers.inverse) stop("too few fragments in", folder);
    size_t bytes = have[0].bytes, blocks = blocks_in(bytes), lent = mj_c_room(LAYOUT);
    uint64_t *words = room_for(blocks * block_words, 8), *room = room_for(lent, 8);
    uint8_t *lost = room_for(blocks, 1);
    if (mj_c_solve_apart_in(LAYOUT, positions, count, parts, count, strides, count, words, blocks * block_words, lost, blocks,
                            room, lent) != MJ_C_DONE)
        stop("not found:", to);
    for (size_t i = 0; i < blocks; i++)
        if (lost[i]) {
            fprintf(stderr, "fragments: block %zu is damaged\n", i);
            exit(1);
        }
    FILE *out = fopen(to, "wb");
    if (!out || fwrite(words, 1, bytes, out) != bytes || fclose(out)) stop("cannot write", to);
    while (count) free(have[--count].words);
    free(words);
    free(room);
    free(lost);
}

int main(int argc, char **argv) {
    if (mj_c_numbers(LAYOUT, &numbers) != MJ_C_DONE) return 1;
    block_words = (size_t)numbers.inverse * numbers.cols;
    if (argc == 4 && !strcmp(argv[1], "encode")) encode(argv[2], argv[3]);
    else if (argc == 4 && !strcmp(argv[1], "decode")) decode(argv[2], argv[3]);
    else {
        fputs("fragments encode FILE FOLDER\nfragments decode FOLDER FILE\n", stderr);
        return 2;
    }
    return 0;
}
