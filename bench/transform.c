/* Times the transform of libmj_c.a beside memcpy, and beside ISA-L doing the same job where it is there
 * (compile with -DHAVE_ISAL and link -lisal): once with AVX2 alone, and once with all that the processor has. One
 * thread, processor time; in each round every line is taken in turn, and its best round counts.
 *
 * Encoding writes all projections of a block that a layout asks for. ISA-L writes as many pieces: the
 * data as it is, and the others by ec_encode_data. Decoding finds blocks from the worst set of
 * positions: of ours the widest angles of both signs, of ISA-L's as many pieces as positions those that
 * are no data. The fragments stand apart, a buffer for each position, as stores have them, and a call has eight
 * blocks. Every block that comes back is compared. */
#include "../include/mj_c.h"
#include <stdio.h>
#include <stdlib.h>
#include <string.h>
#include <time.h>
#ifdef HAVE_ISAL
#include <isa-l.h>
#endif

enum { MOST = 16, LINE = 8, GROUP = 8, LINES = 12 };

static const char *const NAMES[12] = {"L0",   "L1",   "L2",   "L0B1", "L0B2", "L0B3",
                                      "L1B1", "L1B2", "L1B3", "L2B1", "L2B2", "L2B3"};

/* So many blocks of a layout, with all that is needed to time them. */
struct job {
    uint32_t layout;
    struct mj_c_numbers n;
    size_t words, blocks, all, stride, some, room_words;
    uint32_t positions[MOST];
    uint64_t *from, *pieces, *bins, *to, *parts[MOST], *room;
    size_t part[MOST];
#ifdef HAVE_ISAL
    unsigned char encode[32 * MOST * MOST], decode[32 * MOST * MOST];
    uint64_t *others;
#endif
};

static double now(void) {
    struct timespec t;
    clock_gettime(CLOCK_PROCESS_CPUTIME_ID, &t);
    return (double)t.tv_sec + 1e-9 * (double)t.tv_nsec;
}

static uint64_t *room(size_t words) {
    uint64_t *p = aligned_alloc(64, (words * 8 + 63) / 64 * 64);
    if (!p) {
        fprintf(stderr, "no memory\n");
        exit(1);
    }
    memset(p, 1, words * 8);
    return p;
}

static void want(uint32_t answer, const char *call) {
    if (answer != MJ_C_DONE) {
        fprintf(stderr, "%s answers %u\n", call, answer);
        exit(1);
    }
}

static void copy(struct job *j) { memcpy(j->to, j->from, j->blocks * j->words * 8); }

static void encode(struct job *j) {
    for (size_t b = 0; b < j->blocks; b++)
        want(mj_c_project_all(j->layout, j->n.forward, 0, j->from + b * j->words, j->words,
                              j->pieces + b * j->stride, j->all), "mj_c_project_all");
}

/* The bins of `count` blocks, block after block. */
static void gather(struct job *j, size_t first, size_t count) {
    uint64_t *to = j->bins;
    for (size_t b = first; b < first + count; b++)
        for (size_t i = 0; i < j->n.inverse; i++) {
            memcpy(to, j->parts[i] + b * j->part[i], j->part[i] * 8);
            to += j->part[i];
        }
}

static void solve(struct job *j) {
    for (size_t b = 0; b < j->blocks; b++) {
        gather(j, b, 1);
        want(mj_c_solve(j->layout, j->positions, j->n.inverse, j->bins, j->some, j->to + b * j->words, j->words), "mj_c_solve");
    }
}

static void solve_many(struct job *j) {
    for (size_t b = 0; b < j->blocks; b += GROUP) {
        gather(j, b, GROUP);
        want(mj_c_solve_many(j->layout, j->positions, j->n.inverse, j->bins, GROUP * j->some, j->to + b * j->words,
                             GROUP * j->words), "mj_c_solve_many");
    }
}

static void solve_apart(struct job *j) {
    struct mj_c_part parts[MOST];
    uint8_t lost[GROUP];
    size_t rows = j->n.inverse;
    for (size_t b = 0; b < j->blocks; b += GROUP) {
        for (size_t i = 0; i < rows; i++)
            parts[i] = (struct mj_c_part){j->parts[i] + b * j->part[i], GROUP * j->part[i]};
        want(mj_c_solve_apart_in(j->layout, j->positions, rows, parts, rows, j->part, rows, j->to + b * j->words, GROUP * j->words,
                                 lost, GROUP, j->room, j->room_words), "mj_c_solve_apart_in");
        for (size_t i = 0; i < GROUP; i++) want(lost[i], "a block of mj_c_solve_apart_in");
    }
}

static void solve_lent(struct job *j) {
    uint8_t lost[GROUP];
    for (size_t b = 0; b < j->blocks; b += GROUP) {
        gather(j, b, GROUP);
        want(mj_c_solve_many_in(j->layout, j->positions, j->n.inverse, j->bins, GROUP * j->some, j->to + b * j->words,
                                GROUP * j->words, lost, GROUP, j->room, j->room_words), "mj_c_solve_many_in");
        for (size_t i = 0; i < GROUP; i++) want(lost[i], "a block of mj_c_solve_many_in");
    }
}

#ifdef HAVE_ISAL
typedef void coder(int, int, int, unsigned char *, unsigned char **, unsigned char **);

static void isal_pieces(struct job *j, coder *make) {
    size_t k = j->n.inverse, m = j->n.forward - k, each = j->n.cols * 8;
    for (size_t b = 0; b < j->blocks; b++) {
        unsigned char *data[MOST], *made[MOST], *out = (unsigned char *)(j->pieces + b * j->stride);
        for (size_t i = 0; i < k; i++) data[i] = (unsigned char *)(j->from + b * j->words) + i * each;
        for (size_t i = 0; i < m; i++) made[i] = out + (k + i) * each;
        make((int)each, (int)k, (int)m, j->encode, data, made);
        memcpy(out, j->from + b * j->words, k * each);
    }
}

/* All data are lost, and made again from as many other pieces. */
static void isal_back(struct job *j, coder *make) {
    size_t k = j->n.inverse, each = j->n.cols * 8;
    for (size_t b = 0; b < j->blocks; b++) {
        unsigned char *have[MOST], *made[MOST];
        for (size_t i = 0; i < k; i++) {
            have[i] = (unsigned char *)(j->others + b * j->words) + i * each;
            made[i] = (unsigned char *)(j->to + b * j->words) + i * each;
        }
        make((int)each, (int)k, (int)k, j->decode, have, made);
    }
}

static void isal_encode(struct job *j) { isal_pieces(j, ec_encode_data); }
static void isal_decode(struct job *j) { isal_back(j, ec_encode_data); }
static void avx2_encode(struct job *j) { isal_pieces(j, ec_encode_data_avx2); }
static void avx2_decode(struct job *j) { isal_back(j, ec_encode_data_avx2); }

static void isal_prepare(struct job *j) {
    size_t k = j->n.inverse, each = j->n.cols * 8;
    unsigned char code[MOST * MOST], back[MOST * MOST], tables[32 * MOST * MOST];
    gf_gen_cauchy1_matrix(code, (int)(2 * k), (int)k);
    ec_init_tables((int)k, (int)(j->n.forward - k), code + k * k, j->encode);
    ec_init_tables((int)k, (int)k, code + k * k, tables);
    j->others = room(j->blocks * j->words);
    for (size_t b = 0; b < j->blocks; b++) {
        unsigned char *data[MOST], *made[MOST];
        for (size_t i = 0; i < k; i++) {
            data[i] = (unsigned char *)(j->from + b * j->words) + i * each;
            made[i] = (unsigned char *)(j->others + b * j->words) + i * each;
        }
        ec_encode_data((int)each, (int)k, (int)k, tables, data, made);
    }
    if (gf_invert_matrix(code + k * k, back, (int)k)) exit(1);
    ec_init_tables((int)k, (int)k, back, j->decode);
}
#endif

/* What is timed, whether it gives the blocks back, and its best time for all blocks. */
struct line {
    const char *name;
    void (*pass)(struct job *);
    int gives_back;
    double best;
};

static struct line lines[LINES] = {
    {"memcpy", copy, 1, 0},       {"encode", encode, 0, 0},          {"solve", solve, 1, 0},
    {"many", solve_many, 1, 0},   {"lent", solve_lent, 1, 0},        {"apart", solve_apart, 1, 0},
#ifdef HAVE_ISAL
    {"avx2 enc", avx2_encode, 0, 0}, {"avx2 dec", avx2_decode, 1, 0},
    {"isal enc", isal_encode, 0, 0}, {"isal dec", isal_decode, 1, 0},
#endif
};

static void time_lines(struct job *j, int rounds, int passes) {
    for (struct line *l = lines; l->name; l++) {
        memset(j->to, 1, j->blocks * j->words * 8);
        l->pass(j);
        if (l->gives_back && memcmp(j->from, j->to, j->blocks * j->words * 8)) {
            fprintf(stderr, "%s gives other blocks in %s\n", l->name, NAMES[j->layout]);
            exit(1);
        }
        l->best = 1e9;
    }
    for (int r = 0; r < rounds; r++)
        for (struct line *l = lines; l->name; l++) {
            double begin = now();
            for (int i = 0; i < passes; i++) l->pass(j);
            double took = (now() - begin) / passes;
            if (took < l->best) l->best = took;
        }
}

static void prepare(struct job *j, uint32_t layout, size_t bytes) {
    j->layout = layout;
    want(mj_c_numbers(layout, &j->n), "mj_c_numbers");
    size_t rows = j->n.inverse;
    j->words = rows * j->n.cols;
    j->blocks = (bytes / 8 / j->words + GROUP - 1) / GROUP * GROUP;
    j->all = j->some = 0;
    for (uint32_t i = 0; i < j->n.forward; i++) j->all += mj_c_bins(layout, i);
    j->stride = (j->all + LINE - 1) / LINE * LINE;
    j->from = room(j->blocks * j->words);
    j->to = room(j->blocks * j->words);
    j->pieces = room(j->blocks * j->stride);
    uint64_t state = layout + 1;
    for (size_t i = 0; i < j->blocks * j->words; i++) {
        state = state * 6364136223846793005u + 1442695040888963407u;
        j->from[i] = state ^ (state >> 29);
    }
    for (uint32_t i = 0; i < rows; i++) {
        j->positions[i] = i < rows / 2 ? i : (uint32_t)rows + i;
        j->part[i] = mj_c_bins(layout, j->positions[i]);
        j->some += j->part[i];
        j->parts[i] = room(j->blocks * j->part[i]);
        for (size_t b = 0; b < j->blocks; b++)
            want(mj_c_project(layout, j->positions[i], j->from + b * j->words, j->words, j->parts[i] + b * j->part[i], j->part[i]),
                 "mj_c_project");
    }
    j->bins = room(GROUP * j->some);
    j->room_words = mj_c_room(layout);
    j->room = room(j->room_words);
#ifdef HAVE_ISAL
    isal_prepare(j);
#endif
}

static void time_layout(uint32_t layout, size_t bytes, int rounds, int passes) {
    static struct job j;
    prepare(&j, layout, bytes);
    time_lines(&j, rounds, passes);
    printf("%-5s", NAMES[layout]);
    for (struct line *l = lines; l->name; l++) printf(" %8.2f", (double)(j.blocks * j.words * 8) / l->best / 1e9);
    printf("\n");
    fflush(stdout);
#ifdef HAVE_ISAL
    free(j.others);
#endif
    for (uint32_t i = 0; i < j.n.inverse; i++) free(j.parts[i]);
    free(j.from);
    free(j.to);
    free(j.pieces);
    free(j.bins);
    free(j.room);
}

static void time_all(const char *title, size_t bytes, int rounds, int passes) {
    printf("%s, GB/s of blocks\nlayout", title);
    for (struct line *l = lines; l->name; l++) printf(" %8s", l->name);
    printf("\n");
    for (uint32_t layout = 0; layout < 12; layout++) time_layout(layout, bytes, rounds, passes);
}

int main(int argc, char **argv) {
    int rounds = argc > 1 ? atoi(argv[1]) : 20;
    time_all("128 KiB of blocks, in cache", 128 * 1024, rounds, 4);
    time_all("64 MiB of blocks, in memory", 64 * 1024 * 1024, rounds / 10 + 1, 1);
    return 0;
}
