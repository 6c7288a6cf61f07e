/* A block is cut into three projections; one of them is lost, and the other two give the block back. */
#include <stdio.h>
#include <stdlib.h>
#include <string.h>
#include "mj_c.h"

int main(void)
{
    struct mj_c_numbers n;
    uint64_t block[512], back[512]; /* 4096 bytes */
    uint32_t left[2] = {1, 2};      /* the positions that are left */
    size_t all = 0, first = mj_c_bins(0, 0);

    mj_c_numbers(0, &n);            /* layout 0: 2 of 3 stored projections give a block back */
    for (uint32_t j = 0; j < n.forward; j++) all += mj_c_bins(0, j);
    uint64_t *bins = malloc(all * sizeof *bins);
    if (!bins) return 1;
    for (int i = 0; i < 512; i++) block[i] = (uint64_t)i * 0x9e3779b97f4a7c15u;
    if (mj_c_project_all(0, n.forward, 0, block, 512, bins, all) != MJ_C_DONE) return 1;
    /* projection 0 is lost: 1 and 2 stand one behind the other after it */
    if (mj_c_solve(0, left, 2, bins + first, all - first, back, 512) != MJ_C_DONE) return 1;
    puts(memcmp(block, back, sizeof block) ? "wrong" : "the block is back");
    free(bins);
    return 0;
}
