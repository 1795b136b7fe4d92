/* A bank of filters by branches of taps, in blocks that stay in the cache: one channel in, each out the sum of its
 * filters. */
#include "filters.h"
#include "taps.h"

enum { BLOCK = 1024, READS = 1, MAKES = 1, WARM = BANK_TAPS - 1, CHANNELS = OUTS };
#include "parts.h"

/* Adds what a filter makes of a block to the sums of an output. */
static void add(const Branches *filter, const int16_t *x, long many, int32_t *all) {
    int32_t one[BLOCK];
    run_wide_sums(filter, x, one, many);
    for (long i = 0; i < many; i++) all[i] = saturated((int64_t)all[i] + one[i]);
}

static Sound made(Sound in) {
    Sound out = in;
    out.channels = OUTS;
    out.samples = zeros(2 * OUTS * in.frames);
    Branches filters[BANK];
    for (int f = 0; f < BANK; f++) filters[f] = branches_of((Filter){1, 1, BANK_SHIFT, BANK_TAPS, taps_bank[f]});
    int16_t *x = behind(filters[0].width, in);
    for (long from = 0; from < in.frames; from += BLOCK) {
        long many = least(BLOCK, in.frames - from);
        for (int p = 0; p < OUTS; p++) {
            int32_t all[BLOCK] = {0};
            for (int f = p * BANK / OUTS; f < (p + 1) * BANK / OUTS; f++) add(&filters[f], x + from, many, all);
            for (long i = 0; i < many; i++) out.samples[OUTS * (from + i) + p] = clamped(all[i]);
        }
    }
    free(x);
    return out;
}
