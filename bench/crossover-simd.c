/* examples/crossover by branches of taps, in blocks that stay in the cache: one channel in, three out. */
#include "filters.h"
#include "taps.h"

enum { BLOCK = 4096, PAST = 512, READS = 1, MAKES = 1, WARM = 1051, CHANNELS = 3 };
#include "parts.h"

/* What a filter and the gain behind it make of a block. */
static void filter(const Branches *b, const int16_t *x, int32_t *y, long many, int down) {
    run_wide_sums(b, x - b->width, y, many);
    for (long i = 0; i < many; i++) y[i] = settled(y[i], down);
}

static inline int32_t less(int32_t a, int32_t b) {
    return saturated((int64_t)a + saturated(-(int64_t)b));
}

static Sound made(Sound in) {
    Sound out = in;
    long n = in.frames;
    out.channels = 3;
    out.samples = zeros(2 * 3 * n);
    Branches lows = branches_of(low300), boths = branches_of(low3000);
    long older = PAST + lows.width + boths.width;
    int16_t *samples = behind(older, in), *x = samples + older;
    int32_t *rows[3], *low, *both, *mid;
    for (int r = 0; r < 3; r++) rows[r] = zeros(4 * (PAST + n));
    low = rows[0] + PAST, both = rows[1] + PAST, mid = rows[2] + PAST;
    for (long from = 0; from < n; from += BLOCK) {
        long to = least(from + BLOCK, n);
        filter(&lows, x + from, low + from, to - from, 6);
        filter(&boths, x + from, both + from, to - from, 2);
        for (long i = from; i < to; i++) mid[i] = settled((int64_t)27570 * less(both[i - 384], low[i]), 15);
        for (long i = from; i < to; i++) {
            out.samples[3 * i] = clamped(low[i - 29]);
            out.samples[3 * i + 1] = clamped(mid[i - 12]);
            out.samples[3 * i + 2] = clamped(settled((int64_t)23198 * less(x[i - 511], both[i - 384]), 15));
        }
    }
    free(samples);
    for (int r = 0; r < 3; r++) free(rows[r]);
    return out;
}
