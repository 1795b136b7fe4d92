/* The filters of a chain in blocks that stay in the cache, each branch of taps against several 16-bit samples at once.
 * Where a sample leaves 16 bits, its block and those that still see it are done with 32-bit samples, so the output is
 * exact. */
#include "filters.h"
#include "taps.h"

enum { PERIODS = 32, READS = PERIOD_IN, MAKES = PERIOD_OUT, WARM = 2, CHANNELS = 0 };
#include "parts.h"

/* The samples between two filters: `width` older ones, and a block. Those of 32 bits are there only where one is
 * loud. */
typedef struct {
    int width, past_loud, loud;
    int16_t *narrow;
    int32_t *wide;
} Link;

static void run_wide(const Branches *b, const int32_t *x, int32_t *y, long outputs) {
    for (long n = 0, at = 0; n < outputs; n++, at += b->f.down) {
        const int16_t *h = b->taps + at % b->f.up * b->width;
        const int32_t *p = x + at / b->f.up + 1;
        int64_t sum = 0;
        for (int j = 0; j < b->width; j++) sum += (int64_t)h[j] * p[j];
        y[n] = settled(sum, b->f.shift);
    }
}

/* A block of n samples through a filter; it gives how many it makes. The last samples become the older ones. */
static long run_block(const Branches *b, Link *from, Link *to, long n) {
    long outputs = n / b->f.down * b->f.up;
    int wide = from->past_loud || from->loud;
    to->loud = 0;
    if (wide || !b->quiet || !run_narrow(b, from->narrow, to->narrow + to->width, outputs)) {
        if (!from->past_loud) for (long i = 0; i < from->width; i++) from->wide[i] = from->narrow[i];
        if (!from->loud) for (long i = from->width; i < from->width + n; i++) from->wide[i] = from->narrow[i];
        run_wide(b, from->wide, to->wide + to->width, outputs);
        for (long i = to->width; i < to->width + outputs; i++) {
            to->narrow[i] = to->wide[i];
            to->loud |= to->wide[i] != to->narrow[i];
        }
    }
    memmove(from->narrow, from->narrow + n, sizeof *from->narrow * from->width);
    if (wide) memmove(from->wide, from->wide + n, sizeof *from->wide * from->width);
    from->past_loud = 0;
    if (wide) for (long i = 0; i < from->width; i++) from->past_loud |= from->wide[i] != from->narrow[i];
    return outputs;
}

static Sound made(Sound in) {
    Sound out = in;
    long periods = (in.frames + PERIOD_IN - 1) / PERIOD_IN;
    out.frames = periods * PERIOD_OUT;
    out.rate = (uint64_t)in.rate * PERIOD_OUT / PERIOD_IN;
    out.samples = zeros(2 * out.channels * out.frames);
    Branches b[STAGES];
    for (int s = 0; s < STAGES; s++) b[s] = branches_of(stages[s]);
    for (int c = 0; c < in.channels; c++) {
        Link links[STAGES + 1];
        long size = (long)PERIODS * PERIOD_IN;
        for (int s = 0; s <= STAGES; s++) {
            int width = s < STAGES ? b[s].width : 0;
            long room = width + size + LANES;
            links[s] = (Link){.width = width, .narrow = zeros(2 * room), .wide = zeros(4 * room)};
            if (s < STAGES) size = size / stages[s].down * stages[s].up;
        }
        long done = 0;
        for (long p = 0; p < periods; p += PERIODS) {
            long first = p * PERIOD_IN, n = (periods - p < PERIODS ? periods - p : PERIODS) * PERIOD_IN;
            for (long i = 0; i < n; i++) {
                int16_t sample = first + i < in.frames ? in.samples[(first + i) * in.channels + c] : 0;
                links[0].narrow[links[0].width + i] = sample;
            }
            for (int s = 0; s < STAGES; s++) n = run_block(&b[s], &links[s], &links[s + 1], n);
            Link *last = &links[STAGES];
            for (long i = 0; i < n; i++) {
                out.samples[(done + i) * out.channels + c] = last->loud ? clamped(last->wide[i]) : last->narrow[i];
            }
            done += n;
        }
        for (int s = 0; s <= STAGES; s++) {
            free(links[s].narrow);
            free(links[s].wide);
        }
    }
    return out;
}
