/* The filters of a chain, one after another, as plain loops over whole arrays. */
#include "wav.h"
#include "taps.h"

static int32_t *filter(const int32_t *x, long n, Filter f, long *made) {
    long outputs = n / f.down * f.up;
    int32_t *y = zeros(sizeof *y * outputs);
    for (long i = 0; i < outputs; i++) {
        long at = i * f.down;
        int64_t sum = 0;
        for (long k = at % f.up, j = at / f.up; k < f.many && j >= 0; k += f.up, j--) sum += (int64_t)f.taps[k] * x[j];
        y[i] = settled(sum, f.shift);
    }
    *made = outputs;
    return y;
}

int main(int count, char **words) {
    if (count != 3) return 2;
    Sound in = read_sound(words[1]), out = in;
    long periods = (in.frames + PERIOD_IN - 1) / PERIOD_IN;
    out.frames = periods * PERIOD_OUT;
    out.rate = (uint64_t)in.rate * PERIOD_OUT / PERIOD_IN;
    out.samples = zeros(2 * out.channels * out.frames);
    for (int c = 0; c < in.channels; c++) {
        long n = periods * PERIOD_IN;
        int32_t *x = zeros(sizeof *x * n);
        for (long i = 0; i < in.frames; i++) x[i] = in.samples[i * in.channels + c];
        for (int s = 0; s < STAGES; s++) {
            int32_t *y = filter(x, n, stages[s], &n);
            free(x);
            x = y;
        }
        for (long i = 0; i < n; i++) out.samples[i * out.channels + c] = clamped(x[i]);
        free(x);
    }
    write_sound(words[2], out);
    return 0;
}
