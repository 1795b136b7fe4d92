/* examples/crossover as plain loops over whole arrays: one channel in, three out. */
#include "wav.h"
#include "taps.h"

static int32_t *filter(const int32_t *x, long n, Filter f, int down) {
    int32_t *y = zeros(sizeof *y * n);
    for (long i = 0; i < n; i++) {
        long many = i < f.many ? i + 1 : f.many;
        int64_t sum = 0;
        for (long k = 0; k < many; k++) sum += (int64_t)f.taps[k] * x[i - k];
        y[i] = settled(settled(sum, f.shift), down);
    }
    return y;
}

static inline int32_t at(const int32_t *x, long i) {
    return i < 0 ? 0 : x[i];
}

int main(int count, char **words) {
    if (count != 3) return 2;
    Sound in = read_sound(words[1]), out = in;
    long n = in.frames;
    int32_t *x = zeros(sizeof *x * n), *mid = zeros(sizeof *mid * n);
    for (long i = 0; i < n; i++) x[i] = in.samples[i];
    int32_t *low = filter(x, n, low300, 6), *both = filter(x, n, low3000, 2);
    out.channels = 3;
    out.samples = zeros(2 * 3 * n);
    for (long i = 0; i < n; i++) {
        int32_t rest = saturated((int64_t)at(both, i - 384) + saturated(-(int64_t)low[i]));
        mid[i] = settled((int64_t)27570 * rest, 15);
    }
    for (long i = 0; i < n; i++) {
        int32_t high = saturated((int64_t)at(x, i - 511) + saturated(-(int64_t)at(both, i - 384)));
        out.samples[3 * i] = clamped(at(low, i - 29));
        out.samples[3 * i + 1] = clamped(at(mid, i - 12));
        out.samples[3 * i + 2] = clamped(settled((int64_t)23198 * high, 15));
    }
    write_sound(words[2], out);
    return 0;
}
