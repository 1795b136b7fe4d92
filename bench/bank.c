/* A bank of filters as plain loops over whole arrays: one channel in, eight out, each the sum of its filters. */
#include "wav.h"
#include "taps.h"

int main(int count, char **words) {
    if (count != 3) return 2;
    Sound in = read_sound(words[1]), out = in;
    out.channels = OUTS;
    out.samples = zeros(2 * OUTS * in.frames);
    for (int p = 0; p < OUTS; p++) {
        for (long i = 0; i < in.frames; i++) {
            long many = i < BANK_TAPS ? i + 1 : BANK_TAPS;
            int32_t all = 0;
            for (int f = p * BANK / OUTS; f < (p + 1) * BANK / OUTS; f++) {
                int64_t sum = 0;
                for (long k = 0; k < many; k++) sum += (int64_t)taps_bank[f][k] * in.samples[i - k];
                all = saturated((int64_t)all + settled(sum, 15));
            }
            out.samples[OUTS * i + p] = clamped(all);
        }
    }
    write_sound(words[2], out);
    return 0;
}
