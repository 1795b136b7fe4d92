/* examples/echo as one loop: each turn of 250 ms is damped by three taps and made quieter. */
#include "wav.h"

enum { TURN = 11025 };

int main(int count, char **words) {
    if (count != 3) return 2;
    Sound in = read_sound(words[1]), out = in;
    long n = in.frames;
    out.samples = zeros(2 * n);
    int32_t *loop = zeros(sizeof *loop * (n + TURN));
    int32_t older = 0, old = 0;
    for (long i = 0; i < n; i++) {
        int32_t now = loop[i];
        int32_t damped = settled(6554LL * now + 19660LL * old + 6554LL * older, 15);
        loop[i + TURN] = saturated((int64_t)in.samples[i] + settled(18022LL * damped, 15));
        out.samples[i] = clamped(saturated((int64_t)in.samples[i] + settled(16384LL * now, 15)));
        older = old;
        old = now;
    }
    write_sound(words[2], out);
    return 0;
}
