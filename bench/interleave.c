/* examples/interleave as one loop: the samples of both channels, as they lie in the file, are made quieter. */
#include "wav.h"

int main(int count, char **words) {
    if (count != 3) return 2;
    Sound in = read_sound(words[1]), out = in;
    long n = in.frames * in.channels;
    out.samples = zeros(2 * n);
    for (long i = 0; i < n; i++) out.samples[i] = clamped(settled(16423LL * in.samples[i], 15));
    write_sound(words[2], out);
    return 0;
}
