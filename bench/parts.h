/* A program that makes a sound of another by the function `made`: [THREADS] IN OUT. With more threads than one it cuts
 * the sound in time. Each part has a thread, which also makes what the WARM periods before the part make, and drops it.
 * A period reads READS frames and makes MAKES frames, of CHANNELS channels, or of as many as are read if that is 0. */
#include <pthread.h>

enum { MAX_THREADS = 16 };

typedef struct {
    Sound in, out;
    long first, dropped;
} Part;

static Sound made(Sound in);

static long least(long a, long b) {
    return a < b ? a : b;
}

/* Makes a part, and puts it into the whole sound. */
static void *work(void *place) {
    Part *part = place;
    Sound own = made(part->in);
    long frame = part->out.channels, many = own.frames - part->dropped;
    memcpy(part->out.samples + frame * part->first, own.samples + frame * part->dropped, 2 * frame * many);
    free(own.samples);
    return NULL;
}

/* The part of some periods, with the warm-up before them. */
static Part part_of(Sound in, Sound out, long from, long to) {
    long warm = least(WARM, from), first = (from - warm) * READS;
    Part part = {.in = in, .out = out, .first = from * MAKES, .dropped = warm * MAKES};
    part.in.samples = in.samples + in.channels * first;
    part.in.frames = least(to * READS, in.frames) - first;
    return part;
}

int main(int count, char **words) {
    if (count != 3 && count != 4) return 2;
    Sound in = read_sound(words[count - 2]), out = in;
    int threads = count == 4 ? least(atoi(words[1]), MAX_THREADS) : 1, many = 0;
    long periods = (in.frames + READS - 1) / READS, size = (periods + threads - 1) / threads;
    out.channels = CHANNELS ? CHANNELS : in.channels;
    out.frames = periods * MAKES;
    out.rate = (uint64_t)in.rate * MAKES / READS;
    out.samples = zeros(2 * out.channels * out.frames);
    Part parts[MAX_THREADS];
    pthread_t started[MAX_THREADS];
    for (long from = 0; from < periods; from += size) {
        parts[many] = part_of(in, out, from, least(from + size, periods));
        if (from && pthread_create(&started[many], NULL, work, &parts[many])) fail("no thread");
        many++;
    }
    if (many) work(&parts[0]);
    for (int i = 1; i < many; i++) pthread_join(started[i], NULL);
    write_sound(words[count - 1], out);
    return 0;
}
